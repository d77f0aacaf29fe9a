// What mending changed, in the words of run-mend (crates/mend_words): `network.rndf:7: the count is 2, not 3`. The list and the mended text are the library's; the words are put together here, which is
// not proved. In the worker and in the tests (node).
"use strict";

const Mending = (() => {
    const COUNT = 1, AGAIN = 2, LF = 10;
    const MOST_SHOWN = 2000;

    // Goes through the lines of a text: `next(line)` gives the bytes of this line, from 1, without its LF; lines are asked for in order.
    function linesOf(bytes) {
        let at = 0, line = 1;
        return (wanted) => {
            for (; line < wanted; line++) at = bytes.indexOf(LF, at) + 1;
            const end = bytes.indexOf(LF, at);
            return bytes.subarray(at, end < 0 ? bytes.length : end);
        };
    }

    const shown = (bytes) => Array.from(bytes.subarray(0, 513), (b) => (b === 9 || (b > 31 && b < 127) ? String.fromCharCode(b) : "\\x" + b.toString(16).padStart(2, "0"))).join("").replace(/\\x0d$/, "");

    // The second field.
    const countIn = (line) => String.fromCharCode(...line.subarray(0, 1024)).split("/*")[0].split(/[\t \r]+/).filter(Boolean)[1];

    // A row for each changed line, the first 2,000: { line, words, before, after }; `after` is null where the line goes.
    function changes(name, given, mended, list) {
        const givenLine = linesOf(given), mendedLine = linesOf(mended);
        const found = [];
        for (let i = 0, gone = 0; i < list.length && found.length < MOST_SHOWN; i += 2) {
            const line = list[i], which = list[i + 1];
            const before = givenLine(line);
            const after = which === COUNT ? mendedLine(line - gone) : null;
            if (which !== COUNT) gone++;
            const words = which === COUNT ? "the count is " + countIn(after) + ", not " + countIn(before) : which === AGAIN ? "option given again, taken out" : "behind end_file, taken out";
            found.push({ line, words: name + ":" + line + ": " + words, before: shown(before), after: after && shown(after) });
        }
        return found;
    }

    const nothing = (name) => name + ": nothing to mend";

    return { changes, nothing };
})();

if (typeof module !== "undefined") module.exports = Mending;
