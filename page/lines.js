// Where in an accepted text each part stands: the lines of segments, lanes, zones, perimeters and spots, and the line of each point, checkpoint, stop, exit, goal and speed limit, by the rows of the
// tables. The library does not tell them, so they are found here, by the first word of each line; that is not proved. The text is known to be accepted, so parts are well nested, a comment ends its
// line, and rows stand in file order. Lines are counted from 0. In the worker and in the tests (node).
"use strict";

const Lines = (() => {
    const TAB = 9, LF = 10, CR = 13, SPACE = 32, SLASH = 47, ZERO = 48, NINE = 57;
    const PARTS = { segment: "segments", lane: "lanes", zone: "zones", perimeter: "perimeters", spot: "spots" };
    const SINGLE = { checkpoint: "checkpoints", stop: "stops", exit: "exits" };

    // Calls `each(line, word)` for every line with fields; `word` is empty where the first field begins with a digit, as points, goals and limits do.
    function walk(text, each) {
        for (let at = 0, line = 0; at < text.length; line++) {
            while (text[at] === TAB || text[at] === SPACE) at++;
            const first = text[at];
            if (first >= ZERO && first <= NINE) {
                each(line, "");
            } else if (at < text.length && first !== LF && first !== CR && first !== SLASH) {
                let word = "";
                for (let b = text[at]; at < text.length && b !== TAB && b !== SPACE && b !== LF && b !== CR && b !== SLASH; b = text[++at]) word += String.fromCharCode(b);
                each(line, word);
            }
            const end = text.indexOf(LF, at);
            at = end < 0 ? text.length : end + 1;
        }
    }

    // { segments: { from, to }, .., points, checkpoints, stops, exits }: a number for each row.
    function ofNetwork(text, answer) {
        const found = { points: [], checkpoints: [], stops: [], exits: [] };
        for (const part of Object.values(PARTS)) found[part] = { from: [], to: [] };
        walk(text, (line, word) => {
            if (word === "") found.points.push(line);
            else if (word in SINGLE) found[SINGLE[word]].push(line);
            else if (word in PARTS) found[PARTS[word]].from.push(line);
            else if (word.startsWith("end_") && word.slice(4) in PARTS) found[PARTS[word.slice(4)]].to.push(line);
        });
        return checked(found, { ...answer, perimeters: answer.zones });
    }

    // { goals, limits }
    function ofMission(text, answer) {
        const found = { goals: [], limits: [] };
        let list = null;
        walk(text, (line, word) => {
            if (word === "checkpoints") list = found.goals;
            else if (word === "speed_limits") list = found.limits;
            else if (word === "" && list) list.push(line);
        });
        return checked(found, answer);
    }

    // As arrays of numbers; null, and so no links between text and map, should there be other numbers of lines than rows.
    function checked(found, counts) {
        for (const [name, lists] of Object.entries(found)) {
            for (const list of Array.isArray(lists) ? [lists] : [lists.from, lists.to]) if (list.length !== counts[name]) return null;
            found[name] = Array.isArray(lists) ? Uint32Array.from(lists) : { from: Uint32Array.from(lists.from), to: Uint32Array.from(lists.to) };
        }
        return found;
    }

    return { ofNetwork, ofMission };
})();

if (typeof module !== "undefined") module.exports = Lines;
