// Whether a mission can be driven, in the words of run-reach (crates/answers): the answer is the library's, the words are put together here, which is not proved. In the worker and in the tests (node).
"use strict";

const Driving = (() => {
    const driven = (mdf, start) => mdf + ": can be driven from " + start;
    const noStart = (rndf, start) => start + " is no point of " + rndf + " (30)";

    // `mission.mdf:6:1: goal 7 can't be reached from goal 9 (31)`, of the first goal `from 1.1.1`, for the goal in this row
    function missed(mdf, line, column, goals, row, start) {
        return mdf + ":" + line + ":" + column + ": goal " + goals[row] + " can't be reached from " + (row === 0 ? start : "goal " + goals[row - 1]) + " (31)";
    }

    // Where the first field of a line begins, from 1; the line counts from 0.
    function firstColumn(bytes, line) {
        let at = 0;
        for (let n = 0; n < line; n++) at = bytes.indexOf(10, at) + 1;
        let place = at;
        while (bytes[place] === 9 || bytes[place] === 32) place++;
        return place - at + 1;
    }

    return { driven, noStart, missed, firstColumn };
})();

if (typeof module !== "undefined") module.exports = Driving;
