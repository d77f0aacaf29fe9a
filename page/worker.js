// The reader's own thread, so that a text of 16 MB does not stop the page. It has the texts that were read last, and answers what is asked of them, one question after the other.
"use strict";

const Asked = (() => {
    let yard = null, edition = "2007", rndf = null, mdf = null;        // of a file: { name, bytes }
    let goals = null, goalLines = null;                                // of an accepted mission

    // A text comes as a string with its encoding, or as bytes (texts.js).
    const taken = (file) => file && { name: file.name, bytes: file.bytes || Texts.encode(file.text, file.encoding) };
    const told = (answer) => {
        const about = answer.file === 2 ? mdf : rndf;
        return yard.sentence(about.name, about.bytes, answer);
    };

    // What a file is: "mdf", "packed" or "rndf", and its shape. No text begins with the version byte of packed bytes.
    const kind = ({ bytes }) => ({ kind: bytes[0] === 2 ? "packed" : yard.isMission(bytes) ? "mdf" : "rndf", shape: Texts.shapeOf(bytes) });

    // The pair, or the RNDF alone. Where the MDF alone is refused the network is read again, to be shown.
    function read(asked) {
        edition = asked.edition;
        rndf = taken(asked.rndf);
        mdf = taken(asked.mdf);
        const answer = yard.read(edition, rndf.bytes, mdf && mdf.bytes);
        const network = !answer.accepted && answer.file === 2 ? yard.read(edition, rndf.bytes, null) : answer;
        const missionLines = answer.accepted && mdf ? Lines.ofMission(mdf.bytes, answer) : null;
        goals = missionLines && answer.tables.goals.slice();             // the tables themselves go to the page
        goalLines = missionLines && missionLines.goals.slice();
        const expected = answer.accepted ? "" : yard.expected(edition, rndf.bytes, mdf && mdf.bytes, answer);
        return { answer, network: network.accepted ? network : null, sentence: answer.accepted ? "" : told(answer), expected, lines: network.accepted ? Lines.ofNetwork(rndf.bytes, network) : null, missionLines };
    }

    function packed({ name, bytes }) {
        const answer = yard.readPacked(bytes);
        return { answer, sentence: answer.accepted ? "" : yard.sentence(name, new Uint8Array(0), answer) };
    }

    // What was mended, line by line (mending.js), and the text; or why not.
    function mend() {
        const answer = yard.mend(edition, rndf.bytes);
        if (!answer.accepted) return { accepted: false, sentence: yard.sentence(rndf.name, new Uint8Array(0), answer) };
        return { accepted: true, sentence: Mending.nothing(rndf.name), changes: Mending.changes(rndf.name, rndf.bytes, answer.output, answer.list), rows: answer.list.length / 2, bytes: answer.output };
    }

    // From this row of the point table, whose identifier is `id`; `goal` is the row of the goal that can't be reached.
    function drive({ start, id }) {
        const answer = yard.mission(edition, rndf.bytes, mdf.bytes, start);
        if (answer.accepted) return { accepted: true, sentence: Driving.driven(mdf.name, id) };
        if (answer.number === 30) return { accepted: false, sentence: Driving.noStart(rndf.name, id) };
        if (answer.number !== 31) return { accepted: false, sentence: told(answer) };
        const line = goalLines[answer.line] + 1, column = Driving.firstColumn(mdf.bytes, line - 1);
        const picture = yard.sentence("", mdf.bytes, { line, number: 31, column }).split("\n").slice(1).join("\n");       // the line, and a caret below it
        return { accepted: false, sentence: Driving.missed(mdf.name, line, column, goals, answer.line, id) + "\n" + picture, goal: answer.line, line };
    }

    function route({ start, points }) {
        const { accepted, line, number } = yard.route(edition, rndf.bytes, mdf.bytes, start, points);
        return { accepted, line, number, reason: accepted ? "" : reason(number) };
    }

    // The reason of a number, without a name.
    const reason = (number) => yard.sentence("", new Uint8Array(0), { line: 0, number, column: 0 }).replace(/^: |\n$/g, "");

    function save({ what }) {
        const answer = what === "rndf" ? yard.house(edition, rndf.bytes) : what === "mdf" ? yard.houseOfMission(edition, rndf.bytes, mdf.bytes) : what === "map" ? yard.map(edition, rndf.bytes) : yard.packed(edition, rndf.bytes);
        return { accepted: answer.accepted, sentence: answer.accepted ? "" : told(answer), bytes: answer.output };
    }

    async function begin({ module }) {
        yard = await Yard.load(module);
        return true;
    }

    return { begin, kind, read, packed, mend, drive, route, save };
})();

// Buffers go over and are not copied.
function buffersIn(value, found = new Set()) {
    if (ArrayBuffer.isView(value)) found.add(value.buffer);
    else if (value && typeof value === "object") Object.values(value).forEach((one) => buffersIn(one, found));
    return found;
}

async function answer(data) {
    try {
        const told = await Asked[data.ask](data);
        postMessage({ ticket: data.ticket, answer: told }, [...buffersIn(told)]);
    } catch (why) {
        postMessage({ ticket: data.ticket, failed: String(why && why.message || why) });
    }
}

// One behind the other: the first loads the module.
let last = Promise.resolve();
onmessage = ({ data }) => { last = last.then(() => answer(data)); };
