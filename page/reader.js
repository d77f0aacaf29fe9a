// The proved library as a WebAssembly module, called as include/kastepuhm.h says. This file alone lays out the module's memory: behind the module's own data and stack, from `__heap_base` on, anew for
// every call. Pointers are 32-bit numbers, lengths 64-bit (BigInt): the library counts in 64 bits whatever the machine. It runs in the page's worker and in the tests (node).
"use strict";

const Yard = (() => {
    // The longest text that the reader judges; a longer one is refusal 1, for which one byte more is enough.
    const LONGEST = 16777215;

    // Table by table: how many numbers to a row, and the bytes of the shortest lines that give a row (as crates/yard_check counts them). No table needs more rows than its text has lines, or than its
    // text has room for; by lines alone they would be 1.9 GB for 16 MB of blank lines.
    const NETWORK = [["segments", 4, 92], ["lanes", 5, 58], ["zones", 6, 102], ["spots", 2, 66], ["points", 2, 24], ["checkpoints", 2, 19], ["stops", 1, 11], ["exits", 2, 17]];
    const MISSION = [["goals", 1, 2], ["limits", 3, 6]];
    const MOST_OF_MISSION = 32768;
    const SHORTEST_RECORD = 6;       // of packed bytes (include/kastepuhm.h)
    const COUNTS = [...NETWORK, ...MISSION].map(([name]) => name);
    const NAMES = ["rndf_name", "rndf_version", "rndf_date", "mdf_name", "mdf_rndf", "mdf_version", "mdf_date"];
    const ANSWER_WORDS = 30;         // kastepuhm_write_answer, the longest
    const MOST_SENTENCE = 8704;      // beside the file's name
    const MOST_EXPECTED = 512;       // KASTEPUHM_EXPECTED_BYTES

    const EDITIONS = { "2007": 0, "2006": 1 };

    function linesOf(text) {
        let lines = 1;
        for (let at = text.indexOf(10); at >= 0; at = text.indexOf(10, at + 1)) lines++;
        return lines;
    }

    return class Yard {
        static LONGEST = LONGEST;

        static async load(bytes) {
            return new Yard((await WebAssembly.instantiate(bytes)).instance.exports);
        }

        constructor(wasm) {
            this.wasm = wasm;
        }

        // ## The memory

        // Lays out pieces of these sizes, each at a multiple of 8, and makes room for them: where each begins.
        lay(sizes) {
            let end = Math.ceil(this.wasm.__heap_base.value / 8) * 8;
            const places = sizes.map((size) => {
                const here = end;
                end = Math.ceil((end + size) / 8) * 8;
                return here;
            });
            const missing = end - this.wasm.memory.buffer.byteLength;
            if (missing > 0) this.wasm.memory.grow(Math.ceil(missing / 65536));      // throws where there is none
            return places;
        }

        // Memory that grows detaches every view, so views are made anew, and what goes out is copied.
        bytes(place, length) {
            return new Uint8Array(this.wasm.memory.buffer, place, length);
        }

        words(place, length) {
            return new Uint32Array(this.wasm.memory.buffer.slice(place, place + 4 * length));
        }

        // The tables for these texts: rows and numbers of each.
        static tablesFor(rndf, mdf) {
            const table = (text, lines, most) => ([name, stride, shortest]) => ({ name, stride, length: stride * Math.min(lines, Math.floor(text.length / shortest) + 1, most) });
            return [...NETWORK.map(table(rndf, linesOf(rndf), Infinity)), ...(mdf ? MISSION.map(table(mdf, linesOf(mdf), MOST_OF_MISSION)) : [])];
        }

        static tablesForPacked(bytes) {
            return NETWORK.map(([name, stride]) => ({ name, stride, length: stride * (Math.floor(bytes.length / SHORTEST_RECORD) + 1) }));
        }

        // Calls one of the library's functions that answer with kastepuhm_answer or kastepuhm_write_answer: the answer's place, `first` (the edition), the texts, the tables, `last` (a number, bytes that are
        // lent, or how many words or bytes of work space or output are lent).
        call(name, first, texts, tables, last = {}) {
            const extra = last.words ? 4 * last.words.length : last.space !== undefined ? 4 * last.space : last.output || 0;
            const places = this.lay([4 * ANSWER_WORDS, ...texts.map((text) => text.length), ...tables.map((table) => 4 * table.length), extra]);
            const answerAt = places.shift();
            const extraAt = places.pop();
            texts.forEach((text, i) => this.bytes(places[i], text.length).set(text));
            if (last.words) new Uint32Array(this.wasm.memory.buffer, extraAt, last.words.length).set(last.words);
            const slices = [...texts, ...tables].flatMap((one, i) => [places[i], BigInt(one.length)]);
            const numbers = last.start === undefined ? [] : [last.start];
            const lent = last.words ? last.words.length : last.space !== undefined ? last.space : last.output;
            this.wasm[name](answerAt, ...first, ...slices, ...numbers, ...(lent === undefined ? [] : [extraAt, BigInt(lent)]));
            const words = this.words(answerAt, ANSWER_WORDS);
            const answer = { accepted: words[0] === 1, file: words[1], line: words[2], number: words[3], column: words[4] };
            COUNTS.forEach((count, i) => { answer[count] = words[5 + i]; });
            NAMES.forEach((one, i) => { answer[one] = [words[15 + 2 * i], words[16 + 2 * i]]; });
            answer.tables = {};
            tables.forEach((table, i) => {
                const used = this.words(places[texts.length + i], answer.accepted ? answer[table.name] * table.stride : 0);
                answer.tables[table.name] = table.name === "points" ? new Int32Array(used.buffer) : used;
            });
            if (last.output !== undefined) answer.output = this.bytes(extraAt, words[29]).slice();
            return answer;
        }

        write(name, edition, rndf, mdf, output) {
            return this.call(name, [EDITIONS[edition]], mdf ? [rndf, mdf] : [rndf], Yard.tablesFor(rndf, mdf), { output });
        }

        // ## What can be asked. Of an answer: its fields by name, the used rows of every table in `tables`, and what was written in `output`.

        // An RNDF, with its MDF or without (null).
        read(edition, rndf, mdf) {
            return this.call(mdf ? "kastepuhm_read_pair" : "kastepuhm_read_rndf", [EDITIONS[edition]], mdf ? [rndf, mdf] : [rndf], Yard.tablesFor(rndf, mdf));
        }

        // The network of packed bytes.
        readPacked(bytes) {
            return this.call("kastepuhm_read_packed", [], [bytes], Yard.tablesForPacked(bytes));
        }

        // The house writings: at most one byte longer than the text.
        house(edition, rndf) {
            return this.write("kastepuhm_write_rndf", edition, rndf, null, rndf.length + 1);
        }

        houseOfMission(edition, rndf, mdf) {
            return this.write("kastepuhm_write_mdf", edition, rndf, mdf, mdf.length + 1);
        }

        // GeoJSON. A byte of text gives at most 7.6 bytes of a map (crates/yard_map counts them).
        map(edition, rndf) {
            return this.write("kastepuhm_write_map", edition, rndf, null, Math.min(8 * rndf.length + 64, LONGEST));
        }

        // The packed form is shorter than its text.
        packed(edition, rndf) {
            return this.write("kastepuhm_write_packed", edition, rndf, null, rndf.length);
        }

        // Can the mission be driven from this row of the point table?
        mission(edition, rndf, mdf, start) {
            const tables = Yard.tablesFor(rndf, mdf);
            const points = tables.find((table) => table.name === "points");
            return this.call("kastepuhm_check_mission", [EDITIONS[edition]], [rndf, mdf], tables, { start, space: points.length / points.stride });
        }

        // Is this route, a list of rows of the point table, good from `start`?
        route(edition, rndf, mdf, start, route) {
            return this.call("kastepuhm_check_route", [EDITIONS[edition]], [rndf, mdf], Yard.tablesFor(rndf, mdf), { start, words: Uint32Array.from(route) });
        }

        // An RNDF mended: the answer, the rows of the list (line, which) and the text. A line grows by 4 bytes at the most.
        mend(edition, rndf) {
            const lines = linesOf(rndf);
            const most = rndf.length + 4 * lines;
            const [answerAt, textAt, listAt, outputAt] = this.lay([28, rndf.length, 8 * lines, most]);
            this.bytes(textAt, rndf.length).set(rndf);
            this.wasm.kastepuhm_mend(answerAt, EDITIONS[edition], textAt, BigInt(rndf.length), listAt, BigInt(2 * lines), outputAt, BigInt(most));
            const [accepted, file, line, number, column, rows, length] = this.words(answerAt, 7);
            return { accepted: accepted === 1, file, line, number, column, list: this.words(listAt, 2 * rows), output: this.bytes(outputAt, length).slice() };
        }

        // Whether a text begins as an MDF does.
        isMission(text) {
            const [place] = this.lay([text.length]);
            this.bytes(place, text.length).set(text);
            return (this.wasm.kastepuhm_is_mission(place, BigInt(text.length)) & 1) === 1;
        }

        // The sentence of a refusal in the planners' words, with its line and a caret: `name` and `text` of the file that it is about.
        sentence(name, text, { line, number, column }) {
            const nameBytes = new TextEncoder().encode(name);
            const most = nameBytes.length + MOST_SENTENCE;
            const [outputAt, nameAt, textAt] = this.lay([most, nameBytes.length, text.length]);
            this.bytes(nameAt, nameBytes.length).set(nameBytes);
            this.bytes(textAt, text.length).set(text);
            const length = this.wasm.kastepuhm_sentence(nameAt, BigInt(nameBytes.length), textAt, BigInt(text.length), line, number, column, outputAt, BigInt(most));
            return new TextDecoder().decode(this.bytes(outputAt, length).slice());
        }

        // What may stand where these texts were refused, in the planners' words; "" where nothing is told.
        expected(edition, rndf, mdf, { file, line, number }) {
            const mission = mdf || new Uint8Array(0);
            const [answerAt, outputAt, rndfAt, mdfAt] = this.lay([24, MOST_EXPECTED, rndf.length, mission.length]);
            this.bytes(rndfAt, rndf.length).set(rndf);
            this.bytes(mdfAt, mission.length).set(mission);
            this.wasm.kastepuhm_expected(answerAt, EDITIONS[edition], rndfAt, BigInt(rndf.length), mdfAt, BigInt(mission.length), file, line, number, outputAt, BigInt(MOST_EXPECTED));
            const length = this.words(answerAt, 6)[5];
            return new TextDecoder().decode(this.bytes(outputAt, length).slice());
        }
    };
})();

if (typeof module !== "undefined") module.exports = Yard;
