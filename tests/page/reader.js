// node reader.js YARD.wasm: what tests/damage/reader.c does, over the WebAssembly module, so that tests/damage/compare.py can hold it to the oracle. Cases on standard input, answers on standard output,
// in the formats that compare.py lays down.
//
// Every table, the output, the texts and the route or work space lie with 16 bytes of another pattern on both sides, which must stay. One of the texts, in turn, ends where the memory ends, so that one byte too
// far stops the program. A text may be lent longer than it is given, as there: the module is told the length, and only so many bytes are there (at least 32 MiB behind its start). The stack is filled with
// other bytes before each call.
"use strict";
const fs = require("fs");

const wasm = new WebAssembly.Instance(new WebAssembly.Module(fs.readFileSync(process.argv[2]))).exports;
const BASE = (wasm.__heap_base.value + 15) & ~15;
const STACK = 65536;      // as tools/library.sh has it: the stack lies first
const PAGE = 65536, GUARD = 16, OTHER = 0x5a, ANSWER = 120;
const TABLES = 10, EXPECTED = 11;

function room(bytes) {
    const missing = bytes - wasm.memory.buffer.byteLength;
    if (missing > 0) wasm.memory.grow(Math.ceil(missing / PAGE));
    return new Uint8Array(wasm.memory.buffer);
}

// ## Cases

// A case may have 16 MB, and many of them more than one buffer holds, so the input is read as it is needed.
let input = Buffer.alloc(0), from = 0;
function have(n) {
    if (input.length - from >= n) return true;
    const parts = [input.subarray(from)];
    let size = parts[0].length;
    while (size < n) {
        const more = Buffer.alloc(1 << 20);
        let got;
        try {
            got = fs.readSync(0, more, 0, more.length, null);
        } catch (why) {
            if (why.code === "EAGAIN") continue;
            if (why.code !== "EOF") throw why;
            got = 0;
        }
        if (!got) break;
        parts.push(more.subarray(0, got));
        size += got;
    }
    input = Buffer.concat(parts);
    from = 0;
    return size >= n;
}
function bytes(n) {
    if (!have(n)) throw new Error("a case is cut off");
    from += n;
    return input.subarray(from - n, from);
}
const u32 = () => bytes(4).readUInt32LE(0);
const u64 = () => bytes(8).readBigUInt64LE(0);

function write(piece) {
    for (let done = 0; done < piece.length;) {
        try {
            done += fs.writeSync(1, piece, done, Math.min(piece.length - done, 1 << 16));
        } catch (why) {
            if (why.code !== "EAGAIN") throw why;
        }
    }
}

let turn = 0;

// Runs a case with an output of this length, and writes the answer, the tables, the output and whether anything else was written; gives the last word of the answer, how many bytes were put.
function run({ mode, edition, lengths, given, tables, start, steps, texts, route: lentRoute }, output) {
    const route = Buffer.from(lentRoute);
    turn ^= 1;
    // where everything lies; the text whose turn it is lies last, up to the end of the memory
    let end = BASE;
    const lay = (size) => { const here = (end + GUARD + 7) & ~7; end = here + size; return here; };
    const answer = lay(ANSWER);
    const table = tables.map((n) => lay(4 * n));
    const outputAt = lay(output);
    const routeAt = lay(route.length);
    const other = turn ^ 1;
    const text = [0, 0];
    const lent = lengths.map((n) => Number(n < 0x2000000n ? n : 0x2000000n));   // so many bytes are there
    text[other] = lay(lent[other]);
    end += GUARD + 8;
    const memory = room(Math.max(end + lent[turn], wasm.memory.buffer.byteLength));
    text[turn] = memory.length - lent[turn];
    memory.fill(OTHER, BASE, end);
    memory.fill(OTHER, text[turn] - GUARD, text[turn]);
    for (const i of [0, 1]) {
        memory.fill(0, text[i], text[i] + lent[i]);
        memory.set(texts[i], text[i]);
    }
    memory.set(route, routeAt);
    const slice = (place, n) => [place, BigInt(n)];
    const network = tables.slice(0, 8).flatMap((n, i) => slice(table[i], n));
    const mission = tables.slice(8).flatMap((n, i) => slice(table[8 + i], n));
    const rndf = [text[0], lengths[0]], mdf = [text[1], lengths[1]];
    const out = slice(outputAt, output);
    memory.fill(0, answer, answer + ANSWER);
    memory.fill(0xa5 ^ mode ^ given[0], 0, STACK);         // nothing may hang on what an earlier call left on the stack
    switch (mode) {
    case 1: wasm.kastepuhm_read_rndf(answer, edition, ...rndf, ...network); break;
    case 2: wasm.kastepuhm_read_pair(answer, edition, ...rndf, ...mdf, ...network, ...mission); break;
    case 3: wasm.kastepuhm_write_map(answer, edition, ...rndf, ...network, ...out); break;
    case 4: wasm.kastepuhm_check_route(answer, edition, ...rndf, ...mdf, ...network, ...mission, start, ...slice(routeAt, steps)); break;
    case 5:
        wasm.kastepuhm_check_mission(answer, edition, ...rndf, ...mdf, ...network, ...mission, start, ...slice(routeAt, steps));
        route.fill(0);                                     // the work space has to be zero afterwards
        break;
    case 6: wasm.kastepuhm_write_rndf(answer, edition, ...rndf, ...network, ...out); break;
    case 7: wasm.kastepuhm_write_mdf(answer, edition, ...rndf, ...mdf, ...network, ...mission, ...out); break;
    case 8: wasm.kastepuhm_write_packed(answer, edition, ...rndf, ...network, ...out); break;
    case 9: wasm.kastepuhm_read_packed(answer, ...rndf, ...network); break;          // the packed bytes stand in place of the RNDF
    case 10: wasm.kastepuhm_mend(answer, edition, ...rndf, ...slice(table[0], tables[0]), ...out); break;       // the list stands in place of the segments
    case EXPECTED: {                                       // the line stands in place of the start, file and number in place of the route
        wasm.kastepuhm_expected(answer, edition, ...rndf, ...mdf, route.readUInt32LE(0), start, route.readUInt32LE(4), ...out);
        const words = new Uint32Array(memory.buffer, answer, ANSWER / 4);
        words[ANSWER / 4 - 1] = words[5];                  // the length, where a writer has it
        words[5] = 0;
        break;
    }
    default: throw new Error("no such mode");
    }
    if (wasm.memory.buffer.byteLength !== memory.length) throw new Error("the module grew its memory");
    write(Buffer.from(memory.slice(answer, answer + ANSWER)));
    for (let i = 0; i < TABLES; i++) write(Buffer.from(memory.slice(table[i], table[i] + 4 * tables[i])));
    write(Buffer.from(memory.slice(outputAt, outputAt + output)));
    // what must have stayed
    const pieces = [[answer, ANSWER], ...table.map((t, i) => [t, 4 * tables[i]]), [outputAt, output], [routeAt, route.length], [text[other], lent[other]], [text[turn], lent[turn]]];
    let elsewhere = 0;
    for (const [place, size] of pieces) {
        for (let i = 1; i <= GUARD - 8; i++) {
            if (memory[place - i] !== OTHER) elsewhere = 1;
            if (place !== text[turn] && memory[place + size + i - 1] !== OTHER) elsewhere = 1;
        }
    }
    if (Buffer.compare(Buffer.from(memory.buffer, routeAt, route.length), route)) elsewhere = 1;
    for (const i of [0, 1]) if (Buffer.compare(Buffer.from(memory.buffer, text[i], given[i]), texts[i])) elsewhere = 1;
    const word = Buffer.alloc(4);
    word.writeUInt32LE(elsewhere);
    write(word);
    return new DataView(memory.buffer).getUint32(answer + ANSWER - 4, true);
}

while (have(1)) {
    const mode = bytes(1)[0];
    const edition = u32();
    const lengths = [u64(), u64()];
    const given = [u32(), u32()];
    const tables = Array.from({ length: TABLES }, u32);
    const output = u32();
    const start = u32(), steps = u32();
    const texts = [Buffer.from(bytes(given[0])), Buffer.from(bytes(given[1]))];
    const route = Buffer.from(bytes(4 * steps));
    const asked = { mode, edition, lengths, given, tables, start, steps, texts, route };
    const put = run(asked, output);
    if (mode === EXPECTED) {                               // also with just as many bytes as there are words, and with one less
        run(asked, put);
        if (put > 0) run(asked, put - 1);
    }
}
