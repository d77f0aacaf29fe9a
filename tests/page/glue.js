// node glue.js PAGE.html: the reader's worker as it stands in the page (its scripts and its module), on cases from standard input, for glue.py. A case is a line of JSON: { edition, rndf, mdf, start }, texts
// in base64 (mdf may be null, start may be missing); so is an answer.
"use strict";
const fs = require("fs");
const path = require("path");
const vm = require("vm");
const Network = require(path.join(__dirname, "../../page/network.js"));

const page = fs.readFileSync(process.argv[2], "utf8");
const held = (id) => new RegExp('<script type="text/plain" id="' + id + '">([^<]*(?:<(?!/script)[^<]*)*)</script>').exec(page)[1];
const told = new Map();
const scope = vm.createContext({
    WebAssembly, TextEncoder, TextDecoder, Uint8Array, Uint32Array, Int32Array, ArrayBuffer,
    postMessage: ({ ticket, answer, failed }) => { const { good, bad } = told.get(ticket); told.delete(ticket); if (failed === undefined) good(answer); else bad(new Error(failed)); },
});
vm.runInContext(held("worker"), scope);
let ticket = 0;
const ask = (question, words) => new Promise((good, bad) => {
    told.set(++ticket, { good, bad });
    scope.onmessage({ data: { ...words, ticket, ask: question } });
});

const bytesOf = (base64) => new Uint8Array(Buffer.from(base64, "base64"));
const base64 = (bytes) => (bytes ? Buffer.from(bytes).toString("base64") : null);
const plain = (lists) => lists && Object.fromEntries(Object.entries(lists).map(([name, list]) => [name, list.from ? { from: [...list.from], to: [...list.to] } : [...list]]));

async function one({ edition, rndf, mdf, start }) {
    const texts = { rndf: bytesOf(rndf), mdf: mdf === null ? null : bytesOf(mdf) };
    const { answer, network, sentence, expected, lines, missionLines } = await ask("read", {
        edition, rndf: { name: "network.rndf", bytes: texts.rndf }, mdf: texts.mdf && { name: "mission.mdf", bytes: texts.mdf },
    });
    const { accepted, file, line, number, column, tables } = answer;
    const kinds = [(await ask("kind", { bytes: texts.rndf })).kind, texts.mdf ? (await ask("kind", { bytes: texts.mdf })).kind : null];
    const told = {
        accepted, refusal: [file, line, number, column], sentence, expected, kinds,
        names: ["rndf_name", "rndf_version", "rndf_date", "mdf_name", "mdf_rndf", "mdf_version", "mdf_date"].flatMap((name) => answer[name]),
        tables: Object.fromEntries(Object.entries(tables).map(([name, numbers]) => [name, [...numbers]])), lines: plain(lines), missionLines: plain(missionLines),
    };
    for (const what of ["map", "rndf", "packed", ...(texts.mdf ? ["mdf"] : [])]) {
        const saved = await ask("save", { what });
        told["save " + what] = [saved.accepted, saved.sentence, base64(saved.bytes)];
    }
    const mended = await ask("mend", {});
    told.mend = [mended.accepted, mended.accepted && mended.rows ? mended.changes.map((change) => change.words).join("\n") : mended.sentence, mended.accepted ? base64(mended.bytes) : null, mended.rows || 0];
    if (network) {
        const yard = new Network(network, lines, () => "");
        told.ids = Array.from({ length: Math.min(yard.pointCount, 3000) }, (_, i) => yard.pointId(i));
        told.rows = told.ids.map((id) => yard.pointRow(id));
        if (start !== undefined && accepted) {
            const row = yard.pointRow(start);
            told.drive = row < 0 ? start + " is no point of network.rndf (30)" : (await ask("drive", { start: row, id: start })).sentence;
        }
    }
    return told;
}

(async () => {
    await ask("begin", { module: new Uint8Array(Buffer.from(held("module"), "base64")) });
    for (const line of fs.readFileSync(0, "utf8").split("\n")) if (line) process.stdout.write(JSON.stringify(await one(JSON.parse(line))) + "\n");
})();
