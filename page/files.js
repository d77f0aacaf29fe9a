// Files in and out: what is opened, by choice, by a drop or as the example, and what is saved.
"use strict";

class Files {
    constructor(bench) {
        this.bench = bench;
        this.last = Promise.resolve();
    }

    // One behind the other, so that of two drops the later one is shown.
    open(files) {
        this.last = this.last.then(() => this.openAll(files)).catch((why) => this.bench.say("This page failed: " + why.message, "bad")).then(() => document.dispatchEvent(new CustomEvent("yard-opened")));
    }

    async openAll(files) {
        const { bench } = this;
        const given = { rndf: null, mdf: null };
        if (bench.isAskingLong()) await bench.stop();
        for (const file of files) {
            let bytes;
            try {
                bytes = new Uint8Array(await file.slice(0, Texts.LONGEST + 1).arrayBuffer());     // of a longer one a byte more is enough: it is refused all the same
            } catch (why) {
                bench.say(file.name + ": the file can't be read (" + why.message + ")", "bad");
                return;
            }
            if (/\.(geo)?json$/i.test(file.name)) {
                this.openMap(file.name, bytes);
                return;
            }
            const { kind, shape } = await bench.reader.ask("kind", { bytes });
            if (kind === "packed") {
                await this.openPacked(file.name, bytes);
                return;
            }
            if (given[kind]) {
                bench.say(given[kind].name + ", " + file.name + ": one RNDF and at most one MDF can be checked", "bad");
                return;
            }
            given[kind] = { name: file.name, bytes, shape };
        }
        this.put(given);
    }

    openExample() {
        const encoder = new TextEncoder();
        this.put({ rndf: { name: "example.rndf", bytes: encoder.encode(EXAMPLE.rndf) }, mdf: { name: "example.mdf", bytes: encoder.encode(EXAMPLE.mdf) } });
    }

    // An MDF alone goes with the RNDF that is there; an RNDF alone leaves the MDF that is there.
    put(given) {
        const { bench } = this;
        const { editor } = bench;
        const lost = ["rndf", "mdf"].filter((which) => given[which] && editor.isChanged(which));
        if (lost.length && !confirm("Changes in " + lost.map((which) => bench.name(which)).join(" and ") + " are not saved. Open all the same?")) return;
        for (const which of ["rndf", "mdf"]) if (given[which]) editor.open(which, given[which].name, given[which].bytes, given[which].shape);
        if (given.rndf) bench.fitNext = true;
        editor.typed = 0;
        editor.show(given.rndf ? "rndf" : "mdf");
        bench.changed();
    }

    // ## Packed bytes and maps have no text here: they are shown on the map, until a text changes.

    async openPacked(name, bytes) {
        const { bench } = this;
        const { answer, sentence } = await bench.reader.ask("packed", { name, bytes });
        bench.putAside();
        bench.refuse(sentence);
        bench.say(answer.accepted ? name + ": accepted; " + countsOf(answer, false) : name + ": refused", answer.accepted ? "good" : "bad");
        bench.show(answer.accepted ? new Network(answer, null, (start, length) => Texts.decode(bytes.subarray(start, start + length)).text) : null, true);
    }

    openMap(name, bytes) {
        const { bench } = this;
        bench.putAside();
        bench.refuse("");
        bench.show(null, false);
        try {
            bench.foreign = GeoMap.layer(JSON.parse(Texts.decode(bytes).text)).addTo(bench.map.map);
            at("no-map").hidden = true;
            bench.say(name + ": a map; there is no text of it here", "none");
            if (bench.foreign.getBounds().isValid()) bench.map.map.fitBounds(bench.foreign.getBounds(), { padding: [28, 28], maxZoom: 20, animate: false });
        } catch (why) {
            bench.say(name + ": this is no map (" + why.message + ")", "bad");
        }
    }

    // ## Out

    async save(what) {
        const { bench } = this;
        const which = what.startsWith("mdf") ? "mdf" : "rndf";
        const base = bench.name(which).replace(/\.[^.]*$/, "");
        const name = { "rndf-text": bench.name("rndf"), "mdf-text": bench.name("mdf"), rndf: base + ".house.rndf", mdf: base + ".house.mdf", map: base + ".geojson", packed: base + ".packed" }[what];
        if (what.endsWith("-text")) {
            this.hand(name, bench.editor.bytesOf(which));
            bench.editor.saved(which);
            bench.showTabs();
            return;
        }
        const answer = await bench.question("save", { what });
        if (!answer) return;
        if (answer.accepted) {
            this.hand(name, answer.bytes);
        } else {
            bench.say(name + ": not saved", "bad");
            bench.refuse(answer.sentence);
        }
    }

    // To the browser, which puts it where it puts what is downloaded.
    hand(name, bytes) {
        const url = URL.createObjectURL(new Blob([bytes], { type: "application/octet-stream" }));
        const link = Object.assign(document.createElement("a"), { href: url, download: name });
        document.body.append(link);
        link.click();
        link.remove();
        setTimeout(() => URL.revokeObjectURL(url), 60000);
    }
}
