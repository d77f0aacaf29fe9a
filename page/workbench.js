// The workbench: texts on the left, what the reader says of them above, the map on the right, and what ties them together. Whatever a file or a name holds is set as text and never as markup.
"use strict";

const at = (id) => document.getElementById(id);

const COUNTED = [["segments", "segment"], ["zones", "zone"], ["lanes", "lane"], ["points", "point"], ["spots", "spot"], ["checkpoints", "checkpoint"], ["stops", "stop"], ["exits", "exit"]];
const COUNTED_OF_MISSION = [["goals", "goal"], ["limits", "speed limit"]];

// `1 segment, 0 zones, ..`, as run-check says it.
function countsOf(answer, withMission) {
    return [...COUNTED, ...(withMission ? COUNTED_OF_MISSION : [])].map(([count, word]) => answer[count] + " " + word + (answer[count] === 1 ? "" : "s")).join(", ");
}

class Workbench {
    constructor(reader) {
        this.reader = reader;
        this.generation = 0;             // of the texts: grows with every change
        this.read = null;                // the reader's answer for this generation, or null
        this.network = null;             // what the map shows
        this.missionLines = null;
        this.fitNext = true;
        this.settled = Promise.resolve();
        this.editor = new Editor(at("editor"), { changed: (which, by) => this.changed(by), cursor: (which, line) => this.cursor(which, line), leave: () => at("divider").focus() });
        this.map = new YardMap(at("map"), { picked: (feature) => this.picked(feature), pointed: (row) => this.panel && this.panel.pointed && this.panel.pointed(row),
            describe: (feature) => this.network.describe(feature), drawn: () => { at("drawing").textContent = this.map ? this.map.painter.simplified : ""; } });
        this.panels = { mend: new MendPanel(this), drive: new DrivePanel(this), route: new RoutePanel(this) };
        this.panel = null;
        this.files = new Files(this);
        listenTo(this);
        this.showTabs();
    }

    // ## Reading

    name(which) {
        return this.editor.texts[which].name;
    }

    // Whether the texts, as they stand, are read and there is this one; of the MDF: and accepted.
    isRead(which) {
        return !!this.read && this.editor.isGiven(which) && (which === "rndf" || (this.read.answer.accepted && this.editor.isGiven("rndf")));
    }

    // The texts changed: they are read again at once, a large one when typing pauses for a moment.
    changed(by) {
        this.generation++;
        this.read = null;
        if (this.isAskingLong()) this.reader.restart().catch(() => {});       // of the text before
        this.showTabs();
        const long = this.editor.texts.rndf.doc.lineCount() > 50000 || this.editor.texts.mdf.doc.lineCount() > 50000;
        clearTimeout(this.soon);
        this.soon = setTimeout(() => this.readNow(), by === undefined || by === "setValue" ? 0 : long ? 350 : 40);
    }

    // One reading at a time; what changed meanwhile is read behind it.
    async readNow() {
        if (this.reading) {
            this.again = true;
            return;
        }
        this.reading = true;
        const slow = setTimeout(() => this.say("reading ..", "none"), 400);
        try {
            do {
                this.again = false;
                await this.readOnce(this.generation);
            } while (this.again);
        } catch (why) {
            if (!why.stopped) {
                this.say("The reader failed: " + why.message, "bad");
                this.reader.restart().catch(() => {});
            }
        } finally {
            clearTimeout(slow);
            this.reading = false;
            document.dispatchEvent(new CustomEvent("yard-told"));        // all is shown: for tests
        }
    }

    async readOnce(generation) {
        const rndf = this.editor.content("rndf"), mdf = this.editor.content("mdf");
        if (!rndf) {
            this.tellNothing(mdf);
            return;
        }
        const read = await this.reader.ask("read", { edition: at("edition").value, rndf, mdf });
        if (generation === this.generation) this.tell(read, rndf, mdf);
    }

    tellNothing(mdf) {
        this.editor.clearFaults();
        this.read = null;
        this.refuse("");
        this.show(null, false);
        this.fitNext = true;
        if (mdf) this.say(mdf.name + ": this is an MDF; open or type its RNDF too", "bad");
        else this.say("Open or drop an RNDF, and its MDF if both are to be checked; or type on the left.", "none");
        this.showTabs();
        if (this.panel) this.panel.update();
    }

    // What is wrong with the RNDF leaves the last map, in grey; with a refused MDF the network is shown all the same, without its goals.
    tell(read, rndf, mdf) {
        const { answer, network, sentence, expected, lines } = read;
        this.read = read;
        this.editor.clearFaults();
        this.missionLines = read.missionLines;
        if (network) {
            this.show(new Network(network, lines, (start, length) => (rndf.text !== undefined ? rndf.text.substr(start, length) : Texts.decode(rndf.bytes.subarray(start, start + length)).text)), this.fitNext);
            this.fitNext = false;
        } else if (this.fitNext) {
            this.show(null, false);          // another file: what is shown is not its map
        } else {
            this.map.age(true);
            this.map.select(null);
        }
        const names = rndf.name + (mdf ? " with " + mdf.name : "");
        if (answer.accepted) {
            this.say(names + ": accepted; " + countsOf(answer, mdf), "good");
            this.refuse("");
        } else {
            const about = answer.file === 2 ? "mdf" : "rndf";
            this.say(answer.file === 2 ? this.name("mdf") + ": refused; " + rndf.name + " is accepted and shown" : rndf.name + ": refused" + (this.network ? "; the map is that of the text before" : ""), "bad");
            this.refuse(sentence, expected);
            if (answer.line) {
                if (!this.editor.typed) this.editor.show(about);
                this.editor.markFault(about, answer.line, answer.column, sentence.split("\n")[0] + (expected && "\n" + expected));
            }
        }
        this.showTabs();
        if (answer.accepted) this.cursor(this.editor.shown, this.editor.cursorLine());
        if (this.panel) this.panel.update();
    }

    show(network, fit) {
        this.network = network;
        this.map.show(network, fit);
        at("no-map").hidden = !!network;
        if (this.foreign) this.foreign.remove();
        this.foreign = null;
    }

    // What is shown next has no text: a reading under way is dropped.
    putAside() {
        this.generation++;
        this.read = null;
        this.editor.clearFaults();
        this.showTabs();
    }

    // Asks the worker about the texts as they were read; null where they changed meanwhile, or it was stopped.
    async question(ask, words) {
        const { generation } = this;
        const began = this.asked = performance.now();
        const slow = setTimeout(() => { at("busy").hidden = false; }, 400);
        try {
            await this.settled;
            const answer = await this.reader.ask(ask, words);
            return generation === this.generation ? answer : null;
        } catch (why) {
            if (!why.stopped) this.say("The reader failed: " + why.message, "bad");
            return null;
        } finally {
            clearTimeout(slow);
            if (this.asked === began) {
                this.asked = 0;
                at("busy").hidden = true;
            }
        }
    }

    isAskingLong() {
        return !!this.asked && performance.now() - this.asked > 400;
    }

    // Ends a question that takes too long; the texts are read again before the next.
    stop() {
        this.settled = (async () => {
            await this.reader.restart();
            if (this.editor.isGiven("rndf")) await this.reader.ask("read", { edition: at("edition").value, rndf: this.editor.content("rndf"), mdf: this.editor.content("mdf") });
        })();
        return this.settled;
    }

    // ## What is said

    say(words, state) {
        at("said").textContent = words;
        at("verdict").dataset.state = state;
    }

    // The refusal's sentence, and below it what may stand there, where that is told.
    refuse(sentence, expected = "") {
        at("refusal").textContent = sentence.replace(/\n$/, "");
        at("refusal").hidden = !sentence;
        at("expected").textContent = expected;
        at("expected").hidden = !expected;
        at("go").hidden = !sentence || !this.read || !this.read.answer.line;
    }

    // ## Text and map

    cursor(which, line) {
        if (!this.map || !this.network || !this.read || !this.read.network) return;
        this.map.select(which === "rndf" ? this.network.featureAt(line) : this.network.featureAtMission(line, this.missionLines));
    }

    picked(feature) {
        const lines = feature && this.read && this.read.network && this.network.linesOf(feature);        // not of a map in grey
        if (lines) {
            this.selectLines("rndf", lines[0], lines[1]);
            this.map.select(feature);
        } else if (!feature) {
            this.map.select(null);
        }
    }

    selectLines(which, from, to) {
        this.editor.show(which);
        this.editor.select(which, from, to);
        this.showTabs();
    }

    // ## Tabs

    showTabs() {
        const { answer } = this.read || {};
        for (const which of ["rndf", "mdf"]) {
            const tab = at("tab-" + which), given = this.editor.isGiven(which), shown = this.editor.shown === which;
            tab.setAttribute("aria-selected", String(shown));
            tab.tabIndex = shown ? 0 : -1;
            tab.querySelector(".name").textContent = given ? this.name(which) + (this.editor.isChanged(which) ? " *" : "") : "";
            const bad = answer && !answer.accepted && (answer.file === 2) === (which === "mdf");
            const good = answer && given && !bad && (answer.accepted || (which === "rndf" && answer.file === 2));
            tab.dataset.state = bad ? "bad" : good ? "good" : "none";
            tab.querySelector(".mark").textContent = bad ? "\u2717" : good ? "\u2713" : "";
            tab.querySelector(".mark").title = bad ? "refused" : good ? "accepted" : "";
        }
        at("editor").setAttribute("aria-labelledby", "tab-" + this.editor.shown);
        at("close").disabled = !this.editor.isGiven(this.editor.shown);
        const words = this.editor.excerptWords(this.editor.shown);
        at("excerpt").textContent = words;
        at("excerpt").hidden = !words;
        const accepted = answer && answer.accepted, mission = this.editor.isGiven("mdf");
        const can = { "rndf-text": this.editor.isGiven("rndf"), "mdf-text": mission, rndf: !!(this.read && this.read.network), mdf: !!accepted && mission, map: !!(this.read && this.read.network), packed: !!(this.read && this.read.network) };
        for (const button of document.querySelectorAll("[data-save]")) button.disabled = !can[button.dataset.save];
    }

    tab(which) {
        this.editor.show(which);
        this.showTabs();
    }

    // ## Panels

    toggle(which) {
        const open = this.panel === this.panels[which] ? null : this.panels[which];
        if (this.panel) this.panel.close();
        this.panel = open;
        at("panel").hidden = !open;
        at("panel-body").replaceChildren();
        for (const one of Object.keys(this.panels)) at("tool-" + one).setAttribute("aria-expanded", String(this.panels[one] === open));
        if (!open) {
            at("tool-" + which).focus();
            return;
        }
        at("panel-title").textContent = open.title;
        at("panel-title").focus();
        open.open(at("panel-body"));
    }

    closePanel() {
        const open = Object.keys(this.panels).find((one) => this.panels[one] === this.panel);
        if (open) this.toggle(open);
    }

    goToFault() {
        if (!this.read || this.read.answer.accepted || !this.read.answer.line) return;
        const which = this.read.answer.file === 2 ? "mdf" : "rndf";
        this.tab(which);
        this.editor.goToFault(which, true);
    }
}

async function begin() {
    at("version").textContent = "reader " + YARD_VERSION.version;
    at("about-version").textContent = YARD_VERSION.version;
    at("about-sha").textContent = YARD_VERSION.sha256;
    document.querySelector(".paper-version").textContent = YARD_VERSION.version;
    document.querySelector(".paper-sha").textContent = YARD_VERSION.sha256;
    const module = Uint8Array.from(atob(at("module").textContent), (letter) => letter.charCodeAt(0));
    try {
        const reader = new Reader(at("worker").textContent, module);
        await reader.begun;
        const bench = new Workbench(reader);
        document.dispatchEvent(new CustomEvent("yard-ready", { detail: bench }));
    } catch (why) {
        at("said").textContent = "The reader can't run in this browser (" + why.message + "); run-check can read your files.";
        at("verdict").dataset.state = "bad";
    }
}

begin();
