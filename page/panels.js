// The three tools, each in the panel below the map: Mend, Can it be driven?, Check a route. Each has `open(body)`, which fills the panel, `update()`, when the texts were read again, and `close()`.
"use strict";

const element = (tag, words = {}, ...children) => {
    const one = Object.assign(document.createElement(tag), words);
    one.append(...children);
    return one;
};

// ## Mend (L9)

class MendPanel {
    constructor(bench) {
        this.bench = bench;
        this.title = "Mend the RNDF";
    }

    open(body) {
        this.said = element("p", { className: "answer" });
        this.said.setAttribute("role", "status");
        this.take = element("button", { type: "button", className: "main", textContent: "Take it into the editor", hidden: true });
        this.take.addEventListener("click", () => this.takeIt());
        this.list = element("ol", { className: "changes" });
        body.append(element("p", { textContent: "Three kinds of trouble are mended and nothing else: counts that disagree with their items, single options given again, lines behind the first end_file." }), this.said, this.take, this.list);
        this.update();
    }

    async update() {
        const { bench } = this;
        this.take.hidden = true;
        this.list.replaceChildren();
        if (!bench.isRead("rndf")) {
            this.said.textContent = "There is no RNDF.";
            return;
        }
        const answer = await bench.question("mend");
        if (!answer) return;
        this.answer = answer;
        this.generation = bench.generation;
        this.said.textContent = !answer.accepted ? answer.sentence.trim() : answer.rows ? answer.rows.toLocaleString("en") + (answer.rows === 1 ? " line" : " lines") + " would change:" : answer.sentence;
        this.said.dataset.state = answer.accepted ? "good" : "bad";
        if (!answer.accepted) {
            if (answer.sentence.includes("(26)")) this.list.append(element("li", { textContent: "With these changes the text would still be refused; what is wrong with it as it stands is said above." }));
            return;
        }
        this.take.hidden = !answer.rows;
        this.list.append(...answer.changes.map((change) => this.row(change)));
        if (answer.rows > answer.changes.length) this.list.append(element("li", { textContent: "and " + (answer.rows - answer.changes.length).toLocaleString("en") + " more" }));
    }

    row({ line, words, before, after }) {
        const go = element("button", { type: "button", className: "link", textContent: words });
        go.addEventListener("click", () => this.bench.selectLines("rndf", line - 1, line - 1));
        return element("li", {}, go, element("pre", {}, element("del", { textContent: before }), ...(after === null ? [] : ["\n", element("ins", { textContent: after })])));
    }

    takeIt() {
        const { bench } = this;
        const { bytes, changes, rows } = this.answer;
        if (this.generation !== bench.generation) return;        // of a text that has changed since
        bench.editor.show("rndf");
        bench.editor.replace("rndf", bytes, changes, rows);
        bench.showTabs();
        bench.changed();
    }

    close() {}
}

// ## Can it be driven? (L13)

class DrivePanel {
    constructor(bench) {
        this.bench = bench;
        this.title = "Can the mission be driven?";
        this.start = "";
    }

    open(body) {
        this.field = element("input", { type: "text", size: 14, value: this.start, spellcheck: false, autocomplete: "off" });
        const ask = element("button", { type: "submit", className: "main", textContent: "Ask" });
        const form = element("form", {}, element("label", {}, "The tractor stands at ", this.field), ask);
        form.addEventListener("submit", (event) => {
            event.preventDefault();
            this.ask();
        });
        this.said = element("pre", { className: "answer" });
        this.said.setAttribute("role", "status");
        body.append(element("p", { textContent: "Click the point where the tractor stands, or type it: a lane's waypoint 1.2.3, a perimeter point 5.0.1, or a spot's waypoint 5.2.1." }), form, this.said);
        this.bench.map.pick(true);
        this.update();
    }

    pointed(row) {
        this.field.value = this.bench.network.pointId(row);
        this.ask();
    }

    update() {
        const { bench } = this;
        bench.map.painter.setAbove({ start: -1, missed: -1 });
        if (!bench.isRead("mdf")) this.say("This needs an accepted RNDF with its MDF.");
        else if (this.field.value) this.ask();
        else this.say("");
    }

    say(words, state = "") {
        this.said.textContent = words;
        this.said.dataset.state = state;
    }

    async ask() {
        const { bench } = this;
        const { network } = bench;
        const id = this.start = this.field.value.trim();
        bench.map.painter.setAbove({ start: -1, missed: -1 });
        if (!bench.isRead("mdf")) {
            this.say("This needs an accepted RNDF with its MDF.");
            return;
        }
        const start = network.pointRow(id);
        if (start < 0) {
            this.say(Driving.noStart(bench.name("rndf"), id), "bad");
            return;
        }
        bench.map.painter.setAbove({ start });
        bench.map.showPoint(start);
        this.say("");
        const answer = await bench.question("drive", { start, id });
        if (!answer) return;
        this.say(answer.sentence.replace(/\n$/, ""), answer.accepted ? "good" : "bad");
        if (answer.goal === undefined) return;
        const missed = network.goalPoint(answer.goal);
        bench.map.painter.setAbove({ missed });
        bench.map.showPoint(missed);
        bench.selectLines("mdf", answer.line - 1, answer.line - 1);
    }

    close() {
        this.bench.map.pick(false);
        this.bench.map.painter.setAbove({ start: -1, missed: -1 });
    }
}

// ## Check a route (L5)

class RoutePanel {
    constructor(bench) {
        this.bench = bench;
        this.title = "Check a route";
        this.words = "";
        this.between = true;
    }

    open(body) {
        this.field = element("textarea", { rows: 2, value: this.words, spellcheck: false });
        this.field.addEventListener("input", () => this.ask());
        const fill = element("input", { type: "checkbox", checked: this.between });
        fill.addEventListener("change", () => { this.between = fill.checked; });
        const back = element("button", { type: "button", textContent: "Take the last point back" });
        back.addEventListener("click", () => this.set(this.ids().slice(0, -1)));
        const clear = element("button", { type: "button", textContent: "Clear" });
        clear.addEventListener("click", () => this.set([]));
        this.said = element("pre", { className: "answer" });
        this.said.setAttribute("role", "status");
        body.append(element("p", { textContent: "Click points, the first where the tractor stands, or type them with spaces between. A move goes to the next waypoint of the lane, along an exit, or between any two points of one zone." }),
            element("label", { className: "block" }, "Route ", this.field), element("div", { className: "group" }, back, clear, element("label", {}, fill, " fill in the waypoints between, along a lane")), this.said);
        this.bench.map.pick(true);
        this.update();
    }

    ids() {
        return this.field.value.split(/[\s,]+/).filter(Boolean);
    }

    set(ids) {
        this.field.value = ids.join(" ");
        this.field.scrollTop = this.field.scrollHeight;
        this.ask();
    }

    // A click on a later waypoint of the lane in which the route is takes those between, too.
    pointed(row) {
        const { network } = this.bench;
        const ids = this.ids();
        const last = ids.length ? network.pointRow(ids[ids.length - 1]) : -1;
        const added = [row];
        if (this.between && last >= 0) {
            const from = network.partOf(last), to = network.partOf(row);
            if (from.kind === "lane" && to.kind === "lane" && from.row === to.row && from.place < to.place) for (let p = row - 1; p > last; p--) added.unshift(p);
        }
        this.set([...ids, ...added.map((p) => network.pointId(p))]);
    }

    update() {
        this.ask();
    }

    say(words, state = "") {
        this.said.textContent = words;
        this.said.dataset.state = state;
    }

    // One question at a time; what changed meanwhile is asked behind it.
    async ask() {
        if (this.asking) {
            this.again = true;
            return;
        }
        this.asking = true;
        do {
            this.again = false;
            await this.askOnce();
        } while (this.again);
        this.asking = false;
    }

    async askOnce() {
        const { bench } = this;
        const { painter } = bench.map;
        this.words = this.field.value;
        const ids = this.ids();
        painter.setAbove({ route: { points: [], bad: -1 } });
        if (!bench.isRead("mdf")) {
            this.say("This needs an accepted RNDF with its MDF.");
            return;
        }
        if (!ids.length) {
            this.say("");
            return;
        }
        const { network } = bench;
        const points = ids.map((id) => network.pointRow(id));
        const unknown = points.indexOf(-1);
        if (unknown >= 0) {
            painter.setAbove({ route: { points: points.slice(0, unknown), bad: -1 } });
            this.say(ids[unknown] + " is no point of " + bench.name("rndf"), "bad");
            return;
        }
        const answer = await bench.question("route", { start: points[0], points });
        if (!answer || this.words !== this.field.value) return;
        const bad = !answer.accepted && answer.number === 22 ? answer.line : -1;
        painter.setAbove({ route: { points, bad } });
        if (answer.accepted) {
            this.say("The route is good: " + (points.length - 1) + (points.length === 2 ? " move" : " moves") + ", every goal met in order.", "good");
            return;
        }
        const more = answer.number === 22 ? "step " + bad + ", from " + ids[bad - 1] + " to " + ids[bad]
            : answer.number === 23 ? "goal " + (answer.line + 1) + " of the mission, checkpoint " + network.goals[answer.line] + " on " + network.pointId(network.goalPoint(answer.line))
            : answer.number === 24 ? "it ends at " + ids[ids.length - 1] + ", the last goal is on " + network.pointId(network.goalPoint(network.goals.length - 1)) : "";
        this.say(answer.reason + "\n" + more + (bad < 0 ? "\n(every step is a move)" : ""), bad < 0 ? "open" : "bad");
    }

    close() {
        this.bench.map.pick(false);
        this.bench.map.painter.setAbove({ route: { points: [], bad: -1 } });
    }
}
