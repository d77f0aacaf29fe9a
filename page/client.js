// The reader as the page asks it: questions to the worker, answers as promises. The worker's scripts and the module stand in the page as text.
"use strict";

class Reader {
    constructor(scripts, module) {
        this.scripts = scripts;
        this.module = module;
        this.waiting = new Map();
        this.number = 0;
        this.begin();
    }

    begin() {
        const url = URL.createObjectURL(new Blob([this.scripts], { type: "text/javascript" }));
        this.worker = new Worker(url);
        this.worker.onmessage = ({ data: { ticket, answer, failed } }) => {
            const { good, bad } = this.waiting.get(ticket);
            this.waiting.delete(ticket);
            if (failed === undefined) good(answer);
            else bad(new Error(failed));
        };
        this.worker.onerror = (event) => this.fail(new Error(event.message || "the worker could not be started"));
        this.begun = this.ask("begin", { module: this.module });
        this.begun.finally(() => URL.revokeObjectURL(url)).catch(() => {});
    }

    ask(question, words = {}) {
        return new Promise((good, bad) => {
            this.waiting.set(++this.number, { good, bad });
            this.worker.postMessage({ ...words, ticket: this.number, ask: question });
        });
    }

    fail(why) {
        for (const { bad } of this.waiting.values()) bad(why);
        this.waiting.clear();
    }

    // Ends what is under way, and begins anew: for an answer that takes too long, and after a failure. Texts have to be read again.
    restart() {
        this.worker.terminate();
        this.fail(Object.assign(new Error("stopped"), { stopped: true }));
        this.begin();
        return this.begun;
    }
}
