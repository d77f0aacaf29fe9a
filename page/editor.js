// The editor: CodeMirror with two texts, an RNDF and an MDF, of which one is shown. Lines are split at LF alone, so a CR stays where it is. A text that is too large for it stays as bytes, and an excerpt
// around the line that matters is shown, which can't be changed.
"use strict";

const Editor = (() => {
    // CodeMirror copes with 16 MB in 860,000 lines; of many more lines the browser can't make so high an element, and one very long line is slow. The reader refuses a line over 512 bytes.
    const MOST_LINES = 900000, LONGEST_LINE = 10000;
    const AROUND = 200, SHOWN_OF_LINE = 600;     // of an excerpt
    const PAUSE = 900;                           // ms without typing, before the view goes to a fault
    const USUAL = { rndf: "network.rndf", mdf: "mission.mdf" };
    const WORDS = /^(RNDF_name|MDF_name|RNDF|num_\w+|format_version|creation_date|segment|segment_name|lane|lane_width|left_boundary|right_boundary|checkpoint|checkpoints|stop|exit|zone|zone_name|perimeter|spot|spot_width|speed_limits|end_\w+)$/;

    // Colours: keywords, the parts' first lines, identifiers, comments. Nothing is judged here.
    CodeMirror.defineMode("yard", () => ({
        token(stream) {
            if (stream.match("/*")) {
                if (!stream.skipTo("*/")) stream.skipToEnd();
                else stream.match("*/");
                return "comment";
            }
            if (stream.eatSpace()) return null;
            const first = stream.string.slice(0, stream.start).trim() === "";
            stream.match(/^(?:[^\s/]|\/(?!\*))+/) || stream.next();
            const word = stream.current();
            if (first && WORDS.test(word)) return /^(segment|lane|zone|perimeter|spot|checkpoints|speed_limits|end_\w+)$/.test(word) ? "part" : "keyword";
            return /^\d+(\.\d+){1,2}$/.test(word) ? "identifier" : /^-?\d/.test(word) ? "number" : null;
        },
    }));

    // Bytes that can't be seen: the CR before an LF faintly, others as \xNN.
    function placeholder(sign) {
        const span = document.createElement("span");
        span.className = sign === "\r" ? "cr" : "cm-invalidchar";
        span.textContent = sign === "\r" ? "\u240d" : "\\x" + sign.charCodeAt(0).toString(16).padStart(2, "0");
        span.title = sign === "\r" ? "carriage return" : "a byte that is not allowed";
        return span;
    }

    // Why a text is too large for the editor, or null.
    function tooLarge(bytes, { lines, longest }) {
        if (bytes.length > Texts.LONGEST) return "it has over 16,777,215 bytes";
        return lines > MOST_LINES ? "it has " + lines.toLocaleString("en") + " lines" : longest > LONGEST_LINE ? "it has a line of " + longest.toLocaleString("en") + " bytes" : null;
    }

    return class Editor {
        // hooks: changed(which, by), cursor(which, line), leave()
        constructor(element, hooks) {
            this.hooks = hooks;
            this.texts = { rndf: this.blank("rndf"), mdf: this.blank("mdf") };
            this.shown = "rndf";
            this.view = CodeMirror(element, {
                lineNumbers: true, lineSeparator: "\n", mode: "yard", indentUnit: 8, tabSize: 8, indentWithTabs: true, smartIndent: false, electricChars: false, undoDepth: 1000,
                specialCharPlaceholder: placeholder, screenReaderLabel: "text of the file",
                extraKeys: { "Tab": (view) => view.replaceSelection("\t"), "Shift-Tab": false, "Esc": () => hooks.leave(), "Ctrl-S": false, "Cmd-S": false, "Alt-G": (view) => this.askLine(view) },
            });
            this.view.swapDoc(this.texts.rndf.doc);
            this.view.on("changes", (_, changes) => this.changed(changes));
            this.view.on("cursorActivity", () => hooks.cursor(this.shown, this.cursorLine()));
        }

        blank(which) {
            return { which, name: USUAL[which], encoding: "utf-8", opened: false, bytes: null, given: null, first: 0, why: null, fault: null, marks: [], doc: CodeMirror.Doc("", "yard", 0, "\n"), clean: 0 };
        }

        // ## The texts

        // A file's bytes as the RNDF or the MDF; `shape` as Texts.shapeOf tells it.
        open(which, name, bytes, shape = Texts.shapeOf(bytes)) {
            const text = Object.assign(this.blank(which), { name, opened: true, given: bytes });
            text.why = tooLarge(bytes, shape);
            if (text.why) {
                text.bytes = bytes;
            } else {
                const { text: characters, encoding } = Texts.decode(bytes);
                text.encoding = encoding;
                text.doc = CodeMirror.Doc(characters, "yard", 0, "\n");
            }
            this.put(text);
            if (text.why) this.excerpt(text, 0);
            text.clean = text.doc.changeGeneration(true);
        }

        close(which) {
            this.put(this.blank(which));
        }

        put(text) {
            this.texts[text.which] = text;
            if (this.shown === text.which) this.swap(text);
        }

        swap(text) {
            this.view.swapDoc(text.doc);
            this.view.setOption("readOnly", !!text.bytes);
            this.view.setOption("firstLineNumber", text.first + 1);
        }

        // For the worker: null where there is none. A text that was not changed is the file's bytes: no need to put it together of its lines.
        content(which) {
            const { name, encoding, bytes, given, doc, opened, clean } = this.texts[which];
            if (bytes) return { name, bytes };
            if (given && doc.isClean(clean)) return { name, bytes: given };
            const text = doc.getValue("\n");
            return text || opened ? { name, text, encoding } : null;
        }

        isGiven(which) {
            const { opened, doc } = this.texts[which];
            return opened || doc.lineCount() > 1 || doc.getLine(0) !== "";
        }

        bytesOf(which) {
            const { bytes, text, encoding } = this.content(which);
            return bytes || Texts.encode(text, encoding);
        }

        isChanged(which) {
            const { doc, clean, bytes } = this.texts[which];
            return !bytes && this.isGiven(which) && !doc.isClean(clean);
        }

        saved(which) {
            const text = this.texts[which];
            if (text.doc.isClean(text.clean)) return;
            text.given = null;
            text.clean = text.doc.changeGeneration(true);
        }

        // So many lines around this one, each cut.
        excerpt(text, line) {
            const lines = [];
            let at = 0, number = 0;
            const first = Math.max(0, line - AROUND);
            for (; number < first && at < text.bytes.length; number++) {
                const end = text.bytes.indexOf(10, at);
                if (end < 0) break;
                at = end + 1;
            }
            text.first = number;
            for (; number <= line + AROUND && at < text.bytes.length; number++) {
                const end = text.bytes.indexOf(10, at);
                const stop = end < 0 ? text.bytes.length : end;
                lines.push(Texts.decode(text.bytes.subarray(at, Math.min(stop, at + SHOWN_OF_LINE))).text + (stop - at > SHOWN_OF_LINE ? " .." : ""));
                at = end < 0 ? text.bytes.length : end + 1;
            }
            text.doc = CodeMirror.Doc(lines.join("\n"), "yard", 0, "\n");
            text.marks = [];
            if (this.shown === text.which) this.swap(text);
        }

        // `lines 1 to 401 are shown`, of an excerpt
        excerptWords(which) {
            const text = this.texts[which];
            if (!text.bytes) return "";
            return "Too large for the editor: " + text.why + ". Lines " + (text.first + 1).toLocaleString("en") + " to " + (text.first + text.doc.lineCount()).toLocaleString("en") + " are shown, and can't be changed here.";
        }

        // ## What is shown

        show(which) {
            if (this.shown === which) return;
            this.shown = which;
            this.swap(this.texts[which]);
        }

        cursorLine() {
            return this.view.getCursor().line + this.texts[this.shown].first;
        }

        changed(changes) {
            const by = changes[0].origin;
            this.typed = by === "setValue" ? 0 : performance.now();
            this.hooks.changed(this.shown, by);
        }

        // A line of the text, from 0, in what is shown of it.
        lineIn(text, line) {
            if (text.bytes && (line < text.first || line >= text.first + text.doc.lineCount())) this.excerpt(text, line);
            return Math.min(Math.max(line - text.first, 0), text.doc.lastLine());
        }

        clearFaults() {
            clearTimeout(this.going);
            for (const text of Object.values(this.texts)) {
                text.marks.forEach((clear) => clear());
                text.marks = [];
                text.fault = null;
            }
        }

        // Marks a line and the byte at this column (both from 1; no column: 0), and brings them into view, at once or when typing has paused.
        markFault(which, line, column, words) {
            const text = this.texts[which];
            const at = this.lineIn(text, Math.max(line, 1) - 1);
            const { doc } = text;
            const handle = doc.getLineHandle(at);
            doc.addLineClass(handle, "background", "fault-line");
            doc.addLineClass(handle, "gutter", "fault-gutter");
            text.marks.push(() => { doc.removeLineClass(handle, "background", "fault-line"); doc.removeLineClass(handle, "gutter", "fault-gutter"); });
            const whole = doc.getLine(at);
            let place = 0;
            if (column) {
                place = Texts.placeOf(whole, column, text.encoding);
                const wide = whole.codePointAt(place) > 65535 ? 2 : 1;
                const end = Math.min(place + wide, whole.length);
                if (place < end) {
                    const mark = doc.markText({ line: at, ch: place }, { line: at, ch: end }, { className: "fault-byte", title: words });
                    text.marks.push(() => mark.clear());
                }
            }
            text.fault = { line: at, ch: place };
            const wait = this.typed && which === this.shown ? PAUSE - (performance.now() - this.typed) : 0;
            this.going = setTimeout(() => this.goToFault(which, false), Math.max(0, wait));
        }

        goToFault(which, withCursor) {
            const { fault, doc } = this.texts[which];
            if (!fault) return;
            if (this.shown === which) this.view.scrollIntoView(fault, 80);
            if (withCursor) {
                doc.setCursor(fault);
                this.view.focus();
            }
        }

        // Selects whole lines, from 0, and shows them.
        select(which, from, to) {
            const text = this.texts[which];
            const first = this.lineIn(text, from), last = Math.min(Math.max(to - text.first, first), text.doc.lastLine());
            text.doc.setSelection({ line: last, ch: text.doc.getLine(last).length }, { line: first, ch: 0 }, { scroll: false });
            if (this.shown === which) {
                const { clientHeight } = this.view.getScrollInfo();
                this.view.scrollIntoView({ from: { line: first, ch: 0 }, to: { line: Math.min(last, first + Math.floor(clientHeight / this.view.defaultTextHeight()) - 6), ch: 0 } }, 40);
            }
        }

        // Puts the mended text in place of the RNDF, as one step that can be undone; line by line, so that what stayed keeps its place.
        replace(which, bytes, changes, rows) {
            const text = this.texts[which];
            if (text.bytes) {
                this.open(which, text.name, bytes);
                return;
            }
            const { text: characters } = Texts.decode(bytes, text.encoding);
            const lines = characters.split("\n");
            if (rows > changes.length) {
                text.doc.setValue(characters);
                return;
            }
            this.view.operation(() => {
                let gone = changes.filter((one) => one.after === null).length;
                for (const { line, after } of [...changes].reverse()) {
                    if (after === null) {
                        gone--;
                        text.doc.replaceRange("", { line: line - 1, ch: 0 }, line - 1 === text.doc.lastLine() ? { line: line - 1 } : { line, ch: 0 }, "+mend");
                    } else {
                        text.doc.replaceRange(lines[line - 1 - gone], { line: line - 1, ch: 0 }, { line: line - 1 }, "+mend");
                    }
                }
            });
            if (text.doc.getValue("\n") !== characters) text.doc.setValue(characters);      // should the steps give anything else than the library's text
        }

        askLine(view) {
            const field = Object.assign(document.createElement("input"), { type: "text", className: "CodeMirror-search-field", size: 8 });
            const label = document.createElement("label");
            label.append("Go to line: ", field);
            view.openDialog(label, (value) => {
                const line = parseInt(value, 10);
                if (line > 0) view.setCursor({ line: line - 1 - this.texts[this.shown].first, ch: 0 });
            });
        }

        refresh() {
            this.view.refresh();
        }
    };
})();
