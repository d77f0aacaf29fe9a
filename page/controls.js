// What the planner does: buttons, keys, drops, the divider, paper.
"use strict";

function listenTo(bench) {
    const { editor, files, map } = bench;
    const onClick = (id, act) => at(id).addEventListener("click", act);

    // ## Files
    at("file").addEventListener("change", (event) => {
        const chosen = [...event.target.files];
        event.target.value = "";
        if (chosen.length) files.open(chosen);
    });
    onClick("example", () => files.openExample());
    const save = at("save");
    for (const button of document.querySelectorAll("[data-save]")) {
        button.addEventListener("click", () => {
            save.open = false;
            files.save(button.dataset.save);
        });
    }
    document.addEventListener("click", (event) => { if (!save.contains(event.target)) save.open = false; });
    save.addEventListener("keydown", (event) => {
        if (event.key !== "Escape") return;
        save.open = false;
        save.querySelector("summary").focus();
    });
    window.addEventListener("beforeunload", (event) => { if (editor.isChanged("rndf") || editor.isChanged("mdf")) event.preventDefault(); });
    listenToDrops(files);

    // ## Texts
    at("edition").addEventListener("change", () => {
        editor.typed = 0;
        bench.changed();
    });
    for (const which of ["rndf", "mdf"]) onClick("tab-" + which, () => bench.tab(which));
    document.querySelector("[role=tablist]").addEventListener("keydown", (event) => {
        if (!["ArrowLeft", "ArrowRight"].includes(event.key)) return;
        bench.tab(editor.shown === "rndf" ? "mdf" : "rndf");
        at("tab-" + editor.shown).focus();
    });
    onClick("close", () => {
        const which = editor.shown;
        if (editor.isChanged(which) && !confirm("Changes in " + bench.name(which) + " are not saved. Take it away all the same?")) return;
        editor.close(which);
        editor.typed = 0;
        bench.changed();
    });
    onClick("go", () => bench.goToFault());
    window.addEventListener("keydown", (event) => {
        if (event.key === "F8") {
            event.preventDefault();
            bench.goToFault();
        } else if ((event.ctrlKey || event.metaKey) && event.key.toLowerCase() === "s") {
            event.preventDefault();
            if (editor.isGiven(editor.shown)) files.save(editor.shown + "-text");
        }
    });
    listenToDivider(editor);

    // ## Tools
    for (const which of Object.keys(bench.panels)) onClick("tool-" + which, () => bench.toggle(which));
    onClick("stop", () => bench.stop());
    onClick("panel-close", () => bench.closePanel());
    at("panel").addEventListener("keydown", (event) => { if (event.key === "Escape") bench.closePanel(); });

    // ## The map; on paper it has another size
    onClick("fit", () => map.fit());
    at("exits").addEventListener("change", (event) => {
        map.painter.exits = event.target.checked;
        map.painter.base.repaint();
    });
    window.addEventListener("beforeprint", () => {
        document.body.classList.add("printing");
        map.fit();
        map.painter.repaint(true);
    });
    window.addEventListener("afterprint", () => {
        document.body.classList.remove("printing");
        map.map.invalidateSize({ animate: false });
    });
}

// Anywhere on the page, and before the editor, which would take a dropped file as text.
function listenToDrops(files) {
    const over = (on) => document.body.classList.toggle("over", on);
    const carriesFiles = (event) => event.dataTransfer && [...event.dataTransfer.types].includes("Files");
    const taken = (act) => (event) => {
        if (!carriesFiles(event)) return;
        event.preventDefault();
        event.stopPropagation();
        act(event);
    };
    window.addEventListener("dragover", taken(() => over(true)), true);
    window.addEventListener("dragleave", (event) => { if (!event.relatedTarget) over(false); }, true);
    window.addEventListener("drop", taken((event) => {
        over(false);
        files.open([...event.dataTransfer.files]);
    }), true);
}

function listenToDivider(editor) {
    const divider = at("divider");
    const set = (percent) => {
        const width = Math.max(15, Math.min(85, percent));
        document.documentElement.style.setProperty("--editor", width + "%");
        divider.setAttribute("aria-valuenow", String(Math.round(width)));
        editor.refresh();
    };
    divider.addEventListener("pointerdown", (event) => divider.setPointerCapture(event.pointerId));
    divider.addEventListener("pointermove", (event) => { if (divider.hasPointerCapture(event.pointerId)) set(100 * event.clientX / document.body.clientWidth); });
    divider.addEventListener("keydown", (event) => {
        const step = { ArrowLeft: -3, ArrowRight: 3 }[event.key];
        if (step) set(Number(divider.getAttribute("aria-valuenow")) + step);
    });
}
