"use strict";
// A second run beside the first: another journal, drawn in step with the first by line of the script.
globalThis.Second = (() => {
    const $ = id => document.getElementById(id);
    const { page } = Page;
    const picture = Picture.of($("other"));
    const second = { first: null, run: null, states: null, state: null, script: null };
    const COUNTS = ["sent", "made", "copied", "crossed", "arrived", "taken", "dropped"];

    const cell = (name, text) => {
        const element = document.createElement(name);
        element.textContent = text;
        return element;
    };

    // what was counted up to now in the first run and in the second
    const drawCounts = () => {
        const row = (name, cells) => {
            const tr = document.createElement("tr");
            tr.append(cell("th", name), ...cells);
            return tr;
        };
        const numbers = ({ counts, flying }) => [...COUNTS.map(word => cell("td", counts[Journal.KIND[word]])), cell("td", flying.size)];
        $("second-counts").replaceChildren(row("", [...COUNTS, "flying"].map(word => cell("th", word))),
            row("first", numbers(page.state)), row("second", numbers(second.state)));
    };

    // a host or a switch of the first run in the second one, or null
    const subjectOf = subject => {
        if (!subject || subject.frame !== undefined || (subject.manager && !Said.isLog(second.run))) return null;
        const found = Stories.find(second.run, Moment.nameOf(page.run, subject));
        return found && found.frame === undefined ? found : null;
    };

    const draw = () => {
        if (!second.run || !page.run) return;
        if (second.first !== page.run) {
            close(); // another run was opened
            return;
        }
        const { run, states, script } = second;
        second.state = At.at(states, Step.of(page.run, run, page.state.entry, page.state.line), second.state);
        const { entry, line } = second.state;
        picture.isLoads = Page.picture.isLoads;
        [picture.beside, Page.picture.beside] = [page.state, second.state]; // so that both have one scale of loads
        $("first-where").textContent = `${Journal.isOfBridge(page.run) ? "learning bridge" : "first run"}${page.name ? ` (${page.name})` : ""}: ${$("where").textContent}`;
        picture.set(second.state, Scene.of(run, second.state, subjectOf(page.subject)));
        const inLine = line < 0 ? "" : `, line ${run.a[line]} of the script`;
        $("second-where").textContent = `${Journal.isOfBridge(run) ? "learning bridge" : "second run"}: entry ${Words.count(entry)} of ${Words.count(run.count)}${inLine}`;
        $("second-said").textContent = entry === 0 ? "The beginning." : Words.sentence(run, entry - 1, script);
        $("other").setAttribute("aria-label", `The second run after entry ${entry}. ${$("second-said").textContent}`);
        $("other").classList.toggle("near", !picture.isWhole);
        drawCounts();
        picture.draw();
    };

    const close = () => {
        Object.assign(second, { first: null, run: null, states: null, state: null, script: null });
        Page.picture.beside = null;
        $("second").hidden = $("alone").hidden = $("first-where").hidden = true;
        $("besides").hidden = false;
        document.body.classList.remove("two");
    };

    // Opens the files of a second run; a topology or a script that is not among them is that of the first.
    const open = files => {
        if (!files.journal) throw new Error("No journal is among these files: the second run is one of the same script.");
        Object.assign(second, Files.runOf({ ...page.files, ...files }), { first: page.run, state: null });
        $("second").hidden = $("alone").hidden = $("first-where").hidden = false;
        $("besides").hidden = true;
        document.body.classList.add("two");
        picture.beside = page.state;
        picture.themed();
        picture.show(second.run);
        draw();
    };

    const resized = () => {
        if (!second.run || !second.state) return;
        picture.resized();
        draw();
    };

    page.followers.push(draw);
    return { second, picture, open, close, draw, resized };
})();
