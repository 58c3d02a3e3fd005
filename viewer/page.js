"use strict";
// The page: what is open, which entry is now, and what follows from that for the picture, the lists and the facts.
globalThis.Page = (() => {
    const $ = id => document.getElementById(id);
    const picture = Picture.of($("canvas"));
    const still = window.matchMedia("(prefers-reduced-motion: reduce)");
    const page = {
        files: {}, run: null, states: null, script: null, state: null,
        subject: null, story: null, // whose story is shown, and its entries
        sift: Sift.NONE, list: null, // what the list is to show, and its rows
        known: null, // what the Fabric list shows
        followers: [], // called with each new state: what goes with this page
        playing: 0, owed: 0, way: 1, // when the last picture was made while playing; entries that are due; 1 is on, -1 back
        revealed: -1, // the entry whose place was brought into sight
        moving: 0, // when the frame of now set out
    };

    const BEGINNING = "The beginning: nothing has happened. No switch knows more than its id and its ports.";

    const elementOf = (name, text) => {
        const element = document.createElement(name);
        element.textContent = text;
        return element;
    };

    // parts of a text: one in the letters of a program, and a button that shows a story
    const CODE = { name: "code", tag: "CODE", make: () => document.createElement("code"), put: (element, { code }) => Texts.put(element, code) };
    const BUTTON = {
        name: "subject",
        tag: "BUTTON",
        make: () => {
            const element = elementOf("button", "");
            element.type = "button";
            element.className = "link";
            element.addEventListener("click", () => tell(element.subject));
            return element;
        },
        put: (element, { text, subject }) => {
            Texts.put(element, text);
            element.subject = subject;
            element.title = `the story of ${Facts.name(page.run, subject)}`;
        },
    };
    const putParts = (element, parts) => Texts.putParts(element, parts, [CODE, BUTTON]);

    const rowOf = (cells, wide) => {
        const tr = document.createElement("tr");
        tr.append(document.createElement("th"), ...Array.from({ length: cells - 1 }, () => document.createElement("td")));
        tr.lastChild.className = "wide";
        tr.lastChild.colSpan = wide;
        return tr;
    };

    const capital = text => text[0].toUpperCase() + text.slice(1);

    // Two tables with titles: of whose story is shown, where a row is a name and parts, and of a frame's header, where it is three texts.
    // They stay, and so do rows and what is in them.
    const section = (makeRow, putRow) => {
        const [title, table] = [document.createElement("h2"), document.createElement("table")];
        $("facts").append(title, table);
        return { title, table, makeRow, putRow, keys: [] };
    };
    const about = section(() => rowOf(2, 2), (tr, [name, ...parts]) => {
        Texts.put(tr.firstChild, name);
        putParts(tr.lastChild, parts.flatMap(part => [part, " "]));
    });
    const header = section(() => rowOf(3, 1), (tr, cells) => cells.forEach((cell, n) => Texts.put(tr.children[n], cell)));

    // `title` are parts
    const fillSection = ({ title: heading, table, makeRow, putRow, keys }, title, rows) => {
        heading.hidden = table.hidden = rows.length === 0;
        putParts(heading, title);
        rows.forEach((row, n) => {
            const key = JSON.stringify(row);
            if (n === table.rows.length) table.append(makeRow());
            else if (keys[n] === key) return;
            keys[n] = key;
            putRow(table.rows[n], row);
        });
        while (table.rows.length > rows.length) table.lastChild.remove();
        keys.length = rows.length;
    };

    const drawFacts = () => {
        const { run, state, subject } = page;
        fillSection(about, subject ? [capital(Facts.name(run, subject))] : [], subject ? Facts.of(run, state, subject) : []);
        const now = state.entry > 0 ? Journal.frameOf(run, state.entry - 1) : 0;
        const id = subject && subject.frame !== undefined ? subject.frame : now;
        const { title, rows } = (id > 0 && Facts.header(run, state, id)) || { title: "", rows: [] };
        const isTold = subject && subject.frame === id;
        fillSection(header, isTold || rows.length === 0 ? [title] : [`${title} `, { text: "its story", subject: { frame: id } }], rows);
    };

    // the rules behind the entry of now, each as what the table of rules says and the files that it stands in
    const drawRule = n => {
        const rules = n < 0 ? [] : Rules.of(page.run, n);
        Texts.put($("look"), n < 0 ? "" : Rules.look(page.run, n, page.state, page.script));
        putParts($("rule"), rules.flatMap(({ says, files }, at) => {
            const parts = says.split("`").map((text, i) => (i % 2 === 1 ? { code: text } : text));
            const names = files.flatMap((file, i) => [i === 0 ? " in " : ", ", { code: file }]);
            return [at === 0 ? "Rule: " : "; ", ...parts, ...names];
        }));
    };

    const countsText = () => {
        const { counts, causes, flying } = page.state;
        const of = word => `${word} ${Words.count(counts[Journal.KIND[word]])}`;
        const dropped = Journal.CAUSES.flatMap((cause, n) => (causes[n] > 0 ? [`${cause} ${Words.count(causes[n])}`] : []));
        const why = dropped.length > 0 ? ` (${dropped.join(", ")})` : "";
        return `${["sent", "made", "copied", "arrived", "taken", "dropped"].map(of).join(", ")}${why}, in flight ${Words.count(flying.size)}`;
    };

    const drawNow = () => {
        const { run, state, script } = page;
        const n = state.entry - 1;
        const line = state.line < 0 ? "" : `, line ${Words.count(run.a[state.line])} of the script`;
        Texts.put($("where"), `entry ${Words.count(state.entry)} of ${Words.count(run.count)}${line}`);
        Texts.put($("comment"), script && n >= 0 && run.kind[n] === Journal.KIND.line ? Script.comment(script, run.a[n]) : "");
        Texts.put($("said"), n < 0 ? BEGINNING : Words.sentence(run, n, script));
        $("said").setAttribute("aria-live", page.playing ? "off" : "polite");
        Texts.put($("raw"), n < 0 ? "" : Journal.text(run, n, run.kind[n] === Journal.KIND.event ? Infinity : 400));
        $("raw").classList.toggle("event", n >= 0 && run.kind[n] === Journal.KIND.event);
        drawRule(n);
        chart.set(state);
        Texts.put($("counts"), countsText());
        $("slider").value = state.entry;
        $("entry").value = state.entry;
        const number = state.line < 0 ? "" : `${run.a[state.line]}`;
        if ($("line").value !== number) $("line").value = number;
        $("back").disabled = $("first").disabled = $("lineback").disabled = state.entry === 0;
        $("next").disabled = $("last").disabled = $("lineon").disabled = state.entry === run.count;
        drawFacts();
    };

    const entryOfRow = n => (page.list.rows ? page.list.rows[n] : n);
    // The row of the entry of now; where the list does not have it, the last of its rows that has happened.
    const markedRow = () => (page.list.rows ? Stories.happened(page.list.rows, page.state.entry) : page.state.entry) - 1;
    const isNow = row => row >= 0 && entryOfRow(row) === Sift.rowOf(page.list, page.state.entry - 1);

    // the list shows other entries
    const sift = () => {
        page.list = Sift.of(page.run, page.story, page.sift, page.script);
        const { text, kind, who, folds } = page.sift;
        for (const [id, value] of [["seek", text], ["kind", kind], ["who", who]]) if ($(id).value !== value) $(id).value = value;
        $("fold").checked = folds;
        const { path, isSifted } = page.list;
        Texts.put($("sifted"), isSifted ? Words.plural(path.length, "entry", "entries") : "");
    };
    const resift = wanted => {
        if (!page.run) return;
        page.sift = { ...page.sift, ...wanted };
        sift();
        drawLists();
        keepMoment();
    };

    // a row's text as it stands in its file, and below it what that means
    const fillTexts = (element, text, meaning) => {
        if (!element.firstChild) element.append(document.createElement("code"), document.createElement("span"));
        Texts.put(element.firstChild, text);
        Texts.put(element.lastChild, meaning);
        element.setAttribute("aria-label", meaning || text); // which is read aloud, and not the digits of a frame
        if (element.title !== "") element.title = meaning;
    };

    // a row has its meaning as a title, which may be longer than its place, once a pointer has come to it
    const entitle = event => {
        const row = event.target.closest(".row");
        if (row) row.title = row.lastChild.textContent;
    };
    for (const list of ["journal", "script"]) $(list).addEventListener("pointerover", entitle);

    const fillEntry = (element, n) => {
        const entry = entryOfRow(n);
        if (page.list.folded.has(entry)) {
            fillTexts(element, ...Sift.foldedText(page.run, entry, page.list.folded.get(entry)));
            return "line";
        }
        fillTexts(element, `${entry + 1}  ${Journal.text(page.run, entry, 90)}`, Words.sentence(page.run, entry, page.script));
        return page.run.kind[entry] === Journal.KIND.line ? "line" : "";
    };

    const fillLine = (element, n) => {
        fillTexts(element, `${n + 1}  ${page.script[n]}`, Script.sentence(page.script[n], Journal.isOfBridge(page.run)));
        const entry = Journal.ofLine(page.run, n + 1);
        return entry < 0 || page.run.a[entry] !== n + 1 ? "idle" : "";
    };

    const linkTo = (text, title, act) => {
        const element = elementOf("button", text);
        element.type = "button";
        element.className = "link";
        element.title = title;
        element.addEventListener("click", act);
        return element;
    };

    const fillKnown = (element, n) => {
        const { subject, cells, entries: happened, note } = Knowledge.row(page.known, $("knowledge").value, knownRows[n], page.state.entry);
        const number = elementOf("span", `${knownRows[n] + 1}`);
        number.className = "number";
        const name = document.createElement("span");
        name.append(linkTo(cells[0], `the story of ${Facts.name(page.run, subject)}`, () => tell(subject)));
        const when = document.createElement("span");
        for (const [word, entry] of happened) when.append(linkTo(`${word} ${entry + 1}`, `to entry ${entry + 1}`, () => step(entry + 1)), " ");
        if (note) when.append(note);
        element.replaceChildren(number, name, elementOf("span", cells[1]), when);
        for (const cell of element.children) cell.setAttribute("role", "cell");
        return "cells";
    };

    const entries = Rows.make($("journal"), fillEntry, n => go(entryOfRow(n) + 1));
    const lines = Rows.make($("script"), fillLine, n => toLine(n + 1));
    const knowledge = Rows.make($("table"), fillKnown, () => {}, "row");
    let knownRows = [];
    const chart = Chart.make($("chart"), n => step(n));

    const storyName = () => `${Facts.name(page.run, page.subject)}: ${Words.plural(page.story.length, "entry", "entries")}`;

    const HEADS = { placed: ["switch", "place", "placed by"], addresses: ["host", "address", "granted and registered by"] };

    const drawKnown = () => {
        if ($("fabric").hidden) return;
        if (!page.known) page.known = Knowledge.of(page.run);
        const { entry, counts } = page.state;
        const list = $("knowledge").value;
        const { placed, granted, registered, freed, restarted } = Journal.KIND;
        const key = [...[placed, granted, registered, freed, restarted].map(kind => counts[kind]), list, $("filter").value].join(" ");
        if (key === page.known.key) return; // nothing in it has happened
        page.known.key = key;
        knownRows = Knowledge.rows(page.known, list, $("filter").value, entry);
        [...$("heads").children].slice(1).forEach((head, n) => {
            head.textContent = HEADS[list][n];
        });
        knowledge.set(knownRows.length, -1, true, knownRows);
        const shown = $("filter").value.trim() === "" ? "" : `; ${Words.plural(knownRows.length, "row")} with this text`;
        $("known").textContent = `${Knowledge.summary(page.known, list, entry)}${shown}`;
    };

    const drawLists = () => {
        const marked = markedRow();
        entries.set(page.list.rows ? page.list.rows.length : page.run.count, marked, isNow(marked), page.list);
        const line = page.state.line < 0 ? -1 : page.run.a[page.state.line] - 1;
        if (page.script && !$("script").hidden) lines.set(page.script.length, line, true, page.script);
        Texts.put($("telling"), page.subject ? storyName() : "");
        $("all").hidden = !page.subject && !page.list.isSifted;
        drawKnown();
    };

    const summary = () => {
        const flying = [...page.state.flying.keys()].slice(0, 20).join(", ");
        return `${$("said").textContent} The fabric after entry ${page.state.entry}. Frames in flight: ${flying || "none"}.`;
    };

    // while a frame is on its way to where it is now, the picture is made again
    const drawPicture = () => {
        const passed = performance.now() - page.moving;
        picture.progress = Math.min(1, passed / 260);
        picture.draw();
        if (picture.progress < 1) requestAnimationFrame(drawPicture);
    };

    const draw = isMoving => {
        picture.set(page.state, Scene.of(page.run, page.state, page.subject));
        const { now } = picture.scene;
        page.moving = isMoving && now && now.from && !still.matches ? performance.now() : -1000;
        if (now && now.place && now.place.link === undefined && page.revealed !== page.state.entry) picture.reveal(now.place);
        page.revealed = page.state.entry;
        drawLists(); // first, since it asks where the lists are: behind another change the page would be laid out for that
        drawNow();
        $("canvas").setAttribute("aria-label", summary());
        $("canvas").classList.toggle("near", !picture.isWhole);
        for (const follow of page.followers) follow(page);
        if (!page.playing) keepMoment();
        drawPicture();
    };

    // The page's own address names the moment, once it has stood there for a while.
    let moment = 0;
    const keepMoment = () => {
        clearTimeout(moment);
        moment = setTimeout(() => {
            const text = page.run ? Moment.text(page.run, page.state.entry, page.subject, page.sift) : "";
            if (text !== window.location.hash) window.history.replaceState(null, "", text || window.location.pathname);
        }, 250);
    };

    // goes to the moment that the end of an address names, as that of the page; answers whether it names one
    const toMoment = (end = window.location.hash) => {
        const wanted = page.run ? Moment.read(page.run, end) : null;
        if (!wanted) return false;
        page.subject = wanted.subject;
        page.story = wanted.subject ? Stories.of(page.run, wanted.subject) : null;
        page.sift = wanted.sift;
        sift();
        go(wanted.entry < 0 ? page.story[0] + 1 : wanted.entry);
        return true;
    };

    // so many entries have happened
    const go = (n, isMoving = false) => {
        if (!page.run) return;
        const wanted = Math.max(0, Math.min(page.run.count, n));
        page.state = At.at(page.states, wanted, page.state);
        draw(isMoving);
    };

    const onwards = () => {
        const { path } = page.list;
        if (!path) return page.state.entry + 1;
        const happened = Stories.happened(path, page.state.entry);
        return happened < path.length ? path[happened] + 1 : page.state.entry;
    };

    const backwards = () => {
        const { path } = page.list;
        if (!path) return page.state.entry - 1;
        const happened = Stories.happened(path, page.state.entry - 1);
        return happened > 0 ? path[happened - 1] + 1 : 0;
    };

    // to the entry of a line of the script, or of the next one that has an entry
    const toLine = number => {
        const entry = Journal.ofLine(page.run, number);
        go(entry < 0 ? page.run.count : entry + 1);
    };

    const lineOn = step => {
        const { run, state } = page;
        const line = state.line < 0 ? 0 : run.scriptLines.indexOf(state.line) + 1; // so many lines have begun
        if (step > 0) go(line < run.scriptLines.length ? run.scriptLines[line] + 1 : run.count);
        else if (line > 0 && state.entry > state.line + 1) go(state.line + 1);
        else go(line > 1 ? run.scriptLines[line - 2] + 1 : 0);
    };

    const speed = () => Number($("speed").value);

    const stop = () => {
        page.playing = 0;
        $("play").textContent = "play \u25B6";
        $("playback").textContent = "\u25C0";
        if (page.run) {
            drawNow();
            keepMoment();
        }
    };

    const tick = time => {
        if (!page.playing) return;
        page.owed += Math.min(1000, time - page.playing) * speed() / 1000;
        page.playing = time;
        const due = Math.floor(page.owed);
        if (due > 0) {
            page.owed -= due;
            go(afterMany(page.way * due), page.way > 0 && speed() <= 5);
        }
        if (isAtEnd()) stop();
        else requestAnimationFrame(tick);
    };

    // the entry so many entries of the journal, or of what the list shows, from that of now
    const afterMany = count => {
        const { path } = page.list;
        if (!path) return page.state.entry + count;
        const isOn = count > 0;
        const happened = Stories.happened(path, isOn ? page.state.entry : page.state.entry - 1) + (isOn ? count : count + 1);
        return happened <= 0 ? 0 : path[Math.min(path.length, happened) - 1] + 1;
    };

    // whether there is nothing more to play this way
    const isAtEnd = () => {
        const { entry } = page.state;
        return page.way < 0 ? entry === 0 : entry >= onwards() || entry === page.run.count;
    };

    // plays on, or back where `way` is -1; stops what plays
    const play = way => {
        if (page.playing) return stop();
        page.way = way;
        if (isAtEnd()) go(way > 0 ? 0 : page.run.count);
        page.playing = performance.now();
        page.owed = 0;
        $(way > 0 ? "play" : "playback").textContent = way > 0 ? "stop \u25A0" : "\u25A0";
        requestAnimationFrame(tick);
        return undefined;
    };

    const step = n => {
        if (!page.run) return;
        if (page.playing) stop();
        go(n, n > page.state.entry);
    };

    // What stands above the list keeps the height that it had, so that the list stays in its place from step to step.
    const now = { height: 0, width: 0 };
    const keepHeight = height => {
        now.height = height;
        $("now").style.setProperty("--kept", `${height}px`);
    };
    new ResizeObserver(() => {
        const { offsetHeight: height, offsetWidth: width } = $("now");
        if (height > now.height || width !== now.width) keepHeight(width === now.width ? height : 0);
        now.width = width;
    }).observe($("now"));

    // shows the story of a frame, a host or a switch alone; of null the whole journal again
    const tell = subject => {
        if (!page.run) return;
        keepHeight(0);
        page.subject = subject;
        page.story = subject ? Stories.of(page.run, subject) : null;
        if (!subject) page.sift = { ...Sift.NONE, folds: page.sift.folds };
        sift();
        choose("journal");
        draw(false);
    };

    const tellNow = () => {
        const id = page.run && page.state.entry > 0 ? Journal.frameOf(page.run, page.state.entry - 1) : 0;
        if (id > 0) tell({ frame: id });
    };

    const choose = name => {
        for (const tab of ["journal", "script", "fabric"]) {
            $(tab).hidden = tab !== name;
            $(`tab-${tab}`).setAttribute("aria-selected", String(tab === name));
            $(`tab-${tab}`).tabIndex = tab === name ? 0 : -1;
        }
        $("sift").hidden = name !== "journal";
        if (page.run) drawLists();
    };

    const faster = step => {
        const select = $("speed");
        select.selectedIndex = Math.max(0, Math.min(select.options.length - 1, select.selectedIndex + step));
    };

    const nameOf = run => `k ${run.fabric.k}, ${Words.plural(run.fabric.switches.length, "switch", "switches")}, `
        + `${Words.plural(run.fabric.hosts.length, "host")}, ${Words.plural(run.count, "entry", "entries")}`;

    // draws the picture alone, as it is once so many entries have happened
    const drawnAt = entry => {
        const state = At.at(page.states, entry);
        picture.set(state, Scene.of(page.run, state, null));
        picture.draw();
    };

    const UNSEEN = $("unseen").textContent;
    const LOGGED = "In a log each step of the fabric is an entry: what a switch or the fabric manager hears is drawn where it is heard.";

    const show = (opened, name) => {
        if (page.playing) stop();
        Object.assign(page, opened, { name, state: At.at(opened.states, 0), subject: null, story: null, sift: Sift.NONE, known: null });
        $("kind").replaceChildren(...[["", "of any kind"], ...Sift.kindsOf(page.run)].map(([value, text]) => new Option(text, value)));
        sift();
        keepHeight(0);
        $("welcome").hidden = true;
        $("tools").hidden = false;
        document.body.classList.add("open");
        picture.show(page.run);
        chart.show(page.run);
        $("find").disabled = false;
        $("slider").max = $("entry").max = page.run.count;
        $("opened").textContent = `${name ? `${name}: ` : ""}${nameOf(page.run)}`;
        $("tab-script").hidden = !page.script;
        Texts.put($("tab-journal"), page.run.isLog ? "Log" : "Journal");
        $("unseen").textContent = Said.isLog(page.run) ? LOGGED : UNSEEN;
        $("filter").value = "";
        drawnAt(page.run.count); // so that its texts are measured before a step is waited for
        picture.set(page.state, Scene.of(page.run, page.state, null));
        choose("journal");
        if (!toMoment()) go(0);
        document.body.dataset.open = page.run.count;
    };

    // says why no run is open
    const refuse = error => {
        if (page.playing) stop();
        page.run = null;
        page.files = {};
        picture.scene = null;
        $("refused").textContent = error.message;
        $("wanted").textContent = "";
        $("opened").textContent = "no run is open";
        $("find").disabled = true;
        $("tools").hidden = true;
        document.body.classList.remove("open");
        $("welcome").hidden = false;
    };

    // a moment in which the page is drawn
    const drawn = () => new Promise(done => requestAnimationFrame(() => setTimeout(done)));

    const NONE = "No topology, journal or script is among these files.";

    // Opens the files of a run. Topology and journal are wanted; until both are there, what was given is kept. While a run is open,
    // another topology begins a new one, and another journal is one of that topology.
    const open = async (files, name) => {
        if (page.run && files.topology) page.files = {};
        else if (page.run && files.journal) page.files = { topology: page.files.topology };
        Object.assign(page.files, files);
        const missing = ["topology", "journal"].filter(what => !page.files[what]);
        const isNone = Object.keys(files).length === 0;
        if (isNone || missing.length > 0) {
            const wanted = `Now open its ${missing.join(" and its ")}.`;
            $("refused").textContent = isNone && !page.run ? NONE : "";
            $("wanted").textContent = isNone ? "" : wanted;
            if (page.run) $("opened").textContent = isNone ? NONE : wanted;
            return;
        }
        try {
            $("refused").textContent = $("wanted").textContent = "";
            $("opened").textContent = "reading the run";
            await drawn();
            show(Files.runOf(page.files), name);
        } catch (error) {
            refuse(error);
        }
    };

    return {
        page, picture, open, refuse, go, draw, drawKnown, step, onwards, backwards, lineOn, toLine, play, tell, tellNow, toMoment,
        choose, faster, resift,
    };
})();
