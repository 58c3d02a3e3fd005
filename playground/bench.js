"use strict";
// The playground: a scenario that is edited, played by the proved program, and shown by the viewer.
globalThis.Bench = (() => {
    const $ = id => document.getElementById(id);
    const NONE = { topology: "k = 4\n", script: "" };
    const state = { captures: new Map(), journal: null, last: null, before: null, examples: {}, topology: null, topologyText: null };

    // ---- the scenario on the page

    const topology = () => {
        const { text } = editors.topology;
        if (text !== state.topologyText) Object.assign(state, { topologyText: text, topology: Language.topologyOf(text) });
        return state.topology;
    };
    const hostNames = () => new Set(topology().hosts());

    const scenario = () => ({
        title: $("play-title").value.trim(), command: $("play-command").value, topology: editors.topology.text, script: editors.script.text,
        captures: state.captures, gen: { k: $("play-k").value, number: $("play-number").value.trim(), frames: $("play-frames").value.trim() },
    });

    const put = given => {
        $("play-title").value = given.title;
        $("play-command").value = given.command;
        editors.topology.put(given.topology);
        editors.script.put(given.script);
        state.captures = new Map(given.captures);
        bench.captures = state.captures;
        $("play-k").value = given.gen.k;
        $("play-number").value = given.gen.number;
        $("play-frames").value = given.gen.frames;
        Results.clear();
        $("play-about").textContent = "";
        $("play-example").value = "";
        showCommand();
        lint();
        Captures.draw();
    };
    // puts another scenario in the place of this one, which `undo` brings back
    const replace = given => {
        state.before = scenario();
        $("play-undo").disabled = false;
        put(given);
        keepSoon();
    };
    const undo = () => {
        const { before } = state;
        if (before) replace(before);
    };

    const isBlank = () => {
        const now = scenario();
        return now.script.trim() === "" && now.captures.size === 0 && now.topology.trim() === NONE.topology.trim();
    };
    const clear = () => {
        if (!isBlank() && !window.confirm("Begin a new scenario? Topology, script and captures are taken away; undo brings them back.")) return;
        replace({ ...Scenario.empty(), ...NONE });
        Sharing.forget();
    };

    let waiting = 0;
    const keepNow = async () => {
        const told = await Sharing.keep(scenario());
        if (told) $("play-told").textContent = told;
    };
    const keepSoon = () => {
        clearTimeout(waiting);
        waiting = setTimeout(keepNow, 500);
    };

    const showCommand = () => {
        const { value } = $("play-command");
        $("play-gen").hidden = value !== "gen";
        for (const id of ["play-topology", "play-script", "play-captures"]) {
            $(id).hidden = value === "gen" || (id !== "play-topology" && ["check", "verify"].includes(value));
        }
        $("play-log").disabled = !Runner.has("watch") || value !== "run";
    };

    // ---- lines that are wrong before they are played

    let linting = 0;
    const lint = () => {
        clearTimeout(linting);
        linting = setTimeout(() => {
            const refused = [...editors.script.marks].filter(([, { kind }]) => kind === "refused");
            editors.script.mark(new Map([...Language.wrongLines(editors.script.lines, topology()), ...refused]));
        }, 300);
    };

    const editors = {
        topology: Editor.of($("play-topology"), {
            colour: Language.colourTopology,
            complete: (before, lines, line) => Language.completeTopology(before, lines, line, topology()),
            changed: () => { lint(); Captures.draw(); keepSoon(); },
        }),
        script: Editor.of($("play-script"), {
            colour: line => Language.colourScript(line, hostNames()),
            complete: before => Language.completeScript(before, topology()),
            changed: () => { lint(); keepSoon(); },
        }),
    };

    const bench = {
        captures: state.captures, topology, topologyText: () => editors.topology.text,
        setTopology: text => editors.topology.edit(text),
        changed: () => { Captures.draw(); keepSoon(); },
    };

    // ---- playing

    let ticking = 0;
    const began = { at: 0, does: "", memory: 0 };
    const drawProgress = () => {
        const memory = began.memory > 0 ? `, ${Math.ceil(began.memory / 1048576)} MiB` : "";
        $("play-progress").textContent = `${began.does}, ${Math.floor((performance.now() - began.at) / 1000)} s${memory}`;
    };
    const notice = ({ reads, saves, memory }) => {
        if (memory) began.memory = memory;
        if (reads) began.does = "plays";
        if (saves) began.does = `saves ${saves.split("/").pop()}`;
    };
    const setRunning = isRunning => {
        $("play-run").disabled = isRunning;
        $("play-stop").disabled = !isRunning;
        $("play-log").disabled = isRunning || !Runner.has("watch") || $("play-command").value !== "run";
        clearInterval(ticking);
        if (!isRunning) $("play-progress").textContent = "";
        else {
            Object.assign(began, { at: performance.now(), does: "plays", memory: 0 });
            ticking = setInterval(drawProgress, 200);
        }
    };

    const brokenText = error => {
        if (error instanceof Runner.Stopped) return "stopped: nothing was saved";
        if (/memory|allocat/i.test(error.message)) return Results.OUT_OF_MEMORY;
        if (/stack|recursion/i.test(error.message)) return `${error.message}: this run wants a larger stack than a browser gives: play it by the program`;
        return error.message;
    };

    // plays words by a module; answers what came of it, or null where it did not end
    const play = async (name, words, files) => {
        setRunning(true);
        Results.say("", false);
        try {
            return await Runner.play(name, words, files, notice);
        } catch (error) {
            Results.say(brokenText(error), true);
            return null;
        } finally {
            setRunning(false);
        }
    };

    const mark = ({ place, text }) => {
        if (!place) return;
        editors[place.file].mark(new Map([[place.line, { kind: "refused", text }]]));
        editors[place.file].reveal(place.line);
    };

    const acts = {
        go: place => editors[place.file].go(place.line),
        until: line => run(line),
    };

    const filesOf = (now, words) => {
        const files = Scenario.files(now);
        const fault = words[0] === "gen" ? Scenario.genFault(now.gen) : "";
        if (fault) throw new Error(fault);
        if (words[0] !== "verify") return files;
        if (!state.journal) throw new Error("there is no journal to check: play a run first, or drop a journal.txt here");
        return files.set("journal.txt", state.journal);
    };

    const cutBefore = (text, line) => (line ? text.split("\n").slice(0, line - 1).join("\n") : text);

    // Plays what is on the page, up to before a line of the script where one is named, and shows it.
    const run = async untilLine => {
        if (Runner.isRunning()) return null;
        const given = scenario();
        const now = { ...given, script: cutBefore(given.script, untilLine), journal: state.journal };
        const words = Scenario.words(now);
        let files;
        try {
            files = filesOf(now, words);
        } catch (error) {
            Results.say(error.message, true);
            return null;
        }
        const answer = await play("portland", words, files);
        if (!answer) return null;
        state.last = answer;
        mark(Results.ended(answer, now, words, acts));
        Results.show(answer);
        const journal = answer.saved.get("out/journal.txt");
        if (journal) {
            state.journal = journal;
            await Page.open({ topology: files.get("topology.toml"), script: files.get("script"), journal }, now.title || "playground");
        }
        return answer;
    };

    // What switches and the manager say, by the program that watches; the viewer shows it in the place of the journal.
    const watch = async () => {
        if (Runner.isRunning() || !Runner.has("watch")) return null;
        const now = scenario();
        const files = Scenario.files(now);
        const words = ["--topology", "topology.toml", "--script", "script", "--captures", "captures"];
        const answer = await play("watch", words, files);
        if (!answer) return null;
        state.last = answer;
        mark(Results.ended(answer, now, ["run", ...words, "--out", "out"], acts));
        Results.show(answer);
        if (answer.status === 0) {
            const log = Bytes.ofText(answer.out);
            $("play-saved").append(Results.buttonOf(`log.txt (${log.length})`, () => Moment.save(new Blob([log]), "log.txt")));
            await Page.open({ topology: files.get("topology.toml"), script: files.get("script"), journal: log }, now.title || "playground");
        }
        return answer;
    };

    // ---- files that are added

    const addFiles = async list => {
        const captures = [];
        const told = [];
        for (const file of list) {
            if (/\.(pcap|pcapng|cap|dmp)$/i.test(file.name)) captures.push(file);
            else if (file.size > 16 << 20 && !/journal/i.test(file.name)) told.push(`${file.name} is too large: a topology and a script have at most 16 MiB`);
            else await addOther(file, captures, told);
        }
        if (captures.length > 0) told.push(await Captures.add(captures));
        Results.say(told.filter(Boolean).join("\n"), false);
    };
    const addOther = async (file, captures, told) => {
        let bytes;
        try {
            bytes = new Uint8Array(await file.arrayBuffer());
        } catch {
            told.push(`${file.name} cannot be read; of a folder drop the files in it`);
            return;
        }
        const kind = Files.kindOf(file.name, bytes);
        if (kind === "topology") editors.topology.put(Bytes.textOf(bytes));
        else if (kind === "script") editors.script.put(Bytes.textOf(bytes));
        else if (kind === "journal") {
            state.journal = bytes;
            told.push(`${file.name} is the journal now: verify checks it`);
        } else captures.push(file);
        lint();
        bench.changed();
    };

    // ---- what the page opens with

    const fillExamples = () => {
        $("play-example").append(new Option("choose one", ""), ...Object.keys(state.examples).map(name => new Option(name, name)));
    };
    const openExample = name => {
        if (!Object.hasOwn(state.examples, name)) return;
        const example = state.examples[name];
        replace(Scenario.ofLetters(example));
        $("play-example").value = name;
        $("play-about").textContent = example.about;
    };

    const fromLink = async () => {
        try {
            const found = await Scenario.ofLink(window.location.hash);
            if (!found) return false;
            window.history.replaceState(null, "", window.location.pathname + window.location.search);
            replace(found);
            return true;
        } catch (error) {
            Results.say(`The link cannot be opened: ${error.message}`, true);
            return false;
        }
    };
    const fromPage = async () => {
        const packed = document.querySelector('script[data-part="scenario"]');
        if (!packed) return false;
        try {
            put(await Scenario.unpack(packed.textContent));
            return true;
        } catch (error) {
            Results.say(`The scenario of this page cannot be opened: ${error.message}`, true);
            return false;
        }
    };
    const fromBefore = async () => {
        try {
            const found = await Sharing.kept();
            if (!found) return false;
            put(found);
            return true;
        } catch {
            Sharing.forget();
            return false;
        }
    };

    const share = async () => {
        const { address, large } = await Sharing.link(scenario());
        try {
            await navigator.clipboard.writeText(address);
            $("play-told").textContent = `copied${large}`;
        } catch {
            window.prompt("The link to this scenario:", address);
        }
    };

    const listen = () => {
        const on = (id, name, act) => $(id).addEventListener(name, act);
        on("play-example", "change", () => openExample($("play-example").value));
        on("play-empty", "click", clear);
        on("play-undo", "click", undo);
        on("play-command", "change", () => { showCommand(); keepSoon(); });
        on("play-run", "click", () => run());
        on("play-stop", "click", Runner.stop);
        on("play-log", "click", watch);
        on("play-add", "change", async () => { await addFiles([...$("play-add").files]); $("play-add").value = ""; });
        on("play-zip", "click", () => Sharing.archive(scenario(), state.last ? state.last.saved : new Map()));
        on("play-link", "click", share);
        on("play-html", "click", () => Sharing.page(scenario()));
        on("play-title", "input", keepSoon);
        // keys of the playground are not the viewer's
        on("bench", "keydown", event => {
            event.stopPropagation();
            if (event.key === "Enter" && (event.ctrlKey || event.metaKey)) run();
        });
        // what is dropped here, and a capture wherever it is dropped, is for the playground
        const isOurs = event => event.target.closest("#bench") || [...event.dataTransfer.files].some(file => /\.(pcap|pcapng|cap)$/i.test(file.name));
        document.addEventListener("drop", event => {
            if (!isOurs(event)) return;
            event.preventDefault();
            event.stopImmediatePropagation();
            addFiles([...event.dataTransfer.files]);
        }, true);
        on("bench", "dragover", event => { event.preventDefault(); event.stopPropagation(); });
        window.addEventListener("hashchange", fromLink);
        window.addEventListener("pagehide", keepNow);
    };

    const begin = async () => {
        document.body.classList.add("bench");
        $("play-k").append(...Array.from({ length: 11 }, (_, n) => new Option(`${4 + 2 * n}`, `${4 + 2 * n}`)));
        Captures.on(bench, Results.say);
        put({ ...Scenario.empty(), ...NONE });
        const lack = Runner.lack();
        if (lack) Results.say(lack, true);
        else state.examples = JSON.parse(Bytes.textOf(await Bytes.unpacked(Bytes.ofLetters(document.querySelector('script[data-part="examples"]').textContent))));
        fillExamples();
        listen();
        $("play-version").textContent = document.querySelector('meta[name="portland"]').content;
        if (await fromLink()) return;
        let refused = $("play-said").innerText;
        if (!await fromPage()) {
            refused = $("play-said").innerText;
            if (!await fromBefore()) openExample("four-hosts");
        }
        state.before = null;
        $("play-undo").disabled = true;
        if (refused) Results.say(refused, true);
    };

    const ready = begin();
    return { ready, run, watch, scenario, replace, openExample, addFiles, editors, state, undo };
})();
