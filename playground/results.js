"use strict";
// What is said of a run: the line of the program with what is to be done about it, what it printed, and the files that it saved.
globalThis.Results = (() => {
    const $ = id => document.getElementById(id);
    const MOST_OUT = 200000; // letters of what was printed that are shown
    const MOST_FILES = 40; // that have a button each

    const elementOf = (tag, text, name = "") => {
        const element = document.createElement(tag);
        element.textContent = text;
        if (name) element.className = name;
        return element;
    };
    const buttonOf = (text, act) => {
        const button = elementOf("button", text);
        button.type = "button";
        button.addEventListener("click", act);
        return button;
    };

    // says a text above the editors
    const say = (text, isRefused) => {
        $("play-said").replaceChildren(...(text ? text.split("\n").map(line => elementOf("p", line, isRefused ? "refused" : "")) : []));
    };

    const OUT_OF_MEMORY = "this run wants more memory than a browser gives: play it by the program (README.md says how)";

    // What is to be done about how a run ended, in lines. Those that name commands of a shell are left away where the page has a button for it.
    const hintsOf = (answer, scenario, words) => {
        if (answer.status === 12) return [`hint: ${OUT_OF_MEMORY}`];
        const files = new Map([...Scenario.files(scenario), ...answer.saved]);
        if (scenario.journal) files.set("journal.txt", scenario.journal);
        Python.files = files;
        const line = answer.err.trim().split("\n").pop();
        try {
            const lines = [...Hints.hints(answer.status, line, words)];
            if (answer.status === 3) lines.push("hint: add that capture below, or make frames for it");
            return lines.filter(text => !/portland until|tools\/stats|there is no folder|: there is no such file$/.test(text));
        } catch (error) {
            return [`note: there is no hint (${error.message})`];
        }
    };

    // the file and the line that are refused, by what the program says
    const placeOf = (answer, hints) => {
        const found = /, line (\d+)/.exec(answer.err);
        if ([5, 8, 9, 11].includes(answer.status)) return found ? { file: "script", line: Number(found[1]) } : null;
        if (answer.status !== 4) return null;
        const shown = hints.filter(line => /^ +\d+ \| /.test(line));
        const [reason, key] = answer.err.trim().split(": ").pop().split(" ");
        const ofKey = key && shown.find(line => line.split("|")[1].trim().split(/\s*=/)[0] === key);
        const first = ofKey || (reason === "NotToml" ? shown[shown.length - 1] : shown[0]);
        return first ? { file: "topology", line: Number(/\d+/.exec(first)[0]) } : null;
    };

    // Says how a run ended. `acts` has what the buttons do: `go(place)` and `until(line)`.
    const ended = (answer, scenario, words, acts) => {
        const box = $("play-said");
        const hints = hintsOf(answer, scenario, words);
        const place = answer.status === 0 ? null : placeOf(answer, hints);
        box.replaceChildren();
        if (answer.status !== 0) box.append(elementOf("p", answer.err.trim() || `it ended with status ${answer.status}`, "refused"));
        if (hints.length > 0) box.append(elementOf("pre", hints.join("\n")));
        if (place) {
            box.append(buttonOf(`go to line ${place.line}`, () => acts.go(place)));
            if ([8, 9, 11].includes(answer.status) && place.line > 1) box.append(" ", buttonOf(`play up to before line ${place.line}`, () => acts.until(place.line)));
        }
        return { place, text: hints.filter(line => line.startsWith("hint: ")).map(line => line.slice(6)).join("; ") || answer.err.trim() };
    };

    const number = value => value.toLocaleString("en-US");

    const took = answer => `status ${answer.status}, ${answer.seconds < 1 ? `${Math.round(1000 * answer.seconds)} milliseconds` : `${answer.seconds.toFixed(1)} seconds`}, `
        + `${number(Math.ceil(answer.memory / 1048576))} MiB`;

    // shows what was printed and saved
    const show = answer => {
        $("play-result").hidden = false;
        $("play-took").textContent = took(answer);
        const cut = answer.out.length > MOST_OUT ? `\n.. and ${number(answer.out.length - MOST_OUT)} letters more: save it to see all` : "";
        $("play-out").textContent = answer.out.slice(0, MOST_OUT) + cut;
        const files = [...answer.saved].map(([path, bytes]) => [path.split("/").pop(), bytes]);
        if (answer.out.length > MOST_OUT) files.push(["printed.txt", Bytes.ofText(answer.out)]);
        const first = files.sort(([a], [b]) => (b === "journal.txt") - (a === "journal.txt")).slice(0, MOST_FILES);
        $("play-saved").replaceChildren(...first.map(([name, bytes]) => buttonOf(`${name} (${number(bytes.length)})`, () => Moment.save(new Blob([bytes]), name))));
        if (files.length > MOST_FILES) $("play-saved").append(`and ${files.length - MOST_FILES} more: save all has them`);
    };

    const clear = () => {
        $("play-result").hidden = true;
        say("", false);
    };

    return { say, ended, show, clear, buttonOf, OUT_OF_MEMORY };
})();
