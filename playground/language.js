"use strict";
// The words of scripts and topologies: how they are coloured, what may come next, and which lines are wrong before they are played. What words
// there are is said by the tables of tools/explain (hints.js).
globalThis.Language = (() => {
    const MOST = 300000; // lines times switches: longer scripts are looked at by the program alone
    const { VERBS, CAUSES, KEYS, Fabric: Topology, forms_of: formsOf, line_fault: faultOf, words_in: wordsIn } = Hints;
    const SWITCH = /^[eac](0|[1-9][0-9]?)\.(0|[1-9][0-9]?)$/;

    // What a topology says, as far as it can be read: its hosts and k.
    const topologyOf = text => {
        Python.files = new Map([["topology.toml", Bytes.ofText(text)]]);
        return new Topology("topology.toml");
    };

    // the parts of a line, each with the class of its colour
    const parted = (line, classOf) => {
        const parts = [];
        const comment = line.indexOf("#");
        const code = comment < 0 ? line : line.slice(0, comment);
        let n = 0;
        for (const [word] of code.matchAll(/[ \t]+|[^ \t]+/g)) parts.push([word, /^[ \t]/.test(word) ? "" : classOf(word, n++)]);
        if (comment >= 0) parts.push([line.slice(comment), "word-comment"]);
        return parts;
    };

    const colourScript = (line, hosts) => parted(line, (word, n) => {
        const bare = word.replace(/\r$/, "");
        if (n === 0) return VERBS.has(bare) ? "word-verb" : "word-wrong";
        if (hosts.has(bare) || bare === "all" || bare === "manager") return "word-host";
        if (SWITCH.test(bare)) return "word-switch";
        return /^[0-9.:a-fA-F]+$/.test(bare) ? "word-number" : "";
    });

    const colourTopology = line => {
        const found = /^(\s*)([\w-]+)(\s*=\s*)(.*)$/.exec(line);
        if (!found) return /^\s*\[/.test(line) ? [[line, "word-verb"]] : /^\s*#/.test(line) ? [[line, "word-comment"]] : [[line, ""]];
        const [, blanks, key, equals, value] = found;
        const [, bare, rest] = /^("[^"]*"|'[^']*'|[^#]*)(.*)$/.exec(value);
        return [[blanks, ""], [key, "word-key"], [equals, ""], [bare, /^["']/.test(bare) ? "word-text" : "word-number"], [rest, "word-comment"]];
    };

    const labelsOf = topology => (topology.k === null ? [] : topology.labels());

    // the words that a form takes at a place
    const ofKind = (kind, topology, words) => {
        const hosts = topology.hosts();
        if (kind === "H") return hosts;
        if (kind === "X") return [...hosts, ...labelsOf(topology), "manager"];
        if (kind === "CAUSE") return CAUSES;
        if (kind !== "S") return [];
        const isLink = ["fail", "repair", "lose"].includes(words[0]) && words.length === 2 && topology.k !== null && labelsOf(topology).includes(words[1]);
        return isLink ? topology.neighbours(words[1]) : labelsOf(topology);
    };

    // the words that may complete the last one before the caret
    const completeScript = (before, topology) => {
        const words = before.split(/[ \t]+/).filter((word, n, all) => word !== "" || n === all.length - 1);
        const done = words.slice(0, -1);
        if (done.length === 0) return [...VERBS.keys()];
        let [verb, ...rest] = done;
        if (!VERBS.has(verb)) return [];
        if (verb === "expect") {
            if (rest.length === 0) return ["arrived", "dropped", "address", "settled"];
            [verb, ...rest] = rest;
        }
        const forms = ["arrived", "dropped", "address", "settled"].includes(verb) || VERBS.has(verb) ? formsOf(verb) : [];
        const kinds = forms.filter(form => form.length > rest.length).map(form => form[rest.length]);
        const all = Hints.takes_all(verb, rest.length) ? ["all"] : [];
        return [...new Set([...kinds.flatMap(kind => ofKind(kind, topology, done)), ...all])];
    };

    const completeTopology = (before, lines, at, topology) => {
        const value = /^\s*([\w-]+)\s*=\s*"?[^"]*$/.exec(before);
        if (value) {
            if (value[1] === "edge") return labelsOf(topology).filter(label => label.startsWith("e"));
            return ["label", "a", "b"].includes(value[1]) ? labelsOf(topology) : [];
        }
        if (/^\s*\[/.test(before)) return [...KEYS.keys()];
        const head = lines.slice(0, at).findLast(line => /^\s*\[\[/.test(line));
        const found = head && /\[\[\s*(\w+)/.exec(head);
        return found ? KEYS.get(found[1]) || [] : ["k"];
    };

    // The lines of a script that are wrong, by their numbers, each with what is to be said of it.
    const wrongLines = (lines, topology) => {
        const wrong = new Map();
        if (topology.document === null || topology.k === null || lines.length * (topology.labels().length + topology.hosts().length) > MOST) return wrong;
        lines.forEach((line, n) => {
            const words = wordsIn(line);
            const fault = words.length > 0 ? faultOf(topology, words) : null;
            if (fault) wrong.set(n + 1, { kind: "faulty", text: fault[2] });
        });
        return wrong;
    };

    return { topologyOf, colourScript, colourTopology, completeScript, completeTopology, wrongLines };
})();
