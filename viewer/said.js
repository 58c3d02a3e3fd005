"use strict";
// What stands below the events of a log of `portland watch`, and what a switch knows by it at an entry.
globalThis.Said = (() => {
    const { KIND, EVENT } = Journal;

    // the lines below an event: verb, kind and further words
    const below = (run, n) => (run.kind[n] !== KIND.event ? [] : Journal.text(run, n).split("\n").slice(1).map(line => {
        const [verb, kind, ...words] = line.trim().split(" ");
        return { verb, kind, words };
    }));

    const heard = (run, n) => below(run, n).find(({ verb }) => verb === "heard") || null;

    // where what comes in an event comes from: over a link, or from or to the fabric manager; or null
    const from = (run, n) => {
        if (run.c[n] === EVENT.told) return { switch: run.a[n] };
        if (run.c[n] === EVENT.says) return { manager: true };
        return run.c[n] === EVENT.along ? { switch: run.b[n] } : null;
    };

    // where an event happens
    const placeOf = (run, n) => (run.c[n] === EVENT.told || run.c[n] === EVENT.restart ? { manager: true } : turnOf(run, n));

    // what a control frame that comes over a link is called in the picture, "" where a data frame comes
    const carried = (run, n) => {
        const said = heard(run, n);
        if (!said || said.kind === "frame") return "";
        return said.kind === "vote" ? said.words[3] : said.kind;
    };

    const portText = words => (words[0] === "host" ? "a host" : `${words[0]}, ${Told.place(words.slice(1))}, which heard ${Told.nobody(words[4])} here; ${words[5]}`);

    const holdText = ([edge, fixed]) => (edge === "-" ? "free" : `held for ${edge}, ${fixed === "fixed" ? "for good" : "not for good yet"}`);

    const avoidText = ([neighbour, pod, position]) => `${neighbour} for pod ${pod}, position ${position}`;

    // the switch whose turn it is in an event, else the host; null where the fabric manager restarts
    const turnOf = (run, n) => (run.a[n] >= 0 ? { switch: run.a[n] } : run.b[n] >= 0 ? { host: run.b[n] } : null);

    const note = (run, n) => {
        if (run.c[n] === EVENT.tick) return "ticks";
        if (run.c[n] === EVENT.restart) return "restarts";
        const said = heard(run, n);
        return said ? `hears ${said.kind}` : "";
    };

    // ---- what a switch knows

    const nothing = () => ({ ports: new Map(), silent: new Map(), attempt: null, granted: [], holds: new Map(), avoid: new Set(), trees: new Map(), addresses: [], traps: new Map() });

    // a line below an event of the switch, whatever came before
    const learn = (known, { verb, kind, words }) => {
        if (verb === "does" && kind === "grant") known.addresses.push(words);
        if (verb === "does" && kind === "free") known.addresses = known.addresses.filter(([pmac]) => pmac !== words[0]);
        if (verb === "tells" && kind === "aged") known.traps.delete(words[0]);
        if (verb === "heard" && kind === "invalidate") known.traps.set(words[0], words[1]);
        if (verb !== "knows") return;
        if (kind === "port") known.ports.set(words[0], words.slice(1));
        else if (kind === "silent") known.silent.set(words[0], words[1]);
        else if (kind === "attempt") [known.attempt, known.granted] = [words[0] === "-" ? null : words, []];
        else if (kind === "granted") known.granted.push(words[0]);
        else if (kind === "hold") known.holds.set(words[0], words.slice(1));
        else if (kind === "avoid") known.avoid[words[0] === "+" ? "add" : "delete"](words.slice(1).join(" "));
        else if (kind === "tree" && words.length === 1) known.trees.delete(words[0]);
        else if (kind === "tree") known.trees.set(words[0], [words[1]]);
        else if (kind === "below") known.trees.get(words[0]).push(words[1]);
    };

    // What switches knew when they were asked for last, from which they go on: of so many of them.
    const KEPT = 4;
    let kept = [];

    // what a switch knows once so many entries have happened
    const known = (run, number, entry) => {
        const goesOn = one => one.run === run && one.number === number && one.entry <= entry;
        const one = kept.find(goesOn) || { run, number, entry: 0, all: nothing() };
        kept = [one, ...kept.filter(other => other !== one && !(other.run === run && other.number === number))].slice(0, KEPT);
        for (; one.entry < entry; one.entry++) {
            const n = one.entry;
            if (run.kind[n] === KIND.event && run.a[n] === number) for (const line of below(run, n)) learn(one.all, line);
        }
        return one.all;
    };

    const isLog = run => run.isLog;

    // the port of a switch out of which a frame comes in an event
    const portOf = (run, n) => Number(Journal.text(run, n).split("\n")[0].split(" ")[4]);

    const grantText = ports => (ports.length > 0 ? `granted by port ${ports.join(", ")}` : "not granted so far");

    // what is heard at a port, and for how long nothing was
    const heardAt = (words, silent) => {
        if (silent < 2) return portText(words);
        return `${portText(silent < 3 ? words : [...words.slice(0, 5), "unusable"])}; silent for ${silent} ticks`;
    };

    // what stands beside the picture of a switch whose story is shown: nothing where no log is open
    const facts = (run, state, number) => {
        if (!isLog(run)) return [];
        const { ports, silent, attempt, granted, holds, avoid, trees, addresses, traps } = known(run, number, state.entry);
        return [
            ...(attempt ? [["proposes", `position ${attempt[1]}, by attempt ${attempt[0]}; ${grantText(granted)}`]] : []),
            ...[...holds].map(([position, words]) => [`position ${position}`, holdText(words)]),
            ...(avoid.size > 0 ? [["avoids", [...avoid].map(entry => avoidText(entry.split(" "))).join("; ")]] : []),
            ...[...traps].map(([old, now]) => ["trap", `${old} leads on to ${now}`]),
            ...addresses.map(([pmac, mac]) => ["granted", `${pmac} to ${mac}`]),
            ...[...ports].map(([port, words]) => [`hears at ${port}`, heardAt(words, Number(silent.get(port) || 0))]),
            ...[...trees].map(([group, [up, ...down]]) => ["tree", `of ${Told.groupText(group)}: ${Told.nobody(up)} above, ${down.length > 0 ? down.join(", ") : "nobody"} below`]),
        ];
    };

    return { below, heard, from, placeOf, turnOf, carried, note, known, facts, isLog, portOf };
})();
