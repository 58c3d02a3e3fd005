"use strict";
// What the fabric manager knows, of a log: the places and links that switches told it, the pods, addresses, avoid lists and trees that it gave; and
// behind a restart whose reports are missing. Until the last report has ended it keeps what it hears, and treats it then (docs/RULES.md).
globalThis.Manager = (() => {
    const { KIND, EVENT } = Journal;

    const nothing = epoch => ({
        epoch, begun: new Set(), ended: new Set(), kept: [],
        places: new Map(), links: new Map(), members: new Map(), learned: new Map(), // what it heard
        pods: new Map(), numbers: new Map(), trees: new Map(), avoiding: new Set(), // what it gave
    });

    const isGathering = (run, all) => all.epoch > 0 && all.ended.size < run.fabric.switches.length;

    // what a switch told it, once it is treated
    const treat = (all, who, { kind, words }) => {
        if (kind === "place") all.places.set(who, words);
        else if (kind === "link") all.links.set(`${who} ${words[0]}`, words[1] === "usable");
        else if (kind === "learned") all.learned.set(words[0], { who, mac: words[1], ip: words[2] });
        else if (kind === "members") {
            const edges = all.members.get(words[0]) || new Set();
            edges[words[1] === "some" ? "add" : "delete"](who);
            all.members.set(words[0], edges);
        }
    };

    const hear = (run, all, who, line) => {
        const { kind, words } = line;
        if (kind === "begin" && words[0] === `${all.epoch}`) all.begun.add(who);
        else if (kind === "end" && words[0] === `${all.epoch}` && all.begun.has(who)) all.ended.add(who);
        else if (isGathering(run, all)) {
            if (all.begun.has(who)) all.kept.push([who, line]);
            return;
        }
        if (isGathering(run, all)) return;
        for (const [of, kept] of all.kept) treat(all, of, kept);
        all.kept = [];
        if (kind !== "begin" && kind !== "end") treat(all, who, line);
    };

    // what it does and says
    const give = (all, { verb, kind, words: [first, second, ...rest] }) => {
        if (verb === "does" && kind === "number") all.numbers.set(first, second);
        if (verb !== "says") return;
        if (kind === "pod") all.pods.set(first, second);
        else if (kind === "avoid") all.avoiding.add(first);
        else if (kind === "release") {
            all.numbers.delete(second);
            all.learned.delete(second);
        } else if (kind === "tree") {
            const parts = all.trees.get(second) || new Map();
            if (rest.length === 0) parts.delete(first);
            else parts.set(first, rest);
            all.trees.set(second, parts);
        }
    };

    let kept = null; // what it knew when it was asked for last, from which it goes on

    // what it knows once so many entries have happened
    const known = (run, entry) => {
        if (!kept || kept.run !== run || kept.entry > entry) kept = { run, entry: 0, all: nothing(0) };
        for (; kept.entry < entry; kept.entry++) {
            const n = kept.entry;
            if (run.kind[n] !== KIND.event) continue;
            if (run.c[n] === EVENT.restart) kept.all = nothing(kept.all.epoch + 1);
            if (run.c[n] !== EVENT.told) continue;
            const who = Words.switchOf(run, run.a[n]);
            for (const line of Said.below(run, n)) {
                if (line.verb === "heard") hear(run, kept.all, who, line);
                else give(kept.all, line);
            }
        }
        return kept.all;
    };

    // the switches whose reports are missing behind a restart
    const missing = (run, all) => (all.epoch === 0 ? [] : run.fabric.switches.filter(({ label }) => !all.ended.has(label)).map(({ label }) => label));

    // what stands in its box in the picture
    const texts = (run, all) => {
        if (all.epoch === 0) return [`${all.places.size} places, ${all.numbers.size} addresses`];
        const ended = run.fabric.switches.length - missing(run, all).length;
        if (ended < run.fabric.switches.length) return [`restart ${all.epoch}: ${ended} of ${run.fabric.switches.length} reports`];
        return [`restart ${all.epoch}: ${all.places.size} places, ${all.numbers.size} addresses`];
    };

    // a link is alive where both ends told it usable
    const linksOf = ({ links }) => {
        const isAlive = pair => links.get(pair) && links.get(pair.split(" ").reverse().join(" "));
        const alive = [...links.keys()].filter(isAlive).length / 2;
        const unusable = [...links].filter(([, usable]) => !usable).map(([pair]) => `${pair.replace(" ", " told its link to ")} unusable`);
        const single = [...links].filter(([pair, usable]) => usable && !links.has(pair.split(" ").reverse().join(" "))).length;
        return [`${Words.count(alive)} alive`, ...(single > 0 ? [`${Words.count(single)} told usable by one end alone`] : []), ...unusable].join("; ");
    };

    const addressRow = (run, { learned }, [pmac, number]) => {
        const { mac, ip } = learned.get(pmac) || { mac: "", ip: "-" };
        const host = mac === "" ? undefined : run.fabric.macs.get(Fabric.macNumber(mac));
        const whose = host === undefined ? "" : ` of ${Words.hostOf(run, host)}`;
        return ["address", `${pmac}${whose}${ip === "-" ? "" : `, ${ip}`}, number ${Words.count(number)}`];
    };

    const treeRow = ([group, parts]) => {
        const core = [...parts].find(([who]) => who.startsWith("c"));
        const others = [...parts].filter(([who]) => !who.startsWith("c")).map(([who, [up]]) => `${who} up to ${Told.nobody(up)}`);
        return ["tree", `of ${Told.groupText(group)}: ${core ? `core switch ${core[0]}` : "no core switch"}${others.length > 0 ? `; ${others.join(", ")}` : ""}`];
    };

    const reportRows = (run, all) => {
        if (all.epoch === 0) return [];
        const waits = missing(run, all);
        const rows = [["restarts", `${all.epoch}`], ["reports", waits.length === 0 ? "all have ended" : `${run.fabric.switches.length - waits.length} of ${run.fabric.switches.length} have ended`]];
        if (waits.length === 0) return rows;
        return [...rows, ["missing", Told.listed(waits)], ["keeps", `${Words.plural(all.kept.length, "message")} until the last report has ended`]];
    };

    // what stands beside the picture where its story is shown
    const facts = (run, state) => {
        const all = known(run, state.entry);
        const places = [...all.places].map(([who, place]) => `${who} ${Told.place(place)}`);
        return [
            ...reportRows(run, all),
            ["places", places.length === 0 ? "none so far" : `${places.length} of ${run.fabric.switches.length}: ${places.join("; ")}`],
            ["links", all.links.size === 0 ? "none so far" : linksOf(all)],
            ["pods", all.pods.size === 0 ? "none given so far" : [...all.pods].map(([who, pod]) => `${pod} to ${who}`).join(", ")],
            ...[...all.numbers].map(entry => addressRow(run, all, entry)),
            ...(all.numbers.size === 0 ? [["addresses", "none registered so far"]] : []),
            ...[...all.members].filter(([, edges]) => edges.size > 0).map(([group, edges]) => ["members", `of ${Told.groupText(group)} at ${Told.listed([...edges])}`]),
            ...(all.avoiding.size > 0 ? [["avoid lists", `told to ${Told.listed([...all.avoiding])}`]] : []),
            ...[...all.trees].filter(([, parts]) => parts.size > 0).map(treeRow),
        ];
    };

    // the switches to which it says something in an event
    const toldIn = (run, n) => {
        if (run.kind[n] !== KIND.event || run.c[n] !== EVENT.told) return [];
        const labels = Said.below(run, n).filter(({ verb }) => verb === "says").map(({ words }) => words[0]);
        return [...new Set(labels)].map(label => Fabric.number(run.fabric, label)).filter(number => number >= 0);
    };

    // Of each restart: its event, the event with which the last report ended, and the one with which the report of each switch began; of each run they
    // are looked for once.
    const byRun = new WeakMap();
    const gatherings = run => {
        if (byRun.has(run)) return byRun.get(run);
        const found = [];
        let all = nothing(0);
        for (let n = 0; n < run.count; n++) {
            if (run.kind[n] !== KIND.event) continue;
            if (run.c[n] === EVENT.restart) {
                all = nothing(all.epoch + 1);
                found.push({ from: n, to: run.count, begins: new Map() });
            }
            if (run.c[n] !== EVENT.told || !isGathering(run, all)) continue;
            const who = Words.switchOf(run, run.a[n]);
            for (const line of Said.below(run, n)) if (line.verb === "heard") hear(run, all, who, line);
            const last = found[found.length - 1];
            if (all.begun.has(who) && !last.begins.has(who)) last.begins.set(who, n);
            if (!isGathering(run, all)) last.to = n;
        }
        byRun.set(run, found);
        return found;
    };

    // What it does with what it hears in an event while reports are missing: "keeps" it, or "passes over" what a switch told before its report; else "".
    const holdsAt = (run, n) => {
        const gathering = run.restarts.length === 0 ? undefined : gatherings(run).find(({ from, to }) => n > from && n < to);
        if (!gathering) return "";
        const begin = gathering.begins.get(Words.switchOf(run, run.a[n]));
        return begin !== undefined && begin <= n ? "keeps" : "passes over";
    };

    return { known, missing, texts, facts, toldIn, holdsAt };
})();
