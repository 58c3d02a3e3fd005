"use strict";
// The rule behind an entry: the definitions and files that docs/RULES.md names for its line, on the fabric or on learning bridges, those behind an
// event of a log, and for the cause of a drop also what was so there.
globalThis.Rules = (() => {
    const { KIND, CAUSES, WORDS } = Journal;

    // A row of the table: what its line or cause is, what defines it, and the files. In `Table` quotes stand for backticks.
    const cellsOf = line => line.split("|").slice(1, -1).map(cell => cell.trim());
    const fileOf = name => (name.endsWith(".rt") ? `crates/${name}` : `crates/${name.replace(/\/([^/]+)$/, "/specs/$1.antt")}`);
    const isRow = cells => cells[2].includes("/"); // and no head of a table
    const rowsOf = text => text.trim().split("\n").map(cellsOf).filter(isRow).map(([what, says, files]) => (
        { names: [...what.matchAll(/"([A-Za-z]+)/g)].map(found => found[1]), what, says, files: files.split(", ").map(fileOf) }));
    const [OF_FABRIC, OF_BRIDGE] = [rowsOf(Table.fabric), rowsOf(Table.bridge)];

    // A row of what a switch, the manager, a host or the world does: the rule is a sentence.
    const OF_STEPS = rowsOf(Table.steps).map(({ what, says, files }) => ({ names: [...says.matchAll(/"(\w+)"/g)].map(found => found[1]), says: `${what}: ${says}`, files }));
    const OF_STEP = new Map(OF_STEPS.flatMap(row => row.names.map(name => [name, row])).reverse());

    const rowOf = name => OF_FABRIC.find(({ names }) => names.includes(name)) || null;
    const OF_WORD = WORDS.map(rowOf);
    const OF_CAUSE = CAUSES.map(rowOf);
    // the causes among which a switch chooses, by what it knows; the others are those of links, hosts and the script
    const OF_SWITCH = ["NotPlaced", "NoNextHop", "NoAddress", "Spent", "BadArp", "NoMember"];
    const OF_EACH_CAUSE = OF_FABRIC.find(({ says }) => says.includes('"cause_of"')) || null;

    // what learning bridges have a row of their own for, else that of the fabric
    const bridgeRowOf = name => OF_BRIDGE.find(({ names }) => names.includes(name)) || rowOf(name);
    const BRIDGE_OF_WORD = WORDS.map(bridgeRowOf);
    const BRIDGE_OF_CAUSE = CAUSES.map(bridgeRowOf);

    // what to look at where a frame ended so on learning bridges
    const LOOK_AT_BRIDGES = {
        NoNextHop: "No loss, unless its host moved and has not sent since: it stands on the side of the tree from which the frame came, where a flood "
            + "has reached it.",
        HostGone: "Look at the frame's destination, and at where its host stands. A flood ends so at each port where that host does not stand, which "
            + "is no loss; and a host that moved gets its frames at the old port until it sends.",
        Lost: "Look at the line of the script: it took this frame.",
        LinkDown: "Look at the link: the picture crosses it out. A flood ends so at each link that is none of the tree, which is no loss; where a "
            + "link of the tree failed since, bridges find no other way.",
        NoMember: "No loss: bridges flood what is for a group, and a host that has not joined it takes none of it.",
    };

    const part = row => (row ? [{ says: row.says.replace(/"/g, "`"), files: row.files }] : []);

    const ofFabric = (run, n) => {
        if (run.kind[n] !== KIND.dropped) return part(OF_WORD[run.kind[n]]);
        const cause = run.b[n];
        return [...part(OF_CAUSE[cause]), ...(OF_SWITCH.includes(CAUSES[cause]) ? part(OF_EACH_CAUSE) : [])];
    };

    const ofBridge = (run, n) => {
        const kind = run.kind[n];
        if (kind === KIND.linkdown && !Journal.isLeftOut(run, n)) return part(OF_WORD[kind]);
        return part(kind === KIND.dropped ? BRIDGE_OF_CAUSE[run.b[n]] : BRIDGE_OF_WORD[kind]);
    };

    // of an event of a log, the rules behind it; of a link that is repaired, and of a cause, they stand in the other table
    const stepRow = name => OF_STEP.get(name) || OF_FABRIC.find(({ names, says }) => names.includes(name) || says.includes(`"${name}"`)) || null;
    const ofEvent = (run, n) => [...new Set(Why.of(run, n).map(stepRow))].flatMap(part);

    // The rules of entry n, as parts of what is said and the files that it stands in; of a line that the script's player writes
    // there is none.
    const of = (run, n) => {
        if (run.kind[n] === KIND.event) return ofEvent(run, n);
        return Journal.isOfBridge(run) ? ofBridge(run, n) : ofFabric(run, n);
    };

    // What was so where a frame ended, of another entry nothing; `state` is that once entry n has happened.
    const look = (run, n, state, script = null) => {
        if (run.kind[n] !== KIND.dropped) return "";
        return Journal.isOfBridge(run) ? LOOK_AT_BRIDGES[CAUSES[run.b[n]]] : Drops.said(run, n, state, script);
    };

    return { of, look, rowOf, bridgeRowOf, stepRow };
})();
