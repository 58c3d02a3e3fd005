"use strict";
// What the fabric knows at a glance: which switches are placed, in the order in which they came to it, and which addresses were
// granted and registered. Each list is made once of a run; what has happened by an entry is its beginning.
globalThis.Knowledge = (() => {
    const { KIND } = Journal;

    // the entries with which switches became placed
    const placings = run => {
        const placed = new Uint8Array(run.fabric.switches.length);
        const entries = [];
        for (let n = 0; n < run.count; n++) {
            if (run.kind[n] !== KIND.placed || placed[run.a[n]] || !At.isPlaced(Journal.unpackPlace(run.b[n]))) continue;
            placed[run.a[n]] = 1;
            entries.push(n);
        }
        return entries;
    };

    // the entry with which a switch became placed, -1 where none did; of each run they are looked for once
    const byRun = new WeakMap();
    const placedBy = (run, number) => {
        if (!byRun.has(run)) byRun.set(run, new Map(placings(run).map(entry => [run.a[entry], entry])));
        return byRun.get(run).has(number) ? byRun.get(run).get(number) : -1;
    };

    const of = run => ({ run, placings: placings(run), grants: run.addresses.map(({ granted }) => granted), texts: [] });

    const placed = ({ run, placings: entries }, n) => {
        const entry = entries[n];
        const { pod, position } = Journal.unpackPlace(run.b[entry]);
        const level = Fabric.LEVELS[run.fabric.switches[run.a[entry]].level];
        const where = [level, ...(pod === null ? [] : [`pod ${pod}`]), ...(position === null ? [] : [`position ${position}`])].join(", ");
        return { subject: { switch: run.a[entry] }, cells: [Words.switchOf(run, run.a[entry]), where], entries: [["entry", entry]] };
    };

    const address = ({ run }, n, now) => {
        const { number, host, edge, port, granted, freed } = run.addresses[n];
        const isFreed = Journal.isFreed(run.addresses[n], now);
        const last = Journal.registrationAt(run, run.addresses[n], isFreed ? freed : now);
        return {
            subject: { host },
            cells: [Words.hostOf(run, host), `${Frames.macText(number)} at ${Words.switchOf(run, edge)} port ${port}`],
            entries: [["granted", granted], ...(last ? [[`as ${last.number}`, last.entry]] : []), ...(isFreed ? [["freed", freed]] : [])],
            note: last || isFreed ? "" : "not registered",
        };
    };

    // row n of a list, once so many entries have happened
    const row = (known, list, n, now) => (list === "placed" ? placed(known, n) : address(known, n, now));

    const textOf = (known, list, n, now) => {
        const { cells, entries, note } = row(known, list, n, now);
        return [...cells, ...entries.map(([name]) => name), note || ""].join(" ").toLowerCase();
    };

    // The numbers of the rows of a list that have a text in them, once so many entries have happened; of all where it is empty.
    const rows = (known, list, filter, now) => {
        const count = Stories.happened(list === "placed" ? known.placings : known.grants, now);
        const wanted = filter.trim().toLowerCase();
        const all = Array.from({ length: count }, (_, n) => n);
        return wanted === "" ? all : all.filter(n => textOf(known, list, n, now).includes(wanted));
    };

    const summary = ({ run, placings: entries, grants }, list, now) => {
        if (Journal.isOfBridge(run)) return list === "placed" ? "learning bridges have no places" : "learning bridges grant no addresses";
        if (list === "placed") {
            return `${Stories.happened(entries, now)} of ${Words.plural(run.fabric.switches.length, "switch", "switches")} are placed`;
        }
        const granted = run.addresses.slice(0, Stories.happened(grants, now));
        const free = granted.filter(one => Journal.isFreed(one, now)).length;
        const known = granted.filter(one => !Journal.isFreed(one, now) && Journal.registrationAt(run, one, now)).length;
        return `${granted.length} granted, ${known} registered, ${free} freed`;
    };

    return { of, row, rows, summary, placedBy };
})();
