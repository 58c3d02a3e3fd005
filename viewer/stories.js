"use strict";
// The story of a frame, a host or a switch: the entries that speak of it, the oldest first.
globalThis.Stories = (() => {
    const { KIND } = Journal;

    const select = (run, speaks) => {
        const entries = [];
        for (let n = 0; n < run.count; n++) if (speaks(n)) entries.push(n);
        return entries;
    };

    // the frame's own entries, before them those of the frame that it is a copy of
    const ofFrame = (run, id) => {
        const own = At.past(run, run.begin[id]);
        for (let n = run.begin[id] + 1; n < run.count; n++) {
            if (Journal.frameOf(run, n) === id) own.push(n);
            if (run.end[id] === n) break;
        }
        return own;
    };

    // what it sends and receives, where it stands, its addresses, and the ends of its frames that crossed no switch
    const ofHost = (run, host) => select(run, n => {
        switch (run.kind[n]) {
            case KIND.sent:
            case KIND.arrived:
            case KIND.freed:
            case KIND.granted: return run.b[n] === host;
            case KIND.skipped:
            case KIND.moved: return run.a[n] === host;
            case KIND.registered: return run.addresses[run.a[n]].host === host;
            case KIND.redirected: return run.addresses[run.c[n]].host === host;
            case KIND.dropped: return run.at[n] < 0 && At.where(run, n).host === host;
            default: return false;
        }
    });

    // the frames that it receives, makes, takes and is the last to have, its place, its links, and the hosts at its ports
    const ofSwitch = (run, number) => select(run, n => {
        switch (run.kind[n]) {
            case KIND.crossed:
            case KIND.made:
            case KIND.taken:
            case KIND.copied:
            case KIND.redirected:
            case KIND.dropped:
            case KIND.arrived: return run.at[n] === number;
            case KIND.placed: return run.a[n] === number;
            case KIND.granted: return Math.floor(run.c[n] / run.fabric.k) === number;
            case KIND.linkdown:
            case KIND.linkup: return run.b[n] === number || run.c[n] === number;
            case KIND.moved: return run.b[n] === number;
            case KIND.freed: return run.addresses[run.a[n]].edge === number;
            case KIND.event: return run.a[n] === number;
            default: return false;
        }
    });

    // what the fabric manager hears and says, what it registers, and its restarts
    const ofManager = run => select(run, n => [KIND.registered, KIND.restarted].includes(run.kind[n])
        || (run.kind[n] === KIND.event && (At.isOfManager(run, n) || run.c[n] === Journal.EVENT.restart)));

    const of = (run, subject) => {
        if (subject.manager) return ofManager(run);
        if (subject.frame !== undefined) return ofFrame(run, subject.frame);
        return subject.host !== undefined ? ofHost(run, subject.host) : ofSwitch(run, subject.switch);
    };

    // How many entries of a story have happened once n entries of the journal have.
    const happened = (story, n) => {
        let [low, high] = [0, story.length];
        while (low < high) {
            const middle = (low + high) >> 1;
            if (story[middle] < n) low = middle + 1;
            else high = middle;
        }
        return low;
    };

    // Who is called by a text: where a log is open the fabric manager, a frame by its number, a switch by its label, a host by its name or by an address of its own or
    // granted to it. A host's name may look like a frame's number; then the host comes first, and `#7` is the frame.
    const find = (run, text) => {
        const { fabric } = run;
        const word = text.trim();
        if (fabric.names.has(word)) return { host: fabric.names.get(word) };
        if (/^#?[0-9]+$/.test(word)) {
            const id = Number(word.replace("#", ""));
            return id > 0 && id < run.begin.length ? { frame: id } : null;
        }
        if (/^([0-9a-f]{2}:){5}[0-9a-f]{2}$/i.test(word)) {
            const number = Fabric.macNumber(word);
            if (fabric.macs.has(number)) return { host: fabric.macs.get(number) };
            return run.byAddress.has(number) ? { host: run.addresses[run.byAddress.get(number)].host } : null;
        }
        if (word === "manager") return Said.isLog(run) ? { manager: true } : null;
        const host = fabric.hosts.find(h => h.ip === word);
        if (host) return { host: host.number };
        const number = Fabric.number(fabric, word);
        return number < 0 ? null : { switch: number };
    };

    return { of, happened, find };
})();
