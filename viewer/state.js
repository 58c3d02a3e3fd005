"use strict";
// What a journal says of the fabric once so many of its entries have happened. `At.run(run)` goes through the journal once
// and keeps a mark every few thousand entries; `at(n)` copies the last mark before n and goes on from there, so that a step
// backwards costs no more than one forwards, in a journal of any length.
globalThis.At = (() => {
    const { KIND, EVENT, HEARD } = Journal;
    const SPACING = 4096;

    // Of entries, `line`, `rest` and those in `address` are the numbers of rows; -1 is none.
    const start = run => {
        const { fabric } = run;
        return {
            entry: 0, // so many entries have happened
            line: -1, // the last `line`
            rest: -1, // the last `settled` or `unsettled`
            places: new Int32Array(fabric.switches.length), // packed as in Journal
            failed: new Uint8Array(fabric.links.length),
            spots: Int32Array.from(fabric.hosts, host => host.edge * fabric.k + host.port),
            newest: new Int32Array(fabric.hosts.length).fill(-1), // the address that a host was granted last, where it is not freed
            crossings: new Int32Array(fabric.switches.length), // how many frames each switch received
            carried: new Int32Array(fabric.links.length), // how many frames came over each link
            flying: new Map(), // frames that have begun and not ended, each with its newest entry
            counts: new Int32Array(Journal.WORDS.length + 2), // of entries, by their kind
            causes: new Int32Array(Journal.CAUSES.length),
            messages: new Int32Array(2), // of a log: control frames over links, and messages to and from the fabric manager
        };
    };

    const LEFT_OUT = 2; // of a link in `failed`: it is none of the tree of learning bridges

    // what a state has a row of numbers of
    const ROWS = ["places", "failed", "spots", "newest", "crossings", "carried", "counts", "causes", "messages"];

    const copy = state => ({ ...state, ...Object.fromEntries(ROWS.map(name => [name, state[name].slice()])) });

    // A mark holds its flying frames as a plain row of numbers, which takes less than a map.
    const markOf = state => ({ ...copy(state), flying: Int32Array.from([...state.flying].flat()) });

    // a mark as a state: as one that is used up, where there is one, whose rows are written anew
    const fromMark = (mark, used) => {
        const state = used || { ...copy(mark), flying: new Map() };
        if (used) for (const name of ROWS) used[name].set(mark[name]);
        [state.entry, state.line, state.rest] = [mark.entry, mark.line, mark.rest];
        state.flying.clear();
        for (let i = 0; i < mark.flying.length; i += 2) state.flying.set(mark.flying[i], mark.flying[i + 1]);
        return state;
    };

    // A frame comes at a switch: a load of that switch, and of the link that it came over.
    const load = (run, state, n) => {
        const [here, before] = [run.b[n], run.before[n]];
        const from = before < 0 ? -1 : run.at[before];
        state.crossings[here]++;
        const link = from < 0 ? -1 : Fabric.link(run.fabric, from, here);
        if (link >= 0) state.carried[link]++;
    };

    // whether a control frame comes over a link in an event, or a message to or from the manager
    const isControl = (run, n) => run.c[n] === EVENT.along && run.spot[n] === HEARD.message;
    const isOfManager = (run, n) => run.c[n] === EVENT.told || run.c[n] === EVENT.says;

    // the next entry happens
    const step = (run, state) => {
        const n = state.entry;
        const kind = run.kind[n];
        const [a, b, c] = [run.a[n], run.b[n], run.c[n]];
        state.entry = n + 1;
        state.counts[kind]++;
        switch (kind) {
            case KIND.line: state.line = n; break;
            case KIND.settled:
            case KIND.unsettled: state.rest = n; break;
            case KIND.placed: state.places[a] = b; break;
            case KIND.linkdown: state.failed[a] = Journal.isLeftOut(run, n) ? LEFT_OUT : 1; break;
            case KIND.linkup: state.failed[a] = 0; break;
            case KIND.moved: state.spots[a] = b * run.fabric.k + c; break;
            case KIND.granted: state.newest[b] = a; break;
            case KIND.freed: if (state.newest[b] === a) state.newest[b] = -1; break;
            case KIND.event:
                if (isControl(run, n)) state.messages[0]++;
                else if (isOfManager(run, n)) state.messages[1]++;
                break;
            case KIND.copied: state.flying.set(a, n).set(b, n); break;
            case KIND.sent:
            case KIND.made:
            case KIND.redirected: state.flying.set(a, n); break;
            case KIND.crossed:
                load(run, state, n);
                state.flying.set(a, n);
                break;
            case KIND.dropped: state.causes[b]++; // falls through: it ends
            case KIND.arrived:
            case KIND.taken: state.flying.delete(a); break;
            default:
        }
    };

    // The states of a run. A mark stands where at least `spacing` entries, and as many as frames are flying, have happened
    // since the one before, so that all marks together are no longer than the journal.
    const run = (journal, spacing = SPACING) => {
        const state = start(journal);
        const marks = [markOf(state)];
        while (state.entry < journal.count) {
            step(journal, state);
            const since = state.entry - marks[marks.length - 1].entry;
            if (since >= spacing && since >= state.flying.size) marks.push(markOf(state));
        }
        return { journal, marks };
    };

    const markBefore = (marks, n) => {
        let [low, high] = [0, marks.length - 1];
        while (low < high) {
            const middle = (low + high + 1) >> 1;
            if (marks[middle].entry <= n) low = middle;
            else high = middle - 1;
        }
        return marks[low];
    };

    // The state once n entries have happened. `from`, where given, is a state of the same run that is used up, and becomes this one: the
    // next entries are played on it where that is shorter.
    const at = (states, n, from = null) => {
        const mark = markBefore(states.marks, n);
        const state = from && from.entry <= n && from.entry >= mark.entry ? from : fromMark(mark, from);
        while (state.entry < n) step(states.journal, state);
        return state;
    };

    const place = (state, number) => Journal.unpackPlace(state.places[number]);

    // A switch is placed that knows its level, as an edge switch also its position and pod, as an aggregation switch its pod.
    const isPlaced = ({ level, position, pod }) => level === 2 || (level === 1 && pod !== null)
        || (level === 0 && pod !== null && position !== null);

    const spot = ({ k }, state, host) => ({ edge: Math.floor(state.spots[host] / k), port: state.spots[host] % k });

    // Where a frame was at one of its entries: at a host before it crossed a switch and where it arrived, with the port where the
    // host stood then; else at the switch that it crossed last or that made it.
    const where = (journal, n) => {
        if (journal.kind[n] === KIND.arrived) return { host: journal.b[n], spot: journal.spot[n] };
        if (journal.at[n] >= 0) return { switch: journal.at[n] };
        const first = Journal.beginning(journal, journal.a[n]);
        return { host: journal.b[first], spot: journal.spot[first] };
    };

    // the entries of a frame so far, those before it was copied included, the oldest first
    const past = (journal, n) => {
        const entries = [];
        for (let at = n; at >= 0; at = journal.before[at]) entries.push(at);
        return entries.reverse();
    };

    // the newest entry of a frame once n entries have happened, -1 before its first
    const newest = (journal, state, id) => {
        if (state.flying.has(id)) return state.flying.get(id);
        return journal.end[id] >= 0 && journal.end[id] < state.entry ? journal.end[id] : -1;
    };

    // the destination that it began with, or the address that it was last redirected to
    const address = (journal, n) => {
        for (let at = n; at >= 0; at = journal.before[at]) {
            if (journal.kind[at] === KIND.redirected) return journal.addresses[journal.c[at]].number;
        }
        return Frames.read(Journal.frame(journal, Journal.beginning(journal, journal.a[n]))).destination;
    };

    return { LEFT_OUT, isControl, isOfManager, start, step, run, at, place, isPlaced, spot, where, past, newest, address };
})();
