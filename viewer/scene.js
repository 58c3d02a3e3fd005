"use strict";
// What is drawn once so many entries have happened: a function of the journal and the topology alone. Between two entries
// of a frame a journal has only where it was at the earlier one, so a frame is drawn there until its next entry.
globalThis.Scene = (() => {
    const { KIND, CAUSES } = Journal;

    const samePlace = (a, b) => a.host === b.host && a.switch === b.switch && a.spot === b.spot && a.manager === b.manager;

    // the places of a frame up to entry n, the oldest first, no place twice in a row
    const wayOf = (run, n) => {
        const way = [];
        for (const at of At.past(run, n)) {
            const place = At.where(run, at);
            if (way.length === 0 || !samePlace(way[way.length - 1], place)) way.push(place);
        }
        return way;
    };

    // whether a link of the wiring, a host's port, or the manager's own network leads from one place to the other
    const isJoined = ({ fabric }, a, b) => {
        if (a.manager || b.manager) return true;
        if (a.switch !== undefined && b.switch !== undefined) return Fabric.link(fabric, a.switch, b.switch) >= 0;
        const [host, other] = a.switch === undefined ? [a, b] : [b, a];
        return other.switch === Math.floor(host.spot / fabric.k);
    };

    const noteOf = (run, n) => {
        switch (run.kind[n]) {
            case KIND.sent: return "sent";
            case KIND.made: return "made";
            case KIND.redirected: return "redirected";
            case KIND.copied: return `copied: ${run.b[n]}`;
            case KIND.arrived: return "\u2713 arrived";
            case KIND.taken: return "taken";
            case KIND.dropped: return `\u2715 ${CAUSES[run.b[n]]}`;
            case KIND.skipped: return "skipped";
            case KIND.granted: return "address granted";
            case KIND.registered: return "address registered";
            case KIND.placed: return "place learnt";
            case KIND.moved: return "moved here";
            case KIND.linkdown: return Journal.isLeftOut(run, n) ? "left out" : "\u2715 link fails";
            case KIND.linkup: return "link repaired";
            case KIND.freed: return "address freed";
            case KIND.event: return Said.note(run, n);
            case KIND.restarted: return "restarted";
            default: return "";
        }
    };

    // where an entry happens: a place, or a link
    const placeOf = (run, n) => {
        const kind = run.kind[n];
        if (Journal.frameOf(run, n) > 0) return At.where(run, n);
        if (kind === KIND.skipped || kind === KIND.moved) return { host: run.a[n] };
        if (kind === KIND.granted) return { host: run.b[n] };
        if (kind === KIND.registered) return { host: run.addresses[run.a[n]].host };
        if (kind === KIND.freed) return { switch: run.addresses[run.a[n]].edge };
        if (kind === KIND.placed) return { switch: run.a[n] };
        if (kind === KIND.event) return Said.placeOf(run, n);
        if (kind === KIND.restarted) return Said.isLog(run) ? { manager: true } : null;
        return kind === KIND.linkdown || kind === KIND.linkup ? { link: run.a[n] } : null;
    };

    // the entry of now, which is the last that happened: its frame, where it is, and where that frame came from with it
    const nowOf = (run, n) => {
        const place = placeOf(run, n);
        const frame = Journal.frameOf(run, n);
        const before = run.before[n];
        const said = run.kind[n] === KIND.event ? Said.from(run, n) : null;
        const last = said || (frame > 0 && before >= 0 ? At.where(run, before) : null);
        const from = last && !samePlace(last, place) && isJoined(run, last, place) ? last : null;
        const control = said && from ? Said.carried(run, n) : "";
        return { entry: n, frame, place, from, note: control ? "" : noteOf(run, n), control, told: Manager.toldIn(run, n) };
    };

    // The frames that are flying, by the place of their newest entry: a switch's number, or a port for hosts as a number below 0.
    const flyingAt = (run, state) => {
        const places = new Map();
        for (const [id, n] of state.flying) {
            const place = At.where(run, n);
            const key = place.host === undefined ? place.switch : -1 - place.spot;
            if (places.has(key)) places.get(key).push(id);
            else places.set(key, [id]);
        }
        return places;
    };

    // `subject` is whose story is shown, or null
    const of = (run, state, subject = null) => {
        const now = state.entry === 0 ? null : nowOf(run, state.entry - 1);
        const focus = subject && subject.frame !== undefined ? subject.frame : now ? now.frame : 0;
        const newest = focus > 0 ? At.newest(run, state, focus) : -1;
        const way = newest >= 0 ? wayOf(run, newest) : [];
        const steps = way.slice(1).map((to, n) => [way[n], to]).filter(([from, to]) => isJoined(run, from, to));
        return { now, focus, way, steps, flying: flyingAt(run, state), subject };
    };

    return { of, wayOf };
})();
