"use strict";
// What stands beside the picture of the entry of now: the header of its frame, or what is known of the switch, host or frame
// whose story is shown. Facts are rows of a name and parts; a part is a text, or a button that shows another story.
globalThis.Facts = (() => {
    const frame = id => ({ text: `${id}`, subject: { frame: id } });
    const host = (run, number) => ({ text: Words.hostOf(run, number), subject: { host: number } });
    const place = (run, number) => ({ text: Words.switchOf(run, number), subject: { switch: number } });

    const name = (run, subject) => {
        if (subject.manager) return "the fabric manager";
        if (subject.frame !== undefined) return `frame ${subject.frame}`;
        if (subject.host !== undefined) return `host ${Words.hostOf(run, subject.host)}`;
        return `switch ${Words.switchOf(run, subject.switch)}`;
    };

    const flyingAt = (run, state, wanted) => {
        const here = [];
        for (const [id, n] of state.flying) {
            const at = At.where(run, n);
            if (at.host === wanted.host && at.switch === wanted.switch) here.push(frame(id));
        }
        const more = here.length > 40 ? [`and ${here.length - 40} more`] : [];
        return here.length === 0 ? ["none"] : [...here.slice(0, 40), ...more];
    };

    const LINKS = ["live", "failed", "none of the tree"];

    const portOf = (run, state, s, port) => {
        const number = s.ports[port];
        if (number >= 0) {
            const link = run.fabric.links[number];
            const other = link.a === s.number ? link.b : link.a;
            return [place(run, other), LINKS[state.failed[number]]];
        }
        const found = state.spots.indexOf(s.number * run.fabric.k + port);
        return found < 0 ? ["for a host, none is there"] : ["host", host(run, found)];
    };

    const ofSwitch = (run, state, number) => {
        const s = run.fabric.switches[number];
        const known = At.place(state, number);
        const pod = s.pod === null ? "" : `, in pod ${s.pod} of the wiring`;
        const knows = [["knows", Words.placeText(known)], ["placed", At.isPlaced(known) ? "yes" : "no"]];
        return [
            ["id", `${s.id}`],
            ["stands", `${Fabric.LEVELS[s.level]} switch${pod}`],
            ...(Journal.isOfBridge(run) ? [] : knows),
            ["frames", ...flyingAt(run, state, { switch: number })],
            ...Said.facts(run, state, number),
            ...s.ports.map((_, port) => [`port ${port}`, ...portOf(run, state, s, port)]),
        ];
    };

    const addressFacts = (run, state, host) => run.addresses
        .filter(address => address.host === host && address.granted < state.entry)
        .map(address => {
            const known = Journal.registrationAt(run, address, state.entry);
            const registered = Journal.isFreed(address, state.entry) ? "freed" : known ? `registered as ${known.number}` : "not registered";
            return [Frames.macText(address.number), `port ${address.port} of ${Words.switchOf(run, address.edge)}, ${registered}`];
        });

    const ofHost = (run, state, number) => {
        const { mac, ip } = run.fabric.hosts[number];
        const spot = At.spot(run.fabric, state, number);
        const granted = addressFacts(run, state, number);
        const none = Journal.isOfBridge(run) ? [] : [["pseudo address", "none was granted so far"]];
        return [
            ["own address", mac],
            ["IP address", ip],
            ["stands at", `port ${spot.port} of`, place(run, spot.edge)],
            ["its frames", ...flyingAt(run, state, { host: number })],
            ...(granted.length > 0 ? granted : none),
        ];
    };

    const endOf = (run, state, id) => {
        const end = run.end[id];
        if (end < 0 || end >= state.entry) return "in flight";
        const kind = run.kind[end];
        if (kind === Journal.KIND.dropped) return `dropped: ${Journal.CAUSES[run.b[end]]}`;
        if (kind === Journal.KIND.taken) return `taken by ${Words.switchOf(run, run.b[end])}`;
        return `arrived at ${Words.hostOf(run, run.b[end])}`;
    };

    const ofFrame = (run, state, id) => {
        const newest = At.newest(run, state, id);
        if (newest < 0) return [["frame", "has not begun"]];
        const first = Journal.beginning(run, id);
        const isSent = run.kind[first] === Journal.KIND.sent;
        const by = isSent ? ["host", host(run, run.b[first])] : ["switch", place(run, run.b[first])];
        const crossed = Words.trail(run, newest).map(number => place(run, number));
        const copy = run.parent[id] > 0 ? [["copy of", frame(run.parent[id])]] : [];
        const address = At.address(run, newest);
        return [
            ["begun by", ...by],
            ...copy,
            ["is", endOf(run, state, id)],
            ["crossed", ...(crossed.length > 0 ? crossed : ["nothing"])],
            ["present address", Frames.macText(address), Words.who(run, address, state.entry)],
        ];
    };

    const of = (run, state, subject) => {
        if (subject.manager) return Manager.facts(run, state);
        if (subject.frame !== undefined) return ofFrame(run, state, subject.frame);
        return subject.host !== undefined ? ofHost(run, state, subject.host) : ofSwitch(run, state, subject.switch);
    };

    // The header of a frame with the entry that has its bytes: the frame as it arrived where it has, else as it began.
    const header = (run, state, id) => {
        const newest = At.newest(run, state, id);
        if (newest < 0) return null;
        const isArrived = run.kind[newest] === Journal.KIND.arrived;
        const n = isArrived ? newest : Journal.beginning(run, id);
        const rows = Words.header(run, Frames.read(Journal.frame(run, n)), state.entry);
        return { title: `Frame ${id} as it ${isArrived ? "arrived" : "began"}`, rows };
    };

    return { name, of, header };
})();
