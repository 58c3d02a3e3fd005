"use strict";
// Says what an entry means, in a sentence, and what stands in a frame's header. It says what the journal and the topology say
// up to that entry, and nothing else.
globalThis.Words = (() => {
    const { KIND, CAUSES, SKIPS } = Journal;

    const CAUSE = {
        NotPlaced: "the switch does not know its place yet, or not that of the neighbour whom it came from",
        NoNextHop: "no port leads on to its address",
        NoAddress: "its address is granted to nobody at the switch that it names",
        HostGone: "the host that it is for does not stand where it was led, or its sender moved away while it still waited",
        LinkDown: "the link that it was put on is failed, or failed while it waited there",
        Lost: "a lose line of the script took it off its link",
        Spent: "the port has granted all its addresses, none of them is free, and the sender has none in use there",
        BadArp: "its ARP packet cannot be read",
        NoMember: "nobody is reached there who has joined its group",
    };
    // what else a cause means where learning bridges play
    const BRIDGE_CAUSE = {
        NoNextHop: "its destination stands behind the port by which it came",
        HostGone: "nobody stands at that port, or it is for another host than the one there",
        LinkDown: "the link that it was put on is failed, or none of the tree",
        NoMember: "that host has not joined its group",
    };
    const SKIP = {
        CutRecord: "the capture holds only a part of the frame",
        Short: "the frame has less than 14 bytes",
        Long: "the frame has more than 65,553 bytes",
        ForeignSource: "the frame does not say that it comes from this host",
        ControlType: "its type, 0x88b5, is kept for the switches",
        RecordedArp: "the host asks by ARP on its own",
        NoOwner: "its destination is the address of no other host",
        HoldFull: "64 frames wait for that address already",
    };

    // where a frame ends so, it ends at the switch that it crossed last; else there, or on its way on from there
    const AT_SWITCH = ["NotPlaced", "NoNextHop", "NoAddress", "Spent", "BadArp"];

    const switchOf = (run, number) => Fabric.label(run.fabric, number);
    const hostOf = (run, number) => run.fabric.hosts[number].name;
    const ordinal = n => {
        const ending = [11, 12, 13].includes(n % 100) ? "th" : ["th", "st", "nd", "rd"][n % 10] || "th";
        return `${n}${ending}`;
    };
    // a number with commas between thousands
    const count = n => `${n}`.replace(/\B(?=(\d{3})+$)/g, ",");
    const plural = (n, word, more = `${word}s`) => `${count(n)} ${n === 1 ? word : more}`;

    // the pod, position, port and number of a pseudo address
    const parts = value => {
        const { pod, position, port, number } = Frames.pseudo(value);
        return `pod ${pod}, position ${position}, port ${port}, number ${number}`;
    };

    const groupText = value => {
        const group = Frames.groupOf(value);
        return group === null ? "a group that is flooded" : `routed group ${group}`;
    };

    // the grant of a pseudo address by one of the first n entries, where it is not freed by then
    const grantedSoFar = (run, value, n) => {
        const address = Journal.grantAt(run, value, n);
        return address && !Journal.isFreed(address, n) ? address : null;
    };

    // the address as a pseudo address, and who was granted it once n entries have happened
    const pseudoWho = (run, value, n) => {
        const address = grantedSoFar(run, value, n);
        if (address) return `pseudo address of ${hostOf(run, address.host)}: ${parts(value)}`;
        if (value % 65536 === 0 && !Journal.isOfBridge(run)) return `sender of a probe: ${parts(value)}`;
        if (Journal.grantAt(run, value, n)) return `freed, granted to nobody now; as a pseudo address: ${parts(value)}`;
        if (Journal.isOfBridge(run)) return "own address of no host here";
        return `granted to nobody so far; as a pseudo address: ${parts(value)}`;
    };

    // who has an address, once n entries have happened
    const who = (run, value, n) => {
        if (value === 2 ** 48 - 1) return "to all";
        if (Frames.isGroup(value)) return groupText(value);
        if (value === 0) return "none";
        const host = run.fabric.macs.get(value);
        const own = host === undefined ? "" : `own address of ${hostOf(run, host)}`;
        return own && !grantedSoFar(run, value, n) ? own : [own, pseudoWho(run, value, n)].filter(text => text !== "").join("; ");
    };

    const shortWho = (run, value, n) => {
        if (value === 2 ** 48 - 1) return "all";
        const address = grantedSoFar(run, value, n);
        if (address) return `${hostOf(run, address.host)}'s pseudo address`;
        if (run.fabric.macs.has(value)) return `${hostOf(run, run.fabric.macs.get(value))}'s own address`;
        if (Frames.isGroup(value)) return groupText(value);
        const isOfProbe = value % 65536 === 0 && !Journal.isOfBridge(run);
        return isOfProbe ? `${Frames.macText(value)}, the sender of a probe` : Frames.macText(value);
    };

    const arpText = arp => {
        if (arp.refused) return `an ARP frame that cannot be read: ${arp.refused}`;
        if (arp.opcode === 2) return `an ARP reply: ${Frames.ipText(arp.senderIp)} is at ${Frames.macText(arp.senderMac)}`;
        if (arp.opcode !== 1) return `an ARP frame with opcode ${arp.opcode}`;
        if (arp.senderIp === arp.targetIp) return `an ARP request for its own address, ${Frames.ipText(arp.targetIp)}`;
        return `an ARP request that asks who has ${Frames.ipText(arp.targetIp)}${arp.senderIp === 0 ? ", as a probe" : ""}`;
    };

    const changesText = changes => {
        if (changes.length === 0) return "a report on groups that changes none";
        return changes.map(({ group, join }) => `${join ? "joins" : "leaves"} ${Frames.ipText(group)}`).join(", ");
    };

    const ipKind = ip => {
        if (ip.igmp) return `an IGMP report: it ${changesText(ip.igmp)}`;
        const ports = ip.sourcePort === undefined ? "" : `, port ${ip.sourcePort} to ${ip.destinationPort}`;
        const ends = `from ${Frames.ipText(ip.source)} to ${Frames.ipText(ip.destination)}`;
        return `IPv4 ${ends}, protocol ${Frames.protocolText(ip.protocol)}${ports}`;
    };

    // what a frame is, in short
    const kindOf = frame => {
        if (frame.arp) return arpText(frame.arp);
        if (frame.ip) return ipKind(frame.ip);
        return `${plural(frame.length, "byte")} of type ${Frames.typeText(frame.type)}`;
    };

    const frameAt = (run, n) => Frames.read(Journal.frame(run, n));

    // the frame as it began, of any entry that speaks of it
    const asBegun = (run, n) => frameAt(run, Journal.beginning(run, run.a[n]));

    const toWhom = (run, frame, n) => `to ${shortWho(run, frame.destination, n)}`;

    const crossed = (run, n) => {
        const [id, here] = [run.a[n], switchOf(run, run.b[n])];
        const before = run.before[n];
        if (before >= 0 && run.kind[before] === KIND.made) return `Frame ${id} starts its way at ${here}.`;
        if (before >= 0 && run.kind[before] === KIND.redirected) return `Frame ${id} starts again at ${here}, for its new address.`;
        const from = before < 0 ? null : At.where(run, before);
        if (!from) return `Switch ${here} receives frame ${id}.`;
        if (from.host !== undefined) return `Switch ${here} receives frame ${id} from its host ${hostOf(run, from.host)}.`;
        if (Fabric.link(run.fabric, from.switch, run.b[n]) < 0) {
            return `Switch ${here} receives frame ${id}, which was at ${switchOf(run, from.switch)}; no link joins the two.`;
        }
        const way = run.fabric.switches[from.switch].level < run.fabric.switches[run.b[n]].level ? "up" : "down";
        return `Switch ${here} receives frame ${id}, on its way ${way} from ${switchOf(run, from.switch)}.`;
    };

    // The manager takes for the newer address of a host the one that it learnt later, which may have been granted earlier.
    const redirected = (run, n) => {
        const [old, address] = [run.addresses[run.b[n]], run.addresses[run.c[n]]];
        const [name, isNewer] = [hostOf(run, address.host), address.granted > old.granted];
        const isThere = address.edge === old.edge && address.port === old.port;
        const why = !isNewer ? `The fabric manager took an earlier address of host ${name} for the newer one`
            : `Host ${name} ${isThere ? "has a newer address at the same port" : "has moved on"}`;
        return `${why}: frame ${run.a[n]}, for ${Frames.macText(old.number)}, goes on to ${isNewer && !isThere ? "its newer address " : ""}`
            + `${Frames.macText(address.number)} (${parts(address.number)}).`;
    };

    // the switches that the frame crossed, one after the other
    const trail = (run, n) => At.past(run, n).filter(at => run.kind[at] === KIND.crossed).map(at => run.b[at]);

    const arrived = (run, n) => {
        const crossings = trail(run, n).map(number => switchOf(run, number));
        return `Frame ${run.a[n]} arrives at host ${hostOf(run, run.b[n])}: ${kindOf(frameAt(run, n))}. `
            + `It crossed ${plural(crossings.length, "switch", "switches")}: ${crossings.join(", ")}.`;
    };

    const taken = (run, n) => {
        const frame = asBegun(run, n);
        const what = frame.arp || (frame.ip && frame.ip.igmp) ? ` (${kindOf(frame)})` : "";
        return `Switch ${switchOf(run, run.b[n])} takes frame ${run.a[n]}${what}: it is for the switch itself.`;
    };

    // the switch that a frame's sender stood at, or that made it
    const originOf = (run, id) => {
        const first = Journal.beginning(run, id);
        return run.kind[first] === KIND.made ? run.b[first] : Math.floor(run.spot[first] / run.fabric.k);
    };

    // Whether a frame to many ended at its sender's own switch once it came back there: a tree reaches all of its switches.
    const isBack = (run, n) => ["NoNextHop", "NoMember"].includes(CAUSES[run.b[n]]) && run.at[n] === originOf(run, run.a[n])
        && trail(run, n).length > 1 && Frames.isGroup(asBegun(run, n).destination);

    const causeText = (run, n) => {
        const cause = CAUSES[run.b[n]];
        if (Journal.isOfBridge(run)) return BRIDGE_CAUSE[cause] || CAUSE[cause];
        if (!isBack(run, n)) return CAUSE[cause];
        return `it came back to its sender's own switch, and nobody else ${cause === "NoMember" ? "there has joined its group" : "stands there"}`;
    };

    const dropped = (run, n) => {
        const cause = CAUSES[run.b[n]];
        const at = At.where(run, n);
        const place = at.host !== undefined ? `after host ${hostOf(run, at.host)} sent it, before it crossed a switch`
            : AT_SWITCH.includes(cause) ? `at switch ${switchOf(run, at.switch)}`
            : `after switch ${switchOf(run, at.switch)}, which it crossed last`;
        return `Frame ${run.a[n]} ends ${place}: ${cause}, ${causeText(run, n)}.`;
    };

    const granted = (run, n) => {
        const { number, host, edge, port } = run.addresses[run.a[n]];
        const spot = `port ${port} of ${switchOf(run, edge)}`;
        return `Host ${hostOf(run, host)} gets the pseudo address ${Frames.macText(number)} at ${spot}: ${parts(number)}.`;
    };

    const registered = (run, n) => {
        const { number, host, registrations } = run.addresses[run.a[n]];
        const as = registrations[run.b[n]].number;
        const again = run.b[n] > 0 ? " again" : "";
        return `The fabric manager has learnt${again} ${Frames.macText(number)} of host ${hostOf(run, host)}, with number ${count(as)}.`;
    };

    const freed = (run, n) => {
        const { number, host, edge, port } = run.addresses[run.a[n]];
        return `Switch ${switchOf(run, edge)} frees the pseudo address ${Frames.macText(number)}, which host ${hostOf(run, host)} had: `
            + `nobody uses it now, and port ${port} may grant it again.`;
    };

    const restarted = (run, n) => `The fabric manager restarts, for the ${ordinal(run.a[n])} time: it has forgotten all, `
        + "what was on its way to it and from it is lost, and each switch tells it again what it knows.";

    const placeText = ({ level, position, pod }) => {
        const part = (name, value) => (value === null ? `${name} not known` : `${name} ${value}`);
        const first = level === null ? "level not known" : `level ${level} (${Fabric.LEVELS[level]})`;
        return `${first}, ${part("position", position)}, ${part("pod", pod)}`;
    };

    const line = (run, n, script) => {
        const text = script ? script[run.a[n] - 1] : undefined;
        if (text === undefined) return `What follows comes of line ${count(run.a[n])} of the script.`;
        return `Line ${count(run.a[n])} of the script (${Script.wordsOf(text).join(" ")}): ${Script.sentence(text, Journal.isOfBridge(run))}.`;
    };

    const skipped = (run, n) => {
        const reason = SKIPS[run.b[n]];
        return `A record of ${hostOf(run, run.a[n])}'s capture is not played: ${reason}, ${SKIP[reason]}.`;
    };

    const begins = (run, n, actor) => {
        const frame = frameAt(run, n);
        return `${actor} frame ${run.a[n]}, ${toWhom(run, frame, n)}: ${kindOf(frame)}.`;
    };

    const linkOf = (run, n) => `The link between ${switchOf(run, run.b[n])} and ${switchOf(run, run.c[n])}`;

    const linkdown = (run, n) => {
        return Journal.isLeftOut(run, n) ? `${linkOf(run, n)} is left out before the first line: a learning bridge wants a tree.` : `${linkOf(run, n)} fails.`;
    };

    // A learning bridge copies also a frame that is for one host alone.
    const copied = (run, n) => {
        const isFlooded = Journal.isOfBridge(run) && !Frames.isGroup(asBegun(run, n).destination);
        const why = isFlooded ? ` The bridge floods it: it has not learnt where ${Frames.macText(asBegun(run, n).destination)} stands.` : "";
        return `At ${switchOf(run, run.at[n])} frame ${run.a[n]} goes one more way: frame ${run.b[n]} is its copy.${why}`;
    };

    // On bridges such a line makes sweeps, until nothing waits.
    const settled = (run, n) => {
        if (Journal.isOfBridge(run)) return `A settle line ends after ${plural(run.a[n], "sweep")}: nothing waits in a queue.`;
        return `A settle line ends after ${plural(run.a[n], "round")}: the fabric is settled.`;
    };

    const unsettled = (run, n) => {
        const waits = Journal.isOfBridge(run) ? `${plural(run.a[n], "item waits in a queue", "items wait in queues")}`
            : `the fabric is not settled: ${plural(run.a[n], "thing that stands against it waits", "things that stand against it wait")}`;
        return `A settle line ends and ${waits}.`;
    };

    const SENTENCES = {
        line,
        sent: (run, n) => begins(run, n, `Host ${hostOf(run, run.b[n])} sends`),
        skipped,
        made: (run, n) => begins(run, n, `Switch ${switchOf(run, run.b[n])} makes`),
        crossed,
        redirected,
        copied,
        arrived,
        taken,
        dropped,
        granted,
        registered,
        placed: (run, n) => `Switch ${switchOf(run, run.a[n])} knows of its place now: ${placeText(Journal.unpackPlace(run.b[n]))}.`,
        linkdown,
        linkup: (run, n) => `${linkOf(run, n)} is repaired.`,
        moved: (run, n) => `Host ${hostOf(run, run.a[n])} moves to port ${run.c[n]} of ${switchOf(run, run.b[n])}.`,
        settled,
        unsettled,
        freed,
        restarted,
    };

    const other = (run, n) => `A line of a kind that this page does not know, of which it draws nothing: ${Journal.text(run, n, 90)}.`;

    // what entry n means; `script` are the lines of the script, or null
    const sentence = (run, n, script = null) => {
        if (run.kind[n] === KIND.event) return Told.sentence(run, n);
        return run.kind[n] === KIND.other ? other(run, n) : SENTENCES[Journal.WORDS[run.kind[n]]](run, n, script);
    };

    // A header as rows of a name, a value, and what the value means once n entries have happened.
    const header = (run, frame, n) => {
        const mac = (name, value) => [name, Frames.macText(value), who(run, value, n)];
        const type = ["type", Frames.typeText(frame.type), `${plural(frame.length, "byte")} in all`];
        const rows = [mac("destination", frame.destination), mac("source", frame.source), type];
        if (frame.arp && frame.arp.refused) rows.push(["ARP", "not readable", frame.arp.refused]);
        else if (frame.arp) rows.push(...arpRows(frame.arp, mac));
        if (frame.ip) rows.push(...ipRows(frame.ip));
        return rows;
    };

    const arpRows = (arp, mac) => [
        ["ARP", `opcode ${arp.opcode}`, { 1: "request", 2: "reply" }[arp.opcode] || ""],
        mac("sender", arp.senderMac), ["sender IP", Frames.ipText(arp.senderIp), arp.senderIp === 0 ? "none: a probe" : ""],
        mac("target", arp.targetMac), ["target IP", Frames.ipText(arp.targetIp), ""],
    ];

    const ipRows = ip => {
        const ends = `${Frames.ipText(ip.source)} to ${Frames.ipText(ip.destination)}`;
        const rows = [["IPv4", ends, `protocol ${Frames.protocolText(ip.protocol)}`]];
        if (ip.sourcePort !== undefined) rows.push(["ports", `${ip.sourcePort} to ${ip.destinationPort}`, ""]);
        if (ip.igmp) rows.push(["IGMP", changesText(ip.igmp), ""]);
        return rows;
    };

    return { CAUSE, SKIP, isBack, sentence, header, parts, who, kindOf, placeText, trail, plural, count, switchOf, hostOf };
})();
