"use strict";
// What happens in an event of a log, in sentences: what its node hears, what it knows now and did not before, what it does, and whom it tells what.
// Nothing that stands below the event is left out.
globalThis.Told = (() => {
    const { EVENT } = Journal;
    const FLOOD = "8388608"; // the group of all hosts
    const MANAGER = "The fabric manager";

    const listed = names => (names.length < 2 ? names.join("") : `${names.slice(0, -1).join(", ")} and ${names[names.length - 1]}`);
    const capital = text => text[0].toUpperCase() + text.slice(1);

    // the parts of a place that are known
    const place = ([level, position, pod]) => (level === "-" ? "without a level so far"
        : [`at level ${level} (${Fabric.LEVELS[level] || "unknown"})`, ...(position === "-" ? [] : [`position ${position}`]), ...(pod === "-" ? [] : [`pod ${pod}`])].join(", "));

    const nobody = who => (who === "-" ? "nobody" : who);
    const groupText = group => (group === FLOOD ? "all hosts" : `group ${group}`);
    const ticks = count => `${count} tick${count === "1" ? "" : "s"}`;
    const holder = ([edge, fixed]) => `${edge}, ${fixed === "fixed" ? "for good" : "not for good yet"}`;
    const address = (pod, position) => `pod ${pod}, position ${position}`;

    // a hardware address or a pseudo address with the name of its host, where one has it by then
    const hostOfMac = (run, mac) => {
        const host = run.fabric.macs.get(Fabric.macNumber(mac));
        return host === undefined ? mac : `host ${Words.hostOf(run, host)}`;
    };
    const pmacText = (run, n, pmac) => {
        const grant = Journal.grantAt(run, Fabric.macNumber(pmac), n + 1);
        return grant ? `${pmac} (host ${Words.hostOf(run, grant.host)})` : pmac;
    };
    const partOfTree = ([up, below]) => `${nobody(up)} above, ${below === "0" ? "nobody" : below} below`;

    // ---- what is heard

    // control frames, by their words behind the sender; `here` is who hears, at this port
    const CONTROL = {
        ldm: (who, here, port, w) => `hears at port ${port} a location message of ${who}: ${who} is ${place(w)}${w[3] === "-" ? "" : `, and ${here} lies ${w[3] === "up" ? "above" : "below"} it`}. `
            + `It has heard ${nobody(w[4])} on this link`,
        proposal: (who, here, port, [attempt, position]) => `hears at port ${port} that ${who} proposes position ${position} for itself, in its attempt ${attempt}`,
        vote: (who, here, port, [attempt, position, answer, ...held]) => (answer === "granted" ? `hears at port ${port} that ${who} grants it position ${position}, of attempt ${attempt}`
            : `hears at port ${port} that ${who} refuses it position ${position}, of attempt ${attempt}: it is held for ${holder(held)}`),
        unread: (who, here, port) => `hears at port ${port} a control frame of ${who} that cannot be read`,
    };

    // what the manager hears of a switch, behind `hears from e0.0`
    const OF_SWITCH = {
        place: (run, n, w) => `that it is ${place(w)}`,
        link: (run, n, [who, usable]) => `that its link to ${who} is ${usable === "usable" ? "usable" : "not usable any more"}`,
        podwanted: () => "that it wants a number for its pod",
        learned: (run, n, [pmac, mac, ip]) => `that ${pmac} is the pseudo address of ${hostOfMac(run, mac)}${ip === "-" ? "" : `, whose IP address is ${ip}`}`,
        aged: (run, n, [pmac, number]) => `that nobody has used ${pmacText(run, n, pmac)} for long${number === "0" ? "" : `, which led on by order ${number}`}`,
        trapped: (run, n, [old, now, number]) => `that frames for ${pmacText(run, n, old)} are led on to ${pmacText(run, n, now)}, by order ${number}`,
        begin: (run, n, [epoch]) => `that its report begins, for restart ${epoch}`,
        end: (run, n, [epoch]) => `that its report ends, for restart ${epoch}`,
        query: (run, n, [ip, pmac, own]) => `that ${pmacText(run, n, pmac)}, with ${own}, asks who has ${ip}`,
        members: (run, n, [group, any]) => `that ${any === "some" ? "a host of it has joined" : "no host of it is in"} ${groupText(group)}${any === "some" ? "" : " any more"}`,
    };

    // what a switch hears of the manager
    const OF_MANAGER = {
        pod: (run, n, [pod]) => `that its pod has number ${pod}`,
        answer: (run, n, [ip, pmac, asker, own]) => `that ${ip} has the pseudo address ${pmacText(run, n, pmac)}, for which ${pmacText(run, n, asker)}, with ${own}, has asked`,
        flood: (run, n, [ip, asker, own]) => `that nobody is known to have ${ip}, for which ${pmacText(run, n, asker)}, with ${own}, has asked: all hosts are to be asked`,
        avoid: () => "which neighbours it is to avoid, and for which addresses",
        invalidate: (run, n, [old, now, number, ip]) => `that the host of ${pmacText(run, n, old)} has ${pmacText(run, n, now)} now, by order ${number}${ip && ip !== "-" ? `, with ${ip}` : ""}`,
        release: (run, n, [pmac]) => `that ${pmacText(run, n, pmac)} is nobody's any more`,
        hello: (run, n, [epoch]) => `that it has restarted (restart ${epoch}) and knows nothing`,
        tree: (run, n, [group, ...part]) => (part.length === 0 ? `that it has no part of the tree of ${groupText(group)} any more` : `its part of the tree of ${groupText(group)}: ${partOfTree(part)}`),
    };

    // ---- what a switch knows now, behind `now it`
    const KNOWN = {
        place: w => `is ${place(w)}`,
        port: ([port, who, ...w]) => (who === "host" ? `has port ${port} for a host` : `has ${who} at port ${port}, ${place(w)}, which has heard ${nobody(w[3])} there: the port is ${w[4]}`),
        silent: ([port, count]) => (Number(count) < 2 ? `hears again at port ${port}` : `has heard nothing at port ${port} for ${ticks(count)}${Number(count) < 3 ? "" : ", so that the port is not usable"}`),
        attempt: ([attempt, position]) => (position === undefined ? "has nothing to propose any more" : `is to propose position ${position}, in attempt ${attempt}`),
        granted: ([port]) => `counts the grant by port ${port}`,
        hold: ([position, ...w]) => (w[0] === "-" ? `holds position ${position} for nobody any more` : `holds position ${position} for ${holder(w)}`),
        avoid: ([sign, who, ...w]) => (sign === "+" ? `avoids ${who} for ${address(...w)}` : `avoids ${who} no more for ${address(...w)}`),
        tree: ([group, ...part]) => (part.length === 0 ? `has no part of the tree of ${groupText(group)}` : `has a part of the tree of ${groupText(group)}: ${partOfTree(part)}`),
        below: ([group, who]) => `has ${who} below in the tree of ${groupText(group)}`,
    };

    // ---- what a node does
    const DOES = {
        grant: (run, n, [pmac, mac]) => `grants ${pmac} to ${hostOfMac(run, mac)}`,
        free: (run, n, [pmac]) => `frees ${pmacText(run, n, pmac)}`,
        make: () => "makes a frame of its own",
        pass: (run, n, [port]) => `passes it on by port ${port}`,
        redirect: (run, n, [old, now]) => `leads it on from ${pmacText(run, n, old)} to ${pmacText(run, n, now)}`,
        take: () => "takes it: it is for the switch itself",
        drop: (run, n, [cause]) => `drops it: ${cause}`,
        number: (run, n, [pmac, number]) => `registers ${pmacText(run, n, pmac)} with number ${Words.count(number)}`,
    };

    // what leaves by ports: control frames of one kind together
    const sends = (kind, lines) => {
        const ports = lines.map(({ words }) => words[0]);
        const [, ...w] = lines[0].words;
        const by = `by port${ports.length > 1 ? "s" : ""} ${listed(ports)}`;
        if (kind === "proposal") return `proposes position ${w[1]} for itself, in attempt ${w[0]}, ${by}`;
        if (kind === "vote") return `${w[2] === "granted" ? "grants" : "refuses"} position ${w[1]}, of attempt ${w[0]}, ${by}${w[2] === "granted" ? "" : `: it is held for ${holder(w.slice(3))}`}`;
        const to = ({ words }) => `${words[4] === "-" ? "" : words[4] === "up" ? " above" : " below"}`;
        const heard = lines.filter(({ words }) => words[5] !== "-").map(line => `by port ${line.words[0]} to ${line.words[5]}${to(line)}`);
        const unheard = lines.filter(({ words }) => words[5] === "-").map(({ words }) => words[0]);
        const where = unheard.length === 0 ? [] : [`by port${unheard.length > 1 ? "s" : ""} ${listed(unheard)}, where it has heard nobody`];
        return `sends location messages that it is ${place(w)}: ${listed([...heard, ...where])}`;
    };

    // what the manager says: to several switches of one kind together
    const says = (run, n, kind, lines) => {
        const to = lines.map(({ words }) => words[0]);
        if (kind === "avoid") return `tells ${listed(to)} which neighbours to avoid`;
        if (kind !== "tree") return lines.map(({ words: [who, ...w] }) => `tells ${who} ${OF_MANAGER[kind](run, n, w)}`).join("; it ");
        const [{ words: [, group] }] = lines;
        const parts = lines.filter(({ words }) => words.length > 2).map(({ words: [who, , ...part] }) => `${who} (${partOfTree(part)})`);
        const none = lines.filter(({ words }) => words.length === 2).map(({ words: [who] }) => who);
        const gives = parts.length === 0 ? [] : [`gives parts of the tree of ${groupText(group)} to ${listed(parts)}`];
        return [...gives, ...(none.length === 0 ? [] : [`takes the part of the tree of ${groupText(group)} from ${listed(none)}`])].join(", and ");
    };

    // lines below an event in groups that are told together, in their order: those that leave by ports or go to switches by their kind, and a tree's by its group
    const grouped = lines => {
        const groups = new Map();
        for (const [n, line] of lines.entries()) {
            const isSent = line.verb === "sends" || line.verb === "says";
            const key = isSent ? `${line.verb} ${line.kind} ${line.kind === "tree" ? line.words[1] : ""}` : `${n}`;
            groups.set(key, [...(groups.get(key) || []), line]);
        }
        return [...groups.values()];
    };

    const plainly = ({ verb, kind, words }) => `${verb} ${[kind, ...words].join(" ")}`;

    // ---- an event

    // how it begins: who, and what it hears or does
    const OPENS = {
        tick: ({ subject }) => `${subject} ticks.`,
        fail: ({ ends }) => `The link between ${ends} fails.`,
        repair: ({ ends }) => `The link between ${ends} is repaired.`,
        lose: ({ words }) => `What is first in the queue from ${words[1]} to ${words[3]} is lost.`,
        move: ({ words }) => `Host ${words[1]} moves to port ${words[3]} of ${words[2]}.`,
        restart: () => `${MANAGER} restarts: it forgets all that it knows, and what is on its way to it and from it is lost.`,
    };

    const received = ({ words, heard, run, n }) => {
        const port = words[words.length - 1];
        const what = heard ? `frame ${heard.words[0]}` : "a frame";
        const whose = run.c[n] === EVENT.enters ? `of host ${words[1]}` : `of ${words[1]}`;
        return `${words[words.length - 2]} receives ${what} ${whose} at port ${port}.`;
    };

    const hears = at => {
        const { run, n, subject, words, heard } = at;
        if (run.c[n] === EVENT.told) return `${MANAGER} hears from ${subject} ${heard ? OF_SWITCH[heard.kind](run, n, heard.words) : "a message"}.`;
        if (run.c[n] === EVENT.says) return `${subject} hears from the fabric manager ${heard ? OF_MANAGER[heard.kind](run, n, heard.words) : "a message"}.`;
        if (run.c[n] === EVENT.leaves) {
            const whom = words[3] === "-" ? "where nobody is attached" : `to host ${words[3]}`;
            return at.isLost ? `A control frame of ${words[1]} comes out of its port ${words[2]}, ${whom}: no switch hears it.` : `A frame comes out of port ${words[2]} of ${words[1]}, ${whom}.`;
        }
        if (!heard || heard.kind === "frame") return received(at);
        const [who, ...rest] = heard.words;
        return `${subject} ${CONTROL[heard.kind](who, subject, words[words.length - 1], rest)}.`;
    };

    const HEARD_BY = [CONTROL, OF_SWITCH, OF_MANAGER];
    const isKnown = ({ kind }) => kind === "frame" || HEARD_BY.some(kinds => kind in kinds);

    const opening = at => {
        const { run, n, words, heard } = at;
        const event = Journal.EVENTS[run.c[n]];
        if (OPENS[event]) return OPENS[event](at);
        if ([EVENT.along, EVENT.enters, EVENT.leaves, EVENT.told, EVENT.says].includes(run.c[n])) {
            return heard && !isKnown(heard) ? `${at.subject} hears: ${[heard.kind, ...heard.words].join(" ")}.` : hears(at);
        }
        return `${capital(Script.sentence(words.join(" ")))}.`;
    };

    // what stands below an event behind what is heard, each as a sentence whose subject is `it`
    const clausesOf = (run, n, lines, isOfManager) => {
        const known = lines.filter(({ verb, kind }) => verb === "knows" && KNOWN[kind]).map(({ kind, words }) => KNOWN[kind](words));
        const tells = lines.filter(({ verb, kind }) => verb === "tells" && OF_SWITCH[kind]).map(({ kind, words }) => OF_SWITCH[kind](run, n, words));
        const others = lines.filter(({ verb, kind }) => !(verb === "knows" && KNOWN[kind]) && !(verb === "tells" && OF_SWITCH[kind]));
        const done = grouped(others).map(group => {
            const [{ verb, kind, words }] = group;
            if (verb === "does" && DOES[kind]) return DOES[kind](run, n, words);
            if (verb === "sends" && (CONTROL[kind] && kind !== "unread")) return sends(kind, group);
            if (verb === "says" && OF_MANAGER[kind]) return says(run, n, kind, group);
            return group.map(plainly).join("; ");
        });
        return [
            ...(known.length > 0 ? [`Now it ${known.join("; it ")}.`] : []),
            ...(tells.length > 0 ? [`It tells the fabric manager ${tells.join("; ")}.`] : []),
            ...(done.length > 0 ? [`It ${done.join(isOfManager ? "; it " : ", and ")}.`] : []),
        ];
    };

    // what the manager does with what it hears while reports are missing
    const held = (run, n, heard) => {
        const does = run.c[n] === EVENT.told && heard && !["begin", "end"].includes(heard.kind) ? Manager.holdsAt(run, n) : "";
        if (does === "keeps") return ["It keeps this until the last report has ended."];
        return does === "" ? [] : ["It passes this over: the report of that switch has not begun."];
    };

    // the two ends of a link that fails or is repaired
    const endsOf = (run, n) => `${Words.switchOf(run, run.a[n])} and ${Words.switchOf(run, run.b[n])}`;

    // what happens in event n
    const sentence = (run, n) => {
        const lines = Said.below(run, n);
        const heard = lines.find(({ verb }) => verb === "heard") || null;
        const lost = lines.filter(({ verb }) => verb === "lost");
        const words = Journal.text(run, n).split("\n")[0].split(" ").slice(2);
        const turn = Said.turnOf(run, n);
        const subject = !turn ? MANAGER : turn.host === undefined ? Words.switchOf(run, turn.switch) : `Host ${Words.hostOf(run, turn.host)}`;
        const isLink = run.c[n] === EVENT.fail || run.c[n] === EVENT.repair;
        const at = { run, n, subject, words, heard, isLost: lost.length > 0, ends: isLink ? endsOf(run, n) : "" };
        const rest = lines.filter(line => line !== heard && line.verb !== "lost");
        const gone = run.c[n] === EVENT.leaves || lost.length === 0 ? []
            : [`${Words.plural(lost.length, "control frame")} ${lost.length > 1 ? "are" : "is"} lost: ${listed(lost.map(({ kind, words: [who] }) => `${kind} of ${who}`))}.`];
        return [opening(at), ...held(run, n, heard), ...gone, ...clausesOf(run, n, rest, run.c[n] === EVENT.told || run.c[n] === EVENT.tick)].join(" ");
    };

    return { sentence, place, nobody, groupText, listed };
})();
