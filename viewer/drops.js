"use strict";
// What was so where a frame was dropped, at that moment: what the journal and the topology say of it, and where a log is open also what the
// switch knew then.
globalThis.Drops = (() => {
    const { KIND, CAUSES, EVENT } = Journal;
    const FLOOD = 8388608; // the number of the group of all hosts
    const SILENT = 3; // ticks without a message after which a port is not usable
    const IN_A_LOG = "Which of these a log of the same run says (portland watch), and a journal does not.";

    const labelOf = (run, number) => Words.switchOf(run, number);
    const nameOf = (run, host) => Words.hostOf(run, host);
    const listed = names => (names.length < 2 ? names.join("") : `${names.slice(0, -1).join(", ")} and ${names[names.length - 1]}`);
    const spotText = (run, edge, port) => `port ${port} of ${labelOf(run, edge)}`;

    // the last of the first n entries that `is`, -1 where none is
    const lastWhere = (n, is) => {
        let entry = n - 1;
        while (entry >= 0 && !is(entry)) entry--;
        return entry;
    };
    const since = entry => (entry < 0 ? "" : ` since entry ${Words.count(entry + 1)}`);
    const at = entry => (entry < 0 ? "" : ` at entry ${Words.count(entry + 1)}`);

    const failedBy = (run, n, link) => lastWhere(n, entry => run.kind[entry] === KIND.linkdown && run.a[entry] === link);
    const movedBy = (run, n, host) => lastWhere(n, entry => run.kind[entry] === KIND.moved && run.a[entry] === host);

    // the event of a log that an entry comes of, -1 in a journal
    const eventOf = (run, n) => (Said.isLog(run) ? lastWhere(n, entry => run.kind[entry] === KIND.event) : -1);

    // the neighbours of a switch: by which port, over which link, who
    const neighbours = ({ fabric }, number) => fabric.switches[number].ports.flatMap((link, port) => {
        if (link < 0) return [];
        const { a, b } = fabric.links[link];
        return [{ port, link, number: a === number ? b : a }];
    });

    // how a frame came to the switch that it crossed at an entry: from a host, from another switch, or as one that starts there
    const cameFrom = (run, crossed) => {
        const before = crossed < 0 ? -1 : run.before[crossed];
        if (before < 0) return {};
        if (run.kind[before] === KIND.redirected || run.kind[before] === KIND.made) return { isHere: true };
        return At.where(run, before);
    };

    const isFromAbove = (run, from, s) => from.switch !== undefined && run.fabric.switches[from.switch].level > run.fabric.switches[s].level;

    // ---- a frame for one host that no port leads on

    // the edge switch that has told this pod and position, -1 where none has
    const edgeAt = (run, state, to) => run.fabric.switches.findIndex(one => {
        const { level, pod, position } = At.place(state, one.number);
        return level === 0 && pod === to.pod && position === to.position;
    });

    // Whether links that are not failed lead on from a switch to an edge switch, upwards nowhere but from an aggregation switch.
    const leadsTo = (run, state, from, edge, pod) => {
        const { level, pod: own } = At.place(state, from);
        const live = number => neighbours(run, number).filter(({ link }) => !state.failed[link]);
        if (level === 1 && own === pod) return live(from).some(({ number }) => number === edge);
        const above = number => live(number).some(one => At.place(state, one.number).pod === pod && leadsTo(run, state, one.number, edge, pod));
        if (level === 2) return above(from);
        return level === 1 && live(from).some(({ number }) => At.place(state, number).level === 2 && above(number));
    };

    // The neighbours by which a frame for this address may leave, and in words which these are; `mayAvoid` where an avoid list bears on them.
    const waysOf = (run, state, s, to, from) => {
        const [here, own] = [labelOf(run, s), At.place(state, s)];
        const all = neighbours(run, s);
        const none = said => ({ said, ways: [], mayAvoid: false });
        const isUp = ({ number }) => run.fabric.switches[number].level > run.fabric.switches[s].level;
        const up = said => ({ said, ways: all.filter(isUp), mayAvoid: true });
        const placed = is => all.filter(({ number }) => is(At.place(state, number)));
        if (own.level === 0 && isFromAbove(run, from, s)) {
            return none(`${here} is pod ${own.pod}, position ${own.position}, and an edge switch sends up nothing that came down.`);
        }
        if (own.level === 0) return up(`From ${here} it can only go up.`);
        if (own.level === 2) {
            const ways = placed(place => place.level === 1 && place.pod === to.pod);
            return ways.length > 0 ? { said: `From ${here} a neighbour of pod ${to.pod} alone leads on.`, ways, mayAvoid: false }
                : none(`No neighbour of ${here} has told that it is in pod ${to.pod}.`);
        }
        if (own.pod === to.pod) {
            const ways = placed(place => place.level === 0 && place.position === to.position);
            return ways.length > 0 ? { said: `From ${here}, in this pod, it can go down to that position alone.`, ways, mayAvoid: false }
                : none(`No edge switch below ${here}, in this pod, has told this position.`);
        }
        if (isFromAbove(run, from, s)) return none(`It came down to ${here}, in pod ${own.pod}, which sends up nothing that came down.`);
        return up(`From ${here}, in pod ${own.pod}, it can only go up.`);
    };

    // why a port is not usable, by what the switch knows of it; "" where it is
    const unusable = (run, known, s, port) => {
        const here = labelOf(run, s);
        const record = known.ports.get(`${port}`);
        if (!record || record[0] === "host") return `${here} has heard nothing from it so far`;
        if (Number(known.silent.get(`${port}`) || 0) >= SILENT) return `${here} has not heard it for three ticks`;
        if (record[4] !== here) return `it has not heard ${here} so far`;
        return "";
    };

    // why a neighbour that is heard leads on for no frame to this address, by what the switch knows; "" where it does
    const leadsNowhere = (run, known, s, { port, number }, to, mayAvoid) => {
        const [who, level, position, pod] = known.ports.get(`${port}`);
        if (level !== `${run.fabric.switches[number].level}`) return `it has not told ${labelOf(run, s)} its level so far`;
        if (mayAvoid) return known.avoid.has(`${who} ${to.pod} ${to.position}`) ? "the fabric manager has it avoided for this address" : "";
        if (level === "1" && pod !== `${to.pod}`) return `it has not told ${labelOf(run, s)} its pod so far`;
        return level === "0" && position !== `${to.position}` ? `it has not told ${labelOf(run, s)} its position so far` : "";
    };

    // Why a neighbour is no candidate for a frame to this address, "" where the journal does not have it.
    const whyNot = (run, state, known, s, way, to, mayAvoid) => {
        if (state.failed[way.link]) return `its link is failed${since(failedBy(run, state.entry, way.link))}`;
        if (known) return unusable(run, known, s, way.port) || leadsNowhere(run, known, s, way, to, mayAvoid);
        const place = At.place(state, way.number);
        if (place.level === null) return "it does not know its level so far";
        const edge = edgeAt(run, state, to);
        return mayAvoid && edge >= 0 && !leadsTo(run, state, way.number, edge, to.pod) ? `no live link leads on from it to ${labelOf(run, edge)}` : "";
    };

    // The neighbours by which a frame may leave a switch that it crossed at an entry, each with why it is none: "" where it is one, or where that
    // is not known; `said` says which neighbours these are.
    const candidates = (run, crossed, state, known) => {
        const s = run.b[crossed];
        const to = Frames.pseudo(At.address(run, crossed));
        const { said, ways, mayAvoid } = waysOf(run, state, s, to, cameFrom(run, crossed));
        return { to, said, mayAvoid, ways: ways.map(way => ({ ...way, why: whyNot(run, state, known, s, way, to, mayAvoid) })) };
    };

    // a reason that is that of several neighbours
    const plural = why => why.replace(/^its link is/, "their links are").replace(/^it has/, "they have").replace(/^it does/, "they do").replace(/ its level/, " their level")
        .replace(/(heard|avoided|from) it\b/, "$1 them").replace("has it avoided", "has them avoided");

    const reasonsText = (run, s, ways, mayAvoid) => {
        const open = ways.filter(({ why }) => why === "").map(({ number }) => labelOf(run, number));
        const told = new Map();
        for (const { number, why } of ways) if (why) told.set(why, [...(told.get(why) || []), labelOf(run, number)]);
        const texts = [...told].map(([why, names]) => `${listed(names)}: ${names.length > 1 ? plural(why) : why}.`);
        if (open.length === 0) return texts.join(" ");
        const them = open.length > 1 ? "them" : "it";
        const not = [`did not hear ${them} for three ticks`, "was not heard there so far", ...(mayAvoid ? [`is to avoid ${them} for this address`] : [])];
        return [...texts, `${listed(open)}: the ${open.length > 1 ? "links are" : "link is"} not failed. So ${labelOf(run, s)} ${not.slice(0, -1).join(", ")} or `
            + `${not[not.length - 1]}. ${IN_A_LOG}`].join(" ");
    };

    const noWay = (run, n, state, known) => {
        const { to, said, ways, mayAvoid } = candidates(run, Journal.crossedBefore(run, n), state, known);
        const nobody = edgeAt(run, state, to) < 0 ? " No edge switch has told this place so far." : "";
        return [`The frame is for pod ${to.pod}, position ${to.position}.${nobody}`, said, reasonsText(run, run.at[n], ways, mayAvoid)].filter(Boolean).join(" ");
    };

    // ---- a frame to a group

    const groupName = group => (group === FLOOD ? "all hosts" : `group ${group}`);

    // The joins and leaves that switches have taken of hosts: of each run they are looked for once.
    const reports = new WeakMap();
    const reportsOf = run => {
        if (reports.has(run)) return reports.get(run);
        const found = [];
        for (let n = 0; n < run.count; n++) {
            const first = run.kind[n] === KIND.taken ? Journal.beginning(run, run.a[n]) : -1;
            if (first < 0 || run.kind[first] !== KIND.sent) continue;
            const { ip } = Frames.read(Journal.frame(run, first));
            for (const { group, join } of (ip && ip.igmp) || []) found.push({ entry: n, host: run.b[first], group: group % 2 ** 23, join });
        }
        reports.set(run, found);
        return found;
    };

    // who has joined a group by an entry, in words
    const membersText = (run, n, group) => {
        const last = new Map(reportsOf(run).filter(one => one.group === group && one.entry < n).map(one => [one.host, one]));
        const members = [...last.values()].filter(({ join }) => join).map(({ host, entry }) => `${nameOf(run, host)} (entry ${Words.count(entry + 1)})`);
        if (members.length === 0) return `Nobody has joined ${groupName(group)} by then${last.size > 0 ? " and not left it" : ""}.`;
        return `By then ${listed(members)} ${members.length > 1 ? "have" : "has"} joined ${groupName(group)}.`;
    };

    // The way of a frame to a group from a switch, up or down by its tree. Upwards NoMember comes of no tree alone, and NoNextHop of a routed group
    // of a link in it alone.
    const treeText = (run, n, state, known, group, isUp) => {
        const [s, tree] = [run.at[n], `the tree of ${groupName(group)}`];
        const here = labelOf(run, s);
        const restart = Journal.restartAt(run, n);
        const behind = restart < 0 ? "" : ` since it restarted${at(restart)}`;
        const none = `${here} has no part of ${tree}: the fabric manager has told it none${behind}`;
        const unused = `${here} cannot use the next link in it: it did not hear the switch there for three ticks, or was not heard there so far`;
        if (!known && isUp && CAUSES[run.b[n]] === "NoMember") return `${none}.`;
        if (!known) return `It goes ${isUp ? "up" : "down"} by ${tree}. ${group === FLOOD || !isUp ? `${none}, or ${unused}. ${IN_A_LOG}` : `${unused}.`}`;
        const part = known.trees.get(`${group}`);
        if (!part) return `${none}.`;
        const names = isUp ? part.slice(0, 1).filter(name => name !== "-") : part.slice(1);
        if (names.length === 0) return `In its part of ${tree} ${here} has nobody ${isUp ? "above" : "below"}.`;
        const reasons = neighbours(run, s).filter(({ number }) => names.includes(labelOf(run, number))).map(way => (
            `${labelOf(run, way.number)}: ${state.failed[way.link] ? `its link is failed${since(failedBy(run, n, way.link))}` : unusable(run, known, s, way.port)}.`));
        return `In ${tree} it goes from ${here} ${isUp ? "up to" : "down to"} ${listed(names)}. ${reasons.join(" ")}`;
    };

    const BACK = "No loss: the tree of a group, or of a flood, reaches the sender's own switch too, and nobody else there is to have a copy.";

    const noTree = (run, n, state, known) => {
        const s = run.at[n];
        const { destination } = Frames.read(Journal.frame(run, Journal.beginning(run, run.a[n])));
        const routed = Frames.groupOf(destination);
        const group = routed === null ? FLOOD : routed;
        if (Words.isBack(run, n)) return BACK;
        const from = cameFrom(run, Journal.crossedBefore(run, n));
        const { level } = run.fabric.switches[s];
        const members = routed === null ? "" : membersText(run, n, group);
        const isDown = level === 2 || isFromAbove(run, from, s);
        if (level === 0 && isDown) {
            const whom = routed === null ? "No host was heard at" : `Nobody but its sender has joined ${groupName(group)} at`;
            return [`${whom} ${labelOf(run, s)} so far.`, members].join(" ").trim();
        }
        return [treeText(run, n, state, known, group, !isDown), members].join(" ").trim();
    };

    // At a host of another port than that of the member: who stands there now has not joined.
    const noMember = (run, n, state, known) => {
        const event = eventOf(run, n);
        if (event < 0 || run.c[event] !== EVENT.leaves) return noTree(run, n, state, known);
        const group = Frames.groupOf(Frames.read(Journal.frame(run, Journal.beginning(run, run.a[n]))).destination);
        return `It came to host ${nameOf(run, run.b[event])}, which has not joined. ${membersText(run, n, group)}`;
    };

    // ---- the other causes

    const notPlaced = (run, n, state, known) => {
        const s = run.at[n];
        const place = At.place(state, s);
        const here = labelOf(run, s);
        if (At.isPlaced(place)) {
            const { switch: other } = cameFrom(run, Journal.crossedBefore(run, n));
            const record = known && other !== undefined ? neighbours(run, s).find(({ number }) => number === other) : null;
            const heard = record ? `${here} ${known.ports.has(`${record.port}`) ? "has heard no level of it" : "has heard nothing from it"} so far.` : "";
            return `${here} is placed. The frame came from ${other === undefined ? "a host" : labelOf(run, other)}, whose level ${here} does not know. ${heard}`.trim();
        }
        const lacks = [["level", place.level], ["position", place.level === 1 ? 0 : place.position], ["pod", place.pod]].filter(([, part]) => part === null);
        const placed = Knowledge.placedBy(run, s);
        const when = placed < 0 ? "It is never placed in this run." : `It is placed at entry ${Words.count(placed + 1)}.`;
        return `${here} does not know its ${listed(lacks.map(([name]) => name))} so far. ${when} What is sent before a settle line has ended is often lost so.`;
    };

    const noAddress = (run, n) => {
        const value = At.address(run, n);
        const { port } = Frames.pseudo(value);
        const [text, s] = [Frames.macText(value), run.at[n]];
        const own = Journal.grantAt(run, value, n);
        if (own) return `${text} was granted to host ${nameOf(run, own.host)}${at(own.granted)}, and freed${at(own.freed)}.`;
        const granted = run.addresses.filter(one => one.edge === s && one.port === port && one.granted < n && !Journal.isFreed(one, n));
        const those = granted.length === 0 ? "no address so far" : `${listed(granted.map(({ number, host }) => `${Frames.macText(number)} to ${nameOf(run, host)}`))}`;
        const where = run.fabric.switches[s].hostPorts.includes(port) ? `${spotText(run, s, port)} has granted ${those}` : `${spotText(run, s, port)} is none for hosts`;
        return `${text} was never granted: ${where}. Its sender made it up, or was told it before this run.`;
    };

    // where a host stands, and since when
    const standsText = (run, n, state, host) => {
        const { edge, port } = At.spot(run.fabric, state, host);
        const moved = movedBy(run, n, host);
        return `Host ${nameOf(run, host)} is attached to ${spotText(run, edge, port)}${moved < 0 ? " from the beginning on" : `, where it moved${at(moved)}`}.`;
    };

    const hostAt = (run, state, edge, port) => state.spots.indexOf(edge * run.fabric.k + port);

    const thereText = (run, state, edge, port) => {
        const there = hostAt(run, state, edge, port);
        return there < 0 ? `nobody is attached to ${spotText(run, edge, port)}` : `host ${nameOf(run, there)} is attached to ${spotText(run, edge, port)}`;
    };

    // a copy of a frame to many, which came out of a port where nobody is
    const copyGone = (run, n, state) => {
        const s = run.at[n];
        const event = eventOf(run, n);
        const port = event >= 0 && run.c[event] === EVENT.leaves ? Said.portOf(run, event) : -1;
        if (port >= 0) return `No loss: it is a copy for all, and ${thereText(run, state, s, port)}.`;
        const empty = run.fabric.switches[s].hostPorts.filter(one => hostAt(run, state, s, one) < 0);
        return `No loss: it is a copy for all, and a host has gone from a port of ${labelOf(run, s)} where it was heard. `
            + `Nobody is attached to port ${listed(empty.map(one => `${one}`))} there by then.`;
    };

    const hostGone = (run, n, state) => {
        const last = At.where(run, n);
        if (last.host !== undefined) {
            return `Its sender moved away while the frame waited for its switch. ${standsText(run, n, state, last.host)}`;
        }
        const value = At.address(run, n);
        if (Frames.isGroup(value)) return copyGone(run, n, state);
        const { port } = Frames.pseudo(value);
        const own = Journal.grantAt(run, value, n) || { host: -1, edge: last.switch, port };
        const whose = own.host < 0 ? `It came out of ${spotText(run, own.edge, port)}.`
            : `${Frames.macText(value)} is the address of host ${nameOf(run, own.host)} at ${spotText(run, own.edge, own.port)}.`;
        const isGone = own.host >= 0 && state.spots[own.host] !== own.edge * run.fabric.k + own.port;
        return [whose, `By then ${thereText(run, state, own.edge, own.port)}.`, ...(isGone ? [standsText(run, n, state, own.host)] : [])].join(" ");
    };

    // the entry of the failure that this drop follows, with nothing but such drops between; -1 where there is none
    const failureBefore = (run, n) => {
        const entry = lastWhere(n, one => run.kind[one] !== KIND.dropped || CAUSES[run.b[one]] !== "LinkDown");
        return entry >= 0 && run.kind[entry] === KIND.linkdown && [run.b[entry], run.c[entry]].includes(run.at[n]) ? entry : -1;
    };

    const linkDown = (run, n, state) => {
        const s = run.at[n];
        const failure = failureBefore(run, n);
        const linkText = link => `${labelOf(run, run.fabric.links[link].a)} - ${labelOf(run, run.fabric.links[link].b)}`;
        if (failure >= 0) return `The link ${linkText(run.a[failure])} failed${at(failure)}, while the frame waited there.`;
        const failed = neighbours(run, s).filter(({ link }) => state.failed[link] === 1)
            .map(({ link }) => `${linkText(link)} (failed${at(failedBy(run, n, link))})`);
        const which = failed.length > 1 ? `one of these failed links: ${listed(failed)}` : `the link ${failed.join("")}`;
        return `${labelOf(run, s)} put it on ${which}. A switch sends over a failed link until it has not heard its neighbour for three ticks.`;
    };

    const lost = (run, n, state, known, script) => {
        if (state.line < 0) return "";
        const text = script ? script[run.a[state.line] - 1] : undefined;
        const words = text === undefined ? "" : `, ${Script.wordsOf(text).join(" ")},`;
        return `Line ${run.a[state.line]} of the script${words} took it off its link.`;
    };

    const spent = (run, n, state) => {
        const { edge, port } = At.spot(run.fabric, state, run.b[Journal.beginning(run, run.a[n])]);
        const granted = run.addresses.filter(one => one.edge === edge && one.port === port && one.granted < n).length;
        return `${spotText(run, edge, port)} has granted ${Words.count(granted)} addresses, and none of them is free.`;
    };

    const badArp = (run, n) => {
        const { arp } = Frames.read(Journal.frame(run, Journal.beginning(run, run.a[n])));
        return arp && arp.refused ? `Of its ARP packet: ${arp.refused}.` : "";
    };

    const isToMany = (run, n) => Frames.isGroup(At.address(run, n));

    const SAID = {
        NotPlaced: notPlaced, NoAddress: noAddress, HostGone: hostGone, LinkDown: linkDown, Lost: lost, Spent: spent, BadArp: badArp, NoMember: noMember,
        NoNextHop: (run, n, state, known) => (isToMany(run, n) ? noTree : noWay)(run, n, state, known),
    };

    // What was so where entry n, a drop, ended its frame; `state` is that of the run once it has happened, and `script` its lines or null.
    const said = (run, n, state, script = null) => {
        const known = Said.isLog(run) && run.at[n] >= 0 ? Said.known(run, run.at[n], n) : null;
        return SAID[CAUSES[run.b[n]]](run, n, state, known, script);
    };

    return { said, candidates };
})();
