"use strict";
// Draws the boxes of a picture: switches, hosts and folded pods as they are once so many entries have happened. What is known is told
// by shape and words as well as by colour: a switch that does not know its level is dashed, a placed one has a thick outline; a load
// is told by number as well.
globalThis.Drawing = (() => {
    // Boxes that are narrower than this have neither outlines nor texts.
    const BARE = 10;
    const [TWO_ROWS, THREE_ROWS] = [19, 27]; // heights from which a switch has so many texts

    // What a switch knows of its place, in texts that fall in length. An unknown part is - as in a journal.
    const placeTexts = ({ level, position, pod }) => {
        const part = value => (value === null ? "-" : value);
        if (level === null) return pod === null && position === null ? ["?"] : [`pod ${part(pod)}`, `${part(pod)}`];
        if (level === 2) return ["core"];
        if (level === 1) return [`pod ${part(pod)}`, `${part(pod)}`];
        return [`pod ${part(pod)} \u00b7 pos ${part(position)}`, `${part(pod)}.${part(position)}`];
    };

    // what a switch knows of its place; learning bridges have none, and are drawn as they stand
    const placeOf = (p, s) => (p.isOfBridge ? { level: s.level, position: null, pod: null } : At.place(p.state, s.number));
    const isReady = (p, place) => p.isOfBridge || At.isPlaced(place);

    // What the boxes look like: what each switch knows of its place and, where loads are shown, its level and, in boxes that have it as a
    // text, its number of frames; and where the hosts stand with which address.
    const lookOf = p => {
        const { state, isLoads, layout } = p;
        p.levels = Ground.levelsTo(isLoads ? Ground.most(p, "crossings") : 0);
        const loads = new Float64Array(isLoads ? state.crossings.length : 0);
        for (let n = 0; n < loads.length; n++) {
            const box = layout.switches[n];
            const isText = box.pod !== undefined || (box.width * p.scale >= BARE && box.height * p.scale >= TWO_ROWS);
            loads[n] = (isText ? 8 * state.crossings[n] : 0) + p.levels[state.crossings[n]];
        }
        return { loads, places: state.places.slice(), spots: state.spots.slice(), newest: state.newest.slice(), ...hostsOf(p) };
    };

    // which host stands at each port of an edge switch, -1 where none does, and how many stand in each pod
    const hostsOf = ({ fabric: { k }, state: { spots } }) => {
        const [hostAt, hostsIn] = [new Int32Array(k * k * k / 2).fill(-1), new Int32Array(k)];
        for (let host = 0; host < spots.length; host++) {
            hostAt[spots[host]] = host;
            hostsIn[Math.floor(spots[host] / (k * k / 2))]++;
        }
        return { hostAt, hostsIn };
    };

    // They look the same while this does.
    const keyOf = ({ state: { counts }, isLoads, beside }) => {
        const { placed, granted, freed, moved, crossed } = Journal.KIND;
        return [counts[placed], counts[granted], counts[freed], counts[moved], isLoads ? counts[crossed] : 0, isLoads && beside ? beside.counts[crossed] : 0].join(" ");
    };

    const isSmall = (p, box) => box.pod === undefined && box.width * p.scale < BARE;

    // The boxes where two looks differ: of a switch { box, number }, of a port { box, spot }, of a folded pod { box }.
    const changes = (p, before, now) => {
        const found = new Map(); // by their boxes
        const { switches, cells } = p.layout;
        for (let number = 0; number < switches.length; number++) {
            if (now.places[number] === before.places[number] && now.loads[number] === before.loads[number]) continue;
            found.set(switches[number], { box: switches[number], number });
        }
        for (let host = 0; host < now.spots.length; host++) {
            if (now.spots[host] === before.spots[host] && now.newest[host] === before.newest[host]) continue;
            for (const spot of [now.spots[host], before.spots[host]]) found.set(cells.get(spot), { box: cells.get(spot), spot });
        }
        return [...found.values()];
    };

    const oneBox = (p, look, { box, number, spot }) => {
        if (box.pod !== undefined) foldedBox(p, look, box);
        else if (number !== undefined) oneSwitch(p, p.fabric.switches[number]);
        else atPort(p, look, spot);
    };

    // Draws these boxes anew: a small one of a switch covers what it was, and any other has a place without a point in common with another.
    const redraw = (p, look, found) => {
        const isSmallSwitch = ({ box, number }) => number !== undefined && isSmall(p, box);
        smallSwitches(p, found.filter(isSmallSwitch).map(({ number }) => p.fabric.switches[number]));
        const others = found.filter(one => !isSmallSwitch(one));
        if (others.length === 0) return;
        p.pen.together(() => others.forEach(one => {
            p.pen.c.clearRect(...p.pen.placeOf(p.shown(one.box)));
            oneBox(p, look, one);
        }));
    };

    const fillOf = (p, level) => (level === null ? p.colour.paper : [p.colour.edge, p.colour.aggregation, p.colour.core][level]);

    // the colour of a box by a load, and of the texts in it
    const loadColours = (p, count) => {
        const level = p.levels[count];
        return level === 0 ? [p.colour.paper, p.colour.ink] : [p.colour[`load${level}`], level > 2 ? p.colour.loadink : p.colour.ink];
    };

    const switchTexts = (p, s, at, place, ink) => {
        const { pen, colour, state } = p;
        const room = at.width - 4;
        const names = s.level === 2 && pen.hasRoom(s.label, room, true) ? [s.label] : [s.label, s.label.replace(/^.*\./, ".")];
        const loads = [Words.plural(state.crossings[s.number], "frame"), `${state.crossings[s.number]}`];
        const last = p.isLoads ? loads : p.isOfBridge ? [] : placeTexts(place);
        if (at.height >= THREE_ROWS) {
            const size = Math.min(13, at.height / 3.5);
            pen.write(names, at.x, at.y - at.height * 0.27, room, size, ink, true);
            pen.write([`id ${s.id}`, `#${s.id}`], at.x, at.y + at.height * 0.01, room, size * 0.85, p.isLoads ? ink : colour.muted);
            pen.write(last, at.x, at.y + at.height * 0.29, room, size * 0.9, ink);
        } else if (at.height >= TWO_ROWS) {
            pen.write(names, at.x, at.y - at.height * 0.2, room, Math.min(11, at.height / 2.1), ink, true);
            pen.write(last, at.x, at.y + at.height * 0.25, room, Math.min(9, at.height / 2.5), ink);
        } else pen.write(names, at.x, at.y + 0.5, room, Math.min(11, Math.max(6.5, at.height * 0.8)), ink, true);
    };

    // the colour of the box of a switch, which is another one where it is too small for an outline, and of the texts in it
    const switchColours = (p, s, { level }, isBare) => {
        if (isBare && level === null) return [p.colour.muted];
        if (!p.isLoads) return [fillOf(p, level), p.colour.ink];
        const count = p.state.crossings[s.number];
        return isBare && count === 0 ? [p.colour.link] : loadColours(p, count);
    };

    const oneSwitch = (p, s, isMarked = false) => {
        const at = p.shown(p.layout.switches[s.number]);
        if (!p.isSeen(at)) return;
        const place = placeOf(p, s);
        const isBare = at.width < BARE && !isMarked;
        const [fill, ink] = switchColours(p, s, place, isBare);
        if (isBare) {
            p.pen.fillSmall([at], fill);
            return;
        }
        frame(p, at, fill, place.level !== null, isReady(p, place), isMarked);
        switchTexts(p, s, at, place, ink);
    };

    // small boxes of switches, those of a colour together
    const smallSwitches = (p, switches) => {
        const boxes = new Map(); // by their colour
        for (const s of switches) {
            const at = p.shown(p.layout.switches[s.number]);
            if (!p.isSeen(at)) continue;
            const [fill] = switchColours(p, s, placeOf(p, s), true);
            if (boxes.has(fill)) boxes.get(fill).push(at);
            else boxes.set(fill, [at]);
        }
        for (const [fill, places] of boxes) p.pen.fillSmall(places, fill);
    };

    const frame = (p, at, fill, isKnown, isThick, isMarked) => {
        const width = isMarked ? 3 : isThick ? 1.7 : 0.9;
        p.pen.box(at, fill, isMarked ? p.colour.now : p.colour.ink, width, isKnown ? [] : [3, 3]);
    };

    // a port for hosts at which none stands
    const port = (p, spot, box) => {
        const at = p.shown(box);
        if (!p.isSeen(at) || at.width < BARE) return;
        p.pen.box(at, p.colour.pod, p.colour.link, 0.8, [3, 3]);
        p.pen.write([`port ${spot % p.fabric.k}`, `${spot % p.fabric.k}`], at.x, at.y, at.width - 4, Math.min(10, at.height / 2.4), p.colour.muted);
    };

    const addressTexts = (address, isHere) => {
        if (address === undefined) return ["no address", "-"];
        const { port: at, number } = Frames.pseudo(address.number);
        const text = Frames.pseudoText(address.number);
        return isHere ? [text, `.${at}.${number}`] : [`(${text})`, "(old)"];
    };

    const oneHost = (p, host, isMarked = false) => {
        const { colour, layout, pen } = p;
        const spot = p.state.spots[host.number];
        const at = p.shown(layout.cells.get(spot));
        if (!p.isSeen(at)) return;
        const address = p.run.addresses[p.state.newest[host.number]];
        const isHere = p.isOfBridge || (address !== undefined && address.edge * p.fabric.k + address.port === spot);
        if (at.width < BARE && !isMarked) {
            pen.fillSmall([at], isHere ? colour.host : colour.muted);
            return;
        }
        frame(p, at, isHere ? colour.host : colour.paper, isHere, isHere, isMarked);
        const rows = at.height > 32 ? 3 : at.height > 17 ? 2 : 1;
        const size = Math.min(12, at.height / (rows + 0.4));
        const isNarrow = at.width < 24; // for a name of four letters
        const room = at.width - (isNarrow ? 2 : 4);
        const lineAt = n => at.y + 0.5 + (n - (rows - 1) / 2) * (at.height / (rows + 0.6));
        pen.write([host.name], at.x, lineAt(0), room, size, colour.ink, !isNarrow);
        const addresses = p.isOfBridge ? [host.ip, host.ip.replace(/^\d+\.\d+/, "")] : addressTexts(address, isHere);
        if (rows > 1) pen.write(addresses, at.x, lineAt(1), room, size * 0.95, colour.ink);
        if (rows > 2 && !p.isOfBridge) pen.write([host.ip], at.x, lineAt(2), room, size * 0.85, colour.muted);
    };

    // what a folded pod's box of one level, of which switches are named by this letter, says of them
    const switchesBox = (p, box, at) => {
        const { state, colour, pen, fabric: { k } } = p;
        const letter = box.of;
        const first = (letter === "a" ? k + box.pod : box.pod) * (k / 2);
        const numbers = Array.from({ length: k / 2 }, (_, n) => first + n);
        const places = numbers.map(number => placeOf(p, p.fabric.switches[number]));
        const placed = places.filter(place => isReady(p, place)).length;
        const known = places.find(place => place.level !== null);
        const most = Ground.largest(numbers.map(number => state.crossings[number]));
        const total = numbers.reduce((sum, number) => sum + state.crossings[number], 0);
        const [fill, ink] = p.isLoads ? loadColours(p, most) : [fillOf(p, known ? known.level : null), colour.ink];
        pen.box(at, fill, colour.ink, placed === numbers.length ? 1.7 : 0.9, known ? [] : [3, 3]);
        if (at.width < 18) return;
        pen.write([`${letter}${box.pod}.x`, `${letter}${box.pod}`, letter], at.x, at.y - at.height * 0.2, at.width - 3, 11, ink, true);
        const ready = p.isOfBridge ? [`${placed} bridges`, `${placed}`] : [`${placed} of ${numbers.length}`, `${placed}/${numbers.length}`, `${placed}`];
        const count = p.isLoads ? [`${total}`] : ready;
        pen.write(count, at.x, at.y + at.height * 0.24, at.width - 3, 9, ink);
    };

    const hostsBox = (p, box, at, count) => {
        const { pen, colour } = p;
        pen.box(at, count > 0 ? colour.host : colour.paper, colour.ink, 0.9, count > 0 ? [] : [3, 3]);
        if (at.width >= 18) pen.write([`${count} hosts`, `${count}`], at.x, at.y, at.width - 3, 11, colour.ink);
    };

    // one box of a folded pod
    const foldedBox = (p, { hostsIn }, box) => {
        const at = p.shown(box);
        if (!p.isSeen(at)) return;
        if (box.of === "hosts") hostsBox(p, box, at, hostsIn[box.pod]);
        else switchesBox(p, box, at);
    };

    const folded = (p, look) => {
        for (const { aggregation, edge, hosts } of p.layout.folded) for (const box of [aggregation, edge, hosts]) foldedBox(p, look, box);
    };

    // the names of the groups of core switches, where these are too small for theirs
    const groups = p => {
        const core = p.shown(p.layout.switches[p.layout.switches.length - 1]);
        if (core.width >= 20) return;
        p.layout.groups.forEach((group, n) => {
            const at = p.shown(group);
            const isSeen = p.isSeen({ x: at.x, y: at.y + 7, width: at.width, height: 12 });
            if (isSeen) p.pen.write([`c${n}.x`, `c${n}`], at.x, at.y + 7, at.width, 10, p.colour.muted);
        });
    };

    // the box of a port for hosts, or of the host at it
    const atPort = (p, { hostAt }, spot) => {
        if (hostAt[spot] >= 0) oneHost(p, p.fabric.hosts[hostAt[spot]]);
        else port(p, spot, p.layout.cells.get(spot));
    };

    // those in open pods
    const ports = (p, look) => {
        const { layout, fabric } = p;
        if (layout.folded.length === fabric.k) return;
        for (const [spot, box] of layout.cells) if (box.pod === undefined && p.isSeen(p.shown(box))) atPort(p, look, spot);
    };

    const draw = (p, look) => p.pen.together(() => {
        folded(p, look);
        groups(p);
        const open = p.fabric.switches.filter(s => p.layout.switches[s.number].pod === undefined);
        smallSwitches(p, open.filter(s => isSmall(p, p.layout.switches[s.number])));
        for (const s of open) if (!isSmall(p, p.layout.switches[s.number])) oneSwitch(p, s);
        ports(p, look);
    });

    // A switch or a host of a folded pod by its name, at a place of the canvas.
    const named = (p, place, at, isMarked) => {
        const { colour, pen } = p;
        const isSwitch = place.switch !== undefined;
        const fill = isSwitch ? fillOf(p, p.fabric.switches[place.switch].level) : colour.host;
        pen.box(at, fill, isMarked ? colour.now : colour.ink, isMarked ? 3 : 1.7, []);
        pen.write([p.nameOf(place)], at.x, at.y + 0.5, at.width - 4, 11, colour.ink, true);
    };

    return { draw, lookOf, keyOf, changes, redraw, oneSwitch, oneHost, named, placeTexts };
})();
