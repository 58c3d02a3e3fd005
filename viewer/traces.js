"use strict";
// Draws on a picture's fabric what moves: the fabric manager and what goes to and from it, the way of the frame in focus, the frames in flight, what a
// switch is to avoid, and what the entry of now says.
globalThis.Traces = (() => {
    // In a narrower box, which has no name, a frame fills it: dots would lie on each other, and thousands of them take long.
    const NARROW = 10;
    const MANY = 45; // lines from the manager to more switches are drawn alone where something goes over them
    const SMALLEST = 6; // no count is written smaller
    const LOW = 19; // a lower box has its name alone

    const place = (p, where, isMarked) => {
        if (where.link !== undefined || where.manager) return;
        const isMoved = where.host !== undefined && where.spot !== undefined && where.spot !== p.state.spots[where.host];
        if (p.wantsName(where)) {
            if (!isMoved || p.boxOf(where).pod !== undefined) Drawing.named(p, where, p.spotOf(where), isMarked);
        } else if (where.switch !== undefined) Drawing.oneSwitch(p, p.fabric.switches[where.switch], isMarked);
        else if (!isMoved) Drawing.oneHost(p, p.fabric.hosts[where.host], isMarked);
    };

    // ---- the fabric manager

    const lineTo = (p, number) => {
        const [from, to] = Places.ends(p, { switch: number }, { manager: true });
        return [from.x, from.y, to.x, to.y];
    };

    // its lines to the switches, faint, and those by which it says something now
    const managerLines = p => {
        const { pen, colour, fabric: { switches }, scene: { now } } = p;
        if (switches.length <= MANY) pen.faint(0.5, () => pen.lines(switches.map(({ number }) => lineTo(p, number)), colour.link, 0.8, [1, 5]));
        if (now && now.told) pen.lines(now.told.map(number => lineTo(p, number)), colour.control, 1.4, [5, 3]);
    };

    const managerBox = p => {
        const { pen, colour, scene: { now, subject } } = p;
        const at = p.shown(p.layout.manager);
        const isMarked = Boolean((subject && subject.manager) || (now && now.place && now.place.manager));
        pen.box(at, colour.pod, isMarked ? colour.now : colour.ink, isMarked ? 3 : 1.7, []);
        const size = Math.min(12, at.height / 2.6);
        pen.write(["fabric manager", "manager"], at.x, at.y - at.height * 0.2, at.width - 6, size, colour.ink, true);
        pen.write(Manager.texts(p.run, Manager.known(p.run, p.state.entry)), at.x, at.y + at.height * 0.24, at.width - 6, size * 0.85, colour.ink);
    };

    // ---- ways

    const arrow = (p, from, to) => {
        const [a, b] = Places.ends(p, from, to);
        p.pen.arrow(a, b, p.colour.now);
    };

    // the hosts of an edge switch whose boxes a line from one of them crosses are drawn above it
    const aboveHosts = (p, [a, b], edge) => {
        for (const port of p.fabric.switches[edge].hostPorts) {
            const spot = edge * p.fabric.k + port;
            const box = p.layout.cells.get(spot);
            if (box.pod !== undefined || !Lines.isCrossing(p.placeOf(box), [a.x, a.y, b.x, b.y], 0)) continue;
            const number = p.state.spots.indexOf(spot);
            if (number >= 0) Drawing.oneHost(p, p.fabric.hosts[number]);
        }
    };

    // A line to or from the manager goes behind the switches that it crosses, and one of a host behind other hosts: these are drawn above it.
    const above = (p, from, to) => {
        if (from.host !== undefined || to.host !== undefined) {
            aboveHosts(p, Places.ends(p, from, to), from.host === undefined ? from.switch : to.switch);
            return;
        }
        if (!from.manager && !to.manager) return;
        const [a, b] = Places.ends(p, from, to);
        for (const s of p.fabric.switches) {
            const box = p.layout.switches[s.number];
            if (box.pod === undefined && Lines.isCrossing(p.placeOf(box), [a.x, a.y, b.x, b.y], 0)) Drawing.oneSwitch(p, s);
        }
    };

    // the way of the frame in focus, from where it began to where it was last, what comes in the entry of now, and where it happens
    const way = p => {
        const { way: places, steps, now, subject } = p.scene;
        for (const [from, to] of steps) {
            arrow(p, from, to);
            above(p, from, to);
        }
        if (now && now.from && now.control) {
            arrow(p, now.from, now.place);
            above(p, now.from, now.place);
        }
        places.forEach(one => place(p, one, false));
        if (now && now.from && now.control) place(p, now.from, false);
        if (subject && subject.frame === undefined) place(p, subject, true);
        if (now && now.place) place(p, now.place, true);
    };

    // What a switch is to avoid at this moment: that of whose story is shown, else that of the event of now. Each neighbour with the addresses.
    const avoided = p => {
        const { subject, now } = p.scene;
        const where = subject && subject.switch !== undefined ? subject : now && now.place;
        if (!p.isOfLog || !where || where.switch === undefined) return { number: -1, all: new Map() };
        const all = new Map();
        for (const entry of Said.known(p.run, where.switch, p.state.entry).avoid) {
            const [who, pod, position] = entry.split(" ");
            all.set(who, [...(all.get(who) || []), `${pod}.${position}`]);
        }
        return { number: where.switch, all };
    };

    // it is marked on the links to these neighbours
    const avoids = (p, taken) => {
        const { number, all } = avoided(p);
        for (const [who, addresses] of all) {
            const [from, to] = Places.ends(p, { switch: number }, { switch: Fabric.number(p.fabric, who) });
            p.pen.lines([[from.x, from.y, to.x, to.y]], p.colour.control, 3, [1, 4]);
            const text = `\u2298 ${addresses.length > 2 ? `${addresses.length} places` : addresses.join(" ")}`;
            const width = 6.5 * text.length + 10;
            const part = 0.34 + 0.14 * (taken.length % 3);
            const at = { x: from.x + (to.x - from.x) * part, y: from.y + (to.y - from.y) * part, width: 0, height: 0 };
            const { x, y } = Places.free(p, { ...at, y: at.y + 9 }, width, 16, taken);
            p.pen.label(text, x, y, { size: 10, radius: 4, fill: p.colour.paper, ink: p.colour.ink, edge: p.colour.control, most: p.width });
        }
    };

    // ---- frames in flight

    // how many frames are at each box, but for the one in focus: several places may share one
    const flyingAt = p => {
        const { flying: places, focus } = p.scene;
        const counts = new Map();
        for (const [key, ids] of places) {
            const others = ids.filter(id => id !== focus);
            const box = p.boxOf(key < 0 ? { spot: -1 - key } : { switch: key });
            if (others.length > 0 && !counts.has(box)) counts.set(box, { ids: others, isSwitch: key >= 0 });
            else if (others.length > 0) for (const id of others) counts.get(box).ids.push(id);
        }
        return counts;
    };

    // The frames that are flying: in the box where they are, below its name, one by its number and more by how many they are; where that has no room a dot.
    const flying = p => {
        for (const [box, { ids, isSwitch }] of flyingAt(p)) {
            const at = p.shown(box);
            if (!p.isSeen(at)) continue;
            if (at.width < NARROW) {
                p.pen.spot(at, p.colour.ink);
                continue;
            }
            const text = ids.length > 1 ? `\u00d7${ids.length}` : `${ids[0]}`;
            const size = Math.min(9, at.height / 3);
            const width = p.pen.widthOf(text, size, true) + 4;
            const [right, bottom] = [at.x + at.width / 2, at.y + at.height / 2];
            if (at.height < LOW || size < SMALLEST || width > at.width - 3) p.pen.dot(right - 3, bottom - 3, 2.5, p.colour.paper, p.colour.ink);
            else {
                const y = isSwitch && box.pod === undefined && at.height >= 27 ? at.y - at.height * 0.1 + size / 2 + 2 : bottom - size / 2 - 2;
                p.pen.label(text, right - width / 2 - 2, y, { size, radius: 3, fill: p.colour.paper, ink: p.colour.ink, edge: p.colour.ink, most: p.width, tight: true });
            }
        }
    };

    // ---- labels of the entry of now

    const frameLabel = (p, text, x, y) => {
        const { now, nowink } = p.colour;
        p.pen.label(text, x, y, { size: 11, radius: 8, fill: now, ink: nowink, edge: nowink, most: p.width });
    };

    // A label of what moves: on its way beside the line, and at its end beside the box where it is.
    const moving = (p, text, from, to, taken) => {
        const width = p.pen.widthOf(text, 11, true) + 12;
        if (from && p.progress < 1) {
            const [a, b] = Places.ends(p, from, to);
            frameLabel(p, text, a.x + (b.x - a.x) * p.progress + width / 2 + 3, a.y + (b.y - a.y) * p.progress);
            return;
        }
        const { x, y } = Places.free(p, p.spotOf(to), width, 18, taken);
        frameLabel(p, text, x, y);
    };

    const frameOfNow = (p, taken) => {
        const { now, focus, way: places } = p.scene;
        if (focus === 0 || places.length === 0) return;
        moving(p, `${focus}`, now && now.frame === focus ? now.from : null, places[places.length - 1], taken);
    };

    const note = (p, text, x, y, isBad) => {
        const { paper, ink, failed, now } = p.colour;
        const [front, edge] = isBad ? [failed, failed] : [ink, now];
        p.pen.label(text, x, y, { size: 12, radius: 4, fill: paper, ink: front, edge, most: p.width });
    };

    const noteAt = (p, text, at, isBad, taken) => {
        const { x, y } = Places.free(p, at, p.pen.widthOf(text, 12, true) + 14, 19, taken);
        note(p, text, x, y, isBad);
    };

    const noteOfNow = (p, taken) => {
        const { now } = p.scene;
        if (!now || !now.place || p.progress < 1 || now.note === "") return;
        if (now.place.link !== undefined) noteAt(p, now.note, { ...p.middleOf(now.place.link), width: 8, height: 12 }, p.state.failed[now.place.link] === 1, taken);
        else noteAt(p, now.note, p.spotOf(now.place), now.note.startsWith("\u2715"), taken);
    };

    // the name of what a finger touched
    const touched = (p, taken) => {
        if (!p.touched) return;
        noteAt(p, p.touched.text, p.touched.place.pod === undefined ? p.spotOf(p.touched.place) : p.shown(p.podBox(p.touched.place.pod)), false, taken);
    };

    const draw = p => {
        const { now } = p.scene;
        const taken = []; // by labels
        p.placeNames();
        if (p.layout.manager) managerLines(p);
        way(p);
        if (p.layout.manager) managerBox(p);
        flying(p);
        frameOfNow(p, taken);
        if (now && now.control && now.from) moving(p, now.control, now.from, now.place, taken);
        noteOfNow(p, taken);
        avoids(p, taken);
        touched(p, taken);
    };

    return { draw };
})();
