"use strict";
// Draws the ground of a picture: pods, and the links as they are once so many entries have happened. A failed link is dashed with a
// cross, one that is none of a tree of learning bridges dotted; a load is told by width as well as by colour.
globalThis.Ground = (() => {
    const LEVELS = 8; // of the look of a line: its failed links times this, and the level of its load
    const OUT = 2 ** 20; // instead, where none of its links is of the tree of learning bridges
    const BESIDE = 6; // points around a line
    const LONG = 1000; // more lines with their loads than this take long
    const PART = 300; // lines that are drawn in a few milliseconds
    const HOST_LINK = 1; // how wide the line to a host is
    const ALL = null; // places: everywhere
    const FAINT = 0.2; // a link that is this faint or fainter is drawn below its failure too

    const largest = counts => counts.reduce((most, count) => Math.max(most, count), 0);
    // the largest load of links or switches, in the run beside it too
    const most = ({ state, beside }, what) => Math.max(largest(state[what]), beside ? largest(beside[what]) : 0);
    // the least count of each level above 0: equally far apart by their logarithms in that of the largest
    const bounds = highest => [1, 2, 3, 4, 5].map(level => Math.ceil(Math.max(2, highest) ** ((level - 1) / 4.999) - 1e-9));
    // the level from 0 to 5 of each count up to the largest
    const levelsTo = highest => {
        const levels = new Uint8Array(highest + 1);
        bounds(highest).forEach((least, n) => levels.fill(n + 1, least));
        return levels;
    };

    const pods = p => {
        const { c } = p.pen;
        const { layout, colour } = p;
        layout.pods.forEach((pod, n) => {
            const at = p.shown(pod);
            if (!p.isSeen({ x: at.x + at.width / 2, y: at.y + at.height / 2, width: at.width, height: at.height })) return;
            c.beginPath();
            c.roundRect(at.x, at.y, at.width, at.height, 6);
            c.fillStyle = colour.pod;
            c.fill();
            if (layout.folds && pod.isOpen) p.pen.outline(colour.link, 1);
            const mark = !layout.folds ? "" : pod.isOpen ? "\u25be " : "\u25b8 ";
            const texts = [`${mark}pod ${n}${layout.folds ? "" : " of the wiring"}`, `pod ${n}`, `${n}`];
            const y = at.y + at.height - Math.max(7, Math.min(10, 12 * p.scale));
            p.pen.write(texts, at.x + at.width / 2, y, at.width - 4, Math.max(8, Math.min(11, 16 * p.scale)), colour.muted);
        });
    };

    // Whether the lines look the same whatever happens but for failures above them, so that they are drawn once.
    const isKept = p => {
        if (p.isLoads || p.isOfBridge) return false;
        const { count } = Lines.shown(p);
        return Lines.faded(p, count) <= FAINT || p.lines.isFolded;
    };

    // what is drawn of the ground once: pods, and lines that look the same
    const bed = {
        keyOf: () => "",
        lookOf: () => null,
        changes: () => [],
        draw: p => {
            pods(p);
            if (isKept(p)) plain(p, () => true);
        },
    };

    // links as they are while no loads are shown
    const plain = (p, isWanted) => {
        const isStory = p.scene && p.scene.subject !== null;
        const alpha = Lines.faded(p, Lines.shown(p).count) * (isStory ? 0.55 : 1);
        p.pen.faint(alpha, () => Lines.draw(p, p.colour.link, fineWidth(p), isWanted));
    };

    // the line from a host's port to its edge switch, none in a folded pod
    const hostLink = (p, spot) => {
        const [x, y, toY] = p.lines.hosts.subarray(3 * spot, 3 * spot + 3);
        if (Number.isNaN(x)) return null;
        return [(x - p.x) * p.scale, (y - p.y) * p.scale, (x - p.x) * p.scale, (toY - p.y) * p.scale];
    };

    // calls `act` for each line in sight from a host to its edge switch, and in a folded pod: where it is across, and its two ends down
    const eachHostLink = (p, spots, act) => {
        const { layout, sight, scale } = p;
        const { hosts, hostsTop } = p.lines;
        const [left, right] = [sight.x - BESIDE, sight.x + sight.width + BESIDE];
        const [above, below] = [sight.y - BESIDE, sight.y + sight.height + BESIDE];
        if ((hostsTop - p.y) * scale > below) return;
        for (let host = 0; host < spots.length; host++) {
            const at = 3 * spots[host];
            const x = (hosts[at] - p.x) * scale;
            if (!(x > left && x < right)) continue;
            const y = (hosts[at + 1] - p.y) * scale;
            const toY = (hosts[at + 2] - p.y) * scale;
            if (y > above && toY < below) act(x, y, toY);
        }
        for (const { edge, hosts: box } of layout.folded) {
            const [from, to] = [p.shown(edge), p.shown(box)];
            if (to.x > left && to.x < right && to.y > above && from.y < below) act(to.x, to.y, from.y + from.height / 2);
        }
    };

    const hostLinks = (p, spots) => {
        const { pen } = p;
        pen.beginLines(p.colour.link, HOST_LINK);
        eachHostLink(p, spots, (x, y, toY) => pen.line(x, y, x, toY));
        pen.endLines();
    };

    // What the ground looks like: each line by how many of its links are failed and, where loads are shown, the level of the largest
    // of their loads; whether a line is broken; and where the hosts stand.
    const lookOf = p => {
        const { state, isLoads } = p;
        Lines.shown(p);
        const { of, isOne } = p.lines;
        const lines = new Int32Array(isOne.length).fill(OUT);
        let failures = 0;
        for (let n = 0; n < of.length; n++) {
            const failed = state.failed[n];
            failures += failed;
            if (failed !== At.LEFT_OUT) lines[of[n]] = lines[of[n]] % OUT + LEVELS * failed;
        }
        if (isLoads) addLoads(lines, of, state.carried, most(p, "carried"));
        return { lines, isBroken: failures > 0, spots: state.spots.slice() };
    };

    // adds to each line the level of the largest load of its links
    const addLoads = (lines, of, carried, highest) => {
        const loads = new Int32Array(lines.length);
        for (let n = 0; n < of.length; n++) if (carried[n] > loads[of[n]]) loads[of[n]] = carried[n];
        const levels = levelsTo(highest);
        for (let n = 0; n < loads.length; n++) lines[n] += levels[loads[n]];
    };

    // It looks the same while this does.
    const keyOf = ({ state: { counts }, isLoads, beside }) => {
        const { linkdown, linkup, moved, crossed } = Journal.KIND;
        return [counts[linkdown], counts[linkup], counts[moved], isLoads ? counts[crossed] : 0, isLoads && beside ? beside.counts[crossed] : 0].join(" ");
    };

    // the places where a line shows, with that of a cross and a number in its middle
    const placesOf = ([x, y, toX, toY]) => [...Pen.piecesOf([x, y, toX, toY]), { x: (x + toX) / 2 - 10, y: (y + toY) / 2 - 10, width: 100, height: 20 }];

    // the places on the canvas where two looks differ; all of it where these are more than `many`
    const changes = (p, before, now, many) => {
        const { count, number, ends } = Lines.shown(p);
        const places = [];
        for (let n = 0; n < count && places.length <= many; n++) {
            if (before.lines[number[n]] !== now.lines[number[n]]) places.push(...placesOf(ends.subarray(4 * n, 4 * n + 4)));
        }
        now.spots.forEach((spot, host) => {
            if (spot === before.spots[host] || places.length > many) return;
            for (const line of [hostLink(p, spot), hostLink(p, before.spots[host])]) if (line) places.push(...placesOf(line));
        });
        return places.length > many ? ALL : places;
    };

    // those that are none of the tree, where they are not too many to be told apart
    const leftOut = (p, look) => {
        const { number, ends, count } = Lines.shown(p);
        if (!p.isOfBridge || count > LONG) return;
        const lines = [];
        for (let n = 0; n < count; n++) {
            if (look.lines[number[n]] >= OUT && Lines.isCrossing(p.sight, ends, 4 * n)) lines.push(ends.subarray(4 * n, 4 * n + 4));
        }
        p.pen.faint(Math.max(0.3, Lines.faded(p, count)), () => p.pen.lines(lines, p.colour.link, 1, [1, 5]));
    };

    // failed links, above the others
    const broken = (p, look) => {
        const { colour, pen, sight } = p;
        const { count, number, ends } = Lines.shown(p);
        leftOut(p, look);
        for (let n = 0; n < count; n++) {
            const failed = Math.floor(look.lines[number[n]] % OUT / LEVELS);
            if (failed === 0 || !Lines.isCrossing(sight, ends, 4 * n)) continue;
            const line = ends.subarray(4 * n, 4 * n + 4);
            const size = p.lines.sizes[number[n]];
            const [middleX, middleY] = [(line[0] + line[2]) / 2, (line[1] + line[3]) / 2];
            if (failed === size) pen.lines([line], colour.failed, 1.6, [5, 4]); // of many links some of which are live the line stays
            pen.cross(middleX, middleY, 4, colour.failed);
            if (size > 1) pen.write([`${failed} of ${size}`], middleX + 8 + 3.2 * `${failed} of ${size}`.length, middleY, 70, 10, colour.failed, true);
        }
    };

    const fineWidth = p => Math.max(0.4, Math.min(1.4, p.scale * 1.1));
    // how links over which no frame came are drawn, and those of each level of a load: the more, the wider and the farther from the paper's colour
    const inksOf = p => {
        const { count } = Lines.shown(p);
        const wider = Math.max(0.12, Math.min(1, 80 / count)) * Math.max(0.5, Math.min(1, p.scale)); // for each level
        const unused = { level: 0, colour: p.colour.link, width: fineWidth(p), alpha: Math.min(0.6, Lines.faded(p, count)) };
        return [unused, ...[1, 2, 3, 4, 5].map(level => ({ level, colour: p.colour[`load${level}`], width: 0.5 + level * wider, alpha: 1 }))];
    };

    // whether a line is not failed: each by its number, as many links together always
    const liveOf = (p, look) => number => look.lines[number] < (p.lines.isOne[number] === 0 ? OUT : LEVELS);

    // the lines that are not failed in parts, those of a lower level first
    const loadParts = (p, look) => {
        const isLive = liveOf(p, look);
        const { count, number } = Lines.shown(p);
        return inksOf(p).flatMap(({ level, colour, width, alpha }) => {
            const lines = [];
            for (let n = 0; n < count; n++) if (look.lines[number[n]] % LEVELS === level && isLive(number[n])) lines.push(n);
            const parts = Array.from({ length: Math.ceil(lines.length / PART) }, (_, n) => lines.slice(n * PART, (n + 1) * PART));
            return parts.map(part => () => p.pen.faint(alpha, () => Lines.drawSome(p, colour, width, part)));
        });
    };

    // what is drawn above its bed, in parts that take a few milliseconds each where there are many lines
    const partsOf = (p, look) => {
        const lines = p.isLoads ? loadParts(p, look) : isKept(p) ? [] : [() => plain(p, liveOf(p, look))];
        return [...lines, () => {
            if (look.isBroken) broken(p, look);
            hostLinks(p, look.spots);
        }];
    };

    const draw = (p, look) => partsOf(p, look).forEach(part => part());

    // How it is drawn by a Raster where it takes longer than a step may: so many lines with their loads. `begin` is for what stays the same
    // while the view and `keyOf` do.
    const coarse = {
        isWanted: p => p.isLoads && Lines.shown(p).count > LONG,
        keyOf: ({ state: { counts }, isOfBridge }) => `${counts[Journal.KIND.moved]} ${isOfBridge ? counts[Journal.KIND.linkdown] : 0}`,
        begin: (p, look, raster) => {
            const { count, number, ends } = Lines.shown(p);
            const hosts = [];
            eachHostLink(p, look.spots, (x, y, toY) => hosts.push(x, y, x, toY));
            const all = new Float64Array(4 * count + hosts.length);
            all.set(ends.subarray(0, 4 * count));
            all.set(hosts, 4 * count);
            raster.take(all);
            const levels = new Uint8Array(all.length / 4);
            levels.fill(2, count);
            for (let n = 0; n < count; n++) levels[n] = look.lines[number[n]] < OUT ? 1 : 0;
            const [unused] = inksOf(p);
            const toHosts = { ...unused, width: HOST_LINK, alpha: 1 };
            raster.draw(levels, [null, { ...unused, level: 1 }, { ...toHosts, level: 2 }], p.colour.paper);
            raster.keep();
        },
        draw: (p, look, raster) => {
            const { count, number } = Lines.shown(p);
            const isLive = liveOf(p, look);
            const levels = new Uint8Array(raster.count);
            for (let n = 0; n < count; n++) if (isLive(number[n])) levels[n] = look.lines[number[n]] % LEVELS;
            raster.draw(levels, [null, ...inksOf(p).slice(1)], p.colour.paper);
        },
        above: (p, look) => {
            if (look.isBroken) broken(p, look);
        },
    };

    return { bed, draw, partsOf, coarse, lookOf, keyOf, changes, levelsTo, largest, most, bounds };
})();
