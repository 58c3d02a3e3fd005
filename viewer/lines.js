"use strict";
// The lines by which a fabric's links are drawn: one for a link, or one for all links between a folded pod and a group of core switches,
// or in it. They stand in rows of numbers, so that thousands are gone through at once.
globalThis.Lines = (() => {
    // Of more lines than this each is drawn fainter, on a canvas that is wide enough for so many.
    const MANY = 80;
    const WIDE = 3; // no line is wider on either side

    // how faint each of so many lines is
    const faded = (p, count) => Math.max(0.1, Math.min(1, Math.min(MANY, p.width / 6) / count));

    // The lines of a layout: `of` has the line of each link, `ends` the four ends of each line in units of the drawing, `isOne` whether
    // it is one link, `sizes` how many links it is, `isFolded` whether none is, `hosts` those to hosts, and `hostsTop` what none of these is above.
    const ofLayout = (fabric, layout) => {
        const { switches, pods, groups } = layout;
        const h = fabric.k / 2;
        const [of, ends, isOne, sizes, bundles] = [new Int32Array(fabric.links.length), [], [], [], new Map()];
        const add = (a, b, one) => {
            ends.push(a.x, a.y - a.height / 2, b.x, b.y + b.height / 2);
            sizes.push(0);
            return isOne.push(one) - 1;
        };
        fabric.links.forEach((link, n) => {
            const { pod } = fabric.switches[link.a];
            const [a, b] = [switches[link.a], switches[link.b]];
            if (pods[pod].isOpen) {
                of[n] = add(a, b, 1);
                sizes[of[n]] = 1;
                return;
            }
            const isInPod = b.pod !== undefined;
            const key = isInPod ? -1 - pod : pod * h + (link.a % h);
            if (!bundles.has(key)) bundles.set(key, add(a, isInPod ? b : { x: groups[link.a % h].x, y: groups[link.a % h].y, height: 0 }, 0));
            of[n] = bundles.get(key);
            sizes[of[n]]++;
        });
        const isFolded = isOne.every(one => one === 0);
        const hostsTop = Math.min(...switches.slice(0, fabric.k * h).map(edge => edge.y));
        return { of, ends: Float64Array.from(ends), isOne: Uint8Array.from(isOne), sizes: Int32Array.from(sizes), isFolded, hosts: hostsOf(fabric, layout), hostsTop, view: "", shown: null };
    };

    // the line from each port for hosts in an open pod to its edge switch: where it is across, and its two ends down
    const hostsOf = ({ k }, { cells, switches }) => {
        const ends = new Float64Array(3 * k * k * k / 2).fill(NaN);
        for (const [spot, box] of cells) {
            if (box.pod !== undefined) continue;
            const edge = switches[Math.floor(spot / k)];
            ends.set([box.x, box.y, Math.min(box.y, edge.y + edge.height / 2)], 3 * spot);
        }
        return ends;
    };

    // The lines in sight: how many they are, and of each its number and its ends on the canvas.
    const shown = p => {
        const { x, y, scale, width, height } = p;
        if (p.lines === null) p.lines = ofLayout(p.fabric, p.layout);
        const { lines } = p;
        const view = [x, y, scale, width, height].join(" ");
        if (lines.view === view) return lines.shown;
        const { isOne } = lines;
        const found = { count: 0, number: new Int32Array(isOne.length), ends: new Float64Array(4 * isOne.length) };
        for (let number = 0; number < isOne.length; number++) {
            for (let part = 0; part < 4; part++) {
                found.ends[4 * found.count + part] = (lines.ends[4 * number + part] - (part % 2 === 0 ? x : y)) * scale;
            }
            found.number[found.count] = number;
            if (isCrossing(p.sight, found.ends, 4 * found.count)) found.count++;
        }
        Object.assign(lines, { view, shown: found });
        return found;
    };

    // whether the line whose ends stand here may cross a place, as a line in a box that meets it does
    const isCrossing = (place, ends, at) => {
        const [left, right, top, bottom] = [place.x - WIDE, place.x + place.width + WIDE, place.y - WIDE, place.y + place.height + WIDE];
        const x = ends[at];
        const y = ends[at + 1];
        const toX = ends[at + 2];
        const toY = ends[at + 3];
        if ((x <= left && toX <= left) || (x >= right && toX >= right) || (y <= top && toY <= top) || (y >= bottom && toY >= bottom)) return false;
        const [across, down] = [toX - x, toY - y];
        const one = across * (top - y) - down * (left - x); // on which side of the line each corner is
        const two = across * (top - y) - down * (right - x);
        const three = across * (bottom - y) - down * (left - x);
        const four = across * (bottom - y) - down * (right - x);
        return !((one > 0 && two > 0 && three > 0 && four > 0) || (one < 0 && two < 0 && three < 0 && four < 0));
    };

    // Draws the lines in sight that `isWanted`, by their numbers.
    const draw = (p, ink, width, isWanted) => {
        const { pen, sight } = p;
        const { count, number, ends } = shown(p);
        pen.beginLines(ink, width);
        for (let n = 0; n < count; n++) {
            if (!isWanted(number[n]) || !isCrossing(sight, ends, 4 * n)) continue;
            pen.line(ends[4 * n], ends[4 * n + 1], ends[4 * n + 2], ends[4 * n + 3]);
        }
        pen.endLines();
    };

    // draws those of the lines in sight that have these places among them
    const drawSome = (p, ink, width, places) => {
        const { pen, sight } = p;
        const { ends } = shown(p);
        pen.beginLines(ink, width);
        for (const n of places) {
            if (isCrossing(sight, ends, 4 * n)) pen.line(ends[4 * n], ends[4 * n + 1], ends[4 * n + 2], ends[4 * n + 3]);
        }
        pen.endLines();
    };

    return { shown, draw, drawSome, faded, isCrossing };
})();
