"use strict";
// Where labels stand in a picture: beside what they speak of, and over no name.
globalThis.Places = (() => {
    const BARE = 10; // narrower boxes have no texts
    const [TWO_ROWS, THREE_ROWS] = [19, 27];

    const meets = (a, b) => Math.abs(a.x - b.x) < (a.width + b.width) / 2 && Math.abs(a.y - b.y) < (a.height + b.height) / 2;

    // the part of a box on the canvas that has its name
    const nameOf = at => {
        if (at.height < TWO_ROWS) return at;
        const high = at.height * (at.height < THREE_ROWS ? 0.5 : 0.4);
        return { x: at.x, y: at.y - (at.height - high) / 2, width: at.width, height: high };
    };

    // The names in sight, of boxes that have one; they are gone through once for a view.
    const names = p => {
        const view = [p.x, p.y, p.scale, p.width, p.height].join(" ");
        if (p.named && p.named.layout === p.layout && p.named.view === view) return p.named.all;
        const { switches, cells, groups, manager } = p.layout;
        const boxes = [...new Set([...switches, ...cells.values()])].map(box => p.shown(box)).filter(at => at.width >= BARE && p.isSeen(at));
        const below = groups.map(group => p.shown(group)).map(({ x, y }) => ({ x, y: y + 7, width: 20, height: 11 }));
        const isSmall = p.shown(switches[switches.length - 1]).width < 20; // then the groups of core switches have names
        const all = [...boxes.map(nameOf), ...(isSmall ? below : []), ...(manager ? [p.shown(manager)] : [])];
        p.named = { layout: p.layout, view, all };
        return all;
    };

    // the places around a box at which a label of this size may stand, the nearest first
    const around = (at, width, height) => {
        const [dx, dy] = [(at.width + width) / 2 + 3, (at.height + height) / 2 + 2];
        const places = [];
        for (let turn = 0; turn < 7; turn++) {
            const far = turn * (height + 3);
            places.push([0, -dy - far], [0, dy + far], [-dx, -far], [dx, -far], [-dx / 2, -dy - far], [dx / 2, -dy - far], [-dx, far], [dx, far]);
        }
        return places.map(([x, y]) => ({ x: at.x + x, y: at.y + y, width, height }));
    };

    const isInside = (p, { x, y, width, height }) => x - width / 2 >= 0 && x + width / 2 <= p.width && y - height / 2 >= 0 && y + height / 2 <= p.height;

    // The first place around a box where a label covers no name and no other label; `taken` are those that stand already, to which it is added.
    const free = (p, at, width, height, taken) => {
        const places = around(at, width, height);
        const [dx, dy] = [at.width + 2 * width + 10, at.height + 16 * (height + 3)]; // none of these places is farther
        const isNear = other => Math.abs(other.x - at.x) < dx + other.width / 2 && Math.abs(other.y - at.y) < dy + other.height / 2;
        const covered = [...names(p).filter(isNear), ...p.names.values(), ...taken];
        const found = places.find(place => isInside(p, place) && !covered.some(other => meets(place, other))) || places.find(place => isInside(p, place)) || places[0];
        taken.push(found);
        return found;
    };

    // The two ends of what leads from one place to another: those of the link between them, which leaves boxes above and below.
    const ends = (p, from, to) => {
        const [a, b] = [p.spotOf(from), p.spotOf(to)];
        if (Math.abs(a.y - b.y) < (a.height + b.height) / 2) return [{ x: a.x, y: a.y }, { x: b.x, y: b.y }];
        const isUp = a.y > b.y;
        const [[low, of], [high]] = isUp ? [[a, from], [b]] : [[b, to], [a]];
        const isOfHost = of.switch === undefined && Math.abs(low.x - high.x) < high.width / 2; // whose line goes straight up
        const below = { x: low.x, y: low.y - low.height / 2 };
        const above = { x: isOfHost ? low.x : high.x, y: high.y + high.height / 2 };
        return isUp ? [below, above] : [above, below];
    };

    return { free, ends, meets, names };
})();
