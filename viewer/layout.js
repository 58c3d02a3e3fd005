"use strict";
// Where a fabric's switches, hosts and links are drawn: core switches in the first row, then aggregation and edge switches by
// pod, and below each edge switch its ports for hosts, by rising port. Where a pod's switches would be too narrow to be read, the
// pod is folded: one box for its aggregation switches, one for its edge switches and one for its hosts, until it is opened.
// Places are in units of the drawing, which has its origin at the top left.
globalThis.Layout = (() => {
    // Width of an edge switch's column, how many hosts stand side by side in it, the sizes of boxes, and the gap between pods:
    // roomy ones first. `few` is the least part of that size at which they are read.
    const ROOMY = { column: 116, across: 2, box: [94, 50], cell: [55, 50], gap: 26 };
    const MIDDLE = { column: 60, across: 1, box: [52, 46], cell: [54, 36], gap: 18 };
    const NARROW = { column: 45, across: 1, box: [42, 32], cell: [42, 30], gap: 6 };
    const LARGE = { column: 36, across: 1, box: [32, 42], cell: [33, 25], gap: 9 };
    const SIZES = { 4: [ROOMY, NARROW], 6: [MIDDLE, LARGE] };
    const FOLDED = { least: 11, most: 40, beside: 22 }; // width of a folded pod; `beside` an open one
    const READABLE = 20; // points on the screen: a narrower column cannot be read
    const BETWEEN = 4; // between a folded pod's box and the next one, besides the gap between pods
    const HEAD = 24; // above the first row
    const MANAGER = { width: 190, height: 34, room: 52 }; // the box of the fabric manager above it, where a log is open
    const FOOT = 46; // below the hosts: the pod's name

    const widthOf = (k, { column, gap }) => k * (k / 2 * column + gap) + gap;

    // the sizes for a canvas of this width, beside another run those with the largest texts, and whether pods fold there
    const sizesFor = (k, room, isAnyOpen, isBeside) => {
        const sizes = SIZES[k] || [LARGE];
        const last = sizes[sizes.length - 1];
        const size = (!isBeside && sizes.find(one => room >= 0.6 * widthOf(k, one))) || last;
        const folds = room * size.column / widthOf(k, size) < READABLE;
        return folds ? { ...size, folds, gap: isAnyOpen || room / k < 30 ? 4 : size.gap } : { ...size, folds };
    };

    // the width of a folded pod, so that all of them have their true size on the canvas
    const foldedWidth = (k, size, room, isAnyOpen) => {
        const width = Math.max(FOLDED.least, Math.min(FOLDED.most, Math.floor((room - size.gap) / k) - size.gap));
        return isAnyOpen ? Math.min(width, FOLDED.beside) : width;
    };

    // where each pod begins and how wide it is
    const columnsOf = (k, size, isOpen, folded) => {
        let x = size.gap;
        const columns = [];
        for (let pod = 0; pod < k; pod++) {
            const width = isOpen(pod) ? k / 2 * size.column : folded;
            columns.push({ x, width });
            x += width + size.gap;
        }
        return { columns, width: x };
    };

    // the heights of the rows, so far apart that the drawing has the shape of its canvas
    const rowsOf = (shape, width, size, core, below) => {
        const boxes = core.rows * (core.box[1] + 3) + 2 * size.box[1];
        const least = size.head + boxes + below + (size.folds ? 100 : 140);
        const height = Math.max(least, Math.min(width / shape, least + width * 0.45));
        const between = (height - size.head - boxes - below) / 2;
        const aggregation = size.head + core.rows * (core.box[1] + 3) + between + size.box[1] / 2;
        return { height, aggregation, edge: aggregation + between + size.box[1] };
    };

    const coreOf = (h, width, size) => {
        if (width / (h * h) > size.box[0] + 3) return { across: h, rows: 1, box: size.box };
        const group = (width - size.gap) / h * 0.94;
        const named = h < 10 ? 30 : 38; // so wide that its label can be read
        if (group < named) return { across: 4, rows: Math.ceil(h / 4), box: [group / 4 - 1.5, 9] };
        const rows = Math.ceil(h / Math.max(1, Math.min(h, Math.round(group / (named + 2)))));
        const across = Math.ceil(h / rows);
        return { across, rows, box: [Math.min(named, group / across - 2), 15] };
    };

    const placeCore = (fabric, layout, core) => {
        const h = fabric.k / 2;
        const group = (layout.width - layout.gap) / h;
        for (const s of fabric.switches.filter(one => one.level === 2)) {
            const n = s.number - 2 * fabric.k * h;
            const place = n % h;
            const column = (place % core.across + 0.5) / core.across;
            const x = layout.gap / 2 + (Math.floor(n / h) + 0.03 + 0.94 * column) * group;
            const y = layout.head + core.box[1] / 2 + Math.floor(place / core.across) * (core.box[1] + 3);
            layout.switches[s.number] = { x, y, width: core.box[0], height: core.box[1] };
        }
        layout.groups = Array.from({ length: h }, (_, n) => (
            { x: layout.gap / 2 + (n + 0.5) * group, y: layout.head + core.rows * (core.box[1] + 3) - 3, width: group * 0.94 }));
    };

    const placeOpen = (fabric, layout, size, pod, rows) => {
        const h = fabric.k / 2;
        const { x } = layout.pods[pod].column;
        const [width, height] = size.box;
        for (let n = 0; n < h; n++) {
            const middle = x + (n + 0.5) * size.column;
            const edge = pod * h + n;
            layout.switches[edge] = { x: middle, y: rows.edge, width, height };
            layout.switches[fabric.k * h + edge] = { x: middle, y: rows.aggregation, width, height };
            placeHosts(fabric, layout, edge, size);
        }
    };

    const placeFolded = (fabric, layout, size, pod, rows) => {
        const h = fabric.k / 2;
        const { column } = layout.pods[pod];
        const box = (of, y) => ({ x: column.x + column.width / 2, y, width: column.width - BETWEEN, height: size.box[1] * 0.8, pod, of });
        const [aggregation, edge] = [box("a", rows.aggregation), box("e", rows.edge)];
        const hosts = box("hosts", rows.edge + size.box[1] + 22);
        layout.folded.push({ pod, aggregation, edge, hosts });
        for (let n = 0; n < h; n++) {
            layout.switches[pod * h + n] = edge;
            layout.switches[(fabric.k + pod) * h + n] = aggregation;
            for (const port of fabric.switches[pod * h + n].hostPorts) layout.cells.set((pod * h + n) * fabric.k + port, hosts);
        }
    };

    const placeHosts = (fabric, layout, edge, { across, cell }) => {
        const s = layout.switches[edge];
        fabric.switches[edge].hostPorts.forEach((port, n) => {
            const x = s.x + ((n % across) - (across - 1) / 2) * (cell[0] + 3);
            const y = s.y + s.height / 2 + 16 + cell[1] / 2 + Math.floor(n / across) * (cell[1] + 3);
            layout.cells.set(edge * fabric.k + port, { x, y, width: cell[0], height: cell[1] });
        });
    };

    const managerBox = width => ({ x: width / 2, y: 8 + MANAGER.height / 2, width: Math.min(MANAGER.width, width * 0.8), height: MANAGER.height });

    // The drawing of a fabric for a canvas of this width and height: the rows stand apart so that it fills it. `open` are the pods
    // that are opened where pods fold; `hasManager` where the fabric manager is drawn, `isBeside` where another run is beside it.
    const of = (fabric, canvas, open = new Set(), { hasManager = false, isBeside = false } = {}) => {
        const { k } = fabric;
        const h = k / 2;
        const size = { ...sizesFor(k, canvas.width, open.size > 0, isBeside), head: HEAD + (hasManager ? MANAGER.room : 0) };
        const isOpen = pod => !size.folds || open.has(pod);
        const isAnyOpen = !size.folds || open.size > 0;
        const { columns, width } = columnsOf(k, size, isOpen, foldedWidth(k, size, canvas.width, isAnyOpen));
        const core = coreOf(h, width, size);
        const below = FOOT + (isAnyOpen ? Math.ceil(h / size.across) * (size.cell[1] + 3) : size.box[1] + 12);
        const rows = rowsOf(Math.max(0.5, canvas.width / Math.max(1, canvas.height)), width, size, core, below);
        const layout = { width, height: rows.height, head: size.head, manager: hasManager ? managerBox(width) : null, gap: size.gap, box: size.box, cell: size.cell, across: size.across, folds: size.folds,
            apart: size.gap + BETWEEN, switches: [], pods: [], folded: [], cells: new Map() };
        const top = rows.aggregation - size.box[1] / 2 - 8;
        layout.pods = columns.map((column, pod) => ({ x: column.x - size.gap * 0.3, y: top, width: column.width + size.gap * 0.6,
            height: rows.height - top - 6, isOpen: isOpen(pod), column }));
        placeCore(fabric, layout, core);
        for (let pod = 0; pod < k; pod++) (isOpen(pod) ? placeOpen : placeFolded)(fabric, layout, size, pod, rows);
        return layout;
    };

    const isIn = (box, x, y) => Math.abs(x - box.x) <= box.width / 2 && Math.abs(y - box.y) <= box.height / 2;

    // the pod whose box or, where it is open, whose name is at a place
    const podAt = (layout, x, y) => layout.pods.findIndex(pod => x >= pod.x && x <= pod.x + pod.width && y <= pod.y + pod.height
        && y >= (pod.isOpen ? pod.y + pod.height - 22 : pod.y));

    // what is drawn at a place: a switch, a host where it stands now, a pod that folds, or nothing
    const find = (fabric, layout, state, x, y) => {
        if (layout.manager && isIn(layout.manager, x, y)) return { manager: true };
        const pod = layout.folds ? podAt(layout, x, y) : -1;
        if (pod >= 0) return { pod };
        const number = layout.switches.findIndex(box => isIn(box, x, y));
        if (number >= 0) return { switch: number };
        for (const [spot, box] of layout.cells) {
            const host = isIn(box, x, y) ? state.spots.indexOf(spot) : -1;
            if (host >= 0) return { host };
        }
        return null;
    };

    // the pod of a place that is in one, else -1
    const podOf = (fabric, place, spots) => {
        if (place.manager) return -1;
        const spot = place.spot === undefined && place.host !== undefined ? spots[place.host] : place.spot;
        const number = place.switch === undefined ? Math.floor(spot / fabric.k) : place.switch;
        const { pod } = fabric.switches[number];
        return pod === null ? -1 : pod;
    };

    return { of, find, podOf };
})();
