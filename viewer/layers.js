"use strict";
// What is drawn of a picture's fabric, kept on canvases: the bed of the ground, the ground above it, and the boxes. The sheet, which lies below the
// canvas of the picture, has ground and boxes on each other, and the picture's own canvas what moves.
// Where a step changes what is seen at a few places, these are drawn anew alone, so that it costs little in a large fabric too. Where it
// changes many, they may wait until what moves is on the screen; thousands of lines are drawn coarsely, until no other step comes for a while.
globalThis.Layers = (() => {
    const MANY = 40; // more places than this take milliseconds; of lines all are drawn anew then
    const MOST_OF_SHEET = 16; // of more places than this all of the sheet is put together anew
    const ALL = null;

    class Layer {
        // `below` is the layer that it has a copy of below what it draws; a layer without one is clear where nothing is drawn.
        constructor(drawer, below, isClear) {
            this.canvas = document.createElement("canvas");
            this.context = this.canvas.getContext("2d", { alpha: isClear });
            this.pen = Pen.of(this.context);
            Object.assign(this, { drawer, below, isClear, view: "", key: "", look: null, isCoarse: false, isLate: false });
            Object.assign(this, { raster: null, rasterKey: "" }); // by what it is drawn coarsely, and of what
            Object.assign(this, { draft: null, parts: [] }); // on which it is finished, and what is to be drawn there still
        }

        // all is drawn anew the next time
        forget() {
            this.view = "";
            this.raster = null;
        }

        // The places where it is to be drawn anew now, or ALL of it. None while many of them may wait.
        stale(p, view, mayWait) {
            const { drawer, look: before } = this;
            const key = drawer.keyOf(p);
            this.isLate = false;
            if (view === this.view && key === this.key) return [];
            const look = drawer.lookOf(p);
            const places = view === this.view ? drawer.changes(p, before, look, MANY) : ALL;
            if (mayWait && view === this.view && this.takesLong(places)) {
                this.isLate = true;
                return [];
            }
            Object.assign(this, { view, key, look });
            return places;
        }

        takesLong(places) {
            return places === ALL || places.length > MANY || (this.isCoarse && places.length > 0);
        }

        // Brings it up to now, unless that takes long and may wait. Answers the places where it changed, or ALL.
        renew(p, view, size, mayWait) {
            const { canvas, pen, drawer } = this;
            const places = this.stale(p, view, mayWait);
            const { pen: former } = p;
            p.pen = pen;
            const isAll = places === ALL || (this.isCoarse && places.length > 0);
            if (isAll) {
                if (canvas.width !== p.canvas.width) canvas.width = p.canvas.width;
                if (canvas.height !== p.canvas.height) canvas.height = p.canvas.height;
                this.isCoarse = drawer.coarse !== undefined && drawer.coarse.isWanted(p);
                this.parts = [];
                if (this.isCoarse) this.drawCoarsely(p, view, size);
                else this.draw(p, size);
            } else if (places.length > 0 && drawer.redraw) drawer.redraw(p, this.look, places);
            else for (const place of places) p.within(Pen.whole(place, size.ratio), this.context, () => this.draw(p, size));
            p.pen = former;
            return isAll ? ALL : places;
        }

        // draws what is in sight, its many lines by a raster
        drawCoarsely(p, view, { ratio }) {
            const { context, below, drawer: { coarse }, look } = this;
            const key = `${view} ${coarse.keyOf(p)}`;
            if (this.raster === null || this.rasterKey !== key) {
                this.raster = Raster.of(below.context, ratio);
                this.rasterKey = key;
                coarse.begin(p, look, this.raster);
            }
            coarse.draw(p, look, this.raster);
            this.raster.put(context);
            p.ready(ratio);
            coarse.above(p, look);
        }

        // Draws the next part of what is to stay in place of what was drawn coarsely, on a canvas of its own until the last one.
        finish(p, size) {
            const { pen: former } = p;
            if (this.draft === null) this.draft = draftOf();
            const { canvas, context, pen } = this.draft;
            p.pen = pen;
            if (this.parts.length === 0) {
                [canvas.width, canvas.height] = [this.canvas.width, this.canvas.height];
                this.prepare(p, size);
                this.parts = this.drawer.partsOf(p, this.look);
            } else this.parts.shift()();
            context.getImageData(0, 0, 1, 1); // so that the part is drawn now, and not with all others behind the last one
            p.pen = former;
            if (this.parts.length > 0) return;
            this.context.setTransform(1, 0, 0, 1, 0, 0);
            this.context.drawImage(canvas, 0, 0);
            this.isCoarse = false;
        }

        // begins to draw with the picture's pen, on a copy of what is below
        prepare(p, { width, height, ratio }) {
            const { below, isClear } = this;
            if (!below) {
                p.prepare(width, height, ratio, isClear);
                return;
            }
            p.pen.c.setTransform(1, 0, 0, 1, 0, 0);
            p.pen.c.drawImage(below.canvas, 0, 0);
            p.ready(ratio);
        }

        // draws what is in sight
        draw(p, size) {
            this.raster = null;
            this.prepare(p, size);
            this.drawer.draw(p, this.look);
        }
    }

    // a canvas that is looked at once a part is drawn
    const draftOf = () => {
        const canvas = document.createElement("canvas");
        const context = canvas.getContext("2d", { alpha: false, willReadFrequently: true });
        return { canvas, context, pen: Pen.of(context) };
    };

    // The sheet is one canvas, since a browser without a graphics card takes a copy of each that is on the page in each step, whether it has changed
    // or not.
    class Layers {
        constructor(canvas) {
            this.bed = new Layer(Ground.bed, null, false);
            this.ground = new Layer(Ground, this.bed, false);
            this.boxes = new Layer(Drawing, null, true);
            this.sheet = document.createElement("canvas");
            this.sheet.className = "layer";
            this.sheet.setAttribute("aria-hidden", "true");
            this.context = this.sheet.getContext("2d", { alpha: false });
            canvas.before(this.sheet);
        }

        // all is drawn anew the next time
        forget() {
            for (const layer of [this.bed, this.ground, this.boxes]) layer.forget();
        }

        // whether a part of it waits to be drawn as it is to stay
        get isCoarse() {
            return this.ground.isCoarse;
        }

        // whether a part of it is still as it was before the last step
        get isLate() {
            return this.ground.isLate || this.boxes.isLate;
        }

        finish(p, size) {
            this.ground.finish(p, size);
            if (!this.ground.isCoarse) this.put(p, size, ALL);
        }

        // puts ground and boxes together at these places of the sheet, or at ALL of it
        put({ canvas }, { ratio }, places) {
            const { sheet, context, ground, boxes } = this;
            if (places === ALL) {
                if (sheet.width !== canvas.width) sheet.width = canvas.width;
                if (sheet.height !== canvas.height) sheet.height = canvas.height;
                for (const layer of [ground, boxes]) context.drawImage(layer.canvas, 0, 0);
                return;
            }
            for (const place of places) {
                const { x, y, width, height } = Pen.whole(place, ratio);
                const at = [x, y, width, height].map(part => Math.round(part * ratio));
                for (const layer of [ground, boxes]) context.drawImage(layer.canvas, ...at, ...at);
            }
        }

        // brings all up to now, where `mayWait` all that does not take long
        bring(p, size, mayWait) {
            const view = [...Object.values(size), p.scale, p.x, p.y, p.isLoads, p.scene.subject !== null].join(" ");
            this.bed.renew(p, view, size, mayWait);
            const changed = [this.ground, this.boxes].map(layer => layer.renew(p, view, size, mayWait));
            const isAll = changed.includes(ALL) || changed[0].length + changed[1].length > MOST_OF_SHEET;
            this.put(p, size, isAll ? ALL : [...changed[0], ...changed[1].map(one => p.placeOf(one.box))]);
        }
    }

    return { make: canvas => new Layers(canvas) };
})();
