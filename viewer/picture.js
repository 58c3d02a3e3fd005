"use strict";
// A picture of a scene on a canvas: what part of the drawing is in sight, and where things are there. The fabric itself lies below it, on a
// canvas of Layers, so that a step draws what moves alone.
globalThis.Picture = (() => {
    const NAMES = ["paper", "ink", "muted", "link", "pod", "edge", "aggregation", "core", "host", "now", "nowink", "failed",
        "control", "load1", "load2", "load3", "load4", "load5", "loadink"];
    const REST = 200; // milliseconds without another picture after which one is finished
    const LATEST = 100; // milliseconds that a part of the fabric may be behind

    class Picture {
        constructor(canvas) {
            this.canvas = canvas;
            this.layers = Layers.make(canvas);
            this.pen = Pen.of(canvas.getContext("2d"));
            this.pen.noted = [];
            Object.assign(this, { width: 0, height: 0, scale: 1, x: 0, y: 0, progress: 1, place: null });
            Object.assign(this, { isLoads: false, isOfBridge: false, isOfLog: false, beside: null, open: new Set(), touched: null }); // `beside` is the state of the run beside it
            Object.assign(this, { run: null, fabric: null, layout: null, state: null, scene: null, names: new Map(), lines: null, finishing: 0 });
            Object.assign(this, { mayWait: false, waits: false, since: 0 }); // whether the fabric may be behind, whether it waits, and since when it is
        }

        // Takes the size that the canvas has on the page, in points. It is asked for where that may have changed alone: a page that
        // is asked for it in each step lays itself out twice.
        measure() {
            this.width = this.canvas.clientWidth;
            this.height = this.canvas.clientHeight;
        }

        readColours() {
            const style = getComputedStyle(document.documentElement);
            this.colour = Object.fromEntries(NAMES.map(name => [name, style.getPropertyValue(`--${name}`).trim()]));
        }

        // reads the colours of the page's scheme
        themed() {
            this.readColours();
            this.layers.forget();
        }

        // draws by `act` in light colours, whatever the page's scheme is
        inLight(act) {
            const { colour } = this;
            document.documentElement.classList.add("light");
            this.readColours();
            document.documentElement.classList.remove("light");
            act();
            this.colour = colour;
        }

        show(run) {
            this.run = run;
            this.fabric = run.fabric;
            this.isOfBridge = Journal.isOfBridge(run);
            this.isOfLog = Said.isLog(run);
            this.open = new Set();
            this.touched = null;
            this.arrange();
        }

        // lays the fabric out in the shape that the canvas has now
        lay() {
            this.measure();
            this.lines = null; // Lines makes them of the layout
            this.layout = Layout.of(this.fabric, { width: this.width, height: this.height }, this.open, { hasManager: this.isOfLog, isBeside: this.beside !== null });
            this.layers.forget();
        }

        // the whole fabric
        arrange() {
            this.lay();
            this.fit();
        }

        // the canvas has another size
        resized() {
            this.measure();
            if (this.isWhole) this.arrange();
        }

        // opens these pods and folds all others
        openPods(pods) {
            this.open = new Set(pods);
            this.touched = null;
            this.arrange();
        }

        toggle(pod) {
            this.openPods(this.open.has(pod) ? [...this.open].filter(one => one !== pod) : [...this.open, pod]);
        }

        // what is drawn from now on
        set(state, scene) {
            const isBehind = this.layers.isLate;
            if (!isBehind) this.since = performance.now();
            this.mayWait = !isBehind || performance.now() - this.since < LATEST;
            this.state = state;
            this.scene = scene;
            this.touched = null;
            this.placeNames();
        }

        // Where the names stand that want a box of their own: over their places, and beside each other where these are near.
        placeNames() {
            this.names = new Map();
            const { way, now, subject } = this.scene;
            const places = [...(now && now.place ? [now.place] : []), ...(subject && subject.frame === undefined ? [subject] : []), ...way];
            for (const place of places) {
                if (place.link !== undefined || !this.wantsName(place) || this.names.has(this.nameOf(place))) continue;
                this.names.set(this.nameOf(place), this.freePlace(this.nameBox(place)));
            }
        }

        nameBox(place) {
            const at = this.shown(this.boxOf(place));
            const width = Math.max(Math.min(at.width, 80), 11 + 7 * this.nameOf(place).length);
            const x = this.isWhole ? Math.min(Math.max(at.x, width / 2 + 2), this.width - width / 2 - 2) : at.x;
            return { x, y: at.y, width, height: 17 };
        }

        // the box, or so near above or below it that it covers no other name
        freePlace(box) {
            const taken = [...this.names.values()];
            const isFree = y => taken.every(other => Math.abs(other.x - box.x) >= (other.width + box.width) / 2 || Math.abs(other.y - y) >= 19);
            for (let n = 0; n < 12; n++) {
                const y = box.y + (n % 2 === 0 ? -1 : 1) * Math.ceil(n / 2) * 20;
                if (isFree(y)) return { ...box, y };
            }
            return box;
        }

        nameOf(place) {
            if (place.manager) return "fabric manager";
            return place.switch === undefined ? this.fabric.hosts[place.host].name : this.fabric.switches[place.switch].label;
        }

        shown(box) {
            const { x, y, scale } = this;
            return { x: (box.x - x) * scale, y: (box.y - y) * scale, width: box.width * scale, height: box.height * scale };
        }

        // what is drawn on: a place of the canvas, or all of it
        get sight() {
            return this.place || { x: 0, y: 0, width: this.width, height: this.height };
        }

        // draws by `act` at a place of the canvas alone
        within(place, context, act) {
            context.save();
            context.beginPath();
            context.rect(place.x, place.y, place.width, place.height);
            context.clip();
            this.place = place;
            act();
            this.place = null;
            context.restore();
            this.pen.begin(this.pen.ratio);
        }

        // the place on the canvas of a box of the drawing, with a point around it
        placeOf(box) {
            const { x, y, width, height } = this.shown(box);
            return { x: x - width / 2 - 1, y: y - height / 2 - 1, width: width + 2, height: height + 2 };
        }

        isSeen({ x, y, width, height }) {
            const { sight } = this;
            return x + width > sight.x && y + height > sight.y && x - width < sight.x + sight.width && y - height < sight.y + sight.height;
        }

        // A host is at the port that is named with it, else where it stands now.
        boxOf(place) {
            if (place.manager) return this.layout.manager;
            if (place.switch !== undefined) return this.layout.switches[place.switch];
            return this.layout.cells.get(place.spot === undefined ? this.state.spots[place.host] : place.spot);
        }

        podBox(pod) {
            const { x, y, width, height } = this.layout.pods[pod];
            return { x: x + width / 2, y: y + height / 2, width, height };
        }

        // Whether a place wants a box of its own for its name: in a folded pod, or where its box is too narrow for it.
        wantsName(place) {
            if (place.manager) return false;
            const box = this.boxOf(place);
            if (place.switch === undefined) return place.host !== undefined && (box.pod !== undefined || box.width * this.scale < 20);
            return box.pod !== undefined || box.width * this.scale < 6 * this.nameOf(place).length;
        }

        // The place on the canvas of a switch or a host, with room for its name.
        spotOf(place) {
            if (!this.wantsName(place)) return this.shown(this.boxOf(place));
            return this.names.get(this.nameOf(place)) || this.nameBox(place);
        }

        // the middle of the line by which a link is drawn
        middleOf(link) {
            const { of, ends } = this.lines;
            const [x, y, toX, toY] = ends.subarray(4 * of[link], 4 * of[link] + 4);
            return { x: ((x + toX) / 2 - this.x) * this.scale, y: ((y + toY) / 2 - this.y) * this.scale };
        }

        // its pen draws in the canvas's own points
        ready(ratio) {
            const { c: context } = this.pen;
            this.pen.begin(ratio);
            context.setTransform(ratio, 0, 0, ratio, 0, 0);
            context.textAlign = "center";
            context.textBaseline = "middle";
        }

        // begins to draw with its pen, on paper or, where it is clear, on nothing
        prepare(width, height, ratio, isClear = false) {
            const { c: context } = this.pen;
            const [across, down] = [width, height].map(part => Math.ceil(part * ratio) / ratio); // with the last point of the screen, which may stand out
            this.ready(ratio);
            if (isClear) context.clearRect(0, 0, across, down);
            else {
                context.fillStyle = this.colour.paper;
                context.fillRect(0, 0, across, down);
            }
        }

        draw() {
            const { canvas, width, height, pen } = this;
            const ratio = window.devicePixelRatio || 1;
            if (canvas.width !== Math.round(width * ratio)) canvas.width = Math.round(width * ratio);
            if (canvas.height !== Math.round(height * ratio)) canvas.height = Math.round(height * ratio);
            this.ready(ratio);
            pen.clear(width, height);
            if (!this.scene || width === 0 || height === 0) return;
            this.bring();
            this.ready(ratio);
            Traces.draw(this);
        }

        // brings the fabric below it up to now, but for what may wait
        bring() {
            clearTimeout(this.finishing);
            this.layers.bring(this, { width: this.width, height: this.height, ratio: window.devicePixelRatio || 1 }, this.mayWait);
            if (this.layers.isLate) this.follow();
            if (this.layers.isCoarse) this.finishing = setTimeout(() => this.finish(), REST);
        }

        // brings up what is behind once the page is on the screen as it is
        follow() {
            if (this.waits) return;
            this.waits = true;
            requestAnimationFrame(() => setTimeout(() => {
                this.waits = false;
                this.catchUp();
            }));
        }

        // brings up what is behind now
        catchUp() {
            this.mayWait = false;
            if (this.scene && this.layers.isLate) this.bring();
        }

        // draws what was drawn coarsely as it is to stay, part by part so that a step need not wait for all of it
        finish() {
            if (!this.scene || !this.layers.isCoarse) return;
            this.layers.finish(this, { width: this.width, height: this.height, ratio: window.devicePixelRatio || 1 });
            if (this.layers.isCoarse) this.finishing = setTimeout(() => this.finish());
        }

        // draws all of it by another context, of this height at least, in the canvas's own points
        paint(context, height, ratio) {
            const { pen } = this;
            this.pen = Pen.of(context);
            this.prepare(this.width, height, ratio);
            for (const drawer of [Ground.bed, Ground, Drawing]) drawer.draw(this, drawer.lookOf(this));
            Traces.draw(this);
            this.pen = pen;
        }

        // the whole fabric
        fit() {
            this.measure();
            const { layout } = this;
            this.isWhole = true;
            this.scale = Math.min(1.5, this.width / layout.width, this.height / layout.height);
            this.x = (layout.width - this.width / this.scale) / 2;
            this.y = (layout.height - this.height / this.scale) / 2;
        }

        // another scale, by which what is at this place of the canvas stays there
        zoom(factor, x, y) {
            this.isWhole = false;
            const scale = Math.min(4, Math.max(0.02, this.scale * factor));
            this.x += x / this.scale - x / scale;
            this.y += y / this.scale - y / scale;
            this.scale = scale;
        }

        // the place that the eye is on: of whose story is shown, else of the entry of now, else the middle
        centreOfSight() {
            const { subject, now, way } = this.scene;
            const place = subject && subject.frame === undefined ? subject : way.length > 0 ? way[way.length - 1] : now && now.place;
            const at = place && place.link === undefined ? this.spotOf(place) : null;
            const isSeen = at && at.x >= 0 && at.y >= 0 && at.x <= this.width && at.y <= this.height;
            return isSeen ? at : { x: this.width / 2, y: this.height / 2 };
        }

        pan(x, y) {
            this.isWhole = false;
            this.x -= x / this.scale;
            this.y -= y / this.scale;
        }

        // brings a place into sight where it is out of it
        reveal(place) {
            if (this.isWhole) return;
            const box = this.boxOf(place);
            const at = this.shown(box);
            const margin = 25;
            if (at.x > margin && at.y > margin && at.x < this.width - margin && at.y < this.height - margin) return;
            this.centre(box);
        }

        centre(box) {
            this.isWhole = false;
            this.x = box.x - this.width / this.scale / 2;
            this.y = box.y - this.height / this.scale / 2;
        }

        // brings a place into sight so near that its texts can be read; its pod is opened
        approach(place) {
            const pod = Layout.podOf(this.fabric, place, this.state.spots);
            if (pod >= 0 && !this.layout.pods[pod].isOpen) {
                this.openPods([pod]);
                this.placeNames();
            }
            const box = this.boxOf(place);
            if (box.width * this.scale >= 24) return this.reveal(place);
            this.scale = 32 / box.width;
            return this.centre(box);
        }

        // what is drawn at a place of the canvas: a switch, a host, a pod that folds, or nothing
        find(x, y) {
            return Layout.find(this.fabric, this.layout, this.state, this.x + x / this.scale, this.y + y / this.scale);
        }
    }

    return { of: canvas => new Picture(canvas) };
})();
