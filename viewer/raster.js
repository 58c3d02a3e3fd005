"use strict";
// Draws thousands of fine lines on the pixels of a canvas, without smoothing: each has one pixel in each column, or in each row where it
// is steep, a fourth of which is the colour of the line below it, or of the paper. Where the lines of a view go is reckoned once, and drawing
// them writes a byte for each pixel: the levels of the last two lines there.
globalThis.Raster = (() => {
    const UNIT = 65536; // of a place across a line, as a whole number
    const RIM = 4; // pixels around the picture, into which a wide line may go
    const [LEVEL, BOTH] = [7, 63]; // of a byte: the level of the last line, and of the last two
    const PARTS = 6; // of a line: its first pixel, how many, how far the next is, its place across, how that changes, how far one across is

    // the parts of a colour that is written #rrggbb
    const partsOf = ink => [1, 3, 5].map(at => parseInt(ink.slice(at, at + 2), 16));

    // so much of one colour and the rest of another, both as parts
    const mixed = (part, one, other) => other.map((of, n) => of + (one[n] - of) * part);
    const pixelOf = ([red, green, blue]) => Math.round(red) | Math.round(green) << 8 | Math.round(blue) << 16 | 0xff << 24;

    // the part of a line from `first` to `last` at which it is from 0 up to `most` across
    const inside = (at, slope, first, last, most) => {
        const isIn = n => at(n) >= 0 && at(n) < most;
        if (first > last || (isIn(first) && isIn(last))) return [first, last];
        const edges = [0, most].map(side => first + (side - at(first)) / (slope || 1e-9)).sort((a, b) => a - b);
        const part = [Math.max(first, Math.ceil(edges[0])), Math.min(last, Math.floor(edges[1]))];
        if (!isIn(part[0])) part[0]++;
        if (!isIn(part[1])) part[1]--;
        return part;
    };

    class Raster {
        // on what a context shows, so many points of the screen in one of the canvas
        constructor(context, ratio) {
            const { width, height } = context.canvas;
            Object.assign(this, { ratio, width, height, stride: width + 2 * RIM, count: 0, top: height, bottom: 0 });
            this.image = context.getImageData(0, 0, width, height);
            this.pixels = new Int32Array(this.image.data.buffer);
            this.former = this.pixels.slice(); // what is below the lines
            this.codes = new Uint8Array(this.stride * (height + 2 * RIM));
            this.isNew = true; // nothing of it is on the canvas yet
        }

        // its lines from now on, four numbers of each
        take(ends) {
            this.count = ends.length / 4;
            this.lines = new Int32Array(PARTS * this.count);
            this.rows = new Int32Array(2 * this.count); // the first row of each, and the row behind its last one
            for (let n = 0; n < this.count; n++) this.reckon(n, ...ends.subarray(4 * n, 4 * n + 4).map(end => end * this.ratio));
        }

        // where the pixels of a line are
        reckon(n, x, y, toX, toY) {
            const { width, height, stride } = this;
            this.rows[2 * n] = height;
            const isSteep = Math.abs(toY - y) > Math.abs(toX - x);
            const ends = isSteep ? [[y, x], [toY, toX]] : [[x, y], [toX, toY]];
            const [[from, side], [to, toSide]] = ends[0][0] > ends[1][0] ? ends.reverse() : ends;
            const [next, beside, most, mostBeside] = isSteep ? [stride, 1, height, width] : [1, stride, width, height];
            const slope = (toSide - side) / Math.max(1e-6, to - from);
            const at = place => side + (place + 0.5 - from) * slope;
            const [first, last] = inside(at, slope, Math.max(0, Math.ceil(from - 0.5)), Math.min(most, Math.ceil(to - 0.5)) - 1, mostBeside);
            if (first > last) return; // it has none
            const rows = isSteep ? [first, last] : [at(first), at(last)];
            this.rows.set([Math.max(0, Math.floor(Math.min(...rows)) - RIM), Math.min(height, Math.ceil(Math.max(...rows)) + RIM)], 2 * n);
            const corner = RIM * stride + RIM;
            this.lines.set([corner + first * next, last - first + 1, next, Math.floor(at(first) * UNIT), Math.round(slope * UNIT), beside], PARTS * n);
        }

        // Draws each line that has a level above 0, those of a lower level first. `inks` are the colour of each level, its width and how faint it
        // is, or null for none; fine or faint lines have a colour nearer to the paper's.
        draw(levels, inks, paper) {
            this.codes.fill(0);
            this.reach(levels);
            const colours = [partsOf(paper)];
            for (const ink of inks) if (ink) colours[ink.level] = this.level(levels, ink, colours[0]);
            this.mix(colours);
        }

        // takes up the rows of lines that have a level
        reach(levels) {
            const { rows } = this;
            for (let n = 0; n < this.count; n++) {
                if (levels[n] === 0) continue;
                if (rows[2 * n] < this.top) this.top = rows[2 * n];
                if (rows[2 * n + 1] > this.bottom) this.bottom = rows[2 * n + 1];
            }
        }

        // draws the lines of a level, and answers their colour
        level(levels, { level, colour, width, alpha }, paper) {
            const wide = Math.max(1, Math.min(RIM, Math.round(width * this.ratio)));
            for (let n = 0; n < this.count; n++) if (levels[n] === level) this.line(n, level, wide);
            return mixed(Math.min(1, 1.3 * alpha * width * this.ratio / wide), partsOf(colour), paper);
        }

        // a line of so many pixels beside each other
        line(n, level, wide) {
            const { codes, lines } = this;
            const part = PARTS * n;
            const [next, step, beside] = [lines[part + 2], lines[part + 4], lines[part + 5]];
            for (let apart = (1 - wide) / 2; apart < wide / 2; apart++) {
                let at = lines[part];
                let across = lines[part + 3] + apart * UNIT | 0;
                for (let left = lines[part + 1]; left > 0; left--, at += next, across += step) {
                    const pixel = at + (across >> 16) * beside;
                    codes[pixel] = codes[pixel] << 3 | level;
                }
            }
        }

        // the pixels of the rows that have lines: what is below where there is none, else the colours of the last two
        mix(colours) {
            const { codes, pixels, former, width, stride } = this;
            const [added, kept] = [new Int32Array(BOTH + 1), new Int32Array(BOTH + 1)];
            kept[0] = -1; // in place of asking at each pixel whether there is a line, which takes longer
            for (let code = 1; code <= BOTH; code++) {
                const [above, below] = [colours[code & LEVEL], colours[code >> 3]];
                if (above && below) added[code] = pixelOf(mixed(0.75, above, mixed(0.75, below, colours[0])));
            }
            for (let y = this.top; y < this.bottom; y++) {
                const end = (y + 1) * width;
                for (let at = y * width, place = (y + RIM) * stride + RIM; at < end; at++, place++) {
                    const code = codes[place] & BOTH;
                    pixels[at] = former[at] & kept[code] | added[code];
                }
            }
        }

        // what it shows now lies below its lines from now on, of which it has drawn none
        keep() {
            this.former.set(this.pixels);
            [this.top, this.bottom] = [this.height, 0];
        }

        // puts it on a canvas that showed it last
        put(context) {
            const { image, width, top, bottom, isNew } = this;
            if (isNew) context.putImageData(image, 0, 0);
            else if (top < bottom) context.putImageData(image, 0, 0, 0, top, width, bottom - top);
            this.isNew = false;
        }
    }

    return { of: (context, ratio) => new Raster(context, ratio) };
})();
