"use strict";
// Shapes and texts on a canvas, in its own points: what Picture draws with.
globalThis.Pen = (() => {
    const FONT = "system-ui, 'DejaVu Sans', sans-serif";
    const SMALLEST = 6; // no text is written smaller
    const STEPS = 4; // sizes of a font in a point
    const MEASURED = 100; // the size at which characters are measured
    const WIDTHS = { plain: new Map(), bold: new Map() };
    const PIECE = 64; // points of a line that are one place
    const BESIDE = 6; // points around it
    const MOST = 400; // places that are cleared one by one

    // the places where a line shows, piece by piece
    const piecesOf = ([x, y, toX, toY]) => {
        const [width, height] = [toX - x, toY - y];
        const count = Math.max(1, Math.ceil(Math.max(Math.abs(width), Math.abs(height)) / PIECE));
        const [across, down] = [width / count, height / count];
        return Array.from({ length: count }, (_, n) => ({
            x: x + n * across + Math.min(0, across) - BESIDE, y: y + n * down + Math.min(0, down) - BESIDE,
            width: Math.abs(across) + 2 * BESIDE, height: Math.abs(down) + 2 * BESIDE,
        }));
    };

    // the place in whole points of the screen
    const whole = ({ x, y, width, height }, ratio) => {
        const [left, top] = [Math.floor(x * ratio), Math.floor(y * ratio)];
        const [right, bottom] = [Math.ceil((x + width) * ratio), Math.ceil((y + height) * ratio)];
        return { x: left / ratio, y: top / ratio, width: (right - left) / ratio, height: (bottom - top) / ratio };
    };

    class Pen {
        constructor(context) {
            this.c = context;
            this.waiting = null; // the texts that are written later
            this.noted = null; // the places of what was drawn since it was clear, where they are noted
            this.begin(1);
        }

        // From now on a point is so many of the screen, and the context has another font than the last that was written in.
        begin(ratio) {
            this.ratio = ratio;
            this.fontSize = 0; // of the context's font, below 0 where it is bold
        }

        // what it draws covers no more than a place of this middle and size, and a point around it
        note(x, y, width, height) {
            if (this.noted && this.noted.length <= MOST) this.noted.push({ x: x - width / 2 - 1, y: y - height / 2 - 1, width: width + 2, height: height + 2 });
        }

        // clears a canvas of this size where something was drawn
        clear(width, height) {
            const places = this.noted.length > MOST ? [{ x: 0, y: 0, width, height }] : this.noted;
            for (const place of places) {
                const { x, y, width: across, height: down } = whole(place, this.ratio);
                this.c.clearRect(x, y, across, down);
            }
            this.noted = [];
        }

        // In steps, so that there are few fonts: a browser takes long for each that is new.
        font(size, isBold) {
            const fontSize = Math.floor(size * STEPS) / STEPS * (isBold ? -1 : 1);
            if (fontSize === this.fontSize) return;
            this.fontSize = fontSize;
            this.c.font = `${isBold ? "bold " : ""}${Math.abs(fontSize)}px ${FONT}`;
        }

        // How wide a text is: as its characters together, which are measured once.
        widthOf(text, size, isBold) {
            const widths = isBold ? WIDTHS.bold : WIDTHS.plain;
            let sum = 0;
            for (const character of text) {
                let width = widths.get(character);
                if (width === undefined) {
                    this.font(MEASURED, isBold);
                    width = this.c.measureText(character).width;
                    widths.set(character, width);
                }
                sum += width;
            }
            return sum * size / MEASURED;
        }

        // whether a text has so much room at the smallest size
        hasRoom(text, width, isBold) {
            return this.widthOf(text, SMALLEST, isBold) <= width;
        }

        // Writes the first of the texts that fits at nearly this size, else the last one smaller; nothing where that is too small.
        write(texts, x, y, width, size, ink, isBold = false) {
            if (size < SMALLEST) return;
            for (const [n, text] of texts.entries()) {
                const fits = Math.min(size, size * width / Math.max(1, this.widthOf(text, size, isBold)));
                if (fits < (n < texts.length - 1 ? Math.max(SMALLEST, 0.75 * size) : SMALLEST)) continue;
                const one = { text, x, y, size: fits, isBold, ink };
                if (this.waiting) this.waiting.push(one);
                else this.writeOne(one);
                return;
            }
        }

        writeOne({ text, x, y, size, isBold, ink }) {
            const { c } = this;
            this.font(size, isBold);
            c.fillStyle = ink;
            c.fillText(text, x, y);
        }

        // Draws by `act`, and behind it the texts that it writes, those of a font together: a browser takes long to change it.
        together(act) {
            this.waiting = [];
            act();
            const texts = this.waiting;
            this.waiting = null;
            const orderOf = ({ size, isBold }) => (isBold ? -1 : 1) * Math.floor(size * STEPS);
            texts.sort((a, b) => orderOf(a) - orderOf(b)).forEach(text => this.writeOne(text));
        }

        // where a box is: on whole points of the screen, so that boxes beside each other have no point in common
        placeOf({ x, y, width, height }) {
            const grain = this.c.isText ? 100 : this.ratio;
            const left = Math.round((x - width / 2) * grain) / grain;
            const top = Math.round((y - height / 2) * grain) / grain;
            return [left, top, Math.round((x + width / 2) * grain) / grain - left, Math.round((y + height / 2) * grain) / grain - top];
        }

        // Fills boxes that are too small for outlines: a point smaller, so that there is one between each and the next.
        fillSmall(boxes, ink) {
            const { c } = this;
            const less = c.isText ? 0 : 1 / this.ratio;
            c.fillStyle = ink;
            for (const at of boxes) {
                const [x, y, width, height] = this.placeOf(at);
                this.note(at.x, at.y, at.width, at.height);
                c.fillRect(x, y, Math.max(less, width - less), Math.max(less, height - less));
            }
        }

        // a box by its middle, with its outline in it
        box(at, fill, ink, width, dash) {
            const { c } = this;
            const [x, y, wide, high] = this.placeOf(at);
            const radius = Math.min(5, wide / 5);
            this.note(at.x, at.y, at.width, at.height);
            const shape = (less, colour) => {
                c.beginPath();
                c.roundRect(x + less, y + less, Math.max(0, wide - 2 * less), Math.max(0, high - 2 * less), Math.max(0, radius - less));
                c.fillStyle = colour;
                c.fill();
            };
            if (dash.length === 0 && !c.isText) {
                shape(0, ink); // two shapes take a browser less time than one and its outline
                shape(width, fill);
                return;
            }
            shape(width / 2, fill);
            c.setLineDash(dash);
            this.outline(ink, width);
            c.setLineDash([]);
        }

        // strokes the shape that was begun last
        outline(ink, width) {
            this.c.strokeStyle = ink;
            this.c.lineWidth = width;
            this.c.stroke();
        }

        // draws by `act` so faintly: 1 is as usual
        faint(alpha, act) {
            this.c.globalAlpha = alpha;
            act();
            this.c.globalAlpha = 1;
        }

        dot(x, y, radius, fill, ink) {
            const { c } = this;
            this.note(x, y, 2 * radius, 2 * radius);
            c.beginPath();
            c.roundRect(x - radius, y - radius, 2 * radius, 2 * radius, radius);
            c.fillStyle = fill;
            c.fill();
            this.outline(ink, 1.8);
        }

        // fills most of a box
        spot(at, ink) {
            this.note(at.x, at.y, at.width, at.height);
            this.c.fillStyle = ink;
            this.c.fillRect(at.x - at.width * 0.35, at.y - at.height * 0.35, at.width * 0.7, at.height * 0.7);
        }

        // Each line is a path of its own: hundreds that cross each other in one path take a browser twice as long.
        lines(segments, ink, width, dash) {
            const { c } = this;
            c.strokeStyle = ink;
            c.lineWidth = width;
            c.setLineDash(dash);
            if (this.noted) this.noted.push(...segments.flatMap(piecesOf));
            for (const [x, y, toX, toY] of segments) {
                c.beginPath();
                c.moveTo(x, y);
                c.lineTo(toX, toY);
                c.stroke();
            }
            c.setLineDash([]);
        }

        // Begins lines of one width without dashes, `line` adds each, and `endLines` is behind the last one. Lines that are no wider than two points
        // of the screen are drawn together, one that is wider than a point as two beside each other: a browser draws such fine ones in half the
        // time. Others, and all in Svg, are each drawn as they are.
        beginLines(ink, width) {
            const { c, ratio } = this;
            const isFine = !c.isText && width * ratio <= 2;
            this.isTogether = isFine;
            this.apart = isFine ? Math.max(0, width - 1 / ratio) : 0;
            c.strokeStyle = ink;
            c.lineWidth = width - this.apart;
            c.setLineDash([]);
            c.beginPath();
        }

        line(x, y, toX, toY) {
            const { c, apart } = this;
            const part = apart / 2 / Math.max(1e-6, Math.hypot(toX - x, toY - y));
            const [across, down] = [(y - toY) * part, (toX - x) * part];
            c.moveTo(x + across, y + down);
            c.lineTo(toX + across, toY + down);
            if (apart > 0) {
                c.moveTo(x - across, y - down);
                c.lineTo(toX - across, toY - down);
            }
            if (this.isTogether) return;
            c.stroke();
            c.beginPath();
        }

        endLines() {
            if (this.isTogether) this.c.stroke();
        }

        cross(x, y, size, ink) {
            this.lines([[x - size, y - size, x + size, y + size], [x + size, y - size, x - size, y + size]], ink, 2, []);
        }

        // a line with the head of an arrow on it
        arrow(a, b, ink) {
            const { c } = this;
            this.lines([[a.x, a.y, b.x, b.y]], ink, 2.5, []);
            const angle = Math.atan2(b.y - a.y, b.x - a.x);
            const [x, y] = [a.x + (b.x - a.x) * 0.6, a.y + (b.y - a.y) * 0.6];
            c.beginPath();
            c.moveTo(x + 7 * Math.cos(angle), y + 7 * Math.sin(angle));
            this.note(x, y, 16, 16);
            for (const turn of [2.5, -2.5]) c.lineTo(x + 7 * Math.cos(angle + turn), y + 7 * Math.sin(angle + turn));
            c.fillStyle = ink;
            c.fill();
        }

        // a text on a round or square ground, by its middle; it stays between 0 and `most`
        label(text, x, y, { size, radius, fill, ink, edge, most, tight = false }) {
            const { c } = this;
            const wide = this.widthOf(text, size, true);
            const [width, height] = tight ? [wide + 4, size + 2] : [Math.max(size + 5, wide + size * 0.8), size + 5];
            this.font(size, true);
            const left = Math.min(Math.max(1, x - width / 2), Math.max(1, most - width - 1));
            this.note(left + width / 2, y, width + 2, height + 2);
            c.beginPath();
            c.roundRect(left, y - height / 2, width, height, radius);
            c.fillStyle = fill;
            c.fill();
            c.strokeStyle = edge;
            c.lineWidth = tight ? 0.8 : 1.3;
            c.stroke();
            c.fillStyle = ink;
            c.fillText(text, left + width / 2, y + 0.5);
        }
    }

    return { of: context => new Pen(context), piecesOf, whole };
})();
