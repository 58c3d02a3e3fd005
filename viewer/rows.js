"use strict";
// A list of any length of which only the rows in sight are made; one that goes out of sight becomes one that comes into it, so that a step
// makes no elements. Where the list is longer than a browser can scroll, the bar moves it by more than a pixel for a pixel.
globalThis.Rows = (() => {
    const HEIGHT = 40;
    const LONGEST = 8e6;

    class Rows {
        constructor(box, fill, choose, role) {
            Object.assign(this, { box, fill, choose, role, count: 0, marked: -1, isNow: true });
            this.shown = 0; // where `show` left it
            Object.assign(this, { rows: [], first: 0, spare: [] }); // the rows from number `first` on, and those that are not wanted now
            this.what = null; // what they are filled of
            Object.assign(this, { top: -1, height: 0 }); // where it was drawn, and how high it was
            Object.assign(this, { place: "", long: "" }); // where its rows are, and how long all of them are
            this.inner = document.createElement("div");
            this.inner.className = "rows";
            this.block = document.createElement("div"); // which has them below each other
            this.block.className = "block";
            for (const element of [this.inner, this.block]) if (role === "row") element.setAttribute("role", "presentation");
            this.inner.append(this.block);
            box.append(this.inner);
            box.addEventListener("scroll", () => {
                if (box.scrollTop !== this.top) this.draw();
            });
            new ResizeObserver(() => {
                if (box.clientHeight === this.height) return;
                if (this.marked >= 0 && box.scrollTop === this.shown) {
                    this.keepMiddle();
                    this.show(this.marked);
                }
                this.draw();
            }).observe(box);
            box.addEventListener("keydown", event => this.key(event));
            this.inner.addEventListener("click", event => {
                const row = event.target.closest(".row");
                if (row) choose(Number(row.dataset.row));
            });
        }

        get longest() {
            return this.count * HEIGHT;
        }

        // how many pixels of the list a pixel of the bar is
        get ratio() {
            const hidden = size => Math.max(1, size - this.box.clientHeight);
            return this.longest > LONGEST ? hidden(this.longest) / hidden(LONGEST) : 1;
        }

        // so many rows of numbers from `first` on, in their order: those that are in sight still stay, and the others go to the other end
        arrange(first, count) {
            const { rows, spare, block } = this;
            const isNear = Math.abs(first - this.first) < rows.length;
            for (; isNear && this.first < first; this.first++) {
                rows.push(rows.shift());
                block.append(rows[rows.length - 1].element);
            }
            for (; isNear && this.first > first; this.first--) {
                rows.unshift(rows.pop());
                block.prepend(rows[0].element);
            }
            this.first = first;
            while (rows.length > count) {
                spare.push(rows.pop());
                spare[spare.length - 1].element.remove();
            }
            while (rows.length < count) {
                rows.push(spare.pop() || this.make());
                block.append(rows[rows.length - 1].element);
            }
        }

        make() {
            const element = document.createElement("div");
            element.setAttribute("role", this.role);
            return { element, number: -1, what: null, kind: "", look: "" };
        }

        // makes a row that of this number
        become(row, number) {
            const { element } = row;
            Object.assign(row, { number, what: this.what });
            element.dataset.row = number;
            element.id = `${this.box.id}-${number}`;
            if (this.role === "option") {
                element.setAttribute("aria-posinset", number + 1);
                element.setAttribute("aria-setsize", this.count);
            } else element.setAttribute("aria-rowindex", number + 2); // the first row has the heads
            row.kind = this.fill(element, number);
        }

        // how a row looks: as that of now, as the last one before it, or as any
        mark(row) {
            const isMarked = row.number === this.marked;
            const look = ["row", row.kind, isMarked && this.isNow ? "now" : isMarked ? "last" : ""].filter(word => word !== "").join(" ");
            if (look === row.look) return;
            row.look = row.element.className = look;
            if (this.role === "option") row.element.setAttribute("aria-selected", String(isMarked && this.isNow));
        }

        // Draws the rows in sight; those that were filled of the same stay as they are.
        draw() {
            const { box, rows } = this;
            const { scrollTop, clientHeight } = box;
            const from = scrollTop * this.ratio;
            const first = Math.max(0, Math.floor(from / HEIGHT));
            const last = Math.min(this.count, Math.ceil((from + clientHeight) / HEIGHT) + 1);
            Object.assign(this, { top: scrollTop, height: clientHeight });
            this.arrange(first, Math.max(0, last - first));
            rows.forEach((row, n) => {
                if (row.number !== first + n || row.what !== this.what) this.become(row, first + n);
                this.mark(row);
            });
            const place = `${scrollTop + first * HEIGHT - from}px`;
            if (place !== this.place) this.place = this.block.style.top = place;
            const marked = rows[this.marked - first];
            if (marked) box.setAttribute("aria-activedescendant", marked.element.id);
            else box.removeAttribute("aria-activedescendant");
        }

        // brings a row into sight, in the middle where it is out of it
        show(n) {
            const { box, ratio } = this;
            const from = box.scrollTop * ratio;
            const isSeen = n * HEIGHT >= from && (n + 1) * HEIGHT <= from + box.clientHeight;
            if (!isSeen) box.scrollTop = Math.max(0, n * HEIGHT - box.clientHeight / 2) / ratio;
            this.shown = box.scrollTop;
        }

        // Where it is lower or higher than it was drawn, as below a longer text, what was brought into sight stays as far from its middle, unless
        // somebody scrolled since.
        keepMiddle() {
            const { box, height, shown, ratio } = this;
            const { scrollTop, clientHeight } = box;
            if (height === 0 || clientHeight === 0 || clientHeight === height || scrollTop !== shown || scrollTop === 0) return;
            box.scrollTop += (height - clientHeight) / 2 / ratio;
        }

        // up and down choose the row before and the next one; of rows of a table none is chosen
        key(event) {
            const step = { ArrowUp: -1, ArrowDown: 1 }[event.key];
            if (this.role !== "option" || step === undefined || event.target !== this.box) return;
            event.preventDefault();
            const row = this.isNow || step > 0 ? this.marked + step : this.marked;
            if (row >= 0 && row < this.count) this.choose(row);
        }

        // So many rows, and the one that is marked: as that of now, or as the last one before it. `what` is what they are filled of: where it
        // is the same as before, they are too.
        set(count, marked, isNow, what) {
            Object.assign(this, { count, marked, isNow, what });
            const long = `${Math.min(this.longest, LONGEST)}px`;
            if (long !== this.long) this.long = this.inner.style.height = long;
            if (marked >= 0) {
                this.keepMiddle();
                this.show(marked);
            }
            this.draw();
        }
    }

    // `fill(element, n)` makes row n, as which its element may have been another one before, and answers what kind of row it is, as a class;
    // `choose(n)` is called where row n is clicked. Rows are options of a list box, or rows of a table.
    return { make: (box, fill, choose, role = "option") => new Rows(box, fill, choose, role) };
})();
