"use strict";
// What pointers do over a picture: one drags it, two fingers zoom it, a click or a touch finds what is there. While the whole
// fabric is in sight, one finger scrolls the page.
globalThis.Pointers = (() => {
    const NEAR = 4; // points that a pointer may move in a click

    class Pointers {
        constructor(canvas, picture, acts) {
            Object.assign(this, { canvas, picture, acts, down: new Map(), isMoved: false });
            const when = act => event => this.acts.isOpen() && act.call(this, event);
            canvas.addEventListener("pointerdown", event => this.begin(event));
            canvas.addEventListener("pointermove", when(event => (this.down.has(event.pointerId) ? this.move(event) : this.hover(event))));
            canvas.addEventListener("pointerup", event => this.end(event));
            canvas.addEventListener("pointercancel", event => this.end(event));
            canvas.addEventListener("wheel", event => {
                event.preventDefault();
                if (this.acts.isOpen()) this.wheel(event);
            }, { passive: false });
            // two fingers are the picture's, not the page's
            canvas.addEventListener("touchmove", event => {
                if (event.touches.length > 1) event.preventDefault();
            }, { passive: false });
        }

        place(event) {
            const { left, top } = this.canvas.getBoundingClientRect();
            return { x: event.clientX - left, y: event.clientY - top };
        }

        // the middle of the pointers that are down, and how far apart two of them are
        middle() {
            const all = [...this.down.values()];
            const mean = what => all.reduce((sum, one) => sum + one[what], 0) / all.length;
            const apart = all.length < 2 ? 0 : Math.hypot(all[0].x - all[1].x, all[0].y - all[1].y);
            return { x: mean("x"), y: mean("y"), apart };
        }

        begin(event) {
            this.down.set(event.pointerId, this.place(event));
            if (this.down.size > 1) this.isMoved = true;
            this.canvas.setPointerCapture(event.pointerId);
        }

        hover(event) {
            const { x, y } = this.place(event);
            const found = this.picture.find(x, y);
            this.canvas.style.cursor = found ? "pointer" : "grab";
            this.canvas.title = found ? this.acts.name(found) : "";
        }

        move(event) {
            const { down, picture } = this;
            const before = this.middle();
            const { x, y } = this.place(event);
            if (down.size === 1 && !this.isMoved && Math.hypot(x - before.x, y - before.y) < NEAR) return;
            down.set(event.pointerId, { x, y });
            const now = this.middle();
            this.isMoved = true;
            if (down.size === 1 && event.pointerType === "touch" && picture.isWhole) return;
            picture.pan(now.x - before.x, now.y - before.y);
            if (before.apart > 0 && now.apart > 0) picture.zoom(now.apart / before.apart, now.x, now.y);
            this.acts.redraw();
        }

        end(event) {
            const isClick = this.down.has(event.pointerId) && this.down.size === 1 && !this.isMoved && event.type === "pointerup";
            this.down.delete(event.pointerId);
            if (this.down.size === 0) this.isMoved = false;
            if (!isClick || !this.acts.isOpen()) return;
            const { x, y } = this.place(event);
            const found = this.picture.find(x, y);
            if (found) this.acts.choose(found, event.pointerType === "touch");
        }

        wheel(event) {
            const { x, y } = this.place(event);
            this.picture.zoom(Math.exp(-event.deltaY / 500), x, y);
            this.acts.redraw();
        }
    }

    // `isOpen()` says whether there is something to find; `redraw()` draws the picture anew; `choose(found, isTouch)` is called for
    // what was clicked or touched; `name(found)` says what something is called.
    return { on: (canvas, picture, acts) => new Pointers(canvas, picture, acts) };
})();
