"use strict";
// A context that writes what is drawn on it as SVG: so much of a canvas's context as Pen and Picture use.
globalThis.Svg = (() => {
    const escaped = text => text.replace(/&/g, "&amp;").replace(/</g, "&lt;").replace(/>/g, "&gt;").replace(/"/g, "&quot;");
    const short = number => Math.round(number * 10) / 10;

    class Context {
        // `measure` is a context of a canvas, which knows how wide a text is
        constructor(measure) {
            this.measure = measure;
            this.parts = [];
            this.path = [];
            this.isText = true;
            Object.assign(this, { fillStyle: "#000", strokeStyle: "#000", lineWidth: 1, globalAlpha: 1, textAlign: "center", dash: [], font: "" });
        }

        setTransform() {} // points of the picture are points of the page

        setLineDash(dash) {
            this.dash = dash;
        }

        beginPath() {
            this.path = [];
        }

        moveTo(x, y) {
            this.path.push(`M${short(x)} ${short(y)}`);
        }

        lineTo(x, y) {
            this.path.push(`L${short(x)} ${short(y)}`);
        }

        roundRect(x, y, width, height, radius) {
            const r = Math.max(0, Math.min(radius, width / 2, height / 2));
            const arc = (toX, toY) => `a${short(r)} ${short(r)} 0 0 1 ${short(toX)} ${short(toY)}`;
            this.path.push(`M${short(x + r)} ${short(y)}h${short(width - 2 * r)}${arc(r, r)}v${short(height - 2 * r)}${arc(-r, r)}`
                + `h${short(2 * r - width)}${arc(-r, -r)}v${short(2 * r - height)}${arc(r, -r)}z`);
        }

        get alpha() {
            return this.globalAlpha < 1 ? ` opacity="${short(this.globalAlpha * 100) / 100}"` : "";
        }

        fill() {
            this.parts.push(`<path d="${this.path.join("")}" fill="${this.fillStyle}"${this.alpha}/>`);
        }

        stroke() {
            const dash = this.dash.length > 0 ? ` stroke-dasharray="${this.dash.join(" ")}"` : "";
            const line = `stroke="${this.strokeStyle}" stroke-width="${short(this.lineWidth)}"`;
            this.parts.push(`<path d="${this.path.join("")}" fill="none" ${line}${dash}${this.alpha}/>`);
        }

        fillRect(x, y, width, height) {
            this.parts.push(`<rect x="${short(x)}" y="${short(y)}" width="${short(width)}" height="${short(height)}" fill="${this.fillStyle}"/>`);
        }

        measureText(text) {
            this.measure.font = this.font;
            return this.measure.measureText(text);
        }

        fillText(text, x, y) {
            const [, bold, size] = /^(bold )?([\d.]+)px/.exec(this.font);
            const anchor = this.textAlign === "center" ? ' text-anchor="middle"' : "";
            const weight = bold ? ' font-weight="bold"' : "";
            this.parts.push(`<text x="${short(x)}" y="${short(y + size * 0.35)}" font-size="${short(Number(size))}" fill="${this.fillStyle}"`
                + `${anchor}${weight}>${escaped(text)}</text>`);
        }

        // the picture as a file of this size, with what it shows as its title
        text(width, height, title) {
            const size = `width="${width}" height="${height}" viewBox="0 0 ${width} ${height}"`;
            return `<svg xmlns="${NAMESPACE}" ${size} font-family="system-ui, 'DejaVu Sans', sans-serif">\n`
                + `<title>${escaped(title)}</title>\n${this.parts.join("\n")}\n</svg>\n`;
        }
    }

    // the name of the language, which is no address that anything is asked of
    const NAMESPACE = ["http", "://www.w3.org/2000/svg"].join("");

    return { of: measure => new Context(measure), NAMESPACE };
})();
