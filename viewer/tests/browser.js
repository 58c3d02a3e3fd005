"use strict";
// Drives a headless Chromium by its debugging protocol over two pipes: no port, no package.
const { spawn } = require("child_process");
const fs = require("fs");
const os = require("os");
const path = require("path");
const { patience } = require("./load.js");

// Keys that are no letters, as the protocol wants them.
const CODES = { ArrowLeft: 37, ArrowRight: 39, ArrowUp: 38, ArrowDown: 40, Home: 36, End: 35, Escape: 27, Enter: 13, " ": 32 };

class Browser {
    constructor(program, folder) {
        const root = process.getuid && process.getuid() === 0 ? ["--no-sandbox"] : [];
        const words = [
            "--headless=new", "--remote-debugging-pipe", `--user-data-dir=${folder}`, "--no-first-run", "--disable-gpu",
            "--disable-dev-shm-usage", "--disable-background-networking", "--disable-component-update", "--hide-scrollbars",
            "--force-device-scale-factor=1", ...root, "about:blank",
        ];
        this.process = spawn(program, words, { stdio: ["ignore", "ignore", "ignore", "pipe", "pipe"] });
        this.folder = folder;
        this.sent = 0;
        this.waiting = new Map();
        this.asked = []; // what the page asked a network or the disk for
        this.errors = []; // what the page's scripts did not catch
        this.ended = new Promise(done => this.process.once("exit", done));
        let text = "";
        this.process.stdio[4].on("data", data => {
            text += data;
            const messages = text.split("\0");
            text = messages.pop();
            messages.forEach(message => this.hear(JSON.parse(message)));
        });
        this.process.once("exit", () => this.waiting.forEach(({ fail }) => fail(new Error("the browser ended"))));
    }

    hear(message) {
        const waiting = this.waiting.get(message.id);
        if (waiting) {
            this.waiting.delete(message.id);
            if (message.error) waiting.fail(new Error(message.error.message));
            else waiting.done(message.result);
        } else if (message.method === "Network.requestWillBeSent") this.asked.push(message.params.request.url);
        else if (message.method === "Runtime.exceptionThrown") {
            const { exceptionDetails: details } = message.params;
            this.errors.push(details.exception ? details.exception.description : details.text);
        } else if (message.method === "Log.entryAdded" && message.params.entry.level === "error") this.errors.push(message.params.entry.text);
    }

    call(method, params = {}) {
        const id = ++this.sent;
        const message = { id, method, params };
        if (this.session) message.sessionId = this.session;
        this.process.stdio[3].write(`${JSON.stringify(message)}\0`);
        return new Promise((done, fail) => this.waiting.set(id, { done, fail }));
    }

    async begin(width, height) {
        const { targetInfos } = await this.call("Target.getTargets");
        const { targetId } = targetInfos.find(info => info.type === "page");
        this.session = (await this.call("Target.attachToTarget", { targetId, flatten: true })).sessionId;
        for (const domain of ["Page", "Runtime", "Network", "DOM", "Log"]) await this.call(`${domain}.enable`);
        await this.size(width, height);
    }

    // the page has this size; a small one is that of a telephone, which is touched
    async size(width, height) {
        const mobile = Math.min(width, height) < 600;
        await this.call("Emulation.setDeviceMetricsOverride", { width, height, deviceScaleFactor: 1, mobile });
        await this.call("Emulation.setTouchEmulationEnabled", { enabled: mobile, maxTouchPoints: 2 });
    }

    // the scheme of the colours, `light` or `dark`, and whether things may move
    async scheme(value) {
        const features = [{ name: "prefers-color-scheme", value }, { name: "prefers-reduced-motion", value: "reduce" }];
        await this.call("Emulation.setEmulatedMedia", { features });
    }

    async open(file, end = "") {
        this.asked = [];
        this.errors = [];
        await this.call("Page.navigate", { url: "about:blank" });
        await this.call("Page.navigate", { url: `file://${path.resolve(file)}${end}` });
        await this.until("document.readyState === 'complete' && typeof Page === 'object'");
    }

    async value(expression) {
        const answer = await this.call("Runtime.evaluate", { expression, returnByValue: true, awaitPromise: true });
        if (answer.exceptionDetails) throw new Error(answer.exceptionDetails.exception.description);
        return answer.result.value;
    }

    async until(expression, seconds = 20) {
        const end = Date.now() + seconds * patience() * 1000;
        while (!await this.value(expression)) {
            if (Date.now() > end) throw new Error(`never came: ${expression}; the page says: ${this.errors.join("; ")}`);
            await new Promise(done => setTimeout(done, 10));
        }
    }

    text(id) {
        return this.value(`document.getElementById("${id}").textContent`);
    }

    // chooses files as a user does by the dialog
    async choose(files, selector = "#files") {
        const { root } = await this.call("DOM.getDocument");
        const { nodeId } = await this.call("DOM.querySelector", { nodeId: root.nodeId, selector });
        await this.call("DOM.setFileInputFiles", { files: files.map(file => path.resolve(file)), nodeId });
    }

    // drops files or folders at a place of the page
    async drop(files, x, y) {
        const data = { items: [], files: files.map(file => path.resolve(file)), dragOperationsMask: 1 };
        for (const type of ["dragEnter", "dragOver", "drop"]) await this.call("Input.dispatchDragEvent", { type, x, y, data });
    }

    async press(key, modifiers = 0) {
        const code = CODES[key] || key.toUpperCase().charCodeAt(0);
        const event = { key, windowsVirtualKeyCode: code, modifiers };
        if (key.length === 1) event.text = key;
        if (key === "Enter") event.text = "\r";
        await this.call("Input.dispatchKeyEvent", { type: "keyDown", ...event });
        await this.call("Input.dispatchKeyEvent", { type: "keyUp", key, windowsVirtualKeyCode: code, modifiers });
    }

    async write(text) {
        await this.call("Input.insertText", { text });
    }

    async click(x, y) {
        const event = { x, y, button: "left", clickCount: 1 };
        await this.call("Input.dispatchMouseEvent", { type: "mouseMoved", x, y });
        await this.call("Input.dispatchMouseEvent", { type: "mousePressed", ...event });
        await this.call("Input.dispatchMouseEvent", { type: "mouseReleased", ...event });
    }

    async touch(x, y) {
        await this.call("Input.dispatchTouchEvent", { type: "touchStart", touchPoints: [{ x, y }] });
        await this.call("Input.dispatchTouchEvent", { type: "touchEnd", touchPoints: [] });
    }

    // two fingers at these places move to those
    async pinch(from, to) {
        const points = places => places.map(([x, y], id) => ({ x, y, id }));
        await this.call("Input.dispatchTouchEvent", { type: "touchStart", touchPoints: points(from) });
        for (const part of [0.25, 0.5, 0.75, 1]) {
            const between = from.map(([x, y], n) => [x + (to[n][0] - x) * part, y + (to[n][1] - y) * part]);
            await this.call("Input.dispatchTouchEvent", { type: "touchMove", touchPoints: points(between) });
        }
        await this.call("Input.dispatchTouchEvent", { type: "touchEnd", touchPoints: [] });
    }

    async clickOn(selector) {
        const box = await this.value(`(() => { const e = document.querySelector(${JSON.stringify(selector)}); e.scrollIntoView({ block: "nearest" });
            const r = e.getBoundingClientRect(); return { x: r.x + r.width / 2, y: r.y + r.height / 2 }; })()`);
        await this.click(box.x, box.y);
    }

    async picture(file) {
        const { data } = await this.call("Page.captureScreenshot", { format: "png" });
        fs.writeFileSync(file, Buffer.from(data, "base64"));
    }

    async close() {
        const gone = this.ended;
        this.session = undefined;
        this.call("Browser.close").catch(() => {});
        const isLate = await Promise.race([gone.then(() => false), new Promise(done => setTimeout(done, 5000, true))]);
        if (isLate) this.process.kill("SIGKILL");
        await gone;
        fs.rmSync(this.folder, { recursive: true, force: true, maxRetries: 5, retryDelay: 100 });
    }
}

const begin = async (program, width, height) => {
    const browser = new Browser(program, fs.mkdtempSync(path.join(os.tmpdir(), "portland-page-")));
    await browser.begin(width, height);
    await browser.scheme("light");
    return browser;
};

module.exports = { begin };
