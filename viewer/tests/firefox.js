"use strict";
// Drives a headless Firefox by its Marionette protocol over a socket of this machine: no package. It has the calls of browser.js.
const { spawn } = require("child_process");
const fs = require("fs");
const net = require("net");
const os = require("os");
const path = require("path");
const { patience } = require("./load.js");

// Keys that are no letters, as WebDriver names them.
const KEYS = { ArrowLeft: "\uE012", ArrowRight: "\uE014", ArrowUp: "\uE013", ArrowDown: "\uE015", Home: "\uE011", End: "\uE010", Escape: "\uE00C", Enter: "\uE007", Tab: "\uE004" };
const SHIFT = "\uE008";
const ELEMENT = "element-6066-11e4-a52e-4f735466cecf";
const LONG = 300000; // milliseconds that a script or a page may take on a busy machine
const PREFERENCES = {
    "marionette.port": 0, "ui.prefersReducedMotion": 1, "browser.shell.checkDefaultBrowser": false, "app.update.enabled": false,
    "datareporting.policy.dataSubmissionEnabled": false, "toolkit.telemetry.enabled": false, "browser.dom.window.dump.enabled": true,
    "network.dns.disabled": true, "browser.startup.homepage_override.mstone": "ignore", "layout.css.prefers-color-scheme.content-override": 1,
};

class Firefox {
    constructor(program, folder) {
        const lines = Object.entries(PREFERENCES).map(([name, value]) => `user_pref("${name}", ${JSON.stringify(value)});\n`);
        fs.writeFileSync(path.join(folder, "user.js"), lines.join(""));
        this.process = spawn(program, ["--headless", "--marionette", "--remote-allow-system-access", "--no-remote", "--profile", folder, "about:blank"], { stdio: ["ignore", "pipe", "pipe"] });
        this.folder = folder;
        this.sent = 0;
        this.waiting = new Map();
        this.errors = []; // what the page's scripts did not catch
        this.asked = [];
        this.ended = new Promise(done => this.process.once("exit", done));
        for (const stream of [this.process.stdout, this.process.stderr]) {
            stream.on("data", data => this.errors.push(...`${data}`.split("\n").filter(line => line.includes("JavaScript error: file:"))));
        }
    }

    // the port that the browser listens at
    async port(seconds = 60) {
        const file = path.join(this.folder, "MarionetteActivePort");
        for (const end = Date.now() + seconds * patience() * 1000; Date.now() < end;) {
            const text = fs.existsSync(file) ? fs.readFileSync(file, "utf8").trim() : "";
            if (text) return Number(text);
            await new Promise(done => setTimeout(done, 50));
        }
        throw new Error("Firefox does not listen");
    }

    async begin(width, height) {
        const port = await this.port();
        this.socket = net.connect(port, "127.0.0.1");
        let bytes = Buffer.alloc(0);
        this.socket.on("data", data => {
            bytes = Buffer.concat([bytes, data]);
            for (let colon = bytes.indexOf(58); colon > 0; colon = bytes.indexOf(58)) {
                const end = colon + 1 + Number(bytes.subarray(0, colon));
                if (bytes.length < end) break;
                this.hear(JSON.parse(bytes.subarray(colon + 1, end)));
                bytes = bytes.subarray(end);
            }
        });
        this.socket.on("error", () => {});
        this.process.once("exit", () => this.waiting.forEach(({ fail }) => fail(new Error("the browser ended"))));
        await this.call("WebDriver:NewSession", { capabilities: { alwaysMatch: { acceptInsecureCerts: true } } });
        await this.call("WebDriver:SetTimeouts", { script: LONG, pageLoad: LONG });
        await this.size(width, height);
    }

    hear(message) {
        if (!Array.isArray(message)) return; // its greeting
        const [, id, error, result] = message;
        const { done, fail } = this.waiting.get(id);
        this.waiting.delete(id);
        if (error) fail(new Error(error.message));
        else done(result);
    }

    call(name, params = {}) {
        const id = ++this.sent;
        const text = JSON.stringify([0, id, name, params]);
        this.socket.write(`${Buffer.byteLength(text)}:${text}`);
        return new Promise((done, fail) => this.waiting.set(id, { done, fail }));
    }

    // Runs a script in the browser's own window.
    async own(script, args = []) {
        await this.call("Marionette:SetContext", { value: "chrome" });
        const answer = await this.call("WebDriver:ExecuteScript", { script, args });
        await this.call("Marionette:SetContext", { value: "content" });
        return answer.value;
    }

    // the page has this size
    async size(width, height) {
        await this.own("document.documentElement.style.minWidth = '0'; document.documentElement.style.minHeight = '0';");
        for (let turn = 0; turn < 8; turn++) {
            const { w, h } = await this.value("({ w: window.innerWidth, h: window.innerHeight })");
            if (w === width && h === height) return;
            await this.own("window.resizeBy(arguments[0], arguments[1]);", [width - w, height - h]);
            await new Promise(done => setTimeout(done, 100));
        }
        const { w, h } = await this.value("({ w: window.innerWidth, h: window.innerHeight })");
        throw new Error(`Firefox has the size ${w} by ${h} and not ${width} by ${height}`);
    }

    async scheme(value) {
        const script = "Services.prefs.setIntPref('layout.css.prefers-color-scheme.content-override', arguments[0]);";
        await this.own(script, [value === "dark" ? 0 : 1]);
    }

    async open(file, end = "") {
        this.errors = [];
        await this.call("WebDriver:Navigate", { url: "about:blank" });
        await this.call("WebDriver:Navigate", { url: `file://${path.resolve(file)}${end}` });
        await this.until("document.readyState === 'complete' && typeof Page === 'object'");
    }

    // the value of an expression in the page
    async value(expression) {
        const script = `const done = arguments[0]; Promise.resolve().then(() => (${expression})).then(
            value => done({ value }), error => done({ error: String(error) }));`;
        const { value: answer } = await this.call("WebDriver:ExecuteAsyncScript", { script, args: [], sandbox: null });
        if (answer.error) throw new Error(answer.error);
        return answer.value;
    }

    async until(expression, seconds = 30) {
        const end = Date.now() + seconds * patience() * 1000;
        while (!await this.value(expression)) {
            if (Date.now() > end) throw new Error(`never came: ${expression}; the page says: ${this.errors.join("; ")}`);
            await new Promise(done => setTimeout(done, 10));
        }
    }

    text(id) {
        return this.value(`document.getElementById("${id}").textContent`);
    }

    async choose(files, selector = "#files") {
        const { value } = await this.call("WebDriver:FindElement", { using: "css selector", value: selector });
        const text = files.map(file => path.resolve(file)).join("\n");
        await this.call("WebDriver:ElementSendKeys", { id: value[ELEMENT], text });
    }

    async press(key, modifiers = 0) {
        const value = KEYS[key] || key;
        const turned = (type, one) => ({ type, value: one });
        const actions = [turned("keyDown", value), turned("keyUp", value)];
        const shifted = modifiers ? [turned("keyDown", SHIFT), ...actions, turned("keyUp", SHIFT)] : actions;
        await this.call("WebDriver:PerformActions", { actions: [{ type: "key", id: "keys", actions: shifted }] });
    }

    async write(text) {
        for (const letter of text) await this.press(letter);
    }

    pointer(x, y, kind) {
        const at = { type: "pointerMove", duration: 0, x: Math.round(x), y: Math.round(y), origin: "viewport" };
        const actions = [at, { type: "pointerDown", button: 0 }, { type: "pointerUp", button: 0 }];
        return this.call("WebDriver:PerformActions", { actions: [{ type: "pointer", id: kind, parameters: { pointerType: kind }, actions }] });
    }

    click(x, y) {
        return this.pointer(x, y, "mouse");
    }

    touch(x, y) {
        return this.pointer(x, y, "touch");
    }

    // two fingers at these places move to those
    async pinch(from, to) {
        const finger = (n, [x, y], [toX, toY]) => ({
            type: "pointer", id: `finger${n}`, parameters: { pointerType: "touch" },
            actions: [{ type: "pointerMove", duration: 0, x, y, origin: "viewport" }, { type: "pointerDown", button: 0 },
                { type: "pointerMove", duration: 60, x: toX, y: toY, origin: "viewport" }, { type: "pointerUp", button: 0 }],
        });
        await this.call("WebDriver:PerformActions", { actions: [finger(0, from[0], to[0]), finger(1, from[1], to[1])] });
    }

    async clickOn(selector) {
        const box = await this.value(`(() => { const e = document.querySelector(${JSON.stringify(selector)}); e.scrollIntoView({ block: "nearest" });
            const r = e.getBoundingClientRect(); return { x: r.x + r.width / 2, y: r.y + r.height / 2 }; })()`);
        await this.click(box.x, box.y);
    }

    async picture(file) {
        const { value } = await this.call("WebDriver:TakeScreenshot", { full: false });
        fs.writeFileSync(file, Buffer.from(value, "base64"));
    }

    async close() {
        this.call("Marionette:Quit", { flags: ["eForceQuit"] }).catch(() => {});
        const isLate = await Promise.race([this.ended.then(() => false), new Promise(done => setTimeout(done, 8000, true))]);
        if (isLate) this.process.kill("SIGKILL");
        await this.ended;
        this.socket.destroy();
        fs.rmSync(this.folder, { recursive: true, force: true, maxRetries: 5, retryDelay: 200 });
    }
}

const begin = async (program, width, height) => {
    const browser = new Firefox(program, fs.mkdtempSync(path.join(os.tmpdir(), "portland-page-")));
    await browser.begin(width, height);
    return browser;
};

module.exports = { begin };
