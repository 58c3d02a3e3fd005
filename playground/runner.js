"use strict";
// Plays in a worker, so that the page never freezes, and can be stopped. A module is unpacked and compiled once, when it is first asked for.
globalThis.Runner = (() => {
    const packed = name => document.querySelector(`script[data-part="${name}"]`);
    const compiled = new Map();
    let running = null;

    const WANTS = "Chromium, Firefox 113 or Safari 16.4, or newer ones; or play by the program: README.md says how";

    // Why this browser cannot play, or nothing.
    const lack = () => {
        if (typeof WebAssembly !== "object") return `this browser has no WebAssembly, or it is switched off. It takes ${WANTS}`;
        if (typeof DecompressionStream !== "function") return `this browser cannot unpack the program that is in the page. It takes ${WANTS}`;
        if (typeof Worker !== "function") return `this browser has no workers. It takes ${WANTS}`;
        return "";
    };

    const compile = async name => WebAssembly.compile(await Bytes.unpacked(Bytes.ofLetters(packed(name).textContent)));
    const moduleOf = name => {
        if (!compiled.has(name)) compiled.set(name, compile(name));
        return compiled.get(name);
    };

    const has = name => packed(name) !== null;

    const newWorker = () => {
        const source = new Blob([packed("machine").textContent, "\n", packed("worker").textContent], { type: "text/javascript" });
        const address = URL.createObjectURL(source);
        const worker = new Worker(address);
        return { worker, end: () => { worker.terminate(); URL.revokeObjectURL(address); } };
    };

    class Stopped extends Error {}

    // Plays words over files by the module of this name. `notice` hears what is read and saved, and how much memory is taken.
    const play = async (name, words, files, notice = () => {}) => {
        const missing = lack();
        if (missing) throw new Error(missing);
        stop();
        let stopped = false;
        const run = { stop: () => { stopped = true; } };
        running = run;
        const module = await moduleOf(name);
        if (stopped) throw new Stopped("stopped");
        return new Promise((done, fail) => {
            const { worker, end } = newWorker();
            const over = act => value => {
                if (running === run) running = null;
                end();
                act(value);
            };
            run.stop = over(() => fail(new Stopped("stopped")));
            worker.onmessage = ({ data }) => {
                if (data.notice) notice(data.notice);
                else if (data.answer) over(done)(data.answer);
                else over(fail)(new Error(data.broken));
            };
            worker.onerror = event => {
                event.preventDefault();
                over(fail)(new Error(event.message || "the worker could not be started"));
            };
            worker.postMessage({ module, words, files });
        });
    };

    const stop = () => {
        if (running) running.stop();
        running = null;
    };

    return { lack, has, moduleOf, play, stop, Stopped, isRunning: () => running !== null };
})();
