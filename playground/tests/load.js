"use strict";
// The page of the playground and its scripts, for tests: node loads what a browser would.
const fs = require("fs");
const path = require("path");
const zlib = require("zlib");
const { folders } = require("../../viewer/tests/load.js");

const top = path.resolve(__dirname, "../..");
for (const name of ["bytes", "python", "hints", "language", "capture", "maker", "scenario", "machine"]) require(path.join(top, "playground", `${name}.js`));

const pageFile = process.env.PLAYGROUND_PAGE || path.join(top, "playground", "portland.html");
const page = () => fs.readFileSync(pageFile, "utf8");

// what a part of the page has, or null
const partOf = name => {
    const found = new RegExp(`<script type="application/gzip" data-part="${name}">([^<]*)</script>`).exec(page());
    return found ? zlib.gunzipSync(Buffer.from(found[1], "base64")) : null;
};

const compiled = new Map();
const moduleOf = name => {
    if (!compiled.has(name)) compiled.set(name, new WebAssembly.Module(partOf(name)));
    return compiled.get(name);
};

const bytesOf = file => new Uint8Array(fs.readFileSync(file));

// the files of a run, as the page would have them: topology, script and what is in the folder of captures
const filesOf = run => {
    const files = new Map();
    for (const name of ["topology.toml", "script"]) if (fs.existsSync(path.join(run, name))) files.set(name, bytesOf(path.join(run, name)));
    const captures = path.join(run, "captures");
    if (fs.existsSync(captures)) for (const name of fs.readdirSync(captures)) files.set(`captures/${name}`, bytesOf(path.join(captures, name)));
    return files;
};

const WORDS = ["--topology", "topology.toml", "--script", "script", "--captures", "captures"];
const wordsOf = command => [command, ...WORDS, "--out", "out"];

const STORED = ["examples", "tests/fabric", "tests/aging", "tests/restart", "tests/refused", "tests/pcapng", "tests/bridge"];
const EXPECTED = { expected: "run", "expected-bridge": "bridge" };

// each stored run with what is expected of it: the folder, the command, and the folder of what comes of it
const storedRuns = () => STORED.flatMap(parent => fs.readdirSync(path.join(top, parent)).sort().map(name => path.join(top, parent, name)))
    .flatMap(run => Object.entries(EXPECTED).map(([name, command]) => ({ run, command, expected: path.join(run, name) })))
    .filter(({ expected }) => fs.existsSync(path.join(expected, "status")));

const MADE = ["status", "error", "summary"];
const expectedOf = folder => ({
    status: Number(fs.readFileSync(path.join(folder, "status"), "utf8")),
    err: fs.readFileSync(path.join(folder, "error"), "utf8"),
    out: fs.readFileSync(path.join(folder, "summary"), "utf8"),
    saved: new Map(fs.readdirSync(folder).filter(name => !MADE.includes(name)).map(name => [`out/${name}`, fs.readFileSync(path.join(folder, name))])),
});

// how an answer differs from what is expected, or nothing
const difference = (answer, expected) => {
    if (answer.status !== expected.status) return `status ${answer.status} for ${expected.status}: ${answer.err}`;
    for (const key of ["err", "out"]) if (answer[key] !== expected[key]) return `${key} is another: ${answer[key].slice(0, 200)}`;
    const names = [...new Set([...answer.saved.keys(), ...expected.saved.keys()])];
    for (const name of names) {
        if (!answer.saved.has(name)) return `${name} is not saved`;
        if (!expected.saved.has(name)) return `${name} is saved, and none is expected`;
        if (Buffer.compare(Buffer.from(answer.saved.get(name)), expected.saved.get(name)) !== 0) return `${name} is another`;
    }
    return "";
};

module.exports = { top, page, pageFile, partOf, moduleOf, filesOf, wordsOf, WORDS, storedRuns, expectedOf, difference, folders };
