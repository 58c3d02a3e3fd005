"use strict";
// The viewer's scripts that need no page, and the stored runs of the repository, for tests.
const fs = require("fs");
const os = require("os");
const path = require("path");

const top = path.resolve(__dirname, "../..");
for (const name of ["toml", "fabric", "journal", "frames", "state", "stories", "script", "said", "told", "manager", "words", "table", "drops", "why", "rules", "scene", "layout",
    "facts", "knowledge", "step", "sift", "moment", "example", "chart", "svg", "files"]) {
    require(path.join(top, "viewer", `${name}.js`));
}

const EXPECTED = ["", "expected", "expected-bridge"]; // where a run's journal stands, and its summary
const journalOf = folder => EXPECTED.map(name => path.join(folder, name, "journal.txt")).find(file => fs.existsSync(file));

// the folders of stored runs that have a journal
const folders = () => ["examples", "tests/fabric", "tests/restart", "tests/bridge", "viewer/tests/runs"].flatMap(parent => fs.readdirSync(path.join(top, parent)).sort()
    .map(name => path.join(top, parent, name)).filter(folder => journalOf(folder)));

// those of which each entry can be looked at whole
const shortFolders = () => folders().filter(folder => fs.statSync(journalOf(folder)).size < 3e5);

const open = name => {
    const folder = path.isAbsolute(name) ? name : path.join(top, name);
    const read = file => new Uint8Array(fs.readFileSync(file));
    const script = path.join(folder, "script");
    const opened = Files.runOf({
        topology: read(path.join(folder, "topology.toml")),
        journal: read(journalOf(folder)),
        script: fs.existsSync(script) ? read(script) : undefined,
    });
    const summary = path.join(path.dirname(journalOf(folder)), "summary");
    return {
        ...opened, folder,
        journal: fs.readFileSync(journalOf(folder), "utf8"),
        summary: fs.existsSync(summary) ? fs.readFileSync(summary, "utf8").split("\n") : [],
    };
};

// what the fabric makes of scripts that tests/bridge has on learning bridges
const BESIDE = ["learnt", "a-link-of-the-tree-fails"];
const besideOf = name => path.join(top, "viewer/tests/beside", `${name}.txt`);
const openBeside = name => {
    const topology = fs.readFileSync(path.join(top, "tests/bridge", name, "topology.toml"));
    return Files.runOf({ topology, journal: new Uint8Array(fs.readFileSync(besideOf(name))) });
};

// a run of a topology and a journal that a test has as texts
const openTexts = (topology, journal) => Files.runOf({ topology: Buffer.from(topology), journal: new Uint8Array(Buffer.from(journal)) }).run;

// A machine that has more to do than it can takes so many times as long.
const patience = () => 1 + os.loadavg()[0] / os.cpus().length;

module.exports = { patience, top, folders, shortFolders, open, BESIDE, besideOf, openBeside, openTexts, journalOf };
