"use strict";
// What `viewer/pack` makes, and that the page asks nothing of a network.
const assert = require("assert");
const { spawnSync } = require("child_process");
const fs = require("fs");
const os = require("os");
const path = require("path");
const zlib = require("zlib");
const { top } = require("./load.js");

const pack = (...words) => spawnSync(path.join(top, "viewer/pack"), words, { cwd: top, encoding: "utf8", maxBuffer: 1e9 });

const packed = (page, kind) => {
    const found = new RegExp(`data-packed="${kind}">([^<]*)</script>`).exec(page);
    return found ? zlib.gunzipSync(Buffer.from(found[1], "base64")).toString() : null;
};

const stored = name => fs.readFileSync(path.join(top, name), "utf8");

const a_packed_page_has_the_run_and_the_viewer = () => {
    const { status, stdout, stderr } = pack("examples/four-hosts");
    assert.equal(status, 0, stderr);
    for (const [kind, file] of [["topology", "topology.toml"], ["script", "script"], ["journal", "expected/journal.txt"]]) {
        assert.equal(packed(stdout, kind), stored(`examples/four-hosts/${file}`));
    }
    for (const [, file] of stored("viewer/index.html").matchAll(/(?:src|href)="([a-z]+\.(?:js|css))"/g)) {
        assert(stdout.includes(stored(`viewer/${file}`)), file);
    }
    assert(!/(src|href)="(?!data:)/.test(stdout));
    assert(stdout.includes('<meta name="run" content="four-hosts">'));
};

const another_journal_of_the_topology_is_packed = () => {
    const folder = fs.mkdtempSync(path.join(os.tmpdir(), "portland-pack-"));
    fs.writeFileSync(path.join(folder, "journal.txt"), "line 1\n");
    assert.equal(packed(pack("examples/four-hosts", folder).stdout, "journal"), "line 1\n");
    assert.equal(packed(pack("examples/four-hosts", path.join(folder, "journal.txt")).stdout, "journal"), "line 1\n");
    fs.rmSync(folder, { recursive: true });
    assert.equal(pack("examples/four-hosts", folder).status, 2);
};

const what_is_no_run_is_refused = () => {
    for (const words of [[], ["nowhere"], ["viewer"], ["tests/fabric/already-failed"], ["a", "b", "c", "d"]]) {
        const { status, stdout, stderr } = pack(...words);
        assert.deepEqual([status, stdout, stderr.trim().split("\n").length], [2, "", 1], words.join(" "));
    }
};

// No script of the page names anything that could reach a network, nor ends the element that it is packed into.
const the_page_reaches_no_network = () => {
    const files = fs.readdirSync(path.join(top, "viewer")).filter(name => /\.(js|css|html)$/.test(name));
    assert(files.length > 10);
    for (const file of files) {
        const text = stored(`viewer/${file}`);
        assert(!/https?:|fetch\(|XMLHttpRequest|WebSocket|EventSource|sendBeacon|import\(|@import|url\(/.test(text), file);
        if (file.endsWith(".js")) assert(!/<\/script|<!--/i.test(text), file);
    }
};

// What viewer/take takes from elsewhere is as it stands there.
const what_was_taken_is_not_behind = () => {
    const rules = stored("docs/RULES.md");
    for (const [table, heading, least] of [[Table.fabric, "## From a line of a journal to its rule\n", 20], [Table.bridge, "### From a line of a journal of bridges to its rule\n", 7]]) {
        const from = rules.indexOf(heading);
        const section = rules.slice(from, rules.indexOf("\n##", from));
        const rows = section.split("\n").filter(line => line.startsWith("|"));
        assert(from > 0 && rows.length >= least, heading);
        assert.deepEqual(table.trim().split("\n"), rows.map(row => row.replace(/`/g, '"')), "run viewer/take: docs/RULES.md has changed");
    }
    const all = new Set(rules.split("\n").filter(line => line.startsWith("|")).map(row => row.replace(/`/g, '"')));
    const steps = Table.steps.trim().split("\n");
    assert(steps.length > 100 && steps.every(row => all.has(row)), "run viewer/take: docs/RULES.md has changed");
    const unpacked = text => zlib.gunzipSync(Buffer.from(text, "base64")).toString();
    for (const [kind, file] of [["topology", "topology.toml"], ["script", "script"], ["journal", "expected-watch/log.txt"]]) {
        assert.equal(unpacked(Example.log[kind]), stored(`examples/${Example.log.name}/${file}`), "run viewer/take: the log has changed");
    }
    for (const [kind, file] of [["topology", "topology.toml"], ["script", "script"], ["journal", "expected/journal.txt"]]) {
        assert.equal(unpacked(Example[kind]), stored(`examples/${Example.name}/${file}`), "run viewer/take: the example has changed");
    }
};

const a_second_journal_is_packed = () => {
    const folder = "tests/bridge/learnt";
    const [first, second] = ["viewer/tests/beside/learnt.txt", `${folder}/expected-bridge/journal.txt`];
    const { status, stdout } = pack(folder, first, path.dirname(second));
    assert.equal(status, 0);
    assert.equal(packed(stdout, "journal"), stored(first));
    assert.equal(packed(stdout, "second"), stored(second));
    assert.equal(pack(folder, first, "nowhere").status, 2);
    assert.equal(packed(pack(folder).stdout, "journal"), stored(second));
};

module.exports = {
    a_packed_page_has_the_run_and_the_viewer, another_journal_of_the_topology_is_packed, what_is_no_run_is_refused, the_page_reaches_no_network,
    what_was_taken_is_not_behind, a_second_journal_is_packed,
};
