"use strict";
// What the list shows: entries with a text, of a kind, of a switch or a host; idle lines are folded.
const assert = require("assert");
const fs = require("fs");
const path = require("path");
const { top, open } = require("./load.js");

const vote = () => {
    const folder = path.join(top, "examples/position-vote");
    const text = fs.readFileSync(path.join(folder, "expected-watch/log.txt"), "utf8");
    const { run } = Files.runOf({ topology: fs.readFileSync(path.join(folder, "topology.toml")), journal: new Uint8Array(Buffer.from(text)) });
    return { run, text };
};
const rowsOf = (run, wanted) => Sift.of(run, null, { ...Sift.NONE, ...wanted }, null).path;

// the numbers of the entries of a log's text that a form is found in: an entry is a line and those below it
const entriesWith = (text, form) => text.trim().split(/\n(?! )/).flatMap((entry, n) => (form.test(entry) ? [n] : []));

const a_vote_is_found_among_the_entries_of_a_log = () => {
    const { run, text } = vote();
    assert.deepEqual(rowsOf(run, { kind: "votes" }), entriesWith(text, /heard (vote|proposal)/));
    assert.deepEqual(rowsOf(run, { kind: "votes", text: "refused" }), entriesWith(text, /heard (vote .* refused|proposal[^]*refused)/));
    assert.deepEqual(rowsOf(run, { kind: "ticks" }), entriesWith(text, /^@ \d+ tick/));
    assert.deepEqual(rowsOf(run, { kind: "manager" }), entriesWith(text, /^@ \d+ deliver (manager |\S+ manager)/));
    assert.deepEqual(rowsOf(run, { kind: "votes", who: "e0.1" }), entriesWith(text, /^@ \d+ deliver \S+ \d+ e0\.1 \d+\n {2}heard (vote|proposal)/));
    assert.deepEqual(rowsOf(run, { who: "nobody" }), []);
    assert(rowsOf(run, { text: "for good" }).length > 0, "a sentence has it");
};

const a_journal_is_sifted_by_kind_and_host = () => {
    const { run, journal } = open("examples/four-hosts");
    const lines = journal.trim().split("\n");
    const wanted = form => lines.flatMap((line, n) => (form.test(line) ? [n] : []));
    assert.deepEqual(rowsOf(run, { kind: "ends" }), wanted(/^(arrived|taken|dropped) /));
    assert.deepEqual(rowsOf(run, { kind: "addresses", who: "b" }), wanted(/^granted \S+ b |^registered 00:00:00:01:00:01 /));
    assert.deepEqual(Sift.of(run, null, Sift.NONE, null), { rows: null, path: null, folded: new Map(), isSifted: false });
};

// Of address-given-again 586 of 755 rows are lines behind which nothing happened.
const idle_lines_are_folded = () => {
    const { run, journal } = open("viewer/tests/runs/address-given-again");
    const lines = journal.trim().split("\n");
    const idle = n => /^line /.test(lines[n]) && (n + 1 === lines.length || /^line /.test(lines[n + 1]));
    const { rows, folded } = Sift.of(run, null, Sift.NONE, null);
    for (const [first, count] of folded) {
        for (let n = first; n < first + count; n++) assert(idle(n), lines[n]);
        assert(!idle(first - 1) && !idle(first + count));
    }
    assert.equal(rows.length, lines.length - [...folded.values()].reduce((sum, count) => sum + count - 1, 0));
    assert(rows.length < 260, `${rows.length}`);
    assert.equal(Sift.of(run, null, { ...Sift.NONE, folds: false }, null).rows, null);
};

const the_address_of_the_page_keeps_it = () => {
    const { run } = open("examples/four-hosts");
    const sift = { text: "e0.0 & x", kind: "drops", who: "a", folds: false };
    const text = Moment.text(run, 7, null, sift);
    assert.equal(text, "#entry=7&seek=e0.0%20%26%20x&kind=drops&who=a&fold=no");
    assert.deepEqual(Moment.read(run, text), { entry: 7, subject: null, sift });
    assert.deepEqual(Moment.read(run, "#seek=vote"), { entry: 0, subject: null, sift: { ...Sift.NONE, text: "vote" } });
};

module.exports = { a_vote_is_found_among_the_entries_of_a_log, a_journal_is_sifted_by_kind_and_host, idle_lines_are_folded, the_address_of_the_page_keeps_it };
