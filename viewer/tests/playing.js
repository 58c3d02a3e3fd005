"use strict";
// The state at an entry: what a journal says of the fabric once so many of its entries have happened.
const assert = require("assert");
const { folders, shortFolders, open, patience } = require("./load.js");
const long = require("./long.js");

const plain = state => ({
    ...state, flying: [...state.flying].sort(([a], [b]) => a - b), places: [...state.places], failed: [...state.failed],
    spots: [...state.spots], newest: [...state.newest], counts: [...state.counts], causes: [...state.causes],
    crossings: [...state.crossings], carried: [...state.carried],
});

// the places in a journal's words of a run's switches that know some of theirs
const placesOf = (run, state) => run.fabric.switches.flatMap(s => {
    const { level, position, pod } = At.place(state, s.number);
    const parts = [level, position, pod].map(part => (part === null ? "-" : part));
    return state.places[s.number] === 0 ? [] : [`${s.label} ${parts.join(" ")}`];
});

const flyingOf = (run, state) => [...state.flying].map(([id, n]) => {
    const at = At.where(run, n);
    return `${id} ${at.host === undefined ? Words.switchOf(run, at.switch) : Words.hostOf(run, at.host)}`;
});

const failedOf = (run, state) => run.fabric.links.flatMap((link, n) => (state.failed[n] ? [`${Words.switchOf(run, link.a)} ${Words.switchOf(run, link.b)}`] : []));

const standsOf = (run, state) => run.fabric.hosts.map(host => {
    const { edge, port } = At.spot(run.fabric, state, host.number);
    return `${host.name} ${Words.switchOf(run, edge)} ${port}`;
});

const addressesOf = (run, state) => run.fabric.hosts.map(host => {
    const newest = state.newest[host.number];
    return newest < 0 ? "-" : Frames.pseudoText(run.addresses[newest].number);
});

// run, entry, and what the state says then: each as the stored journal has it, read by hand
const TABLE = [
    ["examples/four-hosts", 0, { places: [], flying: [], addresses: ["-", "-", "-", "-"], line: 0 }],
    ["examples/four-hosts", 2, { flying: ["1 a"], line: 1 }],
    ["examples/four-hosts", 4, { flying: ["1 e0.0"], line: 2 }],
    ["examples/four-hosts", 5, { flying: [] }],
    ["examples/four-hosts", 8, { places: ["e0.0 0 - -", "a0.0 1 - -", "a0.1 1 - -"] }],
    ["examples/four-hosts", 15, { places: ["e0.0 0 0 0", "a0.0 1 - 0", "a0.1 1 - 0"], addresses: ["0.0.0.1", "-", "-", "-"], settled: "settled 6" }],
    ["examples/four-hosts", 90, { flying: ["13 c0.0"], addresses: ["0.0.0.1", "0.0.1.1", "0.1.0.1", "1.0.0.1"], line: 14 }],
    ["examples/four-hosts", 93, { flying: [], settled: "settled 1" }],
    ["tests/fabric/group", 111, { flying: ["16 c1.1", "17 c1.1"] }],
    ["tests/fabric/group", 113, { flying: ["16 a0.1", "17 a1.1"] }],
    ["tests/fabric/group", 115, { flying: ["16 e0.1", "17 e1.0"] }],
    ["tests/fabric/group", 132, { flying: ["20 e0.0"] }],
    ["tests/fabric/move-twice", 95, { stands: ["a e0.0 0", "b e0.0 1", "c e0.1 0", "d e1.0 0"] }],
    ["tests/fabric/move-twice", 97, { stands: ["a e0.0 0", "b e0.0 1", "c e0.1 0", "d e0.1 1"], flying: ["14 d"] }],
    ["tests/fabric/move-twice", 107, { stands: ["a e0.0 0", "b e0.0 1", "c e0.1 0", "d e1.0 1"], addresses: ["0.0.0.1", "0.0.1.1", "0.1.0.1", "1.0.1.1"] }],
];

const the_state_at_an_entry_is_what_the_journal_says = () => {
    for (const [name, entry, wanted] of TABLE) {
        const { run, states } = open(name);
        const state = At.at(states, entry);
        const said = {
            places: placesOf(run, state), flying: flyingOf(run, state), stands: standsOf(run, state), addresses: addressesOf(run, state),
            line: state.line < 0 ? 0 : run.a[state.line],
            settled: state.rest < 0 ? "" : Journal.text(run, state.rest),
        };
        for (const what of Object.keys(wanted)) assert.deepEqual(said[what], wanted[what], `${name} at ${entry}: ${what}`);
    }
};

const links_fail_and_are_repaired = () => {
    const { run, states, journal } = open("tests/fabric/repaired");
    const lines = journal.split("\n");
    const down = lines.findIndex(line => line.startsWith("linkdown "));
    const up = lines.findIndex(line => line.startsWith("linkup "));
    assert(down >= 0 && up > down);
    assert.deepEqual(failedOf(run, At.at(states, down)), []);
    assert.deepEqual(failedOf(run, At.at(states, down + 1)), [lines[down].slice("linkdown ".length)]);
    assert.deepEqual(failedOf(run, At.at(states, up + 1)), []);
};

// Marks that stand near together, and states that are gone to in any order, are those of a play from the beginning.
const any_entry_is_gone_to_as_it_is_played_to = () => {
    for (const folder of shortFolders()) {
        const { run } = open(folder);
        const states = At.run(run, 7);
        const played = At.start(run);
        const all = [plain(played)];
        for (let n = 0; n < run.count; n++) {
            At.step(run, played);
            all.push(plain(played));
        }
        let state = null;
        for (let n = run.count; n >= 0; n--) {
            state = At.at(states, n, state);
            assert.deepEqual(plain(state), all[n], `${folder} back to ${n}`);
        }
        for (let n = 0; n <= run.count; n += 5) {
            state = At.at(states, n, state);
            assert.deepEqual(plain(state), all[n], `${folder} on to ${n}`);
        }
    }
};

// The summary that an independent program made of each stored run counts what the state at the end counts.
const the_end_of_each_stored_run_has_its_summary = () => {
    for (const folder of folders()) {
        const { run, states, summary } = open(folder);
        const state = At.at(states, run.count);
        const of = word => `${word} ${state.counts[Journal.KIND[word]]}`;
        const counts = `${["sent", "made", "copied", "arrived", "taken", "dropped"].map(of).join(" ")} flying ${state.flying.size}`;
        assert(summary.includes(counts), `${folder}: ${counts}`);
        const dropped = Journal.CAUSES.flatMap((cause, n) => (state.causes[n] > 0 ? [`dropped ${cause} ${state.causes[n]}`] : []));
        assert.deepEqual(dropped, summary.filter(line => line.startsWith("dropped ")), folder);
        assert(summary.some(line => line.startsWith(`lines ${state.counts[Journal.KIND.line]} `) && line.endsWith(` entries ${run.count}`)), folder);
    }
};

const a_million_lines_are_read_within_five_seconds = () => {
    const { run: { fabric } } = open(long.folder);
    const text = new Uint8Array(Buffer.from(long.journal(1e6)));
    const begun = performance.now();
    const run = Journal.read(text, fabric);
    const states = At.run(run);
    assert(performance.now() - begun < 5000 * patience());
    assert(run.count >= 1e6);
    const set = performance.now();
    let state = At.at(states, run.count);
    for (let n = 1; n <= 50; n++) state = At.at(states, run.count - n, state);
    assert(performance.now() - set < 1000 * patience());
    assert.equal(state.counts[Journal.KIND.arrived], 6 + Math.floor((run.count - 50 - 94) / long.FLIGHT));
};

const a_line_of_the_script_is_found = () => {
    const { run, journal } = open("tests/fabric/random-02");
    const lines = journal.split("\n");
    const numbers = lines.flatMap(line => (line.startsWith("line ") ? [Number(line.slice(5))] : []));
    for (let number = 1; number <= numbers[numbers.length - 1]; number++) {
        const next = numbers.find(n => n >= number);
        assert.equal(Journal.ofLine(run, number), lines.indexOf(`line ${next}`));
    }
    assert.equal(Journal.ofLine(run, 1e6), -1);
};

module.exports = {
    the_state_at_an_entry_is_what_the_journal_says, links_fail_and_are_repaired, any_entry_is_gone_to_as_it_is_played_to,
    the_end_of_each_stored_run_has_its_summary, a_million_lines_are_read_within_five_seconds, a_line_of_the_script_is_found,
};
