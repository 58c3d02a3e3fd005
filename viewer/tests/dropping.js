"use strict";
// What is said of each drop of each stored run: what was so at that switch at that moment. By its journal, which is read here line by line once more;
// and by its log, where a switch says what it knows: of the runs whose logs are stored, and of all others where the program that watches is there.
const assert = require("assert");
const { spawnSync } = require("child_process");
const fs = require("fs");
const path = require("path");
const zlib = require("zlib");
const { top, folders, open } = require("./load.js");

const isOfFabric = folder => !folder.includes("tests/bridge");
const dropsOf = run => Array.from({ length: run.count }, (_, n) => n).filter(n => run.kind[n] === Journal.KIND.dropped);

// ---- by a journal

// what its lines before one say: failed links, places, where hosts stand, and what was granted
const readTo = (lines, count, fabric) => {
    const known = { failed: new Map(), places: new Map(), spots: new Map(), granted: new Map(), restarts: 0 };
    for (const { name, edge, port } of fabric.hosts) known.spots.set(name, `port ${port} of ${Fabric.label(fabric, edge)}`);
    lines.slice(0, count).forEach((line, n) => {
        const [word, ...rest] = line.split(" ");
        if (word === "linkdown") known.failed.set(`${rest[0]} ${rest[1]}`, n + 1);
        if (word === "linkup") known.failed.delete(`${rest[0]} ${rest[1]}`);
        if (word === "placed") known.places.set(rest[0], rest.slice(1));
        if (word === "moved") known.spots.set(rest[0], `port ${rest[2]} of ${rest[1]}`);
        if (word === "granted") known.granted.set(rest[0], [rest[1], `port ${rest[3]} of ${rest[2]}`]);
        if (word === "restarted") known.restarts++;
    });
    return known;
};
const failedOf = (known, a, b) => known.failed.get(`${a} ${b}`) || known.failed.get(`${b} ${a}`) || 0;
const number = text => Number(text.replace(/,/g, ""));

// each thing that a text says, held against what the lines say
const CLAIMS = [
    [/(\S+(?:(?:, \S+)* and \S+)?): (?:its link is|their links are) failed since entry ([\d,]+)\./g, (found, known, at) => found[1].split(/, | and /).every(to => failedOf(known, at, to) === number(found[2]))],
    [/(\S+(?:(?:, \S+)* and \S+)?): the links? (?:is|are) not failed/g, (found, known, at) => found[1].split(/, | and /).every(to => failedOf(known, at, to) === 0)],
    [/(\S+(?:(?:, \S+)* and \S+)?): (?:it does|they do) not know (?:its|their) level so far/g, (found, known) => found[1].split(/, | and /).every(to => !known.places.has(to))],
    [/No edge switch has told this place so far/g, (found, known, at, text) => {
        const [, pod, position] = /pod (\d+), position (\d+)/.exec(text);
        return ![...known.places].some(([label, place]) => label.startsWith("e") && place.join(" ") === `0 ${position} ${pod}`);
    }],
    [/No neighbour of (\S+) has told that it is in pod (\d+)/g, (found, known) => ![...known.places].some(([label, place]) => label[0] === "a" && place[2] === found[2]
        && label.split(".")[1] === found[1].slice(1).split(".")[0])],
    [/(\S+), in pod (\d+),/g, (found, known) => known.places.get(found[1])[2] === found[2]],
    [/nobody is attached to (port \d+ of \w+\.\d+)/g, (found, known) => ![...known.spots.values()].includes(found[1])],
    [/[Hh]ost (\S+) is attached to (port \d+ of \w+\.\d+)/g, (found, known) => known.spots.get(found[1]) === found[2]],
    [/(\S+) is the address of host (\S+) at (port \d+ of \S+)\./g, (found, known) => known.granted.get(found[1]).join() === [found[2], found[3]].join()],
    [/(\S+) was never granted/g, (found, known) => !known.granted.has(found[1])],
    [/failed at entry ([\d,]+)/g, (found, known, at) => [...known.failed].some(([link, entry]) => link.split(" ").includes(at) && entry === number(found[1]))],
    [/since it restarted/g, (found, known) => known.restarts > 0],
];
const REFERS = / at entry ([\d,]+)/g; // to an entry of the run

const what_is_said_of_each_drop_stands_in_the_journal = () => {
    const held = CLAIMS.map(() => 0);
    const causes = new Set();
    for (const folder of folders().filter(isOfFabric)) {
        const { run, states, script, journal } = open(folder);
        const lines = journal.split("\n");
        let state = null;
        for (const n of dropsOf(run)) {
            state = At.at(states, n + 1, state);
            const text = Drops.said(run, n, state, script);
            const what = `${folder}, line ${n + 1}: ${text}`;
            assert(/^[A-Za-z0-9].*\.$/.test(text) && !/undefined|null|NaN|`/.test(text), what);
            causes.add(run.b[n]);
            const known = readTo(lines, n + 1, run.fabric);
            const at = run.at[n] < 0 ? "" : Words.switchOf(run, run.at[n]);
            CLAIMS.forEach(([form, holds], claim) => {
                for (const found of text.matchAll(form)) {
                    assert(holds(found, known, at, text), `${what}: ${found[0]}`);
                    held[claim]++;
                }
            });
            for (const [, entry] of text.matchAll(REFERS)) assert(number(entry) >= 1 && number(entry) <= run.count, what);
        }
    }
    assert(held.every(count => count > 0), `${held}`);
    assert(causes.size >= 8, `${[...causes]}`);
};

// run, line of its journal, and what is said of the drop, read off the journal by hand
const SAID = [
    ["tests/fabric/cut-off", 107, "The frame is for pod 1, position 0. From e0.0 it can only go up. a0.0: its link is failed since entry 96. a0.1: its link is failed since entry 98."],
    ["tests/fabric/raw-2", 38, "The frame is for pod 0, position 1. No edge switch has told this place so far. No edge switch below a0.0, in this pod, has told this position."],
    ["tests/fabric/random-04", 181, "The frame is for pod 50864, position 191. No edge switch has told this place so far. No neighbour of c1.0 has told that it is in pod 50864."],
    ["tests/fabric/link-fails-with-frames", 104, "The link e0.0 - a0.0 failed at entry 103, while the frame waited there."],
    ["tests/fabric/not-placed", 5, "e0.0 does not know its level, position and pod so far. It is placed at entry 11. What is sent before a settle line has ended is often lost so."],
    ["tests/fabric/lose", 72, "Line 13 of the script, lose e0.0 a0.0, took it off its link."],
    ["tests/fabric/move", 105, "00:01:00:00:00:01 is the address of host d at port 0 of e1.0. By then nobody is attached to port 0 of e1.0. "
        + "Host d is attached to port 1 of e0.1, where it moved at entry 96."],
    ["tests/fabric/move-with-frames-waiting", 111, "Its sender moved away while the frame waited for its switch. Host d is attached to port 1 of e0.1, where it moved at entry 110."],
    ["tests/fabric/group", 133, "e0.0 has no part of the tree of group 66051: the fabric manager has told it none. Nobody has joined group 66051 by then and not left it."],
    ["tests/fabric/no-address-and-bad-arp", 37, "00:00:00:01:00:09 was never granted: port 1 of e0.0 has granted 00:00:00:01:00:01 to b. "
        + "Its sender made it up, or was told it before this run."],
    ["tests/fabric/no-address-and-bad-arp", 43, "Of its ARP packet: it is not of Ethernet and IPv4."],
    ["examples/first-scenario", 114, "No loss: the tree of a group, or of a flood, reaches the sender's own switch too, and nobody else there is to have a copy."],
];

const drops_are_told_as_a_hand_reads_them = () => {
    for (const [name, line, wanted] of SAID) {
        const { run, states, script } = open(name);
        assert.equal(Rules.look(run, line - 1, At.at(states, line), script), wanted, `${name}, line ${line}`);
    }
};

// ---- by a log

const STORED = { "examples/storm": "storm", "tests/fabric/cut-off": "cut-off" };
const storedLog = name => zlib.gunzipSync(fs.readFileSync(path.join(top, "viewer/tests/logs", `${STORED[name]}.txt.gz`)));

// what the program that watches prints of a run, null where it is not there
const isThere = () => fs.existsSync(process.env.PORTLAND_WATCH || path.join(top, "crates/portland_watch/out/portland_watch"));
const watched = folder => {
    const captures = path.join(folder, "captures");
    const words = ["watch", "--topology", path.join(folder, "topology.toml"), "--script", path.join(folder, "script"), "--captures", fs.existsSync(captures) ? captures : folder];
    return spawnSync(path.join(top, "portland"), words, { maxBuffer: 1e9, env: { ...process.env, PORTLAND_HINTS: "off" } }).stdout;
};

const openLog = (folder, log) => Files.runOf({ topology: fs.readFileSync(path.join(folder, "topology.toml")), journal: new Uint8Array(log) });

const logs = () => {
    const all = folders().filter(folder => isOfFabric(folder) && fs.existsSync(path.join(folder, "captures")));
    if (isThere()) return all.map(folder => [path.relative(top, folder), watched(folder)]);
    console.log("tests/check/page: logs of all stored runs: skipped, no program that watches (./portland prove watch); those that are stored are tested");
    return Object.keys(STORED).map(name => [name, storedLog(name)]);
};

// each entry by which a frame for one host crossed a switch and was passed on to another one from there, with that one
const passes = run => {
    const found = [];
    for (let n = 0; n < run.count; n++) {
        const before = run.kind[n] === Journal.KIND.crossed ? run.before[n] : -1;
        if (before < 0 || run.kind[before] !== Journal.KIND.crossed || run.b[before] === run.b[n]) continue;
        if (!Frames.isGroup(At.address(run, before))) found.push([before, run.b[n]]);
    }
    return found.sort(([a], [b]) => run.b[a] - run.b[b] || a - b);
};

// Where a switch has passed a frame on the neighbour that it chose is one of the candidates, and where it has dropped one for NoNextHop there is none:
// each neighbour that leads on has a reason by what the switch says that it knows.
const a_log_has_why_no_port_led_on = () => {
    const count = { passed: 0, dropped: 0, trees: 0 };
    for (const [name, log] of logs()) {
        const { run, states } = openLog(path.join(top, name), log);
        let state = null;
        for (const [crossed, to] of passes(run)) {
            state = At.at(states, crossed + 1, state);
            const { ways } = Drops.candidates(run, crossed, state, Said.known(run, run.b[crossed], crossed));
            assert(ways.some(way => way.number === to && (way.why === "" || way.why.startsWith("its link"))), `${name}: ${Journal.text(run, crossed)}: ${JSON.stringify(ways)}`);
            count.passed++;
        }
        for (const n of dropsOf(run)) {
            state = At.at(states, n + 1, state);
            const text = Drops.said(run, n, state);
            assert(!text.includes("a journal does not") && !/: \.|undefined/.test(text), `${name}: ${text}`);
            if (Journal.CAUSES[run.b[n]] !== "NoNextHop") continue;
            if (Frames.isGroup(At.address(run, n))) count.trees++;
            else count.dropped++;
        }
    }
    assert(count.passed > 250 && count.dropped >= 19, JSON.stringify(count));
};

// run, frame, and what its log says of its end, read off the log by hand
const BY_LOG = [
    ["examples/storm", 125, "The frame is for pod 2, position 1. From a1.0, in pod 1, it can only go up. c0.0: a1.0 has not heard it for three ticks. "
        + "c0.1: the fabric manager has it avoided for this address."],
    ["examples/storm", 106, "The frame is for pod 1, position 0. From e3.0 it can only go up. a3.0 and a3.1: e3.0 has not heard them for three ticks."],
    ["tests/fabric/cut-off", 15, "The frame is for pod 1, position 0. From e0.0 it can only go up. a0.0: its link is failed since entry 2,423. a0.1: its link is failed since entry 2,426."],
];

const what_a_switch_knew_is_said = () => {
    for (const [name, frame, wanted] of BY_LOG) {
        const { run, states } = openLog(path.join(top, name), storedLog(name));
        const n = run.end[frame];
        assert.equal(Drops.said(run, n, At.at(states, n + 1)), wanted, name);
    }
};

const stored_logs_are_those_of_the_program = () => {
    if (!isThere()) return;
    for (const name of Object.keys(STORED)) assert(storedLog(name).equals(watched(path.join(top, name))), `viewer/tests/logs: ${name} is another one by now`);
};

module.exports = {
    what_is_said_of_each_drop_stands_in_the_journal, drops_are_told_as_a_hand_reads_them, a_log_has_why_no_port_led_on, what_a_switch_knew_is_said,
    stored_logs_are_those_of_the_program,
};
