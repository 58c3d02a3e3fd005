"use strict";
// What stands beside the picture: rules, loads, what the fabric knows, a second run, links to a moment; and what aging, restarts
// of the manager and learning bridges bring.
const assert = require("assert");
const fs = require("fs");
const path = require("path");
const { top, folders, open, BESIDE, openBeside, openTexts, patience } = require("./load.js");

// run, line of the journal, words of its rules, and how what to look at begins
const RULES = [
    ["examples/four-hosts", 2, "`sent_by_host`", "crates/pl_world/specs/Changes.antt", ""],
    ["examples/four-hosts", 4, "`ComesAtSwitch`", "crates/pl_world/specs/WorldRule.antt", ""],
    ["examples/four-hosts", 10, "by `grants_next`", "crates/pl_switch_rule/specs/Granting.antt", ""],
    ["tests/fabric/link-fails-with-frames", 104, "`goes_out`, `link_failed`", "crates/pl_world/specs/LinksAndMoves.antt", "The link e0.0 - a0.0 failed at entry 103"],
    ["viewer/tests/runs/address-given-again", 731, "by `frees`", "crates/pl_switch_rule/specs/Messages.antt", ""],
    ["tests/restart/the-manager-restarts", 96, "`manager_restarted`", "crates/pl_world/specs/Restarting.antt", ""],
    ["tests/fabric/group", 133, "`no_way`", "crates/pl_switch_rule/specs/GroupForwarding.antt", "e0.0 has no part of the tree of group 66051"],
];

const the_rule_of_an_entry_is_that_of_the_table = () => {
    for (const [name, line, says, file, look] of RULES) {
        const { run, states } = open(name);
        const rules = Rules.of(run, line - 1);
        const told = Rules.look(run, line - 1, At.at(states, line));
        assert(rules.some(rule => rule.says.includes(says) && rule.files.includes(file)), `${name}, line ${line}: ${JSON.stringify(rules)}`);
        assert(told.startsWith(look) && (look !== "" || told === ""), told);
    }
    const { run: failing } = open("tests/fabric/link-fails-with-frames");
    assert(!Rules.of(failing, 103).some(({ says }) => says.includes("cause_of")), "of a link, and not a switch's choice");
    const { run } = open("examples/four-hosts");
    assert.deepEqual(Rules.of(run, 0), []); // `line 1`, which the player of the script writes
    for (const cause of Journal.CAUSES) assert(Rules.rowOf(cause), cause);
    for (const { files } of [...Journal.WORDS, ...Journal.CAUSES].map(Rules.rowOf).filter(Boolean)) {
        for (const file of files) assert(fs.existsSync(path.join(top, file)), file);
    }
};

// A frame to many that comes back to the switch of its sender says that nobody else is there.
const a_copy_that_comes_back_says_why_it_ends = () => {
    const said = (name, line) => Words.sentence(open(name).run, line - 1);
    assert(said("tests/fabric/random-04", 81).endsWith("nobody else there has joined its group."));
    assert(said("tests/fabric/random-04", 204).endsWith("it came back to its sender's own switch, and nobody else stands there."));
    assert(!said("tests/fabric/group", 133).includes("nobody else"));
};

// run, line of the journal, and what is said of it: aging, a manager that restarts, and a learning bridge
const LATER = [
    ["viewer/tests/runs/address-given-again", "freed 00:01:00:00:00:01", "Switch e1.0 frees the pseudo address 00:01:00:00:00:01, which host d had: nobody uses it now, and port 0 may grant it again."],
    ["tests/restart/before-a-move-was-told", "restarted 1", "The fabric manager restarts, for the 1st time: it has forgotten all, what was on its way to it and from it is lost, and each switch tells it again what it knows."],
    ["tests/restart/before-a-move-was-told", "registered 00:01:00:00:00:01 4294967301", "The fabric manager has learnt again 00:01:00:00:00:01 of host d, with number 4,294,967,301."],
    ["tests/bridge/learnt", "linkdown e0.0 a0.1", "The link between e0.0 and a0.1 is left out before the first line: a learning bridge wants a tree."],
    ["tests/bridge/a-link-of-the-tree-fails", "linkdown e1.0 a1.0", "The link between e1.0 and a1.0 fails."],
    ["tests/bridge/learnt", "settled 3", "A settle line ends after 3 sweeps: nothing waits in a queue."],
    ["tests/bridge/random-01", "unsettled 1", "A settle line ends and 1 item waits in a queue."],
];

const what_aging_restarts_and_bridges_bring_is_said = () => {
    for (const [name, line, wanted] of LATER) {
        const { run, journal } = open(name);
        const n = journal.split("\n").indexOf(line);
        assert(n >= 0, `${name}: ${line}`);
        assert.equal(Words.sentence(run, n), wanted);
        if (line.startsWith("freed")) {
            assert(Words.who(run, 0x000100000001, n + 1).startsWith("freed, granted to nobody now"));
            assert.equal(Stories.of(run, { host: run.fabric.names.get("d") }).includes(n), true);
        }
    }
    const { run, states } = open("viewer/tests/runs/address-given-again");
    const again = run.addresses.filter(({ number }) => number === 0x000100000001);
    assert.deepEqual(again.map(({ host }) => run.fabric.hosts[host].name), ["d", "b"]);
    assert.equal(Journal.grantAt(run, 0x000100000001, run.count), again[1]);
    assert.equal(At.at(states, run.count).newest[run.fabric.names.get("b")], run.addresses.indexOf(again[1]));
};

// A learning bridge copies frames for one host too, which PortLand never does.
const a_flood_of_a_bridge_is_told = () => {
    const topology = 'k = 4\n[[host]]\nname = "a"\nmac = "02:00:00:00:00:0a"\nip = "10.0.0.1"\nedge = "e0.0"\nport = 0\n';
    const sent = `sent 1 a 02000000000b02000000000a88b6${"00".repeat(46)}`;
    const flood = openTexts(topology, `linkdown e0.0 a0.1\nline 1\n${sent}\ncrossed 1 e0.0\ncopied 1 2\ndropped 2 HostGone\n`);
    assert.equal(Words.sentence(flood, 4), "At e0.0 frame 1 goes one more way: frame 2 is its copy. "
        + "The bridge floods it: it has not learnt where 02:00:00:00:00:0b stands.");
    assert.equal(Words.sentence(flood, 5), "Frame 2 ends after switch e0.0, which it crossed last: HostGone, nobody stands at that port, "
        + "or it is for another host than the one there.");
    for (const name of BESIDE) {
        const { run } = openBeside(name);
        for (let n = 0; n < run.count; n++) assert(!Words.sentence(run, n).includes("floods"), `${name}, line ${n + 1}`);
    }
};

// The words of a line of a bridge's journal, or of a cause, and what its rule names: of the bridge's own rows, or of those of the fabric.
const BRIDGE_RULES = {
    linkdown: "`tree_world`", crossed: "`learns_source`", copied: "`goes_on`", sent: "`sent_by_host`", arrived: "`reception_noted`", moved: "`host_moved`",
    skipped: "`skip_noted`", NoNextHop: "`port_for`", HostGone: "`ComesAtHost`", LinkDown: "`goes_out`", Lost: "`item_lost`", NoMember: "`reception_noted`",
};

const each_entry_of_a_bridge_has_its_rule = () => {
    const seen = new Set();
    for (const folder of folders().filter(name => name.includes("tests/bridge"))) {
        const { run } = open(folder);
        if (!Journal.isOfBridge(run)) continue;
        for (let n = 0; n < run.count; n++) {
            const word = Journal.WORDS[run.kind[n]];
            const name = word === "dropped" ? Journal.CAUSES[run.b[n]] : word;
            const wanted = name === "linkdown" && !Journal.isLeftOut(run, n) ? "`link_failed`" : BRIDGE_RULES[name];
            const rules = Rules.of(run, n);
            seen.add(wanted);
            assert.deepEqual(rules.map(({ says }) => says.includes(wanted)), wanted ? [true] : [], `${folder}, line ${n + 1}`);
            assert.equal(Rules.look(run, n, null) !== "", word === "dropped", `${folder}, line ${n + 1}`);
        }
    }
    for (const wanted of ["`link_failed`", ...Object.values(BRIDGE_RULES)]) assert(seen.has(wanted), wanted);
    for (const name of [...Journal.WORDS, ...Journal.CAUSES]) {
        for (const file of (Rules.bridgeRowOf(name) || { files: [] }).files) assert(fs.existsSync(path.join(top, file)), file);
    }
};

// What the fabric alone has is not told of bridges: places, and addresses that are granted.
const bridges_have_no_places = () => {
    const { run, states, script } = open("tests/bridge/learnt");
    const state = At.at(states, run.count);
    for (const subject of [{ switch: 0 }, { host: 0 }]) {
        const facts = JSON.stringify(Facts.of(run, state, subject));
        assert(!/placed|not known|pseudo/.test(facts), facts);
    }
    const known = Knowledge.of(run);
    assert.equal(Knowledge.summary(known, "placed", run.count), "learning bridges have no places");
    assert.equal(Knowledge.summary(known, "addresses", run.count), "learning bridges grant no addresses");
    assert.equal(Words.who(run, 0x02000000aa00, run.count), "own address of no host here");
    assert.equal(Script.sentence(script[1], true), "sweeps until nothing waits in the queues, 64 at most");
};

const the_second_run_is_in_step_by_line = () => {
    BESIDE.forEach(inStep);
};

const inStep = name => {
    const { run: second } = open(`tests/bridge/${name}`);
    const { run: first } = openBeside(name);
    const states = At.run(first);
    const at = entry => Step.of(first, second, entry, At.at(states, entry).line);
    const last = first.a[first.scriptLines[first.scriptLines.length - 1]];
    assert(last >= 6);
    for (let n = 1; n <= last; n++) {
        const [begin, other] = [Journal.ofLine(first, n), Journal.ofLine(second, n)];
        assert.equal(at(begin + 1), other + 1);
        const end = n < last ? Journal.ofLine(first, n + 1) : first.count;
        assert.equal(at(end), n < last ? Journal.ofLine(second, n + 1) : second.count);
    }
    let before = 0;
    for (let n = 0; n <= first.count; n++) {
        assert(at(n) >= before, `${n}`);
        before = at(n);
    }
};

const what_is_known_is_what_has_happened = () => {
    const { run, journal } = open("tests/restart/before-a-move-was-told");
    const known = Knowledge.of(run);
    const lines = journal.split("\n");
    for (let now = 0; now <= run.count; now++) {
        const granted = lines.slice(0, now).filter(line => line.startsWith("granted ")).map(line => line.split(" ")[2]);
        const rows = Knowledge.rows(known, "addresses", "", now).map(n => Knowledge.row(known, "addresses", n, now).cells[0]);
        assert.deepEqual(rows, granted);
    }
    assert.deepEqual(Knowledge.rows(known, "addresses", "NOT registered", run.count), []);
    assert.equal(Knowledge.rows(known, "addresses", "4294967301", run.count).length, 1);
    assert.equal(Knowledge.summary(known, "placed", 0), "0 of 20 switches are placed");
};

// What the manager knows of addresses by the lines of a journal: the number of each that is registered. One that begins anew knows nothing
// (docs/RULES.md, `restarted_manager`), and what it releases it forgets.
const learntBy = lines => {
    const learnt = new Map();
    for (const line of lines) {
        const [word, pmac, number] = line.split(" ");
        if (word === "registered") learnt.set(pmac, number);
        else if (word === "freed") learnt.delete(pmac);
        else if (word === "restarted") learnt.clear();
    }
    return learnt;
};

// what is granted of the first lines and not freed, each with the line of its grant
const grantsIn = lines => {
    const live = new Map();
    lines.forEach((line, n) => {
        const [word, pmac] = line.split(" ");
        if (word === "granted") live.set(pmac, n);
        else if (word === "freed") live.delete(pmac);
    });
    return live;
};

// the last entry before each change of what is known, and the change itself
const changesIn = lines => [...new Set(lines.flatMap((line, n) => (/^(granted|registered|freed|restarted) /.test(line) ? [n, n + 1] : [])))];

const what_the_manager_knows_goes_with_a_restart = () => {
    let forgotten = 0;
    for (const folder of folders()) {
        const { run, states, journal } = open(folder);
        if (Journal.isOfBridge(run)) continue;
        const lines = journal.split("\n").slice(0, -1);
        const known = Knowledge.of(run);
        for (const now of changesIn(lines)) {
            const [past, state, what] = [lines.slice(0, now), At.at(states, now), `${folder} at ${now}`];
            const [learnt, live] = [learntBy(past), grantsIn(past)];
            const count = word => past.filter(line => line.startsWith(`${word} `)).length;
            if (now > 0 && lines[now - 1].startsWith("restarted ") && live.size > 0) forgotten++;
            assert.equal(Knowledge.summary(known, "addresses", now), `${count("granted")} granted, ${learnt.size} registered, ${count("freed")} freed`, what);
            const rows = new Map(Knowledge.rows(known, "addresses", "", now).map(n => [run.addresses[n].granted, Knowledge.row(known, "addresses", n, now)]));
            const facts = run.fabric.hosts.flatMap(host => Facts.of(run, state, { host: host.number }).filter(([, text]) => /registered/.test(text)));
            const told = new Map(facts.map(([pmac, text]) => [pmac, text.split(", ").pop()]));
            assert.deepEqual(new Set(told.keys()), new Set(live.keys()), what);
            for (const [pmac, granted] of live) {
                const number = learnt.get(pmac);
                assert.equal(told.get(pmac), number ? `registered as ${number}` : "not registered", `${what}: ${pmac}`);
                const { entries, note } = rows.get(granted);
                assert.deepEqual([entries.slice(1).map(([word]) => word), note], number ? [[`as ${number}`], ""] : [[], "not registered"], `${what}: ${pmac}`);
            }
        }
    }
    assert(forgotten > 15, `${forgotten}`);
};

// What was known of an address at a restart is found, and nothing is gone through for it: neither its registrations nor the restarts.
const an_address_of_many_restarts_is_looked_up = () => {
    const topology = 'k = 4\n[[host]]\nname = "a"\nmac = "02:00:00:00:00:0a"\nip = "10.0.0.1"\nedge = "e0.0"\nport = 0\n';
    const [pmac, many] = ["00:00:00:00:00:01", 20000];
    const restarts = Array.from({ length: many }, (_, n) => `restarted ${n + 1}\nregistered ${pmac} ${(n + 1) * 2 ** 32 + 1}\n`);
    const run = openTexts(topology, `granted ${pmac} a e0.0 0\nregistered ${pmac} 1\n${restarts.join("")}`);
    const known = Knowledge.of(run);
    const begun = performance.now();
    for (let now = 2; now <= run.count; now++) {
        const registered = now % 2 === 0 ? 1 : 0;
        assert.equal(Knowledge.summary(known, "addresses", now), `1 granted, ${registered} registered, 0 freed`);
    }
    assert(performance.now() - begun < 2000 * patience(), `${performance.now() - begun} milliseconds`);
};

// The newer address of a host is the one that it was granted later. The manager goes by the order in which it learnt them, which behind a
// restart is that of the reports; and one behind which another rested is of the same port.
const an_address_to_which_a_frame_goes_on_is_newer_where_it_was_granted_later = () => {
    const { folder } = open("tests/restart/before-a-move-was-told");
    const topology = fs.readFileSync(path.join(folder, "topology.toml"), "utf8");
    const [old, now, third] = ["00:01:00:00:00:01", "00:00:01:01:00:01", "00:00:01:01:00:02"];
    const sent = (n, to) => `sent ${n} a ${to.replace(/:/g, "")}02000000000a88b6${"00".repeat(46)}\n`;
    const run = openTexts(topology, `granted ${old} d e1.0 0\nmoved d e0.1 1\ngranted ${now} d e0.1 1\nrestarted 1\nregistered ${now} 4294967297\n`
        + `registered ${old} 4294967298\n${sent(1, now)}redirected 1 ${now} ${old}\ngranted ${third} d e0.1 1\n${sent(2, old)}redirected 2 ${old} ${third}\n`
        + `${sent(3, now)}redirected 3 ${now} ${third}\n`);
    const said = Array.from({ length: run.count }, (_, n) => n).filter(n => run.kind[n] === Journal.KIND.redirected).map(n => Words.sentence(run, n));
    assert.deepEqual(said, [
        `The fabric manager took an earlier address of host d for the newer one: frame 1, for ${now}, goes on to ${old} (pod 1, position 0, port 0, number 1).`,
        `Host d has moved on: frame 2, for ${old}, goes on to its newer address ${third} (pod 0, position 1, port 1, number 2).`,
        `Host d has a newer address at the same port: frame 3, for ${now}, goes on to ${third} (pod 0, position 1, port 1, number 2).`,
    ]);
};

// After a restart a switch knows no part of a tree until it is told again, which is told where a frame had no tree to go by.
const behind_a_restart_it_is_told = () => {
    const { run, states, journal } = open("tests/restart/random-01");
    const lines = journal.split("\n");
    const restart = lines.findIndex(line => line.startsWith("restarted ")) + 1;
    const looks = lines.flatMap((line, n) => (line.startsWith("dropped ") ? [[n + 1, line.split(" ")[2], Rules.look(run, n, At.at(states, n + 1))]] : []));
    const told = looks.filter(([, , look]) => look.includes(` the fabric manager has told it none since it restarted at entry ${restart}`));
    assert.deepEqual(told.map(([line]) => line), [35, 47]);
    assert(told.every(([line, cause]) => line > restart && cause === "NoNextHop"));
};

const loads_are_the_crossings = () => {
    for (const folder of folders()) {
        const { run, states, journal } = open(folder);
        const { crossings, carried } = At.at(states, run.count);
        const wanted = new Int32Array(run.fabric.switches.length);
        for (const [, label] of journal.matchAll(/^crossed \d+ (\S+)$/gm)) wanted[Fabric.number(run.fabric, label)]++;
        assert.deepEqual([...crossings], [...wanted], folder);
        assert(carried.reduce((sum, count) => sum + count, 0) <= wanted.reduce((sum, count) => sum + count, 0));
    }
    const { run, states } = open("examples/four-hosts");
    const { carried } = At.at(states, 93);
    const link = (a, b) => carried[Fabric.link(run.fabric, Fabric.number(run.fabric, a), Fabric.number(run.fabric, b))];
    assert.deepEqual([link("a0.0", "c0.0"), link("c0.0", "a1.0"), link("a1.0", "e1.0"), link("a1.1", "e1.0")], [1, 1, 1, 0]);
};

const the_chart_counts_what_the_summary_counts = () => {
    for (const folder of folders()) {
        const { run, summary } = open(folder);
        const rows = Chart.of(run);
        const last = name => { const row = rows.find(one => one.name === name); return row.counts[row.counts.length - 1]; };
        assert(summary.some(line => line.startsWith(`sent ${last("sent")} `) && line.includes(` arrived ${last("arrived")} `)), folder);
        const causes = rows.slice(2).map(({ name }) => `dropped ${name} ${last(name)}`);
        assert.deepEqual(causes, summary.filter(line => line.startsWith("dropped ")), folder);
    }
};

const a_link_names_a_moment = () => {
    const { run } = open("examples/four-hosts");
    for (const subject of [null, { frame: 13 }, { host: 0 }, { switch: 0 }]) {
        assert.deepEqual(Moment.read(run, Moment.text(run, 91, subject)), { entry: 91, subject, sift: Sift.NONE });
    }
    assert.equal(Moment.text(run, 91, { frame: 13 }), "#entry=91&story=13");
    assert.deepEqual(Moment.read(run, "#story=e0.0"), { entry: -1, subject: { switch: 0 }, sift: Sift.NONE });
    assert.deepEqual(Moment.read(run, "#entry=1000"), { entry: run.count, subject: null, sift: Sift.NONE });
    for (const none of ["", "#", "#entry=x", "#story=nobody", "#other"]) assert.equal(Moment.read(run, none), null);
};

module.exports = {
    the_rule_of_an_entry_is_that_of_the_table, a_copy_that_comes_back_says_why_it_ends, what_aging_restarts_and_bridges_bring_is_said,
    a_flood_of_a_bridge_is_told, each_entry_of_a_bridge_has_its_rule, bridges_have_no_places, the_second_run_is_in_step_by_line, what_is_known_is_what_has_happened,
    what_the_manager_knows_goes_with_a_restart, an_address_of_many_restarts_is_looked_up,
    an_address_to_which_a_frame_goes_on_is_newer_where_it_was_granted_later, behind_a_restart_it_is_told, loads_are_the_crossings,
    the_chart_counts_what_the_summary_counts, a_link_names_a_moment,
};
