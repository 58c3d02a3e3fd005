"use strict";
// A log of `portland watch`, read, told and drawn.
const assert = require("assert");
const fs = require("fs");
const path = require("path");
const { top, folders, open, openTexts } = require("./load.js");

const TOPOLOGY = `k = 4
[[host]]
name = "a"
mac = "02:00:00:00:00:0a"
ip = "10.0.0.1"
edge = "e0.0"
port = 0
`;
const FRAME = `02000000000b02000000000a88b6${"00".repeat(46)}`;
const LOG = `line 1
@ 1 start a
sent 1 a ${FRAME}
line 2
@ 2 deliver a e0.0 0
  heard frame 1
  knows place 0 - -
  knows port 0 host
  knows attempt 1 0
  does take
crossed 1 e0.0
taken 1 e0.0
placed e0.0 0 - -
@ 3 tick e0.0
  sends ldm 2 0 - - - -
@ 4 deliver e0.0 2 a0.0 0
  heard ldm e0.0 0 - - - -
  knows place 1 - -
  knows port 0 e0.0 0 - - - unusable
placed a0.0 1 - -
@ 5 deliver e0.0 1 -
  lost ldm e0.0 0 - - - -
@ 6 deliver a0.0 0 e0.0 2
  heard vote a0.0 1 0 refused e0.1 open
@ 7 deliver e0.0 manager
  heard place 0 - -
@ 8 deliver manager e0.0
  heard avoid
  knows avoid + a0.0 1 0
  knows avoid + a0.1 1 1
@ 9 deliver manager e0.0
  heard avoid
  knows avoid - a0.0 1 0
@ 10 tick e0.0
  knows silent 2 2
@ 11 fail e0.0 a0.0
linkdown e0.0 a0.0
`;

const log = () => openTexts(TOPOLOGY, LOG);
const eventAt = (run, step) => Array.from({ length: run.count }, (_, n) => n).find(n => Journal.text(run, n).startsWith(`@ ${step} `));

const the_journal_of_a_log_is_its_lines_that_begin_with_a_letter = () => {
    const run = log();
    const journal = openTexts(TOPOLOGY, LOG.split("\n").filter(line => /^[a-z]/.test(line)).join("\n"));
    const entries = Array.from({ length: run.count }, (_, n) => n).filter(n => run.kind[n] !== Journal.KIND.event);
    assert.deepEqual(entries.map(n => Journal.text(run, n)), Array.from({ length: journal.count }, (_, n) => Journal.text(journal, n)));
};

const an_event_says_who_hears_whom = () => {
    const run = log();
    const of = step => [run.a[eventAt(run, step)], run.b[eventAt(run, step)], Journal.EVENTS[run.c[eventAt(run, step)]]];
    assert.deepEqual(of(2), [0, 0, "enters"]);
    assert.deepEqual(of(3), [0, -1, "tick"]);
    assert.deepEqual(of(4), [8, 0, "along"]);
    assert.deepEqual(of(5), [0, -1, "leaves"]);
    assert.deepEqual(of(7), [0, -1, "told"]);
    assert.deepEqual(of(8), [0, -1, "says"]);
    assert.deepEqual(of(11), [0, 8, "fail"]);
};

const a_control_frame_moves_along_its_link = () => {
    const run = log();
    const sceneOf = step => Scene.of(run, At.at(At.run(run), eventAt(run, step) + 1)).now;
    assert.deepEqual([sceneOf(4).from, sceneOf(4).place, sceneOf(4).control], [{ switch: 0 }, { switch: 8 }, "ldm"]);
    assert.deepEqual([sceneOf(6).from, sceneOf(6).control, sceneOf(6).note], [{ switch: 8 }, "refused", ""]);
    assert.equal(sceneOf(3).from, null);
};

const a_switch_shows_what_it_knows_at_that_moment = () => {
    const run = log();
    const knownAfter = step => Said.known(run, 0, eventAt(run, step) + 1);
    assert.deepEqual(knownAfter(2).ports.get("0"), ["host"]);
    assert.deepEqual(knownAfter(2).attempt, ["1", "0"]);
    assert.deepEqual([...knownAfter(8).avoid], ["a0.0 1 0", "a0.1 1 1"]);
    assert.deepEqual([...knownAfter(9).avoid], ["a0.1 1 1"]);
    assert.equal(knownAfter(10).silent.get("2"), "2");
    const facts = new Map(Said.facts(run, At.at(At.run(run), run.count), 0).map(([name, ...parts]) => [name, parts]));
    assert.deepEqual(facts.get("avoids"), ["a0.1 for pod 1, position 1"]);
    assert.deepEqual(facts.get("proposes"), ["position 0, by attempt 1; not granted so far"]);
};

const an_event_is_told_in_a_sentence = () => {
    const run = log();
    const said = step => Words.sentence(run, eventAt(run, step));
    assert.equal(said(1), "Host a announces itself by an ARP request for its own address.");
    assert.equal(said(2), "e0.0 receives frame 1 of host a at port 0. Now it is at level 0 (edge); it has port 0 for a host; it is to propose position 0, in attempt 1. "
        + "It takes it: it is for the switch itself.");
    assert.equal(said(3), "e0.0 ticks. It sends location messages that it is at level 0 (edge): by port 2, where it has heard nobody.");
    assert.equal(said(5), "A control frame of e0.0 comes out of its port 1, where nobody is attached: no switch hears it.");
    assert.equal(said(6), "e0.0 hears at port 2 that a0.0 refuses it position 0, of attempt 1: it is held for e0.1, not for good yet.");
    assert.equal(said(7), "The fabric manager hears from e0.0 that it is at level 0 (edge).");
    assert.equal(said(8), "e0.0 hears from the fabric manager which neighbours it is to avoid, and for which addresses. "
        + "Now it avoids a0.0 for pod 1, position 0; it avoids a0.1 for pod 1, position 1.");
    assert.equal(said(10), "e0.0 ticks. Now it has heard nothing at port 2 for 2 ticks.");
    assert.equal(said(11), "The link between e0.0 and a0.0 fails.");
};

const LOGS = ["position-vote", "avoid-lists", "manager-restarts"];
const storedLog = name => {
    const folder = path.join(top, "examples", name);
    const [topology, journal] = ["topology.toml", "expected-watch/log.txt"].map(file => new Uint8Array(fs.readFileSync(path.join(folder, file))));
    return Files.runOf({ topology, journal });
};

// Each event of the stored logs is a sentence in which nothing that stands below it is left out, and has a rule behind it.
const each_event_of_the_stored_logs_is_told_whole = () => {
    let events = 0;
    for (const name of LOGS) {
        const { run } = storedLog(name);
        for (let n = 0; n < run.count; n++) {
            if (run.kind[n] !== Journal.KIND.event) continue;
            events++;
            const text = Words.sentence(run, n);
            const what = `${name}: ${Journal.text(run, n)}: ${text}`;
            assert(/^[A-Za-z].*\.$/.test(text) && !/undefined|null|NaN|lines more|8388608|`/.test(text), what);
            for (const { verb, words } of Said.below(run, n)) {
                if (verb === "lost") continue;
                const parts = words.filter(word => !["-", "up", "down", "open", "fixed", "some", "none", "usable", "unusable", "host", "+", "8388608", "granted", "refused"].includes(word));
                for (const part of parts) assert((text.includes(part) || text.replace(/,/g, "").includes(part)) || /^02:/.test(part) || part === "0", `${what}: ${part}`);
            }
            assert(Rules.of(run, n).length > 0, `no rule: ${what}`);
        }
    }
    assert(events > 4000, `${events}`);
};

// run, event, and the definitions of the rules behind it
const WHY = [
    ["position-vote", /^@ \d+ tick/, ["announcement", "proposes_at"], "sends proposal"],
    ["position-vote", /^@ \d+ deliver/, ["answers_proposal"], "heard proposal"],
    ["position-vote", /^@ \d+ deliver/, ["counts", "gives_way"], "heard vote a0.0 1 0 refused"],
    ["avoid-lists", /^@ \d+ deliver \S+ manager/, ["is_alive", "Avoids", "tree_part"], "heard link a0.0 unusable"],
    ["manager-restarts", /^@ \d+ restart/, ["manager_restarted"], ""],
    ["manager-restarts", /^@ \d+ deliver manager/, ["hears_hello"], "heard hello"],
];

const an_event_has_its_rules = () => {
    for (const [name, begins, wanted, word] of WHY) {
        const { run } = storedLog(name);
        const n = Array.from({ length: run.count }, (_, at) => at).find(at => begins.test(Journal.text(run, at)) && Journal.text(run, at).includes(word));
        for (const definition of wanted) assert(Why.of(run, n).includes(definition), `${name}: ${Journal.text(run, n)}: ${Why.of(run, n)}`);
        for (const definition of Why.of(run, n)) assert(Rules.stepRow(definition), definition);
    }
    const { run } = storedLog("position-vote");
    const proposal = Array.from({ length: run.count }, (_, at) => at).find(at => Journal.text(run, at).includes("heard proposal"));
    const [rule] = Rules.of(run, proposal);
    assert(rule.says.includes("`answers_proposal`") && /^[A-Z][^`]+: /.test(rule.says) && rule.files.includes("crates/pl_switch_rule/specs/Positions.antt"), JSON.stringify(rule));
};

// Each event between a switch and the manager is drawn on the line between the two, with the word for what is heard; a restart changes its box.
const the_manager_is_in_the_picture = () => {
    for (const name of LOGS) {
        const { run, states } = storedLog(name);
        let state = null;
        for (let n = 0; n < run.count; n++) {
            if (run.kind[n] !== Journal.KIND.event || !At.isOfManager(run, n)) continue;
            state = At.at(states, n + 1, state);
            const { now } = Scene.of(run, state);
            const [sent, to] = run.c[n] === Journal.EVENT.told ? [{ switch: run.a[n] }, { manager: true }] : [{ manager: true }, { switch: run.a[n] }];
            const said = Said.below(run, n).filter(({ verb }) => verb === "says").map(({ words }) => words[0]);
            assert.deepEqual([now.from, now.place, now.control], [sent, to, Said.heard(run, n).kind], `${name}: ${Journal.text(run, n)}`);
            assert.deepEqual(now.told.map(number => Words.switchOf(run, number)), [...new Set(said)]);
        }
    }
    const layout = Layout.of(Fabric.of({ k: 4 }), { width: 880, height: 560 }, new Set(), { hasManager: true });
    assert(layout.manager.y + layout.manager.height / 2 < Math.min(...layout.switches.map(box => box.y - box.height / 2)));
    assert.equal(Layout.of(Fabric.of({ k: 4 }), { width: 880, height: 560 }).manager, null);
};

// What it knows, read once more from the log by its lines: addresses are numbered behind the last report, and what came before the restart is gone.
const what_the_manager_knows_is_what_it_heard = () => {
    const { run } = storedLog("manager-restarts");
    const text = fs.readFileSync(path.join(top, "examples/manager-restarts/expected-watch/log.txt"), "utf8");
    const [before, behind] = [text.slice(0, text.indexOf(" restart\n")), text.slice(text.indexOf(" restart\n"))];
    const numbers = part => [...part.matchAll(/^ {2}does number (\S+) (\d+)$/gm)].map(([, pmac, number]) => [pmac, number]);
    const restart = run.restarts[0];
    const at = entry => Manager.known(run, entry);
    assert.deepEqual([...at(restart - 1).numbers], numbers(before));
    assert.equal(at(restart - 1).places.size, new Set([...before.matchAll(/deliver (\S+) manager\n {2}heard place/g)].map(found => found[1])).size);
    const begun = at(restart + 1);
    assert.deepEqual([begun.epoch, begun.numbers.size, begun.places.size, Manager.missing(run, begun).length], [1, 0, 0, run.fabric.switches.length]);
    const ends = [...behind.matchAll(/@ \d+ deliver (\S+) manager\n {2}heard end 1/g)].map(found => found[1]);
    assert.equal(new Set(ends).size, run.fabric.switches.length);
    const ended = at(run.count);
    assert.deepEqual([...ended.numbers], numbers(behind));
    assert.deepEqual(Manager.missing(run, ended), []);
    const last = Array.from({ length: run.count }, (_, n) => n).find(n => n > restart && Journal.text(run, n).includes(`deliver ${ends[ends.length - 1]} manager\n  heard end 1`));
    const gathering = at(last);
    assert.deepEqual(Manager.missing(run, gathering), [ends[ends.length - 1]]);
    assert.deepEqual([gathering.places.size, gathering.numbers.size], [0, 0]);
    assert(gathering.kept.length > 0 && at(last + 1).kept.length === 0 && at(last + 1).places.size > 0);
    const query = Array.from({ length: run.count }, (_, n) => n).find(n => n > restart && n < last && Journal.text(run, n).includes("manager\n  heard query"));
    assert(Words.sentence(run, query).endsWith(" It keeps this until the last report has ended."), Words.sentence(run, query));
    assert(Why.of(run, query).includes("keeps_word"));
    assert(!Words.sentence(run, last).includes("It keeps this"));
    const rows = new Map(Manager.facts(run, { entry: last }).map(([name, ...parts]) => [name, parts.join()]));
    assert.equal(rows.get("reports"), `${run.fabric.switches.length - 1} of ${run.fabric.switches.length} have ended`);
    assert.equal(rows.get("missing"), ends[ends.length - 1]);
    assert.deepEqual(Stories.find(run, "manager"), { manager: true });
    assert.equal(Stories.find(journalAlone(), "manager"), null);
};
const journalAlone = () => open("examples/four-hosts").run;

// The chart over a log counts control frames and messages to and from the manager, as the log has them line by line.
const the_chart_counts_control_frames = () => {
    const { run, states } = storedLog("manager-restarts");
    const text = fs.readFileSync(path.join(top, "examples/manager-restarts/expected-watch/log.txt"), "utf8");
    const control = (text.match(/^@ \d+ deliver \S+ \d+ \S+ \d+\n {2}heard (?!frame)/gm) || []).length;
    const manager = (text.match(/^@ \d+ deliver (manager \S+|\S+ manager)$/gm) || []).length;
    assert(control > 500 && manager > 100);
    assert.deepEqual([...At.at(states, run.count).messages], [control, manager]);
    const rows = new Map(Chart.of(run).map(({ name, counts }) => [name, counts[counts.length - 1]]));
    assert.deepEqual([rows.get("control frames"), rows.get("to and from the manager")], [control, manager]);
    assert(!Chart.of(open("examples/four-hosts").run).some(({ name }) => name === "control frames"));
};

const a_log_that_is_none_is_refused_with_its_line = () => {
    for (const [text, line] of [["line 1\n@ 1 jump a\n", 2], ["line 1\n@ 1 tick e9.0\n", 2], ["line 1\n@ 1 tick e0.0\n  sends ldm 2 0\nline x\n", 4]]) {
        assert.throws(() => openTexts(TOPOLOGY, text), error => error.cause.line === line, text);
    }
};

// An event of each word that a log has, and the switch or host at which it is drawn: that of `node_of`, or the host; a restart is one of the manager.
const EVENTS = {
    deliver: ["deliver e0.0 2 a0.0 0", { switch: 8 }], tick: ["tick e0.0", { switch: 0 }], fail: ["fail e0.0 a0.0", { switch: 0 }],
    repair: ["repair e0.0 a0.0", { switch: 0 }], lose: ["lose e0.0 2 a0.0 0", { switch: 0 }], move: ["move a e0.1 1", { switch: 1 }],
    start: ["start a", { host: 0 }], send: ["send a", { host: 0 }], raw: ["raw a", { host: 0 }], retry: ["retry a", { host: 0 }],
    join: ["join a 239.1.2.3", { host: 0 }], leave: ["leave a 239.1.2.3", { host: 0 }], restart: ["restart", { manager: true }],
};

const each_event_of_a_log_is_read = () => {
    const rule = fs.readFileSync(path.join(top, "crates/pl_watch/specs/Events.antt"), "utf8");
    const words = [...rule.matchAll(/^event_words .*$/gm)].flatMap(([line]) => [...line.matchAll(/codes "(\w+)"/g)].map(found => found[1]));
    assert.deepEqual(new Set(words.filter(word => word !== "manager")), new Set(Object.keys(EVENTS)));
    for (const [line, place] of Object.values(EVENTS)) {
        const run = openTexts(TOPOLOGY, `line 1\n@ 1 ${line}\n`);
        const { now } = Scene.of(run, At.at(At.run(run), 2));
        assert.deepEqual(now.place, place, line);
        assert.match(Words.sentence(run, 1), /^[A-Za-z][^`]* (e0\.[01]|a0\.0|a|The fabric manager).*\.$|^(e0\.[01]|a0\.0|The fabric manager) [a-z].*\.$|^The next record of a's .*\.$/, line);
    }
};

// A switch that is to avoid something and has a part of a tree, and then hears that the manager begins anew.
const RESTART = `line 1
@ 1 deliver manager e0.0
  heard avoid
  knows avoid + a0.0 1 0
@ 2 deliver manager e0.0
  heard tree 8388608 a0.1 0
  knows tree 8388608 a0.1 0
line 2
@ 3 restart
restarted 1
line 3
@ 4 deliver manager e0.0
  heard hello 1
  knows avoid - a0.0 1 0
  knows tree 8388608
  tells begin 1
  tells place 0 0 0
  tells end 1
line 4
@ 5 deliver e0.0 manager
  heard begin 1
@ 6 deliver e0.0 manager
  heard place 0 0 0
@ 7 deliver e0.0 manager
  heard end 1
  does number 00:00:00:00:00:01 4294967297
@ 8 tick e0.0
`;

const a_restart_is_an_event_of_the_manager = () => {
    const run = openTexts(TOPOLOGY, RESTART);
    const said = step => Words.sentence(run, eventAt(run, step));
    assert.equal(said(3), "The fabric manager restarts: it forgets all that it knows, and what is on its way to it and from it is lost.");
    const { now } = Scene.of(run, At.at(At.run(run), eventAt(run, 3) + 1));
    assert.deepEqual([now.place, now.from, now.note, now.control], [{ manager: true }, null, "restarts", ""]);
    assert.ok(Rules.of(run, eventAt(run, 3))[0].says.includes("`manager_restarted`"));
    assert.ok(Rules.of(run, eventAt(run, 3) + 1)[0].says.includes("`manager_restarted`"));
    const stories = [...run.fabric.switches.map((_, n) => ({ switch: n })), { host: 0 }].flatMap(subject => Stories.of(run, subject));
    assert.ok(!stories.includes(eventAt(run, 3)), "it is of no switch and no host");
    assert.equal(said(4), "e0.0 hears from the fabric manager that it has restarted (restart 1) and knows nothing. "
        + "Now it avoids a0.0 no more for pod 1, position 0; it has no part of the tree of all hosts. "
        + "It tells the fabric manager that its report begins, for restart 1; that it is at level 0 (edge), position 0, pod 0; that its report ends, for restart 1.");
    assert.equal(said(5), "The fabric manager hears from e0.0 that its report begins, for restart 1.");
    assert.equal(said(7), "The fabric manager hears from e0.0 that its report ends, for restart 1. It registers 00:00:00:00:00:01 with number 4,294,967,297.");
};

// A switch forgets nothing at the restart, and what to avoid and its trees when it hears of it (docs/RULES.md, "A manager that begins anew").
const a_switch_forgets_once_it_hears_of_a_restart = () => {
    const run = openTexts(TOPOLOGY, RESTART);
    const knownAfter = step => Said.known(run, 0, eventAt(run, step) + 1);
    const parts = step => [[...knownAfter(step).avoid], [...knownAfter(step).trees]];
    assert.deepEqual(parts(3), [["a0.0 1 0"], [["8388608", ["a0.1"]]]]);
    assert.deepEqual(parts(4), [[], []]);
    assert.deepEqual(parts(8), [[], []]);
};

// A log has the line of the event before the entry that it wrote.
const restarts_of_stored_runs_are_read_as_events = () => {
    let restarts = 0;
    for (const folder of folders().filter(name => /restart/.test(name))) {
        const { run: stored, journal } = open(folder);
        const log = journal.replace(/^restarted (\d+)$/gm, "@ $1 restart\nrestarted $1");
        const run = openTexts(fs.readFileSync(path.join(folder, "topology.toml"), "utf8"), log);
        const events = Array.from({ length: run.count }, (_, n) => n).filter(n => run.kind[n] === Journal.KIND.event);
        const wanted = stored.restarts.map((_, n) => [`@ ${n + 1} restart`, `restarted ${n + 1}`]);
        restarts += events.length;
        assert.equal(run.count - events.length, stored.count, folder);
        assert.deepEqual(events.map(n => [Journal.text(run, n), Journal.text(run, n + 1)]), wanted, folder);
        assert.deepEqual([...At.at(At.run(run), run.count).places], [...At.at(At.run(stored), stored.count).places], folder);
    }
    assert.ok(restarts > 15, `${restarts}`);
};

// The tables of docs/LOG.md of what is heard and known, and the verb of such a line: each form in them is told in words, and not as it stands.
const TABLES = [["Control frames.", "heard"], ["Messages to the manager,", "heard"], ["Messages of the manager,", "heard"], ["What a switch knows:", "knows"]];

const each_kind_of_a_log_has_its_words = () => {
    const page = fs.readFileSync(path.join(top, "docs/LOG.md"), "utf8");
    const rowsOf = head => page.slice(page.indexOf(head)).split("\n\n")[1].split("\n").slice(2);
    const formsOf = row => [...row.split(" | ")[0].matchAll(/`([a-z][^`]+)`/g)].map(found => found[1]);
    const forms = TABLES.flatMap(([head, verb]) => rowsOf(head).flatMap(formsOf).map(form => [verb, form])).filter(([, form]) => form !== "frame NUMBER");
    assert.ok(["begin EPOCH", "end EPOCH", "hello EPOCH"].every(wanted => forms.some(([, form]) => form === wanted)) && forms.length > 30, `${forms}`);
    for (const [verb, form] of forms) {
        const line = form.replace(/\b(P)?MAC\b/g, "00:00:00:00:00:01").replace(/\bIP\b/g, "10.0.0.1");
        const isToManager = TABLES.findIndex(([head]) => page.slice(page.indexOf(head)).split("\n\n")[1].includes(`\`${form}\``)) === 1;
        const said = Words.sentence(openTexts(TOPOLOGY, `line 1\n@ 1 deliver ${isToManager ? "e0.0 manager" : /^(ldm|proposal|vote|unread)/.test(form) ? "a0.0 0 e0.0 2" : "manager e0.0"}\n  ${verb} ${line}\n`), 1);
        assert.ok(!said.includes(`: ${line}.`) && !said.includes(`knows ${line}.`) && !/undefined/.test(said), said);
    }
};

module.exports = {
    each_event_of_a_log_is_read, a_restart_is_an_event_of_the_manager, a_switch_forgets_once_it_hears_of_a_restart, restarts_of_stored_runs_are_read_as_events,
    each_kind_of_a_log_has_its_words, each_event_of_the_stored_logs_is_told_whole, an_event_has_its_rules, the_manager_is_in_the_picture,
    what_the_manager_knows_is_what_it_heard, the_chart_counts_control_frames,
    the_journal_of_a_log_is_its_lines_that_begin_with_a_letter, an_event_says_who_hears_whom, a_control_frame_moves_along_its_link,
    a_switch_shows_what_it_knows_at_that_moment, an_event_is_told_in_a_sentence, a_log_that_is_none_is_refused_with_its_line,
};
