"use strict";
// What is said of entries and of subjects, and what is drawn: functions of the journal and the topology.
const assert = require("assert");
const { folders, shortFolders, open, openTexts } = require("./load.js");

// run, line of the journal, and the sentence that says what it means
const SENTENCES = [
    ["examples/four-hosts", 1, "Line 1 of the script (start a): host a announces itself by an ARP request for its own address."],
    ["examples/four-hosts", 2, "Host a sends frame 1, to all: an ARP request for its own address, 10.0.0.1."],
    ["examples/four-hosts", 4, "Switch e0.0 receives frame 1 from its host a."],
    ["examples/four-hosts", 5, "Switch e0.0 takes frame 1 (an ARP request for its own address, 10.0.0.1): it is for the switch itself."],
    ["examples/four-hosts", 9, "Switch e0.0 knows of its place now: level 0 (edge), position 0, pod not known."],
    ["examples/four-hosts", 10, "Host a gets the pseudo address 00:00:00:00:00:01 at port 0 of e0.0: pod 0, position 0, port 0, number 1."],
    ["examples/four-hosts", 12, "The fabric manager has learnt 00:00:00:00:00:01 of host a, with number 1."],
    ["examples/four-hosts", 15, "A settle line ends after 6 rounds: the fabric is settled."],
    ["examples/four-hosts", 58, "Switch e0.0 makes frame 6, to a's pseudo address: an ARP reply: 10.0.0.2 is at 00:00:00:01:00:01."],
    ["examples/four-hosts", 59, "Frame 6 starts its way at e0.0."],
    ["examples/four-hosts", 61, "Host a sends frame 7, to b's pseudo address: 60 bytes of type 0x88b6."],
    ["examples/four-hosts", 89, "Switch a0.0 receives frame 13, on its way up from e0.0."],
    ["examples/four-hosts", 91, "Switch a1.0 receives frame 13, on its way down from c0.0."],
    ["examples/four-hosts", 93, "Frame 13 arrives at host d: 60 bytes of type 0x88b6. It crossed 5 switches: e0.0, a0.0, c0.0, a1.0, e1.0."],
    ["tests/fabric/group", 96, "Host c sends frame 14, to routed group 66051: an IGMP report: it joins 239.1.2.3."],
    ["tests/fabric/held-frames", 51, "A record of a's capture is not played: HoldFull, 64 frames wait for that address already."],
    ["tests/fabric/random-02", 169, "A settle line ends and the fabric is not settled: 0 things that stand against it wait."],
    ["tests/fabric/link-fails-with-frames", 103, "The link between e0.0 and a0.0 fails."],
    ["tests/fabric/link-fails-with-frames", 104, "Frame 14 ends after switch e0.0, which it crossed last: LinkDown, the link that it was put on is failed, or failed while it waited there."],
    ["tests/fabric/link-fails-with-frames", 107, "The link between e0.0 and a0.0 is repaired."],
    ["tests/fabric/group", 111, "At c1.1 frame 16 goes one more way: frame 17 is its copy."],
    ["tests/fabric/group", 133, "Frame 20 ends after switch e0.0, which it crossed last: NoMember, nobody is reached there who has joined its group."],
    ["tests/fabric/move-twice", 96, "Host d moves to port 1 of e0.1."],
    ["tests/fabric/move-twice", 131, "Host d has moved on: frame 18, for 00:01:00:00:00:01, goes on to its newer address 00:01:00:01:00:01 (pod 1, position 0, port 1, number 1)."],
    ["tests/fabric/move-twice", 132, "The fabric manager took an earlier address of host d for the newer one: frame 18, for 00:01:00:01:00:01, goes on to 00:00:01:01:00:01 (pod 0, position 1, port 1, number 1)."],
    ["tests/fabric/move-twice", 133, "Frame 18 starts again at e1.0, for its new address."],
];

const each_kind_of_entry_has_its_sentence = () => {
    for (const [name, line, wanted] of SENTENCES) {
        const { run, script } = open(name);
        assert.equal(Words.sentence(run, line - 1, script), wanted, `${name}, line ${line}: ${Journal.text(run, line - 1, 60)}`);
    }
};

const each_entry_of_the_stored_runs_has_a_sentence = () => {
    const kinds = new Set();
    for (const folder of folders()) {
        const { run, script } = open(folder);
        for (let n = 0; n < run.count; n++) {
            kinds.add(run.kind[n]);
            const text = Words.sentence(run, n, script);
            assert(/^[A-Z].*\.$/s.test(text) && !/undefined|null|NaN/.test(text), `${folder}: ${text}`);
            if (Journal.hasFrame(run, n)) {
                const rows = Words.header(run, Frames.read(Journal.frame(run, n)), n + 1);
                assert(rows.length >= 3 && !/undefined|null|NaN/.test(rows.join(" ")), `${folder}: ${rows}`);
            }
        }
    }
    assert.equal(kinds.size, Journal.WORDS.length);
    for (const cause of Journal.CAUSES) assert(Words.CAUSE[cause]);
    for (const skip of Journal.SKIPS) assert(Words.SKIP[skip]);
};

const an_address_is_said_as_the_journal_has_it_so_far = () => {
    const { run } = open("examples/four-hosts");
    assert.equal(Words.who(run, 0x02000000000a, 0), "own address of a");
    assert.equal(Words.who(run, 0xffffffffffff, 0), "to all");
    assert.equal(Words.who(run, 1, 9), "granted to nobody so far; as a pseudo address: pod 0, position 0, port 0, number 1");
    assert.equal(Words.who(run, 1, 10), "pseudo address of a: pod 0, position 0, port 0, number 1");
    assert.equal(Words.who(run, 0x01005e010203, 0), "routed group 66051");
    assert.equal(Words.who(run, 0x01005e000001, 0), "a group that is flooded");
};

const spelled = (run, way) => way.map(place => (place.host === undefined ? Words.switchOf(run, place.switch) : Words.hostOf(run, place.host))).join(" ");

// run, entries that have happened, the frame in focus, its way, and what is noted
const SCENES = [
    ["examples/four-hosts", 0, 0, "", ""],
    ["examples/four-hosts", 2, 1, "a", "sent"],
    ["examples/four-hosts", 5, 1, "a e0.0", "taken"],
    ["examples/four-hosts", 58, 6, "e0.0", "made"],
    ["examples/four-hosts", 91, 13, "a e0.0 a0.0 c0.0 a1.0", ""],
    ["examples/four-hosts", 93, 13, "a e0.0 a0.0 c0.0 a1.0 e1.0 d", "\u2713 arrived"],
    ["examples/four-hosts", 94, 0, "", ""],
    ["tests/fabric/group", 117, 17, "a e0.0 a0.1 c1.1 a1.1 e1.0 d", "\u2713 arrived"],
    ["tests/fabric/group", 133, 20, "a e0.0", "\u2715 NoMember"],
    ["tests/fabric/move-twice", 132, 18, "a e0.0 a0.0 c0.0 a1.0 e1.0", "redirected"],
];

const what_is_drawn_follows_from_the_journal = () => {
    for (const [name, entry, focus, way, note] of SCENES) {
        const { run, states } = open(name);
        const scene = Scene.of(run, At.at(states, entry));
        assert.equal(scene.focus, focus, `${name} at ${entry}`);
        assert.equal(spelled(run, scene.way), way, `${name} at ${entry}`);
        assert.equal(scene.now ? scene.now.note : "", note, `${name} at ${entry}`);
    }
};

// Each step of a drawn way is a link of the wiring, or leads from a host or to one, or begins anew where a host moved meanwhile.
const ways_go_by_links_of_the_wiring = () => {
    for (const folder of folders()) {
        const { run } = open(folder);
        for (let n = 0; n < run.count; n++) {
            if (Journal.frameOf(run, n) === 0) continue;
            const way = Scene.wayOf(run, n);
            for (let i = 1; i < way.length; i++) {
                const [a, b] = [way[i - 1], way[i]];
                assert(a.host !== undefined || b.host !== undefined || Fabric.link(run.fabric, a.switch, b.switch) >= 0, `${folder}: ${spelled(run, way)}`);
            }
        }
    }
};

// A journal of the right form may say what no fabric does. A way that no link leads is said and not drawn.
const a_way_without_a_link_is_not_drawn = () => {
    const topology = 'k = 4\n[[host]]\nname = "a"\nmac = "02:00:00:00:00:0a"\nip = "10.0.0.1"\nedge = "e0.0"\nport = 0\n';
    const run = openTexts(topology, `sent 1 a ${"00".repeat(14)}\ncrossed 1 e0.0\ncrossed 1 e1.0\ncrossed 1 a1.1\n`);
    const scene = Scene.of(run, At.at(At.run(run), 4));
    assert.equal(spelled(run, scene.way), "a e0.0 e1.0 a1.1");
    assert.deepEqual(scene.steps.map(step => spelled(run, step)), ["a e0.0", "e1.0 a1.1"]);
    assert.equal(Scene.of(run, At.at(At.run(run), 3)).now.from, null);
    assert.equal(Words.sentence(run, 2), "Switch e1.0 receives frame 1, which was at e0.0; no link joins the two.");
};

// A frame that a host sent stays where the host stood then, though the host has moved on.
const a_frame_is_drawn_where_its_host_stood = () => {
    const { run, states } = open("tests/fabric/move-twice");
    const k = 4;
    const e01 = Fabric.number(run.fabric, "e0.1");
    const [first, second] = [run.begin[14], run.begin[17]];
    assert.deepEqual(Scene.wayOf(run, first), [{ host: 3, spot: e01 * k + 1 }]);
    assert.deepEqual(Scene.wayOf(run, second)[0], { switch: Fabric.number(run.fabric, "e1.0") });
    const end = At.at(states, run.count);
    assert.deepEqual(Scene.wayOf(run, At.newest(run, end, 14)), [{ host: 3, spot: e01 * k + 1 }, { switch: e01 }]);
    assert.notEqual(end.spots[3], e01 * k + 1);
};

const each_frame_in_flight_is_drawn_once = () => {
    for (const folder of shortFolders()) {
        const { run, states } = open(folder);
        let state = null;
        for (let n = 0; n <= run.count; n++) {
            state = At.at(states, n, state);
            const drawn = [...Scene.of(run, state).flying.values()].flat();
            assert.deepEqual(drawn.sort((a, b) => a - b), [...state.flying.keys()].sort((a, b) => a - b));
        }
    }
};

const the_story_of_a_frame_is_its_lines = () => {
    for (const folder of folders()) {
        const { run, journal } = open(folder);
        const lines = journal.split("\n");
        for (let id = 1; id < run.begin.length; id++) {
            if (run.parent[id] > 0) continue;
            const wanted = lines.flatMap((line, n) => (new RegExp(`^(sent|made|crossed|redirected|copied|arrived|taken|dropped) ${id} `).test(line) ? [n] : []));
            assert.deepEqual(Stories.of(run, { frame: id }), wanted, `${folder}: frame ${id}`);
        }
    }
};

const linesOf = (name, subject) => {
    const { run, journal } = open(name);
    const lines = journal.split("\n");
    return Stories.of(run, subject(run)).map(n => lines[n].replace(/ [0-9a-f]{28,}$/, ""));
};

const the_story_of_a_copy_begins_with_what_it_is_a_copy_of = () => {
    assert.deepEqual(linesOf("tests/fabric/group", () => ({ frame: 17 })), ["sent 16 a", "crossed 16 e0.0", "crossed 16 a0.1", "crossed 16 c1.1",
        "copied 16 17", "crossed 17 a1.1", "crossed 17 e1.0", "arrived 17 d"]);
};

const the_story_of_a_host_is_what_befalls_it = () => {
    const wanted = ["sent 4 b", "granted 00:00:00:01:00:01 b e0.0 1", "registered 00:00:00:01:00:01 4", "arrived 7 b"];
    assert.deepEqual(linesOf("examples/four-hosts", run => ({ host: run.fabric.names.get("b") })), wanted);
};

const the_story_of_a_switch_is_what_happens_at_it = () => {
    assert.deepEqual(linesOf("examples/four-hosts", run => ({ switch: Fabric.number(run.fabric, "a1.0") })),
        ["placed a1.0 1 - -", "placed a1.0 1 - 1", "crossed 13 a1.0"]);
    assert.deepEqual(linesOf("examples/four-hosts", run => ({ switch: Fabric.number(run.fabric, "e1.0") })),
        ["crossed 3 e1.0", "taken 3 e1.0", "placed e1.0 0 - -", "placed e1.0 0 0 -", "granted 00:01:00:00:00:01 d e1.0 0", "placed e1.0 0 0 1",
            "crossed 13 e1.0", "arrived 13 d"]);
};

const subjects_are_found_by_their_names = () => {
    const { run } = open("examples/four-hosts");
    assert.deepEqual(Stories.find(run, "e0.0"), { switch: 0 });
    assert.deepEqual(Stories.find(run, " a "), { host: 0 });
    assert.deepEqual(Stories.find(run, "10.0.0.3"), { host: 2 });
    assert.deepEqual(Stories.find(run, "00:01:00:00:00:01"), { host: 3 });
    assert.deepEqual(Stories.find(run, "02:00:00:00:00:0B"), { host: 1 });
    assert.deepEqual(Stories.find(run, "13"), { frame: 13 });
    assert.deepEqual(Stories.find(run, "#13"), { frame: 13 });
    for (const none of ["14", "0", "e4.0", "z", ""]) assert.equal(Stories.find(run, none), null);
};

const facts_are_those_of_the_entry = () => {
    const { run, states } = open("tests/fabric/move-twice");
    const text = (entry, subject) => Facts.of(run, At.at(states, entry), subject).map(row => row.map(part => part.text || part).join(" "));
    const d = { host: run.fabric.names.get("d") };
    assert(text(95, d).includes("stands at port 0 of e1.0"));
    assert(text(97, d).includes("stands at port 1 of e0.1"));
    assert(text(97, d).includes("00:01:00:00:00:01 port 0 of e1.0, registered as 3"));
    assert(!text(99, d).some(line => line.startsWith("00:00:01:01:00:01")));
    assert(text(100, d).includes("00:00:01:01:00:01 port 1 of e0.1, not registered"));
    const frame = { frame: 18 };
    assert.deepEqual(text(119, frame), ["frame has not begun"]);
    assert(text(132, frame).includes("present address 00:00:01:01:00:01 pseudo address of d: pod 0, position 1, port 1, number 1"));
    assert(text(161, frame).includes("is dropped: HostGone"));
    assert(text(161, frame).includes("crossed e0.0 a0.0 c0.0 a1.0 e1.0 e1.0 a1.1 c1.1 a0.1 e0.1"));
    const e = { switch: Fabric.number(run.fabric, "e1.0") };
    assert(text(132, e).includes("frames 16 17 18"));
    assert(text(132, e).includes("placed yes"));
};

// Nothing overlaps in the drawing, whether pods are folded or open, and each port for hosts has its place.
const a_fabric_is_laid_out_without_overlaps = () => {
    for (const k of [4, 6, 8, 10, 24]) {
        const fabric = Fabric.of({ k });
        for (const [width, height] of [[360, 380], [390, 390], [844, 280], [883, 560], [1325, 830]]) {
            for (const open of [[], [1], [...Array(k).keys()]]) {
                const layout = Layout.of(fabric, { width, height }, new Set(open));
                assert.equal(layout.cells.size, (k * k * k) / 4);
                assert.equal(layout.folded.length, layout.folds ? k - open.length : 0);
                const boxes = [...new Set([...layout.switches, ...layout.cells.values()])].sort((a, b) => a.y - b.y || a.x - b.x);
                const what = `k ${k} at ${width}, ${open.length} open`;
                for (let n = 1; n < boxes.length; n++) {
                    const [a, b] = [boxes[n - 1], boxes[n]];
                    if (a.y === b.y) assert(b.x - a.x >= (a.width + b.width) / 2, what);
                }
                for (const box of boxes) {
                    assert(box.x >= box.width / 2 && box.x + box.width / 2 <= layout.width && box.y + box.height / 2 <= layout.height, what);
                }
            }
        }
    }
};

// A fabric folds where its switches could not be read: not that of k = 4 or 8 on a desk, but those of k = 8 and 24 on a telephone.
const pods_fold_where_they_would_be_too_narrow = () => {
    const folds = (k, width) => Layout.of(Fabric.of({ k }), { width, height: 500 }).folds;
    const table = [[4, 360, false], [4, 1920, false], [8, 883, false], [8, 390, true], [24, 390, true], [24, 1920, true]];
    for (const [k, width, wanted] of table) assert.equal(folds(k, width), wanted, `k ${k} at ${width}`);
};

module.exports = {
    each_kind_of_entry_has_its_sentence, each_entry_of_the_stored_runs_has_a_sentence, an_address_is_said_as_the_journal_has_it_so_far,
    what_is_drawn_follows_from_the_journal, a_way_without_a_link_is_not_drawn, a_frame_is_drawn_where_its_host_stood, ways_go_by_links_of_the_wiring, each_frame_in_flight_is_drawn_once,
    the_story_of_a_frame_is_its_lines, the_story_of_a_copy_begins_with_what_it_is_a_copy_of, the_story_of_a_host_is_what_befalls_it,
    the_story_of_a_switch_is_what_happens_at_it, subjects_are_found_by_their_names, facts_are_those_of_the_entry,
    a_fabric_is_laid_out_without_overlaps, pods_fold_where_they_would_be_too_narrow,
};
