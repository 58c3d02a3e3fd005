"use strict";
// What is read: topologies, journals, frames and scripts.
const assert = require("assert");
const { folders, open, openTexts } = require("./load.js");

const HOSTS = `k = 4
[[host]]
name = "a"
mac = "02:00:00:00:00:0a"
ip = "10.0.0.1"
edge = "e0.0"
port = 0
[[host]]
name = "b"
mac = "02:00:00:00:00:0b"
ip = "10.0.0.2"
edge = "e0.0"
port = 1
`;
const FRAME = `02000000000b02000000000a88b6${"00".repeat(46)}`;
const GRANT = "granted 00:00:00:00:00:01 a e0.0 0\n";
const bytes = text => Uint8Array.from(text.match(/../g), pair => parseInt(pair, 16));

const a_toml_document_is_read = () => {
    const document = Toml.read(`# a comment
title = "a\\tb\\u0041" # behind it
'lit' = 'c:\\x'
"two words".inner = 0x1f
numbers = [1, 2_000, -3, [true, false], ] # of some kinds
far = { x = 1, y.z = "w" }
pi = 3.14
day = 1979-05-27 07:32:00
text = """
one \\
   line"""
[[host]]
name = "a"
[[host]]
name = 'b'
[host.more]
deep = +7
`);
    assert.equal(document.title, "a\tbA");
    assert.equal(document.lit, "c:\\x");
    assert.equal(document["two words"].inner, 31);
    assert.deepEqual(document.numbers, [1, 2000, -3, [true, false]]);
    assert.equal(document.far.y.z, "w");
    assert.equal(document.pi.other, "3.14");
    assert.equal(document.day.other, "1979-05-27 07:32:00");
    assert.equal(document.text, "one line");
    assert.deepEqual(document.host.map(host => host.name), ["a", "b"]);
    assert.equal(document.host[1].more.deep, 7);
};

const what_is_no_toml_is_refused_with_its_line = () => {
    for (const [text, line] of [["k = 4\nk = 5\n", 2], ["k = \n", 1], ["k = 4 5\n", 1], ["\n\nx = \"a\n", 3], ["[[a]\n", 1], ["k = 1\n[k]\nx = 1\n", 2]]) {
        assert.throws(() => Toml.read(text), error => error.line === line, text);
    }
};

const a_wiring_is_a_fat_tree = () => {
    for (const k of [4, 6, 8, 24]) {
        const { switches, links } = Fabric.of({ k });
        const h = k / 2;
        assert.equal(switches.length, 2 * k * h + h * h);
        assert.equal(links.length, 2 * k * h * h);
        switches.forEach((s, n) => assert.equal(Fabric.number({ k }, s.label), n));
        links.forEach((link, n) => {
            assert.equal(Fabric.link({ k }, link.a, link.b), n);
            assert.equal(Fabric.link({ k }, link.b, link.a), n);
            assert.equal(switches[link.b].level, switches[link.a].level + 1);
        });
        const joined = switches.flatMap(a => switches.filter(b => a.number < b.number && Fabric.link({ k }, a.number, b.number) >= 0));
        assert.equal(joined.length, links.length);
        for (const s of switches) assert.equal(s.hostPorts.length, s.level === 0 ? h : 0);
    }
};

const other_ids_and_ports_are_read = () => {
    const { fabric } = open("tests/fabric/other-ids-and-ports").run;
    const at = label => fabric.switches[Fabric.number(fabric, label)];
    assert.equal(at("e0.0").id, 281474976710655);
    assert.equal(at("e1.0").id, 500);
    assert.deepEqual(at("e0.0").hostPorts, [2, 3]);
    assert.equal(at("a0.0").ports[3], Fabric.link(fabric, at("e0.0").number, at("a0.0").number));
    assert.deepEqual(fabric.hosts.map(host => [host.name, host.port]), [["a", 2], ["b", 3], ["c", 0], ["d", 0]]);
};

const a_topology_that_does_not_fit_is_refused = () => {
    for (const text of ["k = 5", "k = 26", "x = 1", "k = 4\nhost = 3", "k = 4\n[[host]]\nname = \"a\"", HOSTS.replace("e0.0", "a0.0"),
        HOSTS.replace("port = 0", "port = 2"), HOSTS.replace("port = 1", "port = 0"), `${HOSTS}[[link]]\na = "e0.0"\nb = "a1.0"\nport_a = 2\nport_b = 0\n`]) {
        assert.throws(() => Fabric.of(Toml.read(text)), Error, text);
    }
};

const each_stored_journal_is_read_and_spelled_again = () => {
    assert(folders().length > 40);
    for (const folder of folders()) {
        const { run, journal } = open(folder);
        const lines = Array.from({ length: run.count }, (_, n) => `${Journal.text(run, n)}\n`);
        assert.equal(lines.join(""), journal, folder);
    }
};

const a_line_that_is_no_entry_is_refused_with_its_number = () => {
    const table = [
        ["nothing\n", 1, "begins no line"],
        ["line 1\n\n", 2, "begins no line"],
        ["line 1\nLine 2\n", 2, "begins no line"],
        ["line\n", 1, "missing"],
        ["line 1 2\n", 1, "too many"],
        ["line 01\n", 1, "none"],
        [`sent 2 a ${FRAME}\n`, 1, "frame 1 is next"],
        [`sent 1 z ${FRAME}\n`, 1, "no host"],
        ["sent 1 a 00\n", 1, "28 at least"],
        [`sent 1 a ${FRAME}0\n`, 1, "even number"],
        [`sent 1 a ${FRAME.toUpperCase()}\n`, 1, "frame has"],
        ["crossed 1 e0.0\n", 1, "not begun"],
        [`sent 1 a ${FRAME}\ncrossed 1 e4.0\n`, 2, "topology does not have"],
        [`sent 1 a ${FRAME}\ncrossed 1 e0.0\ndropped 1 Lost\ncrossed 1 a0.0\n`, 4, "has ended"],
        [`sent 1 a ${FRAME}\ndropped 1 lost\n`, 2, "no cause"],
        ["registered 00:00:00:00:00:01 1\n", 1, "not granted"],
        [`${GRANT}${GRANT}`, 2, "granted before"],
        ["placed e0.0 3 - -\n", 1, "above 2"],
        ["linkdown a0.0 e0.0\n", 1, "order"],
        ["linkdown e0.0 c0.0\n", 1, "no link joins"],
        ["moved a e0.0 2\n", 1, "none for hosts"],
        ["skipped a Tired\n", 1, "reason to skip"],
        ["freed 00:00:00:00:00:01\n", 1, "not granted"],
        [`${GRANT}freed 00:00:00:00:00:01\nfreed 00:00:00:00:00:01\n`, 3, "not granted again"],
        [`${GRANT}freed 00:00:00:00:00:01\nregistered 00:00:00:00:00:01 1\n`, 3, "not granted again"],
        [`${GRANT}registered 00:00:00:00:00:01 1\nregistered 00:00:00:00:00:01 2\n`, 3, "registered before"],
        ["restarted 2\n", 1, "restart 1 is next"],
    ];
    for (const [text, line, what] of table) {
        assert.throws(() => openTexts(HOSTS, text), error => error.message.includes(`line ${line}: `) && error.message.includes(what), text);
    }
};

// What comes to the fabric later has words that are not known here: they are shown, and the rest is read as before.
const a_line_of_another_kind_is_shown_as_it_is = () => {
    const lines = ["line 1", `sent 1 a ${FRAME}`, "paused 3 e0.0 - x:y", "crossed 1 e0.0", "resumed"];
    const run = openTexts(HOSTS, `${lines.join("\n")}\n`);
    assert.deepEqual(lines.map((_, n) => Journal.text(run, n)), lines);
    assert.deepEqual([2, 4].map(n => run.kind[n]), [Journal.KIND.other, Journal.KIND.other]);
    const said = text => `A line of a kind that this page does not know, of which it draws nothing: ${text}.`;
    for (const n of [2, 4]) {
        assert.equal(Words.sentence(run, n), said(lines[n]));
        assert.deepEqual([Rules.of(run, n), Rules.look(run, n), Journal.frameOf(run, n)], [[], "", 0]);
        const { now } = Scene.of(run, At.at(At.run(run), n + 1));
        assert.deepEqual([now.place, now.note], [null, ""]);
    }
    assert.equal(At.at(At.run(run), 5).flying.get(1), 3);
    assert.equal(openTexts(HOSTS, "line 1\npaused").count, 2);
};

const an_address_is_freed_granted_and_registered_again = () => {
    const free = "freed 00:00:00:00:00:01\n";
    const run = openTexts(HOSTS, `${GRANT}registered 00:00:00:00:00:01 1\nrestarted 1\nregistered 00:00:00:00:00:01 4294967297\n${free}${GRANT}`);
    assert.deepEqual(run.addresses.map(({ granted, freed, earlier }) => [granted, freed, earlier]), [[0, 4, -1], [5, -1, 0]]);
    const numberAt = n => (Journal.registrationAt(run, run.addresses[0], n) || { number: 0 }).number;
    assert.deepEqual([1, 2, 3, 4].map(numberAt), [0, 1, 0, 4294967297]);
    assert.equal(Journal.grantAt(run, 1, 5), run.addresses[0]);
    assert.equal(Journal.grantAt(run, 1, 6), run.addresses[1]);
    assert.equal(Journal.grantAt(run, 1, 0), null);
};

const a_last_line_needs_no_newline = () => {
    const run = openTexts(HOSTS, "line 1\nsettled 2");
    assert.equal(run.count, 2);
    assert.equal(Journal.text(run, 1), "settled 2");
    assert.equal(openTexts(HOSTS, "").count, 0);
};

const a_pseudo_address_has_four_parts = () => {
    assert.deepEqual(Frames.pseudo(0x00ff02030004), { pod: 255, position: 2, port: 3, number: 4 });
    assert.deepEqual(Frames.pseudo(0xffffffffffff), { pod: 65535, position: 255, port: 255, number: 65535 });
    assert.equal(Frames.pseudoText(0x000100000001), "1.0.0.1");
    assert.equal(Frames.macText(0x02000000000a), "02:00:00:00:00:0a");
};

const headers_of_frames_are_read = () => {
    const request = Frames.read(bytes("ffffffffffff02000000000a0806000108000604000102000000000a0a0000010000000000000a000002"));
    assert.equal(request.destination, 0xffffffffffff);
    assert.deepEqual(request.arp, { opcode: 1, senderMac: 0x02000000000a, senderIp: 0x0a000001, targetMac: 0, targetIp: 0x0a000002 });
    const report = Frames.read(bytes("01005e01020302000000000a08004600002000000000010229d30a000001ef010203940400001600f8faef010203"));
    assert.deepEqual(report.ip.igmp, [{ group: 0xef010203, join: true }]);
    assert.equal(Frames.groupOf(report.destination), 66051);
    assert.equal(Frames.groupOf(0xffffffffffff), null);
    assert.equal(Frames.read(bytes(FRAME)).arp, undefined);
    assert.equal(Frames.read(bytes(`${FRAME.slice(0, 24)}0806${"00".repeat(46)}`)).arp.refused, "it is not of Ethernet and IPv4");
};

const membership_reports_of_several_groups_are_read = () => {
    const ip = "460000380000000001020000" + "0a000001e000001694040000";
    const records = ["04000000ef010203", "03000000ef010204", "01000000ef010205", "04000000e0000001", "03000001ef0102060a000001"];
    const frame = Frames.read(bytes(`01005e00001602000000000a0800${ip}2200000000000005${records.join("")}`));
    assert.deepEqual(frame.ip.igmp, [{ group: 0xef010203, join: true }, { group: 0xef010204, join: false }]);
};

const ports_of_whole_packets_are_read = () => {
    const packet = fragment => `02000000000b02000000000a08004500001c0000${fragment}4011 0000 0a0000010a000002 0035 1f90 0008 0000`.replace(/ /g, "");
    const { ip } = Frames.read(bytes(packet("0000")));
    assert.deepEqual([ip.protocol, ip.sourcePort, ip.destinationPort], [17, 53, 8080]);
    assert.equal(Frames.read(bytes(packet("2000"))).ip.sourcePort, undefined);
};

const each_line_of_the_stored_scripts_has_a_sentence = () => {
    for (const folder of folders()) {
        for (const line of open(folder).script) {
            const words = Script.wordsOf(line);
            assert.equal(Script.sentence(line) !== "", words.length > 0, `${folder}: ${line}`);
        }
    }
    // Which is the newest that the host was granted may be another one: behind a restart addresses are registered in the order of the reports.
    assert.equal(Script.sentence("expect address d 00:01:00:00:00:01"), "it is checked that the address of host d that was registered last is 00:01:00:00:00:01");
    assert.equal(Script.sentence("  move\td e0.1 1 # away"), "host d moves to port 1 of e0.1");
    assert.deepEqual(Script.read("a\r\nb\n"), ["a", "b"]);
};

const files_are_known_by_name_or_first_word = () => {
    const kind = (name, text) => Files.kindOf(name, Buffer.from(text));
    assert.equal(kind("topology.toml", ""), "topology");
    assert.equal(kind("journal.txt", ""), "journal");
    assert.equal(kind("script", ""), "script");
    assert.equal(kind("first", "# mine\nstart all\n"), "script");
    assert.equal(kind("first", "line 1\nsent 1 a 00\n"), "journal");
    assert.equal(kind("README.md", "line by line"), null);
    assert.equal(kind("summary", "k 4 switches 20\n"), null);
};

module.exports = {
    a_toml_document_is_read, what_is_no_toml_is_refused_with_its_line, a_wiring_is_a_fat_tree, other_ids_and_ports_are_read,
    a_topology_that_does_not_fit_is_refused, each_stored_journal_is_read_and_spelled_again,
    a_line_that_is_no_entry_is_refused_with_its_number, a_line_of_another_kind_is_shown_as_it_is, an_address_is_freed_granted_and_registered_again, a_last_line_needs_no_newline, a_pseudo_address_has_four_parts,
    headers_of_frames_are_read, membership_reports_of_several_groups_are_read, ports_of_whole_packets_are_read,
    each_line_of_the_stored_scripts_has_a_sentence, files_are_known_by_name_or_first_word,
};
