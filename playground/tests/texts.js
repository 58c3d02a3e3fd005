"use strict";
// What the page does with texts and bytes: links, captures, frames that are made, hints, words that complete and colour.
const assert = require("assert");
const { execFileSync } = require("child_process");
const fs = require("fs");
const path = require("path");
const zlib = require("zlib");
const { top, filesOf } = require("./load.js");

const sample = () => ({
    ...Scenario.empty(), title: "<b>a</b>", topology: "k = 4\n", script: "settle 64 # \u00e9\n", captures: new Map([["a.pcap", Uint8Array.of(0, 1, 255)]]),
});

exports.scenario_goes_through_a_link = async () => {
    const found = await Scenario.ofLink(await Scenario.toLink(sample()));
    assert.deepStrictEqual({ ...found }, { ...sample() });
    assert.strictEqual(await Scenario.ofLink("#entry=7&story=a"), null);
};

exports.links_that_are_refused = async () => {
    const link = await Scenario.toLink(sample());
    const refused = (end, pattern) => assert.rejects(() => Scenario.ofLink(end), pattern);
    await refused(link.replace("#play=1.", "#play=2."), /newer version/);
    await refused(link.slice(0, -20), /damaged/);
    await refused(`${link.slice(0, 40)}AAAA${link.slice(44)}`, /damaged/);
    await refused("#play=1.", /damaged/);
    await refused("#play=1.<script>", /damaged/);
    const packed = given => `#play=1.${zlib.gzipSync(JSON.stringify(given)).toString("base64url")}`;
    const good = Scenario.toLetters(sample());
    await refused(packed({ ...good, version: 9 }), /newer version/);
    await refused(packed({ ...good, script: 7 }), /no script/);
    await refused(packed({ ...good, captures: { "../../a": "" } }), /name that a topology cannot have/);
    await refused(packed({ ...good, captures: { "a\" onerror=\"x": "" } }), /name that a topology cannot have/);
    await refused(packed({ ...good, captures: { "a.pcap": "%%%" } }), /no bytes/);
    await refused(packed([]), /no version/);
    await refused(packed(null), /no scenario/);
    assert.strictEqual((await Scenario.ofLink(packed({ ...good, command: "__proto__" }))).command, "run");
};

// what would unpack to more is refused: by what it says of itself, and where that is a lie, by what comes
exports.link_that_is_too_large = async () => {
    const large = zlib.gzipSync(Buffer.alloc(Scenario.MOST_LINK + 1));
    const lying = Buffer.from(large);
    lying.writeUInt32LE(10, lying.length - 4);
    for (const bytes of [large, lying]) {
        assert.ok(bytes.length < 10000);
        await assert.rejects(() => Scenario.ofLink(`#play=1.${bytes.toString("base64url")}`), /unpacks to more than|damaged/);
    }
    await assert.rejects(() => Bytes.unpacked(new Uint8Array(lying), 1 << 20), /unpacks to more than/);
};

exports.archives = async () => {
    const files = [["topology.toml", Bytes.ofText("k = 4\n")], ["captures/a.pcap", Uint8Array.of(1, 2, 3)], ["empty", new Uint8Array(0)]];
    const archive = Buffer.from(Bytes.zip(files));
    const script = "import io, sys, zipfile\nz = zipfile.ZipFile(io.BytesIO(sys.stdin.buffer.read()))\nassert z.testzip() is None\nfor n in z.namelist(): print(n, z.read(n).hex())";
    let printed;
    try {
        printed = execFileSync("python3", ["-c", script], { input: archive }).toString();
    } catch (error) {
        if (error.code === "ENOENT") return "no python3 to read it";
        throw error;
    }
    assert.strictEqual(printed, "topology.toml 6b203d20340a\ncaptures/a.pcap 010203\nempty \n");
    return undefined;
};

// ---- captures

exports.captures_of_examples = () => {
    const records = name => Capture.read(filesOf(path.join(top, "examples", name)).get(`captures/${name === "wireshark" ? "a-in.pcapng" : "a-in.pcap"}`));
    const [plain, blocks] = [records("four-hosts"), records("wireshark")];
    assert.deepStrictEqual([plain.format, plain.records.length, blocks.format, blocks.records.length], ["libpcap", 3, "pcapng", 3]);
    plain.records.forEach(({ bytes }, n) => assert.deepStrictEqual([...bytes], [...blocks.records[n].bytes]));
    const names = new Map([[0x02000000000a, "a"], [0x02000000000b, "b"]]);
    assert.match(Capture.sentence(plain.records[0], names), /^a to b: /);
    const again = Capture.read(Capture.write(plain.records));
    assert.deepStrictEqual(again.records.map(({ bytes }) => [...bytes]), plain.records.map(({ bytes }) => [...bytes]));
};

// where the program refuses a stored capture, the page says so too, at the same byte
exports.captures_that_are_refused = () => {
    let count = 0;
    for (const parent of ["tests/refused", "tests/pcapng"]) {
        for (const name of fs.readdirSync(path.join(top, parent))) {
            const error = path.join(top, parent, name, "expected", "error");
            const found = fs.existsSync(error) && /bad capture of host number (\d+) at byte (\d+): (\w+)/.exec(fs.readFileSync(error, "utf8"));
            if (!found || ["BadVersion", "BadTrailer"].includes(found[3])) continue;
            const files = filesOf(path.join(top, parent, name));
            const document = Toml.read(Bytes.textOf(files.get("topology.toml")));
            const { refused } = Capture.read(files.get(`captures/${document.host[Number(found[1])].capture}`));
            assert.ok(refused, `${name} is refused`);
            assert.strictEqual(refused.at, Number(found[2]), name);
            count++;
        }
    }
    assert.ok(count > 8, `${count} alone`);
    return `${count} captures`;
};

// ---- frames that are made

const HOSTS = [{ mac: "02:00:00:00:00:0a", ip: "10.0.0.1" }, { mac: "02:00:00:00:00:0b", ip: "10.0.0.2" }];
const wish = (kind, data = "hello") => ({ kind, group: "239.1.2.3", sourcePort: 5000, destinationPort: 7000, data: [...Bytes.ofText(data)] });

const total = bytes => {
    let sum = 0;
    for (let at = 0; at < bytes.length; at += 2) sum += bytes[at] << 8 | (bytes[at + 1] || 0);
    while (sum > 0xffff) sum = (sum & 0xffff) + (sum >>> 16);
    return sum;
};

exports.frames_by_hand = () => {
    const hex = (kind, data) => Buffer.from(Maker.frame(wish(kind, data), ...HOSTS, 1)).toString("hex");
    assert.strictEqual(hex("arp"), "ffffffffffff02000000000a0806" + "000108000604000102000000000a0a0000010000000000000a000002" + "00".repeat(18));
    assert.ok(hex("udp").startsWith("02000000000b02000000000a0800" + "450000210001400040112" + "6c90a0000010a0000021388" + "1b58000d"), hex("udp"));
    assert.ok(hex("group").startsWith("01005e01020302000000000a0800"));
    assert.strictEqual(hex("icmp", "").slice(0, 28 + 40 + 16).slice(-16), "0800f7fd00010001");
};

// RFC 1071: the sum over what a checksum covers is all ones
exports.checksums = () => {
    for (const kind of ["udp", "tcp", "icmp", "group"]) {
        for (const data of ["", "x", "hello", "\u00ff".repeat(41)]) {
            const frame = Maker.frame(wish(kind, data), ...HOSTS, 7);
            const length = frame[16] << 8 | frame[17];
            assert.strictEqual(total(frame.slice(14, 34)), 0xffff, `${kind}: the header of IPv4`);
            const body = frame.slice(34, 14 + length);
            const before = kind === "icmp" ? [] : [...frame.slice(26, 34), 0, frame[23], body.length >> 8, body.length & 255];
            assert.strictEqual(total([...before, ...body]), 0xffff, `${kind} with ${data.length} letters`);
            assert.ok(frame.length >= 60);
        }
    }
};

exports.wishes_that_are_refused = () => {
    const refused = (changed, count, pattern) => assert.throws(() => Maker.frames({ ...wish("udp"), ...changed }, ...HOSTS, count), pattern);
    refused({ kind: "sctp" }, 1, /kind/);
    refused({ sourcePort: 65536 }, 1, /port/);
    refused({ destinationPort: NaN }, 1, /port/);
    refused({ kind: "group", group: "10.0.0.1" }, 1, /239\.1\.2\.3/);
    refused({ kind: "group", group: "239.1.2.999" }, 1, /239\.1\.2\.3/);
    refused({ data: new Array(1401).fill(0) }, 1, /1400/);
    refused({}, 0, /1,000/);
    refused({}, 1001, /1,000/);
};

// ---- hints: the page says what the command line says

// What a reader of TOML says of its own is another text in both; the lines that are shown, and what follows from them, are the same.
const compared = lines => lines.filter(line => !/^ +\^$/.test(line)).map(line => (line.startsWith("hint: ") ? line.split(": ").slice(2).join(": ") : line));

exports.hints_of_the_command_line = () => {
    let text;
    try {
        text = execFileSync("python3", [path.join(__dirname, "hint_cases.py")], { maxBuffer: 1 << 26 }).toString();
    } catch (error) {
        if (error.code === "ENOENT") return "no python3 to compare with";
        throw error;
    }
    const cases = JSON.parse(text);
    for (const { name, status, said, words, files, expected } of cases) {
        Python.files = new Map(Object.entries(files).map(([file, letters]) => [file, Bytes.ofLetters(letters)]));
        const lines = [...Hints.hints(status, said, words)];
        if (said.includes("NotToml")) assert.deepStrictEqual(compared(lines), compared(expected), name);
        else assert.deepStrictEqual(lines, expected, name);
    }
    assert.ok(cases.length > 150);
    return `${cases.length} mistakes`;
};

exports.hints_are_of_these_sources = () => {
    try {
        const made = execFileSync(path.join(top, "playground", "translate"), ["--print"], { maxBuffer: 1 << 26 }).toString();
        assert.ok(made === fs.readFileSync(path.join(top, "playground", "hints.js"), "utf8"), "playground/hints.js is behind tools/explain: playground/translate makes it again");
    } catch (error) {
        if (error.code !== "ENOENT") throw error;
    }
};

// ---- words

const TOPOLOGY = 'k = 4\n[[host]]\nname = "a"\nmac = "02:00:00:00:00:0a"\nip = "10.0.0.1"\nedge = "e0.0"\nport = 0\n[[host]]\nname = "web-1"\nmac = "02:00:00:00:00:0b"\nip = "10.0.0.2"\nedge = "e0.1"\nport = 0\n';

exports.words_that_complete = () => {
    const topology = Language.topologyOf(TOPOLOGY);
    const words = before => Language.completeScript(before, topology);
    assert.ok(words("se").includes("send") && words("se").includes("settle"));
    assert.deepStrictEqual(words("start "), ["a", "web-1", "all"]);
    assert.deepStrictEqual(words("fail e0.0 "), ["a0.0", "a0.1"]);
    assert.ok(words("move a ").includes("e3.1"));
    assert.deepStrictEqual(words("expect "), ["arrived", "dropped", "address", "settled"]);
    assert.ok(words("expect dropped ").includes("LinkDown"));
    assert.deepStrictEqual(words("settle "), []);
    const lines = TOPOLOGY.split("\n");
    assert.ok(Language.completeTopology("ca", lines, 7, topology).includes("capture"));
    assert.deepStrictEqual(Language.completeTopology('edge = "e0', lines, 5, topology).slice(0, 2), ["e0.0", "e0.1"]);
};

exports.lines_that_are_wrong = () => {
    const topology = Language.topologyOf(TOPOLOGY);
    const wrong = Language.wrongLines(["start all", "setle 64", "", "# x", "send b", "fail e0.0 a0.0", "settle 0"], topology);
    assert.deepStrictEqual([...wrong.keys()], [2, 5, 7]);
    assert.match(wrong.get(2).text, /is it `settle N`/);
    for (const name of fs.readdirSync(path.join(top, "examples"))) {
        const run = path.join(top, "examples", name);
        if (!fs.existsSync(path.join(run, "script"))) continue;
        const read = file => fs.readFileSync(path.join(run, file), "utf8");
        assert.deepStrictEqual([...Language.wrongLines(read("script").split("\n"), Language.topologyOf(read("topology.toml"))).keys()], [], name);
    }
};

exports.colours_keep_the_text = () => {
    const hosts = new Set(["a"]);
    for (const line of ["", "start all # x", "\tfail  e0.0 a0.0\r", "<b>&amp;</b> 7", "# only", '  name = "a" # c', "[[host]]", "x = [1, 2]", "name = 'it'"]) {
        for (const parts of [Language.colourScript(line, hosts), Language.colourTopology(line)]) assert.strictEqual(parts.map(([text]) => text).join(""), line);
    }
};
