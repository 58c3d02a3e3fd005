"use strict";
// What a reader does with the page, and what comes of it.
const assert = require("assert");
const crypto = require("crypto");
const fs = require("fs");
const path = require("path");
const { top, partOf, moduleOf, filesOf, wordsOf, expectedOf } = require("./load.js");

const js = JSON.stringify;
const sum = bytes => crypto.createHash("sha256").update(bytes).digest("hex");
const textOf = (browser, id) => browser.value(`document.getElementById(${js(id)}).innerText`);

// plays what is on the page; answers how it ended and the sums of what was saved
const played = async (browser, command = "Bench.run()") => JSON.parse(await browser.value(`${command}.then(async answer => {
    if (!answer) return "null";
    const saved = {};
    for (const [name, bytes] of answer.saved) saved[name] = [...new Uint8Array(await crypto.subtle.digest("SHA-256", bytes))].map(byte => byte.toString(16).padStart(2, "0")).join("");
    return JSON.stringify({ status: answer.status, out: answer.out, err: answer.err, seconds: answer.seconds, saved });
})`));

const put = (browser, changed) => browser.value(`(() => { const now = Bench.scenario(); Bench.replace({ ...now, ...${js(changed)}, captures: now.captures }); return 1; })()`);

const choose = (browser, id, value) => browser.value(`(() => { const e = document.getElementById(${js(id)}); e.value = ${js(value)}; e.dispatchEvent(new Event("change")); return e.value; })()`);
const fill = (browser, id, value) => browser.value(`(() => { const e = document.getElementById(${js(id)}); e.value = ${js(value)}; e.dispatchEvent(new Event("input")); return 1; })()`);

exports.each_example_plays_byte_for_byte = async ({ browser, open }) => {
    await open();
    const names = Object.keys(JSON.parse(partOf("examples")));
    let seconds = 0;
    for (const name of names) {
        await choose(browser, "play-example", name);
        const answer = await played(browser);
        const folder = path.join(top, "examples", name);
        const stored = path.join(folder, "expected");
        // an example without stored files is compared with what node makes of the module
        const node = fs.existsSync(stored) ? expectedOf(stored) : Machine.play(moduleOf("portland"), wordsOf("run"), filesOf(folder));
        const expected = { status: node.status, out: node.out, err: node.err, saved: Object.fromEntries([...node.saved].map(([file, bytes]) => [file, sum(bytes)]).sort()) };
        seconds += answer.seconds;
        delete answer.seconds;
        answer.saved = Object.fromEntries(Object.entries(answer.saved).sort());
        assert.deepStrictEqual(answer, expected, name);
        assert.match(await textOf(browser, "opened"), new RegExp(`^${name}: k `));
    }
    assert.ok(names.length >= 20);
    return `${names.length} examples in ${seconds.toFixed(2)} seconds`;
};

exports.other_commands = async ({ browser, open }) => {
    await open();
    await choose(browser, "play-example", "four-hosts");
    await played(browser);
    await choose(browser, "play-command", "verify");
    assert.strictEqual((await played(browser)).out, "legal 94\n");
    await choose(browser, "play-command", "check");
    assert.strictEqual((await played(browser)).out, "k 4 edge 8 aggregation 8 core 4 links 32 hosts 4\n");
    await choose(browser, "play-command", "gen");
    await fill(browser, "play-frames", "10");
    const gen = await played(browser);
    await fill(browser, "play-frames", "0");
    assert.strictEqual(await browser.value("Bench.run()"), null);
    assert.match(await textOf(browser, "play-said"), /frames is a number from 1 to 100000/);
    assert.strictEqual(gen.out, Machine.play(moduleOf("portland"), ["gen", "--k", "4", "--number", "1", "--frames", "10"], new Map()).out);
    await choose(browser, "play-example", "beside-bridges");
    await choose(browser, "play-command", "bridge");
    const bridge = await played(browser);
    const node = Machine.play(moduleOf("portland"), wordsOf("bridge"), filesOf(path.join(top, "examples", "beside-bridges")));
    assert.deepStrictEqual([bridge.status, bridge.out, bridge.saved["out/journal.txt"]], [0, node.out, sum(node.saved.get("out/journal.txt"))]);
};

exports.log_is_shown = async ({ browser, open }) => {
    if (!partOf("watch")) return "no module that watches";
    await open();
    await choose(browser, "play-example", "position-vote");
    const answer = await played(browser, "Bench.watch()");
    assert.strictEqual(answer.out, fs.readFileSync(path.join(top, "examples", "position-vote", "expected-watch", "log.txt"), "utf8"));
    assert.match(await textOf(browser, "unseen"), /In a log each step/);
    return undefined;
};

exports.refused_line_is_marked_with_its_hint = async ({ browser, open }) => {
    await open();
    await choose(browser, "play-example", "four-hosts");
    const script = await browser.value("Bench.editors.script.area.value");
    await put(browser, { script: script.replace(/^settle 64$/m, "setle 64") });
    const line = script.split("\n").indexOf("settle 64") + 1;
    const answer = await played(browser);
    assert.deepStrictEqual([answer.status, answer.err], [5, `portland: bad script, line ${line}: Word\n`]);
    const said = await textOf(browser, "play-said");
    assert.match(said, /is it `settle N`\?/);
    assert.strictEqual(await browser.value("document.querySelector('#play-script .ruler .refused').textContent"), `${line}`);
    assert.match(await browser.value("document.querySelector('#play-script .ruler .refused').title"), /settle N/);
    await browser.value("(Bench.undo(), 1)");
    assert.strictEqual((await played(browser)).status, 0);
};

exports.refused_topology_expectation_and_capture = async ({ browser, open }) => {
    await open();
    await choose(browser, "play-example", "four-hosts");
    const topology = await browser.value("Bench.editors.topology.area.value");
    await put(browser, { topology: topology.replace('edge = "e0.0"', 'edge = "a0.0"') });
    assert.strictEqual((await played(browser)).status, 4);
    assert.match(await textOf(browser, "play-said"), /edge switches: e0\.0 to e3\.1/);
    const wrong = topology.split("\n").findIndex(line => line === 'edge = "e0.0"') + 1;
    assert.strictEqual(await browser.value("document.querySelector('#play-topology .ruler .refused').textContent"), `${wrong}`);
    await put(browser, { topology, script: "start all\nsettle 64\nexpect arrived a 99\n" });
    assert.strictEqual((await played(browser)).status, 8);
    assert.match(await textOf(browser, "play-said"), /ARP/);
    await browser.clickOn("#play-said button:last-child");
    await browser.until("document.getElementById('play-took').textContent.startsWith('status 0')");
    await put(browser, { topology: topology.replace('capture = "a-in.pcap"', 'capture = "other.pcap"'), script: "start all\n" });
    assert.strictEqual((await played(browser)).status, 3);
    assert.match(await textOf(browser, "play-said"), /make frames for it/);
};

// A run of one's own: four hosts, a failed link, three frames of the form; with the keyboard, as far as a driver has one.
exports.scenario_of_ones_own = async ({ browser, open }) => {
    await open();
    const hosts = [["a", "0a", 1, "e0.0", 0], ["b", "0b", 2, "e0.0", 1], ["c", "0c", 3, "e0.1", 0], ["d", "0d", 4, "e1.0", 0]];
    const topology = `k = 4\n${hosts.map(([name, mac, ip, edge, port]) => `[[host]]\nname = "${name}"\nmac = "02:00:00:00:00:${mac}"\nip = "10.0.0.${ip}"\nedge = "${edge}"\nport = ${port}\n`).join("")}`;
    await browser.value(`(Bench.replace({ ...Scenario.empty(), topology: ${js(topology)}, script: "start all\\nsettle 64\\nfail e0.0 a0.0\\nsettle 64\\nsend a all\\nsettle 64\\n" }), 1)`);
    await browser.clickOn("#play-make");
    for (const [to, kindOfFrame] of [["b", "udp"], ["c", "tcp"], ["d", "icmp"]]) {
        await choose(browser, "play-to", to);
        await choose(browser, "play-kind", kindOfFrame);
        await browser.clickOn("#play-maker button");
    }
    assert.match(await textOf(browser, "play-list"), /a\.pcap[^]*of a; 3 frames/);
    assert.match(await textOf(browser, "play-list"), /a to b: UDP port 5000 to 7000[^]*a to c: TCP[^]*a to d: ICMP/);
    assert.match(await browser.value("Bench.editors.topology.area.value"), /port = 0\ncapture = "a\.pcap"\n\[\[host\]\]\nname = "b"/);
    const answer = await played(browser);
    assert.strictEqual(answer.status, 0, answer.err);
    assert.match(answer.out, /^host b .* arrived 1 .*\nhost c .* arrived 1 .*\nhost d .* arrived 1 /m);
    assert.match(answer.out, / dropped 0 flying 0$/m);
};

exports.words_complete_by_keys = async ({ browser, open }) => {
    await open();
    await choose(browser, "play-example", "four-hosts");
    await browser.value("(() => { const { area } = Bench.editors.script; area.focus(); area.setSelectionRange(area.value.length, area.value.length); return 1; })()");
    for (const letter of "fai") await browser.press(letter);
    await browser.until("!document.getElementById('play-script-choices').hidden");
    await browser.press("Enter");
    await browser.press(" ");
    for (const letter of "a1") await browser.press(letter);
    await browser.until("document.querySelectorAll('#play-script-choices li').length === 2");
    await browser.press("ArrowDown");
    await browser.press("Enter");
    const value = await browser.value("Bench.editors.script.area.value");
    assert.ok(value.endsWith("fail a1.1"), value.slice(-30));
    assert.ok(await browser.value("document.getElementById('play-script-choices').hidden"));
};

exports.what_was_typed_is_kept = async ({ browser, open }) => {
    await open();
    await put(browser, { title: "mine", script: "settle 7 # mine\n" });
    await browser.until("(localStorage.getItem('portland playground') || '').length > 0");
    await browser.value("Sharing.keep(Bench.scenario()).then(() => 1)");
    await open("", { keeps: true });
    assert.strictEqual(await browser.value("Bench.editors.script.area.value"), "settle 7 # mine\n");
    assert.strictEqual(await browser.value("document.getElementById('play-title').value"), "mine");
    await browser.value("(window.confirm = text => { window.wasAsked = text; return false; }, 1)");
    await browser.clickOn("#play-empty");
    assert.match(await browser.value("window.wasAsked"), /new scenario/);
    assert.strictEqual(await browser.value("Bench.editors.script.area.value"), "settle 7 # mine\n");
    await browser.value("(window.confirm = () => true, 1)");
    await browser.clickOn("#play-empty");
    assert.strictEqual(await browser.value("Bench.editors.script.area.value"), "");
    await browser.clickOn("#play-undo");
    assert.strictEqual(await browser.value("Bench.editors.script.area.value"), "settle 7 # mine\n");
};

exports.links_open_what_they_have = async ({ browser, open }) => {
    await open();
    await choose(browser, "play-example", "group");
    const end = await browser.value("Sharing.link(Bench.scenario()).then(link => link.address.replace(/^[^#]*/, ''))");
    await open(end);
    assert.strictEqual(await browser.value("Bench.editors.script.area.value"), fs.readFileSync(path.join(top, "examples", "group", "script"), "utf8"));
    assert.strictEqual((await played(browser)).saved["out/journal.txt"], sum(fs.readFileSync(path.join(top, "examples", "group", "expected", "journal.txt"))));
    for (const [wrong, pattern] of [[end.slice(0, -30), /cannot be opened: it is damaged/], [end.replace("1.", "2."), /newer version of this page/], ["#play=1.!!", /letters that no link has/]]) {
        await open(wrong);
        assert.match(await textOf(browser, "play-said"), pattern);
        assert.ok((await browser.value("Bench.editors.script.area.value")).length > 0);
    }
    return `a link of ${end.length} letters`;
};

exports.page_goes_on_as_one_file = async ({ browser, open, work }) => {
    await open();
    await choose(browser, "play-example", "link-fails");
    await fill(browser, "play-title", "A link </title><script>window.hacked = 1</script> fails");
    const text = await browser.value("Scenario.pack(Bench.scenario()).then(letters => Source.withScenario(Bench.scenario().title, letters))");
    const file = path.join(work, "shared.html");
    fs.writeFileSync(file, text);
    await open("", { file });
    assert.strictEqual(await browser.value("document.title"), "A link </title><script>window.hacked = 1</script> fails");
    assert.strictEqual(await browser.value("typeof window.hacked"), "undefined");
    assert.strictEqual((await played(browser)).saved["out/journal.txt"], sum(fs.readFileSync(path.join(top, "examples", "link-fails", "expected", "journal.txt"))));
    // and that page as one again
    const again = await browser.value("Scenario.pack(Bench.scenario()).then(letters => Source.withScenario(Bench.scenario().title, letters))");
    assert.strictEqual(again.length, text.length);
};

// what comes from outside is text wherever it goes
exports.hostile_names_are_text = async ({ browser, open, kind, work }) => {
    const bad = "<img src=x onerror=\"window.hacked = 1\"><script>window.hacked = 2</script>";
    const quoted = bad.replaceAll("\\", "\\\\").replaceAll('"', '\\"');
    const topology = `k = 4\n[[host]]\nname = "${quoted}"\nmac = "${quoted}"\nip = "${quoted}"\nedge = "${quoted}"\nport = 0\ncapture = "${quoted}"\n[[${bad}]]\n"${quoted}" = "${quoted}"\n`;
    await open();
    const link = await browser.value(`Scenario.toLink({ ...Scenario.empty(), title: ${js(bad)}, topology: ${js(topology)}, script: ${js(`${bad}\nstart ${bad}\nsend ${bad}\nexpect ${bad}\n`)} })`);
    await open(link);
    const before = await browser.value("document.querySelectorAll('img, script').length");
    for (const command of ["run", "bridge", "check"]) {
        await choose(browser, "play-command", command);
        await played(browser);
    }
    await put(browser, { topology: "k = 4\n" });
    await played(browser);
    await browser.value(`Bench.addFiles([new File(["x"], ${js(`${bad}.pcap`)}), new File([${js(bad)}], "script"), new File([${js(topology)}], "topology.toml"), new File([${js(`sent ${bad}`)}], "journal.txt")]).then(() => 1)`);
    await browser.value("Bench.run().then(() => 1)");
    await choose(browser, "play-command", "verify");
    await browser.value("Bench.run().then(() => 1)");
    if (kind === "chromium") {
        const file = path.join(work, "<img src=x onerror=hacked()>.pcap");
        fs.writeFileSync(file, "text");
        await browser.drop([file], 200, 400);
        await browser.until("[...Bench.state.captures.keys()].includes('img-src-x-onerror-hacked-.pcap')");
    }
    assert.strictEqual(await browser.value("typeof window.hacked"), "undefined");
    assert.strictEqual(await browser.value("document.querySelectorAll('img, script').length"), before);
    assert.ok((await browser.value("document.getElementById('play-list').innerText")).includes("img-src-x-onerror"));
};

// a handler or a script that got into the page all the same would not run
exports.policy_keeps_scripts_out = async ({ browser, open }) => {
    await open();
    await browser.value(`(() => {
        const box = document.createElement("div");
        box.innerHTML = "<img src='data:,' onerror='window.hacked = 1'><b onclick='window.hacked = 2'>x</b>";
        document.body.append(box);
        box.lastChild.click();
        const script = document.createElement("script");
        script.textContent = "window.hacked = 3";
        document.body.append(script);
        return 1;
    })()`);
    await new Promise(done => setTimeout(done, 200));
    assert.strictEqual(await browser.value("typeof window.hacked"), "undefined");
};
exports.policy_keeps_scripts_out.allowed = /Content[- ]Security[- ]Policy|violates|blocked/i;

exports.run_is_stopped = async ({ browser, open }) => {
    await open();
    await choose(browser, "play-command", "gen");
    await choose(browser, "play-k", "24");
    await fill(browser, "play-frames", "100000");
    await browser.value("(window.ending = Bench.run(), 1)");
    await browser.until("/plays, [1-9]\\d* s, \\d+ MiB/.test(document.getElementById('play-progress').textContent)", 60);
    await browser.clickOn("#play-stop");
    assert.strictEqual(await browser.value("window.ending"), null);
    assert.match(await textOf(browser, "play-said"), /^stopped/);
    assert.strictEqual(await browser.value("document.getElementById('play-run').disabled"), false);
    await choose(browser, "play-example", "two-hosts");
    assert.strictEqual((await played(browser)).status, 0);
};

exports.browsers_that_lack_something = async ({ browser, open }) => {
    await open();
    for (const [name, pattern] of [["WebAssembly", /no WebAssembly/], ["DecompressionStream", /cannot unpack/], ["Worker", /no workers/]]) {
        await browser.value(`(() => { window.kept = window.${name}; window.${name} = undefined; return 1; })()`);
        await played(browser);
        await browser.value(`(() => { window.${name} = window.kept; return 1; })()`);
        assert.match(await textOf(browser, "play-said"), pattern);
    }
    await browser.value("(() => { Results.ended({ status: 12, err: 'portland: out of memory\\n', saved: new Map() }, Bench.scenario(), Scenario.words(Bench.scenario()), {}); return 1; })()");
    assert.match(await textOf(browser, "play-said"), /wants more memory than a browser gives: play it by the program/);
};

exports.captures_are_shown = async ({ browser, open }) => {
    await open();
    await choose(browser, "play-example", "wireshark");
    assert.match(await textOf(browser, "play-list"), /a-in\.pcapng[^]*of a; 3 frames, pcapng/);
    await browser.clickOn("#play-list button");
    assert.match(await textOf(browser, "play-list"), /a to d: /);
    await browser.choose([path.join(top, "tests", "refused", "bad-link", "captures", fs.readdirSync(path.join(top, "tests", "refused", "bad-link", "captures"))[0])], "#play-add");
    await browser.until("/its link type is \\d+, and not Ethernet/.test(document.getElementById('play-list').innerText)");
};

exports.telephone = async ({ browser, open }) => {
    await browser.size(390, 844);
    await open();
    await choose(browser, "play-example", "four-hosts");
    await played(browser);
    assert.ok(await browser.value("document.documentElement.scrollWidth <= 390"), "the page scrolls sideways");
    assert.ok(await browser.value("document.getElementById('play-script').getBoundingClientRect().width <= 390"));
};
