"use strict";
// The page is used by keys, clicks and files.
const assert = require("assert");
const fs = require("fs");
const path = require("path");
const { top, open, folders, journalOf } = require("./load.js");
const long = require("./long.js");
const { patience, PAGE, SHIFT, work, filesOf, isOpen, opened, dropped, packed, says, picture, asSummary } = require("./pages.js");

const a_run_is_opened_and_stepped_through = async browser => {
    const run = await opened(browser, "examples/four-hosts");
    await says(browser, run, 0);
    for (let n = 1; n <= run.run.count; n++) {
        await browser.press("ArrowRight");
        await says(browser, run, n);
    }
    await browser.press("ArrowRight");
    await says(browser, run, run.run.count);
    for (let n = run.run.count - 1; n >= 0; n--) {
        await browser.press("ArrowLeft");
        await says(browser, run, n);
    }
    await browser.press("End");
    for (let n = 0; n < 4; n++) await browser.press("ArrowLeft");
    await says(browser, run, run.run.count - 4);
    await picture(browser, "four-hosts");
};

// The logs of two examples: a vote that is refused, and what a switch is to avoid.
const LOGS = [["position-vote", "@ 30 ", "e0.1"], ["avoid-lists", "@ 1026 ", "a1.0"]];

const a_log_is_opened = async browser => {
    for (const [name, step, story] of LOGS) {
        const folder = path.join(top, "examples", name);
        const [topology, log, script] = ["topology.toml", "expected-watch/log.txt", "script"].map(file => path.join(folder, file));
        const { run } = Files.runOf({ topology: fs.readFileSync(topology), journal: new Uint8Array(fs.readFileSync(log)) });
        const entry = Array.from({ length: run.count }, (_, n) => n).find(n => Journal.text(run, n).startsWith(step)) + 1;
        await browser.open(PAGE, `#entry=${entry}&story=${story}`);
        await browser.choose([topology, log, script]);
        await browser.until(isOpen(run.count));
        assert.equal(await browser.text("said"), Words.sentence(run, entry - 1));
        await picture(browser, name);
    }
};

// In the log of a restart its event stands before the entry, is drawn at the fabric manager, and is stepped over both ways.
const a_log_with_a_restart_is_opened = async browser => {
    const folder = path.join(top, "examples/manager-restarts");
    const stored = fs.readFileSync(path.join(folder, "expected/journal.txt"), "utf8");
    const event = stored.split("\n").indexOf("restarted 1") + 1;
    const log = path.join(work, "log.txt");
    fs.writeFileSync(log, stored.replace("restarted 1\n", "@ 2568 restart\nrestarted 1\n"));
    const opens = [path.join(folder, "topology.toml"), log, path.join(folder, "script")];
    const [topology, journal, text] = opens.map(file => new Uint8Array(fs.readFileSync(file)));
    const { run, script, states } = Files.runOf({ topology, journal, script: text });
    await browser.open(PAGE, `#entry=${event - 1}`);
    await browser.choose(opens);
    await browser.until(isOpen(stored.split("\n").length));
    await browser.press("ArrowRight");
    await says(browser, { run, script, states }, event);
    assert.match(await browser.text("said"), /^The fabric manager restarts: it forgets all/);
    await browser.press("o");
    await browser.press("+");
    await browser.press("ArrowRight");
    await says(browser, { run, script, states }, event + 1);
    await browser.press("ArrowLeft");
    await browser.press("0");
    await says(browser, { run, script, states }, event);
    await browser.press("End");
    await says(browser, { run, script, states }, run.count);
};

// Behind a restart no address is registered, in the list of the fabric and in a host's story, until the manager has learnt it anew.
const what_the_manager_knows_goes_with_a_restart = async browser => {
    const run = await opened(browser, "tests/restart/before-a-move-was-told");
    const lines = run.journal.split("\n");
    const restart = lines.indexOf("restarted 1") + 1;
    const anew = lines.indexOf("registered 00:00:00:00:00:01 4294967297") + 1;
    await browser.clickOn("#find");
    await browser.write("a");
    await browser.press("Enter");
    await browser.clickOn("#tab-fabric");
    await browser.value("(() => { const e = document.getElementById('knowledge'); e.value = 'addresses'; e.dispatchEvent(new Event('change')); })()");
    const shown = async entry => {
        await browser.value(`Page.step(${entry})`);
        const row = await browser.value("document.querySelector('#table .row').lastChild.textContent.trim()");
        const fact = await browser.value("[...document.querySelectorAll('#facts td')].map(cell => cell.textContent.trim()).find(text => /registered/.test(text))");
        return [await browser.text("known"), row, fact];
    };
    for (const [entry, ...wanted] of [
        [restart - 1, "5 granted, 4 registered, 0 freed", "granted 10 as 1 12", "port 0 of e0.0, registered as 1"],
        [restart, "5 granted, 0 registered, 0 freed", "granted 10 not registered", "port 0 of e0.0, not registered"],
        [anew, "5 granted, 1 registered, 0 freed", `granted 10 as 4294967297 ${anew}`, "port 0 of e0.0, registered as 4294967297"],
        [restart, "5 granted, 0 registered, 0 freed", "granted 10 not registered", "port 0 of e0.0, not registered"],
    ]) assert.deepEqual(await shown(entry), wanted, `entry ${entry}`);
};

const a_packed_run_plays_to_its_end = async browser => {
    const run = await packed(browser, "examples/host-moves-twice");
    assert((await browser.text("opened")).startsWith("host-moves-twice: k 4, 20 switches, 4 hosts, "));
    for (let n = 0; n < 8; n++) await browser.press("]");
    await browser.press(" ");
    await browser.until("document.getElementById('next').disabled");
    await says(browser, run, run.run.count);
    const counts = asSummary(await browser.text("counts"));
    assert(run.summary.includes(counts), counts);
    await browser.press("ArrowLeft");
    await says(browser, run, run.run.count - 1);
    await browser.press(" ", SHIFT);
    await browser.until("document.getElementById('back').disabled");
    await says(browser, run, 0);
};

const a_folder_is_dropped = async browser => {
    const run = await dropped(browser, "examples/four-hosts");
    assert((await browser.text("opened")).startsWith("four-hosts: k 4"));
    await browser.press("End");
    await says(browser, run, run.run.count);
};

const a_folder_is_opened = async browser => {
    const run = open("examples/link-fails");
    await browser.open(PAGE);
    await browser.choose([run.folder], "#folder");
    await browser.until(isOpen(run.run.count));
    assert((await browser.text("opened")).startsWith("link-fails: k 4"));
    await browser.press("End");
    await says(browser, run, run.run.count);
};

const a_frame_is_followed = async browser => {
    const run = await opened(browser, "examples/group");
    const copy = run.run.parent.findIndex(parent => parent > 0);
    await browser.clickOn("#find");
    await browser.write(`${copy}`);
    await browser.press("Enter");
    const story = Stories.of(run.run, { frame: copy });
    const rows = () => browser.value("[...document.querySelectorAll('#journal .row code')].map(code => code.textContent)");
    assert.deepEqual(await rows(), story.map(n => `${n + 1}  ${Journal.text(run.run, n, 90)}`));
    for (const n of story) {
        await browser.press("ArrowRight");
        await says(browser, run, n + 1);
    }
    assert((await browser.text("facts")).includes(`Frame ${copy} as it arrived`));
    await picture(browser, "group");
    await browser.press("ArrowLeft");
    await says(browser, run, story[story.length - 2] + 1);
    await browser.press("Escape");
    assert.equal(await browser.value("document.getElementById('all').hidden"), true);
};

const a_click_shows_a_story = async browser => {
    const run = await opened(browser, "examples/group");
    for (const subject of [{ switch: Fabric.number(run.run.fabric, "e0.0") }, { host: run.run.fabric.names.get("d") }]) {
        const at = await browser.value(`(() => { const box = Page.picture.spotOf(${JSON.stringify(subject)});
            const canvas = document.getElementById("canvas").getBoundingClientRect(); return { x: canvas.x + box.x, y: canvas.y + box.y }; })()`);
        await browser.click(at.x, at.y);
        const count = Stories.of(run.run, subject).length;
        assert.equal(await browser.text("telling"), `${Facts.name(run.run, subject)}: ${count} entries`);
    }
    await browser.clickOn("#all");
    await browser.clickOn("#journal .row[data-row='4']");
    await says(browser, run, 5);
};

const lines_of_the_script_are_gone_to = async browser => {
    const run = await opened(browser, "examples/host-moves-twice");
    const entry = number => run.journal.split("\n").indexOf(`line ${number}`) + 1;
    await browser.press("ArrowRight", SHIFT);
    await browser.press("ArrowRight", SHIFT);
    await says(browser, run, entry(2));
    await browser.press("ArrowLeft", SHIFT);
    await says(browser, run, entry(1));
    await browser.clickOn("#line");
    await browser.value("document.getElementById('line').select()");
    await browser.write("24");
    await browser.press("Enter");
    await says(browser, run, entry(24));
    await browser.clickOn("#tab-script");
    await browser.clickOn("#script .row[data-row='24']");
    assert.equal(await browser.text("raw"), "line 25");
    assert.equal(await browser.value("document.querySelector('#script .row.now code').textContent"), `25  ${run.script[24]}`);
};

const what_is_refused_is_told_with_its_line = async browser => {
    const folder = path.join(top, "examples/four-hosts");
    const bad = path.join(work, "journal.txt");
    fs.writeFileSync(bad, "line 1\ncrossed 1 e0.0\n");
    await browser.open(PAGE);
    await browser.choose([bad]);
    await browser.until("document.getElementById('wanted').textContent !== ''");
    assert.equal(await browser.text("wanted"), "Now open its topology.");
    assert.equal(await browser.text("refused"), "");
    await browser.choose([path.join(folder, "topology.toml")]);
    await browser.until("document.getElementById('refused').textContent.startsWith('The')");
    assert.equal(await browser.text("refused"), "The journal is refused: line 2: frame 1 has not begun.");
    await browser.choose(filesOf(folder));
    await browser.until(isOpen(94));
    assert.equal(await browser.value("document.getElementById('welcome').hidden"), true);
    await browser.choose([path.join(top, "tests/fabric/all-hosts/topology.toml")]);
    await browser.until("document.getElementById('opened').textContent === 'Now open its journal.'");
    const other = open("tests/fabric/all-hosts");
    await browser.choose([journalOf(other.folder)]);
    await browser.until(isOpen(other.run.count));
    assert.equal(await browser.value("document.getElementById('tab-script').hidden"), true);
    await browser.press("End");
    await says(browser, { ...other, script: null }, other.run.count);
};

const each_example_opens_and_ends_as_its_summary_says = async browser => {
    for (const folder of folders().filter(name => path.basename(path.dirname(name)) === "examples")) {
        const run = await packed(browser, folder);
        await browser.press("End");
        await says(browser, run, run.run.count);
        assert(run.summary.includes(asSummary(await browser.text("counts"))), folder);
    }
};

const a_million_lines_open_within_five_seconds_and_are_stepped_at_once = async browser => {
    const file = path.join(work, "journal.txt");
    fs.writeFileSync(file, long.journal(1e6));
    await browser.open(PAGE);
    const begun = Date.now();
    await browser.choose([path.join(long.folder, "topology.toml"), file]);
    await browser.until("document.body.dataset.open > 1000000");
    const seconds = (Date.now() - begun) / 1000;
    assert(seconds < 5 * patience(), `${seconds} seconds`);
    await browser.press("End");
    const steps = Date.now();
    for (let n = 0; n < 10; n++) await browser.press("ArrowLeft");
    assert((Date.now() - steps) / 10 < 200 * patience(), `${(Date.now() - steps) / 10} milliseconds a step`);
    const count = await browser.value("Number(document.body.dataset.open)");
    assert((await browser.text("where")).startsWith(`entry ${(count - 10).toLocaleString("en-US")} of ${count.toLocaleString("en-US")}`));
};

const the_dark_page_works_too = async browser => {
    await browser.scheme("dark");
    const run = await opened(browser, "tests/fabric/link-fails-with-frames");
    const entry = run.journal.split("\n").findIndex(line => line.startsWith("linkdown ")) + 1;
    await browser.value(`Page.step(${entry})`);
    await says(browser, run, entry);
    await picture(browser, "link-fails");
    await browser.press("?");
    assert.equal(await browser.value("document.getElementById('manual').open"), true);
    await browser.press("Escape");
    await browser.scheme("light");
};

module.exports = {
    a_log_is_opened, a_log_with_a_restart_is_opened, what_the_manager_knows_goes_with_a_restart,
    a_run_is_opened_and_stepped_through, a_packed_run_plays_to_its_end, a_folder_is_dropped, a_folder_is_opened,
    a_frame_is_followed, a_click_shows_a_story, lines_of_the_script_are_gone_to, what_is_refused_is_told_with_its_line,
    each_example_opens_and_ends_as_its_summary_says, a_million_lines_open_within_five_seconds_and_are_stepped_at_once, the_dark_page_works_too,
};
