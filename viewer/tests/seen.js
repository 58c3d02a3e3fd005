"use strict";
// What a reader sees at any width: why a frame was dropped, the fabric manager, events in sentences, what is sought in the list, names that nothing covers,
// what is printed and saved, and the words of the page.
const assert = require("assert");
const { spawnSync } = require("child_process");
const fs = require("fs");
const path = require("path");
const { top, open, besideOf } = require("./load.js");
const wide = require("./wide.js");
const { PAGE, work, isOpen, opened, picture } = require("./pages.js");

const LEARNT = path.join(top, "tests/bridge/learnt");
const svgOf = (browser, which = "Page.picture") => browser.value(`Moment.svg(${which}, 'where', 'said')`);
const textsOf = svg => [...svg.matchAll(/<text [^>]*>([^<]*)</g)].map(found => found[1]);

// a stored log of an example, opened at a moment
const log = async (browser, name, end = "") => {
    const folder = path.join(top, "examples", name);
    const files = ["topology.toml", "expected-watch/log.txt", "script"].map(file => path.join(folder, file));
    const [topology, journal, script] = files.map(file => new Uint8Array(fs.readFileSync(file)));
    const found = Files.runOf({ topology, journal, script });
    await browser.open(PAGE, end);
    await browser.choose(files);
    await browser.until(isOpen(found.run.count));
    return found;
};

const entryWith = (run, form) => Array.from({ length: run.count }, (_, n) => n).find(n => form.test(Journal.text(run, n))) + 1;

const a_drop_has_its_reasons_below_it = async (browser, width) => {
    const { run, states, script } = await opened(browser, "examples/storm", "#entry=520");
    assert.equal(await browser.text("look"), Drops.said(run, 519, At.at(states, 520), script));
    assert.match(await browser.text("look"), /^The frame is for pod 2, position 1\. From a1\.0, in pod 1, it can only go up\. c0\.0 and c0\.1: /);
    await picture(browser, `drop-${width}`);
};

const the_manager_is_seen = async (browser, width) => {
    const { run } = await log(browser, "manager-restarts");
    const restart = entryWith(run, /^@ \d+ restart$/);
    await browser.value(`Page.step(${restart})`);
    const shown = textsOf(await svgOf(browser));
    assert(shown.includes("fabric manager") || shown.includes("manager"), `${shown}`);
    assert(shown.includes("restart 1: 0 of 20 reports") && shown.includes("restarts"), `${shown}`);
    const told = entryWith(run, /^@ \d+ deliver \S+ manager\n {2}heard link/);
    await browser.value(`Page.step(${told})`);
    assert(textsOf(await svgOf(browser)).includes("link"));
    const at = await browser.value(`(() => { const canvas = document.getElementById("canvas"); canvas.scrollIntoView({ block: "center" });
        const r = canvas.getBoundingClientRect(); const box = Page.picture.shown(Page.picture.layout.manager); return { x: r.x + box.x, y: r.y + box.y }; })()`);
    await browser.click(at.x, at.y);
    assert.equal(await browser.text("telling"), `the fabric manager: ${Stories.of(run, { manager: true }).length} entries`);
    await browser.value(`Page.step(${restart + 60})`);
    assert.match(await browser.text("facts"), /reports\d+ of 20 have ended/);
    await picture(browser, `manager-${width}`);
};

const what_is_to_be_avoided_is_on_its_links = async (browser, width) => {
    const { run, states } = await log(browser, "avoid-lists");
    const entry = entryWith(run, /^@ \d+ deliver manager e0\.1\n {2}heard avoid\n {2}knows avoid \+/);
    await browser.value(`Page.step(${entry})`);
    const avoided = [...Said.known(run, Fabric.number(run.fabric, "e0.1"), At.at(states, entry).entry).avoid];
    const marks = textsOf(await svgOf(browser)).filter(text => text.startsWith("\u2298"));
    assert.equal(marks.length, new Set(avoided.map(text => text.split(" ")[0])).size);
    await picture(browser, `avoid-${width}`);
};

const an_event_is_a_sentence_with_its_rule = async (browser, width) => {
    const { run, states } = await log(browser, "position-vote");
    const entry = entryWith(run, /heard vote a0\.0 1 0 refused/);
    await browser.value(`Page.step(${entry})`);
    assert.equal(await browser.text("said"), Words.sentence(run, entry - 1));
    assert.equal(await browser.text("raw"), Journal.text(run, entry - 1));
    assert.match(await browser.text("rule"), /^Rule: A vote counts for an edge switch without a position/);
    const label = await browser.value("document.getElementById('chart').getAttribute('aria-label')");
    assert(label.includes(`control frames ${At.at(states, entry).messages[0]}, `), label);
    await picture(browser, `vote-${width}`);
};

const a_vote_is_sought_in_the_list = async browser => {
    const { run } = await log(browser, "position-vote");
    await browser.clickOn("#seek");
    await browser.write("refused");
    await browser.value("(() => { const e = document.getElementById('kind'); e.value = 'votes'; e.dispatchEvent(new Event('change')); })()");
    const wanted = Sift.of(run, null, { ...Sift.NONE, text: "refused", kind: "votes" }, null).path;
    assert(wanted.length > 0 && wanted.length < 10);
    assert.equal(await browser.text("sifted"), `${wanted.length} entries`);
    const rows = await browser.value("[...document.querySelectorAll('#journal .row code')].map(code => code.textContent.split(' ')[0])");
    assert.deepEqual(rows, wanted.map(n => `${n + 1}`));
    await browser.value("document.getElementById('seek').blur()");
    await browser.press("ArrowRight");
    assert.equal(await browser.value("Page.page.state.entry"), wanted[0] + 1);
    await browser.until("location.hash.includes('seek=refused&kind=votes')");
    await log(browser, "position-vote", `#entry=${wanted[1] + 1}&seek=refused&kind=votes`);
    assert.deepEqual(await browser.value("[document.getElementById('seek').value, document.getElementById('kind').value, Page.page.state.entry]"), ["refused", "votes", wanted[1] + 1]);
    await browser.press("Escape");
    assert.equal(await browser.value("Page.page.list.path"), null);
};

const idle_lines_stand_in_one_row = async browser => {
    const { run } = await opened(browser, "viewer/tests/runs/address-given-again");
    const { rows, folded } = Sift.of(run, null, Sift.NONE, null);
    assert.equal(await browser.value("Page.page.list.rows.length"), rows.length);
    const [first, count] = [...folded].sort(([, a], [, b]) => b - a)[0];
    await browser.value(`Page.step(${first + 2})`);
    const [text] = await browser.value("[...document.querySelectorAll('#journal .row.now')].map(row => row.textContent)");
    assert(text.includes(`line ${run.a[first]} .. ${run.a[first + count - 1]}`) && text.includes(`${count} lines of the script`), text);
    await browser.clickOn("#fold");
    assert.equal(await browser.value("Page.page.list.rows"), null);
};

// On a telephone the buttons and the sentence are in sight with the picture, upright and lying.
const buttons_and_sentence_are_below_the_picture = async (browser, width) => {
    if (width > 600) return;
    for (const [w, h] of [[844, 390], [390, 844]]) {
        await browser.size(w, h);
        await opened(browser, "examples/storm", "#entry=520");
        const at = await browser.value(`(() => { scrollTo(0, 0); const of = id => { const r = document.getElementById(id).getBoundingClientRect(); return [r.top, r.bottom]; };
            return { canvas: of("canvas"), next: of("next"), said: of("said"), high: innerHeight, gestures: getComputedStyle(document.getElementById("gestures")).display }; })()`);
        assert(at.canvas[0] >= 0 && at.next[1] <= at.high && at.said[0] < at.high - 20, `${w} by ${h}: ${JSON.stringify(at)}`);
        if (w < h) assert(at.canvas[1] <= at.next[0] + 1 && at.next[1] <= at.said[0] + 1, JSON.stringify(at));
        assert.equal(at.gestures, "block");
        await picture(browser, `phone-${w}`);
    }
};

// the labels that are drawn on what moves, and the names that stand in sight: how many labels cover one
const COVERED = `(() => { const p = Page.picture; const labels = []; const { label } = p.pen;
    p.pen.label = function(text, x, y, how) { labels.push({ x, y, width: this.widthOf(text, how.size, true) + 4, height: how.size + 2 }); label.call(this, text, x, y, how); };
    p.progress = 1; p.draw(); delete p.pen.label;
    return { labels: labels.length, covered: labels.filter(one => Places.names(p).some(name => Places.meets(one, name))).length }; })()`;

const a_host_with_many_frames = () => {
    const folder = path.join(work, "many");
    const sent = Array.from({ length: 127 }, (_, n) => `sent ${n + 1} h0 ffffffffffff02000000000088b6${"00".repeat(46)}`);
    const [topology, journal] = [path.join(folder, "topology.toml"), path.join(folder, "journal.txt")];
    if (!fs.existsSync(folder)) fs.mkdirSync(folder);
    fs.writeFileSync(topology, wide.topology(8));
    fs.writeFileSync(journal, `line 1\n${sent.join("\n")}\n`);
    return [topology, journal];
};

const nothing_covers_a_name = async (browser, width) => {
    await browser.open(PAGE);
    await browser.choose(a_host_with_many_frames());
    await browser.until(isOpen(128));
    await browser.value("Page.picture.openPods([0])");
    await browser.press("End");
    const many = await browser.value(COVERED);
    assert(many.labels > 0 && many.covered === 0, JSON.stringify(many));
    await picture(browser, `many-${width}`);
    await opened(browser, "examples/storm", "#entry=520");
    for (const entry of [300, 520, 649, 700]) {
        await browser.value(`Page.step(${entry})`);
        const { covered } = await browser.value(COVERED);
        assert.equal(covered, 0, `entry ${entry} at ${width}`);
    }
};

// A link of a folded pod that fails is told on the line of all of them, which stays.
const one_link_of_many_fails = async (browser, width) => {
    const folder = path.join(work, "bundle");
    if (!fs.existsSync(folder)) fs.mkdirSync(folder);
    const [topology, journal] = [path.join(folder, "topology.toml"), path.join(folder, "journal.txt")];
    fs.writeFileSync(topology, wide.topology(24));
    fs.writeFileSync(journal, "line 1\nlinkdown e3.2 a3.5\n");
    await browser.open(PAGE);
    await browser.choose([topology, journal]);
    await browser.until(isOpen(2));
    await browser.press("End");
    const svg = await svgOf(browser);
    assert(textsOf(svg).includes("1 of 144"), `${textsOf(svg)}`);
    assert(!svg.includes('stroke-dasharray="5 4"'), "the line is not broken");
    await picture(browser, `bundle-${width}`);
};

const two_runs_have_one_scale = async (browser, width) => {
    const journal = path.join(work, "journal.txt");
    fs.copyFileSync(besideOf("learnt"), journal);
    await browser.open(PAGE);
    await browser.choose([path.join(LEARNT, "topology.toml"), journal, path.join(LEARNT, "script")]);
    await browser.until(isOpen(93));
    await browser.choose([path.join(LEARNT, "expected-bridge/journal.txt")], "#beside");
    await browser.until("document.getElementById('second').hidden === false");
    await browser.press("End");
    await browser.press("l");
    const { first, second, most, title, pressed } = await browser.value(`({ first: Page.picture.levels.length, second: Second.picture.levels.length,
        most: Math.max(...Page.page.state.crossings, ...Second.second.state.crossings), title: document.getElementById("first-where").textContent,
        pressed: getComputedStyle(document.getElementById("loads")).backgroundColor !== getComputedStyle(document.getElementById("fit")).backgroundColor })`);
    assert.deepEqual([first, second, pressed], [most + 1, most + 1, true]);
    assert.match(title, /^first run.*: entry 93 of 93/);
    assert.match(await browser.text("scale"), /^frames over a link, in both runs:1/);
    await picture(browser, `two-${width}`);
    await browser.press("l");
    await browser.clickOn("#alone");
};

const what_is_printed_and_saved = async browser => {
    const folder = path.join(top, "examples/position-vote");
    const notes = path.join(work, "notes.txt");
    fs.writeFileSync(notes, "Who wins?\n\nLook at a0.0 & a0.1.\n");
    const words = ["--title", "A vote <1>", "--notes", notes, folder, path.join(folder, "expected-watch/log.txt")];
    const made = spawnSync(path.join(top, "viewer/pack"), words, { encoding: "buffer", maxBuffer: 1e9 });
    assert.equal(made.status, 0, `${made.stderr}`);
    const page = path.join(work, "noted.html");
    fs.writeFileSync(page, made.stdout);
    await browser.open(page, "#entry=36&kind=votes");
    await browser.until("document.body.dataset.open > 0");
    assert.equal(await browser.text("notes"), "A vote <1>Who wins?Look at a0.0 & a0.1.");
    const printed = await browser.value("(() => { dispatchEvent(new Event('beforeprint')); return [...document.querySelectorAll('#printed li')].map(row => row.textContent); })()");
    assert(printed.length > 5 && printed.every(text => /(vote|position|propose|grant|refuse)/.test(text)), `${printed}`);
    await browser.scheme("dark");
    const svg = await browser.value("(() => { const { page } = Page; document.getElementById('svg'); return Moment.svg(Page.picture, `${page.name}, ${document.getElementById('where').textContent}`, 'said'); })()");
    assert(/<title>position-vote, entry 36 of 440, line \d+ of the script: said<\/title>/.test(svg), svg.slice(0, 300));
    assert(svg.includes('fill="#ffffff"') && !svg.includes('fill="#14181d"'), "light colours");
    await browser.scheme("light");
};

const the_words_of_the_page = async browser => {
    await browser.open(PAGE);
    assert.match(await browser.text("welcome"), /portland simulates a data-centre network/);
    await browser.clickOn("#example-log");
    await browser.until("document.body.dataset.open > 0");
    assert((await browser.text("opened")).startsWith("position-vote: "));
    assert.equal(await browser.value("(() => { const { run, script } = Page.page; for (let n = 0; n < run.count; n++) if (Words.sentence(run, n, script).includes('`')) return n; return -1; })()"), -1);
    await browser.value("Page.step(37)");
    const rows = await browser.value("[...document.querySelectorAll('#journal .row')].map(row => [row.getAttribute('aria-label'), row.lastChild.textContent])");
    assert(rows.length > 0 && rows.every(([label, said]) => label === said || said === ""));
    await browser.value("document.getElementById('tab-journal').focus()");
    await browser.press("ArrowRight");
    assert.equal(await browser.value("document.activeElement.id"), "tab-script");
    assert.equal(await browser.value("document.getElementById('script').hidden"), false);
    await browser.press("ArrowLeft");
    assert.equal(await browser.value("document.activeElement.id"), "tab-journal");
    assert.match(await browser.text("counts"), /^sent 2, made 0, copied 0, arrived 0, taken 2, dropped 0, in flight 0$/);
    assert(await browser.value("document.querySelectorAll('#manual .swatch').length >= 4"));
};

module.exports = {
    a_drop_has_its_reasons_below_it, the_manager_is_seen, what_is_to_be_avoided_is_on_its_links, an_event_is_a_sentence_with_its_rule, a_vote_is_sought_in_the_list,
    idle_lines_stand_in_one_row, buttons_and_sentence_are_below_the_picture, nothing_covers_a_name, one_link_of_many_fails, two_runs_have_one_scale,
    what_is_printed_and_saved, the_words_of_the_page,
};
