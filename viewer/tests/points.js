"use strict";
// What the page does at any width: on a telephone, on a desk and on a large screen; for large fabrics too.
const assert = require("assert");
const fs = require("fs");
const path = require("path");
const { top, open, besideOf } = require("./load.js");
const wide = require("./wide.js");
const { patience, PAGE, work, filesOf, isOpen, opened, packed, says, picture } = require("./pages.js");

const LEARNT = path.join(top, "tests/bridge/learnt");

// the texts that the picture shows now: those of its SVG
const texts = async browser => {
    const svg = await browser.value("Moment.svg(Page.picture, 'where', 'said')");
    return [...svg.matchAll(/<text [^>]*>([^<]*)</g)].map(found => found[1]);
};

// where a switch, a host or a pod is on the page; the picture is in sight
const placeOf = (browser, what) => browser.value(`(() => { const canvas = document.getElementById("canvas"); canvas.scrollIntoView({ block: "center" });
    const r = canvas.getBoundingClientRect(); const p = Page.picture; const at = ${what}; return { x: r.x + at.x, y: r.y + at.y }; })()`);

const spotOf = (browser, subject) => placeOf(browser, `p.spotOf(${JSON.stringify(subject)})`);

// finds a host, a switch or a frame as a user does
const find = async (browser, text) => {
    await browser.clickOn("#find");
    await browser.write(text);
    await browser.press("Enter");
};

// a large run as files
const largeRun = (k, entries) => {
    const folder = path.join(work, `k${k}-${entries}`);
    if (!fs.existsSync(folder)) {
        fs.mkdirSync(folder);
        fs.writeFileSync(path.join(folder, "topology.toml"), wide.topology(k));
        fs.writeFileSync(path.join(folder, "journal.txt"), wide.journal(k, entries));
    }
    return [path.join(folder, "topology.toml"), path.join(folder, "journal.txt")];
};

const openedLarge = async (browser, k, entries, end = "") => {
    const files = largeRun(k, entries);
    await browser.open(PAGE, end);
    const begun = Date.now();
    await browser.choose(files);
    await browser.until(isOpen(entries), 60);
    return Date.now() - begun;
};

const fits = async browser => {
    const { wide: page, width, help, list } = await browser.value(`(() => { const r = document.getElementById("help").getBoundingClientRect();
        return { wide: document.documentElement.scrollWidth, width: innerWidth, help: r.right,
            list: document.getElementById("journal").clientHeight }; })()`);
    assert(page <= width && help <= width, `the page is ${page} wide, the help button ends at ${help}, of ${width}`);
    assert(list >= 150, `the journal's list is ${list} high`);
};

const the_page_fits_its_screen = async (browser, width) => {
    for (const [w, h] of width < 600 ? [[360, 740], [400, 860], [844, 390], [390, 844]] : [[width, width === 1280 ? 800 : 1080]]) {
        await browser.size(w, h);
        const run = await opened(browser, "examples/four-hosts");
        await browser.press("End");
        await fits(browser);
        const shown = await texts(browser);
        for (const label of ["e0.0", "a1.0", "c1.1", "d"]) assert(shown.includes(label), `${label} at ${w} by ${h}: ${shown}`);
        await says(browser, run, run.run.count);
    }
    await picture(browser, `fits-${width}`);
};

const fingers_name_and_zoom = async browser => {
    const run = await opened(browser, "examples/four-hosts");
    await browser.press("End");
    const at = await spotOf(browser, { switch: 0 });
    await browser.touch(at.x, at.y);
    await browser.until("Page.picture.touched !== null");
    assert.equal(await browser.value("Page.picture.touched.text"), "switch e0.0, pod 0 \u00b7 pos 0");
    assert.equal(await browser.text("telling"), `switch e0.0: ${Stories.of(run.run, { switch: 0 }).length} entries`);
    const scale = await browser.value("Page.picture.scale");
    await browser.pinch([[at.x - 5, at.y - 30], [at.x + 25, at.y - 30]], [[at.x - 5, at.y - 30], [at.x + 130, at.y - 30]]);
    await browser.until(`Page.picture.scale > ${scale * 1.5}`);
    await browser.clickOn("#fit");
    assert.equal(await browser.value("Page.picture.isWhole"), true);
};

const nothing_covers_switches_or_names = async browser => {
    await openedLarge(browser, 8, 2000);
    const { tools, canvas } = await browser.value(`({ tools: document.getElementById("tools").getBoundingClientRect().bottom,
        canvas: document.getElementById("canvas").getBoundingClientRect().top })`);
    assert(tools <= canvas);
    await browser.value("Page.step(100)");
    const shown = await texts(browser);
    assert(!shown.includes("\u00d71"), "a bubble counts one frame");
    assert.equal(await browser.value("Page.state === undefined && Page.page.state.flying.size"), 99);
};

const what_is_found_is_not_taken_for_now = async (browser, width) => {
    const run = await opened(browser, "examples/four-hosts");
    await browser.value("Page.step(91)");
    await find(browser, "b");
    const marks = () => browser.value(`({ now: document.querySelectorAll("#journal .row.now").length,
        last: [...document.querySelectorAll("#journal .row.last code")].map(code => code.textContent.split(" ")[0]),
        selected: document.querySelectorAll('#journal [aria-selected="true"]').length })`);
    const story = Stories.of(run.run, { host: 1 });
    const before = story.filter(n => n < 91).pop() + 1;
    assert.deepEqual(await marks(), { now: 0, last: [`${before}`], selected: 0 });
    await picture(browser, `found-${width}`);
    await browser.press("ArrowLeft");
    await says(browser, run, story[story.indexOf(before - 1) - (before === 91 ? 1 : 0)] + 1);
    assert.equal((await marks()).now, 1);
};

const a_large_fabric_is_read = async (browser, width) => {
    const milliseconds = await openedLarge(browser, 24, 150001);
    assert(milliseconds < 2000 * patience(), `opened in ${milliseconds} milliseconds`);
    await browser.value("Page.step(100004)");
    await browser.press("f");
    const named = ["h3434", "e23.10", "a23.10", "c10.10", "a19.10", "e19.10", "h2858"];
    const shown = await texts(browser);
    for (const name of named) assert(shown.includes(name), `${name} at ${width}: ${shown}`);
    await fits(browser);
    await picture(browser, `large-${width}`);
    const at = await placeOf(browser, "p.shown(p.podBox(3))");
    await browser.click(at.x, at.y);
    assert.deepEqual(await browser.value("[...Page.picture.open]"), [3]);
    await picture(browser, `large-open-${width}`);
    if (width > 600) assert((await texts(browser)).some(text => text === "e3.5" || text === ".5"));
    const name = await placeOf(browser, "(() => { const box = p.shown(p.podBox(3)); return { x: box.x, y: box.y + box.height / 2 - 5 }; })()");
    await browser.click(name.x, name.y);
    assert.deepEqual(await browser.value("[...Page.picture.open]"), []);
    const step = await browser.value(`(() => { const begun = performance.now(); for (let n = 0; n < 20; n++) Page.step(100004 - n);
        return (performance.now() - begun) / 20; })()`);
    assert(step < 30 * patience(), `a step takes ${step} milliseconds`);
};

// By keys alone: a pod is opened, all are opened and folded, and a row of the list is gone to.
const keys_reach_everything = async browser => {
    await openedLarge(browser, 8, 2000);
    const isFolding = await browser.value("Page.picture.layout.folds");
    await browser.value("Page.step(1900)");
    await browser.press("o");
    assert.equal(await browser.value("Page.picture.open.size"), isFolding ? 1 : 0);
    await browser.press("p");
    await browser.press("p");
    assert.equal(await browser.value("Page.picture.open.size"), isFolding ? 8 : 0);
    await browser.value("(() => { document.getElementById('journal').focus(); })()");
    await browser.press("ArrowDown");
    assert.equal(await browser.value("Page.page.state.entry"), 1901);
    assert.equal(await browser.value("document.getElementById('journal').getAttribute('aria-activedescendant')"), "journal-1900");
    await browser.press("ArrowUp");
    assert.equal(await browser.value("Page.page.state.entry"), 1900);
    const nameless = await browser.value(`[...document.querySelectorAll("button, input, select, canvas, [role=listbox], [role=table]")]
        .filter(e => !(e.getAttribute("aria-hidden") || e.getAttribute("aria-label") || e.textContent.trim() || e.title || e.closest("label"))).map(e => e.id)`);
    assert.deepEqual(nameless, []);
};

const the_rule_stands_below_the_sentence = async (browser, width) => {
    const run = await opened(browser, "tests/fabric/random-04");
    await browser.value("Page.step(81)");
    await says(browser, run, 81);
    assert.match(await browser.text("said"), /NoMember, it came back to its sender's own switch, and nobody else there has joined its group\.$/);
    const rule = await browser.text("rule");
    for (const part of ["no_way", "crates/pl_switch_rule/specs/GroupForwarding.antt", "cause_of"]) assert(rule.includes(part), rule);
    assert.match(await browser.text("look"), /^No loss: the tree/);
    await picture(browser, `rule-${width}`);
    const lost = run.journal.split("\n").findIndex(line => line.endsWith(" HostGone")) + 1;
    await browser.value(`Page.step(${lost})`);
    assert.equal(await browser.text("look"), Drops.said(run.run, lost - 1, At.at(run.states, lost), run.script));
    assert.match(await browser.text("look"), / is attached to port | moved away /);
    await browser.value("Page.step(80)");
    assert.equal(await browser.text("look"), "");
    assert((await browser.text("rule")).startsWith("Rule: "));
    assert.equal(await browser.value("document.getElementById('said').getAttribute('aria-live')"), "polite");
};

const loads_and_the_chart = async (browser, width) => {
    const run = await opened(browser, "examples/storm");
    await browser.value("Page.step(600)");
    await browser.press("l");
    assert.equal(await browser.value("document.getElementById('loads').getAttribute('aria-pressed')"), "true");
    const crossed = run.journal.split("\n").slice(0, 600).filter(line => /^crossed \d+ e0\.0$/.test(line)).length;
    const shown = await texts(browser);
    assert(shown.includes(`${crossed} frames`) || shown.includes(`${crossed}`), `${crossed}: ${shown}`);
    assert.match(await browser.text("scale"), /^frames over a link:1/);
    await picture(browser, `loads-${width}`);
    const box = await browser.value(`(() => { const e = document.querySelector("#chart > svg"); e.scrollIntoView({ block: "center" });
        const r = e.getBoundingClientRect(); return { x: r.x, y: r.y + r.height / 2, width: r.width }; })()`);
    await browser.click(box.x + box.width / 2, box.y);
    const entry = await browser.value("Page.page.state.entry");
    assert(Math.abs(entry - run.run.count / 2) <= run.run.count / box.width + 1, `${entry}`);
    await says(browser, run, entry);
    const { counts, causes } = At.at(run.states, entry);
    const label = await browser.value("document.getElementById('chart').getAttribute('aria-label')");
    assert(label.startsWith(`Frames so far: sent ${counts[Journal.KIND.sent]}, arrived ${counts[Journal.KIND.arrived]}, NoNextHop ${causes[1]}`), label);
};

// the points of a picture's canvas, or of all of its canvases as they lie on each other
const points = canvas => `(() => { const { canvas: top, layers } = Page.picture; const sheet = document.createElement("canvas");
    [sheet.width, sheet.height] = [top.width, top.height]; const context = sheet.getContext("2d", { willReadFrequently: true });
    for (const layer of ${canvas || "[layers.sheet, top]"}) context.drawImage(layer, 0, 0);
    return context.getImageData(0, 0, sheet.width, sheet.height).data; })()`;
const GROUND = points("[layers.ground.canvas]");
const BOXES = points("[layers.boxes.canvas]");

// how many numbers of the ground's points are other ones where all of it is drawn at once
const UNLIKE_WHOLE = `(() => { const kept = ${GROUND}; Ground.coarse.isWanted = () => false; Page.picture.layers.forget(); Page.draw(false); const whole = ${GROUND};
    let differ = 0; for (let at = 0; at < kept.length; at++) if (kept[at] !== whole[at]) differ++; return differ; })()`;

// Where a step draws a few places of the fabric anew, the picture is that of a fabric that is drawn whole, but for the edges of lines.
const a_place_is_drawn_anew_as_all_is = async browser => {
    const run = await opened(browser, "tests/fabric/random-04");
    const changing = run.journal.split("\n").flatMap((line, n) => (/^(linkdown|linkup|moved|granted) /.test(line) ? [n + 1] : []));
    for (const key of ["0", "l"]) {
        await browser.press(key);
        const differ = await browser.value(`(() => { const { layers } = Page.picture; const differ = [];
            for (const n of ${JSON.stringify(changing.slice(-8))}) { Page.step(n - 1); Page.step(n); Page.picture.catchUp(); const kept = ${points()}; layers.forget(); Page.draw(false);
                const whole = ${points()}; let most = 0; for (let at = 0; at < kept.length; at++) most = Math.max(most, Math.abs(whole[at] - kept[at]));
                if (most > 128) differ.push(n); } return differ; })()`);
        assert.deepEqual(differ, [], `behind ${key}`);
    }
};

// Boxes that are too small for outlines are drawn over themselves, near and far, with loads and without: all of them look the same.
const small_boxes_are_drawn_over_themselves = async (browser, width) => {
    await openedLarge(browser, 24, 30001);
    await browser.value("Page.picture.openPods(Page.picture.layout.pods.keys())");
    for (const key of ["0", "l"]) {
        await browser.press(key);
        const differ = await browser.value(`(() => { const { layers } = Page.picture; let differ = 0; Page.step(3000);
            for (const n of [3700, 4500, 4502, 30001, 9000, 9002, 20000, 3400]) { Page.step(n); Page.picture.catchUp(); const kept = ${BOXES}; layers.boxes.forget(); Page.draw(false);
                const whole = ${BOXES}; for (let at = 0; at < kept.length; at++) if (kept[at] !== whole[at]) differ++; } return differ; })()`);
        assert.equal(differ, 0, `behind ${key} at ${width}`);
    }
};

// Of what moves nothing is left behind where it was: its canvas is as one that was cleared whole.
const what_moves_leaves_nothing_behind = async browser => {
    for (const opens of [() => opened(browser, "examples/storm"), () => openedLarge(browser, 24, 30001)]) {
        await opens();
        const differ = await browser.value(`(() => { const { picture } = Page; const differ = []; const { count } = Page.page.run;
            for (const n of [700, 701, 702, 40, count, count - 1, 9, 300, 650]) { Page.step(n); picture.catchUp(); const kept = ${points("[top]")};
                picture.pen.noted = [{ x: 0, y: 0, width: picture.width, height: picture.height }]; Page.draw(false); const whole = ${points("[top]")};
                if (kept.some((part, at) => part !== whole[at])) differ.push(n); } return differ; })()`);
        assert.deepEqual(differ, []);
    }
};

// What takes long of the fabric follows in the next picture, and where steps follow each other for long it does not wait for the last of them.
const what_takes_long_follows = async browser => {
    await openedLarge(browser, 24, 30001);
    await browser.press("l");
    await browser.value("Page.picture.catchUp()");
    const late = await browser.value(`(() => { const { picture } = Page; Page.step(24000); const first = picture.layers.isLate;
        picture.since -= 1000; Page.step(29000); return [first, picture.layers.isLate]; })()`);
    assert.deepEqual(late, [true, false]);
    assert(await browser.value("(() => { Page.step(20000); return Page.picture.layers.isLate; })()"));
    await browser.until("!Page.picture.layers.isLate");
    const differ = await browser.value(`(() => { const kept = ${points()}; Page.picture.layers.forget(); Page.draw(false); const whole = ${points()};
        return kept.filter((part, at) => Math.abs(part - whole[at]) > 40).length; })()`);
    assert.equal(differ, 0); // but for the edges of letters
};

// Thousands of lines with their loads are drawn by pixels while steps follow each other, and as they are to stay behind the last one.
const many_lines_are_finished_behind_the_last_step = async browser => {
    await openedLarge(browser, 24, 30001);
    await browser.press("l");
    await browser.value("Page.picture.openPods(Page.picture.layout.pods.keys())");
    for (const [entry, zoomed] of [[24000, ""], [30001, ""], [24000, "Page.picture.zoom(3, 100, 200)"], [30001, "Page.picture.fit()"]]) {
        const wasCoarse = await browser.value(`(() => { ${zoomed}; Page.step(${entry}); Page.picture.catchUp(); Page.toCompare = ${GROUND}; return Page.picture.layers.isCoarse; })()`);
        assert(wasCoarse, `${entry}`);
        await browser.until("!Page.picture.layers.isCoarse");
        const apart = await browser.value(`(() => { const now = ${GROUND}; let sum = 0; for (let at = 0; at < now.length; at++) sum += Math.abs(now[at] - Page.toCompare[at]);
            return sum / now.length; })()`);
        assert(apart > 0 && apart < 12, `${apart} apart at ${entry}`); // of 255
    }
    assert.equal(await browser.value(UNLIKE_WHOLE), 0);
};

// They are finished part by part, and a step that comes between begins that anew.
const a_step_comes_between_the_parts_of_many_lines = async browser => {
    await openedLarge(browser, 24, 30001);
    await browser.press("l");
    await browser.value("Page.picture.openPods(Page.picture.layout.pods.keys())");
    const left = "Page.picture.layers.ground.parts.length";
    const lefts = await browser.value(`(async () => { const { picture } = Page; Page.step(24000); picture.catchUp(); const lefts = [];
        while (lefts.length < 4) { picture.finish(); lefts.push(${left}); } Page.step(30001); picture.catchUp();
        return [...lefts, ${left}, picture.layers.isCoarse]; })()`);
    const [most] = lefts;
    assert(most > 4, `${lefts}`);
    assert.deepEqual(lefts, [most, most - 1, most - 2, most - 3, 0, true]);
    await browser.until("!Page.picture.layers.isCoarse");
    assert.equal(await browser.value(UNLIKE_WHOLE), 0);
};

// A step makes no rows anew, so that it leaves no elements behind.
const rows_stay_from_step_to_step = async browser => {
    const run = await opened(browser, "examples/storm");
    await browser.value("(() => { Page.seen = new Set(); Page.most = 0; })()");
    for (const entry of [300, 299, 320, 700, 5, 6, 1000, 980, 12]) {
        await browser.value(`Page.step(${entry})`);
        await says(browser, run, entry);
        const order = await browser.value(`(() => { const rows = [...document.querySelectorAll("#journal .row")]; rows.forEach(row => Page.seen.add(row));
            Page.most = Math.max(Page.most, rows.length); return rows.map(row => Number(row.dataset.row)); })()`);
        assert.deepEqual(order, order.map((_, n) => order[0] + n));
    }
    assert.equal(await browser.value("Page.seen.size - Page.most"), 0);
    await browser.value("Page.step(5)");
    await browser.press("f");
    const story = Stories.of(run.run, { frame: run.run.a[4] });
    const shown = await browser.value("[...document.querySelectorAll('#journal .row code')].map(code => code.textContent)");
    assert.deepEqual(shown, story.slice(0, shown.length).map(n => `${n + 1}  ${Journal.text(run.run, n, 90)}`));
};

// The list is lower below a long sentence; steps that follow each other at once leave the row of now in its middle all the same.
const the_row_of_now_stays_in_the_middle = async browser => {
    await opened(browser, "examples/storm");
    const at = steps => browser.value(`(async () => { for (const n of ${JSON.stringify(steps)}) Page.step(n); await new Promise(done => requestAnimationFrame(() => setTimeout(done, 50)));
        const middle = e => { const r = e.getBoundingClientRect(); return r.y + r.height / 2; };
        return middle(document.querySelector("#journal .row.now")) - middle(document.getElementById("journal")); })()`);
    for (const steps of [[700], [40, 700, 699], [300, 301]]) {
        const apart = await at(steps);
        assert(Math.abs(apart) <= 62, `${steps}: ${apart}`);
    }
};

const a_line_of_another_kind_stops_nothing = async browser => {
    const folder = path.join(top, "examples/four-hosts");
    const lines = fs.readFileSync(path.join(folder, "expected/journal.txt"), "utf8").split("\n");
    lines.splice(60, 0, "paused 3 e0.0");
    const journal = path.join(work, "journal.txt");
    fs.writeFileSync(journal, lines.join("\n"));
    await browser.open(PAGE);
    await browser.choose([path.join(folder, "topology.toml"), journal]);
    await browser.until(isOpen(95));
    await browser.value("Page.step(61)");
    assert.equal(await browser.text("said"), "A line of a kind that this page does not know, of which it draws nothing: paused 3 e0.0.");
    await browser.press("End");
    assert.equal(await browser.text("raw"), lines[94]);
};

const rowsOfTable = browser => browser.value("[...document.querySelectorAll('#table .row')].map(row => [...row.children].map(cell => cell.textContent.trim()))");

const what_the_fabric_knows = async (browser, width) => {
    const run = await opened(browser, "examples/four-hosts");
    await browser.press("End");
    await browser.clickOn("#tab-fabric");
    const lines = run.journal.split("\n");
    const first = lines.findIndex(line => /^placed (e\S+ 0 \d+ \d+|a\S+ 1 - \d+|c\S+ 2 - -)$/.test(line));
    const [row] = await rowsOfTable(browser);
    assert.deepEqual([row[0], row[1], row[3]], ["1", lines[first].split(" ")[1], `entry ${first + 1}`]);
    assert.match(await browser.text("known"), /^\d+ of 20 switches are placed$/);
    await browser.value("(() => { const e = document.getElementById('knowledge'); e.value = 'addresses'; e.dispatchEvent(new Event('change')); })()");
    assert.equal(await browser.text("known"), "4 granted, 4 registered, 0 freed");
    await browser.clickOn("#filter");
    await browser.write("e0.1");
    const rows = await rowsOfTable(browser);
    assert.deepEqual(rows.map(cells => cells[1]), ["c"]);
    await picture(browser, `knowledge-${width}`);
    await browser.clickOn("#table .row span:last-child button");
    assert.match(await browser.text("raw"), /^granted 00:00:01:00:00:01 c /);
};

const a_second_run_goes_beside = async (browser, width) => {
    const journal = path.join(work, "journal.txt");
    fs.copyFileSync(besideOf("learnt"), journal);
    await browser.open(PAGE);
    await browser.choose([path.join(LEARNT, "topology.toml"), journal, path.join(LEARNT, "script")]);
    await browser.until(isOpen(93));
    await browser.choose([path.join(LEARNT, "expected-bridge/journal.txt")], "#beside");
    await browser.until("document.getElementById('second').hidden === false");
    const bridge = open(LEARNT);
    const at = entry => `learning bridge: entry ${entry} of 525`;
    const begins = number => bridge.journal.split("\n").indexOf(`line ${number}`) + 1;
    assert.equal(await browser.text("second-where"), at(0));
    await browser.value("Page.toLine(3)");
    assert.equal(await browser.text("second-where"), `${at(begins(3))}, line 3 of the script`);
    await browser.press("ArrowRight");
    assert.equal(await browser.text("second-said"), Words.sentence(bridge.run, begins(3), bridge.script));
    await browser.value("Page.toLine(5)");
    await browser.press("ArrowLeft");
    assert.equal(await browser.text("second-where"), `${at(begins(5) - 1)}, line 4 of the script`);
    await browser.press("l");
    await picture(browser, `beside-${width}`);
    await browser.press("l");
    await browser.press("End");
    assert.equal(await browser.text("second-where"), `${at(525)}, line 6 of the script`);
    const crossed = await browser.value("[...document.querySelectorAll('#second-counts tr')].map(row => [...row.children].map(cell => cell.textContent))");
    const column = crossed[0].indexOf("crossed");
    assert(bridge.summary.includes(`crossings ${crossed[2][column]}`), `${crossed}`);
    await fits(browser);
    await browser.clickOn("#alone");
    assert.equal(await browser.value("document.getElementById('second').hidden"), true);
    await browser.choose([path.join(LEARNT, "expected-bridge/journal.txt")], "#beside");
    await browser.until("document.getElementById('second').hidden === false");
    await browser.choose(filesOf(path.join(top, "examples/group")));
    await browser.until("document.getElementById('second').hidden === true");
};

const the_welcome_page_shows_an_example = async (browser, width) => {
    await browser.open(PAGE);
    await picture(browser, `welcome-${width}`);
    await browser.choose([path.join(top, "examples/host-moves-twice/topology.toml")]);
    await browser.until("document.getElementById('wanted').textContent !== ''");
    assert.equal(await browser.text("wanted"), "Now open its journal.");
    assert.equal(await browser.text("refused"), "");
    assert.equal(await browser.value("document.getElementById('wanted').getAttribute('role')"), "status");
    const run = open("examples/host-moves-twice");
    await browser.clickOn("#example");
    await browser.until(isOpen(run.run.count));
    assert((await browser.text("opened")).startsWith("host-moves-twice: "));
    await browser.press("End");
    await says(browser, run, run.run.count);
};

const a_moment_is_kept = async (browser, width) => {
    const { run: moves } = open("examples/host-moves-twice");
    const entry = Stories.of(moves, { host: moves.fabric.names.get("d") })[3] + 1;
    const run = await opened(browser, "examples/host-moves-twice", `#entry=${entry}&story=d`);
    await says(browser, run, entry);
    assert((await browser.text("telling")).startsWith("host d: "));
    await browser.press("Escape");
    await browser.press("Home");
    await browser.press("ArrowRight");
    await browser.until("location.hash === '#entry=1'");
    await browser.value("(() => { location.hash = '#entry=40&story=3'; })()");
    await browser.until("Page.page.state.entry === 40");
    assert((await browser.text("telling")).startsWith("frame 3: "));
    const { root, title, size } = await browser.value(`(async () => {
        const where = [document.getElementById("where").textContent, document.getElementById("said").textContent];
        const svg = new DOMParser().parseFromString(Moment.svg(Page.picture, ...where), "image/svg+xml");
        const png = await Moment.png(Page.picture, ...where);
        const image = await createImageBitmap(png);
        return { root: svg.documentElement.nodeName, title: svg.querySelector("title").textContent, size: [image.width, image.height] }; })()`);
    assert.equal(root, "svg");
    assert.equal(title, `${await browser.text("where")}: ${await browser.text("said")}`);
    const shown = await browser.value("[Page.picture.width, Page.picture.height]");
    assert(size[0] === 2 * shown[0] && size[1] > 2 * shown[1], `${size} of ${shown} at ${width}`);
};

const packed_pages_open_at_a_moment = async browser => {
    const run = await packed(browser, "examples/host-moves-twice", "#entry=60");
    await says(browser, run, 60);
    await browser.value("(() => { location.hash = '#entry=70'; })()");
    await browser.until("Page.page.state.entry === 70");
    await says(browser, run, 70);
};

const aging_restarts_and_bridges_are_told = async browser => {
    for (const name of ["viewer/tests/runs/address-given-again", "tests/restart/after-aging", "tests/bridge/learnt"]) {
        const run = await opened(browser, name);
        for (const word of ["freed", "restarted", "linkdown"]) {
            const entry = run.journal.split("\n").findIndex(line => line.startsWith(`${word} `)) + 1;
            if (entry > 0) {
                await browser.value(`Page.step(${entry})`);
                await says(browser, run, entry);
            }
        }
        await browser.press("End");
        await says(browser, run, run.run.count);
    }
};

// Links that are none of the tree are dotted, and one of the tree that fails is crossed out; switches have no places, and hosts no addresses of theirs.
const the_tree_of_bridges_is_told_apart = async (browser, width) => {
    const run = await opened(browser, "tests/bridge/a-link-of-the-tree-fails");
    const fails = run.journal.split("\n").indexOf("linkdown e1.0 a1.0") + 1;
    for (const [entry, outside, failed] of [[0, 0, 0], [20, 20, 0], [fails, 20, 1]]) {
        await browser.value(`Page.step(${entry})`);
        const svg = await browser.value("Moment.svg(Page.picture, 'where', 'said')");
        const dashed = dash => svg.split(`stroke-dasharray="${dash}"`).length - 1;
        assert.deepEqual([dashed("1 5"), dashed("5 4")], [outside, failed], `at entry ${entry}`);
    }
    const shown = await texts(browser);
    assert(["a", "e0.0", "10.0.0.1"].every(text => shown.includes(text)) && !["?", "core", "no address"].some(text => shown.includes(text)), `${shown}`);
    await picture(browser, `bridges-${width}`);
};

module.exports = {
    the_page_fits_its_screen, fingers_name_and_zoom, nothing_covers_switches_or_names, what_is_found_is_not_taken_for_now,
    a_large_fabric_is_read, keys_reach_everything, the_rule_stands_below_the_sentence, loads_and_the_chart,
    what_moves_leaves_nothing_behind, what_takes_long_follows, a_place_is_drawn_anew_as_all_is, small_boxes_are_drawn_over_themselves,
    many_lines_are_finished_behind_the_last_step,
    a_step_comes_between_the_parts_of_many_lines, rows_stay_from_step_to_step,
    the_row_of_now_stays_in_the_middle, a_line_of_another_kind_stops_nothing, what_the_fabric_knows, a_second_run_goes_beside,
    the_welcome_page_shows_an_example, a_moment_is_kept, packed_pages_open_at_a_moment, aging_restarts_and_bridges_are_told,
    the_tree_of_bridges_is_told_apart,
};
