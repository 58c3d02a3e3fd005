"use strict";
// What tests of the page do with it in a browser: they open runs and compare what the page says with the journals.
const assert = require("assert");
const fs = require("fs");
const os = require("os");
const path = require("path");
const { spawnSync } = require("child_process");
const { top, open, journalOf, patience } = require("./load.js");

const PAGE = path.join(top, "viewer/index.html");
const SHIFT = 8;
const work = fs.mkdtempSync(path.join(os.tmpdir(), "portland-pages-"));

const filesOf = folder => [path.join(folder, "topology.toml"), journalOf(folder), path.join(folder, "script")];
const isOpen = count => `document.body.dataset.open === "${count}"`;

// opens the page from the disk and a run in it by the file dialog
const opened = async (browser, folder, end = "") => {
    const run = open(folder);
    await browser.open(PAGE, end);
    await browser.choose(filesOf(run.folder));
    await browser.until(isOpen(run.run.count));
    return run;
};

// drops a run's folder on the page
const dropped = async (browser, folder) => {
    const run = open(folder);
    await browser.open(PAGE);
    await browser.drop([run.folder], 300, 300);
    await browser.until(isOpen(run.run.count));
    return run;
};

// opens the one page that viewer/pack makes of a run
const packed = async (browser, folder, end = "") => {
    const run = open(folder);
    const file = path.join(work, "page.html");
    const made = spawnSync(path.join(top, "viewer/pack"), [run.folder], { encoding: "buffer", maxBuffer: 1e9 });
    assert.equal(made.status, 0);
    fs.writeFileSync(file, made.stdout);
    await browser.open(file, end);
    await browser.until(isOpen(run.run.count));
    return run;
};

const commas = n => n.toLocaleString("en-US");

// what the page counts, as a summary has it
const asSummary = counts => counts.replace(/ \(.*\)/, "").replace(/(\d),(\d)/g, "$1$2").replace(/, /g, " ").replace("in flight", "flying");

// what the page says is what the journal has once so many entries have happened
const says = async (browser, { run, script, states }, entry) => {
    assert.match(await browser.text("where"), new RegExp(`^entry ${commas(entry)} of ${commas(run.count)}(,|$)`));
    assert.equal(await browser.text("raw"), entry === 0 ? "" : Journal.text(run, entry - 1, run.kind[entry - 1] === Journal.KIND.event ? Infinity : 400));
    if (entry > 0) assert.equal(await browser.text("said"), Words.sentence(run, entry - 1, script));
    const flying = At.at(states, entry).flying.size;
    assert((await browser.text("counts")).endsWith(`, in flight ${commas(flying)}`));
    const { folded } = Sift.of(run, null, Sift.NONE, script);
    const marked = await browser.value("[...document.querySelectorAll('#journal .row.now code')].map(code => code.textContent)");
    const isFolded = [...folded].some(([first, count]) => entry > first && entry <= first + count);
    if (!isFolded) assert.deepEqual(marked, entry === 0 ? [] : [`${entry}  ${Journal.text(run, entry - 1, 90)}`]);
};

// Saves a picture of the page as it is, where pictures are wanted.
const picture = async (browser, name) => {
    if (process.env.PICTURES) await browser.picture(path.join(process.env.PICTURES, `${name}.png`));
};

const isQuiet = browser => {
    assert.deepEqual(browser.errors, []);
    assert.deepEqual(browser.asked.filter(url => !/^(file|data):/.test(url)), []);
};

module.exports = { patience, PAGE, SHIFT, work, filesOf, isOpen, opened, dropped, packed, says, picture, isQuiet, asSummary };
