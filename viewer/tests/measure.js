"use strict";
// How long the page takes with a large fabric: it opens a run of k = 24 with 3,456 hosts and 150,001 entries, and steps in it, near and
// far, and where the picture of the fabric is drawn anew. Each step is measured by the clock until it is painted, and until what of the fabric
// waits for the next picture is painted too; and by the processor time of the page's own thread, which is little more where other programs run.
//
//     node viewer/tests/measure.js PROGRAM [STEPS [PASSES [KINDS]]]
//
// PROGRAM is a Chromium; so many steps of each kind, 1,000 where it is not said. Of more passes over the same steps than one the first is
// told, and the least of each step, which is what it costs itself, whatever came between. Of KINDS, from one number to another as 1-4, those
// are measured alone.
const fs = require("fs");
const os = require("os");
const path = require("path");
const wide = require("./wide.js");
const { PAGE, work, isOpen } = require("./pages.js");
const { begin } = require("./browser.js");

const [K, ENTRIES, TIMES] = [24, 150001, 5];
const [LATE, SLOW] = [2000, 30]; // milliseconds of an opening and of a step

const median = numbers => [...numbers].sort((a, b) => a - b)[Math.floor(numbers.length / 2)];
const said = (limit, numbers) => {
    const round = number => Math.round(number * 10) / 10;
    const slow = numbers.filter(number => number > limit).length;
    return `median ${round(median(numbers))} ms, most ${round(Math.max(...numbers))} ms, ${slow} of ${numbers.length} above ${limit} ms`;
};

const files = () => {
    const written = [["topology.toml", wide.topology(K)], ["journal.txt", wide.journal(K, ENTRIES)]];
    return written.map(([name, text]) => {
        const file = path.join(work, name);
        fs.writeFileSync(file, text);
        return file;
    });
};

const opened = async (browser, run) => {
    await browser.open(PAGE);
    const begun = Date.now();
    await browser.choose(run);
    await browser.until(isOpen(ENTRIES), 60);
    return Date.now() - begun;
};

// the milliseconds that the page's thread has worked so far
const worked = async browser => {
    const { metrics } = await browser.call("Performance.getMetrics");
    return 1000 * metrics.find(({ name }) => name === "ThreadTime").value;
};

// in the page: the milliseconds until a step is painted, and until nothing of the fabric is behind
const STEP = `async n => { const painted = () => new Promise(done => requestAnimationFrame(() => setTimeout(done))); const { layers } = Page.picture;
    const begun = performance.now(); const first = painted(); Page.step(Page.toMeasure(n)); await first; const step = performance.now() - begun;
    while (layers.isLate) await painted(); return [step, performance.now() - begun]; }`;

// Steps of a kind: `before` is done first, and `to` says in the page to which entry step n goes.
const steps = async (browser, count, before, to) => {
    const [clock, whole, processor] = [[], [], []];
    await browser.value(`(() => { ${before}; Page.draw(false); Page.toMeasure = ${to}; Page.step(Page.toMeasure(${count - 1})); Page.picture.catchUp(); })()`);
    for (let n = 0; n < count; n++) {
        const begun = await worked(browser);
        const [step, all] = await browser.value(`(${STEP})(${n})`);
        clock.push(step);
        whole.push(all);
        processor.push(await worked(browser) - begun);
    }
    return { clock, whole, processor };
};

// to and back over the entries with these words, the last ones first
const around = (...words) => `(() => { const { run } = Page.page; const found = []; for (let n = run.count - 1; n >= 0; n--)
    if (${JSON.stringify(words)}.some(word => run.kind[n] === Journal.KIND[word])) found.push(n);
    return n => found[Math.floor(n / 2) % found.length] + (n % 2 === 0 ? 1 : 0); })()`;
const BACK = `n => ${ENTRIES} - n`;
const FAR = `n => (n * 48611 + 70001) % ${ENTRIES}`; // so many entries away that each comes by itself
const LOADS = `document.getElementById("loads").click()`;
const OPEN = "Page.picture.openPods(Page.picture.layout.pods.keys())";

const KINDS = [
    ["a step back", "", BACK],
    ["a step far away", "", FAR],
    ["a step at which a switch is placed or an address granted", "Page.step(4500)", around("granted", "placed")],
    ["a step at which a link fails or comes back", "Page.step(4500)", around("linkdown", "linkup")],
    ["a step back with the loads", LOADS, BACK],
    ["a step far away with the loads", LOADS, FAR],
    ["a step back with all pods open", OPEN, BACK],
    ["a step far away with all pods open", OPEN, FAR],
    ["a step at which a switch is placed or an address granted, with all pods open", `${OPEN}; Page.step(4500)`, around("granted", "placed")],
    ["a step at which a link fails or comes back, with all pods open", OPEN, around("linkdown", "linkup")],
    ["a step back with all pods open and the loads", `${LOADS}; ${OPEN}`, BACK],
    ["a step far away with all pods open and the loads", `${LOADS}; ${OPEN}`, FAR],
];

const leastOf = passes => passes[0].map((_, n) => Math.min(...passes.map(pass => pass[n])));

const main = async () => {
    const browser = await begin(process.argv[2], 1920, 1080);
    try {
        const run = files();
        const [count, passes] = [Number(process.argv[3] || 1000), Number(process.argv[4] || 1)];
        const [from, to = from] = (process.argv[5] || `1-${KINDS.length}`).split("-").map(Number);
        console.log(`before: ${os.loadavg()[0]} programs at work on ${os.cpus().length} processors`);
        await browser.call("Performance.enable");
        const openings = [];
        for (let n = 0; n < TIMES; n++) openings.push(await opened(browser, run));
        console.log(`opening: ${said(LATE, openings)}`);
        for (const [name, before, goes] of KINDS.slice(from - 1, to)) {
            await opened(browser, run);
            const taken = [await steps(browser, count, before, goes)];
            while (taken.length < passes) taken.push(await steps(browser, count, "", goes));
            console.log(`${name}, beside ${os.loadavg()[0]} programs:`);
            for (const [what, told] of [["clock", "by the clock"], ["whole", "with what follows"], ["processor", "of processor, with that"]]) {
                const of = taken.map(pass => pass[what]);
                console.log(`    ${told}, first: ${said(SLOW, of[0])}`);
                if (passes > 1) console.log(`    ${told}, least of ${passes}: ${said(SLOW, leastOf(of))}`);
            }
        }
        console.log(`behind: ${os.loadavg()[0]} programs at work`);
    } finally {
        await browser.close();
        fs.rmSync(work, { recursive: true, force: true });
    }
};

main().catch(error => { console.log(error.stack); process.exit(1); });
