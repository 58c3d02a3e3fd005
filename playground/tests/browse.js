"use strict";
// The playground in headless browsers: it is opened from the disk and used as a reader would, and what it plays is compared byte for byte.
//
//     node playground/tests/browse.js chromium|firefox PROGRAM    DETAILS=1 prints what each test did; ONLY_TEST has a pattern of names
const fs = require("fs");
const os = require("os");
const path = require("path");
const { pageFile } = require("./load.js");
const [, , kind, program] = process.argv;
const { begin } = require(`../../viewer/tests/${kind === "firefox" ? "firefox" : "browser"}.js`);
const tests = Object.entries(require("./using.js")).filter(([name]) => new RegExp(process.env.ONLY_TEST || "").test(name));

// nothing was asked of a network, and no script failed or was kept from running
const isQuiet = (browser, allowed) => {
    const asked = browser.asked.filter(url => !/^(file|data|blob|about):/.test(url));
    if (asked.length > 0) throw new Error(`the page asked for ${asked}`);
    const errors = browser.errors.filter(error => !allowed || !allowed.test(error));
    if (errors.length > 0) throw new Error(`the page's scripts failed: ${errors.join("; ")}`);
};

// Opens the page, with nothing kept from before unless it is to be.
const openerOf = browser => async (end = "", { file = pageFile, keeps = false } = {}) => {
    if (!keeps) {
        await browser.open(file);
        await browser.value("Bench.ready.then(() => { localStorage.clear(); return 1; })");
        await browser.value("(Sharing.keep = async () => '', 1)"); // the page that is left keeps nothing
    }
    await browser.open(file, end);
    await browser.value("Bench.ready.then(() => 1)");
};

const main = async () => {
    const browser = await begin(program, 1366, 768);
    const work = fs.mkdtempSync(path.join(os.tmpdir(), "portland-playground-"));
    let failed = 0;
    try {
        for (const [name, test] of tests) {
            const began = Date.now();
            try {
                await browser.size(1366, 768);
                const did = await test({ browser, open: openerOf(browser), work, kind });
                isQuiet(browser, test.allowed);
                if (process.env.DETAILS) console.log(`${kind}: ${name}: ${did || "passed"}, ${Date.now() - began} ms`);
            } catch (error) {
                failed++;
                console.log(`${kind}: ${name}: ${error.stack}`);
            }
        }
    } finally {
        await browser.close();
        fs.rmSync(work, { recursive: true, force: true });
    }
    console.log(`tests/check/playground: browser ${kind}: ${tests.length - failed} of ${tests.length} passed`);
    return failed === 0 ? 0 : 1;
};

main().then(status => process.exit(status), error => {
    console.log(`tests/check/playground: browser ${kind}: ${error.message}`);
    process.exit(1);
});
