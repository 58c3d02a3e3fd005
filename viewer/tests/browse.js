"use strict";
// The page in headless browsers: it is opened from the disk and used by keys, clicks, touches and files, and what it says is
// compared with the journals.
//
//     node browse.js chromium|firefox PROGRAM
const fs = require("fs");
const using = require("./using.js");
const points = require("./points.js");
const seen = require("./seen.js");
const { work, isQuiet } = require("./pages.js");

const [, , kind, program] = process.argv;
const { begin } = require(kind === "firefox" ? "./firefox.js" : "./browser.js");
const WIDTHS = [[390, 844], [1280, 800], [1920, 1080]];
const WIDE = [1366, 768];
// What the driver of Firefox cannot do: it drops no files, and chooses no folders.
const CHROMIUM_ALONE = ["a_folder_is_dropped", "a_folder_is_opened"];

const tests = [
    ...Object.entries(using).filter(([name]) => kind !== "firefox" || !CHROMIUM_ALONE.includes(name)).map(([name, test]) => [name, test, WIDE]),
    ...WIDTHS.flatMap(size => Object.entries({ ...points, ...seen }).map(([name, test]) => [`${name}, ${size[0]} wide`, test, size])),
].filter(([name]) => name.includes(process.env.ONLY || ""));

const run = async browser => {
    let failed = 0;
    for (const [name, test, [width, height]] of tests) {
        try {
            await browser.size(width, height);
            await test(browser, width);
            isQuiet(browser);
        } catch (error) {
            failed++;
            console.log(`${kind}: ${name}: ${error.stack}`);
        }
    }
    return failed;
};

const main = async () => {
    const browser = await begin(program, ...WIDE);
    let failed = 0;
    try {
        failed = await run(browser);
    } finally {
        await browser.close();
        fs.rmSync(work, { recursive: true, force: true });
    }
    console.log(`tests/check/page: browser ${kind}: ${tests.length - failed} of ${tests.length} passed`);
    return failed === 0 ? 0 : 1;
};

main().then(status => process.exit(status), error => {
    console.log(`tests/check/page: browser ${kind}: ${error.message}`);
    process.exit(1);
});
