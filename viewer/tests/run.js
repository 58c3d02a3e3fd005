"use strict";
// Runs the tests that need no browser: each is a plain function that throws where it fails.
const tests = ["reading", "playing", "telling", "saying", "showing", "dropping", "sifting", "packing"].flatMap(name => Object.entries(require(`./${name}.js`)));
let failed = 0;
for (const [name, test] of tests) {
    try {
        test();
    } catch (error) {
        failed++;
        console.log(`${name}: ${error.stack}`);
    }
}
console.log(`tests/check/page: functions: ${tests.length - failed} of ${tests.length} passed`);
process.exit(failed === 0 ? 0 : 1);
