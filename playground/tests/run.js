"use strict";
// Runs the tests of the playground that need no browser: each is a function that throws where it fails, and may answer what it did.
//
//     node playground/tests/run.js [WORD]    those whose name has the word; DETAILS=1 prints what each did
const files = (process.env.ONLY || "texts page playing").split(" ");
const tests = files.flatMap(name => Object.entries(require(`./${name}.js`))).filter(([name]) => name.includes(process.argv[2] || ""));

const main = async () => {
    let failed = 0;
    for (const [name, test] of tests) {
        try {
            const did = await test();
            if (did && process.env.DETAILS) console.log(`${name}: ${did}`);
        } catch (error) {
            failed++;
            console.log(`${name}: ${error.stack}`);
        }
    }
    console.log(`tests/check/playground: functions: ${tests.length - failed} of ${tests.length} passed`);
    process.exit(failed === 0 ? 0 : 1);
};
main();
