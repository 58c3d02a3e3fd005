"use strict";
// How fast the module of the page is beside the native program: processor seconds of one run each, as node plays it, and seconds in browsers.
//
//     node playground/tests/speed.js NATIVE FOLDER SCRIPT [chromium|firefox PROGRAM]
//
// FOLDER has topology.toml, captures/ and scripts, as `tools/measure --keep DIR` makes them (start, traffic).
const { spawnSync } = require("child_process");
const fs = require("fs");
const os = require("os");
const path = require("path");
const { moduleOf, pageFile, filesOf, wordsOf } = require("./load.js");
const [, , native, folder, script, kind, program] = process.argv;

const filesWith = name => {
    const files = filesOf(folder);
    files.set("script", new Uint8Array(fs.readFileSync(path.join(folder, name))));
    return files;
};

const row = (what, seconds, memory) => console.log(`| ${what} | ${seconds.toFixed(2)} | ${memory} |`);

// user and system seconds of the children of this process so far, by a shell's own account
const byNative = () => {
    const out = fs.mkdtempSync(path.join(os.tmpdir(), "portland-speed-"));
    const words = ["-c", 'import resource, subprocess, sys\nsubprocess.run(sys.argv[1:], stdout=subprocess.DEVNULL, check=True)\nused = resource.getrusage(resource.RUSAGE_CHILDREN)\nprint(used.ru_utime + used.ru_stime, used.ru_maxrss // 1024)',
        native, "run", "--topology", path.join(folder, "topology.toml"), "--script", path.join(folder, script), "--captures", path.join(folder, "captures"), "--out", out];
    const [seconds, memory] = spawnSync("python3", words).stdout.toString().trim().split(" ").map(Number);
    fs.rmSync(out, { recursive: true });
    row("the program", seconds, memory);
};

const byNode = () => {
    const files = filesWith(script);
    const module = moduleOf("portland");
    const before = process.cpuUsage();
    const answer = Machine.play(module, wordsOf("run"), files);
    const { user, system } = process.cpuUsage(before);
    row("node", (user + system) / 1e6, answer.memory >> 20);
};

const byBrowser = async () => {
    const { begin } = require(`../../viewer/tests/${kind === "firefox" ? "firefox" : "browser"}.js`);
    const browser = await begin(program, 1366, 768);
    try {
        await browser.open(pageFile);
        await browser.value("Bench.ready.then(() => 1)");
        const letters = Object.fromEntries([...filesWith(script)].map(([name, bytes]) => [name, Buffer.from(bytes).toString("base64")]));
        const { seconds, memory } = JSON.parse(await browser.value(`Runner.play("portland", ${JSON.stringify(wordsOf("run"))}, new Map(Object.entries(${JSON.stringify(letters)})
            .map(([name, text]) => [name, Bytes.ofLetters(text)]))).then(({ seconds, memory }) => JSON.stringify({ seconds, memory }))`));
        row(kind, seconds, memory >> 20);
    } finally {
        await browser.close();
    }
};

byNative();
byNode();
if (kind) byBrowser();
