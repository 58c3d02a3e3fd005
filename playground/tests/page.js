"use strict";
// The page in the repository: it is packed of these files, asks nothing of a network, and its policy lets no other script run.
const assert = require("assert");
const crypto = require("crypto");
const { execFileSync } = require("child_process");
const fs = require("fs");
const path = require("path");
const { top, page, pageFile } = require("./load.js");

exports.page_is_packed_of_these_files = () => {
    let made;
    try {
        made = execFileSync(path.join(top, "playground", "pack"), ["--of", pageFile], { maxBuffer: 1 << 27 }).toString();
    } catch (error) {
        if (error.code === "ENOENT") return "no python3 to pack it";
        throw error;
    }
    assert.ok(made === page(), "playground/portland.html is behind what it is made of: tools/playground --page packs it again");
    return undefined;
};

exports.policy_is_strict = () => {
    const text = page();
    const policy = /<meta http-equiv="Content-Security-Policy" content="([^"]*)">/.exec(text)[1];
    assert.match(policy, /^default-src 'none';/);
    for (const word of ["unsafe-inline", "unsafe-eval'", "http:", "https:", " * ", "connect-src"]) assert.ok(!policy.replaceAll("'wasm-unsafe-eval'", "").includes(word), word);
    const sums = [...text.matchAll(/<script>([^]*?)<\/script>/g)].map(([, script]) => `'sha256-${crypto.createHash("sha256").update(script).digest("base64")}'`);
    assert.ok(sums.length > 40);
    for (const sum of sums) assert.ok(policy.includes(sum), `a script is not in the policy: ${sum}`);
    assert.strictEqual(policy.match(/sha256-/g).length, sums.length + 1);
    assert.ok(!/ on[a-z]+="|javascript:|<(?:script|link|img|iframe)[^>]* (?:src|href)="(?!data:)/.test(text.replace(/<script[^>]*>[^]*?<\/script>/g, "")), "markup that runs or asks for something");
    assert.ok(!/<[a-z][^<>]* style=/.test(text.replace(/<script[^>]*>[^]*?<\/script>/g, "")), "markup with a style of its own, which the policy refuses: give it a class");
};

exports.scripts_make_no_markup = () => {
    const names = fs.readdirSync(path.join(top, "playground")).filter(name => name.endsWith(".js"));
    for (const name of names) {
        const text = fs.readFileSync(path.join(top, "playground", name), "utf8");
        assert.ok(!/\.innerHTML|insertAdjacentHTML|document\.write|\beval\(|new Function\(|createContextualFragment|DOMParser|\.srcdoc/.test(text), name);
        assert.ok(!/\bfetch\(|XMLHttpRequest|WebSocket|sendBeacon|EventSource/.test(text), `${name} asks a network`);
    }
};

exports.each_example_says_what_it_shows = () => {
    const examples = JSON.parse(require("./load.js").partOf("examples"));
    assert.ok(Object.keys(examples).length >= 20);
    for (const [name, example] of Object.entries(examples)) {
        const { about } = example;
        Scenario.ofLetters(example);
        assert.ok(about.length > 60 && about.length < 500 && /[.:]$/.test(about), `${name}: ${about}`);
    }
};
