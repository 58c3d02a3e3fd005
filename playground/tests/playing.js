"use strict";
// The module of the page plays each stored run, and every byte that comes of it is compared; its heap and its wide numbers are held against others.
const assert = require("assert");
const fs = require("fs");
const path = require("path");
const { moduleOf, partOf, filesOf, wordsOf, WORDS, storedRuns, expectedOf, difference, top } = require("./load.js");

exports.stored_runs = () => {
    const wrong = [];
    const runs = storedRuns();
    for (const { run, command, expected } of runs) {
        const answer = Machine.play(moduleOf("portland"), wordsOf(command), filesOf(run));
        const differs = difference(answer, expectedOf(expected));
        if (differs) wrong.push(`${path.relative(top, run)} by ${command}: ${differs}`);
    }
    assert.ok(runs.length > 150, `${runs.length} stored runs alone`);
    assert.deepStrictEqual(wrong, []);
    return `${runs.length} stored runs`;
};

exports.stored_logs = () => {
    if (!partOf("watch")) return "no module that watches";
    const examples = path.join(top, "examples");
    const runs = fs.readdirSync(examples).filter(name => fs.existsSync(path.join(examples, name, "expected-watch", "log.txt")));
    for (const name of runs) {
        const answer = Machine.play(moduleOf("watch"), WORDS, filesOf(path.join(examples, name)));
        assert.strictEqual(answer.status, 0, answer.err);
        assert.ok(answer.out === fs.readFileSync(path.join(examples, name, "expected-watch", "log.txt"), "utf8"), `the log of ${name} is another`);
    }
    return `${runs.length} stored logs`;
};

exports.other_commands = () => {
    const folder = path.join(top, "examples", "four-hosts");
    const files = filesOf(folder);
    const check = Machine.play(moduleOf("portland"), ["check", "--topology", "topology.toml"], files);
    assert.deepStrictEqual([check.status, check.out], [0, "k 4 edge 8 aggregation 8 core 4 links 32 hosts 4\n"]);
    const journal = fs.readFileSync(path.join(folder, "expected", "journal.txt"));
    const verify = Machine.play(moduleOf("portland"), ["verify", "--topology", "topology.toml", "--journal", "journal.txt"], new Map([...files, ["journal.txt", journal]]));
    assert.deepStrictEqual([verify.status, verify.out], [0, "legal 94\n"]);
    const usage = Machine.play(moduleOf("portland"), ["fly"], new Map());
    assert.strictEqual(usage.status, 2);
    assert.ok(usage.err.startsWith("portland: usage: run --topology T"));
};

// ---- a stream of numbers that is the same at each call (xorshift)
const numbers = seed => {
    let state = BigInt(seed);
    return () => {
        state ^= (state << 13n) & 0xffffffffffffffffn;
        state ^= state >> 7n;
        state ^= (state << 17n) & 0xffffffffffffffffn;
        return state;
    };
};
const below = (next, most) => Number(next() % BigInt(most));

// blocks are taken, made larger and smaller, and given back: each keeps what was written into it, and none lies in another
exports.heap = () => {
    const { heap_take: take, heap_retake: retake, heap_give: give, memory } = Machine.instance(moduleOf("portland"));
    const next = numbers(88172645463325252n);
    const bytes = (address, length) => new Uint8Array(memory.buffer, Number(address), length);
    const sizeOf = () => (below(next, 50) === 0 ? below(next, 1 << 20) : below(next, 4) === 0 ? below(next, 5000) : below(next, 200));
    const blocks = [];
    const fill = block => bytes(block.address, block.length).fill(block.mark);
    const holds = block => bytes(block.address, block.length).every(byte => byte === block.mark);
    let most = 0;
    for (let turn = 0; turn < 60000; turn++) {
        const way = below(next, blocks.length > 800 ? 2 : 3);
        if (way === 2 || blocks.length === 0) {
            const block = { length: sizeOf(), mark: turn % 251 };
            block.address = take(BigInt(block.length));
            assert.ok(block.address > 0n && block.address % 16n === 0n, `a block at ${block.address}`);
            fill(block);
            blocks.push(block);
        } else {
            const at = below(next, blocks.length);
            const block = blocks[at];
            assert.ok(holds(block), `turn ${turn}: a block of ${block.length} bytes was changed by another`);
            if (way === 0) {
                give(block.address);
                blocks[at] = blocks[blocks.length - 1];
                blocks.pop();
            } else {
                const kept = Math.min(block.length, block.length = sizeOf());
                block.address = retake(block.address, BigInt(block.length));
                assert.ok(bytes(block.address, kept).every(byte => byte === block.mark), `turn ${turn}: a block lost bytes where it was made ${block.length} long`);
                fill(block);
            }
        }
        most = Math.max(most, blocks.reduce((sum, { length }) => sum + length, 0) * (turn % 500 === 0 ? 1 : 0));
    }
    blocks.sort((a, b) => (a.address < b.address ? -1 : 1));
    blocks.forEach((block, n) => assert.ok(n === 0 || blocks[n - 1].address + BigInt(blocks[n - 1].length) <= block.address, "two blocks have bytes in common"));
    assert.ok(memory.buffer.byteLength < 2 * most + (24 << 20), `${memory.buffer.byteLength} bytes for ${most}`);
    return `60000 turns, ${memory.buffer.byteLength} bytes of memory for ${most}`;
};

// more than there is is refused, and what was taken before is whole
exports.heap_that_is_spent = () => {
    const { heap_take: take, heap_retake: retake, memory } = Machine.instance(moduleOf("portland"));
    const first = take(1000n);
    new Uint8Array(memory.buffer, Number(first), 1000).fill(7);
    for (const length of [1n << 32n, 1n << 40n, 1n << 62n, 0xffffffffffffffffn]) {
        assert.strictEqual(take(length), 0n);
        assert.strictEqual(retake(first, length), 0n);
    }
    assert.ok(new Uint8Array(memory.buffer, Number(first), 1000).every(byte => byte === 7));
    assert.ok(take(1000n) > 0n);
};

exports.wide_numbers = () => {
    const { wide } = Machine.instance(moduleOf("portland"));
    const next = numbers(2463534242n);
    const [ones, mask] = [(1n << 64n) - 1n, (1n << 128n) - 1n];
    const EDGES = [0n, 1n, 2n, 0xffffffffn, 0x100000000n, ones, 1n << 63n, ones - 1n];
    const half = () => (below(next, 4) === 0 ? EDGES[below(next, EDGES.length)] : next());
    const signed = value => BigInt.asIntN(64, value);
    const result = (which, x, y) => {
        const words = [which, ...[x & ones, x >> 64n, y & ones, y >> 64n].map(signed)];
        return BigInt.asUintN(64, wide(...words, 0)) | BigInt.asUintN(64, wide(...words, 1)) << 64n;
    };
    for (let turn = 0; turn < 30000; turn++) {
        const [x, y] = [half() | half() << 64n, half() | half() << 64n];
        assert.strictEqual(result(0, x, y), x * y & mask, `${x} times ${y}`);
        const by = y % 128n;
        assert.strictEqual(result(1, x, by), x << by & mask, `${x} to the left by ${by}`);
        assert.strictEqual(result(2, x, by), x >> by, `${x} to the right by ${by}`);
    }
    return "30000 products and 60000 shifts";
};

exports.comparisons = () => {
    const { compare, heap_take: take, memory } = Machine.instance(moduleOf("portland"));
    const next = numbers(123456789n);
    const address = take(200n);
    const bytes = new Uint8Array(memory.buffer, Number(address), 200);
    for (let turn = 0; turn < 20000; turn++) {
        const [length, first, second] = [below(next, 60), below(next, 8), 100 + below(next, 8)];
        for (let n = 0; n < length; n++) bytes[first + n] = bytes[second + n] = below(next, 256);
        if (length > 0 && below(next, 3) > 0) bytes[second + below(next, length)] = below(next, 256);
        const want = Buffer.compare(bytes.slice(first, first + length), bytes.slice(second, second + length));
        assert.strictEqual(Math.sign(compare(address + BigInt(first), address + BigInt(second), BigInt(length))), want);
    }
};
