"use strict";
// Reads a script: its lines, the words of each, and a sentence that says what the line asks for. A line that this page cannot
// say in words keeps its own.
globalThis.Script = (() => {
    const hosts = who => (who === "all" ? "each host, in the order of the topology," : `host ${who}`);

    const records = (host, count) => {
        if (count === undefined) return `the next record of ${host}'s capture`;
        return count === "all" ? `all records that are left of ${host}'s capture` : `the next ${count} records of ${host}'s capture`;
    };

    const SENTENCES = {
        start: ([who]) => `${hosts(who)} announces itself by an ARP request for its own address`,
        send: ([host, count]) => `${records(host, count)} is sent, for the address that the host knows of its receiver`,
        raw: ([host, count]) => `${records(host, count)} is sent as recorded`,
        retry: ([who]) => `${hosts(who)} asks again for each address for which it holds frames`,
        join: ([host, group]) => `host ${host} joins the group ${group}`,
        leave: ([host, group]) => `host ${host} leaves the group ${group}`,
        move: ([host, edge, port]) => `host ${host} moves to port ${port} of ${edge}`,
        fail: ([a, b]) => `the link between ${a} and ${b} fails`,
        repair: ([a, b]) => `the link between ${a} and ${b} is repaired`,
        lose: ([a, b]) => `what is first in the queue from ${a} to ${b} is lost`,
        deliver: ([from, to]) => `what is first in the queue from ${from} to ${to} is delivered`,
        tick: ([who]) => (who === "all" ? "each switch ticks once" : `switch ${who} ticks once`),
        sweep: ([n]) => `${n} times, all that waits in the queues is delivered`,
        settle: ([n]) => `rounds until nothing is left to do, ${n} at most: each switch ticks, then queues are swept`,
        random: ([seed, n]) => `${n} steps that are drawn by the number ${seed}`,
        restart: () => "the fabric manager forgets all that it knows, and the switches tell it again",
        expect: ([what, ...rest]) => (Object.hasOwn(CHECKS, what) ? `it is checked that ${CHECKS[what](rest)}` : rest.join(" ")),
    };

    // what a word asks for where learning bridges play
    const ON_BRIDGES = {
        settle: ([n]) => `sweeps until nothing waits in the queues, ${n} at most`,
    };

    const CHECKS = {
        arrived: ([host, n]) => `${n} frames have arrived at host ${host}`,
        dropped: ([cause, n]) => `${n} frames were dropped as ${cause}`,
        address: ([host, address]) => `the address of host ${host} that was registered last is ${address}`,
        settled: () => "the last settle line left the fabric settled",
    };

    const read = text => {
        const lines = text.split("\n");
        if (lines[lines.length - 1] === "") lines.pop();
        return lines.map(line => line.replace(/\r$/, ""));
    };

    const commentOf = line => (line.includes("#") ? line.replace(/^[^#]*#+ ?/, "") : "");

    // the comments of a line of the script: those right above it, and its own
    const comment = (lines, number) => {
        const own = lines[number - 1] === undefined ? "" : commentOf(lines[number - 1]);
        let first = number - 1;
        while (first > 0 && /^\s*#/.test(lines[first - 1])) first--;
        return [...lines.slice(first, number - 1).map(commentOf), own].filter(text => text !== "").join("\n");
    };

    const wordsOf = line => line.replace(/#.*/, "").split(/[ \t]+/).filter(word => word !== "");

    const sentence = (line, isOfBridge = false) => {
        const [first, ...rest] = wordsOf(line);
        if (first === undefined) return "";
        const isWhole = rest.length > 0 || first === "restart";
        const said = isOfBridge && Object.hasOwn(ON_BRIDGES, first) ? ON_BRIDGES : SENTENCES;
        return Object.hasOwn(said, first) && isWhole ? said[first](rest) : rest.join(" ");
    };

    return { read, wordsOf, sentence, comment };
})();
