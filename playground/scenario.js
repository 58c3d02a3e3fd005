"use strict";
// A scenario: what is played. It comes from an example, from what the browser kept, from a link or from a page that was shared; what comes from
// outside is looked at part by part before any of it is used, and is text and bytes wherever it goes.
globalThis.Scenario = (() => {
    const VERSION = 1;
    const MOST_LINK = 4 << 20; // what a link or a page may unpack to
    const COMMANDS = ["run", "bridge", "check", "verify", "gen"];
    const NAME = /^[A-Za-z0-9_-][A-Za-z0-9_.-]{0,63}$/;

    const empty = () => ({ title: "", command: "run", topology: "", script: "", captures: new Map(), gen: { k: "4", number: "1", frames: "100" } });

    const toLetters = scenario => ({
        ...scenario, version: VERSION, captures: Object.fromEntries([...scenario.captures].map(([name, bytes]) => [name, Bytes.lettersOf(bytes)])),
    });

    const isText = value => typeof value === "string";
    const fault = what => new Error(`it is damaged: ${what}`);

    const capturesOf = given => {
        if (typeof given !== "object" || given === null) throw fault("it has no captures");
        return new Map(Object.entries(given).map(([name, letters]) => {
            if (!NAME.test(name)) throw fault("a capture has a name that a topology cannot have");
            if (!isText(letters) || !/^[A-Za-z0-9+/]*={0,2}$/.test(letters)) throw fault(`the capture ${name} is no bytes`);
            return [name, Bytes.ofLetters(letters)];
        }));
    };

    // A scenario of what JSON gave, which may be anything.
    const ofLetters = given => {
        if (typeof given !== "object" || given === null) throw fault("it is no scenario");
        if (Number.isInteger(given.version) && given.version > VERSION) throw new Error("it was made by a newer version of this page: open it with that one");
        if (given.version !== VERSION) throw fault("it has no version");
        for (const key of ["topology", "script"]) if (!isText(given[key])) throw fault(`it has no ${key}`);
        const gen = empty().gen;
        for (const key of Object.keys(gen)) if (given.gen && isText(given.gen[key]) && /^\d{1,20}$/.test(given.gen[key])) gen[key] = given.gen[key];
        return {
            title: isText(given.title) ? given.title.slice(0, 200) : "",
            command: COMMANDS.includes(given.command) ? given.command : "run",
            topology: given.topology, script: given.script, captures: capturesOf(given.captures), gen,
        };
    };

    const pack = async scenario => Bytes.lettersOf(await Bytes.packed(Bytes.ofText(JSON.stringify(toLetters(scenario)))));

    const parsed = text => {
        try {
            return JSON.parse(text);
        } catch (error) {
            throw new Error("it is damaged: it is no scenario", { cause: error });
        }
    };

    const unpack = async letters => {
        let bytes;
        try {
            bytes = Bytes.ofLetters(letters);
        } catch (error) {
            throw new Error("it is damaged: a part of it is missing", { cause: error });
        }
        let text;
        try {
            text = Bytes.textOf(await Bytes.unpacked(bytes, MOST_LINK));
        } catch (error) {
            if (/unpacks to more/.test(error.message)) throw error;
            throw new Error("it is damaged: a part of it is missing or changed", { cause: error });
        }
        return ofLetters(parsed(text));
    };

    // the end of a link that has the whole scenario, and what such an end has: null where it has none
    const toLink = async scenario => `#play=${VERSION}.${(await pack(scenario)).replaceAll("+", "-").replaceAll("/", "_").replaceAll("=", "")}`;
    const ofLink = async end => {
        const found = /^#play=(\d+)\.(.*)$/s.exec(end);
        if (!found) return null;
        if (Number(found[1]) > VERSION) throw new Error("it was made by a newer version of this page: open it with that one");
        if (!/^[\w-]+$/.test(found[2])) throw new Error("it is damaged: it has letters that no link has");
        return unpack(found[2].replaceAll("-", "+").replaceAll("_", "/"));
    };

    // The files that the program reads.
    const files = ({ topology, script, captures }) => new Map([
        ["topology.toml", Bytes.ofText(topology)], ["script", Bytes.ofText(script)], ...[...captures].map(([name, bytes]) => [`captures/${name}`, bytes]),
    ]);

    // The words of the command line.
    const words = ({ command, gen }) => ({
        run: ["run", "--topology", "topology.toml", "--script", "script", "--captures", "captures", "--out", "out"],
        bridge: ["bridge", "--topology", "topology.toml", "--script", "script", "--captures", "captures", "--out", "out"],
        check: ["check", "--topology", "topology.toml"],
        verify: ["verify", "--topology", "topology.toml", "--journal", "journal.txt"],
        gen: ["gen", "--k", gen.k, "--number", gen.number, "--frames", gen.frames],
    })[command];

    // what is wrong with the numbers of `gen`, or nothing
    const RANGES = { number: [0n, (1n << 64n) - 1n], frames: [1n, 100000n] };
    const genFault = gen => {
        const wrong = Object.entries(RANGES).find(([key, [least, most]]) => !/^\d{1,20}$/.test(gen[key]) || BigInt(gen[key]) < least || BigInt(gen[key]) > most);
        return wrong ? `${wrong[0]} is a number from ${wrong[1][0]} to ${wrong[1][1]}, in digits` : "";
    };

    return { genFault, VERSION, MOST_LINK, COMMANDS, NAME, empty, toLetters, ofLetters, pack, unpack, toLink, ofLink, files, words };
})();
