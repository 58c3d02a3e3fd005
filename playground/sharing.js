"use strict";
// How a scenario goes on: kept in the browser while it is typed, as a link, as one page, as an archive.
globalThis.Sharing = (() => {
    const KEY = "portland playground";
    const MOST_KEPT = 3 << 20; // letters that a browser keeps for sure
    const MOST_CAPTURES = 8 << 20; // bytes that are tried at all
    const MOST_LETTERS = 60000; // of a link that programs pass on

    const keep = async scenario => {
        try {
            if ([...scenario.captures.values()].reduce((sum, { length }) => sum + length, 0) > MOST_CAPTURES) throw new Error("too much");
            const letters = await Scenario.pack(scenario);
            if (letters.length > MOST_KEPT) throw new Error("too much");
            localStorage.setItem(KEY, letters);
            return "";
        } catch {
            try {
                localStorage.setItem(KEY, await Scenario.pack({ ...scenario, captures: new Map() }));
                return "the captures are too large to be kept in the browser: save all, to have them";
            } catch {
                return "this browser keeps nothing for this page: save all, to have what you typed";
            }
        }
    };
    const kept = async () => {
        let letters = null;
        try {
            letters = localStorage.getItem(KEY);
        } catch {
            return null;
        }
        return letters ? Scenario.unpack(letters) : null;
    };
    const forget = () => {
        try {
            localStorage.removeItem(KEY);
        } catch {
            // nothing was kept
        }
    };

    const link = async scenario => {
        const end = await Scenario.toLink(scenario);
        const large = end.length > MOST_LETTERS ? `; it has ${end.length} letters, and some programs cut links: send the page instead` : "";
        return { address: `${window.location.href.replace(/#.*/, "")}${end}`, large };
    };

    const fileName = (scenario, ending) => `${(scenario.title || "portland").toLowerCase().replace(/[^a-z0-9]+/g, "-").replace(/^-+|-+$/g, "") || "portland"}.${ending}`;

    const page = async scenario => {
        const title = scenario.title || "portland: a scenario";
        Moment.save(new Blob([Source.withScenario(title, await Scenario.pack(scenario))], { type: "text/html" }), fileName(scenario, "html"));
    };

    // topology, script and captures as the program takes them, and what was saved
    const archive = (scenario, saved) => {
        const files = [...Scenario.files(scenario), ...saved].map(([path, bytes]) => [path, bytes]);
        Moment.save(new Blob([Bytes.zip(files)], { type: "application/zip" }), fileName(scenario, "zip"));
    };

    return { keep, kept, forget, link, page, archive, fileName };
})();
