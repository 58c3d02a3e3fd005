"use strict";
// Which rules are behind an event of a log: the names of definitions by which Rules finds them, by what happens and by the lines below it.
globalThis.Why = (() => {
    const { EVENT } = Journal;

    const BY_EVENT = {
        tick: ["announcement"], leaves: ["ComesOut"], fail: ["link_failed"], repair: ["link_repaired"], lose: ["item_lost"], move: ["host_moved"],
        start: ["starting"], send: ["holding"], raw: ["holding"], retry: ["retrying"], join: ["membership_frame"], leave: ["membership_frame"],
        restart: ["manager_restarted"],
    };

    // by what a switch hears over a link or of the manager
    const AT_SWITCH = {
        ldm: "after_message", proposal: "answers_proposal", unread: "control_comes", pod: "takes_pod", answer: "answer_frame", flood: "answer_frame",
        avoid: "Avoids", invalidate: "invalidates", release: "frees_at", hello: "hears_hello", tree: "tree_part",
    };
    // by what the manager hears of a switch
    const AT_MANAGER = {
        place: "view_after", link: "is_alive", podwanted: "first_free", learned: "learnt_as", aged: "hears_aged", trapped: "with_trap", begin: "hears_begin",
        end: "goes_through", query: "lookup", members: "needed_edges",
    };
    // by other lines below an event
    const BY_LINE = {
        "says avoid": "Avoids", "says tree": "tree_part", "says invalidate": "invalidation", "sends proposal": "proposes_at", "tells query": "asks_manager",
        "tells members": "hears_members", "tells aged": "to_rest", "tells link": "is_usable", "does redirect": "redirects", "does free": "frees_at",
    };

    const PASSES = ["leads_from_edge", "leads_from_aggregation", "leads_from_core"];

    // of a frame that comes to a switch: how it is learnt of, and what becomes of it
    const ofFrame = (run, n, { words: [id] }, lines) => {
        const kindOf = name => lines.find(({ verb, kind }) => verb === "does" && kind === name);
        const drop = kindOf("drop");
        const { destination } = Frames.read(Journal.frame(run, Journal.beginning(run, Number(id))));
        const pass = Frames.isGroup(destination) ? "way_of" : PASSES[run.fabric.switches[run.a[n]].level];
        return [
            ...(lines.some(({ kind, words }) => kind === "port" && words[1] === "host") ? ["finds_host"] : []),
            ...(kindOf("grant") ? ["grants_next"] : []),
            ...(kindOf("take") ? ["is_for_switch"] : []),
            ...(kindOf("pass") ? [run.c[n] === EVENT.along || run.c[n] === EVENT.enters ? pass : "begins"] : []),
            ...(drop ? [drop.words[0]] : []),
        ];
    };

    const ofHeard = (run, n, heard, lines) => {
        if (!heard) return [];
        if (run.c[n] === EVENT.told) return [Manager.holdsAt(run, n) === "keeps" && !["begin", "end"].includes(heard.kind) ? "keeps_word" : "", AT_MANAGER[heard.kind]];
        if (heard.kind === "frame") return ofFrame(run, n, heard, lines);
        if (heard.kind === "vote") return ["counts", heard.words[3] === "granted" ? "with_granted" : "gives_way"];
        return [AT_SWITCH[heard.kind], ...ofMessage(heard, lines)];
    };

    // what a location message brings about besides
    const ofMessage = ({ kind }, lines) => {
        const knows = name => lines.some(line => line.verb === "knows" && line.kind === name);
        const grants = lines.some(line => line.verb === "does" && line.kind === "grant") ? ["settles_in"] : [];
        if (kind !== "ldm") return grants;
        return [...(knows("place") ? ["level_after", "pod_after"] : []), ...(knows("hold") ? ["notes_position"] : []), ...grants];
    };

    // the names of the definitions behind event n, none twice
    const of = (run, n) => {
        const lines = Said.below(run, n);
        const heard = lines.find(({ verb }) => verb === "heard") || null;
        const probes = run.c[n] === EVENT.tick && lines.some(({ verb, kind }) => verb === "does" && kind === "make") ? ["to_probe"] : [];
        const silent = run.c[n] === EVENT.tick && lines.some(({ verb, kind }) => verb === "knows" && kind === "silent") ? ["aged"] : [];
        const others = lines.map(({ verb, kind }) => BY_LINE[`${verb} ${kind}`]);
        const names = [...silent, ...(BY_EVENT[Journal.EVENTS[run.c[n]]] || []), ...ofHeard(run, n, heard, lines), ...others, ...probes];
        return [...new Set(names.filter(Boolean))];
    };

    return { of };
})();
