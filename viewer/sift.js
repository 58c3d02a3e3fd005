"use strict";
// What the list of a journal or a log shows: the entries with a text, of a kind, of a switch or a host; and lines of the script that did nothing, folded
// to one row.
globalThis.Sift = (() => {
    const { KIND, EVENT } = Journal;
    const NONE = { text: "", kind: "", who: "", folds: true };
    const SENTENCES = 20000; // of more entries their own text alone is looked through

    const isEvent = (run, n, ...events) => run.kind[n] === KIND.event && events.includes(run.c[n]);
    const heard = (run, n) => (run.kind[n] === KIND.event && run.spot[n] === Journal.HEARD.message ? Said.heard(run, n).kind : "");
    const is = (...words) => (run, n) => words.some(word => run.kind[n] === KIND[word]);

    // kinds of entries by their names: what they are called, whether a log alone has them, and whether an entry is one
    const KINDS = {
        frames: ["frames", false, (run, n) => Journal.frameOf(run, n) > 0],
        ends: ["ends of frames", false, is("arrived", "taken", "dropped")],
        drops: ["drops", false, is("dropped")],
        addresses: ["addresses", false, is("granted", "registered", "freed")],
        places: ["places", false, is("placed")],
        fabric: ["links, moves, restarts", false, (run, n) => is("linkdown", "linkup", "moved", "restarted")(run, n) || isEvent(run, n, EVENT.restart)],
        script: ["lines of the script", false, is("line", "settled", "unsettled")],
        location: ["location messages", true, (run, n) => run.c[n] === EVENT.along && heard(run, n) === "ldm"],
        votes: ["proposals and votes", true, (run, n) => ["proposal", "vote"].includes(heard(run, n))],
        manager: ["to and from the manager", true, (run, n) => run.kind[n] === KIND.event && At.isOfManager(run, n)],
        ticks: ["ticks", true, (run, n) => isEvent(run, n, EVENT.tick)],
    };

    const isAny = ({ text, kind, who }) => text.trim() !== "" || kind !== "" || who.trim() !== "";

    // the entries in whose own text another one stands: it is looked for in all of the file at once
    const withText = (run, wanted) => {
        const all = new TextDecoder("latin1").decode(run.bytes).toLowerCase();
        const found = new Set();
        let n = 0;
        for (let at = all.indexOf(wanted); at >= 0; at = all.indexOf(wanted, at + 1)) {
            while (n + 1 < run.count && run.start[n + 1] <= at) n++;
            found.add(n);
        }
        return found;
    };

    const textTest = (run, text, script) => {
        const wanted = text.trim().toLowerCase();
        if (wanted === "") return () => true;
        const found = withText(run, wanted);
        if (run.count > SENTENCES) return n => found.has(n);
        return n => found.has(n) || Words.sentence(run, n, script).toLowerCase().includes(wanted);
    };

    const whoTest = (run, who) => {
        if (who.trim() === "") return () => true;
        const subject = Stories.find(run, who);
        const story = new Set(subject ? Stories.of(run, subject) : []);
        return n => story.has(n);
    };

    const sifted = (run, entries, { text, kind, who }, script) => {
        const [hasKind, hasWho] = [KINDS[kind] ? KINDS[kind][2] : () => true, whoTest(run, who)];
        const some = entries.filter(n => hasKind(run, n) && hasWho(n));
        const hasText = some.length === 0 ? () => false : textTest(run, text, script);
        return some.filter(hasText);
    };

    // a line of the script behind which nothing happened
    const isIdle = (run, n) => run.kind[n] === KIND.line && (n + 1 === run.count || run.kind[n + 1] === KIND.line);

    // Folds entries that are such lines, one behind the other: the first of each has a row, and `folded` how many it is.
    const folding = (run, entries, count) => {
        const [rows, folded] = [[], new Map()];
        const entryAt = n => (entries ? entries[n] : n);
        for (let n = 0; n < count;) {
            let end = n;
            while (end < count && isIdle(run, entryAt(end))) end++;
            if (end - n >= 2) folded.set(entryAt(n), end - n);
            rows.push(entryAt(n));
            n = end - n >= 2 ? end : n + 1;
        }
        return { rows, folded };
    };

    const hasIdle = run => {
        const { scriptLines: lines } = run;
        return lines.some((n, at) => isIdle(run, n) && at + 1 < lines.length && isIdle(run, lines[at + 1]));
    };

    // The rows of the list, of a story or of all entries, `rows` null where each entry is one; and the entries that are stepped through, null where these
    // are all.
    const of = (run, story, wanted, script) => {
        const isSifted = isAny(wanted);
        const all = () => story || Array.from({ length: run.count }, (_, n) => n);
        const path = isSifted ? sifted(run, all(), wanted, script) : story;
        if (!wanted.folds || !hasIdle(run)) return { rows: path, path, folded: new Map(), isSifted };
        return { ...folding(run, path, path ? path.length : run.count), path, isSifted };
    };

    // the text of a row of folded lines, and what it means
    const foldedText = (run, entry, count) => [`${entry + 1}  line ${run.a[entry]} .. ${run.a[entry + count - 1] || ""}`.trim(),
        `${Words.count(count)} lines of the script behind which nothing happened.`];

    // the entry of the row in which an entry is
    const rowOf = ({ folded }, entry) => {
        for (const [first, count] of folded) if (entry >= first && entry < first + count) return first;
        return entry;
    };

    // the kinds that a run can have, by their names
    const kindsOf = run => Object.entries(KINDS).filter(([, [, isOfLog]]) => run.isLog || !isOfLog).map(([name, [text]]) => [name, text]);

    // as the end of a link, and of it
    const toText = ({ text, kind, who, folds }) => [["seek", text.trim()], ["kind", kind], ["who", who.trim()], ["fold", folds ? "" : "no"]]
        .filter(([, value]) => value !== "").map(([name, value]) => `&${name}=${encodeURIComponent(value)}`).join("");
    const fromParts = parts => ({
        text: parts.get("seek") || "", kind: KINDS[parts.get("kind")] ? parts.get("kind") : "", who: parts.get("who") || "", folds: parts.get("fold") !== "no",
    });

    return { NONE, of, foldedText, rowOf, kindsOf, toText, fromParts, isAny };
})();
