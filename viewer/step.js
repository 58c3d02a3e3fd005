"use strict";
// How a second run goes beside the first: in step by line of the script.
globalThis.Step = (() => {
    // The entries of a line of the script: from the one `line N` to the one before the next line. A line that has none is empty and
    // stands where the next one begins; what comes before the first line belongs to line 0.
    const spanOf = (run, number) => {
        const from = number === 0 ? 0 : Journal.ofLine(run, number);
        const to = Journal.ofLine(run, number + 1);
        return { from: from < 0 ? run.count : from, to: to < 0 ? run.count : to };
    };

    // So many entries of the second run have happened once so many of the first have: it stands in the same line, as many entries
    // behind its beginning; at the line's end where the first run is, and never beyond it.
    const of = (first, second, entry, line) => {
        const number = line < 0 ? 0 : first.a[line];
        const own = spanOf(first, number);
        const other = spanOf(second, number);
        if (entry === 0) return 0;
        return entry >= own.to ? other.to : Math.min(other.to, other.from + Math.max(0, entry - own.from));
    };

    return { of, spanOf };
})();
