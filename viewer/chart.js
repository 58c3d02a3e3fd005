"use strict";
// A small chart over a run: how many frames were sent, arrived and were dropped for each cause up to each of its entries, and in a log how many
// messages switches and the manager sent. Its height grows with the square root, so that few are seen beside many.
globalThis.Chart = (() => {
    const { KIND, CAUSES } = Journal;
    const COLUMNS = 300;
    const HIGH = 100;
    const DASHES = ["1 2", "6 2", "2 4", "8 3 2 3", "4 4", "10 2", "3 2 1 2", "1 5", "12 4"]; // of the causes in their order

    // What is counted, and how many of it a state has. A cause that never comes, and what a journal does not have, has no row.
    const SERIES = [
        { name: "sent", colour: "sent", dash: "", count: state => state.counts[KIND.sent] },
        { name: "arrived", colour: "arrived", dash: "", count: state => state.counts[KIND.arrived] },
        ...CAUSES.map((name, cause) => ({
            name, colour: "cause", dash: DASHES[cause], count: state => state.causes[cause],
        })),
        { name: "control frames", colour: "control", dash: "", count: state => state.messages[0] },
        { name: "to and from the manager", colour: "control", dash: "6 3", count: state => state.messages[1] },
    ];

    // Counts at the end of each column: rows { name, colour, dash, count, counts }.
    const of = run => {
        const columns = Math.max(1, Math.min(COLUMNS, run.count));
        const now = new Int32Array(SERIES.length);
        const counts = Array.from(now, () => [0]);
        for (let n = 0, column = 1; n < run.count; n++) {
            const series = seriesOf(run, n);
            if (series >= 0) now[series]++;
            for (; n + 1 >= column * run.count / columns; column++) now.forEach((count, i) => counts[i].push(count));
        }
        return SERIES.map((row, n) => ({ ...row, counts: counts[n] })).filter((row, n) => n < 2 || now[n] > 0);
    };

    // what an entry counts as, -1 as nothing
    const seriesOf = (run, n) => {
        switch (run.kind[n]) {
            case KIND.sent: return 0;
            case KIND.arrived: return 1;
            case KIND.dropped: return 2 + run.b[n];
            case KIND.event: return At.isControl(run, n) ? 2 + CAUSES.length : At.isOfManager(run, n) ? 3 + CAUSES.length : -1;
            default: return -1;
        }
    };

    const polyline = ({ counts, colour, dash }, most) => {
        const x = n => (n / (counts.length - 1) * 1000).toFixed(1);
        const y = count => (HIGH - 4 - (HIGH - 8) * Math.sqrt(count / most)).toFixed(1);
        const points = counts.map((count, n) => `${x(n)},${y(count)}`).join(" ");
        return `<polyline points="${points}" stroke="var(--${colour})" stroke-dasharray="${dash}"/>`;
    };

    const draw = (rows, box) => {
        const most = Math.max(1, ...rows.map(({ counts }) => counts[counts.length - 1]));
        const lines = rows.map(row => polyline(row, most)).join("");
        const keys = rows.map(({ name, colour, dash }) => `<span><svg viewBox="0 0 22 8" aria-hidden="true"><line x1="0" y1="4" x2="22" y2="4" `
            + `stroke="var(--${colour})" stroke-width="2" stroke-dasharray="${dash}"/></svg> ${name} <b></b></span>`).join("");
        box.innerHTML = `<svg viewBox="0 0 1000 ${HIGH}" preserveAspectRatio="none" aria-hidden="true">${lines}</svg>`
            + `<div class="mark"></div><div class="keys">${keys}</div>`;
    };

    // A chart in a box. `go(n)` is called where a point is clicked, with how many entries have happened there.
    const make = (box, go) => {
        const chart = { run: null };
        box.addEventListener("click", event => {
            const { left, width } = box.firstChild.getBoundingClientRect();
            if (chart.run && event.target.closest("#chart > svg, .mark")) go(Math.round((event.clientX - left) / width * chart.run.count));
        });
        chart.show = run => {
            chart.run = run;
            chart.rows = of(run);
            draw(chart.rows, box);
        };
        chart.set = state => {
            const texts = chart.rows.map(row => `${row.name} ${Words.count(row.count(state))}`);
            box.querySelectorAll(".keys b").forEach((element, n) => {
                Texts.put(element, Words.count(chart.rows[n].count(state)));
            });
            box.querySelector(".mark").style.left = `calc(${state.entry / Math.max(1, chart.run.count) * 100}% - 1px)`;
            box.setAttribute("aria-label", `Frames so far: ${texts.join(", ")}`);
        };
        return chart;
    };

    return { of, make };
})();
