"use strict";
// A run of a large fabric, as long as is wanted, for tests of what the page does with it: all hosts start, and frames go between
// them on ways of the wiring. It has the form of a journal; the fabric has not played it.

const mac = n => `02:00:00:00:${(n >> 8).toString(16).padStart(2, "0")}:${(n & 255).toString(16).padStart(2, "0")}`;
const hex = text => text.replace(/:/g, "");
const pmac = (pod, position, port) => `00:${pod.toString(16).padStart(2, "0")}:${position.toString(16).padStart(2, "0")}:`
    + `${port.toString(16).padStart(2, "0")}:00:01`;

const placeOf = (k, n) => {
    const h = k / 2;
    const edge = Math.floor(n / h);
    return { pod: Math.floor(edge / h), position: edge % h, port: n % h };
};

const topology = k => {
    const hosts = Array.from({ length: (k * k * k) / 4 }, (_, n) => {
        const { pod, position, port } = placeOf(k, n);
        return `[[host]]\nname = "h${n}"\nmac = "${mac(n)}"\nip = "10.1.${(n + 1) >> 8}.${(n + 1) & 255}"\n`
            + `edge = "e${pod}.${position}"\nport = ${port}\n`;
    });
    return `k = ${k}\n${hosts.join("")}`;
};

const begins = k => {
    const h = k / 2;
    const lines = ["line 1"];
    const count = (k * k * k) / 4;
    for (let n = 0; n < count; n++) lines.push(`sent ${n + 1} h${n} ${"ff".repeat(6)}${hex(mac(n))}88b6${"00".repeat(46)}`);
    lines.push("line 2");
    for (let pod = 0; pod < k; pod++) {
        for (let place = 0; place < h; place++) lines.push(`placed e${pod}.${place} 0 ${place} ${pod}`, `placed a${pod}.${place} 1 - ${pod}`);
    }
    for (let n = 0; n < h * h; n++) lines.push(`placed c${Math.floor(n / h)}.${n % h} 2 - -`);
    for (let n = 0; n < count; n++) {
        const { pod, position, port } = placeOf(k, n);
        const address = pmac(pod, position, port);
        lines.push(`crossed ${n + 1} e${pod}.${position}`, `granted ${address} h${n} e${pod}.${position} ${port}`, `taken ${n + 1} e${pod}.${position}`,
            `registered ${address} ${n + 1}`);
    }
    return lines;
};

// one frame from host to host by these switches of each group
const flight = (k, id, from, to, group, place) => {
    const [a, b] = [placeOf(k, from), placeOf(k, to)];
    const way = [`e${a.pod}.${a.position}`];
    if (a.pod !== b.pod) way.push(`a${a.pod}.${group}`, `c${group}.${place}`, `a${b.pod}.${group}`, `e${b.pod}.${b.position}`);
    else if (a.position !== b.position) way.push(`a${a.pod}.${group}`, `e${b.pod}.${b.position}`);
    const payload = `88b6${id.toString(16).padStart(8, "0")}${"00".repeat(42)}`;
    const [source, destination] = [hex(mac(from)), hex(pmac(b.pod, b.position, b.port))];
    return [`sent ${id} h${from} ${destination}${source}${payload}`, ...way.map(s => `crossed ${id} ${s}`),
        `arrived ${id} h${to} ${hex(mac(to))}${hex(pmac(a.pod, a.position, a.port))}${payload}`];
};

const journal = (k, entries) => {
    const h = k / 2;
    const count = (k * k * k) / 4;
    const lines = begins(k);
    let number = 3;
    for (let id = count + 1; lines.length < entries; id++) {
        if (id % 50 === 0) lines.push(`line ${number++}`);
        if (id % 4000 === 0) lines.push("linkdown e3.2 a3.5", "linkdown a7.1 c1.4");
        if (id % 4000 === 2000) lines.push("linkup e3.2 a3.5", "linkup a7.1 c1.4");
        const from = (id * 7919) % count;
        const to = (from + 1 + (id * 104729) % (count - 1)) % count;
        lines.push(...flight(k, id, from, to, id % h, (id * 31) % h));
    }
    return `${lines.slice(0, entries).join("\n")}\n`;
};

module.exports = { topology, journal };
