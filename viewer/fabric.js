"use strict";
// The wiring of a topology: a k-ary fat tree (Al-Fares et al., SIGCOMM 2008) and the hosts on it. Switches are numbered in
// label order: edge switches by pod and place, aggregation switches by pod and place, core switches by group and place.
globalThis.Fabric = (() => {
    const LEVELS = ["edge", "aggregation", "core"];

    const refuse = what => {
        throw new Error(what);
    };

    const labelOf = (k, number) => {
        const h = k / 2;
        const level = number < k * h ? 0 : number < 2 * k * h ? 1 : 2;
        const n = number - level * k * h;
        return `${"eac"[level]}${Math.floor(n / h)}.${n % h}`;
    };

    // the switch of a label, -1 where there is none
    const numberOf = (k, label) => {
        const found = /^([eac])(0|[1-9][0-9]?)\.(0|[1-9][0-9]?)$/.exec(label);
        if (!found) return -1;
        const h = k / 2;
        const [group, place] = [Number(found[2]), Number(found[3])];
        if (place >= h || group >= (found[1] === "c" ? h : k)) return -1;
        return { e: 0, a: k * h, c: 2 * k * h }[found[1]] + group * h + place;
    };

    const macNumber = text => parseInt(text.replace(/:/g, ""), 16);

    // Links by number: first those of edge switch n to each aggregation switch of its pod, then those of aggregation
    // switch n to each core switch of its group.
    const linkNumber = (k, a, b) => {
        const h = k / 2;
        const [x, y] = a < b ? [a, b] : [b, a];
        if (x < k * h) {
            const place = y - k * h - Math.floor(x / h) * h;
            return place >= 0 && place < h && y < 2 * k * h ? x * h + place : -1;
        }
        const place = y - 2 * k * h - ((x - k * h) % h) * h;
        return x < 2 * k * h && place >= 0 && place < h ? k * h * h + (x - k * h) * h + place : -1;
    };

    const switchesOf = k => {
        const h = k / 2;
        const count = 2 * k * h + h * h;
        return Array.from({ length: count }, (_, number) => {
            const level = number < k * h ? 0 : number < 2 * k * h ? 1 : 2;
            const pod = level === 2 ? null : Math.floor((number - level * k * h) / h);
            const ports = new Array(k).fill(-1); // the link at each, -1 where there is none
            return { number, label: labelOf(k, number), level, pod, id: number + 1, ports, hostPorts: [] };
        });
    };

    const linksOf = k => {
        const h = k / 2;
        const links = [];
        for (let n = 0; n < k * h; n++) {
            for (let j = 0; j < h; j++) {
                links.push({ a: n, portA: h + j, b: k * h + Math.floor(n / h) * h + j, portB: n % h });
            }
        }
        for (let n = 0; n < k * h; n++) {
            for (let m = 0; m < h; m++) {
                links.push({ a: k * h + n, portA: h + m, b: 2 * k * h + (n % h) * h + m, portB: Math.floor(n / h) });
            }
        }
        return links;
    };

    const tablesOf = (document, key) => {
        const tables = document[key] === undefined ? [] : document[key];
        const isTable = item => typeof item === "object" && item !== null && !Array.isArray(item) && !("other" in item);
        if (!Array.isArray(tables) || !tables.every(isTable)) refuse(`\`${key}\` is no array of tables`);
        return tables;
    };

    const portOf = (k, table, key) => {
        const port = table[key];
        if (!Number.isInteger(port) || port < 0 || port >= k) refuse(`\`${key}\` is no port from 0 to ${k - 1}`);
        return port;
    };

    const applySwitch = (fabric, table) => {
        const number = numberOf(fabric.k, String(table.label));
        if (number < 0) refuse(`there is no switch \`${table.label}\``);
        if (!Number.isInteger(table.id) || table.id < 1 || table.id >= 2 ** 48) refuse(`the id of ${table.label} is none`);
        fabric.switches[number].id = table.id;
    };

    const applyLink = (fabric, table) => {
        const [a, b] = [numberOf(fabric.k, String(table.a)), numberOf(fabric.k, String(table.b))];
        const number = a < 0 || b < 0 ? -1 : linkNumber(fabric.k, a, b);
        if (number < 0) refuse(`no link of a fat tree joins \`${table.a}\` and \`${table.b}\``);
        const [portA, portB] = [portOf(fabric.k, table, "port_a"), portOf(fabric.k, table, "port_b")];
        const link = fabric.links[number];
        [link.portA, link.portB] = link.a === a ? [portA, portB] : [portB, portA];
    };

    const joinPorts = fabric => {
        const take = (number, port, link) => {
            const s = fabric.switches[number];
            if (s.ports[port] >= 0) refuse(`two links use port ${port} of ${s.label}`);
            s.ports[port] = link;
        };
        fabric.links.forEach((link, n) => {
            take(link.a, link.portA, n);
            take(link.b, link.portB, n);
        });
        for (const s of fabric.switches) {
            s.ports.forEach((link, port) => {
                if (link < 0) s.hostPorts.push(port);
            });
        }
    };

    const hostOf = (fabric, table, number) => {
        const { name, mac, ip } = table;
        if (typeof name !== "string" || !/^[a-z0-9_-]{1,32}$/.test(name)) refuse(`host number ${number} has no name`);
        if (!/^([0-9a-f]{2}:){5}[0-9a-f]{2}$/i.test(String(mac))) refuse(`the mac of host ${name} is none`);
        if (!/^(\d{1,3}\.){3}\d{1,3}$/.test(String(ip))) refuse(`the ip of host ${name} is none`);
        const edge = numberOf(fabric.k, String(table.edge));
        if (edge < 0 || fabric.switches[edge].level !== 0) refuse(`host ${name} stands at no edge switch`);
        const port = portOf(fabric.k, table, "port");
        if (fabric.switches[edge].ports[port] >= 0) refuse(`host ${name} stands at a port of a link`);
        if (fabric.taken.has(edge * fabric.k + port)) refuse(`host ${name} stands where another does`);
        fabric.taken.add(edge * fabric.k + port);
        return { number, name, mac: mac.toLowerCase(), ip, edge, port };
    };

    // the wiring that a topology says, as a document that was read
    const of = document => {
        const k = document.k;
        if (!Number.isInteger(k) || k < 4 || k > 24 || k % 2 === 1) refuse("`k` is no even number from 4 to 24");
        const fabric = { k, switches: switchesOf(k), links: linksOf(k), hosts: [], names: new Map(), macs: new Map(), taken: new Set() };
        tablesOf(document, "switch").forEach(table => applySwitch(fabric, table));
        tablesOf(document, "link").forEach(table => applyLink(fabric, table));
        joinPorts(fabric);
        tablesOf(document, "host").forEach((table, number) => {
            const host = hostOf(fabric, table, number);
            if (fabric.names.has(host.name)) refuse(`two hosts are called ${host.name}`);
            fabric.hosts.push(host);
            fabric.names.set(host.name, number);
            fabric.macs.set(macNumber(host.mac), number);
        });
        return fabric;
    };

    const label = (fabric, number) => fabric.switches[number].label;
    const link = (fabric, a, b) => linkNumber(fabric.k, a, b);
    const number = (fabric, text) => numberOf(fabric.k, text);

    return { LEVELS, of, label, link, number, labelOf, macNumber };
})();
