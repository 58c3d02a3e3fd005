"use strict";
// Makes frames from a few words: who sends, to whom, and of which kind. Ethernet II; ARP (RFC 826), IPv4 (RFC 791), ICMP echo (RFC 792), UDP (RFC 768),
// TCP (RFC 9293), and groups as Ethernet addresses (RFC 1112).
globalThis.Maker = (() => {
    const LEAST = 60; // an Ethernet frame without its check sequence is never shorter
    const MOST_DATA = 1400;
    const [ICMP, TCP, UDP] = [1, 6, 17];
    const KINDS = { udp: "UDP", tcp: "TCP (SYN)", icmp: "ICMP echo (ping)", arp: "ARP request", group: "UDP to a group" };

    const two = value => [value >> 8 & 255, value & 255];
    const four = value => [...two(value >>> 16), ...two(value & 65535)];
    const mac = text => text.split(":").map(part => parseInt(part, 16));
    const ip = text => text.split(".").map(Number);

    // The Internet checksum (RFC 1071).
    const checksum = bytes => {
        let sum = 0;
        for (let at = 0; at < bytes.length; at += 2) sum += (bytes[at] << 8) + (bytes[at + 1] || 0);
        while (sum > 65535) sum = (sum & 65535) + (sum >>> 16);
        return ~sum & 65535;
    };
    // the bytes with their checksum at a place that held zero
    const summed = (bytes, at, before = []) => {
        const sum = checksum([...before, ...bytes]);
        return [...bytes.slice(0, at), ...two(sum), ...bytes.slice(at + 2)];
    };

    const packet = (protocol, from, to, body, number) => {
        const head = [0x45, 0, ...two(20 + body.length), ...two(number), 0x40, 0, 64, protocol, 0, 0, ...from, ...to];
        return [...summed(head, 10), ...body];
    };
    const pseudoHead = (protocol, from, to, length) => [...from, ...to, 0, protocol, ...two(length)];

    const udp = (from, to, { sourcePort, destinationPort, data }) => {
        const body = [...two(sourcePort), ...two(destinationPort), ...two(8 + data.length), 0, 0, ...data];
        const whole = summed(body, 6, pseudoHead(UDP, from, to, body.length));
        return whole[6] || whole[7] ? whole : [...whole.slice(0, 6), 255, 255, ...whole.slice(8)];
    };
    const tcp = (from, to, { sourcePort, destinationPort, data }, number) => {
        const body = [...two(sourcePort), ...two(destinationPort), ...four(1000 * number), ...four(0), 0x50, 0x02, ...two(64240), 0, 0, 0, 0, ...data];
        return summed(body, 16, pseudoHead(TCP, from, to, body.length));
    };
    const icmp = ({ data }, number) => summed([8, 0, 0, 0, ...two(1), ...two(number), ...data], 2);

    const framed = (destination, source, type, body) => {
        const bytes = [...destination, ...source, ...two(type), ...body];
        while (bytes.length < LEAST) bytes.push(0);
        return Uint8Array.from(bytes);
    };

    // The Ethernet address of a group: its last 23 bits behind 01:00:5e.
    const groupMac = ([, second, third, fourth]) => [0x01, 0x00, 0x5e, second & 127, third, fourth];

    const check = wish => {
        const isPort = port => Number.isInteger(port) && port >= 0 && port <= 65535;
        if (!(wish.kind in KINDS)) throw new Error("choose a kind of frame");
        if (!isPort(wish.sourcePort) || !isPort(wish.destinationPort)) throw new Error("a port is a number from 0 to 65535");
        if (wish.data.length > MOST_DATA) throw new Error(`a frame made here has at most ${MOST_DATA} bytes of data`);
        if (wish.kind === "group" && !(/^\d{1,3}(\.\d{1,3}){3}$/.test(wish.group) && ip(wish.group).every(n => n < 256) && ip(wish.group)[0] >> 4 === 14)) {
            throw new Error("a group is an address from 224.0.0.0 to 239.255.255.255, as 239.1.2.3");
        }
    };

    // One frame. `wish` has a kind, source and destination ports, data as bytes and, for a group, its address; `from` and `to` are hosts of a
    // topology, with mac and ip; `number` tells frames of one kind apart.
    const frame = (wish, from, to, number) => {
        check(wish);
        const [source, sourceIp] = [mac(from.mac), ip(from.ip)];
        if (wish.kind === "arp") {
            return framed([255, 255, 255, 255, 255, 255], source, 0x0806, [0, 1, 8, 0, 6, 4, 0, 1, ...source, ...sourceIp, 0, 0, 0, 0, 0, 0, ...ip(to.ip)]);
        }
        const targetIp = wish.kind === "group" ? ip(wish.group) : ip(to.ip);
        const target = wish.kind === "group" ? groupMac(targetIp) : mac(to.mac);
        const [protocol, body] = {
            icmp: () => [ICMP, icmp(wish, number)],
            tcp: () => [TCP, tcp(sourceIp, targetIp, wish, number)],
            udp: () => [UDP, udp(sourceIp, targetIp, wish)],
            group: () => [UDP, udp(sourceIp, targetIp, wish)],
        }[wish.kind]();
        return framed(target, source, 0x0800, packet(protocol, sourceIp, targetIp, body, number));
    };

    // so many frames, one behind the other
    const frames = (wish, from, to, count) => {
        if (!Number.isInteger(count) || count < 1 || count > 1000) throw new Error("one to 1,000 frames are made at a time");
        return Array.from({ length: count }, (_, n) => frame(wish, from, to, n + 1));
    };

    return { KINDS, frame, frames };
})();
