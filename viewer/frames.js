"use strict";
// Reads the header of a frame: Ethernet II, ARP (RFC 826), IPv4, and group membership (RFC 2236, RFC 3376). Addresses are
// numbers of 48 bits.
globalThis.Frames = (() => {
    const [ARP, IPV4, CONTROL] = [0x0806, 0x0800, 0x88b5];

    const number = (bytes, at, length) => {
        let value = 0;
        for (let n = 0; n < length; n++) value = value * 256 + bytes[at + n];
        return value;
    };

    const hex = (value, digits) => value.toString(16).padStart(digits, "0");
    const macText = value => hex(value, 12).replace(/..(?!$)/g, "$&:");
    const ipText = value => [24, 16, 8, 0].map(shift => (value >>> shift) & 255).join(".");

    // pod 16 bits, position 8, port 8, number at that port 16
    const pseudo = value => ({
        pod: Math.floor(value / 2 ** 32),
        position: Math.floor(value / 2 ** 24) % 256,
        port: Math.floor(value / 2 ** 16) % 256,
        number: value % 65536,
    });
    const pseudoText = value => {
        const { pod, position, port, number: last } = pseudo(value);
        return `${pod}.${position}.${port}.${last}`;
    };

    const isGroup = value => Math.floor(value / 2 ** 40) % 2 === 1;

    // The number of a routed group: 01:00:5e, a zero bit, and 23 bits that are 256 at least. Else null: it is flooded.
    const groupOf = value => {
        const isMapped = Math.floor(value / 2 ** 24) === 0x01005e && value % 2 ** 24 < 2 ** 23;
        return isMapped && value % 2 ** 23 >= 256 ? value % 2 ** 23 : null;
    };

    const arpOf = (bytes, at) => {
        if (bytes.length < at + 28) return { refused: "it is cut" };
        if (number(bytes, at, 6) !== 0x000108000604) return { refused: "it is not of Ethernet and IPv4" };
        return {
            opcode: number(bytes, at + 6, 2),
            senderMac: number(bytes, at + 8, 6), senderIp: number(bytes, at + 14, 4),
            targetMac: number(bytes, at + 18, 6), targetIp: number(bytes, at + 24, 4),
        };
    };

    const record = (bytes, at) => {
        const [type, words, sources] = [bytes[at], bytes[at + 1], number(bytes, at + 2, 2)];
        const group = number(bytes, at + 4, 4);
        const change = (type === 2 || type === 4) && sources === 0 ? { group, join: true }
            : type === 3 && sources === 0 ? { group, join: false } : null;
        return { length: 8 + 4 * sources + 4 * words, change };
    };

    // the groups that an IGMP message joins or leaves, of those that a switch keeps; null where it is no report
    const igmpOf = (bytes, at) => {
        if (bytes.length < at + 8 || ![0x16, 0x17, 0x22].includes(bytes[at])) return null;
        const changes = [];
        if (bytes[at] !== 0x22) changes.push({ group: number(bytes, at + 4, 4), join: bytes[at] === 0x16 });
        let next = at + 8;
        for (let n = bytes[at] === 0x22 ? number(bytes, at + 6, 2) : 0; n > 0; n--) {
            if (next + 8 > bytes.length || next + record(bytes, next).length > bytes.length) break;
            const { length, change } = record(bytes, next);
            if (change) changes.push(change);
            next += length;
        }
        return changes.filter(({ group }) => group >>> 28 === 14 && group % 2 ** 23 >= 256);
    };

    const portsOf = (bytes, at, ip) => {
        const isWhole = (number(bytes, at + 6, 2) & 0x3fff) === 0;
        const behind = at + ip.header;
        if (![6, 17].includes(ip.protocol) || !isWhole || bytes.length < behind + 4) return {};
        return { sourcePort: number(bytes, behind, 2), destinationPort: number(bytes, behind + 2, 2) };
    };

    const ipOf = (bytes, at) => {
        const header = 4 * (bytes[at] & 15);
        if (bytes.length < at + 20 || bytes[at] >> 4 !== 4 || header < 20 || bytes.length < at + header) return null;
        const [source, destination] = [number(bytes, at + 12, 4), number(bytes, at + 16, 4)];
        const ip = { header, protocol: bytes[at + 9], source, destination };
        Object.assign(ip, portsOf(bytes, at, ip));
        if (ip.protocol === 2) ip.igmp = igmpOf(bytes, at + header);
        return ip;
    };

    const read = bytes => {
        const type = number(bytes, 12, 2);
        const frame = { destination: number(bytes, 0, 6), source: number(bytes, 6, 6), type, length: bytes.length };
        if (type === ARP) frame.arp = arpOf(bytes, 14);
        if (type === IPV4) frame.ip = ipOf(bytes, 14);
        return frame;
    };

    const typeText = type => {
        const name = { [ARP]: "ARP", [IPV4]: "IPv4", 0x86dd: "IPv6", 0x8100: "VLAN", [CONTROL]: "control" }[type];
        return `0x${hex(type, 4)}${name ? ` ${name}` : ""}`;
    };

    const protocolText = protocol => {
        const name = { 1: "ICMP", 2: "IGMP", 6: "TCP", 17: "UDP" }[protocol];
        return `${protocol}${name ? ` ${name}` : ""}`;
    };

    return { read, hex, macText, ipText, pseudo, pseudoText, isGroup, groupOf, typeText, protocolText };
})();
