"use strict";
// Reads and writes captures, so that the page can say what is in one: libpcap and pcapng files, as docs/FORMATS.md has them. Whether a capture is
// refused is said by the program that plays it.
globalThis.Capture = (() => {
    const MOST = 262144; // no record is longer
    const ORDERS = { "d4c3b2a1": true, "4d3cb2a1": true, "a1b2c3d4": false, "a1b23c4d": false }; // whether the least byte comes first
    const [SECTION, INTERFACE, SIMPLE, ENHANCED] = [0x0a0d0d0a, 1, 3, 6];
    const LEAST = { [SECTION]: 28, [INTERFACE]: 20, [SIMPLE]: 16, [ENHANCED]: 32 }; // bytes of a block

    const startOf = bytes => [...bytes.subarray(0, 4)].map(byte => byte.toString(16).padStart(2, "0")).join("");

    const libpcap = (bytes, view, isLittle) => {
        const records = [];
        if (bytes.length < 24) return { format: "libpcap", records, tail: bytes.length };
        const link = view.getUint32(20, isLittle);
        if (link !== 1) return { format: "libpcap", records, tail: 0, refused: { at: 20, reason: `its link type is ${link}, and not Ethernet` } };
        let at = 24;
        while (at + 16 <= bytes.length) {
            const captured = view.getUint32(at + 8, isLittle);
            if (captured > MOST) return { format: "libpcap", records, tail: 0, refused: { at, reason: "the head of a record is damaged" } };
            if (at + 16 + captured > bytes.length) break;
            records.push({ bytes: bytes.subarray(at + 16, at + 16 + captured), length: view.getUint32(at + 12, isLittle) });
            at += 16 + captured;
        }
        return { format: "libpcap", records, tail: bytes.length - at };
    };

    // What a block of packets has, of an interface that is an Ethernet, else null.
    const packetOf = (bytes, view, at, type, section) => {
        const { isLittle, interfaces } = section;
        const number = type === SIMPLE ? 0 : view.getUint32(at + 8, isLittle);
        const found = interfaces[number];
        if (!found) return { refused: { at, reason: "a packet of an interface that its section does not have" } };
        section.links.set(found.link, (section.links.get(found.link) || 0) + 1);
        if (found.link !== 1) return null;
        const length = view.getUint32(at + (type === SIMPLE ? 8 : 24), isLittle);
        const captured = type === ENHANCED ? view.getUint32(at + 20, isLittle) : found.most === 0 ? length : Math.min(length, found.most);
        const from = at + (type === SIMPLE ? 12 : 28);
        if (captured > MOST) return { refused: { at, reason: "a packet with a captured length above 262,144" } };
        if (captured > view.getUint32(at + 4, isLittle) - (type === SIMPLE ? 16 : 32)) return { refused: { at, reason: "a packet whose bytes do not fit into its block" } };
        return { record: { bytes: bytes.subarray(from, from + captured), length } };
    };

    const pcapng = (bytes, view) => {
        const records = [];
        const section = { isLittle: true, interfaces: [], links: new Map() };
        const damaged = (at, reason) => ({ format: "pcapng", records, tail: 0, refused: { at, reason } });
        let at = 0;
        while (at + 12 <= bytes.length) {
            if (view.getUint32(at, false) === SECTION) {
                const magic = view.getUint32(at + 8, false);
                if (magic !== 0x1a2b3c4d && magic !== 0x4d3c2b1a) return damaged(at, "a section header without a byte order");
                Object.assign(section, { isLittle: magic === 0x4d3c2b1a, interfaces: [] });
            }
            const type = view.getUint32(at, section.isLittle);
            const total = view.getUint32(at + 4, section.isLittle);
            if (total < (LEAST[type] || 12) || total % 4 !== 0) return damaged(at, "a block whose length cannot be");
            if (at + total > bytes.length) break;
            if (type === INTERFACE) section.interfaces.push({ link: view.getUint16(at + 8, section.isLittle), most: view.getUint32(at + 12, section.isLittle) });
            else if (type === SIMPLE || type === ENHANCED) {
                const found = packetOf(bytes, view, at, type, section);
                if (found && found.refused) return damaged(found.refused.at, found.refused.reason);
                if (found) records.push(found.record);
            }
            at += total;
        }
        return { format: "pcapng", records, tail: bytes.length - at, links: section.links };
    };

    // The records of a capture, each with its bytes and how long the frame was on its link; how many bytes are left behind the last whole one; and
    // where it cannot be read on, at which byte and why.
    const read = bytes => {
        const view = new DataView(bytes.buffer, bytes.byteOffset, bytes.length);
        const start = startOf(bytes);
        if (start === "0a0d0d0a") return pcapng(bytes, view);
        if (start in ORDERS) return libpcap(bytes, view, ORDERS[start]);
        if (bytes.length < 4) return { format: "libpcap", records: [], tail: bytes.length };
        return { format: "none", records: [], tail: 0, refused: { at: 0, reason: "it is no libpcap file and no pcapng file" } };
    };

    // How many packets of each link type a pcapng capture has; nothing of another file, or one that cannot be read.
    const linkCounts = bytes => (bytes.length >= 4 && read(bytes).links) || new Map();

    // A libpcap file of records, a second apart.
    const write = records => {
        const whole = new Uint8Array(24 + records.reduce((sum, { bytes }) => sum + 16 + bytes.length, 0));
        const view = new DataView(whole.buffer);
        view.setUint32(0, 0xa1b2c3d4, true);
        view.setUint16(4, 2, true);
        view.setUint16(6, 4, true);
        view.setUint32(16, MOST, true);
        view.setUint32(20, 1, true);
        let at = 24;
        records.forEach(({ bytes, length }, second) => {
            view.setUint32(at, second, true);
            view.setUint32(at + 8, bytes.length, true);
            view.setUint32(at + 12, Math.max(length, bytes.length), true);
            whole.set(bytes, at + 16);
            at += 16 + bytes.length;
        });
        return whole;
    };

    const hostOf = (names, address) => names.get(address) || Frames.macText(address);
    const TO_ALL = 0xffffffffffff;

    // what a frame is, in a few words
    const kindOf = frame => {
        if (frame.arp) return frame.arp.refused ? "ARP that cannot be read" : `ARP ${frame.arp.opcode === 1 ? "request for" : "reply to"} ${Frames.ipText(frame.arp.targetIp)}`;
        if (!frame.ip) return `type ${Frames.typeText(frame.type)}`;
        const { protocol, sourcePort, destinationPort } = frame.ip;
        const ports = sourcePort === undefined ? "" : ` port ${sourcePort} to ${destinationPort}`;
        return `${Frames.protocolText(protocol).replace(/^\d+ /, "")}${ports}`;
    };

    // A sentence on a record, whose ends are called by the names of hosts, a Map from addresses.
    const sentence = ({ bytes, length }, names) => {
        if (bytes.length < 14) return `${bytes.length} bytes, no Ethernet header`;
        const frame = Frames.read(bytes);
        const to = frame.destination === TO_ALL ? "all" : hostOf(names, frame.destination);
        const cut = length > bytes.length ? ` of ${length}` : "";
        return `${hostOf(names, frame.source)} to ${to}: ${kindOf(frame)}, ${bytes.length}${cut} bytes`;
    };

    return { linkCounts, read, write, sentence };
})();
