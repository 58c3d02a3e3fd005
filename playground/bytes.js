"use strict";
// Bytes as letters, packed and unpacked, and as one archive of files.
globalThis.Bytes = (() => {
    const lettersOf = bytes => {
        let letters = "";
        for (let at = 0; at < bytes.length; at += 0x8000) letters += String.fromCharCode(...bytes.subarray(at, at + 0x8000));
        return btoa(letters);
    };
    const ofLetters = letters => Uint8Array.from(atob(letters), letter => letter.charCodeAt(0));
    const ofText = text => new TextEncoder().encode(text);
    const textOf = bytes => new TextDecoder().decode(bytes);

    const packed = async bytes => {
        const stream = new Blob([bytes]).stream().pipeThrough(new CompressionStream("gzip"));
        return new Uint8Array(await new Response(stream).arrayBuffer());
    };

    const tooLarge = most => new Error(`it is damaged, or it unpacks to more than ${most} bytes`);

    // What was packed by gzip. What says that it has more bytes than `most` is refused before it is unpacked, and what has them nevertheless as
    // soon as it has.
    const unpacked = async (bytes, most = Infinity) => {
        const end = new DataView(bytes.buffer, bytes.byteOffset, bytes.length);
        if (bytes.length < 18) throw new Error("it is cut off");
        if (end.getUint32(bytes.length - 4, true) > most) throw tooLarge(most);
        const reader = new Blob([bytes]).stream().pipeThrough(new DecompressionStream("gzip")).getReader();
        const parts = [];
        let length = 0;
        for (;;) {
            const { done, value } = await reader.read();
            if (done) break;
            length += value.length;
            if (length > most) {
                reader.cancel().catch(() => {});
                throw tooLarge(most);
            }
            parts.push(value);
        }
        return joined(parts);
    };

    const joined = parts => {
        const whole = new Uint8Array(parts.reduce((sum, part) => sum + part.length, 0));
        let at = 0;
        for (const part of parts) {
            whole.set(part, at);
            at += part.length;
        }
        return whole;
    };

    const CRCS = Uint32Array.from({ length: 256 }, (_, n) => {
        let value = n;
        for (let bit = 0; bit < 8; bit++) value = value & 1 ? 0xedb88320 ^ (value >>> 1) : value >>> 1;
        return value;
    });
    const crc = bytes => {
        let value = 0xffffffff;
        for (const byte of bytes) value = CRCS[(value ^ byte) & 255] ^ (value >>> 8);
        return (value ^ 0xffffffff) >>> 0;
    };

    // so many bytes of each number, the least one first
    const little = (...fields) => Uint8Array.from(fields.flatMap(([size, value]) => Array.from({ length: size }, (_, n) => (value >>> (8 * n)) & 255)));

    const DAY = 0x5821; // 1 January 2024: an archive of the same files has the same bytes

    // An archive in the ZIP format of files by their names, not packed.
    const zip = files => {
        const parts = [];
        const directory = [];
        let at = 0;
        for (const [name, bytes] of files) {
            const letters = ofText(name);
            const about = [[2, 20], [2, 0x800], [2, 0], [2, 0], [2, DAY], [4, crc(bytes)], [4, bytes.length], [4, bytes.length], [2, letters.length], [2, 0]];
            const head = little([4, 0x04034b50], ...about);
            directory.push(little([4, 0x02014b50], [2, 20], ...about, [2, 0], [2, 0], [2, 0], [4, 0], [4, at]), letters);
            parts.push(head, letters, bytes);
            at += head.length + letters.length + bytes.length;
        }
        const length = directory.reduce((sum, part) => sum + part.length, 0);
        const count = directory.length / 2;
        return joined([...parts, ...directory, little([4, 0x06054b50], [2, 0], [2, 0], [2, count], [2, count], [4, length], [4, at], [2, 0])]);
    };

    return { lettersOf, ofLetters, ofText, textOf, packed, unpacked, joined, zip };
})();
