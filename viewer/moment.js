"use strict";
// A moment of a run as a link, `#entry=175&story=19&seek=vote`, and as a picture that is saved.
globalThis.Moment = (() => {
    const ROW = 14; // points of a row of the text below the picture, which says what it shows

    // A subject as it can be found by Stories.find.
    const nameOf = (run, subject) => {
        if (subject.manager) return "manager";
        if (subject.host !== undefined) return Words.hostOf(run, subject.host);
        if (subject.switch !== undefined) return Words.switchOf(run, subject.switch);
        return run.fabric.names.has(`${subject.frame}`) ? `#${subject.frame}` : `${subject.frame}`;
    };

    const text = (run, entry, subject, sift = Sift.NONE) => `#entry=${entry}${subject ? `&story=${encodeURIComponent(nameOf(run, subject))}` : ""}${Sift.toText(sift)}`;

    // The entry, the story and what the list shows that the end of a link names, or null: -1 and null where it names none or one that is not there.
    const read = (run, hash) => {
        const parts = new URLSearchParams(hash.replace(/^#/, ""));
        const entry = /^[0-9]{1,9}$/.test(parts.get("entry")) ? Math.min(run.count, Number(parts.get("entry"))) : -1;
        const subject = parts.has("story") ? Stories.find(run, parts.get("story")) : null;
        const sift = Sift.fromParts(parts);
        return entry < 0 && !subject && !Sift.isAny(sift) ? null : { entry: entry < 0 && !subject ? 0 : entry, subject, sift };
    };

    const save = (blob, name) => {
        const link = document.createElement("a");
        link.href = URL.createObjectURL(blob);
        link.download = name;
        link.click();
        setTimeout(() => URL.revokeObjectURL(link.href), 10000);
    };

    // the words of a text in rows that are no wider than this
    const wrapped = (context, words, width) => {
        const rows = [""];
        for (const word of words.split(" ")) {
            const longer = `${rows[rows.length - 1]} ${word}`.trim();
            if (context.measureText(longer).width <= width || rows[rows.length - 1] === "") rows[rows.length - 1] = longer;
            else rows.push(word);
        }
        return rows;
    };

    const FONT = "12px system-ui, 'DejaVu Sans', sans-serif";
    // the text below a picture in rows, and how high they are
    const captionOf = (picture, where, said) => {
        const context = document.createElement("canvas").getContext("2d");
        context.font = FONT;
        const rows = wrapped(context, `${where}: ${said}`, picture.width - 20);
        return { rows, high: Math.max(46, rows.length * ROW + 8) };
    };

    // draws the picture in light colours and below it what it shows
    const drawn = (picture, context, { rows, high }, ratio) => picture.inLight(() => {
        const { width, height, colour } = picture;
        picture.paint(context, height + high, ratio);
        context.fillStyle = colour.pod;
        context.fillRect(0, height, width, high);
        context.textAlign = "center";
        context.font = FONT;
        context.fillStyle = colour.ink;
        rows.forEach((row, n) => context.fillText(row, width / 2, height + high / 2 + (n - (rows.length - 1) / 2) * ROW));
    });

    // the picture as a file, twice as fine as the screen's points
    const png = (picture, where, said) => new Promise(done => {
        const canvas = document.createElement("canvas");
        const caption = captionOf(picture, where, said);
        [canvas.width, canvas.height] = [picture.width * 2, (picture.height + caption.high) * 2];
        drawn(picture, canvas.getContext("2d"), caption, 2);
        canvas.toBlob(done, "image/png");
    });

    const svg = (picture, where, said) => {
        const context = Svg.of(document.createElement("canvas").getContext("2d"));
        const caption = captionOf(picture, where, said);
        drawn(picture, context, caption, 1);
        return context.text(picture.width, picture.height + caption.high, `${where}: ${said}`);
    };

    return { text, read, save, png, svg, nameOf };
})();
