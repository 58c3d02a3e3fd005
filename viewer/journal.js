"use strict";
// Reads a journal's text into columns of numbers, a row for each entry, so that a million entries take little room. Frames
// stay in the text and are read where they are shown. A line that is no entry's line, or names what is not there, is refused
// with its number: a page that shows what a journal says must not guess what it might have said. A line that begins with another word
// than those that are known is an entry of which nothing is known but its text; a file that begins with one is no journal.
//
// A log of `portland watch` is read by the same reader: it is a journal with the events among its entries. The line of an event,
// `@ STEP ..`, is a row too, and the lines below it stay in the text, where Said reads them.
globalThis.Journal = (() => {
    // the words that lines begin with; an entry's kind is the place of its word here
    const WORDS = ["line", "sent", "skipped", "made", "crossed", "redirected", "copied", "arrived", "taken", "dropped",
        "granted", "registered", "placed", "linkdown", "linkup", "moved", "settled", "unsettled", "freed", "restarted"];
    const KIND = Object.fromEntries([...WORDS, "other", "event"].map((word, kind) => [word, kind]));
    // what happens in an event: of each the parts of its line behind the word
    const EVENTS = ["along", "tick", "enters", "leaves", "told", "says", "fail", "repair", "lose", "move", "start", "send", "raw", "retry", "join", "leave",
        "restart"];
    const EVENT = Object.fromEntries(EVENTS.map((word, event) => [word, event]));
    const CAUSES = ["NotPlaced", "NoNextHop", "NoAddress", "HostGone", "LinkDown", "Lost", "Spent", "BadArp", "NoMember"];
    const SKIPS = ["CutRecord", "Short", "Long", "ForeignSource", "ControlType", "RecordedArp", "NoOwner", "HoldFull"];

    const HEARD = { nothing: -1, frame: 0, message: 1 }; // in an event

    const [BLANK, NEWLINE, DASH, AT] = [32, 10, 45, 64];
    const LARGEST = 2 ** 31 - 1;
    const DECODER = new TextDecoder();

    // the value of a hexadecimal digit, else 255
    const DIGITS = new Uint8Array(256).fill(255);
    for (let n = 0; n < 16; n++) DIGITS["0123456789abcdef".charCodeAt(n)] = n;

    // Words are found by two of their letters and their length, and compared whole then.
    const keyOf = (first, third, length) => ((first * 7 + third) & 255) * 16 + length;
    const BY_KEY = new Int8Array(4096).fill(-1);
    const SPELLED = WORDS.map(word => Uint8Array.from(word, c => c.charCodeAt(0)));
    SPELLED.forEach((word, kind) => {
        const key = keyOf(word[0], word[2], word.length);
        if (BY_KEY[key] >= 0) throw new Error("two words have one key");
        BY_KEY[key] = kind;
    });

    // A place as one number: each part raised by one, so that 0 is an unknown part.
    const packPlace = (level, position, pod) => level + 1 + 4 * (position + 1 + 257 * (pod + 1));
    const unpackPlace = place => {
        const part = n => (n === 0 ? null : n - 1);
        return { level: part(place & 3), position: part((place >> 2) % 257), pod: part(Math.floor((place >> 2) / 257)) };
    };

    const countLines = bytes => {
        let count = bytes.length > 0 ? 1 : 0;
        for (let at = bytes.indexOf(NEWLINE); at >= 0; at = bytes.indexOf(NEWLINE, at + 1)) {
            if (at + 1 < bytes.length && bytes[at + 1] !== BLANK) count++;
        }
        return count;
    };

    // the words of one line after the other
    class Lines {
        constructor(bytes) {
            this.bytes = bytes;
            this.at = 0;
            this.line = 0;
        }

        refuse(what) {
            const error = new Error(`line ${this.line}: ${what}`);
            error.line = this.line;
            throw error;
        }

        // The kind of the line that begins here. One that is not known is gone over to its end.
        word() {
            const { bytes, at } = this;
            if (bytes[at] === AT) {
                this.at++;
                return KIND.event;
            }
            let end = at;
            while (end < bytes.length && bytes[end] > BLANK) end++;
            const kind = end - at > 15 ? -1 : BY_KEY[keyOf(bytes[at], bytes[at + 2], end - at)];
            const spelled = kind < 0 ? [] : SPELLED[kind];
            let same = 0;
            while (same < spelled.length && bytes[at + same] === spelled[same]) same++;
            const isKnown = same > 0 && same === end - at && same === spelled.length;
            if (!isKnown && (this.line === 1 || !/^[a-z]+$/.test(this.text(at, end)))) {
                this.refuse(`\`${this.text(at, end)}\` begins no line of a journal`);
            }
            this.at = isKnown ? end : this.endOfLine(end);
            return isKnown ? kind : KIND.other;
        }

        // Goes over the lines below an event. Answers what is heard in it: a frame, something else, or nothing.
        below() {
            const heard = this.text(this.at, this.at + 13);
            while (this.bytes[this.at] === BLANK) {
                this.at = this.endOfLine(this.at) + 1;
                this.line++;
            }
            if (!heard.startsWith("  heard ")) return HEARD.nothing;
            return heard === "  heard frame" ? HEARD.frame : HEARD.message;
        }

        // whether the next word is a label of a switch, and not the name of a host
        isSwitch(fabric) {
            const from = this.at + 1;
            let to = from;
            while (to < this.bytes.length && this.bytes[to] > BLANK) to++;
            const word = this.text(from, to);
            return /^[eac][0-9]+\.[0-9]+$/.test(word) && !fabric.names.has(word);
        }

        endOfLine(from) {
            const found = this.bytes.indexOf(NEWLINE, from);
            return found < 0 ? this.bytes.length : found;
        }

        text(from, to) {
            return String.fromCharCode(...this.bytes.subarray(from, Math.min(to, from + 64)));
        }

        blank() {
            if (this.bytes[this.at] !== BLANK) this.refuse("a word is missing");
            this.at++;
        }

        end() {
            if (this.at < this.bytes.length && this.bytes[this.at] !== NEWLINE) this.refuse("a word too many");
            this.at++;
        }

        digits(what, most = LARGEST) {
            const { bytes } = this;
            const from = this.at;
            let value = 0;
            for (let c = bytes[from]; c >= 48 && c <= 57 && value <= most; c = bytes[++this.at]) value = value * 10 + c - 48;
            const length = this.at - from;
            if (length === 0 || (length > 1 && bytes[from] === 48) || value > most) this.refuse(`${what} is missing or none`);
            return value;
        }

        number(what, most = LARGEST) {
            this.blank();
            return this.digits(what, most);
        }

        // a part of a place, -1 where it is not known
        part(what, most) {
            this.blank();
            if (this.bytes[this.at] === DASH) {
                this.at++;
                return -1;
            }
            const value = this.digits(what);
            if (value > most) this.refuse(`${what} is above ${most}`);
            return value;
        }

        next() {
            this.blank();
            const from = this.at;
            while (this.at < this.bytes.length && this.bytes[this.at] > BLANK) this.at++;
            return this.text(from, this.at);
        }

        switch(k) {
            this.blank();
            const letter = this.bytes[this.at++];
            const group = this.digits("a switch's label");
            if (this.bytes[this.at++] !== 46) this.refuse("a switch's label is none");
            const place = this.digits("a switch's label");
            const h = k / 2;
            if (letter === 101 && group < k && place < h) return group * h + place;
            if (letter === 97 && group < k && place < h) return (k + group) * h + place;
            if (letter === 99 && group < h && place < h) return (2 * k + group) * h + place;
            return this.refuse("a switch that the topology does not have");
        }

        host(fabric) {
            const name = this.next();
            const host = fabric.names.get(name);
            if (host === undefined) this.refuse(`the topology has no host \`${name}\``);
            return host;
        }

        // a frame: answers where its digits begin
        frame() {
            this.blank();
            const { bytes } = this;
            const from = this.at;
            while (DIGITS[bytes[this.at]] < 16) this.at++;
            const count = this.at - from;
            if (count % 2 === 1 || count < 28) this.refuse("a frame has an even number of hexadecimal digits, 28 at least");
            return from;
        }

        // a pseudo address as the number that it is
        address() {
            const text = this.next();
            if (!/^([0-9a-f]{2}:){5}[0-9a-f]{2}$/.test(text)) this.refuse(`\`${text}\` is no address`);
            return Fabric.macNumber(text);
        }

        oneOf(names, what) {
            const name = this.next();
            const place = names.indexOf(name);
            if (place < 0) this.refuse(`\`${name}\` is no ${what}`);
            return place;
        }
    }

    // what is kept of entries, frames and addresses
    const emptyRun = (bytes, fabric) => {
        const rows = countLines(bytes);
        const column = () => new Int32Array(rows);
        return {
            fabric, bytes, count: 0,
            start: new Uint32Array(rows + 1), // where the entry's line begins in the text
            kind: new Uint8Array(rows),
            a: column(), b: column(), c: column(), // the entry's parts, by its kind
            before: column(), // the entry of the same frame before this one, -1 where there is none
            at: column(), // the switch that the frame crossed last or that made it, -1 where there is none
            spot: column(), // of `sent` and `arrived` the port of an edge switch where the host stood then, of an event what is heard in it
            // of each frame by its number: its first and last entry, the frame that it is a copy of, the first one of these
            begin: [-1], end: [-1], parent: [0], root: [0],
            // Each grant of an address: { number, host, edge, port, granted, freed, registrations: [{ entry, number }], earlier },
            // where `freed` is -1 while it is in use, and `earlier` is the grant of the same address before it, -1 where there is none.
            addresses: [],
            byAddress: new Map(), // the last grant of each address
            restarts: [], // the entries `restarted N`
            isLog: false, // whether it has events
            scriptLines: [], // the entries `line N`
            spots: Int32Array.from(fabric.hosts, host => host.edge * fabric.k + host.port), // where hosts stand meanwhile
        };
    };

    const beginFrame = (lines, run, id, n, parent) => {
        if (id !== run.begin.length) lines.refuse(`frame ${id} begins where frame ${run.begin.length} is next`);
        run.begin.push(n);
        run.end.push(-1);
        run.parent.push(parent);
        run.root.push(parent === 0 ? id : run.root[parent]);
    };

    const addressOf = (lines, run) => {
        const number = lines.address();
        const found = run.byAddress.get(number);
        if (found === undefined) lines.refuse("an address that was not granted");
        if (run.addresses[found].freed >= 0) lines.refuse("an address that was freed and not granted again");
        return found;
    };

    const grant = (lines, run, n) => {
        const number = lines.address();
        const earlier = run.byAddress.has(number) ? run.byAddress.get(number) : -1;
        if (earlier >= 0 && run.addresses[earlier].freed < 0) lines.refuse("an address that was granted before");
        const host = lines.host(run.fabric);
        const edge = lines.switch(run.fabric.k);
        const port = lines.part("a port", run.fabric.k - 1);
        run.a[n] = run.addresses.length;
        run.b[n] = host;
        run.c[n] = edge * run.fabric.k + port;
        run.byAddress.set(number, run.addresses.length);
        run.addresses.push({ number, host, edge, port, granted: n, freed: -1, registrations: [], earlier });
    };

    const free = (lines, run, n) => {
        run.a[n] = addressOf(lines, run);
        run.b[n] = run.addresses[run.a[n]].host;
        run.addresses[run.a[n]].freed = n;
    };

    // An address is registered once, and once more after each restart of the manager, whose numbers go on above 2 to the 32nd.
    const register = (lines, run, n) => {
        run.a[n] = addressOf(lines, run);
        const { registrations } = run.addresses[run.a[n]];
        const number = lines.number("a registration number", Number.MAX_SAFE_INTEGER);
        const since = run.restarts.length > 0 ? run.restarts[run.restarts.length - 1] : -1;
        const last = registrations[registrations.length - 1];
        if (last && last.entry > since) lines.refuse("an address that was registered before");
        run.b[n] = registrations.length;
        registrations.push({ entry: n, number });
    };

    const restart = (lines, run, n) => {
        run.a[n] = lines.number("a number");
        if (run.a[n] !== run.restarts.length + 1) lines.refuse(`restart ${run.a[n]} stands where restart ${run.restarts.length + 1} is next`);
        run.restarts.push(n);
    };

    const joined = (lines, run, n) => {
        run.b[n] = lines.switch(run.fabric.k);
        run.c[n] = lines.switch(run.fabric.k);
        run.a[n] = Fabric.link(run.fabric, run.b[n], run.c[n]);
        if (run.a[n] < 0) lines.refuse("no link joins the two switches");
        if (run.b[n] > run.c[n]) lines.refuse("the switches of a link stand in the order of their labels");
    };

    const place = (lines, run, n) => {
        run.a[n] = lines.switch(run.fabric.k);
        const level = lines.part("a level", 2);
        const position = lines.part("a position", 255);
        run.b[n] = packPlace(level, position, lines.part("a pod", 65535));
    };

    const moved = (lines, run, n) => {
        run.a[n] = lines.host(run.fabric);
        run.b[n] = lines.switch(run.fabric.k);
        run.c[n] = lines.part("a port", run.fabric.k - 1);
        const s = run.fabric.switches[run.b[n]];
        if (!s.hostPorts.includes(run.c[n])) lines.refuse(`port ${run.c[n]} of ${s.label} is none for hosts`);
        run.spots[run.a[n]] = run.b[n] * run.fabric.k + run.c[n];
    };

    // Entries of a frame that has begun and not ended. `last` has each frame's newest entry.
    const ofFlying = (lines, run, n, kind, last) => {
        const id = lines.number("a frame's number");
        if (id === 0 || id >= run.begin.length) lines.refuse(`frame ${id} has not begun`);
        if (run.end[id] >= 0) lines.refuse(`frame ${id} has ended`);
        run.a[n] = id;
        run.before[n] = last[id];
        run.at[n] = run.at[last[id]];
        last[id] = n;
        if (kind === KIND.crossed) run.at[n] = run.b[n] = lines.switch(run.fabric.k);
        else if (kind === KIND.redirected) {
            run.b[n] = addressOf(lines, run);
            run.c[n] = addressOf(lines, run);
        } else if (kind === KIND.copied) {
            run.b[n] = lines.number("a frame's number");
            beginFrame(lines, run, run.b[n], n, id);
            last[run.b[n]] = n;
        } else {
            run.end[id] = n;
            if (kind === KIND.dropped) run.b[n] = lines.oneOf(CAUSES, "cause");
            else if (kind === KIND.taken) run.b[n] = lines.switch(run.fabric.k);
            else {
                run.b[n] = lines.host(run.fabric);
                run.c[n] = lines.frame();
                run.spot[n] = run.spots[run.b[n]];
            }
        }
    };

    const ofNewFrame = (lines, run, n, kind, last) => {
        const id = lines.number("a frame's number");
        beginFrame(lines, run, id, n, 0);
        last[id] = n;
        run.a[n] = id;
        run.b[n] = kind === KIND.sent ? lines.host(run.fabric) : lines.switch(run.fabric.k);
        run.c[n] = lines.frame();
        if (kind === KIND.sent) run.spot[n] = run.spots[run.b[n]];
        else run.at[n] = run.b[n];
    };

    // Of an event `a` is the switch whose turn it is and `b` the other one, or the host; -1 is none. `c` is what happens. A restart, of the
    // fabric manager, has neither.
    const ofLink = (lines, run, n, event) => {
        const from = lines.switch(run.fabric.k);
        lines.part("a port", run.fabric.k - 1);
        const isLink = lines.isSwitch(run.fabric);
        const to = isLink ? lines.switch(run.fabric.k) : lines.next();
        if (isLink) lines.part("a port", run.fabric.k - 1);
        const host = isLink || to === "-" ? -1 : run.fabric.names.get(to);
        if (host === undefined) lines.refuse(`the topology has no host \`${to}\``);
        run.c[n] = isLink ? event : event === EVENT.along ? EVENT.leaves : event;
        [run.a[n], run.b[n]] = isLink && event === EVENT.along ? [to, from] : [from, isLink ? to : host];
    };

    const ofDelivery = (lines, run, n) => {
        const { at } = lines;
        if (lines.isSwitch(run.fabric)) {
            const from = lines.switch(run.fabric.k);
            if (lines.bytes[lines.at + 1] === 109) {
                if (lines.next() !== "manager") lines.refuse("a word is none");
                [run.a[n], run.b[n], run.c[n]] = [from, -1, EVENT.told];
                return;
            }
            lines.at = at;
            ofLink(lines, run, n, EVENT.along);
            return;
        }
        const name = lines.next();
        const host = name === "manager" ? -1 : run.fabric.names.get(name);
        if (host === undefined) lines.refuse(`the topology has no host \`${name}\``);
        const to = lines.switch(run.fabric.k);
        if (host >= 0) lines.part("a port", run.fabric.k - 1);
        [run.a[n], run.b[n], run.c[n]] = [to, host, host < 0 ? EVENT.says : EVENT.enters];
    };

    const ofEvent = (lines, run, n) => {
        lines.number("the number of a step", Number.MAX_SAFE_INTEGER);
        const verb = lines.next();
        const event = verb === "deliver" ? EVENT.along : EVENTS.indexOf(verb);
        if (event < 0) lines.refuse(`\`${verb}\` is no event`);
        [run.a[n], run.b[n], run.c[n]] = [-1, -1, event];
        if (verb === "deliver") ofDelivery(lines, run, n);
        else if (verb === "lose") ofLink(lines, run, n, event);
        else if (verb === "tick") run.a[n] = lines.switch(run.fabric.k);
        else if (verb === "fail" || verb === "repair") {
            run.a[n] = lines.switch(run.fabric.k);
            run.b[n] = lines.switch(run.fabric.k);
        } else if (verb !== "restart") {
            run.b[n] = lines.host(run.fabric);
            if (verb === "move") {
                run.a[n] = lines.switch(run.fabric.k);
                lines.part("a port", run.fabric.k - 1);
            } else if (verb === "join" || verb === "leave") lines.next();
        }
    };

    const entry = (lines, run, n, last) => {
        const kind = lines.word();
        run.kind[n] = kind;
        run.before[n] = -1;
        run.at[n] = -1;
        run.spot[n] = -1;
        if (kind >= KIND.crossed && kind <= KIND.dropped) ofFlying(lines, run, n, kind, last);
        else if (kind === KIND.sent || kind === KIND.made) ofNewFrame(lines, run, n, kind, last);
        else if (kind === KIND.skipped) {
            run.a[n] = lines.host(run.fabric);
            run.b[n] = lines.oneOf(SKIPS, "reason to skip");
        } else if (kind === KIND.granted) grant(lines, run, n);
        else if (kind === KIND.registered) register(lines, run, n);
        else if (kind === KIND.placed) place(lines, run, n);
        else if (kind === KIND.linkdown || kind === KIND.linkup) joined(lines, run, n);
        else if (kind === KIND.moved) moved(lines, run, n);
        else if (kind === KIND.freed) free(lines, run, n);
        else if (kind === KIND.event) ofEvent(lines, run, n);
        else if (kind === KIND.restarted) restart(lines, run, n);
        else if (kind !== KIND.other) {
            run.a[n] = lines.number("a number");
            if (kind === KIND.line) run.scriptLines.push(n);
        }
    };

    const read = (bytes, fabric) => {
        const run = emptyRun(bytes, fabric);
        const lines = new Lines(bytes);
        const last = [-1];
        let n = 0;
        for (; lines.at < bytes.length; n++) {
            lines.line++;
            run.start[n] = lines.at;
            entry(lines, run, n, last);
            lines.end();
            if (run.kind[n] === KIND.event) {
                run.isLog = true;
                run.spot[n] = lines.below();
            }
        }
        run.start[n] = lines.at;
        run.count = n;
        return run;
    };

    // the text of an entry's line, of a long one only the first so many letters
    const text = (run, n, most = Infinity) => {
        const from = run.start[n];
        const to = run.start[n + 1] - 1;
        const shown = DECODER.decode(run.bytes.subarray(from, Math.min(to, from + most)));
        return to - from > most ? `${shown}\u2026` : shown;
    };

    const hasFrame = (run, n) => [KIND.sent, KIND.made, KIND.arrived].includes(run.kind[n]);

    // the bytes of the frame in an entry's line
    const frame = (run, n) => {
        const from = run.c[n];
        const length = (run.start[n + 1] - 1 - from) >> 1;
        const digit = at => DIGITS[run.bytes[from + at]];
        return Uint8Array.from({ length }, (_, n) => digit(2 * n) * 16 + digit(2 * n + 1));
    };

    // the number of the frame that an entry speaks of, 0 where it speaks of none
    const frameOf = (run, n) => (run.kind[n] >= KIND.crossed && run.kind[n] <= KIND.dropped)
        || run.kind[n] === KIND.sent || run.kind[n] === KIND.made ? run.a[n] : 0;

    // the entry with which a frame began, for a copy that of the frame that it comes from
    const beginning = (run, id) => run.begin[run.root[id]];

    // the last entry before entry n, of a frame, by which that one crossed a switch; -1 where it crossed none
    const crossedBefore = (run, n) => {
        let at = run.before[n];
        while (at >= 0 && run.kind[at] !== KIND.crossed) at = run.before[at];
        return at;
    };

    // how many in a list have a number below this one; they stand by rising numbers
    const countBelow = (list, number, numberOf) => {
        let [low, high] = [0, list.length];
        while (low < high) {
            const middle = (low + high) >> 1;
            if (numberOf(list[middle]) < number) low = middle + 1;
            else high = middle;
        }
        return low;
    };

    // the entry of a line of the script, of the next one that has an entry where it has none; -1 behind the last
    const ofLine = (run, number) => {
        const before = countBelow(run.scriptLines, number, n => run.a[n]);
        return before < run.scriptLines.length ? run.scriptLines[before] : -1;
    };

    // the grant of an address that was the last of the first n entries, or null
    const grantAt = (run, number, n) => {
        let found = run.byAddress.has(number) ? run.byAddress.get(number) : -1;
        while (found >= 0 && run.addresses[found].granted >= n) found = run.addresses[found].earlier;
        return found < 0 ? null : run.addresses[found];
    };

    const isFreed = (address, n) => address.freed >= 0 && address.freed < n;

    // the last of the first n entries with which the manager restarted, -1 where none did
    const restartAt = ({ restarts }, n) => {
        const count = countBelow(restarts, n, entry => entry);
        return count === 0 ? -1 : restarts[count - 1];
    };

    // The entry and the number with which a grant is registered once n entries have happened, or null: what the manager learnt before it
    // restarted it has forgotten.
    const registrationAt = (run, { registrations }, n) => {
        const count = countBelow(registrations, n, ({ entry }) => entry);
        return count > 0 && registrations[count - 1].entry > restartAt(run, n) ? registrations[count - 1] : null;
    };

    // Whether a learning bridge played the run: it takes links out before the first line of the script.
    const isOfBridge = run => run.count > 0 && run.kind[0] === KIND.linkdown;
    // whether entry n, that a link fails, is one of these
    const isLeftOut = (run, n) => isOfBridge(run) && (run.scriptLines.length === 0 || n < run.scriptLines[0]);

    return {
        WORDS, KIND, EVENTS, EVENT, HEARD, CAUSES, SKIPS, read, text, frame, hasFrame, frameOf, beginning, crossedBefore, ofLine, unpackPlace,
        grantAt, isFreed, restartAt, registrationAt, isOfBridge, isLeftOut,
    };
})();
