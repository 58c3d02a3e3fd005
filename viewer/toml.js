"use strict";
// Reads a TOML document (version 1.0) as far as a topology needs it: tables, arrays of tables, arrays, inline tables,
// strings, integers and booleans as values; floating numbers and dates as `{ other: text }`, which no key of a topology takes.
globalThis.Toml = (() => {
    const BARE = /[A-Za-z0-9_-]+/y;
    const SCALAR = /[0-9]{4}-[0-9]{2}-[0-9]{2} [0-9][^\s,\]}#]*|[^\s,\]}#]+/y;
    const INTEGER = /^[+-]?(0|[1-9](_?[0-9])*)$|^0x[0-9a-fA-F](_?[0-9a-fA-F])*$|^0o[0-7](_?[0-7])*$|^0b[01](_?[01])*$/;
    const ESCAPES = { b: "\b", t: "\t", n: "\n", f: "\f", r: "\r", '"': '"', "\\": "\\" };

    class Reader {
        constructor(text) {
            this.text = text;
            this.at = 0;
        }

        refuse(what) {
            const line = this.text.slice(0, this.at).split("\n").length;
            const error = new Error(`line ${line}: ${what}`);
            error.line = line;
            throw error;
        }

        next() {
            return this.text[this.at];
        }

        starts(word) {
            return this.text.startsWith(word, this.at);
        }

        skip(pattern) {
            pattern.lastIndex = this.at;
            const found = pattern.exec(this.text);
            if (found) this.at += found[0].length;
            return found ? found[0] : "";
        }

        blanks() {
            this.skip(/[ \t]*/y);
        }

        // blanks, comments and the ends of lines
        gap() {
            this.skip(/(?:[ \t\r\n]|#[^\n]*)*/y);
        }

        want(word) {
            if (!this.starts(word)) this.refuse(`\`${word}\` is missing`);
            this.at += word.length;
        }

        endOfLine() {
            this.skip(/[ \t]*(#[^\n]*)?\r?/y);
            if (this.at < this.text.length && this.next() !== "\n") this.refuse("more than one thing on a line");
        }

        key() {
            const c = this.next();
            const key = c === '"' || c === "'" ? this.line(c) : this.skip(BARE);
            if (key === "" && c !== '"' && c !== "'") this.refuse("a key is missing");
            return key;
        }

        keys() {
            const keys = [];
            for (;;) {
                this.blanks();
                keys.push(this.key());
                this.blanks();
                if (this.next() !== ".") return keys;
                this.at++;
            }
        }

        escape() {
            const c = this.text[this.at + 1];
            if (c === "u" || c === "U") {
                const digits = this.text.substr(this.at + 2, c === "u" ? 4 : 8);
                if (!/^([0-9a-fA-F]{4}){1,2}$/.test(digits)) this.refuse("an escape that is none");
                this.at += 2 + digits.length;
                return String.fromCodePoint(parseInt(digits, 16));
            }
            if (!(c in ESCAPES)) this.refuse("an escape that is none");
            this.at += 2;
            return ESCAPES[c];
        }

        // a string on one line
        line(quote) {
            this.at++;
            let value = "";
            while (this.next() !== quote) {
                if (this.next() === undefined || this.next() === "\n") this.refuse("a string that does not end");
                if (this.next() === "\\" && quote === '"') value += this.escape();
                else value += this.text[this.at++];
            }
            this.at++;
            return value;
        }

        // a string on more lines
        lines(quote) {
            this.at += 3;
            this.skip(/\r?\n/y);
            let value = "";
            while (!this.starts(quote.repeat(3))) {
                if (this.next() === undefined) this.refuse("a string that does not end");
                if (quote === '"' && this.skip(/\\[ \t]*\r?\n[ \t\r\n]*/y)) continue;
                if (this.next() === "\\" && quote === '"') value += this.escape();
                else value += this.text[this.at++];
            }
            this.at += 3;
            for (let n = 0; n < 2 && this.next() === quote; n++, this.at++) value += quote;
            return value;
        }

        value() {
            const c = this.next();
            if (c === '"' || c === "'") return this.starts(c.repeat(3)) ? this.lines(c) : this.line(c);
            if (c === "[") return this.array();
            if (c === "{") return this.inline();
            const text = this.skip(SCALAR);
            if (text === "") this.refuse("a value is missing");
            if (text === "true" || text === "false") return text === "true";
            if (INTEGER.test(text)) return Number(text.replace(/_/g, ""));
            if (!/^[+-]?([0-9]|inf|nan)/.test(text)) this.refuse(`\`${text}\` is no value`);
            return { other: text };
        }

        array() {
            this.at++;
            const items = [];
            for (;;) {
                this.gap();
                if (this.next() === "]") break;
                items.push(this.value());
                this.gap();
                if (this.next() === ",") this.at++;
                else if (this.next() !== "]") this.refuse("`]` is missing");
            }
            this.at++;
            return items;
        }

        inline() {
            this.at++;
            const table = Object.create(null);
            this.blanks();
            while (this.next() !== "}") {
                this.pair(table);
                this.blanks();
                if (this.next() !== ",") break;
                this.at++;
                this.blanks();
            }
            this.want("}");
            return table;
        }

        pair(table) {
            const keys = this.keys();
            this.want("=");
            this.blanks();
            const last = keys.pop();
            const inner = keys.reduce((at, key) => this.inner(at, key), table);
            if (last in inner) this.refuse(`\`${last}\` stands twice`);
            inner[last] = this.value();
        }

        // the table at a key, the last one where an array of tables stands there
        inner(table, key) {
            if (!(key in table)) table[key] = Object.create(null);
            const value = Array.isArray(table[key]) ? table[key][table[key].length - 1] : table[key];
            if (typeof value !== "object" || value === null || "other" in value) this.refuse(`\`${key}\` is no table`);
            return value;
        }

        // a line in brackets: the table that the lines behind it fill
        header(root) {
            const isArray = this.starts("[[");
            this.at += isArray ? 2 : 1;
            const keys = this.keys();
            this.want(isArray ? "]]" : "]");
            const last = keys.pop();
            const outer = keys.reduce((at, key) => this.inner(at, key), root);
            if (!isArray) return this.inner(outer, last);
            if (!(last in outer)) outer[last] = [];
            if (!Array.isArray(outer[last])) this.refuse(`\`${last}\` is no array of tables`);
            outer[last].push(Object.create(null));
            return outer[last][outer[last].length - 1];
        }

        document() {
            const root = Object.create(null);
            let table = root;
            this.skip(/\uFEFF/y);
            for (;;) {
                this.gap();
                if (this.at === this.text.length) return root;
                if (this.next() === "[") table = this.header(root);
                else this.pair(table);
                this.endOfLine();
            }
        }
    }

    const read = text => new Reader(text).document();
    return { read };
})();
