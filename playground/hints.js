"use strict";
// What is to be said of a run: playground/translate has made this file of explain_topology.py, explain_captures.py, explain_script.py, explain_run.py, explain in tools/.
globalThis.Hints = (() => {
    const P = Python;
    const portland_captures = { ETHERNET: 1 };
    const portland_journal = { FORMS: new Map([["line", []], ["sent", ["frame", "host", "data"]], ["skipped", ["host", "skip"]], ["made", ["frame", "switch", "data"]], ["crossed", ["frame", "switch"]], ["redirected", ["frame", "old", "new"]], ["copied", ["frame", "copy"]], ["arrived", ["frame", "host", "data"]], ["taken", ["frame", "switch"]], ["dropped", ["frame", "cause"]], ["granted", ["address", "host", "switch", "port"]], ["registered", ["address", "number"]], ["freed", ["address"]], ["placed", ["switch", "level", "position", "pod"]], ["linkdown", ["a", "b"]], ["linkup", ["a", "b"]], ["moved", ["host", "switch", "port"]], ["restarted", ["number"]], ["settled", ["rounds"]], ["unsettled", ["pending"]]]) };
    const explain_topology = (() => {
        const KEYS = new Map([["switch", ["label", "id"]], ["link", ["a", "port_a", "b", "port_b"]], ["host", ["name", "mac", "ip", "edge", "port", "capture"]]]);
        function near(word, known) {
            let lower, found;
            lower = new Map((function* () { for (const name of P.iter(known)) { yield [P.call(name, "lower"), name]; } }()));
            found = P.difflib.get_close_matches(P.call(word, "lower"), P.list(lower), 1, 0.6);
            return (P.truth(found) ? P.at(lower, P.at(found, 0)) : null);
        }

        function or_near(word, known) {
            let found;
            found = near(word, known);
            return (P.truth(found) ? ["; is it `", P.format(found, "", ""), "`?"].join("") : "");
        }

        function listed(words, most = 12) {
            words = P.list(words);
            return P.add(P.call(", ", "join", P.slice(words, null, most)), (P.truth((P.len(words) > most)) ? ", .." : ""));
        }

        function numbered(lines, first, last) {
            let width;
            width = P.len(P.str(last));
            return [...(function* () { for (const n of P.iter(P.range(first, P.add(P.min(last, P.len(lines)), 1)))) { yield ["  ", P.format(n, [">", P.format(width, "", "")].join(""), ""), " | ", P.format(printable(P.call(P.at(lines, P.sub(n, 1)), "rstrip")), "", "")].join(""); } }())];
        }

        function printable(text) {
            return P.call("", "join", (function* () { for (const letter of P.iter(text)) { yield (P.truth(P.or_(P.call(letter, "isprintable"), () => (P.eq(letter, "\t")))) ? letter : "?"); } }()));
        }

        class Fabric {
            constructor(path) {
                const self = this;
                let data;
                self.path = path;
                self.k = null;
                self.tables = new Map([["switch", []], ["link", []], ["host", []]]);
                self.lines = [];
                self.document = null;
                self.fault = null;
                try {
                    data = P.call(P.pathlib.Path(path), "read_bytes");
                } catch (error) {
                    P.catches(error, ["OSError"]);
                    return null;
                }
                self.lines = P.call(P.call(data, "decode", "utf-8", "replace"), "split", "\n");
                if (P.truth(P.tomllib)) {
                    P.call(self, "read", data);
                }
            }
            read(data) {
                const self = this;
                let k, kind, found, fault;
                try {
                    self.document = P.tomllib.loads(P.call(data, "decode", "utf-8"));
                } catch (error) {
                    P.catches(error, ["TOMLDecodeError", "UnicodeDecodeError", "RecursionError"]);
                    fault = error;
                    self.fault = fault;
                    return null;
                }
                k = P.call(self.document, "get", "k");
                if (P.truth(P.and_(is_integer(k), () => (4 <= k && k <= 24), () => (P.eq(P.mod(k, 2), 0))))) {
                    self.k = k;
                }
                for (kind of P.iter(self.tables)) {
                    found = P.call(self.document, "get", kind, []);
                    if (P.truth(P.and_(P.isinstance(found, ["list"]), () => P.all((function* () { for (const table of P.iter(found)) { yield P.isinstance(table, ["dict"]); } }()))))) {
                        P.put(self.tables, kind, found);
                    }
                }
            }
            hosts() {
                const self = this;
                return [...(function* () { for (const table of P.iter(P.at(self.tables, "host"))) { if (P.truth(P.isinstance(P.call(table, "get", "name"), ["str"]))) yield P.at(table, "name"); } }())];
            }
            labels() {
                const self = this;
                let half, pods;
                half = P.floordiv(P.or_(self.k, () => 0), 2);
                pods = P.range(P.or_(self.k, () => 0));
                return P.add(P.add([...(function* () { for (const p of P.iter(pods)) { for (const i of P.iter(P.range(half))) { yield ["e", P.format(p, "", ""), ".", P.format(i, "", "")].join(""); } } }())], [...(function* () { for (const p of P.iter(pods)) { for (const j of P.iter(P.range(half))) { yield ["a", P.format(p, "", ""), ".", P.format(j, "", "")].join(""); } } }())]), [...(function* () { for (const j of P.iter(P.range(half))) { for (const m of P.iter(P.range(half))) { yield ["c", P.format(j, "", ""), ".", P.format(m, "", "")].join(""); } } }())]);
            }
            neighbours(label) {
                const self = this;
                let half, kind, first, second;
                half = P.floordiv(P.or_(self.k, () => 0), 2);
                [kind, first, second] = P.iter([P.at(label, 0), ...P.iter(P.map(P.int, P.call(P.slice(label, 1, null), "split", ".")))]);
                if (P.truth((P.eq(kind, "e")))) {
                    return [...(function* () { for (const j of P.iter(P.range(half))) { yield ["a", P.format(first, "", ""), ".", P.format(j, "", "")].join(""); } }())];
                }
                if (P.truth((P.eq(kind, "a")))) {
                    return P.add([...(function* () { for (const i of P.iter(P.range(half))) { yield ["e", P.format(first, "", ""), ".", P.format(i, "", "")].join(""); } }())], [...(function* () { for (const m of P.iter(P.range(half))) { yield ["c", P.format(second, "", ""), ".", P.format(m, "", "")].join(""); } }())]);
                }
                return [...(function* () { for (const p of P.iter(P.range(P.or_(self.k, () => 0)))) { yield ["a", P.format(p, "", ""), ".", P.format(first, "", "")].join(""); } }())];
            }
            link_ports(label) {
                const self = this;
                let half, ports, other, table, kind, first, second, far, end, port;
                half = P.floordiv(self.k, 2);
                [kind, first, second] = P.iter([P.at(label, 0), ...P.iter(P.map(P.int, P.call(P.slice(label, 1, null), "split", ".")))]);
                ports = new Map([]);
                for (other of P.iter(P.call(self, "neighbours", label))) {
                    far = [...(function* () { for (const n of P.iter(P.call(P.slice(other, 1, null), "split", "."))) { yield P.int(n); } }())];
                    P.put(ports, other, P.at(new Map([["ea", P.add(half, P.at(far, 1))], ["ae", P.at(far, 1)], ["ac", P.add(half, P.at(far, 1))], ["ca", P.at(far, 0)]]), P.add(kind, P.at(other, 0))));
                }
                for (table of P.iter(P.at(self.tables, "link"))) {
                    for ([end, port, other] of P.iter([["a", "port_a", "b"], ["b", "port_b", "a"]])) {
                        if (P.truth(P.and_((P.eq(P.call(table, "get", end), label)), () => (P.contains(P.call(table, "get", other), ports)), () => is_integer(P.call(table, "get", port))))) {
                            P.put(ports, P.at(table, other), P.at(table, port));
                        }
                    }
                }
                return ports;
            }
            host_ports(edge) {
                const self = this;
                let taken;
                taken = P.set(P.call(P.call(self, "link_ports", edge), "values"));
                return [...(function* () { for (const port of P.iter(P.range(self.k))) { if (P.truth((!P.contains(port, taken)))) yield port; } }())];
            }
            place(kind, number) {
                const self = this;
                let heads, last;
                heads = [...(function* () { for (const [n, line] of P.iter(P.enumerate(self.lines, 1))) { if (P.truth(P.re.match(["\\s*\\[\\[\\s*", P.format(kind, "", ""), "\\s*\\]\\]"].join(""), line))) yield n; } }())];
                if (P.truth(P.or_((!P.eq(P.len(heads), P.len(P.at(self.tables, kind)))), () => (number >= P.len(heads))))) {
                    return null;
                }
                last = P.at(heads, number);
                while (P.truth(P.and_((last < P.len(self.lines)), () => !P.truth(P.call(P.call(P.at(self.lines, last), "lstrip"), "startswith", "["))))) {
                    last = P.add(last, 1);
                }
                while (P.truth(P.and_((last > P.at(heads, number)), () => !P.truth(P.call(P.at(self.lines, P.sub(last, 1)), "strip"))))) {
                    last = P.sub(last, 1);
                }
                return [P.at(heads, number), last];
            }
            shown(kind, number) {
                const self = this;
                let place;
                place = P.call(self, "place", kind, number);
                return (P.truth(place) ? numbered(self.lines, ...P.iter(place)) : [["  ", P.format(kind, "", ""), " table number ", P.format(P.add(number, 1), "", ""), ": ", P.format(P.at(P.at(self.tables, kind), number), "", "")].join("")]);
            }
        }

        function is_integer(value) {
            return P.and_(P.isinstance(value, ["int"]), () => !P.truth(P.isinstance(value, ["bool"])));
        }

        function name_fault(value, _fabric) {
            if (P.truth(!P.truth(P.isinstance(value, ["str"])))) {
                return "a name is a text in quotes";
            }
            if (P.truth((P.contains(value, ["all", "manager"])))) {
                return ["`", P.format(value, "", ""), "` is a word of scripts: take another name"].join("");
            }
            if (P.truth(!P.truth(P.re.fullmatch("[a-z0-9_-]{1,32}", value)))) {
                return "a name has 1 to 32 of a to z, 0 to 9, _ and -: no capitals, no blanks, no points";
            }
            return null;
        }

        function mac_fault(value, _fabric) {
            let digits;
            if (P.truth(!P.truth(P.isinstance(value, ["str"])))) {
                return "a mac is a text in quotes, as \"02:00:00:00:00:0a\"";
            }
            if (P.truth(!P.truth(P.re.fullmatch("[0-9A-Fa-f]{2}(:[0-9A-Fa-f]{2}){5}", value)))) {
                digits = P.re.sub("[^0-9A-Fa-f]", "", value);
                if (P.truth(P.and_((P.eq(P.len(digits), 12)), () => P.re.fullmatch("[0-9A-Fa-f.:-]+", value)))) {
                    return ["write it with colons: \"", P.format(P.call(P.call(":", "join", (function* () { for (const n of P.iter(P.range(0, 12, 2))) { yield P.slice(digits, n, P.add(n, 2)); } }())), "lower"), "", ""), "\""].join("");
                }
                return "a mac is six two-digit hexadecimal numbers joined by colons, as \"02:00:00:00:00:0a\"";
            }
            if (P.truth(P.mod(P.int(P.slice(value, null, 2), 16), 2))) {
                return [P.format(value, "", ""), " is a group address: the first number of a host's own address is even"].join("");
            }
            if (P.truth(!P.truth(P.re.search("[1-9A-Fa-f]", value)))) {
                return "all zero is nobody's address";
            }
            return null;
        }

        function ip_fault(value, _fabric) {
            if (P.truth(!P.truth(P.isinstance(value, ["str"])))) {
                return "an ip is a text in quotes, as \"10.0.0.1\"";
            }
            if (P.truth((P.contains("/", value)))) {
                return ["no mask here: a fabric is one subnet. Write \"", P.format(P.at(P.call(value, "split", "/"), 0), "", ""), "\""].join("");
            }
            if (P.truth((P.contains(":", value)))) {
                return "hosts have IPv4 addresses; IPv6 frames are carried unread";
            }
            if (P.truth(P.or_(!P.truth(P.re.fullmatch("(0|[1-9][0-9]{0,2})(\\.(0|[1-9][0-9]{0,2})){3}", value)), () => P.any((function* () { for (const n of P.iter(P.call(value, "split", "."))) { yield (P.int(n) > 255); } }()))))) {
                return "an ip is four numbers 0 to 255 without leading zeros, joined by points, as \"10.0.0.1\"";
            }
            if (P.truth(P.or_((P.eq(value, "0.0.0.0")), () => (P.int(P.at(P.call(value, "split", "."), 0)) > 223)))) {
                return "an ip of a host is not 0.0.0.0, and its first number is below 224";
            }
            return null;
        }

        function label_fault(value, fabric) {
            let half;
            if (P.truth(!P.truth(P.isinstance(value, ["str"])))) {
                return "a label is a text in quotes, as \"e0.1\"";
            }
            if (P.truth((!P.contains(value, P.call(fabric, "labels"))))) {
                half = P.floordiv(fabric.k, 2);
                return ["with k = ", P.format(fabric.k, "", ""), " there are e0.0 to e", P.format(P.sub(fabric.k, 1), "", ""), ".", P.format(P.sub(half, 1), "", ""), ", a0.0 to a", P.format(P.sub(fabric.k, 1), "", ""), ".", P.format(P.sub(half, 1), "", ""), " and c0.0 to c", P.format(P.sub(half, 1), "", ""), ".", P.format(P.sub(half, 1), "", "")].join("");
            }
            return null;
        }

        function edge_fault(value, fabric) {
            let fault;
            fault = label_fault(value, fabric);
            if (P.truth(P.and_((Object.is(fault, null)), () => (!P.eq(P.at(value, 0), "e"))))) {
                return ["hosts stand at edge switches: e0.0 to e", P.format(P.sub(fabric.k, 1), "", ""), ".", P.format(P.sub(P.floordiv(fabric.k, 2), 1), "", "")].join("");
            }
            return fault;
        }

        function integer_fault(value, _fabric) {
            return (P.truth(is_integer(value)) ? null : "a number without quotes and without a point");
        }

        function id_fault(value, _fabric) {
            if (P.truth(!P.truth(is_integer(value)))) {
                return "an id is a number without quotes";
            }
            return (P.truth((1 <= value && value < P.shift(1, 48))) ? null : "an id is 1 to 281474976710655");
        }

        function capture_fault(value, _fabric) {
            if (P.truth(!P.truth(P.isinstance(value, ["str"])))) {
                return "a capture is the name of a file, in quotes";
            }
            if (P.truth((P.contains("/", value)))) {
                return ["a file in the folder of --captures, not a path: \"", P.format(P.at(P.call(value, "split", "/"), -1), "", ""), "\""].join("");
            }
            if (P.truth(!P.truth(P.re.fullmatch("[A-Za-z0-9_-][A-Za-z0-9_.-]{0,63}", value)))) {
                return "a capture has 1 to 64 letters, digits, _, - and points, and does not begin with a point";
            }
            return null;
        }

        const FAULTS = new Map([["name", name_fault], ["mac", mac_fault], ["ip", ip_fault], ["edge", edge_fault], ["port", integer_fault], ["capture", capture_fault], ["label", label_fault], ["id", id_fault], ["a", label_fault], ["b", label_fault], ["port_a", integer_fault], ["port_b", integer_fault]]);
        function again(fabric, kind, number) {
            let ends, table, before;
            [table, before] = P.iter([P.at(P.at(fabric.tables, kind), number), P.slice(P.at(fabric.tables, kind), null, number)]);
            if (P.truth((P.eq(kind, "switch")))) {
                return (P.contains(P.call(table, "get", "label"), [...(function* () { for (const other of P.iter(before)) { yield P.call(other, "get", "label"); } }())]));
            }
            ends = new Set([P.str(P.call(table, "get", "a")), P.str(P.call(table, "get", "b"))]);
            return P.any((function* () { for (const other of P.iter(before)) { yield (P.eq(new Set([P.str(P.call(other, "get", "a")), P.str(P.call(other, "get", "b"))]), ends)); } }()));
        }

        function* unread_keys(fabric) {
            let document, key, value, kind, tables, head, number, table, at, where, hint;
            document = P.or_(fabric.document, () => new Map([]));
            for ([key, value] of P.iter(P.call(document, "items"))) {
                if (P.truth((!P.contains(key, ["k", ...P.iter(KEYS)])))) {
                    head = (P.truth(P.isinstance(value, ["list"])) ? ["`[[", P.format(key, "", ""), "]]`"].join("") : (P.truth(P.isinstance(value, ["dict"])) ? ["`[", P.format(key, "", ""), "]`"].join("") : ["`", P.format(key, "", ""), "`"].join("")));
                    yield P.add(P.add(head, " is read by nobody"), or_near(key, ["k", ...P.iter(KEYS)]));
                }
            }
            for ([kind, tables] of P.iter(P.call(fabric.tables, "items"))) {
                for ([number, table] of P.iter(P.enumerate(tables))) {
                    for (key of P.iter(table)) {
                        if (P.truth((!P.contains(key, P.at(KEYS, kind))))) {
                            at = P.call(fabric, "place", kind, number);
                            where = (P.truth(at) ? [" of the table at line ", P.format(P.at(at, 0), "", "")].join("") : [" of ", P.format(kind, "", ""), " table number ", P.format(P.add(number, 1), "", "")].join(""));
                            hint = (P.truth((P.eq(key, "k"))) ? " (it belongs above all tables)" : or_near(key, P.at(KEYS, kind)));
                            yield ["`", P.format(key, "", ""), "`", P.format(where, "", ""), " is read by nobody", P.format(hint, "", "")].join("");
                        }
                    }
                }
            }
        }

        function toml_hint(fabric) {
            let text, at, number, line, lines;
            if (P.truth((Object.is(fabric.fault, null)))) {
                return [];
            }
            if (P.truth(reads_as_script(fabric.lines))) {
                return [...P.iter(numbered(fabric.lines, 1, 1)), "hint: this reads as a script, and a topology is wanted: are --topology and --script swapped?"];
            }
            if (P.truth(P.isinstance(fabric.fault, ["UnicodeDecodeError"]))) {
                return ["hint: the file is no UTF-8 text: save it as UTF-8, without a byte order mark"];
            }
            text = P.str(fabric.fault);
            at = P.re.search("\\(at line (\\d+), column (\\d+)\\)", text);
            number = (P.truth(at) ? P.int(P.at(at, 1)) : P.len(fabric.lines));
            line = (P.truth((number <= P.len(fabric.lines))) ? P.at(fabric.lines, P.sub(number, 1)) : "");
            lines = numbered(fabric.lines, P.max(1, P.sub(number, 1)), number);
            if (P.truth(P.and_(at, () => (!P.contains("\t", line))))) {
                P.call(lines, "append", P.add(P.mul(" ", P.add(P.add(P.int(P.at(at, 2)), 4), P.len(P.str(number)))), "^"));
            }
            return P.add(lines, [["hint: ", P.format(P.re.sub(" [(]at .*", "", text), "", ""), P.format(toml_slip(line, text), "", "")].join("")]);
        }

        const SCRIPT_LINE = P.re.compile("(start|send|raw|retry|join|leave|move|fail|repair|lose|deliver|tick|sweep|settle|random|restart|expect)(\\s|$)");
        const TOPOLOGY_LINE = P.re.compile("\\[\\[|\\w+\\s*=");
        function first_words(lines) {
            return P.next((function* () { for (const line of P.iter(lines)) { if (P.truth(P.and_(P.call(line, "strip"), () => !P.truth(P.call(P.call(line, "lstrip"), "startswith", "#"))))) yield P.call(line, "strip"); } }()), "");
        }

        function reads_as_script(lines) {
            return (!Object.is(P.call(SCRIPT_LINE, "match", first_words(lines)), null));
        }

        function reads_as_topology(lines) {
            return (!Object.is(P.call(TOPOLOGY_LINE, "match", first_words(lines)), null));
        }

        function toml_slip(line, text) {
            let zeros, bare;
            zeros = P.re.match("\\s*[\\w-]+\\s*=\\s*0+(\\d+)\\s*(#.*)?$", line);
            if (P.truth(P.re.search("[\u201c\u201d\u201e\u2018\u2019\u201a\u00ab\u00bb]", line))) {
                return ": these are the quotes of a word processor: write plain ones, \"\"";
            }
            if (P.truth(P.call(P.call(line, "lstrip"), "startswith", [";", "//"]))) {
                return ": comments begin with `#`";
            }
            if (P.truth(zeros)) {
                return [": a number has no zeros in front: ", P.format(P.at(zeros, 1), "", "")].join("");
            }
            if (P.truth(P.re.search("=.*,\\s*(#.*)?$", line))) {
                return ": no comma stands at the end of a line: take it away";
            }
            bare = P.re.match("\\s*[\\w-]+\\s*=\\s*([A-Za-z0-9][^\\s\\\"'#]*)\\s*(#.*)?$", line);
            if (P.truth(P.or_(P.re.match("\\s*\\w+\\s*:", line), () => P.call(P.call(line, "lstrip"), "startswith", "{")))) {
                return ": TOML wants `key = value`, and `[[host]]` above each host";
            }
            if (P.truth(P.mod(P.call(line, "count", "\""), 2))) {
                return ": a quote is not closed";
            }
            if (P.truth(P.and_(bare, () => !P.truth(P.re.fullmatch("[0-9]+|true|false", P.at(bare, 1)))))) {
                return [": texts stand in quotes: \"", P.format(P.at(bare, 1), "", ""), "\""].join("");
            }
            if (P.truth(P.or_((P.contains("overwrite", P.call(text, "lower"))), () => (P.contains("duplicate", P.call(text, "lower")))))) {
                return ": this key stands twice in one table; a new host begins with `[[host]]`";
            }
            return "";
        }

        function topology_hints(fabric, reason) {
            let known, lines, word, fields;
            [word, ...fields] = P.iter(P.call(reason, "split", " "));
            if (P.truth((P.eq(word, "NotToml")))) {
                return toml_hint(fabric);
            }
            if (P.truth((Object.is(fabric.document, null)))) {
                return [];
            }
            known = new Map([["BadK", bad_k], ["Missing", missing], ["BadValue", bad_value], ["DoubleId", double_id], ["DoubleHost", double_host], ["DoubleAddress", double_address], ["BadPort", bad_port], ["NotFatTree", not_fat_tree]]);
            lines = (P.truth((P.contains(word, known))) ? P.at(known, word)(fabric, fields) : []);
            return P.add(lines, [...(function* () { for (const note of P.iter(unread_keys(fabric))) { yield ["note: ", P.format(note, "", "")].join(""); } }())]);
        }

        function bad_k(fabric, _fields) {
            let value, inside;
            value = P.call(fabric.document, "get", "k");
            if (P.truth((Object.is(value, null)))) {
                inside = [...(function* () { for (const [kind, tables] of P.iter(P.call(fabric.tables, "items"))) { for (const table of P.iter(tables)) { if (P.truth((P.contains("k", table)))) yield kind; } } }())];
                if (P.truth(inside)) {
                    return [["hint: `k` stands below a [[", P.format(P.at(inside, 0), "", ""), "]], and so belongs to that table: write it above all tables"].join("")];
                }
                return [P.add("hint: write `k = 4` at the head of the file: how many ports each switch has, even, 4 to 24", or_near("k", fabric.document))];
            }
            if (P.truth(P.isinstance(value, ["str"]))) {
                return [["hint: k is a number without quotes: `k = ", P.format(value, "", ""), "`"].join("")];
            }
            return [["hint: k is ", P.format(value, "", ""), "; it is an even number from 4 to 24"].join("")];
        }

        function missing(fabric, fields) {
            let key, kind, tables, number, table, wanted;
            key = P.at(fields, 0);
            for ([kind, tables] of P.iter(P.call(fabric.tables, "items"))) {
                for ([number, table] of P.iter(P.enumerate(tables))) {
                    for (wanted of P.iter(P.at(KEYS, kind))) {
                        if (P.truth(P.and_((!P.contains(wanted, table)), () => (!P.eq(wanted, "capture"))))) {
                            if (P.truth((!P.eq(wanted, key)))) {
                                return [];
                            }
                            return P.add(P.call(fabric, "shown", kind, number), [["hint: this [[", P.format(kind, "", ""), "]] has no `", P.format(key, "", ""), "`; it wants ", P.format(P.call(", ", "join", P.slice(P.at(KEYS, kind), null, 5)), "", "")].join("")]);
                        }
                    }
                }
            }
            return [];
        }

        function bad_value(fabric, fields) {
            let key, kind, tables, number, table, fault;
            key = P.at(fields, 0);
            if (P.truth((P.contains(key, KEYS)))) {
                return [["hint: write `[[", P.format(key, "", ""), "]]`, with two brackets, above each ", P.format(key, "", "")].join("")];
            }
            for ([kind, tables] of P.iter(P.call(fabric.tables, "items"))) {
                if (P.truth((!P.contains(key, P.at(KEYS, kind))))) {
                    continue;
                }
                for ([number, table] of P.iter(P.enumerate(tables))) {
                    fault = (P.truth((P.contains(key, table))) ? P.at(FAULTS, key)(P.at(table, key), fabric) : null);
                    if (P.truth(P.and_((Object.is(fault, null)), () => (P.contains(key, ["label", "a"])), () => again(fabric, kind, number)))) {
                        fault = "an earlier table is for the same one: one table for each";
                    }
                    if (P.truth(fault)) {
                        return P.add(P.call(fabric, "shown", kind, number), [["hint: ", P.format(fault, "", "")].join("")]);
                    }
                }
            }
            return [];
        }

        function double_id(fabric, fields) {
            let tables, shown, keeps, named, who;
            tables = [...(function* () { for (const [n, table] of P.iter(P.enumerate(P.at(fabric.tables, "switch")))) { if (P.truth((P.eq(P.str(P.call(table, "get", "id")), P.at(fields, 0))))) yield n; } }())];
            shown = [...(function* () { for (const number of P.iter(P.slice(tables, -1, null))) { for (const line of P.iter(P.call(fabric, "shown", "switch", number))) { yield line; } } }())];
            keeps = (P.truth((P.int(P.at(fields, 0)) <= P.len(P.call(fabric, "labels")))) ? P.at(P.call(fabric, "labels"), P.sub(P.int(P.at(fields, 0)), 1)) : null);
            named = [...(function* () { for (const table of P.iter(P.at(fabric.tables, "switch"))) { yield P.call(table, "get", "label"); } }())];
            who = (P.truth(P.and_(keeps, () => (!P.contains(keeps, named)))) ? ["; ", P.format(keeps, "", ""), " has it, as its place in label order"].join("") : "");
            return P.add(shown, [["hint: two switches have the id ", P.format(P.at(fields, 0), "", ""), P.format(who, "", ""), ": take one that nobody has"].join("")]);
        }

        function double_host(fabric, fields) {
            let numbers;
            numbers = [...(function* () { for (const [n, name] of P.iter(P.enumerate(P.call(fabric, "hosts")))) { if (P.truth((P.eq(name, P.at(fields, 0))))) yield n; } }())];
            return (P.truth((P.len(numbers) > 1)) ? P.add(P.call(fabric, "shown", "host", P.at(numbers, 1)), [["hint: two hosts are called `", P.format(P.at(fields, 0), "", ""), "`: give this one another name"].join("")]) : []);
        }

        function double_address(fabric, fields) {
            let hosts, number, host, key, same;
            hosts = P.at(fabric.tables, "host");
            for ([number, host] of P.iter(P.enumerate(hosts))) {
                for (key of P.iter(["mac", "ip"])) {
                    same = [...(function* () { for (const other of P.iter(P.slice(hosts, null, number))) { if (P.truth((P.eq(P.call(P.str(P.call(other, "get", key)), "lower"), P.call(P.str(P.call(host, "get", key)), "lower"))))) yield P.call(other, "get", "name"); } }())];
                    if (P.truth(P.and_(same, () => (P.eq(P.call(host, "get", "name"), P.at(fields, 0)))))) {
                        return P.add(P.call(fabric, "shown", "host", number), [["hint: `", P.format(P.at(same, 0), "", ""), "` has this ", P.format(key, "", ""), " already: give `", P.format(P.at(fields, 0), "", ""), "` another"].join("")]);
                    }
                }
            }
            return [];
        }

        function bad_port(fabric, fields) {
            let ports, links, hosts, free, who, hint, label, port;
            [label, port] = P.iter([P.at(fields, 0), P.int(P.at(fields, 1))]);
            if (P.truth(!P.truth((0 <= port && port < fabric.k)))) {
                return P.add(port_tables(fabric, label, port), [["hint: each switch has the ports 0 to ", P.format(P.sub(fabric.k, 1), "", "")].join("")]);
            }
            ports = P.call(fabric, "link_ports", label);
            links = [...(function* () { for (const [other, at] of P.iter(P.call(ports, "items"))) { if (P.truth((P.eq(at, port)))) yield other; } }())];
            hosts = [...(function* () { for (const host of P.iter(P.at(fabric.tables, "host"))) { if (P.truth(P.and_((P.eq(P.call(host, "get", "edge"), label)), () => (P.eq(P.call(host, "get", "port"), port))))) yield P.call(host, "get", "name"); } }())];
            free = (P.truth((P.eq(P.at(label, 0), "e"))) ? [...(function* () { for (const n of P.iter(P.call(fabric, "host_ports", label))) { yield P.str(n); } }())] : []);
            who = P.call(" and ", "join", P.add([...(function* () { for (const other of P.iter(links)) { yield ["the link to ", P.format(other, "", "")].join(""); } }())], [...(function* () { for (const name of P.iter(hosts)) { yield ["host `", P.format(name, "", ""), "`"].join(""); } }())]));
            hint = (P.truth(free) ? ["; hosts of ", P.format(label, "", ""), " take the ports ", P.format(listed(free), "", "")].join("") : "");
            return P.add(port_tables(fabric, label, port), [["hint: ", P.format(P.or_(who, () => "something else"), "", ""), " ", P.format((P.truth((P.add(P.len(links), P.len(hosts)) > 1)) ? "are both" : "is"), "", ""), " at port ", P.format(port, "", ""), " of ", P.format(label, "", ""), P.format(hint, "", "")].join("")]);
        }

        function port_tables(fabric, label, port) {
            let kind, ends, found;
            for ([kind, ends] of P.iter([["host", [["edge", "port"]]], ["link", [["a", "port_a"], ["b", "port_b"]]]])) {
                found = [...(function* () { for (const [n, table] of P.iter(P.enumerate(P.at(fabric.tables, kind)))) { for (const [end, key] of P.iter(ends)) { if (P.truth((P.eq([P.call(table, "get", end), P.call(table, "get", key)], [label, port])))) yield n; } } }())];
                if (P.truth(found)) {
                    return P.call(fabric, "shown", kind, P.at(found, -1));
                }
            }
            return [];
        }

        function not_fat_tree(fabric, fields) {
            let number, table;
            for ([number, table] of P.iter(P.enumerate(P.at(fabric.tables, "link")))) {
                if (P.truth((P.eq([P.call(table, "get", "a"), P.call(table, "get", "b")], fields)))) {
                    return P.add(P.call(fabric, "shown", "link", number), [["hint: a fat tree does not join ", P.format(P.at(fields, 0), "", ""), " and ", P.format(P.at(fields, 1), "", ""), "; ", P.format(P.at(fields, 0), "", ""), " has links to ", P.format(listed(P.call(fabric, "neighbours", P.at(fields, 0))), "", "")].join("")]);
                }
            }
            return [];
        }

        return { FAULTS, Fabric, KEYS, SCRIPT_LINE, TOPOLOGY_LINE, again, bad_k, bad_port, bad_value, capture_fault, double_address, double_host, double_id, edge_fault, first_words, id_fault, integer_fault, ip_fault, is_integer, label_fault, listed, mac_fault, missing, name_fault, near, not_fat_tree, numbered, or_near, port_tables, printable, reads_as_script, reads_as_topology, toml_hint, toml_slip, topology_hints, unread_keys };
    })();

    const explain_captures = (() => {
        const LINK_TYPES = new Map([[0, "loopback (BSD)"], [101, "raw IP, no Ethernet head"], [105, "Wi-Fi"], [108, "loopback (OpenBSD)"], [113, "Linux cooked: a capture on `any`"], [127, "Wi-Fi with radiotap heads"], [228, "raw IPv4"], [229, "raw IPv6"], [276, "Linux cooked: a capture on `any`"], [147, "user defined"]]);
        const FILE_KINDS = [[P.bytes([31, 139]), "packed by gzip", "gunzip -c {0} > OUT"], [P.bytes([253, 55, 122, 88, 90]), "packed by xz", "xz -dc {0} > OUT"], [P.bytes([66, 90, 104]), "packed by bzip2", "bzip2 -dc {0} > OUT"], [P.bytes([40, 181, 47, 253]), "packed by zstd", "zstd -dc {0} > OUT"], [P.bytes([80, 75, 3, 4]), "a zip archive", "unzip {0}"], [P.bytes([161, 178, 205, 52]), "a modified libpcap capture", "editcap -F pcap {0} OUT"], [P.bytes([52, 205, 178, 161]), "a modified libpcap capture", "editcap -F pcap {0} OUT"], [P.bytes([115, 110, 111, 111, 112, 0]), "a snoop capture", "editcap -F pcap {0} OUT"]];
        function none_of_ethernet(counts) {
            let kinds;
            kinds = P.call(", ", "join", (function* () { for (const link of P.iter(counts)) { yield P.call(LINK_TYPES, "get", link, ["link type ", P.format(link, "", "")].join("")); } }()));
            return [P.format(P.sum(P.call(counts, "values")), "", ""), " packets, none of Ethernet (", P.format(kinds, "", ""), ")"].join("");
        }

        const counts_of = file => (P.files.has(file) ? Capture.linkCounts(P.files.get(file)) : new Map());

        function capture_hints(fabric, items, number, offset, reason, explained) {
            let hosts, file, opened, head;
            hosts = P.at(fabric.tables, "host");
            if (P.truth(P.or_((number >= P.len(hosts)), () => !P.truth(P.call(P.at(hosts, number), "get", "capture"))))) {
                return [];
            }
            file = [P.format(P.call(items, "get", "captures"), "", ""), "/", P.format(P.at(P.at(hosts, number), "capture"), "", "")].join("");
            try {
                opened = P.open(file, "rb");
                head = P.call(opened, "read", 24);
            } catch (error) {
                P.catches(error, ["OSError"]);
                return [];
            }
            return [["  host ", P.format(P.call(P.at(hosts, number), "get", "name"), "", ""), ", ", P.format(file, "", ""), ": begins with ", P.format(P.call(P.slice(head, null, 4), "hex", " "), "", "")].join(""), explained(file, head, offset, reason)];
        }

        function libpcap_hint(file, head, offset, reason) {
            let order;
            if (P.truth(P.call(reason, "startswith", "BadMagic"))) {
                return magic_hint(file, head);
            }
            if (P.truth(P.call(reason, "startswith", "BadLink"))) {
                order = (P.truth((P.contains(P.slice(head, null, 4), [P.bytes([212, 195, 178, 161]), P.bytes([77, 60, 178, 161])]))) ? "little" : "big");
                return link_hint(file, P.int.from_bytes(P.slice(head, 20, 24), order));
            }
            if (P.truth(P.call(reason, "startswith", "BadVersion"))) {
                return ["hint: not version 2.4 of the format: `editcap -F pcap ", P.format(file, "", ""), " OUT`"].join("");
            }
            return ["hint: damaged from byte ", P.format(offset, "", ""), " on; `head -c ", P.format(offset, "", ""), " ", P.format(file, "", ""), " > OUT` keeps the records before it"].join("");
        }

        const BLOCKS = new Map([["BadMagic", "a section header without a byte order"], ["BadBlock", "a block whose length cannot be"], ["BadTrailer", "a block whose two lengths differ"], ["BadVersion", "a section of another version than 1"], ["BadInterface", "a packet of an interface that its section does not have"], ["BadRecord", "a packet with a captured length above 262,144"]]);
        function pcapng_hint(file, _head, offset, reason) {
            let what;
            what = P.call(BLOCKS, "get", P.at(P.call(reason, "split"), 0), "a block that is damaged");
            if (P.truth((P.eq(offset, 0)))) {
                return ["hint: a pcapng file, which begins with ", P.format(what, "", ""), ": capture again"].join("");
            }
            return ["hint: a pcapng file, which has at byte ", P.format(offset, "", ""), " ", P.format(what, "", ""), "; `head -c ", P.format(offset, "", ""), " ", P.format(file, "", ""), " > OUT` keeps the blocks before it"].join("");
        }

        function magic_hint(file, head) {
            let begin, kind, command;
            for ([begin, kind, command] of P.iter(FILE_KINDS)) {
                if (P.truth(P.call(head, "startswith", begin))) {
                    return ["hint: this is ", P.format(kind, "", ""), ": `", P.format(P.call(command, "format", file), "", ""), "`"].join("");
                }
            }
            if (P.truth(P.all((function* () { for (const byte of P.iter(head)) { yield P.or_((32 <= byte && byte < 127), () => (P.contains(byte, P.bytes([13, 10, 9])))); } }())))) {
                return "hint: this is a text and no capture: `tcpdump -w OUT` writes one";
            }
            return "hint: this is no libpcap file and no pcapng file: `capinfos` may tell what it is, and `editcap -F pcap` makes one of what Wireshark reads";
        }

        function link_hint(file, link) {
            let kind;
            if (P.truth((P.eq(P.and(link, 65535), 1)))) {
                return ["hint: Ethernet, with more in the link type field: `editcap -F pcap ", P.format(file, "", ""), " OUT` takes that away"].join("");
            }
            kind = P.call(LINK_TYPES, "get", link, ["link type ", P.format(link, "", "")].join(""));
            return ["hint: ", P.format(kind, "", ""), ". Hosts send Ethernet frames (link type 1): capture on one interface, `tcpdump -i eth0 -w OUT`"].join("");
        }

        return { BLOCKS, FILE_KINDS, LINK_TYPES, capture_hints, counts_of, libpcap_hint, link_hint, magic_hint, none_of_ethernet, pcapng_hint };
    })();

    const explain_script = (() => {
        const { counts_of, none_of_ethernet } = explain_captures;
        const { label_fault, listed, near, or_near, printable, reads_as_topology } = explain_topology;
        const CAUSES = ["NotPlaced", "NoNextHop", "NoAddress", "HostGone", "LinkDown", "Lost", "Spent", "BadArp", "NoMember"];
        const VERBS = new Map([["start", ["H", "all"]], ["send", ["H", "H N", "H all"]], ["raw", ["H", "H N", "H all"]], ["retry", ["H", "all"]], ["join", ["H GROUP"]], ["leave", ["H GROUP"]], ["move", ["H S N"]], ["fail", ["S S"]], ["repair", ["S S"]], ["lose", ["S S"]], ["deliver", ["X Y"]], ["tick", ["S", "all"]], ["sweep", ["N"]], ["settle", ["N"]], ["random", ["N M"]], ["restart", [""]], ["expect", ["arrived H N", "dropped CAUSE N", "address H PMAC", "settled"]]]);
        const SLIPS = new Map([["wait", "settle"], ["sleep", "settle"], ["run", "settle"], ["ping", "send"], ["play", "send"], ["replay", "send"], ["up", "repair"], ["down", "fail"], ["restore", "repair"], ["break", "fail"], ["cut", "fail"], ["kill", "fail"], ["assert", "expect"], ["check", "expect"], ["boot", "start"], ["begin", "start"], ["drop", "lose"], ["migrate", "move"], ["transmit", "send"], ["recover", "repair"], ["step", "sweep"], ["reboot", "restart"], ["reset", "restart"]]);
        function is_number(word, least, most) {
            return P.and_((!Object.is(P.re.fullmatch("[0-9]{1,20}", word), null)), () => (least <= P.int(word) && P.int(word) <= most));
        }

        function word_fault(fabric, kind, word) {
            let hosts, labels;
            [hosts, labels] = P.iter([P.call(fabric, "hosts"), P.call(fabric, "labels")]);
            if (P.truth(P.and_((P.eq(kind, "H")), () => (!P.contains(word, hosts))))) {
                return ["Name", host_hint(fabric, word)];
            }
            if (P.truth(P.and_((P.eq(kind, "S")), () => (!P.contains(word, labels))))) {
                return ["Name", switch_hint(fabric, word)];
            }
            if (P.truth(P.and_((P.eq(kind, "X")), () => (!P.contains(word, P.add(P.add(hosts, labels), ["manager"])))))) {
                return ["Name", P.add(["`", P.format(word, "", ""), "` is no switch, no host and not `manager`"].join(""), or_near(word, P.add(hosts, labels)))];
            }
            if (P.truth(P.and_((P.eq(kind, "CAUSE")), () => (!P.contains(word, CAUSES))))) {
                return ["Name", P.add(P.add(["`", P.format(word, "", ""), "` is no cause"].join(""), or_near(word, CAUSES)), ["; causes are ", P.format(P.call(", ", "join", CAUSES), "", "")].join(""))];
            }
            if (P.truth(P.and_((P.eq(kind, "GROUP")), () => P.or_((Object.is(ip_number(word), null)), () => !P.truth((224 <= P.at(ip_number(word), 0) && P.at(ip_number(word), 0) <= 239)))))) {
                return ["Number", "a group is an address from 224.0.0.0 to 239.255.255.255, as 239.1.2.3"];
            }
            if (P.truth(P.and_((P.eq(kind, "PMAC")), () => !P.truth(P.re.fullmatch("[0-9A-Fa-f]{2}(:[0-9A-Fa-f]{2}){5}", word))))) {
                return ["Number", "a pseudo address is written as a mac: 00:01:00:00:00:01 is pod 1, position 0, port 0, number 1 there"];
            }
            if (P.truth(P.and_(P.isinstance(kind, ["tuple"]), () => !P.truth(is_number(word, ...P.iter(kind)))))) {
                return ["Number", ["`", P.format(word, "", ""), "` is no number from ", P.format(P.at(kind, 0), "", ""), " to ", P.format(P.at(kind, 1), "", ""), ", in digits alone"].join("")];
            }
            return null;
        }

        function ip_number(word) {
            let parts, fits;
            parts = P.call(word, "split", ".");
            fits = P.and_((P.eq(P.len(parts), 4)), () => P.all((function* () { for (const part of P.iter(parts)) { yield P.and_(P.re.fullmatch("0|[1-9][0-9]{0,2}", part), () => (P.int(part) < 256)); } }())));
            return (P.truth(fits) ? [...(function* () { for (const part of P.iter(parts)) { yield P.int(part); } }())] : null);
        }

        function host_hint(fabric, word) {
            let names;
            if (P.truth((P.eq(word, "all")))) {
                return "`all` stands behind `start`, `retry` and `tick` alone: write a line for each host";
            }
            if (P.truth((P.contains(word, P.call(fabric, "labels"))))) {
                return ["`", P.format(word, "", ""), "` is a switch, and a host is wanted here"].join("");
            }
            names = P.call(fabric, "hosts");
            if (P.truth(!P.truth(names))) {
                return "the topology has no hosts: does it say `[[host]]`?";
            }
            return P.add(["there is no host `", P.format(word, "", ""), "`"].join(""), (P.truth(near(word, names)) ? or_near(word, names) : ["; hosts are ", P.format(listed(names), "", "")].join("")));
        }

        function switch_hint(fabric, word) {
            if (P.truth((P.contains(word, P.call(fabric, "hosts"))))) {
                return ["`", P.format(word, "", ""), "` is a host, and a switch is wanted here. Links to hosts do not fail; `move ", P.format(word, "", ""), " S N` takes it elsewhere"].join("");
            }
            if (P.truth((P.eq(word, "all")))) {
                return "`all` stands behind `start`, `retry` and `tick` alone";
            }
            if (P.truth((Object.is(fabric.k, null)))) {
                return ["there is no switch `", P.format(word, "", ""), "`"].join("");
            }
            return P.add(["there is no switch `", P.format(word, "", ""), "`: "].join(""), P.or_(label_fault(word, fabric), () => ""));
        }

        const BIG = P.sub(P.shift(1, 64), 1);
        function forms_of(verb) {
            let forms;
            forms = new Map([["start", [["H"]]], ["retry", [["H"]]], ["send", [["H"], ["H", [1, 1000000]]]], ["raw", [["H"], ["H", [1, 1000000]]]], ["join", [["H", "GROUP"]]], ["leave", [["H", "GROUP"]]], ["move", [["H", "S", [0, 255]]]], ["fail", [["S", "S"]]], ["repair", [["S", "S"]]], ["lose", [["S", "S"]]], ["deliver", [["X", "X"]]], ["tick", [["S"]]], ["sweep", [[[1, 10000]]]], ["settle", [[[1, 10000]]]], ["random", [[[0, BIG], [1, 50000000]]]], ["arrived", [["H", [0, BIG]]]], ["dropped", [["CAUSE", [0, BIG]]]], ["address", [["H", "PMAC"]]], ["settled", [[]]], ["restart", [[]]]]);
            return P.at(forms, verb);
        }

        function takes_all(verb, at) {
            return P.or_(P.and_((P.contains(verb, ["start", "retry", "tick"])), () => (P.eq(at, 0))), () => P.and_((P.contains(verb, ["send", "raw"])), () => (P.eq(at, 1))));
        }

        const NOT_FOR_BRIDGES = new Map([["repair", "a link that was left out of the tree of bridges stays out, since frames would go round for ever"], ["random", "what is drawn depends on queues that bridges do not have"], ["restart", "bridges have no manager"], ["expect address", "bridges have no pseudo addresses"], ["expect settled", "bridges do not settle; `settle N` sweeps until all queues are empty"]]);
        function line_fault(fabric, words) {
            let form, verb, rest, before, at, fault, kind, word;
            [verb, rest, before] = P.iter([P.at(words, 0), P.slice(words, 1, null), 1]);
            if (P.truth((!P.contains(verb, VERBS)))) {
                return ["Word", 0, verb_hint(verb)];
            }
            if (P.truth((P.eq(verb, "expect")))) {
                if (P.truth(!P.truth(rest))) {
                    return ["Count", 0, P.add("`expect` wants ", forms_text("expect"))];
                }
                [verb, rest, before] = P.iter([P.at(rest, 0), P.slice(rest, 1, null), 2]);
                if (P.truth((!P.contains(verb, ["arrived", "dropped", "address", "settled"])))) {
                    return ["Word", 1, P.add(P.add(["`expect ", P.format(verb, "", ""), "` is no line"].join(""), or_near(verb, ["arrived", "dropped", "address", "settled"])), [" It wants ", P.format(forms_text("expect"), "", "")].join(""))];
                }
            }
            form = P.next((function* () { for (const form of P.iter(forms_of(verb))) { if (P.truth((P.eq(P.len(form), P.len(rest))))) yield form; } }()), null);
            if (P.truth((Object.is(form, null)))) {
                return ["Count", 0, count_hint(fabric, words, before)];
            }
            for ([at, [kind, word]] of P.iter(P.enumerate(P.zip(form, rest)))) {
                if (P.truth(P.and_((P.eq(word, "all")), () => takes_all(verb, at)))) {
                    continue;
                }
                fault = word_fault(fabric, kind, word);
                if (P.truth(fault)) {
                    return [P.at(fault, 0), P.add(before, at), P.at(fault, 1)];
                }
            }
            return null;
        }

        function forms_text(verb) {
            return P.call(", or ", "join", (function* () { for (const form of P.iter(P.at(VERBS, verb))) { yield P.call(["`", P.format(verb, "", ""), " ", P.format(form, "", ""), "`"].join(""), "replace", " `", "`"); } }()));
        }

        function verb_hint(verb) {
            let found;
            if (P.truth((P.contains(P.at(verb, 0), ";/-*")))) {
                return "comments begin with `#`";
            }
            if (P.truth((P.contains(P.call(verb, "lower"), VERBS)))) {
                return ["write it in small letters: `", P.format(P.call(verb, "lower"), "", ""), "`"].join("");
            }
            found = P.or_(P.call(SLIPS, "get", P.call(verb, "lower")), () => near(verb, VERBS));
            return P.add(["`", P.format(verb, "", ""), "` begins no line"].join(""), (P.truth(found) ? ["; is it ", P.format(forms_text(found), "", ""), "?"].join("") : ["; lines begin with ", P.format(P.call(", ", "join", VERBS), "", "")].join("")));
        }

        function apart(word) {
            let ends;
            ends = P.re.fullmatch("([eac][0-9]+\\.[0-9]+)-([eac][0-9]+\\.[0-9]+)", word);
            return (P.truth(ends) ? [P.format(P.at(ends, 1), "", ""), " ", P.format(P.at(ends, 2), "", "")].join("") : "");
        }

        function link_hint(fabric, verb, word) {
            let lines;
            if (P.truth(apart(word))) {
                return ["two words name a link: `", P.format(verb, "", ""), " ", P.format(apart(word), "", ""), "`"].join("");
            }
            if (P.truth((!P.contains(word, P.call(fabric, "labels"))))) {
                return null;
            }
            lines = P.call("", "join", (function* () { for (const other of P.iter(P.call(fabric, "neighbours", word))) { yield ["\n  ", P.format(verb, "", ""), " ", P.format(word, "", ""), " ", P.format(other, "", "")].join(""); } }()));
            return ["`", P.format(verb, "", ""), "` names a link by its two switches; all links of ", P.format(word, "", ""), " are these lines:", P.format(lines, "", "")].join("");
        }

        function count_hint(fabric, words, before) {
            let verb;
            verb = P.at(words, 0);
            if (P.truth(P.any((function* () { for (const word of P.iter(P.slice(words, 1, null))) { yield P.or_((P.eq(P.at(word, 0), ";")), () => (P.contains(P.slice(word, null, 2), ["//", "--"]))); } }())))) {
                return "comments begin with `#`";
            }
            if (P.truth(P.and_((P.contains(verb, ["fail", "repair", "lose"])), () => (P.eq(P.len(words), 2)), () => link_hint(fabric, verb, P.at(words, 1))))) {
                return link_hint(fabric, verb, P.at(words, 1));
            }
            if (P.truth(P.and_((P.contains(verb, ["start", "retry", "send", "raw"])), () => (P.len(words) > 2)))) {
                return [P.format(forms_text(verb), "", ""), ": one host a line"].join("");
            }
            if (P.truth(P.and_((P.contains(verb, ["settle", "sweep"])), () => (P.eq(P.len(words), 1))))) {
                return ["`", P.format(verb, "", ""), "` wants a number: `", P.format(verb, "", ""), " ", P.format((P.truth((P.eq(verb, "settle"))) ? 64 : 1), "", ""), "`"].join("");
            }
            if (P.truth((P.eq(verb, "restart")))) {
                return "`restart` stands alone: the one manager begins anew";
            }
            return ["this line wants ", P.format(forms_text(verb), "", ""), "; it has ", P.format(P.sub(P.len(words), 1), "", ""), " words behind `", P.format(verb, "", ""), "`"].join("");
        }

        function shown_line(lines, number, at = null) {
            let text, shown, starts;
            if (P.truth(!P.truth((1 <= number && number <= P.len(lines))))) {
                return [];
            }
            text = printable(P.call(P.at(lines, P.sub(number, 1)), "removesuffix", "\r"));
            shown = [["  ", P.format(number, "", ""), " | ", P.format(text, "", "")].join("")];
            starts = [...(function* () { for (const found of P.iter(P.re.finditer("[^ \\t]+", text))) { yield P.call(found, "start"); } }())];
            if (P.truth(P.and_((!Object.is(at, null)), () => (at < P.len(starts)), () => (!P.contains("\t", text))))) {
                P.call(shown, "append", P.add(P.mul(" ", P.add(P.add(P.len(P.str(number)), 5), P.at(starts, at))), "^"));
            }
            return shown;
        }

        function words_in(line) {
            return P.re.findall("[^ \\t]+", P.at(P.call(P.call(line, "removesuffix", "\r"), "split", "#"), 0));
        }

        class Script {
            constructor(path, captures = "") {
                const self = this;
                self.path = path;
                self.captures = captures;
                try {
                    self.data = P.call(P.pathlib.Path(path), "read_bytes");
                } catch (error) {
                    P.catches(error, ["OSError"]);
                    self.data = P.bytes([]);
                }
                self.lines = P.call(P.call(self.data, "decode", "utf-8", "replace"), "split", "\n");
            }
            words(number) {
                const self = this;
                return (P.truth((1 <= number && number <= P.len(self.lines))) ? words_in(P.at(self.lines, P.sub(number, 1))) : []);
            }
        }

        function script_hints(fabric, script, number, reason) {
            let words, fault, wide;
            if (P.truth((P.eq(reason, "TooManyLines")))) {
                return ["hint: a script has at most 1,000,000 lines; `send H all`, `sweep N` and `random N M` say much in one"];
            }
            if (P.truth((P.eq(reason, "NotUtf8")))) {
                wide = (P.contains(P.bytes([0]), P.slice(script.data, null, 200)));
                return [["  line ", P.format(number, "", ""), ": ", P.format(P.slice(P.at(P.call(script.data, "split", P.call(P.chr(10), "encode")), P.sub(number, 1)), null, 60), "", "r")].join(""), P.add(P.add("hint: ", (P.truth(wide) ? "this is UTF-16 or no text at all" : "a letter here is no UTF-8, be it in the comment")), ": save the script as UTF-8")];
            }
            if (P.truth(P.and_(P.call(script.data, "startswith", P.bytes([239, 187, 191])), () => (P.eq(number, 1))))) {
                return P.add(shown_line(script.lines, 1), ["hint: the script begins with a byte order mark, which no word has: save it as UTF-8 without one"]);
            }
            if (P.truth(P.and_((P.eq(reason, "Word")), () => reads_as_topology(script.lines)))) {
                return P.add(shown_line(script.lines, number), ["hint: this reads as a topology, and a script is wanted: are --topology and --script swapped?"]);
            }
            words = P.call(script, "words", number);
            fault = (P.truth(words) ? line_fault(fabric, words) : null);
            if (P.truth(P.or_((Object.is(fault, null)), () => (!P.eq(P.at(fault, 0), reason)), () => P.and_((P.eq(reason, "Name")), () => (Object.is(fabric.document, null)))))) {
                return shown_line(script.lines, number);
            }
            return P.add(shown_line(script.lines, number, P.at(fault, 1)), [["hint: ", P.format(P.at(fault, 2), "", "")].join("")]);
        }

        function refused_hints(fabric, script, number, reason) {
            let words, shown, known, hint;
            words = P.call(script, "words", number);
            shown = shown_line(script.lines, number);
            if (P.truth(!P.truth(words))) {
                return shown;
            }
            known = new Map([["NoSuch", no_such], ["Occupied", occupied], ["AlreadySo", already_so], ["NothingThere", nothing_there]]);
            hint = (P.truth((P.contains(reason, known))) ? P.at(known, reason)(fabric, script, number, words) : null);
            return P.add(shown, (P.truth(hint) ? [["hint: ", P.format(hint, "", "")].join("")] : []));
        }

        function no_such(fabric, script, number, words) {
            let verb;
            verb = P.at(words, 0);
            if (P.truth(P.and_((P.contains(verb, ["fail", "repair", "lose"])), () => (P.eq(P.len(words), 3)), () => fabric.k, () => (P.contains(P.at(words, 1), P.call(fabric, "labels")))))) {
                return ["no link joins ", P.format(P.at(words, 1), "", ""), " and ", P.format(P.at(words, 2), "", ""), "; ", P.format(P.at(words, 1), "", ""), " has links to ", P.format(listed(P.call(fabric, "neighbours", P.at(words, 1))), "", "")].join("");
            }
            if (P.truth(P.and_((P.eq(verb, "move")), () => (P.eq(P.len(words), 4)), () => fabric.k, () => (P.contains(P.at(words, 2), P.call(fabric, "labels")))))) {
                if (P.truth((!P.eq(P.at(P.at(words, 2), 0), "e")))) {
                    return [P.format(P.at(words, 2), "", ""), " has no ports for hosts: hosts move to edge switches, e0.0 to e", P.format(P.sub(fabric.k, 1), "", ""), ".", P.format(P.sub(P.floordiv(fabric.k, 2), 1), "", "")].join("");
                }
                return ["port ", P.format(P.at(words, 3), "", ""), " of ", P.format(P.at(words, 2), "", ""), " is none for hosts; those are ", P.format(listed(P.map(P.str, P.call(fabric, "host_ports", P.at(words, 2)))), "", "")].join("");
            }
            if (P.truth(P.and_((P.eq(verb, "deliver")), () => (P.eq(P.len(words), 3))))) {
                return deliver_hint(fabric, P.at(words, 1), P.at(words, 2), stands(fabric, script, number));
            }
            return null;
        }

        function stands(fabric, script, number) {
            let places, line, words;
            places = new Map((function* () { for (const host of P.iter(P.at(fabric.tables, "host"))) { yield [P.call(host, "get", "name"), [P.call(host, "get", "edge"), P.call(host, "get", "port")]]; } }()));
            for (line of P.iter(P.slice(script.lines, null, P.sub(number, 1)))) {
                words = words_in(line);
                if (P.truth(P.and_((P.eq(P.len(words), 4)), () => (P.eq(P.at(words, 0), "move")), () => (P.contains(P.at(words, 1), places)), () => P.call(P.at(words, 3), "isdigit")))) {
                    P.put(places, P.at(words, 1), [P.at(words, 2), P.int(P.at(words, 3))]);
                }
            }
            return places;
        }

        function deliver_hint(fabric, first, second, places) {
            let host, switch_;
            for ([host, switch_] of P.iter([[first, second], [second, first]])) {
                if (P.truth(P.and_((P.contains(host, places)), () => (P.contains(switch_, places))))) {
                    return "hosts have queues to and from their switch alone: deliver to that, and from there on";
                }
                if (P.truth((P.contains(host, places)))) {
                    return ["`", P.format(host, "", ""), "` stands at ", P.format(P.at(P.at(places, host), 0), "", ""), " now: its queues are `deliver ", P.format(host, "", ""), " ", P.format(P.at(P.at(places, host), 0), "", ""), "` and `deliver ", P.format(P.at(P.at(places, host), 0), "", ""), " ", P.format(host, "", ""), "`"].join("");
                }
            }
            if (P.truth((P.contains("manager", [first, second])))) {
                return "the manager has a queue to and from each switch: `deliver S manager`, `deliver manager S`";
            }
            if (P.truth(P.and_(fabric.k, () => (P.contains(first, P.call(fabric, "labels")))))) {
                return ["no link joins ", P.format(first, "", ""), " and ", P.format(second, "", ""), "; ", P.format(first, "", ""), " has links to ", P.format(listed(P.call(fabric, "neighbours", first)), "", "")].join("");
            }
            return null;
        }

        function occupied(fabric, script, number, words) {
            let target, places, there, free;
            if (P.truth(P.or_((!P.eq(P.at(words, 0), "move")), () => (!P.eq(P.len(words), 4)), () => !P.truth(P.call(P.at(words, 3), "isdigit"))))) {
                return null;
            }
            target = [P.at(words, 2), P.int(P.at(words, 3))];
            places = stands(fabric, script, number);
            there = [...(function* () { for (const [host, place] of P.iter(P.call(places, "items"))) { if (P.truth((P.eq(place, target)))) yield host; } }())];
            if (P.truth(P.or_(!P.truth(there), () => !P.truth(fabric.k), () => (!P.contains(P.at(words, 2), P.call(fabric, "labels")))))) {
                return null;
            }
            free = [...(function* () { for (const port of P.iter(P.call(fabric, "host_ports", P.at(words, 2)))) { if (P.truth((!P.contains([P.at(words, 2), port], P.call(places, "values"))))) yield P.str(port); } }())];
            return P.add(["`", P.format(P.at(there, 0), "", ""), "` stands at port ", P.format(P.at(words, 3), "", ""), " of ", P.format(P.at(words, 2), "", ""), ": "].join(""), (P.truth(free) ? ["free there: port ", P.format(listed(free), "", "")].join("") : ["no port of ", P.format(P.at(words, 2), "", ""), " is free; move `", P.format(P.at(there, 0), "", ""), "` away first"].join("")));
        }

        function already_so(_fabric, script, number, words) {
            let state, earlier, before;
            if (P.truth((P.eq(P.at(words, 0), "move")))) {
                return ["`", P.format(P.at(words, 1), "", ""), "` stands there already: take the line away, or name another port"].join("");
            }
            state = (P.truth((P.eq(P.at(words, 0), "fail"))) ? "failed" : "live");
            for (earlier of P.iter(P.range(P.sub(number, 1), 0, -1))) {
                before = P.call(script, "words", earlier);
                if (P.truth(P.and_((P.contains(P.slice(before, null, 1), [["fail"], ["repair"]])), () => (P.eq(P.sorted(P.slice(before, 1, null)), P.sorted(P.slice(words, 1, null))))))) {
                    return ["the link is ", P.format(state, "", ""), " already, since line ", P.format(earlier, "", "")].join("");
                }
            }
            return ["the link is ", P.format(state, "", ""), " already: every link is live at the beginning"].join("");
        }

        function nothing_there(fabric, script, number, words) {
            let host, counts;
            if (P.truth((P.contains(P.at(words, 0), ["send", "raw"])))) {
                if (P.truth((Object.is(fabric.document, null)))) {
                    return null;
                }
                host = P.next((function* () { for (const table of P.iter(P.at(fabric.tables, "host"))) { if (P.truth((P.eq(P.call(table, "get", "name"), P.at(words, 1))))) yield table; } }()), new Map([]));
                if (P.truth((!P.contains("capture", host)))) {
                    return ["the topology names no `capture` for `", P.format(P.at(words, 1), "", ""), "`, so it has no records to send"].join("");
                }
                counts = counts_of([P.format(script.captures, "", ""), "/", P.format(P.at(host, "capture"), "", "")].join(""));
                if (P.truth(P.and_(counts, () => (!P.contains(1, counts))))) {
                    return [P.format(P.at(host, "capture"), "", ""), " has ", P.format(none_of_ethernet(counts), "", ""), ": capture on an Ethernet interface"].join("");
                }
                return [P.format(P.at(host, "capture"), "", ""), " has fewer records than the script asks for so far; `", P.format(P.at(words, 0), "", ""), " ", P.format(P.at(words, 1), "", ""), " all` sends what is left, and never too much"].join("");
            }
            if (P.truth((P.contains(P.at(words, 0), ["deliver", "lose"])))) {
                return ["nothing waits from ", P.format(P.at(words, 1), "", ""), " to ", P.format(P.at(words, 2), "", ""), " at this line: `./portland until ", P.format(number, "", ""), " ..` shows what happened before"].join("");
            }
            return null;
        }

        function bridge_hints(script, number, words) {
            let line, verb;
            line = P.call(script, "words", number);
            if (P.truth(P.or_((!P.eq(P.slice(words, null, 1), ["bridge"])), () => (!P.contains(P.call(" ", "join", P.slice(line, null, (P.truth((P.eq(P.slice(line, null, 1), ["expect"]))) ? 2 : 1))), NOT_FOR_BRIDGES))))) {
                return [];
            }
            verb = P.call(" ", "join", P.slice(line, null, (P.truth((P.eq(P.at(line, 0), "expect"))) ? 2 : 1)));
            return P.add(shown_line(script.lines, number), [["hint: `bridge` takes no `", P.format(verb, "", ""), "`: ", P.format(P.at(NOT_FOR_BRIDGES, verb), "", "")].join("")]);
        }

        function expectation_hints(script, number, words) {
            let line, hint;
            line = P.call(script, "words", number);
            hint = P.call(new Map([["arrived", "ARP questions and answers count too; and a frame arrives only where a line delivers it: is there a `settle` before this one?"], ["settled", "the last `settle` had too few rounds, or there is none before this line: `settle 64` is enough for most"], ["dropped", "all hosts' frames count, from the beginning on"], ["address", "the newest registered address counts: a host that moved has another one"]]), "get", (P.truth((P.len(line) > 1)) ? P.at(line, 1) : ""));
            return P.add(P.add(shown_line(script.lines, number), (P.truth(hint) ? [["hint: ", P.format(hint, "", "")].join("")] : [])), [["hint: ", P.format(until(number, words), "", ""), " shows what was there"].join("")]);
        }

        function until(number, words) {
            let rest, line;
            rest = (P.truth(P.and_(words, () => (P.eq(P.at(words, 0), "run")))) ? P.slice(words, 1, null) : words);
            line = ["`./portland until ", P.format(number, "", ""), " ", P.format(P.call(" ", "join", rest), "", ""), "`"].join("");
            if (P.truth((P.eq(P.call(P.os.environ, "get", "PORTLAND_SCRIPT"), "-")))) {
                line = ["with the script in FILE, `./portland until ", P.format(number, "", ""), " ", P.format(P.call(" ", "join", with_script(rest, "FILE")), "", ""), "`"].join("");
            }
            return line;
        }

        function with_script(words, name) {
            let shown, at, word;
            shown = P.list(words);
            for ([at, word] of P.iter(P.enumerate(words))) {
                if (P.truth(P.call(word, "startswith", "--script="))) {
                    P.put(shown, at, ["--script=", P.format(name, "", "")].join(""));
                } else {
                    if (P.truth(P.and_(at, () => (P.eq(P.at(words, P.sub(at, 1)), "--script"))))) {
                        P.put(shown, at, name);
                    }
                }
            }
            return shown;
        }

        return { BIG, CAUSES, NOT_FOR_BRIDGES, SLIPS, Script, VERBS, already_so, apart, bridge_hints, count_hint, deliver_hint, expectation_hints, forms_of, forms_text, host_hint, ip_number, is_number, line_fault, link_hint, no_such, nothing_there, occupied, refused_hints, script_hints, shown_line, stands, switch_hint, takes_all, until, verb_hint, with_script, word_fault, words_in };
    })();

    const explain_run = (() => {
        const { counts_of, none_of_ethernet } = explain_captures;
        const { words_in } = explain_script;
        const { listed } = explain_topology;
        const { ETHERNET } = portland_captures;
        const MOST_JOURNAL = P.shift(64, 20);
        const CHANGED = P.re.compile(P.bytes([92, 110, 40, 108, 105, 110, 107, 100, 111, 119, 110, 124, 108, 105, 110, 107, 117, 112, 124, 109, 111, 118, 101, 100, 124, 114, 101, 115, 116, 97, 114, 116, 101, 100, 41, 32]));
        const DELIVERS = ["settle", "sweep", "deliver", "random"];
        const SKIPS = new Map([["ForeignSource", "the source of the frame is not the host's `mac`: is that right, and has the capture what this host sent?"], ["NoOwner", "the frame is for a `mac` that no other host of the topology has: add that host, or send it by `raw`"], ["CutRecord", "the capture has only a part of the frame: capture with a larger snapshot length, `tcpdump -s 0`"], ["Long", "the frame is longer than 65,553 bytes"], ["Short", "the frame has less than an Ethernet header, 14 bytes"], ["ControlType", "type 0x88B5 is what switches send each other"], ["HoldFull", "64 frames wait for an address that the host asked for: send one frame to it first, then `settle 64`, then the others"], ["RecordedArp", "no loss: hosts make their own ARP frames"]]);
        class Journal {
            constructor(data) {
                const self = this;
                self.data = P.add(P.bytes([10]), data);
            }
            count(...kinds) {
                const self = this;
                return P.sum((function* () { for (const kind of P.iter(kinds)) { yield P.call(self.data, "count", P.add(P.add(P.bytes([10]), P.call(kind, "encode")), P.bytes([32]))); } }()));
            }
            has(kind) {
                const self = this;
                return (P.call(self.data, "find", P.add(P.add(P.bytes([10]), P.call(kind, "encode")), P.bytes([32]))) >= 0);
            }
            *firsts(kind, most = 80) {
                const self = this;
                let rest;
                for (rest of P.iter(P.slice(P.call(self.data, "split", P.add(P.add(P.bytes([10]), P.call(kind, "encode")), P.bytes([32]))), 1, null))) {
                    yield P.call(P.call(P.at(P.call(P.slice(rest, null, most), "split", P.bytes([10]), 1), 0), "decode", "ascii", "replace"), "split");
                }
            }
            last_settle() {
                const self = this;
                let at, line, _, rest;
                at = P.max(P.call(self.data, "rfind", P.bytes([10, 115, 101, 116, 116, 108, 101, 100, 32])), P.call(self.data, "rfind", P.bytes([10, 117, 110, 115, 101, 116, 116, 108, 101, 100, 32])));
                if (P.truth((at < 0))) {
                    return [null, P.bytes([])];
                }
                [line, _, rest] = P.iter(P.call(P.slice(self.data, P.add(at, 1), null), "partition", P.bytes([10])));
                return [P.call(P.call(line, "decode", "ascii", "replace"), "split"), P.add(P.bytes([10]), rest)];
            }
            is_settled() {
                const self = this;
                let last, rest;
                [last, rest] = P.iter(P.call(self, "last_settle"));
                return P.and_((!Object.is(last, null)), () => (P.eq(P.at(last, 0), "settled")), () => !P.truth(P.call(CHANGED, "search", rest)));
            }
            line_at_the_end_of(kind) {
                const self = this;
                let before, at;
                before = P.slice(self.data, null, P.call(self.data, "rfind", P.add(P.add(P.bytes([10]), P.call(kind, "encode")), P.bytes([32]))));
                at = P.call(before, "rfind", P.bytes([10, 108, 105, 110, 101, 32]));
                return (P.truth((at >= 0)) ? P.int(P.at(P.call(P.slice(before, P.add(at, 6), null), "split", P.bytes([10]), 1), 0)) : 0);
            }
        }

        function* skip_notes(journal) {
            let counts, host, skip, hosts, named;
            counts = new Map([]);
            for ([host, skip] of P.iter(P.call(journal, "firsts", "skipped"))) {
                hosts = P.call(counts, "setdefault", skip, new Map([]));
                P.put(hosts, host, P.add(P.call(hosts, "get", host, 0), 1));
            }
            for ([skip, hosts] of P.iter(P.sorted(P.call(counts, "items"), (item) => (P.truth((P.contains(P.at(item, 0), SKIPS))) ? P.call(P.list(SKIPS), "index", P.at(item, 0)) : 99)))) {
                named = listed([...(function* () { for (const [host, count] of P.iter(P.call(hosts, "items"))) { yield [P.format(host, "", ""), " ", P.format(count, "", "")].join(""); } }())], 6);
                yield [P.format(P.sum(P.call(hosts, "values")), "", ""), " records were skipped as ", P.format(skip, "", ""), " (", P.format(named, "", ""), "): ", P.format(P.call(SKIPS, "get", skip, "docs/FORMATS.md has the reason"), "", "")].join("");
            }
        }

        function* capture_notes(fabric, captures) {
            let host, file, counts;
            for (host of P.iter(P.at(fabric.tables, "host"))) {
                file = [P.format(captures, "", ""), "/", P.format(P.call(host, "get", "capture"), "", "")].join("");
                counts = (P.truth(P.call(host, "get", "capture")) ? counts_of(file) : new Map([]));
                if (P.truth(P.and_(counts, () => (!P.contains(ETHERNET, counts))))) {
                    yield [P.format(file, "", ""), ", the capture of `", P.format(P.call(host, "get", "name"), "", ""), "`, has ", P.format(none_of_ethernet(counts), "", ""), ": capture on an Ethernet interface"].join("");
                }
            }
        }

        function* flight_notes(journal, commands) {
            let flying, delivering, frames, them, why;
            flying = P.sub(P.call(journal, "count", "sent", "made", "copied"), P.call(journal, "count", "arrived", "taken", "dropped"));
            if (P.truth((flying <= 0))) {
                return null;
            }
            delivering = [...(function* () { for (const [number, words] of P.iter(commands)) { if (P.truth((P.contains(P.at(words, 0), DELIVERS)))) yield number; } }())];
            [frames, them] = P.iter((P.truth((P.eq(flying, 1))) ? ["1 frame is", "it"] : [[P.format(flying, "", ""), " frames are"].join(""), "them"]));
            if (P.truth(!P.truth(delivering))) {
                why = ["no line delivers ", P.format(them, "", "")].join("");
            } else {
                if (P.truth((P.eq(P.at(delivering, -1), P.at(P.at(commands, -1), 0))))) {
                    why = ["line ", P.format(P.at(delivering, -1), "", ""), " did not deliver ", P.format(them, "", "")].join("");
                } else {
                    why = ["no line behind line ", P.format(P.at(delivering, -1), "", ""), " delivers ", P.format(them, "", "")].join("");
                }
            }
            yield [P.format(frames, "", ""), " in flight at the end: ", P.format(why, "", ""), "; add `settle 64`"].join("");
        }

        function* start_notes(journal, commands) {
            let verbs, how;
            verbs = new Set((function* () { for (const [_, words] of P.iter(commands)) { yield P.at(words, 0); } }()));
            if (P.truth(!P.truth(P.and(verbs, new Set(["start", "move"]))))) {
                if (P.truth(P.and(verbs, new Set(["send", "raw", "join"])))) {
                    yield "no line starts a host, and the switches do not know of one before: begin with `start all` and `settle 64`";
                }
                return null;
            }
            if (P.truth(P.and_(!P.truth(P.call(journal, "has", "granted")), () => !P.truth(P.call(journal, "is_settled"))))) {
                how = (P.truth(P.and(verbs, new Set(["settle"]))) ? "`settle 1` is one round" : "`sweep` and `deliver` make no ticks");
                yield ["no host got an address: switches find their places by ticks, in some rounds, and ", P.format(how, "", ""), "; put `settle 64` behind `start`"].join("");
            }
        }

        function* settle_notes(journal, commands) {
            let changed, last, rest, line, text, what;
            [last, rest] = P.iter(P.call(journal, "last_settle"));
            if (P.truth((Object.is(last, null)))) {
                return null;
            }
            changed = P.call(CHANGED, "findall", rest);
            if (P.truth((P.eq(P.at(last, 0), "unsettled")))) {
                line = P.call(journal, "line_at_the_end_of", "unsettled");
                text = P.call(P.dict(commands), "get", line, []);
                yield ["the fabric is not settled at the end: line ", P.format(line, "", ""), ", `", P.format(P.call(" ", "join", text), "", ""), "`, had too few rounds; `settle 64` is enough for most"].join("");
            } else {
                if (P.truth(changed)) {
                    what = new Map([[P.bytes([108, 105, 110, 107, 100, 111, 119, 110]), "a link failed"], [P.bytes([108, 105, 110, 107, 117, 112]), "a link was repaired"], [P.bytes([109, 111, 118, 101, 100]), "a host moved"], [P.bytes([114, 101, 115, 116, 97, 114, 116, 101, 100]), "the manager restarted"]]);
                    yield ["the fabric was not left to settle at the end: ", P.format(P.at(what, P.at(changed, -1)), "", ""), " behind the last `settle` line; add `settle 64`"].join("");
                }
            }
        }

        function* raw_notes(journal, fabric) {
            let macs, wrong, causes, words, ended;
            macs = new Set((function* () { for (const host of P.iter(P.at(fabric.tables, "host"))) { yield P.call(P.call(P.str(P.call(host, "get", "mac", "")), "lower"), "replace", ":", ""); } }()));
            wrong = new Set((function* () { for (const [number, _, data] of P.iter((function* () { for (const words of P.iter(P.call(journal, "firsts", "sent", 60))) { if (P.truth((P.len(words) > 2))) yield P.slice(words, null, 3); } }()))) { if (P.truth((P.contains(P.slice(data, null, 12), macs)))) yield number; } }()));
            causes = new Map([]);
            for (words of P.iter(P.call(journal, "firsts", "dropped"))) {
                if (P.truth(P.and_((P.contains(P.at(words, 0), wrong)), () => (P.contains(P.at(words, 1), ["NoNextHop", "NoAddress"]))))) {
                    P.put(causes, P.at(words, 1), P.add(P.call(causes, "get", P.at(words, 1), 0), 1));
                }
            }
            if (P.truth(causes)) {
                ended = P.call(", ", "join", (function* () { for (const [cause, count] of P.iter(P.call(causes, "items"))) { yield [P.format(count, "", ""), " ended ", P.format(cause, "", "")].join(""); } }()));
                yield ["`raw` sent ", P.format(P.len(wrong), "", ""), " frames to a host's own `mac` (", P.format(ended, "", ""), "): switches know pseudo addresses alone; `send` asks for them"].join("");
            }
        }

        // left out: it plays the journal through tools/portland_places.py; the viewer shows the places of switches
        const place_notes = () => [];

        function* run_notes(command, items, fabric, script) {
            let path, commands, journal, words;
            yield* P.iter(capture_notes(fabric, P.call(items, "get", "captures", "")));
            path = P.div(P.pathlib.Path(P.at(items, "out")), "journal.txt");
            try {
                if (P.truth((P.call(path, "stat").st_size > MOST_JOURNAL))) {
                    yield [P.format(path, "", ""), " has more than 64 MiB, and was not looked through; `tools/stats ", P.format(P.at(items, "out"), "", ""), "` does it"].join("");
                    return null;
                }
                journal = new Journal(P.call(path, "read_bytes"));
            } catch (error) {
                P.catches(error, ["OSError"]);
                return null;
            }
            commands = [...(function* () { for (const [number, line] of P.iter(P.enumerate(script.lines, 1))) { if (P.truth((words = words_in(line)))) yield [number, words]; } }())];
            yield* P.iter(skip_notes(journal));
            if (P.truth((P.eq(command, "run")))) {
                yield* P.iter(start_notes(journal, commands));
                yield* P.iter(raw_notes(journal, fabric));
            }
            yield* P.iter(flight_notes(journal, commands));
            if (P.truth((P.eq(command, "run")))) {
                yield* P.iter(settle_notes(journal, commands));
                yield* P.iter(place_notes(journal, items));
            }
        }

        return { CHANGED, DELIVERS, Journal, MOST_JOURNAL, SKIPS, capture_notes, flight_notes, raw_notes, run_notes, settle_notes, skip_notes, start_notes };
    })();

    const explain = (() => {
        const { capture_hints, libpcap_hint, pcapng_hint } = explain_captures;
        const { Script, bridge_hints, expectation_hints, refused_hints, script_hints, shown_line, until } = explain_script;
        const { Fabric, listed, near, topology_hints, unread_keys } = explain_topology;
        function read_hints(name, fabric, items) {
            let path, lines, owners, folder, names, found, beside;
            path = P.pathlib.Path(name);
            lines = [];
            owners = [...(function* () { for (const host of P.iter(P.at(fabric.tables, "host"))) { if (P.truth(P.and_(P.call(host, "get", "capture"), () => (P.eq([P.format(P.call(items, "get", "captures"), "", ""), "/", P.format(P.at(host, "capture"), "", "")].join(""), name))))) yield P.call(host, "get", "name"); } }())];
            if (P.truth(owners)) {
                P.call(lines, "append", ["hint: it is the capture of host `", P.format(P.at(owners, 0), "", ""), "`: the folder of --captures and the `capture` of its table"].join(""));
            }
            if (P.truth(P.call(path, "is_dir"))) {
                return P.add(lines, ["hint: this is a folder, and a file is wanted"]);
            }
            if (P.truth(P.call(path, "exists"))) {
                return P.add(lines, [["hint: you may not read it: `ls -l ", P.format(name, "", ""), "`"].join("")]);
            }
            folder = path.parent;
            if (P.truth(!P.truth(P.call(folder, "is_dir")))) {
                return P.add(lines, [["hint: there is no folder ", P.format(folder, "", ""), "; paths are as seen from ", P.format(P.call(P.pathlib.Path, "cwd"), "", "")].join("")]);
            }
            names = P.sorted((function* () { for (const entry of P.iter(P.call(folder, "iterdir"))) { yield entry.name; } }()));
            found = near(path.name, names);
            beside = (P.truth(found) ? ["; is it ", P.format(P.div(folder, found), "", ""), "?"].join("") : ["; ", P.format(folder, "", ""), " has ", P.format((P.truth(names) ? listed(names) : "nothing"), "", "")].join(""));
            return P.add(lines, [["hint: there is no such file", P.format(beside, "", "")].join("")]);
        }

        function write_hints(name) {
            let path, above;
            if (P.truth((P.eq(name, "-")))) {
                return ["hint: standard output could not be written: a pipe was closed, or the disk is full. The captures and the journal are whole"];
            }
            path = P.pathlib.Path(name);
            for (above of P.iter(P.reversed(path.parents))) {
                if (P.truth(P.and_(P.call(above, "exists"), () => !P.truth(P.call(above, "is_dir"))))) {
                    return [["hint: ", P.format(above, "", ""), " is a file, and a folder is wanted for --out"].join("")];
                }
            }
            if (P.truth(P.call(path, "is_dir"))) {
                return [["hint: ", P.format(name, "", ""), " is a folder: a file of that name is to be written"].join("")];
            }
            if (P.truth(!P.truth(P.call(path.parent, "exists")))) {
                return [["hint: ", P.format(path.parent, "", ""), " could not be made: you may not write above it, or there is no room"].join("")];
            }
            return [["hint: you may not write into ", P.format(path.parent, "", ""), ", or the disk is full: `df ", P.format(path.parent, "", ""), "`, `ls -ld ", P.format(path.parent, "", ""), "`"].join("")];
        }

        function unknown_name(fabric, line) {
            let kind, form, word, words, known, what, has;
            const { FORMS } = portland_journal;
            [kind, ...words] = P.iter(P.call(line, "split"));
            for ([form, word] of P.iter(P.zip(P.call(FORMS, "get", kind, []), words))) {
                [known, what] = P.iter((P.truth((P.eq(form, "host"))) ? [P.call(fabric, "hosts"), "host"] : [P.call(fabric, "labels"), "switch"]));
                if (P.truth(P.and_((P.contains(form, ["host", "switch", "a", "b"])), () => fabric.k, () => (!P.contains(word, known))))) {
                    has = (P.truth((P.eq(what, "host"))) ? ["its hosts are ", P.format(listed(known), "", "")].join("") : ["its k is ", P.format(fabric.k, "", "")].join(""));
                    return [["hint: ", P.format(fabric.path, "", ""), " has no ", P.format(what, "", ""), " `", P.format(word, "", ""), "` (", P.format(has, "", ""), "): is it the topology of this run, or that of another one?"].join("")];
                }
            }
            return other_place(fabric, kind, words);
        }

        function other_place(fabric, kind, words) {
            let places, edge, port;
            places = new Map((function* () { for (const host of P.iter(P.at(fabric.tables, "host"))) { yield [P.call(host, "get", "name"), [P.str(P.call(host, "get", "edge")), P.str(P.call(host, "get", "port"))]]; } }()));
            if (P.truth(P.or_((!P.eq(kind, "granted")), () => (!P.eq(P.len(words), 4)), () => (P.eq(P.slice(words, 2, null), P.call(places, "get", P.at(words, 1))))))) {
                return [];
            }
            [edge, port] = P.iter(P.call(places, "get", P.at(words, 1), ["-", "-"]));
            return [["hint: by ", P.format(fabric.path, "", ""), " `", P.format(P.at(words, 1), "", ""), "` stands at port ", P.format(port, "", ""), " of ", P.format(edge, "", ""), " at first: is it the topology of this run, or that of another one?"].join("")];
        }

        function journal_hints(items, at, fabric) {
            let shown, end, opened, line;
            try {
                opened = P.open(P.call(items, "get", "journal", ""), "rb");
                line = P.next(P.islice(opened, P.sub(at, 1), null), null);
            } catch (error) {
                P.catches(error, ["OSError"]);
                line = null;
            }
            if (P.truth((Object.is(line, null)))) {
                return [];
            }
            shown = P.call(P.call(P.slice(line, null, 120), "decode", "ascii", "replace"), "rstrip", "\n");
            end = (P.truth(!P.truth(P.call(line, "endswith", P.bytes([10])))) ? ["hint: the last line has no newline"] : []);
            return [["  ", P.format(at, "", ""), " | ", P.format(shown, "", ""), P.format((P.truth((P.len(line) > 120)) ? " .." : ""), "", "")].join(""), ...P.iter(end), ...P.iter(unknown_name(fabric, P.call(P.slice(line, null, 200), "decode", "ascii", "replace")))];
        }

        function length_hints(name, items) {
            if (P.truth((P.eq(name, P.call(items, "get", "journal"))))) {
                return ["hint: a journal has at most 1 GiB"];
            }
            if (P.truth((P.contains(name, [P.call(items, "get", "topology"), P.call(items, "get", "script")])))) {
                return ["hint: a topology and a script have at most 16 MiB each"];
            }
            return ["hint: captures have at most 64 MiB together, and a file counts for each host that names it: `editcap -F pcap -r IN OUT 1-10000` keeps the first records"];
        }

        function items_of(words) {
            let items, rest, word, name, value;
            items = new Map([]);
            rest = P.iterator(P.slice(words, 1, null));
            for (word of P.iter(rest)) {
                if (P.truth(P.and_(P.call(word, "startswith", "--"), () => (P.contains("=", word))))) {
                    [name, value] = P.iter(P.call(P.slice(word, 2, null), "split", "=", 1));
                    P.call(items, "setdefault", name, value);
                } else {
                    if (P.truth(P.call(word, "startswith", "--"))) {
                        P.call(items, "setdefault", P.slice(word, 2, null), P.next(rest, ""));
                    }
                }
            }
            return items;
        }

        function notes(items, fabric, script, words) {
            if (P.truth(P.or_((!P.contains(P.slice(words, null, 1), [["run"], ["bridge"]])), () => (!P.contains("out", items))))) {
                return [];
            }
            const { run_notes } = explain_run;
            return run_notes(P.at(words, 0), items, fabric, script);
        }

        function hints(status, said, words) {
            let items, watched, fabric, script, number, at, reason, found, explained, entry;
            items = items_of(words);
            watched = (P.eq(P.slice(words, null, 1), ["watch"]));
            words = (P.truth(watched) ? ["run", ...P.iter(P.slice(words, 1, null))] : words);
            fabric = new Fabric(P.call(items, "get", "topology", ""));
            script = new Script(P.call(items, "get", "script", ""), P.call(items, "get", "captures", ""));
            if (P.truth((P.eq(status, 0)))) {
                return [...(function* () { for (const note of P.iter([...P.iter(unread_keys(fabric)), ...P.iter((P.truth(watched) ? [] : notes(items, fabric, script, words)))])) { yield ["note: ", P.format(note, "", "")].join(""); } }())];
            }
            number = P.re.search(", line (\\d+)", said);
            at = (P.truth(number) ? P.int(P.at(number, 1)) : 0);
            reason = P.at(P.call(said, "rsplit", ": ", 1), -1);
            if (P.truth((P.eq(status, 3)))) {
                return read_hints(P.at(P.call(said, "split", "cannot read ", 1), -1), fabric, items);
            }
            if (P.truth((P.eq(status, 4)))) {
                return topology_hints(fabric, reason);
            }
            if (P.truth((P.eq(status, 5)))) {
                return P.or_(bridge_hints(script, at, words), () => script_hints(fabric, script, at, reason));
            }
            if (P.truth((P.contains(status, [6, 15])))) {
                found = P.re.search("host number (\\d+) at byte (\\d+)", said);
                explained = (P.truth((P.eq(status, 6))) ? libpcap_hint : pcapng_hint);
                return (P.truth(found) ? capture_hints(fabric, items, P.int(P.at(found, 1)), P.int(P.at(found, 2)), reason, explained) : []);
            }
            if (P.truth((P.eq(status, 7)))) {
                return write_hints(P.at(P.call(said, "split", "cannot write ", 1), -1));
            }
            if (P.truth((P.eq(status, 8)))) {
                return expectation_hints(script, at, words);
            }
            if (P.truth((P.eq(status, 9)))) {
                return P.add(refused_hints(fabric, script, at, reason), [["hint: ", P.format(until(at, words), "", ""), " saves what was before"].join("")]);
            }
            if (P.truth((P.eq(status, 10)))) {
                return length_hints(P.at(P.call(said, "split", "too long: ", 1), -1), items);
            }
            if (P.truth((P.eq(status, 11)))) {
                return P.add(shown_line(script.lines, at), ["hint: a run has at most 50,000,000 steps, and 5,000,000 lines of journal with 268,435,456 bytes of frames: play less, or in two runs", ["hint: ", P.format(until(at, words), "", ""), " saves what was before"].join("")]);
            }
            if (P.truth((P.contains(status, [13, 14])))) {
                entry = P.re.search(", (?:entry|line) (\\d+)", said);
                return (P.truth(entry) ? journal_hints(items, P.int(P.at(entry, 1)), fabric) : []);
            }
            if (P.truth((P.eq(status, 12)))) {
                return ["hint: too little memory for this run, or a limit is set: `ulimit -v`, `free -m`"];
            }
            return [];
        }

        // left out: it reads the words of a shell, and prints
        const main = () => [];

        return { hints, items_of, journal_hints, length_hints, notes, other_place, read_hints, unknown_name, write_hints };
    })();

    return { ...explain_topology, ...explain_captures, ...explain_script, ...explain_run, ...explain };
})();
