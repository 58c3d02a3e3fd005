"""What a topology means, as far as it can be read, and what is wrong with it: for tools/explain."""

import difflib
import pathlib
import re

try:
    import tomllib
except ImportError:
    tomllib = None

KEYS = {
    "switch": ["label", "id"],
    "link": ["a", "port_a", "b", "port_b"],
    "host": ["name", "mac", "ip", "edge", "port", "capture"],
}


def near(word, known):
    """The known word that is nearest, if one is near."""
    lower = {name.lower(): name for name in known}
    found = difflib.get_close_matches(word.lower(), list(lower), 1, 0.6)
    return lower[found[0]] if found else None


def or_near(word, known):
    found = near(word, known)
    return f"; is it `{found}`?" if found else ""


def listed(words, most=12):
    words = list(words)
    return ", ".join(words[:most]) + (", .." if len(words) > most else "")


def numbered(lines, first, last):
    """Lines of a file with their numbers, from 1."""
    width = len(str(last))
    return [f"  {n:>{width}} | {printable(lines[n - 1].rstrip())}" for n in range(first, min(last, len(lines)) + 1)]


def printable(text):
    """What a terminal takes for letters alone."""
    return "".join(letter if letter.isprintable() or letter == "\t" else "?" for letter in text)


class Fabric:
    """What names there are, as far as a topology can be read."""

    def __init__(self, path):
        self.path = path
        self.k = None
        self.tables = {"switch": [], "link": [], "host": []}
        self.lines = []
        self.document = None
        self.fault = None
        try:
            data = pathlib.Path(path).read_bytes()
        except OSError:
            return
        self.lines = data.decode("utf-8", "replace").split("\n")
        if tomllib:
            self.read(data)

    def read(self, data):
        try:
            self.document = tomllib.loads(data.decode("utf-8"))
        except (tomllib.TOMLDecodeError, UnicodeDecodeError, RecursionError) as fault:
            self.fault = fault
            return
        k = self.document.get("k")
        if is_integer(k) and 4 <= k <= 24 and k % 2 == 0:
            self.k = k
        for kind in self.tables:
            found = self.document.get(kind, [])
            if isinstance(found, list) and all(isinstance(table, dict) for table in found):
                self.tables[kind] = found

    def hosts(self):
        return [table["name"] for table in self.tables["host"] if isinstance(table.get("name"), str)]

    def labels(self):
        half = (self.k or 0) // 2
        pods = range(self.k or 0)
        return (
            [f"e{p}.{i}" for p in pods for i in range(half)]
            + [f"a{p}.{j}" for p in pods for j in range(half)]
            + [f"c{j}.{m}" for j in range(half) for m in range(half)]
        )

    def neighbours(self, label):
        half = (self.k or 0) // 2
        kind, first, second = label[0], *map(int, label[1:].split("."))
        if kind == "e":
            return [f"a{first}.{j}" for j in range(half)]
        if kind == "a":
            return [f"e{first}.{i}" for i in range(half)] + [f"c{second}.{m}" for m in range(half)]
        return [f"a{p}.{first}" for p in range(self.k or 0)]

    def link_ports(self, label):
        """The ports of a switch that links have."""
        half = self.k // 2
        kind, first, second = label[0], *map(int, label[1:].split("."))
        ports = {}
        for other in self.neighbours(label):
            far = [int(n) for n in other[1:].split(".")]
            ports[other] = {"ea": half + far[1], "ae": far[1], "ac": half + far[1], "ca": far[0]}[kind + other[0]]
        for table in self.tables["link"]:
            for end, port, other in (("a", "port_a", "b"), ("b", "port_b", "a")):
                if table.get(end) == label and table.get(other) in ports and is_integer(table.get(port)):
                    ports[table[other]] = table[port]
        return ports

    def host_ports(self, edge):
        taken = set(self.link_ports(edge).values())
        return [port for port in range(self.k) if port not in taken]

    def place(self, kind, number):
        """The first and the last line of a table, where the file has a head for each."""
        heads = [n for n, line in enumerate(self.lines, 1) if re.match(rf"\s*\[\[\s*{kind}\s*\]\]", line)]
        if len(heads) != len(self.tables[kind]) or number >= len(heads):
            return None
        last = heads[number]
        while last < len(self.lines) and not self.lines[last].lstrip().startswith("["):
            last += 1
        while last > heads[number] and not self.lines[last - 1].strip():
            last -= 1
        return heads[number], last

    def shown(self, kind, number):
        place = self.place(kind, number)
        return numbered(self.lines, *place) if place else [f"  {kind} table number {number + 1}: {self.tables[kind][number]}"]


def is_integer(value):
    return isinstance(value, int) and not isinstance(value, bool)


# ---- values of a topology


def name_fault(value, _fabric):
    if not isinstance(value, str):
        return "a name is a text in quotes"
    if value in ("all", "manager"):
        return f"`{value}` is a word of scripts: take another name"
    if not re.fullmatch(r"[a-z0-9_-]{1,32}", value):
        return "a name has 1 to 32 of a to z, 0 to 9, _ and -: no capitals, no blanks, no points"
    return None


def mac_fault(value, _fabric):
    if not isinstance(value, str):
        return 'a mac is a text in quotes, as "02:00:00:00:00:0a"'
    if not re.fullmatch(r"[0-9A-Fa-f]{2}(:[0-9A-Fa-f]{2}){5}", value):
        digits = re.sub(r"[^0-9A-Fa-f]", "", value)
        if len(digits) == 12 and re.fullmatch(r"[0-9A-Fa-f.:-]+", value):
            return f'write it with colons: "{":".join(digits[n:n + 2] for n in range(0, 12, 2)).lower()}"'
        return 'a mac is six two-digit hexadecimal numbers joined by colons, as "02:00:00:00:00:0a"'
    if int(value[:2], 16) % 2:
        return f"{value} is a group address: the first number of a host's own address is even"
    if not re.search(r"[1-9A-Fa-f]", value):
        return "all zero is nobody's address"
    return None


def ip_fault(value, _fabric):
    if not isinstance(value, str):
        return 'an ip is a text in quotes, as "10.0.0.1"'
    if "/" in value:
        return f'no mask here: a fabric is one subnet. Write "{value.split("/")[0]}"'
    if ":" in value:
        return "hosts have IPv4 addresses; IPv6 frames are carried unread"
    if not re.fullmatch(r"(0|[1-9][0-9]{0,2})(\.(0|[1-9][0-9]{0,2})){3}", value) or any(int(n) > 255 for n in value.split(".")):
        return 'an ip is four numbers 0 to 255 without leading zeros, joined by points, as "10.0.0.1"'
    if value == "0.0.0.0" or int(value.split(".")[0]) > 223:
        return "an ip of a host is not 0.0.0.0, and its first number is below 224"
    return None


def label_fault(value, fabric):
    if not isinstance(value, str):
        return 'a label is a text in quotes, as "e0.1"'
    if value not in fabric.labels():
        half = fabric.k // 2
        return f"with k = {fabric.k} there are e0.0 to e{fabric.k - 1}.{half - 1}, a0.0 to a{fabric.k - 1}.{half - 1} and c0.0 to c{half - 1}.{half - 1}"
    return None


def edge_fault(value, fabric):
    fault = label_fault(value, fabric)
    if fault is None and value[0] != "e":
        return f"hosts stand at edge switches: e0.0 to e{fabric.k - 1}.{fabric.k // 2 - 1}"
    return fault


def integer_fault(value, _fabric):
    return None if is_integer(value) else "a number without quotes and without a point"


def id_fault(value, _fabric):
    if not is_integer(value):
        return "an id is a number without quotes"
    return None if 1 <= value < 1 << 48 else "an id is 1 to 281474976710655"


def capture_fault(value, _fabric):
    if not isinstance(value, str):
        return "a capture is the name of a file, in quotes"
    if "/" in value:
        return f'a file in the folder of --captures, not a path: "{value.split("/")[-1]}"'
    if not re.fullmatch(r"[A-Za-z0-9_-][A-Za-z0-9_.-]{0,63}", value):
        return "a capture has 1 to 64 letters, digits, _, - and points, and does not begin with a point"
    return None


FAULTS = {
    "name": name_fault, "mac": mac_fault, "ip": ip_fault, "edge": edge_fault, "port": integer_fault, "capture": capture_fault, "label": label_fault,
    "id": id_fault, "a": label_fault, "b": label_fault, "port_a": integer_fault, "port_b": integer_fault,
}


def again(fabric, kind, number):
    """Whether an earlier table speaks of the same switch or link."""
    table, before = fabric.tables[kind][number], fabric.tables[kind][:number]
    if kind == "switch":
        return table.get("label") in [other.get("label") for other in before]
    ends = {str(table.get("a")), str(table.get("b"))}
    return any({str(other.get("a")), str(other.get("b"))} == ends for other in before)


def unread_keys(fabric):
    """Keys that nothing reads, each with what stands near."""
    document = fabric.document or {}
    for key, value in document.items():
        if key not in ("k", *KEYS):
            head = f"`[[{key}]]`" if isinstance(value, list) else f"`[{key}]`" if isinstance(value, dict) else f"`{key}`"
            yield head + " is read by nobody" + or_near(key, ["k", *KEYS])
    for kind, tables in fabric.tables.items():
        for number, table in enumerate(tables):
            for key in table:
                if key not in KEYS[kind]:
                    at = fabric.place(kind, number)
                    where = f" of the table at line {at[0]}" if at else f" of {kind} table number {number + 1}"
                    hint = " (it belongs above all tables)" if key == "k" else or_near(key, KEYS[kind])
                    yield f"`{key}`{where} is read by nobody{hint}"


def toml_hint(fabric):
    if fabric.fault is None:
        return []
    if reads_as_script(fabric.lines):
        return [*numbered(fabric.lines, 1, 1), "hint: this reads as a script, and a topology is wanted: are --topology and --script swapped?"]
    if isinstance(fabric.fault, UnicodeDecodeError):
        return ["hint: the file is no UTF-8 text: save it as UTF-8, without a byte order mark"]
    text = str(fabric.fault)
    at = re.search(r"\(at line (\d+), column (\d+)\)", text)
    number = int(at[1]) if at else len(fabric.lines)
    line = fabric.lines[number - 1] if number <= len(fabric.lines) else ""
    lines = numbered(fabric.lines, max(1, number - 1), number)
    if at and "\t" not in line:
        lines.append(" " * (int(at[2]) + 4 + len(str(number))) + "^")
    return lines + [f"hint: {re.sub(r' [(]at .*', '', text)}{toml_slip(line, text)}"]


SCRIPT_LINE = re.compile(r"(start|send|raw|retry|join|leave|move|fail|repair|lose|deliver|tick|sweep|settle|random|restart|expect)(\s|$)")
TOPOLOGY_LINE = re.compile(r"\[\[|\w+\s*=")


def first_words(lines):
    """The first line that has more than a comment."""
    return next((line.strip() for line in lines if line.strip() and not line.lstrip().startswith("#")), "")


def reads_as_script(lines):
    return SCRIPT_LINE.match(first_words(lines)) is not None


def reads_as_topology(lines):
    return TOPOLOGY_LINE.match(first_words(lines)) is not None


def toml_slip(line, text):
    zeros = re.match(r"\s*[\w-]+\s*=\s*0+(\d+)\s*(#.*)?$", line)
    if re.search("[\u201c\u201d\u201e\u2018\u2019\u201a\u00ab\u00bb]", line):
        return ': these are the quotes of a word processor: write plain ones, ""'
    if line.lstrip().startswith((";", "//")):
        return ": comments begin with `#`"
    if zeros:
        return f": a number has no zeros in front: {zeros[1]}"
    if re.search(r"=.*,\s*(#.*)?$", line):
        return ": no comma stands at the end of a line: take it away"
    bare = re.match(r"\s*[\w-]+\s*=\s*([A-Za-z0-9][^\s\"'#]*)\s*(#.*)?$", line)
    if re.match(r"\s*\w+\s*:", line) or line.lstrip().startswith("{"):
        return ": TOML wants `key = value`, and `[[host]]` above each host"
    if line.count('"') % 2:
        return ": a quote is not closed"
    if bare and not re.fullmatch(r"[0-9]+|true|false", bare[1]):
        return f': texts stand in quotes: "{bare[1]}"'
    if "overwrite" in text.lower() or "duplicate" in text.lower():
        return ": this key stands twice in one table; a new host begins with `[[host]]`"
    return ""


def topology_hints(fabric, reason):
    """What is to be said of `bad topology: REASON`."""
    word, *fields = reason.split(" ")
    if word == "NotToml":
        return toml_hint(fabric)
    if fabric.document is None:
        return []
    known = {
        "BadK": bad_k, "Missing": missing, "BadValue": bad_value, "DoubleId": double_id, "DoubleHost": double_host,
        "DoubleAddress": double_address, "BadPort": bad_port, "NotFatTree": not_fat_tree,
    }
    lines = known[word](fabric, fields) if word in known else []
    return lines + [f"note: {note}" for note in unread_keys(fabric)]


def bad_k(fabric, _fields):
    value = fabric.document.get("k")
    if value is None:
        inside = [kind for kind, tables in fabric.tables.items() for table in tables if "k" in table]
        if inside:
            return [f"hint: `k` stands below a [[{inside[0]}]], and so belongs to that table: write it above all tables"]
        return ["hint: write `k = 4` at the head of the file: how many ports each switch has, even, 4 to 24" + or_near("k", fabric.document)]
    if isinstance(value, str):
        return [f"hint: k is a number without quotes: `k = {value}`"]
    return [f"hint: k is {value}; it is an even number from 4 to 24"]


def missing(fabric, fields):
    key = fields[0]
    for kind, tables in fabric.tables.items():
        for number, table in enumerate(tables):
            for wanted in KEYS[kind]:
                if wanted not in table and wanted != "capture":
                    if wanted != key:
                        return []
                    return fabric.shown(kind, number) + [f"hint: this [[{kind}]] has no `{key}`; it wants {', '.join(KEYS[kind][:5])}"]
    return []


def bad_value(fabric, fields):
    key = fields[0]
    if key in KEYS:
        return [f"hint: write `[[{key}]]`, with two brackets, above each {key}"]
    for kind, tables in fabric.tables.items():
        if key not in KEYS[kind]:
            continue
        for number, table in enumerate(tables):
            fault = FAULTS[key](table[key], fabric) if key in table else None
            if fault is None and key in ("label", "a") and again(fabric, kind, number):
                fault = "an earlier table is for the same one: one table for each"
            if fault:
                return fabric.shown(kind, number) + [f"hint: {fault}"]
    return []


def double_id(fabric, fields):
    tables = [n for n, table in enumerate(fabric.tables["switch"]) if str(table.get("id")) == fields[0]]
    shown = [line for number in tables[-1:] for line in fabric.shown("switch", number)]
    keeps = fabric.labels()[int(fields[0]) - 1] if int(fields[0]) <= len(fabric.labels()) else None
    named = [table.get("label") for table in fabric.tables["switch"]]
    who = f"; {keeps} has it, as its place in label order" if keeps and keeps not in named else ""
    return shown + [f"hint: two switches have the id {fields[0]}{who}: take one that nobody has"]


def double_host(fabric, fields):
    numbers = [n for n, name in enumerate(fabric.hosts()) if name == fields[0]]
    return fabric.shown("host", numbers[1]) + [f"hint: two hosts are called `{fields[0]}`: give this one another name"] if len(numbers) > 1 else []


def double_address(fabric, fields):
    hosts = fabric.tables["host"]
    for number, host in enumerate(hosts):
        for key in ("mac", "ip"):
            same = [other.get("name") for other in hosts[:number] if str(other.get(key)).lower() == str(host.get(key)).lower()]
            if same and host.get("name") == fields[0]:
                return fabric.shown("host", number) + [f"hint: `{same[0]}` has this {key} already: give `{fields[0]}` another"]
    return []


def bad_port(fabric, fields):
    label, port = fields[0], int(fields[1])
    if not 0 <= port < fabric.k:
        return port_tables(fabric, label, port) + [f"hint: each switch has the ports 0 to {fabric.k - 1}"]
    ports = fabric.link_ports(label)
    links = [other for other, at in ports.items() if at == port]
    hosts = [host.get("name") for host in fabric.tables["host"] if host.get("edge") == label and host.get("port") == port]
    free = [str(n) for n in fabric.host_ports(label)] if label[0] == "e" else []
    who = " and ".join([f"the link to {other}" for other in links] + [f"host `{name}`" for name in hosts])
    hint = f"; hosts of {label} take the ports {listed(free)}" if free else ""
    return port_tables(fabric, label, port) + [f"hint: {who or 'something else'} {'are both' if len(links) + len(hosts) > 1 else 'is'} at port {port} of {label}{hint}"]


def port_tables(fabric, label, port):
    """The last table that names a port of a switch."""
    for kind, ends in (("host", [("edge", "port")]), ("link", [("a", "port_a"), ("b", "port_b")])):
        found = [n for n, table in enumerate(fabric.tables[kind]) for end, key in ends if (table.get(end), table.get(key)) == (label, port)]
        if found:
            return fabric.shown(kind, found[-1])
    return []


def not_fat_tree(fabric, fields):
    for number, table in enumerate(fabric.tables["link"]):
        if [table.get("a"), table.get("b")] == fields:
            return fabric.shown("link", number) + [f"hint: a fat tree does not join {fields[0]} and {fields[1]}; {fields[0]} has links to {listed(fabric.neighbours(fields[0]))}"]
    return []
