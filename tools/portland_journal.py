"""Reads the files of a run of portland: topologies, scripts and journals.

    from portland_journal import read
    run = read("out/four-hosts")          # a folder, or a journal
    run.entries                           # each line of the journal, as a row of its kind
    run.frames                            # a row for each frame: its way and its end
    run.fabric.links, run.script          # where a topology and a script lie with it

Rows are dataclasses, so they go into pandas as they are: `pandas.DataFrame(run.frames)`, or of some kinds alone
`pandas.DataFrame(run.of("dropped"))`. What cannot be read is a `Fault`, whose text names the file and the line.
"""

import pathlib
import re
import tomllib
from dataclasses import dataclass, field, make_dataclass
from functools import cached_property
from itertools import pairwise

CAUSES = {
    "NotPlaced": "the switch does not know its own place yet, or not that of its neighbour",
    "NoNextHop": "no usable port leads on to its address",
    "NoAddress": "its address was never given to a host, or was freed since",
    "HostGone": "the host that it is for does not stand at that port",
    "LinkDown": "the link was down, or failed with the frame on it",
    "Lost": "an event of the script took it from its queue",
    "Spent": "the port has no number left for its sender",
    "BadArp": "an ARP frame that cannot be read",
    "NoMember": "nobody there or further on has joined its group",
}

SKIPS = {
    "CutRecord": "the capture has not the whole frame",
    "Short": "it is shorter than 14 bytes",
    "Long": "it is longer than 65,553 bytes",
    "ForeignSource": "it comes from another address than the host's",
    "ControlType": "it has the type of the switches' own messages",
    "RecordedArp": "hosts make their own ARP frames",
    "NoOwner": "no other host has its destination",
    "HoldFull": "64 frames wait for that address already",
}


class Fault(Exception):
    """What stands against reading a file or doing what was asked, in one line."""


def part(word):
    """A part of a place, None where it is not known."""
    return None if word == "-" else int(word)


# The words of each line of a journal behind its first one. Every row has also `row`, its line in the journal, and `line`,
# the line of the script in which it came about (0 before the first).
FORMS = {
    "line": {},
    "sent": {"frame": int, "host": str, "data": bytes.fromhex},
    "skipped": {"host": str, "skip": str},
    "made": {"frame": int, "switch": str, "data": bytes.fromhex},
    "crossed": {"frame": int, "switch": str},
    "redirected": {"frame": int, "old": str, "new": str},
    "copied": {"frame": int, "copy": int},
    "arrived": {"frame": int, "host": str, "data": bytes.fromhex},
    "taken": {"frame": int, "switch": str},
    "dropped": {"frame": int, "cause": str},
    "granted": {"address": str, "host": str, "switch": str, "port": int},
    "registered": {"address": str, "number": int},
    "freed": {"address": str},
    "placed": {"switch": str, "level": part, "position": part, "pod": part},
    "linkdown": {"a": str, "b": str},
    "linkup": {"a": str, "b": str},
    "moved": {"host": str, "switch": str, "port": int},
    "restarted": {"number": int},
    "settled": {"rounds": int},
    "unsettled": {"pending": int},
}

ENTRIES = {
    kind: make_dataclass(kind.capitalize(), ["row", "line", "kind", *form], slots=True) for kind, form in FORMS.items()
}

READERS = {kind: (ENTRIES[kind], tuple(form.values())) for kind, form in FORMS.items() if kind != "line"}


@dataclass(slots=True)
class Frame:
    """A frame from its beginning to its end. A copy begins where it was copied, with the bytes of its origin."""

    number: int
    begun: str  # sent, made or copied
    by: str  # the host or the switch that began it
    line: int  # the script's line in which it began
    data: bytes  # as it began
    origin: int | None = None  # the frame that it is a copy of
    before: int = 0  # how many switches that one had crossed by then
    path: list = field(default_factory=list)  # the switches that it crossed, in order
    redirects: list = field(default_factory=list)  # pairs: how many switches it had crossed by then, and its address from then on
    end: str = "flying"  # arrived, taken, dropped, or flying at the end of the journal
    host: str | None = None  # where it arrived
    cause: str | None = None  # why it was dropped
    ended: int | None = None  # the script's line in which it ended
    received: bytes | None = None  # as it arrived

    @property
    def at(self):
        """The switch that it was at last; of a frame that crossed none the one that began it, or none."""
        return self.path[-1] if self.path else (None if self.begun == "sent" else self.by)

    @property
    def hops(self):
        """The links that it crossed, each as where it came from and where it came to; hosts' links too, by the host's name."""
        nodes = [self.by, *self.path, *([self.host] if self.end == "arrived" else [])]
        return [(a, b) for a, b in pairwise(nodes) if a != b]


class Frames:
    """Puts the entries of a journal together, frame by frame."""

    def __init__(self):
        self.frames = []

    def add(self, frame, row):
        if frame.number != len(self.frames) + 1:
            raise Fault(f"row {row}: frame {frame.number} begins out of order")
        self.frames.append(frame)

    def read(self, entry):
        kind = entry.kind
        if kind in ("sent", "made"):
            by = entry.host if kind == "sent" else entry.switch
            self.add(Frame(entry.frame, kind, by, entry.line, entry.data), entry.row)
            return
        if not 1 <= entry.frame <= len(self.frames):
            raise Fault(f"row {entry.row}: there is no frame {entry.frame}")
        frame = self.frames[entry.frame - 1]
        if kind == "crossed":
            frame.path.append(entry.switch)
        elif kind == "redirected":
            frame.redirects.append((len(frame.path), entry.new))
        elif kind == "copied":
            before = frame.before + len(frame.path)
            self.add(Frame(entry.copy, kind, frame.at, entry.line, frame.data, entry.frame, before), entry.row)
        else:
            frame.end, frame.ended = kind, entry.line
            if kind == "arrived":
                frame.host, frame.received = entry.host, entry.data
            elif kind == "dropped":
                frame.cause = entry.cause


OF_FRAMES = frozenset(kind for kind, form in FORMS.items() if "frame" in form)


@dataclass(slots=True)
class Place:
    """What a switch knows of its place; None for what it does not."""

    level: int | None = None
    position: int | None = None
    pod: int | None = None

    @property
    def is_placed(self):
        needed = {0: (self.position, self.pod), 1: (self.pod,), 2: ()}
        return self.level is not None and None not in needed[self.level]


class State:
    """What a journal says of the fabric, once its entries up to some row were read."""

    def __init__(self, fabric):
        self.places = {switch.label: Place() for switch in fabric.switches}
        self.failed = set()  # of links, each by its two ends in both orders
        self.spots = {host.name: (host.edge, host.port) for host in fabric.hosts}
        self.granted = {}  # for each pseudo address that is live the host, the edge switch and the port that it was granted for
        self.in_use = {}  # for each host, edge switch and port of a grant the address with which it sends there, the last one granted
        self.addresses = {host.name: [] for host in fabric.hosts}  # for each host those that the manager knows, the newest last
        self.is_settled = False  # as of the last `settle` line, and no link failed, host moved or manager began anew since

    def read(self, entry):
        kind = entry.kind
        if kind == "placed":
            self.places[entry.switch] = Place(entry.level, entry.position, entry.pod)
        elif kind == "granted":
            place = entry.host, entry.switch, entry.port
            self.granted[entry.address] = place
            self.in_use[place] = entry.address
        elif kind == "registered":
            if entry.address in self.granted:
                self.addresses[self.granted[entry.address][0]].append(entry.address)
        elif kind == "freed":
            place = self.granted.pop(entry.address)
            if self.in_use.get(place) == entry.address:
                del self.in_use[place]
            host = place[0]
            # an address that is older than one that was freed is not the newest again
            older = self.addresses[host].index(entry.address) + 1 if entry.address in self.addresses[host] else 0
            del self.addresses[host][:older]
        elif kind == "moved":
            self.spots[entry.host] = entry.switch, entry.port
        elif kind == "linkdown":
            self.failed |= {(entry.a, entry.b), (entry.b, entry.a)}
        elif kind == "linkup":
            self.failed -= {(entry.a, entry.b), (entry.b, entry.a)}
        elif kind == "restarted":
            # the manager knows nothing; switches keep their places and what they granted
            self.addresses = {host: [] for host in self.addresses}
        if kind in ("settled", "unsettled"):
            self.is_settled = kind == "settled"
        elif kind in ("moved", "linkdown", "linkup", "restarted"):
            self.is_settled = False


class Run:
    """A journal, and the topology and the script that lie with it; None for what does not."""

    def __init__(self, path, entries, fabric=None, script=None, summary=None):
        self.path = path
        self.entries = entries
        self.fabric = fabric
        self.script = script
        self.summary = summary  # the text that the program printed

    def of(self, *kinds):
        """The rows of these kinds."""
        return [entry for entry in self.entries if entry.kind in kinds]

    @property
    def is_settled(self):
        """Whether the fabric is settled at the end: by the summary, else as of the last `settle` line."""
        if self.summary:
            return self.summary.rstrip().endswith("settled yes")
        return self.state().is_settled

    @cached_property
    def frames(self):
        """A row for each frame, in the order in which they began: frame N stands at N - 1."""
        built = Frames()
        for entry in self.entries:
            if entry.kind in OF_FRAMES:
                try:
                    built.read(entry)
                except Fault as fault:
                    raise Fault(f"{self.path}: {fault}") from None
        return built.frames

    @cached_property
    def receivers(self):
        """For each frame that a host sent to a pseudo address, by its number, the host to which that one was granted last before."""
        owners, found = {}, {}
        for entry in self.of("granted", "sent"):
            if entry.kind == "granted":
                owners[entry.address] = entry.host
            elif (to := entry.data[:6].hex(":")) in owners:
                found[entry.frame] = owners[to]
        return found

    def state(self, row=None):
        """The fabric once the journal was read up to a row, or to its end."""
        state = State(self.needs_fabric())
        try:
            for entry in self.entries[:row]:
                state.read(entry)
        except KeyError as error:
            raise Fault(f"{self.path} is no journal of that topology: it names {error.args[0]}") from None
        return state

    def needs_fabric(self):
        if self.fabric is None:
            raise Fault(f"no topology.toml lies with {self.path}: name it with --topology")
        return self.fabric


def text_of(path, encoding):
    """A file of a run as text, its lines ended by a newline alone."""
    try:
        with open(path, encoding=encoding, newline="\n") as file:
            return file.read()
    except OSError as error:
        raise Fault(f"{error.strerror}: {path}") from None
    except UnicodeDecodeError:
        raise Fault(f"{path} is no text") from None


def bytes_of(path):
    try:
        return pathlib.Path(path).read_bytes()
    except OSError as error:
        raise Fault(f"{error.strerror}: {path}") from None


def read_journal(path):
    """The rows of a journal."""
    entries = []
    line = 0
    mark = ENTRIES["line"]
    for row, text in enumerate(text_of(path, "ascii").splitlines(), 1):
        kind, *words = text.split(" ")
        try:
            if kind == "line":
                (number,) = words
                line = int(number)
                entries.append(mark(row, line, kind))
                continue
            make, forms = READERS[kind]
            if len(words) != len(forms):
                raise ValueError
            entries.append(make(row, line, kind, *[form(word) for form, word in zip(forms, words)]))
        except (KeyError, ValueError):
            raise Fault(f"line {row} of {path} is no line of a journal") from None
    return entries


# The topology.

LABEL = re.compile(r"([eac])(0|[1-9][0-9]?)\.(0|[1-9][0-9]?)")
NAME = re.compile(r"[a-z0-9_-]{1,32}")
MAC = re.compile(r"([0-9a-f]{2}:){5}[0-9a-f]{2}")
IP = re.compile(r"((0|[1-9][0-9]{0,2})\.){3}(0|[1-9][0-9]{0,2})")


@dataclass(slots=True)
class Switch:
    label: str
    level: int  # 0 edge, 1 aggregation, 2 core
    pod: int | None  # of the wiring
    id: int


@dataclass(slots=True)
class Link:
    lower: str
    lower_port: int
    upper: str
    upper_port: int

    @property
    def ends(self):
        return self.lower, self.upper


@dataclass(slots=True)
class Host:
    name: str
    mac: str
    ip: str
    edge: str
    port: int
    capture: str | None = None


class Fabric:
    """A fat tree of switches with k ports each, as the topology says it, and the hosts."""

    def __init__(self, k):
        half = k // 2
        pods = [(pod, n) for pod in range(k) for n in range(half)]
        self.k = k
        self.switches = [Switch(f"e{pod}.{n}", 0, pod, 0) for pod, n in pods]
        self.switches += [Switch(f"a{pod}.{n}", 1, pod, 0) for pod, n in pods]
        self.switches += [Switch(f"c{group}.{n}", 2, None, 0) for group in range(half) for n in range(half)]
        for number, switch in enumerate(self.switches, 1):
            switch.id = number
        self.links = [Link(f"e{pod}.{n}", half + m, f"a{pod}.{m}", n) for pod, n in pods for m in range(half)]
        self.links += [Link(f"a{pod}.{n}", half + m, f"c{n}.{m}", pod) for pod, n in pods for m in range(half)]
        self.hosts = []

    @cached_property
    def by_label(self):
        return {switch.label: switch for switch in self.switches}

    @cached_property
    def by_ends(self):
        """The link between two switches, whichever is named first."""
        return {ends: link for link in self.links for ends in (link.ends, link.ends[::-1])}

    @cached_property
    def by_name(self):
        return {host.name: host for host in self.hosts}

    @cached_property
    def by_mac(self):
        return {bytes.fromhex(host.mac.replace(":", "")): host for host in self.hosts}

    @cached_property
    def ports(self):
        """For each switch its ports that lead to switches: the port, and the neighbour there."""
        ports = {switch.label: {} for switch in self.switches}
        for link in self.links:
            ports[link.lower][link.lower_port] = link.upper
            ports[link.upper][link.upper_port] = link.lower
        return ports

    def host_ports(self, edge):
        """The ports of an edge switch at which hosts can stand."""
        return [port for port in range(self.k) if port not in self.ports[edge]]

    def host(self, name):
        if name not in self.by_name:
            raise Fault(f"the topology has no host {name}: it has {', '.join(self.by_name) or 'none'}")
        return self.by_name[name]

    def link(self, a, b):
        for label in (a, b):
            if label not in self.by_label:
                raise Fault(f"there is no switch {label} for k = {self.k}")
        if (a, b) not in self.by_ends:
            raise Fault(f"no link joins {a} and {b}")
        return self.by_ends[a, b]


def want(holds, what):
    if not holds:
        raise Fault(what)


def tables(document, key):
    found = document.get(key, [])
    want(isinstance(found, list) and all(isinstance(table, dict) for table in found), f"`{key}` is no array of tables")
    return found


def value(table, key, form, what):
    """A text of a table that has a form."""
    want(key in table, f"{what} has no `{key}`")
    want(isinstance(table[key], str) and form.fullmatch(table[key]), f"`{key}` of {what} cannot be `{table[key]}`")
    return table[key]


def number(table, key, least, most, what):
    want(key in table, f"{what} has no `{key}`")
    given = table[key]
    want(type(given) is int and least <= given <= most, f"`{key}` of {what} is no number from {least} to {most}")
    return given


def apply_switch(fabric, table):
    label = value(table, "label", LABEL, "a `switch` table")
    want(label in fabric.by_label, f"there is no switch {label} for k = {fabric.k}")
    fabric.by_label[label].id = number(table, "id", 1, 2**48 - 1, f"switch {label}")


def apply_link(fabric, table):
    a, b = (value(table, key, LABEL, "a `link` table") for key in ("a", "b"))
    link = fabric.link(a, b)
    ports = [number(table, key, 0, fabric.k - 1, f"link {a} {b}") for key in ("port_a", "port_b")]
    link.lower_port, link.upper_port = ports if link.lower == a else ports[::-1]


def host_of(fabric, table):
    name = value(table, "name", NAME, "a host")
    what = f"host {name}"
    mac = value({**table, "mac": str(table.get("mac", "")).lower()}, "mac", MAC, what)
    edge = value(table, "edge", LABEL, what)
    want(edge in fabric.by_label and edge[0] == "e", f"{what} stands at no edge switch: {edge}")
    port = number(table, "port", 0, fabric.k - 1, what)
    want(port not in fabric.ports[edge], f"{what} stands at port {port} of {edge}, which leads to {fabric.ports[edge].get(port)}")
    return Host(name, mac, value(table, "ip", IP, what), edge, port, table.get("capture"))


def want_single(hosts):
    for key in ("name", "mac", "ip"):
        seen = {}
        for host in hosts:
            given = getattr(host, key)
            want(given not in seen, f"hosts {seen.get(given)} and {host.name} have one `{key}`")
            seen[given] = host.name


def want_ports_apart(fabric):
    used = set()
    for link in fabric.links:
        for end in ((link.lower, link.lower_port), (link.upper, link.upper_port)):
            want(end not in used, f"two links use port {end[1]} of {end[0]}")
            used.add(end)
    spots = {}
    for host in fabric.hosts:
        want((host.edge, host.port) not in spots, f"two hosts stand at port {host.port} of {host.edge}")
        spots[host.edge, host.port] = host.name


def fabric_of(document):
    k = document.get("k")
    want(type(k) is int and 4 <= k <= 24 and k % 2 == 0, "`k` is no even number from 4 to 24")
    fabric = Fabric(k)
    for table in tables(document, "switch"):
        apply_switch(fabric, table)
    for table in tables(document, "link"):
        apply_link(fabric, table)
    fabric.hosts = [host_of(fabric, table) for table in tables(document, "host")]
    want_single(fabric.hosts)
    want_ports_apart(fabric)
    return fabric


def read_topology(path):
    """The fabric of a topology. What it lets pass, `portland check` may still refuse."""
    try:
        return fabric_of(tomllib.loads(text_of(path, "utf-8").replace("\r\n", "\n")))
    except (tomllib.TOMLDecodeError, Fault) as fault:
        text = str(fault)
        raise Fault(text if str(path) in text else f"{path}: {text}") from None


def topology_text(fabric):
    """The topology of a fabric, as a file has it."""
    plain = Fabric(fabric.k)
    lines = [f"k = {fabric.k}"]
    for switch, usual in zip(fabric.switches, plain.switches):
        if switch.id != usual.id:
            lines += ["[[switch]]", f'label = "{switch.label}"', f"id = {switch.id}"]
    for link, usual in zip(fabric.links, plain.links):
        if link != usual:
            lines += ["[[link]]", f'a = "{link.lower}"', f"port_a = {link.lower_port}"]
            lines += [f'b = "{link.upper}"', f"port_b = {link.upper_port}"]
    for host in fabric.hosts:
        lines += ["[[host]]"] + [f'{key} = "{getattr(host, key)}"' for key in ("name", "mac", "ip", "edge")]
        lines += [f"port = {host.port}"] + ([f'capture = "{host.capture}"'] if host.capture else [])
    return "\n".join(lines) + "\n"


# The script.


@dataclass(slots=True)
class Command:
    """A line of a script that does something."""

    line: int
    words: list
    text: str


def read_script(path):
    commands = []
    for line, text in enumerate(text_of(path, "utf-8").split("\n"), 1):
        words = text.split("#")[0].split()
        if words:
            commands.append(Command(line, words, text.rstrip("\r")))
    return commands


# A whole run.


def first_file(places):
    return next((place for place in places if place.is_file()), None)


def journal_in(path):
    """The journal of a run: the file itself, or the one in its folder."""
    path = pathlib.Path(path)
    if not path.exists():
        raise Fault(f"there is no {path}")
    if not path.is_dir():
        return path
    found = first_file([path / "journal.txt", path / "expected" / "journal.txt", path / "out" / "journal.txt"])
    if found is None:
        raise Fault(f"there is no journal.txt in {path}: {how_to_play(path)}")
    return found


def how_to_play(path):
    """What makes a journal of a folder without one."""
    if (path / "topology.toml").is_file() and (path / "script").is_file():
        words = f"--topology {path}/topology.toml --script {path}/script --captures {path}/captures --out {path}"
        return f"play it first, ./portland run {words}"
    return "name a folder that a run was saved in"


def beside(journal, name):
    """A file that lies with a journal, or one folder up; of `captures` the folder."""
    folder = journal.absolute().parent
    return next((place for place in (folder / name, folder.parent / name) if place.exists()), None)


def read(path, topology=None, script=None):
    """The run that lies at a path: a folder or a journal, with the topology and the script beside it, or named ones."""
    journal = journal_in(path)
    entries = read_journal(journal)
    topology = topology or beside(journal, "topology.toml")
    script = script or beside(journal, "script")
    summary = beside(journal, "summary")
    return Run(
        journal,
        entries,
        read_topology(topology) if topology else None,
        read_script(script) if script else None,
        text_of(summary, "utf-8") if summary else None,
    )
