"""What a run that played to its end leaves to be said below its summary: for tools/explain."""

import pathlib
import re

from explain_captures import counts_of, none_of_ethernet
from explain_script import words_in
from explain_topology import listed
from portland_captures import ETHERNET
from portland_journal import Fault, read_topology
from portland_places import fabric_state, left_without_a_place

MOST_JOURNAL = 64 << 20
CHANGED = re.compile(rb"\n(linkdown|linkup|moved|restarted) ")
DELIVERS = ("settle", "sweep", "deliver", "random")

# Why a record is skipped, and what to look at.
SKIPS = {
    "ForeignSource": "the source of the frame is not the host's `mac`: is that right, and has the capture what this host sent?",
    "NoOwner": "the frame is for a `mac` that no other host of the topology has: add that host, or send it by `raw`",
    "CutRecord": "the capture has only a part of the frame: capture with a larger snapshot length, `tcpdump -s 0`",
    "Long": "the frame is longer than 65,553 bytes",
    "Short": "the frame has less than an Ethernet header, 14 bytes",
    "ControlType": "type 0x88B5 is what switches send each other",
    "HoldFull": "64 frames wait for an address that the host asked for: send one frame to it first, then `settle 64`, then the others",
    "RecordedArp": "no loss: hosts make their own ARP frames",
}


class Journal:
    """The bytes of a saved journal. A split, a count or a search is as fast as the file is read, and a walk over its lines is not."""

    def __init__(self, data):
        self.data = b"\n" + data

    def count(self, *kinds):
        return sum(self.data.count(b"\n" + kind.encode() + b" ") for kind in kinds)

    def has(self, kind):
        return self.data.find(b"\n" + kind.encode() + b" ") >= 0

    def firsts(self, kind, most=80):
        """The words behind a kind, of each of its lines, as far as so many bytes go."""
        for rest in self.data.split(b"\n" + kind.encode() + b" ")[1:]:
            yield rest[:most].split(b"\n", 1)[0].decode("ascii", "replace").split()

    def last_settle(self):
        """The last `settled` or `unsettled` line, and all that stands behind it."""
        at = max(self.data.rfind(b"\nsettled "), self.data.rfind(b"\nunsettled "))
        if at < 0:
            return None, b""
        line, _, rest = self.data[at + 1 :].partition(b"\n")
        return line.decode("ascii", "replace").split(), b"\n" + rest

    def is_settled(self):
        """Whether the last `settle` line ended settled, and nothing changed the fabric since."""
        last, rest = self.last_settle()
        return last is not None and last[0] == "settled" and not CHANGED.search(rest)

    def line_at_the_end_of(self, kind):
        """The script's line in which the last line of this kind came about."""
        before = self.data[: self.data.rfind(b"\n" + kind.encode() + b" ")]
        at = before.rfind(b"\nline ")
        return int(before[at + 6 :].split(b"\n", 1)[0]) if at >= 0 else 0


def skip_notes(journal):
    """A note for each reason of skipped records, with the hosts and how many they were."""
    counts = {}
    for host, skip in journal.firsts("skipped"):
        hosts = counts.setdefault(skip, {})
        hosts[host] = hosts.get(host, 0) + 1
    for skip, hosts in sorted(counts.items(), key=lambda item: list(SKIPS).index(item[0]) if item[0] in SKIPS else 99):
        named = listed([f"{host} {count}" for host, count in hosts.items()], 6)
        yield f"{sum(hosts.values())} records were skipped as {skip} ({named}): {SKIPS.get(skip, 'docs/FORMATS.md has the reason')}"


def capture_notes(fabric, captures):
    """A note for each pcapng capture that has packets, and none of Ethernet."""
    for host in fabric.tables["host"]:
        file = f"{captures}/{host.get('capture')}"
        counts = counts_of(file) if host.get("capture") else {}
        if counts and ETHERNET not in counts:
            yield f"{file}, the capture of `{host.get('name')}`, has {none_of_ethernet(counts)}: capture on an Ethernet interface"


def flight_notes(journal, commands):
    flying = journal.count("sent", "made", "copied") - journal.count("arrived", "taken", "dropped")
    if flying <= 0:
        return
    delivering = [number for number, words in commands if words[0] in DELIVERS]
    frames, them = ("1 frame is", "it") if flying == 1 else (f"{flying} frames are", "them")
    if not delivering:
        why = f"no line delivers {them}"
    elif delivering[-1] == commands[-1][0]:
        why = f"line {delivering[-1]} did not deliver {them}"
    else:
        why = f"no line behind line {delivering[-1]} delivers {them}"
    yield f"{frames} in flight at the end: {why}; add `settle 64`"


def start_notes(journal, commands):
    """Of a script that starts nobody, or gives the switches no time to find their places."""
    verbs = {words[0] for _, words in commands}
    if not verbs & {"start", "move"}:
        if verbs & {"send", "raw", "join"}:
            yield "no line starts a host, and the switches do not know of one before: begin with `start all` and `settle 64`"
        return
    if not journal.has("granted") and not journal.is_settled():
        how = "`settle 1` is one round" if verbs & {"settle"} else "`sweep` and `deliver` make no ticks"
        yield f"no host got an address: switches find their places by ticks, in some rounds, and {how}; put `settle 64` behind `start`"


def settle_notes(journal, commands):
    last, rest = journal.last_settle()
    if last is None:
        return
    changed = CHANGED.findall(rest)
    if last[0] == "unsettled":
        line = journal.line_at_the_end_of("unsettled")
        text = dict(commands).get(line, [])
        yield f"the fabric is not settled at the end: line {line}, `{' '.join(text)}`, had too few rounds; `settle 64` is enough for most"
    elif changed:
        what = {b"linkdown": "a link failed", b"linkup": "a link was repaired", b"moved": "a host moved", b"restarted": "the manager restarted"}
        yield f"the fabric was not left to settle at the end: {what[changed[-1]]} behind the last `settle` line; add `settle 64`"


def raw_notes(journal, fabric):
    """Of frames that `raw` sent to a host's own address, which no switch knows."""
    macs = {str(host.get("mac", "")).lower().replace(":", "") for host in fabric.tables["host"]}
    wrong = {number for number, _, data in (words[:3] for words in journal.firsts("sent", 60) if len(words) > 2) if data[:12] in macs}
    causes = {}
    for words in journal.firsts("dropped"):
        if words[0] in wrong and words[1] in ("NoNextHop", "NoAddress"):
            causes[words[1]] = causes.get(words[1], 0) + 1
    if causes:
        ended = ", ".join(f"{count} ended {cause}" for cause, count in causes.items())
        yield f"`raw` sent {len(wrong)} frames to a host's own `mac` ({ended}): switches know pseudo addresses alone; `send` asks for them"


def place_notes(journal, items):
    """The edge switches with hosts that the settled fabric leaves without a place."""
    if not journal.is_settled():
        return
    try:
        fabric = read_topology(items.get("topology", ""))
        rows = left_without_a_place(fabric, fabric_state(fabric, journal.data))
    except Fault:
        return
    for row in rows:
        yield f"{row.switch} has {listed(row.hosts, 6)} and no place, though the fabric is settled: {row.why}{row.heals}"


def run_notes(command, items, fabric, script):
    """All that is to be said of a run, by the journal that it saved."""
    yield from capture_notes(fabric, items.get("captures", ""))
    path = pathlib.Path(items["out"]) / "journal.txt"
    try:
        if path.stat().st_size > MOST_JOURNAL:
            yield f"{path} has more than 64 MiB, and was not looked through; `tools/stats {items['out']}` does it"
            return
        journal = Journal(path.read_bytes())
    except OSError:
        return
    commands = [(number, words) for number, line in enumerate(script.lines, 1) if (words := words_in(line))]
    yield from skip_notes(journal)
    if command == "run":
        yield from start_notes(journal, commands)
        yield from raw_notes(journal, fabric)
    yield from flight_notes(journal, commands)
    if command == "run":
        yield from settle_notes(journal, commands)
        yield from place_notes(journal, items)
