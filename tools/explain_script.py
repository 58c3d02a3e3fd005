"""What is wrong with a line of a script, or was refused when it was played: for tools/explain."""

import os
import pathlib
import re

from explain_captures import counts_of, none_of_ethernet
from explain_topology import label_fault, listed, near, or_near, printable, reads_as_topology

CAUSES = ["NotPlaced", "NoNextHop", "NoAddress", "HostGone", "LinkDown", "Lost", "Spent", "BadArp", "NoMember"]
VERBS = {
    "start": ["H", "all"],
    "send": ["H", "H N", "H all"],
    "raw": ["H", "H N", "H all"],
    "retry": ["H", "all"],
    "join": ["H GROUP"],
    "leave": ["H GROUP"],
    "move": ["H S N"],
    "fail": ["S S"],
    "repair": ["S S"],
    "lose": ["S S"],
    "deliver": ["X Y"],
    "tick": ["S", "all"],
    "sweep": ["N"],
    "settle": ["N"],
    "random": ["N M"],
    "restart": [""],
    "expect": ["arrived H N", "dropped CAUSE N", "address H PMAC", "settled"],
}
SLIPS = {
    "wait": "settle", "sleep": "settle", "run": "settle", "ping": "send", "play": "send", "replay": "send", "up": "repair", "down": "fail",
    "restore": "repair", "break": "fail", "cut": "fail", "kill": "fail", "assert": "expect", "check": "expect", "boot": "start", "begin": "start",
    "drop": "lose", "migrate": "move", "transmit": "send", "recover": "repair", "step": "sweep", "reboot": "restart", "reset": "restart",
}


def is_number(word, least, most):
    return re.fullmatch(r"[0-9]{1,20}", word) is not None and least <= int(word) <= most


def word_fault(fabric, kind, word):
    """The reason and the hint where a word is not what the form wants there."""
    hosts, labels = fabric.hosts(), fabric.labels()
    if kind == "H" and word not in hosts:
        return "Name", host_hint(fabric, word)
    if kind == "S" and word not in labels:
        return "Name", switch_hint(fabric, word)
    if kind == "X" and word not in hosts + labels + ["manager"]:
        return "Name", f"`{word}` is no switch, no host and not `manager`" + or_near(word, hosts + labels)
    if kind == "CAUSE" and word not in CAUSES:
        return "Name", f"`{word}` is no cause" + or_near(word, CAUSES) + f"; causes are {', '.join(CAUSES)}"
    if kind == "GROUP" and (ip_number(word) is None or not 224 <= ip_number(word)[0] <= 239):
        return "Number", "a group is an address from 224.0.0.0 to 239.255.255.255, as 239.1.2.3"
    if kind == "PMAC" and not re.fullmatch(r"[0-9A-Fa-f]{2}(:[0-9A-Fa-f]{2}){5}", word):
        return "Number", "a pseudo address is written as a mac: 00:01:00:00:00:01 is pod 1, position 0, port 0, number 1 there"
    if isinstance(kind, tuple) and not is_number(word, *kind):
        return "Number", f"`{word}` is no number from {kind[0]} to {kind[1]}, in digits alone"
    return None


def ip_number(word):
    parts = word.split(".")
    fits = len(parts) == 4 and all(re.fullmatch(r"0|[1-9][0-9]{0,2}", part) and int(part) < 256 for part in parts)
    return [int(part) for part in parts] if fits else None


def host_hint(fabric, word):
    if word == "all":
        return "`all` stands behind `start`, `retry` and `tick` alone: write a line for each host"
    if word in fabric.labels():
        return f"`{word}` is a switch, and a host is wanted here"
    names = fabric.hosts()
    if not names:
        return "the topology has no hosts: does it say `[[host]]`?"
    return f"there is no host `{word}`" + (or_near(word, names) if near(word, names) else f"; hosts are {listed(names)}")


def switch_hint(fabric, word):
    if word in fabric.hosts():
        return f"`{word}` is a host, and a switch is wanted here. Links to hosts do not fail; `move {word} S N` takes it elsewhere"
    if word == "all":
        return "`all` stands behind `start`, `retry` and `tick` alone"
    if fabric.k is None:
        return f"there is no switch `{word}`"
    return f"there is no switch `{word}`: " + (label_fault(word, fabric) or "")


BIG = (1 << 64) - 1


def forms_of(verb):
    """Each form as the kinds of its words; a tuple is a number in a range."""
    forms = {
        "start": [["H"]], "retry": [["H"]], "send": [["H"], ["H", (1, 1_000_000)]], "raw": [["H"], ["H", (1, 1_000_000)]],
        "join": [["H", "GROUP"]], "leave": [["H", "GROUP"]], "move": [["H", "S", (0, 255)]], "fail": [["S", "S"]], "repair": [["S", "S"]],
        "lose": [["S", "S"]], "deliver": [["X", "X"]], "tick": [["S"]], "sweep": [[(1, 10_000)]], "settle": [[(1, 10_000)]],
        "random": [[(0, BIG), (1, 50_000_000)]], "arrived": [["H", (0, BIG)]], "dropped": [["CAUSE", (0, BIG)]], "address": [["H", "PMAC"]],
        "settled": [[]], "restart": [[]],
    }
    return forms[verb]


def takes_all(verb, at):
    return (verb in ("start", "retry", "tick") and at == 0) or (verb in ("send", "raw") and at == 1)


NOT_FOR_BRIDGES = {
    "repair": "a link that was left out of the tree of bridges stays out, since frames would go round for ever",
    "random": "what is drawn depends on queues that bridges do not have",
    "restart": "bridges have no manager",
    "expect address": "bridges have no pseudo addresses",
    "expect settled": "bridges do not settle; `settle N` sweeps until all queues are empty",
}


def line_fault(fabric, words):
    """The reason, the index of the word, and the hint of a line that is refused."""
    verb, rest, before = words[0], words[1:], 1
    if verb not in VERBS:
        return "Word", 0, verb_hint(verb)
    if verb == "expect":
        if not rest:
            return "Count", 0, "`expect` wants " + forms_text("expect")
        verb, rest, before = rest[0], rest[1:], 2
        if verb not in ("arrived", "dropped", "address", "settled"):
            return "Word", 1, f"`expect {verb}` is no line" + or_near(verb, ["arrived", "dropped", "address", "settled"]) + f" It wants {forms_text('expect')}"
    form = next((form for form in forms_of(verb) if len(form) == len(rest)), None)
    if form is None:
        return "Count", 0, count_hint(fabric, words, before)
    for at, (kind, word) in enumerate(zip(form, rest)):
        if word == "all" and takes_all(verb, at):
            continue
        fault = word_fault(fabric, kind, word)
        if fault:
            return fault[0], before + at, fault[1]
    return None


def forms_text(verb):
    return ", or ".join(f"`{verb} {form}`".replace(" `", "`") for form in VERBS[verb])


def verb_hint(verb):
    if verb[0] in ";/-*":
        return "comments begin with `#`"
    if verb.lower() in VERBS:
        return f"write it in small letters: `{verb.lower()}`"
    found = SLIPS.get(verb.lower()) or near(verb, VERBS)
    return f"`{verb}` begins no line" + (f"; is it {forms_text(found)}?" if found else f"; lines begin with {', '.join(VERBS)}")


def apart(word):
    """The two switches of a link as the tools print it, `e0.0-a0.0`; nothing of other words."""
    ends = re.fullmatch(r"([eac][0-9]+\.[0-9]+)-([eac][0-9]+\.[0-9]+)", word)
    return f"{ends[1]} {ends[2]}" if ends else ""


def link_hint(fabric, verb, word):
    """Of `fail` or its like with one word behind it."""
    if apart(word):
        return f"two words name a link: `{verb} {apart(word)}`"
    if word not in fabric.labels():
        return None
    lines = "".join(f"\n  {verb} {word} {other}" for other in fabric.neighbours(word))
    return f"`{verb}` names a link by its two switches; all links of {word} are these lines:{lines}"


def count_hint(fabric, words, before):
    verb = words[0]
    if any(word[0] == ";" or word[:2] in ("//", "--") for word in words[1:]):
        return "comments begin with `#`"
    if verb in ("fail", "repair", "lose") and len(words) == 2 and link_hint(fabric, verb, words[1]):
        return link_hint(fabric, verb, words[1])
    if verb in ("start", "retry", "send", "raw") and len(words) > 2:
        return f"{forms_text(verb)}: one host a line"
    if verb in ("settle", "sweep") and len(words) == 1:
        return f"`{verb}` wants a number: `{verb} {64 if verb == 'settle' else 1}`"
    if verb == "restart":
        return "`restart` stands alone: the one manager begins anew"
    return f"this line wants {forms_text(verb)}; it has {len(words) - 1} words behind `{verb}`"


def shown_line(lines, number, at=None):
    """A line of a script, with a mark below its word at an index."""
    if not 1 <= number <= len(lines):
        return []
    text = printable(lines[number - 1].removesuffix("\r"))
    shown = [f"  {number} | {text}"]
    starts = [found.start() for found in re.finditer(r"[^ \t]+", text)]
    if at is not None and at < len(starts) and "\t" not in text:
        shown.append(" " * (len(str(number)) + 5 + starts[at]) + "^")
    return shown


def words_in(line):
    return re.findall(r"[^ \t]+", line.removesuffix("\r").split("#")[0])


class Script:
    def __init__(self, path, captures=""):
        self.path = path
        self.captures = captures
        try:
            self.data = pathlib.Path(path).read_bytes()
        except OSError:
            self.data = b""
        self.lines = self.data.decode("utf-8", "replace").split("\n")

    def words(self, number):
        return words_in(self.lines[number - 1]) if 1 <= number <= len(self.lines) else []


def script_hints(fabric, script, number, reason):
    if reason == "TooManyLines":
        return ["hint: a script has at most 1,000,000 lines; `send H all`, `sweep N` and `random N M` say much in one"]
    if reason == "NotUtf8":
        wide = b"\0" in script.data[:200]
        return [f"  line {number}: {script.data.split(chr(10).encode())[number - 1][:60]!r}", "hint: " + ("this is UTF-16 or no text at all" if wide else "a letter here is no UTF-8, be it in the comment") + ": save the script as UTF-8"]
    if script.data.startswith(b"\xef\xbb\xbf") and number == 1:
        return shown_line(script.lines, 1) + ["hint: the script begins with a byte order mark, which no word has: save it as UTF-8 without one"]
    if reason == "Word" and reads_as_topology(script.lines):
        return shown_line(script.lines, number) + ["hint: this reads as a topology, and a script is wanted: are --topology and --script swapped?"]
    words = script.words(number)
    fault = line_fault(fabric, words) if words else None
    if fault is None or fault[0] != reason or (reason == "Name" and fabric.document is None):
        return shown_line(script.lines, number)
    return shown_line(script.lines, number, fault[1]) + [f"hint: {fault[2]}"]


# ---- what is refused while a script is played


def refused_hints(fabric, script, number, reason):
    words = script.words(number)
    shown = shown_line(script.lines, number)
    if not words:
        return shown
    known = {"NoSuch": no_such, "Occupied": occupied, "AlreadySo": already_so, "NothingThere": nothing_there}
    hint = known[reason](fabric, script, number, words) if reason in known else None
    return shown + ([f"hint: {hint}"] if hint else [])


def no_such(fabric, script, number, words):
    verb = words[0]
    if verb in ("fail", "repair", "lose") and len(words) == 3 and fabric.k and words[1] in fabric.labels():
        return f"no link joins {words[1]} and {words[2]}; {words[1]} has links to {listed(fabric.neighbours(words[1]))}"
    if verb == "move" and len(words) == 4 and fabric.k and words[2] in fabric.labels():
        if words[2][0] != "e":
            return f"{words[2]} has no ports for hosts: hosts move to edge switches, e0.0 to e{fabric.k - 1}.{fabric.k // 2 - 1}"
        return f"port {words[3]} of {words[2]} is none for hosts; those are {listed(map(str, fabric.host_ports(words[2])))}"
    if verb == "deliver" and len(words) == 3:
        return deliver_hint(fabric, words[1], words[2], stands(fabric, script, number))
    return None


def stands(fabric, script, number):
    """Where each host stands before a line, by the topology and the moves."""
    places = {host.get("name"): (host.get("edge"), host.get("port")) for host in fabric.tables["host"]}
    for line in script.lines[:number - 1]:
        words = words_in(line)
        if len(words) == 4 and words[0] == "move" and words[1] in places and words[3].isdigit():
            places[words[1]] = (words[2], int(words[3]))
    return places


def deliver_hint(fabric, first, second, places):
    for host, switch in ((first, second), (second, first)):
        if host in places and switch in places:
            return "hosts have queues to and from their switch alone: deliver to that, and from there on"
        if host in places:
            return f"`{host}` stands at {places[host][0]} now: its queues are `deliver {host} {places[host][0]}` and `deliver {places[host][0]} {host}`"
    if "manager" in (first, second):
        return "the manager has a queue to and from each switch: `deliver S manager`, `deliver manager S`"
    if fabric.k and first in fabric.labels():
        return f"no link joins {first} and {second}; {first} has links to {listed(fabric.neighbours(first))}"
    return None


def occupied(fabric, script, number, words):
    if words[0] != "move" or len(words) != 4 or not words[3].isdigit():
        return None
    target = (words[2], int(words[3]))
    places = stands(fabric, script, number)
    there = [host for host, place in places.items() if place == target]
    if not there or not fabric.k or words[2] not in fabric.labels():
        return None
    free = [str(port) for port in fabric.host_ports(words[2]) if (words[2], port) not in places.values()]
    return f"`{there[0]}` stands at port {words[3]} of {words[2]}: " + (f"free there: port {listed(free)}" if free else f"no port of {words[2]} is free; move `{there[0]}` away first")


def already_so(_fabric, script, number, words):
    if words[0] == "move":
        return f"`{words[1]}` stands there already: take the line away, or name another port"
    state = "failed" if words[0] == "fail" else "live"
    for earlier in range(number - 1, 0, -1):
        before = script.words(earlier)
        if before[:1] in (["fail"], ["repair"]) and sorted(before[1:]) == sorted(words[1:]):
            return f"the link is {state} already, since line {earlier}"
    return f"the link is {state} already: every link is live at the beginning"


def nothing_there(fabric, script, number, words):
    if words[0] in ("send", "raw"):
        if fabric.document is None:
            return None
        host = next((table for table in fabric.tables["host"] if table.get("name") == words[1]), {})
        if "capture" not in host:
            return f"the topology names no `capture` for `{words[1]}`, so it has no records to send"
        counts = counts_of(f"{script.captures}/{host['capture']}")
        if counts and 1 not in counts:
            return f"{host['capture']} has {none_of_ethernet(counts)}: capture on an Ethernet interface"
        return f"{host['capture']} has fewer records than the script asks for so far; `{words[0]} {words[1]} all` sends what is left, and never too much"
    if words[0] in ("deliver", "lose"):
        return f"nothing waits from {words[1]} to {words[2]} at this line: `./portland until {number} ..` shows what happened before"
    return None


def bridge_hints(script, number, words):
    """What is wrong with a line that `run` takes and `bridge` does not."""
    line = script.words(number)
    if words[:1] != ["bridge"] or " ".join(line[: 2 if line[:1] == ["expect"] else 1]) not in NOT_FOR_BRIDGES:
        return []
    verb = " ".join(line[: 2 if line[0] == "expect" else 1])
    return shown_line(script.lines, number) + [f"hint: `bridge` takes no `{verb}`: {NOT_FOR_BRIDGES[verb]}"]


def expectation_hints(script, number, words):
    line = script.words(number)
    hint = {
        "arrived": "ARP questions and answers count too; and a frame arrives only where a line delivers it: is there a `settle` before this one?",
        "settled": "the last `settle` had too few rounds, or there is none before this line: `settle 64` is enough for most",
        "dropped": "all hosts' frames count, from the beginning on",
        "address": "the newest registered address counts: a host that moved has another one",
    }.get(line[1] if len(line) > 1 else "")
    return shown_line(script.lines, number) + ([f"hint: {hint}"] if hint else []) + [f"hint: {until(number, words)} shows what was there"]


def until(number, words):
    rest = words[1:] if words and words[0] == "run" else words
    line = f"`./portland until {number} {' '.join(rest)}`"
    # A script of standard input was read, and is gone.
    if os.environ.get("PORTLAND_SCRIPT") == "-":
        line = f"with the script in FILE, `./portland until {number} {' '.join(with_script(rest, 'FILE'))}`"
    return line


def with_script(words, name):
    """The words of a call with this name for the script."""
    shown = list(words)
    for at, word in enumerate(words):
        if word.startswith("--script="):
            shown[at] = f"--script={name}"
        elif at and words[at - 1] == "--script":
            shown[at] = name
    return shown
