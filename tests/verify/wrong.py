"""Journals with one entry that is wrong, each made of a stored one that is legal by one change.

    python3 tests/verify/wrong.py DIR

writes DIR/NAME/journal.txt and DIR/NAME/topology.toml for each case, and DIR/verdicts with a line `NAME VERDICT` for
each. The verdict is that of the row of the lossy switch which the change breaks (docs/ARCHITECTURE.md, "The lossy switch"), and the
line is the one that is changed: it does not come of the program. Every line of a journal is one entry.
"""

import shutil
import sys
from dataclasses import dataclass
from pathlib import Path

RUNS = Path(__file__).resolve().parent.parent / "fabric"


@dataclass
class Case:
    name: str
    run: str  # the folder of tests/fabric that it is made of
    line: int  # the line that is changed, put in or left out, from 1
    change: object  # what becomes of it: a function of the line, or a text that is put in before it
    verdict: str


def put(text):
    """The text becomes a line before this one."""
    return lambda line: [text, line]


def instead(text):
    return lambda line: [text]


def swap(old, new):
    def change(line):
        assert old in line, f"{old!r} is not in {line!r}"
        return [line.replace(old, new, 1)]

    return change


def byte(at, value):
    """The frame's byte at a place is another one; places from the end are negative."""

    def change(line):
        front, digits = line.rsplit(" ", 1)
        data = bytearray.fromhex(digits)
        assert data[at] != value
        data[at] = value
        return [f"{front} {data.hex()}"]

    return change


def illegal(name, run, line, change):
    return Case(name, run, line, change, f"illegal {line}")


def illegal_last(name, run, line, lines):
    """These lines are put in before a line, and the last of them is the wrong one."""
    return Case(name, run, line, lambda rest: lines + [rest], f"illegal {line + len(lines) - 1}")


def bad_line(name, run, line, change):
    return Case(name, run, line, change, f"bad line {line}")


CASES = [
    # frames begin with the next number
    illegal("sent-with-the-number-before", "move", 17, swap("sent 2 ", "sent 1 ")),
    illegal("made-with-a-number-passed-over", "move", 58, swap("made 6 ", "made 7 ")),
    illegal("copied-with-the-number-of-another", "group", 111, swap(" 17", " 16")),
    illegal("copied-and-goes-to-one-host", "move", 89, put("copied 13 14")),
    # a frame that has ended, or has not begun, crosses nothing
    illegal("crosses-before-it-begins", "move", 66, put("crossed 8 e0.0")),
    illegal("crosses-after-it-arrived", "move", 94, put("crossed 13 e1.0")),
    # legs of frames to one host: linked switches, all different, up and then down, at most five, by links that are live
    illegal("crosses-a-switch-that-is-not-linked", "move", 89, swap("a0.0", "a1.0")),
    illegal("crosses-a-switch-twice", "move", 89, put("crossed 13 e0.0")),
    illegal("goes-up-again", "move", 77, put("crossed 10 a0.1")),
    illegal("a-leg-of-six", "move", 93, put("crossed 13 a1.1")),
    illegal("crosses-a-failed-link", "repaired", 103, swap("a0.1", "a0.0")),
    illegal("crosses-a-link-repaired-since", "link-fails-with-frames", 108, put("crossed 15 a0.0")),
    # a frame to a group may fall through switches that it rose through, and no more
    illegal("a-copy-rises-again", "group", 114, put("crossed 16 c1.1")),
    illegal("a-copy-rises-behind-an-edge-switch", "group", 116, put("crossed 16 a0.0")),
    illegal("a-copy-crosses-a-switch-that-is-not-linked", "group", 113, swap("a1.1", "a1.0")),
    illegal_last("a-copy-crosses-a-link-repaired-since", "group", 113, ["linkdown a1.1 c1.1", "linkup a1.1 c1.1", "crossed 17 a1.1"]),
    # a frame goes on to a newer address of the same host, at the edge switch of its present one
    illegal("redirected-from-an-address-that-is-not-its-own", "move", 115, swap("00:01:00:00:00:01", "00:00:00:00:00:01")),
    illegal("redirected-to-another-host", "move", 115, swap("00:01:01:00:01", "00:00:00:00:01")),
    illegal("redirected-before-it-is-there", "move", 113, put("redirected 16 00:01:00:00:00:01 00:00:01:01:00:01")),
    # it arrives at its host, where that one stands, unaltered
    illegal("arrives-at-another-host", "move", 93, swap(" d ", " a ")),
    illegal("arrives-from-another-switch", "move", 92, instead("arrived 13 d 02000000000d000000000001" + "88b6" + "00" * 46)),
    illegal("arrives-with-another-last-byte", "move", 93, byte(-1, 1)),
    illegal("arrives-with-another-source", "move", 93, byte(11, 2)),
    illegal("arrives-with-another-destination", "move", 93, byte(5, 0x0A)),
    illegal("arrives-twice-at-a-port", "group", 117, swap("arrived 17 d", "arrived 17 c")),
    illegal("a-group-frame-arrives-at-no-member", "group", 116, swap(" c ", " b ")),
    # an edge switch takes what it may, of a host, at once
    illegal("takes-a-frame-to-a-host", "move", 75, instead("taken 10 e0.0")),
    illegal("takes-a-frame-that-a-switch-made", "move", 60, instead("taken 6 e0.0")),
    illegal("another-switch-takes-it", "move", 20, swap("e0.1", "e0.0")),
    # a frame is dropped for a cause that shows
    illegal("dropped-before-it-crosses-a-switch", "move", 88, put("dropped 13 NoNextHop")),
    illegal("no-address-and-it-has-one", "move", 89, instead("dropped 13 NoAddress")),
    illegal("host-gone-and-it-is-there", "move", 89, instead("dropped 13 HostGone")),
    illegal("link-down-and-none-is", "move", 89, instead("dropped 13 LinkDown")),
    illegal("spent-and-it-is-not", "move", 89, instead("dropped 13 Spent")),
    illegal("bad-arp-and-it-is-none", "move", 89, instead("dropped 13 BadArp")),
    illegal("no-member-and-no-group", "move", 89, instead("dropped 13 NoMember")),
    # an address is granted once, where the host stands, and of its edge switch; it is registered with a number above all before
    illegal("granted-twice", "move", 25, put("granted 00:00:01:00:00:01 c e0.1 0")),
    illegal("granted-at-another-port", "move", 100, swap("d e0.1 1", "d e0.1 0")),
    illegal("granted-where-it-never-stood", "move", 49, swap(" b ", " c ")),
    illegal("granted-with-the-pod-of-another", "move", 100, swap("00:00:01:01:00:01", "00:01:00:01:00:01")),
    illegal("registered-before-it-is-granted", "move", 22, put("registered 00:00:01:00:00:01 2")),
    illegal("registered-with-its-own-number", "move", 25, put("registered 00:00:01:00:00:01 2")),
    illegal("registered-with-the-number-of-another", "move", 51, swap(" 4", " 3")),
    illegal_last("registered-with-a-number-below-the-highest", "move", 25, ["registered 00:00:01:00:00:01 9", "registered 00:00:01:00:00:01 8"]),
    # the manager begins anew for the first time, the second and so on
    illegal("restarted-for-the-second-time-at-once", "move", 25, put("restarted 2")),
    illegal_last("restarted-twice-for-the-first-time", "move", 25, ["restarted 1", "restarted 1"]),
    # an address is freed while it is live; it has no number and no holder until it is granted again
    illegal("freed-and-never-granted", "move", 93, put("freed 00:01:00:01:00:01")),
    illegal_last("freed-twice", "move", 93, ["freed 00:01:00:00:00:01", "freed 00:01:00:00:00:01"]),
    illegal_last("registered-once-it-is-freed", "move", 23, ["freed 00:00:01:00:00:01", "registered 00:00:01:00:00:01 2"]),
    illegal_last("redirected-from-an-address-that-is-freed", "move", 115, ["freed 00:01:00:00:00:01", "redirected 16 00:01:00:00:00:01 00:00:01:01:00:01"]),
    illegal_last("redirected-to-an-address-that-is-freed", "move", 115, ["freed 00:00:01:01:00:01", "redirected 16 00:01:00:00:00:01 00:00:01:01:00:01"]),
    illegal_last("redirected-to-an-address-with-no-number-yet", "move", 115,
        ["freed 00:00:01:01:00:01", "granted 00:00:01:01:00:01 d e0.1 1", "redirected 16 00:01:00:00:00:01 00:00:01:01:00:01"]),
    illegal_last("no-address-and-it-is-granted-again", "move", 89, ["freed 00:01:00:00:00:01", "granted 00:01:00:00:00:01 d e1.0 0", "dropped 13 NoAddress"]),
    illegal_last("arrives-at-the-host-that-holds-its-address-next", "move", 93,
        ["freed 00:01:00:00:00:01", "moved d e1.1 0", "moved b e1.0 0", "granted 00:01:00:00:00:01 b e1.0 0",
         "arrived 13 b 02000000000b000000000001" + "88b6" + "00" * 46]),
    illegal_last("spent-and-one-of-its-addresses-is-freed", "move", 89, ["granted 00:00:00:00:ff:ff a e0.0 0", "freed 00:00:00:00:00:01", "dropped 13 Spent"]),
    # a host moves to a free port for hosts, and links fail and are repaired in turn
    illegal("moves-to-a-port-that-is-taken", "move", 96, swap("e0.1 1", "e0.1 0")),
    illegal("moves-to-a-port-with-a-link", "move", 96, swap("e0.1 1", "e0.1 2")),
    illegal("a-link-that-is-none-fails", "repaired", 96, swap("e0.0 a0.0", "e0.0 a1.0")),
    illegal("a-link-fails-twice", "repaired", 98, put("linkdown e0.0 a0.0")),
    illegal("a-live-link-is-repaired", "repaired", 96, swap("linkdown", "linkup")),
    # lines of no entry
    bad_line("a-number-with-a-zero-in-front", "move", 17, swap("sent 2 ", "sent 02 ")),
    bad_line("a-switch-that-is-not-there", "move", 18, swap("line 4", "crossed 1 e9.0")),
    bad_line("a-host-that-is-not-there", "move", 17, swap(" c ", " x ")),
    bad_line("ends-in-the-wrong-order", "repaired", 96, swap("e0.0 a0.0", "a0.0 e0.0")),
    bad_line("capital-digits", "move", 17, lambda line: [line.upper().replace("SENT 2 C", "sent 2 c")]),
    bad_line("two-blanks", "move", 18, swap("line 4", "line  4")),
]


def lines_of(case):
    lines = (RUNS / case.run / "expected" / "journal.txt").read_text().splitlines()
    made = case.change(lines[case.line - 1])
    return lines[: case.line - 1] + made + lines[case.line :]


def main():
    top = Path(sys.argv[1])
    verdicts = []
    for case in CASES:
        folder = top / case.name
        folder.mkdir(parents=True, exist_ok=True)
        (folder / "journal.txt").write_text("".join(f"{line}\n" for line in lines_of(case)))
        shutil.copy(RUNS / case.run / "topology.toml", folder)
        verdicts.append(f"{case.name} {case.verdict}\n")
    (top / "verdicts").write_text("".join(verdicts))


if __name__ == "__main__":
    main()
