"""How each frame between two hosts ended in a run, read fast: by searches over the journal's bytes, for tools that read many runs."""

import re
from collections import Counter
from dataclasses import dataclass

WANTED = re.compile(
    rb"^(?:line (\d+)|(granted) (\S+) (\S+) \S+ \d+|(sent) (\d+) (\S+) ([0-9a-f]{12})([0-9a-f]{16})([0-9a-f]*)|(arrived) (\d+) \S+ .*"
    rb"|(dropped) (\d+) (\w+)|(settled|unsettled) (\d+))$",
    re.M,
)
ARP = b"0806"


@dataclass(slots=True)
class Fate:
    """How a frame ended: `arrived`, a cause, or `flying`; and the script's line in which it did."""

    pair: tuple
    end: str
    line: int


class Fates:
    """For each frame that a host sent to another one its fate, by the pair, the bytes and how often these came before."""

    def __init__(self, data, by_mac):
        self.by_mac = by_mac  # the hosts' names by their own addresses, as they stand in a journal
        self.owners = {}
        self.by_key = {}
        self.turns = Counter()
        self.by_number = {}
        self.settles = []  # pairs: the line, and the rounds of a `settled`, None of an `unsettled` one
        self.line = 0
        for found in WANTED.finditer(data):
            self.read(found.groups())

    def read(self, groups):
        line, granted, address, owner, sent, number, host, to, middle, rest, arrived, at, dropped, lost, cause, settle, rounds = groups
        if line:
            self.line = int(line)
        elif granted:
            self.owners[address.replace(b":", b"")] = owner.decode()
        elif sent:
            self.send(number, host.decode(), to, middle, rest)
        elif arrived or dropped:
            fate = self.by_number.get(at or lost)
            if fate:
                fate.end, fate.line = ("arrived" if arrived else cause.decode()), self.line
        elif settle:
            self.settles.append((self.line, int(rounds) if settle == b"settled" else None))

    def send(self, number, host, to, middle, rest):
        receiver = self.owners.get(to) or self.by_mac.get(to)
        if int(to[:2], 16) & 1 or middle[12:16] == ARP or receiver is None:
            return
        pair = host, receiver
        key = (*pair, middle + rest)
        self.turns[key] += 1
        fate = Fate(pair, "flying", self.line)
        self.by_number[number] = self.by_key[*key, self.turns[key]] = fate

    @property
    def arrived(self):
        return sum(fate.end == "arrived" for fate in self.by_key.values())

    def lost(self):
        return {key: fate for key, fate in self.by_key.items() if fate.end != "arrived"}

    def is_settled(self):
        return bool(self.settles) and self.settles[-1][1] is not None


def macs_of(fabric):
    return {host.mac.replace(":", "").encode(): host.name for host in fabric.hosts}
