"""By which way a frame to one host goes through a settled fabric: the candidates and the choice at each switch.

The rule is that of docs/RULES.md, 'A unicast frame'. An edge switch sends up, an aggregation switch down within its pod and
else up, a core switch down to the pod; upwards not to a neighbour that leads to the addressed edge switch no more, as the
fabric manager finds by the links that the switches tell. Among n candidates, by rising port, number hash modulo n is taken.
"""

from dataclasses import dataclass

from portland_frames import ARP_OF_IPV4, flow_hash, kind_of, mac_bytes


@dataclass(slots=True)
class Pmac:
    """A pseudo address: 16 bits of pod, 8 of position, 8 of port and 16 of a number there."""

    pod: int
    position: int
    port: int
    number: int


def pmac_of(data):
    return Pmac(int.from_bytes(data[:2], "big"), data[2], data[3], int.from_bytes(data[4:6], "big"))


@dataclass(slots=True)
class Step:
    """What a switch does with the frame: candidates are ports with the neighbour there, and `chosen` is one of them."""

    switch: str
    candidates: list
    chosen: tuple | None
    is_local: bool = False


def behind_edge(data, source):
    """A frame of a host as its edge switch passes it on: the source, and in ARP the sender's hardware address, are replaced."""
    inner = bytearray(data)
    inner[6:12] = source
    if kind_of(data) == 0x0806 and len(data) >= 42 and data[14:20] == ARP_OF_IPV4:
        inner[22:28] = source
    return bytes(inner)


def source_at(state, host, edge, port):
    """The pseudo address with which a host sends at a port of an edge switch; None where it has none there."""
    found = state.in_use.get((host, edge, port))
    return mac_bytes(found) if found else None


FLOOD = 1 << 23  # the number under which all groups go that are not routed


def group_number(address):
    """The number of a group by the destination of a frame: the low 23 bits of a group of IPv4 from 256 on, and else that of a flood."""
    number = int.from_bytes(address[3:6], "big")
    is_ip_group = address[:3] == b"\x01\x00\x5e" and number < FLOOD
    return number if is_ip_group and number >= 256 else FLOOD


class Forwarding:
    def __init__(self, fabric, state, failed=None):
        self.fabric = fabric
        self.places = state.places
        self.failed = state.failed if failed is None else failed
        self.edges = {(p.pod, p.position): s for s, p in state.places.items() if p.level == 0 and p.is_placed}

    def near(self, label):
        """The live ports of a switch, rising, each with the neighbour there."""
        return [(port, to) for port, to in sorted(self.fabric.ports[label].items()) if (label, to) not in self.failed]

    def level(self, label):
        return self.places[label].level

    def is_alive(self, a, b):
        return (a, b) in self.fabric.by_ends and (a, b) not in self.failed

    def core_leads(self, core, pod, edge):
        above = [a for _, a in self.near(core) if self.level(a) == 1 and self.places[a].pod == pod]
        return any(self.is_alive(a, edge) for a in above)

    def leads_to(self, label, pod, edge):
        """Whether a switch above the edge switches leads on to an edge switch of this pod."""
        if self.level(label) == 2:
            return self.core_leads(label, pod, edge)
        if self.level(label) != 1:
            return False
        if self.places[label].pod == pod:
            return self.is_alive(label, edge)
        return any(self.level(c) == 2 and self.core_leads(c, pod, edge) for _, c in self.near(label))

    def is_avoided(self, label, other, to):
        edge = self.edges.get((to.pod, to.position))
        return edge not in (None, label) and not self.leads_to(other, to.pod, edge)

    def is_local(self, label, to):
        return self.edges.get((to.pod, to.position)) == label

    def leads_on(self, label, other, to, is_from_above):
        """Whether a frame for this address may go on to a neighbour."""
        place = self.places[label]
        if place.level == 2:
            return not is_from_above and self.level(other) == 1 and self.places[other].pod == to.pod
        if place.level == 1 and place.pod == to.pod:
            return self.level(other) == 0 and self.places[other].position == to.position
        if is_from_above or place.level is None:
            return False
        return self.level(other) == place.level + 1 and not self.is_avoided(label, other, to)

    def candidates(self, label, to, is_from_above):
        return [(port, other) for port, other in self.near(label) if self.leads_on(label, other, to, is_from_above)]

    @staticmethod
    def pick(candidates, data):
        """The candidate that the flow of a frame takes."""
        return candidates[flow_hash(data) % len(candidates)]

    def way(self, edge, data):
        """The steps of a frame that comes from a host of this edge switch, as that one passes it on."""
        to = pmac_of(data)
        steps = []
        at, is_from_above = edge, False
        while True:
            if self.is_local(at, to):
                return [*steps, Step(at, [], None, True)]
            found = self.candidates(at, to, is_from_above)
            chosen = self.pick(found, data) if found else None
            steps.append(Step(at, found, chosen))
            if chosen is None:
                return steps
            is_from_above = self.level(chosen[1]) < self.level(at)
            at = chosen[1]


class Tree:
    """The tree of a group in a settled fabric, as docs/RULES.md has it ('Groups'): one core switch, and what lies below it."""

    def __init__(self, forwarding, number, needed):
        self.forwarding = forwarding
        self.number = number
        self.needed = needed  # labels of the edge switches that need the group
        reaches = {core: sum(self.reaches(core, edge) for edge in needed) for core in self.at_level(2)}
        self.reach = max(reaches.values(), default=0)
        self.best = [core for core, reach in reaches.items() if reach == self.reach] if needed else []
        self.core = self.best[number % len(self.best)] if self.best else None

    def at_level(self, level):
        """The switches that know this level, by rising id."""
        switches = sorted(self.forwarding.fabric.switches, key=lambda switch: switch.id)
        return [switch.label for switch in switches if self.forwarding.level(switch.label) == level]

    def near(self, label, level):
        """The neighbours of this level over live links, by rising id."""
        by_label = self.forwarding.fabric.by_label
        found = [other for _, other in self.forwarding.near(label) if self.forwarding.level(other) == level]
        return sorted(found, key=lambda other: by_label[other].id)

    def reaches(self, core, edge):
        return any(self.forwarding.is_alive(a, edge) for a in self.near(core, 1))

    def way_up(self, edge):
        """The aggregation switch by which an edge switch sends up to the core switch."""
        pod = self.forwarding.places[edge].pod
        ups = [a for a in self.near(edge, 1) if self.forwarding.places[a].pod == pod]
        return next((a for a in ups if self.core and self.forwarding.is_alive(a, self.core)), None)

    def below(self, label):
        """The switches to which a switch of the tree sends down."""
        if label == self.core:
            return [a for a in self.near(label, 1) if any(self.forwarding.is_alive(a, edge) for edge in self.needed)]
        return [edge for edge in self.needed if self.forwarding.is_alive(label, edge)]
