"""Which switches of a fabric are not placed, and why, by what a journal says.

An edge switch is placed once its position and its pod's number are known, an aggregation switch once the number is, a core
switch once its level is. Levels follow from frames of hosts, and from neighbours over live links; a position takes the
votes of more than half of the pod's aggregation switches, and a vote once given is kept for its edge switch for ever.
"""

import re
from dataclasses import dataclass

from portland_journal import FORMS, OF_FRAMES, READERS, Fault, State

OF_FABRIC = sorted(set(FORMS) - OF_FRAMES - {"line", "skipped"})
FABRIC_LINE = re.compile(rb"^(" + "|".join(OF_FABRIC).encode() + rb") .*$", re.M)


def fabric_state(fabric, data):
    """The fabric at the end of a journal, given as bytes. Lines of frames are passed over, so this is as fast as a search."""
    state = State(fabric)
    for found in FABRIC_LINE.finditer(data):
        kind, *words = found[0].decode("ascii").split(" ")
        make, forms = READERS[kind]
        try:
            state.read(make(0, 0, kind, *[form(word) for form, word in zip(forms, words, strict=True)]))
        except (KeyError, ValueError):
            raise Fault(f"no journal of that topology has the line `{found[0].decode('ascii')[:80]}`") from None
    return state


@dataclass(slots=True)
class Unplaced:
    switch: str
    level: int | None
    position: int | None
    pod: int | None
    why: str


class Reasons:
    def __init__(self, fabric, state):
        self.fabric = fabric
        self.state = state
        self.most = fabric.k // 4 + 1  # more than half of k / 2

    def near(self, label, level):
        """The neighbours of this level over live links."""
        neighbours = sorted(self.fabric.ports[label].values())
        return [other for other in neighbours if self.level(other) == level and (label, other) not in self.state.failed]

    def level(self, label):
        """The level of the wiring."""
        return self.fabric.by_label[label].level

    def place(self, label):
        return self.state.places[label]

    def is_edge(self, label):
        return self.place(label).level == 0

    def pod_mates(self, label):
        pod = self.fabric.by_label[label].pod
        return [s.label for s in self.fabric.switches if s.pod == pod and s.level == 0 and s.label != label]

    def failed_up(self, label):
        """The neighbours above over failed links."""
        return [other for port, other in sorted(self.fabric.ports[label].items()) if self.level(other) > self.level(label) and (label, other) in self.state.failed]

    def cut(self, label):
        """Why an edge switch cannot have a position by the links that it has; None where it can."""
        reached = len(self.near(label, 1))
        if reached >= self.most:
            return None
        half = self.fabric.k // 2
        return f"it reaches {reached} of the {half} aggregation switches of its pod, and a position takes the votes of {self.most}"

    def of_silent(self, label):
        hosts = [name for name, (edge, _) in self.state.spots.items() if edge == label]
        if not hosts:
            return "no host stands there"
        return f"no frame came to it of {', '.join(hosts)}: a `start` line lets a host speak"

    def of_voteless(self, label):
        if self.cut(label):
            return self.cut(label)
        waiting = [o for o in self.pod_mates(label) if self.is_edge(o) and self.place(o).position is None]
        stuck = [other for other in waiting if self.cut(other)]
        if stuck:
            return (
                f"an aggregation switch keeps a position for {', '.join(stuck)}, which cannot get one: holds have no "
                "timeout, and a repair of a link there heals it"
            )
        if waiting:
            return f"the votes of its pod are divided between it and {', '.join(waiting)}"
        return "its votes have not come to more than half"

    def of_numberless(self, label):
        """An edge switch with a position in a pod without a number."""
        if self.place(label).position == 0:
            return "its question for the number of the pod was not answered"
        first = [other for other in self.pod_mates(label) if self.place(other).position == 0]
        if not first:
            return "no edge switch of its pod has position 0, and that one asks for the number of the pod"
        return f"the number that {first[0]} has did not come to it: no aggregation switch that it reaches knows it"

    def of_aggregation(self, label):
        edges = [other for other in self.near(label, 0) if self.is_edge(other)]
        if not edges:
            return "no edge switch that it reaches has hosts that spoke"
        return f"no edge switch that it reaches knows the number of the pod: {', '.join(edges)}"

    def of_core(self, label):
        pods = {self.place(other).pod for other in self.near(label, 1)} - {None}
        heard = "of no pod" if not pods else "of pod " + ", ".join(str(pod) for pod in sorted(pods)) + " alone"
        return f"it heard aggregation switches {heard}, and two pods make a core switch"

    def why(self, label):
        place = self.place(label)
        if self.level(label) == 2:
            return self.of_core(label)
        if self.level(label) == 1:
            return self.of_aggregation(label)
        if place.level is None:
            return self.of_silent(label)
        return self.of_voteless(label) if place.position is None else self.of_numberless(label)


def unplaced(fabric, state):
    """A row for each switch that is not placed, in label order."""
    reasons = Reasons(fabric, state)
    rows = []
    for switch in fabric.switches:
        place = state.places[switch.label]
        if not place.is_placed:
            rows.append(Unplaced(switch.label, place.level, place.position, place.pod, reasons.why(switch.label)))
    return rows


@dataclass(slots=True)
class Left:
    """An edge switch with hosts that a settled fabric leaves without a place: why, and which repair heals it."""

    switch: str
    hosts: list
    why: str
    heals: str


def repairs(reasons, labels):
    """The lines that give each of these edge switches the links that a position takes."""
    told = []
    for label in labels:
        missing = reasons.failed_up(label)
        many = reasons.most - len(reasons.near(label, 1))
        lines = [f"`repair {label} {other}`" for other in missing]
        told.append(" and ".join(lines) if many >= len(lines) else f"{many} of {', '.join(lines)}" if many > 1 else " or ".join(lines))
    return "; " + " and ".join(told) + (" heals it" if told else "") if any(told) else ""


def left_without_a_place(fabric, state):
    """The edge switches with hosts that spoke and that are not placed, in label order: of a fabric that is settled."""
    reasons = Reasons(fabric, state)
    rows = []
    for switch in fabric.switches:
        label, place = switch.label, state.places[switch.label]
        hosts = [name for name, (edge, _) in state.spots.items() if edge == label]
        if switch.level != 0 or place.is_placed or place.level is None or not hosts:
            continue
        mates = [other for other in reasons.pod_mates(label) if reasons.is_edge(other) and reasons.place(other).position is None]
        stuck = [other for other in mates if reasons.cut(other)]
        if place.position is None and reasons.cut(label):
            why, root = f"it has no position: {reasons.cut(label)}", [label]
        elif place.position is None and stuck:
            held = " and ".join(stuck)
            why, root = f"the position that it asks for is held for {held}, which lacks the votes for it, and holds have no timeout", stuck
        elif place.position is None:
            why, root = f"it has no position: {reasons.of_voteless(label)}", []
        elif stuck:
            why, root = f"its position is {place.position}, and the pod has no number: position 0 is kept for {' and '.join(stuck)}, which lacks the votes for it", stuck
        else:
            why, root = reasons.of_numberless(label), []
        rows.append(Left(label, hosts, why, repairs(reasons, root)))
    return rows
