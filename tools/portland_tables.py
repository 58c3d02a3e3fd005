"""How much state each switch needs: rows by place, avoid lists, groups and addresses of its own hosts, beside a learning bridge's."""

from dataclasses import dataclass

from portland_forwarding import Forwarding, Tree


@dataclass(slots=True)
class Row:
    switch: str
    prefixes: int  # rows by place: of pods, of positions of its pod, and one for all that leads up
    avoided: int  # rows that keep a neighbour above from being taken for a place
    groups: int  # parts of trees of groups
    hosts: int  # addresses of hosts at its own ports

    @property
    def total(self):
        return self.prefixes + self.avoided + self.groups + self.hosts


def prefixes_of(forwarding, label):
    """The rows by place that a switch needs to tell its ports apart."""
    place = forwarding.places[label]
    if place.level == 2:
        return len({forwarding.places[a].pod for _, a in forwarding.near(label) if forwarding.places[a].level == 1} - {None})
    below = [e for _, e in forwarding.near(label) if forwarding.level(e) == 0 and forwarding.places[e].position is not None]
    return (len(below) if place.level == 1 else 0) + 1


def avoided_of(forwarding, label):
    """The pairs of a neighbour above and a place to which no way leads on from it."""
    level = forwarding.level(label)
    if level not in (0, 1):
        return 0
    above = [other for _, other in forwarding.near(label) if forwarding.level(other) == level + 1]
    own = forwarding.places[label].pod
    edges = [(place, edge) for place, edge in forwarding.edges.items() if edge != label and not (level == 1 and place[0] == own)]
    return sum(not forwarding.leads_to(other, place[0], edge) for other in above for place, edge in edges)


def parts_of_trees(forwarding, groups):
    """How many groups each switch has a part of the tree of; `groups` has for each number the edge switches with members."""
    counts = {}
    for number, edges in groups.items():
        tree = Tree(forwarding, number, edges)
        for label in forwarding.places if tree.core else ():
            is_edge = forwarding.level(label) == 0
            if label == tree.core or forwarding.is_alive(label, tree.core) or (is_edge and tree.way_up(label)):
                counts[label] = counts.get(label, 0) + 1
    return counts


def table_rows(fabric, state, groups):
    """A row for each switch that is placed, in label order."""
    forwarding = Forwarding(fabric, state)
    parts = parts_of_trees(forwarding, groups)
    hosts = {}
    for _, edge, _ in state.granted.values():
        hosts[edge] = hosts.get(edge, 0) + 1
    placed = [switch.label for switch in fabric.switches if state.places[switch.label].is_placed]
    has_failed = bool(state.failed)
    return [Row(s, prefixes_of(forwarding, s), avoided_of(forwarding, s) if has_failed else 0, parts.get(s, 0), hosts.get(s, 0)) for s in placed]
