"""Which positions edge switches ask for, who granted them, and for whom they are held, at the end of a run: by the log of `portland watch`."""

from dataclasses import dataclass, field

from portland_play import call

KINDS = ("attempt", "granted", "hold")


@dataclass(slots=True)
class Votes:
    asks: dict = field(default_factory=dict)  # for each edge switch without a position the one that it asks for
    grants: dict = field(default_factory=dict)  # for each edge switch the aggregation switches that granted that
    holds: dict = field(default_factory=dict)  # for each aggregation switch and position the edge switch for which it is held


def node_of(words):
    """The switch to which an event happens."""
    if words[0] == "tick":
        return words[1]
    if words[0] != "deliver":
        return None
    return words[3] if len(words) == 5 else words[2] if len(words) > 2 else None


def known(topology, script, captures):
    """What switches got to know of these kinds, by the number of the step."""
    found = []
    for kind in KINDS:
        step, node = 0, None
        for line in call("watch", "--topology", topology, "--script", script, "--captures", captures, "--kind", kind).splitlines():
            words = line.split()
            if words[:1] == ["@"]:
                step, node = int(words[1]), node_of(words[2:])
            elif words[:2] == ["knows", kind]:
                found.append((step, node, kind, words[2:]))
    return sorted(found, key=lambda row: (row[0], KINDS.index(row[2])))


def votes_of(fabric, topology, script, captures):
    votes = Votes()
    for _, node, kind, words in known(topology, script, captures):
        if kind == "attempt":
            votes.grants[node] = []
            votes.asks.pop(node, None)
            if words[0] != "-":
                votes.asks[node] = int(words[1])
        elif kind == "granted":
            votes.grants.setdefault(node, []).append(fabric.ports[node].get(int(words[0]), words[0]))
        elif words[1] == "-":
            votes.holds.pop((node, int(words[0])), None)
        else:
            votes.holds[node, int(words[0])] = words[1]
    return votes


def told(fabric, votes, label):
    """In words, what an edge switch asks for and who answered how; nothing where it asks for none."""
    position = votes.asks.get(label)
    if position is None:
        return None
    above = [other for _, other in sorted(fabric.ports[label].items()) if other[0] == "a"]
    grants = votes.grants.get(label, [])
    others = [f"{a} holds it for {votes.holds[a, position]}" for a in above if a not in grants and votes.holds.get((a, position), label) != label]
    return f"{label} asks for position {position}: {len(grants)} of {len(above)} granted it ({', '.join(grants) or 'none'})" + "".join(f"; {one}" for one in others)
