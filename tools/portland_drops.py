"""Where and why each frame of a run was dropped: the link, the port or the address that its cause speaks of."""

from dataclasses import dataclass

from portland_forwarding import Forwarding, pmac_of
from portland_frames import colons, is_group
from portland_journal import State

LOOK = {
    "NotPlaced": "tools/story RUN placed",
    "NoNextHop": "tools/flow RUN --frame N",
    "NoAddress": "tools/story RUN host NAME",
    "HostGone": "tools/story RUN host NAME",
    "LinkDown": "tools/whatif RUN",
    "Lost": "the line of the script",
    "Spent": "tools/story RUN host NAME",
    "BadArp": "tools/links RUN DIR, and the capture in Wireshark",
    "NoMember": "tools/flow RUN HOST GROUP",
}


@dataclass(slots=True)
class Drop:
    """A frame that was dropped: the script's line, the frame, whom it was from and for, its cause and what that speaks of."""

    line: int
    frame: int
    by: str
    to: str
    cause: str
    at: str
    what: str
    is_loss: bool


class Drops:
    """The drops of a run, in their order."""

    def __init__(self, run):
        self.run = run
        self.fabric = run.needs_fabric()
        self.state = State(self.fabric)
        self.freed = {}  # for each address that was freed the line
        self.hit = None  # the link that failed in this very step, whose frames end now
        self.known = set()  # the links that had failed when the fabric was settled last

    def read_all(self):
        rows = []
        for entry in self.run.entries:
            if entry.kind == "dropped":
                rows.append(self.drop(entry))
                continue
            self.state.read(entry)
            if entry.kind == "freed":
                self.freed[entry.address] = entry.line
            if entry.kind == "settled":
                self.known = set(self.state.failed)
            self.hit = (entry.a, entry.b) if entry.kind == "linkdown" else None
        return rows

    def target(self, frame):
        """The bytes of the address that a frame was for at last."""
        return bytes.fromhex(frame.redirects[-1][1].replace(":", "")) if frame.redirects else frame.data[:6]

    def receiver(self, frame):
        to = self.target(frame)
        granted = self.state.granted.get(colons(to))
        if granted:
            return granted[0]
        host = self.fabric.by_mac.get(to)
        return host.name if host else "all" if to == b"\xff" * 6 else colons(to)

    def drop(self, entry):
        frame = self.run.frames[entry.frame - 1]
        what, is_loss = getattr(self, f"of_{entry.cause.lower()}", self.of_other)(frame)
        return Drop(entry.line, entry.frame, self.root(frame).by, self.receiver(frame), entry.cause, frame.at or "-", what, is_loss)

    def root(self, frame):
        while frame.origin:
            frame = self.run.frames[frame.origin - 1]
        return frame

    def came_back(self, frame):
        """Whether a frame to a group came down to the switch of its sender, where nobody else is to have it."""
        root = self.root(frame)
        return is_group(root.data) and bool(root.path) and frame.at == root.path[0] and (frame.number != root.number or len(frame.path) > 1)

    def of_linkdown(self, frame):
        if self.hit and (frame.at in self.hit or frame.at is None):
            return f"{'-'.join(self.hit)} failed with the frame on it", True
        links = [(frame.at, other) for other in self.fabric.ports.get(frame.at, {}).values() if (frame.at, other) in self.state.failed]
        chosen = self.chosen(frame)
        if chosen in links:
            links = [chosen]
        names = " or ".join("-".join(ends) for ends in links) or "a link"
        return f"the frame was put on {names}, which had failed, and {frame.at} had not noticed yet", True

    def chosen(self, frame):
        """The link that a switch takes that knows only what failed before the fabric was settled last."""
        if is_group(frame.data) or frame.at not in self.state.places:
            return None
        data = self.target(frame) + frame.data[6:]
        forwarding = Forwarding(self.fabric, self.state, self.known)
        before = frame.path[-2] if len(frame.path) > 1 else None
        is_from_above = before is not None and (forwarding.level(before) or 0) > (forwarding.level(frame.at) or 0)
        found = forwarding.candidates(frame.at, pmac_of(data), is_from_above)
        return (frame.at, forwarding.pick(found, self.as_passed(frame, data))[1]) if found else None

    def as_passed(self, frame, data):
        """With the source that the edge switch of its sender put in."""
        spot = self.state.spots.get(frame.by)
        source = self.state.in_use.get((frame.by, *spot)) if spot else None
        return data[:6] + bytes.fromhex(source.replace(":", "")) + data[12:] if source else data

    def of_nonexthop(self, frame):
        if self.came_back(frame):
            return "nobody else stands there, and its sender does not get it back: no loss", False
        if is_group(frame.data):
            return f"{frame.at} knows no way to the others", True
        to = pmac_of(self.target(frame))
        down = [other for other in self.fabric.ports.get(frame.at, {}).values() if (frame.at, other) in self.state.failed]
        links = f"; its links to {', '.join(down)} have failed" if down else ""
        return f"no usable port of {frame.at} leads to pod {to.pod}, position {to.position}{links}", True

    def of_nomember(self, frame):
        if self.came_back(frame):
            return "nobody else there has joined the group: no loss", False
        return f"nobody at {frame.at or 'that host'} or further on has joined the group", False

    def of_notplaced(self, frame):
        place = self.state.places.get(frame.at)
        if place is not None and not place.is_placed:
            return f"{frame.at} does not know its place yet", True
        return f"{frame.at} knows its place, and not the level of the neighbour that sent it", True

    def of_noaddress(self, frame):
        address = colons(self.target(frame))
        was = f"was freed at line {self.freed[address]}" if address in self.freed else "was never given to a host"
        return f"{address} {was}", True

    def of_hostgone(self, frame):
        if frame.at is None:
            return f"{frame.by} moved away while it waited", True
        if is_group(frame.data):
            return f"a port of {frame.at} has nobody any more", False
        port = pmac_of(self.target(frame)).port
        there = [name for name, spot in self.state.spots.items() if spot == (frame.at, port)]
        name = self.receiver(frame)
        now = self.state.spots.get(name)
        moved = f", and {name} stands at port {now[1]} of {now[0]}" if now and now != (frame.at, port) else ""
        return f"port {port} of {frame.at} has {there[0] if there else 'nobody'}{moved}", frame.begun == "sent"

    def of_other(self, frame):
        told = {
            "Lost": "the script took it from its queue",
            "Spent": f"{frame.at} has no address left for {frame.by}",
            "BadArp": "an ARP frame that cannot be read",
        }
        return told.get(frame.cause, "a cause of its own"), True


def drops_of(run):
    return Drops(run).read_all()
