"""Counts what a journal says of frames, in one walk over its lines: for journals of millions of them."""

from collections import Counter

from portland_journal import Fault

ARP, IPV4 = b"0806", b"0800"


class Wanted:
    """Which frames are counted: of some lines of the script, or those of hosts alone that are neither ARP nor IGMP."""

    def __init__(self, is_data=False, first=0, last=None):
        self.is_data = is_data
        self.first = first
        self.last = float("inf") if last is None else last

    def takes(self, kind, data, line):
        if not self.first <= line <= self.last:
            return False
        return not self.is_data or (kind == b"sent" and data[24:28] != ARP and not (data[24:28] == IPV4 and data[46:48] == b"02"))


class Counts:
    """What befell the frames that are wanted. Of each frame: where it was last, whether it is wanted, its length, and its crossings so far."""

    def __init__(self, path, data, wanted):
        self.wanted = wanted
        self.frames = 0
        self.kinds = Counter()
        self.skips = Counter()
        self.causes = Counter()  # by cause and switch
        self.crossed, self.taken, self.dropped = Counter(), Counter(), Counter()
        self.hops, self.bytes = Counter(), Counter()  # by both ends
        self.lengths = Counter()
        self.heard = {}  # for each switch the addresses of senders that it heard
        self.line = 0
        self.at, self.is_wanted, self.size, self.length, self.source = [None], [False], [0], [0], [b""]
        self.read(path, data)

    def read(self, path, data):
        readers = {
            b"line": self.read_line, b"sent": self.read_begun, b"made": self.read_begun, b"crossed": self.read_crossed,
            b"copied": self.read_copied, b"arrived": self.read_arrived, b"taken": self.read_taken, b"dropped": self.read_dropped,
            b"skipped": self.read_skipped,
        }  # fmt: skip
        others = {b"redirected", b"granted", b"registered", b"freed", b"placed", b"linkdown", b"linkup", b"moved", b"restarted", b"settled", b"unsettled"}
        for row, text in enumerate(data.split(b"\n"), 1):
            words = text.split(b" ")
            reader = readers.get(words[0])
            try:
                if reader:
                    reader(words)
                elif words[0] not in others and text:
                    raise ValueError
            except IndexError:
                raise Fault(f"{path}: row {row}: there is no frame {words[1].decode('ascii', 'replace') if len(words) > 1 else ''}") from None
            except ValueError:
                raise Fault(f"line {row} of {path} is no line of a journal") from None

    def read_line(self, words):
        self.line = int(words[1])

    def begin(self, at, is_wanted, size, length, source):
        self.frames += 1
        self.at.append(at)
        self.is_wanted.append(is_wanted)
        self.size.append(size)
        self.length.append(length)
        self.source.append(source)

    def read_begun(self, words):
        kind, _, by, data = words
        is_wanted = self.wanted.takes(kind, data, self.line)
        self.begin(by, is_wanted, len(data) // 2, 0, data[12:24])
        if is_wanted:
            self.kinds[kind] += 1

    def read_copied(self, words):
        frame = int(words[1])
        self.begin(self.at[frame], self.is_wanted[frame], self.size[frame], self.length[frame], self.source[frame])
        if self.is_wanted[frame]:
            self.kinds[b"copied"] += 1

    def hop(self, frame, to):
        before = self.at[frame]
        if before != to:
            self.hops[before, to] += 1
            self.bytes[before, to] += self.size[frame]
        self.at[frame] = to

    def read_crossed(self, words):
        frame, switch = int(words[1]), words[2]
        if not self.is_wanted[frame]:
            self.at[frame] = switch
            return
        self.crossed[switch] += 1
        self.length[frame] += 1
        self.hop(frame, switch)
        self.heard.setdefault(switch, set()).add(self.source[frame])

    def read_arrived(self, words):
        frame = int(words[1])
        if self.is_wanted[frame]:
            self.kinds[b"arrived"] += 1
            self.lengths[self.length[frame]] += 1
            self.hop(frame, words[2])

    def read_taken(self, words):
        frame = int(words[1])
        if self.is_wanted[frame]:
            self.kinds[b"taken"] += 1
            self.taken[words[2]] += 1

    def read_dropped(self, words):
        frame, cause = int(words[1]), words[2]
        if self.is_wanted[frame]:
            self.kinds[b"dropped"] += 1
            # A frame that crossed no switch ended at its host.
            at = self.at[frame] if self.at[frame][:1] in (b"e", b"a", b"c") and b"." in self.at[frame] else b""
            self.causes[cause, at] += 1
            self.dropped[at] += 1

    def read_skipped(self, words):
        if self.wanted.first <= self.line <= self.wanted.last:
            self.skips[words[2]] += 1

    @property
    def flying(self):
        begun = sum(self.kinds[kind] for kind in (b"sent", b"made", b"copied"))
        return begun - sum(self.kinds[kind] for kind in (b"arrived", b"taken", b"dropped"))
