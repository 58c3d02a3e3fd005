"""Draws what `portland gen` draws, into a folder: `portland gen .. --out DIR` calls it.

    python3 tools/portland_drawn.py K NUMBER FRAMES DIR

The rules are those of crates/pl_generator: a host at each host port, frames drawn by Knuth's MMIX generator, a line for each of them.
"""

import pathlib
import sys

from portland_captures import Writer
from portland_frames import mac_bytes
from portland_journal import topology_text
from portland_play import all_hosts, new_folder, run_tool

FACTOR, SUMMAND = 6_364_136_223_846_793_005, 1_442_695_040_888_963_407


class Draws:
    """Numbers that are drawn one after the other; of each the upper half is used."""

    def __init__(self, number):
        self.last = number

    def below(self, most):
        self.last = (self.last * FACTOR + SUMMAND) % (1 << 64)
        return (self.last >> 32) % most


def pairs(draws, hosts, frames):
    """The sender and the receiver of each frame, by their numbers."""
    for _ in range(frames):
        source = draws.below(hosts)
        yield source, (source + 1 + draws.below(hosts - 1)) % hosts


def drawn(k, number, frames):
    """A fabric, the pairs of the frames, and the lines of the script."""
    fabric = all_hosts(k)
    draws = Draws(number)
    found = list(pairs(draws, len(fabric.hosts), frames))
    sends = [f"send h{source}" for source, _ in found]
    return fabric, found, ["start all", "settle 64", *sends, f"random {draws.last} {10 * frames}", "settle 64", "retry all", "settle 64"]


def write_captures(fabric, found, folder):
    of = [[] for _ in fabric.hosts]
    for turn, (source, target) in enumerate(found):
        ends = mac_bytes(fabric.hosts[target].mac) + mac_bytes(fabric.hosts[source].mac)
        of[source].append((turn, ends + bytes.fromhex("88b6") + turn.to_bytes(4, "big") + bytes(42)))
    for host, records in zip(fabric.hosts, of):
        host.capture = f"{host.name}.pcap"
        with Writer(folder / host.capture) as capture:
            for turn, data in records:
                capture.write(data, turn)


def main(words):
    k, number, frames = map(int, words[:3])
    fabric, found, lines = drawn(k, number, frames)
    folder = new_folder(words[3])
    write_captures(fabric, found, folder / "captures")
    (folder / "topology.toml").write_text(topology_text(fabric))
    (folder / "script").write_text("\n".join(lines) + "\n")
    return 0


if __name__ == "__main__":
    sys.exit(run_tool("gen", main))
