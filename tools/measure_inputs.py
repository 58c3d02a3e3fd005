"""The inputs that `tools/measure` plays: fabrics with a host at each place, their frames, and captures of either format."""

import struct

from portland_frames import mac_bytes
from portland_journal import topology_text
from portland_captures import LONGEST
from portland_play import all_hosts

PARTNERS = 8  # to how many others a host sends
CHUNK = 1000  # frames that are sent between two times that all queues are emptied
AT_ONCE = 4  # frames that a line sends
EXPERIMENTAL = bytes.fromhex("88b6")


def partner(host, number, count):
    """To whom a host sends its frame of this number, of so many hosts."""
    return (host + 1 + (number % PARTNERS * (count // PARTNERS or 1) + host) % (count - 1)) % count


def shares(frames, count):
    return [frames // count + (host < frames % count) for host in range(count)]


def frame(macs, host, number):
    """60 bytes, of which the type is free for experiments."""
    return macs[partner(host, number, len(macs))] + macs[host] + EXPERIMENTAL + number.to_bytes(4, "big") + bytes(42)


def pcap(frames):
    """A capture as tcpdump writes it (pcap-savefile)."""
    parts = [struct.pack("<IHHiIII", 0xA1B2C3D4, 2, 4, 0, 0, LONGEST, 1)]
    for second, data in enumerate(frames):
        parts += [struct.pack("<IIII", second, 0, len(data), len(data)), data]
    return b"".join(parts)


def block(kind, body):
    padded = body + bytes(-len(body) % 4)
    total = struct.pack("<I", 12 + len(padded))
    return struct.pack("<I", kind) + total + padded + total


def pcapng(frames):
    """A capture as Wireshark writes it (draft-ietf-opsawg-pcapng): a section, an interface, an enhanced packet for each frame."""
    parts = [block(0x0A0D0D0A, struct.pack("<IHHq", 0x1A2B3C4D, 1, 0, -1)), block(1, struct.pack("<HHI", 1, 0, LONGEST))]
    for second, data in enumerate(frames):
        high, low = divmod(second * 1_000_000, 2**32)
        parts.append(block(6, struct.pack("<IIIII", 0, high, low, len(data), len(data)) + data))
    return b"".join(parts)


def start_lines(hosts):
    """Every host starts and sends a frame to each of its partners, so that they know each other."""
    return ["start all", "settle 64", *(f"send {host.name} {PARTNERS}" for host in hosts), "settle 64"]


def turns(hosts, frames):
    """The lines that send, each with the number of its frames: some of each host in turn, until each has sent its share."""
    own = shares(frames, len(hosts))
    for begun in range(0, max(own), AT_ONCE):
        for host, share in zip(hosts, own):
            count = min(share - begun, AT_ONCE)
            if count > 0:
                yield f"send {host.name} {count}", count


def traffic_lines(hosts, frames):
    lines, waiting = [], 0
    for line, count in turns(hosts, frames):
        lines.append(line)
        waiting += count
        if waiting >= CHUNK:
            lines.append("sweep 8")
            waiting = 0
    return [*lines, "sweep 8"]


def write_script(path, lines):
    path.write_text("\n".join(lines) + "\n")


def write_fabric(folder, k, frames, steps=0):
    """Topology, captures and scripts of a fabric: `start`, `traffic`, which goes on with frames, and where steps are asked for `waiting`,
    in which the frames wait, and `random`, which goes on with steps."""
    (folder / "captures").mkdir(parents=True, exist_ok=True)
    fabric = all_hosts(k)
    hosts = fabric.hosts
    macs = [mac_bytes(host.mac) for host in hosts]
    for host, (own, share) in enumerate(zip(hosts, shares(frames, len(hosts)))):
        own.capture = f"{own.name}.pcap"
        (folder / "captures" / own.capture).write_bytes(pcap(frame(macs, host, n) for n in range(PARTNERS + share)))
    (folder / "topology.toml").write_text(topology_text(fabric))
    start = start_lines(hosts)
    write_script(folder / "start", start)
    write_script(folder / "traffic", start + traffic_lines(hosts, frames))
    if steps:
        waiting = start + [line for line, _ in turns(hosts, frames)]
        write_script(folder / "waiting", waiting)
        write_script(folder / "random", [*waiting, f"random 3 {steps}"])


def write_reading(folder, form, records):
    """A fabric of k = 4, in which one host has a capture of so many records, and sends none of them."""
    (folder / "captures").mkdir(parents=True, exist_ok=True)
    fabric = all_hosts(4)
    first = fabric.hosts[0]
    first.capture = "it"
    macs = [mac_bytes(host.mac) for host in fabric.hosts]
    data = form(frame(macs, 0, n) for n in range(records))
    (folder / "captures" / first.capture).write_bytes(data)
    (folder / "topology.toml").write_text(topology_text(fabric))
    write_script(folder / "start", ["start h0"])
    return len(data)
