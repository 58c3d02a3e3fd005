"""Reads the bytes of a frame: its addresses, its headers in words, and the hash by which switches choose a port."""

import ipaddress

ARP_OF_IPV4 = bytes.fromhex("000108000604")
ICMP = {0: "echo reply", 3: "unreachable", 5: "redirect", 8: "echo request", 11: "time exceeded"}
FLAGS = ((0x02, "SYN"), (0x10, "ACK"), (0x01, "FIN"), (0x04, "RST"), (0x08, "PSH"))
IGMP = {0x16: "joins", 0x17: "leaves"}


def colons(data):
    return ":".join(f"{byte:02x}" for byte in data)


def mac_bytes(text):
    return bytes.fromhex(text.replace(":", ""))


def dotted(data):
    return ".".join(str(byte) for byte in data)


def is_group(address):
    """Whether an address is one of a group, the broadcast included."""
    return bool(address[0] & 1)


def kind_of(data):
    """The type of a frame."""
    return int.from_bytes(data[12:14], "big")


def untagged(data):
    """A frame without its VLAN tags."""
    while data[12:14] in (b"\x81\x00", b"\x88\xa8") and len(data) >= 18:
        data = data[:12] + data[16:]
    return data


class Packet:
    """The IPv4 part of a frame."""

    def __init__(self, payload):
        self.header = 4 * (payload[0] & 15)
        self.protocol = payload[9]
        self.source = payload[12:16]
        self.target = payload[16:20]
        self.is_whole = int.from_bytes(payload[6:8], "big") & 0x3FFF == 0
        self.body = payload[self.header :]

    @property
    def ports(self):
        """The bytes of the ports: of a whole datagram of TCP or UDP, else none."""
        has_ports = self.protocol in (6, 17) and self.is_whole and len(self.body) >= 4
        return self.body[:4] if has_ports else b""


def ipv4_of(data):
    """The IPv4 part of a frame, None where it has none with a whole header."""
    payload = data[14:]
    if kind_of(data) != 0x0800 or len(payload) < 20 or payload[0] >> 4 != 4:
        return None
    return Packet(payload) if 20 <= 4 * (payload[0] & 15) <= len(payload) else None


# The flow: FNV-1a (Fowler, Noll and Vo) of what tells flows apart.


def fnv1a(data):
    value = 0x811C9DC5
    for byte in data:
        value = (value ^ byte) * 0x01000193 & 0xFFFFFFFF
    return value


def flow_hash(data):
    """The hash of destination, source and type, and of the IPv4 part's protocol, addresses and ports."""
    packet = ipv4_of(data)
    if packet is None:
        return fnv1a(data[:14])
    return fnv1a(data[:14] + bytes([packet.protocol]) + packet.source + packet.target + packet.ports)


# Memberships of groups, by what hosts send (RFC 2236, RFC 3376).


def memberships(data):
    """What an IGMP frame says: for each group as four bytes whether its sender joins or leaves it."""
    packet = ipv4_of(data)
    body = packet.body if packet and packet.protocol == 2 else b""
    if len(body) < 8:
        return []
    if body[0] in (0x16, 0x17):
        return [(body[4:8], body[0] == 0x16)]
    return list(records_of_report(body)) if body[0] == 0x22 else []


def records_of_report(body):
    """Of a report of version 3 the records without sources: types 2 and 4 join, and type 3 leaves."""
    at = 8
    for _ in range(int.from_bytes(body[6:8], "big")):
        if at + 8 > len(body):
            return
        sources = int.from_bytes(body[at + 2 : at + 4], "big")
        if sources == 0 and body[at] in (2, 3, 4):
            yield body[at + 4 : at + 8], body[at] != 3
        at += 8 + 4 * sources + 4 * body[at + 1]


# In words.


def arp_words(payload):
    if len(payload) < 28 or payload[:6] != ARP_OF_IPV4:
        return "ARP that cannot be read"
    operation = payload[6] * 256 + payload[7]
    sender, target = dotted(payload[14:18]), dotted(payload[24:28])
    if operation == 1 and sender == target:
        return f"ARP, here is {sender}"
    if operation == 1:
        return f"ARP, who has {target}, asked by {sender}"
    if operation == 2:
        return f"ARP, {sender} is at {colons(payload[8:14])}"
    return f"ARP of operation {operation}"


def ports_words(packet):
    source, target = (int.from_bytes(packet.ports[at : at + 2], "big") for at in (0, 2))
    return f"{dotted(packet.source)}:{source} > {dotted(packet.target)}:{target}"


def tcp_words(packet):
    flags = packet.body[13] if len(packet.body) > 13 else 0
    named = [name for bit, name in FLAGS if flags & bit]
    return " ".join(["TCP", *named, ports_words(packet)])


def igmp_words(packet):
    """A host's report or leave of a group; None for all else."""
    body = packet.body
    return f"IGMP, {IGMP[body[0]]} {dotted(body[4:8])}" if len(body) >= 8 and body[0] in IGMP else None


def packet_words(packet):
    ends = f"{dotted(packet.source)} > {dotted(packet.target)}"
    if packet.ports:
        return tcp_words(packet) if packet.protocol == 6 else f"UDP {ports_words(packet)}"
    if packet.protocol == 1 and packet.is_whole and packet.body:
        return f"ICMP {ICMP.get(packet.body[0], f'of type {packet.body[0]}')} {ends}"
    if packet.protocol == 2 and igmp_words(packet):
        return igmp_words(packet)
    return f"IPv4 of protocol {packet.protocol}{'' if packet.is_whole else ', a fragment,'} {ends}"


def content(data):
    """What a frame has behind its addresses, in words."""
    kind, payload = kind_of(data), data[14:]
    packet = ipv4_of(data)
    if kind == 0x0806:
        words = arp_words(payload)
    elif packet:
        words = packet_words(packet)
    elif kind == 0x86DD and len(payload) >= 40:
        words = f"IPv6 {ipaddress.IPv6Address(payload[8:24])} > {ipaddress.IPv6Address(payload[24:40])}"
    elif kind == 0x8100 and len(payload) >= 4:
        words = f"VLAN {int.from_bytes(payload[:2], 'big') & 0xFFF}, type {payload[2:4].hex()}"
    elif kind < 0x600:
        words = f"802.3 of length {kind}"
    else:
        words = f"type {kind:04x}"
    return f"{words}, {len(data)} bytes"


def ends(data):
    return f"to {colons(data[:6])} from {colons(data[6:12])}"
