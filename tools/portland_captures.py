"""Reads and writes captures: libpcap files, and pcapng files as Wireshark saves them, packed by gzip or not.

    from portland_captures import Writer, read_records
    for record in read_records("lab.pcapng"):
        record.data, record.seconds, record.nanos, record.original

A pcapng file can have packets of several interfaces: those of Ethernet are records, and the others are counted by `link_counts`.
"""

import gzip
import struct
from collections import Counter
from dataclasses import dataclass

from portland_journal import Fault

ETHERNET = 1
LONGEST = 262144  # no record of a capture is longer
ORDERS = {  # the first four bytes of a libpcap file: byte order, and nanoseconds in a unit of the time stamps
    b"\xd4\xc3\xb2\xa1": ("<", 1000),
    b"\x4d\x3c\xb2\xa1": ("<", 1),
    b"\xa1\xb2\xc3\xd4": (">", 1000),
    b"\xa1\xb2\x3c\x4d": (">", 1),
}
SECTION, INTERFACE, SIMPLE, ENHANCED = 0x0A0D0D0A, 1, 3, 6
SECTION_MARK = b"\x0a\x0d\x0d\x0a"


@dataclass(slots=True)
class Record:
    data: bytes
    seconds: int
    nanos: int
    original: int  # the frame's length, of which the capture may have less
    link: int = ETHERNET


@dataclass(slots=True)
class Interface:
    """An interface of a pcapng section."""

    link: int
    most: int  # the snapshot length, 0 for none
    ticks: int  # of a second


def contents(path):
    try:
        with open(path, "rb") as file:
            data = file.read()
        return gzip.decompress(data) if data[:2] == b"\x1f\x8b" else data
    except (OSError, EOFError) as error:
        raise Fault(f"{getattr(error, 'strerror', None) or error}: {path}") from None


def libpcap_records(data, path):
    order, unit = ORDERS[data[:4]]
    link = struct.unpack(order + "I", data[20:24])[0] & 0x0FFFFFFF
    head = struct.Struct(order + "IIII")
    at = 24
    while at + 16 <= len(data):
        seconds, rest, captured, original = head.unpack_from(data, at)
        if captured > LONGEST:
            raise Fault(f"{path} is damaged from byte {at} on")
        if at + 16 + captured > len(data):
            return
        yield Record(data[at + 16 : at + 16 + captured], seconds, rest * unit, original, link)
        at += 16 + captured


def options(body, order):
    """The options of a block, each by its code."""
    found, at = {}, 0
    while at + 4 <= len(body):
        code, length = struct.unpack_from(order + "HH", body, at)
        if code == 0:
            break
        found[code] = body[at + 4 : at + 4 + length]
        at += 4 + length + -length % 4
    return found


def interface_of(body, order):
    link, _, most = struct.unpack_from(order + "HHI", body)
    unit = options(body[8:], order).get(9, b"\x06")[:1] or b"\x06"
    exponent = unit[0] & 0x7F
    return Interface(link, most, 2**exponent if unit[0] & 0x80 else 10**exponent)


def packet_of(kind, body, order, interfaces):
    """The record of a packet's block; None where its interface is not there."""
    if kind == SIMPLE:
        number, ticks, original = 0, 0, struct.unpack_from(order + "I", body)[0]
        most = interfaces[0].most if interfaces else 0
        captured, start = min(original, most) if most else original, 4
    else:
        number, high, low, captured, original = struct.unpack_from(order + "IIIII", body)
        ticks, start = high << 32 | low, 20
    if number >= len(interfaces):
        return None
    whole = interfaces[number].ticks
    seconds, rest = divmod(ticks, whole)
    return Record(body[start : start + captured], seconds, rest * 1_000_000_000 // whole, original, interfaces[number].link)


def pcapng_records(data, path):
    at, order, interfaces = 0, "<", []
    while at + 12 <= len(data):
        if data[at : at + 4] == SECTION_MARK:
            order = ">" if data[at + 8 : at + 12] == b"\x1a\x2b\x3c\x4d" else "<"
            interfaces = []
        kind, length = struct.unpack_from(order + "II", data, at)
        if length < 12 or length % 4:
            raise Fault(f"{path} is damaged from byte {at} on")
        if at + length > len(data):
            return
        body = data[at + 8 : at + length - 4]
        if kind == INTERFACE:
            interfaces.append(interface_of(body, order))
        elif kind in (SIMPLE, ENHANCED):
            record = packet_of(kind, body, order, interfaces)
            if record is None:
                raise Fault(f"{path} has at byte {at} a packet of an interface that it does not have")
            yield record
        at += length


def all_records(path):
    """The records of a capture, of whatever link type."""
    data = contents(path)
    try:
        if data[:4] in ORDERS and len(data) >= 24:
            yield from libpcap_records(data, path)
        elif data[:4] == SECTION_MARK:
            yield from pcapng_records(data, path)
        else:
            raise Fault(f"{path} is no capture that can be read: it begins with {data[:4].hex(' ') or 'nothing'}")
    except struct.error:
        raise Fault(f"{path} is damaged: a block of it is too short") from None


def read_records(path):
    """The records of Ethernet. A capture that has others alone is a fault, since somebody meant to use it."""
    is_used, other = False, None
    for record in all_records(path):
        if record.link == ETHERNET:
            is_used = True
            yield record
        else:
            other = record.link
    if other is not None and not is_used:
        raise Fault(f"{path} has frames of link type {other}, and not of Ethernet: capture on an Ethernet interface")


def link_counts(path):
    """How many packets of each link type a capture has."""
    return Counter(record.link for record in all_records(path))


class Writer:
    """A new capture of Ethernet frames: libpcap, little-endian, microseconds."""

    def __init__(self, path):
        self.file = open(path, "wb")  # noqa: SIM115
        self.file.write(struct.pack("<IHHiIII", 0xA1B2C3D4, 2, 4, 0, 0, LONGEST, ETHERNET))

    def write(self, data, seconds, micros=0, original=None):
        self.file.write(struct.pack("<IIII", seconds & 0xFFFFFFFF, micros, len(data), original or len(data)) + data)

    def __enter__(self):
        return self

    def __exit__(self, *_):
        self.file.close()
