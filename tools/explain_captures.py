"""What is wrong with a capture that is refused, or that has no frame of Ethernet: for tools/explain."""

LINK_TYPES = {
    0: "loopback (BSD)", 101: "raw IP, no Ethernet head", 105: "Wi-Fi", 108: "loopback (OpenBSD)", 113: "Linux cooked: a capture on `any`",
    127: "Wi-Fi with radiotap heads", 228: "raw IPv4", 229: "raw IPv6", 276: "Linux cooked: a capture on `any`", 147: "user defined",
}
FILE_KINDS = [
    (b"\x1f\x8b", "packed by gzip", "gunzip -c {0} > OUT"),
    (b"\xfd7zXZ", "packed by xz", "xz -dc {0} > OUT"),
    (b"BZh", "packed by bzip2", "bzip2 -dc {0} > OUT"),
    (b"\x28\xb5\x2f\xfd", "packed by zstd", "zstd -dc {0} > OUT"),
    (b"PK\x03\x04", "a zip archive", "unzip {0}"),
    (b"\xa1\xb2\xcd\x34", "a modified libpcap capture", "editcap -F pcap {0} OUT"),
    (b"\x34\xcd\xb2\xa1", "a modified libpcap capture", "editcap -F pcap {0} OUT"),
    (b"snoop\0", "a snoop capture", "editcap -F pcap {0} OUT"),
]


def none_of_ethernet(counts):
    """In words, what a capture has whose packets are none of Ethernet, by how many there are of each link type."""
    kinds = ", ".join(LINK_TYPES.get(link, f"link type {link}") for link in counts)
    return f"{sum(counts.values())} packets, none of Ethernet ({kinds})"


def counts_of(file):
    """How many packets of each link type a pcapng capture has; nothing where it cannot be read, or is no pcapng file."""
    # Of a Python before 3.11 nothing is known.
    try:
        from portland_captures import SECTION_MARK, Fault, link_counts
    except ImportError:
        return {}
    try:
        with open(file, "rb") as opened:
            is_pcapng = opened.read(4) == SECTION_MARK
        return link_counts(file) if is_pcapng else {}
    except (OSError, Fault):
        return {}


def capture_hints(fabric, items, number, offset, reason, explained):
    hosts = fabric.tables["host"]
    if number >= len(hosts) or not hosts[number].get("capture"):
        return []
    file = f"{items.get('captures')}/{hosts[number]['capture']}"
    try:
        with open(file, "rb") as opened:
            head = opened.read(24)
    except OSError:
        return []
    return [f"  host {hosts[number].get('name')}, {file}: begins with {head[:4].hex(' ')}", explained(file, head, offset, reason)]


def libpcap_hint(file, head, offset, reason):
    """Of a libpcap file that is refused."""
    if reason.startswith("BadMagic"):
        return magic_hint(file, head)
    if reason.startswith("BadLink"):
        order = "little" if head[:4] in (b"\xd4\xc3\xb2\xa1", b"\x4d\x3c\xb2\xa1") else "big"
        return link_hint(file, int.from_bytes(head[20:24], order))
    if reason.startswith("BadVersion"):
        return f"hint: not version 2.4 of the format: `editcap -F pcap {file} OUT`"
    return f"hint: damaged from byte {offset} on; `head -c {offset} {file} > OUT` keeps the records before it"


# What is wrong with the block of a pcapng file.
BLOCKS = {
    "BadMagic": "a section header without a byte order",
    "BadBlock": "a block whose length cannot be",
    "BadTrailer": "a block whose two lengths differ",
    "BadVersion": "a section of another version than 1",
    "BadInterface": "a packet of an interface that its section does not have",
    "BadRecord": "a packet with a captured length above 262,144",
}


def pcapng_hint(file, _head, offset, reason):
    """Of a pcapng file that is refused."""
    what = BLOCKS.get(reason.split()[0], "a block that is damaged")
    if offset == 0:
        return f"hint: a pcapng file, which begins with {what}: capture again"
    return f"hint: a pcapng file, which has at byte {offset} {what}; `head -c {offset} {file} > OUT` keeps the blocks before it"


def magic_hint(file, head):
    for begin, kind, command in FILE_KINDS:
        if head.startswith(begin):
            return f"hint: this is {kind}: `{command.format(file)}`"
    if all(32 <= byte < 127 or byte in b"\r\n\t" for byte in head):
        return "hint: this is a text and no capture: `tcpdump -w OUT` writes one"
    return "hint: this is no libpcap file and no pcapng file: `capinfos` may tell what it is, and `editcap -F pcap` makes one of what Wireshark reads"


def link_hint(file, link):
    if link & 0xFFFF == 1:
        return f"hint: Ethernet, with more in the link type field: `editcap -F pcap {file} OUT` takes that away"
    kind = LINK_TYPES.get(link, f"link type {link}")
    return f"hint: {kind}. Hosts send Ethernet frames (link type 1): capture on one interface, `tcpdump -i eth0 -w OUT`"
