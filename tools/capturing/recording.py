"""The packets of a recording, a pcap or a pcapng file, handed out as they are read: a large one never stands in memory."""
import collections
import shutil
import struct
import tempfile

# What was recorded on a link of this type, and whether the recorder left out some of the packet's bytes.
Packet = collections.namedtuple("Packet", "link data is_cut")

PCAP = {  # the byte order, by a file's first four bytes; the second of each pair has times in nanoseconds
    b"\xa1\xb2\xc3\xd4": ">",
    b"\xa1\xb2\x3c\x4d": ">",
    b"\xd4\xc3\xb2\xa1": "<",
    b"\x4d\x3c\xb2\xa1": "<",
}
PCAPNG = b"\x0a\x0d\x0d\x0a"  # the type of a section's first block, alike in both byte orders
SECTION_ORDER = {b"\x1a\x2b\x3c\x4d": ">", b"\x4d\x3c\x2b\x1a": "<"}
COMPRESSED = {b"\x1f\x8b\x08": "gzip", b"\x28\xb5\x2f": "zstd", b"\x04\x22\x4d": "lz4", b"\xfd7z": "xz", b"BZh": "bzip2"}

LONGEST_PACKET = 1 << 18  # libpcap and Wireshark write no longer packet,
LONGEST_BLOCK = 1 << 24  # and Wireshark reads no longer block: a larger length is damage

SECTION, INTERFACE, OBSOLETE_PACKET, SIMPLE_PACKET, ENHANCED_PACKET = 0x0A0D0D0A, 1, 2, 3, 6


class NotARecording(ValueError):
    pass


class Damaged(ValueError):
    pass


def opened(name):
    """A recording's file, to be read more than once: what comes through a pipe is kept in a temporary file."""
    file = open(name, "rb")
    if file.seekable():
        return file
    with file:
        kept = tempfile.TemporaryFile()
        shutil.copyfileobj(file, kept)
        return kept


def reader_of(file):
    """What reads a file's packets from its start on: pcap, pcapng, or None if it is neither."""
    file.seek(0)
    magic = file.read(4)
    file.seek(0)
    if magic[:3] in COMPRESSED:
        raise NotARecording(f"it is compressed ({COMPRESSED[magic[:3]]}): unpack it first")
    return pcap if magic in PCAP else pcapng if magic == PCAPNG else None


def packets_of(file):
    """The packets of a recording from its start on. Damaged says why no more can be read, and how many were read before."""
    reader, read = reader_of(file), 0
    if not reader:
        raise NotARecording("it is neither pcap nor pcapng (RFC 4571 frames need a session: ./list-events SESSION CAPTURE)")
    try:
        for packet in reader(file):
            yield packet
            read += 1
    except Damaged as damage:
        raise Damaged(f"{damage}; packets read before: {read}") from None


def pcap(file):
    header = all_of(file.read(24), 24, "its header")
    order = PCAP[header[:4]]
    link = struct.unpack(order + "I", header[20:])[0] & 0xFFFF  # the upper bits tell of a frame check sequence
    while header := file.read(16):
        _, _, size, whole = struct.unpack(order + "IIII", all_of(header, 16, "a packet's header"))
        if size > LONGEST_PACKET:
            raise Damaged(f"a packet's length, {size}, is impossible")
        yield Packet(link, all_of(file.read(size), size, "a packet"), size < whole)


def pcapng(file):
    interfaces = []  # of the section: link type, and the most bytes of a packet that are recorded (0: all)
    for order, kind, body in blocks(file):
        if kind == SECTION:
            interfaces = []
        elif kind == INTERFACE:
            link, _, most = fields(order + "HHI", body)
            interfaces.append((link, most))
        elif kind == ENHANCED_PACKET:
            number, _, _, size, whole = fields(order + "IIIII", body)
            yield packet_in(interfaces, number, body[20:], size, whole)
        elif kind == OBSOLETE_PACKET:
            number, _, _, _, size, whole = fields(order + "HHIIII", body)
            yield packet_in(interfaces, number, body[20:], size, whole)
        elif kind == SIMPLE_PACKET:
            (whole,) = fields(order + "I", body)
            size = min(whole, interfaces[0][1] or whole) if interfaces else whole
            yield packet_in(interfaces, 0, body[4:], size, whole)


def packet_in(interfaces, number, data, size, whole):
    if number >= len(interfaces):
        raise Damaged("a packet is from an interface that is not described")
    if size > len(data):
        raise Damaged(f"a packet of {size} bytes is in a block that is too short for it")
    return Packet(interfaces[number][0], data[:size], size < whole)


def blocks(file):
    """The blocks of a pcapng file, each as its section's byte order, its type and what stands between its two lengths."""
    order = ""
    while header := file.read(8):
        if header[:4] == PCAPNG:
            header += file.read(4)
            order = SECTION_ORDER.get(all_of(header, 12, "a section's header")[8:])
            if not order:
                raise Damaged("a section does not say its byte order")
        kind, size = struct.unpack(order + "II", all_of(header[:8], 8, "a block's header"))
        if not len(header) + 4 <= size <= LONGEST_BLOCK or size % 4:
            raise Damaged(f"a block's length, {size}, is impossible")
        rest = all_of(file.read(size - len(header)), size - len(header), "a block")
        if rest[-4:] != header[4:8]:
            raise Damaged("a block's two lengths differ")
        yield order, kind, header[8:] + rest[:-4]


def fields(form, body):
    if len(body) < struct.calcsize(form):
        raise Damaged("a block is shorter than its fields")
    return struct.unpack_from(form, body)


def all_of(data, size, what):
    if len(data) < size:
        raise Damaged(f"it ends inside {what}")
    return data
