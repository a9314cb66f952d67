"""RTP streams: as Wireshark has them, by source, destination and SSRC, and here by payload type too."""
import collections
import ipaddress

from .paper import Session, framed

Name = collections.namedtuple("Name", "source destination ssrc payload_type")  # source, destination: as in a Datagram, or empty

FIRST_DYNAMIC = 35  # RFC 3551 gives the payload types below to sound and video


class Lowest:
    """The lowest of some timestamps, which may pass 2^32: by their signed differences from the first one."""

    def __init__(self):
        self.first, self.difference = None, 0

    def add(self, timestamp):
        if self.first is None:
            self.first = timestamp
        self.difference = min(self.difference, (timestamp - self.first + 2**31) % 2**32 - 2**31)

    @property
    def timestamp(self):
        return (self.first + self.difference) % 2**32


class Stream:
    def __init__(self, name):
        self.name, self.packets, self.event_like, self.redundant = name, 0, 0, 0
        self.lowest, self.lowest_event = Lowest(), Lowest()

    def add(self, packet):
        timestamp = int.from_bytes(packet[4:8], "big")
        self.packets += 1
        self.lowest.add(timestamp)
        if is_event_like(packet):
            self.event_like += 1
            self.lowest_event.add(timestamp)
        self.redundant += has_report_in_block(packet)

    @property
    def is_redundant(self):
        return self.name.payload_type >= FIRST_DYNAMIC and 2 * self.redundant > self.packets

    @property
    def is_of_events(self):
        return self.name.payload_type >= FIRST_DYNAMIC and 2 * self.event_like > self.packets

    @property
    def session(self):
        lowest = self.lowest_event if self.event_like else self.lowest
        return Session(self.name.payload_type, self.name.ssrc, lowest.timestamp)


def name_of(datagram):
    """The stream that a datagram belongs to, or None if it is not RTP."""
    packet = datagram.payload
    if len(packet) < 12 or packet[0] >> 6 != 2 or 192 <= packet[1] <= 223:  # these are RTCP (RFC 5761, 4)
        return None
    return Name(datagram.source, datagram.destination, int.from_bytes(packet[8:12], "big"), packet[1] & 0x7F)


def payload_of(packet):
    """What stands behind an RTP packet's CSRCs and extension and before its padding; nothing if these leave no room."""
    start, end = 12 + 4 * (packet[0] & 0x0F), len(packet)
    if packet[0] & 0x10:  # X
        start += 4 + 4 * int.from_bytes(packet[start + 2 : start + 4], "big")
    if packet[0] & 0x20:  # P
        end = max(end - packet[-1], 0) if packet[-1] else 0
    return packet[start:end]


def is_report(payload):
    """It has the size of one report, with the reserved bit clear."""
    return len(payload) == 4 and not payload[1] & 0x40


def is_event_like(packet):
    return is_report(payload_of(packet))


def blocks_of(payload):
    """The blocks of a redundant packet (RFC 2198), each with its payload type; none if it cannot be one."""
    older, at = [], 0
    while at + 4 < len(payload) and payload[at] & 0x80:
        older.append((payload[at] & 0x7F, int.from_bytes(payload[at + 2 : at + 4], "big") & 0x3FF))
        at += 4
    if at == len(payload) or payload[at] & 0x80:
        return []
    blocks, primary, at = [], payload[at], at + 1
    for payload_type, size in older:
        blocks.append((payload_type, payload[at : at + size]))
        at += size
    return blocks + [(primary, payload[at:])] if at <= len(payload) else []


def has_report_in_block(packet):
    return any(payload_type >= FIRST_DYNAMIC and is_report(block) for payload_type, block in blocks_of(payload_of(packet)))


def streams_of(datagrams):
    """The streams of some datagrams, in the order of their first packets."""
    streams = {}
    for datagram in datagrams:
        name = name_of(datagram)
        if name:
            if name not in streams:
                streams[name] = Stream(name)
            streams[name].add(datagram.payload)
    return list(streams.values())


def place(end):
    """An address and port as people write them."""
    if not end:
        return "-"
    address, port = ipaddress.ip_address(end[:-2]), int.from_bytes(end[-2:], "big")
    return f"[{address}]:{port}" if address.version == 6 else f"{address}:{port}"


def captures_of(datagrams, streams):
    """The packets of each of some streams, as a capture."""
    captures = {stream.name: bytearray() for stream in streams}
    for datagram in datagrams:
        name = name_of(datagram)
        if name in captures:
            captures[name] += framed(datagram.payload)
    return list(map(bytes, captures.values()))
