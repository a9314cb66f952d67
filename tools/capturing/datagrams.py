"""From a recording to the UDP datagrams in it, and how much was passed over on the way."""
import collections

from .link import LINKS, ip_packet
from .recording import Damaged, packets_of
from .udp import NotRead, datagram_in


class Tally:
    """What one reading of a recording came by."""

    def __init__(self):
        self.datagrams = self.fragments = self.partial = self.undecoded = 0
        self.unknown_links = collections.Counter()  # packets by link type
        self.damage = None

    def told(self):
        """Sentences on what is left out."""
        if self.fragments:
            yield f"IP fragments of UDP packets, which are not put together here: {self.fragments} left out"
        if self.partial:
            yield f"packets recorded only in part (tcpdump -s 0 records them whole): {self.partial} left out"
        if self.undecoded:
            yield f"packets with wrong IP or UDP headers: {self.undecoded} left out"
        for link, packets in sorted(self.unknown_links.items()):
            yield f"packets of link type {link}, which is not read here: {packets} left out"
        if self.damage:
            yield f"the file is damaged: {self.damage}"


def datagrams_of(file, tally):
    """The UDP datagrams of a recording, from its start to its end or to where it is damaged."""
    try:
        for packet in packets_of(file):
            if packet.link not in LINKS:
                tally.unknown_links[packet.link] += 1
                continue
            try:
                ip = ip_packet(packet.link, packet.data)
                datagram = None if ip is None else datagram_in(ip)
            except NotRead as reason:
                count(tally, str(reason), packet.is_cut)
                continue
            if datagram:
                tally.datagrams += 1
                yield datagram
    except Damaged as damage:
        tally.damage = str(damage)


def count(tally, reason, is_cut):
    if reason == "fragments":
        tally.fragments += 1
    elif reason == "cut" and is_cut:
        tally.partial += 1
    else:
        tally.undecoded += 1
