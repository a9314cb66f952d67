"""From an IP packet to the UDP datagram in it."""
import collections

Datagram = collections.namedtuple("Datagram", "source destination payload")  # source, destination: address and port, in bytes

UDP, FRAGMENT = 17, 44
OPTIONS = (0, 43, 60)  # IPv6: hop-by-hop, routing and destination options


class NotRead(Exception):
    """Why there is no datagram: fragments, undecoded, or cut, if the bytes end before the packet does."""


def number(data, at):
    return int.from_bytes(data[at : at + 2], "big")


def reach(ip, end, at):
    """There is a packet up to this byte, and it is recorded."""
    if at > end:
        raise NotRead("undecoded")
    if at > len(ip):
        raise NotRead("cut")


def ipv4(ip):
    """An IP packet's protocol, whether it is a fragment, where the protocol's bytes start and end, and the two addresses."""
    reach(ip, 20, 20)
    is_fragment = number(ip, 6) & 0x3FFF  # more of them follow, or an offset
    start, end = 4 * (ip[0] & 0x0F), number(ip, 2)
    if start < 20:
        raise NotRead("undecoded")
    return ip[9], is_fragment, start, end, ip[12:16], ip[16:20]


def ipv6(ip):
    reach(ip, 40, 40)
    protocol, at, end = ip[6], 40, 40 + number(ip, 4)
    while protocol in OPTIONS:
        reach(ip, end, at + 8)
        protocol, at = ip[at], at + 8 + 8 * ip[at + 1]
    is_fragment = protocol == FRAGMENT
    if is_fragment:
        reach(ip, end, at + 8)
        protocol = ip[at]
    return protocol, is_fragment, at, end, ip[8:24], ip[24:40]


def datagram_in(ip):
    """The UDP datagram in an IP packet, or None if it is another protocol's."""
    reach(ip, 1, 1)
    if ip[0] >> 4 not in (4, 6):
        raise NotRead("undecoded")
    protocol, is_fragment, at, end, source, destination = ipv4(ip) if ip[0] >> 4 == 4 else ipv6(ip)
    if protocol != UDP:
        return None
    if is_fragment:
        raise NotRead("fragments")
    reach(ip, end, at + 8)
    size = number(ip, at + 4)
    if size < 8:
        raise NotRead("undecoded")
    reach(ip, end, at + size)  # bytes after it are a link's padding
    return Datagram(source + ip[at : at + 2], destination + ip[at + 2 : at + 4], ip[at + 8 : at + size])
