"""From what was recorded on a link to the IP packet in it. Link types are numbered as on tcpdump.org/linktypes.html."""

VLAN = (b"\x81\x00", b"\x88\xa8", b"\x91\x00")
PPPOE_SESSION = b"\x88\x64"
IP = (b"\x08\x00", b"\x86\xdd")
PPP_IP = (b"\x00\x21", b"\x00\x57")
FAMILIES = (2, 10, 23, 24, 28, 30)  # IPv4, and IPv6 as the systems number it


def by_ethertype(kind, rest):
    while kind in VLAN:
        kind, rest = rest[2:4], rest[4:]
    if kind == PPPOE_SESSION:
        return ppp(rest[6:])
    return rest if kind in IP or len(kind) < 2 else None


def ethernet(data):
    return by_ethertype(data[12:14], data[14:])


def cooked(data):
    return by_ethertype(data[14:16], data[16:])


def cooked_2(data):
    return by_ethertype(data[:2], data[20:])


def ppp(data):
    if data[:2] == b"\xff\x03":  # address and control, which may be left out
        data = data[2:]
    if data[:1] and data[0] & 1:  # a protocol number of one byte
        data = b"\x00" + data
    return data[2:] if data[:2] in PPP_IP or len(data) < 2 else None


def pppoe(data):
    return ppp(data[6:])


def loopback(data):
    family = data[:4].lstrip(b"\x00").rstrip(b"\x00")  # in the byte order of the machine that recorded it
    return data[4:] if len(data) < 4 or len(family) == 1 and family[0] in FAMILIES else None


def raw(data):
    return data


LINKS = {
    0: loopback,
    108: loopback,
    1: ethernet,
    9: ppp,
    50: ppp,
    51: pppoe,
    12: raw,
    101: raw,
    228: raw,
    229: raw,
    113: cooked,
    276: cooked_2,
}


def ip_packet(link, data):
    """The IP packet in what was recorded, empty if the end comes before it; None if it is another protocol's."""
    return LINKS[link](data)
