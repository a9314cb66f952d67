"""Recordings made of bytes: pcap and pcapng files, and how IP packets stand in them on each link."""
import struct


def pcap(packets, link=1, order="<", magic=0xA1B2C3D4, missing=0):
    head = struct.pack(order + "IHHiIII", magic, 2, 4, 0, 0, 262144, link)
    return head + b"".join(struct.pack(order + "IIII", 1, 2, len(data), len(data) + missing) + data for data in packets)


def block(order, kind, body):
    body += bytes(-len(body) % 4)
    return struct.pack(order + "II", kind, len(body) + 12) + body + struct.pack(order + "I", len(body) + 12)


def section(order):
    return block(order, 0x0A0D0D0A, struct.pack(order + "IHHq", 0x1A2B3C4D, 1, 0, -1) + b"\0\1\0\0")


def interface(order, link, most=0):
    return block(order, 1, struct.pack(order + "HHI", link, 0, most))


def enhanced(order, number, data, whole=None):
    """A packet's block, and one of a kind that nobody knows."""
    fields = struct.pack(order + "IIIII", number, 1, 2, len(data), whole or len(data))
    return block(order, 6, fields + data) + block(order, 0x0BAD, b"other")


def obsolete(order, number, data):
    return block(order, 2, struct.pack(order + "HHIIII", number, 0, 1, 2, len(data), len(data)) + data)


def simple(order, data, most=None):
    return block(order, 3, struct.pack(order + "I", len(data)) + data[:most])


def ethertype(ip):
    return b"\x08\x00" if ip[0] >> 4 == 4 else b"\x86\xdd"


def ppp(ip):
    return (b"\x00\x21" if ip[0] >> 4 == 4 else b"\x00\x57") + ip


def pppoe(ip):
    return b"\x11\x00\x00\x07" + struct.pack(">H", len(ip) + 2) + ppp(ip)


def with_options(ip, kinds=(0, 43, 60)):
    """An IP packet with options in its header, or with headers of these kinds before its UDP."""
    if ip[0] >> 4 == 4:
        return b"\x46" + ip[1:2] + struct.pack(">H", len(ip) + 4) + ip[4:20] + b"\x01\x01\x01\x00" + ip[20:]
    extra = b"".join(bytes([after, 1]) + bytes(14) for after in (*kinds[1:], 17))
    return ip[:4] + struct.pack(">HB", len(ip) - 40 + len(extra), kinds[0]) + ip[7:40] + extra + ip[40:]


MAC, TAG = bytes(12), b"\x00\x05"
LINKS = {  # link type, and how an IP packet is recorded on it
    "Ethernet": (1, lambda ip: MAC + ethertype(ip) + ip),
    "Ethernet, padded": (1, lambda ip: MAC + ethertype(ip) + ip + bytes(60)),
    "Ethernet with a frame check sequence": (1 | 0x24000000, lambda ip: MAC + ethertype(ip) + ip + b"\xde\xad\xbe\xef"),
    "VLAN": (1, lambda ip: MAC + b"\x81\x00" + TAG + ethertype(ip) + ip),
    "VLAN in VLAN": (1, lambda ip: MAC + b"\x88\xa8" + TAG + b"\x81\x00" + TAG + ethertype(ip) + ip),
    "VLAN, older": (1, lambda ip: MAC + b"\x91\x00" + TAG + ethertype(ip) + ip),
    "PPPoE": (1, lambda ip: MAC + b"\x88\x64" + pppoe(ip)),
    "PPPoE in VLAN": (1, lambda ip: MAC + b"\x81\x00" + TAG + b"\x88\x64" + pppoe(ip)),
    "cooked": (113, lambda ip: bytes(14) + ethertype(ip) + ip),
    "cooked, VLAN": (113, lambda ip: bytes(14) + b"\x81\x00" + TAG + ethertype(ip) + ip),
    "cooked, PPPoE": (113, lambda ip: bytes(14) + b"\x88\x64" + pppoe(ip)),
    "cooked 2": (276, lambda ip: ethertype(ip) + bytes(18) + ip),
    "cooked 2, VLAN": (276, lambda ip: b"\x81\x00" + bytes(18) + TAG + ethertype(ip) + ip),
    "loopback, little-endian": (0, lambda ip: (b"\x02" if ip[0] >> 4 == 4 else b"\x1e") + bytes(3) + ip),
    "loopback, big-endian": (108, lambda ip: bytes(3) + (b"\x02" if ip[0] >> 4 == 4 else b"\x18") + ip),
    "PPP": (9, ppp),
    "PPP with address and control": (50, lambda ip: b"\xff\x03" + ppp(ip)),
    "PPP, short protocol": (9, lambda ip: ppp(ip)[1:]),
    "PPPoE alone": (51, pppoe),
    **{f"raw IP, {link}": (link, lambda ip: ip) for link in (12, 101, 228, 229)},
    "options and extension headers": (101, with_options),
}


def first_blocks(data, count):
    """So many blocks of a little-endian pcapng file."""
    end = 0
    for _ in range(count):
        end += int.from_bytes(data[end + 4 : end + 8], "little")
    return data[:end]
