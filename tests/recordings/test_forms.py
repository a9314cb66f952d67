"""Recordings of other forms and links, and what is left out of them."""
import json
import struct
import unittest

from made import LINKS, MAC, enhanced, interface, obsolete, pcap, ppp, section, simple, with_options
from trying import EXPECTED, IP, IPV4, IPV6, TEMPORARY, events, read, run


def counts(data):
    found, tally = read(data)
    return len(found), tally.fragments, tally.partial, tally.undecoded, sum(tally.unknown_links.values())


class Forms(unittest.TestCase):
    def test_links(self):
        for name, (link, recorded) in LINKS.items():
            found, tally = read(pcap(map(recorded, IP), link))
            self.assertEqual(found, EXPECTED, name)
            self.assertFalse(list(tally.told()), name)
            for size in range(2, len(recorded(IPV4)) - len(IPV4)):  # the recorder's end within the link's header
                self.assertEqual(counts(pcap([recorded(IPV4)[:size]], link, missing=1)), (0, 0, 1, 0, 0), (name, size))

    def test_forms(self):
        for order in "<>":
            for magic in (0xA1B2C3D4, 0xA1B23C4D):
                self.assertEqual(read(pcap(IP, 101, order, magic))[0], EXPECTED)
            interfaces = section(order) + interface(order, 1) + interface(order, 101)
            self.assertEqual(read(interfaces + b"".join(enhanced(order, 1, ip) for ip in IP))[0], EXPECTED)
            self.assertEqual(read(interfaces + b"".join(obsolete(order, 1, ip) for ip in IP))[0], EXPECTED)
            raw = section(order) + interface(order, 101)
            self.assertEqual(read(raw + b"".join(simple(order, ip) for ip in IP))[0], EXPECTED)
        one = section("<") + interface("<", 101) + b"".join(enhanced("<", 0, ip) for ip in IP)
        other = section(">") + interface(">", 9) + b"".join(enhanced(">", 0, ppp(ip)) for ip in IP)
        self.assertEqual(read(one + other)[0], EXPECTED + EXPECTED)

    def test_left_out(self):
        self.assertEqual(counts(pcap([IPV4[:6] + b"\x20\x00" + IPV4[8:], IPV4[:6] + b"\x00\x01" + IPV4[8:]], 101)), (0, 2, 0, 0, 0))
        self.assertEqual(counts(pcap([with_options(IPV6, (0, 44)), with_options(IPV6, (44,))], 101)), (0, 2, 0, 0, 0))
        self.assertEqual(counts(pcap(IP[:3], 147)), (0, 0, 0, 0, 3))
        others = [MAC + b"\x08\x06" + bytes(28), MAC + b"\x08\x00" + IPV4[:9] + b"\x06" + IPV4[10:], bytes(60)]
        self.assertEqual(counts(pcap(others)), (0, 0, 0, 0, 0))
        for ip, header in ((IPV4, 20), (IPV6, 40)):
            for size in (0, 7, len(ip) - header + 1, 65535):
                wrong = ip[: header + 4] + struct.pack(">H", size) + ip[header + 6 :]
                self.assertEqual(counts(pcap([wrong, wrong + bytes(4)], 101)), (0, 0, 0, 2, 0))
            for size in range(len(ip)):
                self.assertEqual(counts(pcap([ip[:size]], 101, missing=1)), (0, 0, 1, 0, 0))
                self.assertEqual(counts(pcap([ip[:size]], 101)), (0, 0, 0, 1, 0))
            self.assertEqual(counts(pcap([ip], 101, missing=4)), (1, 0, 0, 0, 0))  # only padding is missing
        self.assertEqual(counts(pcap([b"\x44" + IPV4[1:20] + b"\x00\x08" + IPV4[22:], b"\x50" + IPV4[1:]], 101)), (0, 0, 0, 2, 0))
        cut = section("<") + interface("<", 101, 30) + simple("<", IPV4, 30) + enhanced("<", 0, IPV4[:30], len(IPV4))
        self.assertEqual(counts(cut), (0, 0, 2, 0, 0))
        path = TEMPORARY / "left_out.pcap"
        path.write_bytes(pcap([IPV4[:6] + b"\x20\x00" + IPV4[8:], IPV4[:30], b"\x50", *IP], 101, missing=1) + b"\0")
        status, out, err = run(*events(path, "--json"))
        found = json.loads(out)
        numbers = [found[name] for name in ("packets", "fragments", "partial", "undecoded", "unknown_link")]
        self.assertEqual(numbers, [len(IP), 1, 1, 1, 0])
        self.assertEqual(found["damaged"], f"it ends inside a packet's header; packets read before: {len(IP) + 3}")
        self.assertEqual((status, len(found["streams"]), err.count(": 1 left out")), (1, 2, 3))
        self.assertIn(found["damaged"], err)
