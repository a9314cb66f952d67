"""Recordings that are cut or damaged."""
import io
import random
import re
import struct
import unittest

from capturing.recording import Damaged, NotARecording, packets_of
from capturing.report import streams_table
from capturing.streams import streams_of
from made import block, enhanced, first_blocks, interface, pcap, section
from trying import ETHERNET, HERE, read

SMALL = [pcap(ETHERNET[:20]), first_blocks((HERE / "tshark_lo.pcapng").read_bytes(), 20)]


def packets_before_damage(data):
    packets = []
    try:
        for packet in packets_of(io.BytesIO(data)):
            packets.append(packet)
    except Damaged as damage:
        return packets, str(damage)
    return packets, None


class Damage(unittest.TestCase):
    def test_every_prefix(self):
        for data in SMALL:
            whole, _ = packets_before_damage(data)
            undamaged = 0
            for size in range(4, len(data)):
                packets, damage = packets_before_damage(data[:size])
                self.assertEqual(packets, whole[: len(packets)])
                undamaged += damage is None
                self.assertTrue(damage is None or re.fullmatch(rf"it ends inside .*; packets read before: {len(packets)}", damage))
            self.assertEqual(undamaged, 20 if data is SMALL[0] else 19)  # where a packet or block ends
            for size in range(4):
                self.assertRaises(NotARecording, packets_before_damage, data[:size])

    def test_impossible_lengths(self):
        order, head = "<", section("<") + interface("<", 1)
        good, length = enhanced(order, 0, ETHERNET[0]), struct.pack
        at = len(good) - len(block(order, 0x0BAD, b"other"))
        one = good[:at]
        for size in (0xFFFFFFFF, 0x7FFFFFF0, 0, 4, 8, 11, len(one) + 1):
            bad = one[:4] + length("<I", size) + one[8:]
            damage = packets_before_damage(head + good + good + bad)[1]
            self.assertEqual(damage, f"a block's length, {size}, is impossible; packets read before: 2")
        for bad in (one[:4] + length("<I", len(one) - 4) + one[8:], one[:-4] + length("<I", len(one) + 4)):
            self.assertRegex(packets_before_damage(head + good + bad)[1], "two lengths differ; packets read before: 1")
        bad = one[:20] + length("<I", len(ETHERNET[0]) + 4) + one[24:]
        self.assertRegex(packets_before_damage(head + bad)[1], "too short for it; packets read before: 0")
        self.assertRegex(packets_before_damage(head + enhanced(order, 1, b""))[1], "not described")
        self.assertRegex(packets_before_damage(head + block(order, 6, bytes(16)))[1], "shorter than its fields")
        self.assertRegex(packets_before_damage(section("<")[:8] + bytes(20))[1], "byte order")
        for size in (0xFFFFFFFF, 0x80000000, 262145):
            bad = pcap(ETHERNET[:2]) + length("<IIII", 0, 0, size, size) + bytes(100)
            self.assertEqual(packets_before_damage(bad)[1], f"a packet's length, {size}, is impossible; packets read before: 2")

    def test_random_bytes(self):
        chance = random.Random(4733)
        for data in SMALL:
            for _ in range(400):
                bad = bytearray(data)
                for _ in range(chance.choice((1, 1, 5, 50))):
                    bad[chance.randrange(4, len(bad))] = chance.randrange(256)
                found, tally = read(bytes(bad))
                streams_table(streams_of(found))
                list(tally.told())
