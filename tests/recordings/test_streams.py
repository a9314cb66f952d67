"""Streams, their sessions, SDP, and refusals in words."""
import json
import random
import struct
import unittest

from capturing import commands, paper, sdp, sending, streams
from made import pcap
from trying import DATA, EXPECTED, IPV4, TEMPORARY, events, run


def datagram(payload):
    return EXPECTED[0]._replace(payload=payload)


def ipv4_packet(payload):
    udp = struct.pack(">HHHH", 4000, 5000, len(payload) + 8, 0) + payload
    return b"\x45\x00" + struct.pack(">H", len(udp) + 20) + IPV4[4:20] + udp


class Streams(unittest.TestCase):
    def datagrams(self, capture):
        return [datagram(frame) for frame in paper.frames_of((DATA / f"{capture}.rtp").read_bytes())[0]]

    def test_lowest_timestamp_in_any_order(self):
        for capture in ("wrap", "shopkeeper", "baresip_long_8k"):
            found, session = self.datagrams(capture), paper.session_of((DATA / f"{capture}.session").read_bytes())
            for seed in range(5):
                random.Random(seed).shuffle(found)
                text = commands.session_for(streams.streams_of(found), session.ssrc)
                lowest = session.origin + (96000 if capture == "shopkeeper" else 0)
                self.assertEqual(paper.session_of(text.encode()), session._replace(origin=lowest))

    def test_event_like(self):
        report, header = b"\x05\x0a\x01\x90", b"\x65" + bytes(10)
        for packet, expected in (
            (b"\x80" + header + report, True),
            (b"\x80" + header + report[:3], False),
            (b"\x80" + header + report + report, False),
            (b"\x80" + header + b"\x05\x4a\x01\x90", False),  # reserved bit
            (b"\x82" + header + bytes(8) + report, True),
            (b"\x82" + header + report, False),
            (b"\x90" + header + b"\xbe\xde\x00\x01" + bytes(4) + report, True),
            (b"\x90" + header + report, False),
            (b"\xa0" + header + report + b"\x00\x02", True),
            (b"\xa0" + header + report[:3] + b"\x00", False),
            (b"\xa0" + header + report + b"\x00\x00\x00\x18", False),  # 24 bytes of padding where there are 8
        ):
            self.assertEqual(streams.is_event_like(packet), expected, packet.hex())

    def test_reports_in_blocks(self):
        report, sound = b"\x05\x0a\x01\x90", bytes(160)
        older, fewer, pcmu = b"\xe5\x0f\xa0\x04", b"\xe5\x0f\xa0\x03", b"\x80\x02\x80\xa0"
        for payload, expected in (
            (older + older + b"\x65" + 3 * report, True),
            (b"\x65" + report, True),
            (older + b"\x00" + report + sound, True),
            (pcmu + b"\x65" + sound + report, True),
            (pcmu + b"\x00" + sound + sound, False),
            (b"\x22" + report, False),  # RFC 3551 gives the type, 34, to video
            (fewer + b"\x65" + report[:3] + report[:3], False),
            (fewer + b"\x65" + report[:3] + b"\x05\x4a\x01\x90", False),  # reserved bit
            (older + b"\x65" + report[:3], False),  # lengths above the data
            (older + b"\x65" + report, True),
            (older + older, False),  # no last header
            (older[:3], False),
            (b"", False),
        ):
            self.assertEqual(streams.has_report_in_block(b"\x80\x64" + bytes(10) + payload), expected, payload.hex())
        padded = b"\xa1\x64" + bytes(14) + b"\x65" + report + b"\x00\x02"
        self.assertEqual(streams.blocks_of(streams.payload_of(padded)), [(0x65, report)])

    def test_redundant_packets_are_told_of(self):
        report, ssrc = b"\x05\x8a\x01\x90", struct.pack(">I", 7)
        header = [b"\x80" + bytes([kind]) + bytes(6) + ssrc for kind in (101, 100)]
        plain, redundant = header[0] + report, header[1] + b"\xe5\x0f\xa0\x04\x65" + report + report
        sound = header[1] + b"\x80\x02\x80\xa0\x00" + bytes(320)  # of the same payload type, with no report in it
        path, description = TEMPORARY / "redundant.pcap", TEMPORARY / "redundant.sdp"
        words = "redundant packets (RFC 2198) of payload type 100, which this program does not list: 2 left out\n"
        events_only = "a=rtpmap:101 telephone-event/8000\n"
        for packets, text, told in (
            ([plain, redundant, redundant], None, words),
            ([plain, redundant, redundant, sound, sound], None, ""),
            ([plain, redundant, redundant, sound, sound], events_only, ""),
            ([plain, redundant, redundant, sound, sound], events_only + "a=rtpmap:100 RED/8000/1\na=fmtp:100 101/101\n", words),
            ([plain, redundant, redundant], events_only, words),
            ([plain, sound], events_only + "a=rtpmap:100 red/8000\n", ""),
        ):
            path.write_bytes(pcap(map(ipv4_packet, packets), 101))
            description.write_text(text or "")
            status, out, err = run(*events(path, *(["--sdp", description] if text else [])))
            self.assertEqual((status, out.decode().count("1 event from 1 report"), err), (0, 1, told))
        path.write_bytes(pcap(map(ipv4_packet, [redundant, redundant]), 101))
        status, out, err = run(*events(path))
        self.assertEqual((status, out), (1, b""))
        self.assertTrue(err.startswith(words))
        self.assertIn("no stream of telephone events", err)
        self.assertEqual(json.loads(run(*events(path, "--json"))[1])["redundant"], 2)

    def test_what_is_a_stream_of_events(self):
        packet = paper.frames_of((DATA / "shopkeeper.rtp").read_bytes())[0][0]

        def of_type(payload_type):
            return datagram(packet[:1] + bytes([payload_type]) + packet[2:])

        def chosen(*found):
            return [stream.name.payload_type for stream in streams.streams_of(found) if stream.is_of_events]

        self.assertEqual(chosen(of_type(34), of_type(35), of_type(127), of_type(200)), [35, 127])  # 200 is RTCP
        other = datagram(packet[:1] + b"\x65" + packet[2:] + bytes(100))
        self.assertEqual((chosen(of_type(101), other), chosen(of_type(101), other, of_type(101))), ([], [101]))

    def test_one_session_for_an_ssrc(self):
        found = self.datagrams("wrap")
        one = found[0].payload
        early = datagram(b"\xa0" + one[1:4] + struct.pack(">I", 2**32 - 300000) + one[8:12] + b"\x01")  # padding alone
        text = commands.session_for(streams.streams_of([early] + found), 0x57524150)
        self.assertEqual(text, (DATA / "wrap.session").read_text())
        other = [one._replace(source=b"\1\2\3\4\5\6") for one in found[10:]]
        text = commands.session_for(streams.streams_of(other + found), 0x57524150)
        self.assertEqual(text, (DATA / "wrap.session").read_text())
        other = [datagram(one.payload[:1] + b"\x65" + one.payload[2:]) for one in found]
        self.assertRaisesRegex(ValueError, r"\[96, 101\]", commands.session_for, streams.streams_of(other + found), 0x57524150)

    def test_sdp(self):
        for text, expected in (
            (b"m=audio 1 RTP/AVP 0 101\na=rtpmap:101 telephone-event/8000\n", {101: {8000}}),
            (b"a=rtpmap:101 Telephone-Event/8000\r\na=fmtp:101 0-15\r\n", {101: {8000}}),
            (b"a=rtpmap:101 telephone-event/8000/1\na=rtpmap:110 telephone-event/48000", {101: {8000}, 110: {48000}}),
            (b"a=rtpmap:101 telephone-event/8000\nm=audio\na=rtpmap:101 telephone-event/16000\n", {101: {8000, 16000}}),
            (b"a=rtpmap:101 telephone-event/8000\nm=audio\na=rtpmap:101 telephone-event/8000\n", {101: {8000}}),
            (b"a=rtpmap:0 PCMU/8000\nb=a=rtpmap:101 telephone-event/8000\n", {}),
            (b"a=rtpmap:128 telephone-event/8000\na=rtpmap:101 telephone-event/0\na=rtpmap:102 telephone-event/\n", {}),
            (b"", {}),
            (bytes(range(256)), {}),
        ):
            self.assertEqual(sdp.clock_rates(text), expected)
        text = b"a=rtpmap:100 red/8000/1\na=rtpmap:101 telephone-event/8000\na=rtpmap:102 redundant/8000\na=rtpmap:63 RED/48000/2\n"
        self.assertEqual(sdp.clock_rates(text, b"red"), {100: {8000}, 63: {48000}})

    def test_fading_keys(self):
        path = TEMPORARY / "fading.pcap"
        path.write_bytes(pcap(map(ipv4_packet, sending.fading(paper.Session(101, 7, 0))), 101))
        found = json.loads(run(*events(path, "--json"))[1])["streams"][0]["events"]
        levels = [(event["volume"], event["quietest"]) for event in found]
        self.assertEqual(levels, [(10, 10), (10, 30), (10, 30), (5, 40), (0, 63), (0, 12), (20, 30), (20, 30), (7, 40)])
        status, out, err = run(*events(path))
        self.assertEqual((status, err), (0, ""))
        for row in (
            "  key   start units  length units    volume  quietest",
            "  5               0          1000  -10 dBm0  -10 dBm0",
            "  5           10000          1000  -10 dBm0  -30 dBm0",
            "  5           40000          1000    0 dBm0  -63 dBm0",
        ):
            self.assertIn(row + "\n", out.decode())

    def test_refusals_in_words(self):
        many = self.datagrams("many")
        packed = [datagram(one.payload + one.payload[12:]) for one in self.datagrams("wrap")]
        path, description = TEMPORARY / "refused.pcap", TEMPORARY / "refused.sdp"
        path.write_bytes(pcap([ipv4_packet(one.payload) for one in many + packed], 101))
        description.write_text("a=rtpmap:96 telephone-event/8000\na=rtpmap:127 telephone-event/8000\n")
        status, out, err = run(*events(path, "--sdp", description, "--rate", "1000"))
        text = out.decode()
        self.assertIn("128 events from 384 reports; 36 packets refused:\n    36  with 11: more than 128 segments: later keys", text)
        self.assertIn("no events from no reports; 41 packets refused:\n    41  with 17: several reports packed", text)
        self.assertEqual((status, err, text.count("1000 units a second")), (0, "", 2))
        description.write_text("a=rtpmap:96 telephone-event/8000\n")
        status, out, err = run(*events(path, "--sdp", description))
        self.assertEqual((status, out.decode().count("SSRC")), (0, 1))
        self.assertRegex(err, r"the SDP does not name them: \[127\]")
        path.write_bytes(pcap([ipv4_packet(one.payload) for one in packed], 101))
        status, out, err = run(*events(path, "--json"))
        self.assertEqual((status, json.loads(out)["streams"]), (1, []))
        self.assertRegex(err, "(?s)no stream of telephone events.*give its SDP.*UDP packets in it: 41; RTP streams: 1.*1465008464")
