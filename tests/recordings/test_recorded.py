"""The recordings of this folder."""
import json
import os
import re
import subprocess
import sys
import unittest

from capturing import paper
from trying import DATA, HERE, ROOT, TEMPORARY, events, run

RECORDED = {  # the options that each is listed with, and the captures that are in it
    "tcpdump_lo.pcap": (["--sdp", "tcpdump_lo.pcap.sdp"], ["libre_keys_8k", "sipp_pcaps"]),
    "tcpdump_any.pcap": ([], ["shopkeeper", "gst_keys_8k"]),
    "tcpdump_any_sll.pcap": (["--rate", "8000"], ["ortp_keys", "chromium_keys_8k"]),
    "dumpcap_lo.pcapng": (["--sdp", "dumpcap_lo.pcapng.sdp"], ["baresip_long_8k"]),
    "dumpcap_lo.pcap": (["--rate", "48000"], ["wrap"]),
    "tshark_lo.pcapng": (["--sdp", "tshark_lo.pcapng.sdp"], ["chromium_keys_8k", "sixteen"]),
}


class Recorded(unittest.TestCase):
    def test_lists(self):
        for name, (options, _) in RECORDED.items():
            for form, more in (("txt", []), ("json", ["--json"])):
                status, out, err = run(*events(name, *options, *more))
                self.assertEqual(out.decode(), (HERE / f"{name}.{form}").read_text(), name)
                several = "the SDP gives payload type 126 the clock rates [8000, 48000]: say with --rate N which is meant\n"
                self.assertEqual((status, err), (0, several if name == "tshark_lo.pcapng" else ""))

    def test_lists_are_those_of_the_captures(self):
        lists = dict(re.findall(r"capture=(.*)\.rtp\n((?:(?!capture).*\n)*)", (ROOT / "crates/capture_cases/stdout").read_text()))
        for name, (_, captures) in RECORDED.items():
            found = json.loads((HERE / f"{name}.json").read_text())["streams"]
            self.assertEqual(len(found), len(captures))
            for capture, stream in zip(captures, found):
                session = paper.session_of((DATA / f"{capture}.session").read_bytes())
                self.assertEqual((stream["payload_type"], stream["ssrc"]), session[:2])
                text = ""
                for event in stream["events"]:
                    start = (event["start"] + stream["origin"] - session.origin) % 2**32
                    text += f"start={start}\nkey={event['code']}\nunits={event['length']}\n"
                    text += f"volume={event['volume']}\nquietest={event['quietest']}\n"
                    text += f"began={int(event['began'])}\nended={int(event['ended'])}\n"
                text += f"events={len(stream['events'])}\ntaken={stream['taken']}\n"
                self.assertEqual(text, lists[capture][: len(text)], capture)

    def test_streams_and_frames(self):
        _, out, _ = run("streams", "dumpcap_lo.pcapng")
        rows = [row.split() for row in out.decode().splitlines()[1:]]
        self.assertEqual(rows[0], ["127.0.0.1:40000", "127.0.0.1:40002", "2355254109", "96", "516", "516", "61597"])
        self.assertEqual([row[2:5] for row in rows[1:]], [["2355254109", "8", "88"], ["65261", "0", "3"]])
        for given in ("dumpcap_lo.pcapng", DATA / "baresip_long_8k.rtp"):
            session = (DATA / "baresip_long_8k.session").read_bytes()
            self.assertEqual(run("streams", given, "--session", "0x8c62535d"), (0, session, ""))
        status, listed, err = run("from-pcap", "dumpcap_lo.pcapng")
        self.assertEqual((status, listed), (2, out))
        self.assertIn("choose a port", err)
        _, frames, _ = run("from-pcap", "dumpcap_lo.pcapng", "40002")
        capture = (DATA / "baresip_long_8k.rtp").read_bytes()
        self.assertEqual(frames[-len(capture) :], capture)
        self.assertEqual(len(paper.frames_of(frames[: -len(capture)])[0]), 2)  # STUN and RTCP

    def test_from_a_pipe_and_through_a_link(self):
        link = TEMPORARY / "linked"
        link.symlink_to(ROOT / "tools/captures")
        command = f"cat tcpdump_any.pcap | {sys.executable} {link} {' '.join(events('/dev/stdin'))}"
        by_itself = {**os.environ, "PYTHONSAFEPATH": "1"}
        ran = subprocess.run(["sh", "-c", command], env=by_itself, capture_output=True, text=True)
        self.assertEqual(ran.stdout, (HERE / "tcpdump_any.pcap.txt").read_text(), ran.stderr)
