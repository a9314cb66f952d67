"""The command line: wrong use, output that is not taken, our own captures."""
import os
import subprocess
import sys
import unittest

from trying import DATA, PROGRAM, ROOT, TEMPORARY, events, run, script


class CommandLine(unittest.TestCase):
    def test_wrong_use(self):
        recording, folder = "tcpdump_any.pcap", TEMPORARY
        (folder / "zipped.pcap").write_bytes(b"\x1f\x8b\x08\x00")
        (folder / "empty").write_bytes(b"")
        (folder / "plain.sdp").write_text("m=audio 1 RTP/AVP 0\n")
        (folder / "private").write_bytes(b"")
        (folder / "private").chmod(0)
        fails = script("fails", "#!/bin/sh\necho session.txt is missing >&2\nexit 3\n")
        silent = script("silent", "#!/bin/sh\nexit 3\n")
        differs = script("differs", "#!/bin/sh\ncat >/dev/null\necho events=0\n")
        cases = [  # status, words of the sentence, arguments
            (2, "COMMAND", []),
            (2, "invalid choice: 'lists'", ["lists"]),
            (2, "--program", ["events", recording]),
            (2, "RECORDING", ["events", "--program", PROGRAM]),
            (2, "unrecognized arguments: other", [*events(recording), "other"]),
            (2, "'fast' is no whole number", events(recording, "--rate", "fast")),
            (2, "'0' is no whole number from 1", events(recording, "--rate", "0")),
            (2, "'65536' is no whole number", ["from-pcap", recording, "65536"]),
            (2, "'-1' is no whole number|unrecognized|invalid", ["from-pcap", recording, "-1"]),
            (2, "'4 000' is no whole number", ["from-pcap", recording, "4 000"]),
            (2, "'4294967296' is no whole number", ["streams", recording, "--session", "4294967296"]),
            (2, "SESSION, CAPTURE", ["list"]),
            (1, "none.pcap: No such file", events("none.pcap")),
            (1, "none.pcap: No such file", ["streams", "none.pcap"]),
            (1, "none.sdp: No such file", events(recording, "--sdp", "none.sdp")),
            (1, "Is a directory", events(folder)),
            (1, "Is a directory", ["from-pcap", folder, "1"]),
            (1, "Is a directory", ["list", folder, folder]),
            (1, "No such file", ["all", folder]),
            (1, "No such file", ["make", folder / "none"]),
            (1, "session=bad", ["refusals", recording, recording]),
            (1, "zipped.pcap: it is compressed .gzip.", events(folder / "zipped.pcap")),
            (1, "zipped.pcap: it is compressed .gzip.", ["streams", folder / "zipped.pcap"]),
            (1, "empty: it is neither pcap nor pcapng", events(folder / "empty")),
            (1, "shopkeeper.rtp: it is neither pcap nor pcapng", events(DATA / "shopkeeper.rtp")),
            (1, "empty: no RTP packet", ["streams", folder / "empty"]),
            (1, "no stream of events with SSRC 5", ["streams", recording, "--session", "5"]),
            (1, "packets sent to port 9: 0", ["from-pcap", recording, "9"]),
            (1, "it ends inside a frame; packets read before: 0", ["streams", folder / "plain.sdp"]),
            (1, "no line  a=rtpmap", events(recording, "--sdp", folder / "plain.sdp")),
            (1, "No such file", ["events", "--program", folder / "none", recording]),
            (1, "Permission denied", ["events", "--program", folder / "plain.sdp", recording]),
            (1, "fails failed: session.txt is missing", ["events", "--program", fails, recording]),
            (1, "silent failed: it ended with status 3", ["events", "--program", silent, recording]),
            (1, "TWO PROGRAMS DIFFER.*keep the recording", ["events", "--program", differs, recording]),
        ]
        if os.geteuid():
            cases.append((1, "private: Permission denied", ["streams", folder / "private"]))
        for status, words, arguments in cases:
            found, out, err = run(*arguments)
            self.assertEqual((found, out), (status, b""), arguments)
            self.assertRegex(err, words)

    def test_output_that_is_not_taken(self):
        reader, closed = os.pipe()
        os.close(reader)
        cases = [(closed, "")]
        if os.path.exists("/dev/full"):
            cases.append((os.open("/dev/full", os.O_WRONLY), "tools/captures: No space left on device\n"))
        for out, err in cases:
            for arguments in (["streams", "tcpdump_any.pcap"], ["from-pcap", "tcpdump_any.pcap", "40002"]):
                command = [sys.executable, ROOT / "tools/captures", *arguments]
                buffered = {**os.environ, "PYTHONUNBUFFERED": ""}
                ran = subprocess.run(command, env=buffered, stdout=out, stderr=subprocess.PIPE, text=True)
                self.assertEqual((ran.returncode, ran.stderr.replace("packets sent to port 40002: 36\n", "")), (1, err))
            os.close(out)

    def test_own_captures(self):
        made = TEMPORARY / "made"
        made.mkdir()
        self.assertEqual(run("make", made), (0, b"", ""))
        for path in made.iterdir():
            self.assertEqual(path.read_bytes(), (DATA / path.name).read_bytes(), path.name)
        self.assertEqual(run("all", DATA), (0, (ROOT / "crates/capture_cases/stdout").read_bytes(), ""))
