"""What the tests of tools/captures share: the folders, the command line within this process, and packets that were recorded."""
import contextlib
import importlib.machinery
import importlib.util
import io
import pathlib
import sys
import tempfile

from capturing.datagrams import Tally, datagrams_of
from capturing.link import ip_packet
from capturing.recording import packets_of

HERE = pathlib.Path(__file__).resolve().parent
ROOT = HERE.parent.parent
DATA = ROOT / "crates/capture_cases/data"
FOLDER = tempfile.TemporaryDirectory()
TEMPORARY = pathlib.Path(FOLDER.name)


def script(name, text):
    path = TEMPORARY / name
    path.write_text(text)
    path.chmod(0o755)
    return str(path)


def program():
    """The proved program, or if it is not built the second one in its place."""
    built = ROOT / "target/bin/list_events"
    lines = f"""#!{sys.executable}
import sys
sys.path.insert(0, {str(ROOT / "tools")!r})
sys.dont_write_bytecode = True
from capturing.paper import listing
print(listing(open("session.txt", "rb").read(), sys.stdin.buffer.read()), end="")
"""
    return str(built) if built.exists() else script("stand_in", lines)


PROGRAM = program()


def loaded(path):
    loader = importlib.machinery.SourceFileLoader("captures", str(path))
    module = importlib.util.module_from_spec(importlib.util.spec_from_loader("captures", loader))
    loader.exec_module(module)
    return module


CAPTURES = loaded(ROOT / "tools/captures")


def run(*arguments):
    """The command line's exit status and what it writes. An exception that it lets out fails the test."""
    out, err = io.TextIOWrapper(io.BytesIO()), io.StringIO()
    with contextlib.redirect_stdout(out), contextlib.redirect_stderr(err):
        try:
            status = CAPTURES.main(list(map(str, arguments)))
        except SystemExit as end:
            status = end.code
    return status or 0, out.buffer.getvalue(), err.getvalue()


def events(recording, *options):
    return ("events", "--program", PROGRAM, *options, recording)


def read(data):
    """The datagrams of a recording that is given as bytes, and what else was found."""
    tally = Tally()
    return list(datagrams_of(io.BytesIO(data), tally)), tally


ETHERNET = [packet.data for packet in packets_of(io.BytesIO((HERE / "tcpdump_lo.pcap").read_bytes()))]
COOKED = list(packets_of(io.BytesIO((HERE / "tcpdump_any.pcap").read_bytes())))
IP = [ip_packet(packet.link, packet.data) for packet in COOKED]  # of both versions
EXPECTED = read((HERE / "tcpdump_any.pcap").read_bytes())[0]
IPV4, IPV6 = next(ip for ip in IP if ip[0] >> 4 == 4), next(ip for ip in IP if ip[0] >> 4 == 6)
