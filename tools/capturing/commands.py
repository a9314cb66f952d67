"""The commands of tools/captures: each prints, and returns 1 if something is wrong with a file."""
import collections
import pathlib
import sys

from . import sending
from .datagrams import Tally, datagrams_of
from .paper import framed, frames_of, listing, received, session_of, session_text
from .proved import listed
from .recording import opened, reader_of
from .refusals import REFUSALS
from .report import as_json, as_table, report, streams_table
from .sdp import clock_rates
from .streams import Lowest, captures_of, streams_of
from .udp import Datagram

SHOWN = 20  # as many streams are told of where none has events


def say(*sentences):
    for sentence in sentences:
        print(sentence, file=sys.stderr)


def print_events(given):
    description = pathlib.Path(given.sdp).read_bytes() if given.sdp else b""
    rates = rates_of(given, description) if given.sdp else {}
    tally = Tally()
    with opened(given.recording) as file:
        found = streams_of(datagrams_of(file, tally))
        chosen = [stream for stream in found if (stream.name.payload_type in rates if given.sdp else stream.is_of_events)]
        captures = captures_of(datagrams_of(file, Tally()), chosen)
    say(*tally.told())
    unnamed = sorted({stream.name.payload_type for stream in found if stream.is_of_events and stream not in chosen})
    if unnamed:
        say(f"payload types that look like telephone events, but are left out as the SDP does not name them: {unnamed}")
    redundant = redundant_in([stream for stream in found if stream not in chosen], clock_rates(description, b"red"))
    for payload_type, packets in sorted(redundant.items()):
        say(f"redundant packets (RFC 2198) of payload type {payload_type}, which this program does not list: {packets} left out")
    reports = []
    for stream, capture in zip(chosen, captures):
        rate = given.rate or rates.get(stream.name.payload_type)
        reports.append(report(stream, rate, *listed(given.program, stream.session, capture)))
    if given.json:
        print(as_json(given.recording, tally, redundant, reports))
    else:
        print(as_table(reports), end="")
    if not chosen:
        say(*why_none(given, rates, found, tally))
    return int(not chosen or tally.damage is not None)


def rates_of(given, description):
    """The payload types that the SDP gives to telephone events, each with its clock rate: None where it gives more than one."""
    types = clock_rates(description)
    if not types:
        raise ValueError(f"{given.sdp}: it has no line  a=rtpmap:N telephone-event/RATE")
    for payload_type, rates in types.items():
        if len(rates) > 1 and not given.rate:
            say(f"the SDP gives payload type {payload_type} the clock rates {sorted(rates)}: say with --rate N which is meant")
    return {payload_type: min(rates) if len(rates) == 1 else None for payload_type, rates in types.items()}


def redundant_in(streams, named):
    """How many redundant packets have reports in them, by payload type: one that the SDP names, or that is found by its packets' looks."""
    packets = collections.Counter()
    for stream in streams:
        if stream.is_redundant or stream.name.payload_type in named and stream.redundant:
            packets[stream.name.payload_type] += stream.redundant
    return packets


def why_none(given, rates, found, tally):
    yield f"{given.recording}: no stream of telephone events is in it"
    if given.sdp:
        yield f"no packet has a payload type that the SDP gives to them: {sorted(rates)}"
    else:
        yield "the call may be encrypted, or its events are packed or of a payload type below 35: then give its SDP (--sdp FILE)"
    more = f", the first {SHOWN} of them here (tools/captures streams lists all)" if len(found) > SHOWN else ""
    yield f"UDP packets in it: {tally.datagrams}; RTP streams: {len(found)}{more}"
    yield from streams_table(found).splitlines()[: SHOWN + 1]


def streams_in(name):
    """The streams of a recording or a capture, and what else was found in it."""
    tally = Tally()
    with opened(name) as file:
        if reader_of(file):
            return streams_of(datagrams_of(file, tally)), tally
        frames, is_cut = frames_of(file.read())
    if is_cut:
        tally.damage = f"it ends inside a frame; packets read before: {len(frames)}"
    return streams_of(Datagram(b"", b"", frame) for frame in frames), tally


def print_streams(given):
    found, tally = streams_in(given.recording)
    say(*tally.told())
    print(streams_table(found) if given.session is None else session_for(found, given.session), end="")
    if not found:
        say(f"{given.recording}: no RTP packet is in it")
    return int(not found or tally.damage is not None)


def session_for(found, ssrc):
    """The session.txt of an SSRC's events, which may have passed between more than one pair of addresses."""
    sessions = [stream.session for stream in found if stream.is_of_events and stream.name.ssrc == ssrc]
    payload_types = sorted({session.pt for session in sessions})
    if not sessions:
        raise ValueError(f"there is no stream of events with SSRC {ssrc}; without --session, all streams are listed")
    if len(payload_types) > 1:
        raise ValueError(f"the events of SSRC {ssrc} have more than one payload type, {payload_types}: write one into a session")
    origin = Lowest()
    for session in sessions:
        origin.add(session.origin)
    return session_text(sessions[0]._replace(origin=origin.timestamp)).decode()


def print_frames(given):
    if given.port is None:
        found, tally = streams_in(given.recording)
        print(streams_table(found), end="")
        say(*tally.told(), "choose a port that they are sent to: tools/captures from-pcap RECORDING PORT")
        return 2
    tally, count = Tally(), 0
    with opened(given.recording) as file:
        for datagram in datagrams_of(file, tally):
            if datagram.destination[-2:] == given.port.to_bytes(2, "big"):
                sys.stdout.buffer.write(framed(datagram.payload))
                count += 1
    say(*tally.told(), f"packets sent to port {given.port}: {count}")
    return int(not count or tally.damage is not None)


def print_list(given):
    print_listing(given.session, given.capture)


def print_listing(session, capture):
    text = pathlib.Path(session).read_bytes() if pathlib.Path(session).exists() else b""
    print(listing(text, pathlib.Path(capture).read_bytes()), end="")


def print_refusals(given):
    session = session_of(pathlib.Path(given.session).read_bytes())
    if not session:
        raise ValueError(f"{given.session}: session=bad (docs/CAPTURES.md says what a session looks like)")
    answers = received(session, pathlib.Path(given.capture).read_bytes())[1]
    for number, meaning in REFUSALS.items():
        if answers[number]:
            print(f"{answers[number]:6} refused with {number}: {meaning}")


def make(given):
    sending.make(given.folder)


def print_all(given):
    names = pathlib.Path(given.folder, "captures.txt").read_text().split()
    for session, capture in zip(names[::2], names[1::2]):
        print(f"capture={capture}")
        print_listing(f"{given.folder}/{session}", f"{given.folder}/{capture}")
