"""Our own captures, by the sender's plan: each as it is sent and as it arrives over a bad network, and those at the edges."""
import collections
import pathlib
import random
import struct

from .paper import SEGMENT, Session, events_of, framed, receive, session_text

# For each its payload type, SSRC and origin, and its events as start, code, volume, length, period, segment size.
OWN = {
    "shopkeeper": (101, 0x53484F50, 3000000000, [(96000, 4, 10, 70000, 2400, SEGMENT)]),
    "wrap": (
        96,
        0x57524150,
        2**32 - 200000,
        [(0, 1, 10, 800, 400, SEGMENT), (16000, 5, 7, 300000, 16000, SEGMENT), (400000, 9, 12, 800, 400, SEGMENT)],
    ),
    "sixteen": (126, 0x53495854, 0, [(160, 11, 0, 16 * SEGMENT, 20000, SEGMENT)]),
    "adjacent": (97, 0x41444A41, 1000, [(0, 5, 10, SEGMENT, 8000, SEGMENT), (SEGMENT, 5, 10, 70000, 8000, SEGMENT)]),
    "many": (127, 0x4D414E59, 2**31, [(1000 * i, i % 16, i % 64, 400, 400, SEGMENT) for i in range(140)]),
    # RFC 4733, 2.5.1.3.1: the longest segment with a report every 400 units and redundant layer 2
    "short": (98, 0x53484F52, 2**32 - 60000, [(0, 4, 10, 180000, 400, 0x3FFF - (2 - 1) * 400)]),
    "sizes": (
        99,
        0x53495A45,
        7000,
        [
            (0, 1, 10, 16, 1, 1),  # as many segments as there may be, of one unit each
            (16, 1, 11, 5, 3, 2),
            (21, 1, 12, 1, 65535, 1),
            (1000, 5, 10, 1000, 160, 400),
            (2000, 5, 20, 1500, 500, 500),  # three full segments and no rest
            (3500, 5, 30, 70000, 8000, SEGMENT),
            (73500, 5, 40, 50000, 800, 15983),
            (123500, 9, 63, 16 * 4000, 4000, 4000),
            (187500, 9, 0, 4001, 3999, 4000),  # a rest of one unit
        ],
    ),
}


def plan(session, sequence, start, code, volume, length, period, size):
    """The packets of one event, by the sender's plan."""
    reports = []  # as offset, duration, E
    for cut in range(0, length, size):
        units = min(size, length - cut)
        last = cut + units == length
        reports += [(start + cut, duration, False) for duration in range(period, units, period)]
        reports += [(start + cut, units, False), (start + cut, units, last), (start + cut, units, last)]
    packets = []
    for k, (offset, duration, end) in enumerate(reports):
        marker_type, timestamp = 0x80 * (k == 0) + session.pt, (session.origin + offset) % 2**32
        header = struct.pack(">BBHII", 0x80, marker_type, (sequence + k) % 2**16, timestamp, session.ssrc)
        packets.append(header + struct.pack(">BBH", code, 0x80 * end + volume, duration))
    return packets


def sent(session, events):
    """The packets of each of some events, their sequence numbers rising from 65,500 on through all of them."""
    packets, sequence = [], 65500
    for event in events:
        packets.append(plan(session, sequence, *event))
        sequence += len(packets[-1])
    return packets


def found(session, packets):
    """The events that a table lists after some packets, each as start, code, length, volume, quietest, began, ended."""
    table = []
    for packet in packets:
        receive(session, table, packet)
    return [tuple(event.values()) for event in events_of(table)]


def needed(chance, packets):
    """A choice of what must arrive of one event: its first report, a full report of each segment but the last, one with E."""
    segments = collections.defaultdict(list)
    for packet in packets:
        segments[packet[4:8]].append(packet)
    *earlier, last = segments.values()
    needs = [[packet for packet in segment if packet[14:16] == segment[-1][14:16]] for segment in earlier]
    needs.append([packet for packet in last if packet[13] & 0x80])
    return {packets[0]} | {need[int(chance() * len(need))] for need in needs}


def strangers(chance, session, packet):
    """Packets that are refused: some for each number from 1 to 10 and for 17, made from a good packet, and random bytes."""
    too_early = struct.pack(">I", (session.origin - 1) % 2**32)
    made = [
        (1, b""),
        (1, packet[:11]),
        (2, b"\x40" + packet[1:]),
        (3, b"\x82" + packet[1:]),  # two CSRCs, eight bytes, where four are left
        (3, b"\x90" + packet[1:14] + b"\x00\x01"),  # an extension of one word that is not there
        (4, b"\xa0" + packet[1:15] + b"\x00"),
        (4, b"\xa0" + packet[1:15] + b"\x05"),
        (5, packet[:1] + bytes([packet[1] ^ 1]) + packet[2:]),
        (6, packet[:8] + bytes([packet[8] ^ 1]) + packet[9:]),
        (7, packet[:12]),
        (17, packet + packet[12:]),
        (7, b"\xa0" + packet[1:15] + b"\x04"),  # all padding
        (8, packet[:12] + b"\x10" + packet[13:]),
        (9, packet[:14] + b"\x00\x00"),
        (10, packet[:4] + too_early + packet[8:]),
    ]
    assert all(receive(session, [], stranger) == number for number, stranger in made)
    noise = [bytes(int(256 * chance()) for _ in range(int(60 * chance()))) for _ in range(8)]
    assert all(receive(session, [], stranger) in range(1, 7) for stranger in noise)
    return [stranger for _, stranger in made] + noise


def network(name, session, plans):
    """What arrives of some events' packets over a bad network: some lost, some repeated, strangers among them, in any order."""
    chance = random.Random(name).random  # this part of `random` gives the same numbers in every Python
    arrived = strangers(chance, session, plans[0][0])
    for packets in plans:
        needs = needed(chance, packets)
        for packet in packets:
            arrived += [packet] * ((packet in needs) + (0, 0, 0, 1, 1, 2)[int(6 * chance())])
    return sorted(arrived, key=lambda _: chance())


def packings(session, packet):
    """Packets on both sides of each edge of 17, made from a good packet."""
    header, report = packet[:12], packet[12:]
    padded, csrcs, extended, both = (bytes([first]) + header[1:] for first in (0xA0, 0x82, 0x90, 0x92))
    two_csrcs, one_word = b"\x00\x00\x00\x01\x00\x00\x00\x02", b"\xbe\xde\x00\x01\x00\x00\x00\x03"
    made = [
        (7, header),
        (0, packet),
        (7, packet + report[:2]),
        (7, packet + report[:3]),
        (17, packet + report),
        (7, packet + report + report[:1]),
        (17, packet + report + report),
        (7, header + 16380 * report + report[:3]),  # as long as a frame can be
        (17, header + 16380 * report),
        (17, padded + report + report + b"\x00\x00\x00\x04"),
        (0, padded + report + b"\x00\x00\x00\x04"),
        (7, padded + report + report[:3] + b"\x01"),
        (17, csrcs + two_csrcs + report + report),
        (17, extended + one_word + report + report),
        (17, both + two_csrcs + one_word + report + report),
        (5, packet[:1] + bytes([packet[1] ^ 1]) + packet[2:] + report),
        (6, packet[:8] + bytes([packet[8] ^ 1]) + packet[9:] + report),
        (17, header + b"\x10" + report[1:] + report),
    ]
    assert all(receive(session, [], packing) == number for number, packing in made)
    return [packing for _, packing in made]


def joined(session):
    """What arrives of presses with losses: those of the first row come out as one event, the others miss it by one thing each."""
    lost = {
        "nothing": lambda packet: False,
        "M": lambda packet: packet[1] >= 0x80,
        "E": lambda packet: packet[13] >= 0x80,
        "full": lambda packet: packet[14:16] == struct.pack(">H", 1000),  # then 800 is the longest report
    }
    rows = [  # presses as start, code, length and what is lost of them; the events found, as start, code, length, began, ended
        ([(0, 5, 1000, "E"), (1000, 5, 600, "M")], [(0, 5, 1600, 1, 1)]),
        ([(0, 5, 1000, "nothing"), (1000, 5, 600, "M")], [(0, 5, 1000, 1, 1), (1000, 5, 600, 0, 1)]),
        ([(0, 5, 1000, "E"), (1000, 5, 600, "nothing")], [(0, 5, 1000, 1, 0), (1000, 5, 600, 1, 1)]),
        ([(0, 5, 1000, "E"), (1000, 6, 600, "M")], [(0, 5, 1000, 1, 0), (1000, 6, 600, 0, 1)]),
        ([(0, 5, 1000, "full"), (1000, 5, 600, "M")], [(0, 5, 800, 1, 0), (1000, 5, 600, 0, 1)]),
        ([(0, 5, 1000, "E"), (1001, 5, 600, "M")], [(0, 5, 1000, 1, 0), (1001, 5, 600, 0, 1)]),
        ([(0, 5, 1000, "E"), (999, 5, 600, "M")], [(0, 5, 1000, 1, 0), (999, 5, 600, 0, 1)]),
        (  # the nearest earlier one of the code is not the one that ends there
            [(0, 5, 1000, "E"), (500, 5, 100, "E"), (1000, 5, 600, "M")],
            [(0, 5, 1000, 1, 0), (500, 5, 100, 1, 0), (1000, 5, 600, 0, 1)],
        ),
    ]
    arrived, events = [], []
    for i, (presses, listed) in enumerate(rows):
        far = 10000 * i
        plans = sent(session, [(far + start, code, 10, length, 400, SEGMENT) for start, code, length, _ in presses])
        for packets, (*_, what) in zip(plans, presses):
            arrived += [packet for packet in packets if not lost[what](packet)]
        events += [(far + start, code, length, 10, 10, began, ended) for start, code, length, began, ended in listed]
    assert found(session, arrived) == events
    return arrived


def fading(session):
    """What arrives of presses of 1,000 units whose level changes while the key is down, and of one that is steady."""
    rows = [  # segment size; the reports' volumes in turn, the last one for all that are left; the volume and quietest found
        (SEGMENT, [10], (10, 10)),
        (SEGMENT, [10, 11, 20, 30], (10, 30)),
        (SEGMENT, [30, 20, 11, 10], (10, 30)),
        (SEGMENT, [20, 5, 40, 20], (5, 40)),
        (SEGMENT, [0, 63], (0, 63)),
        (SEGMENT, [10, 12, 0x40 | 11, 0x40], (0, 12)),  # R, which is ignored
        (500, [30, 30, 30, 30, 20], (20, 30)),  # four reports of each segment: the quietest in the first one
        (500, [20, 20, 20, 20, 30], (20, 30)),
        (400, [7, 9, 8, 40, 30, 20, 12], (7, 40)),  # three reports of each segment: in the second of three
    ]
    arrived, events = [], []
    plans = sent(session, [(10000 * i, 5, 0, 1000, 400, size) for i, (size, *_) in enumerate(rows)])
    for i, (packets, (_, volumes, listed)) in enumerate(zip(plans, rows)):
        for k, packet in enumerate(packets):
            level = volumes[min(k, len(volumes) - 1)]
            arrived.append(packet[:13] + bytes([packet[13] | level]) + packet[14:])
        events.append((10000 * i, 5, 1000, *listed, 1, 1))
    assert found(session, arrived) == events
    return arrived


def edges():
    """Captures and sessions at the edges of the files' form, of packing, joining and fading, in the session of row P7."""
    session = Session(101, 0x11223344, 2**32 - 16)
    packets = plan(session, 65535, 0, 5, 10, 400, 400, SEGMENT)
    one, two, three = map(framed, packets)
    return {
        "empty": (session, b""),
        "frame_cut": (session, one + framed(b"") + two + three[:-1]),
        "length_cut": (session, one + two + three + b"\x00"),
        "packed": (session, one + b"".join(map(framed, packings(session, packets[0]))) + two + three),
        "joined": (session, b"".join(map(framed, joined(session)))),
        "fading": (session, b"".join(map(framed, fading(session)))),
        "session_bad": (session._replace(pt=128), one + two + three),
        "session_missing": (None, one + two + three),
    }


def make(folder):
    """Writes our own captures: those of OWN, each as sent and as it arrives over a bad network, and those of edges()."""
    for name, (pt, ssrc, origin, events) in OWN.items():
        session = Session(pt, ssrc, origin)
        plans = sent(session, events)
        for order, packets in ((name, sum(plans, [])), (name + "--network", network(name, session, plans))):
            write_files(folder, order, session, b"".join(map(framed, packets)))
            listed = [(start, code, length, volume, volume, 1, 1) for start, code, volume, length, *_ in events]
            # "many" has more events than there is room for: which are found is a matter of order.
            assert name == "many" or found(session, packets) == listed
    for name, (session, capture) in edges().items():
        write_files(folder, name, session, capture)


def write_files(folder, name, session, capture):
    pathlib.Path(folder, name + ".rtp").write_bytes(capture)
    if session:
        pathlib.Path(folder, name + ".session").write_bytes(session_text(session))
