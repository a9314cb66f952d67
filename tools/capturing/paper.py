"""Documents 01 and 02 written once more, apart from the proved library, so that the two can be compared: receiving and listing."""
import collections
import re
import struct

KEYS = range(16)  # the set of codes that the listing program takes
SEGMENT = 65535  # the longest segment: the largest duration that a report can hold
ROOM = 128  # the segments that a table holds
PROBES = 8  # the most of them that are looked at to find one

Session = collections.namedtuple("Session", "pt ssrc origin")


def session_of(text):
    """The session that a file's bytes say, or None if they are bad."""
    match = re.fullmatch(rb"pt=(N)\nssrc=(N)\norigin=(N)\n".replace(b"N", b"0|[1-9][0-9]{0,9}"), text)
    session = match and Session(*map(int, match.groups()))
    return session if session and session.pt < 128 and session.ssrc < 2**32 and session.origin < 2**32 else None


def session_text(session):
    return b"pt=%d\nssrc=%d\norigin=%d\n" % session


def frames_of(capture):
    """The frames in a capture, and whether its end is cut short."""
    frames, at = [], 0
    while at + 2 <= len(capture):
        end = at + 2 + int.from_bytes(capture[at : at + 2], "big")
        if end > len(capture):
            break
        frames.append(capture[at + 2 : end])
        at = end
    return frames, at < len(capture)


def framed(packet):
    return struct.pack(">H", len(packet)) + packet


def look_up(table, pair):
    """Where a pair stands in the table or would stand, found by halving, and how many segments were looked at."""
    low, high, probes = 0, len(table), 0
    while low < high:
        middle = (low + high) // 2
        probes += 1
        if table[middle]["pair"] < pair:
            low = middle + 1
        else:
            high = middle
    return low, probes


def receive(session, table, packet):
    """Takes a packet's report into the table, a list of segments by offset, then code. 0, or the refusal's number."""
    if len(packet) < 12:
        return 1
    if packet[0] >> 6 != 2:
        return 2
    start, end = 12 + 4 * (packet[0] & 0x0F), len(packet)
    if packet[0] & 0x10:  # X; where the extension's own four bytes are cut, start is past the end already
        start += 4 + 4 * int.from_bytes(packet[start + 2 : start + 4], "big")
    if start > end:
        return 3
    if packet[0] & 0x20:  # P
        if not 1 <= packet[-1] <= end - start:
            return 4
        end -= packet[-1]
    timestamp, ssrc = struct.unpack(">II", packet[4:12])
    if packet[1] & 0x7F != session.pt:
        return 5
    if ssrc != session.ssrc:
        return 6
    size = end - start
    if size != 4:
        return 17 if size >= 8 and size % 4 == 0 else 7
    code, flags, duration = struct.unpack(">BBH", packet[start:end])
    if code not in KEYS:
        return 8
    if duration == 0:
        return 9
    offset = (timestamp - session.origin) % 2**32
    if offset >= 2**31:
        return 10
    place, probes = look_up(table, (offset, code))
    assert probes <= PROBES
    if place == len(table) or table[place]["pair"] != (offset, code):
        if len(table) == ROOM:
            return 11
        table.insert(place, dict(pair=(offset, code), duration=0, volume=63, quietest=0, e=False, m=False))
    segment = table[place]
    segment["duration"] = max(segment["duration"], duration)
    segment["volume"] = min(segment["volume"], flags & 0x3F)
    segment["quietest"] = max(segment["quietest"], flags & 0x3F)
    segment["e"] |= flags >= 0x80
    segment["m"] |= packet[1] >= 0x80
    return 0


def events_of(table):
    """The events that the table's segments stand for, by start, then code."""
    events, nearest = [], {}  # nearest: for each code its latest segment so far, as (event, end); no end if it has E
    for segment in table:
        offset, code = segment["pair"]
        event, end = nearest.get(code, (None, None))
        if segment["m"] or offset != end:
            event = dict(start=offset, key=code, units=0, volume=63, quietest=0, began=int(segment["m"]), ended=0)
            events.append(event)
        event["units"] += segment["duration"]
        event["volume"] = min(event["volume"], segment["volume"])
        event["quietest"] = max(event["quietest"], segment["quietest"])
        event["ended"] = int(segment["e"])
        nearest[code] = event, None if segment["e"] else offset + segment["duration"]
    return events


def received(session, capture):
    """The table after a whole capture, how many packets had which answer (0: taken), and whether the capture is cut short."""
    frames, cut = frames_of(capture)
    table = []
    answers = collections.Counter(receive(session, table, packet) for packet in frames)
    return table, answers, cut


def listing(text, capture):
    """What the listing program prints, given a session file's bytes and a capture."""
    session = session_of(text)
    if not session:
        return "session=bad\n"
    table, answers, cut = received(session, capture)
    events = events_of(table)
    refused = sum(answers.values()) - answers[0]
    counts = dict(events=len(events), taken=answers[0], refused=refused, packed=answers[17], cut=int(cut))
    return "".join(f"{name}={number}\n" for lines in events + [counts] for name, number in lines.items())
