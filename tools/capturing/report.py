"""What is found, for reading and for scripts: the events as a table and as JSON, the streams as a table."""
import json

from .refusals import REFUSALS
from .streams import place

KEYS = "0123456789*#ABCD"  # by event code


def milliseconds(units, clock_rate):
    return round(1000 * units / clock_rate, 3) if clock_rate else None


def report(stream, clock_rate, events, answers):
    """One stream with its events, as it stands in the JSON."""
    return {
        "source": place(stream.name.source),
        "destination": place(stream.name.destination),
        "ssrc": stream.name.ssrc,
        "payload_type": stream.name.payload_type,
        "clock_rate": clock_rate,
        "origin": stream.session.origin,
        "events": [
            {
                "key": KEYS[event["key"]],
                "code": event["key"],
                "start": event["start"],
                "length": event["units"],
                "start_ms": milliseconds(event["start"], clock_rate),
                "length_ms": milliseconds(event["units"], clock_rate),
                "volume": event["volume"],
                "quietest": event["quietest"],
                "began": bool(event["began"]),
                "ended": bool(event["ended"]),
            }
            for event in events
        ],
        "taken": answers[0],
        "refused": [
            {"number": number, "packets": answers[number], "meaning": meaning}
            for number, meaning in REFUSALS.items()
            if answers[number]
        ],
        "packed": answers[17],
    }


def as_json(recording, tally, redundant, reports):
    found = {
        "recording": recording,
        "packets": tally.datagrams,
        "fragments": tally.fragments,
        "partial": tally.partial,
        "undecoded": tally.undecoded,
        "unknown_link": sum(tally.unknown_links.values()),
        "redundant": sum(redundant.values()),
        "damaged": tally.damage,
        "streams": reports,
    }
    return json.dumps(found, indent=2)


def counted(number, noun):
    return f"{number or 'no'} {noun}{'' if number == 1 else 's'}"


def as_table(reports):
    text = "\n".join(map(table_of, reports))
    if any(report["clock_rate"] is None for report in reports):
        text += "\nTo have milliseconds in place of timestamp units, give --rate N (units a second) or --sdp FILE.\n"
    return text


def table_of(report):
    rate = report["clock_rate"]
    unit, suffix, width = ("ms", "_ms", 9) if rate else ("units", "", 12)
    lines = [
        f"{report['source']} > {report['destination']}  SSRC {report['ssrc']}  payload type {report['payload_type']}  "
        + (f"{rate} units a second" if rate else "clock rate unknown"),
        f"  key  {'start ' + unit:>{width}}  {'length ' + unit:>{width}}  {'volume':>8}  {'quietest':>8}",
    ]
    for event in report["events"]:
        start, length = event["start" + suffix], event["length" + suffix]
        unheard = [what for heard, what in ((event["began"], "first report"), (event["ended"], "end")) if not heard]
        row = f"  {event['key']:3}  {start:{width}.0f}  {length:{width}.0f}  {-event['volume']:3} dBm0  {-event['quietest']:3} dBm0"
        lines.append(row + (f"  {' and '.join(unheard)} not heard" if unheard else ""))
    refused = sum(refusal["packets"] for refusal in report["refused"])
    counts = f"{counted(len(report['events']), 'event')} from {counted(report['taken'], 'report')}"
    lines.append(f"{counts}; {counted(refused, 'packet')} refused" + (":" if refused else ""))
    lines += [f"{refusal['packets']:6}  with {refusal['number']}: {refusal['meaning']}" for refusal in report["refused"]]
    return "\n".join(lines) + "\n"


def streams_table(streams):
    """The streams, those with the most event packets first."""
    if not streams:
        return ""
    rows = [("source", "destination", "SSRC", "payload type", "packets", "event-like", "lowest timestamp")]
    for stream in sorted(streams, key=lambda stream: (-stream.event_like, -stream.packets)):
        numbers = (stream.name.ssrc, stream.name.payload_type, stream.packets, stream.event_like, stream.lowest.timestamp)
        rows.append((place(stream.name.source), place(stream.name.destination), *map(str, numbers)))
    widths = [max(map(len, column)) for column in zip(*rows)]
    return "".join("  ".join(cell.rjust(width) for cell, width in zip(row, widths)) + "\n" for row in rows)
