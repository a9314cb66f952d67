"""The payload types in an SDP file: its a=rtpmap lines, in whichever section they stand."""
import re

RTPMAP = re.compile(rb"^[ \t]*a=rtpmap:[ \t]*(\d{1,3})[ \t]+([a-z-]+)/(\d{1,10})(?!\d)", re.IGNORECASE | re.MULTILINE)


def clock_rates(text, encoding=b"telephone-event"):
    """For each payload type of an encoding the clock rates that the file gives it: one, or several that differ."""
    rates = {}
    for payload_type, name, rate in RTPMAP.findall(text):
        if name.lower() == encoding and int(payload_type) < 128 and int(rate):
            rates.setdefault(int(payload_type), set()).add(int(rate))
    return rates
