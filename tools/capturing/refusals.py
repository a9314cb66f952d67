"""What a refused packet means in a recording, by the number it is refused with (docs/CAPTURES.md, "Whose fault is it?")."""

REFUSALS = {
    1: "fewer than 12 bytes, so no RTP packet: short RTCP, a keep-alive, an empty frame",
    2: "version not 2, so not RTP: STUN or DTLS on the same port, or bytes that are no packet",
    3: "CSRC list or extension runs past the end: damaged, or a fault of the sender",
    4: "pad count 0 or larger than what is there: damaged, or a fault of the sender",
    5: "another payload type: mostly sound, which is normal; redundant packets (RFC 2198) too",
    6: "another SSRC: the other direction, another call, or the sender changed its SSRC",
    7: "payload neither one report nor several: padding alone, a cut packet or, if it is all of them, an encrypted call",
    8: "event code not among the 16 keys: flash, fax and line signals",
    9: "duration 0, which RFC 4733 forbids for keys: a fault of the sender",
    10: "timestamp from before the origin, or 2^31 and more after it: list the call in parts, or from an earlier origin",
    11: "more than 128 segments: later keys are missing from this list; list the call in parts",
    17: "several reports packed into one packet, which a sender may do and this library does not read: their keys are missing",
    18: "block headers of a redundant packet run past its end: damaged, or of a payload type that is not for redundant packets",
    19: "block lengths of a redundant packet come to more than its data: damaged, or a fault of the sender",
}
