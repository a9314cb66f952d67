/* The reader in plain C, behind the same boundary. */
#include "plain.h"

twimbor_read_result plain_read(twimbor_codes codes, const uint8_t *p, size_t n)
{
    twimbor_read_result r = {0};
    if (n < 12) { r.refusal = 1; return r; }
    if (p[0] >> 6 != 2) { r.refusal = 2; return r; }
    size_t at = 12 + 4 * (size_t)(p[0] & 15);
    if (n < at) { r.refusal = 3; return r; }
    if (p[0] & 16) {
        if (n < at + 4) { r.refusal = 3; return r; }
        at += 4 + 4 * ((size_t)p[at + 2] << 8 | p[at + 3]);
        if (n < at) { r.refusal = 3; return r; }
    }
    size_t end = n;
    if (p[0] & 32) {
        size_t pad = p[n - 1];
        if (pad == 0 || n - at < pad) { r.refusal = 4; return r; }
        end -= pad;
    }
    if (end - at != 4) { r.refusal = plain_misfit(end - at); return r; }
    if (!plain_has_byte(&codes, p[at])) { r.refusal = 8; return r; }
    uint32_t duration = (uint32_t)p[at + 2] << 8 | p[at + 3];
    if (duration == 0) { r.refusal = 9; return r; }
    r.report.marker = p[1] >> 7;
    r.report.payload_type = p[1] & 127;
    r.report.sequence = (uint16_t)(p[2] << 8 | p[3]);
    r.report.timestamp = (uint32_t)p[4] << 24 | (uint32_t)p[5] << 16 | (uint32_t)p[6] << 8 | p[7];
    r.report.ssrc = (uint32_t)p[8] << 24 | (uint32_t)p[9] << 16 | (uint32_t)p[10] << 8 | p[11];
    r.report.code = p[at];
    r.report.ended = p[at + 1] >> 7;
    r.report.volume = p[at + 1] & 63;
    r.report.duration = duration;
    return r;
}

uint8_t plain_misfit(size_t length)
{
    return length >= 8 && length % 4 == 0 ? 17 : 7;
}
