/* What plan.c and plan_by_shifts.c need beside the divisions. */
#include "plain.h"

INLINE bool in_range(const twimbor_codes *codes, const twimbor_plan *p)
{
    /* less 1, a 0 becomes the largest number */
    return p->payload_type <= 127 && plain_has(codes, p->code) && p->volume <= 63 && p->period - 1 < 65535
        && p->segment_size - 1 < 65535 && p->length - 1 < 16 * p->segment_size;
}

/* Writes report k. Its segment begins `before` units after the event, and `units` are a period for each report before it in the segment. */
INLINE uint8_t write_at(const twimbor_plan *plan, uint32_t k, uint32_t before, uint32_t units, uint8_t *output)
{
    uint32_t size = plan->segment_size, period = plan->period, rest = plan->length - before;
    if (units >= rest + 2 * period) return 13;  /* never in a segment before the last */
    bool ended = rest <= size && units >= rest;
    uint32_t end = rest < size ? rest : size, duration = units + period < end ? units + period : end;
    uint32_t timestamp = plan->start + before, sequence = plan->sequence + k - 1;
    output[0] = 0x80;
    output[1] = (uint8_t)(plan->payload_type | (k == 1) << 7);
    output[2] = (uint8_t)(sequence >> 8);
    output[3] = (uint8_t)sequence;
    output[4] = (uint8_t)(timestamp >> 24);
    output[5] = (uint8_t)(timestamp >> 16);
    output[6] = (uint8_t)(timestamp >> 8);
    output[7] = (uint8_t)timestamp;
    output[8] = (uint8_t)(plan->ssrc >> 24);
    output[9] = (uint8_t)(plan->ssrc >> 16);
    output[10] = (uint8_t)(plan->ssrc >> 8);
    output[11] = (uint8_t)plan->ssrc;
    output[12] = (uint8_t)plan->code;
    output[13] = (uint8_t)(plan->volume | (uint32_t)ended << 7);
    output[14] = (uint8_t)(duration >> 8);
    output[15] = (uint8_t)duration;
    return 0;
}
