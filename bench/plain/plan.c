/* The plan's two calls in plain C, written for speed: a report is found from its number alone.
 *
 * Tried as divisions: as floats, by four comparisons where the answer is below 16, and the divide instruction, which is fastest.
 * Tried as ranges: gathered into one test, and one test each, which is faster. Tried as stores: two of 64 bits, four of 32, and one
 * for each field, which is fastest. */
#include "plan.h"

/* A segment is reported once for each period that begins in it, the last time at its end, and there twice more. */
static uint32_t reports_of(uint32_t units, uint32_t period)
{
    return (units - 1) / period + 3;
}

twimbor_count_result plain_report_count(twimbor_codes codes, twimbor_plan plan)
{
    if (!in_range(&codes, &plan)) return (twimbor_count_result){0, 12};
    uint32_t size = plan.segment_size, period = plan.period;
    if (plan.length <= size) return (twimbor_count_result){reports_of(plan.length, period), 0};
    uint32_t full = (plan.length - 1) / size, rest = plan.length - full * size;
    return (twimbor_count_result){full * reports_of(size, period) + reports_of(rest, period), 0};
}

uint8_t plain_write_report(twimbor_codes codes, twimbor_plan plan, uint32_t k, uint8_t *output, size_t bytes)
{
    if (!in_range(&codes, &plan)) return 12;
    if (bytes < 16) return k - 1 < plain_report_count(codes, plan).reports ? 14 : 13;
    uint32_t each = reports_of(plan.segment_size, plan.period), segment = (k - 1) / each;
    uint64_t before = (uint64_t)segment * plan.segment_size;
    if (before >= plan.length) return 13;       /* k = 0 too: k - 1 is then the largest number */
    return write_at(&plan, k, (uint32_t)before, (k - 1) % each * plan.period, output);
}
