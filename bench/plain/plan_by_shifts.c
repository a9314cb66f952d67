/* The plan's two calls in plain C with no divide instruction, written for speed: quotients by shifts and subtractions. A count takes at
 * most 36 steps, 4 and twice 16; a report 20, 16 and 4, or those of a count if its output is too short.
 *
 * Tried as a step: with a branch, with a mask, with the quotient in a number of its own, with the remainder shifted up in place of the
 * divisor down, for two bits at once, and this one, which is fastest. Tried as numbers of steps: always 16, 10 or 16, and 5, 10 or 16,
 * which is fastest; and as many as the quotient has bits, found by doubling the divisor or by counting leading zeros, which takes as long,
 * but 3 to 4 ns more with so many plans that the processor does not learn the branches. Tried as loops: not unrolled, which takes 1 ns
 * more, and the two quotients of a count one after the other, which takes 0.7 ns more. Each call takes 1.2 ns more without its branch for
 * what needs fewer divisions: one segment, and the first of several. */
#include "plan.h"

/* One bit of a quotient. `both` has the remainder above the quotient, `shifted` the divisor less the bit: one subtraction takes the
 * divisor off the remainder and sets the bit, and is negative if the divisor does not fit. */
INLINE uint64_t step(uint64_t both, uint64_t shifted)
{
    uint64_t less = both - shifted;
    return (int64_t)less < 0 ? both : less;
}

/* n % d above n / d, which has so many bits at most. */
INLINE uint64_t divide(uint32_t n, uint32_t d, int bits)
{
    uint64_t both = (uint64_t)n << bits, by = ((uint64_t)d << bits) - 1;
#pragma GCC unroll 16
    for (int bit = bits - 1; bit >= 0; bit--) both = step(both, by << bit);
    return both;
}

INLINE uint32_t quotient(uint64_t both, int bits)
{
    return (uint32_t)both & ((1u << bits) - 1);
}

/* A segment is reported once for each period that begins in it, the last time at its end, and there twice more. */
INLINE uint32_t reports_of(uint32_t units, uint32_t period)
{
    uint32_t n = units - 1;
    if (n >> 5 < period) return quotient(divide(n, period, 5), 5) + 3;
    if (n >> 10 < period) return quotient(divide(n, period, 10), 10) + 3;
    return quotient(divide(n, period, 16), 16) + 3;
}

/* The reports of so many full segments and of the rest, which is no longer than one: the two quotients side by side. */
INLINE uint32_t reports_of_all(uint32_t full, uint32_t size, uint32_t rest, uint32_t period, int bits)
{
    uint64_t a = (uint64_t)(size - 1) << bits, b = (uint64_t)(rest - 1) << bits, by = ((uint64_t)period << bits) - 1;
#pragma GCC unroll 16
    for (int bit = bits - 1; bit >= 0; bit--) {
        a = step(a, by << bit);
        b = step(b, by << bit);
    }
    return full * (quotient(a, bits) + 3) + quotient(b, bits) + 3;
}

twimbor_count_result plain_report_count_by_shifts(twimbor_codes codes, twimbor_plan plan)
{
    if (!in_range(&codes, &plan)) return (twimbor_count_result){0, 12};
    uint32_t size = plan.segment_size, period = plan.period;
    if (plan.length <= size) return (twimbor_count_result){reports_of(plan.length, period), 0};
    uint64_t both = divide(plan.length - 1, size, 4);
    uint32_t full = quotient(both, 4), rest = (uint32_t)(both >> 4) + 1, reports;
    if ((size - 1) >> 5 < period) reports = reports_of_all(full, size, rest, period, 5);
    else if ((size - 1) >> 10 < period) reports = reports_of_all(full, size, rest, period, 10);
    else reports = reports_of_all(full, size, rest, period, 16);
    return (twimbor_count_result){reports, 0};
}

uint8_t plain_write_report_by_shifts(twimbor_codes codes, twimbor_plan plan, uint32_t k, uint8_t *output, size_t bytes)
{
    if (!in_range(&codes, &plan)) return 12;
    if (bytes < 16) return k - 1 < plain_report_count_by_shifts(codes, plan).reports ? 14 : 13;
    uint32_t size = plan.segment_size, period = plan.period, earlier = k - 1, before = 0;
    if (earlier > 2 && (uint64_t)(earlier - 2) * period >= size) {  /* not in the first segment, which a product tells */
        uint32_t each = reports_of(size, period);
        if (earlier >> 4 >= each) return 13;    /* k = 0 too: k - 1 is then the largest number */
        uint64_t both = divide(earlier, each, 4);
        earlier = (uint32_t)(both >> 4);
        before = quotient(both, 4) * size;
        if (before >= plan.length) return 13;
    }
    return write_at(&plan, k, before, earlier * period, output);
}
