/* The tests of 16, the receiving call and the event list in plain C, the table behind a pointer.
 *
 * Written for speed, and built with -O3, where the compiler takes four segments at a time in the tests. Tried as a table: 12-byte
 * records, these two columns, five columns, and one 64-bit number for each segment. The two columns are fastest, but for the single
 * number, which cannot hold most of what 16 is for and saves nothing. Tried as tests: rising order and durations with an exit and the rest
 * gathered, which takes 1 ns less with 4 segments held and twice as long with 64 and more; a loop for each column, and vectors by name,
 * within 2 ns of this. Each code looked up in the set, in the same pass, takes 40 ns more with 128 held. Of the ways to write the search,
 * one that branches is fastest on the packets of bench/table.c, which come in a fixed cycle. */
#include "inline.h"

bool plain_is_valid(const twimbor_table *t)
{
    return passes(t);
}

static plain_answer refused(uint8_t refusal)
{
    return (plain_answer){refusal, false, 0};
}

INLINE plain_answer receive_valid(twimbor_table *t, const uint8_t *p, size_t n)
{
    if (n < 12) return refused(1);
    if (p[0] >> 6 != 2) return refused(2);
    size_t at = 12 + 4 * (size_t)(p[0] & 15), end = n;
    if (n < at) return refused(3);
    if (p[0] & 16) {
        if (n < at + 4) return refused(3);
        at += 4 + 4 * ((size_t)p[at + 2] << 8 | p[at + 3]);
        if (n < at) return refused(3);
    }
    if (p[0] & 32) {
        size_t pad = p[n - 1];
        if (pad == 0 || n - at < pad) return refused(4);
        end -= pad;
    }
    if ((p[1] & 127) != t->head.payload_type) return refused(5);
    if (number_32(p + 8) != t->head.ssrc) return refused(6);
    if (end - at != 4) return refused(plain_misfit(end - at));
    if (!plain_has_byte(&t->head.codes, p[at])) return refused(8);
    uint32_t units = (uint32_t)p[at + 2] << 8 | p[at + 3];
    if (units == 0) return refused(9);
    uint32_t offset = number_32(p + 4) - t->head.origin;
    if (offset >= 0x80000000u) return refused(10);
    uint64_t key = (uint64_t)offset << 8 | p[at];
    uint32_t flags = (p[at + 1] & 128 ? E : 0) | (p[1] & 128 ? M : 0), level = p[at + 1] & 63;

    size_t low = 0, high = t->head.count, probes = 0;
    for (; low < high; probes++) {
        size_t middle = (low + high) / 2;
        if (t->keys[middle] < key) low = middle + 1;
        else high = middle;
    }
    uint64_t *k = t->keys + low;
    uint32_t *h = t->heard + low;
    if (low < t->head.count && *k == key) {
        *h = merged(*h, level, flags, units);
        return (plain_answer){0, false, probes};
    }
    size_t above = t->head.count - low;
    if (t->head.count == 128) return (plain_answer){11, false, probes};
    memmove(k + 1, k, above * sizeof *k);
    memmove(h + 1, h, above * sizeof *h);
    *k = key;
    *h = first(level, flags, units);
    t->head.count++;
    return (plain_answer){0, true, probes};
}

plain_answer plain_receive_valid(twimbor_table *t, const uint8_t *p, size_t n)
{
    return receive_valid(t, p, n);
}

plain_answer plain_receive(twimbor_table *t, const uint8_t *p, size_t n)
{
    if (!passes(t)) return refused(16);
    return receive_valid(t, p, n);
}

/* Does the segment at place j, with no M, continue the one at place i, of the same code? Offsets stand from bit 8 on, so the keys
 * differ by the distance of the offsets alone. */
INLINE bool follows(const twimbor_table *t, size_t i, size_t j)
{
    uint32_t h = t->heard[i];
    return !(h & E) && t->keys[j] - t->keys[i] == (uint64_t)duration(h) << 8;
}

/* Does the segment at place i, with no M, continue the nearest earlier one of its code? */
INLINE bool continues(const twimbor_table *t, size_t i)
{
    size_t j = i;
    while (j > 0 && code(t->keys[j - 1]) != code(t->keys[i])) j--;
    return j > 0 && follows(t, j - 1, i);
}

/* Does the segment at place i begin an event? */
INLINE bool begins(const twimbor_table *t, size_t i)
{
    return t->heard[i] & M || !continues(t, i);
}

static twimbor_event event_from(const twimbor_table *t, size_t i)
{
    uint32_t h = t->heard[i];
    twimbor_event v = {code(t->keys[i]), (uint32_t)(t->keys[i] >> 8), duration(h), volume(h), quietest(h), h & M, h & E};
    if (v.ended) return v;
    for (size_t j = i + 1; j < t->head.count; j++) {
        if (code(t->keys[j]) != v.code) continue;
        h = t->heard[j];
        if (h & M || !follows(t, i, j)) break;
        v.length += duration(h);
        if (volume(h) < v.volume) v.volume = volume(h);
        if (quietest(h) > v.quietest) v.quietest = quietest(h);
        v.ended = h & E;
        i = j;
    }
    return v;
}

/* The list goes on where the event before was found, as the library's does over its event at a number. */
twimbor_listed plain_list(const twimbor_table *t, twimbor_event *out, size_t room)
{
    size_t n = 0;
    if (!passes(t)) return (twimbor_listed){16, 0};
    for (size_t i = 0; i < t->head.count; i++) n += begins(t, i);
    if (room < n) return (twimbor_listed){15, 0};
    for (size_t i = 0, k = 0; k < n; i++)
        if (begins(t, i)) out[k++] = event_from(t, i);
    return (twimbor_listed){0, n};
}
