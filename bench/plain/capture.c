/* The capture call in plain C, the table behind a pointer and tested once.
 *
 * Written for speed: it counts no probes, and a packet as senders write it is received in the loop itself. The others go to
 * plain_receive_valid. The search is that of 02, request 4, which does not stop on equality; one that does takes 0.1 to 0.8 ns less,
 * and 4 ns less where the packets come at random. Tried beside it: branch-free, which takes 10 ns where the packets come at random, and
 * this one 31, but 2 to 3 ns more in each other order, and 10 ns more where new segments move many. Tried as a table: its columns and
 * head by name, which is fastest, by pointers, and in local variables. Tried as counts: each by its own, all and those refused, and sums
 * of comparisons; as a length: two bytes and one number of 16 bits. Neither matters. Every packet is looked up: a loop that tries the
 * place of the packet before first takes 4 ns in runs, but it is another algorithm than ours. */
#include "inline.h"

/* The place of a pair, or the one that it would have. */
INLINE size_t place_of(const twimbor_table *t, uint64_t key)
{
    size_t low = 0, high = t->head.count;
    while (low < high) {
        size_t middle = (low + high) / 2;
        if (t->keys[middle] < key) low = middle + 1;
        else high = middle;
    }
    return low;
}

/* The report of a packet as a sender writes it: the header's 12 bytes, the payload's 4. */
INLINE uint8_t take(twimbor_table *t, const uint8_t *p)
{
    if (!plain_has_byte(&t->head.codes, p[12])) return 8;
    uint32_t units = (uint32_t)p[14] << 8 | p[15];
    if (units == 0) return 9;
    uint32_t offset = number_32(p + 4) - t->head.origin;
    if (offset >= 0x80000000u) return 10;
    uint64_t key = (uint64_t)offset << 8 | p[12];
    uint32_t flags = (p[13] & 128 ? E : 0) | (p[1] & 128 ? M : 0), level = p[13] & 63;

    size_t place = place_of(t, key);
    if (place < t->head.count && t->keys[place] == key) {
        t->heard[place] = merged(t->heard[place], level, flags, units);
        return 0;
    }
    if (t->head.count == 128) return 11;
    size_t above = t->head.count - place;
    if (above > 0) {
        memmove(t->keys + place + 1, t->keys + place, above * sizeof *t->keys);
        memmove(t->heard + place + 1, t->heard + place, above * sizeof *t->heard);
    }
    t->keys[place] = key;
    t->heard[place] = first(level, flags, units);
    t->head.count++;
    return 0;
}

INLINE bool is_plain(const twimbor_table *t, const uint8_t *p, size_t n)
{
    return n == 16 && p[0] == 0x80 && (p[1] & 127) == t->head.payload_type && number_32(p + 8) == t->head.ssrc;
}

/* Aligned: how fast the search is goes with the place of its loop in the processor's lines, by up to a fifth. */
__attribute__((aligned(64)))
twimbor_captured plain_receive_capture(twimbor_table *t, const uint8_t *frames, size_t bytes)
{
    if (!plain_is_valid(t)) return (twimbor_captured){16, t->head.count, 0, 0, 0, 0};
    const uint8_t *p = frames, *end = frames + bytes;
    size_t taken = 0, refused = 0, packed = 0;
    while (end - p >= 2) {
        size_t length = (size_t)p[0] << 8 | p[1];
        if ((size_t)(end - p) - 2 < length) break;
        uint8_t refusal = __builtin_expect(is_plain(t, p + 2, length), 1) ? take(t, p + 2) : plain_receive_valid(t, p + 2, length).refusal;
        if (refusal == 0) taken++;
        else {
            refused++;
            packed += refusal == 17;
        }
        p += 2 + length;
    }
    return (twimbor_captured){0, t->head.count, (size_t)(p - frames), taken, refused, packed};
}
