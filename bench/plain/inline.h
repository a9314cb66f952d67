/* What table.c, capture.c and redundant.c need of a table and of a packet. */
#include "plain.h"

enum { DURATION = 0xffff, E = 1 << 16, M = 1 << 17, QUIETEST = 63 << 18 };
static const uint32_t VOLUME = 255u << 24;

static inline uint8_t code(uint64_t key) { return (uint8_t)key; }
static inline uint16_t duration(uint32_t heard) { return (uint16_t)heard; }
static inline uint8_t volume(uint32_t heard) { return (uint8_t)(heard >> 24); }
static inline uint8_t quietest(uint32_t heard) { return (uint8_t)(heard >> 18 & 63); }

static inline uint32_t smaller(uint32_t a, uint32_t b) { return a < b ? a : b; }
static inline uint32_t larger(uint32_t a, uint32_t b) { return a > b ? a : b; }

/* What a report says of a new segment, and of one of which something was heard. */
INLINE uint32_t first(uint32_t level, uint32_t flags, uint32_t units)
{
    return level << 24 | level << 18 | flags | units;
}

INLINE uint32_t merged(uint32_t heard, uint32_t level, uint32_t flags, uint32_t units)
{
    return (smaller(heard, level << 24) & VOLUME) | larger(heard & QUIETEST, level << 18) | (heard & (E | M)) | flags
        | larger(duration(heard), units);
}

static inline uint32_t number_32(const uint8_t *p)
{
    return (uint32_t)p[0] << 24 | (uint32_t)p[1] << 16 | (uint32_t)p[2] << 8 | p[3];
}

/* From a segment's volume, in the place of its quietest and two bits above, the quietest is taken with the duration at its right:
 *
 *        25      18 17   16 15      0
 *          volume       0       0
 *     -   quietest      0   duration
 *
 * Bit 16 tells whether something was borrowed, which is so if the duration is not 0, and then bit 31 whether the quietest is not below
 * the volume. A quietest of 6 bits is at most 63, so this fails a volume above 63 too. */
INLINE uint32_t borrowed(uint32_t heard)
{
    return (heard >> 6 & VOLUME >> 6) - (heard & (QUIETEST | DURATION));
}

/* The tests of 16, in bits that are gathered from all segments and looked at once: those that have to be 0 in all keys, and those that
 * have to be 1 in what was borrowed and in each key less the next one, which is negative if they rise. */
INLINE bool passes(const twimbor_table *t)
{
    const uint64_t *k = t->keys;
    const uint32_t *h = t->heard;
    const uint32_t both = 1u << 31 | 1 << 16;
    size_t n = t->head.count;
    if (n > 128 || t->head.payload_type > 127) return false;
    if (t->head.both_types && (t->head.redundant_type > 127 || t->head.redundant_type == t->head.payload_type)) return false;
    if (n == 0) return true;
    uint64_t keys = k[0], rising = UINT64_MAX;
    uint32_t borrows = borrowed(h[0]);
    for (size_t i = 1; i < n; i++) {
        keys |= k[i];
        rising &= k[i - 1] - k[i];
        borrows &= borrowed(h[i]);
    }
    if (keys >> 39 || !(rising >> 63) || ~borrows & both) return false;
    if (code(keys) < 16 && (uint16_t)t->head.codes.from_0 == 0xffff) return true;
    for (size_t i = 0; i < n; i++) if (!plain_has(&t->head.codes, code(k[i]))) return false;
    return true;
}
