/* The receiving call for redundant packets and the walker in plain C, the table behind a pointer.
 *
 * Written for speed. One pass over the block headers, each read as one number, finds 18, 19 and the count for 15; a second one takes the
 * blocks. Tried beside it: `take` as a function, which costs 4 ns with three blocks; a report read as one number, and a search without
 * branches, which gain nothing. The walker trusts its cursor, which ours tests. */
#include "inline.h"

/* Where the payload begins and ends, or the refusal, 1 to 4. */
INLINE uint8_t payload_of(const uint8_t *p, size_t n, size_t *start, size_t *end)
{
    if (n < 12) return 1;
    *start = 12;
    *end = n;
    if (__builtin_expect(p[0] == 0x80, 1)) return 0; /* as senders write it */
    if (p[0] >> 6 != 2) return 2;
    size_t at = 12 + 4 * (size_t)(p[0] & 15);
    if (n < at) return 3;
    if (p[0] & 16) {
        if (n < at + 4) return 3;
        at += 4 + 4 * ((size_t)p[at + 2] << 8 | p[at + 3]);
        if (n < at) return 3;
    }
    if (p[0] & 32) {
        size_t pad = p[n - 1];
        if (pad == 0 || n - at < pad) return 4;
        *end -= pad;
    }
    *start = at;
    return 0;
}

/* An older block's header in one number: F and the type, 14 bits of offset, 10 of length. */
INLINE uint32_t offset_of(uint32_t header) { return header >> 10 & 16383; }
INLINE uint32_t length_of(uint32_t header) { return header & 1023; }

/* Where the data begin, and how many older blocks are of the type, or the refusal, 18 or 19. */
INLINE uint8_t headers(const uint8_t *p, size_t at, size_t end, uint32_t type, size_t *data, size_t *of_type)
{
    size_t bytes = 0, found = 0;
    if (at == end) return 18;
    while (p[at] & 128) {
        if (end - at < 5) return 18; /* its four bytes and the first one of the next */
        uint32_t header = number_32(p + at);
        bytes += length_of(header);
        found += header >> 24 == (128 | type);
        at += 4;
    }
    *data = at + 1;
    *of_type = found;
    return end - *data < bytes ? 19 : 0;
}

INLINE uint32_t take(twimbor_table *t, const uint8_t *b, size_t length, uint32_t timestamp, uint32_t mark)
{
    if (length != 4) return plain_misfit(length);
    if (!plain_has(&t->head.codes, b[0])) return 8;
    uint32_t units = (uint32_t)b[2] << 8 | b[3];
    if (units == 0) return 9;
    uint32_t offset = timestamp - t->head.origin;
    if (offset >= 0x80000000u) return 10;
    uint64_t key = (uint64_t)offset << 8 | b[0];
    uint32_t flags = (b[1] & 128 ? E : 0) | mark, level = b[1] & 63;

    size_t low = 0, high = t->head.count;
    uint32_t probes = 0;
    for (; low < high; probes += 1 << 16) {
        size_t middle = (low + high) / 2;
        if (t->keys[middle] < key) low = middle + 1;
        else high = middle;
    }
    if (low < t->head.count && t->keys[low] == key) {
        t->heard[low] = merged(t->heard[low], level, flags, units);
        return probes;
    }
    if (t->head.count == 128) return probes | 11;
    size_t above = t->head.count - low;
    if (above > 0) {
        memmove(t->keys + low + 1, t->keys + low, above * sizeof *t->keys);
        memmove(t->heard + low + 1, t->heard + low, above * sizeof *t->heard);
    }
    t->keys[low] = key;
    t->heard[low] = first(level, flags, units);
    t->head.count++;
    return probes | 256;
}

static twimbor_blocks_received refused(const twimbor_table *t, uint8_t refusal)
{
    return (twimbor_blocks_received){0, t->head.count, refusal};
}

twimbor_blocks_received plain_receive_redundant(twimbor_table *t, const uint8_t *p, size_t n, uint32_t *entries, size_t room)
{
    size_t at, end, data, blocks;
    if (!passes(t)) return refused(t, 16);
    uint8_t refusal = payload_of(p, n, &at, &end);
    if (refusal) return refused(t, refusal);
    uint32_t event = t->head.payload_type, type = p[1] & 127;
    if (type != event && !(t->head.both_types && type == t->head.redundant_type)) return refused(t, 5);
    if (number_32(p + 8) != t->head.ssrc) return refused(t, 6);
    uint32_t timestamp = number_32(p + 4), mark = p[1] & 128 ? M : 0;
    if (type == event) {
        if (room == 0) return refused(t, 15);
        entries[0] = take(t, p + at, end - at, timestamp, mark);
        return (twimbor_blocks_received){1, t->head.count, 0};
    }
    refusal = headers(p, at, end, event, &data, &blocks);
    if (refusal) return refused(t, refusal);
    const uint8_t *body = p + data;
    bool primary = p[data - 1] == event;
    blocks += primary;
    if (room < blocks) return refused(t, 15);
    for (; p[at] & 128; at += 4) {
        uint32_t header = number_32(p + at);
        if (header >> 24 == (128 | event)) *entries++ = take(t, body, length_of(header), timestamp - offset_of(header), 0);
        body += length_of(header);
    }
    if (primary) *entries = take(t, body, (size_t)(p + end - body), timestamp, mark);
    return (twimbor_blocks_received){blocks, t->head.count, 0};
}

uint8_t plain_walk(twimbor_walker *w, const uint8_t *packet, size_t bytes)
{
    size_t at = 0, end = 0, data = 0, of_type;
    uint8_t refusal = payload_of(packet, bytes, &at, &end);
    if (!refusal) refusal = headers(packet, at, end, 0, &data, &of_type);
    w->packet = packet;
    w->bytes = bytes;
    w->cursor = refusal ? (twimbor_cursor){0, 0, 0} : (twimbor_cursor){at, data, end};
    return refusal;
}

/* After the last block header and end are one, which no header stands at. */
bool plain_next_block(twimbor_walker *w, twimbor_block *b)
{
    twimbor_cursor *c = &w->cursor;
    if (c->header == c->end) return false;
    const uint8_t *h = w->packet + c->header;
    b->data = w->packet + c->body;
    b->payload_type = h[0] & 127;
    b->primary = !(h[0] & 128);
    if (b->primary) {
        b->bytes = c->end - c->body;
        b->offset = 0;
        c->header = c->body = c->end;
    } else {
        uint32_t header = number_32(h);
        b->bytes = length_of(header);
        b->offset = (uint16_t)offset_of(header);
        c->header += 4;
        c->body += b->bytes;
    }
    return true;
}
