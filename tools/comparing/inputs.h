/* What the calls are compared on: numbers, sets, packets, captures and tables, random, near to valid ones, and at the edges of ranges. */
#include "../../include/twimbor.h"
#include <string.h>

enum { ROOM = 400000, PACKET_ROOM = 8000, FRAMES_ROOM = 90000 };

static uint64_t drawn;

/* splitmix64 */
static uint64_t any(void)
{
    uint64_t x = drawn += 0x9e3779b97f4a7c15;
    x = (x ^ x >> 30) * 0xbf58476d1ce4e5b9;
    x = (x ^ x >> 27) * 0x94d049bb133111eb;
    return x ^ x >> 31;
}

static uint32_t below(uint32_t n) { return (uint32_t)((any() >> 32) * n >> 32); }
static bool one_in(uint32_t n) { return below(n) == 0; }
#define PICK(...) ((const uint32_t[]){__VA_ARGS__})[below(sizeof((uint32_t[]){__VA_ARGS__}) / sizeof(uint32_t))]

static uint32_t edge(void)
{
    return PICK(0, 1, 2, 15, 16, 63, 64, 100, 101, 127, 128, 255, 256, 357, 16383, 16384, 65535, 65536, 1048560, 1048561, 0x7fffffff,
                0x80000000, 0xffffffff, below(256), (uint32_t)any());
}

static void fill(void *to, size_t bytes)
{
    for (uint8_t *p = to; bytes > 0; p++, bytes--) *p = (uint8_t)any();
}

/* What the packets and tables of one input have in common, so that they meet. */
static struct {
    twimbor_codes codes;
    uint32_t payload_type, redundant_type, ssrc, origin;
    uint32_t unit;                  /* the segments' durations, and the distance of their starts, as a long key has them */
    uint8_t code[4];                /* of the set, if it has any; not falling */
    uint32_t start;
} call;

static bool contains(twimbor_codes codes, uint32_t code)
{
    uint64_t words[] = {codes.from_0, codes.from_64, codes.from_128, codes.from_192};
    return words[code / 64] >> code % 64 & 1;
}

static twimbor_codes some_codes(void)
{
    twimbor_codes codes = TWIMBOR_KEYS;
    uint64_t words[4] = {0, 0, 0, 0};
    switch (below(8)) {
    case 0: fill(&codes, sizeof codes); return codes;
    case 1:
        for (uint32_t n = below(4); n > 0; n--) words[below(4)] |= (uint64_t)1 << below(64);
        break;
    case 2:
        for (int i = 0; i < 4; i++) words[i] = one_in(2) ? UINT64_MAX : any() & any() & any();
        break;
    case 3:
        for (uint32_t code = below(256), n = below(256); n > 0 && code < 256; n--, code++) words[code / 64] |= (uint64_t)1 << code % 64;
        break;
    default: return codes;
    }
    codes = (twimbor_codes){words[0], words[1], words[2], words[3]};
    return codes;
}

static void make_call(void)
{
    call.codes = some_codes();
    call.payload_type = one_in(3) ? below(128) : 101;
    call.redundant_type = one_in(20) ? edge() : (call.payload_type + 1 + below(127)) % 128;
    call.ssrc = (uint32_t)any();
    call.origin = one_in(2) ? (uint32_t)any() : edge();
    call.unit = PICK(1, 400, 8191, 16383, 65535, 1 + below(65535));
    call.start = one_in(8) ? 0x7fffffff - below(4) * call.unit : below(3) * call.unit;
    for (int i = 0; i < 4; i++) {
        uint32_t code = below(one_in(2) ? 16 : 256), looked = 0;
        while (!contains(call.codes, code) && looked++ < 256) code = (code + 1) % 256;
        int j = i;
        for (; j > 0 && call.code[j - 1] > code; j--) call.code[j] = call.code[j - 1];
        call.code[j] = (uint8_t)code;
    }
}

static uint32_t some_timestamp(void)
{
    if (one_in(30)) return call.origin + PICK(0, 0xffffffff, 0x7fffffff, 0x80000000, 0xffffc001, (uint32_t)any());
    return call.origin + call.start + below(8) * call.unit + (one_in(10) ? below(3) : 0);
}

static uint8_t *put_bytes(uint8_t *p, uint32_t number, int bytes)
{
    while (bytes > 0) *p++ = (uint8_t)(number >> 8 * --bytes);
    return p;
}

static uint8_t *put_report(uint8_t *p)
{
    *p++ = one_in(20) ? (uint8_t)any() : call.code[below(4)];
    *p++ = (uint8_t)(one_in(3) << 7 | one_in(8) << 6 | below(64));
    return put_bytes(p, one_in(20) ? PICK(0, 1, 65535) : one_in(4) ? 1 + below(call.unit) : call.unit, 2);
}

static uint32_t some_type(void) { return one_in(12) ? below(128) : one_in(12) ? call.redundant_type & 127 : call.payload_type; }

/* The headers and data of a redundant packet's blocks. */
static uint8_t *put_blocks(uint8_t *p)
{
    uint32_t lengths[301], older = one_in(60) ? below(300) : below(5);
    for (uint32_t i = 0; i <= older; i++) lengths[i] = one_in(8) ? PICK(0, 3, 5, 8, 12, below(40), one_in(9) ? 1023 : 4) : 4;
    for (uint32_t i = 0; i < older; i++) {
        uint32_t offset = PICK(call.unit & 16383, call.unit * below(4) & 16383, below(16384), 0, 16383);
        p = put_bytes(p, 0x80000000 | some_type() << 24 | offset << 10 | lengths[i], 4);
    }
    *p++ = (uint8_t)some_type();
    for (uint32_t i = 0; i <= older; i++)
        if (lengths[i] == 4) p = put_report(p);
        else fill(p, lengths[i]), p += lengths[i];
    return p;
}

/* A packet, in fewer than PACKET_ROOM bytes; how many it has is answered. */
static size_t make_packet(uint8_t *packet, bool redundant)
{
    uint32_t csrcs = one_in(8) ? below(16) : 0, extended = one_in(8), padded = one_in(8);
    uint8_t *p = packet;
    *p++ = (uint8_t)((one_in(40) ? below(4) : 2) << 6 | padded << 5 | extended << 4 | csrcs);
    *p++ = (uint8_t)(one_in(3) << 7 | (one_in(25) ? below(128) : redundant ? call.redundant_type & 127 : call.payload_type));
    p = put_bytes(p, (uint32_t)any(), 2);
    p = put_bytes(p, some_timestamp(), 4);
    p = put_bytes(p, one_in(30) ? (uint32_t)any() : call.ssrc, 4);
    fill(p, 4 * csrcs), p += 4 * csrcs;
    if (extended) {
        uint32_t words = one_in(20) ? edge() & 65535 : below(4);
        p = put_bytes(p, (uint32_t)any() << 16 | words, 4);
        if (words < 200) fill(p, 4 * words), p += 4 * words;
    }
    if (redundant) p = put_blocks(p);
    else for (uint32_t n = one_in(12) ? below(4) : 1; n > 0; n--) p = put_report(p);
    if (one_in(25)) fill(p, 3), p += 1 + below(3);
    if (padded) {
        uint32_t pad = 1 + below(8);
        memset(p, 0, pad), p += pad;
        p[-1] = (uint8_t)(one_in(8) ? edge() : pad);
    }
    size_t bytes = p - packet;
    if (one_in(15)) bytes = below((uint32_t)bytes + 1);
    if (one_in(20) && bytes > 0) packet[below((uint32_t)bytes)] ^= 1 << below(8);
    if (one_in(60)) bytes = below(80), fill(packet, bytes);
    return bytes;
}

/* A buffer of frames, most of them whole, in fewer than FRAMES_ROOM bytes. */
static size_t make_frames(uint8_t *frames)
{
    uint8_t *p = frames;
    for (uint32_t n = below(12); n > 0; n--) {
        size_t bytes = one_in(20) ? 0 : make_packet(p + 2, one_in(10));
        if (one_in(400)) bytes = 60000 + below(5536), fill(p + 2, 20);
        put_bytes(p, one_in(60) ? edge() : (uint32_t)bytes, 2);
        p += 2 + bytes;
        if (p - frames > FRAMES_ROOM - 80000) break;
    }
    if (one_in(3)) fill(p, 3), p += below(4);
    size_t bytes = p - frames;
    return one_in(3) ? below((uint32_t)bytes + 1) : bytes;
}

static twimbor_table made;

static uint32_t some_heard(void)
{
    uint32_t loudest = below(64), quietest = one_in(2) ? loudest : loudest + below(64 - loudest);
    uint32_t duration = one_in(5) ? 1 + below(65535) : call.unit;
    return duration | one_in(4) << 16 | one_in(3) << 17 | quietest << 18 | loudest << 24;
}

/* One thing that a table may not have; some of them only if it holds enough. */
static void break_table(void)
{
    uint32_t at = made.head.count ? below((uint32_t)made.head.count) : 0;
    switch (below(12)) {
    case 0: made.head.count = one_in(2) ? 129 : any(); break;
    case 1: made.keys[at] = made.keys[below(TWIMBOR_PLACES)]; break;
    case 2: made.keys[at] ^= (uint64_t)1 << below(64); break;
    case 3: made.keys[at] = (made.keys[at] & ~(uint64_t)255) | below(256); break;
    case 4: made.heard[at] &= 0xffff0000; break;
    case 5: made.heard[at] ^= 1u << below(32); break;
    case 6: made.heard[at] = (uint32_t)any(); break;
    case 7: made.keys[at] = (uint64_t)edge() << 8 | call.code[0]; break;
    case 8: made.head.payload_type = (uint8_t)edge(); break;
    case 9: made.head.both_types = (uint8_t)any(), made.head.redundant_type = one_in(2) ? made.head.payload_type : (uint8_t)edge(); break;
    case 10: made.head.codes = some_codes(); break;
    case 11: fill(one_in(2) ? (void *)made.keys : (void *)made.heard, 8 * (1 + below(16))); break;
    }
}

/* A table in `made` that passes the tests, if its set is not empty; one of four is broken. */
static void make_table(void)
{
    make_call();
    made.head = (twimbor_head){(uint8_t)call.payload_type, one_in(2), (uint8_t)call.redundant_type, call.ssrc, call.origin, call.codes, 0};
    fill(made.keys, one_in(3) ? sizeof made.keys : 0);
    fill(made.heard, one_in(3) ? sizeof made.heard : 0);
    uint32_t count = PICK(0, 1, 2, 3, below(12), below(12), below(12), below(40), below(129), 127, 128);
    uint64_t offset = one_in(20) ? 0x80000000 - (uint64_t)below(200) * call.unit : call.start;
    for (uint32_t which = below(4); made.head.count < count && offset < 0x80000000; made.head.count++) {
        uint32_t heard = some_heard();
        made.keys[made.head.count] = offset << 8 | call.code[which];
        made.heard[made.head.count] = heard;
        if (one_in(4) && which < 3 && call.code[which] < call.code[which + 1]) which++;
        else which = below(4), offset += one_in(5) ? 1 + below(70000) : heard & 65535;
    }
    if (one_in(4)) break_table();
}
