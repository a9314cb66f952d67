/* The worst case of each call: how many bytes of a packet and entries of a table its answer goes by, found by changing them one at a
 * time, and how long it takes on the input that makes it do most. The best of many rounds. */
#include "clock.h"
#include "../include/twimbor.h"
#include <stdio.h>
#include <stdlib.h>
#include <string.h>

enum { ROUNDS = 2000, TURNS = 20 };

/* The nanoseconds of a call. */
#define TIME(call) ({ \
    double best = 1e18; \
    for (int round = 0; round < ROUNDS; round++) { \
        double begin = now(); \
        for (int turn = 0; turn < TURNS; turn++) call; \
        double took = (now() - begin) / TURNS; \
        if (took < best) best = took; \
    } \
    best; })

static const twimbor_codes ALL = {UINT64_MAX, UINT64_MAX, UINT64_MAX, UINT64_MAX};

/* n segments, 1000 units apart from offset 1000 on, of so many codes in turn. */
static twimbor_table holding(size_t n, bool marked, int codes)
{
    twimbor_table t;
    if (twimbor_open(&t, ALL, 101, 7, 0) != 0) exit(1);
    for (size_t i = 0; i < n; i++) {
        t.head.count = i + 1;
        twimbor_set_segment(&t, i, (twimbor_segment){1000 * ((uint32_t)i + 1), (uint8_t)(i % codes), 400, 10, 10, false, marked});
    }
    if (!twimbor_is_valid(&t)) exit(1);
    return t;
}

/* The longest way to a payload: 15 CSRCs, an extension, padding. */
static uint8_t packet[1500];
static const size_t LONG = sizeof packet;
static void make_packet(uint32_t timestamp)
{
    const size_t extension = 12 + 15 * 4, words = (LONG - extension - 4 - 4 - 200) / 4, payload = extension + 4 + 4 * words;
    twimbor_report r = {true, 101, 1, timestamp, 7, 5, true, 10, 400};
    uint8_t plain[16];
    if (twimbor_write(TWIMBOR_KEYS, r, plain, 16) != 0) exit(1);
    memcpy(packet, plain, 12);
    memcpy(packet + payload, plain + 12, 4);
    packet[0] = 0x80 | 0x20 | 0x10 | 15;
    packet[extension + 2] = (uint8_t)(words >> 8);
    packet[extension + 3] = (uint8_t)words;
    packet[LONG - 1] = (uint8_t)(LONG - payload - 4);
}

static bool same_read(twimbor_read_result a, twimbor_read_result b)
{
    twimbor_report r = a.report, s = b.report;
    return a.refusal == b.refusal && r.marker == s.marker && r.payload_type == s.payload_type && r.sequence == s.sequence
        && r.timestamp == s.timestamp && r.ssrc == s.ssrc && r.code == s.code && r.ended == s.ended && r.volume == s.volume && r.duration == s.duration;
}

static bool same_received(twimbor_received a, twimbor_received b)
{
    return a.refusal == b.refusal && a.is_new == b.is_new && a.count == b.count && a.probes == b.probes;
}

static bool receives_alike(const twimbor_table *start, twimbor_received want, const twimbor_table *after)
{
    twimbor_table t = *start;
    return same_received(twimbor_receive(&t, packet, LONG), want) && memcmp(&t, after, sizeof t) == 0;
}

/* The bytes of the packet on which reading, or receiving into a table, depends. */
static void bytes(int *read, int *received)
{
    twimbor_table start = holding(100, true, 16), after = start;
    make_packet(50500);
    twimbor_read_result was_read = twimbor_read(TWIMBOR_KEYS, packet, LONG);
    twimbor_received was = twimbor_receive(&after, packet, LONG);
    if (was_read.refusal != 0 || was.refusal != 0) exit(1);
    *read = *received = 0;
    for (size_t i = 0; i < LONG; i++) {
        bool reads = false, receives = false;
        uint8_t byte = packet[i];
        for (int other = 0; other < 256; other++) {
            packet[i] = (uint8_t)other;
            reads |= !same_read(twimbor_read(TWIMBOR_KEYS, packet, LONG), was_read);
            receives |= !receives_alike(&start, was, &after);
        }
        packet[i] = byte;
        *read += reads;
        *received += receives;
    }
}

/* The most segments looked at and moved, over each number held and each place of a new one. */
static void looks(size_t *looked_at, size_t *moved)
{
    *looked_at = *moved = 0;
    for (size_t n = 0; n <= 128; n++)
        for (size_t place = 0; place <= n; place++) {
            twimbor_table start = holding(n, true, 1), t = start;
            make_packet(1000 * (uint32_t)place + 500);
            twimbor_received r = twimbor_receive(&t, packet, LONG);
            if (*looked_at < r.probes) *looked_at = r.probes;
            size_t up = 0;
            for (size_t i = 0; i < n && r.refusal == 0; i++) up += t.keys[i + 1] == start.keys[i];
            if (*moved < up) *moved = up;
        }
}

/* The segments on which the tests of 16 depend. */
static int tested(void)
{
    int n = 0;
    for (size_t i = 0; i < 128; i++) {
        twimbor_table t = holding(128, true, 1);
        t.heard[i] = 0;
        n += !twimbor_is_valid(&t);
    }
    return n;
}

int main(void)
{
    volatile uint64_t sink = 0;
    int read, received;
    size_t looked_at, moved;
    bytes(&read, &received);
    looks(&looked_at, &moved);
    printf("bytes of a packet: read %d, receive %d; entries: tested %d, looked at %zu, moved %zu\n", read, received, tested(), looked_at, moved);

    make_packet(500);
    uint8_t output[16];
    twimbor_report report = {true, 101, 1, 2, 7, 5, true, 10, 400};
    twimbor_plan plan = {101, 7, 1, 2, 5, 10, 16 * 65535, 1, 65535};
    uint32_t last = twimbor_report_count(TWIMBOR_KEYS, plan).reports;
    twimbor_table t, apart = holding(128, false, 16), others = holding(128, false, 128);
    static twimbor_event list[128];
    twimbor_codes codes = {0xdb6db6db6db6db6d, 0x6db6db6db6db6db6, 0xb6db6db6db6db6db, 0xdb6db6db6db6db6d}; /* with the longest text */
    char text[TWIMBOR_CODES_BYTES];
    size_t written = twimbor_write_codes(codes, text, sizeof text).bytes;
    printf("write_codes, %zu bytes: %.0f ns\n", written, TIME(sink += twimbor_write_codes(codes, text, sizeof text).bytes));
    printf("read_codes, %zu bytes: %.0f ns\n", written, TIME(sink += twimbor_read_codes(text, written).codes.from_0));
    printf("codes_contain: %.1f ns\n", TIME(sink += twimbor_codes_contain(codes, 255)));
    printf("codes_count: %.1f ns\n", TIME(sink += twimbor_codes_count(codes)));
    printf("codes_lowest: %.1f ns\n", TIME(sink += twimbor_codes_lowest((twimbor_codes){0, 0, 0, codes.from_192}).code));
    printf("read, %zu bytes: %.1f ns\n", LONG, TIME(sink += twimbor_read(TWIMBOR_KEYS, packet, LONG).refusal));
    printf("write: %.1f ns\n", TIME(sink += twimbor_write(TWIMBOR_KEYS, report, output, 16)));
    printf("report_count, %u reports: %.1f ns\n", last, TIME(sink += twimbor_report_count(TWIMBOR_KEYS, plan).reports));
    printf("write_report, the last: %.1f ns\n", TIME(sink += twimbor_write_report(TWIMBOR_KEYS, plan, last, output, 16)));
    printf("open: %.1f ns\n", TIME(sink += twimbor_open(&t, TWIMBOR_KEYS, 101, 7, 0)));
    for (int codes = 1; codes <= 128; codes += 127) {
        twimbor_table almost = holding(127, true, codes), full = holding(128, true, codes);
        printf("%s:\n", codes == 1 ? "keys alone held" : "codes above 15 held too");
        printf("  is_valid, 128 held: %.1f ns\n", TIME(sink += twimbor_is_valid(&full)));
        double copy = TIME((t = almost, sink += t.head.count));
        printf("  receive, 127 held, a new one before all: %.1f ns\n", TIME((t = almost, sink += twimbor_receive(&t, packet, LONG).probes)) - copy);
        printf("  receive, 128 held, 11: %.1f ns\n", TIME(sink += twimbor_receive(&full, packet, LONG).probes));
    }
    printf("event_at, the last of 128, 16 keys in turn, none marked: %.0f ns\n", TIME(sink += twimbor_event_at(&apart, 128).refusal));
    printf("event_at, the last of 128, each of another code, none marked: %.0f ns\n", TIME(sink += twimbor_event_at(&others, 128).refusal));
    printf("list, 128 events, 16 keys in turn, none marked: %.0f ns\n", TIME(sink += twimbor_list(&apart, list, 128).events));
    printf("list, 128 events, each of another code, none marked: %.0f ns\n", TIME(sink += twimbor_list(&others, list, 128).events));
    return 0;
}
