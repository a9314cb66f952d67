/* A whole capture in one call: ours against plain C, both in place, the table tested once, in turns, the best of many rounds. */
#include "clock.h"
#include "plain/plain.h"
#include <stdio.h>
#include <stdlib.h>
#include <string.h>

/* So many frames that a search cannot be foretold from the round before, where they come at random. */
enum { PACKET = 16, FRAME = 2 + PACKET, FRAMES = 32768, ROUNDS = 300 };
static uint8_t frames[FRAMES * FRAME];

/* A table for each, both in the same place of a page: how fast its segments move goes with that. */
enum { OURS, PLAIN, WAYS };
static struct {
    _Alignas(4096) twimbor_table table;
} tables[WAYS];

/* 0 to n - 1, the same in every run. */
static uint32_t below(uint32_t n)
{
    static uint64_t state = 1;
    state = state * 6364136223846793005u + 1442695040888963407u;
    return (uint32_t)(state >> 33) % n;
}

static twimbor_table empty(void)
{
    twimbor_table t;
    if (twimbor_open(&t, TWIMBOR_KEYS, 101, 7, 1000) != 0) exit(1);
    return t;
}

/* A report of a segment, the segments 700 units apart. */
static twimbor_report report_of(uint32_t segment)
{
    return (twimbor_report){false, 101, 0, 1000 + 700 * segment, 7, 5, false, 10, 400};
}

static void put(int i, twimbor_report r)
{
    uint8_t *frame = frames + FRAME * i;
    frame[0] = 0;
    frame[1] = PACKET;
    if (twimbor_write(TWIMBOR_KEYS, r, frame + 2, PACKET) != 0) exit(1);
}

typedef twimbor_captured call(twimbor_table *t, const uint8_t *frames, size_t bytes);
static call *const calls[WAYS] = {twimbor_receive_capture, plain_receive_capture};

static void same(const twimbor_captured *c)
{
    if (c[OURS].refusal != c[PLAIN].refusal || c[OURS].count != c[PLAIN].count || c[OURS].used != c[PLAIN].used
        || c[OURS].taken != c[PLAIN].taken || c[OURS].refused != c[PLAIN].refused || c[OURS].packed != c[PLAIN].packed
        || memcmp(&tables[OURS].table, &tables[PLAIN].table, sizeof tables[PLAIN].table) != 0) {
        printf("ours and plain C differ\n");
        exit(1);
    }
}

/* Receives the first n frames so many times, each time, if `anew`, into an empty table. Answers the ratio of the times. */
static double receiving(const char *name, uint32_t held, twimbor_table start, int n, bool anew, int turns, double limit)
{
    twimbor_captured c[WAYS];
    double best[WAYS] = {1e18, 1e18};
    tables[OURS].table = tables[PLAIN].table = start;
    for (int round = 0; round < ROUNDS; round++)
        for (int way = 0; way < WAYS; way++) {
            double begin = now();
            for (int turn = 0; turn < turns; turn++) {
                if (anew) tables[way].table.head.count = 0;
                c[way] = calls[way](&tables[way].table, frames, (size_t)n * FRAME);
            }
            least(&best[way], (now() - begin) / (turns * n));
        }
    same(c);
    if (c[OURS].taken != (size_t)n || c[OURS].count != held) exit(1);
    printf("capture, %-16s %3u held: %5.2f ns a packet, plain C %5.2f ns, ratio %.2f, at most %.1f\n", name, held, best[OURS], best[PLAIN],
        best[OURS] / best[PLAIN], limit);
    return best[OURS] / best[PLAIN];
}

enum { CYCLE, RISING, SHUFFLED, RANDOM };
static const char *const orders[] = {"in a fixed cycle", "in runs, rising", "in runs, any", "at random"};

/* Segments one after another, 8 to 50 reports each, as a sender makes them: the marker first, durations that rise, E at the end. */
static void runs(uint32_t held, bool rising)
{
    uint32_t segment = held - 1, report = 0, reports = 0;
    for (int i = 0; i < FRAMES; i++, report++) {
        if (report == reports) {
            segment = rising ? (segment + 1) % held : below(held);
            report = 0;
            reports = 8 + below(43);
        }
        twimbor_report r = report_of(segment);
        r.marker = report == 0;
        r.sequence = (uint16_t)i;
        r.ended = report + 2 >= reports;
        r.duration = 160 * (report + 1);
        put(i, r);
    }
}

/* Known segments, in some order. */
static double known(int order, uint32_t held)
{
    twimbor_table t = empty();
    for (uint32_t segment = 0; segment < held; segment++) {
        put(0, report_of(segment));
        if (twimbor_receive(&t, frames + 2, PACKET).refusal != 0) exit(1);
    }
    if (order == RISING || order == SHUFFLED) runs(held, order == RISING);
    else
        for (int i = 0; i < FRAMES; i++) {
            twimbor_report r = report_of(order == CYCLE ? (uint32_t)i % held : below(held));
            r.marker = i % 7 == 0;
            r.sequence = (uint16_t)i;
            r.ended = i % 3 == 0;
            r.volume = i % 64;
            r.duration = 1 + i;
            put(i, r);
        }
    return receiving(orders[order], held, t, FRAMES, false, 1, 1.2);
}

/* As many new segments as there is room for. */
static void new_segments(void)
{
    uint32_t shuffled[128];
    for (uint32_t i = 0; i < 128; i++) {
        uint32_t j = below(i + 1);
        shuffled[i] = shuffled[j];
        shuffled[j] = i;
    }
    for (int i = 0; i < 128; i++) put(i, report_of((uint32_t)i));
    receiving("new, rising", 128, empty(), 128, true, 20, 1.5);
    for (int i = 0; i < 128; i++) put(i, report_of(127 - (uint32_t)i));
    receiving("new, falling", 128, empty(), 128, true, 20, 1.5);
    for (int i = 0; i < 128; i++) put(i, report_of(shuffled[i]));
    receiving("new, shuffled", 128, empty(), 128, true, 20, 1.5);
}

/* A packet with any one thing wrong, or nothing; answers its length. */
static size_t any_packet(uint8_t *p)
{
    twimbor_report r = {below(2), 101, 0, 1000 + below(200), 7, below(3), below(2), below(64), 1 + below(65535)};
    if (twimbor_write(TWIMBOR_KEYS, r, p, PACKET) != 0) exit(1);
    for (int i = 0; i < 64; i++) p[PACKET + i] = (uint8_t)below(256);
    switch (below(8)) {
    case 0: return below(80);                                       /* a payload too long or packed, a header too short, nothing */
    case 1: p[below(PACKET)] = (uint8_t)below(256); return PACKET;
    case 2: p[0] = (uint8_t)(0x80 + below(64)); return below(80);   /* CSRCs, an extension, padding */
    case 3: p[0] = 0xA0; p[PACKET + 3] = 4; return PACKET + 4;
    case 4: p[14] = p[15] = 0; return PACKET;
    default: return PACKET;
    }
}

/* The frames of such packets, the end cut anywhere, into tables that hold more and more, and that fail the tests now and then. */
static void same_answers(void)
{
    twimbor_captured c[WAYS];
    tables[OURS].table = empty();
    for (int buffer = 0; buffer < 5000; buffer++) {
        twimbor_table *table = &tables[OURS].table;
        if (below(20) == 0) *table = empty();
        if (below(10) == 0) table->head.count = below(200);
        if (below(20) == 0) table->heard[below(128)] ^= 1u << below(32);
        if (below(20) == 0) table->head.codes.from_0 ^= (uint64_t)1 << below(64);
        size_t bytes = 0;
        for (uint32_t n = below(40); n > 0; n--) {
            size_t length = any_packet(frames + bytes + 2);
            frames[bytes] = 0;
            frames[bytes + 1] = (uint8_t)length;
            bytes += 2 + length;
        }
        if (below(2)) bytes -= below((uint32_t)bytes + 1) % 100;
        tables[PLAIN].table = *table;
        for (int way = 0; way < WAYS; way++) c[way] = calls[way](&tables[way].table, frames, bytes);
        same(c);
        if (c[OURS].refusal != 0) *table = empty();
    }
}

int main(void)
{
    static const uint32_t held[] = {1, 16, 64, 128};
    double sum = 0;
    int loads = 0;
    same_answers();
    for (int i = 0; i < 4; i++, loads++) sum += known(CYCLE, held[i]);
    for (int i = 1; i < 4; i++, loads++) sum += known(RISING, held[i]);
    for (int i = 1; i < 4; i++, loads++) sum += known(SHUFFLED, held[i]);
    sum += known(RANDOM, 100);
    loads++;
    printf("capture, known segments, mean of the ratios: %.2f, at most 1.05\n", sum / loads);
    new_segments();
    return 0;
}
