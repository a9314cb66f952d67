/* Receiving and listing: ours against plain C, both in place and with the same tests, in turns, the best of many rounds. */
#include "clock.h"
#include "plain/plain.h"
#include <stdio.h>
#include <stdlib.h>
#include <string.h>

/* The packets of a buffer, 16 bytes each, so many times over, in a Rattle loop: by the library's call, and by its step for a table
 * that is known to pass the tests. Each answers how many segments are held at the end. */
typedef uint64_t loop(twimbor_head head, uint64_t *keys, uint32_t *heard, const uint8_t *packets, size_t bytes, uint32_t passes);
loop bench_receive, bench_receive_valid;

enum { PACKETS = 256, ROUNDS = 400 };
static uint8_t packets[PACKETS * 16];

static void same_answer(const twimbor_table *t, const uint8_t *packet, size_t bytes)
{
    twimbor_table copies[] = {*t, *t, *t};
    twimbor_received ours = twimbor_receive(&copies[0], packet, bytes);
    plain_answer plain[] = {plain_receive(&copies[1], packet, bytes), plain_receive_valid(&copies[2], packet, bytes)};
    for (int i = 0; i < 2; i++)
        if (plain[i].refusal != ours.refusal || plain[i].is_new != ours.is_new || plain[i].probes != ours.probes
            || memcmp(&copies[0], &copies[i + 1], sizeof copies[0]) != 0) exit(1);
}

/* Plain C counts the segments looked at as ours does, and leaves the same table: with each number held a report before each segment, at
 * each and after all, and a packet that is refused before the search. */
static void same_probes(void)
{
    twimbor_table t;
    if (twimbor_open(&t, TWIMBOR_KEYS, 101, 7, 1000) != 0) exit(1);
    for (uint32_t held = 0;; held++) {
        for (uint32_t offset = 0; offset <= 2 * held; offset++) {
            twimbor_report r = {false, 101, 0, 1000 + offset, 7, 5, false, offset % 64, 1};
            if (twimbor_write(TWIMBOR_KEYS, r, packets, 16) != 0) exit(1);
            same_answer(&t, packets, 16);
            same_answer(&t, packets, 15);
        }
        if (held == 128) return;
        twimbor_set_segment(&t, held, (twimbor_segment){2 * held + 1, 5, 1, 20, 30, false, false});
        t.head.count++;
    }
}

static void same_test(const twimbor_table *t)
{
    if (plain_is_valid(t) != twimbor_is_valid(t)) exit(1);
}

/* Plain C fails the same tables as ours: with each number held, in each place, all volumes and quietest with durations at their ends, and
 * keys next to the neighbours' and at the ends of their range. */
static void same_tests(int held)
{
    static const uint32_t others[] = {0, 1, 3 << 16, 3 << 16 | 65535};
    static const uint64_t keys[] = {0, 15, 16, 255, ((uint64_t)1 << 39) - 241, (uint64_t)1 << 39, (uint64_t)1 << 63, UINT64_MAX};
    twimbor_table t;
    if (twimbor_open(&t, TWIMBOR_KEYS, 101, 7, 1000) != 0) exit(1);
    t.head.count = (size_t)held;
    for (int i = 0; i < held; i++) twimbor_set_segment(&t, i, (twimbor_segment){(uint32_t)i + 1, 5, 1, 20, 30, false, false});
    if (!twimbor_is_valid(&t)) exit(1);
    for (int i = 0; i < held; i++) {
        uint32_t heard = t.heard[i];
        uint64_t key = t.keys[i];
        for (int j = 0; j < 4; j++)
            for (uint32_t volumes = 0; volumes < 1 << 14; volumes++) {
                t.heard[i] = volumes << 18 | others[j];
                same_test(&t);
            }
        t.heard[i] = heard;
        for (t.keys[i] = key - 258; t.keys[i] <= key + 258; t.keys[i]++) same_test(&t);
        for (int j = 0; j < 8; j++) {
            t.keys[i] = keys[j];
            same_test(&t);
        }
        t.keys[i] = key;
    }
}

/* Known segments in a fixed cycle, as many as are held. */
static twimbor_table filled(int held)
{
    twimbor_table t;
    if (twimbor_open(&t, TWIMBOR_KEYS, 101, 7, 1000) != 0) exit(1);
    for (int i = 0; i < PACKETS; i++) {
        twimbor_report r = {i % 7 == 0, 101, (uint16_t)i, 1000u + 700u * (i % held), 7, 5, i % 3 == 0, i % 64, 1 + i};
        if (twimbor_write(TWIMBOR_KEYS, r, packets + 16 * i, 16) != 0 || twimbor_receive(&t, packets + 16 * i, 16).refusal != 0) exit(1);
    }
    return t;
}

enum { FROM_C, LOOP, LOOP_VALID, PLAIN, PLAIN_VALID, WAYS, TURNS = 10 };

#define ALL(receive) \
    for (int turn = 0; turn < TURNS; turn++) \
        for (int i = 0; i < PACKETS; i++) refusals += receive(t, packets + 16 * i, 16).refusal

static void pass(int way, twimbor_table *t)
{
    uint64_t refusals = 0;
    switch (way) {
    case FROM_C: ALL(twimbor_receive); break;
    case LOOP: t->head.count = bench_receive(t->head, t->keys, t->heard, packets, sizeof packets, TURNS); break;
    case LOOP_VALID: t->head.count = bench_receive_valid(t->head, t->keys, t->heard, packets, sizeof packets, TURNS); break;
    case PLAIN: ALL(plain_receive); break;
    case PLAIN_VALID: ALL(plain_receive_valid); break;
    }
    if (refusals) exit(1);
}

static void receiving(int held, double limit)
{
    twimbor_table start = filled(held), t[WAYS];
    double best[WAYS];
    for (int way = 0; way < WAYS; way++) {
        t[way] = start;
        best[way] = 1e18;
    }
    for (int round = 0; round < ROUNDS; round++)
        for (int way = 0; way < WAYS; way++) {
            double begin = now();
            pass(way, &t[way]);
            least(&best[way], (now() - begin) / (TURNS * PACKETS));
        }
    for (int way = 0; way < WAYS; way++) if (memcmp(&t[way], &t[PLAIN], sizeof start) != 0) exit(1);
    printf("receive, %3d held: from C %5.1f ns, plain C %5.1f ns, ratio %.2f, at most %.1f\n", held, best[FROM_C], best[PLAIN], best[FROM_C] / best[PLAIN], limit);
    printf("    in a Rattle loop %5.1f ns, ratio %.2f; without the tests %5.1f ns, plain C %5.1f ns, ratio %.2f\n", best[LOOP],
        best[LOOP] / best[PLAIN], best[LOOP_VALID], best[PLAIN_VALID], best[LOOP_VALID] / best[PLAIN_VALID]);
}

static bool same_event(twimbor_event a, twimbor_event b)
{
    return a.code == b.code && a.start == b.start && a.length == b.length && a.volume == b.volume && a.quietest == b.quietest
        && a.began == b.began && a.ended == b.ended;
}

/* Each segment an event of its own; unmarked ones are looked up for what they continue. */
static void listing(int held, bool marked)
{
    enum { LISTS = 20 };
    twimbor_table t = filled(held);
    for (int i = 0; i < held; i++) {
        twimbor_segment s = twimbor_segment_at(&t, i);
        s.marked = marked;
        twimbor_set_segment(&t, i, s);
    }
    static twimbor_event out[128], plain_out[128];
    double ours = 1e18, plain = 1e18;
    for (int round = 0; round < ROUNDS; round++) {
        double start = now();
        for (int turn = 0; turn < LISTS; turn++) if (twimbor_list(&t, out, 128).events != (size_t)held) exit(1);
        least(&ours, (now() - start) / LISTS);
        start = now();
        for (int turn = 0; turn < LISTS; turn++) if (plain_list(&t, plain_out, 128).events != (size_t)held) exit(1);
        least(&plain, (now() - start) / LISTS);
    }
    for (int k = 0; k < held; k++) if (!same_event(out[k], plain_out[k])) exit(1);
    printf("list, %3d events, %8s: %6.0f ns, plain C by the same algorithm %6.0f ns, ratio %.2f, at most 2.5\n", held, marked ? "marked" : "unmarked", ours, plain, ours / plain);
}

int main(void)
{
    static const int held[] = {1, 4, 16, 64, 128}, events[] = {1, 16, 64, 128};
    static const double limits[] = {2.0, 1.6, 1.2, 1.0, 1.0};
    same_probes();
    for (int n = 1; n <= 9; n++) same_tests(n);
    same_tests(128);
    for (int i = 0; i < 5; i++) receiving(held[i], limits[i]);
    for (int i = 0; i < 4; i++) listing(events[i], true);
    for (int i = 0; i < 4; i++) listing(events[i], false);
    return 0;
}
