/* Receiving: this build against an earlier one, whose functions `bench/before` names before_.., in turns, the best of many rounds. Each
 * keeps what was heard in its own way, so each has tables of its own. */
#include "clock.h"
#include "../include/twimbor.h"
#include <stdio.h>
#include <stdlib.h>

typedef uint64_t loop(twimbor_head head, uint64_t *keys, uint32_t *heard, const uint8_t *packets, size_t bytes, uint32_t passes);
loop bench_receive, bench_receive_valid, before_bench_receive, before_bench_receive_valid;
twimbor_received before_twimbor_receive_columns(twimbor_head head, uint64_t *keys, uint32_t *heard, const uint8_t *packet, size_t bytes);

enum { BEFORE, NOW, PACKETS = 256, ROUNDS = 2000, TURNS = 10, WAYS = 3 };
static uint8_t packets[PACKETS * 16];

#define PASS(name, receive, loop, loop_valid) \
    static void name(int way, twimbor_table *t) \
    { \
        uint64_t refusals = 0; \
        twimbor_head h = t->head; \
        switch (way) { \
        case 0: \
            for (int turn = 0; turn < TURNS; turn++) \
                for (int i = 0; i < PACKETS; i++) { \
                    twimbor_received r = receive(h, t->keys, t->heard, packets + 16 * i, 16); \
                    h.count = r.count; \
                    refusals += r.refusal; \
                } \
            break; \
        case 1: h.count = loop(h, t->keys, t->heard, packets, sizeof packets, TURNS); break; \
        case 2: h.count = loop_valid(h, t->keys, t->heard, packets, sizeof packets, TURNS); break; \
        } \
        t->head.count = h.count; \
        if (refusals) exit(1); \
    }
PASS(pass_before, before_twimbor_receive_columns, before_bench_receive, before_bench_receive_valid)
PASS(pass_now, twimbor_receive_columns, bench_receive, bench_receive_valid)

/* The same keys, durations and flags. */
static bool alike(const twimbor_table *a, const twimbor_table *b)
{
    for (int i = 0; i < TWIMBOR_PLACES; i++)
        if (a->keys[i] != b->keys[i] || (a->heard[i] ^ b->heard[i]) & 0x3ffff) return false;
    return a->head.count == b->head.count;
}

/* Known segments in a fixed cycle, as many as are held. */
static void receiving(int held)
{
    static const char *const names[WAYS] = {"from C", "in a loop", "without the tests"};
    twimbor_table t[WAYS][2];
    double best[WAYS][2];
    for (int i = 0; i < PACKETS; i++) {
        twimbor_report r = {i % 7 == 0, 101, (uint16_t)i, 1000u + 700u * (i % held), 7, 5, i % 3 == 0, i % 64, 1 + i};
        if (twimbor_write(TWIMBOR_KEYS, r, packets + 16 * i, 16) != 0) exit(1);
    }
    for (int way = 0; way < WAYS; way++)
        for (int build = 0; build < 2; build++) {
            if (twimbor_open(&t[way][build], TWIMBOR_KEYS, 101, 7, 1000) != 0) exit(1);
            best[way][build] = 1e18;
        }
    for (int round = 0; round < ROUNDS; round++)
        for (int way = 0; way < WAYS; way++)
            for (int build = 0; build < 2; build++) {
                double begin = now();
                (build == BEFORE ? pass_before : pass_now)(way, &t[way][build]);
                double took = (now() - begin) / (TURNS * PACKETS);
                if (took < best[way][build]) best[way][build] = took;
            }
    printf("receive, %3d held:", held);
    for (int way = 0; way < WAYS; way++) {
        if (!alike(&t[way][BEFORE], &t[way][NOW])) exit(1);
        printf("  %s %.1f ns, before %.1f ns, %+.1f %%%s", names[way], best[way][NOW], best[way][BEFORE], (best[way][NOW] / best[way][BEFORE] - 1) * 100,
            way + 1 < WAYS ? ";" : "\n");
    }
}

int main(void)
{
    static const int held[] = {1, 4, 16, 64, 128};
    for (int i = 0; i < 5; i++) receiving(held[i]);
    return 0;
}
