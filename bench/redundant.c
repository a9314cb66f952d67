/* Redundant packets: receiving and walking, ours against plain C, both in place and with the same tests, in turns, the best of many
 * rounds; and what a block costs where there are 3, 100 and 16,000 of them. */
#include "clock.h"
#include "plain/plain.h"
#include <stdio.h>
#include <stdlib.h>
#include <string.h>

enum { PACKETS = 64, ROUNDS = 400, TURNS = 10, BYTES = 33 };
static uint8_t packets[PACKETS][BYTES];
static uint32_t entries[3];

static twimbor_older_report older(twimbor_report r, uint32_t before)
{
    return (twimbor_older_report){r.timestamp - before, r.code, r.ended, r.volume, r.duration};
}

/* Known segments in a fixed cycle, as many as are held: a packet's three reports are of three of them, or of the same. */
static twimbor_table filled(uint32_t held)
{
    twimbor_table t;
    if (twimbor_open_redundant(&t, TWIMBOR_KEYS, 101, 102, 7, 1000) != 0) exit(1);
    for (uint32_t i = 0; i < held; i++) twimbor_set_segment(&t, i, (twimbor_segment){700 * i, 5, 1, 31, 31, false, false});
    t.head.count = held;
    for (uint32_t i = 0; i < PACKETS; i++) {
        uint32_t at = i % held, back = at < 2 ? at : 2;
        twimbor_report r = {i % 7 == 0, 101, (uint16_t)i, 1000 + 700 * at, 7, 5, i % 3 == 0, i % 64, 1 + i};
        twimbor_older_report first = older(r, 700 * back), second = older(r, 700 * (back / 2));
        if (twimbor_write_redundant(TWIMBOR_KEYS, r, 102, 2, first, second, packets[i], BYTES) != 0) exit(1);
    }
    return t;
}

static void receiving(uint32_t held)
{
    twimbor_table ours_table = filled(held), plain_table = ours_table;
    double ours = 1e18, plain = 1e18;
    for (int round = 0; round < ROUNDS; round++) {
        size_t blocks = 0;
        double start = now();
        for (int turn = 0; turn < TURNS; turn++)
            for (int i = 0; i < PACKETS; i++) blocks += twimbor_receive_redundant(&ours_table, packets[i], BYTES, entries, 3).blocks;
        least(&ours, (now() - start) / (TURNS * PACKETS));
        start = now();
        for (int turn = 0; turn < TURNS; turn++)
            for (int i = 0; i < PACKETS; i++) blocks += plain_receive_redundant(&plain_table, packets[i], BYTES, entries, 3).blocks;
        least(&plain, (now() - start) / (TURNS * PACKETS));
        if (blocks != 2 * 3 * TURNS * PACKETS) exit(1);
    }
    if (memcmp(&ours_table, &plain_table, sizeof ours_table) != 0) exit(1);
    printf("receive_redundant, 3 event blocks, %3u held: %5.1f ns, plain C %5.1f ns, ratio %.2f, at most 1.4\n", held, ours, plain, ours / plain);
}

/* A packet of n blocks: older ones of the event's type and, one in two, of sound, all with the four bytes of one report. */
static size_t make_packet(uint8_t *packet, size_t n)
{
    uint8_t report[16];
    if (twimbor_write(TWIMBOR_KEYS, (twimbor_report){false, 101, 1, 100000, 7, 5, false, 10, 400}, report, 16) != 0) exit(1);
    memcpy(packet, report, 12);
    packet[1] = 102;
    for (size_t i = 0; i + 1 < n; i++) memcpy(packet + 12 + 4 * i, i % 2 ? "\x80\x00\x00\x00" : "\xe5\x00\x00\x00", 4);
    size_t at = 12 + 4 * (n - 1);
    packet[at++] = 101;
    for (size_t i = 0; i + 1 < n && at + 8 <= 65535; i++) {
        packet[12 + 4 * i + 3] = 4;
        memcpy(packet + at, report + 12, 4);
        at += 4;
    }
    memcpy(packet + at, report + 12, 4);
    return at + 4;
}

static void many(size_t n)
{
    static uint8_t packet[65536 + 16];
    static uint32_t lent[16384];
    size_t bytes = make_packet(packet, n), turns = n < 1000 ? 20000 / n : 4;
    twimbor_table t, plain_table;
    if (twimbor_open_redundant(&t, TWIMBOR_KEYS, 101, 102, 7, 1000) != 0) exit(1);
    plain_table = t;
    double receive = 1e18, plain = 1e18, walk = 1e18, plain_steps = 1e18;
    for (int round = 0; round < ROUNDS / 4; round++) {
        size_t blocks = 0, found = 0;
        double start = now();
        for (size_t turn = 0; turn < turns; turn++) blocks += twimbor_receive_redundant(&t, packet, bytes, lent, 16384).blocks;
        least(&receive, (now() - start) / (turns * n));
        start = now();
        for (size_t turn = 0; turn < turns; turn++) blocks += plain_receive_redundant(&plain_table, packet, bytes, lent, 16384).blocks;
        least(&plain, (now() - start) / (turns * n));
        if (blocks != 2 * turns * (n / 2 + 1)) exit(1);
        start = now();
        for (size_t turn = 0; turn < turns; turn++) {
            twimbor_walker walker;
            twimbor_block block;
            if (twimbor_walk(&walker, packet, bytes) != 0) exit(1);
            while (twimbor_next_block(&walker, &block)) found++;
        }
        least(&walk, (now() - start) / (turns * n));
        start = now();
        for (size_t turn = 0; turn < turns; turn++) {
            twimbor_walker walker;
            twimbor_block block;
            if (plain_walk(&walker, packet, bytes) != 0) exit(1);
            while (plain_next_block(&walker, &block)) found++;
        }
        least(&plain_steps, (now() - start) / (turns * n));
        if (found != 2 * turns * n) exit(1);
    }
    if (memcmp(&t, &plain_table, sizeof t) != 0) exit(1);
    printf("%5zu blocks, half of them the event's: receive %4.1f ns a block, plain C %4.1f ns, ratio %.2f; walk %4.1f ns, plain C %4.1f ns, ratio %.2f\n",
        n, receive, plain, receive / plain, walk, plain_steps, walk / plain_steps);
}

int main(void)
{
    static const uint32_t held[] = {1, 16, 100};
    static const size_t blocks[] = {3, 100, 8000, 16000};
    for (int i = 0; i < 3; i++) receiving(held[i]);
    for (int i = 0; i < 4; i++) many(blocks[i]);
    return 0;
}
