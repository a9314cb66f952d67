/* Reading a 16-byte packet: ours against plain C behind the same boundary, with the same set, in turns, the best of many rounds of each. */
#include "clock.h"
#include "plain/plain.h"
#include <stdio.h>

enum { PACKETS = 256, TURNS = 200, ROUNDS = 600 };
static uint8_t packets[PACKETS][16];
static const twimbor_codes codes = {0xffff, 0x44, 0, 0}; /* 0-15,66,70 */

static double round_of(twimbor_read_result (*read)(twimbor_codes, const uint8_t *, size_t), uint64_t *sum)
{
    double start = now();
    for (int turn = 0; turn < TURNS; turn++)
        for (int i = 0; i < PACKETS; i++) {
            twimbor_read_result r = read(codes, packets[i], 16);
            *sum += r.refusal + r.report.duration + r.report.timestamp + r.report.volume;
        }
    return (now() - start) / ((double)TURNS * PACKETS);
}

int main(void)
{
    uint64_t ours = 0, plain = 0;
    double best_ours = 1e18, best_plain = 1e18;
    for (int i = 0; i < PACKETS; i++) {
        uint32_t code = i % 18 < 16 ? i % 18 : i % 2 ? 66 : 70;
        twimbor_report r = {i % 7 == 0, 101, (uint16_t)i, 1000u * i, 7, code, i % 3 == 0, i % 64, 1 + i};
        if (twimbor_write(codes, r, packets[i], 16) != 0) return 1;
    }
    for (int k = 0; k < ROUNDS; k++) {
        double a = round_of(twimbor_read, &ours), b = round_of(plain_read, &plain);
        if (a < best_ours) best_ours = a;
        if (b < best_plain) best_plain = b;
    }
    if (ours != plain) { printf("the two readers differ\n"); return 1; }
    printf("read, 16 bytes: %.2f ns, plain C %.2f ns, ratio %.2f, at most 1.5\n", best_ours, best_plain, best_ours / best_plain);
    return 0;
}
