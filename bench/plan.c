/* A plan's two calls: ours against plain C behind the same boundary, once with the divide instruction, which ours does without, and once
 * by shifts and subtractions; in turns, the best of many rounds of each. */
#include "clock.h"
#include "plain/plain.h"
#include <stdio.h>
#include <stdlib.h>
#include <string.h>

/* Many plans; a processor still learns some of their branches, and of four times as many none. */
enum { PLANS = 4096, TURNS = 6, ROUNDS = 600, CHECKS = 2000000 };
enum { OURS, PLAIN, BY_SHIFTS, WAYS };
static twimbor_plan plans[PLANS];
static uint32_t numbers[PLANS];
static const twimbor_codes codes = {0xffff, 0x44, 0, 0}; /* 0-15,66,70 */

typedef twimbor_count_result count_call(twimbor_codes codes, twimbor_plan plan);
typedef uint8_t write_call(twimbor_codes codes, twimbor_plan plan, uint32_t k, uint8_t *output, size_t bytes);

/* 0 to n - 1, the same in every run. */
static uint32_t below(uint32_t n)
{
    static uint64_t state = 4733;
    state = state * 6364136223846793005u + 1442695040888963407u;
    return (uint32_t)(state >> 33) % n;
}

#define PICK(list) (list)[below(sizeof (list) / sizeof *(list))]

/* The longest segments, those of a sender of redundant packets, any, short ones; lengths of one segment, of up to 16, and in whole
 * sizes. */
static twimbor_plan any_plan(void)
{
    uint32_t sizes[] = {65535, 65535, 15983, 1 + below(65535), 1 + below(500)};
    uint32_t size = PICK(sizes);
    uint32_t lengths[] = {1 + below(size), 1 + below(16 * size), size * (1 + below(16))};
    uint32_t periods[] = {160, 400, 800, 2400, 65535, 1 + below(size)};
    uint32_t start = below(1 << 30) * 4, members[] = {below(16), below(16), 66, 70};
    return (twimbor_plan){101, 7, (uint16_t)below(65536), start, PICK(members), below(64), PICK(lengths), PICK(periods), size};
}

/* A key pressed for up to two seconds, as most are. */
static twimbor_plan a_press(void)
{
    twimbor_plan p = any_plan();
    p.segment_size = 65535;
    p.period = 400;
    p.length = 1 + below(16000);
    return p;
}

/* Any with one number somewhat off, so that most are refused, or with a small period, so that the quotients are large. */
static twimbor_plan other_plan(void)
{
    twimbor_plan p = any_plan();
    uint32_t sizes = 16 * p.segment_size, one_off = below(3) - 1, near[] = {16, 66, 70, 255, 256 + 66};
    switch (below(8)) {
    case 0: p.payload_type = 128 + one_off; break;
    case 1: p.code = PICK(near) + one_off; break;
    case 2: p.volume = 64 + one_off; break;
    case 3: p.length = (below(2) ? sizes : 0) + one_off; break;
    case 4: p.period = (below(2) ? 65535 : 0) + one_off; break;
    case 5: p.segment_size = (below(2) ? 65535 : 0) + one_off; break;
    case 6: p.segment_size += 1u << (16 + below(16)); break;
    case 7: p.period = 1 + below(1u << below(12)); break;
    }
    return p;
}

/* What a way to plan answers: the count, and what becomes of an output that is lent so many bytes for report k. */
typedef struct {
    twimbor_count_result count;
    uint8_t refusal, output[20];
} answers;

static answers answers_of(count_call *count, write_call *write, twimbor_plan p, uint32_t k, size_t bytes)
{
    answers a = {.count = count(codes, p)};
    memset(a.output, 0xAB, sizeof a.output);
    a.refusal = write(codes, p, k, a.output, bytes);
    return a;
}

static bool same(answers a, answers b)
{
    return a.count.reports == b.count.reports && a.count.refusal == b.count.refusal && a.refusal == b.refusal
        && memcmp(a.output, b.output, sizeof a.output) == 0;
}

/* The answers and every byte, with report numbers and outputs on both sides of their edges. */
static void compare(twimbor_plan p)
{
    uint32_t n = twimbor_report_count(codes, p).reports;
    uint32_t edges[] = {0, 1, n - 1, n, n + 1, UINT32_MAX, 1 + below(n + 1), below(1 << 30) * 4};
    uint32_t k = PICK(edges);
    size_t bytes = below(8) ? 16 + below(5) : below(16);
    answers ours = answers_of(twimbor_report_count, twimbor_write_report, p, k, bytes);
    answers plain = answers_of(plain_report_count, plain_write_report, p, k, bytes);
    answers by_shifts = answers_of(plain_report_count_by_shifts, plain_write_report_by_shifts, p, k, bytes);
    if (!same(ours, plain) || !same(ours, by_shifts)) {
        printf("report %u of a plan differs: length %u, period %u, segment size %u\n", k, p.length, p.period, p.segment_size);
        exit(1);
    }
}

static double round_of_count(count_call *count, uint64_t *sum)
{
    double start = now();
    for (int turn = 0; turn < TURNS; turn++)
        for (int i = 0; i < PLANS; i++) {
            twimbor_count_result r = count(codes, plans[i]);
            *sum += r.refusal + r.reports;
        }
    return (now() - start) / ((double)TURNS * PLANS);
}

static double round_of_write(write_call *write, uint64_t *sum)
{
    static uint8_t output[16];
    double start = now();
    for (int turn = 0; turn < TURNS; turn++)
        for (int i = 0; i < PLANS; i++) {
            *sum += write(codes, plans[i], numbers[i], output, 16);
            *sum += output[15];
        }
    return (now() - start) / ((double)TURNS * PLANS);
}

static void print(const char *plan, const char *call, const double *ns)
{
    printf("%s, %s: %.2f ns, plain C %.2f ns, ratio %.2f, plain C by shifts %.2f ns, ratio %.2f\n", plan, call, ns[OURS], ns[PLAIN],
           ns[OURS] / ns[PLAIN], ns[BY_SHIFTS], ns[OURS] / ns[BY_SHIFTS]);
}

/* Times the calls on plans of a kind, with any of their reports. */
static void measure(const char *kind, twimbor_plan (*plan)(void))
{
    for (int i = 0; i < PLANS; i++) {
        plans[i] = plan();
        numbers[i] = 1 + below(twimbor_report_count(codes, plans[i]).reports);
    }
    uint64_t sums[WAYS] = {0};
    double counts[WAYS] = {1e18, 1e18, 1e18}, writes[WAYS] = {1e18, 1e18, 1e18};
    for (int round = 0; round < ROUNDS; round++) {
        least(&counts[OURS], round_of_count(twimbor_report_count, &sums[OURS]));
        least(&counts[PLAIN], round_of_count(plain_report_count, &sums[PLAIN]));
        least(&counts[BY_SHIFTS], round_of_count(plain_report_count_by_shifts, &sums[BY_SHIFTS]));
        least(&writes[OURS], round_of_write(twimbor_write_report, &sums[OURS]));
        least(&writes[PLAIN], round_of_write(plain_write_report, &sums[PLAIN]));
        least(&writes[BY_SHIFTS], round_of_write(plain_write_report_by_shifts, &sums[BY_SHIFTS]));
    }
    if (sums[PLAIN] != sums[OURS] || sums[BY_SHIFTS] != sums[OURS]) { printf("the plans differ\n"); exit(1); }
    print(kind, "report count", counts);
    print(kind, "write report", writes);
}

int main(void)
{
    for (int i = 0; i < CHECKS; i++) compare(i % 2 ? any_plan() : other_plan());
    measure("plan", any_plan);
    measure("plan of one segment", a_press);
    return 0;
}
