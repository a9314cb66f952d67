/* The listing program against the one in plain C, each run on the same capture in turns: the best time, and the memory held. */
#include <fcntl.h>
#include <stdint.h>
#include <stdio.h>
#include <stdlib.h>
#include <sys/resource.h>
#include <sys/wait.h>
#include <time.h>
#include <unistd.h>

enum { HELD = 100, REPORTS = 8, ROUNDS = 11 };

static void check(int ok, const char *what)
{
    if (!ok) {
        perror(what);
        exit(1);
    }
}

/* Keys one after another, eight reports each, over and over: 100 segments are held. */
static void capture(const char *path, uint32_t packets)
{
    FILE *f = fopen(path, "wb");
    check(f != NULL, path);
    for (uint32_t i = 0; i < packets; i++) {
        uint32_t k = i / REPORTS % HELD, r = i % REPORTS, time = 1000 + k * 70000, duration = 400 * (r + 1);
        uint8_t p[18] = {0, 16, 0x80, (uint8_t)(r == 0 ? 0xE5 : 0x65), (uint8_t)(i >> 8), (uint8_t)i,
            (uint8_t)(time >> 24), (uint8_t)(time >> 16), (uint8_t)(time >> 8), (uint8_t)time, 0, 0, 0, 7,
            (uint8_t)(k % 16), (uint8_t)(r > 5 ? 0x8A : 0x0A), (uint8_t)(duration >> 8), (uint8_t)duration};
        check(fwrite(p, 1, sizeof p, f) == sizeof p, path);
    }
    check(fclose(f) == 0, path);
}

static double seconds(void)
{
    struct timespec t;
    clock_gettime(CLOCK_MONOTONIC, &t);
    return (double)t.tv_sec + (double)t.tv_nsec / 1e9;
}

/* Runs a program on a capture; what it prints goes to a file. Answers the seconds, and the most memory held, in KiB. */
static double run(const char *program, const char *input, const char *output, long *memory)
{
    double start = seconds();
    pid_t child = fork();
    check(child >= 0, "fork");
    if (child == 0) {
        int in = open(input, O_RDONLY), out = open(output, O_WRONLY | O_CREAT | O_TRUNC, 0666);
        if (in < 0 || out < 0 || dup2(in, 0) < 0 || dup2(out, 1) < 0) _exit(126);
        execl(program, program, (char *)NULL);
        _exit(127);
    }
    int status;
    struct rusage used;
    check(wait4(child, &status, 0, &used) == child && status == 0, program);
    *memory = used.ru_maxrss;
    return seconds() - start;
}

static int same(const char *a, const char *b)
{
    FILE *f = fopen(a, "rb"), *g = fopen(b, "rb");
    check(f != NULL && g != NULL, a);
    int c, d;
    do {
        c = getc(f);
        d = getc(g);
    } while (c == d && c != EOF);
    fclose(f);
    fclose(g);
    return c == d;
}

/* listing OURS PLAIN, in a folder of its own */
int main(int count, char **args)
{
    check(count == 3, "two programs");
    FILE *session = fopen("session.txt", "wb");
    check(session != NULL, "session.txt");
    fputs("pt=101\nssrc=7\norigin=1000\n", session);
    check(fclose(session) == 0, "session.txt");
    long ours, plain;
    double best = 1e9, base = 1e9;
    capture("million.rtp", 1000000);
    for (int round = 0; round < ROUNDS; round++) {
        double t = run(args[1], "million.rtp", "ours.txt", &ours), u = run(args[2], "million.rtp", "plain.txt", &plain);
        if (t < best) best = t;
        if (u < base) base = u;
    }
    check(same("ours.txt", "plain.txt"), "the lists differ");
    printf("list_events, 1,000,000 packets, %d held: %.1f ms, plain C %.1f ms, ratio %.2f, at most 1.2\n", HELD, best * 1e3, base * 1e3, best / base);
    capture("small.rtp", 10000);
    capture("large.rtp", 10000000);
    run(args[1], "small.rtp", "ours.txt", &ours);
    printf("list_events, memory: %ld KiB with 10,000 packets, ", ours);
    run(args[1], "large.rtp", "ours.txt", &ours);
    printf("%ld KiB with 10,000,000\n", ours);
    check(unlink("large.rtp") == 0, "large.rtp");
    return 0;
}
