/* A small gateway: three calls, each with a UDP port and a table of its own. It tells a key when it ends, and all keys of a call
 * when that hangs up.
 *
 *     cc -Iinclude examples/c/gateway.c target/staticlib/libtwimbor.a -o gateway && ./gateway
 *
 * Telephone events, sound and RTCP come on one port (RFC 5761). The phones are a child process, and some of their packets are lost,
 * repeated or swapped. rust/examples/gateway.rs is the same in Rust. */
#define _POSIX_C_SOURCE 200809L
#include "twimbor.h"
#include <arpa/inet.h>
#include <errno.h>
#include <poll.h>
#include <stdio.h>
#include <stdlib.h>
#include <string.h>
#include <sys/socket.h>
#include <sys/wait.h>
#include <time.h>
#include <unistd.h>

enum {
    CALLS = 3,
    PAYLOAD_TYPE = 101,     /* of the telephone events, agreed on before (SDP); which of them, DESCRIPTION tells */
    RATE = 8000,            /* timestamp units in a second, agreed on with it */
    SILENCE = 5,            /* seconds after which a gateway that hears nothing hangs up */
    RECEIVER_REPORT = 201,  /* RTCP packet types (RFC 3550) */
    BYE = 203
};

/* The line of the session description that lists the events, and what it says. */
static const char DESCRIPTION[] = "a=fmtp:101 0-15,66,70";
static twimbor_codes agreed;

typedef struct {
    int number;
    bool has_source;                    /* an event packet has come, and the table is open for its SSRC */
    twimbor_table table;
    twimbor_event told[TWIMBOR_PLACES]; /* room for all: each begins at a segment of its own */
    size_t told_count;
} call;

static void stop(const char *what, const char *why)
{
    fprintf(stderr, "%s: %s\n", what, why);
    exit(1);
}

static twimbor_codes codes_of(const char *line)
{
    char before[32];
    int bytes = snprintf(before, sizeof before, "a=fmtp:%d ", PAYLOAD_TYPE);
    if (strncmp(line, before, (size_t)bytes) != 0) stop(line, "not of the telephone events");
    twimbor_codes_result read = twimbor_read_codes(line + bytes, strlen(line + bytes));
    if (read.refusal != 0) stop(line, twimbor_refusal_text(read.refusal));
    return read.codes;
}

static void open_table(call *c, uint32_t ssrc, uint32_t origin)
{
    uint8_t refusal = twimbor_open(&c->table, agreed, PAYLOAD_TYPE, ssrc, origin);
    if (refusal != 0) stop("open", twimbor_refusal_text(refusal));
    c->has_source = true;
    c->told_count = 0;
}

static size_t list(const call *c, twimbor_event *events)
{
    twimbor_listed listed = twimbor_list(&c->table, events, TWIMBOR_PLACES);
    if (listed.refusal != 0) stop("list", twimbor_refusal_text(listed.refusal));
    return listed.events;
}

/* Once for each event. */
static void tell(call *c, const twimbor_event *event, const char *remark)
{
    for (size_t i = 0; i < c->told_count; i++)
        if (c->told[i].start == event->start && c->told[i].code == event->code) return;
    c->told[c->told_count++] = *event;
    unsigned ms = event->length / (RATE / 1000);
    printf("call %d: ", c->number);
    if (twimbor_codes_contain(TWIMBOR_KEYS, event->code)) printf("key %c", twimbor_key_character(event->code));
    else printf("event %d", event->code);
    printf(", %u ms%s\n", ms, remark);
}

static void tell_ended(call *c)
{
    twimbor_event events[TWIMBOR_PLACES];
    size_t count = list(c, events);
    for (size_t i = 0; i < count; i++) {
        /* The last segments of a long key, if a report between them and the first ones is still on its way. */
        bool is_rest = !events[i].began && i > 0 && events[i - 1].code == events[i].code && !events[i - 1].ended;
        if (events[i].ended && !is_rest) tell(c, &events[i], "");
    }
}

/* Tells what has not ended too, and then all keys in their order. */
static void finish(call *c, const char *why)
{
    twimbor_event events[TWIMBOR_PLACES];
    char keys[TWIMBOR_PLACES + 1] = "";
    size_t count = list(c, events);
    for (size_t i = 0; i < count; i++) {
        tell(c, &events[i], ", not all heard");
        keys[i] = twimbor_key_character(events[i].code);
    }
    printf("call %d: %s: keys %s\n", c->number, why, keys);
}

static void receive(call *c, const uint8_t *packet, size_t bytes)
{
    if (!c->has_source) {
        twimbor_read_result first = twimbor_read(agreed, packet, bytes);
        if (first.refusal != 0 || first.report.payload_type != PAYLOAD_TYPE) return;
        /* A minute of room for reports that were sent before this one and come after it. */
        open_table(c, first.report.ssrc, first.report.timestamp - 60 * RATE);
    }
    twimbor_received received = twimbor_receive(&c->table, packet, bytes);
    if (received.refusal == TWIMBOR_TABLE_FULL) {
        /* The next table begins after the last segment: copies of what this one holds are refused, so no key is told twice. */
        uint32_t last = twimbor_segment_at(&c->table, TWIMBOR_PLACES - 1).offset;
        finish(c, twimbor_refusal_text(received.refusal));
        open_table(c, c->table.head.ssrc, c->table.head.origin + last + 1);
        received = twimbor_receive(&c->table, packet, bytes);
    }
    if (received.refusal == 0) tell_ended(c);
    else if (received.refusal != TWIMBOR_OTHER_PAYLOAD_TYPE) /* sound is passed over */
        printf("call %d: refused: %s\n", c->number, twimbor_refusal_text(received.refusal));
}

/* RTCP packets come several in one, each with its type and its length in words after the first. */
static bool has_bye(const uint8_t *packet, size_t bytes)
{
    for (size_t at = 0; at + 4 <= bytes; at += 4 + 4 * ((size_t)packet[at + 2] << 8 | packet[at + 3]))
        if (packet[at + 1] == BYE) return true;
    return false;
}

/* Hears one packet, and answers whether the call goes on. */
static bool hear(call *c, int from)
{
    uint8_t packet[1500];
    ssize_t bytes = recv(from, packet, sizeof packet, MSG_DONTWAIT);
    if (bytes < 0 && errno != EAGAIN && errno != EINTR) stop("recv", strerror(errno));
    if (bytes < 0) return true;
    bool is_rtcp = bytes >= 2 && packet[1] >= 192 && packet[1] <= 223; /* RFC 5761, 4 */
    if (is_rtcp && has_bye(packet, (size_t)bytes)) {
        finish(c, "hung up");
        return false;
    }
    if (!is_rtcp) receive(c, packet, (size_t)bytes);
    return true;
}

/* The phones. */

static void send_packet(int to, const uint8_t *packet, size_t bytes)
{
    static const struct timespec pause = {0, 1000000}; /* phones send less often, and a socket has room for some hundred packets */
    if (send(to, packet, bytes, 0) < 0) stop("send", strerror(errno));
    nanosleep(&pause, NULL);
}

/* Sends the first reports of a key: each two are swapped, every fifth is lost, and every fourth comes twice. */
static void send_key(int to, twimbor_plan plan, uint32_t reports)
{
    twimbor_count_result count = twimbor_report_count(agreed, plan);
    if (count.refusal != 0) stop("plan", twimbor_refusal_text(count.refusal));
    for (uint32_t n = 0; n < count.reports && n < reports; n++) {
        uint8_t packet[TWIMBOR_PACKET_BYTES];
        uint32_t k = (n ^ 1) < count.reports ? (n ^ 1) + 1 : n + 1;
        uint8_t refusal = twimbor_write_report(agreed, plan, k, packet, sizeof packet);
        if (refusal != 0) stop("report", twimbor_refusal_text(refusal));
        for (int copies = k % 5 == 0 ? 0 : k % 4 == 0 ? 2 : 1; copies > 0; copies--) send_packet(to, packet, sizeof packet);
    }
}

#define ALL UINT32_MAX

static const struct {
    int call;
    uint32_t code, length, segment_size, reports;
} presses[] = {
    {0, 1, 960, 65535, ALL}, {1, 5, 70000, 65535, ALL}, {0, 2, 960, 65535, ALL}, {0, 11, 960, 65535, ALL},
    /* Short segments, as many as a table holds, and two keys more. */
    {2, 0, 6400, 400, ALL}, {2, 1, 6400, 400, ALL}, {2, 2, 6400, 400, ALL}, {2, 3, 6400, 400, ALL}, {2, 4, 6400, 400, ALL},
    {2, 5, 6400, 400, ALL}, {2, 6, 6400, 400, ALL}, {2, 7, 6400, 400, ALL}, {2, 8, 960, 65535, ALL}, {2, 9, 960, 65535, ALL},
    /* The line's ringing tone. */
    {1, 70, 16000, 65535, ALL},
    /* Still held at the hang-up. */
    {0, 7, 960, 65535, 2},
};

static void send_all(const struct sockaddr_in *gateway)
{
    static const uint8_t sound[12 + 160] = {0x80}, packed[20] = {0x80, PAYLOAD_TYPE, [11] = 7, [15] = 100, [19] = 100};
    static const uint8_t flash[16] = {0x80, PAYLOAD_TYPE, [11] = 7, [12] = 16, [15] = 100}; /* on which nobody agreed */
    static const uint8_t bye[] = {0x80, RECEIVER_REPORT, 0, 1, 0, 0, 0, 7, 0x81, BYE, 0, 1, 0, 0, 0, 7};
    uint32_t now[CALLS] = {1000, UINT32_MAX - 1000, 2000000000};
    int to[CALLS];
    for (int i = 0; i < CALLS; i++) {
        to[i] = socket(AF_INET, SOCK_DGRAM, 0);
        if (to[i] < 0 || connect(to[i], (const struct sockaddr *)&gateway[i], sizeof *gateway) < 0) stop("phone", strerror(errno));
    }
    for (size_t i = 0; i < sizeof presses / sizeof *presses; i++) {
        int c = presses[i].call;
        twimbor_plan plan = {
            .payload_type = PAYLOAD_TYPE, .ssrc = 7, .start = now[c], .code = presses[i].code, .volume = 10,
            .length = presses[i].length, .period = 400, .segment_size = presses[i].segment_size,
        };
        send_packet(to[c], sound, sizeof sound);
        send_packet(to[c], bye, 8); /* the receiver report alone */
        send_key(to[c], plan, presses[i].reports);
        now[c] += plan.length + RATE;
    }
    send_packet(to[0], packed, sizeof packed);
    send_packet(to[0], flash, sizeof flash);
    for (int i = 0; i < CALLS; i++) {
        send_packet(to[i], bye, sizeof bye);
        close(to[i]);
    }
}

int main(void)
{
    static call calls[CALLS];
    struct pollfd polled[CALLS];
    struct sockaddr_in ports[CALLS];
    setvbuf(stdout, NULL, _IOLBF, BUFSIZ);
    agreed = codes_of(DESCRIPTION);
    for (int i = 0; i < CALLS; i++) {
        socklen_t bytes = sizeof ports[i];
        struct sockaddr_in any = {.sin_family = AF_INET, .sin_addr.s_addr = htonl(INADDR_LOOPBACK)};
        polled[i] = (struct pollfd){.fd = socket(AF_INET, SOCK_DGRAM, 0), .events = POLLIN};
        if (polled[i].fd < 0 || bind(polled[i].fd, (struct sockaddr *)&any, sizeof any) < 0
            || getsockname(polled[i].fd, (struct sockaddr *)&ports[i], &bytes) < 0) stop("port", strerror(errno));
        calls[i].number = i + 1;
    }
    pid_t phones = fork();
    if (phones < 0) stop("fork", strerror(errno));
    if (phones == 0) {
        send_all(ports);
        return 0;
    }
    for (int going_on = CALLS; going_on > 0;) {
        int ready = poll(polled, CALLS, SILENCE * 1000);
        if (ready < 0 && errno == EINTR) continue;
        if (ready < 0) stop("poll", strerror(errno));
        for (int i = 0; i < CALLS; i++) {
            if (ready == 0 && polled[i].fd >= 0) finish(&calls[i], "silent");
            else if (polled[i].revents == 0 || hear(&calls[i], polled[i].fd)) continue;
            close(polled[i].fd);
            polled[i].fd = -1; /* which poll passes over */
            going_on--;
        }
    }
    int status;
    return waitpid(phones, &status, 0) != phones || status != 0 || fflush(stdout) != 0;
}
