/* The boundary from C: each function of the header called, each field of a struct filled, what stays under a refusal, and the edges
 * that only a C caller can meet. What the calls answer to inputs of all kinds is compared in rust/tests/compare. */
#include "../include/twimbor.h"
#include <stdio.h>
#include <stdlib.h>
#include <string.h>

#define EXPECT(holds) expect(holds, #holds, __LINE__)

static void expect(bool holds, const char *what, int line)
{
    if (!holds) {
        printf("tests/boundary.c:%d: not so: %s\n", line, what);
        exit(1);
    }
}

/* Field by field: what stands between the fields is nobody's. */
static bool same_report(twimbor_report a, twimbor_report b)
{
    return a.marker == b.marker && a.payload_type == b.payload_type && a.sequence == b.sequence && a.timestamp == b.timestamp
        && a.ssrc == b.ssrc && a.code == b.code && a.ended == b.ended && a.volume == b.volume && a.duration == b.duration;
}

static bool same_segment(twimbor_segment a, twimbor_segment b)
{
    return a.offset == b.offset && a.code == b.code && a.duration == b.duration && a.volume == b.volume && a.quietest == b.quietest
        && a.ended == b.ended && a.marked == b.marked;
}

static bool same_event(twimbor_event a, twimbor_event b)
{
    return a.code == b.code && a.start == b.start && a.length == b.length && a.volume == b.volume && a.quietest == b.quietest
        && a.began == b.began && a.ended == b.ended;
}

static bool same_codes(twimbor_codes a, twimbor_codes b)
{
    return a.from_0 == b.from_0 && a.from_64 == b.from_64 && a.from_128 == b.from_128 && a.from_192 == b.from_192;
}

static bool same_table(const twimbor_table *a, const twimbor_table *b)
{
    return a->head.payload_type == b->head.payload_type && a->head.both_types == b->head.both_types
        && a->head.redundant_type == b->head.redundant_type && a->head.ssrc == b->head.ssrc && a->head.origin == b->head.origin
        && same_codes(a->head.codes, b->head.codes) && a->head.count == b->head.count && memcmp(a->keys, b->keys, sizeof a->keys) == 0
        && memcmp(a->heard, b->heard, sizeof a->heard) == 0;
}

/* Row P7 of document 01: its plan, its first report, the bytes of its three, and what they say to a table. */
static const twimbor_plan P7 = {
    .payload_type = 101, .ssrc = 0x11223344, .sequence = 65535, .start = 0xFFFFFFF0, .code = 5, .volume = 10, .length = 400, .period = 400,
    .segment_size = 65535,
};
static const twimbor_report FIRST = {
    .marker = true, .payload_type = 101, .sequence = 65535, .timestamp = 0xFFFFFFF0, .ssrc = 0x11223344, .code = 5, .ended = false,
    .volume = 10, .duration = 400,
};
static const uint8_t REPORTS[3][16] = {
    {0x80, 0xE5, 0xFF, 0xFF, 0xFF, 0xFF, 0xFF, 0xF0, 0x11, 0x22, 0x33, 0x44, 0x05, 0x0A, 0x01, 0x90},
    {0x80, 0x65, 0x00, 0x00, 0xFF, 0xFF, 0xFF, 0xF0, 0x11, 0x22, 0x33, 0x44, 0x05, 0x8A, 0x01, 0x90},
    {0x80, 0x65, 0x00, 0x01, 0xFF, 0xFF, 0xFF, 0xF0, 0x11, 0x22, 0x33, 0x44, 0x05, 0x8A, 0x01, 0x90},
};
static const twimbor_head HEAD = {.payload_type = 101, .ssrc = 0x11223344, .origin = 0xFFFFFFF0, .codes = {.from_0 = 0xFFFF}, .count = 0};
static const twimbor_segment HEARD = {
    .offset = 0, .code = 5, .duration = 400, .volume = 10, .quietest = 10, .ended = true, .marked = true,
};

/* What was heard of a segment, in one number, as the header draws it. */
static uint32_t heard_as(uint32_t volume, uint32_t quietest, uint32_t marked, uint32_t ended, uint32_t duration)
{
    return volume * 0x1000000 + quietest * 0x40000 + marked * 0x20000 + ended * 0x10000 + duration;
}

static uint8_t output[40];

static void fresh(void)
{
    memset(output, 0xAB, sizeof output);
}

/* Whether the output is so many bytes of a packet, and then as `fresh` left it. */
static bool has_bytes(const uint8_t *packet, size_t bytes)
{
    uint8_t want[sizeof output];
    memset(want, 0xAB, sizeof want);
    memcpy(want, packet, bytes);
    return memcmp(output, want, sizeof want) == 0;
}

/* The same for the 16 bytes of a report's packet, if any. */
static bool has(const uint8_t *packet)
{
    return packet ? has_bytes(packet, 16) : has_bytes(output, 0);
}

/* A packet that begins as the first report, of so many bytes: one report fewer or more than one, up to the longest in a frame of
 * RFC 4571. */
static const struct {
    size_t bytes;
    uint8_t refusal;
} lengths[] = {
    {12, TWIMBOR_NOT_ONE_REPORT}, {15, TWIMBOR_NOT_ONE_REPORT}, {19, TWIMBOR_NOT_ONE_REPORT}, {20, TWIMBOR_PACKED},
    {21, TWIMBOR_NOT_ONE_REPORT}, {24, TWIMBOR_PACKED}, {65532, TWIMBOR_PACKED}, {65535, TWIMBOR_NOT_ONE_REPORT},
};
enum { LENGTHS = sizeof lengths / sizeof *lengths };

static const uint8_t *long_packet(void)
{
    static uint8_t packet[65535];
    memcpy(packet, REPORTS[0], 16);
    return packet;
}

/* Lists of codes, what each says, and its set's own text. */
static const struct {
    const char *text;
    twimbor_codes codes;
    const char *written;
} lists[] = {
    {"0-15", {0xFFFF, 0, 0, 0}, "0-15"},
    {"0-15,66,70", {0xFFFF, 0x44, 0, 0}, "0-15,66,70"},
    {"70,5-15,66,0-9,70", {0xFFFF, 0x44, 0, 0}, "0-15,66,70"},
    {"0", {1, 0, 0, 0}, "0"},
    {"255", {0, 0, 0, 0x8000000000000000}, "255"},
    {"3,4", {0x18, 0, 0, 0}, "3-4"},
    {"3,5", {0x28, 0, 0, 0}, "3,5"},
    {"63,64", {0x8000000000000000, 1, 0, 0}, "63-64"},
    {"63,65", {0x8000000000000000, 2, 0, 0}, "63,65"},
    {"127-128,192,191", {0, 0x8000000000000000, 0x8000000000000001, 1}, "127-128,191-192"},
    {"0-63,64-70", {UINT64_MAX, 0x7F, 0, 0}, "0-70"},
    {"64-191", {0, UINT64_MAX, UINT64_MAX, 0}, "64-191"},
    {"1-254", {UINT64_MAX - 1, UINT64_MAX, UINT64_MAX, UINT64_MAX >> 1}, "1-254"},
    {"0-255", {UINT64_MAX, UINT64_MAX, UINT64_MAX, UINT64_MAX}, "0-255"},
    {"0,255", {1, 0, 0, 0x8000000000000000}, "0,255"},
};
enum { LISTS = sizeof lists / sizeof *lists };

/* In fewer bits the long numbers look like 0 or 5. */
static const char *const no_lists[] = {
    ",", "-", "256", "260", "300", "999", "1000", "00", "01", "0-015", "5-5", "9-3", "1,", ",1", "1,,2", "1-2-3", "1-", "-1", "1--2",
    "1-256", "+1", " 1", "1 ", "1, 2", "1\n", "\n", "0x5", "1;2", "A", "\x80", "65541", "4294967301", "18446744073709551616",
    "99999999999999999999", "0-18446744073709551621",
};

static const twimbor_codes NO_CODES;

static bool is_no_list(const char *text, size_t bytes)
{
    twimbor_codes_result r = twimbor_read_codes(text, bytes);
    return r.refusal == TWIMBOR_NO_CODES && same_codes(r.codes, NO_CODES);
}

static bool is_list(const char *text, size_t bytes, twimbor_codes codes)
{
    twimbor_codes_result r = twimbor_read_codes(text, bytes);
    return r.refusal == 0 && same_codes(r.codes, codes);
}

static void reading_codes(void)
{
    for (size_t i = 0; i < LISTS; i++) {
        EXPECT(is_list(lists[i].text, strlen(lists[i].text), lists[i].codes));
        EXPECT(is_list(lists[i].written, strlen(lists[i].written), lists[i].codes));
        EXPECT(is_no_list(lists[i].text, strlen(lists[i].text) + 1)); /* with the 0 behind it */
    }
    for (size_t i = 0; i < sizeof no_lists / sizeof *no_lists; i++) EXPECT(is_no_list(no_lists[i], strlen(no_lists[i])));

    /* Cut at each place; what comes after it is not looked at. */
    static const char text[] = "9-12,7";
    EXPECT(is_no_list(text, 0) && is_list(text, 1, (twimbor_codes){0x200, 0, 0, 0}) && is_no_list(text, 2) && is_no_list(text, 3));
    EXPECT(is_list(text, 4, (twimbor_codes){0x1E00, 0, 0, 0}) && is_no_list(text, 5) && is_list(text, 6, (twimbor_codes){0x1E80, 0, 0, 0}));
}

/* Writes a set's text, `bytes` long, with so much room in a larger output: there it stands, or the refusal is given; the rest stays. */
static bool is_written(twimbor_codes codes, const char *text, size_t bytes, size_t room, uint8_t refusal)
{
    static char out[700], want[700];
    memset(out, 0xAB, sizeof out);
    memset(want, 0xAB, sizeof want);
    if (refusal == 0) memcpy(want, text, bytes);
    twimbor_text_result r = twimbor_write_codes(codes, out, room);
    return r.refusal == refusal && r.bytes == (refusal == 0 ? bytes : 0) && memcmp(out, want, sizeof out) == 0;
}

/* Room on both sides of the text's length. */
static bool is_written_in_its_bytes(twimbor_codes codes, const char *text, size_t bytes)
{
    return is_written(codes, text, bytes, bytes, 0) && is_written(codes, text, bytes, bytes + 1, 0)
        && is_written(codes, text, bytes, bytes - 1, TWIMBOR_OUTPUT_TOO_SMALL)
        && is_written(codes, text, bytes, 0, TWIMBOR_OUTPUT_TOO_SMALL);
}

static void writing_codes(void)
{
    for (size_t i = 0; i < LISTS; i++) EXPECT(is_written_in_its_bytes(lists[i].codes, lists[i].written, strlen(lists[i].written)));
    EXPECT(is_written(NO_CODES, "", 0, 700, TWIMBOR_NO_CODES) && is_written(NO_CODES, "", 0, 0, TWIMBOR_NO_CODES));

    /* The longest text: all but each third code. */
    char text[700] = "0";
    uint64_t words[4] = {1, 0, 0, 0};
    size_t bytes = 1;
    for (int code = 2; code <= 254; code += 3) {
        bytes += (size_t)sprintf(text + bytes, ",%d-%d", code, code + 1);
        words[code / 64] |= (uint64_t)1 << code % 64;
        words[(code + 1) / 64] |= (uint64_t)1 << (code + 1) % 64;
    }
    EXPECT(bytes == TWIMBOR_CODES_BYTES && is_written_in_its_bytes((twimbor_codes){words[0], words[1], words[2], words[3]}, text, bytes));
}

/* A code's number on both sides of each edge. In 8 bits the last ones look like 66. */
static void telling_codes(void)
{
    static const uint32_t outside[] = {16, 65, 67, 69, 71, 128, 255, 256, 256 + 66, 0x10042, UINT32_MAX};
    twimbor_codes codes = lists[1].codes, all = {UINT64_MAX, UINT64_MAX, UINT64_MAX, UINT64_MAX};
    EXPECT(twimbor_codes_contain(codes, 0) && twimbor_codes_contain(codes, 15) && twimbor_codes_contain(codes, 66));
    for (size_t i = 0; i < sizeof outside / sizeof *outside; i++) {
        EXPECT(!twimbor_codes_contain(codes, outside[i]) && twimbor_codes_contain(all, outside[i]) == (outside[i] <= 255));
        EXPECT(!twimbor_codes_contain(NO_CODES, outside[i]));
    }
    EXPECT(same_codes(TWIMBOR_KEYS, lists[0].codes));
    EXPECT(twimbor_codes_count(NO_CODES) == 0 && twimbor_codes_count(TWIMBOR_KEYS) == 16 && twimbor_codes_count(codes) == 18);
    EXPECT(twimbor_codes_count(all) == 256);
    twimbor_lowest_result r = twimbor_codes_lowest(NO_CODES);
    EXPECT(r.refusal == TWIMBOR_NO_CODES && r.code == 0);
    for (uint32_t code = 0; code < 256; code++) {
        uint64_t words[4] = {0, 0, 0, 0x8000000000000000};
        words[code / 64] |= (uint64_t)1 << code % 64;
        codes = (twimbor_codes){words[0], words[1], words[2], words[3]};
        r = twimbor_codes_lowest(codes);
        EXPECT(r.refusal == 0 && r.code == code && twimbor_codes_count(codes) == (code == 255 ? 1 : 2));
        EXPECT(twimbor_codes_contain(codes, code) && !twimbor_codes_contain(codes, code ^ 1) == (code != 254));
    }
}

static void packets(void)
{
    fresh();
    EXPECT(twimbor_write(TWIMBOR_KEYS, FIRST, output, 16) == 0 && has(REPORTS[0]));
    twimbor_read_result r = twimbor_read(TWIMBOR_KEYS, output, 16);
    EXPECT(r.refusal == 0 && same_report(r.report, FIRST));
    r = twimbor_read(TWIMBOR_KEYS, REPORTS[1], 16);
    EXPECT(r.refusal == 0 && !r.report.marker && r.report.sequence == 0 && r.report.ended);

    static const twimbor_report zeros;
    r = twimbor_read(TWIMBOR_KEYS, output, 0);
    EXPECT(r.refusal == TWIMBOR_TOO_SHORT && same_report(r.report, zeros));

    for (size_t i = 0; i < LENGTHS; i++) {
        r = twimbor_read(TWIMBOR_KEYS, long_packet(), lengths[i].bytes);
        EXPECT(r.refusal == lengths[i].refusal && same_report(r.report, zeros));
    }

    fresh();
    EXPECT(twimbor_write(TWIMBOR_KEYS, FIRST, output, 15) == TWIMBOR_OUTPUT_TOO_SMALL && has(NULL));
    EXPECT(twimbor_write(TWIMBOR_KEYS, FIRST, output, 0) == TWIMBOR_OUTPUT_TOO_SMALL && has(NULL));
    twimbor_report wide = FIRST;
    wide.payload_type = 256 + 101;
    EXPECT(twimbor_write(TWIMBOR_KEYS, wide, output, sizeof output) == TWIMBOR_OUT_OF_RANGE && has(NULL));
}

/* Segment sizes and lengths on both sides of each edge. In 16 bits the last two sizes look like 1, and in 32 bits 16 times the last
 * one like 16. */
static const struct {
    uint32_t segment_size, length, reports;
} sizes[] = {
    {0, 1, 0}, {1, 0, 0}, {1, 1, 3}, {1, 16, 48}, {1, 17, 0}, {400, 400, 3}, {400, 401, 6}, {400, 6400, 48}, {400, 6401, 0},
    {65535, TWIMBOR_LONGEST_EVENT, 16 * 166}, {65535, TWIMBOR_LONGEST_EVENT + 1, 0}, {65536, 1, 0}, {UINT32_MAX, 1, 0},
    {0x10001, 1, 0}, {0x10000001, 1, 0},
};

static void plans(void)
{
    twimbor_count_result count = twimbor_report_count(TWIMBOR_KEYS, P7);
    EXPECT(count.refusal == 0 && count.reports == 3);
    for (uint32_t k = 1; k <= 3; k++) {
        fresh();
        EXPECT(twimbor_write_report(TWIMBOR_KEYS, P7, k, output, 16) == 0 && has(REPORTS[k - 1]));
    }
    fresh();
    EXPECT(twimbor_write_report(TWIMBOR_KEYS, P7, 0, output, 16) == TWIMBOR_NO_SUCH_NUMBER && has(NULL));
    EXPECT(twimbor_write_report(TWIMBOR_KEYS, P7, 4, output, 16) == TWIMBOR_NO_SUCH_NUMBER && has(NULL));
    EXPECT(twimbor_write_report(TWIMBOR_KEYS, P7, 1, output, 15) == TWIMBOR_OUTPUT_TOO_SMALL && has(NULL));
    EXPECT(twimbor_write_report(TWIMBOR_KEYS, P7, 1, output, 0) == TWIMBOR_OUTPUT_TOO_SMALL && has(NULL));
    twimbor_plan wide = P7;
    wide.period = 65536 + 400;
    count = twimbor_report_count(TWIMBOR_KEYS, wide);
    EXPECT(count.refusal == TWIMBOR_OUT_OF_RANGE && count.reports == 0);
    EXPECT(twimbor_write_report(TWIMBOR_KEYS, wide, 1, output, 16) == TWIMBOR_OUT_OF_RANGE && has(NULL));

    for (size_t i = 0; i < sizeof sizes / sizeof *sizes; i++) {
        twimbor_plan plan = P7;
        plan.segment_size = sizes[i].segment_size;
        plan.length = sizes[i].length;
        uint8_t refusal = sizes[i].reports == 0 ? TWIMBOR_OUT_OF_RANGE : 0;
        count = twimbor_report_count(TWIMBOR_KEYS, plan);
        EXPECT(count.refusal == refusal && count.reports == sizes[i].reports);
        fresh();
        EXPECT(twimbor_write_report(TWIMBOR_KEYS, plan, 1, output, 16) == refusal && (refusal == 0 || has(NULL)));
    }
}

static void opening(void)
{
    static twimbor_table zeros;
    twimbor_table table, empty = zeros;
    empty.head = HEAD;
    memset(&table, 0xAB, sizeof table);
    EXPECT(twimbor_open(&table, TWIMBOR_KEYS, 101, HEAD.ssrc, HEAD.origin) == 0 && same_table(&table, &empty) && twimbor_is_valid(&table));
    memset(&table, 0xAB, sizeof table);
    EXPECT(twimbor_open(&table, TWIMBOR_KEYS, 256 + 101, HEAD.ssrc, HEAD.origin) == TWIMBOR_OUT_OF_RANGE && same_table(&table, &zeros));
}

/* The second opening: the types on both sides of each edge, and equal. In 8 bits the last ones look like 101 and 100. */
static const struct {
    uint32_t payload_type, redundant_type;
    bool refused;
} types[] = {
    {101, 100, false}, {0, 127, false}, {127, 0, false}, {128, 100, true}, {101, 128, true}, {101, 101, true}, {0, 0, true},
    {UINT32_MAX, 100, true}, {101, UINT32_MAX, true}, {256 + 101, 100, true}, {101, 256 + 100, true},
};

static void opening_for_both(void)
{
    static twimbor_table zeros;
    for (size_t i = 0; i < sizeof types / sizeof *types; i++) {
        twimbor_table table, want = zeros;
        if (!types[i].refused) {
            want.head = HEAD;
            want.head.payload_type = (uint8_t)types[i].payload_type;
            want.head.both_types = 1;
            want.head.redundant_type = (uint8_t)types[i].redundant_type;
        }
        memset(&table, 0xAB, sizeof table);
        uint32_t type = types[i].payload_type, other = types[i].redundant_type;
        uint8_t refusal = twimbor_open_redundant(&table, TWIMBOR_KEYS, type, other, HEAD.ssrc, HEAD.origin);
        EXPECT(refusal == (types[i].refused ? TWIMBOR_OUT_OF_RANGE : 0) && same_table(&table, &want) && twimbor_is_valid(&table));
    }
}

/* An opened table with something in every place, and in the memory before and after it. */
static struct {
    uint8_t before[64];
    twimbor_table table;
    uint8_t after[64];
} lent;

static twimbor_table *opened(void)
{
    memset(&lent, 0xAB, sizeof lent);
    lent.table.head = HEAD;
    return &lent.table;
}

static bool around_stays(void)
{
    for (size_t i = 0; i < 64; i++)
        if (lent.before[i] != 0xAB || lent.after[i] != 0xAB) return false;
    return true;
}

/* How many of n segments are looked at for a pair whose place is the first or the second: what is left of the middle is kept, half
 * of them rounded down, until the first of all was looked at. */
static size_t probes_at_start(size_t n)
{
    size_t probes = 0;
    for (; n > 0; n /= 2) probes++;
    return probes;
}

static void receiving(void)
{
    twimbor_table *table = opened(), want = *table;
    for (int i = 0; i < 3; i++) {
        twimbor_received r = twimbor_receive(table, REPORTS[i], 16);
        EXPECT(r.refusal == 0 && r.is_new == (i == 0) && r.count == 1 && r.probes == (i == 0 ? 0 : 1));
    }
    want.head.count = 1;
    twimbor_set_segment(&want, 0, HEARD);
    EXPECT(same_table(table, &want));

    twimbor_received r = twimbor_receive(table, REPORTS[0], 0);
    EXPECT(r.refusal == TWIMBOR_TOO_SHORT && !r.is_new && r.count == 1 && r.probes == 0 && same_table(table, &want));
    for (size_t i = 0; i < LENGTHS; i++) {
        r = twimbor_receive(table, long_packet(), lengths[i].bytes);
        EXPECT(r.refusal == lengths[i].refusal && !r.is_new && r.count == 1 && r.probes == 0 && same_table(table, &want));
    }

    /* Up to the last place: each new segment moves all but the first. */
    twimbor_report report = FIRST;
    for (uint32_t n = 1; n <= 128; n++) {
        report.timestamp = FIRST.timestamp + 1000 - n;
        EXPECT(twimbor_write(TWIMBOR_KEYS, report, output, 16) == 0);
        want = *table;
        r = twimbor_receive(table, output, 16);
        EXPECT(r.probes == probes_at_start(n));
        if (n < 128) EXPECT(r.refusal == 0 && r.is_new && r.count == n + 1);
        else EXPECT(r.refusal == TWIMBOR_TABLE_FULL && !r.is_new && r.count == 128 && same_table(table, &want));
    }
    EXPECT(table->head.count == 128 && same_segment(twimbor_segment_at(table, 0), HEARD));
    EXPECT(twimbor_segment_at(table, 1).offset == 1000 - 127 && twimbor_segment_at(table, 127).offset == 1000 - 1);

    /* Each segment of the full table once more: only the first two take an eighth look. */
    for (size_t i = 0; i < 128; i++) {
        report.timestamp = FIRST.timestamp + twimbor_segment_at(table, i).offset;
        EXPECT(twimbor_write(TWIMBOR_KEYS, report, output, 16) == 0);
        r = twimbor_receive(table, output, 16);
        EXPECT(r.refusal == 0 && !r.is_new && r.count == 128 && r.probes == (i < 2 ? 8 : 7));
    }
    EXPECT(twimbor_is_valid(table) && around_stays());
}

/* Captures in the memory of a longer one, which goes on after their end with what would be taken. */
static uint8_t frames[131 * 18];

static size_t put_frame(size_t at, const uint8_t *packet, size_t bytes)
{
    frames[at] = (uint8_t)(bytes >> 8);
    frames[at + 1] = (uint8_t)bytes;
    memcpy(frames + at + 2, packet, bytes);
    return at + 2 + bytes;
}

static bool captured(twimbor_captured c, size_t count, size_t used, size_t taken, size_t refused, size_t packed)
{
    return c.refusal == 0 && c.count == count && c.used == used && c.taken == taken && c.refused == refused && c.packed == packed;
}

static void capturing(void)
{
    /* P7's three reports, cut at each place, and received on from there. */
    size_t at = 0;
    for (int i = 0; i < 3; i++) at = put_frame(at, REPORTS[i], 16);
    for (size_t bytes = 0; bytes <= at; bytes++) {
        twimbor_table *table = opened(), want = *table;
        size_t whole = bytes / 18, count = whole > 0;
        twimbor_captured c = twimbor_receive_capture(table, frames, bytes);
        EXPECT(captured(c, count, 18 * whole, whole, 0, 0) && table->head.count == count);
        if (whole == 0) EXPECT(same_table(table, &want));
        c = twimbor_receive_capture(table, frames + c.used, at - c.used);
        EXPECT(captured(c, 1, at - 18 * whole, 3 - whole, 0, 0));
        want.head.count = 1;
        twimbor_set_segment(&want, 0, HEARD);
        EXPECT(same_table(table, &want) && around_stays());
    }

    /* A frame of length 0 is refused, and so is a packed packet and one of 15 bytes; none stops the next. */
    twimbor_table *table = opened(), want = *table;
    at = put_frame(0, long_packet(), 0);
    EXPECT(captured(twimbor_receive_capture(table, frames, at), 0, 2, 0, 1, 0) && same_table(table, &want));
    EXPECT(captured(twimbor_receive_capture(table, frames, 1), 0, 0, 0, 0, 0) && same_table(table, &want));
    at = put_frame(at, long_packet(), 20);
    at = put_frame(at, REPORTS[0], 15);
    at = put_frame(at, REPORTS[0], 16);
    EXPECT(captured(twimbor_receive_capture(table, frames, at), 1, at, 1, 3, 1) && around_stays());

    /* More new segments than there is room for, and a known one after them. */
    table = opened();
    twimbor_report report = FIRST;
    at = 0;
    for (uint32_t n = 0; n <= 130; n++) {
        report.timestamp = FIRST.timestamp + (n < 130 ? n : 77);
        EXPECT(twimbor_write(TWIMBOR_KEYS, report, output, 16) == 0);
        at = put_frame(at, output, 16);
    }
    EXPECT(captured(twimbor_receive_capture(table, frames, at), 128, at, 129, 2, 0));
    EXPECT(table->head.count == 128 && twimbor_is_valid(table) && around_stays());
}

/* Two keys, the first of two segments; lists with 0, 1, 2 and 3 records, where `list` has one more. */
static void listing(void)
{
    static const twimbor_event none;
    static const twimbor_event first = {
        .code = 5, .start = 0, .length = 65536, .volume = 7, .quietest = 12, .began = true, .ended = false,
    };
    static const twimbor_event second = {
        .code = 9, .start = 70000, .length = 400, .volume = 10, .quietest = 63, .began = false, .ended = true,
    };
    twimbor_table *table = opened();
    twimbor_event list[4], old[4];
    memset(old, 0xAB, sizeof old);
    memcpy(list, old, sizeof list);
    twimbor_listed l = twimbor_list(table, list, 0);
    EXPECT(l.refusal == 0 && l.events == 0 && memcmp(list, old, sizeof list) == 0);

    static const twimbor_segment held[] = {
        {.offset = 0, .code = 5, .duration = 65535, .volume = 10, .quietest = 12, .marked = true},
        {.offset = 65535, .code = 5, .duration = 1, .volume = 7, .quietest = 9},
        {.offset = 70000, .code = 9, .duration = 400, .volume = 10, .quietest = 63, .ended = true},
    };
    for (size_t i = 0; i < 3; i++) twimbor_set_segment(table, i, held[i]);
    table->head.count = 3;
    twimbor_table before = *table;
    for (size_t records = 0; records <= 3; records++) {
        memcpy(list, old, sizeof list);
        l = twimbor_list(table, list, records);
        size_t events = records < 2 ? 0 : 2;
        EXPECT(l.refusal == (records < 2 ? TWIMBOR_LIST_TOO_SMALL : 0) && l.events == events);
        EXPECT(events == 0 || (same_event(list[0], first) && same_event(list[1], second)));
        EXPECT(memcmp(list + events, old + events, (4 - events) * sizeof *list) == 0);
    }
    for (uint32_t k = 0; k <= 3; k++) {
        twimbor_event_result e = twimbor_event_at(table, k);
        EXPECT(e.refusal == (k == 1 || k == 2 ? 0 : TWIMBOR_NO_SUCH_NUMBER));
        EXPECT(same_event(e.event, k == 1 ? first : k == 2 ? second : none));
    }
    EXPECT(same_table(table, &before) && around_stays());
}

/* A key held for four short segments and a rest, with timestamps that pass 2^32: one event. */
static void short_segments(void)
{
    static const twimbor_event want = {
        .code = 5, .start = 0, .length = 70, .volume = 10, .quietest = 10, .began = true, .ended = true,
    };
    twimbor_plan plan = P7;
    plan.length = 70;
    plan.period = 4;
    plan.segment_size = 15;
    twimbor_table *table = opened();
    uint32_t reports = twimbor_report_count(TWIMBOR_KEYS, plan).reports;
    EXPECT(reports == 4 * 6 + 5);
    for (uint32_t k = 1; k <= reports; k++) {
        EXPECT(twimbor_write_report(TWIMBOR_KEYS, plan, k, output, 16) == 0);
        twimbor_read_result r = twimbor_read(TWIMBOR_KEYS, output, 16);
        uint32_t segment = (k - 1) / 6;
        EXPECT(r.refusal == 0 && r.report.timestamp == plan.start + 15 * segment && r.report.ended == (k > reports - 2));
        EXPECT(twimbor_receive(table, output, 16).refusal == 0 && table->head.count == segment + 1);
    }
    twimbor_event list[1];
    twimbor_listed l = twimbor_list(table, list, 1);
    EXPECT(l.refusal == 0 && l.events == 1 && same_event(list[0], want));
    EXPECT(same_event(twimbor_event_at(table, 1).event, want) && around_stays());
}

/* Of a table that fails the tests: every call says so, and nothing changes. */
static void fails(twimbor_table *table)
{
    static const twimbor_event none;
    twimbor_table before = *table;
    size_t count = before.head.count;
    twimbor_event list[1], old[1];
    memset(old, 0xAB, sizeof old);
    memcpy(list, old, sizeof list);
    EXPECT(!twimbor_is_valid(table));
    twimbor_received r = twimbor_receive(table, REPORTS[0], 16);
    EXPECT(r.refusal == TWIMBOR_INVALID_TABLE && !r.is_new && r.count == count && r.probes == 0);
    for (size_t bytes = 0; bytes <= 18; bytes += 6) {
        put_frame(0, REPORTS[0], 16);
        twimbor_captured c = twimbor_receive_capture(table, frames, bytes);
        EXPECT(c.refusal == TWIMBOR_INVALID_TABLE && c.count == count && c.used == 0);
        EXPECT(c.taken == 0 && c.refused == 0 && c.packed == 0 && same_table(table, &before));
    }
    uint32_t entry = 0xABABABAB;
    twimbor_blocks_received b = twimbor_receive_redundant(table, REPORTS[0], 16, &entry, 1);
    EXPECT(b.refusal == TWIMBOR_INVALID_TABLE && b.blocks == 0 && b.count == count && entry == 0xABABABAB);
    twimbor_event_result e = twimbor_event_at(table, 1);
    EXPECT(e.refusal == TWIMBOR_INVALID_TABLE && same_event(e.event, none));
    twimbor_listed l = twimbor_list(table, list, 1);
    EXPECT(l.refusal == TWIMBOR_INVALID_TABLE && l.events == 0 && memcmp(list, old, sizeof list) == 0);
    EXPECT(same_table(table, &before) && around_stays());
}

/* Also by a count that reaches past the columns. */
static void failing(void)
{
    static const size_t counts[] = {1, 129, SIZE_MAX};
    for (int i = 0; i < 3; i++) {
        twimbor_table *table = opened();
        table->head.count = counts[i];
        fails(table);
    }
}

/* A report, two older ones, and the redundant packet of payload type 100 with all three. */
static const twimbor_report REPORT = {
    .marker = true, .payload_type = 101, .sequence = 7, .timestamp = 0x3D8, .ssrc = 0x11223344, .code = 7, .ended = false, .volume = 20,
    .duration = 100,
};
static const twimbor_older_report OLDEST = {.timestamp = 0xFFFFFFF0, .code = 5, .ended = true, .volume = 10, .duration = 400};
static const twimbor_older_report OLDER = {.timestamp = 0x248, .code = 6, .ended = false, .volume = 10, .duration = 200};
static const uint8_t REDUNDANT[33] = {
    0x80, 0xE4, 0x00, 0x07, 0x00, 0x00, 0x03, 0xD8, 0x11, 0x22, 0x33, 0x44,
    0xE5, 0x0F, 0xA0, 0x04, 0xE5, 0x06, 0x40, 0x04, 0x65,
    0x05, 0x8A, 0x01, 0x90, 0x06, 0x0A, 0x00, 0xC8, 0x07, 0x14, 0x00, 0x64,
};
/* What it says to a table. */
static const twimbor_segment BLOCKS[3] = {
    {.offset = 0, .code = 5, .duration = 400, .volume = 10, .quietest = 10, .ended = true, .marked = false},
    {.offset = 600, .code = 6, .duration = 200, .volume = 10, .quietest = 10, .ended = false, .marked = false},
    {.offset = 1000, .code = 7, .duration = 100, .volume = 20, .quietest = 20, .ended = false, .marked = true},
};

static uint8_t write_redundant(uint32_t count, size_t room)
{
    fresh();
    return twimbor_write_redundant(TWIMBOR_KEYS, REPORT, 100, count, OLDEST, OLDER, output, room);
}

/* Room on both sides of each edge, and older reports that do not count but are out of range. */
static void writing_redundant(void)
{
    for (uint32_t count = 0; count <= 2; count++) {
        size_t bytes = 17 + 8 * count, headers = 4 * count;
        uint8_t want[33];
        memcpy(want, REDUNDANT, 12 + headers);
        want[12 + headers] = 0x65;
        memcpy(want + 13 + headers, REDUNDANT + 21, headers);
        memcpy(want + 13 + 2 * headers, REDUNDANT + 29, 4);
        EXPECT(write_redundant(count, bytes) == 0 && has_bytes(want, bytes));
        EXPECT(write_redundant(count, bytes + 1) == 0 && has_bytes(want, bytes));
        EXPECT(write_redundant(count, bytes - 1) == TWIMBOR_OUTPUT_TOO_SMALL && has(NULL));
        EXPECT(write_redundant(count, 0) == TWIMBOR_OUTPUT_TOO_SMALL && has(NULL));

        static const twimbor_older_report out = {.timestamp = 0x3D9, .code = 16, .volume = 64, .duration = 0};
        fresh();
        twimbor_older_report first = count > 0 ? OLDEST : out, second = count > 1 ? OLDER : out;
        EXPECT(twimbor_write_redundant(TWIMBOR_KEYS, REPORT, 100, count, first, second, output, bytes) == 0 && has_bytes(want, bytes));
    }
    EXPECT(write_redundant(3, sizeof output) == TWIMBOR_OUT_OF_RANGE && has(NULL));
    EXPECT(write_redundant(0x10001, sizeof output) == TWIMBOR_OUT_OF_RANGE && has(NULL));
    EXPECT(write_redundant(UINT32_MAX, 0) == TWIMBOR_OUT_OF_RANGE && has(NULL));
}

/* One number out of its range each, in the first or the second older report, and with no room too. */
static void out_of_range(void)
{
    twimbor_codes keys = TWIMBOR_KEYS;
    static const twimbor_older_report older[] = {
        {.timestamp = 0x3D8 - 16384u, .code = 5, .volume = 10, .duration = 400},
        {.timestamp = 0x3D9, .code = 5, .volume = 10, .duration = 400},
        {.timestamp = 0x3D8, .code = 16, .volume = 10, .duration = 400},
        {.timestamp = 0x3D8, .code = 5, .volume = 64, .duration = 400},
        {.timestamp = 0x3D8, .code = 5, .volume = 10, .duration = 0},
        {.timestamp = 0x3D8, .code = 5, .volume = 10, .duration = 65536},
    };
    fresh();
    for (size_t i = 0; i < sizeof older / sizeof *older; i++)
        for (size_t room = 0; room <= sizeof output; room += sizeof output) {
            EXPECT(twimbor_write_redundant(keys, REPORT, 100, 1, older[i], OLDER, output, room) == TWIMBOR_OUT_OF_RANGE && has(NULL));
            EXPECT(twimbor_write_redundant(keys, REPORT, 100, 2, older[i], OLDER, output, room) == TWIMBOR_OUT_OF_RANGE && has(NULL));
            EXPECT(twimbor_write_redundant(keys, REPORT, 100, 2, OLDEST, older[i], output, room) == TWIMBOR_OUT_OF_RANGE && has(NULL));
        }
    static const uint32_t redundant_types[] = {101, 128, 256 + 100, UINT32_MAX};
    for (size_t i = 0; i < sizeof redundant_types / sizeof *redundant_types; i++)
        EXPECT(twimbor_write_redundant(keys, REPORT, redundant_types[i], 0, OLDEST, OLDER, output, 40) == TWIMBOR_OUT_OF_RANGE
            && has(NULL));
    twimbor_report wide = REPORT;
    wide.payload_type = 256 + 101;
    EXPECT(twimbor_write_redundant(keys, wide, 100, 0, OLDEST, OLDER, output, 40) == TWIMBOR_OUT_OF_RANGE && has(NULL));

    /* As far back as the field reaches. */
    twimbor_older_report far = OLDEST;
    far.timestamp = 0x3D8 - 16383u;
    far.duration = 65535;
    EXPECT(twimbor_write_redundant(keys, REPORT, 0, 1, far, OLDER, output, 25) == 0);
    static const uint8_t farthest[] = {
        0x80, 0x80, 0x00, 0x07, 0x00, 0x00, 0x03, 0xD8, 0x11, 0x22, 0x33, 0x44,
        0xE5, 0xFF, 0xFC, 0x04, 0x65, 0x05, 0x8A, 0xFF, 0xFF, 0x07, 0x14, 0x00, 0x64,
    };
    EXPECT(has_bytes(farthest, 25));
}

/* Whether the next block of a packet is so many of its bytes from a place on, of this type and offset. */
static bool is_next(twimbor_walker *walker, size_t place, size_t bytes, uint8_t payload_type, uint16_t offset, bool primary)
{
    twimbor_block block;
    memset(&block, 0xAB, sizeof block);
    return twimbor_next_block(walker, &block) && block.data == walker->packet + place && block.bytes == bytes
        && block.payload_type == payload_type && block.offset == offset && block.primary == primary;
}

/* Whether there are no more, and the block that is lent stays. */
static bool is_over(twimbor_walker *walker)
{
    twimbor_block block, old;
    memset(&old, 0xAB, sizeof old);
    memcpy(&block, &old, sizeof block);
    return !twimbor_next_block(walker, &block) && memcmp(&block, &old, sizeof block) == 0;
}

static bool same_cursor(twimbor_cursor a, twimbor_cursor b)
{
    return a.header == b.header && a.body == b.body && a.end == b.end;
}

/* Whether a cursor of any numbers is answered with a part of the packet, or with no block, zeros and itself. */
static bool is_answered(const uint8_t *packet, size_t bytes, twimbor_cursor cursor)
{
    twimbor_block_step_result step = twimbor_block_step(packet, bytes, cursor);
    twimbor_header_step_result less = twimbor_header_step(packet, bytes, cursor.header, cursor.body, cursor.end);
    if (less.next != step.after.header || less.length != (step.primary ? 0 : step.end - step.start) || less.offset != step.offset
        || less.payload_type != step.payload_type || less.primary != step.primary || less.found != step.found)
        return false;
    if (step.found) return cursor.header < bytes && step.start <= step.end && step.end <= bytes && step.payload_type < 128;
    return same_cursor(step.after, cursor) && step.start == 0 && step.end == 0 && step.offset == 0 && step.payload_type == 0
        && !step.primary;
}

static void walking(void)
{
    twimbor_walker walker;
    EXPECT(twimbor_walk(&walker, REDUNDANT, 33) == 0 && same_cursor(walker.cursor, (twimbor_cursor){12, 21, 33}));
    EXPECT(is_next(&walker, 21, 4, 101, 1000, false));
    twimbor_walker copy = walker;
    EXPECT(is_next(&walker, 25, 4, 101, 400, false) && is_next(&walker, 29, 4, 101, 0, true));
    EXPECT(is_over(&walker) && is_over(&walker));
    EXPECT(is_next(&copy, 25, 4, 101, 400, false) && is_next(&copy, 29, 4, 101, 0, true) && is_over(&copy));

    /* Cut at each place: the last block takes what is left. */
    for (size_t bytes = 0; bytes <= 33; bytes++) {
        uint8_t refusal = bytes < 12 ? TWIMBOR_TOO_SHORT : bytes < 21 ? TWIMBOR_HEADERS_RUN_OUT : bytes < 29 ? TWIMBOR_BLOCKS_TOO_LONG : 0;
        memset(&walker, 0xAB, sizeof walker);
        EXPECT(twimbor_walk(&walker, REDUNDANT, bytes) == refusal);
        if (refusal != 0) EXPECT(same_cursor(walker.cursor, (twimbor_cursor){0, 0, 0}));
        else EXPECT(is_next(&walker, 21, 4, 101, 1000, false) && is_next(&walker, 25, 4, 101, 400, false)
            && is_next(&walker, 29, bytes - 29, 101, 0, true));
        EXPECT(is_over(&walker));
    }
}

static void walking_other(void)
{
    /* A CSRC, an extension and padding; blocks of other types, the first one empty. */
    twimbor_walker walker;
    static const uint8_t other[38] = {
        0xB1, 0x00, 0, 0, 0, 0, 0, 0, 0, 0, 0, 0, 1, 2, 3, 4, 0xBE, 0xDE, 0, 1, 5, 6, 7, 8,
        0x80, 0xFF, 0xFC, 0x00, 0xE4, 0x00, 0x00, 0x01, 0x7F, 0xAA, 0xBB, 0xCC, 0x00, 0x02,
    };
    EXPECT(twimbor_walk(&walker, other, sizeof other) == 0);
    EXPECT(is_next(&walker, 33, 0, 0, 16383, false) && is_next(&walker, 33, 1, 100, 0, false) && is_next(&walker, 34, 2, 127, 0, true));
    EXPECT(is_over(&walker));
    EXPECT(twimbor_walk(&walker, other, 19) == TWIMBOR_HEADER_PAST_END && is_over(&walker));
    EXPECT(twimbor_walk(&walker, other, 37) == TWIMBOR_BAD_PADDING && is_over(&walker));
    EXPECT(twimbor_walk(&walker, other + 12, 26) == TWIMBOR_WRONG_VERSION && is_over(&walker));

    /* As long as a block can be. */
    static uint8_t longest[12 + 4 + 1 + 1023 + 1] = {0x80, 100, [12] = 0xE5, 0x40, 0x03, 0xFF, 0x65};
    EXPECT(twimbor_walk(&walker, longest, sizeof longest) == 0);
    EXPECT(is_next(&walker, 17, 1023, 101, 4096, false) && is_next(&walker, 1040, 1, 101, 0, true) && is_over(&walker));
    EXPECT(twimbor_walk(&walker, longest, 12 + 4 + 1 + 1022) == TWIMBOR_BLOCKS_TOO_LONG && is_over(&walker));
}

/* Cursors that no walk came by. */
static void cursors(void)
{
    static const size_t any[] = {0, 1, 11, 12, 16, 20, 21, 29, 32, 33, 34, 1024, SIZE_MAX / 2 + 1, SIZE_MAX - 4, SIZE_MAX};
    enum { ANY = sizeof any / sizeof *any };
    for (size_t i = 0; i < ANY * ANY * ANY; i++) {
        twimbor_cursor cursor = {any[i / ANY / ANY], any[i / ANY % ANY], any[i % ANY]};
        for (size_t bytes = 0; bytes <= 33; bytes += 11) EXPECT(is_answered(REDUNDANT, bytes, cursor));
    }
}

/* A table of the second opening in the memory of `opened`, and a list of entries with something in each. */
enum { LONG_LIST = 400 };
static uint32_t entries[LONG_LIST], old_entries[LONG_LIST];

static twimbor_table *opened_for_both(void)
{
    twimbor_table *table = opened();
    table->head.both_types = 1;
    table->head.redundant_type = 100;
    memset(old_entries, 0xAB, sizeof old_entries);
    memcpy(entries, old_entries, sizeof entries);
    return table;
}

static bool entries_stay_from(size_t n)
{
    return memcmp(entries + n, old_entries + n, (LONG_LIST - n) * sizeof *entries) == 0;
}

/* Whether a packet is refused whole: table and entries stay. */
static bool is_refused(twimbor_table *table, const uint8_t *packet, size_t bytes, size_t room, uint8_t refusal)
{
    twimbor_table before = *table;
    twimbor_blocks_received r = twimbor_receive_redundant(table, packet, bytes, entries, room);
    return r.refusal == refusal && r.blocks == 0 && r.count == before.head.count && same_table(table, &before) && entries_stay_from(0)
        && around_stays();
}

static bool is_received(twimbor_table *table, const uint8_t *packet, size_t bytes, size_t room, size_t blocks, size_t count)
{
    twimbor_blocks_received r = twimbor_receive_redundant(table, packet, bytes, entries, room);
    return r.refusal == 0 && r.blocks == blocks && r.count == count && table->head.count == count && entries_stay_from(blocks)
        && around_stays();
}

/* An entry: refused with a number or not, its segment new or not, so many segments looked at. */
#define ENTRY(refusal, is_new, probes) ((refusal) + 256 * (is_new) + 65536 * (probes))

static void receiving_redundant(void)
{
    for (size_t room = 0; room <= 4; room++) {
        twimbor_table *table = opened_for_both(), want = *table;
        if (room < 3) {
            EXPECT(is_refused(table, REDUNDANT, 33, room, TWIMBOR_LIST_TOO_SMALL));
            continue;
        }
        EXPECT(is_received(table, REDUNDANT, 33, room, 3, 3));
        EXPECT(entries[0] == ENTRY(0, 1, 0) && entries[1] == ENTRY(0, 1, 1) && entries[2] == ENTRY(0, 1, 1));
        for (size_t i = 0; i < 3; i++) twimbor_set_segment(&want, i, BLOCKS[i]);
        want.head.count = 3;
        EXPECT(same_table(table, &want));
        EXPECT(is_received(table, REDUNDANT, 33, room, 3, 3) && same_table(table, &want));
        for (size_t i = 0; i < 3; i++) EXPECT(entries[i] == ENTRY(0, 0, 2));
    }
}

/* Cut at each place, or with more after it. */
static void receiving_parts(void)
{
    uint8_t longer[37] = {0};
    memcpy(longer, REDUNDANT, 33);
    for (size_t bytes = 0; bytes <= 37; bytes++) {
        twimbor_table *table = opened_for_both();
        uint8_t refusal = bytes < 12 ? TWIMBOR_TOO_SHORT : bytes < 21 ? TWIMBOR_HEADERS_RUN_OUT : bytes < 29 ? TWIMBOR_BLOCKS_TOO_LONG : 0;
        EXPECT(is_refused(table, longer, bytes, 0, refusal != 0 ? refusal : TWIMBOR_LIST_TOO_SMALL));
        if (refusal != 0) continue;
        EXPECT(is_received(table, longer, bytes, 3, 3, bytes == 33 ? 3 : 2));
        EXPECT(entries[2] == (bytes == 33 ? ENTRY(0, 1, 1) : bytes == 37 ? TWIMBOR_PACKED : TWIMBOR_NOT_ONE_REPORT));
    }
}

static void receiving_others(void)
{
    /* Other numbers of the header, each before what comes after it in the order of refusals. */
    uint8_t other[33];
    memcpy(other, REDUNDANT, 33);
    other[1] = 99;
    other[11]++;
    EXPECT(is_refused(opened_for_both(), other, 12, 0, TWIMBOR_OTHER_PAYLOAD_TYPE));
    other[1] = 100;
    EXPECT(is_refused(opened_for_both(), other, 12, 0, TWIMBOR_OTHER_SSRC));

    /* No block of the event's type: nothing to take, and no entry is needed. */
    memcpy(other, REDUNDANT, 33);
    other[12] = other[16] = 128;
    other[20] = 100;
    twimbor_table *table = opened_for_both(), before = *table;
    EXPECT(is_received(table, other, 33, 0, 0, 0) && same_table(table, &before));

    /* The old receivers do not take it, into a table for both types either. */
    EXPECT(twimbor_receive(table, REDUNDANT, 33).refusal == TWIMBOR_OTHER_PAYLOAD_TYPE && same_table(table, &before));
    size_t at = put_frame(put_frame(0, REDUNDANT, 33), REPORTS[0], 16);
    EXPECT(captured(twimbor_receive_capture(table, frames, at), 1, at, 1, 1, 0));
    EXPECT(same_segment(twimbor_segment_at(table, 0), (twimbor_segment){
        .offset = 0, .code = 5, .duration = 400, .volume = 10, .quietest = 10, .ended = false, .marked = true}));
}

/* RFC 4733, Figure 5: tones of type 101 are primary, and before them stands the last report of a 1, of type 100. */
static void figure_5(void)
{
    static const uint8_t packet[] = {
        0x80, 0x66, 0x00, 0x12, 0x00, 0x00, 0x32, 0x00, 0x00, 0x52, 0x34, 0xA8,
        0xE4, 0x19, 0x00, 0x04, 0x65, 0x01, 0x94, 0x06, 0xE0, 0x00, 0x14, 0x00, 0xA0, 0x02, 0xB9, 0x04, 0xB9,
    };
    static const twimbor_segment one = {
        .offset = 11200, .code = 1, .duration = 1760, .volume = 20, .quietest = 20, .ended = true, .marked = false,
    };
    twimbor_table *table = opened_for_both();
    EXPECT(twimbor_open_redundant(table, TWIMBOR_KEYS, 100, 102, 0x5234A8, 0) == 0);
    EXPECT(is_received(table, packet, sizeof packet, 1, 1, 1) && entries[0] == ENTRY(0, 1, 0));
    EXPECT(same_segment(twimbor_segment_at(table, 0), one));
    twimbor_walker walker;
    EXPECT(twimbor_walk(&walker, packet, sizeof packet) == 0);
    EXPECT(is_next(&walker, 17, 4, 100, 1600, false) && is_next(&walker, 21, 8, 101, 0, true) && is_over(&walker));
}

/* Plain packets: each is one block, and counts as marked if it is. */
static void receiving_plain(void)
{
    twimbor_table *table = opened_for_both(), want = *table;
    EXPECT(is_refused(table, REPORTS[0], 16, 0, TWIMBOR_LIST_TOO_SMALL));
    for (int i = 0; i < 3; i++)
        EXPECT(is_received(table, REPORTS[i], 16, 1, 1, 1) && entries[0] == (i == 0 ? ENTRY(0, 1, 0) : ENTRY(0, 0, 1)));
    want.head.count = 1;
    twimbor_set_segment(&want, 0, HEARD);
    EXPECT(same_table(table, &want));
    for (size_t i = 0; i < LENGTHS; i++)
        EXPECT(is_received(table, long_packet(), lengths[i].bytes, 1, 1, 1) && entries[0] == lengths[i].refusal
            && same_table(table, &want));
}

/* The blocks of one packet, each with what is answered to it at the origin of an empty table. */
enum { PASSED_OVER = -1 };
static const struct {
    uint8_t type;
    uint16_t offset;
    uint8_t bytes, data[8];
    int64_t entry;
} mixed[] = {
    {101, 0, 4, {5, 0x0A, 0x01, 0x90}, ENTRY(0, 1, 0)},
    {100, 0, 4, {6, 0x0A, 0x01, 0x90}, PASSED_OVER},                                /* the redundant type is one of the others */
    {101, 1, 4, {5, 0x0A, 0x01, 0x90}, ENTRY(TWIMBOR_OFFSET_TOO_LARGE, 0, 0)},      /* before the origin */
    {101, 0, 0, {0}, ENTRY(TWIMBOR_NOT_ONE_REPORT, 0, 0)},
    {101, 0, 3, {5, 0x0A, 0x01}, ENTRY(TWIMBOR_NOT_ONE_REPORT, 0, 0)},
    {0, 16383, 5, {5, 0x0A, 0x01, 0x90, 0}, PASSED_OVER},
    {101, 0, 8, {5, 0x0A, 0x01, 0x90, 5, 0x0A, 0x01, 0x90}, ENTRY(TWIMBOR_PACKED, 0, 0)},
    {101, 0, 4, {16, 0x0A, 0x01, 0x90}, ENTRY(TWIMBOR_CODE_NOT_IN_SET, 0, 0)},
    {101, 0, 4, {5, 0x0A, 0, 0}, ENTRY(TWIMBOR_NO_DURATION, 0, 0)},
    {101, 0, 4, {5, 0xC3, 0, 1}, ENTRY(0, 0, 1)},                                   /* E, R, louder, shorter */
    {101, 0, 4, {4, 0x3F, 0xFF, 0xFF}, ENTRY(0, 1, 1)},                             /* before the segment held */
    {101, 0, 4, {5, 0x0A, 0x01, 0x91}, ENTRY(0, 0, 2)},                             /* the primary */
};
enum { MIXED = sizeof mixed / sizeof *mixed };

/* The packet of all of them, marked, with the last one's type as it is given. */
static size_t put_mixed(uint8_t *packet, uint8_t last_type)
{
    static const uint8_t header[12] = {0x80, 0xE4, 0, 0, 0xFF, 0xFF, 0xFF, 0xF0, 0x11, 0x22, 0x33, 0x44};
    size_t at = 12;
    memcpy(packet, header, 12);
    for (size_t i = 0; i + 1 < MIXED; i++) {
        packet[at++] = 128 + mixed[i].type;
        packet[at++] = (uint8_t)(mixed[i].offset / 64);
        packet[at++] = (uint8_t)(mixed[i].offset % 64 * 4);
        packet[at++] = mixed[i].bytes;
    }
    packet[at++] = last_type;
    for (size_t i = 0; i < MIXED; i++) {
        memcpy(packet + at, mixed[i].data, mixed[i].bytes);
        at += mixed[i].bytes;
    }
    return at;
}

static void receiving_mixed(void)
{
    uint8_t packet[128];
    for (int primary = 0; primary < 2; primary++) {
        size_t bytes = put_mixed(packet, primary ? 101 : 0), blocks = primary ? 10 : 9, n = 0;
        twimbor_table *table = opened_for_both(), want = *table;
        EXPECT(is_refused(table, packet, bytes, blocks - 1, TWIMBOR_LIST_TOO_SMALL));
        EXPECT(is_received(table, packet, bytes, blocks, blocks, 2));
        for (size_t i = 0; i < MIXED && n < blocks; i++)
            if (mixed[i].entry != PASSED_OVER) EXPECT(entries[n++] == mixed[i].entry);
        want.head.count = 2;
        twimbor_set_segment(&want, 0, (twimbor_segment){.offset = 0, .code = 4, .duration = 65535, .volume = 63, .quietest = 63});
        twimbor_set_segment(&want, 1, (twimbor_segment){
            .offset = 0, .code = 5, .duration = primary ? 401 : 400, .volume = 3, .quietest = 10, .ended = true, .marked = primary});
        EXPECT(same_table(table, &want));
    }
}

/* A full table: the blocks of pairs that it holds are taken, the others not; and as many blocks as 1500 bytes have. */
static void receiving_many(void)
{
    twimbor_table *table = opened_for_both();
    for (uint32_t i = 0; i < 128; i++)
        twimbor_set_segment(table, i, (twimbor_segment){
            .offset = i < 127 ? i : 1000, .code = i == 0 ? 5 : 7, .duration = 1, .volume = 15, .quietest = 15});
    table->head.count = 128;
    EXPECT(is_received(table, REDUNDANT, 33, 3, 3, 128));
    EXPECT(entries[0] == ENTRY(0, 0, 8) && entries[1] == ENTRY(TWIMBOR_TABLE_FULL, 0, 7) && entries[2] == ENTRY(0, 0, 7));
    twimbor_segment louder = BLOCKS[0], quieter = BLOCKS[2];
    louder.quietest = quieter.volume = 15;
    EXPECT(same_segment(twimbor_segment_at(table, 0), louder) && same_segment(twimbor_segment_at(table, 127), quieter));

    static uint8_t packet[1500];
    memcpy(packet, REDUNDANT, 12);
    for (size_t at = 12; at < 12 + 4 * 371; at += 4) packet[at] = 128 + 101;
    packet[12 + 4 * 371] = 101;
    table = opened_for_both();
    EXPECT(is_refused(table, packet, 1500, TWIMBOR_ENTRIES_OF_1500 - 1, TWIMBOR_LIST_TOO_SMALL));
    EXPECT(is_received(table, packet, 1500, TWIMBOR_ENTRIES_OF_1500, TWIMBOR_ENTRIES_OF_1500, 0));
    for (size_t i = 0; i < TWIMBOR_ENTRIES_OF_1500; i++) EXPECT(entries[i] == TWIMBOR_NOT_ONE_REPORT);
}

/* Writes P7's first report with another volume and so much later into the output. */
static bool says(uint32_t offset, uint32_t volume)
{
    twimbor_report report = FIRST;
    report.timestamp += offset;
    report.volume = volume;
    return twimbor_write(TWIMBOR_KEYS, report, output, 16) == 0;
}

/* What is listed of it after some of them. */
static bool is_listed(const twimbor_table *table, uint8_t volume, uint8_t quietest)
{
    twimbor_event want = {.code = 5, .start = 0, .length = 400, .volume = volume, .quietest = quietest, .began = true}, list[1];
    return same_event(twimbor_event_at(table, 1).event, want) && twimbor_list(table, list, 1).events == 1 && same_event(list[0], want);
}

/* Three reports of one segment, of every three volumes. One as loud as another changes nothing, a louder or a quieter one its field. */
static void hearing(void)
{
    for (uint32_t n = 0; n < 64 * 64 * 64; n++) {
        const uint32_t volumes[] = {n % 64, n / 64 % 64, n / 64 / 64};
        twimbor_segment heard = {.duration = 400, .code = 5, .volume = 63, .marked = true};
        twimbor_table *table = opened(), want = *table;
        for (int i = 0; i < 3; i++) {
            if (volumes[i] < heard.volume) heard.volume = (uint8_t)volumes[i];
            if (volumes[i] > heard.quietest) heard.quietest = (uint8_t)volumes[i];
            EXPECT(says(0, volumes[i]) && twimbor_receive(table, output, 16).refusal == 0);
            EXPECT(table->heard[0] == heard_as(heard.volume, heard.quietest, 1, 0, 400));
        }
        twimbor_set_segment(&want, 0, heard);
        want.head.count = 1;
        EXPECT(same_table(table, &want) && same_segment(twimbor_segment_at(table, 0), heard));
        if (n % 67 == 0) EXPECT(is_listed(table, heard.volume, heard.quietest));
    }
}

/* A new segment between two held ones, and then a louder and a quieter report of it: the neighbours keep what was heard of them. */
static void hearing_between(void)
{
    static const struct {
        uint32_t offset, volume;
    } said[] = {{0, 5}, {0, 50}, {2000, 9}, {2000, 7}, {1000, 30}, {1000, 20}, {1000, 40}};
    static const twimbor_segment held[] = {
        {.offset = 0, .code = 5, .duration = 400, .volume = 5, .quietest = 50, .marked = true},
        {.offset = 1000, .code = 5, .duration = 400, .volume = 20, .quietest = 40, .marked = true},
        {.offset = 2000, .code = 5, .duration = 400, .volume = 7, .quietest = 9, .marked = true},
    };
    twimbor_table *table = opened(), want = *table;
    for (size_t i = 0; i < sizeof said / sizeof *said; i++)
        EXPECT(says(said[i].offset, said[i].volume) && twimbor_receive(table, output, 16).is_new == (i % 2 == 0 && i < 6));
    for (size_t i = 0; i < 3; i++) twimbor_set_segment(&want, i, held[i]);
    want.head.count = 3;
    EXPECT(same_table(table, &want) && around_stays());
}

/* Three things in every order. */
static const int ORDERS[6][3] = {{0, 1, 2}, {0, 2, 1}, {1, 0, 2}, {1, 2, 0}, {2, 0, 1}, {2, 1, 0}};

/* The same three reports by the other calls: as a capture, as plain packets, and as the blocks of one redundant packet. */
static void hearing_by_all_calls(void)
{
    static const uint8_t volumes[] = {20, 3, 41};
    for (int order = 0; order < 6; order++) {
        twimbor_table *table = opened();
        twimbor_older_report older[3];
        size_t at = 0;
        for (int i = 0; i < 3; i++) {
            uint8_t volume = volumes[ORDERS[order][i]];
            EXPECT(says(0, volume));
            at = put_frame(at, output, 16);
            older[i] = (twimbor_older_report){.timestamp = FIRST.timestamp, .code = 5, .volume = volume, .duration = 400};
        }
        EXPECT(captured(twimbor_receive_capture(table, frames, at), 1, at, 3, 0, 0));
        EXPECT(table->heard[0] == heard_as(3, 41, 1, 0, 400) && is_listed(table, 3, 41));

        table = opened_for_both();
        for (int i = 0; i < 3; i++) EXPECT(is_received(table, frames + 18 * i + 2, 16, 1, 1, 1));
        EXPECT(table->heard[0] == heard_as(3, 41, 1, 0, 400) && is_listed(table, 3, 41));

        table = opened_for_both();
        twimbor_report report = FIRST;
        report.volume = older[2].volume;
        EXPECT(twimbor_write_redundant(TWIMBOR_KEYS, report, 100, 2, older[0], older[1], output, 33) == 0);
        EXPECT(is_received(table, output, 33, 3, 3, 1));
        EXPECT(table->heard[0] == heard_as(3, 41, 1, 0, 400) && is_listed(table, 3, 41));
    }
}

/* A key of three segments, each heard otherwise, in every order, and another key meanwhile: an event has the loudest and the quietest of
 * its own. */
static void hearing_segments(void)
{
    static const uint8_t volumes[3][2] = {{10, 12}, {7, 9}, {8, 60}};
    static const twimbor_event first = {.code = 5, .start = 0, .length = 300, .volume = 7, .quietest = 60, .began = true};
    static const twimbor_event second = {.code = 6, .start = 100, .length = 50, .volume = 0, .quietest = 63, .began = true};
    for (int order = 0; order < 6; order++) {
        twimbor_table *table = opened();
        for (int i = 0; i < 3; i++) {
            const uint8_t *heard = volumes[ORDERS[order][i]];
            twimbor_set_segment(table, i < 2 ? i : 3, (twimbor_segment){
                .offset = 100 * i, .code = 5, .duration = 100, .volume = heard[0], .quietest = heard[1], .marked = i == 0});
        }
        twimbor_set_segment(table, 2, (twimbor_segment){
            .offset = 100, .code = 6, .duration = 50, .volume = 0, .quietest = 63, .marked = true});
        table->head.count = 4;
        twimbor_event list[2];
        twimbor_listed l = twimbor_list(table, list, 2);
        EXPECT(l.refusal == 0 && l.events == 2 && same_event(list[0], first) && same_event(list[1], second));
        EXPECT(same_event(twimbor_event_at(table, 1).event, first) && same_event(twimbor_event_at(table, 2).event, second));
    }
}

/* A key as it is sent, in five segments, all of it or no more than is needed: both are the volume sent. */
static void hearing_what_is_sent(void)
{
    twimbor_plan plan = P7;
    plan.length = 70;
    plan.period = 4;
    plan.segment_size = 15;
    for (plan.volume = 0; plan.volume < 64; plan.volume++)
        for (int all = 0; all < 2; all++) {
            twimbor_table *table = opened();
            for (uint32_t k = 1; k <= 29; k++) {
                EXPECT(twimbor_write_report(TWIMBOR_KEYS, plan, k, output, 16) == 0);
                if (all || k == 1 || k % 6 == 0 || k == 29) EXPECT(twimbor_receive(table, output, 16).refusal == 0);
            }
            twimbor_event want = {.code = 5, .length = 70, .began = true, .ended = true}, list[1];
            want.volume = want.quietest = (uint8_t)plan.volume;
            EXPECT(twimbor_list(table, list, 1).events == 1 && same_event(list[0], want));
            EXPECT(same_event(twimbor_event_at(table, 1).event, want) && table->head.count == 5);
        }
}

/* Volumes on both sides of each edge of 16. A quietest from 64 on has no room; it and a volume look like smaller ones in fewer bits. */
static const struct {
    uint8_t volume, quietest;
    bool passes;
} levels[] = {
    {0, 0, true}, {1, 0, false}, {10, 9, false}, {10, 10, true}, {10, 11, true}, {0, 63, true}, {63, 62, false}, {63, 63, true},
    {64, 63, false}, {64, 0, false}, {127, 63, false}, {128, 63, false}, {192, 63, false}, {255, 63, false}, {255, 0, false},
    {64 + 10, 11, false}, {128 + 10, 11, false}, {192 + 10, 11, false}, {0, 64, false}, {63, 64, false}, {64, 64, false},
    {10, 64 + 10, false}, {10, 128 + 11, false}, {10, 192 + 11, false}, {0, 127, false}, {0, 128, false}, {0, 192, false}, {0, 255, false},
    {63, 255, false}, {127, 127, false}, {128, 128, false}, {255, 255, false},
};

static void testing_levels(void)
{
    static const size_t counts[] = {1, 2, 3, 4, 5, 8, 127, 128};
    for (size_t i = 0; i < sizeof levels / sizeof *levels; i++)
        for (size_t j = 0; j < sizeof counts / sizeof *counts; j++)
            for (size_t place = 0; place <= counts[j]; place++) {
                twimbor_segment held = {.code = 5, .duration = 1, .volume = 20, .quietest = 30};
                twimbor_table *table = opened();
                for (; held.offset < counts[j]; held.offset++) twimbor_set_segment(table, held.offset, held);
                table->head.count = counts[j];
                EXPECT(twimbor_is_valid(table));
                held.offset = (uint32_t)place;
                held.volume = levels[i].volume;
                held.quietest = levels[i].quietest;
                twimbor_set_segment(table, place, held); /* the last time in a place that holds none */
                bool passes = levels[i].passes || place == counts[j];
                EXPECT(twimbor_is_valid(table) == passes);
                if (!passes) fails(table);
            }

    /* Every number that the two fields can say, with the others at their ends. */
    static const uint32_t durations[] = {0, 1, 65535};
    twimbor_table *table = opened();
    twimbor_set_segment(table, 0, HEARD);
    table->head.count = 1;
    for (uint32_t n = 0; n < 256 * 64 * 4 * 3; n++) {
        uint32_t volume = n % 256, quietest = n / 256 % 64, flags = n >> 14 & 3, duration = durations[n >> 16];
        table->heard[0] = heard_as(volume, quietest, flags >> 1, flags & 1, duration);
        EXPECT(twimbor_is_valid(table) == (volume <= quietest && duration > 0));
    }
}

/* Heads that only a caller can fill: the kind of a table by any byte, and a type that plays no part in one of the first opening. */
static void kinds(void)
{
    static const uint8_t both[] = {1, 2, 127, 128, 255}, wrong[] = {101, 128, 255}, any[] = {0, 100, 101, 128, 255};
    twimbor_event list[1];
    for (size_t i = 0; i < sizeof both; i++) {
        twimbor_table *table = opened_for_both();
        table->head.both_types = both[i];
        EXPECT(twimbor_is_valid(table) && is_received(table, REDUNDANT, 33, 3, 3, 3) && table->head.both_types == both[i]);
        for (size_t j = 0; j < sizeof wrong; j++) {
            table = opened_for_both();
            table->head.both_types = both[i];
            table->head.redundant_type = wrong[j];
            EXPECT(!twimbor_is_valid(table) && is_refused(table, REDUNDANT, 33, 3, TWIMBOR_INVALID_TABLE));
            EXPECT(is_refused(table, REPORTS[0], 0, 0, TWIMBOR_INVALID_TABLE));
            EXPECT(twimbor_receive(table, REPORTS[0], 16).refusal == TWIMBOR_INVALID_TABLE);
            EXPECT(twimbor_receive_capture(table, frames, 0).refusal == TWIMBOR_INVALID_TABLE);
            EXPECT(twimbor_event_at(table, 1).refusal == TWIMBOR_INVALID_TABLE);
            EXPECT(twimbor_list(table, list, 1).refusal == TWIMBOR_INVALID_TABLE);
        }
    }
    for (size_t j = 0; j < sizeof any; j++) {
        twimbor_table *table = opened_for_both();
        table->head.both_types = 0;
        table->head.redundant_type = any[j];
        EXPECT(twimbor_is_valid(table) && is_refused(table, REDUNDANT, 33, 3, TWIMBOR_OTHER_PAYLOAD_TYPE));
        EXPECT(is_received(table, REPORTS[0], 16, 1, 1, 1) && table->head.both_types == 0 && table->head.redundant_type == any[j]);
    }
}

/* Both sides of a set's edge, in each call that takes one or has it from a table. */
static const struct {
    twimbor_codes codes;
    uint32_t code;
    bool is_in;
} sets[] = {
    {{0xFFFF, 0, 0, 0}, 15, true}, {{0xFFFF, 0, 0, 0}, 16, false}, {{0xFFFF, 0, 0, 0}, 64, false},
    {{0xFFFF, 0x44, 0, 0}, 66, true}, {{0xFFFF, 0x44, 0, 0}, 67, false}, {{0xFFFF, 0x44, 0, 0}, 70, true},
    {{0, 4, 0, 0}, 66, true}, {{0, 4, 0, 0}, 2, false}, {{0, 4, 0, 0}, 130, false},
    {{0, 0, 0x8000000000000000, 0}, 191, true}, {{0, 0, 0x8000000000000000, 0}, 192, false},
    {{0, 0, 0, 0x8000000000000000}, 255, true}, {{0, 0, 0, 0x8000000000000000}, 0, false},
    {{UINT64_MAX, UINT64_MAX, UINT64_MAX, UINT64_MAX}, 0, true}, {{UINT64_MAX, UINT64_MAX, UINT64_MAX, UINT64_MAX}, 255, true},
    {{0, 0, 0, 0}, 0, false}, {{0, 0, 0, 0}, 255, false},
};

static void writing_sets(twimbor_codes codes, uint32_t code, uint8_t refusal)
{
    twimbor_report report = FIRST;
    twimbor_older_report older = OLDER;
    twimbor_plan plan = P7;
    report.code = older.code = plan.code = code;
    fresh();
    EXPECT(twimbor_write(codes, report, output, 16) == refusal && output[12] == (refusal == 0 ? code : 0xAB));
    fresh();
    EXPECT(twimbor_write_redundant(codes, report, 100, 0, OLDER, OLDER, output, 17) == refusal && (refusal == 0 || has(NULL)));
    report = REPORT;
    report.code = twimbor_codes_lowest(codes).code;
    fresh();
    EXPECT(twimbor_write_redundant(codes, report, 100, 1, older, OLDER, output, 25) == refusal && (refusal == 0 || has(NULL)));
    twimbor_count_result count = twimbor_report_count(codes, plan);
    EXPECT(count.refusal == refusal && count.reports == (refusal == 0 ? 3 : 0));
    fresh();
    EXPECT(twimbor_write_report(codes, plan, 1, output, 16) == refusal && output[12] == (refusal == 0 ? code : 0xAB));
}

static void receiving_sets(twimbor_codes codes, uint8_t code, uint8_t refusal)
{
    static const twimbor_report zeros;
    uint8_t packet[16];
    memcpy(packet, REPORTS[0], 16);
    packet[12] = code;
    twimbor_report report = FIRST;
    report.code = code;
    twimbor_read_result r = twimbor_read(codes, packet, 16);
    EXPECT(r.refusal == refusal && same_report(r.report, refusal == 0 ? report : zeros));
    packet[14] = packet[15] = 0;
    EXPECT(twimbor_read(codes, packet, 16).refusal == (refusal == 0 ? TWIMBOR_NO_DURATION : refusal));
    memcpy(packet + 14, REPORTS[0] + 14, 2);

    size_t count = refusal == 0;
    twimbor_table *table = opened();
    table->head.codes = codes;
    EXPECT(twimbor_is_valid(table) && twimbor_receive(table, packet, 16).refusal == refusal && table->head.count == count);
    table = opened();
    table->head.codes = codes;
    EXPECT(captured(twimbor_receive_capture(table, frames, put_frame(0, packet, 16)), count, 18, count, 1 - count, 0));
    table = opened_for_both();
    table->head.codes = codes;
    EXPECT(is_received(table, packet, 16, 1, 1, count) && entries[0] == (refusal == 0 ? ENTRY(0, 1, 0) : refusal));

    /* A table that holds it: 16 if it is not in the set, in a place that holds none nothing. */
    table = opened();
    table->head.codes = codes;
    twimbor_set_segment(table, 0, (twimbor_segment){.offset = 0, .code = code, .duration = 1});
    EXPECT(twimbor_is_valid(table));
    table->head.count = 1;
    EXPECT(twimbor_is_valid(table) == (refusal == 0));
    EXPECT(twimbor_receive(table, packet, 0).refusal == (refusal == 0 ? TWIMBOR_TOO_SHORT : TWIMBOR_INVALID_TABLE));
    twimbor_event_result e = twimbor_event_at(table, 1);
    EXPECT(e.refusal == (refusal == 0 ? 0 : TWIMBOR_INVALID_TABLE) && e.event.code == (refusal == 0 ? code : 0));
    EXPECT(same_codes(table->head.codes, codes) && around_stays());
}

static void taking_sets(void)
{
    for (size_t i = 0; i < sizeof sets / sizeof *sets; i++) {
        twimbor_codes codes = sets[i].codes;
        writing_sets(codes, sets[i].code, sets[i].is_in ? 0 : TWIMBOR_OUT_OF_RANGE);
        writing_sets(codes, 256 + sets[i].code, TWIMBOR_OUT_OF_RANGE);
        receiving_sets(codes, (uint8_t)sets[i].code, sets[i].is_in ? 0 : TWIMBOR_CODE_NOT_IN_SET);

        static twimbor_table zeros;
        bool empty = same_codes(codes, NO_CODES);
        twimbor_table table, want = zeros;
        if (!empty) {
            want.head = HEAD;
            want.head.codes = codes;
        }
        memset(&table, 0xAB, sizeof table);
        EXPECT(twimbor_open(&table, codes, 101, HEAD.ssrc, HEAD.origin) == (empty ? TWIMBOR_OUT_OF_RANGE : 0) && same_table(&table, &want));
        if (!empty) {
            want.head.both_types = 1;
            want.head.redundant_type = 100;
        }
        uint8_t refusal = twimbor_open_redundant(&table, codes, 101, 100, HEAD.ssrc, HEAD.origin);
        EXPECT(refusal == (empty ? TWIMBOR_OUT_OF_RANGE : 0) && same_table(&table, &want));
    }
}

static void reading_entries(void)
{
    static const struct {
        uint32_t entry;
        uint8_t refusal;
        bool is_new;
        uint32_t probes;
    } rows[] = {
        {0, 0, false, 0}, {0x00000100, 0, true, 0}, {0x00070100, 0, true, 7}, {0x00080000, 0, false, 8}, {0x0008000B, 11, false, 8},
        {0x00000011, 17, false, 0},
    };
    for (size_t i = 0; i < sizeof rows / sizeof *rows; i++) {
        EXPECT(twimbor_entry_refusal(rows[i].entry) == rows[i].refusal && twimbor_entry_is_new(rows[i].entry) == rows[i].is_new);
        EXPECT(twimbor_entry_probes(rows[i].entry) == rows[i].probes);
    }
}

/* A segment and its two numbers, both ways: each bit of them stands for one field, alone and beside all others. Only the bits of a key
 * above the offset's 32 do not come back. */
static void numbers(void)
{
    static const struct {
        uint64_t key;
        uint32_t heard;
        twimbor_segment segment;
    } rows[] = {
        {0, 0, {0, 0, 0, 0, 0, false, false}},
        {255, 0xffff, {.code = 255, .duration = 65535}},
        {0xffffffff00, 1 << 16, {.offset = UINT32_MAX, .ended = true}},
        {0x8000000000, 1 << 17, {.offset = 0x80000000, .marked = true}},
        {0x7fffffff05, 63 << 18, {.offset = 0x7fffffff, .code = 5, .quietest = 63}},
        {256, 255u << 24, {.offset = 1, .volume = 255}},
        {0x123456789A, 0xBCDEF012, {0x12345678, 0x9A, 0xF012, 0xBC, 0x37, false, true}},
        {0xffffffffff, UINT32_MAX, {UINT32_MAX, 255, 65535, 255, 63, true, true}},
    };
    for (size_t i = 0; i < sizeof rows / sizeof *rows; i++) {
        EXPECT(same_segment(twimbor_segment_of_numbers(rows[i].key, rows[i].heard), rows[i].segment));
        twimbor_segment_numbers back = twimbor_numbers_of_segment(rows[i].segment);
        EXPECT(back.key == rows[i].key && back.heard == rows[i].heard);
    }
    for (int bit = 0; bit < 64 + 32; bit++)
        for (int others = 0; others < 2; others++) {
            uint64_t key = (bit < 64 ? (uint64_t)1 << bit : 0) ^ (others ? 0xffffffffff : 0);
            uint32_t heard = (bit < 64 ? 0 : (uint32_t)1 << (bit - 64)) ^ (others ? UINT32_MAX : 0);
            twimbor_segment segment = twimbor_segment_of_numbers(key, heard);
            twimbor_segment_numbers back = twimbor_numbers_of_segment(segment);
            EXPECT(back.key == (key >> 40 ? 0xffffffff00 | (key & 255) : key) && back.heard == heard);
        }
}

/* Segments at places of a table. Numbers above their range fit their fields; what does not fit, only a column that a caller filled can
 * hold, or a quietest above 63, with which the volume is put as 255 and no other field is touched. */
static void segments(void)
{
    static const twimbor_segment zeros;
    static const twimbor_segment high = {
        .offset = 0x80000001, .code = 0x9A, .duration = 0xBCDE, .volume = 0xC1, .quietest = 0x2E, .ended = true,
    };
    static const twimbor_segment too_high = {
        .offset = UINT32_MAX, .code = 0, .duration = 0xFFFF, .volume = 255, .quietest = 63, .ended = true, .marked = true,
    };
    twimbor_table *table = opened(), want = *table;
    twimbor_set_segment(table, 0, high);
    want.keys[0] = 0x800000019A;
    want.heard[0] = heard_as(0xC1, 0x2E, 0, 1, 0xBCDE);
    twimbor_set_segment(table, 127, HEARD);
    want.keys[127] = 5;
    want.heard[127] = heard_as(10, 10, 1, 1, 400);
    twimbor_set_segment(table, 128, HEARD);
    twimbor_set_segment(table, SIZE_MAX, HEARD);
    EXPECT(same_table(table, &want) && around_stays());

    table->head.count = 127;
    EXPECT(same_segment(twimbor_segment_at(table, 0), high) && same_segment(twimbor_segment_at(table, 127), zeros));
    table->head.count = 128;
    EXPECT(same_segment(twimbor_segment_at(table, 127), HEARD));
    table->head.count = SIZE_MAX;
    EXPECT(same_segment(twimbor_segment_at(table, 127), HEARD) && same_segment(twimbor_segment_at(table, 128), zeros));

    table->keys[0] = (uint64_t)1 << 40;
    table->heard[0] = UINT32_MAX;
    EXPECT(same_segment(twimbor_segment_at(table, 0), too_high));
    table->head.count = 1;
    for (uint32_t n = 0; n < 256 * 256; n++) {
        twimbor_segment any = {.code = 5, .duration = 1, .volume = (uint8_t)n, .quietest = (uint8_t)(n >> 8)};
        bool fits = any.quietest <= 63;
        twimbor_set_segment(table, 0, any);
        EXPECT(table->heard[0] == heard_as(fits ? any.volume : 255, any.quietest % 64, 0, 0, 1));
        EXPECT(twimbor_is_valid(table) == (any.volume <= any.quietest && fits));
        if (fits) EXPECT(same_segment(twimbor_segment_at(table, 0), any));
    }
}

/* Words and keys at their edges; rust/tests/layout.rs compares all of them. In fewer bits the last numbers look like 0 or 1. */
static void words(void)
{
    static const uint64_t unknown[] = {21, 255, 256, 257, 0x100000000, 0x100000001, UINT64_MAX};
    static const uint32_t no_key[] = {16, 256, 257, 0x10001, UINT32_MAX};
    EXPECT(strcmp(twimbor_refusal_text(0), "nothing is refused") == 0);
    EXPECT(strcmp(twimbor_refusal_text(18), "the redundant packet's block headers run past its end") == 0);
    EXPECT(strcmp(twimbor_refusal_text(19), "the redundant packet's block lengths come to more than its data") == 0);
    EXPECT(strcmp(twimbor_refusal_text(20), "the text is no list of event codes, or the set has none") == 0);
    for (size_t i = 0; i < sizeof unknown / sizeof *unknown; i++)
        EXPECT(strcmp(twimbor_refusal_text(unknown[i]), "a refusal that this version does not know") == 0);
    EXPECT(twimbor_key_character(0) == '0' && twimbor_key_character(15) == 'D');
    for (size_t i = 0; i < sizeof no_key / sizeof *no_key; i++) EXPECT(twimbor_key_character(no_key[i]) == '?');
}

int main(void)
{
    reading_codes();
    writing_codes();
    telling_codes();
    packets();
    plans();
    opening();
    opening_for_both();
    receiving();
    capturing();
    listing();
    short_segments();
    failing();
    writing_redundant();
    out_of_range();
    walking();
    walking_other();
    cursors();
    receiving_redundant();
    receiving_parts();
    receiving_others();
    figure_5();
    receiving_plain();
    receiving_mixed();
    receiving_many();
    hearing();
    hearing_between();
    hearing_by_all_calls();
    hearing_segments();
    hearing_what_is_sent();
    testing_levels();
    kinds();
    taking_sets();
    reading_entries();
    numbers();
    segments();
    words();
    printf("the boundary from C: as expected\n");
    return 0;
}
