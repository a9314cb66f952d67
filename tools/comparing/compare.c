/* Calls the functions of two archives, which tools/compare-archives names old_.. and new_.., side by side on the same inputs, and compares
 * all that they answer and all that was lent to them, with what lies before and behind it: compare INPUTS SEED. */
#include "inputs.h"
#include <stdio.h>
#include <stdlib.h>

/* The archives may be of any version. */
uint32_t TWIMBOR_NEEDED(void) { return 0; }

#define FUNCTIONS(X) \
    X(read_codes) X(write_codes) X(codes_contain) X(codes_count) X(codes_lowest) X(read) X(write) X(write_redundant) X(walk_start) \
    X(block_step) X(report_count) X(write_report) X(open_table) X(open_redundant_table) X(is_valid_columns) X(receive_columns) \
    X(receive_capture_columns) X(receive_redundant_columns) X(event_at_columns) X(list_columns) FUNCTIONS_0_12(X)
/* Those that an older archive does not have. */
#ifdef BOTH_FROM_0_12
#define FUNCTIONS_0_12(X) X(header_step) X(segment_of_numbers) X(numbers_of_segment)
#else
#define FUNCTIONS_0_12(X)
#endif
#define DECLARED(name) extern __typeof__(twimbor_##name) old_twimbor_##name, new_twimbor_##name;
#define POINTER(name) __typeof__(twimbor_##name) *name;
#define OLD(name) old_twimbor_##name,
#define NEW(name) new_twimbor_##name,
FUNCTIONS(DECLARED)
typedef struct { FUNCTIONS(POINTER) } archive;
static archive archives[2] = {{FUNCTIONS(OLD)}, {FUNCTIONS(NEW)}};

/* What an archive answered and left, as bytes with the name of each part. The bytes between a struct's fields may be anything, so that a
 * struct is told by its fields. */
enum { TOLD = 1 << 22, PARTS = 1 << 16 };
static struct {
    size_t bytes, parts;
    const char *name[PARTS];
    size_t start[PARTS];
    uint8_t byte[TOLD];
} told[2];
static int side;
static uint64_t met[32];            /* how often each refusal, 0 for none; the numbers of all calls of a kind */

static void tell(const char *name, const void *from, size_t bytes)
{
    if (told[side].parts == PARTS || told[side].bytes + bytes > TOLD) printf("too much is told\n"), exit(2);
    told[side].name[told[side].parts] = name;
    told[side].start[told[side].parts++] = told[side].bytes;
    memcpy(told[side].byte + told[side].bytes, from, bytes);
    told[side].bytes += bytes;
}

#define TELL(value) tell(#value, &(value), sizeof(value))
#define TELL_REFUSAL(value) (met[(value) & 31]++, TELL(value))
#define TELL2(of, a, b) TELL(of.a), TELL(of.b)

static void tell_codes(twimbor_codes codes) { TELL2(codes, from_0, from_64), TELL2(codes, from_128, from_192); }

static void tell_head(twimbor_head head)
{
    TELL2(head, payload_type, both_types), TELL2(head, redundant_type, ssrc), TELL2(head, origin, count);
    tell_codes(head.codes);
}

static void tell_event(twimbor_event event)
{
    TELL2(event, code, start), TELL2(event, length, volume), TELL2(event, quietest, began), TELL(event.ended);
}

static void tell_cursor(twimbor_cursor cursor) { TELL2(cursor, header, body), TELL(cursor.end); }

/* Memory to lend, with some before and behind it. What was written into it before a call is of the input, and so the same for both. */
enum { AROUND = 64 };
static _Alignas(16) uint8_t before_call[ROOM + 2 * AROUND], lent[ROOM + 2 * AROUND];
static size_t lent_bytes;

static void *lend(size_t bytes)
{
    lent_bytes = bytes;
    memcpy(lent, before_call, bytes + 2 * AROUND);
    return lent + AROUND;
}

static void tell_lent(void) { tell("what was lent", lent, lent_bytes + 2 * AROUND); }

/* An input, made once for both. */
static uint8_t bytes_of[ROOM];
static size_t bytes, room;
static uint32_t numbers[4];
static twimbor_report report;
static twimbor_older_report older[2];
static twimbor_plan plan;
static twimbor_cursor cursor;

static void make_room(size_t most)
{
    room = one_in(3) ? below((uint32_t)most + 20) : most;
    fill(before_call, room + 2 * AROUND);
}

static void make_text(void)
{
    char *p = (char *)bytes_of;
    for (uint32_t n = below(8); n-- > 0; *p++ = n || one_in(40) ? ',' : ' ') {
        uint32_t first = one_in(8) ? edge() : below(256), last = one_in(8) ? edge() : first + below(20);
        p += one_in(2) ? sprintf(p, "%u", first) : sprintf(p, one_in(30) ? "%u-0%u" : "%u-%u", first, last);
    }
    bytes = p - (char *)bytes_of;
    if (bytes > 0 && bytes_of[bytes - 1] == ' ') bytes--;
    uint32_t other = one_in(3) ? below(256) : PICK('0', '9', '-', ',', ' ', '\n', '/', ':');
    if (one_in(6) && bytes > 0) bytes_of[below((uint32_t)bytes)] = (uint8_t)other;
    if (one_in(20)) bytes = below(12), fill(bytes_of, bytes);
    call.codes = some_codes();
    make_room(TWIMBOR_CODES_BYTES);
    numbers[0] = one_in(2) ? below(256) : edge();
}

static void run_text(const archive *with)
{
    twimbor_codes_result r = with->read_codes((char *)bytes_of, bytes);
    tell_codes(r.codes), TELL_REFUSAL(r.refusal);
    for (int i = 0; i < 2; i++) {
        twimbor_codes codes = i ? r.codes : call.codes;
        twimbor_text_result w = with->write_codes(codes, lend(room), room);
        TELL(w.bytes), TELL_REFUSAL(w.refusal), tell_lent();
        bool is_in = with->codes_contain(codes, numbers[0]);
        uint32_t count = with->codes_count(codes);
        twimbor_lowest_result lowest = with->codes_lowest(codes);
        TELL(is_in), TELL(count), TELL(lowest.code), TELL_REFUSAL(lowest.refusal);
    }
}

static void make_one_packet(void)
{
    make_call();
    bytes = make_packet(bytes_of, one_in(2));
    cursor = one_in(2) ? (twimbor_cursor){any(), any(), any()} : (twimbor_cursor){below(60), below(60), below(80)};
}

#ifdef BOTH_FROM_0_12
static void run_numbers(const archive *with, twimbor_cursor at)
{
    twimbor_header_step_result step = with->header_step(bytes_of, bytes, at.header, at.body, at.end);
    TELL2(step, next, length), TELL2(step, offset, payload_type), TELL2(step, primary, found);
    twimbor_segment segment = with->segment_of_numbers(at.header, (uint32_t)at.body);
    TELL2(segment, offset, code), TELL2(segment, duration, volume), TELL2(segment, quietest, ended), TELL(segment.marked);
    segment.quietest = (uint8_t)at.end;
    twimbor_segment_numbers numbers = with->numbers_of_segment(segment);
    TELL2(numbers, key, heard);
}
#else
static void run_numbers(const archive *with, twimbor_cursor at) { (void)with, (void)at; }
#endif

static void run_packet(const archive *with)
{
    run_numbers(with, cursor);
    twimbor_read_result r = with->read(call.codes, bytes_of, bytes);
    TELL2(r.report, marker, payload_type), TELL2(r.report, sequence, timestamp), TELL2(r.report, ssrc, code);
    TELL2(r.report, ended, volume), TELL(r.report.duration), TELL_REFUSAL(r.refusal);
    twimbor_walk_started started = with->walk_start(bytes_of, bytes);
    tell_cursor(started.cursor), TELL_REFUSAL(started.refusal);
    twimbor_cursor at = started.cursor;
    for (int steps = 0; steps < 400; steps++) {
        twimbor_block_step_result step = with->block_step(bytes_of, bytes, steps ? at : cursor);
        tell_cursor(step.after), TELL2(step, start, end), TELL2(step, offset, payload_type), TELL2(step, primary, found);
        run_numbers(with, steps ? at : cursor);
        if (steps) at = step.after;
        if (steps && !step.found) break;
    }
}

static void make_report(void)
{
    make_call();
    uint32_t type = one_in(10) ? edge() : call.payload_type, code = one_in(10) ? edge() : call.code[0];
    uint32_t volume = one_in(10) ? edge() : below(64), duration = one_in(10) ? edge() : call.unit, timestamp = some_timestamp();
    report = (twimbor_report){one_in(2), type, (uint16_t)any(), timestamp, call.ssrc, code, one_in(2), volume, duration};
    for (int i = 0; i < 2; i++) {
        uint32_t earlier = one_in(10) ? edge() : below(16384);
        older[i] = (twimbor_older_report){timestamp - earlier, one_in(10) ? edge() : call.code[1], one_in(2),
                                          one_in(10) ? edge() : below(64), one_in(10) ? edge() : call.unit};
    }
    numbers[0] = one_in(8) ? edge() : call.redundant_type;
    numbers[1] = one_in(8) ? edge() : below(3);
    make_room(one_in(2) ? TWIMBOR_PACKET_BYTES : TWIMBOR_REDUNDANT_BYTES);
}

static void run_report(const archive *with)
{
    uint8_t refusal = with->write(call.codes, report, lend(room), room);
    TELL_REFUSAL(refusal), tell_lent();
    refusal = with->write_redundant(call.codes, report, numbers[0], numbers[1], older[0], older[1], lend(room), room);
    TELL_REFUSAL(refusal), tell_lent();
}

static void make_plan(void)
{
    make_call();
    uint32_t size = one_in(8) ? edge() : one_in(2) ? 65535 : call.unit;
    uint32_t length = one_in(6) ? edge() : below(one_in(2) ? 2 * size : 16 * size) + 1;
    uint32_t period = one_in(8) ? edge() : PICK(1 + below(65535), 400, size, 1 + below(size + 1));
    plan = (twimbor_plan){one_in(12) ? edge() : call.payload_type, call.ssrc, (uint16_t)any(), some_timestamp(),
                          one_in(12) ? edge() : call.code[0], one_in(12) ? edge() : below(64), length, period, size};
    numbers[0] = below(8), numbers[1] = (uint32_t)any(), numbers[2] = edge();
    make_room(TWIMBOR_PACKET_BYTES);
}

/* Some reports, from the first on, at the end, between, and where there is none. */
static void run_plan(const archive *with)
{
    twimbor_count_result count = with->report_count(call.codes, plan);
    TELL(count.reports), TELL_REFUSAL(count.refusal);
    uint32_t some[] = {numbers[0], count.reports - numbers[0], numbers[1] % (count.reports + 2), numbers[2]};
    for (int i = 0; i < 4; i++) {
        uint8_t refusal = with->write_report(call.codes, plan, some[i], lend(room), room);
        TELL_REFUSAL(refusal), tell_lent();
    }
}

static void make_opening(void)
{
    make_call();
    numbers[0] = one_in(4) ? edge() : call.payload_type;
    numbers[1] = one_in(4) ? edge() : one_in(8) ? numbers[0] : call.redundant_type;
}

static void tell_table(const twimbor_table *table)
{
    tell_head(table->head), TELL(table->keys), TELL(table->heard);
}

static void run_opening(const archive *with)
{
    twimbor_opened opened = with->open_table(call.codes, numbers[0], call.ssrc, call.origin);
    tell_table(&opened.table), TELL_REFUSAL(opened.refusal);
    opened = with->open_redundant_table(call.codes, numbers[0], numbers[1], call.ssrc, call.origin);
    tell_table(&opened.table), TELL_REFUSAL(opened.refusal);
}

static void make_one_table(void)
{
    make_table();
    numbers[0] = one_in(8) ? edge() : below((uint32_t)(made.head.count & 255) + 2);
    numbers[1] = one_in(8) ? edge() : below(6);
    room = one_in(2) ? TWIMBOR_PLACES : below((uint32_t)(made.head.count & 255) + 3);
    fill(before_call, room * sizeof(twimbor_event) + 2 * AROUND);
}

static void run_table(const archive *with)
{
    twimbor_table table = made;
    bool is_valid = with->is_valid_columns(table.head, table.keys, table.heard);
    TELL(is_valid);
    for (int i = 0; i < 2; i++) {
        twimbor_event_result result = with->event_at_columns(table.head, table.keys, table.heard, numbers[i]);
        tell_event(result.event), TELL_REFUSAL(result.refusal);
    }
    twimbor_event *list = lend(room * sizeof *list);
    twimbor_listed listed = with->list_columns(table.head, table.keys, table.heard, list, room);
    TELL_REFUSAL(listed.refusal), TELL(listed.events);
    for (size_t i = 0; i < listed.events && i < room; i++) {
        tell_event(list[i]);
        memset(list + i, 0, sizeof *list);
    }
    tell_lent(), tell_table(&table);
}

/* Receiving calls on one table, in the order made: packets, redundant packets and captures, listed in the end. */
enum { CALLS = 400 };
static struct {
    enum { PACKET, REDUNDANT, CAPTURE } kind;
    size_t start, bytes, room;
} calls[CALLS];
static uint32_t call_count;

static void make_calls(uint32_t most, bool broken)
{
    make_table();
    if (!broken) made.head.count = one_in(2) ? 0 : made.head.count;
    call_count = 1 + below(most);
    size_t used = 0;
    for (uint32_t i = 0; i < call_count; i++) {
        uint8_t *to = bytes_of + used;
        calls[i].kind = one_in(2) ? PACKET : one_in(8) && used < ROOM - FRAMES_ROOM ? CAPTURE : REDUNDANT;
        calls[i].start = used;
        calls[i].bytes = calls[i].kind == CAPTURE ? make_frames(to) : make_packet(to, calls[i].kind == REDUNDANT ? !one_in(4) : one_in(10));
        calls[i].room = one_in(3) ? below(6) : one_in(20) ? TWIMBOR_ENTRIES_OF_1500 : 12;
        used += calls[i].bytes;
        if (used > ROOM - PACKET_ROOM) call_count = i + 1;
    }
    fill(before_call, TWIMBOR_ENTRIES_OF_1500 * 4 + 2 * AROUND);
    room = TWIMBOR_PLACES;
}

static void make_few_calls(void) { make_calls(4, true); }
static void make_many_calls(void) { make_calls(CALLS, one_in(20)); }

static void run_calls(const archive *with)
{
    twimbor_table table = made;
    for (uint32_t i = 0; i < call_count; i++) {
        const uint8_t *from = bytes_of + calls[i].start;
        if (calls[i].kind == PACKET) {
            twimbor_received got = with->receive_columns(table.head, table.keys, table.heard, from, calls[i].bytes);
            TELL_REFUSAL(got.refusal), TELL(got.is_new), TELL2(got, count, probes);
            table.head.count = got.count;
        } else if (calls[i].kind == REDUNDANT) {
            uint32_t *entries = lend(calls[i].room * sizeof *entries);
            twimbor_blocks_received got =
                with->receive_redundant_columns(table.head, table.keys, table.heard, from, calls[i].bytes, entries, calls[i].room);
            TELL2(got, blocks, count), TELL_REFUSAL(got.refusal), tell_lent();
            for (size_t k = 0; k < got.blocks; k++) met[entries[k] & 31]++;
            table.head.count = got.count;
        } else {
            twimbor_captured got = with->receive_capture_columns(table.head, table.keys, table.heard, from, calls[i].bytes);
            TELL_REFUSAL(got.refusal), TELL2(got, count, used), TELL2(got, taken, refused), TELL(got.packed);
            table.head.count = got.count;
        }
        tell_table(&table);
    }
    twimbor_event list[TWIMBOR_PLACES];
    twimbor_listed listed = with->list_columns(table.head, table.keys, table.heard, list, TWIMBOR_PLACES);
    TELL_REFUSAL(listed.refusal), TELL(listed.events);
    for (size_t i = 0; i < listed.events; i++) tell_event(list[i]);
}

static const struct {
    const char *name;
    void (*make)(void);
    void (*run)(const archive *with);
    uint32_t share;                 /* one of so many of the inputs asked for */
} KINDS[] = {
    {"texts and sets of codes", make_text, run_text, 1},
    {"packets read and walked", make_one_packet, run_packet, 1},
    {"reports written, and redundant packets", make_report, run_report, 1},
    {"plans", make_plan, run_plan, 1},
    {"openings", make_opening, run_opening, 1},
    {"tables tested and listed", make_one_table, run_table, 1},
    {"a few receiving calls on any table", make_few_calls, run_calls, 1},
    {"many receiving calls", make_many_calls, run_calls, 50},
};
enum { ALL = sizeof KINDS / sizeof *KINDS };

static void show(int which, size_t from)
{
    printf("  %s:", which ? "new" : "old");
    for (size_t i = from; i < told[which].bytes && i < from + 24; i++) printf(" %02x", told[which].byte[i]);
    printf("\n");
}

/* Whether both told the same; if not, where first. */
static bool same(const char *kind, uint32_t number)
{
    size_t at = 0, part = 0;
    if (told[0].bytes == told[1].bytes && memcmp(told[0].byte, told[1].byte, told[0].bytes) == 0) return true;
    while (at < told[0].bytes && at < told[1].bytes && told[0].byte[at] == told[1].byte[at]) at++;
    while (part + 1 < told[0].parts && told[0].start[part + 1] <= at) part++;
    printf("%s, input %u: they differ in %s, byte %zu\n", kind, number, told[0].name[part], at - told[0].start[part]);
    show(0, told[0].start[part]), show(1, told[0].start[part]);
    return false;
}

int main(int count, char **words)
{
    uint32_t inputs = count > 1 ? strtoul(words[1], NULL, 10) : 1000000, seed = count > 2 ? strtoul(words[2], NULL, 10) : 1;
    for (uint32_t kind = 0; kind < ALL; kind++) {
        uint32_t number, least = inputs / KINDS[kind].share;
        for (number = 0; number < least; number++) {
            drawn = ((uint64_t)seed << 40) + ((uint64_t)kind << 32) + number;
            drawn = any();
            KINDS[kind].make();
            for (side = 0; side < 2; side++) {
                told[side].bytes = told[side].parts = 0;
                KINDS[kind].run(&archives[side]);
            }
            if (!same(KINDS[kind].name, number)) return 1;
        }
        printf("%s: %u inputs, the same; refusals met:", KINDS[kind].name, number);
        for (int i = 1; i < 32; i++)
            if (met[i]) printf(" %d", i);
        printf("\n");
        fflush(stdout);
        memset(met, 0, sizeof met);
    }
    return 0;
}
