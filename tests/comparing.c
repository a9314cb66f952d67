/* That tools/compare-archives notices a fault in each function: one is broken at a time, in an answer, in a byte that it should have left
 * or in what it refuses. */
#define main compare
#include "../tools/comparing/compare.c"
#undef main

static archive whole;

static twimbor_codes_result broken_read_codes(const char *text, size_t bytes)
{
    twimbor_codes_result r = whole.read_codes(text, bytes);
    r.codes.from_192 &= INT64_MAX;
    return r;
}

static twimbor_text_result broken_write_codes(twimbor_codes codes, char *output, size_t bytes)
{
    twimbor_text_result r = whole.write_codes(codes, output, bytes);
    if (r.refusal == 0 && r.bytes < bytes) output[r.bytes] = 0;
    return r;
}

static bool broken_codes_contain(twimbor_codes codes, uint32_t code) { return whole.codes_contain(codes, code & 255); }
static uint32_t broken_codes_count(twimbor_codes codes) { return whole.codes_count(codes) & 127; }

static twimbor_lowest_result broken_codes_lowest(twimbor_codes codes)
{
    twimbor_lowest_result r = whole.codes_lowest(codes);
    r.code |= r.refusal;
    return r;
}

static twimbor_read_result broken_read(twimbor_codes codes, const uint8_t *packet, size_t bytes)
{
    twimbor_read_result r = whole.read(codes, packet, bytes);
    if (r.refusal == TWIMBOR_PACKED && bytes > 20) r.refusal = TWIMBOR_NOT_ONE_REPORT;
    return r;
}

static uint8_t broken_write(twimbor_codes codes, twimbor_report r, uint8_t *output, size_t bytes)
{
    if (r.duration == 65535) r.duration--;
    return whole.write(codes, r, output, bytes);
}

static uint8_t broken_write_redundant(twimbor_codes codes, twimbor_report r, uint32_t redundant_type, uint32_t count,
                                      twimbor_older_report first, twimbor_older_report second, uint8_t *output, size_t bytes)
{
    uint8_t refusal = whole.write_redundant(codes, r, redundant_type, count, first, second, output, bytes);
    if (refusal == 0 && bytes > TWIMBOR_REDUNDANT_BYTES) output[TWIMBOR_REDUNDANT_BYTES] ^= 1;
    return refusal;
}

static twimbor_walk_started broken_walk_start(const uint8_t *packet, size_t bytes)
{
    twimbor_walk_started r = whole.walk_start(packet, bytes);
    if (r.refusal == TWIMBOR_BLOCKS_TOO_LONG) r.refusal = TWIMBOR_HEADERS_RUN_OUT;
    return r;
}

static twimbor_block_step_result broken_block_step(const uint8_t *packet, size_t bytes, twimbor_cursor at)
{
    twimbor_block_step_result r = whole.block_step(packet, bytes, at);
    r.offset &= 8191;
    return r;
}

static twimbor_count_result broken_report_count(twimbor_codes codes, twimbor_plan p)
{
    twimbor_count_result r = whole.report_count(codes, p);
    if (r.reports > 100000) r.reports--;
    return r;
}

static uint8_t broken_write_report(twimbor_codes codes, twimbor_plan p, uint32_t k, uint8_t *output, size_t bytes)
{
    uint8_t refusal = whole.write_report(codes, p, k, output, bytes);
    if (refusal == 0 && k > 1) output[1] |= 128;
    return refusal;
}

static twimbor_opened broken_open_table(twimbor_codes codes, uint32_t payload_type, uint32_t ssrc, uint32_t origin)
{
    twimbor_opened r = whole.open_table(codes, payload_type, ssrc, origin);
    if (r.refusal) r.table.head.origin = origin;
    return r;
}

static twimbor_opened broken_open_redundant_table(twimbor_codes codes, uint32_t payload_type, uint32_t redundant_type, uint32_t ssrc,
                                                  uint32_t origin)
{
    twimbor_opened r = whole.open_redundant_table(codes, payload_type, redundant_type, ssrc, origin);
    r.table.heard[TWIMBOR_PLACES - 1] = r.refusal;
    return r;
}

static bool broken_is_valid_columns(twimbor_head head, const uint64_t *keys, const uint32_t *heard)
{
    if (head.count == 129) head.count--;
    return whole.is_valid_columns(head, keys, heard);
}

static twimbor_received broken_receive_columns(twimbor_head head, uint64_t *keys, uint32_t *heard, const uint8_t *packet, size_t size)
{
    twimbor_received r = whole.receive_columns(head, keys, heard, packet, size);
    if (r.refusal == 0 && r.count < TWIMBOR_PLACES) keys[r.count] = 0;
    return r;
}

static twimbor_captured broken_receive_capture_columns(twimbor_head head, uint64_t *keys, uint32_t *heard, const uint8_t *frames,
                                                       size_t size)
{
    twimbor_captured r = whole.receive_capture_columns(head, keys, heard, frames, size);
    if (r.packed > 1) r.packed--;
    return r;
}

static twimbor_blocks_received broken_receive_redundant_columns(twimbor_head head, uint64_t *keys, uint32_t *heard, const uint8_t *packet,
                                                                size_t size, uint32_t *entries, size_t many)
{
    twimbor_blocks_received r = whole.receive_redundant_columns(head, keys, heard, packet, size, entries, many);
    if (r.refusal == TWIMBOR_LIST_TOO_SMALL && many > 0) entries[0] = 0;
    return r;
}

static twimbor_event_result broken_event_at_columns(twimbor_head head, const uint64_t *keys, const uint32_t *heard, uint32_t k)
{
    twimbor_event_result r = whole.event_at_columns(head, keys, heard, k);
    if (r.event.length > 3 * 65535) r.event.quietest = r.event.volume;
    return r;
}

static twimbor_listed broken_list_columns(twimbor_head head, const uint64_t *keys, const uint32_t *heard, twimbor_event *list, size_t many)
{
    twimbor_listed r = whole.list_columns(head, keys, heard, list, many);
    if (r.refusal == 0 && r.events < many) list[r.events].length = 0;
    return r;
}

static twimbor_header_step_result broken_header_step(const uint8_t *packet, size_t size, size_t header, size_t body, size_t end)
{
    twimbor_header_step_result r = whole.header_step(packet, size, header, body, end);
    if (r.found) r.length ^= r.primary;
    return r;
}

static twimbor_segment broken_segment_of_numbers(uint64_t key, uint32_t heard)
{
    return whole.segment_of_numbers(key & ((1ull << 40) - 1), heard);
}

static twimbor_segment_numbers broken_numbers_of_segment(twimbor_segment segment)
{
    segment.quietest &= 63;
    return whole.numbers_of_segment(segment);
}

static int wrong;

static void expect(const char *broken, int noticed)
{
    if (compare(3, (char *[]){"compare", "4000", "7", NULL}) == noticed) return;
    fprintf(stderr, "tests/comparing: %s\n", broken);
    wrong++;
}

#define BREAK(name) archives[1] = whole, archives[1].name = broken_##name, expect("a fault is not noticed: " #name, 1);

int main(void)
{
    whole = archives[0];
    if (!freopen("/dev/null", "w", stdout)) return 2;
    expect("an archive differs from itself", 0);
    FUNCTIONS(BREAK)
    return wrong;
}
