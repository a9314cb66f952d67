/* The size of each struct of the header, each field's place and size, and the numbers of its constants, as the archive has them. */
#include "../include/twimbor.h"

#define SIZE(type, bytes) _Static_assert(sizeof(type) == bytes, #type)
#define AT(type, field, place, bytes) \
    _Static_assert(offsetof(type, field) == place && sizeof((*(type *)0).field) == bytes, #type "." #field)

SIZE(twimbor_codes, 32);
AT(twimbor_codes, from_0, 0, 8);
AT(twimbor_codes, from_64, 8, 8);
AT(twimbor_codes, from_128, 16, 8);
AT(twimbor_codes, from_192, 24, 8);

SIZE(twimbor_codes_result, 40);
AT(twimbor_codes_result, codes, 0, 32);
AT(twimbor_codes_result, refusal, 32, 1);

SIZE(twimbor_text_result, 16);
AT(twimbor_text_result, bytes, 0, 8);
AT(twimbor_text_result, refusal, 8, 1);

SIZE(twimbor_lowest_result, 8);
AT(twimbor_lowest_result, code, 0, 4);
AT(twimbor_lowest_result, refusal, 4, 1);

SIZE(twimbor_report, 36);
AT(twimbor_report, marker, 0, 1);
AT(twimbor_report, payload_type, 4, 4);
AT(twimbor_report, sequence, 8, 2);
AT(twimbor_report, timestamp, 12, 4);
AT(twimbor_report, ssrc, 16, 4);
AT(twimbor_report, code, 20, 4);
AT(twimbor_report, ended, 24, 1);
AT(twimbor_report, volume, 28, 4);
AT(twimbor_report, duration, 32, 4);

SIZE(twimbor_older_report, 20);
AT(twimbor_older_report, timestamp, 0, 4);
AT(twimbor_older_report, code, 4, 4);
AT(twimbor_older_report, ended, 8, 1);
AT(twimbor_older_report, volume, 12, 4);
AT(twimbor_older_report, duration, 16, 4);

SIZE(twimbor_plan, 36);
AT(twimbor_plan, payload_type, 0, 4);
AT(twimbor_plan, ssrc, 4, 4);
AT(twimbor_plan, sequence, 8, 2);
AT(twimbor_plan, start, 12, 4);
AT(twimbor_plan, code, 16, 4);
AT(twimbor_plan, volume, 20, 4);
AT(twimbor_plan, length, 24, 4);
AT(twimbor_plan, period, 28, 4);
AT(twimbor_plan, segment_size, 32, 4);

SIZE(twimbor_read_result, 40);
AT(twimbor_read_result, report, 0, 36);
AT(twimbor_read_result, refusal, 36, 1);

SIZE(twimbor_count_result, 8);
AT(twimbor_count_result, reports, 0, 4);
AT(twimbor_count_result, refusal, 4, 1);

SIZE(twimbor_cursor, 24);
AT(twimbor_cursor, header, 0, 8);
AT(twimbor_cursor, body, 8, 8);
AT(twimbor_cursor, end, 16, 8);

SIZE(twimbor_walk_started, 32);
AT(twimbor_walk_started, cursor, 0, 24);
AT(twimbor_walk_started, refusal, 24, 1);

SIZE(twimbor_block_step_result, 48);
AT(twimbor_block_step_result, after, 0, 24);
AT(twimbor_block_step_result, start, 24, 8);
AT(twimbor_block_step_result, end, 32, 8);
AT(twimbor_block_step_result, offset, 40, 2);
AT(twimbor_block_step_result, payload_type, 42, 1);
AT(twimbor_block_step_result, primary, 43, 1);
AT(twimbor_block_step_result, found, 44, 1);

SIZE(twimbor_header_step_result, 16);
AT(twimbor_header_step_result, next, 0, 8);
AT(twimbor_header_step_result, length, 8, 2);
AT(twimbor_header_step_result, offset, 10, 2);
AT(twimbor_header_step_result, payload_type, 12, 1);
AT(twimbor_header_step_result, primary, 13, 1);
AT(twimbor_header_step_result, found, 14, 1);

SIZE(twimbor_walker, 40);
AT(twimbor_walker, packet, 0, 8);
AT(twimbor_walker, bytes, 8, 8);
AT(twimbor_walker, cursor, 16, 24);

SIZE(twimbor_block, 24);
AT(twimbor_block, data, 0, 8);
AT(twimbor_block, bytes, 8, 8);
AT(twimbor_block, payload_type, 16, 1);
AT(twimbor_block, offset, 18, 2);
AT(twimbor_block, primary, 20, 1);

SIZE(twimbor_head, 56);
AT(twimbor_head, payload_type, 0, 1);
AT(twimbor_head, both_types, 1, 1);
AT(twimbor_head, redundant_type, 2, 1);
AT(twimbor_head, ssrc, 4, 4);
AT(twimbor_head, origin, 8, 4);
AT(twimbor_head, codes, 16, 32);
AT(twimbor_head, count, 48, 8);

SIZE(twimbor_table, 1592);
AT(twimbor_table, head, 0, 56);
AT(twimbor_table, keys, 56, 1024);
AT(twimbor_table, heard, 1080, 512);

SIZE(twimbor_segment, 12);
AT(twimbor_segment, offset, 0, 4);
AT(twimbor_segment, code, 4, 1);
AT(twimbor_segment, duration, 6, 2);
AT(twimbor_segment, volume, 8, 1);
AT(twimbor_segment, quietest, 9, 1);
AT(twimbor_segment, ended, 10, 1);
AT(twimbor_segment, marked, 11, 1);

SIZE(twimbor_segment_numbers, 16);
AT(twimbor_segment_numbers, key, 0, 8);
AT(twimbor_segment_numbers, heard, 8, 4);

SIZE(twimbor_received, 32);
AT(twimbor_received, refusal, 0, 8);
AT(twimbor_received, is_new, 8, 1);
AT(twimbor_received, count, 16, 8);
AT(twimbor_received, probes, 24, 8);

SIZE(twimbor_captured, 48);
AT(twimbor_captured, refusal, 0, 1);
AT(twimbor_captured, count, 8, 8);
AT(twimbor_captured, used, 16, 8);
AT(twimbor_captured, taken, 24, 8);
AT(twimbor_captured, refused, 32, 8);
AT(twimbor_captured, packed, 40, 8);

SIZE(twimbor_blocks_received, 24);
AT(twimbor_blocks_received, blocks, 0, 8);
AT(twimbor_blocks_received, count, 8, 8);
AT(twimbor_blocks_received, refusal, 16, 1);

SIZE(twimbor_event, 16);
AT(twimbor_event, code, 0, 1);
AT(twimbor_event, start, 4, 4);
AT(twimbor_event, length, 8, 4);
AT(twimbor_event, volume, 12, 1);
AT(twimbor_event, quietest, 13, 1);
AT(twimbor_event, began, 14, 1);
AT(twimbor_event, ended, 15, 1);

SIZE(twimbor_event_result, 20);
AT(twimbor_event_result, event, 0, 16);
AT(twimbor_event_result, refusal, 16, 1);

SIZE(twimbor_listed, 16);
AT(twimbor_listed, refusal, 0, 1);
AT(twimbor_listed, events, 8, 8);

SIZE(twimbor_opened, 1600);
AT(twimbor_opened, table, 0, 1592);
AT(twimbor_opened, refusal, 1592, 1);

#define IS(name, number) _Static_assert(name == number, #name)
IS(TWIMBOR_PLACES, 128);
IS(TWIMBOR_LONGEST_EVENT, 16 * 65535);
IS(TWIMBOR_PACKET_BYTES, 12 + 4);
IS(TWIMBOR_OLDER_REPORTS, 2);
IS(TWIMBOR_REDUNDANT_BYTES, 12 + 2 * 4 + 1 + 3 * 4);
IS(TWIMBOR_ENTRIES_OF_1500, (1500 - 12 - 1) / 4 + 1); /* every block empty and of the event's type */
/* Ranges of two with one left out between: "0", 3 like "2-3", 30 like "11-12", 52 like "101-102", and the commas. */
IS(TWIMBOR_CODES_BYTES, 1 + 3 * 3 + 30 * 5 + 52 * 7 + 85);
IS(TWIMBOR_CODE_NOT_IN_SET, 8);
IS(TWIMBOR_LIST_TOO_SMALL, 15);
IS(TWIMBOR_INVALID_TABLE, 16);
IS(TWIMBOR_PACKED, 17);
IS(TWIMBOR_HEADERS_RUN_OUT, 18);
IS(TWIMBOR_BLOCKS_TOO_LONG, 19);
IS(TWIMBOR_NO_CODES, 20);
