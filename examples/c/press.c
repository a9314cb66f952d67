/* One press of a key, held for 70,000 units, sent packet by packet and received: it takes two segments, and lists as one event.
 *
 *     cc -Iinclude examples/c/press.c target/staticlib/libtwimbor.a -o press && ./press
 */
#include "twimbor.h"
#include <stdio.h>

int main(void)
{
    twimbor_plan plan = {
        .payload_type = 101, .ssrc = 287454020, .sequence = 1, .start = 1000, .code = 4, .volume = 10, .length = 70000, .period = 2400,
        .segment_size = 65535,
    };
    twimbor_table table;
    if (twimbor_open(&table, TWIMBOR_KEYS, plan.payload_type, plan.ssrc, plan.start) != 0) return 1;

    twimbor_count_result count = twimbor_report_count(TWIMBOR_KEYS, plan);
    if (count.refusal != 0) return 1;
    for (uint32_t k = 1; k <= count.reports; k++) {
        uint8_t packet[TWIMBOR_PACKET_BYTES];
        if (twimbor_write_report(TWIMBOR_KEYS, plan, k, packet, sizeof packet) != 0) return 1;
        twimbor_received received = twimbor_receive(&table, packet, sizeof packet);
        if (received.refusal != 0) printf("packet %u is refused: %s\n", (unsigned)k, twimbor_refusal_text(received.refusal));
    }

    twimbor_event events[TWIMBOR_PLACES];
    twimbor_listed listed = twimbor_list(&table, events, TWIMBOR_PLACES);
    if (listed.refusal != 0) return 1;
    printf("%u packets, %zu segments, %zu event\n", (unsigned)count.reports, table.head.count, listed.events);
    for (size_t i = 0; i < listed.events; i++)
        printf("key %c, from %u on, %u units, volume %u, quietest %u, began %d, ended %d\n", twimbor_key_character(events[i].code),
            (unsigned)events[i].start, (unsigned)events[i].length, (unsigned)events[i].volume, (unsigned)events[i].quietest,
            events[i].began, events[i].ended);
    return 0;
}
