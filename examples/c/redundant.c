/* One press of a key, sent in redundant packets (RFC 2198): each has a report and up to two older ones. Every third packet is lost, but
 * no report is, so the receiver lists the whole press. Then the blocks of one packet are printed.
 *
 *     cc -Iinclude examples/c/redundant.c target/staticlib/libtwimbor.a -o redundant && ./redundant
 */
#include "twimbor.h"
#include <stdio.h>

enum { EVENT = 101, REDUNDANT = 100 }; /* payload types, as of  a=rtpmap:100 red/8000  and  a=fmtp:100 101/101/101 */

typedef struct {
    uint8_t bytes[TWIMBOR_REDUNDANT_BYTES];
    size_t size;
} packet;

/* The redundant packet of report k; `older` holds the ones before it, the oldest first, and takes it in. */
static packet write_packet(twimbor_plan plan, uint32_t k, twimbor_older_report *older)
{
    packet p = {{0}, 0};
    uint8_t plain[TWIMBOR_PACKET_BYTES];
    uint32_t count = k > TWIMBOR_OLDER_REPORTS ? TWIMBOR_OLDER_REPORTS : k - 1;
    if (twimbor_write_report(TWIMBOR_KEYS, plan, k, plain, sizeof plain) != 0) return p;
    twimbor_report report = twimbor_read(TWIMBOR_KEYS, plain, sizeof plain).report;
    if (twimbor_write_redundant(TWIMBOR_KEYS, report, REDUNDANT, count, older[0], older[1], p.bytes, sizeof p.bytes) != 0) return p;
    p.size = TWIMBOR_REDUNDANT_BYTES - 8 * (TWIMBOR_OLDER_REPORTS - count);

    twimbor_older_report now = {report.timestamp, report.code, report.ended, report.volume, report.duration};
    if (count == TWIMBOR_OLDER_REPORTS) older[0] = older[1];
    older[count == 0 ? 0 : 1] = now;
    return p;
}

/* Hands a packet to the table, and answers how many of its blocks were taken. */
static unsigned receive(twimbor_table *table, const packet *p)
{
    uint32_t entries[TWIMBOR_ENTRIES_OF_1500];
    unsigned taken = 0;
    twimbor_blocks_received received = twimbor_receive_redundant(table, p->bytes, p->size, entries, TWIMBOR_ENTRIES_OF_1500);
    if (received.refusal != 0) printf("a packet is refused: %s\n", twimbor_refusal_text(received.refusal));
    for (size_t i = 0; i < received.blocks; i++) {
        uint8_t refusal = twimbor_entry_refusal(entries[i]);
        if (refusal != 0) printf("a block is refused: %s\n", twimbor_refusal_text(refusal));
        else taken++;
    }
    return taken;
}

static void print_blocks(const packet *p)
{
    twimbor_walker walker;
    twimbor_block block;
    if (twimbor_walk(&walker, p->bytes, p->size) != 0) return;
    while (twimbor_next_block(&walker, &block)) {
        printf("block of type %u, %u units earlier:", (unsigned)block.payload_type, (unsigned)block.offset);
        for (size_t i = 0; i < block.bytes; i++) printf(" %02x", block.data[i]);
        printf("%s\n", block.primary ? ", the primary" : "");
    }
}

int main(void)
{
    twimbor_plan plan = {
        .payload_type = EVENT, .ssrc = 287454020, .sequence = 1, .start = 1000, .code = 4, .volume = 10, .length = 20000, .period = 400,
        .segment_size = 8000, /* the reports before a segment's first one are 8,000 units earlier; up to 16,383 can be told */
    };
    twimbor_older_report older[TWIMBOR_OLDER_REPORTS] = {{0}};
    twimbor_table table;
    if (twimbor_open_redundant(&table, TWIMBOR_KEYS, EVENT, REDUNDANT, plan.ssrc, plan.start) != 0) return 1;

    packet p, second = {{0}, 0}; /* the first packet of the second segment */
    unsigned lost = 0, taken = 0;
    uint32_t reports = twimbor_report_count(TWIMBOR_KEYS, plan).reports;
    for (uint32_t k = 1; k <= reports; k++) {
        p = write_packet(plan, k, older);
        if (p.size == 0) return 1;
        if (k == plan.segment_size / plan.period + 3) second = p;
        if (k % 3 == 0) lost++;
        else taken += receive(&table, &p);
    }
    printf("%u packets, %u of them lost, %u blocks taken\n", (unsigned)reports, lost, taken);

    twimbor_event events[TWIMBOR_PLACES];
    twimbor_listed listed = twimbor_list(&table, events, TWIMBOR_PLACES);
    if (listed.refusal != 0) return 1;
    for (size_t i = 0; i < listed.events; i++)
        printf("key %c, from %u on, %u units, volume %u, quietest %u, began %d, ended %d\n", twimbor_key_character(events[i].code),
            (unsigned)events[i].start, (unsigned)events[i].length, (unsigned)events[i].volume, (unsigned)events[i].quietest,
            events[i].began, events[i].ended);
    print_blocks(&second);
    return 0;
}
