/* The library's rules in plain C, on the header's table, to measure against. */
#include "../../include/twimbor.h"
#include <string.h>

/* In each caller: a copy that they share costs a call. */
#define INLINE static inline __attribute__((always_inline))

/* Whether a code is in the set: one of its four words, a shift and a mask. */
static inline bool plain_has(const twimbor_codes *codes, uint32_t code)
{
    uint64_t word;
    if (code > 255) return false;
    memcpy(&word, (const uint8_t *)codes + 8 * (code >> 6), sizeof word);
    return word >> (code & 63) & 1;
}

/* The same of a packet's code: the first word is tested for first, which is faster there, but not for the numbers of a plan. */
static inline bool plain_has_byte(const twimbor_codes *codes, uint8_t code)
{
    if (code < 64) return codes->from_0 >> code & 1;
    if (code < 128) return codes->from_64 >> (code & 63) & 1;
    return (code < 192 ? codes->from_128 : codes->from_192) >> (code & 63) & 1;
}

twimbor_read_result plain_read(twimbor_codes codes, const uint8_t *p, size_t n);
uint8_t plain_misfit(size_t length);    /* the refusal of a payload that is not 4 bytes; inlined, it slows plain_receive down */
twimbor_count_result plain_report_count(twimbor_codes codes, twimbor_plan plan);
uint8_t plain_write_report(twimbor_codes codes, twimbor_plan plan, uint32_t k, uint8_t *output, size_t bytes);
twimbor_count_result plain_report_count_by_shifts(twimbor_codes codes, twimbor_plan plan);
uint8_t plain_write_report_by_shifts(twimbor_codes codes, twimbor_plan plan, uint32_t k, uint8_t *output, size_t bytes);
bool plain_is_valid(const twimbor_table *t);

typedef struct {
    uint8_t refusal;
    bool is_new;
    size_t probes;
} plain_answer;
plain_answer plain_receive(twimbor_table *t, const uint8_t *p, size_t n);
plain_answer plain_receive_valid(twimbor_table *t, const uint8_t *p, size_t n);     /* the table passes the tests */
twimbor_captured plain_receive_capture(twimbor_table *t, const uint8_t *frames, size_t bytes);

twimbor_blocks_received plain_receive_redundant(twimbor_table *t, const uint8_t *p, size_t n, uint32_t *entries, size_t room);
uint8_t plain_walk(twimbor_walker *w, const uint8_t *packet, size_t bytes);
bool plain_next_block(twimbor_walker *w, twimbor_block *b);

twimbor_listed plain_list(const twimbor_table *t, twimbor_event *out, size_t room);
