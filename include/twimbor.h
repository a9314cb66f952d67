/* Twimbor: RTP packets that carry one telephone-event report (RFC 4733), or a redundant packet's blocks of them (RFC 2198).
 *
 * Every function checks its own input and answers a refusal's number, 0 if nothing is refused. Under a refusal nothing lent
 * changes, but for the table of twimbor_open and of twimbor_open_redundant, and the values answered are zeros, but for the count of
 * twimbor_received, twimbor_captured and twimbor_blocks_received, and the probes under 11. Link with the archive that
 * `tools/build twimbor` writes.
 *
 * A pointer with a number of `bytes`, `records` or `room` stands for that many, a pointer to a table or a column for all of it. What it
 * points to may not be written by anything else during the call, and what the call writes may not overlap anything else that is
 * lent to it. No pointer may be null, not even with 0 of them.
 *
 * The calls keep nothing and share nothing, so different tables may be used in different threads at the same time.
 *
 * A `bool` must be 0 or 1. A byte of a file may be neither, and as a bool that is undefined behaviour: read a stored bool back as
 * `byte != 0`. Reports, older ones, segments and events have bools; a table and a cursor have none, so that whatever bytes are read back
 * as one are answered.
 *
 * A `length`, `duration`, `period` or `segment_size` is always in timestamp units. */
#ifndef TWIMBOR_H
#define TWIMBOR_H

#include <stdbool.h>
#include <stddef.h>
#include <stdint.h>

#define TWIMBOR_VERSION_MAJOR 0
#define TWIMBOR_VERSION_MINOR 12
#define TWIMBOR_VERSION_PATCH 0
#define TWIMBOR_VERSION \
    TWIMBOR_DIGITS(TWIMBOR_VERSION_MAJOR) "." TWIMBOR_DIGITS(TWIMBOR_VERSION_MINOR) "." TWIMBOR_DIGITS(TWIMBOR_VERSION_PATCH)
#define TWIMBOR_DIGITS(number) TWIMBOR_QUOTED(number)
#define TWIMBOR_QUOTED(digits) #digits
#define TWIMBOR_VERSION_NUMBER (TWIMBOR_VERSION_MAJOR * 1000000 + TWIMBOR_VERSION_MINOR * 1000 + TWIMBOR_VERSION_PATCH)

#define TWIMBOR_PLACES 128              /* the segments that a table holds at most, and so the events that it can list */
#define TWIMBOR_LONGEST_EVENT 1048560   /* timestamp units that a plan can have: 16 segments of 65535 */
#define TWIMBOR_PACKET_BYTES 16         /* what is written of a report */
#define TWIMBOR_OLDER_REPORTS 2         /* the older reports that a redundant packet is written with at most */
#define TWIMBOR_REDUNDANT_BYTES 33      /* what is written of a report and two older ones; 8 less for each that is not there */
#define TWIMBOR_CODES_BYTES 609         /* what is written of a set of codes at most */

/* On every function whose answer says whether it was refused, or is a truth: gcc and clang warn if it is thrown away. */
#ifdef __GNUC__
#define TWIMBOR_MUST_CHECK __attribute__((warn_unused_result))
#define TWIMBOR_KEPT __attribute__((used))
#else
#define TWIMBOR_MUST_CHECK
#define TWIMBOR_KEPT
#endif
#ifdef __has_attribute
#if __has_attribute(retain)
#undef TWIMBOR_KEPT
#define TWIMBOR_KEPT __attribute__((used, retain))
#endif
#endif

#ifdef __cplusplus
extern "C" {
#endif

/* The archive of the same version has a function of this name, and no other archive has it. So a program with a header of one version and
 * an archive of another does not link, and the name that the linker finds missing says why. It answers TWIMBOR_VERSION_NUMBER. */
#define TWIMBOR_NEEDED TWIMBOR_NEEDED_BY(TWIMBOR_VERSION_MAJOR, TWIMBOR_VERSION_MINOR, TWIMBOR_VERSION_PATCH)
#define TWIMBOR_NEEDED_BY(major, minor, patch) TWIMBOR_NEEDED_NAME(major, minor, patch)
#define TWIMBOR_NEEDED_NAME(a, b, c) twimbor_header_##a##_##b##_##c##_needs_archive_##a##_##b##_##c
uint32_t TWIMBOR_NEEDED(void);

/* What refers to it: a pointer that stays in every program, also where unused data is left out (`retain`, --gc-sections). */
TWIMBOR_KEPT static uint32_t (*const twimbor_archive_version)(void) = TWIMBOR_NEEDED;

enum {
    TWIMBOR_TOO_SHORT = 1,          /* fewer than 12 bytes */
    TWIMBOR_WRONG_VERSION = 2,      /* version not 2 */
    TWIMBOR_HEADER_PAST_END = 3,    /* CSRC list or extension runs past the end */
    TWIMBOR_BAD_PADDING = 4,        /* pad count 0 or above the bytes after the header */
    TWIMBOR_OTHER_PAYLOAD_TYPE = 5, /* not the table's payload type, or neither of its two */
    TWIMBOR_OTHER_SSRC = 6,         /* not the table's SSRC */
    TWIMBOR_NOT_ONE_REPORT = 7,     /* payload not 4 bytes, and not packed */
    TWIMBOR_CODE_NOT_IN_SET = 8,    /* code not in the set */
    TWIMBOR_NO_DURATION = 9,        /* duration 0 */
    TWIMBOR_OFFSET_TOO_LARGE = 10,  /* offset 2^31 or more */
    TWIMBOR_TABLE_FULL = 11,        /* 128 segments held, and this pair is none of them */
    TWIMBOR_OUT_OF_RANGE = 12,      /* a number outside its range, a code outside the set, or an empty set */
    TWIMBOR_NO_SUCH_NUMBER = 13,    /* report or event number 0 or above the count */
    TWIMBOR_OUTPUT_TOO_SMALL = 14,  /* output has fewer bytes than the packet, or the text */
    TWIMBOR_LIST_TOO_SMALL = 15,    /* lent list has fewer records than there are events, or entries than blocks of the event's type */
    TWIMBOR_INVALID_TABLE = 16,     /* table fails a test */
    TWIMBOR_PACKED = 17,            /* payload of 8, 12 or more bytes in whole fours: several reports */
    TWIMBOR_HEADERS_RUN_OUT = 18,   /* a redundant packet's block headers run past the payload's end */
    TWIMBOR_BLOCKS_TOO_LONG = 19,   /* its block lengths come to more than its data */
    TWIMBOR_NO_CODES = 20           /* a text that is no list of codes; or an empty set that is written or asked its lowest code */
};

/* A refusal in words, for people to read. Every number has some, 0 and those of no refusal too. */
static inline const char *twimbor_refusal_text(uint64_t number)
{
    switch (number) {
    case 0: return "nothing is refused";
    case TWIMBOR_TOO_SHORT: return "the packet has fewer than 12 bytes";
    case TWIMBOR_WRONG_VERSION: return "the packet's RTP version is not 2";
    case TWIMBOR_HEADER_PAST_END: return "the packet's CSRC list or extension runs past its end";
    case TWIMBOR_BAD_PADDING: return "the packet's pad count is 0 or above the bytes after its header";
    case TWIMBOR_OTHER_PAYLOAD_TYPE: return "the packet's payload type is not the table's";
    case TWIMBOR_OTHER_SSRC: return "the packet's SSRC is not the table's";
    case TWIMBOR_NOT_ONE_REPORT: return "the packet's payload is not 4 bytes, one report";
    case TWIMBOR_CODE_NOT_IN_SET: return "the report's event code is not in the set";
    case TWIMBOR_NO_DURATION: return "the report's duration is 0";
    case TWIMBOR_OFFSET_TOO_LARGE: return "the report's timestamp is 2^31 or more after the table's origin";
    case TWIMBOR_TABLE_FULL: return "the table holds 128 segments, and the report's is none of them";
    case TWIMBOR_OUT_OF_RANGE: return "a number given is outside its range, a code outside the set, or the set is empty";
    case TWIMBOR_NO_SUCH_NUMBER: return "the report or event number is 0 or above the count";
    case TWIMBOR_OUTPUT_TOO_SMALL: return "the output has fewer bytes than the packet or the text";
    case TWIMBOR_LIST_TOO_SMALL: return "the lent list has fewer records than there are events, or entries than blocks";
    case TWIMBOR_INVALID_TABLE: return "the table has over 128 segments, segments out of order, or a number outside its range or the set";
    case TWIMBOR_PACKED: return "the packet's payload is several reports packed together";
    case TWIMBOR_HEADERS_RUN_OUT: return "the redundant packet's block headers run past its end";
    case TWIMBOR_BLOCKS_TOO_LONG: return "the redundant packet's block lengths come to more than its data";
    case TWIMBOR_NO_CODES: return "the text is no list of event codes, or the set has none";
    default: return "a refusal that this version does not know";
    }
}

/* The key that a code stands for, '?' if it is none. */
static inline char twimbor_key_character(uint32_t code)
{
    return code < 16 ? "0123456789*#ABCD"[code] : '?';
}

/* A set of event codes, 0 to 255, as two ends of a call agree on it (RFC 4733, 2.4): a bit for each, from the lowest bit of `from_0`,
 * which is code 0, to the highest of `from_192`, which is code 255. All calls that read, write, plan or open take one. */
typedef struct {
    uint64_t from_0;
    uint64_t from_64;
    uint64_t from_128;
    uint64_t from_192;
} twimbor_codes;

/* The codes 0 to 15: digits 0 to 9, * and #, A to D. What is static in C is initialised with TWIMBOR_KEYS_INIT, since a constant's name is
 * no constant there; C++ takes TWIMBOR_KEYS too, also in a constexpr. */
#define TWIMBOR_KEYS_INIT {0xffff, 0, 0, 0}
#if defined(__cplusplus) && __cplusplus >= 201103L
static constexpr twimbor_codes TWIMBOR_KEYS = TWIMBOR_KEYS_INIT;
#else
static const twimbor_codes TWIMBOR_KEYS = TWIMBOR_KEYS_INIT;
#endif

typedef struct {
    twimbor_codes codes;
    uint8_t refusal;
} twimbor_codes_result;

typedef struct {
    size_t bytes;
    uint8_t refusal;
} twimbor_text_result;

typedef struct {
    uint32_t code;
    uint8_t refusal;
} twimbor_lowest_result;

/* Reads the list of codes that stands in a session description after `a=fmtp:` and the payload type, such as 0-15,66,70. It is one or
 * more items with commas between them: a number up to 255 without leading zeros, or two of them with a dash between, the first below
 * the second. Items may repeat, overlap and come in any order; nothing else may stand in the text, no space and no newline.
 *
 * Refused: 20 for any other text. The set is then empty. */
TWIMBOR_MUST_CHECK twimbor_codes_result twimbor_read_codes(const char *text, size_t bytes);

/* Writes a set's list of codes at the start of the output, and answers how many bytes it has, at most TWIMBOR_CODES_BYTES; the bytes
 * after them stay, and no 0 is put behind them. Each set has one text: rising, in the longest ranges. twimbor_read_codes gives the set
 * back.
 *
 * Refused, in this order: 20 if the set is empty; 14 if the output has fewer bytes than the text. All of the output then stays, and 0
 * bytes are answered. */
TWIMBOR_MUST_CHECK twimbor_text_result twimbor_write_codes(twimbor_codes codes, char *output, size_t bytes);

/* Whether a code is in the set; none above 255 is. */
TWIMBOR_MUST_CHECK bool twimbor_codes_contain(twimbor_codes codes, uint32_t code);

/* How many codes the set has. */
TWIMBOR_MUST_CHECK uint32_t twimbor_codes_count(twimbor_codes codes);

/* The lowest code of the set. Refused: 20 if it is empty, and the code is then 0. */
TWIMBOR_MUST_CHECK twimbor_lowest_result twimbor_codes_lowest(twimbor_codes codes);

/* One report on the wire. */
typedef struct {
    bool marker;
    uint32_t payload_type;          /* 0 to 127 */
    uint16_t sequence;
    uint32_t timestamp;
    uint32_t ssrc;
    uint32_t code;                  /* one of the set */
    bool ended;
    uint32_t volume;                /* 0 to 63; a larger number is less loud */
    uint32_t duration;              /* 1 to 65535 timestamp units */
} twimbor_report;

/* An older report that a redundant packet repeats. A block has no marker, sequence number or SSRC of its own. */
typedef struct {
    uint32_t timestamp;             /* at most 16383 before the report's, modulo 2^32 */
    uint32_t code;                  /* one of the set */
    bool ended;
    uint32_t volume;                /* 0 to 63 */
    uint32_t duration;              /* 1 to 65535 timestamp units */
} twimbor_older_report;

/* What a sender plans for one event. */
typedef struct {
    uint32_t payload_type;          /* 0 to 127 */
    uint32_t ssrc;
    uint16_t sequence;              /* the first sequence number */
    uint32_t start;                 /* the first timestamp */
    uint32_t code;                  /* one of the set */
    uint32_t volume;                /* 0 to 63 */
    uint32_t length;                /* 1 timestamp unit to 16 segment sizes */
    uint32_t period;                /* 1 to 65535 timestamp units between reports */
    uint32_t segment_size;          /* 1 to 65535 timestamp units; at most 16383 for redundant packets (RFC 4733, 2.5.1.3.1) */
} twimbor_plan;

typedef struct {
    twimbor_report report;
    uint8_t refusal;
} twimbor_read_result;

typedef struct {
    uint32_t reports;
    uint8_t refusal;
} twimbor_count_result;

/* Reads a packet: the one report that it carries, of a code in the set. CSRC list, extension and padding are passed over.
 *
 * Refused, in this order: 1 with fewer than 12 bytes; 2 if the version is not 2; 3 if the CSRC list or the extension runs past
 * the end; 4 if P is set and the pad count is 0 or above the bytes after header, CSRC list and extension; 17 if the payload has
 * 8, 12 or more bytes in whole fours, which are several reports; 7 if it has any other length but 4; 8 if the code is not in
 * the set; 9 if the duration is 0. The report is then all zeros. */
TWIMBOR_MUST_CHECK twimbor_read_result twimbor_read(twimbor_codes codes, const uint8_t *packet, size_t bytes);

/* Writes the 16 bytes of a report's packet at the start of the output; the bytes after them stay. No CSRC list, extension or
 * padding is written. With the same set twimbor_read gives the report back.
 *
 * Answers 0, or refuses, in this order: 12 if the payload type is above 127, the code not in the set, which none is in an empty
 * one, the volume above 63, or the duration 0 or above 65535; 14 if the output has fewer than 16 bytes. All of the output then stays. */
TWIMBOR_MUST_CHECK uint8_t twimbor_write(twimbor_codes codes, twimbor_report report, uint8_t *output, size_t bytes);

/* Writes a redundant packet (RFC 2198) at the start of the output: `count` older reports, 0, 1 or 2 of them, stand before the report in
 * the order given, which is `first`, then `second`; what the count does not count is ignored. Its payload type is `redundant_type`, all
 * blocks are of the report's payload type, and the marker is the report's. It has 17, 25 or 33 bytes; the bytes after them stay.
 *
 * Answers 0, or refuses, in this order: 12 if a number of the report is out of its range, as for twimbor_write, or one of an older
 * report that counts; if the redundant type is above 127 or equal to the report's; if the count is above 2; or if an older report's
 * timestamp is more than 16383 before the report's, modulo 2^32; 14 if the output has fewer bytes than the packet. All of the output
 * then stays. */
TWIMBOR_MUST_CHECK uint8_t twimbor_write_redundant(twimbor_codes codes, twimbor_report report, uint32_t redundant_type,
                                                   uint32_t count,
                                                   twimbor_older_report first, twimbor_older_report second,
                                                   uint8_t *output, size_t bytes);

/* Where a walk over the blocks of a redundant packet stands. Whoever holds it may copy it, to go on from there again. */
typedef struct {
    size_t header;                  /* the place of the next block's header */
    size_t body;                    /* the place of its data */
    size_t end;                     /* where the payload ends */
} twimbor_cursor;

typedef struct {
    twimbor_cursor cursor;
    uint8_t refusal;
} twimbor_walk_started;

typedef struct {
    twimbor_cursor after;           /* where to go on: behind the last block all three at the payload's end; as it was if there is none */
    size_t start;                   /* the block's data are the packet's bytes from here */
    size_t end;                     /* up to here */
    uint16_t offset;                /* how much earlier than the packet's timestamp its own is; 0 for the primary */
    uint8_t payload_type;           /* 0 to 127 */
    bool primary;                   /* it is the last block, the only one that can count as marked */
    bool found;                     /* false if there are no more blocks; all others but `after` are then zeros */
} twimbor_block_step_result;

/* The same step in fewer numbers, from the three of a cursor. The data start at the cursor's body: an older block's are `length` bytes, and
 * the primary's go to the payload's end. After the block the cursor's header is `next`, and its body where the data end. */
typedef struct {
    size_t next;                    /* the place of the next header; as it was if there is no block */
    uint16_t length;                /* at most 1023; 0 for the primary */
    uint16_t offset;
    uint8_t payload_type;
    bool primary;
    bool found;                     /* false if there are no more blocks; all others but `next` are then zeros */
} twimbor_header_step_result;

/* The archive's three calls of the walker. The functions after them do the same with a twimbor_walker, and say what each does. A cursor of
 * any numbers is answered: where they are no walk's, by no block or by some part of the packet. The last call is for a walker's next block:
 * its numbers and its answer are handed over in registers. */
TWIMBOR_MUST_CHECK twimbor_walk_started twimbor_walk_start(const uint8_t *packet, size_t bytes);
TWIMBOR_MUST_CHECK twimbor_block_step_result twimbor_block_step(const uint8_t *packet, size_t bytes, twimbor_cursor cursor);
TWIMBOR_MUST_CHECK twimbor_header_step_result twimbor_header_step(const uint8_t *packet, size_t bytes, size_t header, size_t body, size_t end);

/* A walker over the blocks of a packet, which it does not copy: the packet must stay as it is while it is walked. */
typedef struct {
    const uint8_t *packet;
    size_t bytes;
    twimbor_cursor cursor;
} twimbor_walker;

/* A block: a part of the packet, with its payload type and its offset. */
typedef struct {
    const uint8_t *data;
    size_t bytes;
    uint8_t payload_type;           /* 0 to 127 */
    uint16_t offset;                /* its timestamp is (the packet's - offset) modulo 2^32 */
    bool primary;                   /* the last block: its offset is 0 */
} twimbor_block;

/* Starts a walk over the blocks of a redundant packet (RFC 2198). Its payload type is not looked at: that it is redundant is for the
 * caller to know.
 *
 * Answers 0, or refuses, in this order: 1 to 4 as twimbor_read; 18 if the block headers run past the payload's end; 19 if the block
 * lengths come to more than the data. The walker then has no block. */
TWIMBOR_MUST_CHECK static inline uint8_t twimbor_walk(twimbor_walker *walker, const uint8_t *packet, size_t bytes)
{
    twimbor_walk_started started = twimbor_walk_start(packet, bytes);
    walker->packet = packet;
    walker->bytes = bytes;
    walker->cursor = started.cursor;
    return started.refusal;
}

/* Hands out the next block, in packet order, and answers true; or answers false if there are no more, and the block stays as it is. */
TWIMBOR_MUST_CHECK static inline bool twimbor_next_block(twimbor_walker *walker, twimbor_block *block)
{
    const size_t body = walker->cursor.body, end = walker->cursor.end;
    const twimbor_header_step_result step = twimbor_header_step(walker->packet, walker->bytes, walker->cursor.header, body, end);
    if (!step.found)
        return false;
    block->data = walker->packet + body;
    block->bytes = step.primary ? end - body : step.length;
    block->payload_type = step.payload_type;
    block->offset = step.offset;
    block->primary = step.primary;
    walker->cursor.header = step.next;
    walker->cursor.body = body + block->bytes;
    return true;
}

/* How many reports a plan has. An event is cut into segments of the segment size, the last holding the rest; a segment of L units
 * is reported at each multiple of the period below L, and at L three times.
 *
 * Refused: 12 if the payload type is above 127, the code not in the set, the volume above 63, the segment size 0 or above 65535, the
 * length 0 or above 16 segment sizes, or the period 0 or above 65535. The number of reports is then 0. */
TWIMBOR_MUST_CHECK twimbor_count_result twimbor_report_count(twimbor_codes codes, twimbor_plan plan);

/* Writes the 16 bytes of report k of a plan, counted from 1, at the start of the output; the bytes after them stay. The first
 * report carries the marker, and on the last segment the second and third report of its full length carry E.
 *
 * Answers 0, or refuses, in this order: 12 if a number of the plan is out of its range, as for twimbor_report_count; 13 if k is
 * 0 or above the number of reports; 14 if the output has fewer than 16 bytes. All of the output then stays. */
TWIMBOR_MUST_CHECK uint8_t twimbor_write_report(twimbor_codes codes, twimbor_plan plan, uint32_t k, uint8_t *output, size_t bytes);

/* What a table was opened with, and how many segments it holds. */
typedef struct {
    uint8_t payload_type;           /* the event's, 0 to 127 */
    uint8_t both_types;             /* 0 if opened for one payload type; else, as 1, for redundant packets too */
    uint8_t redundant_type;         /* then their payload type, 0 to 127 and another than the event's; else nothing looks at it */
    uint32_t ssrc;
    uint32_t origin;                /* the timestamp that offsets are counted from */
    twimbor_codes codes;            /* the codes that are taken */
    size_t count;                   /* at most TWIMBOR_PLACES */
} twimbor_head;

/* The receiving table. The first `count` places of its two columns hold segments, by offset, then code; what stands in the
 * others plays no part. A segment is kept in two numbers, its key and what was heard of it:
 *
 *      63                          8 7        0       31        24 23      18 17 16 15             0
 *     +-----------------------------+----------+     +------------+----------+--+--+----------------+
 *     |           offset            |   code   |     |   volume   | quietest |M |E |    duration    |
 *     +-----------------------------+----------+     +------------+----------+--+--+----------------+
 *
 * A table may be stored field by field, or whole for the same header on the same kind of machine; twimbor_is_valid tests one that
 * was read back. What stands between its fields may be anything, so tables are not to be compared or hashed as bytes (memcmp). */
typedef struct {
    twimbor_head head;
    uint64_t keys[TWIMBOR_PLACES];
    uint32_t heard[TWIMBOR_PLACES];
} twimbor_table;

/* A segment: what was heard of one offset and code. */
typedef struct {
    uint32_t offset;                /* (timestamp - origin) modulo 2^32; below 2^31 */
    uint8_t code;                   /* one of the table's set */
    uint16_t duration;              /* the largest heard; 1 to 65535 timestamp units */
    uint8_t volume;                 /* the smallest number heard, the loudest; 0 to 63 */
    uint8_t quietest;               /* the largest number heard; from `volume` to 63 */
    bool ended;                     /* E was heard */
    bool marked;                    /* M was heard */
} twimbor_segment;

/* A segment as a table keeps it, one number from each column. */
typedef struct {
    uint64_t key;
    uint32_t heard;
} twimbor_segment_numbers;

typedef struct {
    uint64_t refusal;
    bool is_new;                    /* taken, and its segment is new */
    size_t count;                   /* the segments held after the call; under a refusal, as many as before */
    size_t probes;                  /* the segments looked at to find the report's pair: at most 8; 0 if refused before that */
} twimbor_received;

typedef struct {
    uint8_t refusal;                /* 0, or 16 */
    size_t count;                   /* the segments held after the call; under 16, as many as before */
    size_t used;                    /* the bytes of the whole frames; what comes after them is left */
    size_t taken;                   /* the packets taken, their segments new or known */
    size_t refused;                 /* the packets refused; with those taken, as many as there are whole frames */
    size_t packed;                  /* those of them that were refused with 17 */
} twimbor_captured;

typedef struct {
    size_t blocks;                  /* the entries written, one for each block of the event's type; 0 if refused whole */
    size_t count;                   /* the segments held after the call; if refused whole, as many as before */
    uint8_t refusal;                /* 0, or the number with which the packet is refused whole */
} twimbor_blocks_received;

/* One event of the list. */
typedef struct {
    uint8_t code;                   /* the key */
    uint32_t start;                 /* an offset */
    uint32_t length;                /* the sum of its segments' durations, in timestamp units */
    uint8_t volume;                 /* the smallest number of its segments, the loudest */
    uint8_t quietest;               /* the largest number of its segments */
    bool began;                     /* its first segment was marked */
    bool ended;                     /* its last segment has E */
} twimbor_event;

typedef struct {
    twimbor_event event;
    uint8_t refusal;
} twimbor_event_result;

typedef struct {
    uint8_t refusal;
    size_t events;
} twimbor_listed;

typedef struct {
    twimbor_table table;
    uint8_t refusal;
} twimbor_opened;

/* The archive's calls take the head by value and the columns as pointers to TWIMBOR_PLACES numbers each, wherever these are
 * kept. The functions after them do the same with a twimbor_table, and say what each call does. */
TWIMBOR_MUST_CHECK twimbor_opened twimbor_open_table(twimbor_codes codes, uint32_t payload_type, uint32_t ssrc, uint32_t origin);
TWIMBOR_MUST_CHECK twimbor_opened twimbor_open_redundant_table(twimbor_codes codes, uint32_t payload_type, uint32_t redundant_type,
                                                               uint32_t ssrc, uint32_t origin);
TWIMBOR_MUST_CHECK bool twimbor_is_valid_columns(twimbor_head head, const uint64_t *keys, const uint32_t *heard);
TWIMBOR_MUST_CHECK twimbor_received twimbor_receive_columns(twimbor_head head, uint64_t *keys, uint32_t *heard,
                                                            const uint8_t *packet, size_t bytes);
TWIMBOR_MUST_CHECK twimbor_captured twimbor_receive_capture_columns(twimbor_head head, uint64_t *keys, uint32_t *heard,
                                                                    const uint8_t *frames, size_t bytes);
TWIMBOR_MUST_CHECK twimbor_blocks_received twimbor_receive_redundant_columns(twimbor_head head, uint64_t *keys, uint32_t *heard,
                                                                             const uint8_t *packet, size_t bytes,
                                                                             uint32_t *entries, size_t room);
TWIMBOR_MUST_CHECK twimbor_event_result twimbor_event_at_columns(twimbor_head head, const uint64_t *keys, const uint32_t *heard,
                                                                 uint32_t k);
TWIMBOR_MUST_CHECK twimbor_listed twimbor_list_columns(twimbor_head head, const uint64_t *keys, const uint32_t *heard,
                                                       twimbor_event *list, size_t records);

/* Opens an empty table for the packets of one payload type and SSRC and for the codes of a set, with zeros in all places.
 *
 * A report's offset is (its timestamp - `origin`) modulo 2^32, and one of 2^31 or more is refused with 10. So the origin is a timestamp
 * that no report to be taken is earlier than, by however little: that of the stream's first packet, audio or event, or of the call's
 * start. If the first packet to arrive may not be the first sent, take it some seconds earlier, modulo 2^32. From there the table takes
 * 2^31 units, which are three days at 8000 a second.
 *
 * Answers 0, or refuses: 12 if the set is empty or the payload type above 127, and the table is then all zeros. */
TWIMBOR_MUST_CHECK static inline uint8_t twimbor_open(twimbor_table *table, twimbor_codes codes, uint32_t payload_type, uint32_t ssrc,
                                                      uint32_t origin)
{
    twimbor_opened opened = twimbor_open_table(codes, payload_type, ssrc, origin);
    *table = opened.table;
    return opened.refusal;
}

/* Opens an empty table for the packets of one SSRC that are of the event's payload type or redundant, with zeros in all places. The origin
 * is chosen as for twimbor_open; the blocks of a packet are up to 16383 units earlier than the packet.
 *
 * Answers 0, or refuses: 12 if the set is empty, one of the payload types above 127, or they are equal, and the table is then all zeros,
 * as one that was opened for one payload type. */
TWIMBOR_MUST_CHECK static inline uint8_t twimbor_open_redundant(twimbor_table *table, twimbor_codes codes, uint32_t payload_type,
                                                                uint32_t redundant_type, uint32_t ssrc, uint32_t origin)
{
    twimbor_opened opened = twimbor_open_redundant_table(codes, payload_type, redundant_type, ssrc, origin);
    *table = opened.table;
    return opened.refusal;
}

/* Whether a table passes the tests of refusal 16: at most 128 segments held; these strictly rising by offset, then code; offsets
 * below 2^31; codes of the table's set, which may be empty if nothing is held; durations 1 to 65535; volumes 0 to 63, the quietest not
 * below the loudest; a payload type up to 127; and in a table opened for both types the other one up to 127 too, and another. A table
 * that was opened always does, whatever it received. */
TWIMBOR_MUST_CHECK static inline bool twimbor_is_valid(const twimbor_table *table)
{
    return twimbor_is_valid_columns(table->head, table->keys, table->heard);
}

/* Receives a packet, and takes its report into the table: the pair of offset and code keeps the largest duration, the smallest
 * and the largest volume number, whether E and whether M was heard. The sequence number plays no part. `is_new` tells whether the pair
 * was not held before. A new segment moves those after it up by one place; the places above them stay.
 *
 * The pair is looked up by halving: of the range of segments held, at first all of them, the middle one is looked at, rounded
 * down; what is right of it is kept if it is smaller than the pair, else what is left of it, until nothing is left. `probes`
 * tells how many were looked at, never more than 8. It is given for a report taken and under 11, which is found out by the
 * search; under every other refusal nothing was looked up, and it is 0.
 *
 * Refused, in this order: 16 if the table fails its tests; 1 to 4 as by twimbor_read; 5 if it is another payload type than the
 * table's; 6 if it is another SSRC; 17, 7, 8 and 9 as by twimbor_read with the table's set; 10 if the offset is 2^31 or more; 11 if
 * 128 segments are held and this pair is none of them. The table then is as it was, in every place. */
TWIMBOR_MUST_CHECK static inline twimbor_received twimbor_receive(twimbor_table *table, const uint8_t *packet, size_t bytes)
{
    twimbor_received received = twimbor_receive_columns(table->head, table->keys, table->heard, packet, bytes);
    table->head.count = received.count;
    return received;
}

/* Receives a packet that may be redundant (RFC 2198), into a table of either opening. Each of its blocks of the event's type, in packet
 * order, is received at its own timestamp, (the packet's - its offset) modulo 2^32, on the table that the block before it left; a packet
 * of the event's type itself is one block. Only the last block, the primary, can count as marked. Blocks of other types are passed over.
 *
 * What is answered to a block stands in its entry: entries 0 to `blocks` - 1 are written, the others stay. twimbor_entry_refusal,
 * twimbor_entry_is_new and twimbor_entry_probes read it. A block is taken, or refused with 17, 7, 8, 9, 10 or 11 as by twimbor_receive;
 * that changes its entry only, and the blocks after it are received all the same.
 *
 * The packet is refused whole, in this order: 16 if the table fails its tests; 1 to 4 as by twimbor_read; 5 if its payload type is
 * neither the event's nor, in a table opened for both, that of redundant packets; 6 if it is another SSRC; 18 if its block headers run
 * past the payload's end; 19 if its block lengths come to more than its data; 15 if there are fewer entries than blocks of the event's
 * type. Table and entries are then as they were. A packet has fewer blocks than a quarter of its bytes: for packets of up to 1500 bytes
 * TWIMBOR_ENTRIES_OF_1500 entries are always enough. */
#define TWIMBOR_ENTRIES_OF_1500 372
TWIMBOR_MUST_CHECK static inline twimbor_blocks_received twimbor_receive_redundant(twimbor_table *table, const uint8_t *packet,
                                                                                   size_t bytes, uint32_t *entries, size_t room)
{
    twimbor_blocks_received received =
        twimbor_receive_redundant_columns(table->head, table->keys, table->heard, packet, bytes, entries, room);
    table->head.count = received.count;
    return received;
}

/* What an entry says of its block: the refusal's number, 0 if it was taken; whether its segment is new; and how many segments were
 * looked at to find it. The number itself is refusal + 256 if new + 65536 * probes. */
static inline uint8_t twimbor_entry_refusal(uint32_t entry)
{
    return entry & 0xff;
}

static inline bool twimbor_entry_is_new(uint32_t entry)
{
    return entry >> 8 & 1;
}

static inline uint32_t twimbor_entry_probes(uint32_t entry)
{
    return entry >> 16;
}

/* Receives a whole capture: a buffer of RFC 4571 frames, each a packet's length in two bytes, the high one first, then the packet.
 * The packets of the whole frames are received one after another, as by twimbor_receive, and `taken`, `refused` and `packed` count
 * what it answers to them. A frame of length 0 is one with an empty packet, which is refused. A last frame that the buffer's end cuts
 * short, be it in its length, is left, and is no refusal; `used` tells where it begins. So a capture can be handed over in pieces:
 * the bytes from `used` on are put before the next piece. A frame has at most 65537 bytes, so fewer are ever left.
 *
 * Refused: 16 if the table fails its tests, and then the table is as it was, in every place, and nothing is used or counted. The
 * table is tested once, not for each packet. */
TWIMBOR_MUST_CHECK static inline twimbor_captured twimbor_receive_capture(twimbor_table *table, const uint8_t *frames, size_t bytes)
{
    twimbor_captured captured = twimbor_receive_capture_columns(table->head, table->keys, table->heard, frames, bytes);
    table->head.count = captured.count;
    return captured;
}

/* The event at number k, counted from 1 by start, then code. A key held for longer than its sender's segments is one event of
 * several segments: one with no M continues the nearest earlier one of its code if that one has no E and ends where it starts.
 *
 * Refused, in this order: 16 if the table fails its tests; 13 if k is 0 or above the number of events. The event is then all
 * zeros. */
TWIMBOR_MUST_CHECK static inline twimbor_event_result twimbor_event_at(const twimbor_table *table, uint32_t k)
{
    return twimbor_event_at_columns(table->head, table->keys, table->heard, k);
}

/* Writes all events, by start, then code, into the first records of a lent list, and answers how many there are; the other
 * records stay. A list of TWIMBOR_PLACES records is always long enough.
 *
 * Refused, in this order: 16 if the table fails its tests; 15 if the list has fewer records than there are events. The number
 * of events is then 0, and all records stay. */
TWIMBOR_MUST_CHECK static inline twimbor_listed twimbor_list(const twimbor_table *table, twimbor_event *list, size_t records)
{
    return twimbor_list_columns(table->head, table->keys, table->heard, list, records);
}

/* The segment that a table keeps in these two numbers. Every number is answered; an offset too large for its field, which no table that
 * passes the tests has, reads as the largest number of the field, which is outside the range too. */
twimbor_segment twimbor_segment_of_numbers(uint64_t key, uint32_t heard);

/* The two numbers in which a table keeps a segment. A quietest above 63 has no room: the volume is then put as 255, which is outside the
 * range too, and of the quietest the lower 6 bits. */
twimbor_segment_numbers twimbor_numbers_of_segment(twimbor_segment segment);

/* The segment at place i, counted from 0, of a table that passes the tests; all zeros if the table holds none there. In a table that fails
 * them it is what twimbor_segment_of_numbers says. */
static inline twimbor_segment twimbor_segment_at(const twimbor_table *table, size_t i)
{
    twimbor_segment none = {0, 0, 0, 0, 0, false, false};
    return i < table->head.count && i < TWIMBOR_PLACES ? twimbor_segment_of_numbers(table->keys[i], table->heard[i]) : none;
}

/* Puts a segment at place i, counted from 0, as twimbor_numbers_of_segment has it; nothing changes if i is above 127. A table of given
 * segments is opened, gets them in their order, and then their number in `head.count`. Whether it passes the tests, twimbor_is_valid
 * tells. */
static inline void twimbor_set_segment(twimbor_table *table, size_t i, twimbor_segment segment)
{
    if (i < TWIMBOR_PLACES) {
        twimbor_segment_numbers numbers = twimbor_numbers_of_segment(segment);
        table->keys[i] = numbers.key;
        table->heard[i] = numbers.heard;
    }
}

#ifdef __cplusplus
}
#endif

#endif
