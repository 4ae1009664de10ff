/* The calls of tigercanon for C and C++.
 *
 * A set is an array of parts, each an address and a length: a county's files, in any order, or one part with all of its records. Each
 * call returns a status, the same as the program's (below), and reports a fault in a struct of numbers. No call reads a file, prints or
 * keeps anything: its result depends only on the bytes of the parts, and on whether there was enough memory.
 *
 * The caller must ensure the following, since C can't check it:
 *
 *   - parts and each part's bytes are addresses that aren't null, even if the count or the length is 0, and have as many parts or
 *     bytes as count or length says. TIGERCANON_EMPTY is such an address.
 *   - Nothing writes to the parts during a call. Any number of calls may read them, also at once.
 *   - What a call writes to (text, hash, fault) isn't null, overlaps neither the parts nor the others, and isn't read or written by
 *     another thread during the call. Before the call, a text is TIGERCANON_NO_TEXT, or a call returned it and it was then freed.
 *   - A flag (no_sources, no_reserved) is the byte 0 or 1, as C's bool always is. Take care of this in other languages.
 *   - malloc, realloc and free are of one allocator, and blocks are aligned as C requires. The calls take their memory
 *     from these, and get no allocator.
 *   - No call is made from a signal handler, nor in the forked child of a process that has other threads.
 *   - The calling thread has 256 KiB of stack left. Calls were measured to use 178 KiB at most, however large the county is.
 *
 * Otherwise any thread can make calls, also at the same time.
 */
#ifndef TIGERCANON_H
#define TIGERCANON_H

#include <stdbool.h>
#include <stddef.h>
#include <stdint.h>
#include <stdio.h>
#include <stdlib.h>

#ifdef __cplusplus
extern "C" {
#endif

/* The name of the form of the canonical texts. Cite it with a fingerprint. */
#define TIGERCANON_FORM "tigercanon form 1"

/* The version of this header and of the library that comes with it. */
#define TIGERCANON_VERSION "0.1.0"

/* An address for what has no bytes. */
#define TIGERCANON_EMPTY ((const uint8_t *)"")

/* What a text holds before a call. */
#define TIGERCANON_NO_TEXT {TIGERCANON_EMPTY, 0}

/* A part of a set: 16 bytes, the address and then the length. An array of them has no gaps. */
struct tigercanon_part {
    const uint8_t *bytes;
    size_t length;
};

/* A text that a call returns: a block that belongs to the caller; tigercanon_free frees it. It doesn't end with a 0. A text without
 * bytes isn't a block. The struct has 16 bytes, the address and then the length. */
struct tigercanon_text {
    const uint8_t *bytes;
    size_t length;
};

/* A fingerprint: the SHA-256 hash of a canonical text, 32 bytes. */
struct tigercanon_hash {
    uint8_t bytes[32];
};

/* Why there is no answer. A member that a fault doesn't use is 0. The struct has 32 bytes and no gaps: first is at byte 8, second at 16
 * and third at 24. Each call writes the whole struct, which may hold anything before. */
struct tigercanon_fault {
    /* The number of the refusal (enum tigercanon_number), 0 if there is an answer. */
    uint8_t number;
    /* For tigercanon_compare: which set is at fault, 1 or 2. */
    uint8_t set;
    /* The record type, as its character. */
    uint8_t record_type;
    /* The bytes of the CENID. */
    uint8_t cenid[5];
    /* The numbers among the places, in the order of enum tigercanon_number. Parts, lines and columns count from 1. */
    uint64_t first;
    uint64_t second;
    uint64_t third;
};

/* What a call returns. */
enum tigercanon_status {
    TIGERCANON_DONE = 0,      /* there is an answer; by tigercanon_compare: the sets describe the same map */
    TIGERCANON_DIFFERENT = 1, /* by tigercanon_compare: the sets describe different maps */
    TIGERCANON_REFUSED = 3,   /* the set is refused */
    TIGERCANON_MEMORY = 5     /* there wasn't enough memory */
};

/* The refusals, with their places. docs/refusals.md describes each, with an example. */
enum tigercanon_number {
    TIGERCANON_UNKNOWN_TYPE = 1,          /* part, line */
    TIGERCANON_LINE_TOO_LONG = 2,         /* part, line */
    TIGERCANON_BAD_BYTE = 3,              /* part, line, column */
    TIGERCANON_BAD_NUMBER = 4,            /* part, line, column */
    TIGERCANON_BAD_POINT = 5,             /* part, line, column */
    TIGERCANON_GAP_IN_RECORD = 6,         /* part, line, column */
    TIGERCANON_TOO_MANY_RECORDS = 7,      /* record type */
    TIGERCANON_OUT_OF_MEMORY = 9,
    TIGERCANON_CHAIN_TWICE = 11,          /* TLID */
    TIGERCANON_NO_CHAIN = 12,             /* record type, TLID */
    TIGERCANON_SEQUENCE_BROKEN = 13,      /* record type, TLID */
    TIGERCANON_LINK_MISSING = 14,         /* TLID */
    TIGERCANON_LINK_TWICE = 15,           /* TLID */
    TIGERCANON_NAME_TWICE = 16,           /* FEAT */
    TIGERCANON_NAME_UNKNOWN = 17,         /* TLID, FEAT */
    TIGERCANON_POLYGON_TWICE = 18,        /* CENID, POLYID */
    TIGERCANON_LAND_UNKNOWN = 19,         /* LAND */
    TIGERCANON_POLYGON_UNKNOWN = 20,      /* CENID, POLYID */
    TIGERCANON_POLYGON_WITHOUT_CHAIN = 23, /* CENID, POLYID */
    TIGERCANON_TOO_SYMMETRIC = 24
};

/* Returns TIGERCANON_DONE if the parts are accepted: each line is a record, the records fit together as a county, each polygon of
 * record type P is on a side of a chain, and the points of chains leave few enough choices open. */
uint8_t tigercanon_check(const struct tigercanon_part *parts, size_t count, struct tigercanon_fault *fault);

/* Makes a text of the records of the parts in canonical spelling, in the order of their lines, each line ending with LF. It reports
 * only the refusals 1 to 7 and 9. With any status other than TIGERCANON_DONE the text has no bytes. */
uint8_t tigercanon_respell(const struct tigercanon_part *parts, size_t count, struct tigercanon_text *text,
                           struct tigercanon_fault *fault);

/* Makes the canonical text of the map that the parts describe. no_sources leaves out where data came from (SOURCE of record types 1, 7
 * and I), and no_reserved the reserved fields. With any status other than TIGERCANON_DONE the text has no bytes. */
uint8_t tigercanon_normalise(const struct tigercanon_part *parts, size_t count, bool no_sources, bool no_reserved,
                             struct tigercanon_text *text, struct tigercanon_fault *fault);

/* Computes the fingerprint of the map that the parts describe: the hash of the text that tigercanon_normalise returns with the same
 * flags. With any status other than TIGERCANON_DONE the hash stays as it was. */
uint8_t tigercanon_fingerprint(const struct tigercanon_part *parts, size_t count, bool no_sources, bool no_reserved,
                               struct tigercanon_hash *hash, struct tigercanon_fault *fault);

/* Compares two sets: TIGERCANON_DONE if they describe the same map, TIGERCANON_DIFFERENT if they don't. The whole first set is judged
 * before the second. */
uint8_t tigercanon_compare(const struct tigercanon_part *first, size_t first_count, const struct tigercanon_part *second,
                           size_t second_count, bool no_sources, bool no_reserved, struct tigercanon_fault *fault);

/* Frees a text. Afterwards it has no bytes. */
static inline void tigercanon_free(struct tigercanon_text *text)
{
    if (text->length > 0) {
        free((void *)text->bytes);
    }
    text->bytes = TIGERCANON_EMPTY;
    text->length = 0;
}

/* The size of a buffer for the line of any fault. */
#define TIGERCANON_LINE 128

/* Writes the line with which the program reports a fault, without its line ending, and a 0. If there is no fault, the line is empty. */
static inline void tigercanon_line(const struct tigercanon_fault *fault, char line[TIGERCANON_LINE])
{
    static const char *const names[] = {"", "UnknownType", "LineTooLong", "BadByte", "BadNumber", "BadPoint", "GapInRecord",
        "TooManyRecords", "Device", "Memory", "WriteFault", "ChainTwice", "NoChain", "SequenceBroken", "LinkMissing", "LinkTwice",
        "NameTwice", "NameUnknown", "PolygonTwice", "LandUnknown", "PolygonUnknown", "", "",
        "PolygonWithoutChain", "TooSymmetric"};
    /* How many of first, second and third are places. */
    static const uint8_t places[] = {0, 2, 2, 3, 3, 3, 3, 0, 0, 0, 1, 1, 1, 1, 1, 1, 1, 2, 1, 1, 1, 0, 0, 1, 0};
    const uint64_t numbers[] = {fault->first, fault->second, fault->third};
    const uint8_t *cenid = fault->cenid;
    int i, end = 0;
    line[0] = 0;
    if (fault->number == 0 || fault->number >= sizeof places) {
        return;
    }
    end += snprintf(line, TIGERCANON_LINE, "refused %d %s", fault->number, names[fault->number]);
    if (fault->record_type != 0) {
        end += snprintf(line + end, (size_t)(TIGERCANON_LINE - end), " %c", fault->record_type);
    }
    if (cenid[0] != 0) {
        end += snprintf(line + end, (size_t)(TIGERCANON_LINE - end), " %02x%02x%02x%02x%02x", cenid[0], cenid[1], cenid[2], cenid[3],
                        cenid[4]);
    }
    for (i = 0; i < places[fault->number]; i++) {
        end += snprintf(line + end, (size_t)(TIGERCANON_LINE - end), " %llu", (unsigned long long)numbers[i]);
    }
    if (fault->set != 0) {
        snprintf(line + end, (size_t)(TIGERCANON_LINE - end), " in set %d", fault->set);
    }
}

#ifdef __cplusplus
}
#endif

#endif
