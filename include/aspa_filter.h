/*
 * ASPA route filter: the calls for C99 and C++. The library, libaspa_filter.a, is for x86-64 Linux.
 *
 * The caller lends tables of 32-bit words, in memory of its own:
 *   - the public register, of ASPA_REGISTER_WORDS words: provider records from up to eight sources;
 *   - the overrides, a second register of the same form: records of the operator's own, for customers whose public ones
 *     are wrong. Where they hold any record of a customer, of whichever source, only they count for that customer;
 *     where they hold none, only the public register does. An application without overrides lends a table of zeros;
 *   - the ledger, of ASPA_LEDGER_WORDS words: kept routes with their verdicts. Only aspa_keep, aspa_drop, aspa_rejudge,
 *     aspa_write and aspa_read need one.
 * A table of zeros is empty and well formed. The library allocates nothing, keeps nothing between calls, and calls
 * nothing but memset and memcpy. A table may be copied, stored and loaded word by word; aspa_write and aspa_read store
 * and load the public register and the ledger as one file that is the same on every machine.
 *
 * Every call but aspa_lookup returns ASPA_OK, which is 0, or the number of a refusal. A row is one line of the table of
 * refusals, ASPA_REFUSALS below: a number, a name and what it means. Each call tests the rows that concern its own
 * arguments and tables, in the order in which they are listed with it, and is refused by the first that is given; 12 to
 * 16 go by place. Row 1 is tested for all tables that the call is lent before row 2, and row 2 for both registers. A
 * refusal changes no table and no byte of an output. It does write the answer words `out` and `gap`, with words that no
 * answer has: ASPA_NO_VERDICT, ASPA_NO_HOP, ASPA_NOT_FILED, ASPA_NO_COUNT, ASPA_NO_BYTES.
 *
 * What every call asks of its pointers. The library cannot test these, and to break one is undefined behaviour:
 *   - a pointer that comes with a length (`.._len`, counted in elements) has that many elements that can be read, and
 *     written too if it is not const. With length 0 it may be null: nothing is read there;
 *   - `out` has the number of words that its declaration says, `gap` one, and neither is null;
 *   - each is aligned for its type, and what it reads from has been written before;
 *   - what a call may write (the tables and the output that are not const, `out`, `gap`) overlaps nothing else that is
 *     passed to the same call: not another table, not a provider list, an attribute or a file, not another answer. What
 *     is const may overlap: the two registers of aspa_judge, for one, may be the same memory;
 *   - no other thread writes what a call reads, or touches what it writes, until it returns. Calls on different tables
 *     may run at the same time, and so may calls that only read the same registers.
 * A wrong table length, a malformed table and every other value of an argument are no such break: they are refused, and
 * aspa_lookup finds nothing then.
 */
#ifndef ASPA_FILTER_H
#define ASPA_FILTER_H

#include <stddef.h>
#include <stdint.h>

#ifdef __cplusplus
extern "C" {
#endif

/*
 * The version of this header and of the library that is installed with it. Before 0.7.0 there were no overrides:
 * aspa_judge, aspa_keep and aspa_rejudge had two arguments less and an answer six words, so that a program has to be
 * compiled again.
 */
#define ASPA_FILTER_VERSION_MAJOR 0
#define ASPA_FILTER_VERSION_MINOR 7
#define ASPA_FILTER_VERSION_PATCH 0
#define ASPA_FILTER_VERSION "0.7.0"

/* gcc and clang warn about a call whose result is not used. */
#if defined(__GNUC__) || defined(__clang__)
#define ASPA_USE_RESULT __attribute__((warn_unused_result))
#else
#define ASPA_USE_RESULT
#endif

/*
 * What the tables hold at most: records and the provider numbers of all lists together, routes and the numbers of all
 * paths.
 */
#define ASPA_MOST_RECORDS 1024
#define ASPA_MOST_PROVIDER_WORDS 8192
#define ASPA_MOST_ROUTES 512
#define ASPA_MOST_PATH_WORDS 8192

/* The words of a table before its slots, of a record's slot and of a route's, and of each whole table. */
#define ASPA_COUNT_WORDS 2
#define ASPA_RECORD_WORDS 4
#define ASPA_ROUTE_WORDS 9
#define ASPA_REGISTER_WORDS (ASPA_COUNT_WORDS + ASPA_MOST_RECORDS * ASPA_RECORD_WORDS + ASPA_MOST_PROVIDER_WORDS)
#define ASPA_LEDGER_WORDS (ASPA_COUNT_WORDS + ASPA_MOST_ROUTES * ASPA_ROUTE_WORDS + ASPA_MOST_PATH_WORDS)

/* Where a table's two counts stand: of its entries, and of the provider or path numbers behind their slots. */
#define ASPA_COUNT_ENTRIES 0
#define ASPA_COUNT_NUMBERS 1

/* Where the words of a record stand in its slot. Its list begins so many numbers behind the slots, and has so many. */
#define ASPA_RECORD_CUSTOMER 0
#define ASPA_RECORD_SOURCE 1
#define ASPA_RECORD_START 2
#define ASPA_RECORD_COUNT 3

/* Where the words of a route stand in its slot; its path begins and is counted likewise. */
#define ASPA_ROUTE_NUMBER 0
#define ASPA_ROUTE_ROLE 1
#define ASPA_ROUTE_NEIGHBOUR 2
#define ASPA_ROUTE_GROUND 3
#define ASPA_ROUTE_VERDICT 4
#define ASPA_ROUTE_PLACE_A 5
#define ASPA_ROUTE_PLACE_B 6
#define ASPA_ROUTE_START 7
#define ASPA_ROUTE_COUNT 8

/* The bytes of a snapshot before its tables, and of the longest: enough for the file of any two tables. */
#define ASPA_CONTENTS_BYTES 20
#define ASPA_SNAPSHOT_BYTES (ASPA_CONTENTS_BYTES + 4 * (ASPA_REGISTER_WORDS + ASPA_LEDGER_WORDS))

/* Sources are numbered from 0 to this. The other is in place of a source where a hop names none. */
#define ASPA_GREATEST_SOURCE 7
#define ASPA_NO_SOURCE 8
/*
 * The most providers in one list, bytes of an attribute, and numbers of a merged path. A segment's count is one byte, so
 * a path of more than 255 numbers comes in several. Before 0.6.0 the last two were 1024 and 64: such a version refuses
 * by 3 a ledger, and a snapshot, with a longer path or a place above 64.
 */
#define ASPA_MOST_PROVIDERS 256
#define ASPA_MOST_ATTRIBUTE_BYTES 4096
#define ASPA_MOST_PATH 512

/* The role of the neighbour: 1, 2, 4 and 5 are judged upstream, 3 and 6 downstream. */
#define ASPA_ROLE_CUSTOMER 1
#define ASPA_ROLE_PEER 2
#define ASPA_ROLE_PROVIDER 3
#define ASPA_ROLE_ROUTE_SERVER 4
#define ASPA_ROLE_ROUTE_SERVER_CLIENT 5
#define ASPA_ROLE_MUTUAL_TRANSIT 6

/* Verdict words, and the one that a refused judging has in their place. Valid and Invalid stand whatever the networks
 * without a record may yet publish; Unknown lies with them. */
#define ASPA_VALID 0
#define ASPA_INVALID 1
#define ASPA_UNKNOWN 2
#define ASPA_NO_VERDICT 3

/* What a hop from a customer is, and the word of one that was refused. */
#define ASPA_NO_ATTESTATION 0    /* the customer has no record */
#define ASPA_PROVIDER_PLUS 1     /* a list of the customer holds the number */
#define ASPA_NOT_PROVIDER_PLUS 2 /* it has records, and no list holds it */
#define ASPA_NO_HOP 3

/* The register that an answer was read from: the one that counts for the hop's customer. */
#define ASPA_ORIGIN_NONE 0
#define ASPA_ORIGIN_PUBLIC 1
#define ASPA_ORIGIN_OVERRIDES 2

/* What a filing did, and the word of one that was refused. */
#define ASPA_NEW 0
#define ASPA_REPLACED 1
#define ASPA_NOT_FILED 2

/* In place of a count where a clearing or a re-judging was refused. */
#define ASPA_NO_COUNT UINT32_MAX

/* In place of a file's length where a writing was refused: no file is so short, and as a length it reads past no end. */
#define ASPA_NO_BYTES 0

/* Grounds on which a route is Invalid before any hop is looked at. */
#define ASPA_GROUND_NONE 0
#define ASPA_GROUND_EMPTY 1         /* the attribute has no bytes */
#define ASPA_GROUND_NOT_NEIGHBOUR 2 /* the first number is not the neighbour (never with role 4) */
#define ASPA_GROUND_AS_SET 3        /* a segment is a set */

/*
 * The table of refusals: the number of each row, its name and its sentence. ASPA_REFUSED_TABLE_LENGTH is 1, and so on.
 * Rows 12 to 16 come with a place in the attribute.
 */
#define ASPA_REFUSALS(ROW)                                                                                         \
    ROW(1, TABLE_LENGTH, "a lent table has the wrong length")                                                      \
    ROW(2, REGISTER_MALFORMED, "a lent register breaks its word rules")                                            \
    ROW(3, LEDGER_MALFORMED, "the ledger breaks its word rules")                                                   \
    ROW(4, SOURCE, "the source is above the greatest source")                                                      \
    ROW(5, CUSTOMER, "the customer is 0")                                                                          \
    ROW(6, PROVIDERS, "the provider list is empty, too long or not strictly ascending, or holds its own customer") \
    ROW(7, NO_RECORD, "the source has no record for the customer")                                                 \
    ROW(8, REGISTER_FULL, "the register has no room for the list")                                                 \
    ROW(9, ROLE, "the role is outside 1 to 6")                                                                     \
    ROW(10, NEIGHBOUR, "the neighbour is 0")                                                                       \
    ROW(11, ATTRIBUTE_LENGTH, "the attribute has too many bytes")                                                  \
    ROW(12, CUT_SHORT, "a segment is cut short")                                                                   \
    ROW(13, SEGMENT_TYPE, "a segment's type is 0 or above 4")                                                      \
    ROW(14, CONFEDERATION, "a segment is of a confederation (type 3 or 4)")                                        \
    ROW(15, SEGMENT_EMPTY, "a segment has no numbers")                                                             \
    ROW(16, AS_ZERO, "an AS number is 0")                                                                          \
    ROW(17, PATH_LENGTH, "the merged path has too many numbers")                                                   \
    ROW(18, ROUTE_TAKEN, "the route number is taken")                                                              \
    ROW(19, NO_ROUTE, "the ledger has no such route")                                                              \
    ROW(20, LEDGER_FULL, "the ledger has no room for the route")                                                   \
    ROW(21, OUTPUT_LENGTH, "the output is too short for the file")                                                 \
    ROW(22, EDITION, "the file's edition is unknown")                                                              \
    ROW(23, CONTENTS, "the file's contents are wrong")                                                             \
    ROW(24, SNAPSHOT_LENGTH, "the file is cut short, or longer than its contents say")

/* What a call returns. */
enum {
#define ASPA_ROW(number, name, sentence) ASPA_REFUSED_##name = number,
    ASPA_REFUSALS(ASPA_ROW)
#undef ASPA_ROW
    ASPA_OK = 0
};

/* The words of an answer of aspa_judge and aspa_keep. */
#define ASPA_ANSWER_WORDS 8
#define ASPA_ANSWER_VERDICT 0
#define ASPA_ANSWER_GROUND 1
#define ASPA_ANSWER_PLACE_A 2
#define ASPA_ANSWER_PLACE_B 3
#define ASPA_ANSWER_HAS_GAP 4
#define ASPA_ANSWER_REFUSAL_PLACE 5
#define ASPA_ANSWER_ORIGIN_A 6
#define ASPA_ANSWER_ORIGIN_B 7

/* The words of an answer of aspa_hop, and of aspa_lookup. */
#define ASPA_HOP_WORDS 3
#define ASPA_HOP_KIND 0
#define ASPA_HOP_ORIGIN 1
#define ASPA_HOP_SOURCE 2
#define ASPA_LOOKUP_WORDS 3
#define ASPA_LOOKUP_ORIGIN 0
#define ASPA_LOOKUP_START 1
#define ASPA_LOOKUP_COUNT 2

/*
 * aspa_file, aspa_withdraw and aspa_clear are lent the register that is meant, the public one or the overrides, and do
 * not look at the other: each has room of its own.
 *
 * Files the list of providers of a customer, as one source attests it, and replaces only what that source filed for
 * that customer before. The list ascends strictly and does not hold the customer itself; 0 in it matches nobody. Rows
 * 1, 2, 4, 5, 6, 8. A register in which a list holds its own record's customer is malformed, in a snapshot too; before
 * 0.4.0 it was not.
 *   out[0]: ASPA_NEW, or ASPA_REPLACED. On a refusal ASPA_NOT_FILED.
 */
ASPA_USE_RESULT
uint32_t aspa_file(uint32_t *reg, size_t reg_len, uint32_t source, uint32_t customer,
                   const uint32_t *providers, size_t providers_len, uint32_t out[1]);

/* Withdraws the record of one source for a customer. Rows 1, 2, 4, 5, 7. */
ASPA_USE_RESULT
uint32_t aspa_withdraw(uint32_t *reg, size_t reg_len, uint32_t source, uint32_t customer);

/*
 * Withdraws every record of one source. Rows 1, 2, 4.
 *   out[0]: how many records went, 0 included. On a refusal ASPA_NO_COUNT.
 */
ASPA_USE_RESULT
uint32_t aspa_clear(uint32_t *reg, size_t reg_len, uint32_t source, uint32_t out[1]);

/*
 * Says what the hop from x, as the customer, to y is by the register that counts for x. Changes no table. Rows 1, 2.
 * Both are AS numbers; 0, which is none, is not refused: it has no record, and as y it is in a list that holds 0.
 *   out[0]  ASPA_NO_ATTESTATION, ASPA_PROVIDER_PLUS or ASPA_NOT_PROVIDER_PLUS.
 *   out[1]  the register that counts for x, ASPA_ORIGIN_PUBLIC or ASPA_ORIGIN_OVERRIDES. With No Attestation
 *           ASPA_ORIGIN_NONE.
 *   out[2]  with Provider+ the lowest source whose list of x, in that register, holds y. Otherwise ASPA_NO_SOURCE.
 * On a refusal ASPA_NO_HOP, ASPA_ORIGIN_NONE and ASPA_NO_SOURCE.
 */
ASPA_USE_RESULT
uint32_t aspa_hop(const uint32_t *public_register, size_t public_len, const uint32_t *overrides, size_t overrides_len,
                  uint32_t x, uint32_t y, uint32_t out[ASPA_HOP_WORDS]);

/*
 * Finds the list that a source has for a customer in the register that counts for that customer: its words, where they
 * stand. It is empty, which no list is, where that register has none of this source, where a register has the wrong
 * length or is malformed, and for a source above ASPA_GREATEST_SOURCE or the customer 0: nothing is refused. Changes no
 * table.
 *   out[0]  the register, ASPA_ORIGIN_PUBLIC or ASPA_ORIGIN_OVERRIDES.
 *   out[1]  the index of the list's first word in that register, and
 *   out[2]  how many words it has.
 * Without a list 0, 0, 0. aspa_list_of has it as a pointer.
 */
void aspa_lookup(const uint32_t *public_register, size_t public_len, const uint32_t *overrides, size_t overrides_len,
                 uint32_t source, uint32_t customer, uint32_t out[ASPA_LOOKUP_WORDS]);

/*
 * Judges a route by both registers: the role and the AS number of the neighbour that sent it, and its AS_PATH attribute
 * value with four-byte numbers. Changes no table. Rows 1, 2, 9 to 17. What is judged is the merged path, in which a run
 * of one number counts once, over the ends of segments too; before 0.5.0 a run ended with its segment. Each hop goes by
 * the register that counts for its customer.
 *   out[0]  the verdict: ASPA_VALID, ASPA_INVALID or ASPA_UNKNOWN.
 *   out[1]  the ground of an Invalid, 0 if it has none.
 *   out[2]  place a and
 *   out[3]  place b. Places count the merged path from the origin, which is 1. Valid, and any ground: 0, 0. Invalid
 *           upstream: a is the lowest u whose hop from u-1 to u is Not Provider+, b is 0. Unknown upstream: a is the
 *           lowest u whose hop has No Attestation, b is 0. Invalid downstream: a is u, the lowest such hop of the up
 *           ramp, b is v, the highest such hop of the down ramp. Unknown downstream: a is K, the top of the up ramp, b
 *           is L, the top of the down ramp.
 *   out[4]  1 if a gap is given, else 0. Every downstream answer without a ground gives one.
 *   out[5]  the place of a refusal by 12 to 16, as an index into the attribute's bytes: the first byte of the segment,
 *           or for 16 of the number. Otherwise 0.
 *   out[6]  the register of the hop at place a, which is the one that counts for AS(a-1), and
 *   out[7]  of the hop at place b, which is the one that counts for AS(b+1): ASPA_ORIGIN_PUBLIC or
 *           ASPA_ORIGIN_OVERRIDES. Only an Invalid without a ground names hops, and with b = 0 only one; otherwise
 *           ASPA_ORIGIN_NONE.
 *   *gap    L - K, from 1 - ASPA_MOST_PATH to ASPA_MOST_PATH - 1; 0 where none is given. A negative gap is an answer,
 *           not an error.
 * On a refusal out[0] is ASPA_NO_VERDICT; out[1] to out[4], out[6], out[7] and *gap are 0.
 * Compare out[0] with the verdicts that you accept, and not with ASPA_INVALID alone, which ASPA_NO_VERDICT is not
 * either.
 */
ASPA_USE_RESULT
uint32_t aspa_judge(const uint32_t *public_register, size_t public_len, const uint32_t *overrides,
                    size_t overrides_len, uint32_t role, uint32_t neighbour, const uint8_t *attribute,
                    size_t attribute_len, uint32_t out[ASPA_ANSWER_WORDS], int32_t *gap);

/*
 * Judges a route as aspa_judge does, and keeps it in the ledger under a route number of the caller's, with the ground,
 * the verdict and the places of that answer and, without a ground, its merged path. The registers of the hops are not
 * kept. Rows 1, 2, 3, 9 to 17, 18, 20. A ledger in which two equal numbers stand side by side on a path is malformed, in
 * a snapshot too; before 0.5.0 it was not. The last number of one path and the first of the next may be equal.
 *   out, *gap: as aspa_judge answers.
 */
ASPA_USE_RESULT
uint32_t aspa_keep(const uint32_t *public_register, size_t public_len, const uint32_t *overrides, size_t overrides_len,
                   uint32_t *ledger, size_t ledger_len, uint32_t route, uint32_t role, uint32_t neighbour,
                   const uint8_t *attribute, size_t attribute_len, uint32_t out[ASPA_ANSWER_WORDS], int32_t *gap);

/* Takes the route with this number out of the ledger. Rows 1, 3, 19. */
ASPA_USE_RESULT
uint32_t aspa_drop(uint32_t *ledger, size_t ledger_len, uint32_t route);

/*
 * Judges every kept route that has no ground again by both registers, and rewrites its verdict and both places in the
 * ledger. Rows 1, 2, 3.
 *   out[0]: how many routes changed in any of those three words. On a refusal ASPA_NO_COUNT.
 * It takes some 33 KiB of stack, and aspa_read more; every other call takes less than 3 KiB.
 */
ASPA_USE_RESULT
uint32_t aspa_rejudge(const uint32_t *public_register, size_t public_len, const uint32_t *overrides,
                      size_t overrides_len, uint32_t *ledger, size_t ledger_len, uint32_t out[1]);

/*
 * Writes a snapshot of the public register and the ledger, one file that aspa_read takes, to the start of the output.
 * The overrides are not in it; lent in place of the public register, with an empty ledger, they make a file of their own.
 * The output's bytes behind the file stay, and so do both tables. Rows 1, 2, 3, 21; the last exactly when the output is
 * shorter than the file.
 *   out[0]: the file's length in bytes, at most ASPA_SNAPSHOT_BYTES. On a refusal ASPA_NO_BYTES.
 * A file is numbers of four bytes, the high byte first: the contents, which are the edition (1), then for the register
 * and then for the ledger where its words begin and how many bytes they are; and those words, each table's from word 0
 * to the last that its counts lead to. The register's begin at byte ASPA_CONTENTS_BYTES, and there is no gap.
 */
ASPA_USE_RESULT
uint32_t aspa_write(const uint32_t *public_register, size_t public_len, const uint32_t *ledger, size_t ledger_len,
                    uint8_t *output, size_t output_len, uint32_t out[1]);

/*
 * Reads a snapshot into the public register and the ledger. Their earlier words are not looked at, so they may be
 * anything; a refused call leaves every one of them. The overrides are not lent, and stay as they are. Rows 1; 24 for a
 * file of less than ASPA_CONTENTS_BYTES; 22; 23, by the contents alone; 24; then 2 and 3, which speak of the tables in
 * the file: of their words, and of a length that is not the one which the table's own counts make.
 * What was written comes back word for word, and a file that is accepted is, byte for byte, the one that aspa_write
 * gives of the tables that it yields. Only a file's form is checked, and not where it comes from. Its verdicts may no
 * longer be true, or never have been: call aspa_rejudge before you go by them.
 * It takes some 101 KiB of stack, where the file's words are checked before any word of the tables changes.
 */
ASPA_USE_RESULT
uint32_t aspa_read(const uint8_t *file, size_t file_len, uint32_t *public_register, size_t public_len,
                   uint32_t *ledger, size_t ledger_len);

/* ---- conveniences over the calls above, in this header only ---- */

/* An answer of aspa_judge or aspa_keep in a struct, with what the call returned. */
typedef struct aspa_answer {
    uint32_t refusal;       /* ASPA_OK, or the number of the refusal */
    uint32_t verdict;       /* ASPA_NO_VERDICT if refused */
    uint32_t ground;
    uint32_t place_a;
    uint32_t place_b;
    uint32_t has_gap;
    int32_t gap;
    uint32_t refusal_place; /* of rows 12 to 16 */
    uint32_t origin_a;      /* the registers of the hops that an Invalid names */
    uint32_t origin_b;
} aspa_answer;

static inline aspa_answer aspa_answer_of(uint32_t refusal, const uint32_t out[ASPA_ANSWER_WORDS], int32_t gap) {
    aspa_answer answer;
    answer.refusal = refusal;
    answer.verdict = out[ASPA_ANSWER_VERDICT];
    answer.ground = out[ASPA_ANSWER_GROUND];
    answer.place_a = out[ASPA_ANSWER_PLACE_A];
    answer.place_b = out[ASPA_ANSWER_PLACE_B];
    answer.has_gap = out[ASPA_ANSWER_HAS_GAP];
    answer.gap = gap;
    answer.refusal_place = out[ASPA_ANSWER_REFUSAL_PLACE];
    answer.origin_a = out[ASPA_ANSWER_ORIGIN_A];
    answer.origin_b = out[ASPA_ANSWER_ORIGIN_B];
    return answer;
}

/* aspa_judge and aspa_keep with their answer in a struct. */
ASPA_USE_RESULT
static inline aspa_answer aspa_judge_route(const uint32_t *public_register, size_t public_len,
                                           const uint32_t *overrides, size_t overrides_len, uint32_t role,
                                           uint32_t neighbour, const uint8_t *attribute, size_t attribute_len) {
    uint32_t out[ASPA_ANSWER_WORDS];
    int32_t gap;
    uint32_t refusal = aspa_judge(public_register, public_len, overrides, overrides_len, role, neighbour, attribute,
                                  attribute_len, out, &gap);
    return aspa_answer_of(refusal, out, gap);
}

ASPA_USE_RESULT
static inline aspa_answer aspa_keep_route(const uint32_t *public_register, size_t public_len,
                                          const uint32_t *overrides, size_t overrides_len, uint32_t *ledger,
                                          size_t ledger_len, uint32_t route, uint32_t role, uint32_t neighbour,
                                          const uint8_t *attribute, size_t attribute_len) {
    uint32_t out[ASPA_ANSWER_WORDS];
    int32_t gap;
    uint32_t refusal = aspa_keep(public_register, public_len, overrides, overrides_len, ledger, ledger_len, route,
                                 role, neighbour, attribute, attribute_len, out, &gap);
    return aspa_answer_of(refusal, out, gap);
}

/* The list that aspa_lookup finds. It stands in the register, and is good until that is changed. */
typedef struct aspa_list {
    const uint32_t *providers; /* null if there is no list */
    size_t count;
    uint32_t origin;
} aspa_list;

static inline aspa_list aspa_list_of(const uint32_t *public_register, size_t public_len, const uint32_t *overrides,
                                     size_t overrides_len, uint32_t source, uint32_t customer) {
    aspa_list list;
    uint32_t out[ASPA_LOOKUP_WORDS];
    aspa_lookup(public_register, public_len, overrides, overrides_len, source, customer, out);
    list.providers = NULL;
    list.count = out[ASPA_LOOKUP_COUNT];
    list.origin = out[ASPA_LOOKUP_ORIGIN];
    if (list.origin == ASPA_ORIGIN_PUBLIC)
        list.providers = public_register + out[ASPA_LOOKUP_START];
    else if (list.origin == ASPA_ORIGIN_OVERRIDES)
        list.providers = overrides + out[ASPA_LOOKUP_START];
    return list;
}

/* The name of a verdict word; of any other word "no verdict". */
static inline const char *aspa_verdict_name(uint32_t verdict) {
    switch (verdict) {
    case ASPA_VALID: return "Valid";
    case ASPA_INVALID: return "Invalid";
    case ASPA_UNKNOWN: return "Unknown";
    default: return "no verdict";
    }
}

/* The name of a hop's word, and of an origin; of any other word "no hop" and "none". */
static inline const char *aspa_hop_name(uint32_t hop) {
    switch (hop) {
    case ASPA_NO_ATTESTATION: return "No Attestation";
    case ASPA_PROVIDER_PLUS: return "Provider+";
    case ASPA_NOT_PROVIDER_PLUS: return "Not Provider+";
    default: return "no hop";
    }
}

static inline const char *aspa_origin_name(uint32_t origin) {
    switch (origin) {
    case ASPA_ORIGIN_PUBLIC: return "public";
    case ASPA_ORIGIN_OVERRIDES: return "overrides";
    default: return "none";
    }
}

/* The name and the sentence of a refusal by its number; ASPA_OK and numbers of no row have some too. */
static inline const char *aspa_refusal_name(uint32_t refusal) {
    switch (refusal) {
    case ASPA_OK: return "OK";
#define ASPA_ROW(number, name, sentence) case number: return #name;
    ASPA_REFUSALS(ASPA_ROW)
#undef ASPA_ROW
    default: return "UNKNOWN";
    }
}

static inline const char *aspa_refusal_sentence(uint32_t refusal) {
    switch (refusal) {
    case ASPA_OK: return "not refused";
#define ASPA_ROW(number, name, sentence) case number: return sentence;
    ASPA_REFUSALS(ASPA_ROW)
#undef ASPA_ROW
    default: return "no refusal has this number";
    }
}

/*
 * The slot of record i of a register and the numbers of its list, the slot of route i of a ledger and the numbers of
 * its path. i is below the table's count of entries, and the table one that a call on it, after the last change from
 * outside, did not refuse by 1, 2 or 3.
 */
static inline const uint32_t *aspa_record(const uint32_t *reg, uint32_t i) {
    return reg + ASPA_COUNT_WORDS + (size_t)i * ASPA_RECORD_WORDS;
}

static inline const uint32_t *aspa_providers(const uint32_t *reg, uint32_t i) {
    return aspa_record(reg, reg[ASPA_COUNT_ENTRIES]) + aspa_record(reg, i)[ASPA_RECORD_START];
}

static inline const uint32_t *aspa_route(const uint32_t *ledger, uint32_t i) {
    return ledger + ASPA_COUNT_WORDS + (size_t)i * ASPA_ROUTE_WORDS;
}

static inline const uint32_t *aspa_path(const uint32_t *ledger, uint32_t i) {
    return aspa_route(ledger, ledger[ASPA_COUNT_ENTRIES]) + aspa_route(ledger, i)[ASPA_ROUTE_START];
}

#ifdef __cplusplus
}
#endif

#endif
