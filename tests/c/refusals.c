/*
 * Every refusal of every call, through C: the number that is returned, the words that are written in place of an answer,
 * and that no word of a table and no byte of an output changes. Which of two registers counts: in verdicts, hops and
 * lists. Then runs of one number over the ends of segments, the longest attributes and paths, snapshots written and
 * read, null with length 0, and the conveniences of the header.
 */
#include <inttypes.h>
#include <stdint.h>
#include <stdio.h>
#include <stdlib.h>
#include <string.h>

#include "aspa_filter.h"

/* On the heap and not a word longer than they are lent, so that valgrind sees a step past the end. */
static uint32_t *reg, *overrides, *ledger;
static uint32_t reg_before[ASPA_REGISTER_WORDS], overrides_before[ASPA_REGISTER_WORDS], ledger_before[ASPA_LEDGER_WORDS];
#define LAST_ROW ASPA_REFUSED_SNAPSHOT_LENGTH
static uint32_t rows_seen[LAST_ROW + 1];
static int checks, failures;

#define CHECK(holds) check((holds), #holds, __LINE__)

static void check(int holds, const char *what, int line) {
    checks++;
    if (!holds) {
        failures++;
        printf("line %d: not so: %s\n", line, what);
    }
}

/* The tables as they were when `remember` was called last. */
static void remember(void) {
    memcpy(reg_before, reg, sizeof reg_before);
    memcpy(overrides_before, overrides, sizeof overrides_before);
    memcpy(ledger_before, ledger, sizeof ledger_before);
}

static int unchanged(void) {
    return memcmp(reg, reg_before, sizeof reg_before) == 0 &&
           memcmp(overrides, overrides_before, sizeof overrides_before) == 0 &&
           memcmp(ledger, ledger_before, sizeof ledger_before) == 0;
}

/* A call that was refused by `row`. */
#define REFUSED(call, row) refused((call), (row), #call, __LINE__)

static void refused(uint32_t result, uint32_t row, const char *call, int line) {
    check(result == row, call, line);
    check(unchanged(), call, line);
    rows_seen[row]++;
}

/* One word that a call has to write; before it, a word that is neither an answer nor a refusal's. */
static uint32_t out[1];

static uint32_t *fresh(void) {
    out[0] = 0xAAAAAAAA;
    return out;
}

#define REFUSED_FILING(call, row) (REFUSED(call, row), CHECK(out[0] == ASPA_NOT_FILED))
#define REFUSED_COUNT(call, row) (REFUSED(call, row), CHECK(out[0] == ASPA_NO_COUNT))
#define REFUSED_WRITING(call, row) (REFUSED(call, row), CHECK(out[0] == ASPA_NO_BYTES))

#define R ASPA_REGISTER_WORDS
#define L ASPA_LEDGER_WORDS

/* Two registers as they are lent, the public one first. */
typedef struct registers {
    const uint32_t *reg;
    size_t reg_len;
    const uint32_t *overrides;
    size_t overrides_len;
} registers;

static registers lend(const uint32_t *first, size_t first_len, const uint32_t *second, size_t second_len) {
    registers g;
    g.reg = first;
    g.reg_len = first_len;
    g.overrides = second;
    g.overrides_len = second_len;
    return g;
}

#define LENT(g) (g).reg, (g).reg_len, (g).overrides, (g).overrides_len
#define BOTH reg, R, overrides, R
#define BOTH_LENT lend(BOTH)

/* A route that is judged and kept, each time by both ways of calling. */
typedef struct route {
    uint32_t role;
    uint32_t neighbour;
    const uint8_t *attribute;
    size_t length;
} route;

static route from(uint32_t role, uint32_t neighbour, const uint8_t *attribute, size_t length) {
    route r;
    r.role = role;
    r.neighbour = neighbour;
    r.attribute = attribute;
    r.length = length;
    return r;
}

static void no_answer(aspa_answer a, uint32_t row, uint32_t place, int line) {
    refused(a.refusal, row, "a judging", line);
    check(a.verdict == ASPA_NO_VERDICT, "no verdict", line);
    check(a.ground == 0 && a.place_a == 0 && a.place_b == 0 && a.has_gap == 0 && a.gap == 0, "no answer", line);
    check(a.origin_a == ASPA_ORIGIN_NONE && a.origin_b == ASPA_ORIGIN_NONE, "no origins", line);
    check(a.refusal_place == place, "the refusal's place", line);
}

static void same_words(aspa_answer a, uint32_t result, const uint32_t *words, int32_t gap, int line) {
    check(a.refusal == result && a.verdict == words[ASPA_ANSWER_VERDICT] && a.ground == words[ASPA_ANSWER_GROUND], "same", line);
    check(a.place_a == words[ASPA_ANSWER_PLACE_A] && a.place_b == words[ASPA_ANSWER_PLACE_B], "same places", line);
    check(a.has_gap == words[ASPA_ANSWER_HAS_GAP] && a.gap == gap, "same gap", line);
    check(a.refusal_place == words[ASPA_ANSWER_REFUSAL_PLACE], "same refusal's place", line);
    check(a.origin_a == words[ASPA_ANSWER_ORIGIN_A] && a.origin_b == words[ASPA_ANSWER_ORIGIN_B], "same origins", line);
}

/* The bytes of a route's attribute and none behind them, on the heap too. */
static uint8_t *exactly(route r) {
    uint8_t *bytes = (uint8_t *)malloc(r.length);
    if (bytes == NULL)
        abort();
    memcpy(bytes, r.attribute, r.length);
    return bytes;
}

static void not_judged(registers g, route r, uint32_t row, uint32_t place, int line) {
    uint32_t words[ASPA_ANSWER_WORDS];
    int32_t gap = 77;
    uint32_t result;
    uint8_t *bytes = exactly(r);
    aspa_answer a = aspa_judge_route(LENT(g), r.role, r.neighbour, bytes, r.length);
    no_answer(a, row, place, line);
    memset(words, 0xAA, sizeof words);
    result = aspa_judge(LENT(g), r.role, r.neighbour, bytes, r.length, words, &gap);
    same_words(a, result, words, gap, line);
    free(bytes);
}

static void not_kept(registers g, size_t ledger_len, uint32_t number, route r, uint32_t row, uint32_t place, int line) {
    uint32_t words[ASPA_ANSWER_WORDS];
    int32_t gap = 77;
    uint32_t result;
    uint8_t *bytes = exactly(r);
    aspa_answer a = aspa_keep_route(LENT(g), ledger, ledger_len, number, r.role, r.neighbour, bytes, r.length);
    no_answer(a, row, place, line);
    memset(words, 0xAA, sizeof words);
    result = aspa_keep(LENT(g), ledger, ledger_len, number, r.role, r.neighbour, bytes, r.length, words, &gap);
    same_words(a, result, words, gap, line);
    free(bytes);
}

/* What a hop from x to y is told to be. */
static void hop_is(registers g, uint32_t x, uint32_t y, uint32_t kind, uint32_t origin, uint32_t source, int line) {
    uint32_t words[ASPA_HOP_WORDS] = {0xAAAAAAAA, 0xAAAAAAAA, 0xAAAAAAAA};
    check(aspa_hop(LENT(g), x, y, words) == ASPA_OK, "a hop", line);
    check(words[ASPA_HOP_KIND] == kind, "the hop's kind", line);
    check(words[ASPA_HOP_ORIGIN] == origin, "the hop's register", line);
    check(words[ASPA_HOP_SOURCE] == source, "the hop's source", line);
}

static void no_hop(registers g, uint32_t x, uint32_t y, uint32_t row, int line) {
    uint32_t words[ASPA_HOP_WORDS] = {0xAAAAAAAA, 0xAAAAAAAA, 0xAAAAAAAA};
    refused(aspa_hop(LENT(g), x, y, words), row, "a hop", line);
    check(words[ASPA_HOP_KIND] == ASPA_NO_HOP && words[ASPA_HOP_ORIGIN] == ASPA_ORIGIN_NONE &&
              words[ASPA_HOP_SOURCE] == ASPA_NO_SOURCE,
          "no hop", line);
}

/* The list of a source for a customer, in words and as a pointer. */
static void list_is(registers g, uint32_t source, uint32_t customer, uint32_t origin, const uint32_t *list, size_t n, int line) {
    uint32_t words[ASPA_LOOKUP_WORDS] = {0xAAAAAAAA, 0xAAAAAAAA, 0xAAAAAAAA};
    const uint32_t *from = origin == ASPA_ORIGIN_PUBLIC ? g.reg : g.overrides;
    aspa_list found = aspa_list_of(LENT(g), source, customer);
    aspa_lookup(LENT(g), source, customer, words);
    check(words[ASPA_LOOKUP_ORIGIN] == origin && words[ASPA_LOOKUP_COUNT] == n, "the list's register and count", line);
    check(found.origin == origin && found.count == n && (found.providers == NULL) == (n == 0), "the list found", line);
    if (n == 0)
        check(origin == ASPA_ORIGIN_NONE && words[ASPA_LOOKUP_START] == 0, "no list", line);
    else {
        check(words[ASPA_LOOKUP_START] + n <= R, "a list in the register", line);
        check(found.providers == from + words[ASPA_LOOKUP_START], "where the list is", line);
        check(memcmp(found.providers, list, n * sizeof *list) == 0, "the list", line);
    }
    check(unchanged(), "tables of a lookup", line);
}

static void no_list(registers g, uint32_t source, uint32_t customer, int line) {
    list_is(g, source, customer, ASPA_ORIGIN_NONE, NULL, 0, line);
}

/* So many bytes on the heap and none behind them, no two neighbours equal. */
static uint8_t *output_of(size_t n) {
    size_t i;
    uint8_t *bytes = (uint8_t *)malloc(n);
    if (bytes == NULL)
        abort();
    for (i = 0; i < n; i++)
        bytes[i] = (uint8_t)(7 * i + 3);
    return bytes;
}

/* Whether the bytes from `at` on are still those of `output_of`. */
static int untouched(const uint8_t *bytes, size_t at, size_t n) {
    size_t i;
    for (i = at; i < n; i++)
        if (bytes[i] != (uint8_t)(7 * i + 3))
            return 0;
    return 1;
}

static void not_written(size_t reg_len, size_t ledger_len, size_t output_len, uint32_t row, int line) {
    uint8_t *output = output_of(output_len);
    refused(aspa_write(reg, reg_len, ledger, ledger_len, output, output_len, fresh()), row, "a writing", line);
    check(out[0] == ASPA_NO_BYTES, "no length", line);
    check(untouched(output, 0, output_len), "every byte of the output", line);
    free(output);
}

/* The file is on the heap too. */
static uint32_t read_exactly(const uint8_t *file, size_t file_len, size_t reg_len, size_t ledger_len, int line) {
    uint32_t result;
    uint8_t *bytes = (uint8_t *)calloc(file_len, 1);
    if (bytes == NULL)
        abort();
    memcpy(bytes, file, file_len);
    result = aspa_read(bytes, file_len, reg, reg_len, ledger, ledger_len);
    check(memcmp(bytes, file, file_len) == 0, "every byte of the file", line);
    free(bytes);
    return result;
}

static void not_read(const uint8_t *file, size_t file_len, size_t reg_len, size_t ledger_len, uint32_t row, int line) {
    refused(read_exactly(file, file_len, reg_len, ledger_len, line), row, "a reading", line);
}

/* Rows 9 to 17 are of the route alone: Judge and Keep are refused alike. */
#define REFUSED_ROUTE(r, row, place) (not_judged(BOTH_LENT, r, row, place, __LINE__), not_kept(BOTH_LENT, L, 1, r, row, place, __LINE__))

static const uint32_t provider[] = {20};
/* AS20 AS10: the neighbour on the left, the origin on the right. */
static const uint8_t path[] = {2, 2, 0, 0, 0, 20, 0, 0, 0, 10};
static route good;

/* On no path, and of no record but the one of the overrides. */
#define ELSEWHERE UINT32_C(3999999999)

/* No record and no route, but one override, which touches no path. */
static void empty_tables(void) {
    memset(reg, 0, sizeof reg_before);
    memset(overrides, 0, sizeof overrides_before);
    memset(ledger, 0, sizeof ledger_before);
    CHECK(aspa_file(overrides, R, 3, ELSEWHERE, provider, 1, fresh()) == ASPA_OK);
    CHECK(out[0] == ASPA_NEW);
}

/* One record and one route more. */
static void begin(void) {
    empty_tables();
    good = from(ASPA_ROLE_CUSTOMER, 20, path, sizeof path);
    CHECK(aspa_file(reg, R, 0, 10, provider, 1, fresh()) == ASPA_OK);
    CHECK(out[0] == ASPA_NEW);
    CHECK(aspa_keep_route(BOTH, ledger, L, 7, ASPA_ROLE_CUSTOMER, 20, path, sizeof path).verdict == ASPA_VALID);
    remember();
}

/* A table with one word more, which is zero. */
static uint32_t *with_one_more(const uint32_t *table, size_t n) {
    uint32_t *longer = (uint32_t *)calloc(n + 1, sizeof *longer);
    if (longer == NULL)
        abort();
    memcpy(longer, table, n * sizeof *longer);
    return longer;
}

/* Every call that is lent two registers, one of which is refused. */
static void registers_refused(registers g, uint32_t row) {
    REFUSED_COUNT(aspa_rejudge(LENT(g), ledger, L, fresh()), row);
    not_judged(g, good, row, 0, __LINE__);
    not_kept(g, L, 1, good, row, 0, __LINE__);
    no_hop(g, 10, 20, row, __LINE__);
    no_hop(g, ELSEWHERE, 20, row, __LINE__);
    no_list(g, 0, 10, __LINE__);
    no_list(g, 3, ELSEWHERE, __LINE__);
}

/* Every call that looks at a register, with so many words of it: as the public one, as the overrides, as both. */
static void register_refused(size_t n, uint32_t row) {
    REFUSED_FILING(aspa_file(reg, n, 0, 10, provider, 1, fresh()), row);
    REFUSED(aspa_withdraw(reg, n, 0, 10), row);
    REFUSED_COUNT(aspa_clear(reg, n, 0, fresh()), row);
    registers_refused(lend(reg, n, overrides, R), row);
    registers_refused(lend(overrides, R, reg, n), row);
    registers_refused(lend(reg, n, reg, n), row);
    not_written(n, L, ASPA_SNAPSHOT_BYTES, row, __LINE__);
    not_written(n, L, 0, row, __LINE__);
}

/* Every call that looks at a ledger. */
static void ledger_refused(size_t n, uint32_t row) {
    REFUSED(aspa_drop(ledger, n, 7), row);
    REFUSED_COUNT(aspa_rejudge(BOTH, ledger, n, fresh()), row);
    not_kept(BOTH_LENT, n, 1, good, row, 0, __LINE__);
    not_written(R, n, ASPA_SNAPSHOT_BYTES, row, __LINE__);
    not_written(R, n, 0, row, __LINE__);
}

/* The snapshot of the tables that `begin` makes: a record, and a route over two numbers. */
#define WORDS_OF_BEGIN 25
#define BYTES_OF_BEGIN (4 * WORDS_OF_BEGIN)
static const uint32_t words_of_begin[WORDS_OF_BEGIN] = {
    1, 20, 28, 48, 52,                                /* the edition, both starts and lengths */
    1, 1,  10, 0,  0,  1, 20,                         /* the register */
    1, 2,  7,  1,  20, 0, 0, 0, 0, 0, 2, 20, 10};     /* the ledger */

static void put(uint8_t *file, size_t word, uint32_t value) {
    size_t i;
    for (i = 0; i < 4; i++)
        file[4 * word + i] = (uint8_t)(value >> (24 - 8 * i));
}

/* That file, and room for one word more, which is zero. */
static const uint8_t *file_of_begin(uint8_t file[BYTES_OF_BEGIN + 4]) {
    size_t i;
    memset(file, 0, BYTES_OF_BEGIN + 4);
    for (i = 0; i < WORDS_OF_BEGIN; i++)
        put(file, i, words_of_begin[i]);
    return file;
}

/* Whether it says what the tables hold. */
static int file_is_of_tables(const uint8_t *file) {
    uint8_t again[BYTES_OF_BEGIN];
    uint32_t length[1];
    return aspa_write(reg, R, ledger, L, again, sizeof again, length) == ASPA_OK && length[0] == BYTES_OF_BEGIN &&
           memcmp(file, again, BYTES_OF_BEGIN) == 0;
}

/* Reading goes by the lengths of the tables before it looks at the file. */
static void read_refused(size_t reg_len, size_t ledger_len) {
    uint8_t file[BYTES_OF_BEGIN + 4];
    not_read(file_of_begin(file), BYTES_OF_BEGIN, reg_len, ledger_len, ASPA_REFUSED_TABLE_LENGTH, __LINE__);
    not_read(file, 0, reg_len, ledger_len, ASPA_REFUSED_TABLE_LENGTH, __LINE__);
}

static void wrong_lengths(void) {
    uint32_t *lent;
    begin();
    register_refused(R - 1, ASPA_REFUSED_TABLE_LENGTH);
    register_refused(ASPA_COUNT_WORDS, ASPA_REFUSED_TABLE_LENGTH);
    register_refused(0, ASPA_REFUSED_TABLE_LENGTH);
    read_refused(R - 1, L);
    read_refused(ASPA_COUNT_WORDS, L);
    read_refused(0, L);
    ledger_refused(L - 1, ASPA_REFUSED_TABLE_LENGTH);
    ledger_refused(ASPA_COUNT_WORDS, ASPA_REFUSED_TABLE_LENGTH);
    ledger_refused(0, ASPA_REFUSED_TABLE_LENGTH);
    read_refused(R, L - 1);
    read_refused(R, ASPA_COUNT_WORDS);
    read_refused(R, 0);
    /* One word too many, of tables that are otherwise the same. */
    lent = reg;
    reg = with_one_more(reg, R);
    register_refused(R + 1, ASPA_REFUSED_TABLE_LENGTH);
    read_refused(R + 1, L);
    free(reg);
    reg = lent;
    lent = ledger;
    ledger = with_one_more(ledger, L);
    ledger_refused(L + 1, ASPA_REFUSED_TABLE_LENGTH);
    read_refused(R, L + 1);
    free(ledger);
    ledger = lent;
}

static void malformed(void) {
    /* Both counts, each word of the first slot, and a word that has to be zero. */
    static const size_t words[] = {ASPA_COUNT_ENTRIES,
                                   ASPA_COUNT_NUMBERS,
                                   ASPA_COUNT_WORDS + ASPA_RECORD_CUSTOMER,
                                   ASPA_COUNT_WORDS + ASPA_RECORD_SOURCE,
                                   ASPA_COUNT_WORDS + ASPA_RECORD_START,
                                   ASPA_COUNT_WORDS + ASPA_RECORD_COUNT,
                                   ASPA_REGISTER_WORDS - 1};
    size_t i;
    for (i = 0; i < sizeof words / sizeof *words; i++) {
        begin();
        /* A customer may be every number but 0. */
        reg[words[i]] = words[i] == ASPA_COUNT_WORDS + ASPA_RECORD_CUSTOMER ? 0 : UINT32_MAX;
        remember();
        register_refused(R, ASPA_REFUSED_REGISTER_MALFORMED);
    }
    for (i = 0; i < ASPA_COUNT_WORDS + ASPA_ROUTE_WORDS; i++) {
        begin();
        if (i == ASPA_COUNT_WORDS + ASPA_ROUTE_NUMBER)
            continue; /* every route number is allowed */
        ledger[i] = UINT32_MAX;
        remember();
        ledger_refused(L, ASPA_REFUSED_LEDGER_MALFORMED);
    }
}

/* A table as it should be, with a word too few, and malformed. */
enum { SOUND, SHORT, BROKEN, STATES };

static size_t lent_len(int state, size_t n) {
    return state == SHORT ? n - 1 : n;
}

/* The row of some tables, each in a state: of all their lengths, then of either register, then of the ledger. */
static uint32_t row_of(int first, int second, int third) {
    if (first == SHORT || second == SHORT || third == SHORT)
        return ASPA_REFUSED_TABLE_LENGTH;
    if (first == BROKEN || second == BROKEN)
        return ASPA_REFUSED_REGISTER_MALFORMED;
    return third == BROKEN ? ASPA_REFUSED_LEDGER_MALFORMED : ASPA_OK;
}

/* The calls that are lent one register: the state of the other, which is there, is nothing to them. */
static void one_register(uint32_t *mine, int state, uint32_t source, uint32_t customer) {
    size_t n = lent_len(state, R);
    uint32_t row = row_of(state, SOUND, SOUND);
    if (row != ASPA_OK) {
        REFUSED_FILING(aspa_file(mine, n, source, customer, provider, 1, fresh()), row);
        REFUSED_FILING(aspa_file(mine, n, 8, 0, provider, 0, fresh()), row);
        REFUSED(aspa_withdraw(mine, n, source, customer), row);
        REFUSED(aspa_withdraw(mine, n, 8, 0), row);
        REFUSED_COUNT(aspa_clear(mine, n, source, fresh()), row);
        REFUSED_COUNT(aspa_clear(mine, n, 8, fresh()), row);
        return;
    }
    CHECK(aspa_file(mine, n, source, customer, provider, 1, fresh()) == ASPA_OK && out[0] == ASPA_REPLACED);
    CHECK(unchanged());
    CHECK(aspa_withdraw(mine, n, source, customer) == ASPA_OK);
    CHECK(aspa_file(mine, n, source, customer, provider, 1, fresh()) == ASPA_OK && out[0] == ASPA_NEW);
    CHECK(aspa_clear(mine, n, source, fresh()) == ASPA_OK && out[0] == 1);
    CHECK(aspa_file(mine, n, source, customer, provider, 1, fresh()) == ASPA_OK && out[0] == ASPA_NEW);
    CHECK(unchanged());
}

/* Every table in every state. */
static void in_states(int first, int second, int third) {
    uint8_t file[BYTES_OF_BEGIN + 4], output[BYTES_OF_BEGIN];
    route bad = from(7, 0, path, ASPA_MOST_ATTRIBUTE_BYTES + 1);
    uint8_t *bytes = (uint8_t *)calloc(bad.length, 1);
    size_t ledger_len = lent_len(third, L);
    uint32_t row;
    registers g;
    if (bytes == NULL)
        abort();
    bad.attribute = bytes;
    begin();
    reg[ASPA_COUNT_NUMBERS] += first == BROKEN;
    overrides[ASPA_COUNT_NUMBERS] += second == BROKEN;
    ledger[ASPA_COUNT_NUMBERS] += third == BROKEN;
    remember();
    g = lend(reg, lent_len(first, R), overrides, lent_len(second, R));
    /* Judge, hop and lookup are not lent the ledger. */
    row = row_of(first, second, SOUND);
    if (row != ASPA_OK) {
        not_judged(g, good, row, 0, __LINE__);
        not_judged(g, bad, row, 0, __LINE__);
        no_hop(g, 10, 20, row, __LINE__);
        no_hop(g, 0, 0, row, __LINE__);
        no_list(g, 0, 10, __LINE__);
        no_list(g, 3, ELSEWHERE, __LINE__);
    } else {
        CHECK(aspa_judge_route(LENT(g), 1, 20, path, sizeof path).verdict == ASPA_VALID);
        hop_is(g, 10, 20, ASPA_PROVIDER_PLUS, ASPA_ORIGIN_PUBLIC, 0, __LINE__);
        hop_is(g, ELSEWHERE, 20, ASPA_PROVIDER_PLUS, ASPA_ORIGIN_OVERRIDES, 3, __LINE__);
        list_is(g, 0, 10, ASPA_ORIGIN_PUBLIC, provider, 1, __LINE__);
        list_is(g, 3, ELSEWHERE, ASPA_ORIGIN_OVERRIDES, provider, 1, __LINE__);
    }
    row = row_of(first, second, third);
    if (row != ASPA_OK) {
        REFUSED_COUNT(aspa_rejudge(LENT(g), ledger, ledger_len, fresh()), row);
        not_kept(g, ledger_len, 1, good, row, 0, __LINE__);
        not_kept(g, ledger_len, 7, bad, row, 0, __LINE__);
    } else {
        CHECK(aspa_rejudge(LENT(g), ledger, ledger_len, fresh()) == ASPA_OK && out[0] == 0);
        CHECK(unchanged());
    }
    one_register(reg, first, 0, 10);
    one_register(overrides, second, 3, ELSEWHERE);
    /* Writing, reading and dropping are not lent the overrides. */
    row = row_of(first, SOUND, third);
    if (row != ASPA_OK)
        not_written(g.reg_len, ledger_len, sizeof output, row, __LINE__);
    else {
        CHECK(aspa_write(reg, R, ledger, L, output, sizeof output, fresh()) == ASPA_OK && out[0] == BYTES_OF_BEGIN);
        CHECK(memcmp(output, file_of_begin(file), BYTES_OF_BEGIN) == 0);
    }
    row = row_of(SOUND, SOUND, third);
    if (row != ASPA_OK)
        REFUSED(aspa_drop(ledger, ledger_len, 7), row);
    file_of_begin(file);
    if (first == SHORT || third == SHORT)
        not_read(file, BYTES_OF_BEGIN, g.reg_len, ledger_len, ASPA_REFUSED_TABLE_LENGTH, __LINE__);
    else {
        CHECK(read_exactly(file, BYTES_OF_BEGIN, R, L, __LINE__) == ASPA_OK);
        CHECK(memcmp(overrides, overrides_before, sizeof overrides_before) == 0);
        CHECK(file_is_of_tables(file));
    }
    free(bytes);
}

/* Row 1 of every table that is lent goes before row 2 of either register, and that before row 3 and the arguments. */
static void orders(void) {
    int first, second, third;
    for (first = 0; first < STATES; first++)
        for (second = 0; second < STATES; second++)
            for (third = 0; third < STATES; third++)
                in_states(first, second, third);
}

static void register_calls(void) {
    static const uint32_t falling[] = {30, 20}, twice[] = {20, 20};
    static uint32_t many[ASPA_MOST_PROVIDERS + 1];
    uint32_t i;
    begin();
    /* Not the customer 10, so that each list has the one fault. */
    for (i = 0; i <= ASPA_MOST_PROVIDERS; i++)
        many[i] = 11 + i;
    REFUSED_FILING(aspa_file(reg, R, ASPA_GREATEST_SOURCE + 1, 10, provider, 1, fresh()), ASPA_REFUSED_SOURCE);
    REFUSED(aspa_withdraw(reg, R, ASPA_GREATEST_SOURCE + 1, 10), ASPA_REFUSED_SOURCE);
    REFUSED_COUNT(aspa_clear(reg, R, UINT32_MAX, fresh()), ASPA_REFUSED_SOURCE);
    REFUSED_FILING(aspa_file(reg, R, 0, 0, provider, 1, fresh()), ASPA_REFUSED_CUSTOMER);
    REFUSED(aspa_withdraw(reg, R, 0, 0), ASPA_REFUSED_CUSTOMER);
    REFUSED_FILING(aspa_file(reg, R, 0, 10, provider, 0, fresh()), ASPA_REFUSED_PROVIDERS);
    REFUSED_FILING(aspa_file(reg, R, 0, 10, falling, 2, fresh()), ASPA_REFUSED_PROVIDERS);
    REFUSED_FILING(aspa_file(reg, R, 0, 10, twice, 2, fresh()), ASPA_REFUSED_PROVIDERS);
    REFUSED_FILING(aspa_file(reg, R, 0, 10, many, ASPA_MOST_PROVIDERS + 1, fresh()), ASPA_REFUSED_PROVIDERS);
    REFUSED(aspa_withdraw(reg, R, 1, 10), ASPA_REFUSED_NO_RECORD);
    REFUSED(aspa_withdraw(reg, R, 0, 11), ASPA_REFUSED_NO_RECORD);
    /* A replacement, a list of the most providers, and a clearing are answers. */
    CHECK(aspa_file(reg, R, 0, 10, many, ASPA_MOST_PROVIDERS, fresh()) == ASPA_OK);
    CHECK(out[0] == ASPA_REPLACED);
    CHECK(aspa_clear(reg, R, 3, fresh()) == ASPA_OK);
    CHECK(out[0] == 0);
    CHECK(aspa_clear(reg, R, 0, fresh()) == ASPA_OK);
    CHECK(out[0] == 1);
    for (i = 100; i < 100 + ASPA_MOST_RECORDS; i++)
        CHECK(aspa_file(reg, R, i % (ASPA_GREATEST_SOURCE + 1), i, provider, 1, fresh()) == ASPA_OK);
    remember();
    REFUSED_FILING(aspa_file(reg, R, 0, i, provider, 1, fresh()), ASPA_REFUSED_REGISTER_FULL);
    /* The list is judged before the room for it. */
    REFUSED_FILING(aspa_file(reg, R, 0, i, &i, 1, fresh()), ASPA_REFUSED_PROVIDERS);
}

/* So many numbers, two apart, with the customer at this position. Its neighbours by 1 are not in the list. */
static void around(uint32_t *list, size_t length, size_t position, uint32_t customer) {
    size_t i;
    for (i = 0; i < length; i++)
        list[i] = customer + 2 * (uint32_t)i - 2 * (uint32_t)position;
}

/* A list that holds its own customer is not filed, wherever in it that stands. */
static void own_customer_filed(void) {
    static const size_t lengths[] = {1, 2, 3, ASPA_MOST_PROVIDERS};
    static const uint32_t zero[] = {0, 1}, top[] = {7, UINT32_MAX}, swapped[] = {20, 10};
    uint32_t list[ASPA_MOST_PROVIDERS];
    size_t i, position;
    for (i = 0; i < sizeof lengths / sizeof *lengths; i++)
        for (position = 0; position < lengths[i]; position++) {
            size_t length = lengths[i];
            begin();
            around(list, length, position, 1000);
            REFUSED_FILING(aspa_file(reg, R, 0, 1000, list, length, fresh()), ASPA_REFUSED_PROVIDERS);
            /* The same list is good for others, and without the customer for itself. */
            CHECK(aspa_file(reg, R, 0, 999, list, length, fresh()) == ASPA_OK);
            CHECK(aspa_file(reg, R, 0, 1001, list, length, fresh()) == ASPA_OK);
            if (length > 1) {
                memmove(list + position, list + position + 1, (length - 1 - position) * sizeof *list);
                CHECK(aspa_file(reg, R, 0, 1000, list, length - 1, fresh()) == ASPA_OK);
                CHECK(out[0] == ASPA_NEW);
            }
        }
    begin();
    /* In place of an earlier list, from another source, and at both ends of the numbers. */
    REFUSED_FILING(aspa_file(reg, R, 0, 10, swapped + 1, 1, fresh()), ASPA_REFUSED_PROVIDERS);
    REFUSED_FILING(aspa_file(reg, R, 5, 20, provider, 1, fresh()), ASPA_REFUSED_PROVIDERS);
    REFUSED_FILING(aspa_file(reg, R, 5, 1, zero, 2, fresh()), ASPA_REFUSED_PROVIDERS);
    REFUSED_FILING(aspa_file(reg, R, 5, UINT32_MAX, top, 2, fresh()), ASPA_REFUSED_PROVIDERS);
    REFUSED_FILING(aspa_file(reg, R, 5, 20, swapped, 2, fresh()), ASPA_REFUSED_PROVIDERS);
    /* The rows before it. */
    REFUSED_FILING(aspa_file(reg, R, ASPA_GREATEST_SOURCE + 1, 20, provider, 1, fresh()), ASPA_REFUSED_SOURCE);
    REFUSED_FILING(aspa_file(reg, R, 0, 0, zero, 1, fresh()), ASPA_REFUSED_CUSTOMER);
    REFUSED_FILING(aspa_file(reg, R, 0, 0, zero, 2, fresh()), ASPA_REFUSED_CUSTOMER);
    /* 0 in a list is nobody. */
    CHECK(aspa_file(reg, R, 5, 1, zero, 1, fresh()) == ASPA_OK);
}

/* Three records of three providers. The number at this position of each list is one above the customer; gives their words. */
static void three_lists(size_t position, size_t words[3]) {
    uint32_t i, list[3];
    memset(reg, 0, sizeof reg_before);
    for (i = 0; i < 3; i++) {
        around(list, 3, position, 101 + 100 * i);
        CHECK(aspa_file(reg, R, i, 100 + 100 * i, list, 3, fresh()) == ASPA_OK);
        words[i] = ASPA_COUNT_WORDS + 3 * ASPA_RECORD_WORDS + 3 * i + position;
    }
}

/* A register whose one fault is a list that holds its own customer is refused by every call, and so is a file of it. */
static void own_customer_held(void) {
    static const uint32_t others[3][2] = {{200, 300}, {100, 300}, {100, 200}};
    uint8_t file[ASPA_CONTENTS_BYTES + 4 * (ASPA_COUNT_WORDS + 3 * ASPA_RECORD_WORDS + 9) + 4 * WORDS_OF_BEGIN];
    size_t position, words[3];
    uint32_t i, length;
    /* One list of one number: the provider becomes the customer, or the customer the provider. */
    begin();
    reg[ASPA_COUNT_WORDS + ASPA_RECORD_WORDS] = 10;
    remember();
    register_refused(R, ASPA_REFUSED_REGISTER_MALFORMED);
    /* The register is judged before the list that is to be filed. */
    REFUSED_FILING(aspa_file(reg, R, 0, 20, provider, 1, fresh()), ASPA_REFUSED_REGISTER_MALFORMED);
    /* Who is not lent the register does not look at it. */
    CHECK(aspa_drop(ledger, L, 7) == ASPA_OK);
    begin();
    reg[ASPA_COUNT_WORDS + ASPA_RECORD_CUSTOMER] = 20;
    remember();
    register_refused(R, ASPA_REFUSED_REGISTER_MALFORMED);
    /* Each of three records, each position. */
    for (position = 0; position < 3; position++)
        for (i = 0; i < 3; i++) {
            begin();
            three_lists(position, words);
            CHECK(aspa_write(reg, R, ledger, L, file, sizeof file, fresh()) == ASPA_OK);
            length = out[0];
            remember();
            put(file, ASPA_CONTENTS_BYTES / 4 + words[i], 100 + 100 * i);
            not_read(file, length, R, L, ASPA_REFUSED_REGISTER_MALFORMED, __LINE__);
            reg[words[i]] = 100 + 100 * i;
            remember();
            register_refused(R, ASPA_REFUSED_REGISTER_MALFORMED);
            /* With the number that stood there before, it is a register again. */
            reg[words[i]]++;
            CHECK(aspa_withdraw(reg, R, 0, 100) == ASPA_OK);
        }
    /* A list may hold every customer but its own: here each of three holds the two others. */
    begin();
    memset(reg, 0, sizeof reg_before);
    for (i = 0; i < 3; i++)
        CHECK(aspa_file(reg, R, 0, 100 + 100 * i, others[i], 2, fresh()) == ASPA_OK);
    CHECK(aspa_judge_route(BOTH, 1, 20, path, sizeof path).refusal == ASPA_OK);
    CHECK(aspa_rejudge(BOTH, ledger, L, fresh()) == ASPA_OK);
    CHECK(aspa_write(reg, R, ledger, L, file, sizeof file, fresh()) == ASPA_OK);
    CHECK(read_exactly(file, out[0], R, L, __LINE__) == ASPA_OK);
    CHECK(aspa_clear(reg, R, 0, fresh()) == ASPA_OK && out[0] == 3);
}

/* A segment's count is one byte. */
#define MOST_IN_SEGMENT 255

/*
 * Adds numbers to an attribute that has so many bytes, as a sequence, or as several if they are too many for one. Gives
 * how many bytes it has then.
 */
static size_t add_sequence(uint8_t *attribute, size_t length, const uint32_t *numbers, size_t n) {
    size_t i, part;
    for (; n > 0; n -= part) {
        part = n < MOST_IN_SEGMENT ? n : MOST_IN_SEGMENT;
        attribute[length++] = 2;
        attribute[length++] = (uint8_t)part;
        for (i = 0; i < part; i++)
            put(attribute + length, i, *numbers++);
        length += 4 * part;
    }
    return length;
}

/* So many numbers, from the first on, no two equal. */
static const uint32_t *ascending(uint32_t *numbers, size_t n, uint32_t first) {
    size_t i;
    for (i = 0; i < n; i++)
        numbers[i] = first + (uint32_t)i;
    return numbers;
}

static void routes(void) {
    static const uint8_t lone[] = {2}, cut[] = {2, 1, 0, 0, 0, 20, 2, 1, 0, 0, 0}, unknown[] = {5, 1, 0, 0, 0, 20};
    static const uint8_t confederation[] = {2, 1, 0, 0, 0, 20, 3, 1, 0, 0, 0, 10}, empty[] = {2, 0};
    static const uint8_t zero[] = {2, 2, 0, 0, 0, 20, 0, 0, 0, 0};
    static uint8_t bytes[ASPA_MOST_ATTRIBUTE_BYTES + 1];
    uint32_t n, numbers[ASPA_MOST_PATH + 1];
    size_t length;
    begin();
    REFUSED_ROUTE(from(0, 20, path, sizeof path), ASPA_REFUSED_ROLE, 0);
    REFUSED_ROUTE(from(7, 20, path, sizeof path), ASPA_REFUSED_ROLE, 0);
    REFUSED_ROUTE(from(1, 0, path, sizeof path), ASPA_REFUSED_NEIGHBOUR, 0);
    REFUSED_ROUTE(from(1, 20, bytes, sizeof bytes), ASPA_REFUSED_ATTRIBUTE_LENGTH, 0);
    REFUSED_ROUTE(from(1, 20, lone, sizeof lone), ASPA_REFUSED_CUT_SHORT, 0);
    REFUSED_ROUTE(from(1, 20, cut, sizeof cut), ASPA_REFUSED_CUT_SHORT, 6);
    REFUSED_ROUTE(from(1, 20, unknown, sizeof unknown), ASPA_REFUSED_SEGMENT_TYPE, 0);
    REFUSED_ROUTE(from(1, 20, confederation, sizeof confederation), ASPA_REFUSED_CONFEDERATION, 6);
    REFUSED_ROUTE(from(1, 20, empty, sizeof empty), ASPA_REFUSED_SEGMENT_EMPTY, 0);
    REFUSED_ROUTE(from(1, 20, zero, sizeof zero), ASPA_REFUSED_AS_ZERO, 6);
    /* One number more than a path may have. */
    length = add_sequence(bytes, 0, ascending(numbers, ASPA_MOST_PATH + 1, 20), ASPA_MOST_PATH + 1);
    REFUSED_ROUTE(from(1, 20, bytes, length), ASPA_REFUSED_PATH_LENGTH, 0);
    not_kept(BOTH_LENT, L, 7, good, ASPA_REFUSED_ROUTE_TAKEN, 0, __LINE__);
    REFUSED(aspa_drop(ledger, L, 8), ASPA_REFUSED_NO_ROUTE);
    /* Route 7 and all others that there is room for. */
    for (n = 0; n + 1 < ASPA_MOST_ROUTES; n++)
        CHECK(aspa_keep_route(BOTH, ledger, L, 100 + n, 1, 20, path, sizeof path).refusal == ASPA_OK);
    remember();
    not_kept(BOTH_LENT, L, 1, good, ASPA_REFUSED_LEDGER_FULL, 0, __LINE__);
    CHECK(aspa_rejudge(BOTH, ledger, L, fresh()) == ASPA_OK);
    CHECK(out[0] == 0);
    CHECK(aspa_drop(ledger, L, 7) == ASPA_OK);
}

/* What a route is judged to be, with the registers of the hops that are named. */
static void judged(registers g, uint32_t role, const uint32_t *numbers, size_t n, const uint32_t words[6], int line) {
    uint8_t bytes[2 + 4 * 8];
    size_t length = add_sequence(bytes, 0, numbers, n);
    uint32_t *lent = ledger;
    aspa_answer a = aspa_judge_route(LENT(g), role, numbers[0], bytes, length);
    check(a.refusal == ASPA_OK && a.ground == ASPA_GROUND_NONE && a.refusal_place == 0, "judged", line);
    check(a.verdict == words[0] && a.place_a == words[1] && a.place_b == words[2], "the verdict", line);
    check(a.origin_a == words[3] && a.origin_b == words[4], "the registers", line);
    check(a.has_gap == (role == ASPA_ROLE_PROVIDER || role == ASPA_ROLE_MUTUAL_TRANSIT), "a gap", line);
    check(a.gap == (int32_t)words[5], "the gap", line);
    check(unchanged(), "tables of a judging", line);
    /* The same kept, in another ledger, and judged again. */
    ledger = (uint32_t *)calloc(L, sizeof *ledger);
    if (ledger == NULL)
        abort();
    a = aspa_keep_route(LENT(g), ledger, L, 5, role, numbers[0], bytes, length);
    check(a.refusal == ASPA_OK && a.verdict == words[0], "kept", line);
    check(a.origin_a == words[3] && a.origin_b == words[4], "the registers of a keeping", line);
    check(aspa_route(ledger, 0)[ASPA_ROUTE_VERDICT] == words[0] && aspa_route(ledger, 0)[ASPA_ROUTE_PLACE_A] == words[1] &&
              aspa_route(ledger, 0)[ASPA_ROUTE_PLACE_B] == words[2],
          "the words of a keeping", line);
    check(aspa_rejudge(LENT(g), ledger, L, fresh()) == ASPA_OK && out[0] == 0, "judged again", line);
    free(ledger);
    ledger = lent;
}

static void filed(uint32_t *into, uint32_t source, uint32_t customer, const uint32_t *list, size_t n) {
    CHECK(aspa_file(into, R, source, customer, list, n, fresh()) == ASPA_OK);
}

/* Each hop that an Invalid names is of the register that counts for its own customer. */
static void origins(void) {
    static const uint32_t nobody[] = {0}, to_20[] = {20}, to_30[] = {30};
    static const uint32_t three[] = {40, 20, 10}, four[] = {40, 30, 20, 10}, peak[] = {20, 10, 40};
    uint32_t first, second;
    for (first = ASPA_ORIGIN_PUBLIC; first <= ASPA_ORIGIN_OVERRIDES; first++)
        for (second = ASPA_ORIGIN_PUBLIC; second <= ASPA_ORIGIN_OVERRIDES; second++) {
            uint32_t *const of_first = first == ASPA_ORIGIN_PUBLIC ? reg : overrides;
            uint32_t *const of_second = second == ASPA_ORIGIN_PUBLIC ? reg : overrides;
            /* Up: 10 has 20, and 20 has nobody: the hop to place 3 is of the register of 20, whatever that of 10 is. */
            const uint32_t up[] = {ASPA_INVALID, 3, 0, second, ASPA_ORIGIN_NONE, 0};
            /* Both ends have nobody: place 2 is of the register of 10, place 3 of that of 40. */
            const uint32_t down[] = {ASPA_INVALID, 2, 3, first, second, 3};
            /* The two hops to one place: from 40 and from 20. */
            const uint32_t meet[] = {ASPA_INVALID, 2, 2, first, second, 2};
            /* Up from the origin; nothing is named where the hop behind it is not attested. */
            const uint32_t unknown[] = {ASPA_UNKNOWN, 3, 0, ASPA_ORIGIN_NONE, ASPA_ORIGIN_NONE, 0};
            const uint32_t valid[] = {ASPA_VALID, 0, 0, ASPA_ORIGIN_NONE, ASPA_ORIGIN_NONE, 0};
            const uint32_t ramps[] = {ASPA_VALID, 0, 0, ASPA_ORIGIN_NONE, ASPA_ORIGIN_NONE, 0};
            const uint32_t apart[] = {ASPA_UNKNOWN, 1, 4, ASPA_ORIGIN_NONE, ASPA_ORIGIN_NONE, 3};
            empty_tables();
            filed(of_first, 1, 10, to_20, 1);
            filed(of_second, 2, 20, nobody, 1);
            remember();
            judged(BOTH_LENT, ASPA_ROLE_CUSTOMER, three, 3, up, __LINE__);
            judged(BOTH_LENT, ASPA_ROLE_ROUTE_SERVER_CLIENT, three, 3, up, __LINE__);
            CHECK(aspa_withdraw(of_second, R, 2, 20) == ASPA_OK);
            remember();
            judged(BOTH_LENT, ASPA_ROLE_CUSTOMER, three, 3, unknown, __LINE__);
            judged(BOTH_LENT, ASPA_ROLE_CUSTOMER, three + 1, 2, valid, __LINE__);
            empty_tables();
            filed(of_first, 0, 10, nobody, 1);
            filed(of_second, 0, 40, nobody, 1);
            remember();
            judged(BOTH_LENT, ASPA_ROLE_PROVIDER, four, 4, down, __LINE__);
            judged(BOTH_LENT, ASPA_ROLE_MUTUAL_TRANSIT, four, 4, down, __LINE__);
            /* 20 has 30 as well: who stands between the two is not named. */
            filed(reg, 0, 20, to_30, 1);
            filed(overrides, 0, 30, to_20, 1);
            remember();
            judged(BOTH_LENT, ASPA_ROLE_PROVIDER, four, 4, down, __LINE__);
            empty_tables();
            filed(of_first, 0, 40, nobody, 1);
            filed(of_second, 0, 20, nobody, 1);
            remember();
            judged(BOTH_LENT, ASPA_ROLE_PROVIDER, peak, 3, meet, __LINE__);
            empty_tables();
            remember();
            judged(BOTH_LENT, ASPA_ROLE_PROVIDER, four, 4, apart, __LINE__);
            filed(of_first, 0, 10, to_20, 1);
            filed(of_second, 0, 40, to_30, 1);
            filed(of_first, 0, 20, to_30, 1);
            remember();
            judged(BOTH_LENT, ASPA_ROLE_PROVIDER, four, 4, ramps, __LINE__);
        }
    /* A ground names no register, and neither does a path of one number. */
    begin();
    CHECK(aspa_judge_route(BOTH, 1, 30, path, sizeof path).ground == ASPA_GROUND_NOT_NEIGHBOUR);
    CHECK(aspa_judge_route(BOTH, 1, 30, path, sizeof path).origin_a == ASPA_ORIGIN_NONE);
    CHECK(aspa_judge_route(BOTH, 1, 30, path, sizeof path).origin_b == ASPA_ORIGIN_NONE);
    CHECK(aspa_judge_route(BOTH, 1, 30, NULL, 0).origin_a == ASPA_ORIGIN_NONE);
}

/* An override takes the place of all public records of its customer, and gives it back. */
static void override_and_back(void) {
    static const uint32_t nobody[] = {0}, both_of_10[] = {20, 30};
    static const uint32_t numbers[] = {20, 10};
    const uint32_t valid[] = {ASPA_VALID, 0, 0, ASPA_ORIGIN_NONE, ASPA_ORIGIN_NONE, 0};
    const uint32_t by_public[] = {ASPA_INVALID, 2, 0, ASPA_ORIGIN_PUBLIC, ASPA_ORIGIN_NONE, 0};
    const uint32_t by_overrides[] = {ASPA_INVALID, 2, 0, ASPA_ORIGIN_OVERRIDES, ASPA_ORIGIN_NONE, 0};
    uint32_t source;
    begin();
    judged(BOTH_LENT, ASPA_ROLE_CUSTOMER, numbers, 2, valid, __LINE__);
    /* Whichever source files it, and however many the public sources are. */
    for (source = 0; source <= ASPA_GREATEST_SOURCE; source++)
        filed(reg, source, 10, both_of_10, 2);
    for (source = 0; source <= ASPA_GREATEST_SOURCE; source++) {
        filed(overrides, source, 10, nobody, 1);
        remember();
        judged(BOTH_LENT, ASPA_ROLE_CUSTOMER, numbers, 2, by_overrides, __LINE__);
        CHECK(aspa_rejudge(BOTH, ledger, L, fresh()) == ASPA_OK && out[0] == 1);
        CHECK(aspa_route(ledger, 0)[ASPA_ROUTE_VERDICT] == ASPA_INVALID);
        CHECK(aspa_rejudge(BOTH, ledger, L, fresh()) == ASPA_OK && out[0] == 0);
        CHECK(aspa_withdraw(overrides, R, source, 10) == ASPA_OK);
        remember();
        judged(BOTH_LENT, ASPA_ROLE_CUSTOMER, numbers, 2, valid, __LINE__);
        CHECK(aspa_rejudge(BOTH, ledger, L, fresh()) == ASPA_OK && out[0] == 1);
        CHECK(aspa_route(ledger, 0)[ASPA_ROUTE_VERDICT] == ASPA_VALID);
    }
    /* The public record is wrong, and the override right. */
    for (source = 0; source <= ASPA_GREATEST_SOURCE; source++)
        filed(reg, source, 10, nobody, 1);
    remember();
    judged(BOTH_LENT, ASPA_ROLE_CUSTOMER, numbers, 2, by_public, __LINE__);
    filed(overrides, 6, 10, both_of_10, 2);
    remember();
    judged(BOTH_LENT, ASPA_ROLE_CUSTOMER, numbers, 2, valid, __LINE__);
    /* An override of another customer leaves this one to the public register. */
    CHECK(aspa_clear(overrides, R, 6, fresh()) == ASPA_OK && out[0] == 1);
    filed(overrides, 6, 11, both_of_10, 2);
    filed(overrides, 6, 9, both_of_10, 2);
    remember();
    judged(BOTH_LENT, ASPA_ROLE_CUSTOMER, numbers, 2, by_public, __LINE__);
    /* The ledger does not keep the register: where nothing else changes, nothing does. */
    CHECK(aspa_rejudge(BOTH, ledger, L, fresh()) == ASPA_OK && out[0] == 1);
    filed(overrides, 6, 10, nobody, 1);
    remember();
    judged(BOTH_LENT, ASPA_ROLE_CUSTOMER, numbers, 2, by_overrides, __LINE__);
    CHECK(aspa_rejudge(BOTH, ledger, L, fresh()) == ASPA_OK && out[0] == 0);
    CHECK(unchanged());
    /* The same memory as both: it is the overrides that count. */
    judged(lend(reg, R, reg, R), ASPA_ROLE_CUSTOMER, numbers, 2, by_overrides, __LINE__);
    hop_is(lend(reg, R, reg, R), 10, 0, ASPA_PROVIDER_PLUS, ASPA_ORIGIN_OVERRIDES, 0, __LINE__);
    list_is(lend(reg, R, reg, R), 4, 10, ASPA_ORIGIN_OVERRIDES, nobody, 1, __LINE__);
}

/* A hop has the register of its customer, and as a provider the lowest source of those that list it. */
static void hops(void) {
    static const uint32_t to_20[] = {20}, to_30[] = {30}, to_20_and_30[] = {20, 30}, to_40[] = {40};
    uint32_t low, high;
    for (low = 0; low <= ASPA_GREATEST_SOURCE; low++)
        for (high = low; high <= ASPA_GREATEST_SOURCE; high++) {
            empty_tables();
            /* Every source has a record; 20 is in the list of two, 30 in that of the higher. */
            uint32_t source;
            for (source = 0; source <= ASPA_GREATEST_SOURCE; source++)
                filed(reg, source, 10, to_40, 1);
            filed(reg, low, 10, to_20, 1);
            filed(reg, high, 10, to_20_and_30, 2);
            remember();
            hop_is(BOTH_LENT, 10, 20, ASPA_PROVIDER_PLUS, ASPA_ORIGIN_PUBLIC, low, __LINE__);
            hop_is(BOTH_LENT, 10, 30, ASPA_PROVIDER_PLUS, ASPA_ORIGIN_PUBLIC, high, __LINE__);
            hop_is(BOTH_LENT, 10, 50, ASPA_NOT_PROVIDER_PLUS, ASPA_ORIGIN_PUBLIC, ASPA_NO_SOURCE, __LINE__);
            hop_is(lend(overrides, R, reg, R), 10, 20, ASPA_PROVIDER_PLUS, ASPA_ORIGIN_OVERRIDES, low, __LINE__);
            hop_is(lend(overrides, R, reg, R), 10, 30, ASPA_PROVIDER_PLUS, ASPA_ORIGIN_OVERRIDES, high, __LINE__);
            hop_is(lend(overrides, R, reg, R), 10, 50, ASPA_NOT_PROVIDER_PLUS, ASPA_ORIGIN_OVERRIDES, ASPA_NO_SOURCE, __LINE__);
            /* One override of the higher source: the public lists, and their sources, are not looked at. */
            filed(overrides, high, 10, to_30, 1);
            remember();
            hop_is(BOTH_LENT, 10, 30, ASPA_PROVIDER_PLUS, ASPA_ORIGIN_OVERRIDES, high, __LINE__);
            hop_is(BOTH_LENT, 10, 20, ASPA_NOT_PROVIDER_PLUS, ASPA_ORIGIN_OVERRIDES, ASPA_NO_SOURCE, __LINE__);
            filed(overrides, low, 10, to_20_and_30, 2);
            remember();
            hop_is(BOTH_LENT, 10, 30, ASPA_PROVIDER_PLUS, ASPA_ORIGIN_OVERRIDES, low, __LINE__);
        }
    hop_is(BOTH_LENT, 11, 20, ASPA_NO_ATTESTATION, ASPA_ORIGIN_NONE, ASPA_NO_SOURCE, __LINE__);
    hop_is(BOTH_LENT, 9, 20, ASPA_NO_ATTESTATION, ASPA_ORIGIN_NONE, ASPA_NO_SOURCE, __LINE__);
    hop_is(BOTH_LENT, 0, 20, ASPA_NO_ATTESTATION, ASPA_ORIGIN_NONE, ASPA_NO_SOURCE, __LINE__);
    hop_is(BOTH_LENT, UINT32_MAX, 0, ASPA_NO_ATTESTATION, ASPA_ORIGIN_NONE, ASPA_NO_SOURCE, __LINE__);
    hop_is(BOTH_LENT, 10, 0, ASPA_NOT_PROVIDER_PLUS, ASPA_ORIGIN_OVERRIDES, ASPA_NO_SOURCE, __LINE__);
    hop_is(BOTH_LENT, 10, 10, ASPA_NOT_PROVIDER_PLUS, ASPA_ORIGIN_OVERRIDES, ASPA_NO_SOURCE, __LINE__);
    CHECK(unchanged());
}

/* The record of a source for a customer, or the first of any source, found by going through all. */
static uint32_t record_of(const uint32_t *from, uint32_t customer, uint32_t source) {
    uint32_t i;
    for (i = 0; i < from[ASPA_COUNT_ENTRIES]; i++)
        if (aspa_record(from, i)[ASPA_RECORD_CUSTOMER] == customer &&
            (source == ASPA_NO_SOURCE || aspa_record(from, i)[ASPA_RECORD_SOURCE] == source))
            return i;
    return UINT32_MAX;
}

/* The list that a lookup has to find. */
static void list_as_filed(uint32_t source, uint32_t customer, int line) {
    int overridden = record_of(overrides, customer, ASPA_NO_SOURCE) != UINT32_MAX;
    const uint32_t *from = overridden ? overrides : reg;
    uint32_t i = source < ASPA_NO_SOURCE ? record_of(from, customer, source) : UINT32_MAX;
    if (i == UINT32_MAX)
        no_list(BOTH_LENT, source, customer, line);
    else
        list_is(BOTH_LENT, source, customer, overridden ? ASPA_ORIGIN_OVERRIDES : ASPA_ORIGIN_PUBLIC,
                aspa_providers(from, i), aspa_record(from, i)[ASPA_RECORD_COUNT], line);
}

/* Lists of every length and source, in either register or both. */
static void lookups(void) {
    static const uint32_t customers[] = {1, 2, 3, 700, 701, 702, UINT32_MAX - 1, UINT32_MAX};
    static const size_t lengths[] = {1, 2, 3, 8, 255, ASPA_MOST_PROVIDERS};
    uint32_t list[ASPA_MOST_PROVIDERS], source, random = 1;
    size_t i, n, round;
    for (round = 0; round < 20; round++) {
        empty_tables();
        for (i = 0; i < sizeof customers / sizeof *customers; i++)
            for (source = 0; source <= ASPA_GREATEST_SOURCE; source++) {
                random = random * UINT32_C(1664525) + UINT32_C(1013904223);
                n = lengths[random >> 24 & 1 ? 0 : (random >> 16) % 6];
                ascending(list, n, 1000 * (source + 1) + (uint32_t)i);
                if (random >> 28 < 5)
                    filed(reg, source, customers[i], list, n);
                list[0] -= 10;
                if (random >> 28 == 5 + round % 3)
                    filed(overrides, source, customers[i], list, n);
            }
        remember();
        for (source = 0; source <= ASPA_NO_SOURCE; source++) {
            for (i = 0; i < sizeof customers / sizeof *customers; i++) {
                list_as_filed(source, customers[i], __LINE__);
                list_as_filed(source, customers[i] + 3, __LINE__);
            }
            no_list(BOTH_LENT, source, 0, __LINE__);
        }
        no_list(BOTH_LENT, UINT32_MAX, 1, __LINE__);
        CHECK(unchanged());
    }
    /* What only the public register has of a source is hidden by an override of another. */
    begin();
    list_is(BOTH_LENT, 0, 10, ASPA_ORIGIN_PUBLIC, provider, 1, __LINE__);
    no_list(BOTH_LENT, 1, 10, __LINE__);
    filed(overrides, 1, 10, provider, 1);
    remember();
    no_list(BOTH_LENT, 0, 10, __LINE__);
    list_is(BOTH_LENT, 1, 10, ASPA_ORIGIN_OVERRIDES, provider, 1, __LINE__);
}

/* Each register has room of its own. Full, they are looked up to the last word. */
static void full_registers(void) {
    uint32_t list[ASPA_MOST_PROVIDER_WORDS / ASPA_MOST_RECORDS], i, n = sizeof list / sizeof *list;
    begin();
    memset(reg, 0, sizeof reg_before);
    memset(overrides, 0, sizeof overrides_before);
    for (i = 0; i < ASPA_MOST_RECORDS; i++) {
        filed(reg, i % 8, 1000 + i / 8, ascending(list, n, 5000 + 8 * i), n);
        /* Half of the customers are in both. */
        filed(overrides, (i + 3) % 8, 1000 + ASPA_MOST_RECORDS / 16 + i / 8, ascending(list, n, 90000 + 8 * i), n);
    }
    CHECK(reg[ASPA_COUNT_NUMBERS] == ASPA_MOST_PROVIDER_WORDS && overrides[ASPA_COUNT_NUMBERS] == ASPA_MOST_PROVIDER_WORDS);
    remember();
    REFUSED_FILING(aspa_file(reg, R, 0, 1, provider, 1, fresh()), ASPA_REFUSED_REGISTER_FULL);
    REFUSED_FILING(aspa_file(overrides, R, 0, 1, provider, 1, fresh()), ASPA_REFUSED_REGISTER_FULL);
    for (i = 998; i < 1000 + 3 * ASPA_MOST_RECORDS / 16 + 2; i += 3) {
        list_as_filed(i % 8, i, __LINE__);
        list_as_filed(7 - i % 8, i, __LINE__);
    }
    i = ASPA_MOST_RECORDS / 16;
    hop_is(BOTH_LENT, 999 + i, 5000 + 64 * (i - 1) + 63, ASPA_PROVIDER_PLUS, ASPA_ORIGIN_PUBLIC, 7, __LINE__);
    hop_is(BOTH_LENT, 1000 + i, 5000 + 64 * i, ASPA_NOT_PROVIDER_PLUS, ASPA_ORIGIN_OVERRIDES, ASPA_NO_SOURCE, __LINE__);
    hop_is(BOTH_LENT, 1000 + i, 90000, ASPA_PROVIDER_PLUS, ASPA_ORIGIN_OVERRIDES, 3, __LINE__);
    hop_is(BOTH_LENT, 999 + 3 * i, 90000 + 8 * 1024 - 1, ASPA_PROVIDER_PLUS, ASPA_ORIGIN_OVERRIDES, 2, __LINE__);
    hop_is(BOTH_LENT, 1000 + 3 * i, 90000, ASPA_NO_ATTESTATION, ASPA_ORIGIN_NONE, ASPA_NO_SOURCE, __LINE__);
    /* One goes, and there is room in that register alone. */
    CHECK(aspa_withdraw(overrides, R, 3, 1000 + i) == ASPA_OK);
    remember();
    REFUSED_FILING(aspa_file(reg, R, 0, 1, provider, 1, fresh()), ASPA_REFUSED_REGISTER_FULL);
    CHECK(aspa_file(overrides, R, 0, 1, provider, 1, fresh()) == ASPA_OK);
}

static size_t until_zero(const uint32_t *numbers) {
    size_t n = 0;
    while (numbers[n] != 0)
        n++;
    return n;
}

/* Sequences from a list of numbers: a 0 ends each, and one more the list. Gives the attribute's length. */
static size_t sequences(uint8_t *attribute, const uint32_t *numbers) {
    size_t n, length = 0;
    for (; (n = until_zero(numbers)) > 0; numbers += n + 1)
        length = add_sequence(attribute, length, numbers, n);
    return length;
}

/* Register D of the worked vectors, and no route. */
static void register_d(void) {
    static const uint32_t lists[][4] = {{10, 20, 30}, {20, 40}, {40}, {50, 40}, {70, 80}, {80, 70}};
    size_t i, n;
    empty_tables();
    for (i = 0; i < sizeof lists / sizeof *lists; i++) {
        /* A list without numbers is {0}: nobody. */
        n = until_zero(lists[i] + 1);
        CHECK(aspa_file(reg, R, 0, lists[i][0], lists[i] + 1, n > 0 ? n : 1, fresh()) == ASPA_OK);
    }
}

/* An answer from public records, and the same from overrides. */
static void mirrored(aspa_answer a, aspa_answer b, int line) {
    check(a.refusal == b.refusal && a.verdict == b.verdict && a.ground == b.ground, "mirrored", line);
    check(a.place_a == b.place_a && a.place_b == b.place_b, "mirrored places", line);
    check(a.has_gap == b.has_gap && a.gap == b.gap && a.refusal_place == b.refusal_place, "mirrored gap", line);
    check(a.origin_a <= ASPA_ORIGIN_PUBLIC && b.origin_a == 2 * a.origin_a, "mirrored origin a", line);
    check(a.origin_b <= ASPA_ORIGIN_PUBLIC && b.origin_b == 2 * a.origin_b, "mirrored origin b", line);
    check((a.origin_a != 0) == (a.verdict == ASPA_INVALID && a.ground == ASPA_GROUND_NONE), "an origin", line);
    check((a.origin_b != 0) == (a.origin_a != 0 && a.place_b != 0), "an origin of b", line);
}

/* An attribute is judged and kept, in every role, as the sequence, or as few sequences, of what it merges to. */
static void merges_to(const uint8_t *attribute, size_t length, const uint32_t *merged, size_t n, int line) {
    uint8_t once[ASPA_MOST_ATTRIBUTE_BYTES];
    uint32_t role, result, words[ASPA_ANSWER_WORDS];
    int32_t gap;
    aspa_answer a;
    size_t once_length = add_sequence(once, 0, merged, n);
    for (role = ASPA_ROLE_CUSTOMER; role <= ASPA_ROLE_MUTUAL_TRANSIT; role++) {
        uint8_t *bytes = exactly(from(role, merged[0], attribute, length));
        remember();
        a = aspa_judge_route(BOTH, role, merged[0], bytes, length);
        check(a.refusal == ASPA_OK && a.ground == ASPA_GROUND_NONE && a.verdict != ASPA_NO_VERDICT, "judged", line);
        check(unchanged(), "tables of a judging", line);
        mirrored(a, aspa_judge_route(overrides, R, reg, R, role, merged[0], bytes, length), line);
        result = aspa_judge(BOTH, role, merged[0], once, once_length, words, &gap);
        same_words(a, result, words, gap, line);
        result = aspa_keep(BOTH, ledger, L, 0, role, merged[0], bytes, length, words, &gap);
        same_words(a, result, words, gap, line);
        check(aspa_route(ledger, 0)[ASPA_ROUTE_COUNT] == n, "the length of the kept path", line);
        check(memcmp(aspa_path(ledger, 0), merged, n * sizeof *merged) == 0, "the kept path", line);
        remember();
        check(aspa_drop(ledger, L, 0) == ASPA_OK, "dropped", line);
        result = aspa_keep(BOTH, ledger, L, 0, role, merged[0], once, once_length, words, &gap);
        same_words(a, result, words, gap, line);
        check(unchanged(), "every word of the ledger", line);
        check(aspa_drop(ledger, L, 0) == ASPA_OK, "dropped again", line);
        free(bytes);
    }
}

/* A run of one number counts once, also over the ends of segments. */
static void runs(void) {
    /* Sequences, and what they merge to. */
    static const struct {
        uint32_t numbers[16], merged[8];
    } cases[] = {
        {{20, 0, 20, 10}, {20, 10}},
        {{20, 20, 10}, {20, 10}},
        {{20, 0, 20, 0, 20, 20, 0, 20, 10}, {20, 10}},
        /* Whole segments that go: the first, one between, two between, the last, all but one. */
        {{20, 20, 0, 20, 10, 30}, {20, 10, 30}},
        {{20, 10, 0, 10, 0, 40}, {20, 10, 40}},
        {{20, 10, 0, 10, 10, 0, 10, 0, 10, 40}, {20, 10, 40}},
        {{20, 10, 0, 10, 10, 10}, {20, 10}},
        {{20, 0, 20, 0, 20, 20}, {20}},
        /* Runs over both ends of a segment. */
        {{40, 20, 20, 0, 20, 10, 10, 0, 10, 20, 0, 20, 40}, {40, 20, 10, 20, 40}},
        /* Nothing to merge: a number that comes back, and numbers that differ in one byte. */
        {{20, 10, 0, 20, 10}, {20, 10, 20, 10}},
        {{20, 10, 20, 0, 10, 0, 20}, {20, 10, 20, 10, 20}},
        {{20, 0, 0x114, 0, 0x1000014, 0, 20}, {20, 0x114, 0x1000014, 20}},
    };
    /* The words of route 13, which is vector O. */
    static const uint32_t kept[] = {1, 2, 13, 1, 20, 0, 0, 0, 0, 0, 2, 20, 10};
    uint8_t attribute[ASPA_MOST_ATTRIBUTE_BYTES];
    uint32_t numbers[ASPA_MOST_PATH + 1];
    size_t length, i, cut, begun;
    aspa_answer a;
    register_d();
    length = sequences(attribute, cases[0].numbers);
    remember();
    a = aspa_judge_route(BOTH, ASPA_ROLE_CUSTOMER, 20, attribute, length);
    CHECK(a.refusal == ASPA_OK && a.verdict == ASPA_VALID && a.place_a == 0 && a.place_b == 0 && a.has_gap == 0);
    CHECK(unchanged());
    a = aspa_keep_route(BOTH, ledger, L, 13, ASPA_ROLE_CUSTOMER, 20, attribute, length);
    CHECK(a.refusal == ASPA_OK && a.verdict == ASPA_VALID);
    memcpy(ledger_before, kept, sizeof kept);
    CHECK(unchanged());
    CHECK(aspa_drop(ledger, L, 13) == ASPA_OK);
    for (i = 0; i < sizeof cases / sizeof *cases; i++) {
        length = sequences(attribute, cases[i].numbers);
        merges_to(attribute, length, cases[i].merged, until_zero(cases[i].merged), __LINE__);
    }
    /* The number before the cut is there twice: 512 are left of 513, and 513 of 514. Without it 513 are too many too. */
    ascending(numbers, ASPA_MOST_PATH + 1, 1000);
    for (cut = 1; cut <= ASPA_MOST_PATH + 1; cut++) {
        begun = add_sequence(attribute, 0, numbers, cut);
        remember();
        length = add_sequence(attribute, begun, numbers + cut, ASPA_MOST_PATH + 1 - cut);
        REFUSED_ROUTE(from(1, 1000, attribute, length), ASPA_REFUSED_PATH_LENGTH, 0);
        length = add_sequence(attribute, begun, numbers + cut - 1, ASPA_MOST_PATH + 2 - cut);
        REFUSED_ROUTE(from(1, 1000, attribute, length), ASPA_REFUSED_PATH_LENGTH, 0);
        if (cut <= ASPA_MOST_PATH) {
            length = add_sequence(attribute, begun, numbers + cut - 1, ASPA_MOST_PATH + 1 - cut);
            merges_to(attribute, length, numbers, ASPA_MOST_PATH, __LINE__);
        }
    }
    /* Grounds go by the segments, and places by the bytes, as they stand. */
    length = sequences(attribute, cases[0].numbers);
    a = aspa_judge_route(BOTH, ASPA_ROLE_CUSTOMER, 30, attribute, length);
    CHECK(a.refusal == ASPA_OK && a.verdict == ASPA_INVALID && a.ground == ASPA_GROUND_NOT_NEIGHBOUR);
    attribute[6] = 1;
    a = aspa_judge_route(BOTH, ASPA_ROLE_CUSTOMER, 20, attribute, length);
    CHECK(a.refusal == ASPA_OK && a.verdict == ASPA_INVALID && a.ground == ASPA_GROUND_AS_SET);
    attribute[6] = 2;
    attribute[length] = 2;
    REFUSED_ROUTE(from(1, 20, attribute, length + 1), ASPA_REFUSED_CUT_SHORT, 16);
    put(attribute + 8, 1, 0);
    REFUSED_ROUTE(from(1, 20, attribute, length), ASPA_REFUSED_AS_ZERO, 12);
}

/* Six segments are the fewest that have 4,096 bytes, and then hold 1,021 numbers. */
#define MOST_NUMBERS 1021

/* An attribute of six segments with so many numbers each. Gives its length. */
static size_t in_segments(uint8_t *attribute, const uint32_t *numbers, const uint8_t counts[6]) {
    size_t i, length = 0;
    for (i = 0; i < 6; i++) {
        length = add_sequence(attribute, length, numbers, counts[i]);
        numbers += counts[i];
    }
    return length;
}

/* 1,021 numbers in runs, so that so many are left when they are merged. */
static const uint32_t *runs_of(uint32_t *numbers, size_t merged) {
    size_t i;
    for (i = 0; i < MOST_NUMBERS; i++)
        numbers[i] = (uint32_t)(1 + i * merged / MOST_NUMBERS);
    return numbers;
}

/* 4,096 bytes are read, and 4,097 are not. */
static void longest_attributes(void) {
    static const uint8_t counts[][6] = {{255, 255, 255, 254, 1, 1},
                                        {1, 1, 254, 255, 255, 255},
                                        {255, 1, 255, 255, 1, 254},
                                        {170, 170, 170, 170, 170, 171}};
    /* The last bytes; whole segments have even lengths, so the last place is 4,094. */
    static const struct {
        uint8_t bytes[2];
        size_t length;
        uint32_t row;
    } faults[] = {
        {{2, 0}, 1, ASPA_REFUSED_CUT_SHORT},     {{2, 1}, 2, ASPA_REFUSED_CUT_SHORT},
        {{0, 1}, 2, ASPA_REFUSED_SEGMENT_TYPE},  {{5, 0}, 2, ASPA_REFUSED_SEGMENT_TYPE},
        {{3, 0}, 2, ASPA_REFUSED_CONFEDERATION}, {{4, 1}, 2, ASPA_REFUSED_CONFEDERATION},
        {{2, 0}, 2, ASPA_REFUSED_SEGMENT_EMPTY}, {{1, 0}, 2, ASPA_REFUSED_SEGMENT_EMPTY},
    };
    uint8_t attribute[ASPA_MOST_ATTRIBUTE_BYTES + 1];
    uint32_t numbers[MOST_NUMBERS], merged[ASPA_MOST_PATH];
    size_t i, length;
    aspa_answer a;
    CHECK(ASPA_MOST_ATTRIBUTE_BYTES == 4096);
    register_d();
    ascending(merged, ASPA_MOST_PATH, 1);
    for (i = 0; i < sizeof counts / sizeof *counts; i++) {
        length = in_segments(attribute, runs_of(numbers, 1), counts[i]);
        CHECK(length == 4096);
        merges_to(attribute, length, merged, 1, __LINE__);
        in_segments(attribute, runs_of(numbers, ASPA_MOST_PATH), counts[i]);
        merges_to(attribute, length, merged, ASPA_MOST_PATH, __LINE__);
        remember();
        attribute[length] = 2;
        REFUSED_ROUTE(from(1, 1, attribute, length + 1), ASPA_REFUSED_ATTRIBUTE_LENGTH, 0);
        in_segments(attribute, runs_of(numbers, ASPA_MOST_PATH + 1), counts[i]);
        REFUSED_ROUTE(from(1, 1, attribute, length), ASPA_REFUSED_PATH_LENGTH, 0);
        /* The last number is 0. A fault goes before a path that is too long, and so does a ground. */
        put(attribute + length - 4, 0, 0);
        REFUSED_ROUTE(from(1, 1, attribute, length), ASPA_REFUSED_AS_ZERO, 4092);
        put(attribute + length - 4, 0, 1);
        a = aspa_judge_route(BOTH, 1, 2, attribute, length);
        CHECK(a.refusal == ASPA_OK && a.verdict == ASPA_INVALID && a.ground == ASPA_GROUND_NOT_NEIGHBOUR);
        attribute[2 + 4 * (size_t)counts[i][0]] = 1;
        a = aspa_judge_route(BOTH, 1, 1, attribute, length);
        CHECK(a.refusal == ASPA_OK && a.verdict == ASPA_INVALID && a.ground == ASPA_GROUND_AS_SET);
    }
    length = add_sequence(attribute, 0, ascending(numbers, MOST_NUMBERS, 1), MOST_NUMBERS);
    CHECK(length == 4094);
    for (i = 0; i < sizeof faults / sizeof *faults; i++) {
        memcpy(attribute + length, faults[i].bytes, 2);
        REFUSED_ROUTE(from(1, 1, attribute, length + faults[i].length), faults[i].row, 4094);
    }
}

/* The verdict and the places of a route, as they stand in the ledger. */
static int stands(uint32_t i, uint32_t verdict, uint32_t place_a, uint32_t place_b) {
    const uint32_t *slot = aspa_route(ledger, i);
    return slot[ASPA_ROUTE_VERDICT] == verdict && slot[ASPA_ROUTE_PLACE_A] == place_a &&
           slot[ASPA_ROUTE_PLACE_B] == place_b;
}

/* The farthest places and the widest gaps, on the path 1 to 512: 512 is the origin. */
static void longest_paths(void) {
    static const size_t widths[] = {1, 2, 3, 128, 254, 255};
    static const uint32_t nobody[] = {0};
    uint8_t attribute[ASPA_MOST_ATTRIBUTE_BYTES];
    uint32_t numbers[ASPA_MOST_PATH], n;
    size_t i, at, length;
    aspa_answer a;
    CHECK(ASPA_MOST_PATH == 512);
    ascending(numbers, 512, 1);
    register_d();
    for (i = 0; i < sizeof widths / sizeof *widths; i++) {
        for (at = 0, length = 0; at < 512; at += widths[i])
            length = add_sequence(attribute, length, numbers + at, at + widths[i] < 512 ? widths[i] : 512 - at);
        merges_to(attribute, length, numbers, 512, __LINE__);
    }
    /* 255, 255 and 2. */
    CHECK(length == 3 * 2 + 4 * 512 && attribute[1] == 255 && attribute[2 + 4 * 255 + 1] == 255 &&
          attribute[2 * (2 + 4 * 255) + 1] == 2);
    empty_tables();
    a = aspa_keep_route(BOTH, ledger, L, 7, ASPA_ROLE_PROVIDER, 1, attribute, length);
    CHECK(a.refusal == ASPA_OK && a.verdict == ASPA_UNKNOWN && a.place_a == 1 && a.place_b == 512);
    CHECK(a.has_gap == 1 && a.gap == 511 && stands(0, ASPA_UNKNOWN, 1, 512));
    /* Every number but 2 and 1, the last two from the origin, has the next as its provider. */
    for (n = 3; n <= 512; n++)
        CHECK(aspa_file(reg, R, 0, n, numbers + n - 2, 1, fresh()) == ASPA_OK);
    a = aspa_keep_route(BOTH, ledger, L, 8, ASPA_ROLE_CUSTOMER, 1, attribute, length);
    CHECK(a.refusal == ASPA_OK && a.verdict == ASPA_UNKNOWN && a.place_a == 512 && a.place_b == 0 && a.has_gap == 0);
    CHECK(stands(1, ASPA_UNKNOWN, 512, 0));
    CHECK(aspa_file(reg, R, 0, 2, nobody, 1, fresh()) == ASPA_OK);
    CHECK(aspa_rejudge(BOTH, ledger, L, fresh()) == ASPA_OK && out[0] == 2);
    CHECK(stands(0, ASPA_VALID, 0, 0) && stands(1, ASPA_INVALID, 512, 0));
    /* Nobody is a provider of either end. */
    memset(reg, 0, sizeof reg_before);
    for (n = 1; n <= 512; n += 511)
        CHECK(aspa_file(reg, R, 0, n, nobody, 1, fresh()) == ASPA_OK);
    a = aspa_judge_route(BOTH, ASPA_ROLE_PROVIDER, 1, attribute, length);
    CHECK(a.verdict == ASPA_INVALID && a.place_a == 2 && a.place_b == 511 && a.gap == 511);
    /* Each has both its neighbours as providers. */
    for (n = 1; n <= 512; n++) {
        uint32_t beside[2];
        i = 0;
        if (n > 1)
            beside[i++] = n - 1;
        if (n < 512)
            beside[i++] = n + 1;
        CHECK(aspa_file(reg, R, 0, n, beside, i, fresh()) == ASPA_OK);
    }
    a = aspa_judge_route(BOTH, ASPA_ROLE_PROVIDER, 1, attribute, length);
    CHECK(a.refusal == ASPA_OK && a.verdict == ASPA_VALID && a.has_gap == 1 && a.gap == -511);
}

/* Five routes: number, role and path. Each path ends with the number that begins the next; route 8 has none, by a ground. */
static const uint32_t ends[][2 + 5] = {
    {7, 1, 20, 10, 30, 40}, {8, 3}, {9, 4, 40, 30, 20}, {10, 2, 20}, {11, 6, 20, 10, 40}};
#define ENDS (sizeof ends / sizeof *ends)

/* Register D and these routes. */
static void equal_ends(void) {
    uint8_t attribute[2 + 4 * 5];
    size_t i, n, length;
    register_d();
    for (i = 0; i < ENDS; i++) {
        n = until_zero(ends[i] + 2);
        length = n > 0 ? add_sequence(attribute, 0, ends[i] + 2, n) : 0;
        CHECK(aspa_keep_route(BOTH, ledger, L, ends[i][0], ends[i][1], n > 0 ? ends[i][2] : 20, attribute, length)
                  .refusal == ASPA_OK);
    }
    remember();
}

/* The calls that are lent the ledger take it: all routes are judged again, one is kept and dropped, and both tables are
   written and read. */
static void ledger_taken(int line) {
    static uint8_t file[ASPA_SNAPSHOT_BYTES];
    uint32_t length;
    check(aspa_rejudge(BOTH, ledger, L, fresh()) == ASPA_OK && out[0] != ASPA_NO_COUNT, "judged again", line);
    remember();
    check(aspa_keep_route(BOTH, ledger, L, 1, 1, 20, path, sizeof path).refusal == ASPA_OK, "kept", line);
    check(!unchanged(), "the route is there", line);
    check(aspa_drop(ledger, L, 1) == ASPA_OK, "dropped", line);
    check(unchanged(), "the route is gone", line);
    check(aspa_write(reg, R, ledger, L, file, sizeof file, fresh()) == ASPA_OK, "written", line);
    length = out[0];
    memset(ledger, 0xAA, sizeof ledger_before);
    check(read_exactly(file, length, R, L, line) == ASPA_OK, "read", line);
    check(unchanged(), "every word that was written", line);
}

/* A ledger whose one fault is that this word has the value of the number beside it on the path, and a file of it. */
static void equal_neighbours(size_t word, uint32_t value, int line) {
    uint8_t file[1000];
    uint32_t length, before;
    size_t in_file;
    equal_ends();
    CHECK(aspa_write(reg, R, ledger, L, file, sizeof file, fresh()) == ASPA_OK);
    length = out[0];
    in_file = length / 4 - (ASPA_COUNT_WORDS + ASPA_ROUTE_WORDS * ENDS + ledger[ASPA_COUNT_NUMBERS]) + word;
    put(file, in_file, value);
    not_read(file, length, R, L, ASPA_REFUSED_LEDGER_MALFORMED, line);
    before = ledger[word];
    check(before != value, "another number", line);
    ledger[word] = value;
    remember();
    ledger_refused(L, ASPA_REFUSED_LEDGER_MALFORMED);
    not_read(file, length, R, L, ASPA_REFUSED_LEDGER_MALFORMED, line);
    /* The register's fault goes first, and the ledger before the route. */
    put(file, ASPA_CONTENTS_BYTES / 4 + ASPA_COUNT_WORDS + ASPA_RECORD_CUSTOMER, 0);
    not_read(file, length, R, L, ASPA_REFUSED_REGISTER_MALFORMED, line);
    not_kept(BOTH_LENT, L, 7, from(9, 0, path, sizeof path), ASPA_REFUSED_LEDGER_MALFORMED, 0, line);
    /* Who is not lent the ledger does not look at it. */
    check(aspa_judge_route(BOTH, 1, 20, path, sizeof path).verdict == ASPA_VALID, "judged", line);
    check(aspa_clear(reg, R, 3, fresh()) == ASPA_OK && out[0] == 0, "cleared", line);
    check(unchanged(), "tables of a judging and a clearing of nothing", line);
    /* With another number, or the one that stood there, it is a ledger again, and so is the file's. */
    ledger[word] = 77;
    ledger_taken(line);
    ledger[word] = before;
    ledger_taken(line);
    put(file, ASPA_CONTENTS_BYTES / 4 + ASPA_COUNT_WORDS + ASPA_RECORD_CUSTOMER, 10);
    put(file, in_file, before);
    equal_ends();
    memset(reg, 0xAA, sizeof reg_before);
    memset(ledger, 0xAA, sizeof ledger_before);
    check(read_exactly(file, length, R, L, line) == ASPA_OK, "mended", line);
    check(unchanged(), "the tables of the file", line);
}

/* Two equal numbers side by side on a path are a fault; at the end of one path and the start of the next they are not. */
static void equal_neighbours_held(void) {
    /* The file of vector O as a version before 0.5.0 wrote it, and with its path merged. */
    static const uint32_t unmerged[] = {1, 20, 28, 48, 56, 1,  1, 10, 0, 0, 1, 20, 1,
                                        3, 13, 1,  20, 0,  1, 3, 0,  0, 3, 20, 20, 10};
    static const uint32_t mended[] = {1, 20, 28, 48, 52, 1,  1, 10, 0, 0, 1, 20, 1,
                                      2, 13, 1,  20, 0,  1, 3, 0,  0, 2, 20, 10};
    uint8_t file[sizeof unmerged];
    size_t i, j, n, word = ASPA_COUNT_WORDS + ASPA_ROUTE_WORDS * ENDS;
    equal_ends();
    ledger_taken(__LINE__);
    /* Each two neighbours of a path, either made equal to the other. A first number is free only from a route server. */
    for (i = 0; i < ENDS; i++) {
        n = until_zero(ends[i] + 2);
        for (j = 1; j < n; j++) {
            equal_neighbours(word + j, ends[i][2 + j - 1], __LINE__);
            if (j > 1 || ends[i][1] == ASPA_ROLE_ROUTE_SERVER)
                equal_neighbours(word + j - 1, ends[i][2 + j], __LINE__);
        }
        word += n;
    }
    CHECK(word == ASPA_COUNT_WORDS + ASPA_ROUTE_WORDS * ENDS + ledger[ASPA_COUNT_NUMBERS]);
    /* Each route goes, and other ends meet. */
    for (i = 0; i < ENDS; i++) {
        equal_ends();
        CHECK(aspa_drop(ledger, L, ends[i][0]) == ASPA_OK);
        CHECK(ledger[ASPA_COUNT_ENTRIES] == ENDS - 1);
        ledger_taken(__LINE__);
    }
    begin();
    for (i = 0; i < sizeof unmerged / sizeof *unmerged; i++)
        put(file, i, unmerged[i]);
    not_read(file, sizeof unmerged, R, L, ASPA_REFUSED_LEDGER_MALFORMED, __LINE__);
    for (i = 0; i < sizeof mended / sizeof *mended; i++)
        put(file, i, mended[i]);
    CHECK(read_exactly(file, sizeof mended, R, L, __LINE__) == ASPA_OK);
    CHECK(aspa_route(ledger, 0)[ASPA_ROUTE_NUMBER] == 13 && aspa_route(ledger, 0)[ASPA_ROUTE_VERDICT] == ASPA_INVALID);
    CHECK(aspa_rejudge(BOTH, ledger, L, fresh()) == ASPA_OK && out[0] == 1);
    CHECK(aspa_route(ledger, 0)[ASPA_ROUTE_VERDICT] == ASPA_VALID && aspa_route(ledger, 0)[ASPA_ROUTE_PLACE_A] == 0);
}

/* The file of both tables, made without the library, which writes none of malformed ones. Gives its length. */
static size_t file_of(uint8_t *file) {
    uint32_t reg_words = ASPA_COUNT_WORDS + ASPA_RECORD_WORDS * reg[ASPA_COUNT_ENTRIES] + reg[ASPA_COUNT_NUMBERS];
    uint32_t ledger_words = ASPA_COUNT_WORDS + ASPA_ROUTE_WORDS * ledger[ASPA_COUNT_ENTRIES] + ledger[ASPA_COUNT_NUMBERS];
    uint32_t i;
    put(file, 0, 1);
    put(file, 1, ASPA_CONTENTS_BYTES);
    put(file, 2, 4 * reg_words);
    put(file, 3, ASPA_CONTENTS_BYTES + 4 * reg_words);
    put(file, 4, 4 * ledger_words);
    for (i = 0; i < reg_words; i++)
        put(file + ASPA_CONTENTS_BYTES, i, reg[i]);
    for (i = 0; i < ledger_words; i++)
        put(file + ASPA_CONTENTS_BYTES + 4 * reg_words, i, ledger[i]);
    return ASPA_CONTENTS_BYTES + 4 * (size_t)(reg_words + ledger_words);
}

/* A path of 512 numbers and places of 512, on a path of any length, are the farthest that a ledger holds. */
static void farthest_held(void) {
    /* The count of a route's path, both places, and whether a ledger may hold them. */
    static const uint32_t cases[][4] = {{512, 512, 512, 1}, {512, 0, 0, 1},   {1, 512, 0, 1},   {1, 0, 512, 1},
                                        {513, 1, 512, 0},   {512, 513, 0, 0}, {1, 513, 512, 0}, {1, 512, 513, 0}};
    static uint8_t file[ASPA_SNAPSHOT_BYTES];
    size_t i, length;
    for (i = 0; i < sizeof cases / sizeof *cases; i++) {
        const uint32_t *c = cases[i];
        const uint32_t slot[] = {7, ASPA_ROLE_PROVIDER, 20, ASPA_GROUND_NONE, ASPA_UNKNOWN, c[1], c[2], 0, c[0]};
        begin();
        ledger[ASPA_COUNT_NUMBERS] = c[0];
        memcpy(ledger + ASPA_COUNT_WORDS, slot, sizeof slot);
        /* The path that `begin` keeps has two numbers. */
        ledger[ASPA_COUNT_WORDS + ASPA_ROUTE_WORDS + 1] = 0;
        ascending(ledger + ASPA_COUNT_WORDS + ASPA_ROUTE_WORDS, c[0], 20);
        length = file_of(file);
        remember();
        if (c[3]) {
            memset(ledger, 0xAA, sizeof ledger_before);
            CHECK(read_exactly(file, length, R, L, __LINE__) == ASPA_OK);
            CHECK(unchanged());
            ledger_taken(__LINE__);
        } else {
            ledger_refused(L, ASPA_REFUSED_LEDGER_MALFORMED);
            not_read(file, length, R, L, ASPA_REFUSED_LEDGER_MALFORMED, __LINE__);
        }
    }
}

/* Writes both tables, into an output with so many bytes more than the file has, and reads the file over other words. */
static void round_trip(uint32_t length, size_t more, int line) {
    uint8_t *output = output_of(length + more), *again = output_of(length);
    uint32_t *lent_reg = reg, *lent_ledger = ledger;
    remember();
    check(aspa_write(reg, R, ledger, L, output, length + more, fresh()) == ASPA_OK, "written", line);
    check(out[0] == length, "the file's length", line);
    check(untouched(output, length, length + more), "the output's bytes behind the file", line);
    check(unchanged(), "tables that are written", line);
    not_written(R, L, length - 1, ASPA_REFUSED_OUTPUT_LENGTH, line);
    reg = (uint32_t *)malloc(sizeof reg_before);
    ledger = (uint32_t *)malloc(sizeof ledger_before);
    if (reg == NULL || ledger == NULL)
        abort();
    memset(reg, 0xAA, sizeof reg_before);
    memset(ledger, 0xAA, sizeof ledger_before);
    check(read_exactly(output, length, R, L, line) == ASPA_OK, "read", line);
    check(unchanged(), "every word that was written", line);
    /* The same file again. */
    check(aspa_write(reg, R, ledger, L, again, length, fresh()) == ASPA_OK && out[0] == length, "written again", line);
    check(memcmp(output, again, length) == 0, "the same file", line);
    free(reg);
    free(ledger);
    reg = lent_reg;
    ledger = lent_ledger;
    free(output);
    free(again);
}

/* A word of the file of `begin` changed, and the row by which it is refused. */
static void damaged(size_t word, uint32_t value, uint32_t row, int line) {
    uint8_t file[BYTES_OF_BEGIN + 4];
    file_of_begin(file);
    put(file, word, value);
    not_read(file, BYTES_OF_BEGIN, R, L, row, line);
    /* The edition and the contents are judged before the file's length. */
    if (row == ASPA_REFUSED_EDITION || row == ASPA_REFUSED_CONTENTS) {
        not_read(file, BYTES_OF_BEGIN + 4, R, L, row, line);
        not_read(file, ASPA_CONTENTS_BYTES, R, L, row, line);
    }
    not_read(file, ASPA_CONTENTS_BYTES - 1, R, L, ASPA_REFUSED_SNAPSHOT_LENGTH, line);
}

#define DAMAGED(word, value, row) damaged(word, value, row, __LINE__)

/* Every single bit of a file: it is refused, or what it says is what writing gives again. */
static void every_bit(void) {
    uint8_t file[BYTES_OF_BEGIN + 4], again[BYTES_OF_BEGIN];
    size_t bit, accepted = 0;
    for (bit = 0; bit < 8 * BYTES_OF_BEGIN; bit++) {
        uint32_t row;
        begin();
        file_of_begin(file);
        file[bit / 8] = (uint8_t)(file[bit / 8] ^ 1 << bit % 8);
        row = read_exactly(file, BYTES_OF_BEGIN, R, L, __LINE__);
        if (row != ASPA_OK) {
            CHECK(row == ASPA_REFUSED_EDITION || row == ASPA_REFUSED_CONTENTS || row == ASPA_REFUSED_SNAPSHOT_LENGTH ||
                  row == ASPA_REFUSED_REGISTER_MALFORMED || row == ASPA_REFUSED_LEDGER_MALFORMED);
            CHECK(unchanged());
            continue;
        }
        accepted++;
        CHECK(!unchanged());
        CHECK(aspa_write(reg, R, ledger, L, again, BYTES_OF_BEGIN, fresh()) == ASPA_OK && out[0] == BYTES_OF_BEGIN);
        CHECK(memcmp(file, again, BYTES_OF_BEGIN) == 0);
    }
    /*
     * Accepted: every bit of the customer, the provider, the route's number and the origin; the sources 1, 2 and 4, the
     * roles 3 and 5, the verdicts 1 and 2, and for each place 1, 2, 4 and so on to 512. The first number of a path is
     * the neighbour, so neither can change alone.
     */
    CHECK(accepted == 4 * 32 + 3 + 2 + 2 + 2 * 10);
}

static void snapshots(void) {
    uint8_t file[BYTES_OF_BEGIN + 4], written[BYTES_OF_BEGIN];
    uint32_t n, i, providers[ASPA_MOST_PROVIDER_WORDS / ASPA_MOST_RECORDS];
    uint8_t bytes[2 + 4 * (ASPA_MOST_PATH_WORDS / ASPA_MOST_ROUTES)];
    begin();
    file_of_begin(file);
    CHECK(aspa_write(reg, R, ledger, L, written, sizeof written, fresh()) == ASPA_OK && out[0] == BYTES_OF_BEGIN);
    CHECK(memcmp(written, file, BYTES_OF_BEGIN) == 0);
    for (n = 0; n < BYTES_OF_BEGIN; n++)
        not_written(R, L, n, ASPA_REFUSED_OUTPUT_LENGTH, __LINE__);
    /* Any other length than the contents say. */
    for (n = 0; n < BYTES_OF_BEGIN; n++)
        not_read(file, n, R, L, ASPA_REFUSED_SNAPSHOT_LENGTH, __LINE__);
    for (n = 1; n <= 4; n++)
        not_read(file, BYTES_OF_BEGIN + n, R, L, ASPA_REFUSED_SNAPSHOT_LENGTH, __LINE__);
    DAMAGED(0, 0, ASPA_REFUSED_EDITION);
    DAMAGED(0, 2, ASPA_REFUSED_EDITION);
    DAMAGED(0, UINT32_C(1) << 24, ASPA_REFUSED_EDITION);
    DAMAGED(0, UINT32_MAX, ASPA_REFUSED_EDITION);
    DAMAGED(1, 0, ASPA_REFUSED_CONTENTS);
    DAMAGED(1, 19, ASPA_REFUSED_CONTENTS);
    DAMAGED(1, 24, ASPA_REFUSED_CONTENTS);
    /* A start that follows, so that the length alone is wrong: too short, no whole words, longer than the table, and one
       whose sum with the start passes 2^32. */
    for (i = 0; i < 7; i++) {
        static const uint32_t lengths[] = {0, 4, 29, 30, 31, 4 * R + 4, UINT32_MAX - 19};
        file_of_begin(file);
        put(file, 2, lengths[i]);
        put(file, 3, 20 + lengths[i]);
        not_read(file, BYTES_OF_BEGIN, R, L, ASPA_REFUSED_CONTENTS, __LINE__);
    }
    DAMAGED(2, 24, ASPA_REFUSED_CONTENTS);
    DAMAGED(3, 47, ASPA_REFUSED_CONTENTS);
    DAMAGED(3, 52, ASPA_REFUSED_CONTENTS);
    DAMAGED(4, 0, ASPA_REFUSED_CONTENTS);
    DAMAGED(4, 4, ASPA_REFUSED_CONTENTS);
    DAMAGED(4, 51, ASPA_REFUSED_CONTENTS);
    DAMAGED(4, 4 * L + 4, ASPA_REFUSED_CONTENTS);
    DAMAGED(4, UINT32_MAX - 3, ASPA_REFUSED_CONTENTS);
    /* The longest that the contents may say, of another file. */
    DAMAGED(4, 4 * L, ASPA_REFUSED_SNAPSHOT_LENGTH);
    DAMAGED(4, 8, ASPA_REFUSED_SNAPSHOT_LENGTH);
    /* The counts and some words of the slots, and a list or a path that is cut or has a zero too many. */
    for (i = 0; i < 2; i++) {
        DAMAGED(5 + i, 0, ASPA_REFUSED_REGISTER_MALFORMED);
        DAMAGED(5 + i, 2, ASPA_REFUSED_REGISTER_MALFORMED);
        DAMAGED(5 + i, UINT32_MAX, ASPA_REFUSED_REGISTER_MALFORMED);
        DAMAGED(12 + i, 0, ASPA_REFUSED_LEDGER_MALFORMED);
        DAMAGED(12 + i, 3, ASPA_REFUSED_LEDGER_MALFORMED);
        DAMAGED(12 + i, UINT32_MAX, ASPA_REFUSED_LEDGER_MALFORMED);
    }
    DAMAGED(7, 0, ASPA_REFUSED_REGISTER_MALFORMED);
    DAMAGED(8, ASPA_GREATEST_SOURCE + 1, ASPA_REFUSED_REGISTER_MALFORMED);
    DAMAGED(9, 1, ASPA_REFUSED_REGISTER_MALFORMED);
    /* The list holds its own customer. */
    DAMAGED(7, 20, ASPA_REFUSED_REGISTER_MALFORMED);
    DAMAGED(11, 10, ASPA_REFUSED_REGISTER_MALFORMED);
    DAMAGED(15, 7, ASPA_REFUSED_LEDGER_MALFORMED);
    DAMAGED(18, ASPA_NO_VERDICT, ASPA_REFUSED_LEDGER_MALFORMED);
    DAMAGED(24, 0, ASPA_REFUSED_LEDGER_MALFORMED);
    /* Two equal numbers side by side on the path. */
    DAMAGED(24, 20, ASPA_REFUSED_LEDGER_MALFORMED);
    /* A zero behind a table is none of its words, though the table that it makes is well formed. */
    file_of_begin(file);
    put(file, 2, 32);
    put(file, 3, 52);
    memmove(file + 52, file + 48, 52);
    put(file, 12, 0);
    not_read(file, BYTES_OF_BEGIN + 4, R, L, ASPA_REFUSED_REGISTER_MALFORMED, __LINE__);
    file_of_begin(file);
    put(file, 4, 56);
    not_read(file, BYTES_OF_BEGIN + 4, R, L, ASPA_REFUSED_LEDGER_MALFORMED, __LINE__);
    /* Both tables are damaged: the register's row goes first. */
    put(file, 7, 0);
    not_read(file, BYTES_OF_BEGIN + 4, R, L, ASPA_REFUSED_REGISTER_MALFORMED, __LINE__);
    put(file, 7, 20);
    not_read(file, BYTES_OF_BEGIN + 4, R, L, ASPA_REFUSED_REGISTER_MALFORMED, __LINE__);
    every_bit();
    /* The tables of `begin`, empty ones, and full ones. */
    begin();
    round_trip(BYTES_OF_BEGIN, 0, __LINE__);
    round_trip(BYTES_OF_BEGIN, 33, __LINE__);
    empty_tables();
    round_trip(36, 0, __LINE__);
    for (n = 0; n < ASPA_MOST_RECORDS; n++) {
        for (i = 0; i < sizeof providers / sizeof *providers; i++)
            providers[i] = UINT32_MAX - 100 * n - 20 + i;
        CHECK(aspa_file(reg, R, n % 8, 1 + UINT32_C(4194301) * (n / 8), providers, i, fresh()) == ASPA_OK);
    }
    bytes[0] = 2;
    bytes[1] = ASPA_MOST_PATH_WORDS / ASPA_MOST_ROUTES;
    for (n = 0; n < ASPA_MOST_ROUTES; n++) {
        uint32_t first = 0;
        for (i = 2; i < sizeof bytes; i++)
            bytes[i] = (uint8_t)(31 * n + 5 * i);
        for (i = 2; i < 6; i++)
            first = first << 8 | bytes[i];
        CHECK(aspa_keep_route(BOTH, ledger, L, UINT32_MAX - 3 * n, 1 + n % 6, first, bytes, sizeof bytes).refusal == ASPA_OK);
    }
    CHECK(reg[ASPA_COUNT_ENTRIES] == ASPA_MOST_RECORDS && reg[ASPA_COUNT_NUMBERS] == ASPA_MOST_PROVIDER_WORDS);
    CHECK(ledger[ASPA_COUNT_ENTRIES] == ASPA_MOST_ROUTES && ledger[ASPA_COUNT_NUMBERS] == ASPA_MOST_PATH_WORDS);
    CHECK(ASPA_SNAPSHOT_BYTES == 100388);
    round_trip(ASPA_SNAPSHOT_BYTES, 0, __LINE__);
    round_trip(ASPA_SNAPSHOT_BYTES, 1, __LINE__);
}

/* Sixteen routes of 512 numbers fill a ledger. */
static void sixteen_routes(void) {
    uint8_t attribute[ASPA_MOST_ATTRIBUTE_BYTES], one[2 + 4];
    uint32_t numbers[ASPA_MOST_PATH], n;
    size_t length;
    begin();
    CHECK(aspa_drop(ledger, L, 7) == ASPA_OK);
    add_sequence(one, 0, ascending(numbers, ASPA_MOST_PATH, 20), 1);
    length = add_sequence(attribute, 0, numbers, ASPA_MOST_PATH);
    for (n = 0; n < 16; n++)
        CHECK(aspa_keep_route(BOTH, ledger, L, n, 1 + n % 6, 20, attribute, length).refusal == ASPA_OK);
    CHECK(ledger[ASPA_COUNT_ENTRIES] == 16 && ledger[ASPA_COUNT_NUMBERS] == 8192);
    remember();
    not_kept(BOTH_LENT, L, 16, from(1, 20, one, sizeof one), ASPA_REFUSED_LEDGER_FULL, 0, __LINE__);
    not_kept(BOTH_LENT, L, 16, from(1, 20, attribute, length), ASPA_REFUSED_LEDGER_FULL, 0, __LINE__);
    round_trip(ASPA_CONTENTS_BYTES + 4 * (7 + 2 + 16 * 9 + 8192), 0, __LINE__);
    /* A route with a ground has no path to keep. */
    CHECK(aspa_keep_route(BOTH, ledger, L, 16, 1, 21, attribute, length).ground == ASPA_GROUND_NOT_NEIGHBOUR);
    CHECK(ledger[ASPA_COUNT_ENTRIES] == 17 && ledger[ASPA_COUNT_NUMBERS] == 8192);
    CHECK(aspa_rejudge(BOTH, ledger, L, fresh()) == ASPA_OK && out[0] == 0);
    /* What a drop leaves free is taken to the last word. */
    CHECK(aspa_drop(ledger, L, 5) == ASPA_OK);
    CHECK(aspa_keep_route(BOTH, ledger, L, 17, 1, 20, one, sizeof one).refusal == ASPA_OK);
    remember();
    not_kept(BOTH_LENT, L, 5, from(1, 20, attribute, length), ASPA_REFUSED_LEDGER_FULL, 0, __LINE__);
    length = add_sequence(attribute, 0, numbers, ASPA_MOST_PATH - 1);
    CHECK(aspa_keep_route(BOTH, ledger, L, 5, 1, 20, attribute, length).refusal == ASPA_OK);
    CHECK(ledger[ASPA_COUNT_NUMBERS] == 8192);
}

/* Where a length is 0 nothing is read, so the pointer may be null. */
static void null_pointers(void) {
    uint32_t words[ASPA_ANSWER_WORDS];
    int32_t gap;
    aspa_answer a;
    begin();
    REFUSED_FILING(aspa_file(NULL, 0, 0, 10, provider, 1, fresh()), ASPA_REFUSED_TABLE_LENGTH);
    REFUSED_FILING(aspa_file(reg, R, 0, 10, NULL, 0, fresh()), ASPA_REFUSED_PROVIDERS);
    REFUSED(aspa_withdraw(NULL, 0, 0, 10), ASPA_REFUSED_TABLE_LENGTH);
    REFUSED_COUNT(aspa_clear(NULL, 0, 0, fresh()), ASPA_REFUSED_TABLE_LENGTH);
    REFUSED(aspa_judge(NULL, 0, overrides, R, 1, 20, path, sizeof path, words, &gap), ASPA_REFUSED_TABLE_LENGTH);
    CHECK(words[ASPA_ANSWER_VERDICT] == ASPA_NO_VERDICT);
    REFUSED(aspa_judge(reg, R, NULL, 0, 1, 20, path, sizeof path, words, &gap), ASPA_REFUSED_TABLE_LENGTH);
    CHECK(words[ASPA_ANSWER_VERDICT] == ASPA_NO_VERDICT);
    no_hop(lend(NULL, 0, NULL, 0), 10, 20, ASPA_REFUSED_TABLE_LENGTH, __LINE__);
    no_hop(lend(reg, R, NULL, 0), 10, 20, ASPA_REFUSED_TABLE_LENGTH, __LINE__);
    no_list(lend(NULL, 0, NULL, 0), 0, 10, __LINE__);
    no_list(lend(NULL, 0, overrides, R), 3, ELSEWHERE, __LINE__);
    no_list(lend(reg, R, NULL, 0), 0, 10, __LINE__);
    REFUSED(aspa_keep(BOTH, NULL, 0, 1, 1, 20, path, sizeof path, words, &gap), ASPA_REFUSED_TABLE_LENGTH);
    CHECK(words[ASPA_ANSWER_VERDICT] == ASPA_NO_VERDICT);
    REFUSED(aspa_drop(NULL, 0, 7), ASPA_REFUSED_TABLE_LENGTH);
    REFUSED_COUNT(aspa_rejudge(NULL, 0, NULL, 0, NULL, 0, fresh()), ASPA_REFUSED_TABLE_LENGTH);
    REFUSED_WRITING(aspa_write(NULL, 0, NULL, 0, NULL, 0, fresh()), ASPA_REFUSED_TABLE_LENGTH);
    REFUSED_WRITING(aspa_write(reg, R, ledger, L, NULL, 0, fresh()), ASPA_REFUSED_OUTPUT_LENGTH);
    REFUSED(aspa_read(NULL, 0, NULL, 0, NULL, 0), ASPA_REFUSED_TABLE_LENGTH);
    REFUSED(aspa_read(NULL, 0, reg, R, ledger, L), ASPA_REFUSED_SNAPSHOT_LENGTH);
    a = aspa_judge_route(BOTH, 1, 20, NULL, 0);
    CHECK(a.refusal == ASPA_OK && a.verdict == ASPA_INVALID && a.ground == ASPA_GROUND_EMPTY);
    a = aspa_keep_route(BOTH, ledger, L, 8, 1, 20, NULL, 0);
    CHECK(a.refusal == ASPA_OK && a.verdict == ASPA_INVALID && a.ground == ASPA_GROUND_EMPTY);
}

/* Names and sentences, and the words of a record and of a route by their names. */
static void conveniences(void) {
    static const uint32_t providers[] = {20, 30};
    const uint32_t *slot;
    uint32_t n;
    begin();
    CHECK(aspa_file(reg, R, 2, 11, providers, 2, fresh()) == ASPA_OK);
    CHECK(reg[ASPA_COUNT_ENTRIES] == 2 && reg[ASPA_COUNT_NUMBERS] == 3);
    slot = aspa_record(reg, 1);
    CHECK(slot[ASPA_RECORD_CUSTOMER] == 11 && slot[ASPA_RECORD_SOURCE] == 2 && slot[ASPA_RECORD_COUNT] == 2);
    CHECK(memcmp(aspa_providers(reg, 0), provider, sizeof provider) == 0);
    CHECK(memcmp(aspa_providers(reg, 1), providers, sizeof providers) == 0);
    CHECK(aspa_keep_route(BOTH, ledger, L, 9, ASPA_ROLE_PROVIDER, 20, path, sizeof path).has_gap == 1);
    slot = aspa_route(ledger, 1);
    CHECK(slot[ASPA_ROUTE_NUMBER] == 9 && slot[ASPA_ROUTE_ROLE] == ASPA_ROLE_PROVIDER && slot[ASPA_ROUTE_NEIGHBOUR] == 20);
    CHECK(slot[ASPA_ROUTE_GROUND] == ASPA_GROUND_NONE && slot[ASPA_ROUTE_VERDICT] == ASPA_VALID);
    CHECK(slot[ASPA_ROUTE_PLACE_A] == 0 && slot[ASPA_ROUTE_PLACE_B] == 0 && slot[ASPA_ROUTE_COUNT] == 2);
    CHECK(aspa_path(ledger, 1)[0] == 20 && aspa_path(ledger, 1)[1] == 10);
    for (n = 0; n < 2; n++)
        CHECK(aspa_route(ledger, n)[ASPA_ROUTE_START] == 2 * n);
    CHECK(strcmp(aspa_verdict_name(ASPA_VALID), "Valid") == 0);
    CHECK(strcmp(aspa_verdict_name(ASPA_INVALID), "Invalid") == 0);
    CHECK(strcmp(aspa_verdict_name(ASPA_UNKNOWN), "Unknown") == 0);
    CHECK(strcmp(aspa_verdict_name(ASPA_NO_VERDICT), "no verdict") == 0);
    CHECK(strcmp(aspa_verdict_name(UINT32_MAX), "no verdict") == 0);
    CHECK(strcmp(aspa_hop_name(ASPA_NO_ATTESTATION), "No Attestation") == 0);
    CHECK(strcmp(aspa_hop_name(ASPA_PROVIDER_PLUS), "Provider+") == 0);
    CHECK(strcmp(aspa_hop_name(ASPA_NOT_PROVIDER_PLUS), "Not Provider+") == 0);
    CHECK(strcmp(aspa_hop_name(ASPA_NO_HOP), "no hop") == 0);
    CHECK(strcmp(aspa_origin_name(ASPA_ORIGIN_PUBLIC), "public") == 0);
    CHECK(strcmp(aspa_origin_name(ASPA_ORIGIN_OVERRIDES), "overrides") == 0);
    CHECK(strcmp(aspa_origin_name(ASPA_ORIGIN_NONE), "none") == 0);
    CHECK(strcmp(aspa_origin_name(UINT32_MAX), "none") == 0);
    CHECK(strcmp(aspa_refusal_name(ASPA_OK), "OK") == 0);
    CHECK(strcmp(aspa_refusal_name(ASPA_REFUSED_CUT_SHORT), "CUT_SHORT") == 0);
    CHECK(strcmp(aspa_refusal_sentence(ASPA_REFUSED_CUSTOMER), "the customer is 0") == 0);
    CHECK(strcmp(aspa_refusal_name(LAST_ROW + 1), "UNKNOWN") == 0);
    CHECK(strcmp(aspa_refusal_sentence(UINT32_MAX), "no refusal has this number") == 0);
    for (n = 1; n <= LAST_ROW; n++) {
        CHECK(strcmp(aspa_refusal_name(n), "UNKNOWN") != 0);
        CHECK(strcmp(aspa_refusal_name(n), aspa_refusal_name(n - 1)) != 0);
        CHECK(strcmp(aspa_refusal_sentence(n), aspa_refusal_sentence(n - 1)) != 0);
    }
}

int main(void) {
    uint32_t row;
    reg = (uint32_t *)malloc(sizeof reg_before);
    overrides = (uint32_t *)malloc(sizeof overrides_before);
    ledger = (uint32_t *)malloc(sizeof ledger_before);
    if (reg == NULL || overrides == NULL || ledger == NULL)
        abort();
    wrong_lengths();
    malformed();
    orders();
    register_calls();
    own_customer_filed();
    own_customer_held();
    routes();
    origins();
    override_and_back();
    hops();
    lookups();
    full_registers();
    runs();
    longest_attributes();
    longest_paths();
    equal_neighbours_held();
    farthest_held();
    snapshots();
    sixteen_routes();
    null_pointers();
    conveniences();
    for (row = 1; row <= LAST_ROW; row++)
        CHECK(rows_seen[row] > 0);
    free(reg);
    free(overrides);
    free(ledger);
    printf("%d checks, %d failed\n", checks, failures);
    return failures != 0;
}
