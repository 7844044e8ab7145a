/*
 * Files records from two sources, judges and keeps routes, and judges them again as records come and go. Then writes a
 * snapshot of the public register and the ledger and reads it back. Last, a public record is wrong, and an override of
 * the operator's own takes its place.
 */
#include <inttypes.h>
#include <stdint.h>
#include <stdio.h>
#include <string.h>

#include "aspa_filter.h"

static uint32_t reg[ASPA_REGISTER_WORDS];
static uint32_t overrides[ASPA_REGISTER_WORDS];
static uint32_t ledger[ASPA_LEDGER_WORDS];

/* Both registers, as every call that judges is lent them. */
#define REGISTERS reg, ASPA_REGISTER_WORDS, overrides, ASPA_REGISTER_WORDS

/* A segment's count is one byte. */
#define MOST_IN_SEGMENT 255

/* An AS_PATH attribute. */
typedef struct attribute {
    uint8_t bytes[ASPA_MOST_ATTRIBUTE_BYTES];
    size_t length;
} attribute;

/*
 * A path of four-byte numbers, the neighbour first and the origin last: one sequence, or several if it is too long for one. Returns 0 if
 * there are no numbers, or too many for an attribute.
 */
static int sequences(attribute *to, const uint32_t *path, size_t n) {
    size_t at = 0, segments = n / MOST_IN_SEGMENT + (n % MOST_IN_SEGMENT != 0);
    if (n == 0 || n > sizeof to->bytes / 4 || 2 * segments + 4 * n > sizeof to->bytes)
        return 0;
    for (size_t i = 0; i < n; i++) {
        if (i % MOST_IN_SEGMENT == 0) {
            to->bytes[at++] = 2;
            to->bytes[at++] = (uint8_t)(n - i < MOST_IN_SEGMENT ? n - i : MOST_IN_SEGMENT);
        }
        for (int shift = 24; shift >= 0; shift -= 8)
            to->bytes[at++] = (uint8_t)(path[i] >> shift);
    }
    to->length = at;
    return 1;
}

static void print_refusal(uint32_t refusal) {
    printf("refused by %" PRIu32 ", %s", refusal, aspa_refusal_sentence(refusal));
}

static void print_result(const char *call, uint32_t refusal) {
    printf("%s: ", call);
    if (refusal == ASPA_OK)
        printf("done");
    else
        print_refusal(refusal);
    printf("\n");
}

static void print_answer(const char *call, aspa_answer answer) {
    printf("%s: ", call);
    if (answer.refusal != ASPA_OK) {
        print_refusal(answer.refusal);
        if (answer.refusal >= ASPA_REFUSED_CUT_SHORT && answer.refusal <= ASPA_REFUSED_AS_ZERO)
            printf(", at byte %" PRIu32, answer.refusal_place);
        printf("\n");
        return;
    }
    printf("%s", aspa_verdict_name(answer.verdict));
    if (answer.ground != ASPA_GROUND_NONE)
        printf(", ground %" PRIu32, answer.ground);
    else if (answer.verdict != ASPA_VALID)
        printf(" %" PRIu32 ", %" PRIu32, answer.place_a, answer.place_b);
    if (answer.origin_a != ASPA_ORIGIN_NONE)
        printf(" by %s", aspa_origin_name(answer.origin_a));
    if (answer.origin_b != ASPA_ORIGIN_NONE)
        printf(" and %s", aspa_origin_name(answer.origin_b));
    if (answer.has_gap)
        printf(", gap %" PRId32, answer.gap);
    printf("\n");
}

/* Into the register that is meant. */
static void file(uint32_t *into, uint32_t source, uint32_t customer, const uint32_t *providers, size_t n) {
    uint32_t out[1];
    uint32_t refusal = aspa_file(into, ASPA_REGISTER_WORDS, source, customer, providers, n, out);
    printf("%s source %" PRIu32 " customer %" PRIu32 ": ", into == reg ? "file" : "override", source, customer);
    if (refusal != ASPA_OK)
        print_refusal(refusal);
    else
        printf("%s", out[0] == ASPA_NEW ? "new" : "replaced");
    printf("\n");
}

static void judge(uint32_t role, const uint32_t *path, size_t n) {
    attribute a;
    if (!sequences(&a, path, n)) {
        printf("judge: %zu numbers make no attribute\n", n);
        return;
    }
    print_answer("judge", aspa_judge_route(REGISTERS, role, path[0], a.bytes, a.length));
}

static void keep(uint32_t route, uint32_t role, const uint32_t *path, size_t n) {
    attribute a;
    if (!sequences(&a, path, n)) {
        printf("keep: %zu numbers make no attribute\n", n);
        return;
    }
    print_answer("keep", aspa_keep_route(REGISTERS, ledger, ASPA_LEDGER_WORDS, route, role, path[0], a.bytes, a.length));
}

static void rejudge(void) {
    uint32_t out[1];
    uint32_t refusal = aspa_rejudge(REGISTERS, ledger, ASPA_LEDGER_WORDS, out);
    if (refusal != ASPA_OK) {
        print_result("rejudge", refusal);
        return;
    }
    printf("rejudge: %" PRIu32 " changed\n", out[0]);
    for (uint32_t i = 0; i < ledger[ASPA_COUNT_ENTRIES]; i++) {
        const uint32_t *route = aspa_route(ledger, i);
        printf("  route %" PRIu32 ": %s %" PRIu32 ", %" PRIu32 "\n", route[ASPA_ROUTE_NUMBER],
               aspa_verdict_name(route[ASPA_ROUTE_VERDICT]), route[ASPA_ROUTE_PLACE_A], route[ASPA_ROUTE_PLACE_B]);
    }
}

static void clear(uint32_t source) {
    uint32_t out[1];
    uint32_t refusal = aspa_clear(reg, ASPA_REGISTER_WORDS, source, out);
    if (refusal != ASPA_OK)
        print_result("clear", refusal);
    else
        printf("clear: %" PRIu32 " went\n", out[0]);
}

/* What a hop is, and the lists that say so. */
static void hop(uint32_t x, uint32_t y) {
    uint32_t out[ASPA_HOP_WORDS];
    uint32_t refusal = aspa_hop(REGISTERS, x, y, out);
    if (refusal != ASPA_OK) {
        print_result("hop", refusal);
        return;
    }
    printf("hop %" PRIu32 " to %" PRIu32 ": %s", x, y, aspa_hop_name(out[ASPA_HOP_KIND]));
    if (out[ASPA_HOP_ORIGIN] != ASPA_ORIGIN_NONE)
        printf(" by %s", aspa_origin_name(out[ASPA_HOP_ORIGIN]));
    if (out[ASPA_HOP_SOURCE] != ASPA_NO_SOURCE)
        printf(", source %" PRIu32, out[ASPA_HOP_SOURCE]);
    printf("\n");
    for (uint32_t source = 0; source <= ASPA_GREATEST_SOURCE; source++) {
        aspa_list list = aspa_list_of(REGISTERS, source, x);
        if (list.count == 0)
            continue;
        printf("  source %" PRIu32 ":", source);
        for (size_t i = 0; i < list.count; i++)
            printf(" %" PRIu32, list.providers[i]);
        printf("\n");
    }
}

/* Both tables as one file, and back into tables that start empty. A program would store the first `length` bytes. */
static void save_and_restore(void) {
    static uint8_t file[ASPA_SNAPSHOT_BYTES];
    uint32_t length[1];
    uint32_t refusal = aspa_write(reg, ASPA_REGISTER_WORDS, ledger, ASPA_LEDGER_WORDS, file, sizeof file, length);
    if (refusal != ASPA_OK) {
        print_result("write", refusal);
        return;
    }
    printf("write: %" PRIu32 " bytes\n", length[0]);
    memset(reg, 0, sizeof reg);
    memset(ledger, 0, sizeof ledger);
    print_result("read, one byte cut",
                 aspa_read(file, length[0] - 1, reg, ASPA_REGISTER_WORDS, ledger, ASPA_LEDGER_WORDS));
    print_result("read", aspa_read(file, length[0], reg, ASPA_REGISTER_WORDS, ledger, ASPA_LEDGER_WORDS));
}

int main(void) {
    static const uint32_t of_10[] = {20, 30}, of_20[] = {40}, of_20_too[] = {50}, of_40[] = {0}, of_50[] = {40};
    static const uint32_t of_60[] = {50, 60}, wrong[] = {30}, right[] = {20};
    static const uint32_t up[] = {50, 20, 10}, peak[] = {20, 10, 30}, over[] = {50, 40, 20, 10};
    static const uint8_t cut[] = {2};
    static uint32_t many[ASPA_MOST_PATH + 1];
    for (uint32_t i = 0; i <= ASPA_MOST_PATH; i++)
        many[i] = 1000 + i;

    printf("ASPA filter %s\n", ASPA_FILTER_VERSION);
    file(reg, 0, 10, of_10, 2);
    file(reg, 0, 20, of_20, 1);
    file(reg, 0, 40, of_40, 1);
    file(reg, 0, 50, of_50, 1);
    file(reg, 0, 60, NULL, 0);
    /* Nobody is a provider of its own. */
    file(reg, 0, 60, of_60, 2);

    judge(ASPA_ROLE_CUSTOMER, up, 3);
    judge(ASPA_ROLE_PROVIDER, peak, 3);
    judge(ASPA_ROLE_PROVIDER, over, 4);
    /* The longest path that is judged, one with a number more, and one without numbers. */
    judge(ASPA_ROLE_CUSTOMER, many, ASPA_MOST_PATH);
    judge(ASPA_ROLE_CUSTOMER, many, ASPA_MOST_PATH + 1);
    judge(ASPA_ROLE_CUSTOMER, many, 0);
    print_answer("judge", aspa_judge_route(REGISTERS, ASPA_ROLE_CUSTOMER, 20, cut, sizeof cut));
    print_answer("judge", aspa_judge_route(REGISTERS, ASPA_ROLE_CUSTOMER, 20, NULL, 0));

    keep(1, ASPA_ROLE_CUSTOMER, up, 3);
    keep(2, ASPA_ROLE_PROVIDER, peak, 3);
    keep(3, ASPA_ROLE_PROVIDER, over, 4);
    keep(3, ASPA_ROLE_PROVIDER, over, 4);
    rejudge();

    /* A second source attests another provider of 20: the lists of both are united. */
    file(reg, 1, 20, of_20_too, 1);
    rejudge();

    print_result("withdraw", aspa_withdraw(reg, ASPA_REGISTER_WORDS, 0, 10));
    print_result("withdraw", aspa_withdraw(reg, ASPA_REGISTER_WORDS, 0, 10));
    rejudge();

    clear(0);
    rejudge();

    print_result("drop", aspa_drop(ledger, ASPA_LEDGER_WORDS, 2));
    print_result("drop", aspa_drop(ledger, ASPA_LEDGER_WORDS, 2));
    rejudge();

    save_and_restore();
    /* The stored verdicts are as old as the file. */
    rejudge();

    /* The public record of 10 names 30 alone. The operator knows better: its provider is 20. */
    file(reg, 0, 10, wrong, 1);
    judge(ASPA_ROLE_CUSTOMER, up, 3);
    hop(10, 20);
    file(overrides, 0, 10, right, 1);
    judge(ASPA_ROLE_CUSTOMER, up, 3);
    hop(10, 20);
    rejudge();
    /* An override goes, and the public record counts again. */
    print_result("withdraw override", aspa_withdraw(overrides, ASPA_REGISTER_WORDS, 0, 10));
    judge(ASPA_ROLE_CUSTOMER, up, 3);
    return 0;
}
