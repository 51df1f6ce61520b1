// Times the proved lookup against the proved scan, the same walk as a plain loop in Rust and in C, a plain scan in C and, where it is
// there, librte_acl. Every answer is compared before anything is timed. Prints one line of words for each list.
#include "clock.h"
#include "lists.h"
#include "plain.h"
#include "proved.h"
#ifdef WITH_ACL
#include "acl.h"
#endif
#include <stdio.h>
#include <stdlib.h>

enum { HEADERS = 2048, BATCH = 64 };

struct plain_answer rust_lookup(size_t d, const uint32_t *list, size_t length, const uint16_t *table, size_t table_length, const uint32_t *header);

static struct list list;
static uint16_t table[CUY_MAX_TABLE];
static size_t length, table_length;
static uint32_t headers[HEADERS][8];
static volatile uint64_t kept; // what the passes add up, so that no call is left out

typedef struct plain_answer look(size_t d, const uint32_t *list, size_t length, const uint16_t *table, size_t table_length, const uint32_t *header);

// Looks all headers up in one way; inlined into each pass, so that its call is a direct one.
static inline __attribute__((always_inline)) void look_up_all(look *one) {
    uint64_t sum = 0;
    for (size_t k = 0; k < HEADERS; k++) {
        struct plain_answer a = one(list.d, list.numbers, length, table, table_length, headers[k]);
        sum += a.tests + (uint32_t)a.rule + a.edge;
    }
    kept = sum;
}

static void pass_proved(void) { look_up_all(proved_lookup); }
static void pass_rust(void) { look_up_all(rust_lookup); }
static void pass_c(void) { look_up_all(plain_lookup); }

static void pass_proved_scan(void) {
    uint64_t sum = 0;
    for (size_t k = 0; k < HEADERS; k++) sum += (uint32_t)proved_scan(list.d, list.numbers, length, headers[k]);
    kept = sum;
}

static void pass_c_scan(void) {
    uint64_t sum = 0;
    for (size_t k = 0; k < HEADERS; k++) sum += (uint32_t)plain_scan(list.n, list.d, list.numbers, headers[k]);
    kept = sum;
}

#ifdef WITH_ACL
static int acl_there; // whether DPDK has started
static struct acl_key keys[HEADERS];
static const uint8_t *key_at[HEADERS];
static uint32_t results[HEADERS];

static void pass_acl_batch(void) {
    for (size_t k = 0; k < HEADERS; k += BATCH) acl_classify(key_at + k, results + k, BATCH);
    kept = results[HEADERS - 1];
}

static void pass_acl_single(void) {
    for (size_t k = 0; k < HEADERS; k++) acl_classify(key_at + k, results + k, 1);
    kept = results[HEADERS - 1];
}
#endif

static void fail(const char *what, const char *character, size_t k) {
    fprintf(stderr, "bench: %s differs on %s, %zu rules, header %zu\n", what, character, list.n, k);
    exit(1);
}

static int same(struct plain_answer a, struct plain_answer b) { return a.refusal == b.refusal && a.tests == b.tests && a.rule == b.rule && a.edge == b.edge; }

// Builds the table, compares all answers, times, and prints: character, n, d, b, mean tests, hits of 100, then the nanoseconds of each.
static void measure(const char *character, struct draw *from) {
    length = list.n * 2 * list.d;
    table_length = CUY_TABLE_LENGTH(list.n, list.d);
    int b = plain_build(list.d, list.numbers, length, table, table_length);
    headers_for(&list, from, headers, HEADERS);
    struct contender those[MOST_CONTENDERS] = {
        {"proved", pass_proved, HEADERS, 0}, {"rust", pass_rust, HEADERS, 0}, {"c", pass_c, HEADERS, 0},
        {"scan", pass_proved_scan, HEADERS, 0}, {"c_scan", pass_c_scan, HEADERS, 0}};
    size_t m = 5;
#ifdef WITH_ACL
    int with_acl = acl_there && list.d == 5 && acl_build(list.n, list.numbers) == 0;
    if (with_acl) {
        for (size_t k = 0; k < HEADERS; k++) {
            keys[k] = acl_key_of(headers[k]);
            key_at[k] = (const uint8_t *)&keys[k];
        }
        acl_classify(key_at, results, HEADERS);
        those[m++] = (struct contender){"acl_batch", pass_acl_batch, HEADERS, 0};
        those[m++] = (struct contender){"acl_single", pass_acl_single, HEADERS, 0};
    }
#endif
    uint64_t tests = 0, hits = 0;
    for (size_t k = 0; k < HEADERS; k++) {
        struct plain_answer a = proved_lookup(list.d, list.numbers, length, table, table_length, headers[k]);
        if (a.refusal != 0) fail("the proved lookup refuses: it", character, k);
        if (!same(a, rust_lookup(list.d, list.numbers, length, table, table_length, headers[k]))) fail("the Rust walk", character, k);
        if (!same(a, plain_lookup(list.d, list.numbers, length, table, table_length, headers[k]))) fail("the C walk", character, k);
        if (a.rule != proved_scan(list.d, list.numbers, length, headers[k])) fail("the proved scan", character, k);
        if (a.rule != plain_scan(list.n, list.d, list.numbers, headers[k])) fail("the C scan", character, k);
#ifdef WITH_ACL
        if (with_acl && results[k] != (uint32_t)(a.rule + 1)) fail("librte_acl", character, k);
#endif
        tests += a.tests;
        hits += a.rule >= 0;
    }
    take_turns(those, m, 2e6);
    printf("lookup %s %zu %zu %d %.2f %.0f", character, list.n, list.d, b, (double)tests / HEADERS, 100.0 * (double)hits / HEADERS);
    for (size_t k = 0; k < 7; k++)
        if (k < m) printf(" %.2f", those[k].nanoseconds);
        else printf(" -");
    printf("\n");
    fflush(stdout);
#ifdef WITH_ACL
    acl_drop();
#endif
}

int main(void) {
    static const size_t sizes[] = {16, 128, 512, 1024}, widths[] = {1, 2, 5, 8}, counts[] = {1, 4, 16, 64, 256, 1024};
    struct draw from = {SEED};
#ifdef WITH_ACL
    acl_there = acl_start() == 0;
    if (acl_there) printf("acl %s\n", acl_name());
    else fprintf(stderr, "bench: librte_acl is left out: DPDK does not start\n");
#endif
    for (size_t k = 0; k < 4; k++) points(&list, &from, sizes[k], 5), measure("points", &from);
    for (size_t k = 0; k < 4; k++) access_list(&list, &from, sizes[k]), measure("access_list", &from);
    for (size_t k = 0; k < 4; k++) prefixes(&list, &from, sizes[k]), measure("prefixes", &from);
    for (size_t k = 0; k < 4; k++) nested(&list, sizes[k], 5), measure("nested", &from);
    for (size_t k = 0; k < 4; k++) points(&list, &from, 1024, widths[k]), measure("fields", &from);
    for (size_t k = 0; k < 6; k++) layers(&list, 1024, 5, counts[k]), measure("partitions", &from);
    return 0;
}
