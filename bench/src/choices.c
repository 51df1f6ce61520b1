// Times the audit, and choose and lay_out in turn, against the build, in one program, and parts of an audit against the whole. On every
// list the tables are compared before anything is timed, and a choice that is not first fit's is laid out, audited and looked up in.
// Prints one line of words for each function and list.
#include "clock.h"
#include "lists.h"
#include "table.h"
#include <stdio.h>
#include <stdlib.h>
#include <string.h>

enum { HEADERS = 256, LONGEST = CUY_MAX_TABLE, NO_DATES = 0 };

static struct list list;
static size_t length, table_length, b;
static uint16_t run[MOST_RULES];
static _Alignas(4096) uint16_t table[LONGEST], laid[LONGEST];
static uint64_t answer[7];

// Each of these is one call, but for the two in turn.
static void pass_build(void) { cuy_build(list.d, NO_DATES, list.numbers, length, table, table_length, answer); }
static void pass_audit(void) { cuy_audit(list.d, NO_DATES, list.numbers, length, table, table_length, answer); }
static void pass_choose(void) { cuy_choose(list.d, NO_DATES, list.numbers, length, run, list.n, answer); }
static void pass_lay_out(void) { cuy_lay_out(list.d, NO_DATES, list.numbers, length, run, list.n, laid, table_length, answer); }
static void pass_choose_lay_out(void) { pass_choose(), pass_lay_out(); }
static void pass_check(void) { cuy_check(list.d, NO_DATES, list.numbers, length, answer); }

// Tables with one number altered, of which the audit says no when it comes there: n, the last start, the last rule of the order, the last
// of the smallest rule numbers.
enum { AT_N, AT_LAST_START, AT_LAST_RULE, AT_LAST_LEAST, WRONG };
static _Alignas(4096) uint16_t wrong[WRONG][LONGEST];
static void audit_wrong(int k) { cuy_audit(list.d, NO_DATES, list.numbers, length, wrong[k], table_length, answer); }
static void pass_until_n(void) { audit_wrong(AT_N); }
static void pass_until_last_start(void) { audit_wrong(AT_LAST_START); }
static void pass_until_last_rule(void) { audit_wrong(AT_LAST_RULE); }
static void pass_until_last_least(void) { audit_wrong(AT_LAST_LEAST); }

static void fail(const char *what, const char *character) {
    fprintf(stderr, "bench: choices: %s, on %s of %zu rules, %zu fields\n", what, character, list.n, list.d);
    exit(1);
}

// Stops where a call is refused, or does not answer this number.
static void hold(void (*pass)(void), uint64_t expected, const char *what, const char *character) {
    memset(answer, 255, sizeof answer);
    pass();
    if (answer[0] != 0 || answer[3] != expected) fail(what, character);
}

// Stops where the two in turn do not write what the build writes, or where audit says no to it.
static void compare(const char *character) {
    memset(table, 255, sizeof table);
    memset(laid, 255, sizeof laid);
    memset(run, 255, sizeof run);
    pass_build();
    if (answer[0] != 0) fail("a sound list is refused", character);
    b = answer[3];
    hold(pass_choose, b, "choose is refused, or opens other partitions than the build", character);
    hold(pass_lay_out, b, "lay_out is refused, or has other partitions than the build", character);
    if (memcmp(table, laid, sizeof table) != 0) fail("choose and lay_out in turn are not the build", character);
    hold(pass_audit, 1, "audit says no to what was built", character);
}

// Stops where a brought choice, first fit's with the last partition first, is refused, not read or audited no, or where a lookup in its
// table is not the first match. Leaves first fit's choice and its table.
static void bring(const char *character) {
    static uint32_t headers[HEADERS][8];
    struct draw from = {SEED};
    for (size_t i = 0; i < list.n; i++) run[i] = (uint16_t)(b - 1 - run[i]);
    memset(laid, 255, sizeof laid);
    hold(pass_lay_out, b, "a brought choice is refused", character);
    if (1 < b && memcmp(table, laid, sizeof table) == 0) fail("a brought choice is laid out as first fit's", character);
    cuy_audit(list.d, NO_DATES, list.numbers, length, laid, table_length, answer);
    if (answer[0] != 0 || answer[3] != 1) fail("audit says no to a brought choice laid out", character);
    headers_for(&list, &from, headers, HEADERS);
    for (size_t i = 0; i < HEADERS; i++) {
        uint64_t found[7], scanned[5];
        cuy_lookup(list.d, NO_DATES, list.numbers, length, laid, table_length, headers[i], found);
        cuy_plain_scan(list.d, NO_DATES, list.numbers, length, headers[i], scanned);
        if (found[0] != 0 || scanned[0] != 0 || found[3] != scanned[3] || found[4] != scanned[4]) fail("a lookup in the table of a brought choice is not the first match", character);
    }
    compare(character);
}

// Lets contenders take turns and prints of each but the first: function, character, n, d, b, its time over the first's, and the
// nanoseconds of one call of the first and of itself.
static void time_all(struct contender *those, size_t m, const char *character) {
    double ratios[MOST_CONTENDERS];
    take_ratios(those, m, 2e6, ratios);
    for (size_t k = 1; k < m; k++)
        printf("%s %s %zu %zu %zu %.6f %.2f %.2f\n", those[k].name, character, list.n, list.d, b, ratios[k], those[0].nanoseconds, those[k].nanoseconds);
    fflush(stdout);
}

// Compares on the list that was drawn, then times the audit against the build and, where that is wanted, the two in turn and each alone.
static void measure(const char *character, int in_turn) {
    length = list.n * 2 * list.d;
    table_length = CUY_TABLE_LENGTH(list.n, list.d);
    compare(character);
    bring(character);
    struct contender those[] = {{"build", pass_build, 1, 0}, {"audit", pass_audit, 1, 0}, {"choose_lay_out", pass_choose_lay_out, 1, 0},
                                {"choose", pass_choose, 1, 0}, {"lay_out", pass_lay_out, 1, 0}};
    time_all(those, in_turn ? 5 : 2, character);
}

// Times the parts of an audit of the list that was measured last, which has fewer partitions than rules.
static void measure_parts(const char *character) {
    for (int k = 0; k < WRONG; k++) memcpy(wrong[k], table, sizeof table);
    wrong[AT_N][0]++;
    wrong[AT_LAST_START][starts_at(list.n) + list.n] = 1;
    wrong[AT_LAST_RULE][ORDER_AT + list.n - 1] = table[ORDER_AT];
    wrong[AT_LAST_LEAST][least_at(list.n) + list.n - 1] = 1;
    hold(pass_until_n, 0, "audit says yes to another n", character);
    hold(pass_until_last_start, 0, "audit says yes to another last start", character);
    hold(pass_until_last_rule, 0, "audit says yes to a rule twice", character);
    hold(pass_until_last_least, 0, "audit says yes to another last smallest rule number", character);
    struct contender those[] = {{"audit", pass_audit, 1, 0}, {"check", pass_check, 1, 0}, {"until_n", pass_until_n, 1, 0},
                                {"until_last_start", pass_until_last_start, 1, 0}, {"until_last_rule", pass_until_last_rule, 1, 0},
                                {"until_last_least", pass_until_last_least, 1, 0}};
    time_all(those, 6, character);
}

int main(void) {
    static const size_t sizes[] = {16, 128, 512, 1024}, smaller[] = {128, 256, 512};
    struct draw from = {SEED};
    // The lists of the build's own bench, drawn in the same order; then smaller ones, for how an audit grows.
    for (size_t k = 0; k < 4; k++) access_list(&list, &from, sizes[k]), measure("access_list", 1);
    measure_parts("access_list");
    points(&list, &from, 1024, 5), measure("points", 1);
    prefixes(&list, &from, 1024), measure("prefixes", 1);
    twins(&list, 1024, 8), measure("twins", 1);
    nested(&list, 1024, 8), measure("nested", 1);
    access_list(&list, &from, 256), measure("access_list", 0);
    for (size_t k = 0; k < 3; k++) points(&list, &from, smaller[k], 5), measure("points", 0);
    for (size_t k = 0; k < 3; k++) prefixes(&list, &from, smaller[k]), measure("prefixes", 0);
    for (size_t k = 0; k < 3; k++) twins(&list, smaller[k], 8), measure("twins", 0);
    for (size_t k = 0; k < 3; k++) nested(&list, smaller[k], 8), measure("nested", 0);
    return 0;
}
