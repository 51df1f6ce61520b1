/* Calls every function of the interface on 01's worked cases and on inputs that it refuses, and prints each answer: what is
 * answered, or refused, the number and the place. The prototypes of the header are held to the proved functions by this. No
 * field is a date here; due_date.c has dates. */
#include "cuyenalot.h"

#include <inttypes.h>
#include <stdio.h>

enum { FIELDS = 2, NO_DATES = 0, RULES = 5, NUMBERS = RULES * 2 * FIELDS, TABLE = CUY_TABLE_LENGTH(RULES, FIELDS) };

/* where a table has its first rule number, after n, d and b; and the first partition's smallest, after n + 1 starts */
enum { ORDER = 3, LEAST = ORDER + RULES + RULES + 1 };

/* the bench list */
static const uint32_t bench[NUMBERS] = {7, 7, 100, 100, 7, 7, 200, 299, 8, 8, 0, 999, 7, 7, 0, 999, 0, 9, 0, 999};

/* the same, but for rule 3, whose range in field 1 is 9-3 */
static const uint32_t crossed[NUMBERS] = {7, 7, 100, 100, 7, 7, 200, 299, 8, 8, 0, 999, 7, 7, 9, 3, 0, 9, 0, 999};

/* 1,025 rules of one field */
static const uint32_t many[2 * 1025];

static const uint32_t b4[8] = {7, 150}, b7[8] = {10, 0};

/* between the ends of rule 4 in both fields */
static const uint32_t plain[8] = {5, 5};

/* Prints a line: what was called, and the k numbers that it answered or its refusal. */
static void say(const char *what, uint32_t number, const uint64_t *answer, int k) {
    printf("%s:", what);
    if (number != 0) {
        printf(" refused %" PRIu32 " at %" PRIu64 " then %" PRIu64, number, answer[1], answer[2]);
        /* what is returned is written too, and a refusal answers nothing */
        if (answer[0] != number) printf(", answer[0] is %" PRIu64, answer[0]);
        for (int i = 0; i < k; i++)
            if (answer[3 + i] != 0) printf(", answer[%d] is %" PRIu64, 3 + i, answer[3 + i]);
    } else {
        for (int i = 0; i < k; i++) printf(" %" PRIu64, answer[3 + i]);
        for (int i = 0; i < 3; i++)
            if (answer[i] != 0) printf(", answer[%d] is %" PRIu64, i, answer[i]);
    }
    printf("\n");
}

static void check(const char *what, size_t d, const uint32_t *list, size_t length) {
    uint64_t answer[4] = {9, 9, 9, 9};
    uint32_t number = cuy_check(d, NO_DATES, list, length, answer);
    say(what, number, answer, 1);
}

static void scan(const char *what, const uint32_t *list, const uint32_t header[8]) {
    uint64_t answer[5] = {9, 9, 9, 9, 9};
    uint32_t number = cuy_plain_scan(FIELDS, NO_DATES, list, NUMBERS, header, answer);
    say(what, number, answer, 2);
}

static void independence(const char *what, const uint32_t *list, size_t length) {
    uint64_t answer[6] = {9, 9, 9, 9, 9, 9};
    uint32_t number = cuy_independence(FIELDS, NO_DATES, list, length, answer);
    say(what, number, answer, 3);
}

static void choose(const char *what, const uint32_t *list, size_t length, uint16_t *run, size_t run_length) {
    uint64_t answer[4] = {9, 9, 9, 9};
    uint32_t number = cuy_choose(FIELDS, NO_DATES, list, length, run, run_length, answer);
    say(what, number, answer, 1);
}

static void lay_out(const char *what, const uint32_t *list, size_t length, const uint16_t *run, size_t run_length,
                    uint16_t *table, size_t table_length) {
    uint64_t answer[4] = {9, 9, 9, 9};
    uint32_t number = cuy_lay_out(FIELDS, NO_DATES, list, length, run, run_length, table, table_length, answer);
    say(what, number, answer, 1);
}

static void build(const char *what, size_t d, const uint32_t *list, size_t length, uint16_t *table, size_t table_length) {
    uint64_t answer[4] = {9, 9, 9, 9};
    uint32_t number = cuy_build(d, NO_DATES, list, length, table, table_length, answer);
    say(what, number, answer, 1);
}

static void lookup(const char *what, const uint16_t *table, size_t table_length, const uint32_t header[8]) {
    uint64_t answer[7] = {9, 9, 9, 9, 9, 9, 9};
    uint32_t number = cuy_lookup(FIELDS, NO_DATES, bench, NUMBERS, table, table_length, header, answer);
    say(what, number, answer, 4);
}

static void audit(const char *what, const uint32_t *list, const uint16_t *table) {
    uint64_t answer[4] = {9, 9, 9, 9};
    uint32_t number = cuy_audit(FIELDS, NO_DATES, list, NUMBERS, table, TABLE, answer);
    say(what, number, answer, 1);
}

static void report(const char *what, const uint16_t *table, size_t partition) {
    uint64_t answer[5] = {9, 9, 9, 9, 9};
    uint32_t number = cuy_report(FIELDS, NO_DATES, bench, NUMBERS, table, TABLE, partition, answer);
    say(what, number, answer, 2);
}

static void range(const char *what, uint32_t width, uint32_t value, uint32_t length) {
    uint64_t answer[5] = {9, 9, 9, 9, 9};
    uint32_t number = cuy_prefix_to_range(width, value, length, answer);
    say(what, number, answer, 2);
}

static void prefixes(const char *what, uint32_t width, uint32_t low, uint32_t high, uint32_t *run, size_t run_length) {
    uint64_t answer[4] = {9, 9, 9, 9};
    uint32_t number = cuy_range_to_prefixes(width, low, high, run, run_length, answer);
    say(what, number, answer, 1);
}

static void show_table(const uint16_t *table, size_t length) {
    printf("table:");
    for (size_t i = 0; i < length; i++) printf(" %" PRIu16, table[i]);
    printf("\n");
}

static void show_choice(const uint16_t *choice, size_t length) {
    printf("choice:");
    for (size_t i = 0; i < length; i++) printf(" %" PRIu16, choice[i]);
    printf("\n");
}

static void show_run(const uint32_t *run, size_t length) {
    printf("run:");
    for (size_t i = 0; i < length; i++) printf(" %" PRIu32, run[i]);
    printf("\n");
}

/* The longest list, its table, and the numbers that say how long they are. */
static void limits(void) {
    static uint32_t list[CUY_MAX_LIST + 2 * CUY_MAX_FIELDS];
    static uint16_t table[CUY_MAX_TABLE];
    printf("limits: %d %d %d %d\n", CUY_MAX_FIELDS, CUY_MAX_RULES, CUY_MAX_LIST, CUY_MAX_TABLE);
    if (CUY_TABLE_LENGTH(CUY_MAX_RULES, CUY_MAX_FIELDS) != CUY_MAX_TABLE) printf("the longest table is longer\n");
    check("check the longest list", CUY_MAX_FIELDS, list, CUY_MAX_LIST);
    check("check one rule more", CUY_MAX_FIELDS, list, CUY_MAX_LIST + 2 * CUY_MAX_FIELDS);
    build("build the longest list", CUY_MAX_FIELDS, list, CUY_MAX_LIST, table, CUY_MAX_TABLE);
}

/* The choice of partitions by first fit, and one that is brought: single serials in partition 0, whole models in 1, and the
 * rule for all that is left in 2. Both are laid out; the brought one is then audited and searched. */
static void choices(void) {
    uint16_t chosen[RULES], table[TABLE], small[4];
    for (size_t i = 0; i < RULES; i++) chosen[i] = 65535;
    for (size_t i = 0; i < TABLE; i++) table[i] = 65535;
    choose("choose with 9-3", crossed, NUMBERS, chosen, RULES);
    choose("choose one number short", bench, NUMBERS, chosen, RULES - 1);
    show_choice(chosen, RULES);
    choose("choose", bench, NUMBERS, chosen, RULES);
    show_choice(chosen, RULES);
    lay_out("lay out what was chosen", bench, NUMBERS, chosen, RULES, table, TABLE);
    show_table(table, TABLE);
    choose("choose for no rules", bench, 0, small, 0);
    choose("choose for no rules, one number lent", bench, 0, small, 1);
    lay_out("lay out no rules", bench, 0, chosen, 0, small, 4);
    show_table(small, 4);

    const uint16_t brought[RULES] = {0, 0, 1, 1, 2};
    lay_out("lay out a brought choice", bench, NUMBERS, brought, RULES, table, TABLE);
    show_table(table, TABLE);
    audit("audit it", bench, table);
    lookup("look up 7, 150 in it", table, TABLE, b4);
    report("report on its partition 1", table, 1);

    /* rule 3 clashes with rules 0 and 1; what is tested first is refused first, and the table stays */
    uint16_t wrong[RULES] = {0, 0, 0, 0, RULES};
    lay_out("lay out with 9-3", crossed, NUMBERS, wrong, RULES - 1, table, TABLE - 1);
    lay_out("lay out one number short", bench, NUMBERS, wrong, RULES - 1, table, TABLE - 1);
    lay_out("lay out a choice for four rules", bench, NUMBERS, wrong, RULES - 1, table, TABLE);
    lay_out("lay out 0 0 0 0 5", bench, NUMBERS, wrong, RULES, table, TABLE);
    wrong[4] = 2;
    lay_out("lay out 0 0 0 0 2", bench, NUMBERS, wrong, RULES, table, TABLE);
    wrong[4] = 1;
    lay_out("lay out 0 0 0 0 1", bench, NUMBERS, wrong, RULES, table, TABLE);
    show_table(table, TABLE);
}

int main(void) {
    printf("version %d, archive %" PRIu32 "\n", CUY_VERSION, cuy_version());
    limits();
    for (uint32_t number = 0; number <= 19; number++) printf("%" PRIu32 ": %s\n", number, cuy_refusal_name(number));

    check("check the bench list", FIELDS, bench, NUMBERS);
    check("check 9 fields", 9, bench, NUMBERS);
    check("check one number short", FIELDS, bench, NUMBERS - 1);
    check("check 1025 rules", 1, many, 2 * 1025);
    check("check 9-3 in rule 3, field 1", FIELDS, crossed, NUMBERS);

    scan("scan for 7, 150", bench, b4);
    scan("scan for 10, 0", bench, b7);
    scan("scan past 9-3", crossed, b4);

    independence("independence of the bench list", bench, NUMBERS);
    independence("independence of its first three rules", bench, 3 * 2 * FIELDS);
    independence("independence with 9-3", crossed, NUMBERS);

    uint16_t table[TABLE];
    for (size_t i = 0; i < TABLE; i++) table[i] = 65535;
    build("build with 9-3", FIELDS, crossed, NUMBERS, table, TABLE);
    build("build one number short", FIELDS, bench, NUMBERS, table, TABLE - 1);
    show_table(table, TABLE);
    build("build", FIELDS, bench, NUMBERS, table, TABLE);
    show_table(table, TABLE);
    uint16_t small[4];
    build("build of no rules", 1, bench, 0, small, 4);
    show_table(small, 4);

    lookup("look up 7, 150", table, TABLE, b4);
    lookup("look up 10, 0", table, TABLE, b7);
    lookup("look up 5, 5", table, TABLE, plain);
    lookup("look up one number short", table, TABLE - 1, b4);

    audit("audit", bench, table);
    audit("audit with 9-3", crossed, table);

    report("report on partition 0", table, 0);
    report("report on partition 1", table, 1);
    report("report on partition 3", table, 3);

    /* the last number is of the last partition, which a lookup skips once it has found rule 3 */
    table[TABLE - 1]++;
    audit("audit with another last number", bench, table);
    lookup("look up 7, 150 with another last number", table, TABLE, b4);
    lookup("look up 5, 5 with another last number", table, TABLE, plain);
    table[TABLE - 1]--;

    /* a report reads the smallest rule number as it is stored, and no rule number of a place */
    table[LEAST] = 1;
    audit("audit with smallest rule 1", bench, table);
    report("report with smallest rule 1", table, 0);
    table[LEAST] = RULES;
    report("report with smallest rule 5", table, 0);
    table[LEAST] = 0;
    table[ORDER] = RULES;
    report("report with rule 5 at its first place", table, 0);

    choices();

    range("range of (16, 2), width 5", 5, 16, 2);
    range("range of (0, 0), width 32", 32, 0, 0);
    range("range of (0, 0), width 33", 33, 0, 0);
    range("range of (17, 2), width 5", 5, 17, 2);

    uint32_t run[17];
    for (size_t i = 0; i < 17; i++) run[i] = 4294967295u;
    prefixes("prefixes of 1 to 30 in 7 places", 5, 1, 30, run, 15);
    prefixes("prefixes of 3 to 2", 5, 3, 2, run, 17);
    prefixes("prefixes of 0 to 1, width 0", 0, 0, 1, run, 17);
    show_run(run, 17);
    prefixes("prefixes of 1 to 30, width 5", 5, 1, 30, run, 17);
    show_run(run, 17);
    prefixes("prefixes of all, width 32", 32, 0, 4294967295u, run, 17);
    show_run(run, 2);
    return 0;
}
