// Times the functions of the new archive against those of the commit before, in one program. Each side builds its own table and looks up
// in it. On every list all answers and tables are compared before anything is timed, as far as sides.h has them alike, and so are the
// prefixes of all ranges. The command's words name the functions to time; prints one line of words for each of them and each list, or
// each kind of ranges.
#include "clock.h"
#include "lists.h"
#include "ranges.h"
#include "sides.h"
#include <stdio.h>
#include <stdlib.h>
#include <string.h>

enum { HEADERS = 2048, SCANS = 256, LONGEST = 32768 };

static struct list list;
static uint32_t headers[HEADERS][8];
static _Alignas(4096) uint16_t tables[2][LONGEST];
static uint64_t answers[2][HEADERS][MOST_ANSWERED];
static struct lent lent[2];
static size_t b;
static struct ranges ranges;
static uint32_t runs[2][MOST_NUMBERS];
static size_t kept; // which answers of a pass are kept: all bits for each one; 0 while timing, when each is written over the one before

// Each of these is one pass of a side over what is counted; both sides go through the same machine code here.
typedef void pass_of(int k);
static void pass_build(int k) { sides[k].build(&lent[k], answers[k][0]); }
static void pass_lookup(int k) { for (size_t i = 0; i < HEADERS; i++) sides[k].lookup(&lent[k], headers[i], answers[k][i & kept]); }
static void pass_plain_scan(int k) { for (size_t i = 0; i < SCANS; i++) sides[k].plain_scan(&lent[k], headers[i], answers[k][i & kept]); }
static void pass_check(int k) { sides[k].check(&lent[k], answers[k][0]); }
static void pass_audit(int k) { sides[k].audit(&lent[k], answers[k][0]); }
static void pass_independence(int k) { sides[k].independence(&lent[k], answers[k][0]); }
static void pass_range_to_prefixes(int k) { for (size_t i = 0; i < ranges.count; i++) sides[k].range_to_prefixes(ranges.width, ranges.each[i], runs[k], answers[k][0]); }
static void pass_report(int k) { for (size_t i = 0; i < b; i++) sides[k].report(&lent[k], i, answers[k][i & kept]); }

// What can be timed, and how often a pass does it (0: once a partition). The build comes first, since the others read its table.
static struct kind {
    const char *name;
    pass_of *pass;
    size_t steps;
    int wanted;
} kinds[] = {{"build", pass_build, 1, 0}, {"lookup", pass_lookup, HEADERS, 0}, {"plain_scan", pass_plain_scan, SCANS, 0}, {"check", pass_check, 1, 0},
             {"audit", pass_audit, 1, 0}, {"independence", pass_independence, 1, 0}, {"report", pass_report, 0, 0}};
enum { KINDS = sizeof kinds / sizeof *kinds };
// What has ranges in the place of a list.
static struct kind of_ranges = {"range_to_prefixes", pass_range_to_prefixes, 0, 0};

static pass_of *volatile timed;
static void pass_before(void) { timed(BEFORE); }
static void pass_new(void) { timed(NEW); }

static void fail(const char *what, const char *name, const char *character) {
    fprintf(stderr, "bench: %s: %s, on %s of %zu rules, %zu fields\n", name, what, character, list.n, list.d);
    exit(1);
}

static size_t steps_of(const struct kind *kind) { return kind->steps ? kind->steps : b; }

// Says whether two answers are alike: equal, or a lookup's with fewer tests where that is allowed.
static int alike(const struct kind *kind, const uint64_t *before, const uint64_t *new) {
    for (size_t i = 0; i < ALIKE; i++) {
        int fewer = FEWER_TESTS && kind->pass == pass_lookup && i == TESTS && new[i] < before[i];
        if (before[i] != new[i] && !fewer) return 0;
    }
    return 1;
}

// Stops where a side refuses, or where the two do not answer alike.
static void compare(const struct kind *kind, const char *character) {
    memset(answers, 0, sizeof answers);
    kept = SIZE_MAX;
    kind->pass(BEFORE);
    kind->pass(NEW);
    kept = 0;
    for (size_t i = 0; i < steps_of(kind); i++) {
        if (answers[BEFORE][i][0] != 0 || answers[NEW][i][0] != 0) fail("a sound list or table is refused", kind->name, character);
        if (!alike(kind, answers[BEFORE][i], answers[NEW][i])) fail("the two sides answer differently", kind->name, character);
    }
}

// The mean tests of a lookup on a side.
static double mean_tests(int k) {
    uint64_t sum = 0;
    kept = SIZE_MAX;
    pass_lookup(k);
    kept = 0;
    for (size_t i = 0; i < HEADERS; i++) sum += answers[k][i][TESTS];
    return (double)sum / HEADERS;
}

// Lets both sides take turns and prints new over before, and the nanoseconds of one step before; of a lookup also the mean tests before
// and after.
static void time_both(const struct kind *kind) {
    struct contender those[] = {{"before", pass_before, steps_of(kind), 0}, {"new", pass_new, steps_of(kind), 0}};
    timed = kind->pass;
    struct pair both = take_pairs(those, 2e6);
    printf(" %.4f %.2f", both.ratio, both.first);
    if (kind->pass == pass_lookup) printf(" %.2f %.2f", mean_tests(BEFORE), mean_tests(NEW));
    printf("\n");
    fflush(stdout);
}

// Compares all there is to compare on the list, then times those of the first m kinds that are wanted. Prints: function, character, n, d,
// b, and what `time_both` prints.
static void measure(const char *character, struct draw *from, size_t m) {
    headers_for(&list, from, headers, HEADERS);
    memset(tables, 255, sizeof tables);
    for (int k = 0; k < 2; k++) {
        size_t table_length = sides[k].table_length(list.n, list.d);
        if (LONGEST < table_length) fail("the bench has no room for the table", "build", character);
        lent[k] = (struct lent){list.n, list.d, list.n * 2 * list.d, table_length, list.numbers, tables[k]};
    }
    for (size_t k = 0; k < KINDS; k++) {
        compare(&kinds[k], character);
        if (k == 0) b = answers[NEW][0][3];
    }
    if (!tables_alike(&lent[BEFORE], &lent[NEW])) fail("the two sides write different tables", "build", character);
    for (size_t k = 0; k < m; k++) {
        if (!kinds[k].wanted) continue;
        printf("%s %s %zu %zu %zu", kinds[k].name, character, list.n, list.d, b);
        time_both(&kinds[k]);
    }
}

// Stops where the two sides do not write the same prefixes of each range of a kind, then times them if that is wanted. Prints: function,
// character, how many ranges, their width, how many prefixes, and what `time_both` prints.
static void measure_ranges(int kind) {
    size_t all = 0;
    ranges_of(kind, &ranges);
    for (size_t i = 0; i < ranges.count; i++) {
        memset(answers[BEFORE][0], 0, sizeof answers[BEFORE][0]), memset(answers[NEW][0], 0, sizeof answers[NEW][0]);
        memset(runs, 255, sizeof runs);
        uint32_t refused = 0;
        for (int k = 0; k < 2; k++) refused |= sides[k].range_to_prefixes(ranges.width, ranges.each[i], runs[k], answers[k][0]);
        if (refused || memcmp(runs[BEFORE], runs[NEW], sizeof runs[NEW]) != 0 || !alike(&of_ranges, answers[BEFORE][0], answers[NEW][0])) {
            fprintf(stderr, "bench: range_to_prefixes: the two sides answer differently, or refuse, on %u to %u of width %u\n", ranges.each[i].low, ranges.each[i].high, ranges.width);
            exit(1);
        }
        all += answers[NEW][0][3];
    }
    if (!of_ranges.wanted) return;
    of_ranges.steps = ranges.count;
    printf("%s %s %zu %u %zu", of_ranges.name, ranges.character, ranges.count, ranges.width, all);
    time_both(&of_ranges);
}

int main(int count, char **words) {
    static const size_t sizes[] = {16, 128, 512, 1024};
    struct draw from = {SEED};
    // a function that is handed other parameters than it has may answer anything
    if (before_cuy_version() != BEFORE_VERSION || cuy_version() != CUY_VERSION) {
        fprintf(stderr, "bench: the archives are of versions %u and %u, and bench/src/sides.h calls %d and %d\n", before_cuy_version(), cuy_version(), BEFORE_VERSION, CUY_VERSION);
        exit(1);
    }
    for (int i = 1; i < count; i++) {
        for (size_t k = 0; k < KINDS; k++)
            if (strcmp(words[i], kinds[k].name) == 0) kinds[k].wanted = 1;
        if (strcmp(words[i], of_ranges.name) == 0) of_ranges.wanted = 1;
    }
    // Build and lookup at every size, the others at 128 and 1,024, twins and nested by the build alone.
    for (size_t k = 0; k < 4; k++) points(&list, &from, sizes[k], 5), measure("points", &from, k % 2 ? KINDS : 2);
    for (size_t k = 0; k < 4; k++) access_list(&list, &from, sizes[k]), measure("access_list", &from, k % 2 ? KINDS : 2);
    for (size_t k = 0; k < 4; k++) prefixes(&list, &from, sizes[k]), measure("prefixes", &from, k % 2 ? KINDS : 2);
    twins(&list, 1024, 8), measure("twins", &from, 1);
    nested(&list, 1024, 8), measure("nested", &from, 1);
    for (int kind = 0; kind < RANGE_KINDS; kind++) measure_ranges(kind);
    return 0;
}
