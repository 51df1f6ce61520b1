// Times build and lookup on lists whose fields are all dates against lists without a date that hold the same numbers, in one program.
// Each side builds its own table and looks up in it. On every list all answers and tables are compared before anything is timed. Prints
// one line of words for each function and list.
#include "../../include/cuyenalot.h"
#include "clock.h"
#include "lists.h"
#include <stdio.h>
#include <stdlib.h>
#include <string.h>

enum { HEADERS = 2048, LONGEST = CUY_MAX_TABLE, MOST_ANSWERED = 7 };
// what is asked once a list; then a report on each partition, a scan and a lookup of each header and of each rule's due day
enum { CHECK, INDEPENDENCE, BUILD, CHOOSE, LAY_OUT, AUDIT, ASKED_ONCE };
enum { MOST_ASKED = ASKED_ONCE + MOST_RULES + 2 * HEADERS + 2 * MOST_RULES };

// A side: its flags, its list, its table, its choice of partitions with the table of that, and what it answers.
enum { NONE, ALL };
static struct side {
    uint32_t dates;
    struct list list;
    _Alignas(4096) uint16_t table[LONGEST];
    uint16_t run[MOST_RULES], laid[LONGEST];
    uint64_t answers[MOST_ASKED][MOST_ANSWERED];
} sides[] = {[NONE] = {.dates = 0}, [ALL] = {.dates = 255}};
static size_t length, table_length;
static uint32_t headers[HEADERS][8];

// Each of these is one pass of a side over what is counted; both sides go through the same machine code here.
typedef void pass_of(struct side *s);
static void pass_build(struct side *s) { cuy_build(s->list.d, s->dates, s->list.numbers, length, s->table, table_length, s->answers[0]); }
static void pass_lookup(struct side *s) {
    for (size_t i = 0; i < HEADERS; i++) cuy_lookup(s->list.d, s->dates, s->list.numbers, length, s->table, table_length, headers[i], s->answers[0]);
}

static pass_of *volatile timed;
static void pass_none(void) { timed(&sides[NONE]); }
static void pass_all(void) { timed(&sides[ALL]); }

static void fail(const char *what, const char *character) {
    fprintf(stderr, "bench: dates: %s, on %s of %zu rules, %zu fields\n", what, character, sides[NONE].list.n, sides[NONE].list.d);
    exit(1);
}

// Makes of the list that was drawn two that hold the same numbers. 4294967295 lies in no range of dates, so it is lowered by one in both.
static void make_lists(void) {
    struct list *none = &sides[NONE].list, *all = &sides[ALL].list;
    length = none->n * 2 * none->d;
    table_length = CUY_TABLE_LENGTH(none->n, none->d);
    for (size_t k = 0; k < length; k++) none->numbers[k] -= none->numbers[k] == UINT32_MAX;
    *all = *none;
    for (size_t k = 1; k < length; k += 2) all->numbers[k]++;
}

// Looks a header up in both ways.
static size_t find(struct side *s, const uint32_t *header, size_t m) {
    cuy_plain_scan(s->list.d, s->dates, s->list.numbers, length, header, s->answers[m]);
    cuy_lookup(s->list.d, s->dates, s->list.numbers, length, s->table, table_length, header, s->answers[m + 1]);
    return m + 2;
}

// Asks a side all there is to ask; gives how many answers it gave.
static size_t ask_all(struct side *s) {
    size_t m = ASKED_ONCE, d = s->list.d;
    const uint32_t *list = s->list.numbers;
    memset(s->table, 255, sizeof s->table);
    memset(s->laid, 255, sizeof s->laid);
    memset(s->answers, 0, sizeof s->answers);
    cuy_check(d, s->dates, list, length, s->answers[CHECK]);
    cuy_independence(d, s->dates, list, length, s->answers[INDEPENDENCE]);
    cuy_build(d, s->dates, list, length, s->table, table_length, s->answers[BUILD]);
    cuy_choose(d, s->dates, list, length, s->run, s->list.n, s->answers[CHOOSE]);
    cuy_lay_out(d, s->dates, list, length, s->run, s->list.n, s->laid, table_length, s->answers[LAY_OUT]);
    cuy_audit(d, s->dates, list, length, s->table, table_length, s->answers[AUDIT]);
    for (size_t q = 0; q < s->answers[BUILD][3]; q++) cuy_report(d, s->dates, list, length, s->table, table_length, q, s->answers[m++]);
    for (size_t i = 0; i < HEADERS; i++) m = find(s, headers[i], m);
    for (size_t i = 0; i < s->list.n; i++) {
        // the lows of rule i, but in one field the first number past its range, which is the due day of a date
        const uint32_t *rule = sides[ALL].list.numbers + 2 * d * i;
        uint32_t due[8] = {0};
        for (size_t f = 0; f < d; f++) due[f] = rule[2 * f + (f == i % d)];
        m = find(s, due, m);
    }
    return m;
}

// Stops where a side refuses, where the two do not answer alike or write different tables, or where a lookup is not the scan's; gives b.
static size_t compare(const char *character) {
    const struct side *none = &sides[NONE], *all = &sides[ALL];
    size_t m = ask_all(&sides[NONE]), b = none->answers[BUILD][3];
    if (ask_all(&sides[ALL]) != m || memcmp(none->answers, all->answers, sizeof none->answers) != 0) fail("the two sides answer differently", character);
    if (memcmp(none->table, all->table, sizeof none->table) != 0) fail("the two sides write different tables", character);
    for (size_t k = 0; k < m; k++)
        if (none->answers[k][0] != 0) fail("a sound list or table is refused", character);
    if (memcmp(none->table, none->laid, sizeof none->table) != 0 || memcmp(all->table, all->laid, sizeof all->table) != 0) fail("choose and lay_out in turn are not the build", character);
    if (none->answers[AUDIT][3] != 1) fail("audit says no to what was built", character);
    for (size_t k = ASKED_ONCE + b; k < m; k += 2)
        if (none->answers[k][3] != none->answers[k + 1][3] || none->answers[k][4] != none->answers[k + 1][4]) fail("a lookup is not the first match", character);
    return b;
}

// Lets both sides take turns and prints: function, character, n, d, b, all dates over none, and the nanoseconds of one step without dates.
static void time_both(const char *name, pass_of *pass, size_t steps, const char *character, size_t b) {
    struct contender those[] = {{"none", pass_none, steps, 0}, {"all", pass_all, steps, 0}};
    timed = pass;
    struct pair both = take_pairs(those, 2e6);
    printf("%s %s %zu %zu %zu %.4f %.2f\n", name, character, sides[NONE].list.n, sides[NONE].list.d, b, both.ratio, both.first);
    fflush(stdout);
}

// Compares on the list that was drawn, then times the build and, where that is wanted, the lookup.
static void measure(const char *character, struct draw *from, int lookups) {
    make_lists();
    headers_for(&sides[NONE].list, from, headers, HEADERS);
    size_t b = compare(character);
    time_both("build", pass_build, 1, character, b);
    if (lookups) time_both("lookup", pass_lookup, HEADERS, character, b);
}

int main(void) {
    static const size_t sizes[] = {16, 128, 512, 1024};
    struct draw from = {SEED};
    struct list *drawn = &sides[NONE].list;
    // The lists of the bench on the commit before; a lookup from 128 rules on, twins and nested by the build alone.
    for (size_t k = 0; k < 4; k++) points(drawn, &from, sizes[k], 5), measure("points", &from, k > 0);
    for (size_t k = 0; k < 4; k++) access_list(drawn, &from, sizes[k]), measure("access_list", &from, k > 0);
    for (size_t k = 0; k < 4; k++) prefixes(drawn, &from, sizes[k]), measure("prefixes", &from, k > 0);
    twins(drawn, 1024, 8), measure("twins", &from, 0);
    nested(drawn, 1024, 8), measure("nested", &from, 0);
    return 0;
}
