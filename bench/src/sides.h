// What `bench/run --before` calls on each side: the archive of the commit before, whose names begin with before_ here, and the new one.
// A request that alters a signature, an answer or the table's length alters the line of it here, and nothing else in the bench.
#ifndef SIDES_H
#define SIDES_H
#include "ranges.h"
#include "table.h"
#include <string.h>

// What both sides must answer alike: the first so many numbers of each answer; and whether a lookup may take fewer tests than before.
enum { ALIKE = 7, TESTS = 5, FEWER_TESTS = 0, MOST_ANSWERED = 8 };

// What a call is lent beside its header: n rules of d fields, `length` numbers of the list, and the side's own table.
struct lent {
    size_t n, d, length, table_length;
    const uint32_t *list;
    uint16_t *table;
};

// Says whether the tables are alike: in every number.
static int tables_alike(const struct lent *before, const struct lent *new) {
    return before->table_length == new->table_length && memcmp(before->table, new->table, 2 * new->table_length) == 0;
}

// The functions of a side, called in the same way on both. cuy_choose and cuy_lay_out, which in turn are cuy_build, are not among them.
struct side {
    size_t (*table_length)(size_t n, size_t d);
    uint32_t (*check)(const struct lent *l, uint64_t *answer);
    uint32_t (*plain_scan)(const struct lent *l, const uint32_t *header, uint64_t *answer);
    uint32_t (*independence)(const struct lent *l, uint64_t *answer);
    uint32_t (*build)(const struct lent *l, uint64_t *answer);
    uint32_t (*lookup)(const struct lent *l, const uint32_t *header, uint64_t *answer);
    uint32_t (*audit)(const struct lent *l, uint64_t *answer);
    uint32_t (*report)(const struct lent *l, size_t partition, uint64_t *answer);
    uint32_t (*range_to_prefixes)(uint32_t width, struct range r, uint32_t *run, uint64_t *answer);
};

// The side before, of this version. Where the header has changed, the line below says what the signature was.
enum { BEFORE_VERSION = 4 };
extern __typeof__(cuy_version) before_cuy_version;
extern __typeof__(cuy_check) before_cuy_check;
extern __typeof__(cuy_plain_scan) before_cuy_plain_scan;
extern __typeof__(cuy_independence) before_cuy_independence;
extern __typeof__(cuy_build) before_cuy_build;
extern __typeof__(cuy_lookup) before_cuy_lookup;
extern __typeof__(cuy_audit) before_cuy_audit;
extern __typeof__(cuy_report) before_cuy_report;
extern __typeof__(cuy_range_to_prefixes) before_cuy_range_to_prefixes;

// No field is a date, on either side.
enum { NO_DATES = 0 };

static size_t before_table_length(size_t n, size_t d) { return CUY_TABLE_LENGTH(n, d); }
static uint32_t before_check(const struct lent *l, uint64_t *a) { return before_cuy_check(l->d, NO_DATES, l->list, l->length, a); }
static uint32_t before_plain_scan(const struct lent *l, const uint32_t *h, uint64_t *a) { return before_cuy_plain_scan(l->d, NO_DATES, l->list, l->length, h, a); }
static uint32_t before_independence(const struct lent *l, uint64_t *a) { return before_cuy_independence(l->d, NO_DATES, l->list, l->length, a); }
static uint32_t before_build(const struct lent *l, uint64_t *a) { return before_cuy_build(l->d, NO_DATES, l->list, l->length, l->table, l->table_length, a); }
static uint32_t before_lookup(const struct lent *l, const uint32_t *h, uint64_t *a) { return before_cuy_lookup(l->d, NO_DATES, l->list, l->length, l->table, l->table_length, h, a); }
static uint32_t before_audit(const struct lent *l, uint64_t *a) { return before_cuy_audit(l->d, NO_DATES, l->list, l->length, l->table, l->table_length, a); }
static uint32_t before_report(const struct lent *l, size_t k, uint64_t *a) { return before_cuy_report(l->d, NO_DATES, l->list, l->length, l->table, l->table_length, k, a); }
static uint32_t before_range_to_prefixes(uint32_t width, struct range r, uint32_t *run, uint64_t *a) { return before_cuy_range_to_prefixes(width, r.low, r.high, run, MOST_NUMBERS, a); }

// The new side, as the header has it.
static size_t new_table_length(size_t n, size_t d) { return CUY_TABLE_LENGTH(n, d); }
static uint32_t new_check(const struct lent *l, uint64_t *a) { return cuy_check(l->d, NO_DATES, l->list, l->length, a); }
static uint32_t new_plain_scan(const struct lent *l, const uint32_t *h, uint64_t *a) { return cuy_plain_scan(l->d, NO_DATES, l->list, l->length, h, a); }
static uint32_t new_independence(const struct lent *l, uint64_t *a) { return cuy_independence(l->d, NO_DATES, l->list, l->length, a); }
static uint32_t new_build(const struct lent *l, uint64_t *a) { return cuy_build(l->d, NO_DATES, l->list, l->length, l->table, l->table_length, a); }
static uint32_t new_lookup(const struct lent *l, const uint32_t *h, uint64_t *a) { return cuy_lookup(l->d, NO_DATES, l->list, l->length, l->table, l->table_length, h, a); }
static uint32_t new_audit(const struct lent *l, uint64_t *a) { return cuy_audit(l->d, NO_DATES, l->list, l->length, l->table, l->table_length, a); }
static uint32_t new_report(const struct lent *l, size_t k, uint64_t *a) { return cuy_report(l->d, NO_DATES, l->list, l->length, l->table, l->table_length, k, a); }
static uint32_t new_range_to_prefixes(uint32_t width, struct range r, uint32_t *run, uint64_t *a) { return cuy_range_to_prefixes(width, r.low, r.high, run, MOST_NUMBERS, a); }

enum { BEFORE, NEW };
static const struct side sides[] = {
    {before_table_length, before_check, before_plain_scan, before_independence, before_build, before_lookup, before_audit, before_report, before_range_to_prefixes},
    {new_table_length, new_check, new_plain_scan, new_independence, new_build, new_lookup, new_audit, new_report, new_range_to_prefixes}};
#endif
