/* Cuyenalot for C and C++ on x86-64 Linux: the first match of a header in a list of rules, by a sorted-partition table.
 *
 * These are the functions of libcuyenalot.a, which `scripts/archive` proves and writes to target/staticlib/, and
 * `scripts/install` to where it is told. Each is proved to answer what its comment says, for every input; the contracts
 * stand in crates/interface/src.
 *
 * Words
 *
 * A list is a run of 32-bit numbers, 2d a rule: low and high of field 0, then of field 1, and so on. d fields, 1 to 8; n
 * rules, 0 to 1,024. Rule numbers start at 0; a lower number has the higher priority. A header is eight 32-bit numbers,
 * of which the first d are read. A rule fits a header when in all d fields the number lies in the rule's range; the first
 * match is the smallest rule number that fits. A table is a run of 16-bit numbers, exactly CUY_TABLE_LENGTH(n, d) long. A
 * list has at most CUY_MAX_LIST numbers, and a table CUY_MAX_TABLE.
 *
 * Partitions
 *
 * A table holds the rules in partitions, which a lookup searches one by one. Two rules clash when, in the first field in
 * which their ranges differ, some number lies in both ranges; rules whose ranges differ in no field clash too. A choice of
 * partitions is a run of 16-bit numbers, one a rule: the number of its partition. The numbers used are 0 to b - 1, each for
 * one rule or more, and no two rules of one partition clash. cuy_choose writes that of first fit: rules are taken in the
 * order of their numbers, and each goes to the lowest partition in which it clashes with no rule so far, or else opens the
 * next. cuy_lay_out writes the table of any choice, and cuy_build is the two in turn.
 *
 * With each partition the table stores its smallest rule number. Once a lookup has found a rule, it skips every partition
 * whose stored number is greater than the smallest rule number found so far: it tests nothing there.
 *
 * Dates
 *
 * The flags `dates`, given with each list, say which fields are dates: bit f is set where field f is one, so 1 says field 0,
 * 3 says fields 0 and 1, and 0 says none. Bits past d, and past the eighth, alter nothing. In a date a number lies in a range
 * when low <= number < high, since the due day is no valid day; in any other field when low <= number <= high. So the dates
 * 1-5 and 5-9 have no day in common, 5-5 has no day and is refused as 5-4 is, and 4294967295 lies in no range of dates. The
 * ends of a range are the first and the last number in it: low, and high - 1 in a date or high in any other field. Prefixes
 * know no dates.
 *
 * The flags belong to the list, as d does, and a table to the list and the flags that it was written for. What a lookup with
 * other flags gives is said at cuy_lookup.
 *
 * What comes back
 *
 * Every function but cuy_version returns the refusal number, 0 where nothing is refused, and writes every number of its
 * answer:
 *
 *     answer[0]       the refusal number once more
 *     answer[1], [2]  the refusal's place, at and then; 0 and 0 where nothing is refused
 *     answer[3], ..   what the operation answers, as said at the function; all 0 where it refuses
 *
 * A refusal leaves every other run as it was lent. A function that may give several refusals gives the first of those
 * that its comment lists. cuy_refusal_name says a refusal number in words.
 *
 * What a caller owes
 *
 * Every pointer is aligned for its type and not null, also where the length beside it is 0. It points to as many numbers
 * as that length says, or the brackets of the parameter. A run that a call writes overlaps no other run of that call, and
 * nothing else writes to any of them while the call runs. Nothing more: the numbers may be any.
 *
 * The functions keep nothing between calls and allocate nothing, so several threads may call them at once, also on the same
 * list and table, as long as none of these calls writes to what another reads or writes: each thread has an answer of its
 * own, and nobody else uses the run or table that cuy_choose, cuy_lay_out, cuy_build or cuy_range_to_prefixes is writing. No
 * function takes more than 9 KB of stack. The time of an audit grows with the table's length, that of a build with the
 * square of n (stack and times are measured, not proved). The archive wants memcpy and memset of the C library, and nothing
 * else.
 */
#ifndef CUYENALOT_H
#define CUYENALOT_H

#include <stddef.h>
#include <stdint.h>

#ifdef __cplusplus
extern "C" {
#endif

/* The version of this header; cuy_version() gives that of the archive. Raised whenever an answer's numbers, a function's
 * parameters or the table's length change: where the two differ, header and archive do not belong together.
 * Version 3 has the parameter `dates` after d in the functions that are given a list. Callers of an older version must be
 * altered, by 0 there for a list without dates, and compiled anew: no linker notices that a parameter is missing.
 * Version 4 stores the partitions' smallest rule numbers in the table, which has n numbers more by this, and a lookup may
 * take fewer tests. Callers of version 3 must be compiled anew, for CUY_TABLE_LENGTH, and write their tables anew: one of the
 * length before is refused with 5. */
#define CUY_VERSION 4

/* The limits: fields of a rule, rules of a list, numbers of the longest list and of the longest table. */
#define CUY_MAX_FIELDS 8
#define CUY_MAX_RULES 1024
#define CUY_MAX_LIST 16384
#define CUY_MAX_TABLE 19460

/* The refusals: name, number, and what is wrong. The place is 0, 0 but for 4, which is at the smallest such rule number, then
 * its smallest such field; and for 12, which is at how many places are needed. No function here gives 8: it is the program's
 * alone. 13 and 14 are no refusals. */
#define CUY_REFUSALS(X) \
    X(CUY_BAD_FIELDS, 1, "d is not 1 to 8") \
    X(CUY_BAD_LENGTH, 2, "the list's length is no multiple of 2d") \
    X(CUY_TOO_MANY_RULES, 3, "more than 1,024 rules") \
    X(CUY_LOW_ABOVE_HIGH, 4, "some low is above its high, or equal to it in a date") \
    X(CUY_BAD_TABLE_LENGTH, 5, "the table's length is not that of n rules of d fields") \
    X(CUY_BROKEN_TABLE, 6, "broken table: numbers of it that the call reads do not hold together") \
    X(CUY_NO_SUCH_PARTITION, 7, "the partition number is not below the number of partitions") \
    X(CUY_BAD_LINE, 8, "a CSV line is not as it must be") \
    X(CUY_BAD_WIDTH, 9, "the width is not 1 to 32") \
    X(CUY_BAD_PREFIX, 10, "the prefix is longer than the width, its value needs more bits, or a bit below it is set") \
    X(CUY_BAD_RANGE, 11, "low is above high, or high needs more bits than the width") \
    X(CUY_TOO_LITTLE_ROOM, 12, "fewer places lent than prefixes to write") \
    X(CUY_BAD_RUN_LENGTH, 15, "the run of partition numbers is not n long, one a rule") \
    X(CUY_BAD_PARTITION_NUMBER, 16, "some partition number of the run is not below n") \
    X(CUY_EMPTY_PARTITION, 17, "some number below the run's largest partition number has no rule") \
    X(CUY_CLASH_IN_PARTITION, 18, "two rules of one partition clash")

enum cuy_refusal {
    CUY_NO_REFUSAL = 0
#define CUY_AS_NUMBER(name, number, text) , name = number
    CUY_REFUSALS(CUY_AS_NUMBER)
#undef CUY_AS_NUMBER
};

/* Says a refusal number in words, as listed above; 0 is "nothing is refused", any other number "no refusal has this
 * number". Never null; the text is not the caller's to free. */
static inline const char *cuy_refusal_name(uint32_t number) {
    switch (number) {
    case CUY_NO_REFUSAL: return "nothing is refused";
#define CUY_AS_CASE(name, number, text) case name: return text;
    CUY_REFUSALS(CUY_AS_CASE)
#undef CUY_AS_CASE
    default: return "no refusal has this number";
    }
}

/* How many numbers the table of n rules of d fields has. */
#ifdef __cplusplus
#define CUY_SIZE(n) static_cast<size_t>(n)
#else
#define CUY_SIZE(n) ((size_t)(n))
#endif
#define CUY_TABLE_LENGTH(n, d) (4 + 3 * CUY_SIZE(n) + 2 * CUY_SIZE(n) * CUY_SIZE(d))

/* Gives the version of the archive, to be held against CUY_VERSION. Refuses nothing. */
uint32_t cuy_version(void);

/* Checks a list. Answers n, the number of its rules, in answer[3].
 * Refuses with 1, 2, 3, 4. */
uint32_t cuy_check(size_t d, uint32_t dates, const uint32_t *list, size_t list_length, uint64_t answer[4]);

/* Scans a list plainly. Answers 1 in answer[3] and the first match in answer[4]; or 0 in both where no rule fits.
 * Refuses with 1, 2, 3, 4. */
uint32_t cuy_plain_scan(size_t d, uint32_t dates, const uint32_t *list, size_t list_length, const uint32_t header[8],
                        uint64_t answer[5]);

/* Tests a list for order independence. Answers 1 in answer[3], and 0 in answer[4] and [5], exactly when no header fits two
 * different rules. Otherwise 0 in answer[3], and in answer[4] < answer[5] the pair of rules that some header fits, with
 * the smallest first rule number, then the smallest second.
 * Refuses with 1, 2, 3, 4. */
uint32_t cuy_independence(size_t d, uint32_t dates, const uint32_t *list, size_t list_length, uint64_t answer[6]);

/* Chooses the partitions of a list and its flags by first fit: writes each rule's partition number into the run, which is n
 * long. Answers b, the number of partitions, in answer[3].
 * Refuses with 1, 2, 3, 4, 15. */
uint32_t cuy_choose(size_t d, uint32_t dates, const uint32_t *list, size_t list_length, uint16_t *run, size_t run_length,
                    uint64_t answer[4]);

/* Lays out the table of a list, its flags and a choice of partitions, which is cuy_choose's or the caller's own and n long:
 * writes every number of it. Answers b, the number of its partitions, in answer[3].
 * Refuses with 1, 2, 3, 4, 5, 15, 16, 17, 18, each tested over all rules before the next. */
uint32_t cuy_lay_out(size_t d, uint32_t dates, const uint32_t *list, size_t list_length, const uint16_t *run,
                     size_t run_length, uint16_t *table, size_t table_length, uint64_t answer[4]);

/* Builds the table of a list and its flags: writes every number of it, as cuy_lay_out does for the run of cuy_choose. Answers
 * b, the number of its partitions, in answer[3].
 * Refuses with 1, 2, 3, 4, 5. */
uint32_t cuy_build(size_t d, uint32_t dates, const uint32_t *list, size_t list_length, uint16_t *table,
                   size_t table_length, uint64_t answer[4]);

/* Looks a header up in a table. Answers 1 in answer[3] and a rule number in answer[4], or 0 in both where no rule fits; in
 * answer[5] the number of range tests; and in answer[6] 1 where that rule is at an edge, which means that in one of the d
 * fields or more the header's number is an end of its range, else 0, also where no rule fits. In a table that cuy_build or
 * cuy_lay_out wrote for this list and these flags, and so in each of which cuy_audit says 1, the rule is the first match, and
 * nothing is refused. In any other table, as one written with other flags for the d fields may be, a rule that is answered
 * still fits the header, by the flags of this call, and the edge is its own; but a rule that fits may be passed by, as where
 * a stored number is too great, and the table may be refused with 6.
 * Refuses with 1, 2, 3, 5, 6; never with 4, since it does not read the whole list, and neither for a stored number nor for
 * what is broken in a partition that is skipped.
 * In version 1 the answer had six numbers: who still lends six is written past. */
uint32_t cuy_lookup(size_t d, uint32_t dates, const uint32_t *list, size_t list_length, const uint16_t *table,
                    size_t table_length, const uint32_t header[8], uint64_t answer[7]);

/* Audits a table. Answers 1 in answer[3] exactly when there is a choice of partitions for which cuy_lay_out would write every
 * number of the table as it is, for this list and these flags, else 0: so 1 for what cuy_build or cuy_lay_out wrote for them.
 * Refuses with 1, 2, 3, 4, 5; never with 6, since a broken table is answered with 0. */
uint32_t cuy_audit(size_t d, uint32_t dates, const uint32_t *list, size_t list_length, const uint16_t *table,
                   size_t table_length, uint64_t answer[4]);

/* Reports on a partition of a table. Answers its size in answer[3] and its smallest rule number in answer[4], as the table
 * stores it: where cuy_audit says 0, that may be another number. It reads neither the partition's rules nor a range: the
 * flags alter nothing, and are taken so that all these calls have one form.
 * Refuses with 1, 2, 3, 5, with 6 for a table that does not open, with 7, with 6 for a partition that is empty or reaches
 * past the n rules, or whose stored number is n or more. */
uint32_t cuy_report(size_t d, uint32_t dates, const uint32_t *list, size_t list_length, const uint16_t *table,
                    size_t table_length, size_t partition, uint64_t answer[5]);

/* Turns a prefix of a width into its range. Answers low in answer[3] and high in answer[4], both counted.
 * Refuses with 9, 10. */
uint32_t cuy_prefix_to_range(uint32_t width, uint32_t value, uint32_t length, uint64_t answer[5]);

/* Turns the range low to high, both counted, into prefixes: from the low end, always the largest aligned block that stays
 * in the range. Writes pairs of value and length, two numbers each, in ascending order at the front of the run, and leaves
 * what lies past the last pair. Answers how many pairs in answer[3]: at most 2 * width - 2 for a width of 2 or more,
 * and 1 for a width of 1. A run of run_length numbers has room for half as many pairs, rounded down.
 * Refuses with 9, 11, 12. */
uint32_t cuy_range_to_prefixes(uint32_t width, uint32_t low, uint32_t high, uint32_t *run, size_t run_length,
                               uint64_t answer[4]);

#ifdef __cplusplus
}
#endif

#endif
