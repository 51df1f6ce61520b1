/* Two certificates with a due date: rule 0 is valid from day 1 to before day 5, rule 1 from day 5 to before day 9. Prints what
 * every function that is given a list answers where field 0, the day, is a date, and where it is not. */
#include "cuyenalot.h"

#include <inttypes.h>
#include <stdio.h>
#include <string.h>

enum { FIELDS = 1, RULES = 2, NUMBERS = RULES * 2 * FIELDS, TABLE = CUY_TABLE_LENGTH(RULES, FIELDS), DAYS = 7 };

/* the flags: bit f for field f */
static const uint32_t no_dates = 0, day = 1, all_but_day = 4294967294u;

static const uint32_t list[NUMBERS] = {1, 5, 5, 9};

/* a certificate that is due on its first day */
static const uint32_t no_day[2 * FIELDS] = {5, 5};

static const uint32_t days[DAYS] = {0, 1, 3, 4, 5, 8, 9};

/* Prints a match: the rule number, or none. */
static void say_match(const char *what, const uint64_t *answer) {
    if (answer[3] == 1)
        printf("%s %" PRIu64, what, answer[4]);
    else
        printf("%s none", what);
}

/* Builds the table with some flags, asks everything else with others, and prints the answers; gives 0 where nothing is refused. */
static uint32_t show(const char *what, uint32_t at_build, uint32_t dates) {
    uint16_t table[TABLE], chosen[RULES], laid[TABLE];
    uint64_t checked[4], pair[6], built[4], choice[4], audited[4], part[5], scanned[5], found[7];
    uint32_t number = cuy_check(FIELDS, dates, list, NUMBERS, checked);
    if (number == 0) number = cuy_independence(FIELDS, dates, list, NUMBERS, pair);
    if (number == 0) number = cuy_build(FIELDS, at_build, list, NUMBERS, table, TABLE, built);
    if (number == 0) number = cuy_choose(FIELDS, dates, list, NUMBERS, chosen, RULES, choice);
    if (number == 0) number = cuy_lay_out(FIELDS, dates, list, NUMBERS, chosen, RULES, laid, TABLE, choice);
    if (number == 0) number = cuy_audit(FIELDS, dates, list, NUMBERS, table, TABLE, audited);
    if (number == 0) number = cuy_report(FIELDS, dates, list, NUMBERS, table, TABLE, 0, part);
    if (number != 0) return number;
    printf("%s:\nrules %" PRIu64 ", partitions %" PRIu64 "\n", what, checked[3], built[3]);
    if (pair[3] == 1)
        printf("no day fits two rules\n");
    else
        printf("a day fits rules %" PRIu64 " and %" PRIu64 "\n", pair[4], pair[5]);
    printf("choice %" PRIu16 " %" PRIu16 ", laid out %s\n", chosen[0], chosen[1],
           memcmp(laid, table, sizeof table) == 0 ? "as built" : "otherwise than built");
    printf("partition 0: size %" PRIu64 ", smallest rule %" PRIu64 "\n", part[3], part[4]);
    printf("audit: %s\n", audited[3] == 1 ? "yes" : "no");
    for (int i = 0; i < DAYS; i++) {
        const uint32_t header[8] = {days[i]};
        number = cuy_plain_scan(FIELDS, dates, list, NUMBERS, header, scanned);
        if (number == 0) number = cuy_lookup(FIELDS, dates, list, NUMBERS, table, TABLE, header, found);
        if (number != 0) return number;
        printf("day %" PRIu32 ":", days[i]);
        say_match(" scan", scanned);
        say_match(", lookup", found);
        printf(", tests %" PRIu64 "%s\n", found[5], found[6] == 1 ? ", edge" : "");
    }
    return 0;
}

/* Prints what a check of the one certificate says. */
static void check(const char *what, uint32_t dates) {
    uint64_t answer[4];
    uint32_t number = cuy_check(FIELDS, dates, no_day, 2 * FIELDS, answer);
    if (number == 0)
        printf("%s: rules %" PRIu64 "\n", what, answer[3]);
    else
        printf("%s: refused %" PRIu32 " at %" PRIu64 " then %" PRIu64 ": %s\n", what, number, answer[1], answer[2],
               cuy_refusal_name(number));
}

int main(void) {
    uint32_t number = show("the day is a date", day, day);
    if (number == 0) number = show("the day is no date", no_dates, no_dates);
    if (number == 0) number = show("flags past d alone", all_but_day, all_but_day);
    if (number == 0) number = show("built with the flag, asked without", day, no_dates);
    if (number != 0) {
        printf("refused %" PRIu32 "\n", number);
        return 1;
    }
    check("5-5 as a date", day);
    check("5-5 as no date", no_dates);
    return 0;
}
