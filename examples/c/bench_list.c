/* Classifies 01's small bench list: builds its table, looks the headers B2 to B8 up in it, and prints for each the rule and
 * the range tests, as the program gateway does. */
#include "cuyenalot.h"

#include <inttypes.h>
#include <stdio.h>

enum { FIELDS = 2, NO_DATES = 0, RULES = 5, HEADERS = 7, TABLE = CUY_TABLE_LENGTH(RULES, FIELDS) };

/* model and serial: low and high of each */
static const uint32_t list[RULES * 2 * FIELDS] = {
    7, 7, 100, 100, /* rule 0 */
    7, 7, 200, 299, /* rule 1 */
    8, 8, 0,   999, /* rule 2 */
    7, 7, 0,   999, /* rule 3 */
    0, 9, 0,   999, /* rule 4 */
};

/* numbers past the first d are not read */
static const uint32_t headers[HEADERS][8] = {
    {7, 250}, {7, 100}, {7, 150}, {8, 5}, {9, 5}, {10, 0}, {7, 1000},
};

/* Prints a refusal in the program's words, and gives the exit status. */
static int refused(uint32_t number) {
    printf("refused,%" PRIu32 "\n", number);
    return 1;
}

int main(void) {
    uint16_t table[TABLE];
    uint64_t built[4], found[7];
    uint32_t number = cuy_build(FIELDS, NO_DATES, list, sizeof list / sizeof list[0], table, TABLE, built);
    if (number != 0) return refused(number);
    printf("rule,tests\n");
    for (int i = 0; i < HEADERS; i++) {
        number = cuy_lookup(FIELDS, NO_DATES, list, sizeof list / sizeof list[0], table, TABLE, headers[i], found);
        if (number != 0) return refused(number);
        if (found[3] == 1)
            printf("%" PRIu64 ",%" PRIu64 "\n", found[4], found[5]);
        else
            printf("none,%" PRIu64 "\n", found[5]);
    }
    return 0;
}
