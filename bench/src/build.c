// Times the proved build against plain C: first fit by comparing with members, and first fit with a binary search in each sorted
// partition. The tables are compared before anything is timed. Prints one line of words for each list.
#include "clock.h"
#include "lists.h"
#include "plain.h"
#include "proved.h"
#include <stdio.h>
#include <stdlib.h>
#include <string.h>

static struct list list;
static uint16_t table[CUY_MAX_TABLE], other[CUY_MAX_TABLE];
static size_t length, table_length;

static void pass_proved(void) { proved_build(list.d, list.numbers, length, table, table_length); }
static void pass_plain(void) { plain_build(list.d, list.numbers, length, table, table_length); }
static void pass_sorted(void) { sorted_build(list.d, list.numbers, length, table, table_length); }

// Stops where a build does not write the table that the plain one has written.
static void compare(const char *what, int (*build)(size_t, const uint32_t *, size_t, uint16_t *, size_t), int b) {
    memset(other, 255, sizeof other);
    if (build(list.d, list.numbers, length, other, table_length) == b && memcmp(table, other, 2 * table_length) == 0) return;
    fprintf(stderr, "bench: %s builds another table of %zu rules, %zu fields\n", what, list.n, list.d);
    exit(1);
}

// Prints: character, n, d, b, then the nanoseconds of the proved build, plain first fit, and first fit in sorted partitions.
static void measure(const char *character) {
    length = list.n * 2 * list.d;
    table_length = CUY_TABLE_LENGTH(list.n, list.d);
    int b = plain_build(list.d, list.numbers, length, table, table_length);
    compare("the proved code", proved_build, b);
    compare("C in sorted partitions", sorted_build, b);
    struct contender those[] = {{"proved", pass_proved, 1, 0}, {"plain", pass_plain, 1, 0}, {"sorted", pass_sorted, 1, 0}};
    take_turns(those, 3, 3e6);
    printf("build %s %zu %zu %d %.0f %.0f %.0f\n", character, list.n, list.d, b, those[0].nanoseconds, those[1].nanoseconds, those[2].nanoseconds);
    fflush(stdout);
}

int main(void) {
    static const size_t sizes[] = {16, 128, 512, 1024};
    struct draw from = {SEED};
    for (size_t k = 0; k < 4; k++) access_list(&list, &from, sizes[k]), measure("access_list");
    points(&list, &from, 1024, 5), measure("points");
    prefixes(&list, &from, 1024), measure("prefixes");
    twins(&list, 1024, 8), measure("twins");
    nested(&list, 1024, 8), measure("nested");
    return 0;
}
