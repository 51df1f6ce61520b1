// Times the proved `cuy_range_to_prefixes` against plain C with the compiler's counts of zeros. All prefixes are compared before anything
// is timed. Prints one line of words for each kind of ranges.
#include "clock.h"
#include "plain.h"
#include "proved.h"
#include "ranges.h"
#include <stdio.h>
#include <stdlib.h>
#include <string.h>

static struct ranges ranges;
static uint32_t run[MOST_NUMBERS], other[MOST_NUMBERS];

static void pass(prefixes_of *prefixes) {
    for (size_t i = 0; i < ranges.count; i++) prefixes(ranges.width, ranges.each[i].low, ranges.each[i].high, run, MOST_NUMBERS);
}
static void pass_proved(void) { pass(proved_prefixes); }
static void pass_plain(void) { pass(plain_prefixes); }

// Stops where the proved code writes other prefixes than plain C; gives how many prefixes all ranges have.
static size_t compare(void) {
    size_t all = 0;
    for (size_t i = 0; i < ranges.count; i++) {
        uint32_t low = ranges.each[i].low, high = ranges.each[i].high;
        memset(run, 255, sizeof run), memset(other, 255, sizeof other);
        int count = plain_prefixes(ranges.width, low, high, run, MOST_NUMBERS);
        if (count < 1 || proved_prefixes(ranges.width, low, high, other, MOST_NUMBERS) != count || memcmp(run, other, sizeof run) != 0) {
            fprintf(stderr, "bench: plain C and the proved code write different prefixes of %u to %u, width %u\n", low, high, ranges.width);
            exit(1);
        }
        all += (size_t)count;
    }
    return all;
}

// Prints: character, how many ranges, their width, how many prefixes, then the nanoseconds of one range in the proved code and in plain C.
int main(void) {
    for (int kind = 0; kind < RANGE_KINDS; kind++) {
        ranges_of(kind, &ranges);
        size_t all = compare();
        struct contender those[] = {{"proved", pass_proved, ranges.count, 0}, {"plain", pass_plain, ranges.count, 0}};
        take_turns(those, 2, 3e6);
        printf("prefixes %s %zu %u %zu %.2f %.2f\n", ranges.character, ranges.count, ranges.width, all, those[0].nanoseconds, those[1].nanoseconds);
        fflush(stdout);
    }
    return 0;
}
