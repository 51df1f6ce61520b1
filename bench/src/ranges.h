// Ranges of some width: the inputs of every bench on prefixes.
#ifndef RANGES_H
#define RANGES_H
#include <stddef.h>
#include <stdint.h>

// The ranges of one kind are at most 256 * 257 / 2; a range has at most 62 prefixes, of two numbers each.
enum { RANGE_KINDS = 4, MOST_RANGES = 32896, MOST_NUMBERS = 124 };

struct range {
    uint32_t low, high;
};

// Ranges of one kind, all of one width.
struct ranges {
    const char *character;
    uint32_t width;
    size_t count;
    struct range each[MOST_RANGES];
};

// Fills in the ranges of a kind: 1 to 4294967294 at width 32, which has the most prefixes; all ranges of width 8; single numbers at
// width 32, drawn; 0 to 4294967295 at width 32.
void ranges_of(int kind, struct ranges *ranges);
#endif
