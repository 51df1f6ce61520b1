// Rule lists of several characters and headers for them, drawn from a seed: the inputs of every bench.
#ifndef LISTS_H
#define LISTS_H
#include <stddef.h>
#include <stdint.h>

enum { MOST_RULES = 1024, MOST_FIELDS = 8, SEED = 20240 };

// Where numbers are drawn from: the same seed gives the same numbers on every machine.
struct draw {
    uint64_t state;
};

// A list as 01 has it: 2d numbers a rule, low and high of field 0, then of field 1, and so on.
struct list {
    size_t n, d;
    uint32_t numbers[MOST_RULES * 2 * MOST_FIELDS];
};

// Gives a number from 0 to before m.
uint32_t below(struct draw *from, uint32_t m);

// Each of these fills a list of n rules. The five-field ones have source and destination address, source and destination
// port, and protocol, in this order and within 32, 32, 16, 16 and 8 bits.

// Exact numbers in every field, as a list of known instruments or flows: one partition.
void points(struct list *list, struct draw *from, size_t n, size_t d);
// Pairs of address prefixes of 8 to 32 bits, many within others; any port, any protocol.
void prefixes(struct list *list, struct draw *from, size_t n);
// An access list in the manner of ClassBench: prefix pairs, port ranges, protocols; no rule lies within an earlier one.
void access_list(struct list *list, struct draw *from, size_t n);
// b layers of n / b ranges of field 0 that lie side by side, each layer within the one after it: b partitions of n / b
// rules. The other fields take anything.
void layers(struct list *list, size_t n, size_t d, size_t b);
// Each range of field 0 within the next: n partitions of one rule.
void nested(struct list *list, size_t n, size_t d);
// The same rule n times, every field exact: n partitions of one rule.
void twins(struct list *list, size_t n, size_t d);

// Draws m headers for a list: three in four lie inside a rule drawn from the list, the others anywhere in the fields' widths.
// Numbers past d are drawn too, and alter nothing.
void headers_for(const struct list *list, struct draw *from, uint32_t (*headers)[8], size_t m);
#endif
