// Plain C that does what the proved code does, as one would write it without proofs: what the proved code is timed against.
#ifndef PLAIN_H
#define PLAIN_H
#include <stddef.h>
#include <stdint.h>

// A lookup's answer: the refusal (0: none), the tests, the rule (-1: none), and 1 where it is at an edge, else 0.
struct plain_answer {
    uint32_t refusal, tests;
    int32_t rule;
    uint32_t edge;
};

// Writes the table of a list by first fit and gives b, or minus the refusal. First fit compares with the members of each
// partition in turn; each partition is then sorted by qsort.
int plain_build(size_t d, const uint32_t *list, size_t length, uint16_t *table, size_t table_length);

// The same table by a cleverer way: each partition is kept sorted, and a rule is held against it by binary search.
int sorted_build(size_t d, const uint32_t *list, size_t length, uint16_t *table, size_t table_length);

// The walk of 01 as a loop, with every refusal of a lookup, which skips partitions as 02, W5 has it.
struct plain_answer plain_lookup(size_t d, const uint32_t *list, size_t length, const uint16_t *table, size_t table_length, const uint32_t *header);

// The first match by a loop over the rules; the list is taken to be sound, and is not checked.
int32_t plain_scan(size_t n, size_t d, const uint32_t *list, const uint32_t *header);

// Writes the prefixes of a range, two numbers each, and gives how many, or minus the refusal; it counts them before it writes any.
typedef int prefixes_of(uint32_t width, uint32_t low, uint32_t high, uint32_t *run, size_t run_length);
prefixes_of plain_prefixes;
#endif
