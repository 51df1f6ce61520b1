// Where the parts of a table of n rules of d fields begin: n, d and b, the order, the starts, each partition's smallest rule number
// (least), run-from, run-to. How long it is says CUY_TABLE_LENGTH.
#ifndef TABLE_H
#define TABLE_H
#include "../../include/cuyenalot.h"

enum { ORDER_AT = 3 };
static inline size_t starts_at(size_t n) { return ORDER_AT + n; }
static inline size_t least_at(size_t n) { return starts_at(n) + n + 1; }
static inline size_t from_at(size_t n) { return least_at(n) + n; }
static inline size_t to_at(size_t n, size_t d) { return from_at(n) + n * d; }
#endif
