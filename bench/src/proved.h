// The proved functions, called as a C program calls them, on lists without dates, with answers as plain.h has them.
#ifndef PROVED_H
#define PROVED_H
#include "../../include/cuyenalot.h"
#include "plain.h"

enum { NO_DATES = 0 };

static inline int proved_build(size_t d, const uint32_t *list, size_t length, uint16_t *table, size_t table_length) {
    uint64_t answer[4];
    uint32_t refusal = cuy_build(d, NO_DATES, list, length, table, table_length, answer);
    return refusal ? -(int)refusal : (int)answer[3];
}

static inline struct plain_answer proved_lookup(size_t d, const uint32_t *list, size_t length, const uint16_t *table, size_t table_length, const uint32_t *header) {
    uint64_t answer[7];
    uint32_t refusal = cuy_lookup(d, NO_DATES, list, length, table, table_length, header, answer);
    return (struct plain_answer){refusal, (uint32_t)answer[5], answer[3] ? (int32_t)answer[4] : -1, (uint32_t)answer[6]};
}

static inline int32_t proved_scan(size_t d, const uint32_t *list, size_t length, const uint32_t *header) {
    uint64_t answer[5];
    cuy_plain_scan(d, NO_DATES, list, length, header, answer);
    return answer[3] ? (int32_t)answer[4] : -1;
}

static inline int proved_prefixes(uint32_t width, uint32_t low, uint32_t high, uint32_t *run, size_t run_length) {
    uint64_t answer[4];
    uint32_t refusal = cuy_range_to_prefixes(width, low, high, run, run_length, answer);
    return refusal ? -(int)refusal : (int)answer[3];
}
#endif
