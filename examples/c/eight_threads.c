/* Looks the same headers up in one table from eight threads at once, and prints how many answers are those that one thread
 * had before, each of which was held against the plain scan. */
#include "cuyenalot.h"

#include <pthread.h>
#include <stdio.h>
#include <string.h>

enum { FIELDS = 2, NO_DATES = 0, RULES = 256, THREADS = 8, HEADERS = 50000, LIST = RULES * 2 * FIELDS };
enum { TABLE = CUY_TABLE_LENGTH(RULES, FIELDS) };

static uint32_t list[LIST], headers[HEADERS][8];
static uint16_t table[TABLE];
static uint64_t expected[HEADERS][7];

/* Rules whose ranges overlap in field 1, and in field 0 for every fourth; headers drawn from a fixed seed. */
static void fill(void) {
    uint32_t draw = 1;
    for (uint32_t i = 0; i < RULES; i++) {
        list[4 * i] = i / 4 * 10;
        list[4 * i + 1] = i / 4 * 10 + (i % 4 == 3 ? 25 : 9);
        list[4 * i + 2] = i % 4 * 100;
        list[4 * i + 3] = i % 4 * 100 + 150;
    }
    for (int i = 0; i < HEADERS; i++) {
        draw = draw * 1664525u + 1013904223u;
        headers[i][0] = draw >> 22;
        headers[i][1] = draw >> 10 & 511;
    }
}

/* What one thread answers; 0 where the scan answers something else. */
static int answer_all(void) {
    for (int i = 0; i < HEADERS; i++) {
        uint64_t scanned[5];
        if (cuy_lookup(FIELDS, NO_DATES, list, LIST, table, TABLE, headers[i], expected[i]) != 0) return 0;
        if (cuy_plain_scan(FIELDS, NO_DATES, list, LIST, headers[i], scanned) != 0) return 0;
        if (expected[i][3] != scanned[3] || expected[i][4] != scanned[4]) return 0;
    }
    return 1;
}

/* One thread's turn: every header, from a place of its own on. */
static void *look_up(void *place) {
    unsigned *right = place, first = *right, count = 0;
    for (unsigned k = 0; k < HEADERS; k++) {
        unsigned i = (first + k) % HEADERS;
        uint64_t found[7];
        if (cuy_lookup(FIELDS, NO_DATES, list, LIST, table, TABLE, headers[i], found) != 0) continue;
        if (memcmp(found, expected[i], sizeof found) == 0) count++;
    }
    *right = count;
    return NULL;
}

int main(void) {
    pthread_t threads[THREADS];
    unsigned right[THREADS], all = 0;
    uint64_t built[4];
    fill();
    if (cuy_build(FIELDS, NO_DATES, list, LIST, table, TABLE, built) != 0 || !answer_all()) return 1;
    for (unsigned i = 0; i < THREADS; i++) {
        right[i] = i * (HEADERS / THREADS);
        if (pthread_create(&threads[i], NULL, look_up, &right[i]) != 0) return 1;
    }
    for (int i = 0; i < THREADS; i++) {
        if (pthread_join(threads[i], NULL) != 0) return 1;
        all += right[i];
    }
    printf("%u of %u answers from %d threads are right\n", all, (unsigned)(THREADS * HEADERS), THREADS);
    return 0;
}
