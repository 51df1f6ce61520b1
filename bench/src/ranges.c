// The ranges that the benches on prefixes turn into prefixes.
#include "ranges.h"
#include "lists.h"

static void add(struct ranges *ranges, uint32_t low, uint32_t high) { ranges->each[ranges->count++] = (struct range){low, high}; }

void ranges_of(int kind, struct ranges *ranges) {
    static const char *const characters[RANGE_KINDS] = {"1_to_4294967294", "all_ranges", "single_numbers", "0_to_4294967295"};
    struct draw from = {SEED};
    ranges->character = characters[kind];
    ranges->width = kind == 1 ? 8 : 32;
    ranges->count = 0;
    if (kind == 0) add(ranges, 1, UINT32_MAX - 1);
    if (kind == 1)
        for (uint32_t low = 0; low < 256; low++)
            for (uint32_t high = low; high < 256; high++) add(ranges, low, high);
    if (kind == 2)
        for (int i = 0; i < 2048; i++) {
            uint32_t number = below(&from, UINT32_MAX);
            add(ranges, number, number);
        }
    if (kind == 3) add(ranges, 0, UINT32_MAX);
}
