// DPDK's librte_acl on the same five-field rules. An address field whose ranges are all prefixes is handed over as prefixes,
// any other as ranges.
#include "acl.h"
#include <arpa/inet.h>
#include <rte_acl.h>
#include <rte_eal.h>
#include <rte_version.h>
#include <stdbool.h>
#include <stdio.h>
#include <stdlib.h>
#include <string.h>

enum { PROTOCOL, SOURCE, DESTINATION, SOURCE_PORT, DESTINATION_PORT, FIELDS };
RTE_ACL_RULE_DEF(five_field_rule, FIELDS);

// where each of librte_acl's fields stands in a rule of the list
static const size_t place[FIELDS] = {4, 0, 1, 2, 3};
static const uint8_t bytes[FIELDS] = {1, 4, 4, 2, 2}, offset[FIELDS] = {0, 4, 8, 12, 14}, input[FIELDS] = {0, 1, 2, 3, 3};

static struct rte_acl_ctx *classifier;

int acl_start(void) {
    char *words[] = {"bench", "--no-huge", "--no-pci", "-m", "512", "--no-shconf", "--no-telemetry", "--log-level=error", NULL};
    return rte_eal_init(8, words) < 0 ? -1 : 0;
}

// Says whether a range is a prefix.
static bool is_prefix(uint32_t low, uint32_t high) {
    uint32_t size = high - low;
    return (size & (size + 1)) == 0 && (low & size) == 0;
}

static bool all_prefixes(size_t n, const uint32_t *list, size_t f) {
    for (size_t i = 0; i < n; i++)
        if (!is_prefix(list[10 * i + 2 * f], list[10 * i + 2 * f + 1])) return false;
    return true;
}

int acl_build(size_t n, const uint32_t *list) {
    struct rte_acl_param param = {.name = "bench", .socket_id = -1, .rule_size = RTE_ACL_RULE_SZ(FIELDS), .max_rule_num = (uint32_t)n};
    struct rte_acl_config config = {.num_categories = 1, .num_fields = FIELDS, .max_size = 256u << 20};
    classifier = rte_acl_create(&param);
    if (classifier == NULL) return -1;
    for (size_t f = 0; f < FIELDS; f++)
        config.defs[f] = (struct rte_acl_field_def){
            .type = bytes[f] == 4 && all_prefixes(n, list, place[f]) ? RTE_ACL_FIELD_TYPE_MASK : RTE_ACL_FIELD_TYPE_RANGE,
            .size = bytes[f], .field_index = (uint8_t)f, .input_index = input[f], .offset = offset[f]};
    for (size_t i = 0; i < n; i++) {
        struct five_field_rule rule = {.data = {.category_mask = 1, .priority = (int32_t)(n - i), .userdata = (uint32_t)i + 1}};
        for (size_t f = 0; f < FIELDS; f++) {
            uint32_t low = list[10 * i + 2 * place[f]], high = list[10 * i + 2 * place[f] + 1];
            bool prefix = config.defs[f].type == RTE_ACL_FIELD_TYPE_MASK;
            rule.field[f].value.u32 = low;
            rule.field[f].mask_range.u32 = prefix ? 32 - (uint32_t)__builtin_popcount(high - low) : high;
        }
        if (rte_acl_add_rules(classifier, (struct rte_acl_rule *)&rule, 1) != 0) return -1;
    }
    return rte_acl_build(classifier, &config) == 0 ? 0 : -1;
}

struct acl_key acl_key_of(const uint32_t *header) {
    return (struct acl_key){.protocol = (uint8_t)header[4], .source = htonl(header[0]), .destination = htonl(header[1]),
                            .source_port = htons((uint16_t)header[2]), .destination_port = htons((uint16_t)header[3])};
}

void acl_classify(const uint8_t **keys, uint32_t *results, size_t m) {
    if (rte_acl_classify(classifier, keys, results, (uint32_t)m, 1) != 0) abort();
}

void acl_drop(void) {
    rte_acl_free(classifier);
    classifier = NULL;
}

const char *acl_name(void) { return rte_version(); }
