// DPDK's librte_acl on the same five-field rules.
#ifndef ACL_H
#define ACL_H
#include <stddef.h>
#include <stdint.h>

// A header as librte_acl reads it: protocol, addresses and ports, the most significant byte first.
struct acl_key {
    uint8_t protocol, unused[3];
    uint32_t source, destination;
    uint16_t source_port, destination_port;
};

// Starts DPDK without huge pages or devices; gives 0, or -1 where it does not start.
int acl_start(void);
// Builds the classifier of n five-field rules, in memory of at most a few hundred MiB; gives 0, or -1 where it refuses.
int acl_build(size_t n, const uint32_t *list);
// Turns a header into a key.
struct acl_key acl_key_of(const uint32_t *header);
// Classifies m keys in one call: results are 1 more than the rule, 0 for none.
void acl_classify(const uint8_t **keys, uint32_t *results, size_t m);
// Frees the classifier.
void acl_drop(void);
// Names the library's version and the way of classifying that it chose for this machine.
const char *acl_name(void);
#endif
