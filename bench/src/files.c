// Writes rules.csv and headers.csv into the current folder: an access list of 1,024 rules and as many headers as its argument says,
// about one line in a thousand of them bad.
#include "lists.h"
#include <stdio.h>
#include <stdlib.h>

static struct list list;

int main(int words, char **word) {
    struct draw from = {SEED};
    size_t m = words == 2 ? strtoul(word[1], NULL, 10) : 0;
    access_list(&list, &from, MOST_RULES);
    FILE *rules = fopen("rules.csv", "wb"), *headers = fopen("headers.csv", "wb");
    if (rules == NULL || headers == NULL) return 1;
    for (size_t i = 0; i < list.n; i++)
        for (size_t k = 0; k < 10; k++) fprintf(rules, "%u%s", list.numbers[10 * i + k], k < 9 ? "," : "\r\n");
    for (size_t k = 0; k < m; k++) {
        uint32_t header[1][8];
        headers_for(&list, &from, header, 1);
        const char *end = below(&from, 1000) ? "\r\n" : ",0\r\n";
        fprintf(headers, "%u,%u,%u,%u,%u%s", header[0][0], header[0][1], header[0][2], header[0][3], header[0][4], end);
    }
    return fclose(rules) | fclose(headers) ? 1 : 0;
}
