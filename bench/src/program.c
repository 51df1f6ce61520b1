// The program of 01 in plain C: reads rules.csv and headers.csv, builds, looks up, prints. What the proved program is held against.
#include "../../include/cuyenalot.h"
#include "plain.h"
#include <stdbool.h>
#include <stdio.h>
#include <stdlib.h>
#include <string.h>

enum { MOST_RULES = 1024, MOST_CELLS = 16, ROOM = 65536 };

// A file read in chunks; one that can't be opened or read counts as ended.
struct input {
    FILE *file;
    size_t at, filled;
    unsigned char bytes[ROOM];
};

// Gives the next byte and leaves it there, or -1 at the end.
static int peek_byte(struct input *in) {
    if (in->at == in->filled) {
        in->at = 0;
        in->filled = in->file == NULL ? 0 : fread(in->bytes, 1, ROOM, in->file);
    }
    return in->filled == 0 ? -1 : in->bytes[in->at];
}

// A line taken apart: how many cells, their numbers as far as there is room, and whether every one is a plain decimal.
struct line {
    size_t cells;
    bool readable;
    uint32_t numbers[MOST_CELLS];
};

// Reads a line, which ends at CRLF or with the file; gives false where nothing is left.
static bool read_line(struct input *in, struct line *line) {
    if (peek_byte(in) < 0) return false;
    line->cells = 0;
    line->readable = true;
    uint64_t value = 0;
    size_t digits = 0;
    for (bool over = false; !over;) {
        int c = peek_byte(in);
        if (c >= 0) in->at++;
        over = c < 0 || (c == '\r' && peek_byte(in) == '\n');
        if (over || c == ',') {
            if (c == '\r') in->at++;
            if (digits == 0) line->readable = false;
            if (line->cells < MOST_CELLS) line->numbers[line->cells] = (uint32_t)value;
            line->cells++;
            value = 0;
            digits = 0;
        } else if ('0' <= c && c <= '9' && !(digits == 1 && value == 0) && value <= UINT32_MAX) {
            value = 10 * value + (uint64_t)(c - '0');
            digits++;
            if (value > UINT32_MAX) line->readable = false;
        } else line->readable = false;
    }
    return true;
}

// What is printed, kept until there is no room for one more line.
static char output[ROOM];
static size_t written;

static void flush(void) {
    if (fwrite(output, 1, written, stdout) == written && fflush(stdout) == 0) {
        written = 0;
        return;
    }
    fputs("program: a write failed\n", stderr);
    exit(1);
}

static void put_text(const char *text, size_t length) {
    memcpy(output + written, text, length);
    written += length;
}

static void put_number(uint32_t x) {
    char digits[10];
    size_t k = sizeof digits;
    do digits[--k] = (char)('0' + x % 10);
    while (x /= 10);
    put_text(digits + k, sizeof digits - k);
}

static void put_refusal(uint32_t number) {
    put_text("refused,", 8);
    put_number(number);
    put_text("\r\n", 2);
}

// Reads the rules into a list; gives the number of fields, or minus the refusal.
static int read_rules(struct input *in, uint32_t *list, size_t *length) {
    struct line line;
    if (!read_line(in, &line)) return -1;
    if (!line.readable || line.cells % 2 != 0) return -8;
    if (line.cells > MOST_CELLS) return -1;
    size_t cells = line.cells, n = 0;
    do {
        if (n == MOST_RULES) return -3;
        if (!line.readable || line.cells != cells) return -8;
        memcpy(list + cells * n++, line.numbers, 4 * cells);
    } while (read_line(in, &line));
    *length = cells * n;
    return (int)(cells / 2);
}

int main(int words, char **word) {
    static struct input in;
    static uint32_t list[MOST_RULES * MOST_CELLS];
    static uint16_t table[CUY_MAX_TABLE];
    size_t length = 0, table_length = 0;
    in.file = fopen(words == 3 ? word[1] : "rules.csv", "rb");
    int d = read_rules(&in, list, &length);
    if (d > 0) {
        table_length = CUY_TABLE_LENGTH(length / (2 * (size_t)d), d);
        int b = plain_build((size_t)d, list, length, table, table_length);
        if (b < 0) d = b;
    }
    if (d < 0) {
        put_refusal((uint32_t)-d);
        flush();
        return 0;
    }
    if (in.file != NULL) fclose(in.file);
    in = (struct input){.file = fopen(words == 3 ? word[2] : "headers.csv", "rb")};
    put_text("rule,tests\r\n", 12);
    for (struct line line; read_line(&in, &line);) {
        if (written > ROOM - 64) flush();
        if (!line.readable || line.cells != (size_t)d) {
            put_refusal(8);
            continue;
        }
        struct plain_answer a = plain_lookup((size_t)d, list, length, table, table_length, line.numbers);
        if (a.rule < 0) put_text("none", 4);
        else put_number((uint32_t)a.rule);
        put_text(",", 1);
        put_number(a.tests);
        put_text("\r\n", 2);
    }
    flush();
    return 0;
}
