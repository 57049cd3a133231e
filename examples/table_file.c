#define _POSIX_C_SOURCE 200809L
#include "table_file.h"

#include <errno.h>
#include <stdio.h>
#include <stdlib.h>
#include <string.h>

typedef struct {
    const char *path;
    long number;   /* of the line */
    int mistakes;
    long line_of[JEULGOPAE_TABLE_LIMIT]; /* the line that gave a word; 0 for none */
} Place;

static int mistake(Place *at, const char *text, const char *reason) {
    fprintf(stderr, "%s:%ld: %s: %s\n", at->path, at->number, text, reason);
    at->mistakes++;
    return -1;
}

/* Digits and nothing else, of a number up to most; -1 if it is not so. */
static long digits(const char *text, int base, long most) {
    char *end;
    long number;
    size_t n = strspn(text, base == 16 ? "0123456789abcdefABCDEF" : "0123456789");
    if (n == 0 || text[n] != 0) return -1;
    errno = 0;
    number = strtol(text, &end, base);
    return errno != 0 || number > most ? -1 : number;
}

static int take_range(Place *at, char *text, long *from, long *to) {
    char whole[64], *dash = strchr(text, '-');
    snprintf(whole, sizeof whole, "%s", text);
    if (dash) *dash = 0;
    *from = digits(text, 10, JEULGOPAE_TABLE_LIMIT - 1);
    *to = dash ? digits(dash + 1, 10, JEULGOPAE_TABLE_LIMIT - 1) : *from;
    if (*from < 0 || *to < 0) {
        char reason[64];
        snprintf(reason, sizeof reason, "an address is a number from 0 to %d", JEULGOPAE_TABLE_LIMIT - 1);
        return mistake(at, whole, reason);
    }
    return *from > *to ? mistake(at, whole, "the first address is above the last") : 0;
}

static int take_value(Place *at, const char *text, long *value) {
    int hex = text[0] == '0' && (text[1] == 'x' || text[1] == 'X');
    *value = digits(hex ? text + 2 : text, hex ? 16 : 10, 0xFFFF);
    return *value < 0 ? mistake(at, text, "a value is a number from 0 to 65535, or from 0x0 to 0xFFFF") : 0;
}

static int take_attribute(Place *at, const char *text, long *attribute) {
    *attribute = digits(text, 10, JEULGOPAE_READ_WRITE);
    return *attribute < 0 ? mistake(at, text, "an attribute is 0 (hole), 1 (read), 2 (write) or 3 (both)") : 0;
}

/* A word given twice is more likely a slip than a wish. */
static int set_words(Place *at, Table *table, long from, long to, long attribute, long value) {
    for (long k = from; k <= to; k++) {
        if (at->line_of[k] != 0) {
            char text[32], reason[64];
            snprintf(text, sizeof text, "%ld", k);
            snprintf(reason, sizeof reason, "line %ld has given this word", at->line_of[k]);
            return mistake(at, text, reason);
        }
        at->line_of[k] = at->number;
        table->attributes[k] = (uint8_t)attribute;
        table->words[k] = (uint16_t)value;
    }
    if ((size_t)to >= table->count) table->count = (size_t)to + 1;
    return 0;
}

static void take_line(Place *at, Table *table, char *line, size_t length) {
    static const char blanks[] = " \t\r\n";
    char *range, *attribute_text, *value_text;
    long from, to, attribute, value;
    if (strlen(line) != length) {
        mistake(at, "byte 00h", "a table is text");
        return;
    }
    line[strcspn(line, "#")] = 0;
    range = strtok(line, blanks);
    if (!range) return;
    attribute_text = strtok(NULL, blanks);
    value_text = strtok(NULL, blanks);
    if (!value_text || strtok(NULL, blanks)) {
        mistake(at, range, "a line is `address attribute value` or `from-to attribute value`");
        return;
    }
    if (take_range(at, range, &from, &to) == 0 && take_attribute(at, attribute_text, &attribute) == 0 &&
        take_value(at, value_text, &value) == 0)
        set_words(at, table, from, to, attribute, value);
}

int table_read(Table *table, const char *path) {
    static Place at;
    char *line = NULL;
    size_t room = 0;
    ssize_t n;
    FILE *f = fopen(path, "r");
    memset(table, 0, sizeof *table);
    memset(&at, 0, sizeof at);
    at.path = path;
    if (f) errno = 0;
    while (f && (n = getline(&line, &room, f)) >= 0) {
        at.number++;
        take_line(&at, table, line, (size_t)n);
        errno = 0;
    }
    free(line);
    if (!f || ferror(f)) {
        fprintf(stderr, "%s: %s\n", path, strerror(errno));
        at.mistakes++;
    }
    if (f) fclose(f);
    return at.mistakes ? -1 : 0;
}
