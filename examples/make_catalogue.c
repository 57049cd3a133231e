/* Makes a catalogue file from text, for people and scripts: standard input to standard output. A line is one of
 *
 *   group "HL-G205 "      a group; its name is what stands between the quotes, blanks included
 *   run 400101 4 rw       registers by the catalogue's number, how many, and what may be done with them: r, w, rw or hole
 *   end                   the group's end
 *   bytes 02 00 05        these bytes as they are, for files that are to be refused
 *   # ...                 a remark; blanks before a line's first word count nothing
 *
 * Every group's length is counted here. What is wrong with a line is told by its number, and nothing is written then. What the bytes come
 * to, other than lines, is not looked at: `catalogue` does that. */
#include "jeulgopae.h"

#include <errno.h>
#include <stdio.h>
#include <stdlib.h>
#include <string.h>

enum { MOST = 1 << 20, DEEPEST = 16 };

static uint8_t file[MOST];
static size_t used, begun[DEEPEST], depth;
static long number; /* of the line */

static int mistake(const char *reason) {
    fprintf(stderr, "line %ld: %s\n", number, reason);
    return -1;
}

static int put(long byte) {
    if (used == MOST) return mistake("too much for a file");
    file[used++] = (uint8_t)byte;
    return 0;
}

static int put_pair(long value) { return put(value / 256) || put(value % 256); }

static int put_group(char *text) {
    char *from = strchr(text, '"'), *to = strrchr(text, '"');
    if (!from || to == from || to[1] != 0) return mistake("a group's name stands between quotes");
    if (to - from - 1 > 65535) return mistake("the name is too long for any field");
    if (depth == DEEPEST) return mistake("groups for more levels than this program counts");
    begun[depth++] = used;
    if (put(3) || put_pair(0) || put(1) || put_pair(to - from - 1)) return -1;
    for (char *at = from + 1; at < to; at++)
        if (put((uint8_t)*at)) return -1;
    return 0;
}

static int put_end(void) {
    size_t at, length;
    if (depth == 0) return mistake("there is no group to end");
    at = begun[--depth];
    length = used - at - 3;
    if (length > 65535) return mistake("the group is too long for a length of two bytes");
    file[at + 1] = (uint8_t)(length / 256);
    file[at + 2] = (uint8_t)(length % 256);
    return 0;
}

static long attribute_of(const char *text) {
    static const char *const names[] = {"hole", "r", "w", "rw"};
    for (long k = 0; k < 4; k++)
        if (strcmp(text, names[k]) == 0) return k;
    return -1;
}

static int put_run(const char *text) {
    unsigned long first, count;
    char attribute[8];
    int end = 0;
    int32_t address;
    if (sscanf(text, "%lu %lu %7s %n", &first, &count, attribute, &end) != 3 || text[end] != 0 || attribute_of(attribute) < 0)
        return mistake("a run is a register number, a count, and r, w, rw or hole");
    address = jeulgopae_register_address(first > 999999 ? 0 : (uint32_t)first);
    if (address < 0) return mistake("there is no such register");
    if (count > 65535) return mistake("the count is too large for two bytes");
    return put(2) || put_pair(5) || put_pair(address) || put_pair((long)count) || put(attribute_of(attribute)) ? -1 : 0;
}

static int put_bytes(const char *text) {
    unsigned byte;
    int end = 0;
    while (sscanf(text, "%2x %n", &byte, &end) == 1) {
        if (put((long)byte)) return -1;
        text += end;
    }
    return *text ? mistake("bytes are hex pairs") : 0;
}

static int take_line(char *line) {
    char *text = line + strspn(line, " \t");
    text[strcspn(text, "\r\n")] = 0;
    if (*text == 0 || *text == '#') return 0;
    if (strncmp(text, "group ", 6) == 0) return put_group(text + 6);
    if (strncmp(text, "run ", 4) == 0) return put_run(text + 4);
    if (strncmp(text, "bytes ", 6) == 0) return put_bytes(text + 6);
    if (strcmp(text, "end") == 0) return put_end();
    return mistake("a line is `group \"name\"`, `run number count r|w|rw|hole`, `end`, `bytes ..` or a remark after #");
}

int main(int argc, char **argv) {
    static char line[1 << 16];
    if (argc > 1 && strcmp(argv[1], "--version") == 0) {
        printf("make_catalogue (jeulgopae) %s\n", JEULGOPAE_VERSION);
        return 0;
    }
    if (argc > 1) {
        printf("usage: make_catalogue <text >file\nmake_catalogue --version | --help\n");
        return strcmp(argv[1], "--help") == 0 ? 0 : 2;
    }
    while (fgets(line, sizeof line, stdin)) {
        number++;
        if (take_line(line) != 0) return 1;
    }
    number++;
    if (depth > 0) return mistake("a group has no end") ? 1 : 0;
    if (fwrite(file, 1, used, stdout) != used || fflush(stdout) != 0) {
        fprintf(stderr, "standard output: %s\n", strerror(errno));
        return 1;
    }
    return 0;
}
