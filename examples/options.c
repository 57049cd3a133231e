#include "options.h"

#include "serial.h"

#include <errno.h>
#include <stdio.h>
#include <stdlib.h>
#include <string.h>

int take_number(const char *option, const char *text, const char *what, long least, long most, long *number) {
    char *end;
    errno = 0;
    *number = strtol(text, &end, 10);
    /* strtol passes over blanks and a sign; a number here begins with a digit. */
    if (text[0] < '0' || text[0] > '9' || *end != 0 || errno != 0 || *number < least || *number > most) {
        fprintf(stderr, "%s %s: %s is a number from %ld to %ld\n", option, text, what, least, most);
        return -1;
    }
    return 0;
}

int take_baud(const char *text, long *baud) {
    for (size_t k = 0; k < serial_speeds_count; k++) {
        char name[24];
        snprintf(name, sizeof name, "%ld", serial_speeds[k].baud);
        if (strcmp(text, name) == 0) {
            *baud = serial_speeds[k].baud;
            return 0;
        }
    }
    fprintf(stderr, "-b %s: a speed is one of", text);
    for (size_t k = 0; k < serial_speeds_count; k++) fprintf(stderr, " %ld", serial_speeds[k].baud);
    fprintf(stderr, "\n");
    return -1;
}

int take_parity(const char *text, char *parity) {
    if (strcmp(text, "N") != 0 && strcmp(text, "E") != 0 && strcmp(text, "O") != 0) {
        fprintf(stderr, "-P %s: a parity is N (none), E (even) or O (odd)\n", text);
        return -1;
    }
    *parity = text[0];
    return 0;
}
