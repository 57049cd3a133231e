/* What the examples cut out of the bytes of a line, and how long silence lasts that parts frames: a line each with its name, what came and
 * what was expected. In a case `|` stands for silence of a gap; frames are printed one after the other, each after `>`. */
#include "../../examples/framing.h"

#include <stdio.h>
#include <string.h>

static int tests, failures;

static void verdict(const char *name, const char *got, const char *expected) {
    int good = strcmp(got, expected) == 0;
    tests++;
    failures += !good;
    printf("%-4s %-44s got %s, expected %s\n", good ? "ok" : "BAD", name, got, expected);
}

static void gap(const char *name, const Form *form, long baud, const char *microseconds) {
    char got[32];
    snprintf(got, sizeof got, "%ld", (long)framing_gap(form, baud));
    verdict(name, got, microseconds);
}

/* Printable, so that a difference can be read. */
static void keep(char *to, size_t room, const Framing *f) {
    size_t n = strlen(to);
    n += (size_t)snprintf(to + n, room - n, ">");
    for (size_t k = 0; k < f->count; k++) {
        uint8_t b = f->bytes[k];
        n += (size_t)snprintf(to + n, room - n, b >= 0x20 && b <= 0x7E ? "%c" : "<%02X>", b);
    }
}

static void cut_n(const char *name, const Form *form, const char *line, size_t count, const char *expected) {
    char got[4096] = "";
    Framing f;
    framing_start(&f, form);
    for (size_t k = 0; k < count; k++)
        if (line[k] == '|' ? framing_silence(&f) : framing_byte(&f, (uint8_t)line[k])) keep(got, sizeof got, &f);
    verdict(name, got, expected);
}

static void cut(const char *name, const Form *form, const char *line, const char *expected) {
    cut_n(name, form, line, strlen(line), expected);
}

/* A frame of so many bytes: how many of them are cut out, after an opening byte that is its own. */
static void length(const char *name, const Form *form, size_t count, const char *expected) {
    char got[32];
    Framing f;
    int whole = 0;
    framing_start(&f, form);
    framing_byte(&f, form->openings ? (uint8_t)form->openings[0] : 1);
    for (size_t k = 2; k < count; k++) framing_byte(&f, '0');
    whole = form->openings ? framing_byte(&f, (uint8_t)form->closing) : (framing_byte(&f, '0'), framing_silence(&f));
    snprintf(got, sizeof got, "%d", whole ? (int)f.count : 0);
    verdict(name, got, expected);
}

int main(void) {
    gap("gap: RTU, 1200 baud", &rtu_form, 1200, "32083");
    gap("gap: RTU, 9600 baud", &rtu_form, 9600, "4010");
    gap("gap: RTU, 19200 baud", &rtu_form, 19200, "2005");
    gap("gap: RTU, 38400 baud", &rtu_form, 38400, "1750");
    gap("gap: RTU, 115200 baud", &rtu_form, 115200, "1750");
    gap("gap: ASCII", &ascii_form, 9600, "1000000");
    gap("gap: MEWTOCOL", &mewtocol_form, 9600, "1000000");

    cut("mewtocol: a frame", &mewtocol_form, "%01#A\r", ">%01#A<0D>");
    cut("mewtocol: noise before it", &mewtocol_form, "ab\n%01#A\r", ">%01#A<0D>");
    cut_n("mewtocol: NUL and LF before it", &mewtocol_form, "\0\n%01#A\r", 8, ">%01#A<0D>");
    cut("mewtocol: a text cut off before it", &mewtocol_form, "%01#%01#A\r", ">%01#A<0D>");
    cut("mewtocol: a laser head's text before it", &mewtocol_form, "/06%01#A\r", ">%01#A<0D>");
    cut("mewtocol: / ends a text that was cut off", &mewtocol_form, "%01#/06\r", ">/06<0D>");
    cut("mewtocol: two in a burst, CR LF", &mewtocol_form, "%1\r\n%2\r\n", ">%1<0D>>%2<0D>");
    cut("mewtocol: silence gives a text up", &mewtocol_form, "%01#|A\r%2\r", ">%2<0D>");
    cut("mewtocol: silence between texts", &mewtocol_form, "%1\r||%2\r", ">%1<0D>>%2<0D>");
    cut("mewtocol: both forms", &mewtocol_form, "%1\r<2\r%3\r", ">%1<0D>><2<0D>>%3<0D>");
    cut("ascii: noise before it", &ascii_form, "a\r\n:01\r\n", ">:01<0D><0A>");
    cut("ascii: a frame cut off before it", &ascii_form, ":0102:01\r\n", ">:01<0D><0A>");
    cut("ascii: two in a burst", &ascii_form, ":1\r\n:2\r\n", ">:1<0D><0A>>:2<0D><0A>");
    cut("rtu: silence ends a frame", &rtu_form, "ab|cd|", ">ab>cd");
    cut("rtu: silence without a frame", &rtu_form, "||ab||", ">ab");
    cut("rtu: no character parts frames", &rtu_form, "%:\r\n/|", ">%:<0D><0A>/");

    length("mewtocol: 2,048 characters", &mewtocol_form, 2048, "2048");
    length("mewtocol: 2,049 characters", &mewtocol_form, 2049, "0");
    length("ascii: 513 characters", &ascii_form, 513, "513");
    length("ascii: 514 characters", &ascii_form, 514, "0");
    length("rtu: 256 bytes", &rtu_form, 256, "256");
    length("rtu: 257 bytes, which the library refuses", &rtu_form, 257, "257");
    length("rtu: 1000 bytes, which the library refuses", &rtu_form, 1000, "257");

    printf("%d tests, %d failures\n", tests, failures);
    return failures != 0;
}
