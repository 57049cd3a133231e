/* A second noise report. It stands on the request's text alone and shares nothing with the library or its definitions. It is meant to
 * be read beside that text, sentence by sentence: plain, not fast. Where it and the program print different lines, one of the two
 * misreads the text. */
#include "noise_reference.h"

#include <stdio.h>
#include <string.h>

enum { SHORTEST = 4, LONGEST = 256, MOST_RECORDS = 1000000 };

/* ---- a frame ---- */

/* The CRC-16 of Modbus RTU, bit by bit. */
static unsigned crc(const uint8_t *frame, size_t count) {
    unsigned remainder = 0xFFFF;
    for (size_t k = 0; k < count; k++) {
        remainder ^= frame[k];
        for (int bit = 0; bit < 8; bit++) {
            unsigned left = remainder & 1;
            remainder >>= 1;
            if (left) remainder ^= 0xA001;
        }
    }
    return remainder;
}

/* The last two bytes are the CRC of all before them, low byte first. */
static int is_right(const uint8_t *frame, size_t count) {
    unsigned check = crc(frame, count - 2);
    return frame[count - 2] == check % 256 && frame[count - 1] == check / 256;
}

static int differs(const uint8_t *a, const uint8_t *b, size_t count) {
    for (size_t k = 0; k < count; k++)
        if (a[k] != b[k]) return 1;
    return 0;
}

static unsigned differing_bits(const uint8_t *a, const uint8_t *b, size_t count) {
    unsigned bits = 0;
    for (size_t k = 0; k < count; k++)
        for (int bit = 0; bit < 8; bit++) {
            int one = a[k] >> bit & 1, other = b[k] >> bit & 1;
            if (one != other) bits++;
        }
    return bits;
}

/* ---- the report ---- */

typedef struct {
    unsigned long pairs, faulty, flipped, refused, missed;
} Report;

static void count_record(Report *report, const uint8_t *sent, const uint8_t *received, size_t count) {
    report->pairs++;
    if (!is_right(sent, count)) {
        report->faulty++;
        return;
    }
    report->flipped += differing_bits(sent, received, count);
    if (!is_right(received, count)) report->refused++;
    if (differs(sent, received, count) && is_right(received, count)) report->missed++;
}

/* All records; 0 where the input ends inside one, has a length outside 4 to 256, or a record too many. */
static int count_all(Report *report, const uint8_t *input, size_t count) {
    size_t at = 0;
    while (at < count) {
        if (report->pairs == MOST_RECORDS) return 0;
        if (count - at < 2) return 0;
        size_t length = input[at] * 256u + input[at + 1];
        if (length < SHORTEST) return 0;
        if (length > LONGEST) return 0;
        if (count - at - 2 < 2 * length) return 0;
        const uint8_t *sent = input + at + 2;
        const uint8_t *received = sent + length;
        count_record(report, sent, received, length);
        at += 2 + 2 * length;
    }
    return 1;
}

void reference_noise(const uint8_t *input, size_t count, char *said) {
    Report report = {0, 0, 0, 0, 0};
    if (!count_all(&report, input, count)) {
        strcpy(said, "bad input\n");
        return;
    }
    sprintf(said, "pairs %lu\nfaulty %lu\nflipped %lu\nrefused %lu\nmissed %lu\n", report.pairs, report.faulty, report.flipped,
            report.refused, report.missed);
}
