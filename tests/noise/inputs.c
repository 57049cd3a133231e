/* The inputs whose noise report is stored.
 *
 *   inputs          their names, one a line
 *   inputs NAME     writes that one
 *
 * What the rules name stands here as bytes; frames of other lengths are made. */
#include <stdint.h>
#include <stdio.h>
#include <stdlib.h>
#include <string.h>

/* 01's CRC line, and the four flipped bits that pass. */
static const uint8_t line[8] = {0x01, 0x08, 0x00, 0x0C, 0x00, 0x00, 0x20, 0x08};
static const uint8_t write_one[8] = {0x01, 0x06, 0x00, 0x01, 0x00, 0x01, 0x19, 0xCA};
static const uint8_t write_two[8] = {0x01, 0x06, 0x00, 0x01, 0x00, 0x02, 0x59, 0xCB};
static const uint8_t wrong_one[8] = {0x01, 0x06, 0x00, 0x01, 0x00, 0x01, 0x19, 0xCB};

static void put(const uint8_t *bytes, size_t count) { fwrite(bytes, 1, count, stdout); }

static void put_length(unsigned length) {
    putchar((int)(length / 256));
    putchar((int)(length % 256));
}

static void record(const uint8_t *sent, const uint8_t *received, unsigned length) {
    put_length(length);
    put(sent, length);
    put(received, length);
}

/* A frame of a length from 2 on: bytes that go up from the length, and their CRC. */
static void make_frame(uint8_t *frame, unsigned length) {
    unsigned remainder = 0xFFFF;
    for (unsigned k = 0; k < length - 2; k++) {
        frame[k] = (uint8_t)(length + k);
        remainder ^= frame[k];
        for (int bit = 0; bit < 8; bit++) remainder = remainder & 1 ? remainder >> 1 ^ 0xA001 : remainder >> 1;
    }
    frame[length - 2] = (uint8_t)(remainder % 256);
    frame[length - 1] = (uint8_t)(remainder / 256);
}

/* A record of a length, received as it was sent but for the given number of bits, every thirteenth from the third on. */
static void made(unsigned length, unsigned flips) {
    uint8_t *sent = malloc(length + 2), *received = malloc(length + 2);
    make_frame(sent, length < 2 ? 2 : length);
    memcpy(received, sent, length);
    for (unsigned k = 0; k < flips; k++) {
        unsigned bit = (2 + 13 * k) % (8 * length);
        received[bit / 8] ^= (uint8_t)(1 << bit % 8);
    }
    record(sent, received, length);
    free(sent);
    free(received);
}

/* The first bytes of 01's line twice in a record, 18 in all. */
static void cut(unsigned count) {
    uint8_t whole[18] = {0, 8};
    memcpy(whole + 2, line, 8);
    memcpy(whole + 10, line, 8);
    put(whole, count);
}

static void every(uint8_t byte, unsigned count) {
    for (unsigned k = 0; k < count; k++) putchar(byte);
}

/* So many records of length 4, every tenth with two flipped bits. */
static void many(unsigned count) {
    for (unsigned k = 0; k < count; k++) made(4, k % 10 ? 0 : 2);
}

/* One of each kind: as sent, missed, refused, faulty and as sent, faulty and then right. */
static void each_kind(void) {
    record(line, line, 8);
    record(write_one, write_two, 8);
    record(write_one, wrong_one, 8);
    record(wrong_one, wrong_one, 8);
    record(wrong_one, write_two, 8);
}

static int number_in(const char *name, const char *before, unsigned *n) {
    size_t k = strlen(before);
    if (strncmp(name, before, k) != 0) return 0;
    *n = (unsigned)atoi(name + k);
    return 1;
}

static int write_input(const char *name) {
    unsigned n;
    if (strcmp(name, "empty") == 0) return 1;
    if (strcmp(name, "worked") == 0) return record(line, line, 8), 1;
    if (strcmp(name, "four") == 0) return record(write_one, write_two, 8), 1;
    if (strcmp(name, "four-back") == 0) return record(write_two, write_one, 8), 1;
    if (strcmp(name, "worked-four") == 0) return record(line, line, 8), record(write_one, write_two, 8), 1;
    if (strcmp(name, "other-frame") == 0) return record(line, write_one, 8), 1;
    if (strcmp(name, "refused") == 0) return record(write_one, wrong_one, 8), 1;
    if (strcmp(name, "faulty-as-sent") == 0) return record(wrong_one, wrong_one, 8), 1;
    if (strcmp(name, "faulty-then-right") == 0) return record(wrong_one, write_one, 8), 1;
    if (strcmp(name, "faulty-then-another") == 0) return record(wrong_one, write_two, 8), 1;
    if (strcmp(name, "each-kind") == 0) return each_kind(), 1;
    if (strcmp(name, "each-kind-thrice") == 0) return each_kind(), each_kind(), each_kind(), 1;
    if (strcmp(name, "zeros") == 0) return put_length(4), every(0, 8), 1;
    if (strcmp(name, "all-bits") == 0) {
        uint8_t sent[256], received[256];
        make_frame(sent, 256);
        for (int k = 0; k < 256; k++) received[k] = (uint8_t)~sent[k];
        return record(sent, received, 256), 1;
    }
    if (strcmp(name, "length-low-first") == 0) return putchar(4), putchar(0), every(0, 8), 1;
    if (strcmp(name, "length-3-after-a-record") == 0) return record(line, line, 8), put_length(3), every(0, 6), 1;
    if (strcmp(name, "length-257-then-a-record") == 0) return made(257, 0), record(line, line, 8), 1;
    if (strcmp(name, "length-alone") == 0) return put_length(8), 1;
    if (strcmp(name, "sent-alone") == 0) return put_length(8), put(line, 8), 1;
    if (strcmp(name, "lengths-4-to-256") == 0) {
        for (n = 4; n <= 256; n++) made(n, n % 5);
        return 1;
    }
    if (strcmp(name, "million") == 0) return many(1000000), 1;
    if (strcmp(name, "million-and-one") == 0) return many(1000001), 1;
    if (strcmp(name, "million-and-a-byte") == 0) return many(1000000), putchar(0), 1;
    if (strcmp(name, "million-less-a-byte") == 0) return many(999999), put_length(8), put(line, 8), put(line, 7), 1;
    if (number_in(name, "length-", &n)) return n < 2 ? (put_length(n), every(0, 2 * n)) : made(n, 0), 1;
    if (number_in(name, "flips-", &n)) return made(32, n), 1;
    if (number_in(name, "cut-", &n)) return cut(n), 1;
    if (number_in(name, "record-and-cut-", &n)) return cut(18), cut(n), 1;
    return 0;
}

static const char *const names[] = {
    "empty", "worked", "four", "four-back", "worked-four", "other-frame", "refused", "faulty-as-sent", "faulty-then-right",
    "faulty-then-another", "each-kind", "each-kind-thrice", "zeros", "all-bits", "length-0", "length-1", "length-3", "length-4",
    "length-5", "length-255", "length-256", "length-257", "length-1024", "length-65535", "length-low-first", "length-3-after-a-record",
    "length-257-then-a-record", "length-alone", "sent-alone", "lengths-4-to-256", "flips-1", "flips-2", "flips-3", "flips-4", "flips-5",
    "flips-6", "flips-7", "flips-8", "million", "million-and-one", "million-and-a-byte", "million-less-a-byte"};

int main(int count, char **words) {
    if (count == 1) {
        for (size_t k = 0; k < sizeof names / sizeof *names; k++) puts(names[k]);
        for (int k = 1; k < 18; k++) printf("cut-%d\nrecord-and-cut-%d\n", k, k);
        return 0;
    }
    if (write_input(words[1])) return 0;
    fprintf(stderr, "%s: no such input\n", words[1]);
    return 2;
}
