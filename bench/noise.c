/* The noise report as one would write it in C without a thought for speed: a table for the CRC, popcount for the bits. */
#include <stdint.h>
#include <stdio.h>

static uint16_t table[256];

static uint16_t crc(const uint8_t *frame, size_t n) {
    uint16_t r = 0xFFFF;
    for (size_t i = 0; i < n; i++) r = (uint16_t)(r >> 8 ^ table[(r ^ frame[i]) & 255]);
    return r;
}

static int is_right(const uint8_t *frame, size_t n) {
    uint16_t r = crc(frame, n - 2);
    return frame[n - 2] == (r & 255) && frame[n - 1] == r >> 8;
}

int main(void) {
    for (int i = 0; i < 256; i++) {
        uint16_t r = (uint16_t)i;
        for (int k = 0; k < 8; k++) r = (uint16_t)(r & 1 ? r >> 1 ^ 0xA001 : r >> 1);
        table[i] = r;
    }
    static uint8_t sent[256], received[256];
    unsigned long pairs = 0, faulty = 0, flipped = 0, refused = 0, missed = 0;
    int high;
    while ((high = getchar()) != EOF) {
        int low = getchar();
        size_t n = (size_t)(high * 256 + low);
        if (low == EOF || n < 4 || n > 256 || pairs == 1000000 || fread(sent, 1, n, stdin) != n || fread(received, 1, n, stdin) != n) {
            puts("bad input");
            return 0;
        }
        pairs++;
        if (!is_right(sent, n)) {
            faulty++;
            continue;
        }
        unsigned bits = 0;
        for (size_t i = 0; i < n; i++) bits += (unsigned)__builtin_popcount(sent[i] ^ received[i]);
        flipped += bits;
        if (!is_right(received, n))
            refused++;
        else if (bits)
            missed++;
    }
    printf("pairs %lu\nfaulty %lu\nflipped %lu\nrefused %lu\nmissed %lu\n", pairs, faulty, flipped, refused, missed);
}
