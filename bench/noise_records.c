/* noise_records KIND COUNT LENGTH: writes records for noise. KIND: clean (received as sent), mixed (one in eight damaged), noisy (every one
 * damaged, one to six flipped bits). The bytes are the same in every run. */
#include <stdint.h>
#include <stdio.h>
#include <stdlib.h>
#include <string.h>

static uint64_t state = 12;

static uint32_t next(void) {
    uint64_t z = state += 0x9E3779B97F4A7C15u;
    z = (z ^ (z >> 30)) * 0xBF58476D1CE4E5B9u;
    z = (z ^ (z >> 27)) * 0x94D049BB133111EBu;
    return (uint32_t)(z >> 32);
}

static void make_record(uint8_t *record, const char *kind, uint32_t k, uint32_t n) {
    uint8_t *sent = record + 2, *received = sent + n;
    uint32_t r = 0xFFFF;
    record[0] = (uint8_t)(n / 256);
    record[1] = (uint8_t)(n % 256);
    for (uint32_t i = 0; i < n - 2; i++) {
        sent[i] = (uint8_t)next();
        r ^= sent[i];
        for (int bit = 0; bit < 8; bit++) r = r & 1 ? r >> 1 ^ 0xA001 : r >> 1;
    }
    sent[n - 2] = (uint8_t)(r % 256);
    sent[n - 1] = (uint8_t)(r / 256);
    memcpy(received, sent, n);
    if (strcmp(kind, "noisy") == 0 || (strcmp(kind, "mixed") == 0 && k % 8 == 0))
        for (uint32_t flips = 1 + next() % 6; flips > 0; flips--) {
            uint32_t bit = next() % (8 * n);
            received[bit / 8] ^= (uint8_t)(1 << bit % 8);
        }
}

/* The records repeat after so many, so that a million are soon written. */
enum { POOL = 4096, LONGEST = 256 };
static uint8_t pool[POOL][2 + 2 * LONGEST];

int main(int words, char **word) {
    if (words != 4) return fprintf(stderr, "usage: noise_records KIND COUNT LENGTH\n"), 2;
    uint32_t count = (uint32_t)atoi(word[2]), n = (uint32_t)atoi(word[3]);
    if (n < 4 || n > LONGEST) return fprintf(stderr, "LENGTH is 4 to %d\n", LONGEST), 2;
    for (uint32_t k = 0; k < POOL; k++) make_record(pool[k], word[1], k, n);
    for (uint32_t k = 0; k < count; k++) fwrite(pool[k % POOL], 1, 2 + 2 * n, stdout);
    return 0;
}
