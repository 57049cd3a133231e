/* What every program of the benchmark does with a row: make its request, and run it many times. */
#ifndef WORK_H
#define WORK_H

#include <stdint.h>
#include <stdio.h>
#include <stdlib.h>
#include <string.h>
#include <time.h>

/* The request of a Modbus row, up to where its check would stand, to station 1. Back comes its length, 0 for a row that is none;
 * `reply` is the length of the RTU reply, 0 where there is none.
 *   03xN   read N registers from 100        06      write register 100       other   03x1 for station 2
 *   10xN   write N registers from 100       05      set coil 208             wrong   03x1, whose check the caller makes wrong */
static inline size_t request(const char *row, uint8_t *frame, int *reply) {
    static const uint8_t write_register[] = {0x01, 0x06, 0, 100, 0x12, 0x34}, set_coil[] = {0x01, 0x05, 0, 208, 0xFF, 0};
    uint8_t head[] = {0x01, 0x03, 0, 100, 0, 1, 0};
    int n;
    if (strcmp(row, "other") == 0 || strcmp(row, "wrong") == 0) {
        head[0] = row[0] == 'o' ? 2 : 1;
        memcpy(frame, head, 6);
        *reply = 0;
        return 6;
    }
    if (strcmp(row, "06") == 0 || strcmp(row, "05") == 0) {
        memcpy(frame, row[1] == '6' ? write_register : set_coil, 6);
        *reply = 8;
        return 6;
    }
    if (sscanf(row, "03x%d", &n) == 1 && n >= 1 && n <= 125) {
        head[5] = (uint8_t)n;
        memcpy(frame, head, 6);
        *reply = 5 + 2 * n;
        return 6;
    }
    if (sscanf(row, "10x%d", &n) == 1 && n >= 1 && n <= 123) {
        head[1] = 0x10;
        head[5] = (uint8_t)n;
        head[6] = (uint8_t)(2 * n);
        memcpy(frame, head, 7);
        for (int k = 0; k < 2 * n; k++) frame[7 + k] = (uint8_t)(7 * k + 3);
        *reply = 8;
        return 7 + 2 * (size_t)n;
    }
    return 0;
}

/* `work(count)` does the row's request count times. `PROGRAM … count COUNT` does it once, for an instruction counter; `time` prints the
 * least time a request over many short runs, in nanoseconds: on a busy machine the least is what the code itself takes. */
static inline int measure(void (*work)(long), const char *how, long count) {
    double least = 1e18;
    if (strcmp(how, "count") == 0) {
        work(count);
        return 0;
    }
    for (int run = 0; run < 1500; run++) {
        struct timespec a, b;
        double ns;
        clock_gettime(CLOCK_MONOTONIC, &a);
        work(count);
        clock_gettime(CLOCK_MONOTONIC, &b);
        ns = ((double)(b.tv_sec - a.tv_sec) * 1e9 + (double)(b.tv_nsec - a.tv_nsec)) / (double)count;
        if (ns < least) least = ns;
    }
    printf("%.1f\n", least);
    return 0;
}

#endif
