/* What the worst catalogue files of 65,535 bytes cost: the time of a filling, and the stack that it touches. Each call runs on a stack of
 * its own that was painted before; the lowest byte that changed tells. Prints a line a file, and ends with 1 where one takes half a second
 * or 4 KiB of stack. */
#define _GNU_SOURCE
#include "jeulgopae.h"

#include <stdio.h>
#include <stdlib.h>
#include <string.h>
#include <sys/mman.h>
#include <time.h>
#include <ucontext.h>

enum { STACK = 4 << 20, PAINT = 0x5C, MOST_STACK = 4096 };

static uint8_t file[JEULGOPAE_FILE_LIMIT], attributes[JEULGOPAE_TABLE_LIMIT];
static size_t used;
static int32_t answer;

static void put(unsigned byte) { file[used++] = (uint8_t)byte; }
static void put_pair(unsigned value) {
    put(value / 256);
    put(value % 256);
}
/* A field's tag, and so long a value behind it. */
static void put_head(unsigned tag, unsigned length) {
    put(tag);
    put_pair(length);
}
static void put_run(unsigned first, unsigned count, unsigned attribute) {
    put_head(2, 5);
    put_pair(first);
    put_pair(count);
    put(attribute);
}
static void put_name(unsigned number, unsigned length) {
    put_head(1, length);
    for (unsigned k = 0; k + 2 < length; k++) put('n');
    put(' ' + number / 95);
    put(' ' + number % 95);
}
/* The file's own group, filled to its end. */
static void begin(void) {
    used = 0;
    put_head(3, JEULGOPAE_FILE_LIMIT - 3);
    put_head(1, 1);
    put('A');
}

/* 8,191 runs of one register, of which no two meet. */
static void all_runs(void) {
    begin();
    for (unsigned k = 0; used + 8 <= sizeof file; k++) put_run(k, 1, 3);
}
/* 8,191 groups of different names, so short that as many as can be fit in. */
static void all_names(void) {
    begin();
    for (unsigned k = 0; used + 8 <= sizeof file; k++) {
        put_head(3, 5);
        put_name(k, 2);
    }
}
/* Names that differ in their last bytes only. */
static void long_names(void) {
    begin();
    for (unsigned k = 0; used + 38 <= sizeof file; k++) {
        put_head(3, 35);
        put_name(k, 32);
    }
    /* what is left is one group more, with a shorter name */
    if (sizeof file - used > 8) {
        unsigned left = (unsigned)(sizeof file - used);
        put_head(3, left - 3);
        put_name(9000, left - 6);
    }
}
/* Groups in groups to the last byte: 9,362 levels. */
static void deepest(void) {
    used = 0;
    while (used + 7 <= sizeof file) {
        put_head(3, (unsigned)(sizeof file - used - 3));
        put_head(1, 1);
        put('A' + (unsigned)(used % 26));
    }
    file[1] = (uint8_t)((used - 3) / 256); /* no byte is left over in any of them */
    for (size_t at = 0; at < used; at += 7) {
        file[at + 1] = (uint8_t)((used - at - 3) / 256);
        file[at + 2] = (uint8_t)((used - at - 3) % 256);
    }
}
/* Half of the bytes are runs of the outer group, half are groups of one run each. */
static void runs_across(void) {
    begin();
    unsigned k = 0;
    while (used < sizeof file / 2) put_run(k++, 1, 1);
    for (unsigned n = 0; used + 16 <= sizeof file; n++) {
        put_head(3, 13);
        put_name(n, 2);
        put_run(k++, 1, 1);
    }
    file[1] = (uint8_t)((used - 3) / 256);
    file[2] = (uint8_t)((used - 3) % 256);
}

static void fill(void) { answer = jeulgopae_catalogue_fill(file, used, (const uint8_t *)"none", 4, attributes, sizeof attributes); }

static ucontext_t here, there;
static uint8_t *stack, *top;

static void on_painted(void) {
    top = __builtin_frame_address(0);
    fill();
    __asm__ volatile("");
}

static size_t touched(void) {
    size_t low = 0;
    memset(stack, PAINT, STACK);
    getcontext(&there);
    there.uc_stack.ss_sp = stack;
    there.uc_stack.ss_size = STACK;
    there.uc_link = &here;
    makecontext(&there, on_painted, 0);
    swapcontext(&here, &there);
    while (low < STACK && stack[low] == PAINT) low++;
    return (size_t)(top - (stack + low));
}

static double seconds(void) {
    struct timespec t;
    clock_gettime(CLOCK_MONOTONIC, &t);
    return (double)t.tv_sec + (double)t.tv_nsec * 1e-9;
}

int main(void) {
    static const struct {
        const char *name;
        void (*make)(void);
    } files[] = {{"8,191 runs", all_runs}, {"8,191 names", all_names}, {"long names", long_names}, {"9,362 levels", deepest}, {"runs across", runs_across}};
    int missed = 0;
    stack = mmap(NULL, STACK, PROT_READ | PROT_WRITE, MAP_PRIVATE | MAP_ANONYMOUS, -1, 0);
    for (size_t k = 0; k < sizeof files / sizeof *files; k++) {
        double least = 1e9;
        size_t bytes;
        files[k].make();
        for (int turn = 0; turn < 3; turn++) {
            double from = seconds(), took;
            fill();
            took = seconds() - from;
            if (took < least) least = took;
        }
        bytes = touched();
        missed |= least >= 0.5 || bytes > MOST_STACK;
        printf("%-14s %6zu bytes  %8.2f ms  %5zu bytes of stack  gives %d\n", files[k].name, used, least * 1e3, bytes, answer);
    }
    return missed;
}
