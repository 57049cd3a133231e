/* The program noise and the second report, input by input: inputs made from a seed, given to the program in pieces of many sizes, and what
 * it prints compared with what the second one says.
 *
 *   noise_cases SEED COUNT PROGRAM...         COUNT cases
 *   noise_cases SEED COUNT CASE PROGRAM...    one of them again, with its input in hex and both texts printed
 *
 * CASE is a number, and PROGRAM, with the words before it that start it, begins with none. The program's input is a pipe that keeps the
 * pieces apart, so that each read gets one of them; every eighth is a file. */
#define _GNU_SOURCE
#include "noise_reference.h"
#include "seed.h"

#include <errno.h>
#include <fcntl.h>
#include <signal.h>
#include <stdio.h>
#include <stdlib.h>
#include <string.h>
#include <sys/wait.h>
#include <unistd.h>

/* ---- inputs ---- */

enum { MOST = 1 << 20 };
static uint8_t input[MOST];
static size_t count;

static unsigned crc(const uint8_t *frame, size_t n) {
    unsigned r = 0xFFFF;
    for (size_t k = 0; k < n; k++) {
        r ^= frame[k];
        for (int bit = 0; bit < 8; bit++) r = r & 1 ? r >> 1 ^ 0xA001 : r >> 1;
    }
    return r;
}

static void close_frame(uint8_t *frame, size_t n) {
    unsigned r = crc(frame, n - 2);
    frame[n - 2] = (uint8_t)(r % 256);
    frame[n - 1] = (uint8_t)(r / 256);
}

static void flip(uint8_t *frame, size_t n, unsigned bits) {
    for (unsigned k = 0; k < bits; k++) {
        uint32_t bit = below((uint32_t)(8 * n));
        frame[bit / 8] ^= (uint8_t)(1 << bit % 8);
    }
}

static uint32_t some_length(void) {
    switch (below(6)) {
    case 0: return 4;
    case 1: return 256;
    case 2: return between(4, 8);
    case 3: return between(250, 256);
    default: return between(4, 256);
    }
}

static void add_record(void) {
    uint32_t n = some_length();
    uint8_t *sent = input + count + 2, *received = sent + n;
    input[count] = (uint8_t)(n / 256);
    input[count + 1] = (uint8_t)(n % 256);
    for (uint32_t k = 0; k < n; k++) sent[k] = (uint8_t)next();
    if (percent(90)) close_frame(sent, n);
    memcpy(received, sent, n);
    switch (below(8)) {
    case 0: flip(received, n, between(1, 3)); break;
    case 1: flip(received, n, between(4, 9)); break;
    case 2: flip(received, n, between(1, 4)), close_frame(received, n); break; /* missed, unless the flips undo each other */
    case 3: flip(received, n, between(0, 16)), close_frame(received, n); break;
    case 4: /* anything */
        for (uint32_t k = 0; k < n; k++) received[k] = (uint8_t)next();
        break;
    default: break;
    }
    count += 2 + 2 * n;
}

/* What an input was made to be. */
enum { GOOD, CUT, SHORT, LONG, ODD, KINDS };
static const char *const kinds[KINDS] = {"whole", "cut", "with a length under 4", "with a length above 256", "with other bytes in it"};

static int make_input(void) {
    uint32_t records = percent(10) ? 0 : percent(10) ? between(100, 400) : between(1, 12);
    int kind = percent(60) ? GOOD : (int)between(1, KINDS - 1);
    count = 0;
    for (uint32_t k = 0; k < records; k++) add_record();
    if (kind == SHORT || kind == LONG) {
        uint32_t n = kind == SHORT ? below(4) : percent(50) ? 257 : between(257, 65535);
        input[count++] = (uint8_t)(n / 256);
        input[count++] = (uint8_t)(n % 256);
        /* as many bytes as such a record would have, or others */
        uint32_t more = percent(50) ? 2 * n : between(0, 600);
        for (uint32_t k = 0; k < more; k++) input[count++] = (uint8_t)next();
        if (percent(50)) add_record();
    }
    if (kind == CUT && percent(30)) {
        input[count++] = (uint8_t)below(2); /* the first byte of a record */
    } else if (kind == CUT && count > 0) {
        count -= percent(50) ? 1 : between(1, count < 600 ? (uint32_t)count : 600);
    }
    if (kind == ODD && count > 0)
        for (uint32_t k = between(1, 4); k > 0; k--) input[below((uint32_t)count)] = (uint8_t)next();
    return kind;
}

/* ---- the program ---- */

static char **program;

static size_t piece_size(uint32_t way) {
    switch (way) {
    case 0: return 1;
    case 1: return between(1, 3);
    case 2: return between(1, 600);
    case 3: return 514;
    default: return 4096;
    }
}

static void stop(const char *what) {
    perror(what);
    exit(2);
}

static void run_program(char *said) {
    int in[2], out[2];
    int is_file = percent(12);
    FILE *file = NULL;
    if (is_file) {
        file = tmpfile();
        if (file == NULL) stop("file");
        in[0] = fileno(file);
        if (write(in[0], input, count) != (ssize_t)count || lseek(in[0], 0, SEEK_SET) != 0) stop("file");
    } else if (pipe2(in, O_DIRECT) != 0) {
        stop("pipe");
    }
    if (pipe(out) != 0) stop("pipe");
    pid_t child = fork();
    if (child < 0) stop("fork");
    if (child == 0) {
        dup2(in[0], 0);
        dup2(out[1], 1);
        close(in[0]), close(out[0]), close(out[1]);
        if (!is_file) close(in[1]);
        execvp(program[0], program);
        _exit(127);
    }
    if (is_file) fclose(file);
    else close(in[0]);
    close(out[1]);
    if (!is_file) {
        uint32_t way = below(count > 20000 ? 5 : 6);
        if (count > 20000 && way < 2) way = 2;
        for (size_t at = 0; at < count;) {
            size_t n = piece_size(way == 5 ? below(5) : way);
            if (n > count - at) n = count - at;
            ssize_t put = write(in[1], input + at, n);
            if (put < 0 && errno == EPIPE) break; /* it knows that the input is bad */
            if (put < 0) stop("write");
            at += (size_t)put;
        }
        close(in[1]);
    }
    size_t got = 0;
    for (;;) {
        ssize_t k = read(out[0], said + got, NOISE_SAID - 1 - got);
        if (k <= 0) break;
        got += (size_t)k;
    }
    said[got] = 0;
    close(out[0]);
    int status;
    if (waitpid(child, &status, 0) != child || status != 0) stop("the program's end");
}

/* ---- cases ---- */

enum { PAIRS, FAULTY, FLIPPED, REFUSED, MISSED, BAD, REACHED };
static const char *const reached_names[REACHED] = {"pairs", "faulty", "flipped", "refused", "missed", "bad input"};
static unsigned long reached[REACHED], made[KINDS], records_in_all;

static void note(const char *said) {
    unsigned long n[5];
    if (sscanf(said, "pairs %lu faulty %lu flipped %lu refused %lu missed %lu", n, n + 1, n + 2, n + 3, n + 4) != 5) {
        reached[BAD]++;
        return;
    }
    for (int k = 0; k < 5; k++)
        if (n[k]) reached[k]++;
    records_in_all += n[0];
}

int main(int words, char **word) {
    if (words < 4) return fprintf(stderr, "usage: noise_cases SEED COUNT [CASE] PROGRAM...\n"), 2;
    uint64_t seed = strtoull(word[1], 0, 10);
    unsigned long cases = strtoul(word[2], 0, 10), first = 0, differences = 0;
    int one = words > 4 && word[3][strspn(word[3], "0123456789")] == 0;
    if (one) first = strtoul(word[3], 0, 10), cases = first + 1;
    program = word + (one ? 4 : 3);
    signal(SIGPIPE, SIG_IGN);
    for (unsigned long k = first; k < cases; k++) {
        char expected[NOISE_SAID], said[NOISE_SAID];
        state = mix(seed + mix(k));
        made[make_input()]++;
        reference_noise(input, count, expected);
        run_program(said);
        note(expected);
        if (strcmp(said, expected) == 0 && !one) continue;
        if (strcmp(said, expected) != 0) differences++;
        if (!one && differences > 5) continue;
        printf("case %lu, %zu bytes; the program:\n%sthe second report:\n%s", k, count, said, expected);
        if (!one) continue;
        for (size_t i = 0; i < count; i++) printf("%02X%s", input[i], i % 32 == 31 || i + 1 == count ? "\n" : " ");
    }
    int missing = 0;
    if (!one) {
        for (int k = 0; k < KINDS; k++) printf("%8lu %s\n", made[k], kinds[k]);
        for (int k = 0; k < REACHED; k++) {
            printf("%8lu %s\n", reached[k], reached_names[k]);
            if (reached[k] == 0) missing++;
        }
    }
    printf("seed %llu: %lu cases, %lu differences, %lu records, %d outcomes not reached\n", (unsigned long long)seed, cases - first,
           differences, records_in_all, missing);
    return differences || missing;
}
