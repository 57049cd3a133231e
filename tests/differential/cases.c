/* The library and the reference, call by call: cases made from a seed, both asked, the answers and every lent byte compared.
 *
 *   cases SEED COUNT               COUNT cases for every entry of include/jeulgopae.h, COUNT calls on lines with one record each, and
 *                                  COUNT writes at the registers of the profile
 *   cases SEED COUNT ENTRY CASE    one of them again, with its input and both answers printed
 *
 * An array that the library is lent ends (or begins) where an unmapped page begins (or ends), and has guard bytes on its other
 * side: a read past its end stops the run, a write past its start is a difference. */
#define _DEFAULT_SOURCE
#include "jeulgopae.h"
#include "reference.h"
#include "seed.h"

#include <signal.h>
#include <stdio.h>
#include <stdlib.h>
#include <string.h>
#include <sys/mman.h>
#include <unistd.h>

/* Characters near the edges of what is taken. */
static uint8_t awkward(void) {
    static const char edge[] = "0189AFGaf@:/`gRDrd~ !#$%*W";
    return percent(70) ? (uint8_t)edge[below(sizeof edge - 1)] : printable();
}

static const uint32_t extremes[] = {0, 1, 15, 16, 127, 128, 255, 256, 257, 4095, 4096, 32767, 32768, 65535, 65536, 65537, 99999, 100000,
                                    0x7FFFFFFF, 0x80000000, 0x80000001, 0xFFFFFFFE, 0xFFFFFFFF};

static uint32_t extreme(void) {
    return percent(70) ? one_of(extremes, sizeof extremes / sizeof *extremes) : (uint32_t)next();
}

/* Random content to copy from, so that a case of many words costs a copy. */
enum { POOL = 1 << 16, LIMIT = 65536, MOST = LIMIT + 2048 };
static uint8_t pool[POOL + 2 * MOST];
static uint8_t sparse_pool[POOL + 2 * MOST]; /* attributes: mostly 3 */
static uint8_t mixed_pool[POOL + 2 * MOST];  /* attributes: 0 to 3 */

static void fill_pools(void) {
    for (size_t k = 0; k < sizeof pool; k++) {
        pool[k] = (uint8_t)next();
        sparse_pool[k] = percent(1) ? (uint8_t)below(4) : 3;
        mixed_pool[k] = (uint8_t)below(4);
    }
}

/* ---- lent arrays ---- */

enum { GUARD = 64, GUARD_BYTE = 0xA7 };

typedef struct {
    uint8_t *body; /* mapped pages between two that are not */
    size_t size;
    uint8_t *at, *guard;
    size_t bytes;
} Lent;

static void open_lent(Lent *l, size_t size) {
    size_t page = (size_t)sysconf(_SC_PAGESIZE);
    uint8_t *all;
    size = (size + GUARD + page - 1) / page * page;
    all = mmap(NULL, size + 2 * page, PROT_NONE, MAP_PRIVATE | MAP_ANONYMOUS, -1, 0);
    if (all == MAP_FAILED || mprotect(all + page, size, PROT_READ | PROT_WRITE) != 0) {
        perror("mmap");
        exit(2);
    }
    l->body = all + page;
    l->size = size;
}

/* A copy of the content, against one of the two unmapped pages; NULL sometimes for nothing. */
static void *lend(Lent *l, const void *content, size_t bytes) {
    int right = percent(60);
    if (bytes > l->size - GUARD) abort();
    l->bytes = bytes;
    l->at = right ? l->body + l->size - bytes : l->body;
    l->guard = right ? l->at - GUARD : l->at + bytes;
    memset(l->guard, GUARD_BYTE, GUARD);
    if (bytes) memcpy(l->at, content, bytes);
    return bytes == 0 && percent(50) ? NULL : l->at;
}

static int guard_stands(const Lent *l) {
    for (int k = 0; k < GUARD; k++)
        if (l->guard[k] != GUARD_BYTE) return 0;
    return 1;
}

/* Whether the array holds what it should, and its guard bytes stand. */
static int holds(const Lent *l, const void *expected) {
    return guard_stands(l) && (l->bytes == 0 || memcmp(l->at, expected, l->bytes) == 0);
}

static Lent lent_words, lent_attributes, lent_frame, lent_room, lent_counters, lent_contacts, lent_values, lent_list;

/* ---- what is counted ---- */

enum { ROWS = 32, COLUMNS = 11, LONGEST = 2048, LAST_REFUSAL = 2001 };

typedef struct {
    const char *name;
    void (*one)(void);
    const int *refusals;          /* those that have to come up, ended by 0 */
    const char *const *rows;      /* commands, functions or places; NULL for none */
    const char *const *columns;
    unsigned reachable[ROWS];     /* a bit for each column that has to come up in the row */
    unsigned places;              /* how many places below the frame's length have to come up with 13; 0 where there is no 13 */
    uint64_t cases, differences, answers, refused[LAST_REFUSAL + 1];
    uint64_t outcome[ROWS][COLUMNS];
    uint64_t at_place[LONGEST + 1], at_length;
} Entry;

static Entry *entry;
static uint64_t seed, case_number;
static int show;

static void dump(const char *what, const void *bytes, size_t count) {
    const uint8_t *b = bytes;
    printf("    %-12s %zu:", what, count);
    for (size_t k = 0; k < count && k < 600; k++) printf(" %02X", b[k]);
    printf("\n");
}

/* 13 carries a place of the frame, or the frame's length: the longest that has a right shape is 2,048. */
static int is_13(int32_t got) { return got <= -130000 && got >= -130000 - LONGEST; }

static size_t place_of(int32_t got) { return (size_t)(-130000 - got); }

/* Counts a case. `same` says whether every lent byte was as it should be. Gives 1 when the case is to be printed. */
static int settle(int32_t got, int32_t expected, int same) {
    entry->cases++;
    if (got >= 0)
        entry->answers++;
    else if (got >= -LAST_REFUSAL)
        entry->refused[-got]++;
    else if (is_13(got))
        entry->refused[13]++;
    if (got != expected || !same) entry->differences++;
    if (show || ((got != expected || !same) && entry->differences <= 3)) {
        printf("  %s case %llu: library %d, reference %d, lent bytes %s\n", entry->name, (unsigned long long)case_number, got, expected,
               same ? "alike" : "DIFFERENT");
        return 1;
    }
    return 0;
}

static void count(int row, int column) {
    if (row >= 0 && column >= 0) entry->outcome[row][column]++;
}

/* ---- frames in the making ---- */

static uint8_t frame[4096];
static size_t frame_count;

static void put(uint8_t c) { frame[frame_count++] = c; }

static void put_text(const char *s) {
    while (*s) put((uint8_t)*s++);
}

static void put_hex(unsigned value, int digits) {
    while (digits-- > 0) put((uint8_t)"0123456789ABCDEF"[(value >> (4 * digits)) & 15]);
}

static void put_number(uint32_t value, int digits) {
    uint8_t c[10];
    for (int k = digits; k-- > 0; value /= 10) c[k] = (uint8_t)('0' + value % 10);
    for (int k = 0; k < digits; k++) put(c[k]);
}

static void put_big_endian(unsigned v) {
    put((uint8_t)(v >> 8));
    put((uint8_t)v);
}

static uint8_t xor_of(size_t n) {
    uint8_t x = 0;
    for (size_t k = 0; k < n; k++) x ^= frame[k];
    return x;
}

/* Counts the place that 13 carries, by what it says: a character, or the frame's length. */
static void count_place(int32_t got) {
    if (!is_13(got)) return;
    if (place_of(got) == frame_count)
        entry->at_length++;
    else if (place_of(got) < frame_count)
        entry->at_place[place_of(got)]++;
}

/* A character that can't stand at a place. */
typedef uint8_t Wrong(size_t at);

/* Makes one of the n characters from a place on wrong, the first and the last more often; then, half the time, one or more after it. */
static void spoil(size_t from, uint32_t n, Wrong *wrong) {
    uint32_t at = percent(20) ? ONE_OF(0, n - 1) : below(n);
    frame[from + at] = wrong(from + at);
    if (at + 1 == n || percent(50)) return;
    for (uint32_t more = percent(70) ? 1 : between(1, n); more > 0; more--) {
        size_t later = from + between(at + 1, n - 1);
        frame[later] = wrong(later);
    }
}

/* What a line or a hostile sender does to a frame. */
static void damage(void) {
    size_t at;
    if (frame_count == 0) {
        put((uint8_t)next());
        return;
    }
    at = below((uint32_t)frame_count);
    switch (below(9)) {
    case 0: /* one bit */
        frame[at] ^= (uint8_t)(1u << below(8));
        break;
    case 1: /* some bits */
        for (uint32_t n = between(2, 4); n-- > 0;) frame[below((uint32_t)frame_count)] ^= (uint8_t)(1u << below(8));
        break;
    case 2: /* a burst of up to 16 bits */
        frame[at] ^= (uint8_t)next();
        if (at + 1 < frame_count) frame[at + 1] ^= (uint8_t)next();
        break;
    case 3:
        frame[at] = awkward();
        break;
    case 4:
        frame[at] = (uint8_t)next();
        break;
    case 5: /* cut */
        frame_count -= between(1, frame_count < 4 ? (uint32_t)frame_count : 4);
        break;
    case 6: /* cut anywhere */
        frame_count = at;
        break;
    case 7: /* lengthened */
        for (uint32_t n = between(1, 4); n-- > 0;) put(percent(50) ? frame[at] : (uint8_t)next());
        break;
    default: /* one more character inside, or one lost */
        if (percent(50)) {
            memmove(frame + at + 1, frame + at, frame_count - at);
            frame[at] = awkward();
            frame_count++;
        } else {
            memmove(frame + at, frame + at + 1, frame_count - at - 1);
            frame_count--;
        }
    }
}

static void noise(uint32_t longest) {
    frame_count = below(longest + 1);
    for (size_t k = 0; k < frame_count; k++) frame[k] = (uint8_t)next();
}

/* Check and end of a MEWTOCOL frame, mostly right. */
static void close_mewtocol(void) {
    uint8_t x = xor_of(frame_count);
    if (percent(94)) {
        put_hex(x, 2);
    } else {
        switch (below(6)) {
        case 0:
            put_text("**");
            break;
        case 1: { /* lower case: wrong where there is a letter */
            static const char lower[] = "0123456789abcdef";
            put((uint8_t)lower[x >> 4]);
            put((uint8_t)lower[x & 15]);
            break;
        }
        case 2:
            put_hex(x ^ (1u << below(8)), 2);
            break;
        case 3:
            put_hex((x >> 4) | (x << 4), 2);
            break;
        case 4:
            put(awkward());
            put(awkward());
            break;
        default:
            put_hex((unsigned)next(), 2);
        }
    }
    if (percent(99))
        put('\r');
    else if (percent(70))
        put((uint8_t)ONE_OF('\n', 0, ' ', 0x8D, '.'));
}

static void mend_mewtocol(void) {
    if (frame_count < 4 || frame_count > 3000) return;
    size_t n = frame_count - 3;
    uint8_t x = xor_of(n);
    frame_count = n;
    put_hex(x, 2);
    put('\r');
}

/* ---- the table ---- */

static uint16_t table_words[MOST], reference_words[MOST];
static uint8_t table_attributes[MOST];
static size_t words_count, attributes_count;
static uint32_t hint_first, hint_last; /* words that the frame names, where known */

/* ---- the profile ---- */

static uint32_t profile;

static void choose_profile(void) {
    uint32_t r = below(100);
    if (r < 48)
        profile = JEULGOPAE_HL_G2_50;
    else if (r < 97)
        profile = JEULGOPAE_NO_PROFILE;
    else
        profile = percent(60) ? ONE_OF(2, 3, 4, 50, 255, 256, 257, 65536, 65537, 0x80000000, 0x80000001, 0xFFFFFFFF) : extreme();
}

/* A value for a single register of the profile: one that it takes, or one that it doesn't. Other words take any. */
static uint16_t single_value(uint32_t word, int taken) {
    switch (word) {
    case 53:
    case 55:
        return taken ? 0 : (uint16_t)(percent(80) ? ONE_OF(1, 2, 0x00FF, 0x0100, 0x8000, 0xFFFF) : between(1, 0xFFFF));
    case 57:
        return (uint16_t)(taken ? between(1, 4) : percent(80) ? ONE_OF(0, 5, 6, 0x0101, 0x0104, 0x8001, 0xFFFF) : between(5, 0xFFFF));
    case 70:
        return (uint16_t)(taken ? below(3) : percent(80) ? ONE_OF(3, 4, 0x0100, 0x0102, 0x8000, 0xFFFF) : between(3, 0xFFFF));
    }
    return (uint16_t)next();
}

/* Values for a pair, as 32 bits: the ends, one past each, zero, the ends of the 32 bits, the two halves exchanged, or any. */
static const int32_t taken_edges[] = {0, -1, 950000, -950000, 1, 949999, -949999, 65535, 65536, -65536, -65537};
static const int32_t untaken_edges[] = {950001, -950001, 0x7FFFFFFF, -0x7FFFFFFF - 1, 950002, -950002, 1000000, -1000000};

static uint32_t exchanged(uint32_t bits) { return (bits >> 16) | (bits << 16); }

static uint32_t pair_bits(int taken) {
    if (taken) return percent(75) ? (uint32_t)taken_edges[below(sizeof taken_edges / 4)] : between(0, 1900000) - 950000u;
    if (percent(60)) return (uint32_t)untaken_edges[below(sizeof untaken_edges / 4)];
    if (percent(50)) return exchanged((uint32_t)(percent(50) ? 950000 : -950000));
    return between(950001, 0xFFFFFFFF - 950000);
}

/* What the words from one on would hold, each register of the profile in its range but for those that `taken` says. */
static uint16_t run_values[LIMIT];

static void choose_run(uint32_t start, uint32_t n, const int taken[6]) {
    static const uint32_t singles[] = {53, 55, 57, 70};
    for (uint32_t k = 0; k < n; k++) run_values[k] = (uint16_t)next();
    for (uint32_t k = 0; k < 4; k++)
        if (singles[k] - start < n) run_values[singles[k] - start] = single_value(singles[k], taken[k]);
    for (uint32_t k = 0; k < 2; k++) {
        uint32_t low = 100 + 2 * k, bits = pair_bits(taken[4 + k]);
        if (low - start < n) run_values[low - start] = (uint16_t)bits;
        if (low + 1 - start < n) run_values[low + 1 - start] = (uint16_t)(bits >> 16);
    }
}

/* All in range, one out of range, or each by itself. */
static void choose_taken(int taken[6]) {
    uint32_t r = below(100);
    for (int k = 0; k < 6; k++) taken[k] = r < 75 || percent(50);
    if (r >= 45 && r < 75) taken[below(6)] = 0;
}

static void choose_table_size(void) {
    uint32_t r = below(100);
    if (r < 45)
        words_count = between(136, 300);
    else if (r < 55)
        words_count = between(125, 137);
    else if (r < 63)
        words_count = below(130);
    else if (r < 75)
        words_count = 4096;
    else if (r < 85)
        words_count = between(4090, 4096);
    else if (r < 96)
        words_count = below(4097);
    else if (r < 97)
        words_count = below(LIMIT + 1);
    else if (r < 99)
        words_count = percent(50) ? LIMIT : between(LIMIT - 6, LIMIT);
    else
        words_count = percent(50) ? between(LIMIT + 1, LIMIT + 4) : between(LIMIT + 1, MOST);
    attributes_count = words_count;
    if (percent(1)) {
        uint32_t by = percent(70) ? between(1, 3) : between(1, 300);
        if (percent(50) && words_count >= by)
            attributes_count -= by;
        else if (words_count + by <= MOST)
            attributes_count += by;
    }
}

static void fill_table(void) {
    uint32_t r = below(100);
    memcpy(table_words, pool + below(POOL), 2 * words_count);
    if (profile == JEULGOPAE_HL_G2_50 && words_count > 103 && percent(60)) { /* what a mask is laid over */
        static const int all[] = {1, 1, 1, 1, 1, 1};
        choose_run(53, 51, all);
        memcpy(table_words + 53, run_values, 2 * 51);
    }
    if (r < 45)
        memset(table_attributes, 3, attributes_count);
    else if (r < 70)
        memcpy(table_attributes, sparse_pool + below(POOL), attributes_count);
    else if (r < 85)
        memcpy(table_attributes, mixed_pool + below(POOL), attributes_count);
    else
        memset(table_attributes, (int)below(4), attributes_count);
    /* Attributes of words that the frame names. */
    if (percent(30))
        for (uint32_t n = between(1, 3); n-- > 0;) {
            uint32_t at = percent(40) ? hint_first : percent(50) ? hint_last : between(hint_first, hint_last);
            if (at < attributes_count) table_attributes[at] = (uint8_t)below(4);
        }
    if (percent(25))
        for (uint32_t k = hint_first; k <= hint_last && k < attributes_count && k - hint_first < 200; k++)
            table_attributes[k] |= (uint8_t)between(1, 3);
    if (attributes_count > 0 && percent(2)) {
        uint32_t at = percent(30) ? (uint32_t)attributes_count - 1 : percent(20) ? 0 : below((uint32_t)attributes_count);
        table_attributes[at] = percent(50) ? (uint8_t)ONE_OF(4, 5, 7, 8, 128, 129, 131, 255) : (uint8_t)between(4, 255);
    }
}

static uint8_t room_before[4096], reference_room[4096];
static size_t room_count;

static void choose_room(size_t needed) {
    if (percent(97))
        room_count = needed + (percent(50) ? below(3) : below(120));
    else
        room_count = percent(40) ? needed - 1 : percent(20) ? 0 : below((uint32_t)needed);
    memcpy(room_before, pool + below(POOL), room_count);
    memcpy(reference_room, room_before, room_count);
}

static uint32_t choose_station(uint32_t last) {
    if (percent(70)) return between(1, last);
    if (percent(90)) return ONE_OF(1, 9, 10, 11, 99, last, last - 1);
    return percent(50) ? ONE_OF(0, last + 1, 100, 247, 248, 255, 256, 257, 512 + 1, 65536 + 1, 0xFFFFFFFF) : extreme();
}

/* ---- the record of counters ---- */

enum { COUNTERS = 5 };

static struct jeulgopae_counters counters_before, reference_counters;

/* In the order of 0B to 0F. */
static void list_counts(const struct jeulgopae_counters *c, uint16_t list[COUNTERS]) {
    list[0] = c->bus;
    list[1] = c->damaged;
    list[2] = c->exceptions;
    list[3] = c->own;
    list[4] = c->unanswered;
}

/* One count: at FFFFh or near it, at 0 or near it, at an edge of its bytes, or any. */
static uint16_t choose_count(void) {
    uint32_t r = below(100);
    if (r < 25) return 0xFFFF;
    if (r < 45) return (uint16_t)(0xFFFF - between(1, 3));
    if (r < 65) return (uint16_t)below(4);
    if (r < 80) return (uint16_t)ONE_OF(0x00FE, 0x00FF, 0x0100, 0x7FFE, 0x7FFF, 0x8000, 0xFEFF, 0xFF00);
    return (uint16_t)next();
}

/* A record: all at 0, all at FFFFh, or each count by itself. */
static void choose_counters(void) {
    uint16_t *const counts[COUNTERS] = {&counters_before.bus, &counters_before.damaged, &counters_before.exceptions, &counters_before.own,
                                        &counters_before.unanswered};
    uint32_t r = below(100);
    for (int k = 0; k < COUNTERS; k++) *counts[k] = r < 20 ? 0 : r < 30 ? 0xFFFF : choose_count();
}

static void print_counts(const char *what, const struct jeulgopae_counters *c) {
    printf("    %-12s bus %04X, damaged %04X, exceptions %04X, own %04X, unanswered %04X\n", what, c->bus, c->damaged, c->exceptions,
           c->own, c->unanswered);
}

typedef int32_t Station(uint16_t *, size_t, const uint8_t *, size_t, uint32_t, uint32_t, const uint8_t *, size_t, uint8_t *, size_t,
                        struct jeulgopae_counters *);

/* Both stations over the frame, the table and the record; the library's answer comes back, its reply is in lent_room and the record
 * that it leaves in lent_counters. */
static int32_t ask_station(Station *library, Station *reference, uint32_t own, size_t room_needed) {
    int32_t got, expected;
    int same;
    uint16_t *words;
    uint8_t *attributes, *given, *room;
    struct jeulgopae_counters *counters;
    fill_table();
    choose_room(room_needed);
    memcpy(reference_words, table_words, 2 * words_count);
    words = lend(&lent_words, table_words, 2 * words_count);
    attributes = lend(&lent_attributes, table_attributes, attributes_count);
    given = lend(&lent_frame, frame, frame_count);
    room = lend(&lent_room, room_before, room_count);
    counters = lend(&lent_counters, &counters_before, sizeof counters_before);
    reference_counters = counters_before;
    got = library(words, words_count, attributes, attributes_count, profile, own, given, frame_count, room, room_count, counters);
    expected = reference(reference_words, words_count, table_attributes, attributes_count, profile, own, frame, frame_count,
                         reference_room, room_count, &reference_counters);
    same = holds(&lent_words, reference_words) && holds(&lent_attributes, table_attributes) && holds(&lent_frame, frame) &&
           holds(&lent_room, reference_room) && holds(&lent_counters, &reference_counters);
    if (settle(got, expected, same)) {
        printf("    profile %u, own %u, words %zu, attributes %zu, room %zu\n", profile, own, words_count, attributes_count, room_count);
        dump("frame", frame, frame_count);
        if (got > 0) dump("library", lent_room.at, (size_t)got);
        if (expected > 0) dump("reference", reference_room, (size_t)expected);
        for (size_t k = 0; k < words_count; k++) {
            uint16_t after;
            memcpy(&after, lent_words.at + 2 * k, 2);
            if (after != reference_words[k])
                printf("    word %zu was %04X: library %04X, reference %04X\n", k, table_words[k], after, reference_words[k]);
        }
        for (uint32_t k = hint_first; k <= hint_last && k < attributes_count && k < hint_first + 30; k++)
            printf("    word %u has attribute %u\n", k, table_attributes[k]);
        print_counts("before", &counters_before);
        print_counts("library", counters);
        print_counts("reference", &reference_counters);
        printf("    guards: words %d, attributes %d, frame %d, room %d, counters %d\n", guard_stands(&lent_words),
               guard_stands(&lent_attributes), guard_stands(&lent_frame), guard_stands(&lent_room), guard_stands(&lent_counters));
    }
    return got;
}

/* ---- MEWTOCOL requests ---- */

enum { RCS, RCP, RCC, WCS, WCP, WCC, RD, WD, SD, OTHER, GONE, EMPTY, NINE };
static const char *const names[] = {"RCS", "RCP", "RCC", "WCS", "WCP", "WCC", "RD", "WD", "SD", "none", NULL};

static uint32_t choose_relay(void) {
    if (percent(88)) return between(100, 105);
    return percent(50) ? ONE_OF(0, 99, 106, 100, 105, 130, 256, 261, 999) : below(1000);
}

/* A start among words: in the table, at its end, at the relay words, or anywhere that the digits can say. */
static uint32_t choose_word(void) {
    uint32_t r = below(100);
    uint32_t end = (uint32_t)words_count;
    if (profile == JEULGOPAE_HL_G2_50 && percent(20)) return percent(60) ? ONE_OF(53, 55, 57, 70, 100, 101, 102, 103) : between(95, 104);
    if (r < 50 && end > 0) return below(end);
    if (r < 65) return between(125, 137);
    if (r < 80 && end > 30) return end - between(0, 30);
    if (r < 90) return between(end > 2 ? end - 2 : 0, end + 2);
    if (r < 95) return ONE_OF(0, 4095, 4096, 65535, 65536, 99999, 99998);
    return below(100000);
}

/* How many words after the first: mostly within the limit, often at it. */
static uint32_t choose_extent(uint32_t limit) {
    uint32_t r = below(100);
    if (r < 55) return below(limit);
    if (r < 75) return limit - 1;
    if (r < 80) return limit;
    if (r < 85) return limit - 2;
    if (r < 90) return 0;
    return percent(50) ? below(60) : below(5000);
}

static void put_contact(void) {
    uint32_t relay = choose_relay();
    put('R');
    put_number(relay, 3);
    put_hex(below(16), 1);
    if (relay >= 100 && relay <= 105) {
        hint_first = hint_last;
        hint_last = relay + 30;
    }
}

/* What the two forms of frame allow, and more often than not what is asked of the one that allows less. */
static const struct {
    uint8_t header;
    uint32_t longest, most_read, most_written;
} forms[] = {{'%', 118, 27, 24}, {'<', 2048, 509, 507}};

static uint32_t choose_form(void) { return percent(60) ? JEULGOPAE_ORDINARY : JEULGOPAE_EXPANDED; }

/* The text of a form, now and then as long as the other form has it. */
static void make_mewtocol_text(int command, uint32_t form) {
    uint32_t n = 1, start, extent, limit;
    int digits, relays;
    switch (command) {
    case RCP:
    case WCP:
        n = between(1, 8);
        put_number(n, 1);
        if (percent(4)) frame[frame_count - 1] = awkward();
        if (percent(3)) n = between(0, 9);
        /* fall through */
    case RCS:
    case WCS:
        hint_first = hint_last = 130 + below(6);
        for (; n > 0; n--) {
            put_contact();
            if (command == WCS || command == WCP) put((uint8_t)('0' + below(2)));
        }
        if (hint_first > hint_last) {
            uint32_t h = hint_first;
            hint_first = hint_last;
            hint_last = h;
        }
        return;
    }
    relays = command == RCC || command == WCC;
    digits = relays ? 4 : 5;
    if (percent(5)) form = choose_form();
    limit = command == RCC || command == RD ? forms[form].most_read : command == SD ? 400 : forms[form].most_written;
    if (relays && percent(85)) {
        start = between(100, 105);
        extent = below(106 - start);
        if (percent(5)) start = between(98, 107);
    } else {
        start = relays ? ONE_OF(0, 99, 100, 101, 106, 130, 9999, 9990, 100) : choose_word();
        extent = choose_extent(limit);
        if (relays && percent(40)) extent = limit - 1 + below(2);
    }
    hint_first = relays ? 130 + (start >= 100 ? start - 100 : 0) : start;
    hint_last = hint_first + extent;
    put(relays ? 'R' : 'D');
    put_number(start, digits);
    put_number(percent(3) && start > 0 ? start - 1 - below(percent(50) ? 1 : start) : start + extent, digits);
    if (command == WCC || command == WD || command == SD) {
        uint32_t characters = command == SD ? 4 : 4 * (extent + 1);
        if (characters > 2200) characters = 2200;
        if (percent(3)) characters = percent(50) || characters < 8 ? characters + ONE_OF(1, 4, 8, 2) : characters - ONE_OF(1, 4, 8, 2);
        for (; characters > 0; characters--) put_hex((unsigned)next(), 1);
    }
}

static void make_mewtocol_request(uint32_t own) {
    size_t text;
    uint32_t form = choose_form();
    frame_count = 0;
    if (percent(2)) {
        noise(percent(80) ? 130 : 2060);
        return;
    }
    put(percent(99) ? forms[form].header : awkward());
    if (percent(86)) {
        put_number(own, 2);
    } else if (percent(70)) {
        /* all stations, and what is near it */
        static const char *const all[] = {"FF", "FF", "FF", "FF", "FF", "FF", "ff", "Ff", "F0", "0F"};
        const char *named = all[below(10)];
        put((uint8_t)named[0]);
        put((uint8_t)named[1]);
    } else if (percent(50)) {
        put_number(below(100), 2);
    } else {
        put(awkward());
        put(awkward());
    }
    put(percent(98) ? '#' : awkward());
    text = frame_count;
    if (percent(95)) {
        int command = (int)below(9);
        put_text(names[command]);
        make_mewtocol_text(command, form);
    } else if (percent(70)) {
        static const char *const near[] = {"",   "R",   "RC",  "RCX", "W",   "WC",  "WCR", "S",  "SC", "SR",
                                           "rd", "RCs", "MC",  "RT",  "WR",  "RS",  "D",   "RCP", "WCP", "WCC"};
        put_text(near[below(sizeof near / sizeof *near)]);
        if (percent(60)) make_mewtocol_text((int)below(9), form);
    } else {
        for (uint32_t n = below(20); n > 0; n--) put(awkward());
    }
    if (percent(22) && frame_count > text) { /* flaws under a right check */
        switch (below(5)) {
        case 0:
            frame_count -= between(1, (uint32_t)(frame_count - text));
            break;
        case 1:
            for (uint32_t n = between(1, 5); n > 0; n--) put(awkward());
            break;
        case 2:
            frame[between((uint32_t)text, (uint32_t)frame_count - 1)] = (uint8_t)next();
            break;
        default:
            for (uint32_t n = between(1, 2); n > 0; n--) frame[between((uint32_t)text, (uint32_t)frame_count - 1)] = awkward();
        }
    }
    if (percent(2)) /* as long as may be, and longer */
        for (uint32_t longest = forms[form].longest - between(1, 6); frame_count < longest;) put(awkward());
    close_mewtocol();
    if (percent(6)) {
        damage();
        if (percent(50)) mend_mewtocol();
    }
}

static int named_command(void) {
    for (int c = 0; c < OTHER; c++)
        if (memcmp(frame + 4, names[c], strlen(names[c])) == 0) return c;
    return OTHER;
}

static const char *const mewtocol_columns[] = {"good", "err 40", "err 41", "err 42", "err 60", "err 61", "err 66", NULL};

/* A MEWTOCOL station is lent no counters: the record beside it stays. */
static int32_t library_mewtocol(uint16_t *words, size_t words_n, const uint8_t *attributes, size_t attributes_n, uint32_t chosen,
                                uint32_t own, const uint8_t *given, size_t given_n, uint8_t *room, size_t room_n,
                                struct jeulgopae_counters *counters) {
    (void)counters;
    return jeulgopae_mewtocol_station(words, words_n, attributes, attributes_n, chosen, own, given, given_n, room, room_n);
}

static int32_t reference_mewtocol(uint16_t *words, size_t words_n, const uint8_t *attributes, size_t attributes_n, uint32_t chosen,
                                  uint32_t own, const uint8_t *given, size_t given_n, uint8_t *room, size_t room_n,
                                  struct jeulgopae_counters *counters) {
    (void)counters;
    return reference_mewtocol_station(words, words_n, attributes, attributes_n, chosen, own, given, given_n, room, room_n);
}

static void one_mewtocol_station(void) {
    uint32_t own = choose_station(99);
    int32_t got;
    choose_counters();
    choose_profile();
    choose_table_size();
    hint_first = hint_last = 0;
    make_mewtocol_request(own % 100);
    got = ask_station(library_mewtocol, reference_mewtocol, own, 2048);
    if (got < 9) return;
    if (lent_room.at[3] == '$') {
        count(named_command(), 0);
    } else {
        static const char *const errors[] = {"40", "41", "42", "60", "61", "66"};
        for (int k = 0; k < 6; k++)
            if (memcmp(lent_room.at + 4, errors[k], 2) == 0) count(named_command(), 1 + k);
    }
}

/* ---- Modbus requests ---- */

static const uint32_t functions[] = {0x01, 0x03, 0x05, 0x06, 0x0F, 0x10, 0x16, 0x08};
static const uint32_t sub_functions[] = {0x00, 0x0A, 0x0B, 0x0C, 0x0D, 0x0E, 0x0F};
enum { FUNCTIONS = 8, SUB_FUNCTIONS = 7, DIAGNOSE = FUNCTIONS - 1, OTHER_SUB = DIAGNOSE + SUB_FUNCTIONS, OTHER_FUNCTION };
static const char *const function_rows[] = {"01",    "03",    "05",    "06",    "0F",    "10",       "16",    "08/00", "08/0A",
                                            "08/0B", "08/0C", "08/0D", "08/0E", "08/0F", "08/other", "other", NULL};
static const char *const modbus_columns[] = {"good", "exc 01", "exc 02", "exc 03", NULL};

static uint32_t choose_coil(void) {
    if (percent(80)) return between(160, 255);
    return percent(60) ? ONE_OF(0, 159, 256, 95, 96, 4095, 65535) : below(65536);
}

static uint32_t choose_register(void) { return percent(97) ? choose_word() & 0xFFFF : ONE_OF(65535, 65534, 65000, 32768); }

static uint32_t choose_quantity(uint32_t limit) {
    uint32_t r = below(100);
    if (r < 55) return between(1, limit < 20 ? limit : 20);
    if (r < 75) return between(1, limit);
    if (r < 85) return limit;
    if (r < 90) return limit + 1;
    if (r < 93) return 0;
    if (percent(50)) return below(65536);
    return ONE_OF(1, 96, 97, 255, 256, 257, 2000, 2001, 1968, 1969, 123, 124, 125, 126, 65535, 0x7FFF, 0x8000);
}

/* A sub-function of 08, one with the same low byte, one beside it, one of those that document 001 has and we don't, or any. */
static uint32_t choose_sub_function(void) {
    uint32_t known = one_of(sub_functions, SUB_FUNCTIONS);
    if (percent(80)) return known;
    if (percent(40)) return known | ONE_OF(0x0100, 0x0800, 0x8000, 0xFF00);
    return percent(70) ? ONE_OF(0x01, 0x02, 0x03, 0x04, 0x09, 0x10, 0x11, 0x12, 0x14, 0x0A00, 0x0B00, 0x0F00, 0x8A, 0xFFFF) : below(65536);
}

/* Puts function byte and what follows. */
static void make_modbus_body(void) {
    uint32_t function = one_of(functions, FUNCTIONS), address, quantity, bytes;
    size_t start = frame_count;
    if (percent(6)) {
        uint32_t near = ONE_OF(0, 2, 4, 7, 9, 0x0B, 0x11, 0x14, 0x17, 0x2B, 0x80);
        function = percent(40) ? function | 0x80 : percent(50) ? near : below(256);
    }
    put((uint8_t)function);
    switch (function) {
    case 0x01:
        address = choose_coil();
        quantity = percent(70) && address < 256 && address >= 160 ? between(1, 256 - address) : choose_quantity(2000);
        if (percent(5)) quantity++;
        put_big_endian(address);
        put_big_endian(quantity);
        hint_first = 130 + (address - 160) / 16;
        hint_last = hint_first + quantity / 16;
        break;
    case 0x03:
        address = choose_register();
        quantity = choose_quantity(125);
        put_big_endian(address);
        put_big_endian(quantity);
        hint_first = address;
        hint_last = address + quantity;
        break;
    case 0x05:
        address = choose_coil();
        put_big_endian(address);
        put_big_endian(percent(93) ? ONE_OF(0, 0xFF00) : percent(60) ? ONE_OF(1, 0xFF, 0xFF01, 0xFE00, 0x0100, 0xFFFF) : below(65536));
        hint_first = hint_last = 130 + (address - 160) / 16;
        break;
    case 0x06:
        address = choose_register();
        put_big_endian(address);
        put_big_endian((unsigned)next());
        hint_first = hint_last = address;
        break;
    case 0x08:
        put_big_endian(choose_sub_function());
        bytes = percent(90) ? 2 : percent(70) ? ONE_OF(0, 1, 3, 4, 6, 8) : below(252);
        if (percent(65)) {
            for (; bytes > 0; bytes--) put(0);
        } else if (percent(50)) { /* one bit that isn't zero */
            size_t data = frame_count;
            uint32_t n = bytes;
            for (; bytes > 0; bytes--) put(0);
            if (n > 0) frame[data + below(n)] = (uint8_t)(1u << below(8));
        } else {
            for (; bytes > 0; bytes--) put((uint8_t)next());
        }
        break;
    case 0x0F:
    case 0x10:
        if (function == 0x0F) {
            address = choose_coil();
            quantity = percent(75) && address < 256 && address >= 160 ? between(1, 256 - address) : choose_quantity(1968);
            bytes = (quantity + 7) / 8;
            hint_first = 130 + (address - 160) / 16;
            hint_last = hint_first + quantity / 16;
        } else {
            address = choose_register();
            quantity = choose_quantity(123);
            bytes = 2 * quantity;
            hint_first = address;
            hint_last = address + quantity;
        }
        if (percent(4)) quantity = (quantity + ONE_OF(1, 7, 8, 65535, 65528)) & 0xFFFF;
        put_big_endian(address);
        put_big_endian(quantity);
        put(percent(95) ? (uint8_t)bytes : (uint8_t)(bytes + (percent(50) ? 1 : 255)));
        if (percent(4)) bytes += percent(50) ? 1 : 0xFFFFFFFF;
        if (bytes > 300) bytes = percent(50) ? 246 : below(260);
        for (; bytes > 0; bytes--) put((uint8_t)next());
        break;
    case 0x16:
        address = choose_register();
        put_big_endian(address);
        put_big_endian((unsigned)next());
        put_big_endian((unsigned)next());
        hint_first = hint_last = address;
        break;
    default:
        for (uint32_t n = percent(80) ? 4 : below(30); n > 0; n--) put((uint8_t)next());
    }
    if (percent(5)) { /* too short, too long */
        if (percent(50))
            frame_count -= below((uint32_t)(frame_count - start));
        else
            for (uint32_t n = between(1, 3); n > 0; n--) put((uint8_t)next());
    }
    if (hint_first > 65535) hint_first = hint_last = 0;
}

static uint8_t addressed(uint32_t own) {
    if (percent(87)) return (uint8_t)own;
    return percent(85) ? 0 : percent(50) ? (uint8_t)(own + 1) : (uint8_t)next();
}

/* What the frame and the reply carry, from station to check. */
static uint8_t asked_bytes[1024], reply_bytes[1024];
static size_t asked_count; /* without the check */

static size_t take_bytes(int ascii, const uint8_t *from, size_t n, uint8_t *to) {
    if (n > 600) n = 600;
    if (!ascii) {
        memcpy(to, from, n);
        return n;
    }
    n = n < 3 ? 0 : (n - 3) / 2;
    for (size_t k = 0; k < n; k++) {
        unsigned digits[2];
        for (size_t h = 0; h < 2; h++) {
            uint8_t c = from[1 + 2 * k + h];
            digits[h] = (unsigned)(c >= 'A' ? c - 'A' + 10 : c - '0');
        }
        to[k] = (uint8_t)(digits[0] * 16 + digits[1]);
    }
    return n;
}

static void take_both(int ascii, int32_t got) {
    size_t check = ascii ? 1 : 2, n = take_bytes(ascii, frame, frame_count, asked_bytes);
    asked_count = n < check ? 0 : n - check;
    if (got > 0) take_bytes(ascii, lent_room.at, (size_t)got < room_count ? (size_t)got : room_count, reply_bytes);
}

/* The sub-function that a frame of function 08 holds; 0xFFFFFFFF for any other frame. */
static uint32_t asked_sub_function(void) {
    if (asked_count < 4 || asked_bytes[1] != 0x08) return 0xFFFFFFFF;
    return asked_bytes[2] * 256u + asked_bytes[3];
}

/* The outcome of a reply, by what was asked. */
static void count_modbus(void) {
    int row = OTHER_FUNCTION;
    for (int k = 0; k < FUNCTIONS; k++)
        if (asked_bytes[1] == functions[k]) row = k;
    if (row == DIAGNOSE) {
        row = OTHER_SUB;
        for (int k = 0; k < SUB_FUNCTIONS; k++)
            if (asked_sub_function() == sub_functions[k]) row = DIAGNOSE + k;
    }
    if (reply_bytes[1] & 0x80)
        count(row, reply_bytes[2] <= 3 ? reply_bytes[2] : -1);
    else
        count(row, 0);
}

static void mend_rtu(void) {
    if (frame_count < 2) return;
    uint16_t crc = (uint16_t)reference_crc(frame, frame_count - 2);
    frame[frame_count - 2] = (uint8_t)crc;
    frame[frame_count - 1] = (uint8_t)(crc >> 8);
}

static void make_rtu_request(uint32_t own) {
    hint_first = hint_last = 0;
    frame_count = 0;
    if (percent(2)) {
        noise(270);
        if (percent(30)) mend_rtu();
    } else {
        put(addressed(own));
        make_modbus_body();
        if (percent(2)) /* as long as may be, and longer */
            for (uint32_t longest = between(250, 258); frame_count < longest;) put((uint8_t)next());
        put(0);
        put(0);
        mend_rtu();
        if (percent(3)) frame[frame_count - 1 - below(2)] ^= (uint8_t)(1u << below(8));
        if (percent(1)) { /* check with its bytes exchanged */
            uint8_t low = frame[frame_count - 2];
            frame[frame_count - 2] = frame[frame_count - 1];
            frame[frame_count - 1] = low;
        }
        if (percent(6)) {
            damage();
            if (percent(50)) mend_rtu();
        }
    }
}

static void make_ascii_request(uint32_t own) {
    hint_first = hint_last = 0;
    frame_count = 0;
    if (percent(1)) {
        noise(520);
    } else {
        uint8_t bytes[1024], sum = 0;
        size_t n;
        put(addressed(own));
        make_modbus_body();
        if (percent(2)) /* as long as may be, and longer */
            for (uint32_t longest = between(250, 258); frame_count < longest;) put((uint8_t)next());
        if (percent(1)) frame_count = below(3);
        n = frame_count;
        memcpy(bytes, frame, n);
        for (size_t k = 0; k < n; k++) sum = (uint8_t)(sum + bytes[k]);
        bytes[n++] = (uint8_t)((percent(97) ? 0 : 1u << below(8)) - sum);
        frame_count = 0;
        put(percent(99) ? ':' : awkward());
        for (size_t k = 0; k < n; k++) put_hex(bytes[k], 2);
        if (percent(3)) { /* a letter in lower case */
            for (size_t k = 1; k < frame_count; k++)
                if (frame[k] >= 'A' && frame[k] <= 'F' && percent(30)) {
                    frame[k] |= 0x20;
                    break;
                }
        }
        if (percent(1)) put(awkward());
        if (percent(99)) put('\r');
        put(percent(99) ? '\n' : awkward());
        if (percent(1)) put((uint8_t)ONE_OF('\n', '\r', 0, ':'));
        if (percent(6)) damage();
    }
}

/* Both stations over one frame, RTU or ASCII; where its shape was right, asked_bytes and reply_bytes hold what went over the line. */
static int32_t ask_modbus(int ascii, uint32_t own) {
    int32_t got;
    choose_profile();
    choose_table_size();
    if (ascii)
        make_ascii_request(own);
    else
        make_rtu_request(own);
    got = ascii ? ask_station(jeulgopae_ascii_station, reference_ascii_station, own, 513)
                : ask_station(jeulgopae_rtu_station, reference_rtu_station, own, 513);
    if (got >= 0 || got == -11 || got == -12 || got == -15) take_both(ascii, got);
    return got;
}

static void one_modbus_station(int ascii) {
    uint32_t own = choose_station(247);
    choose_counters();
    if (ask_modbus(ascii, own) >= 0) count_modbus();
}

static void one_rtu_station(void) { one_modbus_station(0); }
static void one_ascii_station(void) { one_modbus_station(1); }

/* ---- limits: writes of any kind at the registers of the profile ---- */

/* What the write names; of a pair alone which number it would leave, and which word SD puts there; what 16h is laid over. */
enum { PAIR, PAIRS, HALF, MIDDLE, THREE, ACROSS, AT_53, AT_55, AT_57, AT_70, WHOLE, BESIDE, EDGES, EXCHANGED = EDGES + 8, FILLS,
       MASK_HALF = FILLS + 4, MASK_53, MASK_55, MASK_57, MASK_70 };
static const char *const limit_rows[] = {"pair",    "pairs",   "half",     "101+102", "three",  "across", "53",      "55",      "57",
                                         "70",      "all six", "beside",   "0",       "-1",     "950000", "950001",  "-950000", "-950001",
                                         "2^31-1",  "-2^31",   "exchange", "SD 000E", "SD 000F", "SD FFF0", "SD FFF1", "16h half", "16h 53",
                                         "16h 55",  "16h 57",  "16h 70",   NULL};
static const char *const limit_columns[] = {"good", "limit", "lacks", "all", "not all", NULL};

static const int32_t edge_rows[] = {0, -1, 950000, 950001, -950000, -950001, 0x7FFFFFFF, -0x7FFFFFFF - 1};
static const uint32_t fill_rows[] = {0x000E, 0x000F, 0xFFF0, 0xFFF1};

static void choose_named(int kind, uint32_t *start, uint32_t *n) {
    static const uint32_t single[] = {53, 55, 57, 70};
    *n = 1;
    switch (kind) {
    case PAIR:
        *start = ONE_OF(100, 102);
        *n = 2;
        break;
    case PAIRS:
        *start = 100;
        *n = 4;
        break;
    case HALF:
        *start = between(100, 103);
        break;
    case MIDDLE:
        *start = 101;
        *n = 2;
        break;
    case THREE:
        *start = between(100, 101);
        *n = 3;
        break;
    case ACROSS: /* up to one half, past another, or over whole pairs and what stands around them */
        *start = between(94, 102);
        *n = between(3, 14);
        break;
    case WHOLE:
        *start = between(46, 53);
        *n = between(103, 109) - *start + 1;
        break;
    case BESIDE:
        *start = ONE_OF(52, 54, 56, 58, 69, 71, 99, 104, 400, 401);
        break;
    default:
        *start = single[kind - AT_53];
    }
}

/* A mask write that leaves what is there, sets it, or changes some of its bits. */
static void put_masks(void) {
    put_big_endian(ONE_OF(0x0000, 0x0000, 0xFFFF, 0xFFFF, 0x0003, 0xFFF8, 0xFF00, 0x00FF, (uint32_t)next() & 0xFFFF));
    put_big_endian(ONE_OF(0, 1, 2, 3, 4, 5, 0xFFFF, 0xFF00, 0x0100, (uint32_t)next() & 0xFFFF));
}

static void one_limits(void) {
    int kind = percent(25) ? PAIR : (int)below(EDGES), row = -1, column = -1;
    int taken[6], mewtocol = percent(50), ascii = percent(50), to_all = percent(20);
    uint32_t start, n, own = between(1, 99);
    int32_t got;
    choose_counters();
    profile = percent(97) ? JEULGOPAE_HL_G2_50 : percent(70) ? JEULGOPAE_NO_PROFILE : ONE_OF(2, 3, 255, 256, 257, 0x80000001, 0xFFFFFFFF);
    words_count = attributes_count = percent(90) ? between(136, 500) : between(90, 110);
    choose_named(kind, &start, &n);
    choose_taken(taken);
    choose_run(start, n, taken);
    if (kind == PAIR) {
        uint32_t bits = ((uint32_t)run_values[1] << 16) | run_values[0];
        for (int k = 0; k < 8; k++)
            if (bits == (uint32_t)edge_rows[k]) row = EDGES + k;
        if (exchanged(bits) == 950000 || exchanged(bits) == 0u - 950000) row = EXCHANGED;
    }
    hint_first = start;
    hint_last = start + n - 1;
    frame_count = 0;
    if (mewtocol) {
        uint32_t form = n > 24 || percent(30) ? JEULGOPAE_EXPANDED : JEULGOPAE_ORDINARY;
        int fill = percent(40);
        put(forms[form].header);
        if (to_all)
            put_text("FF");
        else
            put_number(own, 2);
        put_text(fill ? "#SDD" : "#WDD");
        put_number(start, 5);
        put_number(start + n - 1, 5);
        if (fill) {
            uint32_t k = below(4);
            row = -1;
            run_values[0] = (uint16_t)(percent(70) ? fill_rows[k] : percent(80) ? ONE_OF(0, 1, 2, 3, 4, 5, 0xFFFF, 0x8000) : next());
            for (k = 0; k < 4; k++)
                if ((kind == PAIR || kind == PAIRS) && run_values[0] == fill_rows[k]) row = FILLS + (int)k;
            n = 1;
        }
        for (uint32_t k = 0; k < n; k++) {
            put_hex(run_values[k] & 0xFF, 2);
            put_hex(run_values[k] >> 8, 2);
        }
        put_hex(xor_of(frame_count), 2);
        put('\r');
        got = ask_station(library_mewtocol, reference_mewtocol, own, 2048);
        if (got >= 9)
            column = lent_room.at[3] == '$'                       ? 0
                     : memcmp(lent_room.at + 4, "61", 2) == 0 ? 1
                     : memcmp(lent_room.at + 4, "66", 2) == 0 ? 2
                                                              : -1;
    } else {
        uint32_t function;
        function = n > 1 || percent(30) ? 0x10 : percent(50) ? 0x06 : 0x16;
        put(to_all ? 0 : (uint8_t)own);
        put((uint8_t)function);
        put_big_endian(start);
        if (function == 0x10) {
            put_big_endian(n);
            put((uint8_t)(2 * n));
        }
        if (function == 0x16) {
            row = kind == HALF ? MASK_HALF : kind >= AT_53 && kind <= AT_70 ? MASK_53 + kind - AT_53 : -1;
            put_masks();
        } else {
            for (uint32_t k = 0; k < n; k++) put_big_endian(run_values[k]);
        }
        if (ascii) {
            uint8_t bytes[256], sum = 0;
            size_t bytes_count = frame_count;
            memcpy(bytes, frame, bytes_count);
            for (size_t k = 0; k < bytes_count; k++) sum = (uint8_t)(sum + bytes[k]);
            bytes[bytes_count++] = (uint8_t)(0u - sum);
            frame_count = 0;
            put(':');
            for (size_t k = 0; k < bytes_count; k++) put_hex(bytes[k], 2);
            put_text("\r\n");
        } else {
            put(0);
            put(0);
            mend_rtu();
        }
        got = ascii ? ask_station(jeulgopae_ascii_station, reference_ascii_station, own, 513)
                    : ask_station(jeulgopae_rtu_station, reference_rtu_station, own, 513);
        if (got >= 0) {
            take_both(ascii, got);
            column = !(reply_bytes[1] & 0x80) ? 0 : reply_bytes[2] == 3 ? 1 : reply_bytes[2] == 2 ? 2 : -1;
        }
    }
    if (got == -15) column = 3;
    if (got == -12) column = 4;
    if (profile != JEULGOPAE_HL_G2_50) return;
    count(kind, column);
    count(row, column);
}

/* ---- a line: calls on one record, RTU and ASCII in any order ---- */

static const char *const counter_rows[] = {"0B", "0C", "0D", "0E", "0F", NULL};
static const char *const line_columns[] = {"counted", "at FFFF", "shown", "cleared", "kept", NULL};

/* Adds what one call brought to what the line has seen since the last clear; nothing is cut here. Gives 1 for a clear. */
static int tally(uint32_t seen[COUNTERS], int32_t got) {
    int right = got >= 0 || got == -12 || got == -15;
    int own = got >= 0 || (right && asked_bytes[0] == 0);
    int exception = got >= 0 && reply_bytes[1] & 0x80;
    seen[0] += (uint32_t)right;
    seen[1] += got == -11;
    seen[2] += (uint32_t)exception;
    seen[3] += (uint32_t)own;
    seen[4] += right && asked_bytes[0] == 0;
    if (got < 0 || exception || asked_sub_function() != 0x0A) return 0;
    memset(seen, 0, COUNTERS * sizeof *seen);
    return 1;
}

static uint32_t cut(uint32_t n) { return n < 0xFFFF ? n : 0xFFFF; }

/* Some calls, each on the record that the one before left. What the record then holds, and what a reply shows of it, is what the line
 * has seen since the last clear, cut at FFFFh. */
static void one_line(void) {
    uint32_t own = choose_station(247), seen[COUNTERS];
    uint16_t before[COUNTERS], after[COUNTERS];
    choose_counters();
    list_counts(&counters_before, before);
    for (int k = 0; k < COUNTERS; k++) seen[k] = before[k];
    for (uint32_t calls = between(2, 12); calls > 0; calls--) {
        int ascii = percent(50), wrong = 0, cleared;
        int32_t got = ask_modbus(ascii, percent(98) ? own : choose_station(247));
        uint32_t earlier[COUNTERS], asks;
        struct jeulgopae_counters left;
        memcpy(&left, lent_counters.at, sizeof left);
        list_counts(&counters_before, before);
        list_counts(&left, after);
        memcpy(earlier, seen, sizeof seen);
        cleared = tally(seen, got);
        asks = got >= 0 || got == -12 ? asked_sub_function() : 0xFFFFFFFF;
        for (int k = 0; k < COUNTERS; k++) {
            if (after[k] != cut(seen[k])) wrong = 1;
            if (seen[k] == earlier[k] + 1) count(k, before[k] == 0xFFFF ? 1 : 0);
            if (cleared && before[k] != 0) count(k, 3);
            if (!cleared && asks == 0x0A && before[k] != 0) count(k, 4);
            if (got >= 0 && asks == 0x0Bu + (uint32_t)k && !(reply_bytes[1] & 0x80)) {
                if (reply_bytes[4] * 256u + reply_bytes[5] != cut(seen[k])) wrong = 1;
                count(k, 2);
            }
        }
        if (wrong && ++entry->differences <= 3) {
            printf("  %s case %llu: not what the line has seen: %u %u %u %u %u\n", entry->name, (unsigned long long)case_number, seen[0],
                   seen[1], seen[2], seen[3], seen[4]);
            dump("frame", frame, frame_count);
            if (got > 0) dump("library", lent_room.at, (size_t)got);
            print_counts("library", &left);
        }
        counters_before = left;
    }
}

/* ---- MEWTOCOL host ---- */

static struct {
    uint32_t station, form, command, first, second, value;
    uint32_t contacts[32];
    uint8_t values[32];
    uint16_t words[600];
    size_t contacts_count, values_count, words_count;
} asked;

static uint32_t choose_contact(void) {
    if (percent(85)) return 16 * choose_relay() + below(16);
    return percent(60) ? ONE_OF(0, 15, 15999, 16000, 15984, 16383, 16384, 65535, 0xFFFFFFFF) : percent(50) ? below(16100) : extreme();
}

static void make_asked(unsigned sound) {
    uint32_t limit, largest, form;
    words_count = between(136, 4096); /* what choose_word goes by */
    asked.station = percent(98) ? between(1, 99) : percent(50) ? ONE_OF(0, 1, 99, 100, 101, 256, 257, 0xFFFFFFFF) : extreme();
    asked.form = percent(98) ? choose_form() : percent(60) ? ONE_OF(2, 3, 60, 37, 255, 256, 65537, 0xFFFFFFFF) : extreme();
    asked.command = percent(98) ? between(1, 8) : percent(60) ? ONE_OF(0, 0, 9, 10, 255, 256, 65536, 0xFFFFFFFF) : extreme();
    asked.first = extreme();
    asked.second = extreme();
    asked.value = extreme();
    asked.contacts_count = below(percent(90) ? 9 : 33);
    asked.values_count = percent(60) ? asked.contacts_count : below(percent(90) ? 9 : 33);
    asked.words_count = below(percent(90) ? 28 : 601);
    for (size_t k = 0; k < 32; k++) asked.contacts[k] = choose_contact();
    for (size_t k = 0; k < 32; k++) asked.values[k] = (uint8_t)next();
    memcpy(asked.words, pool + below(POOL), sizeof asked.words);
    if (!percent(sound)) return;

    switch (asked.command) {
    case 0: /* a contact in both of the places where one could stand */
        asked.contacts[0] = choose_contact();
        asked.contacts_count = 1;
        /* fall through */
    case JEULGOPAE_WRITE_CONTACT:
        asked.first = choose_contact();
        if (percent(95)) asked.value = below(2);
        break;
    case JEULGOPAE_READ_CONTACTS:
    case JEULGOPAE_WRITE_CONTACTS:
        asked.contacts_count = percent(96) ? (percent(30) ? 1 : between(1, 8)) : ONE_OF(0, 9, 10, 32);
        for (size_t k = 0; k < 32; k++) asked.contacts[k] = percent(98) ? below(16000) : choose_contact();
        if (percent(10)) asked.contacts[between(1, 7)] = asked.contacts[0];
        if (asked.command == JEULGOPAE_WRITE_CONTACTS || percent(50)) {
            asked.values_count = asked.contacts_count;
            if (percent(3)) asked.values_count += percent(50) ? 0u - 1 : 1;
            if (asked.values_count > 32) asked.values_count = 0;
            for (size_t k = 0; k < 32; k++) asked.values[k] = percent(99) ? (uint8_t)below(2) : percent(50) ? 2 : (uint8_t)next();
        }
        break;
    default:
        form = asked.form <= 1 && percent(97) ? asked.form : choose_form();
        limit = asked.command == JEULGOPAE_READ_RELAYS || asked.command == JEULGOPAE_READ_WORDS ? forms[form].most_read
                                                                                               : forms[form].most_written;
        largest = asked.command == JEULGOPAE_READ_RELAYS || asked.command == JEULGOPAE_WRITE_RELAYS ? 9999 : 99999;
        if (asked.command == JEULGOPAE_FILL_WORDS) limit = LIMIT;
        asked.first = percent(60) ? below(largest + 1) : percent(50) ? between(95, 110) : largest - below(30);
        asked.second = asked.first + choose_extent(limit);
        if (percent(3)) asked.second = asked.first - 1;
        if (percent(2)) asked.second = largest + below(2);
        asked.words_count = asked.second - asked.first + 1u;
        if (asked.words_count > 600) asked.words_count = below(601);
        if (percent(3)) asked.words_count = (asked.words_count + (percent(50) ? 1 : 600)) % 601;
        asked.value = percent(95) ? below(65536) : ONE_OF(65535, 65536, 65537, 0xFFFFFFFF, 0x10000 + 0x1234);
    }
}

static void print_asked(void) {
    printf("    station %u, form %u, command %u, first %u, second %u, value %u, contacts %zu, values %zu, words %zu\n", asked.station, asked.form,
           asked.command, asked.first, asked.second, asked.value, asked.contacts_count, asked.values_count, asked.words_count);
    printf("    contacts:");
    for (size_t k = 0; k < asked.contacts_count; k++) printf(" %u", asked.contacts[k]);
    printf("\n");
    dump("values", asked.values, asked.values_count);
    dump("words", asked.words, 2 * asked.words_count);
}

static uint32_t *given_contacts;
static uint8_t *given_values;
static uint16_t *given_words;

static void lend_asked(void) {
    given_contacts = lend(&lent_contacts, asked.contacts, 4 * asked.contacts_count);
    given_values = lend(&lent_values, asked.values, asked.values_count);
    given_words = lend(&lent_list, asked.words, 2 * asked.words_count);
}

static int asked_stands(void) {
    return holds(&lent_contacts, asked.contacts) && holds(&lent_values, asked.values) && holds(&lent_list, asked.words);
}

/* What goes on the line for what is asked; the numbers of the header stand in the order of the names. */
static int asked_row(void) {
    if (asked.command == 0) return GONE;
    if (asked.command >= 9) return OTHER;
    if (asked.command != JEULGOPAE_READ_CONTACTS) return (int)asked.command;
    return asked.contacts_count == 0 ? EMPTY : asked.contacts_count == 1 ? RCS : asked.contacts_count <= 8 ? RCP : NINE;
}

static const char *const host_rows[] = {"RCS", "RCP", "RCC",  "WCS",      "WCP",    "WCC",    "RD",
                                        "WD",  "SD",  "none", "number 0", "RC of 0", "RC of 9", NULL};

static const char *const write_columns[] = {"good", "ref 14", NULL};

static void one_mewtocol_write(void) {
    int32_t got, expected;
    uint8_t *room;
    int same;
    make_asked(85);
    choose_room(asked.form == JEULGOPAE_EXPANDED ? 2048 : 118);
    lend_asked();
    room = lend(&lent_room, room_before, room_count);
    got = jeulgopae_mewtocol_write(asked.station, asked.form, asked.command, asked.first, asked.second, asked.value, given_contacts,
                                   asked.contacts_count, given_values, asked.values_count, given_words, asked.words_count, room,
                                   room_count);
    expected = reference_mewtocol_write(asked.station, asked.form, asked.command, asked.first, asked.second, asked.value, asked.contacts,
                                        asked.contacts_count, asked.values, asked.values_count, asked.words, asked.words_count,
                                        reference_room, room_count);
    same = asked_stands() && holds(&lent_room, reference_room);
    if (settle(got, expected, same)) {
        print_asked();
        printf("    room %zu\n", room_count);
        dump("library", lent_room.at, got > 0 ? (size_t)got : 0);
        dump("reference", reference_room, expected > 0 ? (size_t)expected : 0);
    }
    if (got >= 0) count(asked_row(), 0);
    if (got == -14) count(asked_row(), 1);
}

/* 13 by what is wrong: of the data one character or more; of an error reply its characters; mark, name, length of data or error; the
 * header of the other form. */
static const char *const read_columns[] = {"good",    "error",   "13 one",  "13 more", "13 err", "13 mark",
                                           "13 name", "13 data", "13 long", "ref 14",  "13 head", NULL};
enum { GOOD, ERROR_REPLY, ONE_DIGIT, MORE_DIGITS, ERROR_DIGITS, WRONG_MARK, WRONG_NAME, DATA_LENGTH, ERROR_LENGTH, NO_REQUEST, WRONG_HEADER };

static int of_contacts(uint32_t command) { return command == JEULGOPAE_READ_CONTACTS; }

/* How many characters of data the reply to what was asked holds. */
static uint32_t called_for(uint32_t command) {
    switch (command) {
    case JEULGOPAE_READ_CONTACTS:
        return (uint32_t)asked.contacts_count;
    case JEULGOPAE_READ_RELAYS:
    case JEULGOPAE_READ_WORDS:
        return 4 * (asked.second - asked.first + 1);
    }
    return 0;
}

static void put_name(uint32_t command) {
    put((uint8_t)names[command][0]);
    put((uint8_t)names[command][1]);
}

static void put_data(uint32_t command, uint32_t characters) {
    for (; characters > 0; characters--) put_hex(below(of_contacts(command) ? 2 : 16), 1);
}

static int may_be_data(uint32_t command, uint8_t c) { return memchr("0123456789ABCDEF", c, of_contacts(command) ? 2 : 16) != NULL; }

static uint8_t no_hex(size_t at) {
    uint8_t c;
    (void)at;
    do c = awkward();
    while (may_be_data(JEULGOPAE_READ_WORDS, c));
    return c;
}

static uint8_t no_contact(size_t at) {
    uint8_t c;
    (void)at;
    do c = percent(50) ? (uint8_t)ONE_OF('/', '2', '9', 'A', 'F', ' ', 'O', 'l') : awkward();
    while (may_be_data(JEULGOPAE_READ_CONTACTS, c));
    return c;
}

static uint8_t no_mark(size_t at) {
    uint8_t c;
    (void)at;
    do c = percent(50) ? (uint8_t)ONE_OF('#', '"', '%', ' ', '1', 'R') : awkward();
    while (c == '!' || c == '$');
    return c;
}

/* Never the letter that stands there. */
static uint8_t no_letter(size_t at) {
    uint8_t c;
    do c = percent(50) ? (uint8_t)ONE_OF('R', 'W', 'S', 'C', 'D', 'X') : percent(30) ? (uint8_t)(frame[at] | 0x20) : awkward();
    while (c == frame[at]);
    return c;
}

static void spoil_data(uint32_t command, uint32_t characters) {
    if (characters > 0) spoil(6, characters, of_contacts(command) ? no_contact : no_hex);
}

/* A reply whose shape, check and station are right, wrong in one way. Where the place is the frame's length, data may be wrong too. */
static void make_wrong_reply(void) {
    uint32_t command, n, characters, way = below(100), form = asked.form & 1, most = forms[form].longest - 10;
    if (way < 30 && asked.command - 1 < 8) { /* the longest data, for every place that there is */
        asked.command = ONE_OF(JEULGOPAE_READ_RELAYS, JEULGOPAE_READ_WORDS);
        asked.first = below(9000);
        asked.second = asked.first + forms[form].most_read - 1;
    }
    command = asked.command - 1 < 8 ? asked.command : between(1, 8);
    n = called_for(command);
    if (n > most) n = below(most + 1);
    frame_count = 0;
    put(forms[form].header);
    put_number(asked.station % 100, 2);
    if (way < 50 && n > 0) {
        put('$');
        put_name(command);
        put_data(command, n);
        spoil_data(command, n);
    } else if (way < 60) {
        put('!');
        put_hex((unsigned)next(), 2);
        spoil(4, 2, no_hex);
    } else if (way < 70) { /* an error reply of another length: longer, for a shorter one has no shape */
        characters = percent(80) ? between(3, 8) : between(3, most + 3);
        put('!');
        put_data(JEULGOPAE_READ_WORDS, characters);
        if (percent(50)) spoil(4, characters, no_hex);
    } else if (way < 73) { /* an error reply but for its mark */
        put(no_mark(3));
        put_hex((unsigned)next(), 2);
    } else {
        characters = n;
        if (way < 82) /* data of another length */
            do characters = percent(30) ? below(most + 1) : percent(50) ? n + ONE_OF(1, 2, 4) : n - ONE_OF(1, 2, 4);
            while (characters == n || characters > most + 1);
        put('$');
        put_name(command);
        put_data(command, characters);
        if (way >= 92)
            spoil(3, 1, no_mark);
        else if (way >= 82)
            spoil(4, 2, no_letter);
        if (percent(40)) spoil_data(command, characters);
    }
    put_hex(xor_of(frame_count), 2);
    put('\r');
}

/* A reply to what was asked, or nearly. */
static void make_reply(void) {
    uint32_t command = asked.command - 1 < 8 ? asked.command : between(1, 8), characters, form = asked.form & 1;
    size_t data;
    frame_count = 0;
    if (percent(40)) {
        make_wrong_reply();
        return;
    }
    if (percent(2)) {
        noise(percent(80) ? 130 : 2060);
        return;
    }
    if (percent(4)) command = between(1, 8);
    if (percent(6)) form ^= 1; /* the other form's reply: a good frame where its length allows it */
    put(percent(99) ? forms[form].header : awkward());
    if (percent(96)) {
        put_number(asked.station % 100, 2);
    } else if (percent(50)) {
        put_number(below(100), 2);
    } else {
        put(awkward());
        put(awkward());
    }
    if (percent(15)) {
        put('!');
        if (percent(85)) {
            put_hex((unsigned)next(), 2);
        } else {
            for (uint32_t n = below(4); n > 0; n--) put(awkward());
        }
    } else {
        put(percent(98) ? '$' : awkward());
        put_name(command);
        characters = called_for(command);
        if (characters > forms[form].longest + 2) characters = below(forms[form].longest + 3);
        if (percent(5)) characters = percent(50) ? characters + ONE_OF(1, 2, 4) : characters - 1;
        if (characters > 2100) characters = 0;
        data = frame_count;
        put_data(command, characters);
        if (percent(10) && frame_count > data) frame[data + below((uint32_t)(frame_count - data))] = awkward();
        if (percent(3)) frame[between(3, (uint32_t)frame_count - 1)] = awkward();
    }
    close_mewtocol();
    if (percent(6)) {
        damage();
        if (percent(50)) mend_mewtocol();
    }
}

/* The column of an answer. */
static int read_column(int32_t got) {
    int wrong = 0;
    if (got >= 0) return GOOD;
    if (JEULGOPAE_IS_ERROR_REPLY(got)) return ERROR_REPLY;
    if (got == -14) return NO_REQUEST;
    if (!is_13(got)) return -1;
    if (frame[0] != forms[asked.form & 1].header) return WRONG_HEADER;
    if (place_of(got) < frame_count) {
        if (frame[3] == '!') return ERROR_DIGITS;
        for (size_t k = 6; k + 3 < frame_count; k++) wrong += !may_be_data(asked.command, frame[k]);
        return wrong == 1 ? ONE_DIGIT : MORE_DIGITS;
    }
    if (frame[3] == '!') return ERROR_LENGTH;
    if (frame[3] != '$') return WRONG_MARK;
    return asked.command - 1 < 8 && memcmp(frame + 4, names[asked.command], 2) == 0 ? DATA_LENGTH : WRONG_NAME;
}

static void one_mewtocol_read(void) {
    int32_t got, expected;
    uint8_t *given;
    make_asked(95);
    make_reply();
    lend_asked();
    given = lend(&lent_frame, frame, frame_count);
    got = jeulgopae_mewtocol_read(asked.station, asked.form, asked.command, asked.first, asked.second, asked.value, given_contacts,
                                  asked.contacts_count, given_values, asked.values_count, given_words, asked.words_count, given,
                                  frame_count);
    expected = reference_mewtocol_read(asked.station, asked.form, asked.command, asked.first, asked.second, asked.value, asked.contacts,
                                       asked.contacts_count, asked.values, asked.values_count, asked.words, asked.words_count, frame,
                                       frame_count);
    if (settle(got, expected, asked_stands() && holds(&lent_frame, frame))) {
        print_asked();
        dump("frame", frame, frame_count);
    }
    count_place(got);
    count(asked_row(), read_column(got));
}

static void one_data_word(void) {
    uint32_t i;
    int32_t got, expected;
    uint8_t *given;
    frame_count = 0;
    for (uint32_t n = percent(80) ? 4 * below(28) : below(112); n > 0; n--) put_hex(below(16), 1);
    if (percent(20) && frame_count > 0) frame[below((uint32_t)frame_count)] = percent(70) ? awkward() : (uint8_t)next();
    i = percent(90)   ? below((uint32_t)frame_count / 4 + 2)
        : percent(50) ? ONE_OF(0x3FFFFFFF, 0x40000000, 0x40000001, 0x80000000, 0xFFFFFFFF)
                      : extreme();
    given = lend(&lent_frame, frame, frame_count);
    got = jeulgopae_data_word(given, frame_count, i);
    expected = reference_data_word(frame, frame_count, i);
    if (settle(got, expected, holds(&lent_frame, frame))) {
        printf("    i %u\n", i);
        dump("part", frame, frame_count);
    }
}

static void one_data_contact(void) {
    size_t i;
    int32_t got, expected;
    uint8_t *given;
    frame_count = 0;
    for (uint32_t n = below(percent(90) ? 9 : 120); n > 0; n--)
        put((uint8_t)(percent(95) ? '0' + below(2) : percent(60) ? awkward() : (uint8_t)next()));
    i = percent(90) ? below((uint32_t)frame_count + 2) : percent(50) ? extreme() : (size_t)next();
    if (percent(1)) i = ((size_t)1 << 32) + below(4);
    given = lend(&lent_frame, frame, frame_count);
    got = jeulgopae_data_contact(given, frame_count, i);
    expected = reference_data_contact(frame, frame_count, i);
    if (settle(got, expected, holds(&lent_frame, frame))) {
        printf("    i %zu\n", i);
        dump("part", frame, frame_count);
    }
}

/* ---- laser head ---- */

static void mend_laser(void) {
    static const char hex[] = "0123456789ABCDEF";
    if (frame_count < 8) return;
    uint8_t x = xor_of(frame_count - 3);
    frame[frame_count - 3] = (uint8_t)hex[x >> 4];
    frame[frame_count - 2] = (uint8_t)hex[x & 15];
}

static void make_laser(int distance) {
    uint32_t n;
    frame_count = 0;
    if (percent(2)) {
        noise(120);
        if (percent(50) && frame_count > 0) frame[0] = '/';
        return;
    }
    n = distance ? 6 : percent(70) ? below(12) : percent(40) ? ONE_OF(0, 9, 10, 99, 98) : below(100);
    if (distance && percent(5)) n = below(12);
    put(percent(99) ? '/' : awkward());
    put_number(n, 2);
    if (percent(3)) frame[between(1, 2)] = percent(50) ? awkward() : (uint8_t)next();
    if (distance || percent(20)) {
        put(percent(98) ? '0' : awkward());
        put(percent(98) ? 'D' : awkward());
    } else {
        put((uint8_t)next());
        put((uint8_t)next());
    }
    if (percent(3)) n = percent(50) ? n + 1 : n > 0 ? n - 1 : 0;
    for (uint32_t k = 0; k < n; k++) {
        if (distance)
            put(k < 5 ? (uint8_t)between('0', '9') : 0);
        else
            put((uint8_t)(percent(20) ? ONE_OF('.', 0, '/', 0xFF, ' ') : next()));
    }
    if (distance && n > 0 && percent(8)) frame[5 + below(n)] = percent(60) ? awkward() : (uint8_t)next();
    if (distance && n > 5 && percent(3)) frame[10] = (uint8_t)ONE_OF(' ', '0', 1, '\r', 0x80);
    put('0');
    put('0');
    put('.');
    mend_laser();
    if (percent(4)) { /* check wrong, or in lower case */
        size_t at = frame_count - 3 + below(2);
        if (percent(50) && frame[at] >= 'A')
            frame[at] |= 0x20;
        else
            frame[at] = percent(50) ? awkward() : (uint8_t)(frame[at] ^ (1u << below(8)));
    }
    if (percent(1)) frame[frame_count - 1] = awkward();
    if (percent(6)) {
        damage();
        if (percent(50)) mend_laser();
    }
}

/* 13 by the first thing that is wrong, alone or with more after it. A count that isn't 06 leaves no distance to be wrong in. */
static const char *const distance_rows[] = {"place 5", "place 6", "place 7", "place 8", "place 9", "place 10", "command", "count", NULL};
static const char *const distance_columns[] = {"alone", "more", NULL};

static int may_be_distance(size_t at, uint8_t c) { return at == 10 ? c == 0 : c >= '0' && c <= '9'; }

static uint8_t no_distance(size_t at) {
    uint8_t c;
    do c = percent(50) ? (uint8_t)ONE_OF('/', ':', 0, '0', 1, ' ', '.', 'A', '5' | 0x80, 0x80, 0xFF) : (uint8_t)next();
    while (may_be_distance(at, c));
    return c;
}

/* Never the byte of `0D` that belongs there. */
static uint8_t no_command(size_t at) {
    uint8_t c;
    do c = percent(60) ? (uint8_t)ONE_OF('0', 'D', 'd', 'O', '1', 'E', 'C', 0, '0' | 0x80, 'D' | 0x80) : (uint8_t)next();
    while (c == (at == 3 ? '0' : 'D'));
    return c;
}

/* A frame that the reader takes and that is no distance: of its data some is wrong, or its command, its count, or several of them. */
static void make_wrong_distance(void) {
    uint32_t way = below(100), n = 6, closing;
    if (way >= 75)
        do n = percent(60) ? ONE_OF(0, 1, 4, 5, 7, 8, 12, 16, 60, 99) : below(100);
        while (n == 6);
    closing = percent(50) ? 5 : n - 1;
    frame_count = 0;
    put('/');
    put_number(n, 2);
    put('0');
    put('D');
    for (uint32_t k = 0; k < n; k++) put(k == closing ? 0 : (uint8_t)between('0', '9'));
    if (way >= 55 && way < 80) spoil(3, 2, no_command);
    if (n > 0 && (way < 55 || percent(40))) spoil(5, n, no_distance);
    put('0');
    put('0');
    put('.');
    mend_laser();
}

/* Counts a distance refused with 13. */
static void count_distance(int32_t got) {
    int wrong = 0, command;
    if (!is_13(got)) return;
    command = frame[3] != '0' || frame[4] != 'D';
    if (frame_count == 14)
        for (size_t k = 5; k <= 10; k++) wrong += !may_be_distance(k, frame[k]);
    if (place_of(got) < frame_count)
        count(place_of(got) >= 5 && place_of(got) <= 10 ? (int)place_of(got) - 5 : -1, wrong > 1);
    else if (command)
        count(6, wrong > 0 || frame_count != 14);
    else
        count(7, 0);
}

static void one_laser_read(void) {
    int32_t got, expected;
    uint8_t *given;
    make_laser(0);
    given = lend(&lent_frame, frame, frame_count);
    got = jeulgopae_laser_read(given, frame_count);
    expected = reference_laser_read(frame, frame_count);
    if (settle(got, expected, holds(&lent_frame, frame))) dump("frame", frame, frame_count);
}

static void one_laser_distance(void) {
    int32_t got, expected;
    uint8_t *given;
    if (percent(40))
        make_wrong_distance();
    else
        make_laser(percent(90));
    given = lend(&lent_frame, frame, frame_count);
    got = jeulgopae_laser_distance(given, frame_count);
    expected = reference_laser_distance(frame, frame_count);
    if (settle(got, expected, holds(&lent_frame, frame))) dump("frame", frame, frame_count);
    count_place(got);
    count_distance(got);
}

static void one_laser_write(void) {
    uint8_t first = (uint8_t)next(), second = (uint8_t)next(), *given, *room;
    int32_t got, expected;
    frame_count = percent(50)   ? below(12)
                  : percent(60) ? below(100)
                  : percent(80) ? ONE_OF(0, 1, 98, 99, 100, 101, 110, 256, 257)
                                : below(1000);
    memcpy(frame, pool + below(POOL), frame_count);
    choose_room(118);
    given = lend(&lent_frame, frame, frame_count);
    room = lend(&lent_room, room_before, room_count);
    got = jeulgopae_laser_write(first, second, given, frame_count, room, room_count);
    expected = reference_laser_write(first, second, frame, frame_count, reference_room, room_count);
    if (settle(got, expected, holds(&lent_frame, frame) && holds(&lent_room, reference_room))) {
        printf("    command %02X %02X, room %zu\n", first, second, room_count);
        dump("data", frame, frame_count);
        dump("library", lent_room.at, got > 0 ? (size_t)got : 0);
        dump("reference", reference_room, expected > 0 ? (size_t)expected : 0);
    }
}

/* ---- two frames ---- */

/* What each of the two may do: nothing, read, write, or both (a mask). */
static const char *const meeting_rows[] = {"-/-", "-/r", "-/w", "-/rw", "r/-", "r/r", "r/w", "r/rw", "w/-", "w/r", "w/w", "w/rw",
                                           "rw/-", "rw/r", "rw/w", "rw/rw", NULL};
static const char *const meeting_columns[] = {"apart", "first", "later", NULL};

static void make_request(uint32_t format, uint32_t own) {
    if (format == JEULGOPAE_MEWTOCOL) {
        hint_first = hint_last = 0;
        make_mewtocol_request(own % 100);
    } else if (format == JEULGOPAE_ASCII) {
        make_ascii_request(own);
    } else {
        make_rtu_request(own);
    }
}

static uint32_t choose_format(void) { return percent(98) ? below(3) : percent(70) ? ONE_OF(3, 4, 255, 256, 65536, 0xFFFFFFFF) : extreme(); }

/* An RTU frame about one register. */
static void make_rtu_about(uint32_t to, uint8_t function, uint8_t word, uint8_t value, uint8_t or_mask) {
    frame_count = 0;
    put((uint8_t)to);
    put(function);
    put(0);
    put(word);
    put(0);
    put(value);
    if (function == 0x16) {
        put(0);
        put(or_mask);
    }
    put(0);
    put(0);
    mend_rtu();
}

static void one_meeting(void) {
    static uint8_t one_frame[4096];
    static Lent lent_other;
    uint32_t one_format, other_format, one_own, other_own;
    size_t one_count;
    uint8_t *attributes, *one, *other;
    int32_t got, expected;
    if (lent_other.body == NULL) open_lent(&lent_other, sizeof one_frame);
    choose_profile();
    choose_table_size();
    if (percent(60)) words_count = between(136, 160); /* so that they meet */
    attributes_count = words_count;
    one_format = choose_format();
    other_format = choose_format();
    one_own = choose_station(one_format == JEULGOPAE_MEWTOCOL ? 99 : 247);
    other_own = choose_station(other_format == JEULGOPAE_MEWTOCOL ? 99 : 247);
    make_request(one_format, one_own);
    memcpy(one_frame, frame, frame_count);
    one_count = frame_count;
    if (percent(90) || one_format != other_format) {
        make_request(other_format, other_own);
    } else { /* the same again */
        other_own = one_own;
    }
    fill_table();
    if (percent(4)) { /* a mask and a write on a register of the profile, where the word decides; at no station; an attribute of 4 */
        uint8_t word = (uint8_t)ONE_OF(53, 55, 57, 70);
        profile = JEULGOPAE_HL_G2_50;
        words_count = attributes_count = between(104, 160);
        one_format = other_format = JEULGOPAE_RTU;
        one_own = other_own = percent(25) ? 0 : between(1, 247);
        make_rtu_about(one_own, 0x16, word, (uint8_t)below(8), (uint8_t)below(8));
        memcpy(one_frame, frame, frame_count);
        one_count = frame_count;
        make_rtu_about(other_own, 0x06, word, (uint8_t)below(5), 0);
        memset(table_attributes, 3, attributes_count);
        if (percent(25)) table_attributes[below((uint32_t)attributes_count)] = 4;
    }
    attributes = lend(&lent_attributes, table_attributes, attributes_count);
    one = lend(&lent_other, one_frame, one_count);
    other = lend(&lent_frame, frame, frame_count);
    got = jeulgopae_meeting(attributes, attributes_count, profile, one_format, one_own, one, one_count, other_format, other_own, other,
                            frame_count);
    expected = reference_meeting(table_attributes, attributes_count, profile, one_format, one_own, one_frame, one_count, other_format,
                                 other_own, frame, frame_count);
    if (settle(got, expected, holds(&lent_attributes, table_attributes) && holds(&lent_other, one_frame) && holds(&lent_frame, frame))) {
        printf("    profile %u, attributes %zu, formats %u and %u, own %u and %u\n", profile, attributes_count, one_format, other_format,
               one_own, other_own);
        dump("one", one_frame, one_count);
        dump("other", frame, frame_count);
    }
    if (profile <= 1 && one_format <= 2 && other_format <= 2) {
        int first = reference_touches(table_attributes, attributes_count, profile, one_format, one_own, one_frame, one_count);
        int second = reference_touches(table_attributes, attributes_count, profile, other_format, other_own, frame, frame_count);
        count(4 * first + second, got < 0 ? 0 : got % 16 == 0 ? 1 : 2);
    }
}

/* ---- numbers, bit count, CRC ---- */

static void one_number(int32_t (*library)(uint32_t), int32_t (*reference)(uint32_t), uint32_t low, uint32_t high) {
    uint32_t v = percent(60) ? between(low, high) : percent(60) ? between(low > 3 ? low - 3 : 0, high + 3) : extreme();
    if (percent(5)) v = ONE_OF(low, high, low - 1, high + 1);
    if (settle(library(v), reference(v), 1)) printf("    given %u\n", v);
}

static void one_register_address(void) { one_number(jeulgopae_register_address, reference_register_address, 400001, 465536); }
static void one_register_number(void) { one_number(jeulgopae_register_number, reference_register_number, 0, 65535); }
static void one_coil_address(void) { one_number(jeulgopae_coil_address, reference_coil_address, 161, 256); }
static void one_coil_number(void) { one_number(jeulgopae_coil_number, reference_coil_number, 160, 255); }

static const char *const number_rows[] = {"0", "-1", "950000", "950001", "-950000", "-950001", "2^31-1", "-2^31", "any", NULL};
static const char *const value_columns[] = {"came", NULL};
static const char *const half_columns[] = {"word", "ref 14", NULL};

static uint32_t choose_bits(void) {
    uint32_t r = below(100);
    if (r < 60) return pair_bits(percent(60));
    if (r < 80) return ((uint32_t)ONE_OF(0, 1, 0x7FFF, 0x8000, 0xFFFF, 0x000E, 0x000F, 0xFFF0, 0xFFF1) << 16) | below(65536);
    return r < 90 ? exchanged(pair_bits(1)) : extreme();
}

static int number_row(uint32_t bits) {
    for (int k = 0; k < 8; k++)
        if (bits == (uint32_t)edge_rows[k]) return k;
    return 8;
}

/* The bits as the number that C has for them. */
static int32_t as_number(uint32_t bits) {
    int32_t value;
    memcpy(&value, &bits, sizeof value);
    return value;
}

static void one_pair_value(void) {
    uint32_t bits = choose_bits();
    uint16_t low = (uint16_t)bits, high = (uint16_t)(bits >> 16);
    if (settle(jeulgopae_pair_value(low, high), reference_pair_value(low, high), 1)) printf("    words %04X %04X\n", low, high);
    count(number_row(bits), 0);
}

static void one_half(int32_t (*library)(int32_t), int32_t (*reference)(int32_t)) {
    uint32_t bits = choose_bits();
    int32_t value = as_number(bits), got = library(value);
    if (settle(got, reference(value), 1)) printf("    number %d\n", value);
    count(number_row(bits), got >= 0 ? 0 : got == -14 ? 1 : -1);
}

static void one_pair_low(void) { one_half(jeulgopae_pair_low, reference_pair_low); }
static void one_pair_high(void) { one_half(jeulgopae_pair_high, reference_pair_high); }

static void one_bits_differing(void) {
    static uint8_t other[512];
    size_t other_count;
    int32_t got, expected;
    uint8_t *a, *b;
    frame_count = percent(60) ? below(40) : percent(70) ? below(258) : ONE_OF(0, 1, 255, 256, 257, 400);
    other_count = frame_count;
    if (percent(5)) other_count = percent(50) ? frame_count + 1 : below(300);
    memcpy(frame, pool + below(POOL), frame_count);
    memcpy(other, pool + below(POOL), other_count);
    if (percent(30)) {
        memcpy(other, frame, frame_count);
        if (percent(60) && other_count > 0) other[below((uint32_t)other_count)] ^= (uint8_t)(1u << below(8));
    } else if (percent(10)) {
        memset(frame, 0, frame_count);
        memset(other, 0xFF, other_count);
    }
    a = lend(&lent_frame, frame, frame_count);
    b = lend(&lent_room, other, other_count);
    got = jeulgopae_bits_differing(a, frame_count, b, other_count);
    expected = reference_bits_differing(frame, frame_count, other, other_count);
    if (settle(got, expected, holds(&lent_frame, frame) && holds(&lent_room, other))) {
        dump("a", frame, frame_count);
        dump("b", other, other_count);
    }
}

static void one_crc(void) {
    int32_t got, expected;
    uint8_t *given;
    frame_count = percent(80) ? below(40) : percent(90) ? below(260) : below(2000);
    memcpy(frame, pool + below(POOL), frame_count);
    given = lend(&lent_frame, frame, frame_count);
    got = jeulgopae_crc(given, frame_count);
    expected = reference_crc(frame, frame_count);
    if (settle(got, expected, holds(&lent_frame, frame))) dump("bytes", frame, frame_count);
}

/* ---- counts past 32 bits: a length that a narrower number would take for a small one ---- */

static int huge(void) {
    const size_t past = (size_t)1 << 32;
    size_t bytes = 2 * past + (1 << 20);
    int differences = 0, cases = 0;
    uint8_t *all = mmap(NULL, bytes, PROT_READ | PROT_WRITE, MAP_PRIVATE | MAP_ANONYMOUS | MAP_NORESERVE, -1, 0);
    uint8_t room[2048], attributes[200];
    uint16_t words[200];
    struct jeulgopae_counters counters = {0, 0, 0, 0, 0};
    if (all == MAP_FAILED) {
        perror("huge counts: mmap");
        return 1;
    }
    memset(attributes, 3, sizeof attributes);
    memset(words, 0, sizeof words);
    memset(room, 0, sizeof room);
#define HUGE(what, call, expected)                                                        \
    do {                                                                                  \
        int32_t got = (call);                                                             \
        cases++;                                                                          \
        if (got != (expected)) {                                                          \
            differences++;                                                                \
            printf("  huge counts: %s: library %d, expected %d\n", what, got, (expected)); \
        }                                                                                 \
    } while (0)
    const uint8_t *request = (const uint8_t *)"%01#RDD001050010757\r";
    const uint8_t rtu[] = {0x01, 0x03, 0x00, 0x85, 0x00, 0x01, 0x95, 0xE3};
    memcpy(all, request, 20);
    HUGE("MEWTOCOL words", jeulgopae_mewtocol_station((uint16_t *)all, past + 200, all, past + 200, 0, 1, request, 20, room, 2048), -1);
    HUGE("MEWTOCOL attributes", jeulgopae_mewtocol_station(words, 200, all, past + 200, 0, 1, request, 20, room, 2048), -1);
    HUGE("MEWTOCOL frame", jeulgopae_mewtocol_station(words, 200, attributes, 200, 0, 1, all, past + 20, room, 2048), -10);
    HUGE("MEWTOCOL reply", jeulgopae_mewtocol_read(1, 0, 6, 105, 107, 0, NULL, 0, NULL, 0, NULL, 0, all, past + 21), -10);
    memcpy(all, rtu, sizeof rtu);
    HUGE("RTU frame", jeulgopae_rtu_station(words, 200, attributes, 200, 0, 1, all, past + 8, room, 600, &counters), -10);
    HUGE("RTU room", jeulgopae_rtu_station(words, 200, attributes, 200, 0, 1, rtu, 8, all + 4096, past + 5, &counters), 7);
    memcpy(all, ":01030085000176\r\n", 17);
    HUGE("ASCII frame", jeulgopae_ascii_station(words, 200, attributes, 200, 0, 1, all, past + 17, room, 600, &counters), -10);
    HUGE("frames counted", counters.bus, 1);
    memcpy(all, "/020D0059.", 10);
    HUGE("laser frame", jeulgopae_laser_read(all, past + 10), -10);
    HUGE("laser data", jeulgopae_laser_write('0', 'D', all, past + 2, room, 600), -14);
    HUGE("contacts", jeulgopae_mewtocol_write(1, 0, 1, 0, 0, 0, (const uint32_t *)all, (past >> 1) + 1, NULL, 0, NULL, 0, room, 600), -14);
    HUGE("words of a write", jeulgopae_mewtocol_write(1, 1, 7, 0, 0, 0, NULL, 0, NULL, 0, (const uint16_t *)all, past + 1, room, 2048), -14);
    HUGE("attributes of two frames", jeulgopae_meeting(all, past + 200, 0, 0, 1, request, 20, 1, 1, rtu, 8), -1001);
    HUGE("one length past 32 bits", jeulgopae_bits_differing(all, past + 1, rtu, 1), -6);
    HUGE("both lengths past 32 bits", jeulgopae_bits_differing(all, past + 1, all, past + 1), -6);
#undef HUGE
    munmap(all, bytes);
    printf("counts past 32 bits: %d cases, %d differences\n", cases, differences);
    return differences != 0;
}

/* ---- the run ---- */

static const int station_refusals[] = {-2000, -1, -2, -3, -10, -11, -12, -15, 0};
static const int mewtocol_refusals[] = {-2000, -1, -2, -3, -10, -12, -15, 0};
static const int limit_refusals[] = {-2000, -3, -12, -15, 0};
static const int half_refusals[] = {-14, 0};
static const int writer_refusals[] = {-2, -3, -14, 0};
static const int reader_refusals[] = {-2, -10, -11, -12, -13, -14, 0};
static const int data_refusals[] = {-1000, 0};
static const int laser_refusals[] = {-10, -11, 0};
static const int distance_refusals[] = {-10, -11, -13, 0};
static const int laser_write_refusals[] = {-3, -14, 0};
static const int number_refusals[] = {-5, 0};
static const int bits_refusals[] = {-6, 0};
static const int meeting_refusals[] = {-1001, -2000, -2001, 0};
static const int no_refusals[] = {0};

/* Columns good, 40, 41, 42, 60, 61, 66: 61 only where there is data; 42 only where there is no name. */
#define WITHOUT_DATA 0x57
#define WITH_DATA 0x77
/* Columns good, 01, 02, 03: 06 and 16h have no quantity, but a length. A sub-function of 08 names no word; another sub-function is 01,
 * a frame too short for one 03. */
#define KNOWN 0xD
#define SUB 0x9
/* Columns of the reader: a write's reply has no data to be wrong in, that of RCS one character. */
#define ANY_DATA 0x7FF
#define ONE_CHARACTER (ANY_DATA & ~(1 << MORE_DIGITS))
#define NO_DATA (ANY_DATA & ~(1 << ONE_DIGIT) & ~(1 << MORE_DIGITS))

/* Columns of the limits: good, limit, lacks, all, not all. A frame for all that lacks an attribute is not carried out either. */
#define BOTH 0x1F
#define TAKEN 0x1D
#define UNTAKEN 0x16

static Entry entries[] = {
    {.name = "mewtocol_station", .one = one_mewtocol_station, .refusals = mewtocol_refusals, .rows = names, .columns = mewtocol_columns,
     .reachable = {WITHOUT_DATA, WITHOUT_DATA, WITHOUT_DATA, WITH_DATA, WITH_DATA, WITH_DATA, WITHOUT_DATA, WITH_DATA, WITH_DATA, 0xE}},
    {.name = "rtu_station", .one = one_rtu_station, .refusals = station_refusals, .rows = function_rows, .columns = modbus_columns,
     .reachable = {KNOWN, KNOWN, KNOWN, KNOWN, KNOWN, KNOWN, KNOWN, SUB, SUB, SUB, SUB, SUB, SUB, SUB, 0xA, 0x2}},
    {.name = "ascii_station", .one = one_ascii_station, .refusals = station_refusals, .rows = function_rows, .columns = modbus_columns,
     .reachable = {KNOWN, KNOWN, KNOWN, KNOWN, KNOWN, KNOWN, KNOWN, SUB, SUB, SUB, SUB, SUB, SUB, SUB, 0xA, 0x2}},
    {.name = "mewtocol_write", .one = one_mewtocol_write, .refusals = writer_refusals, .rows = host_rows, .columns = write_columns,
     .reachable = {3, 3, 3, 3, 3, 3, 3, 3, 3, 2, 2, 2, 2}},
    {.name = "mewtocol_read", .one = one_mewtocol_read, .refusals = reader_refusals, .rows = host_rows, .columns = read_columns,
     .reachable = {ONE_CHARACTER, ANY_DATA, ANY_DATA, NO_DATA, NO_DATA, NO_DATA, ANY_DATA, NO_DATA, NO_DATA, 1 << NO_REQUEST,
                   1 << NO_REQUEST, 1 << NO_REQUEST, 1 << NO_REQUEST},
     .places = 2038}, /* 4 and 5 of an error reply, 6 to 2,041 of 509 words */
    {.name = "data_word", .one = one_data_word, .refusals = data_refusals},
    {.name = "data_contact", .one = one_data_contact, .refusals = data_refusals},
    {.name = "laser_read", .one = one_laser_read, .refusals = laser_refusals},
    {.name = "laser_write", .one = one_laser_write, .refusals = laser_write_refusals},
    {.name = "laser_distance", .one = one_laser_distance, .refusals = distance_refusals, .rows = distance_rows,
     .columns = distance_columns, .reachable = {3, 3, 3, 3, 3, 1, 3, 1}, .places = 6},
    {.name = "register_address", .one = one_register_address, .refusals = number_refusals},
    {.name = "register_number", .one = one_register_number, .refusals = number_refusals},
    {.name = "coil_address", .one = one_coil_address, .refusals = number_refusals},
    {.name = "coil_number", .one = one_coil_number, .refusals = number_refusals},
    {.name = "pair_value", .one = one_pair_value, .refusals = no_refusals, .rows = number_rows, .columns = value_columns,
     .reachable = {1, 1, 1, 1, 1, 1, 1, 1, 1}},
    {.name = "pair_low", .one = one_pair_low, .refusals = half_refusals, .rows = number_rows, .columns = half_columns,
     .reachable = {1, 1, 1, 2, 1, 2, 2, 2, 3}},
    {.name = "pair_high", .one = one_pair_high, .refusals = half_refusals, .rows = number_rows, .columns = half_columns,
     .reachable = {1, 1, 1, 2, 1, 2, 2, 2, 3}},
    {.name = "bits_differing", .one = one_bits_differing, .refusals = bits_refusals},
    {.name = "crc", .one = one_crc, .refusals = no_refusals},
    {.name = "line", .one = one_line, .refusals = station_refusals, .rows = counter_rows, .columns = line_columns,
     .reachable = {31, 31, 31, 31, 31}},
    {.name = "meeting", .one = one_meeting, .refusals = meeting_refusals, .rows = meeting_rows, .columns = meeting_columns,
     .reachable = {1, 1, 1, 1, 1, 1, 7, 3, 1, 7, 7, 3, 1, 3, 3, 3}},
    {.name = "limits", .one = one_limits, .refusals = limit_refusals, .rows = limit_rows, .columns = limit_columns,
     .reachable = {BOTH,    BOTH,    UNTAKEN, UNTAKEN, UNTAKEN, BOTH,  BOTH,    BOTH,    BOTH,  BOTH,    BOTH, TAKEN, TAKEN, TAKEN, TAKEN,
                   UNTAKEN, TAKEN,   UNTAKEN, UNTAKEN, UNTAKEN, UNTAKEN, TAKEN, UNTAKEN, UNTAKEN, TAKEN, UNTAKEN, BOTH, BOTH, BOTH, BOTH}},
};
enum { ENTRIES = sizeof entries / sizeof *entries };

/* Where a read or write left its array. */
static void stopped(int signal_number) {
    char line[160];
    int n = snprintf(line, sizeof line, "  %s case %llu: stopped by signal %d\n", entry ? entry->name : "?",
                     (unsigned long long)case_number, signal_number);
    fflush(stdout);
    if (write(1, line, (size_t)n) < 0) _exit(3);
    _exit(3);
}

static void one_case(int e, uint64_t k) {
    entry = &entries[e];
    case_number = k;
    state = mix(mix(seed + 1) ^ mix(((uint64_t)e << 40) + k + 1));
    entry->one();
}

/* Prints what came up; gives how many of the counts that should be above 0 are 0. */
static int report(const Entry *e) {
    int missing = e->answers == 0;
    printf("%-17s %llu cases, %llu differences; answers %llu", e->name, (unsigned long long)e->cases, (unsigned long long)e->differences,
           (unsigned long long)e->answers);
    for (const int *r = e->refusals; *r; r++) {
        printf(", %d: %llu", *r, (unsigned long long)e->refused[-*r]);
        if (e->refused[-*r] == 0) missing++;
    }
    if (e->places) {
        uint64_t below_length = 0;
        unsigned places = 0;
        for (int k = 0; k <= LONGEST; k++) {
            below_length += e->at_place[k];
            places += e->at_place[k] != 0;
        }
        printf(", 13 below the length: %llu at %u places, 13 at the length: %llu", (unsigned long long)below_length, places,
               (unsigned long long)e->at_length);
        missing += (places < e->places ? (int)(e->places - places) : 0) + (e->at_length == 0);
    }
    printf("\n");
    if (e->rows) {
        printf("    %-8s", "");
        for (int c = 0; e->columns[c]; c++) printf("%9s", e->columns[c]);
        printf("\n");
        for (int r = 0; e->rows[r]; r++) {
            printf("    %-8s", e->rows[r]);
            for (int c = 0; e->columns[c]; c++) {
                int wanted = (e->reachable[r] >> c) & 1;
                if (!wanted && e->outcome[r][c] == 0)
                    printf("%9s", "-");
                else
                    printf("%9llu", (unsigned long long)e->outcome[r][c]);
                if (wanted && e->outcome[r][c] == 0) missing++;
            }
            printf("\n");
        }
    }
    if (missing) printf("    MISSING: %d counts are 0 that should not be\n", missing);
    fflush(stdout);
    return missing;
}

int main(int argc, char **argv) {
    uint64_t cases, differences = 0, total = 0;
    int missing = 0, failed;
    if (argc != 3 && argc != 5) {
        fprintf(stderr, "usage: cases SEED COUNT [ENTRY CASE]\n");
        return 2;
    }
    seed = strtoull(argv[1], NULL, 0);
    cases = strtoull(argv[2], NULL, 0);
    state = mix(seed);
    fill_pools();
    open_lent(&lent_words, 2 * MOST);
    open_lent(&lent_attributes, MOST);
    open_lent(&lent_frame, sizeof frame);
    open_lent(&lent_room, sizeof room_before);
    open_lent(&lent_counters, sizeof counters_before);
    open_lent(&lent_contacts, sizeof asked.contacts);
    open_lent(&lent_values, sizeof asked.values);
    open_lent(&lent_list, sizeof asked.words);
    signal(SIGSEGV, stopped);
    signal(SIGBUS, stopped);
    signal(SIGILL, stopped);
    signal(SIGFPE, stopped);

    if (argc == 5) {
        for (int e = 0; e < ENTRIES; e++)
            if (strcmp(entries[e].name, argv[3]) == 0) {
                show = 1;
                one_case(e, strtoull(argv[4], NULL, 0));
                return entries[e].differences != 0;
            }
        fprintf(stderr, "no entry %s\n", argv[3]);
        return 2;
    }
    printf("seed %llu\n", (unsigned long long)seed);
    for (int e = 0; e < ENTRIES; e++) {
        for (uint64_t k = 0; entries[e].cases < cases; k++) one_case(e, k);
        missing += report(&entries[e]);
        differences += entries[e].differences;
        total += entries[e].cases;
    }
    entry = NULL;
    failed = huge();
    printf("%d entries, %llu cases, %llu differences, %d counts missing\n", ENTRIES, (unsigned long long)total,
           (unsigned long long)differences, missing);
    return differences != 0 || missing != 0 || failed;
}
