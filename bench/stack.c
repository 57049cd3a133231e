/* How much stack each entry touches. Each call runs on a stack of its own that was painted before; the lowest byte that changed tells.
 * Counted from the frame of the function that makes the call, so the call's own arguments are included. A call is made once before on
 * the program's stack, so that no part of it is the linker's. */
#define _GNU_SOURCE
#include "jeulgopae.h"

#include <stdio.h>
#include <stdlib.h>
#include <string.h>
#include <sys/mman.h>
#include <ucontext.h>

enum { STACK = 256 * 1024, PAINT = 0x5C, LIMIT = 4096 };

static uint16_t words[JEULGOPAE_TABLE_LIMIT];
static uint8_t attributes[JEULGOPAE_TABLE_LIMIT], frame[JEULGOPAE_EXPANDED_ROOM], room[JEULGOPAE_STATION_ROOM];
static struct jeulgopae_counters counters;
static size_t frame_count;
static uint32_t contacts[8];
static uint8_t values[8];
static uint32_t form, command, first, second;
static size_t contacts_count, words_count;

static void mewtocol_station(void) {
    jeulgopae_mewtocol_station(words, JEULGOPAE_TABLE_LIMIT, attributes, JEULGOPAE_TABLE_LIMIT, JEULGOPAE_NO_PROFILE, 1,
                               frame, frame_count, room, sizeof room);
}
static void rtu_station(void) {
    jeulgopae_rtu_station(words, JEULGOPAE_TABLE_LIMIT, attributes, JEULGOPAE_TABLE_LIMIT, JEULGOPAE_NO_PROFILE, 1,
                          frame, frame_count, room, sizeof room, &counters);
}
static void ascii_station(void) {
    jeulgopae_ascii_station(words, JEULGOPAE_TABLE_LIMIT, attributes, JEULGOPAE_TABLE_LIMIT, JEULGOPAE_NO_PROFILE, 1,
                            frame, frame_count, room, sizeof room, &counters);
}
static void mewtocol_write(void) {
    jeulgopae_mewtocol_write(1, form, command, first, second, 1, contacts, contacts_count, values, contacts_count, words, words_count, room,
                             sizeof room);
}
static void mewtocol_read(void) {
    jeulgopae_mewtocol_read(1, form, command, first, second, 1, contacts, contacts_count, values, contacts_count, words, words_count, frame,
                            frame_count);
}
static void data_word(void) { jeulgopae_data_word((const uint8_t *)"3412FFFF0000", 12, 1); }
static void data_contact(void) { jeulgopae_data_contact((const uint8_t *)"101", 3, 1); }
static void laser_read(void) { jeulgopae_laser_read(frame, frame_count); }
static void laser_write(void) { jeulgopae_laser_write('0', 'D', (const uint8_t *)words, 99, room, sizeof room); }
static void laser_distance(void) { jeulgopae_laser_distance((const uint8_t *)"/060D12345\0" "6C.", 14); }
static void register_address(void) { jeulgopae_register_address(400134); }
static void register_number(void) { jeulgopae_register_number(133); }
static void coil_address(void) { jeulgopae_coil_address(209); }
static void coil_number(void) { jeulgopae_coil_number(208); }
static void bits_differing(void) { jeulgopae_bits_differing((const uint8_t *)words, 256, attributes, 256); }
static void crc(void) { jeulgopae_crc(attributes, 4096); }
static void pair_value(void) { jeulgopae_pair_value(0x8110, 0xFFF1); }
static void pair_low(void) { jeulgopae_pair_low(-950000); }
static void pair_high(void) { jeulgopae_pair_high(-950000); }

static uint8_t other[JEULGOPAE_EXPANDED_ROOM];
static size_t other_count;
static uint32_t format, other_format;
static void meeting(void) {
    jeulgopae_meeting(attributes, JEULGOPAE_TABLE_LIMIT, JEULGOPAE_HL_G2_50, format, 1, frame, frame_count, other_format, 1, other,
                      other_count);
}

static ucontext_t here, there;
static uint8_t *stack, *top;
static void (*call)(void);

static void on_painted(void) {
    top = __builtin_frame_address(0);
    call();
    __asm__ volatile(""); /* so that the call is no jump */
}

/* Bytes touched by a call. */
static size_t touched(void (*f)(void)) {
    size_t lowest = 0;
    f();
    call = f;
    memset(stack, PAINT, STACK);
    getcontext(&there);
    there.uc_stack.ss_sp = stack;
    there.uc_stack.ss_size = STACK;
    there.uc_link = &here;
    makecontext(&there, on_painted, 0);
    swapcontext(&here, &there);
    while (stack[lowest] == PAINT) lowest++;
    return (size_t)(top - (stack + lowest));
}

static int failures;

static void tell(const char *name, size_t most, int calls) {
    printf("%-18s %5zu bytes, most of %d %s%s\n", name, most, calls, calls == 1 ? "call" : "calls", most < LIMIT ? "" : "  TOO MUCH");
    failures += most >= LIMIT;
}

static void one(const char *name, void (*f)(void)) { tell(name, touched(f), 1); }

static void close_mewtocol(void) {
    static const char hex[] = "0123456789ABCDEF";
    uint8_t x = 0;
    for (size_t k = 0; k < frame_count; k++) x ^= frame[k];
    frame[frame_count++] = (uint8_t)hex[x >> 4];
    frame[frame_count++] = (uint8_t)hex[x & 15];
    frame[frame_count++] = '\r';
}

/* A text, so many words, and the check. */
static void mewtocol_frame(const char *text, int words_in_it) {
    frame_count = (size_t)sprintf((char *)frame, "%s", text);
    for (int w = 0; w < words_in_it; w++) frame_count += (size_t)sprintf((char *)frame + frame_count, "34A2");
    close_mewtocol();
}

/* Each of the nine commands as large as it may be, and requests that are answered by an error or not at all. */
static void mewtocol_stations(void) {
    static const char *const texts[] = {"%01#RCSR1030", "%01#RCP8R1000R1011R1022R1033R1044R1055R1006R1007", "%01#RCCR01000105",
                                        "%01#WCSR10301", "%01#WCP8R10001R10111R10220R10331R10441R10551R10061R10071",
                                        "%01#RDD0010000126", "%01#SDD00000040951234", "%01#RCX", "%01$RD", "%01#RDD0010000127",
                                        "%01#RDD9999099999", "<01#RDD0010000608", "<01#RDD0010000609", "<01#RCP2R1000R1001", "%02#RCSR1030", "%01#WCSR10302", ""};
    size_t most = 0;
    int calls = 0;
    for (size_t k = 0; k < sizeof texts / sizeof *texts + 3; k++) {
        static const struct { const char *text; int words; } writes[] = {
            {"%01#WCCR01000105", 6}, {"%01#WDD0010000123", 24}, {"<01#WDD0010000606", 507}};
        size_t n, which = k - sizeof texts / sizeof *texts;
        if (k < sizeof texts / sizeof *texts) mewtocol_frame(texts[k], 0);
        else mewtocol_frame(writes[which].text, writes[which].words);
        n = touched(mewtocol_station);
        if (n > most) most = n;
        calls++;
    }
    tell("mewtocol_station", most, calls);
}

typedef struct {
    int length;
    uint8_t bytes[8];
} Head;

/* A body's first bytes, the data that a head of six asks for, and the check. */
static void modbus_frame(const Head *head, int ascii) {
    uint8_t bytes[260], sum = 0;
    size_t n = 1;
    int data = head->length == 6 ? head->bytes[5] : 0;
    bytes[0] = 1;
    memcpy(bytes + n, head->bytes, (size_t)head->length);
    n += (size_t)head->length;
    for (int d = 0; d < data; d++) bytes[n++] = (uint8_t)(5 * d);
    if (ascii) {
        for (size_t b = 0; b < n; b++) sum = (uint8_t)(sum + bytes[b]);
        bytes[n++] = (uint8_t)(0 - sum);
        frame_count = (size_t)sprintf((char *)frame, ":");
        for (size_t b = 0; b < n; b++) frame_count += (size_t)sprintf((char *)frame + frame_count, "%02X", bytes[b]);
        frame_count += (size_t)sprintf((char *)frame + frame_count, "\r\n");
    } else {
        int32_t check = jeulgopae_crc(bytes, n);
        bytes[n++] = (uint8_t)check;
        bytes[n++] = (uint8_t)(check >> 8);
        memcpy(frame, bytes, n);
        frame_count = n;
    }
}

static void modbus_stations(int ascii) {
    static const Head heads[] = {
        {5, {0x01, 0, 160, 0, 96}}, {5, {0x03, 0, 100, 0, 125}}, {5, {0x05, 0, 208, 0xFF, 0}}, {5, {0x06, 0, 104, 1, 2}},
        {6, {0x0F, 0, 160, 0, 96, 12}}, {6, {0x10, 0, 100, 0, 123, 246}}, {7, {0x16, 0, 104, 0, 1, 2, 3}}, {5, {0x08, 0, 12, 0, 0}},
        {5, {0x08, 0, 10, 0, 0}}, {5, {0x04, 0, 100, 0, 1}}, {5, {0x03, 0, 100, 0, 126}}, {5, {0x03, 0xFF, 100, 0, 125}}};
    size_t most = 0;
    int calls = 0;
    for (size_t k = 0; k < sizeof heads / sizeof *heads; k++) {
        size_t used;
        modbus_frame(&heads[k], ascii);
        used = touched(ascii ? ascii_station : rtu_station);
        if (used > most) most = used;
        calls++;
    }
    tell(ascii ? "ascii_station" : "rtu_station", most, calls);
}

/* Each of these frames beside each: lists of contacts, large writes, a mask, at one word and at others, and one that is for nobody. */
static void meeting_frame(int k) {
    static const Head heads[] = {{6, {0x10, 2, 88, 0, 123, 246}}, {6, {0x0F, 0, 160, 0, 96, 12}}, {7, {0x16, 0, 57, 0, 0, 0, 3}}};
    format = k < 4 ? JEULGOPAE_MEWTOCOL : k < 7 ? JEULGOPAE_RTU : JEULGOPAE_ASCII;
    if (k == 0) mewtocol_frame("%01#WCP8R10001R10111R10220R10331R10441R10551R10061R10071", 0);
    if (k == 1) mewtocol_frame("<01#WDD0010400610", 507);
    if (k == 2) mewtocol_frame("%01#SDD00104655351234", 0);
    if (k == 3) mewtocol_frame("%02#RCSR1030", 0);
    if (k > 3) modbus_frame(&heads[(k - 4) % 3], format == JEULGOPAE_ASCII);
}

static void meetings(void) {
    size_t most = 0;
    for (int j = 0; j < 10; j++) {
        meeting_frame(j);
        memcpy(other, frame, frame_count);
        other_count = frame_count;
        other_format = format;
        for (int k = 0; k < 10; k++) {
            size_t used;
            meeting_frame(k);
            used = touched(meeting);
            if (used > most) most = used;
        }
    }
    tell("meeting", most, 100);
}

static void hosts(void) {
    size_t most_write = 0, most_read = 0;
    for (command = 0; command < 10; command++) {
        size_t n;
        int relays = command == JEULGOPAE_READ_RELAYS || command == JEULGOPAE_WRITE_RELAYS;
        int reads = command == JEULGOPAE_READ_RELAYS || command == JEULGOPAE_READ_WORDS;
        first = command == JEULGOPAE_WRITE_CONTACT ? 16 * 103 : relays ? 100 : 1000;
        second = first + (reads ? 26 : 23);
        contacts_count = 8;
        words_count = 24;
        for (int k = 0; k < 8; k++) contacts[k] = 16u * 100 + 11u * (uint32_t)k, values[k] = 1;
        n = touched(mewtocol_write);
        if (n > most_write) most_write = n;

        frame_count = (size_t)sprintf((char *)frame, "%%01$%s", command < 3 ? "RC" : command < 6 ? "WC" : command == 6 ? "RD" : command == 7 ? "WD" : "SD");
        for (int k = command == JEULGOPAE_READ_CONTACTS ? 8 : reads ? 108 : 0; k > 0; k--) frame[frame_count++] = '1';
        close_mewtocol();
        n = touched(mewtocol_read);
        if (n > most_read) most_read = n;
        frame_count = (size_t)sprintf((char *)frame, "%%01!66");
        close_mewtocol();
        n = touched(mewtocol_read);
        if (n > most_read) most_read = n;
    }
    tell("mewtocol_write", most_write, 10);
    tell("mewtocol_read", most_read, 20);
}

int main(void) {
    stack = mmap(NULL, STACK, PROT_READ | PROT_WRITE, MAP_PRIVATE | MAP_ANONYMOUS, -1, 0);
    if (stack == MAP_FAILED) return 2;
    memset(attributes, JEULGOPAE_READ_WRITE, sizeof attributes);
    mewtocol_stations();
    modbus_stations(0);
    modbus_stations(1);
    meetings();
    hosts();
    one("data_word", data_word);
    one("data_contact", data_contact);
    frame_count = (size_t)jeulgopae_laser_write('0', 'D', (const uint8_t *)words, 99, frame, sizeof frame);
    one("laser_read", laser_read);
    one("laser_write", laser_write);
    one("laser_distance", laser_distance);
    one("register_address", register_address);
    one("register_number", register_number);
    one("coil_address", coil_address);
    one("coil_number", coil_number);
    one("pair_value", pair_value);
    one("pair_low", pair_low);
    one("pair_high", pair_high);
    one("bits_differing", bits_differing);
    one("crc", crc);
    return failures != 0;
}
