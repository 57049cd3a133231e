/* Every example of include/jeulgopae.h, run: a line each with its name, what came and what the header says. And the place of refusal 13,
 * for each kind of reply and for the distance. */
#include "jeulgopae.h"

#include <stdio.h>
#include <string.h>

static int tests, failures;

static void expect(const char *name, long got, long expected) {
    int good = got == expected;
    tests++;
    failures += !good;
    printf("%-4s %-44s got %ld, expected %ld\n", good ? "ok" : "BAD", name, got, expected);
}

static void print_bytes(const uint8_t *bytes, size_t count) {
    for (size_t k = 0; k < count; k++) {
        if (bytes[k] >= 0x20 && bytes[k] <= 0x7E)
            printf("%c", bytes[k]);
        else
            printf("<%02X>", bytes[k]);
    }
}

static void expect_bytes(const char *name, const uint8_t *got, const void *expected, size_t count) {
    int good = memcmp(got, expected, count) == 0;
    tests++;
    failures += !good;
    printf("%-4s %-44s got ", good ? "ok" : "BAD", name);
    print_bytes(got, count);
    printf(", expected ");
    print_bytes(expected, count);
    printf("\n");
}

static void stations(void) {
    uint16_t words[200] = {[105] = 0x1234, [106] = 0xFFFF, [133] = 1};
    uint8_t attributes[200], room[JEULGOPAE_STATION_ROOM];
    struct jeulgopae_counters counters = {0};
    const uint8_t rtu[] = {0x01, 0x03, 0x00, 0x85, 0x00, 0x01, 0x95, 0xE3};
    const uint8_t rtu_reply[] = {0x01, 0x03, 0x02, 0x00, 0x01, 0x79, 0x84};
    const uint8_t ask_bus[] = {0x01, 0x08, 0x00, 0x0B, 0x00, 0x00, 0x91, 0xC9};
    const uint8_t bus_reply[] = {0x01, 0x08, 0x00, 0x0B, 0x00, 0x02, 0x10, 0x08};
    int32_t n;
    memset(attributes, JEULGOPAE_READ_WRITE, sizeof attributes);
    memset(room, 0xEE, sizeof room);

    n = jeulgopae_mewtocol_station(words, 200, attributes, 200, JEULGOPAE_NO_PROFILE, 1,
                                   (const uint8_t *)"%01#RDD001050010757\r", 20, room, sizeof room);
    expect("mewtocol_station: length", n, 21);
    expect_bytes("mewtocol_station: room", room, "%01$RD3412FFFF000012\r", 21);
    expect("mewtocol_station: later bytes of the room", room[21], 0xEE);

    n = jeulgopae_rtu_station(words, 200, attributes, 200, JEULGOPAE_NO_PROFILE, 1, rtu, sizeof rtu, room, sizeof room, &counters);
    expect("rtu_station: length", n, 7);
    expect_bytes("rtu_station: room", room, rtu_reply, sizeof rtu_reply);
    expect("rtu_station: counters.bus", counters.bus, 1);
    expect("rtu_station: counters.own", counters.own, 1);
    n = jeulgopae_rtu_station(words, 200, attributes, 200, JEULGOPAE_NO_PROFILE, 1, ask_bus, sizeof ask_bus, room, sizeof room, &counters);
    expect("rtu_station: 0B, length", n, 8);
    expect_bytes("rtu_station: 0B, room", room, bus_reply, sizeof bus_reply);

    counters = (struct jeulgopae_counters){0};
    n = jeulgopae_ascii_station(words, 200, attributes, 200, JEULGOPAE_NO_PROFILE, 1,
                                (const uint8_t *)":01030085000176\r\n", 17, room, sizeof room, &counters);
    expect("ascii_station: length", n, 15);
    expect_bytes("ascii_station: room", room, ":0103020001F9\r\n", 15);
    expect("ascii_station: counters.bus", counters.bus, 1);

    /* What the header says of refusals. */
    n = jeulgopae_mewtocol_station(words, 200, attributes, 199, JEULGOPAE_NO_PROFILE, 0, NULL, 0, NULL, 0);
    expect("station: table before station", n, JEULGOPAE_BAD_TABLE);
    n = jeulgopae_mewtocol_station(NULL, 0, NULL, 0, JEULGOPAE_NO_PROFILE, 0, NULL, 0, NULL, 0);
    expect("station: station before room", n, JEULGOPAE_BAD_STATION);
    n = jeulgopae_rtu_station(NULL, 0, NULL, 0, JEULGOPAE_NO_PROFILE, 1, NULL, 0, NULL, 0, &counters);
    expect("station: room before frame", n, JEULGOPAE_SMALL_ROOM);
    n = jeulgopae_ascii_station(NULL, 0, NULL, 0, JEULGOPAE_NO_PROFILE, 1, NULL, 0, room, sizeof room, &counters);
    expect("station: no table, no frame", n, JEULGOPAE_BAD_SHAPE);
    n = jeulgopae_mewtocol_station(words, 200, attributes, 200, JEULGOPAE_NO_PROFILE, 1,
                                   (const uint8_t *)"%01#RDD001050010758\r", 20, room, sizeof room);
    expect("mewtocol_station: wrong check is answered", n, 9);
    expect_bytes("mewtocol_station: error reply 40", room, "%01!4001\r", 9);
    n = jeulgopae_ascii_station(words, 200, attributes, 200, JEULGOPAE_NO_PROFILE, 1,
                                (const uint8_t *)":01030085000177\r\n", 17, room, sizeof room, &counters);
    expect("ascii_station: wrong check is silence", n, JEULGOPAE_BAD_CHECK);
    n = jeulgopae_ascii_station(words, 200, attributes, 200, JEULGOPAE_NO_PROFILE, 2,
                                (const uint8_t *)":01030085000176\r\n", 17, room, sizeof room, &counters);
    expect("ascii_station: another station is silence", n, JEULGOPAE_OTHER_STATION);

    /* What it says of frames for all. */
    memset(room, 0, sizeof room);
    words[5] = 0;
    n = jeulgopae_rtu_station(words, 200, attributes, 200, JEULGOPAE_NO_PROFILE, 1,
                              (const uint8_t *)"\x00\x06\x00\x05\x12\x34\x95\x6D", 8, room, sizeof room, &counters);
    expect("rtu_station: a write for all is carried out", n, JEULGOPAE_CARRIED_OUT);
    expect("rtu_station: the word is set", words[5], 0x1234);
    words[5] = 0;
    n = jeulgopae_mewtocol_station(words, 200, attributes, 200, JEULGOPAE_NO_PROFILE, 1,
                                   (const uint8_t *)"%FF#WDD0000500005341255\r", 24, room, sizeof room);
    expect("mewtocol_station: a write for all is carried out", n, JEULGOPAE_CARRIED_OUT);
    expect("mewtocol_station: the word is set", words[5], 0x1234);
    n = jeulgopae_mewtocol_station(words, 200, attributes, 200, JEULGOPAE_NO_PROFILE, 1,
                                   (const uint8_t *)"%FF#WDD0000500005341256\r", 24, room, sizeof room);
    expect("mewtocol_station: a wrong check for all is silence", n, JEULGOPAE_OTHER_STATION);
    expect("station: the room stays", room[0], 0);
}

/* ---- what the header says of the counters */

static struct jeulgopae_counters line;
static uint8_t line_room[JEULGOPAE_STATION_ROOM];

/* One RTU frame, given without its check, at station 1 with no table; `damage` is laid over the check's last byte. */
static int32_t hear_damaged(const void *body, size_t count, uint8_t damage) {
    uint8_t frame[64];
    int32_t crc = jeulgopae_crc(body, count);
    memcpy(frame, body, count);
    frame[count] = (uint8_t)crc;
    frame[count + 1] = (uint8_t)((uint8_t)(crc >> 8) ^ damage);
    return jeulgopae_rtu_station(NULL, 0, NULL, 0, JEULGOPAE_NO_PROFILE, 1, frame, count + 2, line_room, sizeof line_room, &line);
}

static int32_t hear(const void *body, size_t count) { return hear_damaged(body, count, 0); }

static void expect_counts(const char *name, long bus, long damaged, long exceptions, long own, long unanswered) {
    int good = line.bus == bus && line.damaged == damaged && line.exceptions == exceptions && line.own == own &&
               line.unanswered == unanswered;
    tests++;
    failures += !good;
    printf("%-4s %-44s got %d %d %d %d %d, expected %ld %ld %ld %ld %ld\n", good ? "ok" : "BAD", name, line.bus, line.damaged,
           line.exceptions, line.own, line.unanswered, bus, damaged, exceptions, own, unanswered);
}

/* Function 08 at station 1: the count that comes back, or the negative of an exception, or a refusal. */
static long diagnose(uint8_t high, uint8_t low, uint8_t data) {
    const uint8_t body[] = {0x01, 0x08, high, low, 0x00, data};
    int32_t n = hear(body, sizeof body);
    if (n == 5) return -line_room[2];
    return n == 8 ? line_room[4] * 256L + line_room[5] : n;
}

static void counters(void) {
    struct jeulgopae_counters before;
    const uint8_t all[] = {0x00, 0x08, 0x00, 0x0A, 0x00, 0x00};
    uint16_t word = 0;
    int32_t n;

    memset(&line, 0, sizeof line);
    hear("\x02\x03\x00\x00\x00\x01", 6);
    expect_counts("counters: another station's frame", 1, 0, 0, 0, 0);
    n = hear_damaged("\x01\x03\x00\x00\x00\x01", 6, 0x10);
    expect("counters: a wrong check", n, JEULGOPAE_BAD_CHECK);
    expect_counts("counters: a wrong check", 1, 1, 0, 0, 0);
    n = jeulgopae_ascii_station(NULL, 0, NULL, 0, JEULGOPAE_NO_PROFILE, 1,
                                (const uint8_t *)":01030085000177\r\n", 17, line_room, sizeof line_room, &line);
    expect("counters: a wrong LRC", n, JEULGOPAE_BAD_CHECK);
    expect_counts("counters: a wrong LRC", 1, 2, 0, 0, 0);
    n = hear("\x01\x03\x00\x00\x00\x01", 6);
    expect_bytes("counters: an exception", line_room, "\x01\x83\x02", n == 5 ? 3 : 1);
    expect_counts("counters: an exception", 2, 2, 1, 1, 0);
    n = hear("\x00\x06\x00\x00\x00\x01", 6);
    expect("counters: for all, and not carried out", n, JEULGOPAE_OTHER_STATION);
    expect_counts("counters: for all, and not carried out", 3, 2, 1, 2, 1);
    n = hear(all, sizeof all);
    expect("counters: a clear for all", n, JEULGOPAE_OTHER_STATION);
    expect_counts("counters: a clear for all", 4, 2, 1, 3, 2);

    /* A frame counts before it is answered. */
    expect("counters: 0B", diagnose(0, 0x0B, 0), 5);
    expect("counters: 0C", diagnose(0, 0x0C, 0), 2);
    expect("counters: 0D", diagnose(0, 0x0D, 0), 1);
    expect("counters: 0E", diagnose(0, 0x0E, 0), 7);
    expect("counters: 0F", diagnose(0, 0x0F, 0), 2);
    expect("counters: 00 gives its data back", diagnose(0, 0x00, 0x5A), 0x5A);
    expect("counters: 0A with data is exception 03", diagnose(0, 0x0A, 1), -3);
    expect("counters: 01 isn't there, exception 01", diagnose(0, 0x01, 0), -1);
    expect("counters: 010A isn't there, exception 01", diagnose(1, 0x0A, 0), -1);
    expect_counts("counters: after these", 13, 2, 4, 12, 2);
    n = jeulgopae_ascii_station(NULL, 0, NULL, 0, JEULGOPAE_NO_PROFILE, 1,
                                (const uint8_t *)":0108000C0000EB\r\n", 17, line_room, sizeof line_room, &line);
    expect_bytes("counters: ASCII and RTU share the record", line_room, ":0108000C0002E9\r\n", n == 17 ? 17 : 1);

    /* These count nothing. */
    before = line;
    jeulgopae_rtu_station(&word, 1, NULL, 0, JEULGOPAE_NO_PROFILE, 1, all, sizeof all, line_room, sizeof line_room, &line);
    jeulgopae_rtu_station(NULL, 0, NULL, 0, JEULGOPAE_NO_PROFILE, 0, all, sizeof all, line_room, sizeof line_room, &line);
    jeulgopae_rtu_station(NULL, 0, NULL, 0, JEULGOPAE_NO_PROFILE, 1, all, sizeof all, line_room, JEULGOPAE_MODBUS_ROOM - 1, &line);
    jeulgopae_rtu_station(NULL, 0, NULL, 0, JEULGOPAE_NO_PROFILE, 1, all, 3, line_room, sizeof line_room, &line);
    expect("counters: -1, -2, -3 and -10 count nothing", memcmp(&line, &before, sizeof line), 0);

    expect("counters: 0A", diagnose(0, 0x0A, 0), 0);
    expect_counts("counters: 0A leaves all at 0", 0, 0, 0, 0, 0);
    expect("counters: 0B after it", diagnose(0, 0x0B, 0), 1);

    /* Each count goes up one by one and stops at FFFFh. */
    memset(&line, 0, sizeof line);
    for (long k = 1; k <= 0x10003; k++) {
        long cut = k < 0xFFFF ? k : 0xFFFF, twice = 2 * k < 0xFFFF ? 2 * k : 0xFFFF;
        hear("\x00\x03\x00\x00\x00\x01", 6);
        hear("\x01\x03\x00\x00\x00\x01", 6);
        hear_damaged("\x01\x03\x00\x00\x00\x01", 6, 0x10);
        if (line.bus != twice || line.own != twice || line.damaged != cut || line.exceptions != cut || line.unanswered != cut) break;
    }
    expect_counts("counters: each stops at FFFF", 0xFFFF, 0xFFFF, 0xFFFF, 0xFFFF, 0xFFFF);
    expect("counters: 0B shows FFFF", diagnose(0, 0x0B, 0), 0xFFFF);
    expect("counters: 0F shows FFFF", diagnose(0, 0x0F, 0), 0xFFFF);
    expect("counters: 0A from there", diagnose(0, 0x0A, 0), 0);
    expect_counts("counters: 0A from there", 0, 0, 0, 0, 0);
}

static void host(void) {
    uint8_t room[JEULGOPAE_REQUEST_ROOM];
    const uint8_t *reply = (const uint8_t *)"%01$RD3412FFFF000012\r";
    const uint8_t *refusal = (const uint8_t *)"%01!6605\r";
    const uint8_t *wrong = (const uint8_t *)"%01$RD3G12FFFF000061\r";
    const uint8_t *other = (const uint8_t *)"%01$RC120\r";
    const uint32_t contact[] = {16 * 103}, contacts[9] = {16 * 103, 16 * 101};
    const uint8_t value[] = {1};
    int32_t n = jeulgopae_mewtocol_write(1, JEULGOPAE_ORDINARY, JEULGOPAE_READ_WORDS, 105, 107, 0, NULL, 0, NULL, 0, NULL, 0, room, sizeof room);
    expect("mewtocol_write: length", n, 20);
    expect_bytes("mewtocol_write: room", room, "%01#RDD001050010757\r", 20);

    n = jeulgopae_mewtocol_write(1, JEULGOPAE_ORDINARY, JEULGOPAE_WRITE_CONTACT, 16 * 103, 0, 1, NULL, 0, NULL, 0, NULL, 0, room, sizeof room);
    expect_bytes("mewtocol_write: R1030 is 16 * 103", room, "%01#WCSR1030121\r", n == 16 ? 16 : 1);
    n = jeulgopae_mewtocol_write(1, JEULGOPAE_ORDINARY, JEULGOPAE_WRITE_CONTACTS, 0, 0, 0, contact, 1, value, 1, NULL, 0, room, sizeof room);
    expect("mewtocol_write: a list of contacts", n, 17);
    n = jeulgopae_mewtocol_write(1, JEULGOPAE_ORDINARY, 9, 0, 0, 0, NULL, 0, NULL, 0, NULL, 0, room, sizeof room);
    expect("mewtocol_write: no such command", n, JEULGOPAE_NO_REQUEST);
    n = jeulgopae_mewtocol_write(1, JEULGOPAE_ORDINARY, JEULGOPAE_READ_CONTACTS, 0, 0, 0, contacts, 1, NULL, 0, NULL, 0, room, sizeof room);
    expect("mewtocol_write: a list of one", n, 15);
    expect_bytes("mewtocol_write: a list of one is RCS", room, "%01#RCSR103015\r", 15);
    n = jeulgopae_mewtocol_write(1, JEULGOPAE_ORDINARY, JEULGOPAE_READ_CONTACTS, 0, 0, 0, contacts, 2, NULL, 0, NULL, 0, room, sizeof room);
    expect("mewtocol_write: a list of two", n, 21);
    expect_bytes("mewtocol_write: a list of two is RCP", room, "%01#RCP2R1030R101076\r", 21);
    n = jeulgopae_mewtocol_write(1, JEULGOPAE_ORDINARY, JEULGOPAE_READ_CONTACTS, 16 * 103, 0, 0, NULL, 0, NULL, 0, NULL, 0, room, sizeof room);
    expect("mewtocol_write: no contacts", n, JEULGOPAE_NO_REQUEST);
    n = jeulgopae_mewtocol_write(1, JEULGOPAE_ORDINARY, JEULGOPAE_READ_CONTACTS, 0, 0, 0, contacts, 9, NULL, 0, NULL, 0, room, sizeof room);
    expect("mewtocol_write: nine contacts", n, JEULGOPAE_NO_REQUEST);
    n = jeulgopae_mewtocol_write(1, JEULGOPAE_ORDINARY, 0, 16 * 103, 0, 0, contacts, 1, NULL, 0, NULL, 0, room, sizeof room);
    expect("mewtocol_write: number 0 asks for nothing", n, JEULGOPAE_NO_REQUEST);
    expect_bytes("mewtocol_write: the room stays", room, "%01#RCP2R1030R101076\r", 21);
    n = jeulgopae_mewtocol_read(1, JEULGOPAE_ORDINARY, JEULGOPAE_READ_CONTACTS, 0, 0, 0, contacts, 1, NULL, 0, NULL, 0, other, 10);
    expect("mewtocol_read: a list of one", n, 1);
    n = jeulgopae_mewtocol_read(1, JEULGOPAE_ORDINARY, JEULGOPAE_READ_CONTACTS, 0, 0, 0, contacts, 2, NULL, 0, NULL, 0, other, 10);
    expect("mewtocol_read: a list of two has two characters", n, -130010);
    n = jeulgopae_mewtocol_read(1, JEULGOPAE_ORDINARY, 0, 16 * 103, 0, 0, contacts, 1, NULL, 0, NULL, 0, other, 10);
    expect("mewtocol_read: number 0 asks for nothing", n, JEULGOPAE_NO_REQUEST);
    n = jeulgopae_mewtocol_write(1, JEULGOPAE_ORDINARY, JEULGOPAE_READ_WORDS, 0, 27, 0, NULL, 0, NULL, 0, NULL, 0, room, sizeof room);
    expect("mewtocol_write: 28 words", n, JEULGOPAE_NO_REQUEST);
    n = jeulgopae_mewtocol_write(1, JEULGOPAE_ORDINARY, 9, 0, 0, 0, NULL, 0, NULL, 0, NULL, 0, NULL, 0);
    expect("mewtocol_write: room before request", n, JEULGOPAE_SMALL_ROOM);

    n = jeulgopae_mewtocol_read(1, JEULGOPAE_ORDINARY, JEULGOPAE_READ_WORDS, 105, 107, 0, NULL, 0, NULL, 0, NULL, 0, reply, 21);
    expect("mewtocol_read: characters of data", n, 12);
    expect("mewtocol_read: word 0", jeulgopae_data_word(reply + JEULGOPAE_REPLY_DATA, 12, 0), 0x1234);
    expect("mewtocol_read: word 2", jeulgopae_data_word(reply + JEULGOPAE_REPLY_DATA, 12, 2), 0);
    n = jeulgopae_mewtocol_read(1, JEULGOPAE_ORDINARY, JEULGOPAE_READ_WORDS, 105, 107, 0, NULL, 0, NULL, 0, NULL, 0, refusal, 9);
    expect("mewtocol_read: error reply", n, -256 - 0x66);
    expect("IS_ERROR_REPLY", JEULGOPAE_IS_ERROR_REPLY(n), 1);
    expect("ERROR_OF", JEULGOPAE_ERROR_OF(n), 0x66);
    expect("IS_ERROR_REPLY of a refusal", JEULGOPAE_IS_ERROR_REPLY(JEULGOPAE_NOTHING), 0);
    expect("IS_NOT_THIS of an error reply", JEULGOPAE_IS_NOT_THIS(n), 0);
    expect("IS_NOT_THIS of a refusal", JEULGOPAE_IS_NOT_THIS(JEULGOPAE_NOTHING), 0);
    n = jeulgopae_mewtocol_read(1, JEULGOPAE_ORDINARY, JEULGOPAE_READ_WORDS, 105, 107, 0, NULL, 0, NULL, 0, NULL, 0, wrong, 21);
    expect("mewtocol_read: 13, at 7", n, -130007);
    expect("IS_NOT_THIS", JEULGOPAE_IS_NOT_THIS(n), 1);
    expect("PLACE_OF", JEULGOPAE_PLACE_OF(n), 7);
    expect("IS_ERROR_REPLY of 13", JEULGOPAE_IS_ERROR_REPLY(n), 0);
    n = jeulgopae_mewtocol_read(1, JEULGOPAE_ORDINARY, JEULGOPAE_READ_WORDS, 105, 107, 0, NULL, 0, NULL, 0, NULL, 0, other, 10);
    expect("mewtocol_read: 13, at the frame's length", n, -130010);

    expect("data_word", jeulgopae_data_word((const uint8_t *)"3412FFFF0000", 12, 0), 0x1234);
    expect("data_word: past the last", jeulgopae_data_word((const uint8_t *)"3412FFFF0000", 12, 3), JEULGOPAE_NOTHING);
    expect("data_word: no word stands there", jeulgopae_data_word((const uint8_t *)"34g2", 4, 0), JEULGOPAE_NOTHING);
    expect("data_contact", jeulgopae_data_contact((const uint8_t *)"101", 3, 1), 0);
    expect("data_contact: past the last", jeulgopae_data_contact((const uint8_t *)"101", 3, 3), JEULGOPAE_NOTHING);
    expect("data_contact: of nothing", jeulgopae_data_contact(NULL, 0, 0), JEULGOPAE_NOTHING);
}

/* ---- where 13 says that a frame is wrong */

/* The place equals the frame's length. */
enum { LENGTH = -1 };

static uint8_t closed[128];

/* A text with its check and its last character behind it, in `closed`; gives the frame's length. */
static size_t close_frame(const void *text, size_t count, char last) {
    uint8_t sum = 0;
    memcpy(closed, text, count);
    for (size_t k = 0; k < count; k++) sum ^= closed[k];
    snprintf((char *)closed + count, 4, "%02X%c", sum, last);
    return count + 3;
}

static void expect_place(const char *name, long answer, int place, size_t count) {
    expect(name, answer, -130000L - (place == LENGTH ? (long)count : place));
}

/* What the reader says of a reply's text. One asking serves all eight commands: so many contacts, or words 105 to 107. */
static int32_t read_reply_of(uint32_t command, size_t contacts_count, const char *text, size_t *count) {
    static const uint32_t contacts[] = {105, 106, 107};
    static const uint8_t values[] = {0, 1, 0};
    static const uint16_t words[] = {1, 2, 3};
    *count = close_frame(text, strlen(text), '\r');
    return jeulgopae_mewtocol_read(1, JEULGOPAE_ORDINARY, command, 105, 107, 1, contacts, contacts_count, values, contacts_count, words, 3, closed, *count);
}

static int32_t read_reply(uint32_t command, const char *text, size_t *count) { return read_reply_of(command, 3, text, count); }

/* A list of one contact. */
static void one_contact_places(void) {
    static const struct {
        const char *name;
        const char *text;
        int place;
    } rows[] = {
        {"RCS: 2 is no contact", "%01$RC2", 6},
        {"RCS: A is no contact", "%01$RCA", 6},
        {"RCS: other letters", "%01$RD1", LENGTH},
        {"RCS: other letters and a 2", "%01$WC2", LENGTH},
        {"RCS: no data", "%01$RC", LENGTH},
        {"RCS: two contacts", "%01$RC12", LENGTH},
    };
    for (size_t k = 0; k < sizeof rows / sizeof *rows; k++) {
        size_t count;
        int32_t answer = read_reply_of(JEULGOPAE_READ_CONTACTS, 1, rows[k].text, &count);
        expect_place(rows[k].name, answer, rows[k].place, count);
    }
}

static void reply_places(void) {
    static const struct {
        const char *name;
        uint32_t command;
        const char *text;
        int place;
    } rows[] = {
        {"RCP: the first contact", JEULGOPAE_READ_CONTACTS, "%01$RC/01", 6},
        {"RCP: the second", JEULGOPAE_READ_CONTACTS, "%01$RC1x1", 7},
        {"RCP: the last", JEULGOPAE_READ_CONTACTS, "%01$RC012", 8},
        {"RCP: all three", JEULGOPAE_READ_CONTACTS, "%01$RC234", 6},
        {"RCP: other letters", JEULGOPAE_READ_CONTACTS, "%01$rC101", LENGTH},
        {"RCP: a contact less", JEULGOPAE_READ_CONTACTS, "%01$RC10", LENGTH},
        {"RCP: a contact more", JEULGOPAE_READ_CONTACTS, "%01$RC1012", LENGTH},
        {"RCC: the first digit", JEULGOPAE_READ_RELAYS, "%01$RC:00000000000", 6},
        {"RCC: one in the middle", JEULGOPAE_READ_RELAYS, "%01$RC00000@000000", 11},
        {"RCC: the last digit", JEULGOPAE_READ_RELAYS, "%01$RC00000000000G", 17},
        {"RCC: other letters", JEULGOPAE_READ_RELAYS, "%01$RR000000000000", LENGTH},
        {"RCC: a digit less", JEULGOPAE_READ_RELAYS, "%01$RC00000000000", LENGTH},
        {"RCC: a digit more", JEULGOPAE_READ_RELAYS, "%01$RC0000000000000", LENGTH},
        {"RD: the first digit", JEULGOPAE_READ_WORDS, "%01$RD 412FFFF0000", 6},
        {"RD: the second", JEULGOPAE_READ_WORDS, "%01$RD3G12FFFF0000", 7},
        {"RD: lower case", JEULGOPAE_READ_WORDS, "%01$RD3412ffFF0000", 10},
        {"RD: two digits, the first tells", JEULGOPAE_READ_WORDS, "%01$RD3412FFFg000-", 13},
        {"RD: the last digit", JEULGOPAE_READ_WORDS, "%01$RD3412FFFF000/", 17},
        {"RD: other letters", JEULGOPAE_READ_WORDS, "%01$RC3412FFFF0000", LENGTH},
        {"RD: other letters and a G", JEULGOPAE_READ_WORDS, "%01$SD3G12FFFF0000", LENGTH},
        {"RD: a word less", JEULGOPAE_READ_WORDS, "%01$RD3412FFFF", LENGTH},
        {"RD: a word less and a G", JEULGOPAE_READ_WORDS, "%01$RD3G12FFFF", LENGTH},
        {"RD: a digit more", JEULGOPAE_READ_WORDS, "%01$RD3412FFFF00000", LENGTH},
        {"RD: no data", JEULGOPAE_READ_WORDS, "%01$RD", LENGTH},
        {"RD: an echo of the request", JEULGOPAE_READ_WORDS, "%01#RDD0010500107", LENGTH},
        {"RD: a # for the $", JEULGOPAE_READ_WORDS, "%01#RD3412FFFF0000", LENGTH},
        {"WCS: other letters", JEULGOPAE_WRITE_CONTACT, "%01$RC", LENGTH},
        {"WCS: with data", JEULGOPAE_WRITE_CONTACT, "%01$WC1", LENGTH},
        {"WCP: other letters", JEULGOPAE_WRITE_CONTACTS, "%01$WD", LENGTH},
        {"WCP: with data", JEULGOPAE_WRITE_CONTACTS, "%01$WC?", LENGTH},
        {"WCC: other letters", JEULGOPAE_WRITE_RELAYS, "%01$wC", LENGTH},
        {"WCC: with data", JEULGOPAE_WRITE_RELAYS, "%01$WC0000", LENGTH},
        {"WD: other letters", JEULGOPAE_WRITE_WORDS, "%01$RD", LENGTH},
        {"WD: with data", JEULGOPAE_WRITE_WORDS, "%01$WD0", LENGTH},
        {"SD: other letters", JEULGOPAE_FILL_WORDS, "%01$WD", LENGTH},
        {"SD: with data", JEULGOPAE_FILL_WORDS, "%01$SD00", LENGTH},
        {"an error: its first digit", JEULGOPAE_READ_WORDS, "%01!x6", 4},
        {"an error: its second", JEULGOPAE_READ_WORDS, "%01!6f", 5},
        {"an error: both", JEULGOPAE_WRITE_CONTACT, "%01!  ", 4},
        {"an error: three digits", JEULGOPAE_READ_WORDS, "%01!660", LENGTH},
        {"an error: letters before it", JEULGOPAE_READ_WORDS, "%01!RD66", LENGTH},
        {"an error: another mark", JEULGOPAE_READ_WORDS, "%01?66", LENGTH},
    };
    char most[128];
    size_t count;
    int32_t n;
    for (size_t k = 0; k < sizeof rows / sizeof *rows; k++) {
        n = read_reply(rows[k].command, rows[k].text, &count);
        expect_place(rows[k].name, n, rows[k].place, count);
    }

    /* The longest data, and the longest frame. */
    memset(most, '0', sizeof most);
    memcpy(most, "%01$RD", 6);
    most[6 + 4 * 27 - 1] = 'x';
    count = close_frame(most, 6 + 4 * 27, '\r');
    n = jeulgopae_mewtocol_read(1, JEULGOPAE_ORDINARY, JEULGOPAE_READ_WORDS, 0, 26, 0, NULL, 0, NULL, 0, NULL, 0, closed, count);
    expect("RD of 27: the last digit", n, -130113);
    n = jeulgopae_mewtocol_read(1, JEULGOPAE_ORDINARY, JEULGOPAE_READ_WORDS, 0, 25, 0, NULL, 0, NULL, 0, NULL, 0, closed, count);
    expect("RD of 26: a word more", n, -130117);
    count = close_frame(most, 115, '\r');
    n = jeulgopae_mewtocol_read(1, JEULGOPAE_ORDINARY, JEULGOPAE_READ_WORDS, 0, 26, 0, NULL, 0, NULL, 0, NULL, 0, closed, count);
    expect("RD of 27: 118 characters", n, -130118);

    /* No other refusal has a place. */
    close_frame("%01$RD3G12FFFF0000", 18, '\r');
    n = jeulgopae_mewtocol_read(0, JEULGOPAE_ORDINARY, JEULGOPAE_READ_WORDS, 105, 107, 0, NULL, 0, NULL, 0, NULL, 0, closed, 21);
    expect("a wrong digit, and station 0", n, JEULGOPAE_BAD_STATION);
    n = jeulgopae_mewtocol_read(1, JEULGOPAE_ORDINARY, JEULGOPAE_READ_WORDS, 107, 105, 0, NULL, 0, NULL, 0, NULL, 0, closed, 21);
    expect("a wrong digit, and no request", n, JEULGOPAE_NO_REQUEST);
    n = jeulgopae_mewtocol_read(1, JEULGOPAE_ORDINARY, JEULGOPAE_READ_WORDS, 105, 107, 0, NULL, 0, NULL, 0, NULL, 0, closed, 20);
    expect("a wrong digit, and no CR", n, JEULGOPAE_BAD_SHAPE);
    n = jeulgopae_mewtocol_read(2, JEULGOPAE_ORDINARY, JEULGOPAE_READ_WORDS, 105, 107, 0, NULL, 0, NULL, 0, NULL, 0, closed, 21);
    expect("a wrong digit, and another station", n, JEULGOPAE_OTHER_STATION);
    closed[18] ^= 1;
    n = jeulgopae_mewtocol_read(1, JEULGOPAE_ORDINARY, JEULGOPAE_READ_WORDS, 105, 107, 0, NULL, 0, NULL, 0, NULL, 0, closed, 21);
    expect("a wrong digit, and a wrong check", n, JEULGOPAE_BAD_CHECK);
    n = jeulgopae_data_word((const uint8_t *)"3G12", 4, 0);
    expect("data_word: a wrong digit", n, JEULGOPAE_NOTHING);
    n = jeulgopae_data_contact((const uint8_t *)"2", 1, 0);
    expect("data_contact: a wrong contact", n, JEULGOPAE_NOTHING);
}

static void distance_places(void) {
    static const struct {
        const char *name;
        const char *text;
        size_t count;
        int place;
    } rows[] = {
        {"distance: the first digit", "/060D/2345\0", 11, 5},
        {"distance: the second", "/060D1:345\0", 11, 6},
        {"distance: the third", "/060D12 45\0", 11, 7},
        {"distance: the fourth", "/060D123A5\0", 11, 8},
        {"distance: the fifth", "/060D1234\0\0", 11, 9},
        {"distance: 1 for the NUL", "/060D12345\1", 11, 10},
        {"distance: 0 for the NUL", "/060D123450", 11, 10},
        {"distance: two bytes, the first tells", "/060D1x345x", 11, 6},
        {"distance: command 0E", "/060E12345\0", 11, LENGTH},
        {"distance: command 1D", "/061D12345\0", 11, LENGTH},
        {"distance: command 0d", "/060d12345\0", 11, LENGTH},
        {"distance: command 0E, and a wrong digit", "/060Ex2345\0", 11, LENGTH},
        {"distance: five bytes", "/050D12345", 10, LENGTH},
        {"distance: seven bytes", "/070D012345\0", 12, LENGTH},
        {"distance: two bytes", "/020D00", 7, LENGTH},
        {"distance: no data", "/000D", 5, LENGTH},
    };
    size_t taken = 0;
    for (size_t k = 0; k < sizeof rows / sizeof *rows; k++) {
        size_t count = close_frame(rows[k].text, rows[k].count, '.');
        expect_place(rows[k].name, jeulgopae_laser_distance(closed, count), rows[k].place, count);
        taken += jeulgopae_laser_read(closed, count) >= 0;
    }
    expect("laser_read: takes all of these", (long)taken, sizeof rows / sizeof *rows);
    close_frame("/060Dx2345\0", 11, '.');
    expect("distance: a wrong digit, and no full stop", jeulgopae_laser_distance(closed, 13), JEULGOPAE_BAD_SHAPE);
    closed[11] ^= 1;
    expect("distance: a wrong digit, and a wrong check", jeulgopae_laser_distance(closed, 14), JEULGOPAE_BAD_CHECK);
}

static void laser(void) {
    uint8_t room[JEULGOPAE_REQUEST_ROOM];
    int32_t n = jeulgopae_laser_read((const uint8_t *)"/020D0059.", 10);
    expect("laser_read", n, 65536L * '0' + 256 * 'D' + 2);
    expect("LASER_FIRST", JEULGOPAE_LASER_FIRST(n), '0');
    expect("LASER_SECOND", JEULGOPAE_LASER_SECOND(n), 'D');
    expect("LASER_COUNT", JEULGOPAE_LASER_COUNT(n), 2);

    n = jeulgopae_laser_write('0', 'D', (const uint8_t *)"00", 2, room, sizeof room);
    expect("laser_write: length", n, 10);
    expect_bytes("laser_write: room", room, "/020D0059.", 10);

    expect("laser_distance", jeulgopae_laser_distance((const uint8_t *)"/060D12345\0" "6C.", 14), 12345);
    expect("laser_distance: the NUL trimmed away", jeulgopae_laser_distance((const uint8_t *)"/060D123456C.", 13), JEULGOPAE_BAD_SHAPE);
    expect("laser_distance: 13, at 7", jeulgopae_laser_distance((const uint8_t *)"/060D12 45\0" "7F.", 14), -130007);
    expect("laser_distance: 13, at the frame's length", jeulgopae_laser_distance((const uint8_t *)"/020D0059.", 10), -130010);
}

static void numbers(void) {
    expect("register_address", jeulgopae_register_address(400134), 133);
    expect("register_address: 400000", jeulgopae_register_address(400000), JEULGOPAE_OUT_OF_RANGE);
    expect("register_address: 404097", jeulgopae_register_address(404097), 4096);
    expect("register_address: the last", jeulgopae_register_address(465536), 65535);
    expect("register_address: after the last", jeulgopae_register_address(465537), JEULGOPAE_OUT_OF_RANGE);
    expect("register_number: the last", jeulgopae_register_number(65535), 465536);
    expect("register_number", jeulgopae_register_number(133), 400134);
    expect("coil_address", jeulgopae_coil_address(209), 208);
    expect("coil_number", jeulgopae_coil_number(208), 209);
    expect("bits_differing", jeulgopae_bits_differing((const uint8_t *)"F", 1, (const uint8_t *)"f", 1), 1);
    expect("bits_differing: of two empty frames", jeulgopae_bits_differing(NULL, 0, NULL, 0), 0);
    expect("crc", jeulgopae_crc((const uint8_t *)"123456789", 9), 0x4B37);
}

static void catalogue(void) {
    static const uint8_t file[] = {3, 0, 19, 1, 0, 1, 'A', 2, 0, 5, 0, 5, 0, 2, 3, 3, 0, 4, 1, 0, 1, 'B'};
    static uint8_t many[JEULGOPAE_TABLE_LIMIT + 1];
    uint8_t attributes[8];
    memset(attributes, 0xA5, sizeof attributes);
    expect("catalogue_fill: no such name", jeulgopae_catalogue_fill(file, sizeof file, (const uint8_t *)"B ", 2, attributes, 8),
           JEULGOPAE_NO_SUCH_NAME);
    expect("catalogue_fill: an address beyond", jeulgopae_catalogue_fill(file, sizeof file, (const uint8_t *)"B", 1, attributes, 6),
           JEULGOPAE_RUNS_MEET);
    expect("catalogue_fill: an empty file", jeulgopae_catalogue_fill(NULL, 0, NULL, 0, attributes, 8), JEULGOPAE_BAD_FILE);
    expect("catalogue_fill: too many attributes",
           jeulgopae_catalogue_fill(file, sizeof file, (const uint8_t *)"B", 1, many, sizeof many), JEULGOPAE_BAD_TABLE);
    expect_bytes("catalogue_fill: a refusal leaves them", attributes, "\xA5\xA5\xA5\xA5\xA5\xA5\xA5\xA5", 8);
    expect("catalogue_fill", jeulgopae_catalogue_fill(file, sizeof file, (const uint8_t *)"B", 1, attributes, 8), 0);
    expect_bytes("catalogue_fill: the run of the group around", attributes, "\0\0\0\0\0\3\3\0", 8);
}

/* Both forms at their limits, and one word more. */
static void forms(void) {
    static uint16_t words[JEULGOPAE_TABLE_LIMIT];
    static uint8_t attributes[JEULGOPAE_TABLE_LIMIT];
    uint16_t data[508];
    uint8_t request[JEULGOPAE_EXPANDED_ROOM], room[JEULGOPAE_STATION_ROOM];
    int32_t n, m;
    memset(attributes, JEULGOPAE_READ_WRITE, sizeof attributes);
    for (int k = 0; k < 508; k++) data[k] = (uint16_t)(k + 1);

    n = jeulgopae_mewtocol_write(1, JEULGOPAE_EXPANDED, JEULGOPAE_WRITE_WORDS, 0, 506, 0, NULL, 0, NULL, 0, data, 507, request, sizeof request);
    expect("expanded: WD of 507 words", n, 2048);
    m = jeulgopae_mewtocol_station(words, 4096, attributes, 4096, JEULGOPAE_NO_PROFILE, 1, request, (size_t)n, room, sizeof room);
    expect("expanded: its reply", m, 9);
    expect_bytes("expanded: its reply", room, "<01$WD0A\r", 9);
    expect("expanded: the last word", words[506], 507);
    expect("expanded: the word after it", words[507], 0);
    n = jeulgopae_mewtocol_write(1, JEULGOPAE_EXPANDED, JEULGOPAE_WRITE_WORDS, 0, 507, 0, NULL, 0, NULL, 0, data, 508, request, sizeof request);
    expect("expanded: WD of 508 words", n, JEULGOPAE_NO_REQUEST);

    n = jeulgopae_mewtocol_write(1, JEULGOPAE_EXPANDED, JEULGOPAE_READ_WORDS, 0, 508, 0, NULL, 0, NULL, 0, NULL, 0, request, sizeof request);
    expect("expanded: RD of 509 words", n, 20);
    m = jeulgopae_mewtocol_station(words, 4096, attributes, 4096, JEULGOPAE_NO_PROFILE, 1, request, (size_t)n, room, sizeof room);
    expect("expanded: its reply", m, 2045);
    n = jeulgopae_mewtocol_read(1, JEULGOPAE_EXPANDED, JEULGOPAE_READ_WORDS, 0, 508, 0, NULL, 0, NULL, 0, NULL, 0, room, (size_t)m);
    expect("expanded: its data", n, 4 * 509);
    expect("expanded: word 506", jeulgopae_data_word(room + JEULGOPAE_REPLY_DATA, (size_t)n, 506), 507);
    n = jeulgopae_mewtocol_write(1, JEULGOPAE_EXPANDED, JEULGOPAE_READ_WORDS, 0, 509, 0, NULL, 0, NULL, 0, NULL, 0, request, sizeof request);
    expect("expanded: RD of 510 words", n, JEULGOPAE_NO_REQUEST);
    m = jeulgopae_mewtocol_station(words, 4096, attributes, 4096, JEULGOPAE_NO_PROFILE, 1,
                                   (const uint8_t *)"<01#RDD000000050940\r", 20, room, sizeof room);
    expect_bytes("expanded: RD of 510 words at the station", room, "<01!601A\r", 9);

    n = jeulgopae_mewtocol_write(1, JEULGOPAE_ORDINARY, JEULGOPAE_READ_WORDS, 0, 27, 0, NULL, 0, NULL, 0, NULL, 0, request, sizeof request);
    expect("ordinary: RD of 28 words", n, JEULGOPAE_NO_REQUEST);
    n = jeulgopae_mewtocol_write(1, 2, JEULGOPAE_READ_WORDS, 0, 0, 0, NULL, 0, NULL, 0, NULL, 0, request, sizeof request);
    expect("form 2 asks for nothing", n, JEULGOPAE_NO_REQUEST);
    n = jeulgopae_mewtocol_write(1, JEULGOPAE_EXPANDED, JEULGOPAE_READ_WORDS, 0, 0, 0, NULL, 0, NULL, 0, NULL, 0, request, 2047);
    expect("expanded: a room of 2,047", n, JEULGOPAE_SMALL_ROOM);
    n = jeulgopae_mewtocol_station(words, 4096, attributes, 4096, JEULGOPAE_NO_PROFILE, 1,
                                   (const uint8_t *)"%01#RDD001050010757\r", 20, room, 2047);
    expect("station: a room of 2,047", n, JEULGOPAE_SMALL_ROOM);
    n = jeulgopae_mewtocol_read(1, JEULGOPAE_ORDINARY, JEULGOPAE_READ_WORDS, 105, 107, 0, NULL, 0, NULL, 0, NULL, 0,
                                (const uint8_t *)"<01$RD3412FFFF00000B\r", 21);
    expect("ordinary: the expanded form's reply", n, -130021);
    n = jeulgopae_mewtocol_station(words, 4096, attributes, 4096, JEULGOPAE_NO_PROFILE, 1,
                                   (const uint8_t *)"<FF#WDD0000500005341254\r", 24, room, sizeof room);
    expect("expanded: a wrong check for all is silence", n, JEULGOPAE_OTHER_STATION);
    n = jeulgopae_mewtocol_station(words, 4096, attributes, 4096, JEULGOPAE_NO_PROFILE, 1,
                                   (const uint8_t *)"<FF#WDD000050000534124C\r", 24, room, sizeof room);
    expect("expanded: a write for all is carried out", n, JEULGOPAE_CARRIED_OUT);
    expect("expanded: the word is set", words[5], 0x1234);
}

/* ---- what the header says of the profile, and of pairs */

static uint16_t head_words[200];
static uint8_t head_attributes[200], head_room[JEULGOPAE_STATION_ROOM];

/* A MEWTOCOL text, given without its check, at station 1: 0 for the reply to a write, the error, or what else the station gave. */
static long mewtocol_error(uint32_t profile, const char *text) {
    uint8_t frame[64];
    size_t n = strlen(text);
    unsigned x = 0;
    int32_t got;
    memcpy(frame, text, n);
    for (size_t k = 0; k < n; k++) x ^= frame[k];
    frame[n] = (uint8_t)"0123456789ABCDEF"[x >> 4];
    frame[n + 1] = (uint8_t)"0123456789ABCDEF"[x & 15];
    frame[n + 2] = '\r';
    got = jeulgopae_mewtocol_station(head_words, 200, head_attributes, 200, profile, 1, frame, n + 3, head_room, sizeof head_room);
    if (got != 9) return got;
    return head_room[3] == '$' ? 0 : (head_room[4] - '0') * 16L + (head_room[5] - '0');
}

/* An RTU body, given without its check: 0 for a good reply, the exception, or what the station gave. */
static long rtu_exception(uint32_t profile, const void *body, size_t count) {
    struct jeulgopae_counters none = {0};
    uint8_t frame[64];
    int32_t crc = jeulgopae_crc(body, count), n;
    memcpy(frame, body, count);
    frame[count] = (uint8_t)crc;
    frame[count + 1] = (uint8_t)(crc >> 8);
    n = jeulgopae_rtu_station(head_words, 200, head_attributes, 200, profile, 1, frame, count + 2, head_room, sizeof head_room, &none);
    if (n < 0) return n;
    return head_room[1] & 0x80 ? head_room[2] : 0;
}

static void profiles(void) {
    const uint32_t head = JEULGOPAE_HL_G2_50;
    struct jeulgopae_counters counters = {0};
    int32_t n;
    memset(head_attributes, JEULGOPAE_READ_WRITE, sizeof head_attributes);
    memset(head_room, 0xEE, sizeof head_room);

    n = jeulgopae_mewtocol_station(head_words, 200, head_attributes, 200, head, 1, (const uint8_t *)"%01#WDD0010000101F07E0E0020\r", 28,
                                   head_room, sizeof head_room);
    expect("profile: 950,000 is written", n, 9);
    expect("profile: its lower word", head_words[100], 0x7EF0);
    expect("profile: its higher word", head_words[101], 0x000E);
    n = jeulgopae_mewtocol_station(head_words, 200, head_attributes, 200, head, 1, (const uint8_t *)"%01#WDD0010000101F17E0E0021\r", 28,
                                   head_room, sizeof head_room);
    expect("profile: 950,001 is answered", n, 9);
    expect_bytes("profile: 950,001 is error 61", head_room, "%01!6102\r", 9);
    expect("profile: the words stay", head_words[100], 0x7EF0);
    expect("no profile: 950,001 is written", mewtocol_error(JEULGOPAE_NO_PROFILE, "%01#WDD0010000101F17E0E00"), 0);

    expect("profile: -950,000", mewtocol_error(head, "%01#WDD00102001031081F1FF"), 0);
    expect("profile: -950,001", mewtocol_error(head, "%01#WDD00102001030F81F1FF"), 0x61);
    expect("profile: SD of 000Eh over both pairs", mewtocol_error(head, "%01#SDD00100001030E00"), 0);
    expect("profile: SD of 000Fh over both pairs", mewtocol_error(head, "%01#SDD00100001030F00"), 0x61);
    expect("profile: SD of FFF1h over both pairs", mewtocol_error(head, "%01#SDD0010000103F1FF"), 0);
    expect("profile: SD of FFF0h over both pairs", mewtocol_error(head, "%01#SDD0010000103F0FF"), 0x61);
    expect("profile: half a pair", mewtocol_error(head, "%01#WDD00101001010000"), 0x61);
    expect("profile: 101 and 102", mewtocol_error(head, "%01#WDD001010010200000000"), 0x61);
    expect("profile: half a pair is read", mewtocol_error(head, "%01#RDD0010100101"), 13);
    head_attributes[57] = JEULGOPAE_READ;
    expect("profile: 66 before 61", mewtocol_error(head, "%01#WDD00057000570500"), 0x66);
    expect("profile: 02 before 03", rtu_exception(head, "\x01\x06\x00\x39\x00\x05", 6), 2);
    head_attributes[57] = JEULGOPAE_READ_WRITE;

    expect("profile: 57 takes 4", rtu_exception(head, "\x01\x06\x00\x39\x00\x04", 6), 0);
    expect("profile: 57 takes no 5", rtu_exception(head, "\x01\x06\x00\x39\x00\x05", 6), 3);
    expect("profile: 57 takes no 0", rtu_exception(head, "\x01\x06\x00\x39\x00\x00", 6), 3);
    expect("profile: 70 takes 2", rtu_exception(head, "\x01\x06\x00\x46\x00\x02", 6), 0);
    expect("profile: 70 takes no 3", rtu_exception(head, "\x01\x06\x00\x46\x00\x03", 6), 3);
    expect("profile: 53 takes 0", rtu_exception(head, "\x01\x06\x00\x35\x00\x00", 6), 0);
    expect("profile: 53 takes no 1", rtu_exception(head, "\x01\x06\x00\x35\x00\x01", 6), 3);
    expect("profile: 55 takes no 1", rtu_exception(head, "\x01\x06\x00\x37\x00\x01", 6), 3);
    expect("profile: a mask that leaves 4 in 57", rtu_exception(head, "\x01\x16\x00\x39\xFF\xFF\xFF\xFF", 8), 0);
    expect("profile: a mask that leaves 5 in 57", rtu_exception(head, "\x01\x16\x00\x39\xFF\xFE\x00\x01", 8), 3);
    expect("profile: a mask on half a pair", rtu_exception(head, "\x01\x16\x00\x64\xFF\xFF\x00\x00", 8), 3);
    expect("profile: refused for all is silence", rtu_exception(head, "\x00\x06\x00\x39\x00\x05", 6), JEULGOPAE_OTHER_STATION);
    expect("profile: taken for all is carried out", rtu_exception(head, "\x00\x06\x00\x39\x00\x01", 6), JEULGOPAE_CARRIED_OUT);

    n = jeulgopae_mewtocol_station(head_words, 200, head_attributes, 199, 2, 0, NULL, 0, NULL, 0);
    expect("profile 2 is none, before the table", n, JEULGOPAE_UNKNOWN_PROFILE);
    n = jeulgopae_ascii_station(head_words, 200, head_attributes, 200, 0xFFFFFFFF, 1, (const uint8_t *)":01030085000177\r\n", 17, head_room,
                                sizeof head_room, &counters);
    expect("profile FFFFFFFFh is none", n, JEULGOPAE_UNKNOWN_PROFILE);
    expect("profile FFFFFFFFh: nothing counts", counters.damaged, 0);
}

static void pairs(void) {
    expect("pair_value: 950,000", jeulgopae_pair_value(0x7EF0, 0x000E), 950000);
    expect("pair_value: -1", jeulgopae_pair_value(0xFFFF, 0xFFFF), -1);
    expect("pair_value: the least", jeulgopae_pair_value(0x0000, 0x8000), -2147483647L - 1);
    expect("pair_value: the greatest", jeulgopae_pair_value(0xFFFF, 0x7FFF), 2147483647);
    expect("pair_value: 0", jeulgopae_pair_value(0, 0), 0);
    expect("pair_low: -950,000", jeulgopae_pair_low(-950000), 0x8110);
    expect("pair_high: -950,000", jeulgopae_pair_high(-950000), 0xFFF1);
    expect("pair_low: 950,001", jeulgopae_pair_low(950001), JEULGOPAE_NO_REQUEST);
    expect("pair_high: 950,001", jeulgopae_pair_high(950001), JEULGOPAE_NO_REQUEST);
    expect("pair_low: -950,001", jeulgopae_pair_low(-950001), JEULGOPAE_NO_REQUEST);
    expect("pair_high: -1", jeulgopae_pair_high(-1), 0xFFFF);
}

static int32_t meet(const uint8_t *attributes, uint32_t profile, uint32_t one_format, const char *one, size_t one_count,
                    uint32_t other_format, const char *other, size_t other_count) {
    return jeulgopae_meeting(attributes, 200, profile, one_format, 1, (const uint8_t *)one, one_count, other_format, 1,
                             (const uint8_t *)other, other_count);
}

static void masters(void) {
    static const char r1030[] = "%01#WCSR1030121\r", r1031[] = "%01#WCSR1031120\r", to_all[] = "%FF#WCSR1030120\r";
    static const char coil[] = "\x01\x05\x00\xD1\xFF\x00\xDC\x03", text[] = ":01030085000176\r\n", write[] = ":01060085000173\r\n";
    static const char half[] = ":01060064000194\r\n";
    uint8_t all[200];
    memset(all, 3, sizeof all);
    expect("meeting: two contacts of a word", meet(all, 0, 0, r1030, 16, 0, r1031, 16), JEULGOPAE_APART);
    expect("meeting: a coil beside a contact", meet(all, 0, 0, r1030, 16, 1, coil, 8), JEULGOPAE_APART);
    expect("meeting: the coil that is the contact", meet(all, 0, 0, r1031, 16, 1, coil, 8), 16 * 133 + 1);
    expect("meeting: a contact for all, and itself", meet(all, 0, 0, to_all, 16, 0, r1030, 16), 16 * 133);
    expect("meeting: a read and a write", meet(all, 0, 2, text, 17, 2, write, 17), 16 * 133);
    expect("meeting: a contact in a word that is read", meet(all, 0, 2, text, 17, 0, r1031, 16), 16 * 133 + 1);
    expect("meeting: two reads", meet(all, 0, 2, text, 17, 2, text, 17), JEULGOPAE_APART);
    expect("meeting: a damaged frame", meet(all, 0, 2, write, 16, 2, write, 17), JEULGOPAE_APART);
    expect("meeting: half a pair", meet(all, 0, 2, half, 17, 2, half, 17), 16 * 100);
    expect("meeting: half a pair, which the profile refuses", meet(all, 1, 2, half, 17, 2, half, 17), JEULGOPAE_APART);
    expect("meeting: profile 2", meet(all, 2, 3, half, 17, 3, half, 17), JEULGOPAE_UNKNOWN_PROFILE);
    expect("meeting: format 3", meet(all, 0, 3, half, 17, 2, half, 17), JEULGOPAE_UNKNOWN_FORMAT);
    expect("meeting: format 3 of the other", meet(all, 0, 2, half, 17, 3, half, 17), JEULGOPAE_UNKNOWN_FORMAT);
    all[133] = 1;
    expect("meeting: a word that may not be written", meet(all, 0, 2, text, 17, 2, write, 17), JEULGOPAE_APART);
}

int main(void) {
    stations();
    masters();
    profiles();
    pairs();
    counters();
    host();
    forms();
    one_contact_places();
    reply_places();
    laser();
    catalogue();
    distance_places();
    numbers();
    printf("%d tests, %d failures\n", tests, failures);
    return failures != 0;
}
