/* The library's rows: `ours ROW WORDS count|time COUNT` over a table of WORDS words, all to read and write. Every answer is looked at:
 * a row that was not answered as it should be stops the program. */
#define _DEFAULT_SOURCE
#include "jeulgopae.h"
#include "work.h"

static uint16_t words[JEULGOPAE_TABLE_LIMIT];
static uint8_t attributes[JEULGOPAE_TABLE_LIMIT], frame[JEULGOPAE_EXPANDED_ROOM], room[JEULGOPAE_STATION_ROOM];
static struct jeulgopae_counters counters;
static const uint32_t contact[] = {16 * 103};
static size_t table, frame_count;
static int32_t expected;

typedef int32_t Modbus(uint16_t *, size_t, const uint8_t *, size_t, uint32_t, uint32_t, const uint8_t *, size_t, uint8_t *, size_t,
                       struct jeulgopae_counters *);
static Modbus *station;

static void serve(long count) {
    while (count-- > 0)
        if (station(words, table, attributes, table, JEULGOPAE_NO_PROFILE, 1, frame, frame_count, room, sizeof room, &counters) !=
            expected)
            abort();
}

static void serve_mewtocol(long count) {
    while (count-- > 0)
        if (jeulgopae_mewtocol_station(words, table, attributes, table, JEULGOPAE_NO_PROFILE, 1, frame, frame_count, room,
                                       sizeof room) != expected)
            abort();
}

static void check(long count) {
    while (count-- > 0)
        if (jeulgopae_crc(frame, frame_count) == -1) abort();
}

/* bitwise.c: the same, as the library had it before. */
uint16_t bitwise_crc(const uint8_t *frame, size_t count);

static void check_bitwise(long count) {
    int32_t crc = jeulgopae_crc(frame, frame_count);
    while (count-- > 0)
        if (bitwise_crc(frame, frame_count) != crc) abort();
}

static void nothing(long count) {
    while (count-- > 0) __asm__ volatile("" ::: "memory");
}

static void as_rtu(size_t n) {
    int32_t crc = jeulgopae_crc(frame, n);
    frame[n] = (uint8_t)crc;
    frame[n + 1] = (uint8_t)(crc >> 8);
    frame_count = n + 2;
    station = jeulgopae_rtu_station;
}

static void as_ascii(size_t n) {
    static const char hex[] = "0123456789ABCDEF";
    uint8_t bytes[256], sum = 0;
    memcpy(bytes, frame, n);
    for (size_t k = 0; k < n; k++) sum = (uint8_t)(sum + bytes[k]);
    bytes[n++] = (uint8_t)(0 - sum);
    frame[0] = ':';
    for (size_t k = 0; k < n; k++) {
        frame[1 + 2 * k] = (uint8_t)hex[bytes[k] >> 4];
        frame[2 + 2 * k] = (uint8_t)hex[bytes[k] & 15];
    }
    frame[1 + 2 * n] = '\r';
    frame[2 + 2 * n] = '\n';
    frame_count = 3 + 2 * n;
    station = jeulgopae_ascii_station;
}

int main(int argc, char **argv) {
    uint16_t data[507];
    const char *row;
    void (*work)(long) = serve;
    if (argc != 5) return 2;
    row = argv[1];
    table = strtoul(argv[2], NULL, 10);
    if (table > JEULGOPAE_TABLE_LIMIT) return 2;
    memset(attributes, JEULGOPAE_READ_WRITE, sizeof attributes);
    for (size_t k = 0; k < JEULGOPAE_TABLE_LIMIT; k++) words[k] = (uint16_t)(31 * k + 5);
    for (size_t k = 0; k < 507; k++) data[k] = (uint16_t)(4099 * k + 77);

    if (strncmp(row, "rtu-", 4) == 0 || strncmp(row, "ascii-", 6) == 0) {
        int rtu = row[0] == 'r', reply;
        const char *kind = row + (rtu ? 4 : 6);
        size_t n = request(kind, frame, &reply);
        if (n == 0) return 2;
        if (rtu) {
            as_rtu(n);
        } else {
            as_ascii(n);
        }
        expected = strcmp(kind, "other") == 0   ? JEULGOPAE_OTHER_STATION
                   : strcmp(kind, "wrong") == 0 ? JEULGOPAE_BAD_CHECK
                   : rtu                        ? reply
                                                : 2 * reply + 1;
        /* The last digit of the check: of the CRC's high byte, or of the LRC. */
        if (expected == JEULGOPAE_BAD_CHECK) frame[frame_count - (rtu ? 1 : 3)] ^= 1;
    } else if (strcmp(row, "RD") == 0) {
        frame_count = (size_t)jeulgopae_mewtocol_write(1, JEULGOPAE_ORDINARY, JEULGOPAE_READ_WORDS, 100, 126, 0, NULL, 0, NULL, 0, NULL, 0, frame, 118);
        work = serve_mewtocol;
        expected = 117;
    } else if (strcmp(row, "WD") == 0) {
        frame_count = (size_t)jeulgopae_mewtocol_write(1, JEULGOPAE_ORDINARY, JEULGOPAE_WRITE_WORDS, 100, 123, 0, NULL, 0, NULL, 0, data, 24, frame, 118);
        work = serve_mewtocol;
        expected = 9;
    } else if (strcmp(row, "RD-509") == 0) {
        frame_count = (size_t)jeulgopae_mewtocol_write(1, JEULGOPAE_EXPANDED, JEULGOPAE_READ_WORDS, 100, 608, 0, NULL, 0, NULL, 0, NULL, 0,
                                                       frame, sizeof frame);
        work = serve_mewtocol;
        expected = 2045;
    } else if (strcmp(row, "WD-507") == 0) {
        frame_count = (size_t)jeulgopae_mewtocol_write(1, JEULGOPAE_EXPANDED, JEULGOPAE_WRITE_WORDS, 100, 606, 0, NULL, 0, NULL, 0, data, 507,
                                                       frame, sizeof frame);
        work = serve_mewtocol;
        expected = 9;
    } else if (strcmp(row, "RCS") == 0 || strcmp(row, "WCS") == 0) {
        uint32_t command = row[0] == 'R' ? JEULGOPAE_READ_CONTACTS : JEULGOPAE_WRITE_CONTACT;
        frame_count = (size_t)jeulgopae_mewtocol_write(1, JEULGOPAE_ORDINARY, command, 16 * 103, 0, 1, contact, 1, NULL, 0, NULL, 0, frame, 118);
        work = serve_mewtocol;
        expected = row[0] == 'R' ? 10 : 9;
    } else if (strcmp(row, "mewtocol-other") == 0 || strcmp(row, "mewtocol-wrong") == 0) {
        int other = row[9] == 'o';
        frame_count = (size_t)jeulgopae_mewtocol_write(other ? 2 : 1, JEULGOPAE_ORDINARY, JEULGOPAE_READ_CONTACTS, 0, 0, 0, contact, 1, NULL, 0,
                                                       NULL, 0, frame, 118);
        if (!other) frame[frame_count - 2] ^= 1;
        work = serve_mewtocol;
        expected = other ? JEULGOPAE_OTHER_STATION : 9; /* a wrong check is answered by error 40 */
    } else if (strcmp(row, "crc-256") == 0 || strcmp(row, "crc-512") == 0) {
        for (size_t k = 0; k < 512; k++) frame[k] = (uint8_t)(7 * k + 3);
        frame_count = row[4] == '2' ? 256 : 512;
        work = check;
    } else if (strcmp(row, "bitwise-256") == 0 || strcmp(row, "bitwise-512") == 0) {
        for (size_t k = 0; k < 512; k++) frame[k] = (uint8_t)(7 * k + 3);
        frame_count = row[8] == '2' ? 256 : 512;
        work = check_bitwise;
    } else if (strcmp(row, "nothing") == 0) {
        work = nothing;
    } else {
        return 2;
    }
    return measure(work, argv[3], strtol(argv[4], NULL, 10));
}
