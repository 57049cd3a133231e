/* libmodbus' rows: `libmodbus ROW WORDS count|time COUNT`, receive and reply over a mapping of WORDS registers. Its RTU backend keeps
 * all its parts but the three that enter the system: select says that bytes are there, recv copies them from memory, send takes the
 * reply and looks at its length. The row `calls-ROW` does those three alone, as often and as long as a request of the row does, so
 * that their cost can be taken off. A frame for another station and one with a wrong check end with modbus_receive. */
#define _DEFAULT_SOURCE
#include "modbus-private.h"
#include "modbus.h"
#include "work.h"

static uint8_t frame[MODBUS_RTU_MAX_ADU_LENGTH], query[MODBUS_RTU_MAX_ADU_LENGTH];
static size_t frame_count, at;
static int expected, heard; /* the reply's length, 0 for none; what modbus_receive gives */
static modbus_t *line;
static modbus_mapping_t *mapping;
static modbus_backend_t backend;

/* The lengths that recv was asked for in one request. */
static int asked[8], asked_count;

static int select_memory(modbus_t *ctx, fd_set *set, struct timeval *wait, int length) {
    (void)ctx, (void)set, (void)wait, (void)length;
    return 1;
}

static ssize_t receive_memory(modbus_t *ctx, uint8_t *to, int length) {
    (void)ctx;
    memcpy(to, frame + at, (size_t)length);
    at += (size_t)length;
    return length;
}

static ssize_t send_memory(modbus_t *ctx, const uint8_t *reply, int length) {
    (void)ctx, (void)reply;
    if (length != expected) abort();
    return length;
}

static ssize_t receive_and_note(modbus_t *ctx, uint8_t *to, int length) {
    asked[asked_count++] = length;
    return receive_memory(ctx, to, length);
}

static void serve(long count) {
    while (count-- > 0) {
        int n;
        at = 0;
        n = modbus_receive(line, query);
        if (n != heard || (expected > 0 && modbus_reply(line, query, n, mapping) != expected)) abort();
    }
}

static void calls(long count) {
    while (count-- > 0) {
        size_t n = 0;
        at = 0;
        for (int k = 0; k < asked_count; k++) {
            if (backend.select(line, NULL, NULL, asked[k]) != 1) abort();
            n += (size_t)backend.recv(line, query + n, asked[k]);
        }
        if (expected > 0 && backend.send(line, query, expected) != expected) abort();
    }
}

static uint16_t crc(const uint8_t *bytes, size_t n) {
    uint16_t r = 0xFFFF;
    while (n-- > 0) {
        r ^= *bytes++;
        for (int k = 0; k < 8; k++) r = (uint16_t)(r & 1 ? (r >> 1) ^ 0xA001 : r >> 1);
    }
    return r;
}

int main(int argc, char **argv) {
    const char *row;
    int only_calls;
    size_t n;
    uint16_t c;
    if (argc != 5) return 2;
    only_calls = strncmp(argv[1], "calls-", 6) == 0;
    row = argv[1] + (only_calls ? 6 : 0);
    if (strncmp(row, "rtu-", 4) != 0) return 2;
    n = request(row + 4, frame, &expected);
    if (n == 0) return 2;
    c = crc(frame, n);
    frame[n] = (uint8_t)c;
    frame[n + 1] = (uint8_t)(c >> 8);
    frame_count = n + 2;
    heard = (int)frame_count;
    if (strcmp(row, "rtu-other") == 0) heard = 0;
    if (strcmp(row, "rtu-wrong") == 0) {
        frame[n + 1] ^= 1;
        heard = -1;
    }

    line = modbus_new_rtu("/dev/null", 9600, 'N', 8, 1);
    mapping = modbus_mapping_new_start_address(0, 256, 0, 0, 0, (unsigned)strtoul(argv[2], NULL, 10), 0, 0);
    if (!line || !mapping || modbus_set_slave(line, 1) != 0) return 2;
    for (int k = 0; k < mapping->nb_registers; k++) mapping->tab_registers[k] = (uint16_t)(31 * k + 5);
    backend = *line->backend;
    backend.select = select_memory;
    backend.send = send_memory;
    line->s = 0;
    line->backend = &backend;

    backend.recv = receive_and_note;
    serve(1);
    backend.recv = receive_memory;
    return measure(only_calls ? calls : serve, argv[3], strtol(argv[4], NULL, 10));
}
