/* A libmodbus client asks the station on the given device: registers and coils read and written, exceptions, counters, silence. Prints a
 * line each: verdict, what was asked, what came, what was expected. */
#include <errno.h>
#include <modbus.h>
#include <poll.h>
#include <stdio.h>
#include <string.h>
#include <unistd.h>

static int failures;
static modbus_t *line;

static void row(const char *asked, const char *came, const char *expected) {
    int good = strcmp(came, expected) == 0;
    failures += !good;
    printf("%-4s libmodbus      %-42s %-32s %s\n", good ? "ok" : "BAD", asked, came, expected);
}

/* The number of items, or the exception or silence that came instead. */
static const char *outcome(int n) {
    static char text[64];
    if (n >= 0)
        snprintf(text, sizeof text, "%d", n);
    else if (errno == EMBXILFUN)
        snprintf(text, sizeof text, "exception 01");
    else if (errno == EMBXILADD)
        snprintf(text, sizeof text, "exception 02");
    else if (errno == EMBXILVAL)
        snprintf(text, sizeof text, "exception 03");
    else if (errno == ETIMEDOUT)
        snprintf(text, sizeof text, "silence");
    else
        snprintf(text, sizeof text, "%s", modbus_strerror(errno));
    return text;
}

static void registers(const char *asked, int address, int count, const char *expected) {
    uint16_t words[125];
    char came[128];
    int n = modbus_read_registers(line, address, count, words), at = 0;
    if (n < 0 || n > 4) {
        row(asked, outcome(n), expected);
        return;
    }
    for (int k = 0; k < n; k++) at += snprintf(came + at, sizeof came - (size_t)at, k ? " %04X" : "%04X", words[k]);
    row(asked, came, expected);
}

static void bits(const char *asked, int address, int count, const char *expected) {
    uint8_t coils[96];
    char came[128];
    int n = modbus_read_bits(line, address, count, coils);
    if (n < 0) {
        row(asked, outcome(n), expected);
        return;
    }
    for (int k = 0; k < n; k++) came[k] = coils[k] ? '1' : '0';
    came[n] = 0;
    row(asked, came, expected);
}

/* A request that libmodbus itself would not send; it adds the check. The answer is told by its function byte. */
static void raw(const char *asked, const uint8_t *request, int length, const char *expected) {
    uint8_t reply[MODBUS_RTU_MAX_ADU_LENGTH];
    char came[64];
    int n;
    modbus_send_raw_request(line, request, length);
    n = modbus_receive_confirmation(line, reply);
    if (n == 5 && (reply[1] & 0x80))
        snprintf(came, sizeof came, "exception %02X to %02X", reply[2], reply[1] & 0x7F);
    else
        snprintf(came, sizeof came, "%s", outcome(n));
    row(asked, came, expected);
}

/* A request of function 08, whose replies libmodbus can't take: their eight bytes are read here. */
static void bytes(const char *asked, const uint8_t request[6], const char *expected) {
    struct pollfd p = {modbus_get_socket(line), POLLIN, 0};
    uint8_t reply[8];
    char came[64] = "silence";
    size_t n = 0;
    modbus_send_raw_request(line, request, 6);
    while (n < sizeof reply && poll(&p, 1, 1000) > 0) {
        ssize_t got = read(p.fd, reply + n, sizeof reply - n);
        if (got <= 0) break;
        n += (size_t)got;
    }
    for (size_t k = 0, at = 0; k < n; k++) at += (size_t)snprintf(came + at, sizeof came - at, k ? " %02X" : "%02X", reply[k]);
    row(asked, came, expected);
}

int main(int argc, char **argv) {
    uint16_t words[125];
    uint8_t coils[16] = {1, 0, 1, 1, 0, 0, 0, 0, 0, 0, 1};
    const uint8_t clear[] = {1, 8, 0, 10, 0, 0};
    const char *const cleared = "01 08 00 0A 00 00 C0 09";
    if (argc != 2) return 2;
    line = modbus_new_rtu(argv[1], 9600, 'N', 8, 1);
    if (!line || modbus_set_slave(line, 1) != 0 || modbus_connect(line) != 0) {
        fprintf(stderr, "%s: %s\n", argv[1], modbus_strerror(errno));
        return 2;
    }

    registers("03 of 105 to 107", 105, 3, "1234 FFFF 0000");
    row("06: 104 = ABCD", outcome(modbus_write_register(line, 104, 0xABCD)), "1");
    registers("03 of 104", 104, 1, "ABCD");
    row("16: 104, and 00F2, or 0025", outcome(modbus_mask_write_register(line, 104, 0x00F2, 0x0025)), "1");
    registers("03 of 104", 104, 1, "00C5");
    for (int k = 0; k < 123; k++) words[k] = (uint16_t)(k * 257);
    row("10 of 123 registers from 200", outcome(modbus_write_registers(line, 200, 123, words)), "123");
    memset(words, 0, sizeof words);
    row("03 of 125 registers from 200", outcome(modbus_read_registers(line, 200, 125, words)), "125");
    registers("03 of 320 to 323", 320, 4, "7878 7979 7A7A 5A5A");

    bits("01 of coils 160 to 175", 160, 16, "1010000000000101");
    row("05: coil 208 on", outcome(modbus_write_bit(line, 208, 1)), "1");
    registers("03 of 133", 133, 1, "0001");
    row("0F of 11 coils from 212", outcome(modbus_write_bits(line, 212, 11, coils)), "11");
    bits("01 of coils 208 to 223", 208, 16, "1000101100000010");
    row("05: coil 208 off", outcome(modbus_write_bit(line, 208, 0)), "1");
    registers("03 of 133", 133, 1, "40D0");

    row("02 of 160: not a function here", outcome(modbus_read_input_bits(line, 160, 1, coils)), "exception 01");
    row("04 of 105: not a function here", outcome(modbus_read_input_registers(line, 105, 1, words)), "exception 01");
    registers("03 of 107 to 109: 108 is a hole", 107, 3, "exception 02");
    registers("03 of 140: write only", 140, 1, "exception 02");
    row("06: 136 is read only", outcome(modbus_write_register(line, 136, 1)), "exception 02");
    row("16: 140 is write only", outcome(modbus_mask_write_register(line, 140, 0, 0)), "exception 02");
    bits("01 of coils 250 to 257", 250, 8, "exception 02");
    row("05: coil 160 is read only", outcome(modbus_write_bit(line, 160, 1)), "exception 02");
    raw("03 of no register", (const uint8_t[]){1, 3, 0, 105, 0, 0}, 6, "exception 03 to 03");
    raw("03 of 126 registers", (const uint8_t[]){1, 3, 0, 200, 0, 126}, 6, "exception 03 to 03");
    raw("01 of 2001 coils", (const uint8_t[]){1, 1, 0, 160, 7, 0xD1}, 6, "exception 03 to 01");
    raw("05 with value 0001", (const uint8_t[]){1, 5, 0, 208, 0, 1}, 6, "exception 03 to 05");
    raw("10 with a byte count of 3", (const uint8_t[]){1, 16, 0, 104, 0, 1, 3, 0, 1, 2}, 10, "exception 03 to 10");

    /* Document 001's examples of 08. Each count is asked for right after a clear, as the document's numbers have it. */
    bytes("08 00, document 001's example", (const uint8_t[]){1, 8, 0, 0, 0x12, 0x34}, "01 08 00 00 12 34 ED 7C");
    bytes("08 0A, document 001's example", clear, cleared);
    bytes("08 0B, document 001's example", (const uint8_t[]){1, 8, 0, 11, 0, 0}, "01 08 00 0B 00 01 50 09");
    bytes("08 0A again", clear, cleared);
    bytes("08 0C, document 001's example", (const uint8_t[]){1, 8, 0, 12, 0, 0}, "01 08 00 0C 00 00 20 08");
    bytes("08 0A again", clear, cleared);
    bytes("08 0D, document 001's example", (const uint8_t[]){1, 8, 0, 13, 0, 0}, "01 08 00 0D 00 00 71 C8");
    bytes("08 0A again", clear, cleared);
    bytes("08 0E, document 001's example", (const uint8_t[]){1, 8, 0, 14, 0, 0}, "01 08 00 0E 00 01 40 08");
    bytes("08 0A again", clear, cleared);
    bytes("08 0F, document 001's example", (const uint8_t[]){1, 8, 0, 15, 0, 0}, "01 08 00 0F 00 00 D0 08");

    modbus_set_response_timeout(line, 0, 200000);
    modbus_set_slave(line, 2);
    registers("station 2: 03 of 105", 105, 1, "silence");
    /* To all: libmodbus waits for a reply that never comes. */
    modbus_set_slave(line, MODBUS_BROADCAST_ADDRESS);
    row("station 0, 06: 104 = 5678", outcome(modbus_write_register(line, 104, 0x5678)), "silence");
    row("station 0, 06: 136 is read only", outcome(modbus_write_register(line, 136, 1)), "silence");
    registers("station 0: 03 of 105", 105, 1, "silence");
    modbus_set_slave(line, 1);
    modbus_set_response_timeout(line, 1, 0);
    registers("station 1 again: 03 of 105", 105, 1, "1234");
    registers("03 of 104, written by all's", 104, 1, "5678");
    registers("03 of 136, which stayed", 136, 1, "0011");
    modbus_close(line);
    modbus_free(line);
    return failures != 0;
}
