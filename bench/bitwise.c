/* The CRC as the library computed it before it took several bytes a turn and had a table: byte after byte and bit after bit, the rule itself.
 * The kit's clang compiles this as it compiles the library, at -O3, and makes a table of its own of the eight shifts. */
#include <stddef.h>
#include <stdint.h>

static uint16_t shift_once(uint16_t r) { return r & 1 ? (uint16_t)(r >> 1 ^ 0xA001) : (uint16_t)(r >> 1); }

static uint16_t take_byte(uint16_t r, uint8_t b) {
    uint16_t x = r ^ b;
    for (uint8_t i = 0; i < 8; i++) x = shift_once(x);
    return x;
}

uint16_t bitwise_crc(const uint8_t *frame, size_t count) {
    uint16_t r = 0xFFFF;
    for (size_t i = 0; i < count; i++) r = take_byte(r, frame[i]);
    return r;
}
