/* What both examples need of a serial device: opening it, reads with a time-out, whole writes, and to be told when it is gone. */
#ifndef SERIAL_H
#define SERIAL_H

#include <stddef.h>
#include <stdint.h>

/* The speeds that a device may be set to; `code` is the system's name for one. */
typedef struct {
    long baud;
    unsigned code;
} SerialSpeed;
extern const SerialSpeed serial_speeds[];
extern const size_t serial_speeds_count;

/* Microseconds of a clock that never goes back. */
int64_t serial_clock(void);

/* Opens a device as eight data bits, one stop bit, parity 'N', 'E' or 'O', no change to any byte on its way. Gives -1, and why in words,
 * if it can't be. */
int serial_open(const char *device, long baud, char parity, const char **reason);

/* Waits for bytes at most so many microseconds, for ever if -1. Gives how many came, 0 after the wait, -1 when the device is gone. */
int serial_read(int fd, uint8_t *to, size_t count, int64_t microseconds);

/* Writes all bytes: 0; 1 when the device took none for five seconds, and what it had not sent was thrown away; -1 when it is gone. */
int serial_write(int fd, const uint8_t *bytes, size_t count);

/* Throws away what came and was not read. */
void serial_forget(int fd);

#endif
