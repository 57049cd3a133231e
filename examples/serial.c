#define _GNU_SOURCE
#include "serial.h"

#include <errno.h>
#include <fcntl.h>
#include <poll.h>
#include <string.h>
#include <sys/ioctl.h>
#include <termios.h>
#include <time.h>
#include <unistd.h>
#ifdef __linux__
#include <linux/serial.h>
#endif

const SerialSpeed serial_speeds[] = {
    {1200, B1200},   {2400, B2400},   {4800, B4800},   {9600, B9600},
    {19200, B19200}, {38400, B38400}, {57600, B57600}, {115200, B115200},
};
const size_t serial_speeds_count = sizeof serial_speeds / sizeof *serial_speeds;

enum { WRITE_PATIENCE = 5000 }; /* milliseconds that a device may take no byte */

int64_t serial_clock(void) {
    struct timespec t;
    clock_gettime(CLOCK_MONOTONIC, &t);
    return (int64_t)t.tv_sec * 1000000 + t.tv_nsec / 1000;
}

static speed_t speed_of(long baud) {
    for (size_t k = 0; k < serial_speeds_count; k++)
        if (serial_speeds[k].baud == baud) return serial_speeds[k].code;
    return B0;
}

/* USB adapters hold bytes back, some for longer than the gap between two frames: asked to, many pass them on at once. One that can't be
 * asked works on as it is. */
static void hurry(int fd) {
#ifdef __linux__
    struct serial_struct s;
    if (ioctl(fd, TIOCGSERIAL, &s) != 0) return;
    s.flags |= (int)ASYNC_LOW_LATENCY;
    ioctl(fd, TIOCSSERIAL, &s);
#else
    (void)fd;
#endif
}

static int set_up(int fd, long baud, char parity) {
    struct termios t;
    if (tcgetattr(fd, &t) != 0) return -1;
    t.c_iflag = 0;
    t.c_oflag = 0;
    t.c_lflag = 0;
    t.c_cflag = CS8 | CREAD | CLOCAL;
    if (parity != 'N') t.c_cflag |= PARENB | (parity == 'O' ? PARODD : 0);
    /* With at least one byte asked for, a read of none means that the device is gone. */
    t.c_cc[VMIN] = 1;
    t.c_cc[VTIME] = 0;
    if (cfsetspeed(&t, speed_of(baud)) != 0 || tcsetattr(fd, TCSANOW, &t) != 0) return -1;
    hurry(fd);
    tcflush(fd, TCIOFLUSH);
    return 0;
}

int serial_open(const char *device, long baud, char parity, const char **reason) {
    int fd = open(device, O_RDWR | O_NOCTTY | O_NONBLOCK | O_CLOEXEC);
    if (fd >= 0 && set_up(fd, baud, parity) == 0) return fd;
    *reason = errno == ENOTTY ? "not a serial device" : strerror(errno);
    if (fd >= 0) close(fd);
    return -1;
}

int serial_read(int fd, uint8_t *to, size_t count, int64_t microseconds) {
    struct pollfd p = {fd, POLLIN, 0};
    struct timespec wait = {(time_t)(microseconds / 1000000), (long)(microseconds % 1000000) * 1000};
    for (;;) {
        ssize_t n;
        int ready = ppoll(&p, 1, microseconds < 0 ? NULL : &wait, NULL);
        if (ready == 0) return 0;
        if (ready < 0 && errno == EINTR) continue;
        if (ready < 0 || !(p.revents & POLLIN)) return -1;
        n = read(fd, to, count);
        if (n > 0) return (int)n;
        if (n == 0 || (errno != EINTR && errno != EAGAIN)) return -1;
    }
}

int serial_write(int fd, const uint8_t *bytes, size_t count) {
    struct pollfd p = {fd, POLLOUT, 0};
    while (count > 0) {
        ssize_t n = write(fd, bytes, count);
        if (n > 0) {
            bytes += n;
            count -= (size_t)n;
        } else if (n < 0 && errno == EAGAIN) {
            if (poll(&p, 1, WRITE_PATIENCE) == 0) {
                tcflush(fd, TCOFLUSH);
                return 1;
            }
        } else if (n == 0 || errno != EINTR) {
            return -1;
        }
    }
    return 0;
}

void serial_forget(int fd) { tcflush(fd, TCIFLUSH); }
