/* Bytes put on a line and taken off it, for the tests of noise and bursts.
 *
 *   line say DEVICE MS PART...   writes each part. Prints what came until MS of silence.
 *   line reply DEVICE PART...    for each text that CR closes, writes the next part; one that begins with & it writes without a text.
 *
 * A part is written at once, and is text with \r, \n, \0 and \xHH; what is printed is so written too. +N waits N milliseconds. The device
 * is set raw. */
#define _DEFAULT_SOURCE
#include <ctype.h>
#include <fcntl.h>
#include <poll.h>
#include <stdint.h>
#include <stdio.h>
#include <stdlib.h>
#include <string.h>
#include <termios.h>
#include <unistd.h>

static uint8_t escaped(const char **text) {
    char pair[3] = {0};
    switch (*(*text)++) {
    case 'r': return '\r';
    case 'n': return '\n';
    case '0': return 0;
    case 'x':
        memcpy(pair, *text, 2);
        *text += 2;
        return (uint8_t)strtol(pair, NULL, 16);
    }
    return '\\';
}

static void put(int fd, const char *text) {
    uint8_t bytes[4096];
    size_t n = 0;
    while (*text && n < sizeof bytes) {
        char c = *text++;
        bytes[n++] = c == '\\' ? escaped(&text) : (uint8_t)c;
    }
    if (write(fd, bytes, n) != (ssize_t)n) perror("write");
}

static void print_byte(uint8_t b) {
    if (b == '\r') printf("\\r");
    else if (b == '\n') printf("\\n");
    else if (isprint(b)) printf("%c", b);
    else printf("\\x%02X", b);
}

static int get(int fd, uint8_t *byte, int ms) {
    struct pollfd p = {fd, POLLIN, 0};
    return poll(&p, 1, ms) > 0 && read(fd, byte, 1) == 1;
}

static int open_raw(const char *device) {
    struct termios t;
    int fd = open(device, O_RDWR | O_NOCTTY);
    if (fd < 0 || tcgetattr(fd, &t) != 0) {
        perror(device);
        exit(2);
    }
    cfmakeraw(&t);
    tcsetattr(fd, TCSANOW, &t);
    return fd;
}

static void await_text(int fd) {
    uint8_t byte;
    do if (!get(fd, &byte, -1)) exit(1);
    while (byte != '\r');
}

static void play(int fd, int replying, char **parts) {
    for (; *parts; parts++) {
        if (**parts == '+') usleep((useconds_t)atoi(*parts + 1) * 1000);
        else if (**parts == '&') put(fd, *parts + 1);
        else {
            if (replying) await_text(fd);
            put(fd, *parts);
        }
    }
}

int main(int argc, char **argv) {
    uint8_t byte;
    int fd, say = argc > 4 && strcmp(argv[1], "say") == 0;
    if (argc < 4) return 2;
    fd = open_raw(argv[2]);
    play(fd, !say, argv + (say ? 4 : 3));
    while (say && get(fd, &byte, atoi(argv[3]))) print_byte(byte);
    if (say) printf("\n");
    return 0;
}
