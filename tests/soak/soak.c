/* A station on a pty is asked at full speed, with garbage between the requests: noise, texts cut off, frames for another station, frames
 * with a wrong check. Every request has to be answered as the library answers it over a table of its own; memory and CPU have to stay flat.
 *
 *   soak STATION TABLE REQUESTS RTU_REQUESTS SEED
 *
 * STATION is the program serial_station. REQUESTS are asked in MEWTOCOL, and as many in ASCII. RTU has its own, smaller count, because
 * silence has to part its frames. A line for each protocol; fails on the first wrong reply. */
#define _GNU_SOURCE
#include "../../examples/serial.h"
#include "../../examples/table_file.h"

#include <fcntl.h>
#include <poll.h>
#include <signal.h>
#include <stdio.h>
#include <stdlib.h>
#include <string.h>
#include <sys/ioctl.h>
#include <sys/wait.h>
#include <unistd.h>

enum {
    OWN = 1,
    OTHER = 2,
    LAST_ADDRESS = 420,      /* a little beyond the table, so that some requests are refused */
    MOST_IN_A_BURST = 4,
    MOST_GARBAGE = 200,
    PATIENCE = 5000,         /* milliseconds for the replies to a burst */
    RTU_PATIENCE = 1000,
    RTU_PAUSE = 6000,        /* microseconds; the gap at 115,200 baud is 1,750 */
    RTU_TRIES = 3,
    FRAME_ROOM = 600,
    MOST_GROWTH = 64,        /* kB */
    CPU_NOISE = 20000,       /* microseconds by which quarters may differ on a busy machine */
    IDLE_LIMIT = 20000       /* microseconds of CPU in a second without a byte */
};

typedef int32_t Modbus(uint16_t *words, size_t words_count, const uint8_t *attributes, size_t attributes_count, uint32_t profile,
                       uint32_t own, const uint8_t *frame, size_t frame_count, uint8_t *room, size_t room_count,
                       struct jeulgopae_counters *counters);

typedef struct {
    const char *name;
    Modbus *modbus; /* NULL for MEWTOCOL */
    size_t (*request)(uint8_t *frame, uint8_t station);
    int paced; /* silence parts frames */
} Protocol;

typedef struct {
    uint8_t bytes[8192];
    size_t count;
} Bytes;

static Table table; /* what the station's own table has to be */
static uint64_t state;
static unsigned long garbage_bytes, asked_again;

static uint32_t chance(uint32_t below) {
    state ^= state << 13;
    state ^= state >> 7;
    state ^= state << 17;
    return (uint32_t)((state >> 16) % below);
}

static void add(Bytes *to, const uint8_t *bytes, size_t count) {
    if (count > sizeof to->bytes - to->count) abort();
    memcpy(to->bytes + to->count, bytes, count);
    to->count += count;
}

/* ---- requests */

static size_t mewtocol_request(uint8_t *frame, uint8_t station) {
    uint16_t words[24];
    uint32_t contacts[8];
    uint8_t values[8];
    uint32_t command = 1 + chance(8), relays = command == JEULGOPAE_READ_RELAYS || command == JEULGOPAE_WRITE_RELAYS;
    uint32_t count = 1 + chance(relays ? 3 : 24), list = 1 + chance(8);
    uint32_t first = command == JEULGOPAE_WRITE_CONTACT ? 16 * 100 + chance(96) : relays ? 100 + chance(4) : chance(LAST_ADDRESS);
    uint32_t value = command == JEULGOPAE_FILL_WORDS ? chance(65536) : chance(2);
    int32_t n;
    for (int k = 0; k < 24; k++) words[k] = (uint16_t)chance(65536);
    for (int k = 0; k < 8; k++) contacts[k] = 16 * 100 + chance(96), values[k] = (uint8_t)chance(2);
    n = jeulgopae_mewtocol_write(station, JEULGOPAE_ORDINARY, command, first, first + count - 1, value, contacts, list, values, list, words, count, frame,
                                 FRAME_ROOM);
    if (n < 0) abort();
    return (size_t)n;
}

/* A request without its check. Of function 08 only the echo: what the station counts of the garbage is not known here. */
static size_t modbus_body(uint8_t *b, uint8_t station) {
    static const uint8_t functions[] = {0x01, 0x03, 0x05, 0x06, 0x08, 0x0F, 0x10, 0x16};
    uint8_t function = functions[chance(8)];
    int coils = function == 0x01 || function == 0x05 || function == 0x0F;
    uint32_t address = coils ? 160 + chance(90) : chance(LAST_ADDRESS), count = 1 + chance(coils ? 24 : 60);
    size_t n = 6;
    b[0] = station;
    b[1] = function;
    b[2] = (uint8_t)(address >> 8);
    b[3] = (uint8_t)address;
    b[4] = (uint8_t)chance(256);
    b[5] = (uint8_t)chance(256);
    if (function == 0x05) b[4] = chance(2) ? 0xFF : 0, b[5] = 0;
    if (function == 0x08) b[2] = b[3] = 0;
    if (function == 0x01 || function == 0x03 || function == 0x0F || function == 0x10) b[4] = 0, b[5] = (uint8_t)count;
    if (function == 0x16) b[n++] = (uint8_t)chance(256), b[n++] = (uint8_t)chance(256);
    if (function == 0x0F || function == 0x10) {
        uint8_t data = (uint8_t)(function == 0x0F ? (count + 7) / 8 : 2 * count);
        b[n++] = data;
        while (data-- > 0) b[n++] = (uint8_t)chance(256);
    }
    return n;
}

static size_t rtu_request(uint8_t *frame, uint8_t station) {
    size_t n = modbus_body(frame, station);
    int32_t crc = jeulgopae_crc(frame, n);
    frame[n++] = (uint8_t)crc;
    frame[n++] = (uint8_t)(crc >> 8);
    return n;
}

static size_t ascii_request(uint8_t *frame, uint8_t station) {
    uint8_t body[FRAME_ROOM / 2], sum = 0;
    size_t n = modbus_body(body, station), at = 1;
    for (size_t k = 0; k < n; k++) sum = (uint8_t)(sum + body[k]);
    body[n++] = (uint8_t)-sum;
    frame[0] = ':';
    for (size_t k = 0; k < n; k++, at += 2) sprintf((char *)frame + at, "%02X", body[k]);
    frame[at++] = '\r';
    frame[at++] = '\n';
    return at;
}

static const Protocol protocols[] = {
    {"mewtocol", NULL, mewtocol_request, 0},
    {"ascii", jeulgopae_ascii_station, ascii_request, 0},
    {"rtu", jeulgopae_rtu_station, rtu_request, 1},
};

/* What a station stays silent to; none of it may cost the frame after it. */
static size_t garbage(const Protocol *p, uint8_t *bytes) {
    size_t n = 0, end;
    switch (chance(6)) {
    case 0: return 0;
    case 1:
        for (end = 1 + chance(MOST_GARBAGE); n < end; n++) bytes[n] = (uint8_t)chance(256);
        return n;
    case 2:
        for (end = 1 + chance(20); n < end; n++) bytes[n] = (uint8_t)"\0\n\r\xFF"[chance(4)];
        return n;
    case 3: return chance((uint32_t)p->request(bytes, OWN)); /* cut off */
    case 4: return p->request(bytes, OTHER);
    }
    /* A wrong check: MEWTOCOL has a reply to it, so there it is a wrong start. */
    n = p->request(bytes, OWN);
    if (!p->modbus) bytes[0] = '$';
    else if (p->paced) bytes[n - 1] ^= 0x10;
    else bytes[n - 3] = bytes[n - 3] == '0' ? '1' : '0';
    return n;
}

/* ---- the station and its line */

typedef struct {
    int line; /* the pty's other end */
    int device;
    pid_t pid;
} Run;

static void fail(const Run *r, const char *why) {
    printf("BAD  %s\n", why);
    kill(r->pid, SIGTERM);
    exit(1);
}

static Run start(const char *program, const char *protocol, const char *table_path) {
    Run r;
    int say[2];
    char first[64];
    const char *reason, *name;
    r.line = posix_openpt(O_RDWR | O_NOCTTY);
    if (r.line < 0 || grantpt(r.line) != 0 || unlockpt(r.line) != 0 || !(name = ptsname(r.line)) || pipe(say) != 0) {
        perror("pty");
        exit(2);
    }
    /* Open here too, so that the line is there before the station is, and its unread bytes can be counted. */
    r.device = serial_open(name, 115200, 'N', &reason);
    r.pid = fork();
    if (r.pid == 0) {
        dup2(say[1], 1);
        execl(program, program, "-p", protocol, "-s", "1", "-b", "115200", name, table_path, (char *)NULL);
        _exit(127);
    }
    close(say[1]);
    if (r.device < 0 || read(say[0], first, sizeof first) <= 0) {
        fprintf(stderr, "%s did not start\n", program);
        exit(2);
    }
    return r;
}

static void put(const Run *r, const uint8_t *bytes, size_t count) {
    size_t cut = count > 1 && chance(4) == 0 ? chance((uint32_t)count) : 0;
    if (write(r->line, bytes, cut) != (ssize_t)cut || write(r->line, bytes + cut, count - cut) != (ssize_t)(count - cut))
        fail(r, "the line took less than was written");
}

/* So many bytes, or as many as come within the patience. */
static size_t get(const Run *r, uint8_t *bytes, size_t count, int patience) {
    struct pollfd p = {r->line, POLLIN, 0};
    size_t n = 0;
    while (n < count && poll(&p, 1, patience) > 0) {
        ssize_t got = read(r->line, bytes + n, count - n);
        if (got <= 0) break;
        n += (size_t)got;
    }
    return n;
}

static int32_t expected(const Protocol *p, const uint8_t *frame, size_t count, uint8_t *room) {
    static struct jeulgopae_counters counters; /* of these calls, not of the line: nothing here looks at it */
    if (p->modbus)
        return p->modbus(table.words, table.count, table.attributes, table.count, JEULGOPAE_NO_PROFILE, OWN, frame, count, room,
                         JEULGOPAE_STATION_ROOM, &counters);
    return jeulgopae_mewtocol_station(table.words, table.count, table.attributes, table.count, JEULGOPAE_NO_PROFILE, OWN, frame,
                                      count, room, JEULGOPAE_STATION_ROOM);
}

/* ---- a burst of texts */

static unsigned burst(const Run *r, const Protocol *p, unsigned left) {
    Bytes said = {.count = 0}, want = {.count = 0};
    uint8_t frame[FRAME_ROOM], room[JEULGOPAE_STATION_ROOM], came[sizeof want.bytes];
    unsigned count = 1 + chance(left < MOST_IN_A_BURST ? left : MOST_IN_A_BURST);
    for (unsigned k = 0; k < count; k++) {
        int32_t n;
        size_t length = garbage(p, frame);
        add(&said, frame, length);
        garbage_bytes += length;
        length = p->request(frame, OWN);
        add(&said, frame, length);
        n = expected(p, frame, length, room);
        if (n < 0) fail(r, "a request that is none");
        add(&want, room, (size_t)n);
    }
    put(r, said.bytes, said.count);
    if (get(r, came, want.count, PATIENCE) != want.count) fail(r, "a request was not answered");
    if (memcmp(came, want.bytes, want.count) != 0) fail(r, "a reply is not what the library gives");
    return count;
}

/* ---- one RTU frame at a time */

/* Until the station has read all, and a gap longer. */
static void pause_after(const Run *r) {
    int unread = 1;
    while (ioctl(r->device, FIONREAD, &unread) == 0 && unread > 0) usleep(200);
    usleep(RTU_PAUSE);
}

static unsigned paced(const Run *r, const Protocol *p) {
    uint8_t frame[FRAME_ROOM], room[JEULGOPAE_STATION_ROOM], came[JEULGOPAE_STATION_ROOM];
    size_t length = garbage(p, frame);
    int32_t n;
    if (length > 0) {
        put(r, frame, length);
        garbage_bytes += length;
        /* Bytes that were cut off may have a right check by chance. */
        n = expected(p, frame, length, room);
        if (n > 0) get(r, came, (size_t)n, RTU_PATIENCE);
        pause_after(r);
    }
    length = p->request(frame, OWN);
    n = expected(p, frame, length, room);
    if (n < 0) fail(r, "a request that is none");
    for (int tries = 1;; tries++) {
        size_t got;
        if (write(r->line, frame, length) != (ssize_t)length) fail(r, "the line took less than was written");
        got = get(r, came, (size_t)n, RTU_PATIENCE);
        if (got == (size_t)n && memcmp(came, room, got) == 0) return 1;
        if (got > 0) fail(r, "a reply is not what the library gives");
        /* On a busy machine the station may not run in the pause, and sees no gap: a master asks again. */
        if (tries == RTU_TRIES) fail(r, "a request was not answered");
        asked_again++;
        pause_after(r);
    }
}

/* ---- memory and CPU */

static long memory_of(pid_t pid) {
    char path[64], line[128];
    long kb = -1;
    FILE *f;
    snprintf(path, sizeof path, "/proc/%d/status", (int)pid);
    f = fopen(path, "r");
    while (f && fgets(line, sizeof line, f)) sscanf(line, "VmRSS: %ld", &kb);
    if (f) fclose(f);
    return kb;
}

static double cpu_of(pid_t pid) {
    char path[64];
    double ns = -1;
    FILE *f;
    snprintf(path, sizeof path, "/proc/%d/schedstat", (int)pid);
    f = fopen(path, "r");
    if (f && fscanf(f, "%lf", &ns) != 1) ns = -1;
    if (f) fclose(f);
    return ns / 1000;
}

static void soak(const char *program, const char *table_path, const Protocol *p, unsigned requests) {
    Run r = start(program, p->name, table_path);
    unsigned done = 0, quarter = 0;
    double cpu[5], idle;
    long memory[5];
    int64_t begin = serial_clock();
    if (table_read(&table, table_path) != 0) exit(2);
    garbage_bytes = asked_again = 0;
    cpu[0] = cpu_of(r.pid);
    memory[0] = memory_of(r.pid);
    while (done < requests) {
        done += p->paced ? paced(&r, p) : burst(&r, p, requests - done);
        while (quarter < 4 && done >= (uint64_t)requests * (quarter + 1) / 4) {
            quarter++;
            cpu[quarter] = cpu_of(r.pid);
            memory[quarter] = memory_of(r.pid);
        }
    }
    begin = serial_clock() - begin;
    sleep(1);
    idle = cpu_of(r.pid) - cpu[4];
    if (memory[4] < 0 || cpu[4] < 0) fail(&r, "the system doesn't tell memory and CPU in /proc");
    if (memory[4] - memory[1] > MOST_GROWTH) fail(&r, "memory grows");
    if (cpu[4] - cpu[3] > 2 * (cpu[2] - cpu[1]) + CPU_NOISE) fail(&r, "CPU grows");
    if (idle > IDLE_LIMIT) fail(&r, "an idle station uses CPU");
    printf("ok   %-8s %u requests answered in %.1f s, %lu bytes of garbage, %lu asked again; memory %ld kB, then %ld; "
           "CPU in quarters %.0f, %.0f, %.0f, %.0f ms, idle %.1f\n",
           p->name, done, (double)begin / 1e6, garbage_bytes, asked_again, memory[1], memory[4], (cpu[1] - cpu[0]) / 1000,
           (cpu[2] - cpu[1]) / 1000, (cpu[3] - cpu[2]) / 1000, (cpu[4] - cpu[3]) / 1000, idle / 1000);
    fflush(stdout);
    kill(r.pid, SIGTERM);
    waitpid(r.pid, NULL, 0);
    close(r.line);
    close(r.device);
}

int main(int argc, char **argv) {
    unsigned requests, rtu_requests;
    if (argc != 6) {
        fprintf(stderr, "usage: soak STATION TABLE REQUESTS RTU_REQUESTS SEED\n");
        return 2;
    }
    requests = (unsigned)strtoul(argv[3], NULL, 10);
    rtu_requests = (unsigned)strtoul(argv[4], NULL, 10);
    state = strtoull(argv[5], NULL, 10) | 1;
    signal(SIGPIPE, SIG_IGN);
    soak(argv[1], argv[2], &protocols[0], requests);
    soak(argv[1], argv[2], &protocols[1], requests);
    soak(argv[1], argv[2], &protocols[2], rtu_requests);
    printf("%u requests, every one answered\n", 2 * requests + rtu_requests);
    return 0;
}
