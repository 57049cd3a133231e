/* A station on a serial device: takes frames off the line, has the library answer them over a table, puts the replies on the line.
 *
 * The library is given one whole frame a call and says nothing about time. What begins and ends a frame is told by framing.h; what is
 * done when the device goes away is this file's part. */
#define _GNU_SOURCE
#include "catalogue_file.h"
#include "framing.h"
#include "options.h"
#include "serial.h"
#include "table_file.h"

#include <getopt.h>
#include <stdio.h>
#include <string.h>
#include <unistd.h>

static const char usage[] =
    "usage: serial_station [-p rtu|ascii|mewtocol] [-s station] [-b baud] [-P N|E|O] [-g gap in ms] [-m model] [-w] [-v] [-c]\n"
    "                      device table\n"
    "       serial_station ... -C catalogue -N name device [table]\n"
    "  -m  refuse what this model refuses: hl-g2-50, or none\n"
    "  -w  wait for the device when it isn't there, and when it goes away\n"
    "  -v  print what is heard and said\n"
    "  -c  print the line's counters after each frame (rtu and ascii)\n"
    "  -C  a catalogue file: the attributes are those of the name that -N gives, the words the table's, or 0\n"
    "serial_station --version | --help\n";

enum { SUCCESS = 0, FAILURE = 1, MISUSE = 2 };
enum { REOPEN_WAIT = 250000 }; /* microseconds between two tries to open a device that isn't there */

typedef int32_t Modbus(uint16_t *words, size_t words_count, const uint8_t *attributes, size_t attributes_count, uint32_t profile,
                       uint32_t own, const uint8_t *frame, size_t frame_count, uint8_t *room, size_t room_count,
                       struct jeulgopae_counters *counters);

typedef struct {
    const char *name;
    Modbus *modbus; /* NULL for MEWTOCOL, which counts nothing */
    const Form *form;
    long last_station;
} Protocol;

static const Protocol protocols[] = {
    {"rtu", jeulgopae_rtu_station, &rtu_form, 247},
    {"ascii", jeulgopae_ascii_station, &ascii_form, 247},
    {"mewtocol", NULL, &mewtocol_form, 99},
};

/* The models whose limits the library knows. */
typedef struct {
    const char *name;
    uint32_t profile;
} Model;

static const Model models[] = {{"none", JEULGOPAE_NO_PROFILE}, {"hl-g2-50", JEULGOPAE_HL_G2_50}};

typedef struct {
    const Protocol *protocol;
    const Model *model;
    const char *device, *table; /* without a table the catalogue says which words there are */
    const char *catalogue, *name;
    long station, baud;
    int64_t gap; /* microseconds */
    char parity;
    int wait, verbose, counters;
} Options;

/* The table is the program's own and only lent to the library: other parts of a program may read and write it between calls. So is the
 * record of what the line brought: one for the line, lent to each Modbus call. A master reads and clears it with function 08. */
static Table table;
static struct jeulgopae_counters counters;

static int take_protocol(const char *text, const Protocol **protocol) {
    for (size_t k = 0; k < sizeof protocols / sizeof *protocols; k++) {
        if (strcmp(protocols[k].name, text) == 0) {
            *protocol = &protocols[k];
            return 0;
        }
    }
    fprintf(stderr, "-p %s: a protocol is rtu, ascii or mewtocol\n", text);
    return -1;
}

static int take_model(const char *text, const Model **model) {
    for (size_t k = 0; k < sizeof models / sizeof *models; k++) {
        if (strcmp(models[k].name, text) == 0) {
            *model = &models[k];
            return 0;
        }
    }
    fprintf(stderr, "-m %s: a model is hl-g2-50 or none\n", text);
    return -1;
}

/* -1 to go on, or the status to end with. */
static int take_options(Options *o, int argc, char **argv) {
    static const struct option longs[] = {{"version", no_argument, NULL, 'V'}, {"help", no_argument, NULL, 'h'}, {NULL, 0, NULL, 0}};
    const char *station = "1";
    long gap = 0;
    int c, wrong = 0;
    *o = (Options){.protocol = &protocols[0], .model = &models[0], .baud = 9600, .parity = 'N'};
    while ((c = getopt_long(argc, argv, "p:s:b:P:g:m:wvcC:N:", longs, NULL)) != -1) {
        switch (c) {
        case 'p': wrong |= take_protocol(optarg, &o->protocol); break;
        case 's': station = optarg; break;
        case 'b': wrong |= take_baud(optarg, &o->baud); break;
        case 'P': wrong |= take_parity(optarg, &o->parity); break;
        case 'g': wrong |= take_number("-g", optarg, "a gap in milliseconds", 1, 60000, &gap); break;
        case 'm': wrong |= take_model(optarg, &o->model); break;
        case 'w': o->wait = 1; break;
        case 'v': o->verbose = 1; break;
        case 'c': o->counters = 1; break;
        case 'C': o->catalogue = optarg; break;
        case 'N': o->name = optarg; break;
        case 'V': printf("serial_station (jeulgopae) %s\n", JEULGOPAE_VERSION); return SUCCESS;
        case 'h': printf("%s", usage); return SUCCESS;
        default: fprintf(stderr, "%s", usage); return MISUSE;
        }
    }
    /* The protocol says which stations there are, wherever -p stands. */
    wrong |= take_number("-s", station, "a station", 1, o->protocol->last_station, &o->station);
    if (o->counters && !o->protocol->modbus) {
        fprintf(stderr, "-c: %s counts nothing\n", o->protocol->name);
        wrong = -1;
    }
    if (!o->catalogue != !o->name) {
        fprintf(stderr, "-C and -N go together: a catalogue file, and a name in it\n");
        wrong = -1;
    }
    if (wrong) return MISUSE;
    if (argc - optind != 2 && !(o->catalogue && argc - optind == 1)) {
        fprintf(stderr, "%s", usage);
        return MISUSE;
    }
    o->device = argv[optind];
    o->table = argv[optind + 1]; /* NULL behind the last */
    o->gap = gap ? (int64_t)gap * 1000 : framing_gap(o->protocol->form, o->baud);
    return -1;
}

static int32_t answer(const Options *o, const uint8_t *frame, size_t count, uint8_t *room) {
    uint32_t profile = o->model->profile, own = (uint32_t)o->station;
    if (o->protocol->modbus)
        return o->protocol->modbus(table.words, table.count, table.attributes, table.count, profile, own, frame, count, room,
                                   JEULGOPAE_STATION_ROOM, &counters);
    return jeulgopae_mewtocol_station(table.words, table.count, table.attributes, table.count, profile, own, frame, count, room,
                                      JEULGOPAE_STATION_ROOM);
}

static void print_bytes(const char *what, const uint8_t *bytes, size_t n) {
    printf("%s", what);
    for (size_t k = 0; k < n; k++) printf(" %02X", bytes[k]);
    printf("\n");
}

static void print_passed_over(Framing *f) {
    if (f->passed_over) printf("bytes passed over: %zu\n", f->passed_over);
    f->passed_over = 0;
}

static void print_counters(void) {
    printf("bus %d, damaged %d, exceptions %d, own %d, unanswered %d\n", counters.bus, counters.damaged, counters.exceptions,
           counters.own, counters.unanswered);
}

/* One frame: its reply goes on the line. 0, or -1 when the device is gone. */
static int hear(int fd, const Options *o, Framing *f) {
    uint8_t room[JEULGOPAE_STATION_ROOM];
    int32_t n = answer(o, f->bytes, f->count, room);
    int written;
    if (o->verbose) {
        print_passed_over(f);
        print_bytes("heard", f->bytes, f->count);
    }
    if (o->verbose && n < 0) printf("silent, number %d%s\n", -(int)n, n == JEULGOPAE_CARRIED_OUT ? ": carried out" : "");
    if (o->verbose && n > 0) print_bytes("said ", room, (size_t)n);
    if (o->counters) print_counters();
    /* Below 0 there is no reply, whatever the number: nothing goes on the line, and a frame for all may have been carried out. */
    if (n < 0) return 0;
    written = serial_write(fd, room, (size_t)n);
    if (written > 0) fprintf(stderr, "%s: the device takes no bytes; a reply is lost\n", o->device);
    return written < 0 ? -1 : 0;
}

/* Answers what the line brings until the device is gone. */
static void serve(int fd, const Options *o) {
    Framing f;
    uint8_t burst[256];
    framing_start(&f, o->protocol->form);
    for (;;) {
        int begun = f.count > 0 && !f.closed;
        int n = serial_read(fd, burst, sizeof burst, begun ? o->gap : -1);
        if (n < 0) return;
        if (n == 0 && framing_silence(&f) && hear(fd, o, &f) != 0) return;
        for (int k = 0; k < n; k++)
            if (framing_byte(&f, burst[k]) && hear(fd, o, &f) != 0) return;
    }
}

/* The device, waited for where that is asked; -1 and a message if it can't be had. A reason is told once. */
static int open_device(const Options *o) {
    const char *told = "";
    for (;;) {
        const char *reason;
        int fd = serial_open(o->device, o->baud, o->parity, &reason);
        if (fd >= 0) return fd;
        if (strcmp(reason, told) != 0) fprintf(stderr, "%s: %s%s\n", o->device, reason, o->wait ? "; waiting for it" : "");
        if (!o->wait) return -1;
        told = reason;
        usleep(REOPEN_WAIT);
    }
}

int main(int argc, char **argv) {
    Options o;
    uint8_t room[JEULGOPAE_STATION_ROOM];
    int32_t n;
    int status = take_options(&o, argc, argv);
    if (status >= 0) return status;
    if (o.table && table_read(&table, o.table) != 0) return FAILURE;
    if (o.catalogue) {
        table.count = JEULGOPAE_TABLE_LIMIT;
        if (catalogue_read(table.attributes, table.count, o.catalogue, o.name) != 0) return FAILURE;
    }

    /* Table, station and room are ours to get right, and are looked at before any frame: an empty one shows whether they are. */
    n = answer(&o, NULL, 0, room);
    if (n != JEULGOPAE_BAD_SHAPE) {
        fprintf(stderr, "station %ld, %zu words: refused by number %d\n", o.station, table.count, -(int)n);
        return FAILURE;
    }

    setvbuf(stdout, NULL, _IOLBF, 0);
    for (;;) {
        int fd = open_device(&o);
        if (fd < 0) return FAILURE;
        printf("station %ld, %s, %zu words\n", o.station, o.protocol->name, table.count);
        serve(fd, &o);
        close(fd);
        fprintf(stderr, "%s: the device went away\n", o.device);
        if (!o.wait) return FAILURE;
    }
}
