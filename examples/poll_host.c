/* A MEWTOCOL host: asks a station on a serial device for words and prints them. More than 27 words are asked in several requests. */
#define _GNU_SOURCE
#include "framing.h"
#include "jeulgopae.h"
#include "options.h"
#include "serial.h"

#include <getopt.h>
#include <stdio.h>
#include <string.h>
#include <unistd.h>

static const char usage[] =
    "usage: poll_host [-s station] [-b baud] [-P N|E|O] [-t time-out in ms] [-r retries] [-x] device first [last]\n"
    "  first and last are data registers: 105 is DT00105\n"
    "  -x asks with expanded frames: 509 words a request, where others read 27\n"
    "poll_host --version | --help\n";

/* What the program ends with. */
enum {
    SUCCESS = 0,     /* all words came */
    NO_DEVICE = 1,   /* the device can't be used, or went away */
    MISUSE = 2,      /* options that can't be */
    NO_REPLY = 3,    /* no good reply, after all tries */
    ERROR_REPLY = 4  /* the station replied with an error */
};

enum { ORDINARY_WORDS = 27, EXPANDED_WORDS = 509, LAST_REGISTER = 99999 };

typedef struct {
    const char *device;
    long station, baud, timeout, retries, first, last; /* the time-out is in milliseconds */
    char parity;
    uint32_t form;
} Options;

/* Words asked for in a form, from first to last. */
typedef struct {
    uint32_t station, form, first, last;
} Asking;

/* The last frame that came, and the library's answer to it: 0 where none came. The line goes on after it, so it is kept apart. */
typedef struct {
    uint8_t frame[LONGEST_FRAME + 1];
    size_t count;
    int32_t answer;
} Heard;

static const char *error_meaning(int error) {
    switch (error) {
    case 0x40: return "the station found the check wrong";
    case 0x41: return "the station found the format wrong";
    case 0x42: return "the station doesn't know the command";
    case 0x60: return "the station found a letter, count or order wrong";
    case 0x61: return "the station found the data wrong";
    case 0x66: return "a word isn't there, or can't be read";
    }
    return "an error that the station doesn't document";
}

static const char *refusal_meaning(int32_t answer) {
    switch (answer) {
    case JEULGOPAE_BAD_STATION: return "a station is 1 to 99";
    case JEULGOPAE_SMALL_ROOM: return "the room for the request is too small";
    case JEULGOPAE_NO_REQUEST: return "no request can ask for that";
    case JEULGOPAE_BAD_SHAPE: return "what came is no MEWTOCOL frame";
    case JEULGOPAE_BAD_CHECK: return "the reply's check is wrong";
    case JEULGOPAE_OTHER_STATION: return "another station replied";
    }
    return "a refusal that this program doesn't know";
}

/* -1 to go on, or the status to end with. */
static int take_options(Options *o, int argc, char **argv) {
    static const struct option longs[] = {{"version", no_argument, NULL, 'V'}, {"help", no_argument, NULL, 'h'}, {NULL, 0, NULL, 0}};
    int c, wrong = 0;
    *o = (Options){.station = 1, .baud = 9600, .timeout = 1000, .retries = 2, .parity = 'N', .form = JEULGOPAE_ORDINARY};
    while ((c = getopt_long(argc, argv, "s:b:P:t:r:x", longs, NULL)) != -1) {
        switch (c) {
        case 's': wrong |= take_number("-s", optarg, "a station", 1, 99, &o->station); break;
        case 'b': wrong |= take_baud(optarg, &o->baud); break;
        case 'P': wrong |= take_parity(optarg, &o->parity); break;
        case 't': wrong |= take_number("-t", optarg, "a time-out in milliseconds", 1, 60000, &o->timeout); break;
        case 'r': wrong |= take_number("-r", optarg, "a count of retries", 0, 100, &o->retries); break;
        case 'x': o->form = JEULGOPAE_EXPANDED; break;
        case 'V': printf("poll_host (jeulgopae) %s\n", JEULGOPAE_VERSION); return SUCCESS;
        case 'h': printf("%s", usage); return SUCCESS;
        default: fprintf(stderr, "%s", usage); return MISUSE;
        }
    }
    if (wrong) return MISUSE;
    if (argc - optind < 2 || argc - optind > 3) {
        fprintf(stderr, "%s", usage);
        return MISUSE;
    }
    o->device = argv[optind];
    wrong |= take_number("first", argv[optind + 1], "a data register", 0, LAST_REGISTER, &o->first);
    o->last = o->first;
    if (argc - optind == 3) wrong |= take_number("last", argv[optind + 2], "a data register", 0, LAST_REGISTER, &o->last);
    if (wrong) return MISUSE;
    if (o->first > o->last) {
        fprintf(stderr, "%ld to %ld: the first register is above the last\n", o->first, o->last);
        return MISUSE;
    }
    return -1;
}

static void print_words(const Asking *a, const uint8_t *data, size_t count) {
    for (uint32_t k = 0; k <= a->last - a->first; k++) {
        int32_t word = jeulgopae_data_word(data, count, k);
        printf("DT%05u %04X %5d\n", a->first + k, (unsigned)word, (int)word);
    }
}

/* Listens for the reply until the time-out. What is no reply to this (noise, an echo of the request, another station) is passed over.
 * Gives the reply and the library's answer to it; else the last frame and its refusal. */
static int hear(int fd, const Options *o, const Asking *a, Heard *h) {
    int64_t end = serial_clock() + (int64_t)o->timeout * 1000, left;
    Framing f;
    framing_start(&f, &mewtocol_form);
    h->answer = 0;
    while ((left = end - serial_clock()) > 0) {
        uint8_t c;
        int n = serial_read(fd, &c, 1, left);
        if (n < 0) return NO_DEVICE;
        if (n == 0 || !framing_byte(&f, c)) continue;
        memcpy(h->frame, f.bytes, f.count);
        h->count = f.count;
        h->answer = jeulgopae_mewtocol_read(a->station, a->form, JEULGOPAE_READ_WORDS, a->first, a->last, 0, NULL, 0, NULL, 0, NULL, 0,
                                            h->frame, h->count);
        if (JEULGOPAE_IS_ERROR_REPLY(h->answer)) return ERROR_REPLY;
        if (h->answer >= 0) return SUCCESS;
    }
    return NO_REPLY;
}

/* A reply doesn't say to which request: one that comes after its time-out would be taken for the next one's. So the line is listened to
 * until nothing has come for a time-out. */
static int settle(int fd, const Options *o) {
    uint8_t late[64];
    int n;
    do n = serial_read(fd, late, sizeof late, (int64_t)o->timeout * 1000);
    while (n > 0);
    return n < 0 ? NO_DEVICE : SUCCESS;
}

/* Asks once. */
static int ask_once(int fd, const Options *o, const Asking *a, Heard *h) {
    uint8_t request[JEULGOPAE_EXPANDED_ROOM];
    h->answer = jeulgopae_mewtocol_write(a->station, a->form, JEULGOPAE_READ_WORDS, a->first, a->last, 0, NULL, 0, NULL, 0, NULL, 0,
                                         request, sizeof request);
    if (h->answer < 0) return MISUSE;
    serial_forget(fd);
    if (serial_write(fd, request, (size_t)h->answer) < 0) return NO_DEVICE;
    return hear(fd, o, a, h);
}

/* The frame, and a mark under the place that the library tells, as compilers show a line. Each character takes one column. */
static void mark_place(const Heard *h) {
    fprintf(stderr, "  ");
    for (size_t k = 0; k < h->count; k++) {
        int printing = h->frame[k] >= 0x20 && h->frame[k] <= 0x7E;
        fputc(printing ? h->frame[k] : '.', stderr);
    }
    fprintf(stderr, "\n  %*s^\n", (int)JEULGOPAE_PLACE_OF(h->answer), "");
}

static void tell_refusal(const Heard *h) {
    if (!JEULGOPAE_IS_NOT_THIS(h->answer)) {
        fprintf(stderr, "%s\n", refusal_meaning(h->answer));
        return;
    }
    if ((size_t)JEULGOPAE_PLACE_OF(h->answer) < h->count)
        fprintf(stderr, "character %d is none that may stand there\n", (int)JEULGOPAE_PLACE_OF(h->answer));
    else
        fprintf(stderr, "not a reply to this request\n");
    mark_place(h);
}

static void tell(const Options *o, int status, const Heard *h) {
    if (status == NO_DEVICE) fprintf(stderr, "%s: the device went away\n", o->device);
    if (status == MISUSE) fprintf(stderr, "not asked: %s\n", refusal_meaning(h->answer));
    if (status == ERROR_REPLY)
        fprintf(stderr, "error %02X: %s\n", JEULGOPAE_ERROR_OF(h->answer), error_meaning(JEULGOPAE_ERROR_OF(h->answer)));
    if (status == NO_REPLY) {
        fprintf(stderr, "no %sreply within %ld ms, asked %ld time%s%s", h->answer ? "good " : "", o->timeout, o->retries + 1,
                o->retries ? "s" : "", h->answer ? ": " : "\n");
        if (h->answer) tell_refusal(h);
    }
}

/* Asks, and again where no good reply came or the station found the check wrong: both are the line's doing. */
static int ask(int fd, const Options *o, const Asking *a) {
    Heard h;
    long tries = 0;
    int status;
    do status = ask_once(fd, o, a, &h);
    while (tries++ < o->retries && (status == NO_REPLY || (status == ERROR_REPLY && JEULGOPAE_ERROR_OF(h.answer) == 0x40)));
    if (status == SUCCESS) print_words(a, h.frame + JEULGOPAE_REPLY_DATA, (size_t)h.answer);
    tell(o, status, &h);
    return status == SUCCESS && tries > 1 && a->last < (uint32_t)o->last ? settle(fd, o) : status;
}

int main(int argc, char **argv) {
    Options o;
    const char *reason;
    long most;
    int fd, status = take_options(&o, argc, argv);
    if (status >= 0) return status;
    if ((fd = serial_open(o.device, o.baud, o.parity, &reason)) < 0) {
        fprintf(stderr, "%s: %s\n", o.device, reason);
        return NO_DEVICE;
    }
    status = SUCCESS;
    most = o.form == JEULGOPAE_EXPANDED ? EXPANDED_WORDS : ORDINARY_WORDS;
    for (long k = o.first; k <= o.last && status == SUCCESS; k += most) {
        long end = k + most - 1 < o.last ? k + most - 1 : o.last;
        Asking a = {(uint32_t)o.station, o.form, (uint32_t)k, (uint32_t)end};
        status = ask(fd, &o, &a);
    }
    close(fd);
    return status;
}
