/* A second implementation of include/jeulgopae.h. It stands on the scope alone and shares nothing with the engine or its
 * definitions. It is meant to be read beside the scope, rule by rule: plain, not fast. Where it and the library give different
 * answers, one of the two misreads the scope. */
#include "reference.h"

#include <string.h>

/* ---- characters and checks ---- */

static int is_digit(uint8_t c) { return c >= '0' && c <= '9'; }

static int is_hex(uint8_t c) { return is_digit(c) || (c >= 'A' && c <= 'F'); }

static unsigned hex_value(uint8_t c) { return is_digit(c) ? c - '0' : c - 'A' + 10; }

static uint8_t hex_character(unsigned v) { return "0123456789ABCDEF"[v & 15]; }

static void put_hex_byte(uint8_t *to, unsigned byte) {
    to[0] = hex_character(byte >> 4);
    to[1] = hex_character(byte);
}

/* A word of MEWTOCOL: four characters, low byte first. */
static void put_word(uint8_t *to, uint16_t word) {
    put_hex_byte(to, word & 0xFF);
    put_hex_byte(to + 2, word >> 8);
}

static uint16_t word_at(const uint8_t *c) {
    unsigned low = hex_value(c[0]) * 16 + hex_value(c[1]);
    unsigned high = hex_value(c[2]) * 16 + hex_value(c[3]);
    return (uint16_t)(high * 256 + low);
}

static void put_decimal(uint8_t *to, unsigned digits, uint32_t value) {
    while (digits > 0) {
        digits--;
        to[digits] = (uint8_t)('0' + value % 10);
        value /= 10;
    }
}

static uint32_t decimal_at(const uint8_t *c, unsigned digits) {
    uint32_t value = 0;
    for (unsigned k = 0; k < digits; k++) value = value * 10 + (c[k] - '0');
    return value;
}

/* The digit readers say at which character, counted from 0, the first stands that isn't allowed; `count` where there is none. */
static size_t first_no_digit(const uint8_t *c, size_t count) {
    for (size_t k = 0; k < count; k++)
        if (!is_digit(c[k])) return k;
    return count;
}

static size_t first_no_hex(const uint8_t *c, size_t count) {
    for (size_t k = 0; k < count; k++)
        if (!is_hex(c[k])) return k;
    return count;
}

static size_t first_no_contact(const uint8_t *c, size_t count) {
    for (size_t k = 0; k < count; k++)
        if (c[k] != '0' && c[k] != '1') return k;
    return count;
}

static int all_digits(const uint8_t *c, unsigned digits) { return first_no_digit(c, digits) == digits; }

static int all_hex(const uint8_t *c, size_t count) { return first_no_hex(c, count) == count; }

static uint8_t exclusive_or(const uint8_t *bytes, size_t count) {
    uint8_t x = 0;
    for (size_t k = 0; k < count; k++) x ^= bytes[k];
    return x;
}

/* The check of MEWTOCOL and of the laser head: two upper-case hex characters, right after what they check. */
static int check_is_right(const uint8_t *frame, size_t checked) {
    uint8_t expected[2];
    put_hex_byte(expected, exclusive_or(frame, checked));
    return frame[checked] == expected[0] && frame[checked + 1] == expected[1];
}

/* CRC-16: reflected A001h, start FFFFh. */
static uint16_t crc16(const uint8_t *bytes, size_t count) {
    uint16_t remainder = 0xFFFF;
    for (size_t k = 0; k < count; k++) {
        remainder ^= bytes[k];
        for (int bit = 0; bit < 8; bit++) {
            int one = remainder & 1;
            remainder >>= 1;
            if (one) remainder ^= 0xA001;
        }
    }
    return remainder;
}

/* ---- the table ---- */

typedef struct {
    uint16_t *words;
    const uint8_t *attributes;
    size_t count;
    uint32_t profile;
} Table;

/* The two attributes are bits of the attribute byte: 1 read, 2 write, 3 both. */
static int may(const Table *t, uint32_t address, unsigned needed) {
    return address < t->count && (t->attributes[address] & needed) == needed;
}

/* Relay words WR0100 to WR0105 are words 130 to 135. */
static int is_relay_word(uint32_t number) { return number >= 100 && number <= 105; }

static uint32_t word_of_relay(uint32_t number) { return number - 100 + 130; }

static int bit_of(uint16_t word, unsigned bit) { return (word >> bit) & 1; }

static uint16_t with_bit(uint16_t word, unsigned bit, int on) {
    return (uint16_t)(on ? word | (1u << bit) : word & ~(1u << bit));
}

/* ---- the profile of the HL-G2, 50 mm type ---- */

/* Two words as one signed 32-bit value, lower 16 bits in the lower register. */
static int32_t signed_value(uint16_t low, uint16_t high) {
    uint32_t bits = ((uint32_t)high << 16) | low;
    return bits < 0x80000000u ? (int32_t)bits : (int32_t)(bits - 0x80000000u) - 0x7FFFFFFF - 1;
}

static int in_reach(int32_t value) { return value >= -950000 && value <= 950000; }

/* Single registers with the values that they take; 400054 is word 53. */
static const struct {
    uint32_t word, least, most;
} singles[] = {{53, 0, 0}, {55, 0, 0}, {57, 1, 4}, {70, 0, 2}};

/* The lower registers of the pairs: 400101 and 400103. */
static const uint32_t pairs[] = {100, 102};

/* What a write of words would leave: in each word from first to last its own value, or the same one in all. */
typedef struct {
    uint32_t first, last;
    const uint16_t *values;
    int same;
} Write;

static int names(const Write *w, uint32_t word) { return word >= w->first && word <= w->last; }

static uint16_t leaves(const Write *w, uint32_t word) { return w->values[w->same ? 0 : word - w->first]; }

/* Whether the profile takes a write: each value that it would leave is in its range, and of a pair both halves are named or none. */
static int profile_takes(const Table *t, const Write *w) {
    if (t->profile != JEULGOPAE_HL_G2_50) return 1;
    for (size_t k = 0; k < sizeof singles / sizeof *singles; k++)
        if (names(w, singles[k].word)) {
            uint16_t left = leaves(w, singles[k].word);
            if (left < singles[k].least || left > singles[k].most) return 0;
        }
    for (size_t k = 0; k < sizeof pairs / sizeof *pairs; k++) {
        uint32_t low = pairs[k], high = low + 1;
        if (names(w, low) != names(w, high)) return 0;
        if (names(w, low) && !in_reach(signed_value(leaves(w, low), leaves(w, high)))) return 0;
    }
    return 1;
}

/* A profile that is none, then the numbers 1, 2 and 3, in this order, before any station looks at its frame; 0 when there is none to
 * give. */
static int32_t refused_before_frame(uint32_t profile, size_t words_count, const uint8_t *attributes, size_t attributes_count,
                                    uint32_t own, uint32_t last_station, size_t room_needed, size_t room_count) {
    if (profile != JEULGOPAE_NO_PROFILE && profile != JEULGOPAE_HL_G2_50) return JEULGOPAE_UNKNOWN_PROFILE;
    if (words_count > 65536 || attributes_count != words_count) return JEULGOPAE_BAD_TABLE;
    for (size_t k = 0; k < attributes_count; k++)
        if (attributes[k] > 3) return JEULGOPAE_BAD_TABLE;
    if (own < 1 || own > last_station) return JEULGOPAE_BAD_STATION;
    if (room_count < room_needed) return JEULGOPAE_SMALL_ROOM;
    return 0;
}

/* ---- MEWTOCOL: frames ---- */

/* The two forms of frame: first character, longest frame, and how many words are read and written at most. */
typedef struct {
    uint8_t header;
    size_t longest;
    uint32_t most_read, most_written;
} Form;

static const Form ordinary = {'%', 118, 27, 24};
static const Form expanded = {'<', 2048, 509, 507};

/* The form that a frame's first character says; NULL for any other character. */
static const Form *form_of(const uint8_t *frame, size_t count) {
    if (count > 0 && frame[0] == '%') return &ordinary;
    if (count > 0 && frame[0] == '<') return &expanded;
    return NULL;
}

static int mewtocol_shape(const uint8_t *frame, size_t count, size_t shortest) {
    const Form *form = form_of(frame, count);
    if (form == NULL) return 0;
    if (count < shortest || count > form->longest) return 0;
    if (frame[count - 1] != '\r') return 0;
    for (size_t k = 1; k + 1 < count; k++)
        if (frame[k] < 0x20 || frame[k] > 0x7E) return 0;
    return 1;
}

static int names_station(const uint8_t *two, uint32_t station) {
    return is_digit(two[0]) && is_digit(two[1]) && decimal_at(two, 2) == station;
}

/* Adds check and CR to what stands in the frame; the frame's length comes back. */
static size_t close_mewtocol(uint8_t *frame, size_t count) {
    put_hex_byte(frame + count, exclusive_or(frame, count));
    frame[count + 2] = '\r';
    return count + 3;
}

static size_t open_mewtocol(uint8_t *frame, const Form *form, uint32_t station, uint8_t mark) {
    frame[0] = form->header;
    put_decimal(frame + 1, 2, station);
    frame[3] = mark;
    return 4;
}

/* ---- MEWTOCOL: the nine commands ---- */

enum { RCS, RCP, RCC, WCS, WCP, WCC, RD, WD, SD, COMMANDS };

static const char *const command_names[COMMANDS] = {"RCS", "RCP", "RCC", "WCS", "WCP", "WCC", "RD", "WD", "SD"};

typedef struct {
    int command;
    uint32_t first, last;     /* words: data registers, or relay words as numbered in the frame */
    unsigned contacts;        /* how many contacts are named */
    uint32_t relay[8];        /* of each contact: relay word as numbered in the frame */
    unsigned bit[8];          /* of each contact: bit */
    int on[8];                /* WCS, WCP: value of each contact */
    uint16_t data[507];       /* WCC, WD: the words; SD: data[0] */
} Request;

static int is_write(int command) { return command >= WCS && command != RD; }

/* The command whose name begins the text, or -1. */
static int command_of(const uint8_t *text, size_t count) {
    for (int c = 0; c < COMMANDS; c++) {
        size_t n = strlen(command_names[c]);
        if (count >= n && memcmp(text, command_names[c], n) == 0) return c;
    }
    return -1;
}

/* Steps 1 to 7 over the text after the name: 0 and the request, or the error number. */
static int steps(const Form *form, int command, const uint8_t *text, size_t count, Request *r) {
    size_t known;           /* length of the part whose length is known */
    unsigned group;         /* length of one contact with its data */
    unsigned digits;        /* digits of a word's number */
    const uint8_t *list;    /* the first contact */

    memset(r, 0, sizeof *r);
    r->command = command;
    group = (command == WCS || command == WCP) ? 6 : 5;
    digits = (command == RCC || command == WCC) ? 4 : 5;
    list = text;

    /* Step 1. */
    switch (command) {
    case RCP:
    case WCP:
        if (count == 0) return 0x41;
        if (text[0] < '1' || text[0] > '8') return 0x60;
        r->contacts = text[0] - '0';
        list = text + 1;
        known = 1 + r->contacts * group;
        break;
    case RCS:
    case WCS:
        r->contacts = 1;
        known = group;
        break;
    case SD:
        known = 1 + 2 * digits + 4;
        break;
    default:
        known = 1 + 2 * digits;
    }

    /* Step 2. */
    if (count < known) return 0x41;
    if (command != WCC && command != WD && count != known) return 0x41;

    /* Step 3. */
    if (r->contacts > 0) {
        for (unsigned k = 0; k < r->contacts; k++)
            if (list[k * group] != 'R') return 0x60;
    } else if (text[0] != ((command == RCC || command == WCC) ? 'R' : 'D')) {
        return 0x60;
    }

    /* Step 4. */
    if (r->contacts > 0) {
        for (unsigned k = 0; k < r->contacts; k++) {
            const uint8_t *contact = list + k * group + 1;
            if (!all_digits(contact, 3) || !is_hex(contact[3])) return 0x41;
            r->relay[k] = decimal_at(contact, 3);
            r->bit[k] = hex_value(contact[3]);
        }
    } else {
        if (!all_digits(text + 1, 2 * digits)) return 0x41;
        r->first = decimal_at(text + 1, digits);
        r->last = decimal_at(text + 1 + digits, digits);
    }

    /* Step 5. */
    if (r->contacts == 0) {
        if (r->first > r->last) return 0x60;
        uint32_t named = r->last - r->first + 1;
        if ((command == RCC || command == RD) && named > form->most_read) return 0x60;
        if ((command == WCC || command == WD) && named > form->most_written) return 0x60;
    }

    /* Step 6. */
    if (command == WCC || command == WD)
        if (count - known != 4 * (size_t)(r->last - r->first + 1)) return 0x41;

    /* Step 7. */
    if (command == WCC || command == WD) {
        if (!all_hex(text + known, count - known)) return 0x61;
        for (uint32_t k = 0; k <= r->last - r->first; k++) r->data[k] = word_at(text + known + 4 * k);
    } else if (command == SD) {
        if (!all_hex(text + known - 4, 4)) return 0x61;
        r->data[0] = word_at(text + known - 4);
    } else if (command == WCS || command == WCP) {
        for (unsigned k = 0; k < r->contacts; k++) {
            uint8_t c = list[k * group + 5];
            if (c != '0' && c != '1') return 0x61;
            r->on[k] = c == '1';
        }
    }
    return 0;
}

/* Step 8: whether every word that the request names is there and has the attribute that the command needs. */
static int step_8(const Request *r, const Table *t) {
    unsigned needed = is_write(r->command) ? 2 : 1;
    for (unsigned k = 0; k < r->contacts; k++)
        if (!is_relay_word(r->relay[k]) || !may(t, word_of_relay(r->relay[k]), needed)) return 0;
    if (r->contacts > 0) return 1;
    for (uint32_t k = r->first; k <= r->last; k++) {
        if (r->command == RCC || r->command == WCC) {
            if (!is_relay_word(k) || !may(t, word_of_relay(k), needed)) return 0;
        } else if (!may(t, k, needed)) {
            return 0;
        }
    }
    return 1;
}

/* After step 8: whether the profile takes what WD or SD would leave. The other commands write relay words, which it says nothing of. */
static int step_9(const Request *r, const Table *t) {
    Write w = {r->first, r->last, r->data, r->command == SD};
    return (r->command != WD && r->command != SD) || profile_takes(t, &w);
}

/* Does the request and puts the data of the good reply; its length comes back. */
static size_t do_mewtocol(const Request *r, Table *t, uint8_t *data) {
    size_t n = 0;
    for (unsigned k = 0; k < r->contacts; k++) {
        uint16_t *word = &t->words[word_of_relay(r->relay[k])];
        if (is_write(r->command))
            *word = with_bit(*word, r->bit[k], r->on[k]);
        else
            data[n++] = bit_of(*word, r->bit[k]) ? '1' : '0';
    }
    if (r->contacts > 0) return n;
    for (uint32_t k = r->first; k <= r->last; k++) {
        uint32_t address = (r->command == RCC || r->command == WCC) ? word_of_relay(k) : k;
        if (r->command == SD) {
            t->words[address] = r->data[0];
        } else if (is_write(r->command)) {
            t->words[address] = r->data[k - r->first];
        } else {
            put_word(data + n, t->words[address]);
            n += 4;
        }
    }
    return n;
}

/* Frames for all stations are never answered. A write that would have got a good reply is carried out. */
static int for_all(const uint8_t *two) { return two[0] == 'F' && two[1] == 'F'; }

int32_t reference_mewtocol_station(uint16_t *words, size_t words_count, const uint8_t *attributes, size_t attributes_count,
                                   uint32_t profile, uint32_t own, const uint8_t *frame, size_t frame_count, uint8_t *room,
                                   size_t room_count) {
    Table t = {words, attributes, words_count, profile};
    Request r;
    const Form *form;
    int error, command;
    size_t text_end, n;
    int32_t refused = refused_before_frame(profile, words_count, attributes, attributes_count, own, 99, 2048, room_count);
    if (refused) return refused;
    if (!mewtocol_shape(frame, frame_count, 8)) return JEULGOPAE_BAD_SHAPE;
    if (!names_station(frame + 1, own) && !for_all(frame + 1)) return JEULGOPAE_OTHER_STATION;

    form = form_of(frame, frame_count);
    text_end = frame_count - 3;
    command = command_of(frame + 4, text_end - 4);
    if (!check_is_right(frame, text_end)) {
        error = 0x40;
    } else if (frame[3] != '#') {
        error = 0x41;
    } else if (command < 0) {
        error = 0x42;
    } else {
        size_t text = 4 + strlen(command_names[command]);
        error = steps(form, command, frame + text, text_end - text, &r);
        if (error == 0 && !step_8(&r, &t)) error = 0x66;
        if (error == 0 && !step_9(&r, &t)) error = 0x61;
    }

    if (for_all(frame + 1)) {
        if (error || !is_write(command)) return JEULGOPAE_OTHER_STATION;
        do_mewtocol(&r, &t, NULL);
        return JEULGOPAE_CARRIED_OUT;
    }
    /* The header of the reply is that of its request, errors also. */
    if (error) {
        n = open_mewtocol(room, form, own, '!');
        put_hex_byte(room + n, error);
        n += 2;
    } else {
        n = open_mewtocol(room, form, own, '$');
        memcpy(room + n, command_names[command], 2);
        n += 2;
        n += do_mewtocol(&r, &t, room + n);
    }
    return (int32_t)close_mewtocol(room, n);
}

/* ---- MEWTOCOL: host ---- */

typedef struct {
    uint32_t form, command, first, second, value;
    const uint32_t *contacts;
    size_t contacts_count;
    const uint8_t *values;
    size_t values_count;
    const uint16_t *words;
    size_t words_count;
} Asked;

/* A contact is 16 * relay word + bit, and a relay word has three digits. */
static int contact_fits(uint32_t contact) { return contact / 16 <= 999; }

/* Start and end of at most `most` words, whose numbers go up to `largest`. */
static int range_fits(const Asked *a, uint32_t largest, uint32_t most) {
    return a->first <= largest && a->second <= largest && a->first <= a->second && a->second - a->first < most;
}

/* One to eight contacts; one may be named twice. */
static int contacts_fit(const Asked *a) {
    if (a->contacts_count < 1 || a->contacts_count > 8) return 0;
    for (size_t k = 0; k < a->contacts_count; k++)
        if (!contact_fits(a->contacts[k])) return 0;
    return 1;
}

/* The form that is asked for. A number that is none of the two asks for nothing; it takes no more room than the ordinary form. */
static const Form *form_asked(const Asked *a) { return a->form == JEULGOPAE_EXPANDED ? &expanded : &ordinary; }

static int can_be_request(const Asked *a) {
    const Form *form = form_asked(a);
    if (a->form != JEULGOPAE_ORDINARY && a->form != JEULGOPAE_EXPANDED) return 0;
    switch (a->command) {
    case JEULGOPAE_READ_CONTACTS:
        return contacts_fit(a);
    case JEULGOPAE_WRITE_CONTACT:
        return contact_fits(a->first) && a->value <= 1;
    case JEULGOPAE_WRITE_CONTACTS:
        if (!contacts_fit(a) || a->values_count != a->contacts_count) return 0;
        for (size_t k = 0; k < a->values_count; k++)
            if (a->values[k] > 1) return 0;
        return 1;
    case JEULGOPAE_READ_RELAYS:
        return range_fits(a, 9999, form->most_read);
    case JEULGOPAE_READ_WORDS:
        return range_fits(a, 99999, form->most_read);
    case JEULGOPAE_WRITE_RELAYS:
        return range_fits(a, 9999, form->most_written) && a->words_count == (size_t)(a->second - a->first) + 1;
    case JEULGOPAE_WRITE_WORDS:
        return range_fits(a, 99999, form->most_written) && a->words_count == (size_t)(a->second - a->first) + 1;
    case JEULGOPAE_FILL_WORDS:
        return range_fits(a, 99999, 100000) && a->value <= 0xFFFF;
    }
    return 0;
}

/* The command that goes on the line: a list of one contact is still read by RCS, a longer one by RCP. */
static int sent_as(const Asked *a) {
    switch (a->command) {
    case JEULGOPAE_READ_CONTACTS:
        return a->contacts_count == 1 ? RCS : RCP;
    case JEULGOPAE_READ_RELAYS:
        return RCC;
    case JEULGOPAE_WRITE_CONTACT:
        return WCS;
    case JEULGOPAE_WRITE_CONTACTS:
        return WCP;
    case JEULGOPAE_WRITE_RELAYS:
        return WCC;
    case JEULGOPAE_READ_WORDS:
        return RD;
    case JEULGOPAE_WRITE_WORDS:
        return WD;
    }
    return SD;
}

static size_t put_contact(uint8_t *to, uint32_t contact) {
    to[0] = 'R';
    put_decimal(to + 1, 3, contact / 16);
    to[4] = hex_character(contact % 16);
    return 5;
}

static size_t put_range(uint8_t *to, uint8_t area, unsigned digits, const Asked *a) {
    to[0] = area;
    put_decimal(to + 1, digits, a->first);
    put_decimal(to + 1 + digits, digits, a->second);
    return 1 + 2 * digits;
}

int32_t reference_mewtocol_write(uint32_t station, uint32_t form, uint32_t command, uint32_t first, uint32_t second, uint32_t value,
                                 const uint32_t *contacts, size_t contacts_count, const uint8_t *values, size_t values_count,
                                 const uint16_t *words, size_t words_count, uint8_t *room, size_t room_count) {
    Asked a = {form, command, first, second, value, contacts, contacts_count, values, values_count, words, words_count};
    size_t n;
    int sent;
    if (station < 1 || station > 99) return JEULGOPAE_BAD_STATION;
    if (room_count < form_asked(&a)->longest) return JEULGOPAE_SMALL_ROOM;
    if (!can_be_request(&a)) return JEULGOPAE_NO_REQUEST;

    sent = sent_as(&a);
    n = open_mewtocol(room, form_asked(&a), station, '#');
    memcpy(room + n, command_names[sent], strlen(command_names[sent]));
    n += strlen(command_names[sent]);
    switch (sent) {
    case WCS:
        n += put_contact(room + n, first);
        room[n++] = (uint8_t)('0' + value);
        break;
    case RCP:
    case WCP:
        room[n++] = (uint8_t)('0' + contacts_count);
        /* fall through */
    case RCS:
        for (size_t k = 0; k < contacts_count; k++) {
            n += put_contact(room + n, contacts[k]);
            if (sent == WCP) room[n++] = (uint8_t)('0' + values[k]);
        }
        break;
    case RCC:
    case WCC:
        n += put_range(room + n, 'R', 4, &a);
        break;
    default:
        n += put_range(room + n, 'D', 5, &a);
    }
    if (command == JEULGOPAE_WRITE_RELAYS || command == JEULGOPAE_WRITE_WORDS) {
        for (size_t k = 0; k < words_count; k++, n += 4) put_word(room + n, words[k]);
    } else if (command == JEULGOPAE_FILL_WORDS) {
        put_word(room + n, (uint16_t)value);
        n += 4;
    }
    return (int32_t)close_mewtocol(room, n);
}

int32_t reference_mewtocol_read(uint32_t station, uint32_t form, uint32_t command, uint32_t first, uint32_t second, uint32_t value,
                                const uint32_t *contacts, size_t contacts_count, const uint8_t *values, size_t values_count,
                                const uint16_t *words, size_t words_count, const uint8_t *frame, size_t frame_count) {
    Asked a = {form, command, first, second, value, contacts, contacts_count, values, values_count, words, words_count};
    size_t text_end, data, place;
    if (station < 1 || station > 99) return JEULGOPAE_BAD_STATION;
    if (!can_be_request(&a)) return JEULGOPAE_NO_REQUEST;
    if (!mewtocol_shape(frame, frame_count, 9)) return JEULGOPAE_BAD_SHAPE;
    text_end = frame_count - 3;
    if (!check_is_right(frame, text_end)) return JEULGOPAE_BAD_CHECK;
    if (!names_station(frame + 1, station)) return JEULGOPAE_OTHER_STATION;
    /* A good frame with the other header. */
    if (frame[0] != form_asked(&a)->header) return REFERENCE_NOT_THIS_AT(frame_count);

    if (frame[3] == '!') {
        if (text_end != 6) return REFERENCE_NOT_THIS_AT(frame_count);
        place = 4 + first_no_hex(frame + 4, 2);
        if (place < 6) return REFERENCE_NOT_THIS_AT(place);
        return -256 - (int32_t)(hex_value(frame[4]) * 16 + hex_value(frame[5]));
    }
    if (frame[3] != '$') return REFERENCE_NOT_THIS_AT(frame_count);
    if (memcmp(frame + 4, command_names[sent_as(&a)], 2) != 0) return REFERENCE_NOT_THIS_AT(frame_count);
    switch (command) {
    case JEULGOPAE_READ_CONTACTS:
        data = contacts_count;
        break;
    case JEULGOPAE_READ_RELAYS:
    case JEULGOPAE_READ_WORDS:
        data = 4 * (size_t)(second - first + 1);
        break;
    default:
        data = 0;
    }
    if (text_end - 6 != data) return REFERENCE_NOT_THIS_AT(frame_count);
    if (command == JEULGOPAE_READ_CONTACTS)
        place = 6 + first_no_contact(frame + 6, data);
    else
        place = 6 + first_no_hex(frame + 6, data);
    if (place < 6 + data) return REFERENCE_NOT_THIS_AT(place);
    return (int32_t)data;
}

int32_t reference_data_word(const uint8_t *part, size_t part_count, uint32_t i) {
    uint64_t at = 4 * (uint64_t)i;
    if (at + 4 > part_count) return JEULGOPAE_NOTHING;
    if (!all_hex(part + at, 4)) return JEULGOPAE_NOTHING;
    return word_at(part + at);
}

int32_t reference_data_contact(const uint8_t *part, size_t part_count, size_t i) {
    if (i >= part_count) return JEULGOPAE_NOTHING;
    if (part[i] != '0' && part[i] != '1') return JEULGOPAE_NOTHING;
    return part[i] - '0';
}

/* ---- Modbus ---- */

static unsigned number_at(const uint8_t *b) { return b[0] * 256u + b[1]; }

static void put_number(uint8_t *to, unsigned v) {
    to[0] = (uint8_t)(v >> 8);
    to[1] = (uint8_t)v;
}

/* Coil address 160 + 16i + b is bit b of word 130 + i. */
static int may_coil(const Table *t, uint32_t coil, unsigned needed) {
    return coil >= 160 && coil <= 255 && may(t, 130 + (coil - 160) / 16, needed);
}

static int may_coils(const Table *t, uint32_t from, uint32_t quantity, unsigned needed) {
    for (uint32_t k = 0; k < quantity; k++)
        if (!may_coil(t, from + k, needed)) return 0;
    return 1;
}

static int may_words(const Table *t, uint32_t from, uint32_t quantity, unsigned needed) {
    for (uint32_t k = 0; k < quantity; k++)
        if (!may(t, from + k, needed)) return 0;
    return 1;
}

static void set_coil(Table *t, uint32_t coil, int on) {
    uint16_t *word = &t->words[130 + (coil - 160) / 16];
    *word = with_bit(*word, (coil - 160) % 16, on);
}

static int coil_is_on(const Table *t, uint32_t coil) { return bit_of(t->words[130 + (coil - 160) / 16], (coil - 160) % 16); }

/* Each count stops at FFFFh. */
static void count_one(uint16_t *counter) {
    if (*counter < 0xFFFF) *counter = (uint16_t)(*counter + 1);
}

/* A frame with a right check counts before it is answered: for any station 0B, to the own station or to 0 0E, to 0 0F. */
static void count_frame(struct jeulgopae_counters *counters, uint8_t station, uint32_t own) {
    count_one(&counters->bus);
    if (station == own || station == 0) count_one(&counters->own);
    if (station == 0) count_one(&counters->unanswered);
}

/* The count that sub-functions 0B to 0F show. */
static uint16_t shown_count(const struct jeulgopae_counters *counters, unsigned sub_function) {
    switch (sub_function) {
    case 0x0B:
        return counters->bus;
    case 0x0C:
        return counters->damaged;
    case 0x0D:
        return counters->exceptions;
    case 0x0E:
        return counters->own;
    default:
        return counters->unanswered;
    }
}

/* The request after the station: function byte and what follows it, `count` bytes from 1 on. The reply's function byte and what
 * follows are put into `reply`; their length comes back. */
static size_t serve_modbus(Table *t, struct jeulgopae_counters *counters, const uint8_t *body, size_t count, uint8_t *reply) {
    unsigned function = body[0];
    const uint8_t *d = body + 1;                     /* what follows the function byte */
    size_t length = count - 1;
    unsigned address = length >= 2 ? number_at(d) : 0;
    unsigned second = length >= 4 ? number_at(d + 2) : 0; /* a quantity, a value or a mask */
    unsigned sub_function = address;                      /* 08 has it in the address's place */
    uint16_t left[123];                                   /* 06, 10h, 16h: what the named words would hold */
    Write w = {address, address, left, 0};
    int exception = 0;
    size_t n = 1;

    reply[0] = (uint8_t)function;
    switch (function) {
    case 0x01:
        if (length != 4 || second < 1 || second > 2000) { exception = 3; break; }
        if (!may_coils(t, address, second, 1)) { exception = 2; break; }
        reply[1] = (uint8_t)((second + 7) / 8);
        memset(reply + 2, 0, reply[1]);
        for (unsigned k = 0; k < second; k++)
            if (coil_is_on(t, address + k)) reply[2 + k / 8] |= (uint8_t)(1u << (k % 8));
        n = 2 + (size_t)reply[1];
        break;
    case 0x03:
        if (length != 4 || second < 1 || second > 125) { exception = 3; break; }
        if (!may_words(t, address, second, 1)) { exception = 2; break; }
        reply[1] = (uint8_t)(2 * second);
        for (unsigned k = 0; k < second; k++) put_number(reply + 2 + 2 * k, t->words[address + k]);
        n = 2 + 2 * (size_t)second;
        break;
    case 0x05:
        if (length != 4 || (second != 0x0000 && second != 0xFF00)) { exception = 3; break; }
        if (!may_coil(t, address, 2)) { exception = 2; break; }
        set_coil(t, address, second == 0xFF00);
        memcpy(reply, body, 5);
        n = 5;
        break;
    case 0x06:
        if (length != 4) { exception = 3; break; }
        if (!may(t, address, 2)) { exception = 2; break; }
        left[0] = (uint16_t)second;
        if (!profile_takes(t, &w)) { exception = 3; break; }
        t->words[address] = left[0];
        memcpy(reply, body, 5);
        n = 5;
        break;
    case 0x08:
        if (length < 2) { exception = 3; break; }
        if (sub_function != 0x00 && (sub_function < 0x0A || sub_function > 0x0F)) { exception = 1; break; }
        if (length != 4) { exception = 3; break; }
        if (sub_function != 0x00 && second != 0) { exception = 3; break; }
        memcpy(reply, body, 5);
        if (sub_function == 0x0A) memset(counters, 0, sizeof *counters);
        if (sub_function >= 0x0B) put_number(reply + 3, shown_count(counters, sub_function));
        n = 5;
        break;
    case 0x0F:
        if (length < 5 || second < 1 || second > 1968 || d[4] != (second + 7) / 8 || length != 5 + (size_t)d[4]) {
            exception = 3;
            break;
        }
        if (!may_coils(t, address, second, 2)) { exception = 2; break; }
        for (unsigned k = 0; k < second; k++) set_coil(t, address + k, (d[5 + k / 8] >> (k % 8)) & 1);
        memcpy(reply, body, 5);
        n = 5;
        break;
    case 0x10:
        if (length < 5 || second < 1 || second > 123 || d[4] != 2 * second || length != 5 + (size_t)d[4]) {
            exception = 3;
            break;
        }
        if (!may_words(t, address, second, 2)) { exception = 2; break; }
        for (unsigned k = 0; k < second; k++) left[k] = (uint16_t)number_at(d + 5 + 2 * k);
        w.last = address + second - 1;
        if (!profile_takes(t, &w)) { exception = 3; break; }
        for (unsigned k = 0; k < second; k++) t->words[address + k] = left[k];
        memcpy(reply, body, 5);
        n = 5;
        break;
    case 0x16:
        if (length != 6) { exception = 3; break; }
        if (!may(t, address, 3)) { exception = 2; break; }
        {
            unsigned and_mask = second, or_mask = number_at(d + 4);
            left[0] = (uint16_t)((t->words[address] & and_mask) | (or_mask & ~and_mask));
        }
        if (!profile_takes(t, &w)) { exception = 3; break; }
        t->words[address] = left[0];
        memcpy(reply, body, 7);
        n = 7;
        break;
    default:
        exception = 1;
    }
    if (exception) {
        reply[0] = (uint8_t)(function | 0x80);
        reply[1] = (uint8_t)exception;
        n = 2;
    }
    return n;
}

/* A request to the own station. An exception goes out, and counts: 0D. Its function byte alone has the top bit set. */
static size_t answer_modbus(Table *t, struct jeulgopae_counters *counters, const uint8_t *body, size_t count, uint8_t *reply) {
    size_t n = serve_modbus(t, counters, body, count, reply);
    if (reply[0] & 0x80) count_one(&counters->exceptions);
    return n;
}

/* A request to station 0. No exception goes out, so none counts. */
static int32_t carry_out_modbus(Table *t, struct jeulgopae_counters *counters, const uint8_t *body, size_t count) {
    uint8_t reply[256];
    if (body[0] != 0x05 && body[0] != 0x06 && body[0] != 0x0F && body[0] != 0x10 && body[0] != 0x16) return JEULGOPAE_OTHER_STATION;
    serve_modbus(t, counters, body, count, reply);
    return reply[0] == body[0] ? JEULGOPAE_CARRIED_OUT : JEULGOPAE_OTHER_STATION;
}

int32_t reference_rtu_station(uint16_t *words, size_t words_count, const uint8_t *attributes, size_t attributes_count,
                              uint32_t profile, uint32_t own, const uint8_t *frame, size_t frame_count, uint8_t *room,
                              size_t room_count, struct jeulgopae_counters *counters) {
    Table t = {words, attributes, words_count, profile};
    uint16_t crc;
    size_t n;
    int32_t refused = refused_before_frame(profile, words_count, attributes, attributes_count, own, 247, 513, room_count);
    if (refused) return refused;
    if (frame_count < 4 || frame_count > 256) return JEULGOPAE_BAD_SHAPE;
    crc = crc16(frame, frame_count - 2);
    if (frame[frame_count - 2] != (crc & 0xFF) || frame[frame_count - 1] != crc >> 8) {
        count_one(&counters->damaged);
        return JEULGOPAE_BAD_CHECK;
    }
    count_frame(counters, frame[0], own);
    if (frame[0] == 0) return carry_out_modbus(&t, counters, frame + 1, frame_count - 3);
    if (frame[0] != own) return JEULGOPAE_OTHER_STATION;

    room[0] = (uint8_t)own;
    n = 1 + answer_modbus(&t, counters, frame + 1, frame_count - 3, room + 1);
    crc = crc16(room, n);
    room[n] = (uint8_t)(crc & 0xFF);
    room[n + 1] = (uint8_t)(crc >> 8);
    return (int32_t)(n + 2);
}

int32_t reference_ascii_station(uint16_t *words, size_t words_count, const uint8_t *attributes, size_t attributes_count,
                                uint32_t profile, uint32_t own, const uint8_t *frame, size_t frame_count, uint8_t *room,
                                size_t room_count, struct jeulgopae_counters *counters) {
    Table t = {words, attributes, words_count, profile};
    uint8_t bytes[255], reply[256], sum = 0;
    size_t count, n;
    int32_t refused = refused_before_frame(profile, words_count, attributes, attributes_count, own, 247, 513, room_count);
    if (refused) return refused;

    /* A colon, 3 to 255 bytes as pairs, CR, LF. */
    if (frame_count < 1 + 2 * 3 + 2 || frame_count > 1 + 2 * 255 + 2 || frame_count % 2 == 0) return JEULGOPAE_BAD_SHAPE;
    if (frame[0] != ':' || frame[frame_count - 2] != '\r' || frame[frame_count - 1] != '\n') return JEULGOPAE_BAD_SHAPE;
    if (!all_hex(frame + 1, frame_count - 3)) return JEULGOPAE_BAD_SHAPE;
    count = (frame_count - 3) / 2;
    for (size_t k = 0; k < count; k++) {
        bytes[k] = (uint8_t)(hex_value(frame[1 + 2 * k]) * 16 + hex_value(frame[2 + 2 * k]));
        sum = (uint8_t)(sum + bytes[k]);
    }
    if (sum != 0) {
        count_one(&counters->damaged);
        return JEULGOPAE_BAD_CHECK;
    }
    count_frame(counters, bytes[0], own);
    if (bytes[0] == 0) return carry_out_modbus(&t, counters, bytes + 1, count - 2);
    if (bytes[0] != own) return JEULGOPAE_OTHER_STATION;

    reply[0] = (uint8_t)own;
    n = 1 + answer_modbus(&t, counters, bytes + 1, count - 2, reply + 1);
    sum = 0;
    for (size_t k = 0; k < n; k++) sum = (uint8_t)(sum + reply[k]);
    reply[n++] = (uint8_t)(0 - sum);
    room[0] = ':';
    for (size_t k = 0; k < n; k++) put_hex_byte(room + 1 + 2 * k, reply[k]);
    room[1 + 2 * n] = '\r';
    room[2 + 2 * n] = '\n';
    return (int32_t)(3 + 2 * n);
}

/* ---- two masters on one table ---- */

/* What a frame may touch: runs of cells, all of one length. A cell is a bit of a word, 16 times the word and the bit. */
typedef struct {
    int reads, writes;
    size_t runs;
    uint32_t first[8], each;
} Cells;

static int has_cell(const Cells *c, uint32_t cell) {
    for (size_t k = 0; k < c->runs; k++)
        if (cell >= c->first[k] && cell - c->first[k] < c->each) return 1;
    return 0;
}

static void whole_words(Cells *c, uint32_t first, uint32_t count) {
    c->runs = 1;
    c->first[0] = 16 * first;
    c->each = 16 * count;
}

/* A mask write is refused by the profile whatever its word holds, or not: every word is tried. */
static int some_word_passes(const Table *t, uint32_t word, unsigned and_mask, unsigned or_mask) {
    for (uint32_t before = 0; before < 65536; before++) {
        uint16_t left = (uint16_t)((before & and_mask) | (or_mask & ~and_mask));
        Write w = {word, word, &left, 0};
        if (profile_takes(t, &w)) return 1;
    }
    return 0;
}

static void modbus_cells(Table *t, const uint8_t *body, size_t count, int to_all, Cells *c) {
    uint32_t address, quantity;
    uint16_t values[123];
    Write w;
    if (count < 5) return;
    address = number_at(body + 1);
    quantity = number_at(body + 3);
    w.first = address;
    w.last = address;
    w.values = values;
    w.same = 0;
    switch (body[0]) {
    case 0x01:
        if (count != 5 || quantity < 1 || quantity > 2000 || !may_coils(t, address, quantity, 1) || to_all) return;
        c->reads = 1;
        break;
    case 0x03:
        if (count != 5 || quantity < 1 || quantity > 125 || !may_words(t, address, quantity, 1) || to_all) return;
        c->reads = 1;
        whole_words(c, address, quantity);
        return;
    case 0x05:
        if (count != 5 || (quantity != 0xFF00 && quantity != 0) || !may_coil(t, address, 2)) return;
        c->writes = 1;
        quantity = 1;
        break;
    case 0x06:
        values[0] = (uint16_t)quantity;
        if (count != 5 || !may(t, address, 2) || !profile_takes(t, &w)) return;
        c->writes = 1;
        whole_words(c, address, 1);
        return;
    case 0x0F:
        if (count < 6 || quantity < 1 || quantity > 1968 || body[5] != (quantity + 7) / 8 || count != 6u + body[5]) return;
        if (!may_coils(t, address, quantity, 2)) return;
        c->writes = 1;
        break;
    case 0x10:
        if (count < 6 || quantity < 1 || quantity > 123 || body[5] != 2 * quantity || count != 6u + body[5]) return;
        if (!may_words(t, address, quantity, 2)) return;
        for (uint32_t k = 0; k < quantity; k++) values[k] = (uint16_t)number_at(body + 6 + 2 * k);
        w.last = address + quantity - 1;
        if (!profile_takes(t, &w)) return;
        c->writes = 1;
        whole_words(c, address, quantity);
        return;
    case 0x16:
        if (count != 7 || !may(t, address, 3) || !some_word_passes(t, address, quantity, number_at(body + 5))) return;
        c->reads = 1;
        c->writes = 1;
        whole_words(c, address, 1);
        return;
    default:
        return;
    }
    /* coils: as many cells as coils */
    c->runs = 1;
    c->first[0] = 16 * 130 + (address - 160);
    c->each = quantity;
}

static void mewtocol_cells(Table *t, uint32_t own, const uint8_t *frame, size_t count, Cells *c) {
    Request r;
    int command, to_all;
    size_t text, text_end;
    if (own < 1 || own > 99 || !mewtocol_shape(frame, count, 8)) return;
    to_all = for_all(frame + 1);
    if (!to_all && !names_station(frame + 1, own)) return;
    text_end = count - 3;
    if (!check_is_right(frame, text_end) || frame[3] != '#') return;
    command = command_of(frame + 4, text_end - 4);
    if (command < 0) return;
    text = 4 + strlen(command_names[command]);
    if (steps(form_of(frame, count), command, frame + text, text_end - text, &r) != 0 || !step_8(&r, t) || !step_9(&r, t)) return;
    if (to_all && !is_write(command)) return;
    c->reads = !is_write(command);
    c->writes = is_write(command);
    if (command == RCS || command == RCP || command == WCS || command == WCP) {
        c->runs = r.contacts;
        c->each = 1;
        for (unsigned k = 0; k < r.contacts; k++) c->first[k] = 16 * word_of_relay(r.relay[k]) + r.bit[k];
    } else if (command == RCC || command == WCC) {
        whole_words(c, word_of_relay(r.first), r.last - r.first + 1);
    } else {
        whole_words(c, r.first, r.last - r.first + 1);
    }
}

static Cells cells_of(const uint8_t *attributes, size_t attributes_count, uint32_t profile, uint32_t format, uint32_t own,
                      const uint8_t *frame, size_t count) {
    Table t = {NULL, attributes, attributes_count, profile};
    Cells c = {0, 0, 0, {0}, 0};
    uint8_t bytes[255], sum = 0;
    if (attributes_count > 65536) return c;
    for (size_t k = 0; k < attributes_count; k++)
        if (attributes[k] > 3) return c;
    if (format == JEULGOPAE_MEWTOCOL) {
        mewtocol_cells(&t, own, frame, count, &c);
        return c;
    }
    if (own < 1 || own > 247) return c;
    if (format == JEULGOPAE_RTU) {
        uint16_t crc;
        if (count < 4 || count > 256) return c;
        crc = crc16(frame, count - 2);
        if (frame[count - 2] != (crc & 0xFF) || frame[count - 1] != crc >> 8) return c;
        if (frame[0] == own || frame[0] == 0) modbus_cells(&t, frame + 1, count - 3, frame[0] == 0, &c);
        return c;
    }
    if (count < 9 || count > 513 || count % 2 == 0) return c;
    if (frame[0] != ':' || frame[count - 2] != '\r' || frame[count - 1] != '\n' || !all_hex(frame + 1, count - 3)) return c;
    count = (count - 3) / 2;
    for (size_t k = 0; k < count; k++) {
        bytes[k] = (uint8_t)(hex_value(frame[1 + 2 * k]) * 16 + hex_value(frame[2 + 2 * k]));
        sum = (uint8_t)(sum + bytes[k]);
    }
    if (sum == 0 && (bytes[0] == own || bytes[0] == 0)) modbus_cells(&t, bytes + 1, count - 2, bytes[0] == 0, &c);
    return c;
}

int reference_touches(const uint8_t *attributes, size_t attributes_count, uint32_t profile, uint32_t format, uint32_t own,
                      const uint8_t *frame, size_t count) {
    Cells c = cells_of(attributes, attributes_count, profile, format, own, frame, count);
    return c.reads + 2 * c.writes;
}

int32_t reference_meeting(const uint8_t *attributes, size_t attributes_count, uint32_t profile, uint32_t one_format, uint32_t one_own,
                          const uint8_t *one_frame, size_t one_count, uint32_t other_format, uint32_t other_own,
                          const uint8_t *other_frame, size_t other_count) {
    Cells one, other;
    int32_t lowest = JEULGOPAE_APART;
    if (profile != JEULGOPAE_NO_PROFILE && profile != JEULGOPAE_HL_G2_50) return JEULGOPAE_UNKNOWN_PROFILE;
    if (one_format > JEULGOPAE_ASCII || other_format > JEULGOPAE_ASCII) return JEULGOPAE_UNKNOWN_FORMAT;
    one = cells_of(attributes, attributes_count, profile, one_format, one_own, one_frame, one_count);
    other = cells_of(attributes, attributes_count, profile, other_format, other_own, other_frame, other_count);
    /* two that only read never meet */
    if (!one.writes && !other.writes) return JEULGOPAE_APART;
    for (size_t k = 0; k < one.runs; k++)
        for (uint32_t cell = one.first[k]; cell - one.first[k] < one.each; cell++)
            if (has_cell(&other, cell) && (lowest < 0 || (int32_t)cell < lowest)) lowest = (int32_t)cell;
    return lowest;
}

/* ---- laser head ---- */

int32_t reference_laser_read(const uint8_t *frame, size_t frame_count) {
    size_t n;
    if (frame_count < 8 || frame[0] != '/' || !all_digits(frame + 1, 2)) return JEULGOPAE_BAD_SHAPE;
    n = decimal_at(frame + 1, 2);
    if (frame_count != 8 + n || frame[frame_count - 1] != '.') return JEULGOPAE_BAD_SHAPE;
    if (!check_is_right(frame, frame_count - 3)) return JEULGOPAE_BAD_CHECK;
    return (int32_t)(65536 * frame[3] + 256 * frame[4] + n);
}

int32_t reference_laser_write(uint8_t first, uint8_t second, const uint8_t *bytes, size_t bytes_count, uint8_t *room,
                              size_t room_count) {
    if (room_count < 118) return JEULGOPAE_SMALL_ROOM;
    if (bytes_count > 99) return JEULGOPAE_NO_REQUEST;
    room[0] = '/';
    put_decimal(room + 1, 2, (uint32_t)bytes_count);
    room[3] = first;
    room[4] = second;
    for (size_t k = 0; k < bytes_count; k++) room[5 + k] = bytes[k];
    put_hex_byte(room + 5 + bytes_count, exclusive_or(room, 5 + bytes_count));
    room[7 + bytes_count] = '.';
    return (int32_t)(8 + bytes_count);
}

int32_t reference_laser_distance(const uint8_t *frame, size_t frame_count) {
    int32_t read = reference_laser_read(frame, frame_count);
    size_t place;
    if (read < 0) return read;
    if (frame[3] != '0' || frame[4] != 'D') return REFERENCE_NOT_THIS_AT(frame_count);
    if (frame_count != 8 + 6) return REFERENCE_NOT_THIS_AT(frame_count);
    place = 5 + first_no_digit(frame + 5, 5);
    if (place < 10) return REFERENCE_NOT_THIS_AT(place);
    if (frame[10] != 0) return REFERENCE_NOT_THIS_AT(10);
    return (int32_t)decimal_at(frame + 5, 5);
}

/* ---- numbers and addresses, bit count, CRC ---- */

int32_t reference_register_address(uint32_t number) {
    return number >= 400001 && number <= 465536 ? (int32_t)(number - 400001) : JEULGOPAE_OUT_OF_RANGE;
}

int32_t reference_register_number(uint32_t address) {
    return address <= 65535 ? (int32_t)(address + 400001) : JEULGOPAE_OUT_OF_RANGE;
}

int32_t reference_coil_address(uint32_t number) {
    return number >= 161 && number <= 256 ? (int32_t)(number - 1) : JEULGOPAE_OUT_OF_RANGE;
}

int32_t reference_coil_number(uint32_t address) {
    return address >= 160 && address <= 255 ? (int32_t)(address + 1) : JEULGOPAE_OUT_OF_RANGE;
}

int32_t reference_pair_value(uint16_t low, uint16_t high) { return signed_value(low, high); }

int32_t reference_pair_low(int32_t value) { return in_reach(value) ? (int32_t)((uint32_t)value & 0xFFFF) : JEULGOPAE_NO_REQUEST; }

int32_t reference_pair_high(int32_t value) { return in_reach(value) ? (int32_t)((uint32_t)value >> 16) : JEULGOPAE_NO_REQUEST; }

int32_t reference_bits_differing(const uint8_t *a, size_t a_count, const uint8_t *b, size_t b_count) {
    int32_t differing = 0;
    if (a_count != b_count || a_count > 256) return JEULGOPAE_BAD_LENGTHS;
    for (size_t k = 0; k < a_count; k++)
        for (int bit = 0; bit < 8; bit++) differing += ((a[k] >> bit) & 1) != ((b[k] >> bit) & 1);
    return differing;
}

int32_t reference_crc(const uint8_t *bytes, size_t bytes_count) { return crc16(bytes, bytes_count); }
