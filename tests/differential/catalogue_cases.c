/* The library's catalogue reader and the second one, call by call: files made from a seed, both asked for a name, the answers and
 * every lent byte compared.
 *
 *   catalogue_cases SEED COUNT         COUNT cases
 *   catalogue_cases SEED COUNT CASE    one of them again, with its input and both answers printed
 *
 * A file is made as a tree, harmed as a tree or as bytes, or left good. Where the maker knows what has to come out of it, the second
 * reader is held to that too. An array that is lent ends (or begins) where an unmapped page begins (or ends), and has guard bytes on
 * its other side: a read past its end stops the run, a write past its start is a difference. */
#define _DEFAULT_SOURCE
#include "catalogue_reference.h"
#include "jeulgopae.h"
#include "seed.h"

#include <signal.h>
#include <stdio.h>
#include <stdlib.h>
#include <string.h>
#include <sys/mman.h>
#include <unistd.h>

/* As include/jeulgopae.h has to say it: where that differs, this doesn't compile. */
int32_t jeulgopae_catalogue_fill(const uint8_t *file, size_t file_count, const uint8_t *name, size_t name_count, uint8_t *attributes,
                                 size_t attributes_count);

/* Random content to copy from, so that many lent bytes cost a copy. */
enum { POOL = 1 << 16, LIMIT = 65536, MOST_LENT = LIMIT + 2048 };
static uint8_t pool[POOL + MOST_LENT];

/* ---- lent arrays ---- */

enum { GUARD = 64, GUARD_BYTE = 0xA7 };

typedef struct {
    uint8_t *body; /* mapped pages between two that are not */
    size_t size;
    uint8_t *at, *guard;
    size_t bytes;
} Lent;

static void open_lent(Lent *l, size_t size) {
    size_t page = (size_t)sysconf(_SC_PAGESIZE);
    uint8_t *all;
    size = (size + GUARD + page - 1) / page * page;
    all = mmap(NULL, size + 2 * page, PROT_NONE, MAP_PRIVATE | MAP_ANONYMOUS, -1, 0);
    if (all == MAP_FAILED || mprotect(all + page, size, PROT_READ | PROT_WRITE) != 0) {
        perror("mmap");
        exit(2);
    }
    l->body = all + page;
    l->size = size;
}

/* A copy of the content, against one of the two unmapped pages; NULL sometimes for nothing. */
static void *lend(Lent *l, const void *content, size_t bytes) {
    int right = percent(60);
    if (bytes > l->size - GUARD) abort();
    l->bytes = bytes;
    l->at = right ? l->body + l->size - bytes : l->body;
    l->guard = right ? l->at - GUARD : l->at + bytes;
    memset(l->guard, GUARD_BYTE, GUARD);
    if (bytes) memcpy(l->at, content, bytes);
    return bytes == 0 && percent(50) ? NULL : l->at;
}

/* Whether the array holds what it should, and its guard bytes stand. */
static int holds(const Lent *l, const void *expected) {
    for (int k = 0; k < GUARD; k++)
        if (l->guard[k] != GUARD_BYTE) return 0;
    return l->bytes == 0 || memcmp(l->at, expected, l->bytes) == 0;
}

static Lent lent_file, lent_name, lent_attributes;

/* ---- the tree that a file is made from: a node for every field ---- */

enum { NAME = 0x01, RUN = 0x02, GROUP = 0x03 };
enum { NONE = -1, ROOT = 0, MOST_NODES = 24000, LONGEST_VALUE = 40, LONGEST_FILE = 65535 };

typedef struct {
    uint8_t tag, count, value[LONGEST_VALUE]; /* a group's value is the nodes inside it */
    int is_group, gone;
    int around, before, last; /* the group that it stands in, the field before it there; of a group, its last field */
    int level;                /* of a group: 1 for the file's own */
    size_t from_end;          /* how many bytes before the file's end it begins */
} Node;

static Node nodes[MOST_NODES];
static int nodes_count;
static int group_list[MOST_NODES], run_list[MOST_NODES];
static int groups_count, runs_count;
static size_t tree_bytes;
static int numbered; /* names begin with a number, so that they differ without a search */

static uint8_t file[80000];
static size_t file_count;
static size_t put_count; /* how many bytes the tree has, before harm to them */
static size_t lent; /* how many attribute bytes are lent */

/* A field as the group's last, or up to `back` places before; a name stays first. */
static int add(int around, uint8_t tag, const uint8_t *value, size_t count, unsigned back) {
    int n = nodes_count++;
    Node *node = &nodes[n];
    if (nodes_count > MOST_NODES || count > LONGEST_VALUE) abort();
    memset(node, 0, sizeof *node);
    node->tag = tag;
    node->count = (uint8_t)count;
    if (count) memcpy(node->value, value, count);
    node->around = around;
    node->before = node->last = NONE;
    if (around != NONE) {
        int *link = &nodes[around].last;
        while (back-- > 0 && *link != NONE && nodes[*link].tag != NAME) link = &nodes[*link].before;
        node->before = *link;
        *link = n;
    }
    tree_bytes += 3 + count;
    return n;
}

/* A group's name is the node after its own. */
static int name_of(int group) { return group + 1; }

static int is_named(int group, const uint8_t *name, size_t count) {
    const Node *node = &nodes[name_of(group)];
    return node->count == count && (count == 0 || memcmp(node->value, name, count) == 0);
}

static int find(const uint8_t *name, size_t count) {
    for (int k = 0; k < groups_count; k++)
        if (is_named(group_list[k], name, count)) return group_list[k];
    return NONE;
}

static int any_group(void) { return group_list[below((uint32_t)groups_count)]; }

/* A name that no group has yet: often one that another has, with a blank more or less, or begun like it. */
static size_t fresh_name(uint8_t *to, size_t count) {
    if (numbered) {
        unsigned number = (unsigned)groups_count;
        if (count < 3) count = percent(80) ? between(3, 8) : between(3, 32);
        for (int k = 3; k-- > 0; number /= 95) to[k] = (uint8_t)(0x20 + number % 95);
        for (size_t k = 3; k < count; k++) to[k] = percent(20) ? ' ' : printable();
        return count;
    }
    for (;;) {
        uint32_t r = below(100);
        if (r < 35 && groups_count > 0) {
            const Node *other = &nodes[name_of(any_group())];
            count = other->count;
            memcpy(to, other->value, count);
            if (percent(60) && count < 32)
                to[count++] = ' ';
            else if (percent(50) && count > 1)
                count--;
            else
                to[below((uint32_t)count)] = printable();
        } else {
            count = r < 60 ? between(1, 3) : r < 85 ? between(1, 12) : r < 95 ? ONE_OF(1, 31, 32) : between(1, 32);
            for (size_t k = 0; k < count; k++) to[k] = percent(40) ? (uint8_t)ONE_OF('A', 'B', ' ', 0x20, 0x7E) : printable();
            for (size_t k = count; k-- > 1 && percent(25);) to[k] = ' ';
        }
        if (find(to, count) == NONE) return count;
    }
}

/* A group with its name; `length` of the name, 0 for any. */
static int add_group(int around, size_t length) {
    uint8_t name[LONGEST_VALUE];
    size_t count = fresh_name(name, length);
    int g = add(around, GROUP, NULL, 0, below(5));
    nodes[g].is_group = 1;
    nodes[g].level = around == NONE ? 1 : nodes[around].level + 1;
    add(g, NAME, name, count, 0);
    group_list[groups_count++] = g;
    return g;
}

static uint32_t first_of(int run) { return nodes[run].value[0] * 256u + nodes[run].value[1]; }

static uint32_t count_of(int run) { return nodes[run].value[2] * 256u + nodes[run].value[3]; }

static void set_run(int run, uint32_t first, uint32_t count) {
    const uint8_t value[4] = {(uint8_t)(first >> 8), (uint8_t)first, (uint8_t)(count >> 8), (uint8_t)count};
    memcpy(nodes[run].value, value, 4);
}

static int add_run(int group, uint32_t first, uint32_t count) {
    const uint8_t value[5] = {0, 0, 0, 0, (uint8_t)below(4)};
    int run = add(group, RUN, value, 5, below(5));
    set_run(run, first, count);
    run_list[runs_count++] = run;
    return run;
}

/* Addresses that the groups of a level and around it have taken. */
static uint8_t taken[6][LIMIT];
static uint32_t last_first, last_end; /* of the run made before */

/* A run that meets none of those around it: anywhere, touching the last, where the last stands (for a sister), at either end. */
static void add_good_run(int group) {
    uint8_t *map = taken[nodes[group].level];
    for (int tries = 0; tries < 6; tries++) {
        uint32_t wanted = percent(40) ? 1 : percent(60) ? between(1, 5) : percent(80) ? between(1, 40) : between(1, (uint32_t)lent);
        uint32_t r = below(100), first = below((uint32_t)lent), count = 0;
        if (wanted > lent) wanted = (uint32_t)lent;
        if (wanted > 65535) wanted = 65535; /* a run's count is two bytes */
        if (r < 20)
            first = last_end;
        else if (r < 30)
            first = last_first >= wanted ? last_first - wanted : 0;
        else if (r < 45)
            first = last_first;
        else if (r < 52)
            first = (uint32_t)lent - wanted;
        else if (r < 56)
            first = 0;
        while (count < wanted && first + count < lent && !map[first + count]) count++;
        if (count == 0) continue;
        memset(map + first, 1, count);
        add_run(group, first, count);
        last_first = first;
        last_end = first + count;
        return;
    }
}

/* Runs of a group, then groups inside it, down to a level; `most` groups in the tree. */
static void grow(int group, int deepest, int most) {
    int level = nodes[group].level;
    uint32_t runs = lent == 0 ? 0 : percent(25) ? 0 : percent(85) ? between(1, 3) : between(1, 8), inside;
    if (level == 1)
        memset(taken[1], 0, lent);
    else if (lent)
        memcpy(taken[level], taken[level - 1], lent);
    while (runs-- > 0) add_good_run(group);
    if (level >= deepest) return;
    inside = percent(85) ? between(1, 3) : 0;
    while (inside-- > 0 && groups_count < most) grow(add_group(group, 0), deepest, most);
}

/* A file of exactly `target` bytes. */
static void grow_large(size_t target) {
    int deepest = (int)between(1, 4);
    memset(taken[1], 0, lent);
    if (lent && percent(25)) {
        for (uint32_t k = 0; k < lent && tree_bytes + 200 < target; k++) { /* as many runs as can touch in one group */
            add_run(ROOT, k, 1);
            taken[1][k] = 1;
        }
    } else if (lent) {
        for (uint32_t n = below(200); n-- > 0 && tree_bytes + 200 < target;) add_good_run(ROOT);
    }
    while (tree_bytes + 1500 < target && deepest > 1) grow(add_group(ROOT, 0), deepest, MOST_NODES);
    while (tree_bytes < target) { /* a group without runs has 9 to 38 bytes here */
        size_t rest = target - tree_bytes;
        add_group(ROOT, (rest <= 38 ? rest : rest <= 76 ? rest / 2 : between(9, 38)) - 6);
    }
}

/* ---- from the tree to bytes ---- */

/* Writes a field so that it ends where `end` stands; gives how many bytes it has. */
static size_t put(int n, uint8_t *end) {
    Node *node = &nodes[n];
    size_t count = 0;
    if (node->gone) return 0;
    if (node->is_group)
        for (int inner = node->last; inner != NONE; inner = nodes[inner].before) count += put(inner, end - count);
    else
        memcpy(end - (count = node->count), node->value, node->count);
    end -= count + 3;
    end[0] = node->tag;
    end[1] = (uint8_t)(count >> 8);
    end[2] = (uint8_t)count;
    node->from_end = (size_t)(file + sizeof file - end);
    return count + 3;
}

static void put_tree(void) {
    file_count = put_count = put(ROOT, file + sizeof file);
    memmove(file, file + sizeof file - file_count, file_count);
}

/* Where a field begins in the file, as it was put. */
static size_t place_of(int n) { return put_count - nodes[n].from_end; }

static unsigned length_at(size_t at) { return file[at + 1] * 256u + file[at + 2]; }

static void set_length(size_t at, unsigned length) {
    file[at + 1] = (uint8_t)(length >> 8);
    file[at + 2] = (uint8_t)length;
}

/* ---- harm ---- */

enum {
    /* to the tree */
    COUNT_0,
    ATTRIBUTE_4,
    RUN_LENGTH,
    NAME_EMPTY,
    NAME_33,
    NAME_LOW,
    NAME_HIGH,
    NAME_SECOND,
    NAME_MISSING,
    NAME_LATE,
    UNKNOWN_TAG,
    NO_GROUP,
    IN_FIFTH,
    FIFTH,
    DEEP,
    THOUSANDS,
    MEET_IN_GROUP,
    MEET_ALONG,
    BEYOND,
    PAST_65535,
    TWICE,
    OVER_LIMIT,
    TREE_KINDS, /* what follows is done to the bytes */
    OVER_LONG = TREE_KINDS,
    BEHIND,
    CUT,
    EMPTY,
    OVERRUN,
    BY_ONE,
    EXCHANGED,
    LOW_FIRST,
    BYTE,
    MORE_OR_LESS,
    NOISE,
    KINDS,
    NO_HARM = KINDS,
    SEVERAL
};

enum { UNKNOWN = 1000 }; /* what has to come out isn't known */

/* What has to come out of each: the least of several, since the refusals' order is that of their numbers. */
static int meant_by(int kind) {
    if (kind <= IN_FIFTH) return 20;
    if (kind <= THOUSANDS) return 21;
    if (kind <= PAST_65535) return 22;
    if (kind == TWICE) return 23;
    if (kind == OVER_LIMIT) return 1;
    return kind <= OVERRUN ? 20 : UNKNOWN;
}

static int any_run(void) { return runs_count ? run_list[below((uint32_t)runs_count)] : add_run(any_group(), 0, 1); }

/* A run that shares an address with a run: inside it, from its last address on, or up to its first. */
static void add_meeting(int group, int run) {
    uint32_t first = first_of(run), count = count_of(run), at = below(count);
    switch (below(5)) {
    case 0:
        add_run(group, first, count);
        break;
    case 1:
        add_run(group, first + count - 1, 1 + (first + count < lent ? below(2) : 0));
        break;
    case 2:
        add_run(group, first > 0 && percent(50) ? first - 1 : first, first > 0 ? 2 : 1);
        break;
    default:
        add_run(group, first + at, between(1, count - at));
    }
}

static int deepen(int group, int level, size_t most_bytes) {
    static const uint8_t letter = 'A';
    int bare = level > 100 && percent(60); /* seven bytes each, and one name for all */
    while (nodes[group].level < level && tree_bytes + 50 < most_bytes) {
        if (bare) {
            int g = add(group, GROUP, NULL, 0, 0);
            nodes[g].is_group = 1;
            nodes[g].level = nodes[group].level + 1;
            add(g, NAME, &letter, 1, 0);
            group_list[groups_count++] = g;
            group = g;
        } else {
            group = add_group(group, 0);
        }
        if (percent(5)) add_run(group, below((uint32_t)lent + 1), 1);
    }
    return group;
}

/* A group of the level or below. */
static int group_from_level(int level) {
    for (int tries = 0; tries < 20; tries++) {
        int g = any_group();
        if (nodes[g].level >= level) return g;
    }
    return deepen(any_group(), level, LONGEST_FILE + 1000);
}

static void set_name(int group, size_t count, uint8_t odd) {
    Node *node = &nodes[name_of(group)];
    for (size_t k = node->count; k < count; k++) node->value[k] = printable();
    node->count = (uint8_t)count;
    if (odd && count) node->value[percent(40) ? count - 1 : below((uint32_t)count)] = odd;
}

static void add_unknown(int group) {
    uint8_t value[12], tag = (uint8_t)(percent(70) ? ONE_OF(0x00, 0x04, 0x05, 0x10, 0x13, 0x20, 0x80, 0x82, 0x83, 0xFF) : between(4, 255));
    memcpy(value, pool + below(POOL), sizeof value);
    add(group, tag, value, percent(30) ? 5 : below(13), below(5));
}

static void harm_tree(int kind) {
    static const uint8_t zeros[LONGEST_VALUE];
    int g = any_group(), other, run;
    switch (kind) {
    case COUNT_0:
        run = any_run();
        set_run(run, percent(50) ? first_of(run) : below(65536), 0);
        break;
    case ATTRIBUTE_4:
        nodes[any_run()].value[4] = (uint8_t)(percent(60) ? 4 : between(4, 255));
        break;
    case RUN_LENGTH:
        nodes[any_run()].count = (uint8_t)(percent(60) ? ONE_OF(4, 6) : ONE_OF(0, 1, 3, 7, 8, 10));
        break;
    case NAME_EMPTY:
        nodes[name_of(g)].count = 0;
        break;
    case NAME_33:
        set_name(g, percent(80) ? 33 : between(33, LONGEST_VALUE), 0);
        break;
    case NAME_LOW:
        set_name(g, nodes[name_of(g)].count, (uint8_t)(percent(60) ? 0x1F : between(1, 0x1F)));
        break;
    case NAME_HIGH:
        set_name(g, nodes[name_of(g)].count, (uint8_t)(percent(60) ? 0x7F : between(0x7F, 0xFF)));
        break;
    case NAME_SECOND: {
        uint8_t name[LONGEST_VALUE];
        size_t count = fresh_name(name, 0);
        add(g, NAME, name, count, below(5));
        break;
    }
    case NAME_MISSING:
        nodes[name_of(g)].gone = 1;
        break;
    case NAME_LATE:
        if (nodes[g].last == name_of(g)) add_run(g, 0, 1);
        nodes[name_of(g)].gone = 1;
        add(g, NAME, nodes[name_of(g)].value, nodes[name_of(g)].count, 0);
        break;
    case UNKNOWN_TAG:
        if (percent(50))
            add_unknown(g);
        else
            nodes[any_run()].tag = (uint8_t)(percent(50) ? ONE_OF(0, 4, 0x82) : between(4, 255));
        break;
    case NO_GROUP:
        nodes[ROOT].tag = (uint8_t)(percent(70) ? ONE_OF(NAME, RUN, 0, 4, 0x83) : between(4, 255));
        break;
    case IN_FIFTH:
        g = deepen(g, percent(70) ? 5 : (int)between(5, 8), LONGEST_FILE + 1000);
        switch (below(5)) {
        case 0:
            nodes[add_run(g, below((uint32_t)lent + 1), 1)].value[4] = 4;
            break;
        case 1:
            add_run(g, below((uint32_t)lent + 1), 0);
            break;
        case 2:
            add(g, RUN, zeros, 4, 0);
            break;
        case 3:
            nodes[name_of(g)].value[0] = 0x1F;
            break;
        default:
            add_unknown(g);
        }
        break;
    case FIFTH:
        g = deepen(g, 5, LONGEST_FILE + 1000);
        if (percent(30)) add_run(g, below((uint32_t)lent + 1), 1);
        break;
    case DEEP:
        g = deepen(g, 6, LONGEST_FILE + 1000);
        deepen(g, percent(80) ? (int)between(6, 20) : (int)between(21, 300), LONGEST_FILE);
        break;
    case THOUSANDS: /* as many as the file has room for, at times */
        g = deepen(g, 6, LONGEST_FILE + 1000);
        deepen(g, percent(50) ? (int)between(300, 9400) : 9400, LONGEST_FILE);
        break;
    case MEET_IN_GROUP:
        run = any_run();
        add_meeting(nodes[run].around, run);
        break;
    case MEET_ALONG:
        g = group_from_level(2);
        other = nodes[g].around;
        while (nodes[other].around != NONE && percent(50)) other = nodes[other].around;
        for (int k = 0; k < runs_count; k++)
            if (nodes[run_list[k]].around == g || nodes[run_list[k]].around == other) {
                add_meeting(nodes[run_list[k]].around == g ? other : g, run_list[k]);
                return;
            }
        add_meeting(g, add_run(other, below((uint32_t)lent), 1));
        break;
    case BEYOND:
        run = any_run();
        if (percent(40) && count_of(run) > 0 && first_of(run) + count_of(run) <= lent) {
            lent = first_of(run) + count_of(run) - 1;
        } else {
            uint32_t before = below((uint32_t)lent + 1);
            if (percent(50)) before = before > 3 ? 3 : before;
            /* Address and count are two bytes each. */
            if (before > 64000) before = 64000;
            if (before == 0 && lent == LIMIT) before = 1;
            set_run(run, (uint32_t)lent - before, before + (percent(70) ? 1 : between(1, 1000)));
        }
        break;
    case PAST_65535: { /* so that the end, wrapped, is back among the lent bytes */
        uint32_t before = percent(70) ? between(1, 20) : between(1, 61000);
        uint32_t room = 65535 - before; /* a run's count is two bytes */
        uint32_t most = lent < room ? (uint32_t)lent : room;
        /* The largest table ends there too. */
        set_run(any_run(), 65536 - before, before + between(lent == LIMIT, most));
        break;
    }
    case TWICE:
        other = groups_count > 1 ? any_group() : add_group(g, 0);
        if (other == g) other = group_list[g == ROOT];
        nodes[name_of(other)].count = nodes[name_of(g)].count;
        memcpy(nodes[name_of(other)].value, nodes[name_of(g)].value, nodes[name_of(g)].count);
        break;
    case OVER_LIMIT:
        lent = percent(60) ? LIMIT + 1 : between(LIMIT + 1, MOST_LENT);
        break;
    }
}

/* A field made to end behind the group that it stands in: longer by what follows the group, or the group shorter. */
static void overrun(void) {
    for (int tries = 0; tries < 30; tries++) {
        int inner = any_group(), outer = nodes[inner].around, after = NONE;
        if (outer == NONE || nodes[outer].last != inner) continue;
        if (percent(50)) {
            int tail = nodes[inner].last; /* the group ends before it, and it becomes the outer group's */
            set_length(place_of(outer), length_at(place_of(outer)) - 3 - length_at(place_of(tail)));
            return;
        }
        for (int k = 0; k < nodes_count; k++)
            if (nodes[k].before == outer && nodes[k].around == nodes[outer].around) after = k;
        if (after == NONE) continue;
        set_length(place_of(inner), length_at(place_of(inner)) + 3 + length_at(place_of(after)));
        return;
    }
    set_length(place_of(name_of(ROOT)), 65535 - below(300)); /* past the file's end */
}

static void harm_bytes(int kind) {
    size_t at = file_count ? below((uint32_t)file_count) : 0;
    size_t field = place_of((int)below((uint32_t)nodes_count));
    unsigned length;
    if (field >= file_count) field = 0; /* a field that is gone */
    if (file_count < 4) return; /* cut before */
    switch (kind) {
    case BEHIND:
        if (percent(20) && 2 * file_count < sizeof file - 100) {
            memcpy(file + file_count, file, file_count);
            file_count *= 2;
        } else {
            for (uint32_t n = between(1, 4); n-- > 0;) file[file_count++] = (uint8_t)(percent(50) ? ONE_OF(0, 1, 2, 3) : next());
        }
        break;
    case CUT:
        file_count = percent(50) ? file_count - between(1, 4) : at;
        break;
    case EMPTY:
        file_count = 0;
        break;
    case OVERRUN:
        overrun();
        break;
    case BY_ONE:
        length = length_at(field);
        set_length(field, percent(50) || length == 0 ? length + 1 : length - 1);
        break;
    case EXCHANGED:
        length = length_at(field);
        set_length(field, (length & 0xFF) * 256 + (length >> 8));
        break;
    case LOW_FIRST: /* the whole file, as if the low byte went first */
        for (int n = 0; n < nodes_count; n++) {
            size_t place = place_of(n);
            if (nodes[n].from_end == 0) continue;
            length = length_at(place);
            set_length(place, (length & 0xFF) * 256 + (length >> 8));
            if (nodes[n].tag == RUN && nodes[n].count == 5) {
                const uint8_t value[4] = {file[place + 4], file[place + 3], file[place + 6], file[place + 5]};
                memcpy(file + place + 3, value, 4);
            }
        }
        break;
    case BYTE:
        for (uint32_t n = percent(70) ? 1 : between(2, 4); n-- > 0; at = below((uint32_t)file_count))
            file[at] = (uint8_t)(percent(40) ? file[at] ^ (1u << below(8)) : percent(50) ? file[at] + 1 - 2 * below(2) : below(256));
        break;
    case MORE_OR_LESS:
        if (percent(50)) {
            memmove(file + at + 1, file + at, file_count - at);
            file[at] = (uint8_t)(percent(60) ? below(6) : below(256));
            file_count++;
        } else {
            memmove(file + at, file + at + 1, file_count - at - 1);
            file_count--;
        }
        if (file_count >= 3 && percent(60)) set_length(0, (unsigned)file_count - 3);
        break;
    default: /* NOISE: small numbers, begun like a file at times */
        file_count = below(60);
        for (size_t k = 0; k < file_count; k++) file[k] = (uint8_t)(percent(80) ? below(6) : below(256));
        if (file_count >= 3 && percent(80)) {
            file[0] = GROUP;
            set_length(0, (unsigned)file_count - 3);
        }
        if (file_count >= 8 && percent(70)) memcpy(file + 3, (const uint8_t[]){NAME, 0, 1, 'A', RUN}, 5);
    }
}

/* ---- what is asked ---- */

enum { ASK_LEVEL_1, ASK_LEVEL_2, ASK_LEVEL_3, ASK_LEVEL_4, ASK_MORE, ASK_LESS, ASK_CHANGED, ASK_OTHER, ASK_EMPTY, ASK_33, ASK_ODD, ASKS };

static uint8_t asked[LONGEST_VALUE];
static size_t asked_count;

/* A name of the tree, or one near it; gives which. */
static int choose_asked(void) {
    int g = any_group();
    uint32_t r = below(100);
    const Node *name = &nodes[name_of(g)];
    asked_count = name->count;
    memcpy(asked, name->value, asked_count);
    if (r < 62) return nodes[g].level <= 4 ? ASK_LEVEL_1 + nodes[g].level - 1 : ASK_OTHER;
    if (r < 70 && asked_count < 32) {
        asked[asked_count++] = ' ';
        return ASK_MORE;
    }
    if (r < 78 && asked_count > 1) { /* the last character, a blank where there is one */
        for (int tries = 0; tries < 5 && asked[asked_count - 1] != ' '; tries++) {
            name = &nodes[name_of(any_group())];
            if (name->count < 2) continue;
            asked_count = name->count;
            memcpy(asked, name->value, asked_count);
        }
        asked_count--;
        return ASK_LESS;
    }
    if (r < 84 && asked_count > 0) {
        asked[below((uint32_t)asked_count)] ^= (uint8_t)ONE_OF(1, 2, 4, 0x20);
        return ASK_CHANGED;
    }
    if (r < 90) {
        asked_count = between(1, 32);
        for (size_t k = 0; k < asked_count; k++) asked[k] = printable();
        return ASK_OTHER;
    }
    if (r < 93) {
        asked_count = 0;
        return ASK_EMPTY;
    }
    if (r < 97) {
        for (size_t k = asked_count; k < 33; k++) asked[k] = ' ';
        asked_count = percent(80) || asked_count > 33 ? 33 : between(33, LONGEST_VALUE);
        for (size_t k = 33; k < asked_count; k++) asked[k] = ' ';
        return ASK_33;
    }
    if (asked_count == 0) asked_count = 1;
    asked[below((uint32_t)asked_count)] = (uint8_t)ONE_OF(0, 0x1F, 0x7F, 0x80, 0xA0, 0xFF);
    return ASK_ODD;
}

/* ---- what is counted ---- */

static const int numbers[] = {0, 1, 20, 21, 22, 23, 24};
enum { COLUMNS = sizeof numbers / sizeof *numbers, ROWS = 40 };
enum { IS_0 = 1, IS_1 = 2, IS_20 = 4, IS_21 = 8, IS_22 = 16, IS_23 = 32, IS_24 = 64, ANY = 127 };

typedef struct {
    const char *what;
    const char *rows[ROWS];
    unsigned wanted[ROWS]; /* a bit for each number that has to come up in the row */
    uint64_t came[ROWS][COLUMNS];
} Matrix;

static Matrix by_harm = {
    .what = "harm",
    .rows = {"count 0", "attribute above 3", "run not of 5 bytes", "name of 0 bytes", "name of 33 bytes", "name with 1Fh", "name with 7Fh",
             "second name", "no name", "name not first", "unknown tag", "file no group", "20 in a fifth level", "fifth level",
             "deeper", "thousands deep",
             "meet in one group", "meet along levels", "beyond", "past 65,535", "name twice", "over the limit", "over 65,535 bytes",
             "bytes behind", "cut", "empty file", "overrun", "a length by one", "length exchanged", "low byte first", "bytes changed",
             "byte more or less", "noise", "none", "several"},
    .wanted = {IS_20, IS_20, IS_20, IS_20, IS_20, IS_20, IS_20, IS_20, IS_20, IS_20, IS_20, IS_20, IS_20, IS_21, IS_21, IS_21, IS_22, IS_22,
               IS_22, IS_22, IS_23, IS_1, IS_20, IS_20, IS_20, IS_20, IS_20, IS_20, IS_20, IS_20, IS_0 | IS_20 | IS_22 | IS_24,
               IS_20, IS_20, IS_0 | IS_24, IS_1 | IS_20 | IS_21 | IS_22}};

static Matrix by_asked = {
    .what = "asked, no harm",
    .rows = {"name at level 1", "name at level 2", "name at level 3", "name at level 4", "a blank more", "one byte less",
             "one byte changed", "any other", "empty", "33 bytes or more", "a byte no name has"},
    .wanted = {IS_0, IS_0, IS_0, IS_0, IS_0 | IS_24, IS_0 | IS_24, IS_24, IS_24, IS_24, IS_24, IS_24}};

static Matrix by_lent = {.what = "lent",
                         .rows = {"0", "1", "2 to 64", "65 to 65,535", "65,536", "65,537", "more"},
                         .wanted = {ANY & ~IS_1, ANY & ~IS_1, ANY & ~IS_1, ANY & ~IS_1, ANY & ~IS_1, IS_1, IS_1}};

static Matrix by_file = {
    .what = "no harm",
    .rows = {"one level", "two levels", "three levels", "four levels", "no run", "attribute 0", "touching in a group", "touching along",
             "sisters share", "blanks apart", "to the last lent", "over 256 bytes", "over 8,192 bytes", "65,535 bytes"},
    .wanted = {IS_0, IS_0 | IS_24, IS_0 | IS_24, IS_0 | IS_24, IS_0, IS_0, IS_0, IS_0, IS_0, IS_0 | IS_24, IS_0, IS_0, IS_0, IS_0}};

static void count(Matrix *m, int row, int answer) {
    for (int c = 0; c < COLUMNS; c++)
        if (numbers[c] == answer) m->came[row][c]++;
}

/* Prints what came up; gives how many of the counts that should be above 0 are 0. */
static int report(const Matrix *m) {
    int missing = 0;
    printf("%-22s", m->what);
    for (int c = 0; c < COLUMNS; c++) printf("%9d", numbers[c]);
    printf("\n");
    for (int r = 0; r < ROWS && m->rows[r]; r++) {
        printf("  %-20s", m->rows[r]);
        for (int c = 0; c < COLUMNS; c++) {
            int wanted = (m->wanted[r] >> c) & 1;
            if (!wanted && m->came[r][c] == 0)
                printf("%9s", "-");
            else
                printf("%9llu", (unsigned long long)m->came[r][c]);
            missing += wanted && m->came[r][c] == 0;
        }
        printf("\n");
    }
    if (missing) printf("    MISSING: %d counts are 0 that should not be\n", missing);
    return missing;
}

static int is_or_surrounds(int outer, int inner) {
    for (; inner != NONE; inner = nodes[inner].around)
        if (inner == outer) return 1;
    return 0;
}

/* What a good file has in it. */
static void count_file(int answer) {
    int deepest = 0, no_hole = 1, touching = 0, along = 0, share = 0, blanks = 0, to_last = 0;
    for (int k = 0; k < groups_count; k++)
        if (nodes[group_list[k]].level > deepest) deepest = nodes[group_list[k]].level;
    for (int i = 0; i < runs_count && runs_count < 100; i++) {
        int a = run_list[i];
        if (nodes[a].value[4] == 0) no_hole = 0;
        if (first_of(a) + count_of(a) == lent) to_last = 1;
        for (int j = 0; j < runs_count; j++) {
            int b = run_list[j], group_a = nodes[a].around, group_b = nodes[b].around;
            if (first_of(a) + count_of(a) == first_of(b)) {
                if (group_a == group_b)
                    touching = 1;
                else if (is_or_surrounds(group_a, group_b) || is_or_surrounds(group_b, group_a))
                    along = 1;
            }
            if (i != j && first_of(a) < first_of(b) + count_of(b) && first_of(b) < first_of(a) + count_of(a)) share = 1;
        }
    }
    for (int i = 0; i < groups_count && groups_count < 100 && !blanks; i++) {
        const Node *name = &nodes[name_of(group_list[i])];
        if (name->value[name->count - 1] == ' ' && find(name->value, name->count - 1u) != NONE) blanks = 1;
    }
    count(&by_file, deepest - 1, answer);
    if (runs_count == 0) count(&by_file, 4, answer);
    if (!no_hole) count(&by_file, 5, answer);
    if (touching) count(&by_file, 6, answer);
    if (along) count(&by_file, 7, answer);
    if (share) count(&by_file, 8, answer);
    if (blanks) count(&by_file, 9, answer);
    if (to_last) count(&by_file, 10, answer);
    if (file_count > 256) count(&by_file, 11, answer);
    if (file_count > 8192) count(&by_file, 12, answer);
    if (file_count == LONGEST_FILE) count(&by_file, 13, answer);
}

/* ---- a case ---- */

static uint64_t seed, case_number, cases, differences, not_meant;
static int show;

static void dump(const char *what, const uint8_t *b, size_t n) {
    printf("    %-9s %zu:", what, n);
    for (size_t k = 0; k < n && k < 600; k++) printf(" %02X", b[k]);
    printf("\n");
}

/* What a good file's tree says the lent bytes have to be. */
static void fill_from_tree(int group, uint8_t *to) {
    memset(to, 0, lent);
    for (int k = 0; k < runs_count; k++)
        if (is_or_surrounds(nodes[run_list[k]].around, group))
            memset(to + first_of(run_list[k]), nodes[run_list[k]].value[4], count_of(run_list[k]));
}

static void choose_lent(void) {
    uint32_t r = below(100);
    lent = r < 4 ? 0 : r < 9 ? 1 : r < 50 ? between(2, 64) : r < 94 ? between(65, 4096) : r < 97 ? between(65, LIMIT) : LIMIT;
}

static int choose_harm(void) {
    uint32_t r = below(1000);
    if (r < 20) return OVER_LONG;
    if (r < 28) return THOUSANDS;
    if (r < 300) return (int)ONE_OF(FIFTH, MEET_IN_GROUP, MEET_ALONG, BEYOND, PAST_65535, TWICE, OVERRUN);
    for (;;) {
        int kind = (int)below(KINDS);
        if (kind != OVER_LONG && kind != THOUSANDS) return kind; /* a large file each, so they come seldom */
    }
}

enum { LARGE = 20 };

/* A good tree: its size by a number below 1,000, large below 20; or so many bytes exactly. */
static void make_tree(uint32_t size, size_t exact) {
    nodes_count = groups_count = runs_count = 0;
    tree_bytes = 0;
    last_first = last_end = 0;
    add_group(NONE, 0);
    if (exact)
        grow_large(exact);
    else if (size < 2)
        grow_large(LONGEST_FILE);
    else if (size < 4)
        grow_large(between(30000, LONGEST_FILE));
    else if (size < LARGE)
        grow_large(between(300, 12000));
    else
        grow(ROOT, size < 150 ? 1 : (int)between(2, 4), 40);
}

static int is_about_names(int kind) { return kind == NAME_SECOND || kind == NAME_MISSING || kind == NAME_LATE; }

/* Harms the tree, then its bytes; gives the refusal that has to come out, or UNKNOWN. */
static int harm(const int *kinds, int kinds_count) {
    int meant = UNKNOWN, to_bytes = 0, over_limit = 0, about_names = 0;
    for (int number = 23; number >= 1; number--) /* from the last refusal to the first, so that none is mended by the next */
        for (int k = 0; k < kinds_count; k++) {
            if (kinds[k] >= TREE_KINDS || meant_by(kinds[k]) != number) continue;
            if (is_about_names(kinds[k]) && about_names++) continue; /* a second name would mend a missing one */
            harm_tree(kinds[k]);
        }
    for (int k = 0; k < kinds_count; k++) {
        if (kinds[k] == OVER_LIMIT) over_limit = 1;
        if (kinds[k] == OVER_LONG) continue; /* made so, and a shorter name may have mended it */
        if (meant_by(kinds[k]) < meant) meant = meant_by(kinds[k]);
    }
    put_tree();
    if (file_count > LONGEST_FILE && meant > 20) meant = 20;
    for (int k = 0; k < kinds_count; k++)
        if (kinds[k] >= TREE_KINDS && kinds[k] != OVER_LONG) {
            harm_bytes(kinds[k]);
            if (++to_bytes > 1 || meant_by(kinds[k]) == UNKNOWN) meant = UNKNOWN;
        }
    return over_limit ? 1 : meant;
}

static void one_case(uint64_t number) {
    static uint8_t before[MOST_LENT], expected[MOST_LENT], from_tree[MOST_LENT];
    int kinds[3], kinds_count = 0, ask, meant, same, astray;
    int32_t got, reference;
    uint32_t r, size;
    size_t exact = 0;
    const uint8_t *file_at, *name_at;
    uint8_t *attributes_at;

    case_number = number;
    state = mix(mix(seed + 1) ^ mix(number + 1));
    r = below(100);
    if (r >= 40) kinds[kinds_count++] = choose_harm();
    if (r >= 86) kinds[kinds_count++] = choose_harm();
    if (r >= 96) kinds[kinds_count++] = choose_harm();
    choose_lent();
    size = below(1000);
    numbered = size < LARGE;
    for (int k = 0; k < kinds_count; k++) {
        if (kinds[k] == DEEP || kinds[k] == THOUSANDS || kinds[k] == OVER_LONG) numbered = 1;
        if (kinds[k] == OVER_LONG) exact = LONGEST_FILE + ONE_OF(1, 1, 2, 3); /* 65,538 is the most that a length can tell */
        if ((kinds[k] == MEET_IN_GROUP || kinds[k] == MEET_ALONG) && lent == 0) lent = 1;
    }
    make_tree(size, exact);
    meant = harm(kinds, kinds_count);
    ask = choose_asked();
    memcpy(before, pool + below(POOL), lent);
    memcpy(expected, before, lent);
    if (kinds_count == 0) {
        int group = find(asked, asked_count);
        meant = group == NONE ? 24 : 0;
        if (group != NONE) fill_from_tree(group, from_tree);
    }

    file_at = lend(&lent_file, file, file_count);
    name_at = lend(&lent_name, asked, asked_count);
    attributes_at = lend(&lent_attributes, before, lent);
    reference = reference_catalogue_fill(file, file_count, asked, asked_count, expected, lent);
    got = jeulgopae_catalogue_fill(file_at, file_count, name_at, asked_count, attributes_at, lent);

    cases++;
    same = holds(&lent_attributes, expected) && holds(&lent_file, file) && holds(&lent_name, asked);
    astray = meant != UNKNOWN && (reference != -meant || memcmp(expected, reference == 0 ? from_tree : before, lent) != 0);
    if (got != reference || !same) differences++;
    if (astray) not_meant++;
    count(&by_harm, kinds_count == 0 ? NO_HARM : kinds_count == 1 ? kinds[0] : SEVERAL, -got);
    count(&by_lent, lent < 2 ? (int)lent : lent <= 64 ? 2 : lent < LIMIT ? 3 : lent == LIMIT ? 4 : lent == LIMIT + 1 ? 5 : 6, -got);
    if (kinds_count == 0) {
        count(&by_asked, ask, -got);
        count_file(-got);
    }
    if (show || (got != reference || !same ? differences <= 3 : astray && not_meant <= 3)) {
        printf("  case %llu: library %d, reference %d, lent bytes %s", (unsigned long long)number, got, reference,
               same ? "alike" : "DIFFERENT");
        if (meant != UNKNOWN) printf(", meant %d%s", -meant, astray ? ": NOT AS MEANT" : "");
        for (int k = 0; k < kinds_count; k++) printf(", %s", by_harm.rows[kinds[k]]);
        printf("\n");
        dump("file", file, file_count);
        dump("name", asked, asked_count);
        dump("before", before, lent);
        dump("library", lent_attributes.at, lent);
        dump("reference", expected, lent);
    }
}

/* Counts past 32 bits, so that one cut to 32 would be taken: the refusals that they have to give. */
static int huge(void) {
    const size_t past = (size_t)1 << 32;
    const uint8_t small[] = {GROUP, 0, 12, NAME, 0, 1, 'A', RUN, 0, 5, 0, 0, 0, 1, 3};
    int wrong = 0, tried = 0;
    uint8_t attributes[4] = {9, 9, 9, 9};
    uint8_t *all = mmap(NULL, past + (1 << 20), PROT_READ | PROT_WRITE, MAP_PRIVATE | MAP_ANONYMOUS | MAP_NORESERVE, -1, 0);
    if (all == MAP_FAILED) {
        perror("huge counts: mmap");
        return 1;
    }
#define HUGE(what, call, expected)                                                         \
    do {                                                                                   \
        int32_t got = (call);                                                              \
        tried++;                                                                           \
        if (got != (expected)) {                                                           \
            wrong++;                                                                       \
            printf("  huge counts: %s: library %d, expected %d\n", what, got, (expected)); \
        }                                                                                  \
    } while (0)
    all[0] = 'A';
    HUGE("name", jeulgopae_catalogue_fill(small, sizeof small, all, past + 1, attributes, 4), -24);
    HUGE("lent bytes", jeulgopae_catalogue_fill(small, sizeof small, all, 1, all + 4096, past + 4), -1);
    HUGE("lent bytes as they were", all[4096], 0);
    memcpy(all, small, sizeof small);
    HUGE("file", jeulgopae_catalogue_fill(all, past + sizeof small, (const uint8_t *)"A", 1, attributes, 4), -20);
    HUGE("attributes as they were", attributes[0] * 256 + attributes[1], 9 * 257);
    HUGE("none of them", jeulgopae_catalogue_fill(small, sizeof small, (const uint8_t *)"A", 1, attributes, 4), 0);
    HUGE("attributes filled", attributes[0] * 256 + attributes[1], 3 * 256);
#undef HUGE
    munmap(all, past + (1 << 20));
    printf("counts past 32 bits: %d cases, %d differences\n", tried, wrong);
    return wrong != 0;
}

/* Where a read or write left its array. */
static void stopped(int signal_number) {
    char line[160];
    int n = snprintf(line, sizeof line, "  case %llu: stopped by signal %d\n", (unsigned long long)case_number, signal_number);
    fflush(stdout);
    if (write(1, line, (size_t)n) < 0) _exit(3);
    _exit(3);
}

int main(int argc, char **argv) {
    uint64_t wanted;
    int missing, failed;
    if (argc != 3 && argc != 4) {
        fprintf(stderr, "usage: catalogue_cases SEED COUNT [CASE]\n");
        return 2;
    }
    seed = strtoull(argv[1], NULL, 0);
    wanted = strtoull(argv[2], NULL, 0);
    state = mix(seed);
    for (size_t k = 0; k < sizeof pool; k++) pool[k] = (uint8_t)next();
    open_lent(&lent_file, sizeof file);
    open_lent(&lent_name, sizeof asked);
    open_lent(&lent_attributes, MOST_LENT);
    signal(SIGSEGV, stopped);
    signal(SIGBUS, stopped);
    signal(SIGILL, stopped);
    signal(SIGFPE, stopped);

    if (argc == 4) {
        show = 1;
        one_case(strtoull(argv[3], NULL, 0));
        return differences != 0 || not_meant != 0;
    }
    printf("seed %llu\n", (unsigned long long)seed);
    for (uint64_t k = 0; k < wanted; k++) one_case(k);
    missing = report(&by_harm) + report(&by_asked) + report(&by_lent) + report(&by_file);
    failed = huge();
    printf("%llu cases, %llu differences, %llu not as meant, %d counts missing\n", (unsigned long long)cases,
           (unsigned long long)differences, (unsigned long long)not_meant, missing);
    return differences != 0 || not_meant != 0 || missing != 0 || failed;
}
