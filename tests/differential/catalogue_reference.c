/* A second reader of catalogue files. It stands on the request's text alone and shares nothing with the engine or its definitions.
 * It is meant to be read beside that text, sentence by sentence: plain, not fast. Where it and the library give different answers,
 * one of the two misreads the text. */
#include "catalogue_reference.h"

#include <string.h>

enum { TABLE_LIMIT = 65536, LONGEST_FILE = 65535, DEEPEST = 4, LONGEST_NAME = 32 };

enum { NAME = 0x01, RUN = 0x02, GROUP = 0x03 };

/* ---- what stands in the file ---- */

enum { NO_GROUP = -1 };

typedef struct {
    size_t from, end; /* where its fields stand in the file */
    int around;       /* the group that it is a field of; NO_GROUP for the file's own */
    int level;        /* 1 for the file's own */
    const uint8_t *name;
    size_t name_count;
} Group;

typedef struct {
    uint32_t first, count;
    uint8_t attribute;
    int group;
} Run;

/* A field has three bytes before its value, a run eight in all. */
static Group groups[LONGEST_FILE / 3];
static Run runs[LONGEST_FILE / 8];
static int groups_count, runs_count;

typedef struct {
    uint8_t tag;
    size_t value, count; /* where its value begins, and how many bytes it has */
} Field;

static unsigned number_at(const uint8_t *b) { return b[0] * 256u + b[1]; }

/* The field that begins at a place; 0 where what it stands in ends before it does. */
static int field_at(const uint8_t *file, size_t at, size_t end, Field *field) {
    if (end - at < 3) return 0;
    field->tag = file[at];
    field->count = number_at(file + at + 1);
    field->value = at + 3;
    return field->count <= end - field->value;
}

static int is_name(const uint8_t *name, size_t count) {
    if (count < 1 || count > LONGEST_NAME) return 0;
    for (size_t k = 0; k < count; k++)
        if (name[k] < 0x20 || name[k] > 0x7E) return 0;
    return 1;
}

static void add_group(const Field *field, int around) {
    Group *group = &groups[groups_count++];
    group->from = field->value;
    group->end = field->value + field->count;
    group->around = around;
    group->level = around == NO_GROUP ? 1 : groups[around].level + 1;
}

static int add_run(const uint8_t *value, size_t count, int group) {
    Run run;
    if (count != 5) return 0;
    run.first = number_at(value);
    run.count = number_at(value + 2);
    run.attribute = value[4];
    run.group = group;
    if (run.count == 0) return 0;
    if (run.attribute > 3) return 0;
    runs[runs_count++] = run;
    return 1;
}

/* The fields of one group: one name, then runs and groups in any order. Groups inside are noted, and their fields read later. */
static int read_fields(const uint8_t *file, int g) {
    Field field;
    size_t at = groups[g].from, end = groups[g].end;
    if (!field_at(file, at, end, &field)) return 0;
    if (field.tag != NAME || !is_name(file + field.value, field.count)) return 0;
    groups[g].name = file + field.value;
    groups[g].name_count = field.count;
    for (at = field.value + field.count; at < end; at = field.value + field.count) {
        if (!field_at(file, at, end, &field)) return 0;
        if (field.tag == RUN) {
            if (!add_run(file + field.value, field.count, g)) return 0;
        } else if (field.tag == GROUP) {
            add_group(&field, g);
        } else {
            return 0;
        }
    }
    return 1;
}

/* The whole file into the two lists, however deep it goes; 0 where any of it is malformed. */
static int read_file(const uint8_t *file, size_t file_count) {
    Field field;
    groups_count = runs_count = 0;
    if (file_count > LONGEST_FILE) return 0;
    if (!field_at(file, 0, file_count, &field)) return 0;
    if (field.tag != GROUP) return 0;
    if (field.value + field.count != file_count) return 0;
    add_group(&field, NO_GROUP);
    for (int g = 0; g < groups_count; g++)
        if (!read_fields(file, g)) return 0;
    return 1;
}

/* ---- what the rules say of it ---- */

static int has_fifth_level(void) {
    for (int g = 0; g < groups_count; g++)
        if (groups[g].level > DEEPEST) return 1;
    return 0;
}

/* Whether a group is another or stands around it, at any distance. */
static int is_or_surrounds(int outer, int inner) {
    for (int g = inner; g != NO_GROUP; g = groups[g].around)
        if (g == outer) return 1;
    return 0;
}

static int on_one_chain(int a, int b) { return is_or_surrounds(a, b) || is_or_surrounds(b, a); }

static int share_an_address(const Run *a, const Run *b) { return a->first < b->first + b->count && b->first < a->first + a->count; }

static int runs_meet(void) {
    for (int i = 0; i < runs_count; i++)
        for (int j = 0; j < i; j++)
            if (share_an_address(&runs[i], &runs[j]) && on_one_chain(runs[i].group, runs[j].group)) return 1;
    return 0;
}

/* Every run of the file counts, whatever name is asked; addresses don't start again after 65,535. */
static int a_run_goes_beyond(size_t attributes_count) {
    for (int i = 0; i < runs_count; i++)
        if (runs[i].first + runs[i].count > attributes_count) return 1;
    return 0;
}

static int same_name(const uint8_t *a, size_t a_count, const uint8_t *b, size_t b_count) {
    return a_count == b_count && (a_count == 0 || memcmp(a, b, a_count) == 0);
}

static int group_named(const uint8_t *name, size_t name_count) {
    for (int g = 0; g < groups_count; g++)
        if (same_name(groups[g].name, groups[g].name_count, name, name_count)) return g;
    return NO_GROUP;
}

static int a_name_comes_twice(void) {
    for (int g = 0; g < groups_count; g++)
        for (int h = 0; h < g; h++)
            if (same_name(groups[g].name, groups[g].name_count, groups[h].name, groups[h].name_count)) return 1;
    return 0;
}

/* The runs of the asked group and of every group around it, 0 elsewhere. */
static void fill(int asked, uint8_t *attributes, size_t attributes_count) {
    for (size_t k = 0; k < attributes_count; k++) attributes[k] = 0;
    for (int i = 0; i < runs_count; i++)
        if (is_or_surrounds(runs[i].group, asked))
            for (uint32_t k = 0; k < runs[i].count; k++) attributes[runs[i].first + k] = runs[i].attribute;
}

int32_t reference_catalogue_fill(const uint8_t *file, size_t file_count, const uint8_t *name, size_t name_count, uint8_t *attributes,
                                 size_t attributes_count) {
    int asked;
    if (attributes_count > TABLE_LIMIT) return -1;
    if (!read_file(file, file_count)) return -20;
    if (has_fifth_level()) return -21;
    if (a_run_goes_beyond(attributes_count) || runs_meet()) return -22;
    if (a_name_comes_twice()) return -23;
    asked = group_named(name, name_count);
    if (asked == NO_GROUP) return -24;
    fill(asked, attributes, attributes_count);
    return 0;
}
