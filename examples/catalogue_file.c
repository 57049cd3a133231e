#include "catalogue_file.h"

#include <errno.h>
#include <stdio.h>
#include <string.h>

/* A byte more than a file may have, so that a longer one is seen to be longer. */
enum { ROOM = JEULGOPAE_FILE_LIMIT + 1 };

static const char *meaning(int32_t number) {
    switch (number) {
    case JEULGOPAE_BAD_FILE: return "malformed";
    case JEULGOPAE_TOO_DEEP: return "a group on a fifth level";
    case JEULGOPAE_RUNS_MEET: return "two runs meet along one chain, or a run goes on after the last register";
    case JEULGOPAE_NAME_TWICE: return "a name stands twice";
    case JEULGOPAE_NO_SUCH_NAME: return "no group has the name that was asked for";
    default: return "too many registers";
    }
}

int catalogue_read(uint8_t *attributes, size_t count, const char *path, const char *name) {
    static uint8_t file[ROOM];
    FILE *from = fopen(path, "rb");
    size_t n = from ? fread(file, 1, sizeof file, from) : 0;
    int32_t number;
    if (!from || ferror(from)) {
        fprintf(stderr, "%s: %s\n", path, strerror(errno));
        if (from) fclose(from);
        return -1;
    }
    fclose(from);
    number = jeulgopae_catalogue_fill(file, n, (const uint8_t *)name, strlen(name), attributes, count);
    if (number < 0) fprintf(stderr, "%s: refused with %d: %s\n", path, -(int)number, meaning(number));
    return number < 0 ? -1 : 0;
}
