/* The second reader of catalogue files: jeulgopae_catalogue_fill under the prefix reference_. */
#ifndef CATALOGUE_REFERENCE_H
#define CATALOGUE_REFERENCE_H

#include <stddef.h>
#include <stdint.h>

/* 0 where the lent bytes were filled; else -1, -20, -21, -22, -23 or -24, and they are as they were. */
int32_t reference_catalogue_fill(const uint8_t *file, size_t file_count, const uint8_t *name, size_t name_count, uint8_t *attributes,
                                 size_t attributes_count);

#endif
