/* A table from a file of lines `address attribute value` or `from-to attribute value`: attribute 0 hole, 1 read, 2 write, 3 both; value
 * decimal, or hex after 0x. What follows a # is a comment. A word that no line names stays a hole. */
#ifndef TABLE_FILE_H
#define TABLE_FILE_H

#include "jeulgopae.h"

typedef struct {
    uint16_t words[JEULGOPAE_TABLE_LIMIT];
    uint8_t attributes[JEULGOPAE_TABLE_LIMIT];
    size_t count; /* one more than the last word that a line names */
} Table;

/* Reads a table. Every mistake is told on standard error by file, line and reason; -1 if there was one. */
int table_read(Table *table, const char *path);

#endif
