/* The attributes of a table from a catalogue file. */
#ifndef CATALOGUE_FILE_H
#define CATALOGUE_FILE_H

#include "jeulgopae.h"

/* Fills the attributes of a name of a file. What is wrong is told on standard error, with the refusal's number and what it means; -1 then. */
int catalogue_read(uint8_t *attributes, size_t count, const char *path, const char *name);

#endif
