/* The second noise report: what the program noise has to print of an input. */
#ifndef NOISE_REFERENCE_H
#define NOISE_REFERENCE_H

#include <stddef.h>
#include <stdint.h>

enum { NOISE_SAID = 200 };

/* Writes the text, with a NUL after it, into said, which has NOISE_SAID bytes. */
void reference_noise(const uint8_t *input, size_t count, char *said);

#endif
