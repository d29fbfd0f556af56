/* What the C programs here hold the library to: a surprise is told, and ends the program with status 1. */
#ifndef WANT_H
#define WANT_H

#include <inttypes.h>
#include <stdint.h>
#include <stdio.h>
#include <stdlib.h>
#include <string.h>

/* Holds a number to what it should be. */
static inline void want(const char *what, uint64_t is, uint64_t should)
{
    if (is != should) {
        fprintf(stderr, "surprise: %s is %" PRIu64 ", not %" PRIu64 "\n", what, is, should);
        exit(1);
    }
}

static inline void want_octets(const char *what, const uint8_t *is, const uint8_t *should, size_t len)
{
    want(what, memcmp(is, should, len) != 0, 0);
}

#endif
