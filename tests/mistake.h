/* Which mistake the library is to make, for wrong.c of tests/host, tests/pages and tests/threads. */
#ifndef MISTAKE_H
#define MISTAKE_H

#include <stdint.h>
#include <stdio.h>
#include <stdlib.h>

/* A function of the library, by the second name, and what stands before it, by the first: the linker's --wrap. */
#define WRAPPED(type, name, ...)                 \
    type __wrap_calmuredda_##name(__VA_ARGS__); \
    type __real_calmuredda_##name(__VA_ARGS__)

WRAPPED(uint8_t, decode, const uint8_t *, size_t, uint64_t, uint8_t, uint8_t, uint8_t *, size_t);
WRAPPED(uint64_t, encode, const uint8_t *, size_t, uint64_t, uint8_t);
WRAPPED(uint8_t, line, const uint8_t *, size_t, uint8_t *, size_t, size_t *);
WRAPPED(uint8_t, section_check, const uint8_t *, size_t);
WRAPPED(size_t, section_count, const uint8_t *, size_t);
WRAPPED(uint8_t, section_flags, const uint8_t *, size_t);
WRAPPED(uint64_t, section_address, const uint8_t *, size_t, size_t);
WRAPPED(uint8_t, section_body, const uint8_t *, size_t, size_t, size_t *, size_t *);
WRAPPED(uint8_t, block, const uint8_t *, size_t, uint64_t, uint8_t, size_t, uint8_t *, size_t *);
WRAPPED(uint8_t, page, const uint8_t *, size_t, uint64_t, uint8_t, size_t, uint8_t *, size_t, size_t, size_t *,
        size_t *);
WRAPPED(uint8_t, listing, const uint8_t *, size_t, size_t, size_t, uint8_t *, size_t, size_t *, size_t *, size_t *);

/* The number in the environment's MISTAKE, from 1 to the last. */
static int mistake_up_to(int last)
{
    static int number;
    const char *text = number == 0 ? getenv("MISTAKE") : NULL;
    if (text != NULL) {
        number = atoi(text);
    }
    if (number < 1 || number > last) {
        printf("MISTAKE is a number from 1 to %d\n", last);
        exit(EXIT_FAILURE);
    }
    return number;
}

#endif
