/* What the programs in C read, as the others of bench/run do: a byte that switches on what is measured, the width flag,
   a byte that says whether the words should be given as big-endian bytes, a byte without a meaning; then the words, as
   little-endian bytes. */
#ifndef BENCH_INPUT_H
#define BENCH_INPUT_H

#include <stdbool.h>
#include <stddef.h>
#include <stdint.h>
#include <stdio.h>
#include <stdlib.h>
#include <string.h>

enum { WORD_BYTES = 4, HEAD_BYTES = 4, MOST_BYTES = 1 << 24 };

struct input {
    uint8_t head[HEAD_BYTES];
    bool measuring;
    uint8_t wide;
    uint8_t big;
    uint8_t *bytes;
    size_t len;
};

static inline void stop(const char *why)
{
    fprintf(stderr, "%s\n", why);
    exit(EXIT_FAILURE);
}

static inline void turn_words(uint8_t *bytes, size_t len)
{
    for (size_t at = 0; at < len; at += WORD_BYTES) {
        uint32_t word;
        memcpy(&word, bytes + at, sizeof word);
        word = __builtin_bswap32(word);
        memcpy(bytes + at, &word, sizeof word);
    }
}

static inline struct input read_input(void)
{
    struct input in;
    if (fread(in.head, 1, HEAD_BYTES, stdin) != HEAD_BYTES) {
        stop("the input has no head");
    }
    in.measuring = in.head[0] != 0;
    in.wide = in.head[1];
    in.big = in.head[2];
    in.bytes = malloc(MOST_BYTES);
    if (!in.bytes) {
        stop("no memory for the input");
    }
    in.len = fread(in.bytes, 1, MOST_BYTES, stdin);
    if (in.len % WORD_BYTES != 0 || in.len == MOST_BYTES) {
        stop("the input is cut or too long");
    }
    if (in.big) {
        turn_words(in.bytes, in.len);
    }
    return in;
}

#endif
