/* Memory as a call of the library is lent it, for tests/host, tests/pages and tests/threads.

   What a call reads is in memory that cannot be written, between memory that cannot be touched at all, once up to the
   very end and once at any alignment near the start. What it writes to is inside a pattern, all of which is compared
   afterwards. */
#ifndef LENT_H
#define LENT_H

#ifndef _GNU_SOURCE
#error "_GNU_SOURCE comes before the first header"
#endif
#include <inttypes.h>
#include <signal.h>
#include <stdio.h>
#include <stdlib.h>
#include <string.h>
#include <sys/mman.h>
#include <unistd.h>

enum {
    LENT_BYTES = 1 << 17, /* a multiple of every page size that is in use */
    ALIGNMENTS = 16,
    CANARY_BYTES = 64,
    LONGEST_AREA = 1 << 17,
    PATTERNS = 251,
    NULL_INPUT_EVERY = 3 /* how often an empty slice is null */
};

static uint64_t calls;
static uint64_t null_inputs;

static uint8_t *lent_writable;
static const uint8_t *lent;
static uint8_t pattern[LONGEST_AREA + PATTERNS];

/* How a test calls what it asks, and how many of them it has read: to name the one at which the library touched what
   it must not. */
static const char *asked;
static uint64_t asked_so_far;

static void need(int good, const char *what)
{
    if (!good) {
        perror(what);
        exit(EXIT_FAILURE);
    }
}

static uint8_t *between_walls(size_t size)
{
    uint8_t *around = mmap(NULL, size + 2 * LENT_BYTES, PROT_NONE, MAP_PRIVATE | MAP_ANONYMOUS, -1, 0);
    need(around != MAP_FAILED, "mmap");
    return around + LENT_BYTES;
}

/* One file, mapped twice: here it is written, and what the library is given can only be read. */
static void make_lent(void)
{
    int file = memfd_create("lent", 0);
    need(file >= 0 && ftruncate(file, LENT_BYTES) == 0, "memfd_create");
    lent_writable = mmap(NULL, LENT_BYTES, PROT_READ | PROT_WRITE, MAP_SHARED, file, 0);
    lent = mmap(between_walls(LENT_BYTES), LENT_BYTES, PROT_READ, MAP_SHARED | MAP_FIXED, file, 0);
    need(lent_writable != MAP_FAILED && lent != MAP_FAILED, "mmap");
}

/* The bytes as the library is given them: up to the end in every second call, else near the start. For one thread only;
   tests/threads, which lends the same bytes to all its calls, does not use it. */
static inline const uint8_t *lend(const uint8_t *bytes, size_t length)
{
    size_t at = calls % 2 == 0 ? LENT_BYTES - length : calls / 2 % ALIGNMENTS;
    if (length == 0 && calls % NULL_INPUT_EVERY == 0) {
        null_inputs++;
        return NULL;
    }
    memcpy(lent_writable + at, bytes, length);
    return lent + at;
}

/* All are odd, so that a zero which is written shows, and one which is not. */
static void make_pattern(void)
{
    for (size_t i = 0; i < sizeof pattern; i++) {
        pattern[i] = (uint8_t)(i * i + 5 * i + 1);
    }
}

/* The fault is in the library's code, so that nothing of stdio is half done. */
static void on_fault(int number)
{
    dprintf(STDOUT_FILENO, "%s %" PRIu64 ": signal %d, memory was touched that is not lent for it\n", asked,
            asked_so_far, number);
    _exit(EXIT_FAILURE);
}

/* Comes first; `each` is how the test calls what it asks. */
static void begin_lending(const char *each)
{
    struct sigaction fault = {.sa_handler = on_fault};
    asked = each;
    sigaction(SIGSEGV, &fault, NULL);
    sigaction(SIGBUS, &fault, NULL);
    make_lent();
    make_pattern();
}

#endif
