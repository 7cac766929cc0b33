/* Comes between the test and the library (the linker's --wrap) and lets the answer of one of the functions pass through
   memory that all threads share, without a lock. The number in the environment's MISTAKE says which; the test must
   notice each. */
#define _GNU_SOURCE
#include <sched.h>
#include <string.h>

#include "../mistake.h"
#include "calmuredda.h"

/* Which function it is; `run` counts up to the last. */
enum { DECODE = 1, ENCODE, LINE, CHECK, COUNT, FLAGS, ADDRESS, BODY, BLOCK, PAGE, LISTING, LAST = LISTING };

enum { LONGEST = 512 };

/* All threads share these. */
static uint8_t shared_bytes[LONGEST];
static volatile uint64_t shared_number;

static int is(int number)
{
    return mistake_up_to(LAST) == number;
}

/* The number, by way of the shared one. Another thread may come in between, as it may at any instruction. */
static uint64_t through_number(int number, uint64_t answer)
{
    if (!is(number)) {
        return answer;
    }
    shared_number = answer;
    sched_yield();
    return shared_number;
}

/* The bytes, in and out of the shared ones. */
static void through_bytes(int number, uint8_t *bytes, size_t length)
{
    if (!is(number)) {
        return;
    }
    memcpy(shared_bytes, bytes, length);
    sched_yield();
    memcpy(bytes, shared_bytes, length);
}

uint8_t __wrap_calmuredda_decode(const uint8_t *bytes, size_t bytes_len, uint64_t va, uint8_t big, uint8_t wide,
                                 uint8_t *record, size_t record_len)
{
    uint8_t number = __real_calmuredda_decode(bytes, bytes_len, va, big, wide, record, record_len);
    through_bytes(DECODE, record, record_len);
    return number;
}

uint64_t __wrap_calmuredda_encode(const uint8_t *record, size_t record_len, uint64_t va, uint8_t wide)
{
    return through_number(ENCODE, __real_calmuredda_encode(record, record_len, va, wide));
}

uint8_t __wrap_calmuredda_line(const uint8_t *record, size_t record_len, uint8_t *out, size_t out_len, size_t *written)
{
    uint8_t number = __real_calmuredda_line(record, record_len, out, out_len, written);
    through_bytes(LINE, out, *written);
    return number;
}

uint8_t __wrap_calmuredda_section_check(const uint8_t *file, size_t file_len)
{
    return (uint8_t)through_number(CHECK, __real_calmuredda_section_check(file, file_len));
}

size_t __wrap_calmuredda_section_count(const uint8_t *file, size_t file_len)
{
    return through_number(COUNT, __real_calmuredda_section_count(file, file_len));
}

uint8_t __wrap_calmuredda_section_flags(const uint8_t *file, size_t file_len)
{
    return (uint8_t)through_number(FLAGS, __real_calmuredda_section_flags(file, file_len));
}

uint64_t __wrap_calmuredda_section_address(const uint8_t *file, size_t file_len, size_t n)
{
    return through_number(ADDRESS, __real_calmuredda_section_address(file, file_len, n));
}

uint8_t __wrap_calmuredda_section_body(const uint8_t *file, size_t file_len, size_t n, size_t *offset, size_t *size)
{
    uint8_t number = __real_calmuredda_section_body(file, file_len, n, offset, size);
    *offset = through_number(BODY, *offset);
    return number;
}

uint8_t __wrap_calmuredda_block(const uint8_t *body, size_t body_len, uint64_t va, uint8_t flags, size_t index,
                                uint8_t *kind, size_t *words)
{
    uint8_t number = __real_calmuredda_block(body, body_len, va, flags, index, kind, words);
    *words = through_number(BLOCK, *words);
    return number;
}

uint8_t __wrap_calmuredda_page(const uint8_t *body, size_t body_len, uint64_t va, uint8_t flags, size_t index,
                               uint8_t *out, size_t out_len, size_t place, size_t *words, size_t *bytes)
{
    uint8_t number = __real_calmuredda_page(body, body_len, va, flags, index, out, out_len, place, words, bytes);
    through_bytes(PAGE, out, out_len);
    return number;
}

uint8_t __wrap_calmuredda_listing(const uint8_t *file, size_t file_len, size_t section, size_t line, uint8_t *out,
                                  size_t out_len, size_t *next_section, size_t *next_line, size_t *bytes)
{
    uint8_t number =
        __real_calmuredda_listing(file, file_len, section, line, out, out_len, next_section, next_line, bytes);
    through_bytes(LISTING, out, out_len);
    return number;
}
