/* Comes between the test and the library (the linker's --wrap) and makes one of the mistakes below, by the number in
   the environment's MISTAKE: the test must notice each. */
#include <stdint.h>
#include <string.h>

#include "../mistake.h"
#include "calmuredda.h"

/* `run` counts up to the last. */
enum {
    BLOCK_INDEX_WRAPS = 1,     /* four times the index is taken modulo 2^64 */
    BLOCK_BIG_IS_ODD_BELOW_4,  /* off where a bit without a meaning is set */
    BLOCK_SLOT_COUNTED,        /* a slot that is refused or absent */
    BLOCK_REFUSED_COUNTED,
    BLOCK_KIND_OF_REFUSAL,     /* not 0 where the index is refused */
    BLOCK_REST_IS_DROPPED,     /* the last word too, where bytes follow it */
    BLOCK_READS_AFTER_BODY,
    PAGE_INDEX_WRAPS,
    PAGE_PLACE_WRAPS,
    PAGE_PLACE_BEFORE_INDEX,   /* 11 and not 15 where both are too large */
    PAGE_LAST_BYTE_FREE,       /* a line that fits to the byte is left out */
    PAGE_WRITES_AFTER_LINES,   /* inside the buffer */
    PAGE_WRITES_BEFORE_PLACE,
    PAGE_WRITES_ON_REFUSAL,
    PAGE_SPACES_BELOW,         /* a true first line, mere spaces in the second */
    PAGE_WIDE_FROM_2_ON,       /* on for any number from 2 on */
    PAGE_ADDRESS_OF_32_BITS,
    PAGE_BYTES_OF_BUFFER,      /* the place is counted too */
    PAGE_READS_AFTER_BODY,
    PAGE_WRITES_BODY,
    LINE_LAST_BYTE_FREE,
    LINE_ENDS_WITH_ZERO,       /* where there is room */
    LINE_ROOM_FIRST,           /* 11 before 9 and 10 */
    LINE_REGISTER_32,          /* printed as register 0 */
    LINE_COUNT_OF_4_BITS,
    LINE_LENGTH_OF_REFUSAL,    /* not 0 */
    LINE_SHORT_IS_9,
    LINE_LONGER_IS_9,
    LINE_ANY_EFFECT,           /* what the line does not show is not read */
    LINE_READS_AFTER_RECORD,
    SECTION_NUMBER_FIRST,      /* 14 before 12 and 13 */
    SECTION_NUMBER_WRAPS,      /* 16 times the number is taken modulo 2^64 */
    SECTION_FLAGS_OF_BAD_FILE,
    SECTION_COUNT_OF_BAD_FILE,
    SECTION_ADDRESS_OF_32_BITS,
    SECTION_PART_OF_REFUSAL,   /* not empty */
    SECTION_CHECK_STOPS,       /* 13 where 12 is right */
    LISTING_READS_AFTER_FILE,
    LISTING_WRITES_FILE,
    LISTING_LONG_FILE_IS_CUT,  /* to as many bytes as a file may have */
    LISTING_SECTION_WRAPS,
    LISTING_SECTION_OF_8_BITS,
    LISTING_LINE_WRAPS,        /* four times the line is taken modulo 2^64 */
    LISTING_LINE_OF_32_BITS,
    LISTING_LAST_BYTE_FREE,
    LISTING_HEAD_REPEATED,     /* before the first word, where a piece begins with that */
    LISTING_GOES_ACROSS,       /* into the next section, where there is room */
    LISTING_WRITES_AFTER_PIECE,
    LISTING_SPACES_BELOW,
    LISTING_REFUSAL_IS_12,     /* in the line of a bad file */
    LISTING_NONE_REFUSED,      /* the last line of all ends with 0 */
    LISTING_SKIPS_SECTION,     /* the last one */
    LISTING_DROPS_WORD,        /* between two pieces */
    LISTING_SECTION_UNENDED,   /* the cursor stays in the section, after its last line */
    LISTING_UNENDED,           /* it stays after the last line of all */
    LISTING_ANSWERS_REFUSAL,   /* 12 or 13 for a bad file */
    LISTING_NO_LINE_NO_ROOM,   /* 11 where there is no line and no room for one */
    LISTING_NO_LINE_NO_SECTION,
    LISTING_STARTS_AGAIN,      /* where nothing is left */
    LISTING_WRITES_ON_NO_ROOM,
    LISTING_BYTES_ON_NO_ROOM,
    LISTING_CURSOR_ON_NO_ROOM, /* goes on */
    LAST = LISTING_CURSOR_ON_NO_ROOM
};

enum { FLAGS_AT = 2, WORD_BYTES = 4, MOST_FILE_BYTES = 65535 };

static int is(int number)
{
    return mistake_up_to(LAST) == number;
}

/* Reads after what is lent, or writes what is lent for reading only. */
static void read_after(const uint8_t *bytes, size_t length)
{
    if (bytes != NULL) {
        (void)((const volatile uint8_t *)bytes)[length];
    }
}

static void write_to(const uint8_t *bytes, size_t length)
{
    if (length > 0) {
        *(volatile uint8_t *)(uintptr_t)bytes = bytes[0];
    }
}

/* What is left of a number whose product with 2^bits is taken modulo 2^64. */
static size_t wrapped(size_t number, int bits)
{
    return number << bits >> bits;
}

/* ── blocks and pages ── */

uint8_t __wrap_calmuredda_block(const uint8_t *body, size_t body_len, uint64_t va, uint8_t flags, size_t index,
                                uint8_t *kind, size_t *words)
{
    if (is(BLOCK_READS_AFTER_BODY)) {
        read_after(body, body_len);
    }
    if (is(BLOCK_REST_IS_DROPPED) && body_len > WORD_BYTES && body_len % WORD_BYTES > 0) {
        body_len -= WORD_BYTES;
    }
    index = is(BLOCK_INDEX_WRAPS) ? wrapped(index, 2) : index;
    flags = is(BLOCK_BIG_IS_ODD_BELOW_4) && flags > 3 ? flags & CALMUREDDA_WIDE : flags;
    uint8_t number = __real_calmuredda_block(body, body_len, va, flags, index, kind, words);
    *words += (is(BLOCK_SLOT_COUNTED) && *kind == CALMUREDDA_END_NO_SLOT) ||
              (is(BLOCK_REFUSED_COUNTED) && *kind == CALMUREDDA_END_REFUSED);
    *kind += is(BLOCK_KIND_OF_REFUSAL) && number != 0;
    return number;
}

/* Spoils a page that was written. */
static void spoil(uint8_t *out, size_t out_len, size_t place, size_t words, size_t bytes)
{
    if (is(PAGE_WRITES_AFTER_LINES) && place + bytes < out_len) {
        out[place + bytes] ^= 1;
    }
    if (is(PAGE_WRITES_BEFORE_PLACE) && place > 0) {
        out[place - 1] ^= 1;
    }
    if (is(PAGE_SPACES_BELOW) && words > 1) {
        uint8_t *second = (uint8_t *)memchr(out + place, '\n', bytes) + 1;
        memset(second, ' ', bytes - (size_t)(second - out - place) - 1);
    }
}

uint8_t __wrap_calmuredda_page(const uint8_t *body, size_t body_len, uint64_t va, uint8_t flags, size_t index,
                               uint8_t *out, size_t out_len, size_t place, size_t *words, size_t *bytes)
{
    if (is(PAGE_READS_AFTER_BODY)) {
        read_after(body, body_len);
    }
    if (is(PAGE_WRITES_BODY)) {
        write_to(body, body_len);
    }
    if (is(PAGE_PLACE_BEFORE_INDEX) && place > out_len) {
        *words = *bytes = 0;
        return CALMUREDDA_NO_ROOM;
    }
    index = is(PAGE_INDEX_WRAPS) ? wrapped(index, 2) : index;
    place = is(PAGE_PLACE_WRAPS) ? wrapped(place, 1) : place;
    flags |= is(PAGE_WIDE_FROM_2_ON) && flags >= CALMUREDDA_WIDE ? CALMUREDDA_WIDE : 0;
    va = is(PAGE_ADDRESS_OF_32_BITS) ? (uint32_t)va : va;
    out_len -= is(PAGE_LAST_BYTE_FREE) && out_len > 0;
    uint8_t number = __real_calmuredda_page(body, body_len, va, flags, index, out, out_len, place, words, bytes);
    if (number == 0) {
        spoil(out, out_len, place, *words, *bytes);
        *bytes += is(PAGE_BYTES_OF_BUFFER) ? place : 0;
    } else if (is(PAGE_WRITES_ON_REFUSAL) && out_len > 0) {
        out[0] ^= 1;
    }
    return number;
}

/* ── lines ── */

/* The call is made with another record: a mistake in what the library reads. */
static uint8_t line_of_other(const uint8_t *record, uint8_t *out, size_t out_len, size_t *length)
{
    uint8_t copy[CALMUREDDA_RECORD_BYTES];
    memcpy(copy, record, sizeof copy);
    for (int k = 0; k < CALMUREDDA_OPERANDS; k++) {
        uint8_t *operand = copy + CALMUREDDA_AT_OPERAND(k);
        if (is(LINE_REGISTER_32) && operand[CALMUREDDA_IN_REGISTER] == 32) {
            operand[CALMUREDDA_IN_REGISTER] = 0;
        }
    }
    if (is(LINE_COUNT_OF_4_BITS)) {
        copy[CALMUREDDA_AT_COUNT] &= 15;
    }
    if (is(LINE_ANY_EFFECT)) {
        memset(copy + CALMUREDDA_AT_EFFECT, 0, CALMUREDDA_AT_OPERANDS - CALMUREDDA_AT_EFFECT);
    }
    return __real_calmuredda_line(copy, sizeof copy, out, out_len, length);
}

uint8_t __wrap_calmuredda_line(const uint8_t *record, size_t record_len, uint8_t *out, size_t out_len, size_t *length)
{
    if (is(LINE_READS_AFTER_RECORD)) {
        read_after(record, record_len);
    }
    *length = 0;
    if (is(LINE_ROOM_FIRST) && out_len == 0 && record_len >= CALMUREDDA_RECORD_BYTES) {
        return CALMUREDDA_NO_ROOM;
    }
    if ((is(LINE_SHORT_IS_9) && record_len < CALMUREDDA_RECORD_BYTES) ||
        (is(LINE_LONGER_IS_9) && record_len > CALMUREDDA_RECORD_BYTES)) {
        return CALMUREDDA_NO_WORD;
    }
    out_len -= is(LINE_LAST_BYTE_FREE) && out_len > 0;
    uint8_t number = record_len < CALMUREDDA_RECORD_BYTES
                         ? __real_calmuredda_line(record, record_len, out, out_len, length)
                         : line_of_other(record, out, out_len, length);
    if (is(LINE_ENDS_WITH_ZERO) && number == 0 && *length < out_len) {
        out[*length] = 0;
    }
    *length += is(LINE_LENGTH_OF_REFUSAL) && number != 0;
    return number;
}

/* ── section files ── */

uint8_t __wrap_calmuredda_section_check(const uint8_t *file, size_t file_len)
{
    uint8_t number = __real_calmuredda_section_check(file, file_len);
    return is(SECTION_CHECK_STOPS) && number == CALMUREDDA_BAD_HEADER ? CALMUREDDA_BAD_RECORD : number;
}

size_t __wrap_calmuredda_section_count(const uint8_t *file, size_t file_len)
{
    return is(SECTION_COUNT_OF_BAD_FILE) && file_len > 0 ? file[0] : __real_calmuredda_section_count(file, file_len);
}

uint8_t __wrap_calmuredda_section_flags(const uint8_t *file, size_t file_len)
{
    return is(SECTION_FLAGS_OF_BAD_FILE) && file_len > FLAGS_AT ? file[FLAGS_AT]
                                                                : __real_calmuredda_section_flags(file, file_len);
}

uint64_t __wrap_calmuredda_section_address(const uint8_t *file, size_t file_len, size_t n)
{
    n = is(SECTION_NUMBER_WRAPS) ? wrapped(n, 4) : n;
    uint64_t address = __real_calmuredda_section_address(file, file_len, n);
    return is(SECTION_ADDRESS_OF_32_BITS) ? (uint32_t)address : address;
}

uint8_t __wrap_calmuredda_section_body(const uint8_t *file, size_t file_len, size_t n, size_t *offset, size_t *length)
{
    n = is(SECTION_NUMBER_WRAPS) ? wrapped(n, 4) : n;
    uint8_t number = __real_calmuredda_section_body(file, file_len, n, offset, length);
    if (number != 0 && is(SECTION_NUMBER_FIRST) && n > 0) {
        number = CALMUREDDA_NO_SECTION;
    }
    *offset += is(SECTION_PART_OF_REFUSAL) && number != 0;
    return number;
}

/* ── listings ── */

struct call {
    const uint8_t *file;
    size_t file_len;
    size_t count;
    size_t section;
    size_t line;
    uint8_t *out;
    size_t out_len;
    size_t *next_section;
    size_t *next_line;
    size_t *bytes;
};

/* With another cursor or another room than the call has. */
static uint8_t really_list(const struct call *call)
{
    size_t section = call->section, line = call->line;
    section = is(LISTING_SECTION_WRAPS) ? wrapped(section, 4) : section;
    section = is(LISTING_SECTION_OF_8_BITS) ? (uint8_t)section : section;
    line = is(LISTING_LINE_WRAPS) ? wrapped(line, 2) : line;
    line = is(LISTING_LINE_OF_32_BITS) ? (uint32_t)line : line;
    line = is(LISTING_HEAD_REPEATED) && line == 1 && section < call->count ? 0 : line;
    size_t room = call->out_len - (is(LISTING_LAST_BYTE_FREE) && call->out_len > 0);
    return __real_calmuredda_listing(call->file, call->file_len, section, line, call->out, room, call->next_section,
                                     call->next_line, call->bytes);
}

static void go_across(const struct call *call)
{
    size_t more = 0, written = *call->bytes;
    if (is(LISTING_GOES_ACROSS) && *call->next_section > call->section) {
        __real_calmuredda_listing(call->file, call->file_len, *call->next_section, 0, call->out + written,
                                  call->out_len - written, call->next_section, call->next_line, &more);
        *call->bytes += more;
    }
}

static void spoil_piece(const struct call *call)
{
    uint8_t *end = call->out + *call->bytes;
    uint8_t *second = (uint8_t *)memchr(call->out, '\n', *call->bytes) + 1;
    if (is(LISTING_WRITES_AFTER_PIECE) && *call->bytes < call->out_len) {
        end[0] ^= 1;
    }
    if (is(LISTING_SPACES_BELOW) && second < end) {
        memset(second, ' ', (size_t)(end - second) - 1);
    }
    if (is(LISTING_REFUSAL_IS_12) && call->count == 0) {
        end[-2] = '2';
    }
    if (is(LISTING_NONE_REFUSED) && call->count > 0 && call->section == call->count) {
        end[-2] = '0';
    }
}

static size_t lines_written(const struct call *call)
{
    size_t lines = 0;
    for (size_t i = 0; i < *call->bytes; i++) {
        lines += call->out[i] == '\n';
    }
    return lines;
}

/* The cursor after a piece. */
static void spoil_next(const struct call *call)
{
    int is_end = *call->next_section > call->section;
    if (is(call->section < call->count ? LISTING_SECTION_UNENDED : LISTING_UNENDED) && is_end) {
        *call->next_section = call->section;
        *call->next_line = call->line + lines_written(call);
    }
    *call->next_section += is(LISTING_SKIPS_SECTION) && is_end && *call->next_section + 1 == call->count;
    *call->next_line += is(LISTING_DROPS_WORD) && !is_end;
}

static uint8_t spoil_no_line(const struct call *call)
{
    if (is(LISTING_STARTS_AGAIN)) {
        *call->next_section = *call->next_line = 0;
    }
    if (is(LISTING_NO_LINE_NO_ROOM) && call->out_len == 0) {
        return CALMUREDDA_NO_ROOM;
    }
    return is(LISTING_NO_LINE_NO_SECTION) && call->section > call->count ? CALMUREDDA_NO_SECTION : CALMUREDDA_ACCEPTED;
}

static uint8_t spoil_no_room(const struct call *call)
{
    if (is(LISTING_WRITES_ON_NO_ROOM) && call->out_len > 0) {
        call->out[0] ^= 1;
    }
    *call->bytes = is(LISTING_BYTES_ON_NO_ROOM);
    *call->next_line += is(LISTING_CURSOR_ON_NO_ROOM);
    return CALMUREDDA_NO_ROOM;
}

uint8_t __wrap_calmuredda_listing(const uint8_t *file, size_t file_len, size_t section, size_t line, uint8_t *out,
                                  size_t out_len, size_t *next_section, size_t *next_line, size_t *bytes)
{
    if (is(LISTING_READS_AFTER_FILE)) {
        read_after(file, file_len);
    }
    if (is(LISTING_WRITES_FILE)) {
        write_to(file, file_len);
    }
    file_len = is(LISTING_LONG_FILE_IS_CUT) && file_len > MOST_FILE_BYTES ? MOST_FILE_BYTES : file_len;
    size_t count = __real_calmuredda_section_count(file, file_len);
    struct call call = {file, file_len, count, section, line, out, out_len, next_section, next_line, bytes};
    uint8_t number = really_list(&call);
    if (*bytes > 0) {
        go_across(&call);
        spoil_piece(&call);
        spoil_next(&call);
        return is(LISTING_ANSWERS_REFUSAL) ? __real_calmuredda_section_check(file, file_len) : number;
    }
    *next_section = section;
    *next_line = line;
    return number == CALMUREDDA_ACCEPTED ? spoil_no_line(&call) : spoil_no_room(&call);
}
