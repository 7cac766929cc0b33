/* Compares the library's section files, their listings, blocks, pages and lines with the answers on standard input, a
   line each; README.md says what is in them. In every second call, the buffer for its answer ends where what can be
   touched ends. */
#define _GNU_SOURCE
#include "../lent.h"
#include "../splitmix.h"
#include "calmuredda.h"
#include "sha256.h"

/* Declared once more, so that a header which declares otherwise does not compile. */
uint8_t calmuredda_line(const uint8_t *record, size_t record_len, uint8_t *out, size_t out_len, size_t *length);
uint8_t calmuredda_section_check(const uint8_t *file, size_t file_len);
size_t calmuredda_section_count(const uint8_t *file, size_t file_len);
uint8_t calmuredda_section_flags(const uint8_t *file, size_t file_len);
uint64_t calmuredda_section_address(const uint8_t *file, size_t file_len, size_t n);
uint8_t calmuredda_section_body(const uint8_t *file, size_t file_len, size_t n, size_t *offset, size_t *length);
uint8_t calmuredda_block(const uint8_t *body, size_t body_len, uint64_t va, uint8_t flags, size_t index, uint8_t *kind,
                         size_t *words);
uint8_t calmuredda_page(const uint8_t *body, size_t body_len, uint64_t va, uint8_t flags, size_t index, uint8_t *out,
                        size_t out_len, size_t place, size_t *words, size_t *bytes);
uint8_t calmuredda_listing(const uint8_t *file, size_t file_len, size_t section, size_t line, uint8_t *out,
                           size_t out_len, size_t *next_section, size_t *next_line, size_t *bytes);

enum {
    NO_READING = 9,
    NO_ROOM = 11,
    NO_SECTION = 14,
    NO_WORD = 15,
    SHORT_RECORD = 16,

    WORD_BYTES = 4,
    MOST_WORDS = 600,
    MOST_SECTIONS = 64,
    LONGEST_TEXT = 160,
    LONGEST_LINE = 120,
    LONGEST_SMALL_BUFFER = 200, /* every size up to this one is tried */
    LONGEST_BUFFER = 5000,
    SMALL_BODY = 12,            /* up to this many words, every index is tried in every such buffer */
    RANDOM_PAGES = 20000,
    SMALL_LISTING = 16,         /* up to this many lines, every cursor is tried in every such buffer */
    RANDOM_PIECES = 1000,
    LAST_LINE_EVERY = 200,      /* seldom, since all words are read for it */
    WINDOW = 4096,
    LONGEST_WINDOW = 1 << 16,
    MOST_LINES = (1 << 16) / WORD_BYTES + MOST_SECTIONS + 1,
    SHORT_RECORDS_EVERY = 16,

    AREA_BYTES = LONGEST_AREA,  /* a multiple of every page size that is in use */
    NULL_BUFFER_EVERY = 3,      /* how often an empty buffer is null */
    MOST_COMPLAINTS = 5
};

/* What the header's names mean in document 01. */
_Static_assert(CALMUREDDA_NO_WORD == 9 && CALMUREDDA_NO_LINE == 10 && CALMUREDDA_NO_ROOM == 11, "numbers of lines");
_Static_assert(CALMUREDDA_BAD_HEADER == 12 && CALMUREDDA_BAD_RECORD == 13 && CALMUREDDA_NO_SECTION == 14,
               "numbers of files");
_Static_assert(CALMUREDDA_NO_INDEX == 15 && CALMUREDDA_SHORT_RECORD == 16, "numbers of bodies and records");
_Static_assert(CALMUREDDA_END_SLOT == 1 && CALMUREDDA_END_NO_SLOT == 2 && CALMUREDDA_END_REFUSED == 3 &&
                   CALMUREDDA_END_BODY == 4,
               "kinds");
_Static_assert(CALMUREDDA_BIG_ENDIAN == 1 && CALMUREDDA_WIDE == 2, "flags");
_Static_assert(CALMUREDDA_LINE_BYTES == 120 && CALMUREDDA_PAGE_LINE_BYTES == 147, "the longest lines");

/* Sums and products with these pass 2^64. */
static const size_t huge[] = {
    (size_t)1 << 60, ((size_t)1 << 60) + 1, (size_t)1 << 61, (size_t)1 << 62, ((size_t)1 << 62) + 1, (size_t)1 << 63,
    ((size_t)1 << 63) + 1, SIZE_MAX - 199, SIZE_MAX - 40, SIZE_MAX - 3, SIZE_MAX - 1, SIZE_MAX,
};
enum { HUGE = sizeof huge / sizeof huge[0] };

/* What is left of these in 8, 16 or 32 bits is small. */
static const size_t cut[] = {
    (size_t)1 << 8,  ((size_t)1 << 8) + 1,  (size_t)1 << 16, ((size_t)1 << 16) + 1,
    (size_t)1 << 32, ((size_t)1 << 32) + 1,
};
enum { CUT = sizeof cut / sizeof cut[0] };

/* Bits of the flags that mean nothing: none of them, each by itself, and all. */
static const uint8_t other_bits[] = {0, 4, 8, 16, 32, 64, 128, 252};

static uint64_t complaints;
static uint64_t blocks_asked, pages_asked, lines_asked, files_asked, pieces_asked;

static void malformed(const char *what)
{
    printf("line %" PRIu64 " is malformed: %s\n", asked_so_far, what);
    exit(EXIT_FAILURE);
}

static void complain(const char *what, uint64_t got, uint64_t wanted)
{
    printf("line %" PRIu64 ": %s %" PRIu64 ", wanted %" PRIu64 "\n", asked_so_far, what, got, wanted);
    complaints++;
    if (complaints == MOST_COMPLAINTS) {
        printf("the other lines are not compared\n");
        exit(EXIT_FAILURE);
    }
}

static void same(const char *what, uint64_t got, uint64_t wanted)
{
    if (got != wanted) {
        complain(what, got, wanted);
    }
}

/* ── buffers ── */

static uint8_t *area;
static uint8_t wanted_area[AREA_BYTES];

static void make_area(void)
{
    area = mmap(between_walls(AREA_BYTES), AREA_BYTES, PROT_READ | PROT_WRITE,
                MAP_PRIVATE | MAP_ANONYMOUS | MAP_FIXED, -1, 0);
    need(area != MAP_FAILED, "mmap");
}

/* A buffer inside the pattern, or at its end. */
struct buffer {
    uint8_t *bytes;
    size_t size;
    size_t first; /* what is compared of the area, and where the buffer begins in it */
    size_t start;
    size_t last;
};

static struct buffer lend_buffer(size_t size)
{
    struct buffer buffer = {.size = size};
    if (calls % 2 == 0) {
        buffer.start = CANARY_BYTES + calls / 2 % ALIGNMENTS;
        buffer.last = buffer.start + size + CANARY_BYTES;
    } else {
        buffer.start = AREA_BYTES - size;
        buffer.first = buffer.start - CANARY_BYTES;
        buffer.last = AREA_BYTES;
    }
    buffer.bytes = size == 0 && calls % NULL_BUFFER_EVERY == 0 ? NULL : area + buffer.start;
    memcpy(area + buffer.first, pattern + calls % PATTERNS, buffer.last - buffer.first);
    return buffer;
}

/* The buffer has the text at that place, and nothing else has changed. */
static void check_buffer(const struct buffer *buffer, size_t place, const uint8_t *text, size_t length)
{
    size_t size = buffer->last - buffer->first;
    memcpy(wanted_area, pattern + calls % PATTERNS, size);
    if (length > 0) {
        memcpy(wanted_area + (buffer->start - buffer->first) + place, text, length);
    }
    if (memcmp(area + buffer->first, wanted_area, size) == 0) {
        return;
    }
    for (size_t i = 0; i < size; i++) {
        if (area[buffer->first + i] != wanted_area[i]) {
            char what[100];
            ptrdiff_t at = (ptrdiff_t)(buffer->first + i) - (ptrdiff_t)buffer->start;
            snprintf(what, sizeof what, "in a buffer of %zu bytes, from place %zu on, offset %td is", buffer->size,
                     place, at);
            complain(what, area[buffer->first + i], wanted_area[i]);
            return;
        }
    }
}

/* ── columns ── */

static char *rest;

/* The next column, up to a space or the end. */
static char *column(void)
{
    char *start = rest;
    if (start == NULL || *start == '\0') {
        malformed("a column is missing");
    }
    rest = strchr(start, ' ');
    if (rest != NULL) {
        *rest++ = '\0';
    }
    return start;
}

/* All that is left of the line, which may be nothing. */
static const char *last_column(void)
{
    return rest == NULL ? "" : rest;
}

static uint64_t number_in(const char *text, int base, char **end)
{
    uint64_t value = strtoull(text, end, base);
    if (*end == text) {
        malformed("not a number");
    }
    return value;
}

static uint64_t number_column(int base)
{
    char *end;
    uint64_t value = number_in(column(), base, &end);
    if (*end != '\0') {
        malformed("not a number");
    }
    return value;
}

static int digit(char c)
{
    if (c >= '0' && c <= '9') {
        return c - '0';
    }
    if (c < 'a' || c > 'f') {
        malformed("not a hex digit");
    }
    return c - 'a' + 10;
}

/* Bytes in hex; .N. stands for N zeros, and - for no bytes. */
static size_t bytes_column(uint8_t *to, size_t most)
{
    size_t length = 0;
    char *text = column();
    if (strcmp(text, "-") == 0) {
        return 0;
    }
    while (*text != '\0') {
        size_t zeros = *text == '.' ? (size_t)number_in(text + 1, 10, &text) : 0;
        if (length + zeros + 1 > most + (zeros > 0)) {
            malformed("too many bytes");
        }
        memset(to + length, 0, zeros);
        length += zeros;
        if (zeros > 0) {
            text++;
        } else {
            to[length++] = (uint8_t)(digit(text[0]) * 16 + digit(text[1]));
            text += 2;
        }
    }
    return length;
}

/* ── bodies ── */

static struct {
    uint64_t va;
    uint8_t big;
    uint8_t wide;
    uint8_t bytes[MOST_WORDS * WORD_BYTES];
    size_t length;
    size_t words;
    size_t texts;                             /* how many lines have been read */
    size_t starts[MOST_WORDS + 1];            /* where each line begins in `text` */
    uint8_t text[MOST_WORDS * LONGEST_TEXT];
} body;

static void read_body(void)
{
    body.va = number_column(16);
    body.big = (uint8_t)number_column(10);
    body.wide = (uint8_t)number_column(10);
    body.length = bytes_column(body.bytes, sizeof body.bytes);
    body.words = body.length / WORD_BYTES;
    body.texts = 0;
}

static uint8_t flags(void)
{
    uint8_t meant = (uint8_t)((body.big ? CALMUREDDA_BIG_ENDIAN : 0) | (body.wide ? CALMUREDDA_WIDE : 0));
    return meant | other_bits[calls % sizeof other_bits];
}

/* ── blocks ── */

struct answer {
    uint8_t number;
    uint8_t kind;
    size_t words;
};

static void check_block(size_t index, struct answer wanted)
{
    for (int twice = 0; twice < 2; twice++) {
        uint8_t kind = 99;
        size_t words = 99;
        uint8_t number =
            calmuredda_block(lend(body.bytes, body.length), body.length, body.va, flags(), index, &kind, &words);
        calls++;
        same("a block's number is", number, wanted.number);
        same("a block's end kind is", kind, wanted.kind);
        same("a block's words are", words, wanted.words);
    }
    blocks_asked++;
}

static struct answer read_answer(char **text)
{
    struct answer answer;
    answer.number = (uint8_t)number_in(*text, 10, text);
    answer.kind = (uint8_t)number_in(*text + 1, 10, text);
    answer.words = (size_t)number_in(*text + 1, 10, text);
    return answer;
}

/* `blocks`: an answer for each index; the last is that of all indexes from there on. */
static void blocks_line(void)
{
    read_body();
    char *text = column();
    struct answer answer = read_answer(&text);
    size_t index = 0;
    for (; *text == ','; index++) {
        check_block(index, answer);
        text++;
        answer = read_answer(&text);
    }
    if (*text != '\0' || index != body.words) {
        malformed("not an answer for each index");
    }
    for (size_t more = 0; more < 2; more++) {
        check_block(index + more, answer);
    }
    for (int i = 0; i < HUGE; i++) {
        check_block(huge[i], answer);
    }
}

/* ── pages ── */

/* What is wanted of a page, by the rule: the longest run of whole lines that fits. */
static uint8_t wanted_page(size_t index, size_t size, size_t place, size_t *words, size_t *bytes)
{
    size_t room = place > size ? 0 : size - place;
    *words = 0;
    *bytes = 0;
    if (index >= body.words) {
        return NO_WORD;
    }
    while (index + *words < body.words && body.starts[index + *words + 1] - body.starts[index] <= room) {
        (*words)++;
    }
    *bytes = body.starts[index + *words] - body.starts[index];
    return *words == 0 ? NO_ROOM : 0;
}

static void check_page(size_t index, size_t size, size_t place)
{
    size_t wanted_words, wanted_bytes;
    uint8_t wanted = wanted_page(index, size, place, &wanted_words, &wanted_bytes);
    size_t words = 99, bytes = 99;
    struct buffer buffer = lend_buffer(size);
    uint8_t number = calmuredda_page(lend(body.bytes, body.length), body.length, body.va, flags(), index, buffer.bytes,
                                     size, place, &words, &bytes);
    same("a page's number is", number, wanted);
    same("a page's words are", words, wanted_words);
    same("a page's bytes are", bytes, wanted_bytes);
    check_buffer(&buffer, place, wanted_bytes > 0 ? body.text + body.starts[index] : body.text, wanted_bytes);
    calls++;
    pages_asked++;
}

static void every_place(size_t index, size_t size)
{
    for (size_t place = 0; place <= size + 2; place++) {
        check_page(index, size, place);
    }
    for (int i = 0; i < HUGE; i++) {
        check_page(index, size, huge[i]);
    }
}

static void every_page(void)
{
    for (size_t size = 0; size <= LONGEST_SMALL_BUFFER; size++) {
        for (size_t index = 0; index <= body.words + 1; index++) {
            every_place(index, size);
        }
        for (int i = 0; i < HUGE; i++) {
            check_page(huge[i], size, size / 2);
            check_page(huge[i], size, huge[i]);
        }
    }
}

static uint64_t below(uint64_t limit)
{
    static uint64_t state = 20261115;
    return splitmix(&state) % limit;
}

static void random_pages(void)
{
    for (int i = 0; i < RANDOM_PAGES; i++) {
        size_t size = below(below(2) ? LONGEST_BUFFER : LONGEST_SMALL_BUFFER);
        size_t place = below(below(2) ? size + 3 : size / 8 + 1);
        check_page(below(body.words + 1), size, place);
    }
}

/* When the last text of a body is known. */
static void try_pages(void)
{
    if (body.words <= SMALL_BODY) {
        every_page();
    } else {
        random_pages();
    }
}

/* `pages`: a body; it is followed by as many lines `text` as it has words. */
static void pages_line(void)
{
    read_body();
    if (body.words == 0) {
        try_pages();
    }
}

static void text_line(void)
{
    const char *text = last_column();
    size_t length = strlen(text);
    size_t start = body.starts[body.texts];
    if (body.texts == body.words || length >= LONGEST_TEXT) {
        malformed("no word for this text");
    }
    memcpy(body.text + start, text, length);
    body.text[start + length] = '\n';
    body.texts++;
    body.starts[body.texts] = start + length + 1;
    if (body.texts == body.words) {
        try_pages();
    }
}

/* `page`: an answer of the model, with which the rule above is compared, before the library is. */
static void page_line(void)
{
    size_t index = number_column(10), size = number_column(10), place = number_column(10);
    size_t words, bytes;
    uint8_t number = wanted_page(index, size, place, &words, &bytes);
    if (number != number_column(10) || words != number_column(10) || bytes != number_column(10)) {
        malformed("the rule gives another page than the model");
    }
    check_page(index, size, place);
}

/* ── lines ── */

static void check_room(const uint8_t *record, size_t record_len, size_t room, uint8_t number, const char *text)
{
    size_t wanted = number == 0 ? strlen(text) : 0;
    size_t length = 99;
    struct buffer buffer = lend_buffer(room);
    uint8_t got = calmuredda_line(lend(record, record_len), record_len, buffer.bytes, room, &length);
    if (number == 0 && wanted > room) {
        number = NO_ROOM;
        wanted = 0;
    }
    same("a line's number is", got, number);
    same("a line's length is", length, wanted);
    check_buffer(&buffer, 0, (const uint8_t *)text, wanted);
    calls++;
}

/* Every length of the record that is too short, and some that are longer than it needs to be. */
static void check_lengths(const uint8_t *record, uint8_t number, const char *text)
{
    static uint8_t longer[LONGEST_SMALL_BUFFER];
    memcpy(longer, record, CALMUREDDA_RECORD_BYTES);
    memset(longer + CALMUREDDA_RECORD_BYTES, (int)below(256), sizeof longer - CALMUREDDA_RECORD_BYTES);
    for (size_t length = 0; length < CALMUREDDA_RECORD_BYTES; length++) {
        check_room(longer, length, length % 2 ? LONGEST_LINE : 0, SHORT_RECORD, "");
    }
    check_room(longer, CALMUREDDA_RECORD_BYTES + 1, LONGEST_LINE, number, text);
    check_room(longer, sizeof longer, LONGEST_LINE, number, text);
}

static void check_rooms(const uint8_t *record, uint8_t number, const char *text)
{
    for (size_t room = 0; room <= LONGEST_LINE + 1; room++) {
        check_room(record, CALMUREDDA_RECORD_BYTES, room, number, text);
    }
    if (lines_asked % SHORT_RECORDS_EVERY == 0) {
        check_lengths(record, number, text);
    }
    lines_asked++;
}

/* `line`: a record, the number and the line. */
static void line_line(void)
{
    uint8_t record[CALMUREDDA_RECORD_BYTES];
    if (bytes_column(record, sizeof record) != sizeof record) {
        malformed("not a record");
    }
    uint8_t number = (uint8_t)number_column(10);
    check_rooms(record, number, last_column());
}

/* `word`: flag, address, word, its number and its line; the library makes the record. */
static void word_line(void)
{
    uint8_t record[CALMUREDDA_RECORD_BYTES];
    uint8_t wide = (uint8_t)number_column(10);
    uint64_t va = number_column(16);
    uint32_t word = (uint32_t)number_column(16);
    uint8_t number = (uint8_t)number_column(10);
    uint8_t bytes[WORD_BYTES];
    memcpy(bytes, &word, sizeof bytes);
    same("the decoder's number is", calmuredda_decode(bytes, sizeof bytes, va, 0, wide, record, sizeof record), number);
    /* A refusal's record is not a reading's. */
    check_rooms(record, number == 0 ? 0 : NO_READING, last_column());
}

/* ── section files ── */

static struct {
    uint8_t bytes[LENT_BYTES];
    size_t length;
    uint8_t number;
    uint8_t flags;
    size_t count;
    struct section {
        uint64_t address;
        size_t offset;
        size_t length;
    } sections[MOST_SECTIONS];
} file;

/* FLAGS:ADDRESS+OFFSET+LENGTH,.. of a good file. */
static void read_sections(char *text)
{
    file.flags = (uint8_t)number_in(text, 10, &text);
    for (file.count = 0; *text == (file.count == 0 ? ':' : ','); file.count++) {
        if (file.count == MOST_SECTIONS) {
            malformed("too many sections");
        }
        struct section *section = &file.sections[file.count];
        section->address = number_in(text + 1, 16, &text);
        section->offset = (size_t)number_in(text + 1, 10, &text);
        section->length = (size_t)number_in(text + 1, 10, &text);
    }
    if (*text != '\0' || file.count == 0) {
        malformed("no sections");
    }
}

/* What is left of the line is the listing, or its digest. */
static void read_file(void)
{
    column();
    file.length = bytes_column(file.bytes, sizeof file.bytes);
    char *text = column();
    file.number = 0;
    file.flags = 0;
    file.count = 0;
    if (strchr(text, ':') != NULL) {
        read_sections(text);
    } else {
        file.number = (uint8_t)number_in(text, 10, &text);
    }
}

static void check_section(const uint8_t *bytes, size_t n)
{
    struct section none = {0, 0, 0};
    const struct section *wanted = n < file.count ? &file.sections[n] : &none;
    size_t offset = 99, length = 99;
    uint8_t number = calmuredda_section_body(bytes, file.length, n, &offset, &length);
    uint8_t wanted_number = file.number == 0 && n >= file.count ? NO_SECTION : file.number;
    same("a section's number is", number, wanted_number);
    same("a section's offset is", offset, wanted->offset);
    same("a section's length is", length, wanted->length);
    same("a section's address is", calmuredda_section_address(bytes, file.length, n), wanted->address);
}

static void check_sections(const uint8_t *bytes)
{
    same("the file's number is", calmuredda_section_check(bytes, file.length), file.number);
    same("the file's count is", calmuredda_section_count(bytes, file.length), file.count);
    same("the file's flags are", calmuredda_section_flags(bytes, file.length), file.flags);
    for (size_t n = 0; n <= MOST_SECTIONS + 1; n++) {
        check_section(bytes, n);
    }
    for (int i = 0; i < HUGE; i++) {
        check_section(bytes, huge[i]);
    }
}

/* ── listings ── */

struct cursor {
    size_t section;
    size_t line;
};

/* What is known of the file's listing. */
static struct {
    uint8_t text[MOST_LINES * LONGEST_TEXT];
    size_t length;
    size_t starts[MOST_LINES + 1];   /* where each line begins in `text` */
    size_t first[MOST_SECTIONS + 2]; /* which line of all is the first of each section */
} listing;

/* A section has one line more than it has words; the last line of all is in the place of one more section. */
static void number_lines(void)
{
    listing.first[0] = 0;
    for (size_t n = 0; n < file.count; n++) {
        listing.first[n + 1] = listing.first[n] + 1 + file.sections[n].length / WORD_BYTES;
    }
    listing.first[file.count + 1] = listing.first[file.count] + 1;
}

static size_t all_lines(void)
{
    return listing.first[file.count + 1];
}

static size_t lines_of(size_t section)
{
    return section > file.count ? 0 : listing.first[section + 1] - listing.first[section];
}

/* A listing in brackets, with | for the end of a line. */
static void take_text(const char *shown)
{
    listing.length = strlen(shown) - 2;
    if (listing.length > sizeof listing.text || shown[listing.length + 1] != ']') {
        malformed("not a listing");
    }
    for (size_t i = 0; i < listing.length; i++) {
        listing.text[i] = (uint8_t)(shown[i + 1] == '|' ? '\n' : shown[i + 1]);
    }
}

/* The listing as the library writes it. */
static void gather_text(const uint8_t *bytes)
{
    size_t section = 0, line = 0, got;
    listing.length = 0;
    do {
        uint8_t *end = listing.text + listing.length;
        calmuredda_listing(bytes, file.length, section, line, end, WINDOW, &section, &line, &got);
        listing.length += got;
    } while (got > 0 && got <= WINDOW && listing.length + WINDOW <= sizeof listing.text);
}

/* Where only the digest of the listing is known, it shows that the library writes the right one. */
static int find_text(const uint8_t *bytes, const char *shown)
{
    uint8_t digest[SHA256_BYTES];
    uint64_t differ = 0;
    if (shown[0] == '[') {
        take_text(shown);
        return 1;
    }
    if (strlen(shown) != 2 * SHA256_BYTES) {
        malformed("not a digest");
    }
    gather_text(bytes);
    sha256(listing.text, listing.length, digest);
    for (int i = 0; i < SHA256_BYTES; i++) {
        differ += digest[i] != digit(shown[2 * i]) * 16 + digit(shown[2 * i + 1]);
    }
    same("how many bytes of the listing's digest differ:", differ, 0);
    return differ == 0;
}

static void split_text(void)
{
    size_t lines = 0;
    for (size_t i = 0; i < listing.length; i++) {
        if (listing.text[i] == '\n' && lines < MOST_LINES) {
            lines++;
            listing.starts[lines] = i + 1;
        }
    }
    if (lines != all_lines() || listing.starts[lines] != listing.length) {
        malformed("not a line for each section and word, and one more");
    }
}

/* What a call answers, and where in the listing the lines are that it writes. */
struct piece {
    uint8_t number;
    size_t bytes;
    struct cursor next;
    const uint8_t *text;
};

/* What is wanted of a piece, by the rule: the longest run of whole lines of the section that fits. */
static struct piece wanted_piece(struct cursor at, size_t room)
{
    struct piece piece = {.next = at, .text = listing.text};
    size_t lines = lines_of(at.section);
    if (at.line >= lines) {
        return piece;
    }
    const size_t *starts = listing.starts + listing.first[at.section] + at.line;
    size_t left = lines - at.line, taken = 0;
    while (taken < left && starts[taken + 1] - starts[0] <= room) {
        taken++;
    }
    piece.number = taken == 0 ? NO_ROOM : 0;
    piece.bytes = starts[taken] - starts[0];
    piece.text = listing.text + starts[0];
    piece.next.line += taken;
    if (taken == left) {
        piece.next = (struct cursor){at.section + 1, 0};
    }
    return piece;
}

static struct piece check_piece(const uint8_t *bytes, struct cursor at, size_t room)
{
    struct piece wanted = wanted_piece(at, room);
    struct piece got = {.bytes = 99, .next = {99, 99}, .text = wanted.text};
    struct buffer buffer = lend_buffer(room);
    got.number = calmuredda_listing(bytes, file.length, at.section, at.line, buffer.bytes, room, &got.next.section,
                                    &got.next.line, &got.bytes);
    same("a piece's number is", got.number, wanted.number);
    same("a piece's bytes are", got.bytes, wanted.bytes);
    same("after a piece the section is", got.next.section, wanted.next.section);
    same("after a piece the line is", got.next.line, wanted.next.line);
    check_buffer(&buffer, 0, wanted.text, wanted.bytes);
    calls++;
    pieces_asked++;
    return got;
}

/* All pieces from the start on, put together: at most as many as there are lines, and then one without bytes. */
static void check_whole(const uint8_t *bytes, size_t room)
{
    uint64_t complaints_before = complaints;
    struct piece piece = {.next = {0, 0}};
    size_t length = 0, pieces = 0;
    do {
        piece = check_piece(bytes, piece.next, room);
        if (complaints > complaints_before) {
            return;
        }
        if (piece.bytes > 0) {
            same("a piece begins at byte", (uint64_t)(piece.text - listing.text), length);
        }
        length += piece.bytes;
        pieces++;
    } while (piece.bytes > 0 && pieces <= all_lines());
    same("the last piece's bytes are", piece.bytes, 0);
    same("all pieces' bytes are", length, listing.length);
    same("after the listing the section is", piece.next.section, file.count + 1);
}

/* Cursors that few files have a line at. */
static void check_far(const uint8_t *bytes, size_t number)
{
    static const size_t rooms[] = {0, CALMUREDDA_PAGE_LINE_BYTES};
    for (int i = 0; i < 2; i++) {
        check_piece(bytes, (struct cursor){number, 0}, rooms[i]);
        check_piece(bytes, (struct cursor){number, 1}, rooms[i]);
        check_piece(bytes, (struct cursor){number, number}, rooms[i]);
        check_piece(bytes, (struct cursor){0, number}, rooms[i]);
        check_piece(bytes, (struct cursor){file.count / 2, number}, rooms[i]);
        check_piece(bytes, (struct cursor){file.count, number}, rooms[i]);
    }
}

static void every_far(const uint8_t *bytes)
{
    for (int i = 0; i < HUGE; i++) {
        check_far(bytes, huge[i]);
    }
    for (int i = 0; i < CUT; i++) {
        check_far(bytes, cut[i]);
    }
    for (size_t n = 0; n <= file.count + 1; n++) {
        check_piece(bytes, (struct cursor){n, lines_of(n)}, n % 2 ? 0 : CALMUREDDA_PAGE_LINE_BYTES);
        check_piece(bytes, (struct cursor){n, lines_of(n) + 1}, CALMUREDDA_PAGE_LINE_BYTES);
    }
}

static void every_piece(const uint8_t *bytes)
{
    for (size_t section = 0; section <= file.count + 1; section++) {
        for (size_t line = 0; line <= lines_of(section); line++) {
            for (size_t room = 0; room <= LONGEST_SMALL_BUFFER; room++) {
                check_piece(bytes, (struct cursor){section, line}, room);
            }
        }
    }
}

static void random_pieces(const uint8_t *bytes)
{
    for (int i = 0; i < RANDOM_PIECES; i++) {
        size_t section = below(LAST_LINE_EVERY) ? below(file.count) : file.count;
        size_t room = below(below(4) ? CALMUREDDA_PAGE_LINE_BYTES + 1 : LONGEST_BUFFER);
        check_piece(bytes, (struct cursor){section, below(lines_of(section) + 1)}, room);
    }
}

static void check_listing(const uint8_t *bytes)
{
    static const size_t rooms[] = {
        CALMUREDDA_PAGE_LINE_BYTES, CALMUREDDA_PAGE_LINE_BYTES + 1, LONGEST_SMALL_BUFFER, WINDOW, LONGEST_WINDOW,
    };
    for (size_t i = 0; i < sizeof rooms / sizeof rooms[0]; i++) {
        check_whole(bytes, rooms[i]);
    }
    every_far(bytes);
    if (all_lines() <= SMALL_LISTING) {
        every_piece(bytes);
    } else {
        random_pieces(bytes);
    }
}

/* `file`: a section file and what is known of it. It is lent once at the end of what can be read, and once near its
   start. */
static void file_line(void)
{
    read_file();
    number_lines();
    for (uint64_t twice = 0; twice < 2; twice++) {
        calls += calls % 2 != twice;
        const uint8_t *bytes = lend(file.bytes, file.length);
        check_sections(bytes);
        if (find_text(bytes, last_column())) {
            split_text();
            check_listing(bytes);
        }
    }
    files_asked++;
}

/* ── document 01's example, whatever the input has ── */

static const uint8_t scope_body[] = {
    0x3c, 0x04, 0x80, 0x00, 0x0c, 0x00, 0x04, 0x03, 0x8c, 0x82, 0x00, 0x10,
    0x03, 0xe0, 0x00, 0x08, 0x00, 0x00, 0x00, 0x00, 0x7c, 0x00, 0x00, 0x01,
};
static const char *const scope_lines[] = {
    "0000000080001000 3c048000 lui a0, 32768",
    "0000000080001004 0c000403 jal 0x8000100c",
    "0000000080001008 8c820010 lw v0, 16(a0)",
    "000000008000100c 03e00008 jr ra",
    "0000000080001010 00000000 nop",
    "0000000080001014 7c000001 refused 8",
};
enum { SCOPE_WORDS = sizeof scope_lines / sizeof scope_lines[0] };

static void check_scope(void)
{
    body.va = 0x80001000;
    body.big = 1;
    body.wide = 0;
    body.length = sizeof scope_body;
    body.words = SCOPE_WORDS;
    body.texts = 0;
    memcpy(body.bytes, scope_body, sizeof scope_body);
    check_block(0, (struct answer){0, 1, 3});
    check_block(3, (struct answer){0, 1, 2});
    check_block(5, (struct answer){0, 3, 0});
    check_block(6, (struct answer){NO_WORD, 0, 0});
    for (int i = 0; i < SCOPE_WORDS; i++) {
        char text[LONGEST_TEXT];
        snprintf(text, sizeof text, "%s", scope_lines[i]);
        rest = text;
        text_line();
    }
}

/* The same words as a section file, and pieces of its listing: the lines have 18, 40, 41, 40, 32, 30, 36 and 18
   bytes. */
static const char scope_file[] = "010001003000000000100080000000001800000018000000"
                                 "3c0480000c0004038c82001003e00008000000007c000001";
static const struct {
    struct cursor at;
    size_t room;
    uint8_t number;
    size_t bytes;
    struct cursor next;
} scope_pieces[] = {
    {{0, 0}, 0, NO_ROOM, 0, {0, 0}},    {{0, 0}, 17, NO_ROOM, 0, {0, 0}},   {{0, 0}, 18, 0, 18, {0, 1}},
    {{0, 0}, 57, 0, 18, {0, 1}},        {{0, 0}, 58, 0, 58, {0, 2}},        {{0, 0}, 236, 0, 201, {0, 6}},
    {{0, 0}, 237, 0, 237, {1, 0}},      {{0, 0}, WINDOW, 0, 237, {1, 0}},   {{0, 1}, 80, 0, 40, {0, 2}},
    {{0, 2}, 40, NO_ROOM, 0, {0, 2}},   {{0, 2}, 80, 0, 41, {0, 3}},        {{0, 2}, 81, 0, 81, {0, 4}},
    {{0, 5}, 65, 0, 30, {0, 6}},        {{0, 5}, 66, 0, 66, {1, 0}},        {{0, 6}, 35, NO_ROOM, 0, {0, 6}},
    {{0, 6}, 36, 0, 36, {1, 0}},        {{0, 7}, 0, 0, 0, {0, 7}},          {{0, 7}, WINDOW, 0, 0, {0, 7}},
    {{1, 0}, 17, NO_ROOM, 0, {1, 0}},   {{1, 0}, 18, 0, 18, {2, 0}},        {{1, 0}, WINDOW, 0, 18, {2, 0}},
    {{1, 1}, WINDOW, 0, 0, {1, 1}},     {{2, 0}, WINDOW, 0, 0, {2, 0}},     {{2, 1}, 0, 0, 0, {2, 1}},
};
enum { SCOPE_PIECES = sizeof scope_pieces / sizeof scope_pieces[0], SCOPE_TEXT = 1000 };

static void read_scope_file(void)
{
    char text[SCOPE_TEXT];
    size_t length = (size_t)snprintf(text, sizeof text, "scope %s 1:80001000+24+24 [section 0 words 6|", scope_file);
    for (int i = 0; i < SCOPE_WORDS; i++) {
        length += (size_t)snprintf(text + length, sizeof text - length, "%s|", scope_lines[i]);
    }
    snprintf(text + length, sizeof text - length, "words 6 refused 1|]");
    rest = text;
    read_file();
    number_lines();
    take_text(last_column());
    split_text();
}

/* The rule is compared with these, before the library is. */
static void check_scope_pieces(void)
{
    read_scope_file();
    for (int i = 0; i < SCOPE_PIECES; i++) {
        struct piece piece = wanted_piece(scope_pieces[i].at, scope_pieces[i].room);
        struct cursor next = scope_pieces[i].next;
        if (piece.number != scope_pieces[i].number || piece.bytes != scope_pieces[i].bytes ||
            piece.next.section != next.section || piece.next.line != next.line) {
            malformed("the rule gives another piece of document 01's example");
        }
        check_piece(lend(file.bytes, file.length), scope_pieces[i].at, scope_pieces[i].room);
    }
}

/* ── the lines of the input ── */

static const struct {
    const char *name;
    void (*check)(void);
} kinds[] = {
    {"blocks", blocks_line}, {"pages", pages_line}, {"text", text_line}, {"page", page_line},
    {"line", line_line},     {"word", word_line},   {"file", file_line},
};
enum { KINDS = sizeof kinds / sizeof kinds[0] };

static void check_input_line(void)
{
    const char *name = column();
    for (int i = 0; i < KINDS; i++) {
        if (strcmp(name, kinds[i].name) == 0) {
            kinds[i].check();
            return;
        }
    }
    malformed(name);
}

int main(void)
{
    char *line = NULL;
    size_t room = 0;
    ssize_t length;
    begin_lending("line");
    make_area();
    check_scope_pieces();
    check_scope();
    while ((length = getline(&line, &room, stdin)) > 0) {
        asked_so_far++;
        if (line[length - 1] == '\n') {
            line[length - 1] = '\0';
        }
        rest = line;
        check_input_line();
    }
    free(line);
    if (complaints > 0) {
        return EXIT_FAILURE;
    }
    printf("%" PRIu64 " blocks, %" PRIu64 " pages, %" PRIu64 " records in every room, %" PRIu64 " section files and ",
           blocks_asked, pages_asked, lines_asked, files_asked);
    printf("%" PRIu64 " pieces of their listings\n", pieces_asked);
    return EXIT_SUCCESS;
}
