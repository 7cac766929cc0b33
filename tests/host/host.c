/* Compares the library for C with the answers in the frames on standard input, which the driver of tests/oracle writes
   (its mode `records`). */
#define _GNU_SOURCE
#include "../lent.h"
#include "calmuredda.h"
#include "names.h"

enum {
    HEAD_BYTES = 20,
    HEAD_VA = 4,
    HEAD_ANSWER = 12,
    WORD_BYTES = 4,
    LONGEST_INPUT = 200,
    LONGEST_BUFFER = 200,
    AREA_BYTES = CANARY_BYTES + ALIGNMENTS + LONGEST_BUFFER + CANARY_BYTES,
    /* How often an empty buffer is null. NULL_INPUT_EVERY has no factor in common with it, so that sometimes both are
       null, and sometimes one of them. */
    NULL_BUFFER_EVERY = 5,
    MOST_COMPLAINTS = 5
};

static const size_t buffer_sizes[] = {
    0, CALMUREDDA_RECORD_BYTES - 1, CALMUREDDA_RECORD_BYTES, CALMUREDDA_RECORD_BYTES + 1, LONGEST_BUFFER,
};
enum { BUFFER_SIZES = sizeof buffer_sizes / sizeof buffer_sizes[0] };

static const char DECODE = 'd';
static const char END = 'z';

/* What is asked of the encoder, by the letter of the frame. */
static struct kind {
    char letter;
    const char *name;
    uint64_t asked;
    uint64_t with_word;
} kinds[] = {
    {'w', "of words", 0, 0},
    {'s', "of short slices", 0, 0},
    {'c', "changed in one byte", 0, 0},
    {'p', "changed in two places alike", 0, 0},
    {'o', "of a reading with one part changed", 0, 0},
    {'l', "cut or longer", 0, 0},
    {'a', "at another address or under another flag", 0, 0},
    {'m', "mixed of two", 0, 0},
    {'r', "of random bytes", 0, 0},
};
enum { KINDS = sizeof kinds / sizeof kinds[0] };

struct frame {
    char kind;
    uint8_t big;
    uint8_t wide;
    uint8_t length;
    uint64_t va;
    uint64_t answer;
    uint8_t input[LONGEST_INPUT];
    uint8_t record[CALMUREDDA_RECORD_BYTES];
};

static uint64_t slices_decoded;
static uint64_t short_slices_decoded;
static uint64_t null_buffers;
static uint64_t complaints;

static void complain(const struct frame *frame, const char *what, uint64_t got, uint64_t wanted)
{
    printf("frame %" PRIu64 " (%c, %d bytes at %" PRIx64 ", flags %d and %d): %s %" PRIx64 ", wanted %" PRIx64 "\n",
           asked_so_far, frame->kind, frame->length, frame->va, frame->big, frame->wide, what, got, wanted);
    complaints++;
    if (complaints == MOST_COMPLAINTS) {
        printf("the other frames are not compared\n");
        exit(EXIT_FAILURE);
    }
}

/* ── decoding ── */

/* A buffer inside the area, at any alignment. */
static uint8_t *lend_buffer(uint8_t *area, size_t start, size_t size)
{
    if (size == 0 && calls % NULL_BUFFER_EVERY == 0) {
        null_buffers++;
        return NULL;
    }
    return area + start;
}

/* Names the first byte of the area that is not as wanted; offsets count from the buffer's start. */
static void compare_area(const struct frame *frame, size_t size, const uint8_t *area, const uint8_t *wanted,
                         size_t start)
{
    char what[80];
    size_t i = 0;
    if (memcmp(area, wanted, AREA_BYTES) == 0) {
        return;
    }
    while (area[i] == wanted[i]) {
        i++;
    }
    snprintf(what, sizeof what, "in a buffer of %zu bytes, offset %td is", size, (ptrdiff_t)i - (ptrdiff_t)start);
    complain(frame, what, area[i], wanted[i]);
}

static void check_buffer(const struct frame *frame, size_t size)
{
    static uint8_t area[AREA_BYTES];
    static uint8_t wanted[AREA_BYTES];
    const uint8_t *fill = pattern + calls % PATTERNS;
    size_t start = CANARY_BYTES + calls % ALIGNMENTS;
    uint64_t answer = CALMUREDDA_SHORT_RECORD;
    memcpy(area, fill, AREA_BYTES);
    memcpy(wanted, fill, AREA_BYTES);
    if (size >= CALMUREDDA_RECORD_BYTES) {
        answer = frame->answer;
        memcpy(wanted + start, frame->record, CALMUREDDA_RECORD_BYTES);
    }
    uint8_t *buffer = lend_buffer(area, start, size);
    uint8_t got = calmuredda_decode(lend(frame->input, frame->length), frame->length, frame->va, frame->big,
                                    frame->wide, buffer, size);
    calls++;
    if (got != answer) {
        complain(frame, "the decoder's number is", got, answer);
    }
    compare_area(frame, size, area, wanted, start);
}

/* Each buffer twice, so that it is tried with both places of the input. */
static void check_decode(const struct frame *frame)
{
    for (int i = 0; i < BUFFER_SIZES; i++) {
        check_buffer(frame, buffer_sizes[i]);
        check_buffer(frame, buffer_sizes[i]);
    }
    if (frame->length < WORD_BYTES) {
        short_slices_decoded++;
    } else {
        slices_decoded++;
    }
}

/* ── encoding ── */

static void check_answer(const struct frame *frame)
{
    uint64_t got = calmuredda_encode(lend(frame->input, frame->length), frame->length, frame->va, frame->wide);
    calls++;
    if (got != frame->answer) {
        complain(frame, "the encoder's answer is", got, frame->answer);
    }
}

static void check_encode(const struct frame *frame, struct kind *kind)
{
    check_answer(frame);
    check_answer(frame);
    kind->asked++;
    if (CALMUREDDA_NUMBER(frame->answer) == CALMUREDDA_ACCEPTED) {
        kind->with_word++;
    }
}

/* ── frames ── */

static void read_bytes(void *to, size_t count)
{
    if (fread(to, 1, count, stdin) != count) {
        printf("the frames end early, after %" PRIu64 " of them\n", asked_so_far);
        exit(EXIT_FAILURE);
    }
}

static void malformed(void)
{
    printf("frame %" PRIu64 " is malformed\n", asked_so_far);
    exit(EXIT_FAILURE);
}

static void read_frame(struct frame *frame)
{
    uint8_t head[HEAD_BYTES];
    read_bytes(head, sizeof head);
    frame->kind = (char)head[0];
    frame->big = head[1];
    frame->wide = head[2];
    frame->length = head[3];
    /* The program is for x86-64, as the library is: its numbers are little-endian, like those of a frame. */
    memcpy(&frame->va, head + HEAD_VA, sizeof frame->va);
    memcpy(&frame->answer, head + HEAD_ANSWER, sizeof frame->answer);
    if (frame->length > LONGEST_INPUT) {
        malformed();
    }
    read_bytes(frame->input, frame->length);
    if (frame->kind == DECODE) {
        read_bytes(frame->record, sizeof frame->record);
    }
}

static struct kind *kind_of(const struct frame *frame)
{
    for (int i = 0; i < KINDS; i++) {
        if (kinds[i].letter == frame->kind) {
            return &kinds[i];
        }
    }
    malformed();
    return NULL;
}

/* The last frame says how many there were before it, so that none can be lost on the way. */
static void check_frames(void)
{
    static struct frame frame;
    for (read_frame(&frame); frame.kind != END; read_frame(&frame)) {
        if (frame.kind == DECODE) {
            check_decode(&frame);
        } else {
            check_encode(&frame, kind_of(&frame));
        }
        asked_so_far++;
    }
    if (frame.answer != asked_so_far) {
        complain(&frame, "number of frames", asked_so_far, frame.answer);
    }
}

static void say_counts(void)
{
    printf("%" PRIu64 " slices with a word and %" PRIu64 " short slices decoded, each into %d buffers", slices_decoded,
           short_slices_decoded, BUFFER_SIZES);
    printf("; %" PRIu64 " empty slices and %" PRIu64 " empty buffers were null", null_inputs, null_buffers);
    printf("; records encoded, in brackets those that have a word");
    for (int i = 0; i < KINDS; i++) {
        printf("%s %" PRIu64 " %s (%" PRIu64 ")", i == 0 ? ":" : ",", kinds[i].asked, kinds[i].name,
               kinds[i].with_word);
    }
    printf("\n");
}

int main(void)
{
    begin_lending("frame");
    check_frames();
    if (complaints > 0 || !check_names()) {
        return EXIT_FAILURE;
    }
    say_counts();
    return EXIT_SUCCESS;
}
