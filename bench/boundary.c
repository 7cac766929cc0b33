/* Calls the library through its C boundary, so that bench/run can count instructions. `boundary decode` makes the
   record of each word of standard input and adds up parts of the records; `boundary encode` makes all records first and
   then the word of each accepted one. With the input's switch off everything is done except the measured call. */
#include <inttypes.h>

#include "calmuredda.h"
#include "input.h"

enum { FIRST_REGISTER = CALMUREDDA_AT_OPERAND(0) + CALMUREDDA_IN_REGISTER };

/* The compiler could work out beforehand what a run without the call adds up to; so it is told that this memory may
   have changed. */
static inline void forget(void *memory)
{
    __asm__ volatile("" : : "r"(memory) : "memory");
}

/* The parts that bench/decode.rs adds up, so that the two sums can be compared. */
static uint64_t parts(const uint8_t *record)
{
    uint64_t target;
    memcpy(&target, record + CALMUREDDA_AT_TARGET, sizeof target);
    return target + record[CALMUREDDA_AT_NUMBER] + record[CALMUREDDA_AT_COUNT] + record[CALMUREDDA_AT_FLOW] +
           record[FIRST_REGISTER];
}

/* The head is decoded, and in `encode_words` encoded, in every run: the other programs do it too. */
static void decode_head(const struct input *in, uint8_t *record)
{
    calmuredda_decode(in->head, HEAD_BYTES, 0, false, in->wide, record, CALMUREDDA_RECORD_BYTES);
}

static void decode_words(const struct input *in)
{
    uint8_t record[CALMUREDDA_RECORD_BYTES];
    decode_head(in, record);
    uint64_t sum = parts(record);
    for (size_t at = 0; at < in->len; at += WORD_BYTES) {
        if (in->measuring) {
            calmuredda_decode(in->bytes + at, WORD_BYTES, at, in->big, in->wide, record, CALMUREDDA_RECORD_BYTES);
        }
        forget(record);
        sum += parts(record);
    }
    printf("%016" PRIx64 "\n", sum);
}

static uint8_t *records_of(const struct input *in)
{
    uint8_t *records = malloc(in->len / WORD_BYTES * CALMUREDDA_RECORD_BYTES);
    if (!records) {
        stop("no memory for the records");
    }
    uint8_t *record = records;
    for (size_t at = 0; at < in->len; at += WORD_BYTES) {
        calmuredda_decode(in->bytes + at, WORD_BYTES, at, in->big, in->wide, record, CALMUREDDA_RECORD_BYTES);
        record += CALMUREDDA_RECORD_BYTES;
    }
    return records;
}

static void encode_words(const struct input *in)
{
    uint8_t of_head[CALMUREDDA_RECORD_BYTES];
    decode_head(in, of_head);
    uint64_t sum = CALMUREDDA_WORD(calmuredda_encode(of_head, CALMUREDDA_RECORD_BYTES, 0, in->wide));
    uint64_t words = 0;
    const uint8_t *records = records_of(in);
    for (size_t at = 0; at < in->len; at += WORD_BYTES) {
        const uint8_t *record = records + at / WORD_BYTES * CALMUREDDA_RECORD_BYTES;
        uint64_t answer = 0;
        if (record[CALMUREDDA_AT_NUMBER] != CALMUREDDA_ACCEPTED) {
            continue;
        }
        if (in->measuring) {
            answer = calmuredda_encode(record, CALMUREDDA_RECORD_BYTES, at, in->wide);
        }
        forget(&answer);
        sum += CALMUREDDA_WORD(answer);
        words += CALMUREDDA_NUMBER(answer) == CALMUREDDA_ACCEPTED;
    }
    printf("%016" PRIx64 "\n%" PRIu64 " words\n", sum, words);
}

int main(int argc, char **argv)
{
    const char *doing = argc == 2 ? argv[1] : "";
    const struct input in = read_input();
    if (strcmp(doing, "decode") == 0) {
        decode_words(&in);
    } else if (strcmp(doing, "encode") == 0) {
        encode_words(&in);
    } else {
        stop("boundary decode, or boundary encode");
    }
    return 0;
}
