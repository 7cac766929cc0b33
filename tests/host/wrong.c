/* Comes between the test and the library (the linker's --wrap) and makes one of the mistakes below, by the number in
   the environment's MISTAKE: the test must notice each. */
#include <stdint.h>
#include <string.h>

#include "../mistake.h"
#include "calmuredda.h"

/* Mistakes of decoding, then of encoding; `run` counts up to the last. */
enum {
    WRITES_AFTER_RECORD = 1,   /* inside a longer buffer */
    WRITES_AFTER_BUFFER,
    WRITES_BEFORE_BUFFER,
    WRITES_SHORT_BUFFER,
    SLICE_BEFORE_BUFFER,       /* 1 and not 16 where both are short */
    BIG_IS_ONE,                /* other numbers than 1 are off */
    WIDE_IS_ONE,
    LAST_FOUR_BYTES,
    REFUSAL_HAS_NAME,
    REFUSAL_WITHOUT_NUMBER,
    TARGET_OF_32_BITS,
    VALUE_OF_32_BITS,
    READS_AFTER_SLICE,
    WRITES_SLICE,
    NOT_SMALLEST,              /* `or` instead of `addu` for a move */
    OPERANDS_LAST_BYTE,        /* not read */
    NAMES_LAST_BYTE,
    REFUSAL_HANDED_ON,
    LONGER_IS_REFUSED,
    SHORTER_IS_TAKEN,
    WORD_OF_REFUSAL,
    ANY_ADDRESS,
    ENCODER_WIDE_IS_ONE,
    READS_AFTER_RECORD,
    WRITES_RECORD,
    LAST = WRITES_RECORD
};

enum {
    WORD_BYTES = 4,
    HIGH_HALF = 4,
    HALF_BYTES = 4,
    OR_FOR_ADDU = 4,
    ADDU_WITHOUT_RT = 0x21
};
static const uint32_t all_but_rs_and_rd = 0xfc1f07ff;

static int mistake(void)
{
    return mistake_up_to(LAST);
}

/* Reads or writes where the library must not. */
static void trespass(const uint8_t *slice, size_t length)
{
    volatile uint8_t *place = (volatile uint8_t *)(uintptr_t)slice;
    int number = mistake();
    if (number == READS_AFTER_SLICE || number == READS_AFTER_RECORD) {
        (void)place[length];
    } else if (length > 0) {
        place[0] = slice[0];
    }
}

/* Spoils what was written to a buffer with room for a record. */
static void spoil(uint8_t number, uint8_t *record, size_t record_len)
{
    switch (mistake()) {
    case WRITES_AFTER_RECORD:
        record[record_len > CALMUREDDA_RECORD_BYTES ? CALMUREDDA_RECORD_BYTES : 0] ^=
            record_len > CALMUREDDA_RECORD_BYTES;
        break;
    case WRITES_AFTER_BUFFER:
        record[record_len] ^= 1;
        break;
    case WRITES_BEFORE_BUFFER:
        record[-1] ^= 1;
        break;
    case REFUSAL_HAS_NAME:
        record[CALMUREDDA_AT_MNEMONIC] |= number;
        break;
    case REFUSAL_WITHOUT_NUMBER:
        record[CALMUREDDA_AT_NUMBER] = 0;
        break;
    case TARGET_OF_32_BITS:
        memset(record + CALMUREDDA_AT_TARGET + HIGH_HALF, 0, HALF_BYTES);
        break;
    case VALUE_OF_32_BITS:
        memset(record + CALMUREDDA_AT_VALUE + HIGH_HALF, 0, HALF_BYTES);
        break;
    }
}

uint8_t __wrap_calmuredda_decode(const uint8_t *bytes, size_t bytes_len, uint64_t va, uint8_t big, uint8_t wide,
                                 uint8_t *record, size_t record_len)
{
    int number = mistake();
    if (number == SLICE_BEFORE_BUFFER && bytes_len < WORD_BYTES && record_len < CALMUREDDA_RECORD_BYTES) {
        return CALMUREDDA_SHORT;
    }
    if (number == WRITES_SHORT_BUFFER && record_len > 0 && record_len < CALMUREDDA_RECORD_BYTES) {
        record[0] = CALMUREDDA_SHORT_RECORD;
    }
    if (number == LAST_FOUR_BYTES && bytes_len > WORD_BYTES) {
        bytes += bytes_len - WORD_BYTES;
        bytes_len = WORD_BYTES;
    }
    if ((number == READS_AFTER_SLICE || number == WRITES_SLICE) && bytes != NULL) {
        trespass(bytes, bytes_len);
    }
    big = number == BIG_IS_ONE ? big == 1 : big;
    wide = number == WIDE_IS_ONE ? wide == 1 : wide;
    uint8_t answer = __real_calmuredda_decode(bytes, bytes_len, va, big, wide, record, record_len);
    if (record_len >= CALMUREDDA_RECORD_BYTES) {
        spoil(answer, record, record_len);
    }
    return answer;
}

/* Mistakes in what the encoder reads: the call is made with other arguments. */
static uint64_t encode_other(const uint8_t *record, size_t record_len, uint64_t va, uint8_t wide)
{
    uint8_t copy[CALMUREDDA_RECORD_BYTES] = {0};
    int number = mistake();
    size_t most = record_len < sizeof copy ? record_len : sizeof copy;
    if (most > 0) {
        memcpy(copy, record, most);
    }
    if (number == OPERANDS_LAST_BYTE) {
        copy[CALMUREDDA_AT_MNEMONIC - 1] = 0;
    }
    if (number == NAMES_LAST_BYTE) {
        copy[CALMUREDDA_RECORD_BYTES - 1] = 0;
    }
    if (number == SHORTER_IS_TAKEN && record_len == sizeof copy - 1) {
        record_len = sizeof copy;
    }
    va = number == ANY_ADDRESS ? 0 : va;
    wide = number == ENCODER_WIDE_IS_ONE ? wide == 1 : wide;
    return __real_calmuredda_encode(copy, record_len < sizeof copy ? record_len : sizeof copy, va, wide);
}

static int is_smallest_move(uint64_t answer)
{
    return CALMUREDDA_NUMBER(answer) == CALMUREDDA_ACCEPTED &&
           (CALMUREDDA_WORD(answer) & all_but_rs_and_rd) == ADDU_WITHOUT_RT;
}

static uint64_t refusal(uint8_t number)
{
    return (uint64_t)number << 32;
}

uint64_t __wrap_calmuredda_encode(const uint8_t *record, size_t record_len, uint64_t va, uint8_t wide)
{
    int number = mistake();
    if ((number == READS_AFTER_RECORD || number == WRITES_RECORD) && record != NULL) {
        trespass(record, record_len);
    }
    if (number == LONGER_IS_REFUSED && record_len > CALMUREDDA_RECORD_BYTES) {
        return refusal(CALMUREDDA_NO_WORD);
    }
    uint64_t answer = encode_other(record, record_len, va, wide);
    if (number == NOT_SMALLEST && is_smallest_move(answer)) {
        return answer + OR_FOR_ADDU;
    }
    if (number == REFUSAL_HANDED_ON && answer == refusal(CALMUREDDA_NO_WORD) && record[0] > 0 &&
        record[0] < CALMUREDDA_NO_WORD) {
        return refusal(record[0]);
    }
    if (number == WORD_OF_REFUSAL && answer == refusal(CALMUREDDA_NO_WORD)) {
        return answer + 1;
    }
    return answer;
}
