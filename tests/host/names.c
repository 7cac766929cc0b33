/* The names of calmuredda.h, each compared with a record or an answer in which its number or place shows. The words are
   read as the manual has them; the frames of tests/oracle have offsets and numbers alone and would not notice a wrong
   name. */
#include "names.h"

#include <inttypes.h>
#include <stdio.h>
#include <string.h>

#include "calmuredda.h"

enum { OFF = 0, ON = 1 };
static const uint64_t ADDRESS = 0x80001000;

/* A word's record has this value in this many bytes at this place. */
struct named {
    uint32_t word;
    int at;
    int bytes;
    uint64_t value;
};

#define OPERAND(n, part) (CALMUREDDA_AT_OPERAND(n) + CALMUREDDA_IN_##part)

static const struct named names[] = {
    /* lw v0, 16(a0) */
    {0x8c820010, CALMUREDDA_AT_NUMBER, 1, CALMUREDDA_ACCEPTED},
    {0x8c820010, CALMUREDDA_AT_FLOW, 1, CALMUREDDA_FLOW_NONE},
    {0x8c820010, CALMUREDDA_AT_MARKS, 1, 0},
    {0x8c820010, CALMUREDDA_AT_COUNT, 1, 2},
    {0x8c820010, CALMUREDDA_AT_EFFECT, 1, CALMUREDDA_EFFECT_MEM},
    {0x8c820010, CALMUREDDA_AT_FIRST, 1, 2},
    {0x8c820010, CALMUREDDA_AT_SECOND, 1, 4},
    {0x8c820010, CALMUREDDA_AT_SIZE, 1, 4},
    {0x8c820010, CALMUREDDA_AT_VALUE, 8, 16},
    {0x8c820010, OPERAND(0, KIND), 1, CALMUREDDA_KIND_REG},
    {0x8c820010, OPERAND(0, REGISTER), 1, 2},
    {0x8c820010, OPERAND(1, KIND), 1, CALMUREDDA_KIND_MEM},
    {0x8c820010, OPERAND(1, REGISTER), 1, 4},
    {0x8c820010, OPERAND(1, VALUE), 8, 16},
    {0x8c820010, OPERAND(2, KIND), 1, CALMUREDDA_KIND_UNUSED},
    {0x8c820010, CALMUREDDA_AT_MNEMONIC, 8, 'l' + ('w' << 8)},
    /* jal 0x8000100c; j; beq v0, v1; jr ra; jr t9; break */
    {0x0c000403, CALMUREDDA_AT_FLOW, 1, CALMUREDDA_FLOW_CALL},
    {0x0c000403, CALMUREDDA_AT_MARKS, 1, CALMUREDDA_DELAY_SLOT + CALMUREDDA_HAS_TARGET},
    {0x0c000403, CALMUREDDA_AT_TARGET, 8, 0x8000100c},
    {0x0c000403, OPERAND(0, KIND), 1, CALMUREDDA_KIND_ADDR},
    {0x0c000403, OPERAND(0, VALUE), 8, 0x8000100c},
    {0x08000403, CALMUREDDA_AT_FLOW, 1, CALMUREDDA_FLOW_JUMP},
    {0x10430001, CALMUREDDA_AT_FLOW, 1, CALMUREDDA_FLOW_COND_JUMP},
    {0x03e00008, CALMUREDDA_AT_FLOW, 1, CALMUREDDA_FLOW_RET},
    {0x03200008, CALMUREDDA_AT_MARKS, 1, CALMUREDDA_DELAY_SLOT},
    {0x0000000d, CALMUREDDA_AT_FLOW, 1, CALMUREDDA_FLOW_INTERRUPT},
    /* lui a0, 0x8000; addiu sp, sp, -32; subu v0, v1, a0; nop */
    {0x3c048000, CALMUREDDA_AT_EFFECT, 1, CALMUREDDA_EFFECT_SET_ADDR},
    {0x3c048000, CALMUREDDA_AT_VALUE, 8, UINT64_C(0xffffffff80000000)},
    {0x27bdffe0, CALMUREDDA_AT_EFFECT, 1, CALMUREDDA_EFFECT_ADD_IMM},
    {0x27bdffe0, OPERAND(2, KIND), 1, CALMUREDDA_KIND_IMM},
    {0x27bdffe0, OPERAND(2, VALUE), 8, (uint64_t)-32},
    {0x00641023, CALMUREDDA_AT_EFFECT, 1, CALMUREDDA_EFFECT_WRITE},
    {0x00000000, CALMUREDDA_AT_EFFECT, 1, CALMUREDDA_EFFECT_NONE},
    /* mtc0 v0, register 12; add.s f0, f2, f4; ext v0, v1, 5, 6 with four operands */
    {0x40826000, OPERAND(1, KIND), 1, CALMUREDDA_KIND_COP0},
    {0x46041000, OPERAND(0, KIND), 1, CALMUREDDA_KIND_FREG},
    {0x7c622940, CALMUREDDA_AT_COUNT, 1, CALMUREDDA_OPERANDS},
    {0x7c622940, OPERAND(3, VALUE), 8, 6},
    /* Words that each of the tables refuses. */
    {0x4c000000, CALMUREDDA_AT_NUMBER, 1, CALMUREDDA_OP},
    {0x00000001, CALMUREDDA_AT_NUMBER, 1, CALMUREDDA_SPECIAL},
    {0x04040000, CALMUREDDA_AT_NUMBER, 1, CALMUREDDA_REGIMM},
    {0x40200000, CALMUREDDA_AT_NUMBER, 1, CALMUREDDA_COP0},
    {0x44600000, CALMUREDDA_AT_NUMBER, 1, CALMUREDDA_COP1},
    {0x70000003, CALMUREDDA_AT_NUMBER, 1, CALMUREDDA_SPECIAL2},
    {0x7c000001, CALMUREDDA_AT_NUMBER, 1, CALMUREDDA_SPECIAL3},
};
enum { NAMES = sizeof names / sizeof names[0] };

static int check_name(const struct named *name)
{
    uint8_t record[CALMUREDDA_RECORD_BYTES];
    uint64_t value = 0;
    calmuredda_decode((const uint8_t *)&name->word, sizeof name->word, ADDRESS, OFF, OFF, record, sizeof record);
    memcpy(&value, record + name->at, (size_t)name->bytes);
    if (value == name->value) {
        return 1;
    }
    printf("name: the record of %08" PRIx32 " has %" PRIx64 " at %d, not %" PRIx64 "\n", name->word, value, name->at,
           name->value);
    return 0;
}

static int check_number(const char *name, uint64_t got, uint64_t wanted)
{
    if (got != wanted) {
        printf("name: %s is answered with %" PRIx64 ", not %" PRIx64 "\n", name, got, wanted);
    }
    return got == wanted;
}

/* The numbers that are in no word's record, and the two parts of the encoder's answer. */
static int check_answers(void)
{
    uint8_t record[CALMUREDDA_RECORD_BYTES] = {0};
    uint64_t refused = calmuredda_encode(record, sizeof record, ADDRESS, OFF);
    uint64_t cut = calmuredda_encode(record, sizeof record - 1, ADDRESS, OFF);
    uint8_t few = calmuredda_decode(record, 1, ADDRESS, OFF, OFF, record + 1, 0);
    static const uint8_t move[] = {0x00, 0x80, 0x10, 0x25}; /* or v0, a0, zero */
    uint8_t read = calmuredda_decode(move, sizeof move, ADDRESS, ON, OFF, record, sizeof record);
    uint64_t smallest = calmuredda_encode(record, sizeof record, ADDRESS, OFF);
    uint8_t empty = calmuredda_decode(NULL, 0, ADDRESS, OFF, OFF, record, sizeof record);
    return check_number("a record of zeros", CALMUREDDA_NUMBER(refused), CALMUREDDA_NO_WORD) &
           check_number("a cut record", CALMUREDDA_NUMBER(cut), CALMUREDDA_SHORT_RECORD) &
           check_number("an empty buffer", few, CALMUREDDA_SHORT_RECORD) &
           check_number("a word", read, CALMUREDDA_ACCEPTED) &
           check_number("its record", CALMUREDDA_NUMBER(smallest), CALMUREDDA_ACCEPTED) &
           check_number("its smallest word", CALMUREDDA_WORD(smallest), 0x00801021) &
           check_number("an empty slice", empty, CALMUREDDA_SHORT);
}

int check_names(void)
{
    int good = check_answers();
    for (int i = 0; i < NAMES; i++) {
        good &= check_name(&names[i]);
    }
    return good;
}
