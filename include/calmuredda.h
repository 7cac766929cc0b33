/* Calmuredda for a host program in C: from a word of MIPS code to a packed record, and from a record to its smallest
   word or its printed line; section files, the blocks and listing pages of their bodies, and listings of whole files.

   Link with libcalmuredda.a, which is for x86-64 and the System V calling convention. The library allocates nothing,
   keeps no pointer and has no state; of the C library it needs at most memcpy and memset. What is lent to a call is
   used during that call only. Any number of threads may call at once, as long as no two calls write to the same buffer
   and no thread writes to what a call reads.

   A slice is a pointer and a length in bytes. With length 0 the pointer may be null and is not followed. No pointer to
   bytes needs any alignment. A pointer to one number (size_t *, uint8_t *kind) must not be null, must be aligned for
   its type, and must not overlap any other argument; the number is written at every call, and what it was before does
   not matter. */
#ifndef CALMUREDDA_H
#define CALMUREDDA_H

#include <stddef.h>
#include <stdint.h>

#ifdef __cplusplus
extern "C" {
#endif

/* What the functions return: 0, or why they refuse. 2 to 8 name the table of the manual that has no such word. */
enum {
    CALMUREDDA_ACCEPTED = 0,
    CALMUREDDA_SHORT = 1,         /* fewer than four bytes to decode */
    CALMUREDDA_OP = 2,            /* refused by its op */
    CALMUREDDA_SPECIAL = 3,
    CALMUREDDA_REGIMM = 4,
    CALMUREDDA_COP0 = 5,
    CALMUREDDA_COP1 = 6,
    CALMUREDDA_SPECIAL2 = 7,
    CALMUREDDA_SPECIAL3 = 8,
    CALMUREDDA_NO_WORD = 9,       /* no word has the record at that address and flag, or no reading has it */
    CALMUREDDA_NO_LINE = 10,      /* more than 4 operands, or a register above 31 in a used one */
    CALMUREDDA_NO_ROOM = 11,      /* the line, or the first line of a page or piece, has no room */
    CALMUREDDA_BAD_HEADER = 12,   /* a file's length, count, flags or total is wrong, or its records are cut off */
    CALMUREDDA_BAD_RECORD = 13,   /* a record of a file breaks its rules */
    CALMUREDDA_NO_SECTION = 14,   /* the file is good but has no section of that number */
    CALMUREDDA_NO_INDEX = 15,     /* the body has no word of that index */
    CALMUREDDA_SHORT_RECORD = 16  /* fewer than 80 bytes for the record, or in it */
};

/* The record: 80 bytes. Numbers of more than one byte are little-endian, negative ones in two's complement; what is
   absent is 0. */
enum {
    CALMUREDDA_RECORD_BYTES = 80,
    CALMUREDDA_AT_NUMBER = 0,     /* 0, or the refusal number; then all other bytes are 0 */
    CALMUREDDA_AT_FLOW = 1,       /* CALMUREDDA_FLOW_.. */
    CALMUREDDA_AT_MARKS = 2,      /* CALMUREDDA_DELAY_SLOT and CALMUREDDA_HAS_TARGET, added up */
    CALMUREDDA_AT_COUNT = 3,      /* how many operands: 0 to 4 */
    CALMUREDDA_AT_TARGET = 4,     /* 8 bytes: where a branch or jump goes */
    CALMUREDDA_AT_EFFECT = 12,    /* CALMUREDDA_EFFECT_.. */
    CALMUREDDA_AT_FIRST = 13,     /* the effect's first register */
    CALMUREDDA_AT_SECOND = 14,    /* its second register */
    CALMUREDDA_AT_SIZE = 15,      /* its size in bytes */
    CALMUREDDA_AT_VALUE = 16,     /* 8 bytes: its value */
    CALMUREDDA_AT_OPERANDS = 24,  /* four operands of 10 bytes, the unused ones all 0 */
    CALMUREDDA_AT_MNEMONIC = 64,  /* text of at most 9 characters, then zeros */

    CALMUREDDA_OPERANDS = 4,
    CALMUREDDA_OPERAND_BYTES = 10,
    CALMUREDDA_IN_KIND = 0,       /* inside an operand: CALMUREDDA_KIND_.. */
    CALMUREDDA_IN_REGISTER = 1,   /* its register; the base of a MEM */
    CALMUREDDA_IN_VALUE = 2,      /* 8 bytes: a number, the offset of a MEM, an address */

    CALMUREDDA_MNEMONIC_BYTES = 16
};

/* Where operand n, from 0 on, starts. */
#define CALMUREDDA_AT_OPERAND(n) (CALMUREDDA_AT_OPERANDS + CALMUREDDA_OPERAND_BYTES * (n))

enum {
    CALMUREDDA_FLOW_NONE = 0, CALMUREDDA_FLOW_CALL = 1, CALMUREDDA_FLOW_JUMP = 2,
    CALMUREDDA_FLOW_COND_JUMP = 3, CALMUREDDA_FLOW_RET = 4, CALMUREDDA_FLOW_INTERRUPT = 5,

    CALMUREDDA_DELAY_SLOT = 1,    /* the next word is executed before the branch or jump is taken */
    CALMUREDDA_HAS_TARGET = 2,    /* without it the target is 0 and means nothing */

    CALMUREDDA_EFFECT_NONE = 0,
    CALMUREDDA_EFFECT_SET_ADDR = 1, /* first register = value (lui) */
    CALMUREDDA_EFFECT_ADD_IMM = 2,  /* first = second + value, or for ori second | value */
    CALMUREDDA_EFFECT_MEM = 3,      /* size bytes at second + value; first is loaded, or 0 */
    CALMUREDDA_EFFECT_WRITE = 4,    /* first is written */

    CALMUREDDA_KIND_UNUSED = 0, CALMUREDDA_KIND_REG = 1, CALMUREDDA_KIND_FREG = 2, CALMUREDDA_KIND_IMM = 3,
    CALMUREDDA_KIND_MEM = 4, CALMUREDDA_KIND_ADDR = 5, CALMUREDDA_KIND_COP0 = 6
};

/* Decodes the first four of `bytes` as the word at address `va`, which may be any number. The bytes after them do not
   matter.

   big: the four bytes are in big-endian order, else in little-endian order.
   wide: the code is MIPS64. It matters only to SPECIAL 45 with rt zero, which is `move` with it and `daddu` without.
   Each of the two is a number: 0 is off, any other number is on.

   Returns a number and writes the record to `record`:
     record_len below 80           CALMUREDDA_SHORT_RECORD, whatever the other arguments are; nothing is written
     else bytes_len below 4        CALMUREDDA_SHORT
     else                          CALMUREDDA_ACCEPTED, or CALMUREDDA_OP to CALMUREDDA_SPECIAL3
   A refusal's record is its number and 79 zeros. Bytes of `record` past the first 80 stay as they are.
   `bytes` is only read. The two slices must not overlap. */
uint8_t calmuredda_decode(const uint8_t *bytes, size_t bytes_len, uint64_t va, uint8_t big, uint8_t wide,
                          uint8_t *record, size_t record_len);

/* Encodes the first 80 bytes of `record`, at address `va` and under the flag `wide`. The bytes after them do not
   matter.

   Returns two numbers in one, which CALMUREDDA_NUMBER and CALMUREDDA_WORD take apart:
     record_len below 80           CALMUREDDA_SHORT_RECORD and word 0
     the record of a word there    CALMUREDDA_ACCEPTED and the smallest word that has it
     anything else                 CALMUREDDA_NO_WORD and word 0; also for a refusal's record
   Several words can have the same record, so the answer may differ from the word that was decoded; it decodes to the
   same 80 bytes. It is a number: to put it into code, write its four bytes in the byte order of that code. `record` is
   only read. */
uint64_t calmuredda_encode(const uint8_t *record, size_t record_len, uint64_t va, uint8_t wide);

/* The parts of calmuredda_encode's answer, number * 2^32 + word. Compare the number first: word 0 is also the word of
   `nop`. */
#define CALMUREDDA_NUMBER(answer) ((uint8_t)((answer) >> 32))
#define CALMUREDDA_WORD(answer) ((uint32_t)(answer))

/* Prints the line of the reading whose record is in the first 80 bytes of `record`: `lw v0, 16(a0)`, without a newline
   or a zero after it.

   Returns a number and sets *written to how many bytes the line has, 0 for a refusal:
     record_len below 80           CALMUREDDA_SHORT_RECORD
     else not a reading's record   CALMUREDDA_NO_WORD; also for a refusal's record or an unknown mnemonic
     else it has no line           CALMUREDDA_NO_LINE
     else longer than out_len      CALMUREDDA_NO_ROOM
     else                          CALMUREDDA_ACCEPTED, and the line is at the start of `out`
   Bytes of `out` past the line stay as they are; after a refusal all do. Any line fits in CALMUREDDA_LINE_BYTES.
   `record` is only read. The two slices must not overlap. */
uint8_t calmuredda_line(const uint8_t *record, size_t record_len, uint8_t *out, size_t out_len, size_t *written);

enum { CALMUREDDA_LINE_BYTES = 120 };

/* A section file: at most 65,535 bytes; numbers are little-endian.
     0 count u16 (1 to 64)   2 flags u16   4 total length u32   8 a record of 16 bytes for each section
     in a record: 0 address u64   8 offset u32   12 length u32 (at least 4, a multiple of 4)
   Bodies come after the last record, in rising offsets, without overlap, inside the file. */
enum {
    CALMUREDDA_BIG_ENDIAN = 1,    /* flags: the words are big-endian */
    CALMUREDDA_WIDE = 2           /* flags: the code is MIPS64 */
};

/* CALMUREDDA_ACCEPTED for a good file, else CALMUREDDA_BAD_HEADER or CALMUREDDA_BAD_RECORD. */
uint8_t calmuredda_section_check(const uint8_t *file, size_t file_len);

/* How many sections a good file has, and its flags. A file that is not good has 0 of each. */
size_t calmuredda_section_count(const uint8_t *file, size_t file_len);
uint8_t calmuredda_section_flags(const uint8_t *file, size_t file_len);

/* The address of section n, from 0 on; 0 if the file is not good or has no such section. */
uint64_t calmuredda_section_address(const uint8_t *file, size_t file_len, size_t n);

/* Where the body of section n is: the *size bytes from file + *offset on. Returns CALMUREDDA_ACCEPTED; or, with *offset
   and *size 0, CALMUREDDA_BAD_HEADER, then CALMUREDDA_BAD_RECORD, whichever section is bad, then
   CALMUREDDA_NO_SECTION. */
uint8_t calmuredda_section_body(const uint8_t *file, size_t file_len, size_t n, size_t *offset, size_t *size);

/* A body is any run of bytes; its words are its first body_len / 4 * 4 bytes. Word n is at address va + 4 * n, modulo
   2^64. `flags` are those of a section file, as calmuredda_section_flags returns them: CALMUREDDA_BIG_ENDIAN and
   CALMUREDDA_WIDE, added up. The other bits have no meaning and are ignored. */

/* The block from word `index` on: the words up to the first one with a delay slot, and the word in that slot.

   Returns CALMUREDDA_ACCEPTED, sets *kind to how the block ends and *words to how many words it has. For an index that
   the body does not have it returns CALMUREDDA_NO_INDEX, and both are 0. A caller that walks a body block by block must
   skip the refused word after a block of kind CALMUREDDA_END_REFUSED, and after one of kind CALMUREDDA_END_NO_SLOT if
   there is one. */
uint8_t calmuredda_block(const uint8_t *body, size_t body_len, uint64_t va, uint8_t flags, size_t index,
                         uint8_t *kind, size_t *words);

enum {
    CALMUREDDA_END_SLOT = 1,      /* after the slot */
    CALMUREDDA_END_NO_SLOT = 2,   /* the slot is a refused word, which is not counted, or the body ends before it */
    CALMUREDDA_END_REFUSED = 3,   /* before a refused word; the block may have no words */
    CALMUREDDA_END_BODY = 4       /* with the body */
};

/* Lists words from word `index` on, into `out` from byte `place` on: for each word a line of address (16 hex digits),
   space, word (8 hex digits), space, the printed line or `refused` and the number, newline.

   It writes the longest run of whole lines that fits. Returns CALMUREDDA_ACCEPTED, sets *words to how many words are
   listed and *bytes to how many bytes that took; all other bytes of `out` stay as they are. For an index that the body
   does not have it returns CALMUREDDA_NO_INDEX; then, if not one line fits or `place` is past the end,
   CALMUREDDA_NO_ROOM. In both cases nothing is written, and both numbers are 0. The next page begins at index + *words.
   Any line of a page fits in CALMUREDDA_PAGE_LINE_BYTES. `body` and `out` must not overlap. */
uint8_t calmuredda_page(const uint8_t *body, size_t body_len, uint64_t va, uint8_t flags, size_t index,
                        uint8_t *out, size_t out_len, size_t place, size_t *words, size_t *bytes);

enum { CALMUREDDA_PAGE_LINE_BYTES = 147 };

/* Lists a whole section file piece by piece. All pieces together are what the program `sweep` writes for the file.

   The cursor is two numbers, section and line. Line 0 of section N is `section N words M`, and line w + 1 is that of
   its word w, as in a page. In the place of one more section, line 0 is the last line of all, `words W refused R`. A
   file that is not good, such as any of 65,536 bytes or more, has no sections: its only line, line 0 of section 0, is
   `file refused N` with the number that calmuredda_section_check returns. Each line ends with a newline.

   It writes to the start of `out` the longest run of whole lines that fits, from the cursor on and of that one section.
   Returns CALMUREDDA_ACCEPTED, sets *bytes to how many bytes that took, and *next_section and *next_line to where the
   listing goes on: at the next line of the section, or at line 0 of section + 1 after its last line and after the last
   line of all. All other bytes of `out` stay as they are. If the line at the cursor does not fit it returns
   CALMUREDDA_NO_ROOM: nothing is written, *bytes is 0 and the next cursor is the same.

   Any two numbers are a cursor. Where there is no line, nothing is left: whatever out_len is, it returns
   CALMUREDDA_ACCEPTED, *bytes is 0 and the next cursor is the same. So a host starts with line 0 of section 0, or with
   any other line, and goes on until *bytes is 0. Any line fits in CALMUREDDA_PAGE_LINE_BYTES; with that much room there
   are at most as many pieces as lines: one for each word, one for each section, and one more.

   `file` is only read. `file` and `out` must not overlap. The cursor is handed over by value, so the next one may be
   written to the same variables. */
uint8_t calmuredda_listing(const uint8_t *file, size_t file_len, size_t section, size_t line,
                           uint8_t *out, size_t out_len,
                           size_t *next_section, size_t *next_line, size_t *bytes);

#ifdef __cplusplus
}
#endif

#endif
