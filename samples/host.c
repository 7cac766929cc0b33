/* A small host of the library: lists a file of words.

       host FILE ADDRESS big|little [wide]

   For each word it prints the address, the word and its line, or `refused N`. A word in a delay slot is marked, and so
   is a word for which a smaller word has the same record: a patch that is encoded from the record would put that one in
   its place. */
#include <inttypes.h>
#include <stdio.h>
#include <stdlib.h>
#include <string.h>

#include "calmuredda.h"

enum { WORD_BYTES = 4, HEX = 16, ADDRESS_DIGITS = 16, STATUS_USAGE = 2 };

struct listing {
    uint64_t va; /* of the next word */
    uint8_t big;
    uint8_t wide;
    int in_delay_slot;
    uint64_t words, refused, smaller, rest;
};

static uint32_t word_of(const uint8_t *bytes, int big)
{
    uint32_t word = 0;
    for (int i = 0; i < WORD_BYTES; i++) {
        word = word << 8 | bytes[big ? i : WORD_BYTES - 1 - i];
    }
    return word;
}

/* A line is bytes without a zero at their end. An accepted word's record always has a line, and any line fits. */
static void show_line(const uint8_t *record)
{
    uint8_t line[CALMUREDDA_LINE_BYTES];
    size_t written;
    calmuredda_line(record, CALMUREDDA_RECORD_BYTES, line, sizeof line, &written);
    printf("%.*s", (int)written, (const char *)line);
}

static void show_record(struct listing *listing, const uint8_t *record, uint32_t word)
{
    show_line(record);
    if (listing->in_delay_slot) {
        printf(" ; in a delay slot");
    }
    listing->in_delay_slot = (record[CALMUREDDA_AT_MARKS] & CALMUREDDA_DELAY_SLOT) != 0;

    uint64_t answer = calmuredda_encode(record, CALMUREDDA_RECORD_BYTES, listing->va, listing->wide);
    if (CALMUREDDA_NUMBER(answer) != CALMUREDDA_ACCEPTED) {
        printf(" ; not encoded: %d", CALMUREDDA_NUMBER(answer)); /* never: it is a word's record */
    } else if (CALMUREDDA_WORD(answer) != word) {
        printf(" ; smallest %08" PRIx32, CALMUREDDA_WORD(answer));
        listing->smaller++;
    }
    printf("\n");
}

static void show_refusal(struct listing *listing, uint8_t number)
{
    printf("refused %d%s\n", number, listing->in_delay_slot ? " ; in a delay slot" : "");
    listing->in_delay_slot = 0;
}

/* Lists four bytes, or what is left at the end of the file: nothing is skipped. */
static void show_bytes(struct listing *listing, const uint8_t *bytes, size_t count)
{
    uint8_t record[CALMUREDDA_RECORD_BYTES];
    uint8_t number = calmuredda_decode(bytes, count, listing->va, listing->big, listing->wide, record, sizeof record);
    printf("%016" PRIx64 " ", listing->va);
    if (number == CALMUREDDA_SHORT) {
        printf("%zu of %d bytes: ", count, WORD_BYTES);
        listing->rest = count;
        show_refusal(listing, number);
        return;
    }
    uint32_t word = word_of(bytes, listing->big);
    printf("%08" PRIx32 " ", word);
    if (number == CALMUREDDA_ACCEPTED) {
        show_record(listing, record, word);
    } else {
        show_refusal(listing, number);
        listing->refused++;
    }
    listing->words++;
    listing->va += WORD_BYTES;
}

static int list_file(struct listing *listing, FILE *file)
{
    uint8_t bytes[WORD_BYTES];
    size_t count;
    while ((count = fread(bytes, 1, sizeof bytes, file)) > 0) {
        show_bytes(listing, bytes, count);
    }
    if (ferror(file)) {
        return 0;
    }
    printf("%" PRIu64 " words: %" PRIu64 " accepted, %" PRIu64 " refused; %" PRIu64 " have a smaller word; %" PRIu64
           " bytes left over\n",
           listing->words, listing->words - listing->refused, listing->refused, listing->smaller, listing->rest);
    return fflush(stdout) == 0;
}

/* No sign, no 0x and no more digits than an address has: what is not understood is not guessed. */
static int read_address(const char *text, uint64_t *address)
{
    size_t digits = strspn(text, "0123456789abcdefABCDEF");
    *address = strtoull(text, NULL, HEX);
    return digits > 0 && digits <= ADDRESS_DIGITS && text[digits] == '\0';
}

static int read_order(const char *text, uint8_t *big)
{
    *big = strcmp(text, "big") == 0;
    return *big || strcmp(text, "little") == 0;
}

/* FILE ADDRESS big|little [wide] */
static int read_arguments(struct listing *listing, int count, char **arguments)
{
    if (count != 3 && count != 4) {
        return 0;
    }
    listing->wide = count == 4;
    return read_address(arguments[1], &listing->va) && read_order(arguments[2], &listing->big) &&
           (count == 3 || strcmp(arguments[3], "wide") == 0);
}

int main(int count, char **arguments)
{
    struct listing listing = {0};
    if (!read_arguments(&listing, count - 1, arguments + 1)) {
        fprintf(stderr, "usage: host FILE ADDRESS big|little [wide]\n");
        return STATUS_USAGE;
    }
    FILE *file = fopen(arguments[1], "rb");
    if (file == NULL || !list_file(&listing, file)) {
        perror(arguments[1]);
        return EXIT_FAILURE;
    }
    fclose(file);
    return EXIT_SUCCESS;
}
