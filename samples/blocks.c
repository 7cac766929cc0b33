/* A second host of the library: lists a section file block by block.

       blocks FILE

   A block runs to the first word with a delay slot and takes the slot too. Before the lines of each block comes how it
   ends. A refused word is in no block; it is listed by itself. */
#include <inttypes.h>
#include <stdio.h>
#include <stdlib.h>

#include "calmuredda.h"

/* One byte more than a section file may have, so that a file which is too long is noticed. */
enum { FILE_BYTES = 65536, PAGE_BYTES = 4096, WORD_BYTES = 4, STATUS_USAGE = 2 };

struct body {
    const uint8_t *bytes;
    uint64_t va;
    uint8_t flags;
};

/* Lists the words from `first` up to `end`, as many to a page as fit: the body that the library sees ends with the last
   of them. */
static void show_words(const struct body *body, size_t first, size_t end)
{
    uint8_t page[PAGE_BYTES];
    while (first < end) {
        size_t words, bytes;
        calmuredda_page(body->bytes, end * WORD_BYTES, body->va, body->flags, first, page, sizeof page, 0, &words,
                        &bytes);
        fwrite(page, 1, bytes, stdout);
        first += words; /* never 0: the page has room for a line, and there is a word */
    }
}

static const char *how_it_ends(uint8_t kind)
{
    switch (kind) {
    case CALMUREDDA_END_SLOT: return "after a delay slot";
    case CALMUREDDA_END_NO_SLOT: return "without its delay slot";
    case CALMUREDDA_END_REFUSED: return "before a refused word";
    default: return "with the body";
    }
}

static void show_body(const struct body *body, size_t size)
{
    size_t count = size / WORD_BYTES;
    for (size_t index = 0; index < count;) {
        uint8_t kind;
        size_t words;
        calmuredda_block(body->bytes, size, body->va, body->flags, index, &kind, &words);
        if (words > 0) {
            printf("block of %zu, ends %s\n", words, how_it_ends(kind));
            show_words(body, index, index + words);
        }
        index += words;
        if (kind == CALMUREDDA_END_REFUSED) {
            show_words(body, index, index + 1);
            index++;
        }
    }
}

/* The file is good, so that no section below its count is refused. */
static void show_section(const uint8_t *file, size_t length, size_t n)
{
    struct body body = {
        .va = calmuredda_section_address(file, length, n),
        .flags = calmuredda_section_flags(file, length),
    };
    size_t offset, size;
    calmuredda_section_body(file, length, n, &offset, &size);
    body.bytes = file + offset;
    printf("section %zu at %016" PRIx64 "\n", n, body.va);
    show_body(&body, size);
}

int main(int count, char **arguments)
{
    static uint8_t file[FILE_BYTES];
    if (count != 2) {
        fprintf(stderr, "usage: blocks FILE\n");
        return STATUS_USAGE;
    }
    FILE *input = fopen(arguments[1], "rb");
    if (input == NULL) {
        perror(arguments[1]);
        return EXIT_FAILURE;
    }
    size_t length = fread(file, 1, sizeof file, input);
    fclose(input);
    uint8_t number = calmuredda_section_check(file, length);
    if (number != CALMUREDDA_ACCEPTED) {
        fprintf(stderr, "file refused %d\n", number);
        return EXIT_FAILURE;
    }
    for (size_t n = 0; n < calmuredda_section_count(file, length); n++) {
        show_section(file, length, n);
    }
    return fflush(stdout) == 0 ? EXIT_SUCCESS : EXIT_FAILURE;
}
