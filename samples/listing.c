/* A third host of the library: lists a whole section file through a window.

       listing FILE [ROOM]

   The listing is that of the program `sweep`; a bad file has a line as well. It goes through a window of ROOM bytes, or
   of 4,096. From one piece to the next the host keeps only the cursor: two numbers. */
#include <stdio.h>
#include <stdlib.h>
#include <string.h>

#include "calmuredda.h"

/* One byte more than a section file may have, so that a file which is too long is noticed. */
enum { FILE_BYTES = 65536, ROOM = 4096, MOST_ROOM = 65536, MOST_DIGITS = 5, DECIMAL = 10, STATUS_USAGE = 2 };

/* No sign and no other number than the window may have: what is not understood is not guessed. */
static int read_room(const char *text, size_t *room)
{
    size_t digits = strspn(text, "0123456789");
    if (digits == 0 || digits > MOST_DIGITS || text[digits] != '\0') {
        return 0;
    }
    *room = strtoul(text, NULL, DECIMAL);
    return *room >= CALMUREDDA_PAGE_LINE_BYTES && *room <= MOST_ROOM;
}

static int read_file(const char *name, uint8_t *file, size_t *length)
{
    FILE *input = fopen(name, "rb");
    if (input == NULL) {
        return 0;
    }
    *length = fread(file, 1, FILE_BYTES, input);
    int is_read = !ferror(input);
    fclose(input);
    return is_read;
}

/* The window has room for any line, so that a piece without bytes is the end. */
static int list_file(const uint8_t *file, size_t length, size_t room)
{
    static uint8_t window[MOST_ROOM];
    size_t section = 0, line = 0, bytes;
    do {
        calmuredda_listing(file, length, section, line, window, room, &section, &line, &bytes);
    } while (bytes > 0 && fwrite(window, 1, bytes, stdout) == bytes);
    return bytes == 0 && fflush(stdout) == 0;
}

int main(int count, char **arguments)
{
    static uint8_t file[FILE_BYTES];
    size_t length, room = ROOM;
    if (count != 2 && count != 3) {
        fprintf(stderr, "usage: listing FILE [ROOM]\n");
        return STATUS_USAGE;
    }
    if (count == 3 && !read_room(arguments[2], &room)) {
        fprintf(stderr, "ROOM is a number of bytes from %d, for the longest line, to %d\n", CALMUREDDA_PAGE_LINE_BYTES,
                MOST_ROOM);
        return STATUS_USAGE;
    }
    if (!read_file(arguments[1], file, &length)) {
        perror(arguments[1]);
        return EXIT_FAILURE;
    }
    if (!list_file(file, length, room)) {
        perror("the listing could not be written");
        return EXIT_FAILURE;
    }
    /* If the file is refused, the listing says so. */
    return calmuredda_section_check(file, length) == CALMUREDDA_ACCEPTED ? EXIT_SUCCESS : EXIT_FAILURE;
}
