/* Calls every function of the library from several threads at once, and compares what each of them gets with what one
   thread alone gets.

   Standard input names section files, one a line. The files and a body of random words are in memory that all threads
   read and none can write; what a call writes to is the thread's own. A case is some calls of one function, and its
   digest is made of all numbers that they answer and of every byte of the buffers. In each round one thread alone goes
   through the cases in order; then all threads do so at once, each in another order, and every digest must be the same.
   So an answer that depends on earlier calls is noticed as well.

   Where this is built with the thread sanitizer, the library itself is not instrumented: the sanitizer sees what this
   program does, and what the library hands to memcpy. A disturbance inside the library is shown by the digests. */
#define _GNU_SOURCE
#include <pthread.h>

#include "../lent.h"
#include "../splitmix.h"
#include "calmuredda.h"

enum {
    THREADS = 4,
    ROUNDS = 50,
    CASES_EACH = 32, /* of every function, in a round */
    CALLS_EACH = 16, /* in a case */

    WORD_BYTES = 4,
    BODY_WORDS = 500,
    LONGEST_SLICE = 7,  /* bytes for a word: too few, enough, more */
    LONGEST_PART = 200, /* bytes of the body, as a body of their own */
    MOST_FILES = 8,
    LONGEST_FILE = 1024,
    LONGEST_NAME = 4096,
    MOST_SECTIONS = 3,  /* one more than the files have */
    MOST_LINES = 20,    /* one more than a section of theirs has */

    OUT_BYTES = 512,
    LONGEST_ROOM = OUT_BYTES - 2 * CANARY_BYTES,
    LONGEST_LINE_ROOM = CALMUREDDA_LINE_BYTES + 1,
    BYTE_VALUES = 256
};

struct slice {
    const uint8_t *bytes;
    size_t length;
};

/* What all threads read. */
static struct slice body;
static struct slice files[MOST_FILES];
static size_t file_count;

/* What a thread has for itself. */
struct own {
    uint64_t random;
    uint64_t digest;
    uint8_t record[CALMUREDDA_RECORD_BYTES + 1];
    uint8_t file[LONGEST_FILE];
    uint8_t out[OUT_BYTES];
};

/* How words are read: at which address, and by which flags. */
struct view {
    uint64_t va;
    uint8_t big;
    uint8_t wide;
};

static uint64_t below(struct own *own, uint64_t limit)
{
    return splitmix(&own->random) % limit;
}

static struct view any_view(struct own *own)
{
    struct view view = {.va = splitmix(&own->random), .big = (uint8_t)below(own, 2), .wide = (uint8_t)below(own, 2)};
    return view;
}

/* ── digests ── */

/* Another number gives another digest, as long as nothing else differs. */
static void add(struct own *own, uint64_t number)
{
    own->digest = (own->digest ^ number) * 0x9e3779b97f4a7c15;
    own->digest ^= own->digest >> 32;
}

static void add_out(struct own *own)
{
    for (size_t i = 0; i < OUT_BYTES; i += sizeof(uint64_t)) {
        uint64_t number;
        memcpy(&number, own->out + i, sizeof number);
        add(own, number);
    }
}

/* ── what is lent ── */

/* A buffer of up to LONGEST_ROOM bytes, inside a pattern. */
static uint8_t *any_out(struct own *own)
{
    memcpy(own->out, pattern + below(own, PATTERNS), OUT_BYTES);
    return own->out + CANARY_BYTES;
}

/* Part of the body, at any alignment. */
static struct slice any_part(struct own *own, size_t longest)
{
    struct slice part = {.length = below(own, longest + 1)};
    part.bytes = body.bytes + below(own, body.length - part.length);
    return part;
}

/* A file that all threads read, or the thread's own copy with a bit changed. */
static struct slice any_file(struct own *own)
{
    struct slice file = files[below(own, file_count)];
    if (below(own, 2) == 0) {
        return file;
    }
    memcpy(own->file, file.bytes, file.length);
    own->file[below(own, file.length)] ^= (uint8_t)(1 << below(own, 8));
    file.bytes = own->file;
    return file;
}

/* The record of a word, now and then with a byte changed; answers its length, which is sometimes too short. */
static size_t any_record(struct own *own, struct view view)
{
    struct slice word = any_part(own, LONGEST_SLICE);
    memset(own->record, 0, sizeof own->record);
    calmuredda_decode(word.bytes, word.length, view.va, view.big, view.wide, own->record, sizeof own->record);
    if (below(own, 4) == 0) {
        own->record[below(own, CALMUREDDA_RECORD_BYTES)] = (uint8_t)below(own, BYTE_VALUES);
    }
    return sizeof own->record - below(own, 3);
}

/* ── calls ── */

static void ask_decode(struct own *own)
{
    struct view view = any_view(own);
    struct slice word = any_part(own, LONGEST_SLICE);
    size_t room = sizeof own->record - below(own, 3);
    add(own, calmuredda_decode(word.bytes, word.length, view.va, view.big, view.wide, any_out(own), room));
    add_out(own);
}

static void ask_encode(struct own *own)
{
    struct view view = any_view(own);
    size_t length = any_record(own, view);
    add(own, calmuredda_encode(own->record, length, view.va, view.wide));
}

static void ask_line(struct own *own)
{
    size_t length = any_record(own, any_view(own));
    size_t room = below(own, LONGEST_LINE_ROOM + 1);
    size_t written;
    add(own, calmuredda_line(own->record, length, any_out(own), room, &written));
    add(own, written);
    add_out(own);
}

static void ask_check(struct own *own)
{
    struct slice file = any_file(own);
    add(own, calmuredda_section_check(file.bytes, file.length));
}

static void ask_count(struct own *own)
{
    struct slice file = any_file(own);
    add(own, calmuredda_section_count(file.bytes, file.length));
}

static void ask_flags(struct own *own)
{
    struct slice file = any_file(own);
    add(own, calmuredda_section_flags(file.bytes, file.length));
}

static void ask_address(struct own *own)
{
    struct slice file = any_file(own);
    add(own, calmuredda_section_address(file.bytes, file.length, below(own, MOST_SECTIONS)));
}

static void ask_body(struct own *own)
{
    struct slice file = any_file(own);
    size_t offset, size;
    add(own, calmuredda_section_body(file.bytes, file.length, below(own, MOST_SECTIONS), &offset, &size));
    add(own, offset);
    add(own, size);
}

/* An index of the part, or one past its end. */
static size_t any_index(struct own *own, struct slice part)
{
    return below(own, part.length / WORD_BYTES + 2);
}

/* A section file's flags. */
static uint8_t flags_of(struct view view)
{
    return (uint8_t)((view.big ? CALMUREDDA_BIG_ENDIAN : 0) | (view.wide ? CALMUREDDA_WIDE : 0));
}

static void ask_block(struct own *own)
{
    struct view view = any_view(own);
    struct slice part = any_part(own, LONGEST_PART);
    uint8_t kind;
    size_t words;
    add(own, calmuredda_block(part.bytes, part.length, view.va, flags_of(view), any_index(own, part), &kind, &words));
    add(own, kind);
    add(own, words);
}

static void ask_page(struct own *own)
{
    struct view view = any_view(own);
    struct slice part = any_part(own, LONGEST_PART);
    size_t index = any_index(own, part);
    size_t room = below(own, LONGEST_ROOM + 1);
    size_t place = below(own, room / 8 + 2);
    size_t words, bytes;
    add(own, calmuredda_page(part.bytes, part.length, view.va, flags_of(view), index, any_out(own), room, place, &words,
                             &bytes));
    add(own, words);
    add(own, bytes);
    add_out(own);
}

/* Any line, or the first of a section, which may be the last line of all. */
static void ask_listing(struct own *own)
{
    struct slice file = any_file(own);
    size_t section = below(own, MOST_SECTIONS + 1);
    size_t line = below(own, 2) ? below(own, MOST_LINES) : 0;
    size_t room = below(own, LONGEST_ROOM + 1);
    size_t bytes;
    add(own, calmuredda_listing(file.bytes, file.length, section, line, any_out(own), room, &section, &line, &bytes));
    add(own, section);
    add(own, line);
    add(own, bytes);
    add_out(own);
}

static const struct function {
    const char *name;
    void (*ask)(struct own *);
} functions[] = {
    {"decode", ask_decode},
    {"encode", ask_encode},
    {"line", ask_line},
    {"section_check", ask_check},
    {"section_count", ask_count},
    {"section_flags", ask_flags},
    {"section_address", ask_address},
    {"section_body", ask_body},
    {"block", ask_block},
    {"page", ask_page},
    {"listing", ask_listing},
};
enum { FUNCTIONS = sizeof functions / sizeof functions[0], CASES = FUNCTIONS * CASES_EACH };

/* ── rounds ── */

/* What one thread alone gets in this round, which is number `asked_so_far`. */
static uint64_t alone[CASES];
static pthread_barrier_t start;
static pthread_mutex_t complaining = PTHREAD_MUTEX_INITIALIZER;

static struct thread {
    pthread_t id;
    int number;
    size_t order[CASES];
    struct own own;
} threads[THREADS];

static uint64_t digest_of(struct own *own, size_t number)
{
    own->random = asked_so_far * CASES + number;
    own->digest = 0;
    for (int i = 0; i < CALLS_EACH; i++) {
        functions[number % FUNCTIONS].ask(own);
    }
    return own->digest;
}

/* The first complaint is the last: the thread that makes it keeps the lock, so that no other can complain. */
static void complain(const struct thread *thread, size_t number)
{
    pthread_mutex_lock(&complaining);
    printf("thread %d: round %" PRIu64 ", case %zu: %s does not answer as it answers to one thread alone\n",
           thread->number, asked_so_far, number, functions[number % FUNCTIONS].name);
    exit(EXIT_FAILURE);
}

/* Every case once, in an order that is the thread's own. */
static void shuffle(struct thread *thread)
{
    thread->own.random = ~(asked_so_far * THREADS + (uint64_t)thread->number);
    for (size_t i = 0; i < CASES; i++) {
        size_t j = below(&thread->own, i + 1);
        thread->order[i] = thread->order[j];
        thread->order[j] = i;
    }
}

/* In every second round the threads wait for each other before each function, so that they are often inside the same
   one. */
static int is_due(size_t number, size_t pass)
{
    return asked_so_far % 2 == 0 ? pass == 0 : pass == number % FUNCTIONS;
}

static void *run_thread(void *argument)
{
    struct thread *thread = argument;
    shuffle(thread);
    for (size_t pass = 0; pass < FUNCTIONS; pass++) {
        pthread_barrier_wait(&start);
        for (size_t i = 0; i < CASES; i++) {
            size_t number = thread->order[i];
            if (is_due(number, pass) && digest_of(&thread->own, number) != alone[number]) {
                complain(thread, number);
            }
        }
    }
    return NULL;
}

static void run_round(void)
{
    static struct own own;
    for (size_t number = 0; number < CASES; number++) {
        alone[number] = digest_of(&own, number);
    }
    for (int i = 0; i < THREADS; i++) {
        threads[i].number = i;
        need(pthread_create(&threads[i].id, NULL, run_thread, &threads[i]) == 0, "pthread_create");
    }
    for (int i = 0; i < THREADS; i++) {
        pthread_join(threads[i].id, NULL);
    }
}

/* ── what all threads read ── */

static void make_body(void)
{
    uint64_t random = 20261115;
    body = (struct slice){lent, BODY_WORDS * WORD_BYTES};
    for (size_t i = 0; i < body.length; i++) {
        lent_writable[i] = (uint8_t)splitmix(&random);
    }
}

/* The file comes after all that is there already. */
static void read_file(const char *name)
{
    size_t at = body.length + file_count * LONGEST_FILE;
    FILE *file = fopen(name, "rb");
    need(file != NULL && file_count < MOST_FILES, name);
    size_t length = fread(lent_writable + at, 1, LONGEST_FILE, file);
    need(length > 0 && length < LONGEST_FILE, name);
    fclose(file);
    files[file_count++] = (struct slice){lent + at, length};
}

static void read_files(void)
{
    char name[LONGEST_NAME];
    while (fgets(name, sizeof name, stdin) != NULL) {
        name[strcspn(name, "\n")] = '\0';
        read_file(name);
    }
    need(file_count > 0, "no files");
}

int main(void)
{
    begin_lending("round");
    make_body();
    read_files();
    need(pthread_barrier_init(&start, NULL, THREADS) == 0, "pthread_barrier_init");
    for (; asked_so_far < ROUNDS; asked_so_far++) {
        run_round();
    }
    printf("%d calls of each of %d functions by each of %d threads at once\n", ROUNDS * CASES_EACH * CALLS_EACH,
           FUNCTIONS, THREADS);
    return EXIT_SUCCESS;
}
