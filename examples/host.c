/*
 * A host to copy from: loads a book, lists its states, tests two, asks for the stable state closest
 * to one that is not, and asks each fact's place.
 *
 *   gcc -std=c11 -Iinclude examples/host.c target/staticlib/liblesson.a -o target/host
 *   target/host BOOK [LAYER [OFF]...]
 *
 * Layers count from 0. LAYER is driven, or the last one where it is not given; each layer OFF is
 * switched off. Ends with 0, with 1 if a call was refused, or with 2 if the book could not be read
 * or the answers not printed.
 */
#include "lesson.h"

#include <stdio.h>
#include <stdlib.h>

static uint8_t book[LESSON_LARGEST_BOOK + 1]; /* and a byte, so that a longer file is no book */
static size_t book_len;
static uint8_t listing[LESSON_LARGEST_LISTING]; /* only the pages written take memory */
static uint32_t layer;                          /* driven */
static uint32_t off;                            /* bit i: layer i is switched off */

/* The causes of a refusal in words, by number. */
static const char *const words[] = {
    [LESSON_TOO_SHORT] = "fewer than 20 bytes",
    [LESSON_WRONG_VERSION] = "version is not 1",
    [LESSON_WRONG_LENGTH] = "length field differs from the file's length",
    [LESSON_BROKEN_SECTION] = "sections, records and counts disagree",
    [LESSON_OUT_OF_RANGE] = "number of facts, layers, arrows or rules out of range",
    [LESSON_BAD_RECORD] = "a record of the wrong length, or an unknown layer or fact",
    [LESSON_REPEATED_ARROW] = "two equal arrows",
    [LESSON_CYCLE] = "arrows lead in a circle",
    [LESSON_NO_SUCH_LAYER] = "the book does not have this layer",
    [LESSON_NO_SUCH_LAYER_OFF] = "a layer to switch off that the book does not have",
    [LESSON_BAD_CANDIDATE] = "candidate of another length, or a spare bit set",
    [LESSON_NO_SUCH_FACT] = "the book does not have this fact",
    [LESSON_TOO_MANY_BRANCHING] = "more than 20 branching facts",
    [LESSON_BUFFER_TOO_SHORT] = "buffer too short",
    [LESSON_NO_STABLE_STATE] = "no stable state at this layer",
};

/* Whether a call was granted. Says in words why it was not. */
static bool granted(const char *call, uint64_t answer)
{
    size_t cause = lesson_cause(answer);
    bool known = cause < sizeof words / sizeof *words && words[cause] != NULL;

    if (!lesson_granted(answer))
        printf("%s refused %zu: %s\n", call, cause, known ? words[cause] : "unknown cause");
    return lesson_granted(answer);
}

/* Prints a state as 0s and 1s, a digit for each fact. */
static void print_state(const uint8_t *record, unsigned facts)
{
    for (unsigned fact = 0; fact < facts; fact++)
        putchar(record[fact / 8] >> (7 - fact % 8) & 1 ? '1' : '0');
}

/* Prints every state on a line of its own. */
static bool list(unsigned facts)
{
    uint64_t answer = lesson_list(book, book_len, layer, off, listing, sizeof listing);
    const uint8_t *record = listing + 11;

    if (!granted("listing", answer))
        return false;
    printf("states %u, branching facts %u\n", (unsigned)lesson_state_count(answer),
           (unsigned)lesson_branching_count(answer));
    for (uint32_t state = 0; state < lesson_state_count(answer); state++) {
        print_state(record, facts);
        putchar('\n');
        record += (facts + 7) / 8;
    }
    return true;
}

/* Has the engine hand out the first state, and tests it; then again with fact 0 the other way, as a
 * trainee may have left it. Prints the stable state closest to that. */
static bool test(unsigned facts)
{
    uint8_t record[LESSON_LONGEST_RECORD], closest[LESSON_LONGEST_RECORD];
    size_t size = (facts + 7) / 8;
    uint64_t answer;

    if (!granted("one state", lesson_one(book, book_len, layer, off, record, sizeof record)))
        return false;
    for (int flipped = 0; flipped <= 1; flipped++) {
        record[0] ^= flipped ? 0x80 : 0;
        answer = lesson_test(book, book_len, layer, off, record, size);
        if (!granted("test", answer))
            return false;
        printf("%s: %s\n", flipped ? "fact 0 the other way" : "the first state",
               lesson_is_stable(answer) ? "stable" : "not stable");
    }
    answer = lesson_nearest(book, book_len, layer, off, record, size, closest, sizeof closest);
    if (!granted("nearest", answer))
        return false;
    printf("closest to that: ");
    print_state(closest, facts);
    printf(", differs in %u\n", (unsigned)lesson_distance(answer));
    return true;
}

/* Prints whether each fact stands in every state, in some or in none. */
static bool place(unsigned facts)
{
    for (unsigned fact = 0; fact < facts; fact++) {
        uint64_t answer = lesson_place(book, book_len, layer, off, fact);
        enum lesson_place_number in = lesson_place_of(answer);

        if (!granted("place", answer))
            return false;
        printf("fact %u: %s\n", fact,
               in == LESSON_IN_EVERY ? "every" : in == LESSON_IN_SOME ? "some" : "none");
    }
    return true;
}

static bool load(const char *name)
{
    FILE *file = fopen(name, "rb");
    bool loaded = file != NULL;

    if (loaded) {
        book_len = fread(book, 1, sizeof book, file);
        loaded = !ferror(file);
        fclose(file);
    }
    return loaded;
}

/* Reads a number up to `most`. */
static bool number(const char *text, uint32_t most, uint32_t *value)
{
    char *end;
    unsigned long read = strtoul(text, &end, 10);

    *value = (uint32_t)read;
    return end != text && *end == '\0' && read <= most;
}

/* Reads which layer is driven, if one is given, and which are switched off. */
static bool drive(int argc, char **argv)
{
    bool right = argc == 2 || (argc > 2 && number(argv[2], UINT32_MAX, &layer));

    for (int at = 3; right && at < argc; at++) {
        uint32_t other;

        right = number(argv[at], 31, &other);
        off |= right ? (uint32_t)1 << other : 0;
    }
    return right;
}

int main(int argc, char **argv)
{
    if (!drive(argc, argv)) {
        fprintf(stderr, "usage: host BOOK [LAYER [OFF]...]\n");
        return 2;
    }
    if (!load(argv[1])) {
        perror(argv[1]);
        return 2;
    }
    if (!granted("book", lesson_check(book, book_len)))
        return 1;
    puts("accepted");

    /* An accepted book's fields can be relied on. */
    unsigned facts = (unsigned)book[5] << 8 | book[6];

    if (argc == 2)
        layer = book[7] - 1u;
    if (!list(facts) || !test(facts) || !place(facts))
        return 1;
    return fflush(stdout) != 0 || ferror(stdout) ? 2 : 0;
}
