/*
 * The marking desk's question: in how many states of a book does a condition hold?
 *
 *   gcc -std=c11 -Iinclude examples/desk.c target/staticlib/liblesson.a -o target/desk
 *   target/desk BOOK CONDITION...
 *
 * A condition names facts by their numbers, from 0: "3&!14|(2&5)" holds where fact 3 stands and fact
 * 14 does not, and where facts 2 and 5 both stand. The book's last layer is driven. Ends with 0, with
 * 1 if the book or a condition was refused, or with 2 if the book could not be read or the answers not
 * printed.
 */
#include "lesson.h"

#include <stdio.h>
#include <string.h>

static uint8_t book[LESSON_LARGEST_BOOK + 1]; /* and a byte, so that a longer file is no book */
static size_t book_len;

/* Why a condition is refused on an accepted book, by number. */
static const char *const words[] = {
    [LESSON_BAD_CONDITION] = "not a condition",
    [LESSON_TOO_DEEP] = "brackets nested over 16 deep",
    [LESSON_NO_SUCH_FACT] = "names a fact that the book does not have",
    [LESSON_TOO_MANY_BRANCHING] = "more than 20 branching facts",
};

static bool load(const char *name)
{
    FILE *file = fopen(name, "rb");
    bool loaded = file != NULL;

    if (loaded) {
        book_len = fread(book, 1, sizeof book, file);
        loaded = !ferror(file);
        fclose(file);
    }
    return loaded;
}

/* Prints in how many states the condition holds, or why it is refused. */
static bool ask(const char *condition)
{
    uint32_t layer = book[7] - 1u; /* the last of as many as the book has */
    uint64_t answer = lesson_count(book, book_len, layer, 0, (const uint8_t *)condition,
                                   strlen(condition));
    size_t cause = lesson_cause(answer);
    bool known = cause < sizeof words / sizeof *words && words[cause] != NULL;

    if (lesson_granted(answer))
        printf("%u of %u states: %s\n", (unsigned)lesson_fit_count(answer),
               (unsigned)lesson_state_count(answer), condition);
    else
        printf("refused %zu, %s: %s\n", cause, known ? words[cause] : "unknown cause", condition);
    return lesson_granted(answer);
}

int main(int argc, char **argv)
{
    bool answered = true;

    if (argc < 3) {
        fprintf(stderr, "usage: desk BOOK CONDITION...\n");
        return 2;
    }
    if (!load(argv[1])) {
        perror(argv[1]);
        return 2;
    }
    if (!lesson_granted(lesson_check(book, book_len))) {
        printf("book refused %d\n", (int)lesson_cause(lesson_check(book, book_len)));
        return 1;
    }
    for (int at = 2; at < argc; at++)
        answered = ask(argv[at]) && answered;
    if (fflush(stdout) != 0 || ferror(stdout))
        return 2;
    return answered ? 0 : 1;
}
