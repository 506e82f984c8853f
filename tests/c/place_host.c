/* Checks lesson_place from C, through the header: each place, those in a book with a constraint, each kind
 * of refusal and NULL. */
#include "host.h"

/* "p if not q" and "q if not p", and r. */
static const uint8_t choice[36] = {
    0x01, 0x00, 0x00, 0x00, 0x24, 0x00, 0x04, 0x01, /* head: 4 facts, 1 layer */
    0x00, 0x00, 0x00, 0x00, 0x00, 0x00,             /* no arrows */
    0x00, 0x00, 0x00, 0x10, 0x00, 0x03,             /* at 14: rule section */
    0x05, 0x00, 0x00, 0x00, 0x80, 0x01,             /* at 20: p if not q */
    0x05, 0x00, 0x00, 0x01, 0x80, 0x00,             /* at 26: q if not p */
    0x03, 0x00, 0x00, 0x02                          /* at 32: r */
};

static void expect_place(const char *what, const uint8_t *book, size_t length, uint32_t layer,
                         uint32_t off, uint32_t fact, uint32_t branching,
                         enum lesson_place_number place)
{
    uint64_t answer = lesson_place(book, length, layer, off, fact);

    expect_answer(what, answer, counts(branching, place));
    expect_true("  and its helpers", lesson_place_of(answer) == place &&
                                         lesson_branching_count(answer) == branching);
}

static void expect_refused(const char *what, const uint8_t *book, size_t length, uint32_t layer,
                           uint32_t off, uint32_t fact, uint64_t cause)
{
    expect_answer(what, lesson_place(book, length, layer, off, fact), cause);
}

int main(void)
{
    expect_place("one of two", choice, sizeof choice, 0, 0, 0, 2, LESSON_IN_SOME);
    expect_place("the other", choice, sizeof choice, 0, 0, 1, 2, LESSON_IN_SOME);
    expect_place("a fact with a rule", choice, sizeof choice, 0, 0, 2, 2, LESSON_IN_EVERY);
    expect_place("a fact without one", choice, sizeof choice, 0, 0, 3, 2, LESSON_IN_NONE);
    expect_place("a in B at 1", B, sizeof B, 1, 0, 0, 1, LESSON_IN_EVERY);
    expect_place("a in B at 3", B, sizeof B, 3, 0, 0, 2, LESSON_IN_NONE);
    expect_place("c in B at 3", B, sizeof B, 3, 0, 2, 2, LESSON_IN_EVERY);
    expect_place("a in B at 3, layer 1 off", B, sizeof B, 3, 2, 0, 2, LESSON_IN_EVERY);
    expect_place("c in B at 3, layer 1 off", B, sizeof B, 3, 2, 2, 2, LESSON_IN_NONE);
    expect_place("a in B at 0, which is off", B, sizeof B, 0, 1, 0, 0, LESSON_IN_NONE);
    expect_place("p, which must never be", never_p, sizeof never_p, 0, 0, 0, 2, LESSON_IN_NONE);
    expect_place("q instead", never_p, sizeof never_p, 0, 0, 1, 2, LESSON_IN_EVERY);
    expect_place("the last of the most facts", widest, sizeof widest, 0, 0, LAST_FACT, 2,
                 LESSON_IN_SOME);
    expect_place("one with its low byte", widest, sizeof widest, 0, 0, FACT_LIKE_IT, 2,
                 LESSON_IN_SOME);
    expect_place("another with it", widest, sizeof widest, 0, 0, FACT_LIKE_IT - 256, 2,
                 LESSON_IN_NONE);
    expect_refused("a fact too many", widest, sizeof widest, 0, 0, LESSON_MOST_FACTS,
                   LESSON_NO_SUCH_FACT);
    expect_refused("no state", without, sizeof without, 0, 0, 0, LESSON_NO_STABLE_STATE);
    expect_refused("fact 3 of 3", B, sizeof B, 3, 0, 3, LESSON_NO_SUCH_FACT);
    expect_refused("fact 2^32 - 1", B, sizeof B, 3, 0, UINT32_MAX, LESSON_NO_SUCH_FACT);
    expect_refused("fact before state", without, sizeof without, 0, 0, 1, LESSON_NO_SUCH_FACT);
    expect_refused("layer 4 of 4", B, sizeof B, 4, 0, 0, LESSON_NO_SUCH_LAYER);
    expect_refused("layer before fact", B, sizeof B, UINT32_MAX, 0, 3, LESSON_NO_SUCH_LAYER);
    expect_refused("layer 4 of 4 off", B, sizeof B, 3, 16, 0, LESSON_NO_SUCH_LAYER_OFF);
    expect_refused("layer 31 of 4 off", B, sizeof B, 3, 1u << 31, 0, LESSON_NO_SUCH_LAYER_OFF);
    expect_refused("layer before set", B, sizeof B, 4, 16, 0, LESSON_NO_SUCH_LAYER);
    expect_refused("set before fact", B, sizeof B, 3, UINT32_MAX, 3, LESSON_NO_SUCH_LAYER_OFF);
    expect_refused("B without its last byte", B, sizeof B - 1, 3, 0, 0, LESSON_WRONG_LENGTH);
    expect_refused("no book", NULL, 0, 0, 0, 0, LESSON_TOO_SHORT);
    return report();
}
