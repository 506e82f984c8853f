/* Checks lesson_test from C, through the header: B's states, those of a book with a constraint, each kind
 * of refusal and NULL. */
#include "host.h"

#define YES ((uint64_t)1 << 16)
#define NO ((uint64_t)0)

static bool helper_agrees = true;

static void expect(const char *what, const uint8_t *book, size_t length, uint32_t layer,
                   uint32_t off, const char *candidate, size_t candidate_length, uint64_t expected)
{
    uint64_t answer =
        lesson_test(book, length, layer, off, (const uint8_t *)candidate, candidate_length);

    expect_answer(what, answer, expected);
    helper_agrees = helper_agrees && lesson_is_stable(answer) == (expected == YES);
}

/* Exactly one of B's eight states is stable at each of layers 1 to 3, whatever is switched off. */
static void expect_only(const char *what, uint32_t layer, uint32_t off, uint8_t stable)
{
    unsigned state;

    for (state = 0; state < 8; state++) {
        char candidate = (char)(state << 5);

        expect(what, B, sizeof B, layer, off, &candidate, 1, (state << 5) == stable ? YES : NO);
    }
}

/* The widest book has two states, and no fact in one of them is mistaken for another. */
static void expect_widest(void)
{
    static const unsigned facts[4] = {LAST_FACT, FACT_LIKE_IT, FACT_LIKE_IT - 256, LAST_FACT - 1};
    char candidate[LESSON_LONGEST_RECORD + 1] = {0};
    size_t at;

    for (at = 0; at < 4; at++) {
        candidate[facts[at] / 8] = (char)(0x80 >> facts[at] % 8);
        expect("one fact of the widest book", widest, sizeof widest, 0, 0, candidate,
               LESSON_LONGEST_RECORD, at < 2 ? YES : NO);
        candidate[facts[at] / 8] = 0;
    }
    expect("none of its facts", widest, sizeof widest, 0, 0, candidate, LESSON_LONGEST_RECORD, NO);
    expect("a byte too many", widest, sizeof widest, 0, 0, candidate, LESSON_LONGEST_RECORD + 1,
           LESSON_BAD_CANDIDATE);
    expect("a byte too few", widest, sizeof widest, 0, 0, candidate, LESSON_LONGEST_RECORD - 1,
           LESSON_BAD_CANDIDATE);
}

int main(void)
{
    expect_only("B at 1", 1, 0, 0xA0);
    expect_only("B at 2", 2, 0, 0x80);
    expect_only("B at 3", 3, 0, 0x20);
    expect_only("B at 3, layer 0 off", 3, 1, 0x20);
    expect_only("B at 3, layer 1 off", 3, 2, 0x80);
    expect_only("B at 3, layer 2 off", 3, 4, 0xA0);
    expect_only("B at 3, which is off", 3, 8, 0x20);
    expect_only("B at 1, which is off", 1, 2, 0x80);
    expect_only("B at 2, which is off", 2, 4, 0x80);
    expect_only("B at 3, all off", 3, 15, 0x00);
    expect("the smallest book", smallest, sizeof smallest, 0, 0, "\x00", 1, YES);
    expect("the smallest book, its fact standing", smallest, sizeof smallest, 0, 0, "\x80", 1, NO);
    expect("p, which must never be", never_p, sizeof never_p, 0, 0, "\x80", 1, NO);
    expect("q, beside a constraint", never_p, sizeof never_p, 0, 0, "\x40", 1, YES);
    expect("neither", never_p, sizeof never_p, 0, 0, "\x00", 1, NO);
    expect("neither, its layer being off", never_p, sizeof never_p, 0, 1, "\x00", 1, YES);
    expect_widest();
    expect("no book", NULL, 0, 0, 0, "\x00", 1, LESSON_TOO_SHORT);
    expect("nothing at all", NULL, 0, UINT32_MAX, 0, NULL, 0, LESSON_TOO_SHORT);
    expect("B without its last byte", B, sizeof B - 1, 3, 0, "\x20", 1, LESSON_WRONG_LENGTH);
    expect("layer 4 of 4", B, sizeof B, 4, 0, "\x20", 1, LESSON_NO_SUCH_LAYER);
    expect("layer 2^32 - 1", B, sizeof B, UINT32_MAX, 0, "\x20", 1, LESSON_NO_SUCH_LAYER);
    expect("layer before candidate", B, sizeof B, 4, 0, NULL, 0, LESSON_NO_SUCH_LAYER);
    expect("layer 4 of 4 off", B, sizeof B, 3, 16, "\x20", 1, LESSON_NO_SUCH_LAYER_OFF);
    expect("layer 31 of 4 off", B, sizeof B, 3, 1u << 31, "\x20", 1, LESSON_NO_SUCH_LAYER_OFF);
    expect("layer before set", B, sizeof B, 4, 16, "\x20", 1, LESSON_NO_SUCH_LAYER);
    expect("set before candidate", B, sizeof B, 3, UINT32_MAX, NULL, 0, LESSON_NO_SUCH_LAYER_OFF);
    expect("no candidate", B, sizeof B, 3, 0, NULL, 0, LESSON_BAD_CANDIDATE);
    expect("two bytes of candidate", B, sizeof B, 3, 0, "\x20\x00", 2, LESSON_BAD_CANDIDATE);
    expect("a spare bit", B, sizeof B, 3, 0, "\x21", 1, LESSON_BAD_CANDIDATE);
    expect_true("lesson_is_stable agrees with each of these", helper_agrees);
    return report();
}
