/* Checks lesson_nearest from C, through the header: every candidate of B, states that are equally
 * close, stable candidates, a book with a constraint, the widest book, what a refusal leaves, and
 * NULL. */
#include "host.h"

static uint8_t buffer[8];
static bool helper_agrees = true;

/* Asks for the state closest to a candidate in the buffer's first bytes, all of it noise before. */
static void ask(const char *what, const uint8_t *book, size_t length, uint32_t layer, uint32_t off,
                const char *candidate, size_t candidate_length, size_t buffer_length,
                uint64_t expected)
{
    uint64_t answer;

    memset(buffer, NOISE, sizeof buffer);
    answer = lesson_nearest(book, length, layer, off, (const uint8_t *)candidate, candidate_length,
                            buffer, buffer_length);
    expect_answer(what, answer, expected);
    helper_agrees = helper_agrees && lesson_distance(answer) == expected >> 16 &&
                    lesson_branching_count(answer) == (expected >> 8 & 0xFF);
}

/* A state of one byte is written, and so many facts differ. */
static void expect(const char *what, const uint8_t *book, size_t length, uint32_t layer,
                   uint32_t off, char candidate, uint8_t state, uint64_t branching, uint64_t differ)
{
    ask(what, book, length, layer, off, &candidate, 1, sizeof buffer, counts(branching, differ));
    expect_true("  and the buffer", buffer[0] == state && is_noise(buffer + 1, sizeof buffer - 1));
}

static void expect_refused(const char *what, const uint8_t *book, size_t length, uint32_t layer,
                           uint32_t off, const char *candidate, size_t candidate_length,
                           size_t buffer_length, enum lesson_cause_number cause)
{
    ask(what, book, length, layer, off, candidate, candidate_length, buffer_length, cause);
    expect_true("  and the buffer is as it was", is_noise(buffer, sizeof buffer));
}

/* How many of the three facts of B differ in two records. */
static uint64_t differing(unsigned record, unsigned other)
{
    unsigned bits = (record ^ other) >> 5;

    return (bits & 1) + (bits >> 1 & 1) + (bits >> 2);
}

/* One state of B is stable at each of layers 1 to 3, and is the closest to each of the eight. */
static void expect_only(const char *what, uint32_t layer, uint32_t off, uint8_t stable,
                        uint64_t branching)
{
    unsigned state;

    for (state = 0; state < 0x100; state += 0x20)
        expect(what, B, sizeof B, layer, off, (char)state, stable, branching,
               differing(state, stable));
}

/* The state with the last fact of the widest book, or with the one like it. In the candidate so many
 * others stand, and of these two the one like it or none. */
static void expect_widest(size_t others, size_t closest)
{
    static uint8_t candidate[LESSON_LONGEST_RECORD], record[LESSON_LONGEST_RECORD + 1];
    uint64_t answer, differ = others;
    size_t fact;

    memset(candidate, 0, sizeof candidate);
    for (fact = 0; fact < others; fact++)
        candidate[fact / 8] |= (uint8_t)(0x80 >> fact % 8);
    if (closest == FACT_LIKE_IT)
        candidate[FACT_LIKE_IT / 8] |= (uint8_t)(0x80 >> FACT_LIKE_IT % 8);
    else
        differ++;
    memset(record, NOISE, sizeof record);
    answer = lesson_nearest(widest, sizeof widest, 0, 0, candidate, sizeof candidate, record,
                            LESSON_LONGEST_RECORD - 1);
    expect_answer("the widest book in a byte too few", answer, LESSON_BUFFER_TOO_SHORT);
    expect_true("  and the buffer is as it was", is_noise(record, sizeof record));
    answer = lesson_nearest(widest, sizeof widest, 0, 0, candidate, sizeof candidate, record,
                            sizeof record);
    expect_answer("the widest book", answer, counts(2, differ));
    expect_true("  and lesson_distance", lesson_distance(answer) == differ);
    expect_true("  and its closest state", is_state_of(record, closest));
    expect_true("  and the byte past it", record[LESSON_LONGEST_RECORD] == NOISE);
}

/* Nothing is lent for one argument. */
static void expect_null(void)
{
    static const uint8_t candidate = 0x20;

    expect_refused("no book", NULL, 0, 0, 0, "\x00", 1, 8, LESSON_TOO_SHORT);
    expect_refused("no candidate", B, sizeof B, 3, 0, NULL, 0, 8, LESSON_BAD_CANDIDATE);
    expect_answer("no buffer", lesson_nearest(B, sizeof B, 3, 0, &candidate, 1, NULL, 0),
                  LESSON_BUFFER_TOO_SHORT);
    expect_answer("nothing at all",
                  lesson_nearest(NULL, 0, UINT32_MAX, UINT32_MAX, NULL, 0, NULL, 0),
                  LESSON_TOO_SHORT);
}

/* Each cause before those behind it. */
static void expect_refusals(void)
{
    expect_refused("B without its last byte", B, sizeof B - 1, 3, 0, "\x20", 1, 8,
                   LESSON_WRONG_LENGTH);
    expect_refused("layer 4 of 4", B, sizeof B, 4, 0, "\x20", 1, 8, LESSON_NO_SUCH_LAYER);
    expect_refused("layer before set", B, sizeof B, UINT32_MAX, 16, NULL, 0, 0,
                   LESSON_NO_SUCH_LAYER);
    expect_refused("layer 4 of 4 off", B, sizeof B, 3, 16, "\x20", 1, 8, LESSON_NO_SUCH_LAYER_OFF);
    expect_refused("set before candidate", B, sizeof B, 3, 1u << 31, NULL, 0, 0,
                   LESSON_NO_SUCH_LAYER_OFF);
    expect_refused("two bytes of candidate", B, sizeof B, 3, 0, "\x20\x00", 2, 8,
                   LESSON_BAD_CANDIDATE);
    expect_refused("a spare bit", B, sizeof B, 3, 0, "\x21", 1, 8, LESSON_BAD_CANDIDATE);
    expect_refused("candidate before buffer", B, sizeof B, 3, 0, "\x21", 1, 0,
                   LESSON_BAD_CANDIDATE);
    expect_refused("candidate before state", without, sizeof without, 0, 0, "\x40", 1, 8,
                   LESSON_BAD_CANDIDATE);
    expect_refused("no bytes of buffer", B, sizeof B, 3, 0, "\x20", 1, 0, LESSON_BUFFER_TOO_SHORT);
    expect_refused("buffer before state", without, sizeof without, 0, 0, "\x80", 1, 0,
                   LESSON_BUFFER_TOO_SHORT);
    expect_refused("no state", without, sizeof without, 0, 0, "\x80", 1, 8, LESSON_NO_STABLE_STATE);
}

int main(void)
{
    expect_only("B at 1", 1, 0, 0xA0, 1);
    expect_only("B at 2", 2, 0, 0x80, 2);
    expect_only("B at 3", 3, 0, 0x20, 2);
    expect_only("B at 3, layer 1 off", 3, 2, 0x80, 2);
    expect_only("B at 3, all off", 3, 15, 0x00, 0);
    expect("the smallest book", smallest, sizeof smallest, 0, 0, '\x80', 0x00, 0, 1);
    /* q and the fact in front, or p. */
    expect("p", follower, sizeof follower, 0, 0, '\x40', 0x40, 2, 0);
    expect("q and the fact in front", follower, sizeof follower, 0, 0, '\xA0', 0xA0, 2, 0);
    expect("q alone", follower, sizeof follower, 0, 0, '\x20', 0xA0, 2, 1);
    expect("the fact in front alone", follower, sizeof follower, 0, 0, '\x80', 0xA0, 2, 1);
    expect("nothing", follower, sizeof follower, 0, 0, '\x00', 0x40, 2, 1);
    expect("its layer being off", follower, sizeof follower, 0, 1, '\xE0', 0x00, 0, 3);
    /* p or q, and never p. */
    expect("p, which must never be", never_p, sizeof never_p, 0, 0, '\x80', 0x40, 2, 2);
    expect("q, beside a constraint", never_p, sizeof never_p, 0, 0, '\x40', 0x40, 2, 0);
    /* Both are as close to none of the facts: the last fact's state is listed first. */
    expect_widest(0, LAST_FACT);
    expect_widest(0, FACT_LIKE_IT);
    expect_widest(600, LAST_FACT);
    expect_widest(600, FACT_LIKE_IT);
    expect_null();
    expect_refusals();
    expect_true("lesson_distance and lesson_branching_count agree with each of these",
                helper_agrees);
    return report();
}
