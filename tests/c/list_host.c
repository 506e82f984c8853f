/* Checks lesson_list from C, through the header: listings of B, of two books with a rule that leans on
 * itself, of one with a constraint and of one with as many facts as there can be, what a refusal
 * leaves, and NULL. */
#include "host.h"

static uint8_t buffer[64];

/* p and not p in layer 0, and above it, in layer 1, "p if p": it displaces neither. */
static const uint8_t quarrel[37] = {
    1, 0, 0, 0, 37, 0, 1, 2,                    /* head: 1 fact, 2 layers */
    0, 0, 0, 3, 0, 1, 2, 0, 1,                  /* at 8: arrow section */
    0, 0, 0, 14, 0, 3,                          /* at 17: rule section */
    3, 0, 0, 0, 3, 0, 0x80, 0, 5, 1, 0, 0, 0, 0 /* at 23 */
};

/* p in layer 0, and above it "not p if not p": it does not displace p. */
static const uint8_t denied[33] = {
    1, 0, 0, 0, 33, 0, 1, 2,           /* head */
    0, 0, 0, 3, 0, 1, 2, 0, 1,         /* at 8: arrow section */
    0, 0, 0, 10, 0, 2,                 /* at 17: rule section */
    3, 0, 0, 0, 5, 1, 0x80, 0, 0x80, 0 /* at 23 */
};

/* Lists into the first bytes of the buffer, all of it noise before. */
static void expect(const char *what, const uint8_t *book, size_t length, uint32_t layer,
                   uint32_t off, size_t buffer_length, uint64_t expected)
{
    memset(buffer, NOISE, sizeof buffer);
    expect_answer(what, lesson_list(book, length, layer, off, buffer, buffer_length), expected);
}

/* The buffer is these bytes and then noise to its end. */
static void expect_buffer(const char *what, const char *bytes, size_t count)
{
    expect_true(what, memcmp(buffer, bytes, count) == 0 &&
                          is_noise(buffer + count, sizeof buffer - count));
}

static void expect_refused(const char *what, const uint8_t *book, size_t length, uint32_t layer,
                           uint32_t off, size_t buffer_length, uint64_t cause)
{
    expect(what, book, length, layer, off, buffer_length, cause);
    expect_buffer("  and the buffer is as it was", "", 0);
}

/* The widest book has two states, and the one in which the lower fact stands comes last. */
static void expect_widest(void)
{
    static uint8_t listing[11 + 2 * LESSON_LONGEST_RECORD + 1];
    size_t bytes = sizeof listing - 1;

    memset(listing, NOISE, sizeof listing);
    expect_answer("the widest book in a byte too few",
                  lesson_list(widest, sizeof widest, 0, 0, listing, bytes - 1),
                  LESSON_BUFFER_TOO_SHORT);
    expect_true("  and the buffer is as it was", listing[0] == NOISE);
    expect_answer("the widest book",
                  lesson_list(widest, sizeof widest, 0, 0, listing, sizeof listing), counts(2, 2));
    expect_true("  and its records",
                is_state_of(listing + 11, LAST_FACT) &&
                    is_state_of(listing + 11 + LESSON_LONGEST_RECORD, FACT_LIKE_IT));
    expect_true("  and the byte past them", listing[bytes] == NOISE);
}

int main(void)
{
    uint64_t answer;

    expect("B at 3 in 12 bytes", B, sizeof B, 3, 0, 12, counts(2, 1));
    expect_buffer("  and its listing", "\x01\0\0\0\x0C\0\x03\0\0\0\x01\x20", 12);
    expect("B at 3 in 40 bytes", B, sizeof B, 3, 0, 40, counts(2, 1));
    expect_buffer("  and its listing", "\x01\0\0\0\x0C\0\x03\0\0\0\x01\x20", 12);
    expect("B at 1", B, sizeof B, 1, 0, 40, counts(1, 1));
    expect_buffer("  and its listing", "\x01\0\0\0\x0C\0\x03\0\0\0\x01\xA0", 12);
    expect("the smallest book", smallest, sizeof smallest, 0, 0, 12, counts(0, 1));
    expect_buffer("  and its listing", "\x01\0\0\0\x0C\0\x01\0\0\0\x01\0", 12);
    expect("B at 3, layer 2 off", B, sizeof B, 3, 4, 40, counts(1, 1));
    expect_buffer("  and its listing", "\x01\0\0\0\x0C\0\x03\0\0\0\x01\xA0", 12);
    expect("B at 2, which is off", B, sizeof B, 2, 4, 40, counts(1, 1));
    expect_buffer("  and its listing", "\x01\0\0\0\x0C\0\x03\0\0\0\x01\x80", 12);
    expect("B at 3, all off", B, sizeof B, 3, 15, 12, counts(0, 1));
    expect_buffer("  and its listing", "\x01\0\0\0\x0C\0\x03\0\0\0\x01\0", 12);
    expect("p, not p, above them p if p", quarrel, sizeof quarrel, 1, 0, 40, counts(0, 0));
    expect_buffer("  and its listing", "\x01\0\0\0\x0B\0\x01\0\0\0\0", 11);
    expect("p, above it not p if not p", denied, sizeof denied, 1, 0, 40, counts(1, 1));
    expect_buffer("  and its listing", "\x01\0\0\0\x0C\0\x01\0\0\0\x01\x80", 12);
    expect("p or q, but never p", never_p, sizeof never_p, 0, 0, 40, counts(2, 1));
    expect_buffer("  and its listing", "\x01\0\0\0\x0C\0\x02\0\0\0\x01\x40", 12);
    expect("the same, its layer being off", never_p, sizeof never_p, 0, 1, 40, counts(0, 1));
    expect_buffer("  and its listing", "\x01\0\0\0\x0C\0\x02\0\0\0\x01\0", 12);
    expect_widest();
    expect_refused("B at 3 in 11 bytes", B, sizeof B, 3, 0, 11, LESSON_BUFFER_TOO_SHORT);
    expect_refused("B at 4", B, sizeof B, 4, 0, 40, LESSON_NO_SUCH_LAYER);
    expect_refused("layer before buffer", B, sizeof B, UINT32_MAX, 0, 0, LESSON_NO_SUCH_LAYER);
    expect_refused("layer 4 of 4 off", B, sizeof B, 3, 16, 40, LESSON_NO_SUCH_LAYER_OFF);
    expect_refused("layer 31 of 4 off", B, sizeof B, 3, 1u << 31, 40, LESSON_NO_SUCH_LAYER_OFF);
    expect_refused("layer before set", B, sizeof B, 4, 16, 40, LESSON_NO_SUCH_LAYER);
    expect_refused("set before buffer", B, sizeof B, 3, UINT32_MAX, 0, LESSON_NO_SUCH_LAYER_OFF);
    expect_refused("B without its last byte", B, sizeof B - 1, 3, 0, 40, LESSON_WRONG_LENGTH);
    expect_refused("19 bytes", smallest, 19, 0, 0, 40, LESSON_TOO_SHORT);
    expect_refused("no book", NULL, 0, 0, 0, 40, LESSON_TOO_SHORT);
    expect_answer("no buffer", lesson_list(B, sizeof B, 3, 0, NULL, 0), LESSON_BUFFER_TOO_SHORT);

    answer = lesson_list(B, sizeof B, 2, 0, buffer, sizeof buffer);
    expect_true("lesson_branching_count", lesson_branching_count(answer) == 2);
    expect_true("lesson_state_count", lesson_state_count(answer) == 1);
    answer = counts(20, 1048576);
    expect_true("the largest of both",
                lesson_branching_count(answer) == 20 && lesson_state_count(answer) == 1048576);
    answer = LESSON_BUFFER_TOO_SHORT;
    expect_true("neither after a refusal",
                lesson_branching_count(answer) == 0 && lesson_state_count(answer) == 0);
    return report();
}
