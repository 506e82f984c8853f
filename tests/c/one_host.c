/* Checks lesson_one from C, through the header: B's states, that of a book with a constraint, the
 * first of several as lesson_list has them, what a refusal leaves, and NULL. */
#include "host.h"

/* A constraint with an empty body: no stable state either. */
static const uint8_t never[24] = {
    0x01, 0x00, 0x00, 0x00, 0x18, 0x00, 0x01, 0x01, /* head: 1 fact, 1 layer */
    0x00, 0x00, 0x00, 0x00, 0x00, 0x00,             /* no arrows */
    0x00, 0x00, 0x00, 0x04, 0x00, 0x01,             /* at 14: rule section */
    0x03, 0x00, 0x7F, 0xFF                          /* at 20 */
};

static uint8_t buffer[8];

/* Asks for a state in the first bytes of the buffer, all of it noise before. */
static void expect(const char *what, const uint8_t *book, size_t length, uint32_t layer,
                   uint32_t off, size_t buffer_length, uint64_t expected, uint8_t first_byte)
{
    memset(buffer, NOISE, sizeof buffer);
    expect_answer(what, lesson_one(book, length, layer, off, buffer, buffer_length), expected);
    expect_true("  and the buffer",
                buffer[0] == first_byte && is_noise(buffer + 1, sizeof buffer - 1));
}

/* The first state of the widest book, which needs every byte of its record. */
static void expect_widest(void)
{
    uint8_t record[LESSON_LONGEST_RECORD + 1];

    memset(record, NOISE, sizeof record);
    expect_answer("the widest book in a byte too few",
                  lesson_one(widest, sizeof widest, 0, 0, record, LESSON_LONGEST_RECORD - 1),
                  LESSON_BUFFER_TOO_SHORT);
    expect_true("  and the buffer is as it was", record[0] == NOISE);
    expect_answer("the widest book", lesson_one(widest, sizeof widest, 0, 0, record, sizeof record),
                  2 << 8);
    expect_true("  and its first state", is_state_of(record, LAST_FACT));
    expect_true("  and the byte past it", record[LESSON_LONGEST_RECORD] == NOISE);
}

/* The state handed out is the first of the listing. All records have one byte. */
static void expect_first(const char *what, const uint8_t *book, size_t length, uint32_t layer,
                         uint32_t off)
{
    uint8_t listing[11 + 8], record = NOISE;
    uint64_t answer = lesson_list(book, length, layer, off, listing, sizeof listing);
    bool listed = lesson_granted(answer) && lesson_state_count(answer) > 0;

    answer = lesson_one(book, length, layer, off, &record, 1);
    expect_true(what, listed && lesson_granted(answer) && record == listing[11]);
}

int main(void)
{
    expect("B at 1", B, sizeof B, 1, 0, 1, 1 << 8, 0xA0);
    expect("B at 2", B, sizeof B, 2, 0, 8, 2 << 8, 0x80);
    expect("B at 3", B, sizeof B, 3, 0, 8, 2 << 8, 0x20);
    expect("the smallest book", smallest, sizeof smallest, 0, 0, 1, 0, 0x00);
    expect("B at 3, layer 1 off", B, sizeof B, 3, 2, 8, 2 << 8, 0x80);
    expect("B at 2, which is off", B, sizeof B, 2, 4, 8, 1 << 8, 0x80);
    expect("B at 3, all off", B, sizeof B, 3, 15, 1, 0, 0x00);
    expect("no state but for a set", without, sizeof without, 0, 1, 8, 0, 0x00);
    expect("p or q, but never p", never_p, sizeof never_p, 0, 0, 8, 2 << 8, 0x40);
    expect("the same, its layer being off", never_p, sizeof never_p, 0, 1, 8, 0, 0x00);
    expect("p or q, and a fact in front that follows q", follower, sizeof follower, 0, 0, 8, 2 << 8,
           0x40);
    expect("the same in one byte", follower, sizeof follower, 0, 0, 1, 2 << 8, 0x40);
    expect("the same in no bytes", follower, sizeof follower, 0, 0, 0, LESSON_BUFFER_TOO_SHORT,
           NOISE);
    expect("the same, its layer being off", follower, sizeof follower, 0, 1, 8, 0, 0x00);
    expect_first("the first of two listed", follower, sizeof follower, 0, 0);
    expect_first("the only one listed", B, sizeof B, 3, 0);
    expect_first("the only one listed, a layer being off", B, sizeof B, 3, 2);
    expect_first("the only one that no constraint rules out", never_p, sizeof never_p, 0, 0);
    expect("never anything", never, sizeof never, 0, 0, 8, LESSON_NO_STABLE_STATE, NOISE);
    expect("the same, its layer being off", never, sizeof never, 0, 1, 8, 0, 0x00);
    expect_widest();
    expect("B in no bytes", B, sizeof B, 3, 0, 0, LESSON_BUFFER_TOO_SHORT, NOISE);
    expect("no state", without, sizeof without, 0, 0, 8, LESSON_NO_STABLE_STATE, NOISE);
    expect("no state in no bytes", without, sizeof without, 0, 0, 0, LESSON_BUFFER_TOO_SHORT,
           NOISE);
    expect("B at 4", B, sizeof B, 4, 0, 8, LESSON_NO_SUCH_LAYER, NOISE);
    expect("layer before buffer", B, sizeof B, UINT32_MAX, 0, 0, LESSON_NO_SUCH_LAYER, NOISE);
    expect("layer 4 of 4 off", B, sizeof B, 3, 16, 8, LESSON_NO_SUCH_LAYER_OFF, NOISE);
    expect("layer before set", B, sizeof B, 4, 16, 8, LESSON_NO_SUCH_LAYER, NOISE);
    expect("set before buffer", B, sizeof B, 3, 1u << 31, 0, LESSON_NO_SUCH_LAYER_OFF, NOISE);
    expect("set before state", without, sizeof without, 0, 2, 8, LESSON_NO_SUCH_LAYER_OFF,
           NOISE);
    expect("B without its last byte", B, sizeof B - 1, 3, 0, 8, LESSON_WRONG_LENGTH, NOISE);
    expect("no book", NULL, 0, 0, 0, 8, LESSON_TOO_SHORT, NOISE);
    expect_answer("no buffer", lesson_one(B, sizeof B, 3, 0, NULL, 0), LESSON_BUFFER_TOO_SHORT);
    expect_true("lesson_branching_count",
                lesson_branching_count(lesson_one(B, sizeof B, 3, 0, buffer, sizeof buffer)) == 2);
    return report();
}
