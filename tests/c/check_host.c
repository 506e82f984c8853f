/* Checks lesson_check from C, through the header: accepted books, each refusal, the heads around that of
 * a constraint, and NULL. */
#include "host.h"

static void expect(const char *what, const uint8_t *book, size_t length, uint64_t expected)
{
    expect_answer(what, lesson_check(book, length), expected);
}

/* B with other bytes from `at` on. */
static void expect_edited(const char *what, size_t at, const char *bytes, size_t count,
                          uint64_t expected)
{
    uint8_t book[sizeof B];

    memcpy(book, B, sizeof B);
    memcpy(book + at, bytes, count);
    expect(what, book, sizeof book, expected);
}

/* B with so many facts. */
static void expect_facts(const char *what, unsigned facts, uint64_t expected)
{
    char bytes[2] = {(char)HIGH(facts), (char)LOW(facts)};

    expect_edited(what, 5, bytes, 2, expected);
}

int main(void)
{
    expect("B is accepted", B, sizeof B, LESSON_GRANTED);
    expect("the smallest book is accepted", smallest, sizeof smallest, LESSON_GRANTED);
    expect("NULL with length 0 is too short", NULL, 0, LESSON_TOO_SHORT);
    expect("19 bytes are too short", smallest, 19, LESSON_TOO_SHORT);
    expect_edited("version 2", 0, "\x02", 1, LESSON_WRONG_VERSION);
    expect_edited("length field 49", 4, "\x31", 1, LESSON_WRONG_LENGTH);
    expect("B without its last byte", B, sizeof B - 1, LESSON_WRONG_LENGTH);
    expect_edited("arrow count 5", 13, "\x05", 1, LESSON_BROKEN_SECTION);
    expect_edited("arrow section of 2^32 - 1 bytes", 8, "\xFF\xFF\xFF\xFF", 4,
                  LESSON_BROKEN_SECTION);
    expect_edited("no facts", 5, "\x00\x00", 2, LESSON_OUT_OF_RANGE);
    expect_facts("a fact too many", LESSON_MOST_FACTS + 1, LESSON_OUT_OF_RANGE);
    expect_facts("the most facts are accepted", LESSON_MOST_FACTS, LESSON_GRANTED);
    expect("the widest book is accepted", widest, sizeof widest, LESSON_GRANTED);
    expect_edited("33 layers", 7, "\x21", 1, LESSON_OUT_OF_RANGE);
    expect_edited("a rule of layer 4 of 4", 33, "\x04", 1, LESSON_BAD_RECORD);
    expect_edited("fact 3 of 3", 41, "\x03", 1, LESSON_BAD_RECORD);
    expect("a constraint is accepted", never_p, sizeof never_p, LESSON_GRANTED);
    expect_edited("head 32,767 is accepted", 44, "\x7F\xFF", 2, LESSON_GRANTED);
    expect_edited("head 32,766", 44, "\x7F\xFE", 2, LESSON_BAD_RECORD);
    expect_edited("head 65,535", 44, "\xFF\xFF", 2, LESSON_BAD_RECORD);
    expect_edited("head 65,534", 44, "\xFF\xFE", 2, LESSON_BAD_RECORD);
    expect_edited("32,767 in a body", 46, "\x7F\xFF", 2, LESSON_BAD_RECORD);
    expect_edited("65,535 in a body", 46, "\xFF\xFF", 2, LESSON_BAD_RECORD);
    expect_edited("32,767 in a constraint's body", 44, "\x7F\xFF\x7F\xFF", 4, LESSON_BAD_RECORD);
    expect_edited("two equal arrows", 18, "\x00\x01", 2, LESSON_REPEATED_ARROW);
    expect_edited("an arrow from a layer to itself", 24, "\x02\x02", 2, LESSON_CYCLE);
    expect_edited("arrows in a circle", 24, "\x03\x00", 2, LESSON_CYCLE);
    return report();
}
