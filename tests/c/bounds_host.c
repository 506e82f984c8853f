/* Checks the header's bounds against what the engine says: the most facts, the longest record, and
 * the largest listing, which is written in full. */
#include "host.h"

#define LAYERS 2
#define BRANCHING 20 /* choices, and so LESSON_MOST_STATES states */
/* Rules of each choice, and the bytes of their records. */
#define RULES 5
#define RULE_BYTES (2 * 4 + 3 * 6)
#define NOT 0x8000u

static uint8_t book[23 + (BRANCHING + 1) * RULE_BYTES];
static size_t end;

static uint8_t listing[LESSON_LARGEST_LISTING + 1];

static void put(size_t value, unsigned bytes)
{
    while (bytes-- > 0)
        book[end++] = (uint8_t)(value >> 8 * bytes);
}

/* A rule without a body. */
static void put_plain(size_t layer, size_t head)
{
    put(3, 1);
    put(layer, 1);
    put(head, 2);
}

/* A rule with one literal in its body. */
static void put_rule(size_t layer, size_t head, size_t body)
{
    put(5, 1);
    put(layer, 1);
    put(head, 2);
    put(body, 2);
}

/* A book of so many facts. Of its last ones so many may stand or not, with a helper each: a quarrel
 * about the helper in layer 0, where the fact follows it, and above that the helper as it follows
 * the fact. */
static void put_book(size_t facts, size_t choices)
{
    size_t choice;

    end = 0;
    put(1, 1);
    put(23 + choices * RULE_BYTES, 4);
    put(facts, 2);
    put(LAYERS, 1);
    put(3, 4);
    put(1, 2);
    put(0x020001, 3);
    put(choices * RULE_BYTES, 4);
    put(choices * RULES, 2);
    for (choice = facts - choices; choice < facts; choice++) {
        size_t helper = choice - choices;

        put_plain(0, helper);
        put_plain(0, NOT | helper);
        put_rule(0, choice, helper);
        put_rule(1, helper, choice);
        put_rule(1, NOT | helper, NOT | choice);
    }
}

static uint64_t list(size_t length)
{
    return lesson_list(book, end, 1, 0, listing, length);
}

static size_t number(size_t at, unsigned bytes)
{
    size_t value = 0;

    while (bytes-- > 0)
        value = value << 8 | listing[at++];
    return value;
}

/* The book's listing has so many bytes, and says so itself; in one byte less there is no room. */
static void expect_listing(const char *what, size_t choices, size_t bytes)
{
    size_t states = (size_t)1 << choices;

    memset(listing, NOISE, 11);
    listing[bytes] = NOISE;
    expect_answer(what, list(bytes - 1), LESSON_BUFFER_TOO_SHORT);
    expect_true("  in a byte less, and the buffer is as it was", number(0, 1) == NOISE);
    expect_answer(what, list(bytes + 1), counts(choices, states));
    expect_true("  and its head", number(0, 1) == 1 && number(1, 4) == bytes &&
                                      number(5, 2) == LESSON_MOST_FACTS && number(7, 4) == states);
    expect_true("  and the byte past it", listing[bytes] == NOISE);
}

/* All records are other ones, and rise. */
static bool records_rise(size_t states)
{
    size_t width = LESSON_LONGEST_RECORD, state;

    for (state = 1; state < states; state++)
        if (memcmp(listing + 11 + (state - 1) * width, listing + 11 + state * width, width) >= 0)
            return false;
    return true;
}

int main(void)
{
    put_book(LESSON_MOST_FACTS, 0);
    expect_answer("the most facts", lesson_check(book, end), LESSON_GRANTED);
    put_book(LESSON_MOST_FACTS + 1, 0);
    expect_answer("a fact too many", lesson_check(book, end), LESSON_OUT_OF_RANGE);
    expect_answer("  by another call", list(sizeof listing), LESSON_OUT_OF_RANGE);

    put_book(LESSON_MOST_FACTS, 1);
    expect_answer("one state in the longest record",
                  lesson_one(book, end, 1, 0, listing, LESSON_LONGEST_RECORD), 1 << 8);
    expect_answer("  in a byte less",
                  lesson_one(book, end, 1, 0, listing, LESSON_LONGEST_RECORD - 1),
                  LESSON_BUFFER_TOO_SHORT);
    expect_listing("two of the longest records", 1, 11 + 2 * LESSON_LONGEST_RECORD);
    put_book(LESSON_MOST_FACTS, 5);
    expect_listing("32 of them", 5, 11 + 32 * LESSON_LONGEST_RECORD);

    put_book(LESSON_MOST_FACTS, BRANCHING);
    expect_listing("the largest listing", BRANCHING, LESSON_LARGEST_LISTING);
    expect_true("  and its records", records_rise(LESSON_MOST_STATES));
    put_book(LESSON_MOST_FACTS, BRANCHING + 1);
    expect_answer("one choice more", list(sizeof listing), LESSON_TOO_MANY_BRANCHING);
    return report();
}
