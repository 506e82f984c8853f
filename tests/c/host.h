/* What the C test hosts share: document 01's book B, the smallest book, one with a constraint, one with
 * as many facts as there can be, one whose first state is met last, one without a state, and a count of
 * checks. */
#ifndef HOST_H
#define HOST_H

#include "lesson.h"

#include <stdio.h>
#include <string.h>

/* Book B of document 01. */
static const uint8_t B[48] = {
    0x01, 0x00, 0x00, 0x00, 0x30, 0x00, 0x03, 0x04,             /* head: 3 facts, 4 layers */
    0x00, 0x00, 0x00, 0x0C, 0x00, 0x04,                         /* at 8: arrow section */
    0x02, 0x00, 0x01, 0x02, 0x00, 0x02,                         /* at 14 */
    0x02, 0x01, 0x03, 0x02, 0x02, 0x03,                         /* at 20 */
    0x00, 0x00, 0x00, 0x10, 0x00, 0x03,                         /* at 26: rule section */
    0x05, 0x00, 0x00, 0x00, 0x80, 0x01, 0x03, 0x01, 0x00, 0x02, /* at 32 */
    0x05, 0x02, 0x80, 0x00, 0x00, 0x02                          /* at 42 */
};

/* One fact, one layer, no records. */
static const uint8_t smallest[20] = {1, 0, 0, 0, 20, 0, 1, 1};

/* "p if not q" and "q if not p", and a constraint: never p. */
static const uint8_t never_p[38] = {
    1, 0, 0, 0, 38, 0, 2, 1, /* head: 2 facts, 1 layer */
    0, 0, 0, 0, 0, 0,        /* at 8: no arrows */
    0, 0, 0, 18, 0, 3,       /* at 14: rule section */
    5, 0, 0, 0, 0x80, 1,     /* at 20: p if not q */
    5, 0, 0, 1, 0x80, 0,     /* at 26: q if not p */
    5, 0, 0x7F, 0xFF, 0, 0   /* at 32: 32,767 if p */
};

/* "p if not q" and "q if not p", and in front of them a fact that follows q. A search that first
 * takes p as not standing comes to q and the fact in front, whose record is the last. */
static const uint8_t follower[38] = {
    1, 0, 0, 0, 38, 0, 3, 1, /* head: 3 facts, 1 layer */
    0, 0, 0, 0, 0, 0,        /* at 8: no arrows */
    0, 0, 0, 18, 0, 3,       /* at 14: rule section */
    5, 0, 0, 1, 0x80, 2,     /* at 20: p if not q */
    5, 0, 0, 2, 0x80, 1,     /* at 26: q if not p */
    5, 0, 0, 0, 0, 2         /* at 32: the fact in front if q */
};

/* "p if not p": no stable state. */
static const uint8_t without[26] = {
    0x01, 0x00, 0x00, 0x00, 0x1A, 0x00, 0x01, 0x01, /* head: 1 fact, 1 layer */
    0x00, 0x00, 0x00, 0x00, 0x00, 0x00,             /* no arrows */
    0x00, 0x00, 0x00, 0x06, 0x00, 0x01,             /* at 14: rule section */
    0x05, 0x00, 0x00, 0x00, 0x80, 0x00              /* at 20 */
};

/* The last fact, and one that agrees with it in its low byte. */
#define LAST_FACT (LESSON_MOST_FACTS - 1)
#define FACT_LIKE_IT (LAST_FACT - 256)
#define HIGH(number) ((number) >> 8)
#define LOW(number) ((number)&0xFF)

/* As many facts as there can be: the last one stands if the other does not, and the other way
 * round. */
static const uint8_t widest[32] = {
    1, 0, 0, 0, 32,                                      /* head */
    HIGH(LESSON_MOST_FACTS), LOW(LESSON_MOST_FACTS), 1,  /* at 5: facts, 1 layer */
    0, 0, 0, 0, 0, 0,                                    /* at 8: no arrows */
    0, 0, 0, 12, 0, 2,                                   /* at 14: rule section */
    5, 0, HIGH(LAST_FACT), LOW(LAST_FACT),               /* at 20 */
    0x80 | HIGH(FACT_LIKE_IT), LOW(FACT_LIKE_IT),        /* at 24 */
    5, 0, HIGH(FACT_LIKE_IT), LOW(FACT_LIKE_IT),         /* at 26 */
    0x80 | HIGH(LAST_FACT), LOW(LAST_FACT)               /* at 30 */
};

/* Whether a record of that book is the one in which only this fact stands. */
static inline bool is_state_of(const uint8_t *record, size_t fact)
{
    bool as_expected = true;
    size_t at;

    for (at = 0; at < LESSON_LONGEST_RECORD; at++)
        as_expected = as_expected && record[at] == (at == fact / 8 ? 0x80 >> fact % 8 : 0);
    return as_expected;
}

/* What a buffer has before a call. */
#define NOISE 0xA5

/* Whether so many bytes are as they were. */
static inline bool is_noise(const uint8_t *bytes, size_t count)
{
    bool untouched = true;

    while (count-- > 0)
        untouched = untouched && bytes[count] == NOISE;
    return untouched;
}

/* An answer with g, and a number from bit 16 on. */
static inline uint64_t counts(uint64_t branching, uint64_t number)
{
    return branching << 8 | number << 16;
}

static unsigned passed, failed;

/* Counts one check of an answer and of the helpers that every answer has. */
static inline void expect_answer(const char *what, uint64_t answer, uint64_t expected)
{
    bool granted = (expected & 0xFF) == 0;
    bool helpers_agree =
        lesson_granted(answer) == granted && lesson_cause(answer) == (expected & 0xFF);

    if (answer == expected && helpers_agree) {
        passed++;
        printf("ok: %s\n", what);
    } else {
        failed++;
        printf("FAILED: %s: expected %llu, answer %llu\n", what, (unsigned long long)expected,
               (unsigned long long)answer);
    }
}

/* Counts one check of anything else. */
static inline void expect_true(const char *what, bool holds)
{
    if (holds)
        passed++;
    else
        failed++;
    printf("%s: %s\n", holds ? "ok" : "FAILED", what);
}

/* The host's exit status, after its count. */
static inline int report(void)
{
    printf("%u passed, %u failed\n", passed, failed);
    return failed != 0;
}

#endif
