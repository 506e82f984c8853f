/* Checks lesson_count from C, through the header: what a condition means and how its parts bind, the
 * longest and the deepest conditions, 0 of 0, each kind of refusal and NULL. */
#include "host.h"

/* "p if not q" and "q if not p", and the same of r and s: four states. */
static const uint8_t pairs[44] = {
    0x01, 0x00, 0x00, 0x00, 0x2C, 0x00, 0x04, 0x01, /* head: 4 facts, 1 layer */
    0x00, 0x00, 0x00, 0x00, 0x00, 0x00,             /* no arrows */
    0x00, 0x00, 0x00, 0x18, 0x00, 0x04,             /* at 14: rule section */
    0x05, 0x00, 0x00, 0x00, 0x80, 0x01,             /* at 20: p if not q */
    0x05, 0x00, 0x00, 0x01, 0x80, 0x00,             /* at 26: q if not p */
    0x05, 0x00, 0x00, 0x02, 0x80, 0x03,             /* at 32: r if not s */
    0x05, 0x00, 0x00, 0x03, 0x80, 0x02              /* at 38: s if not r */
};

static uint64_t count(const uint8_t *book, size_t length, uint32_t layer, uint32_t off,
                      const char *condition)
{
    return lesson_count(book, length, layer, off, (const uint8_t *)condition, strlen(condition));
}

/* The condition holds in so many of the states. */
static void expect_count(const uint8_t *book, size_t length, uint32_t layer, uint32_t off,
                         const char *condition, uint32_t branching, uint32_t states,
                         uint32_t fitting)
{
    uint64_t answer = count(book, length, layer, off, condition);

    expect_answer(condition, answer,
                  (uint64_t)branching << 8 | (uint64_t)states << 16 | (uint64_t)fitting << 40);
    expect_true("  and its helpers", lesson_fit_count(answer) == fitting &&
                                         lesson_state_count(answer) == states &&
                                         lesson_branching_count(answer) == branching);
}

static void expect_refused(const char *what, const uint8_t *book, size_t length, uint32_t layer,
                           uint32_t off, const char *condition, uint64_t cause)
{
    uint64_t answer = count(book, length, layer, off, condition);

    expect_answer(what, answer, cause);
    expect_true("  and its helpers",
                lesson_fit_count(answer) == 0 && lesson_state_count(answer) == 0);
}

/* In so many of the four states. */
static void expect_fits(const char *condition, uint32_t fitting)
{
    expect_count(pairs, sizeof pairs, 0, 0, condition, 4, 4, fitting);
}

static void expect_cause(const char *what, const char *condition, uint64_t cause)
{
    expect_refused(what, pairs, sizeof pairs, 0, 0, condition, cause);
}

/* What each operator means and how it binds. */
static void expect_meanings(void)
{
    expect_fits("0", 2);
    expect_fits("!0", 2);
    expect_fits("0&2", 1);
    expect_fits("0|2", 3);
    expect_fits("0|1", 4);
    expect_fits("0&1", 0);
    expect_fits("0|1&2", 3);
    expect_fits("(0|1)&2", 2);
    expect_fits("!0|2", 3);
    expect_fits("!(0|2)", 1);
    expect_fits("!!(0|2)", 3);
    expect_fits("0&2|1&3", 2);
    expect_fits("0003&!01|(2&0000)", 2);
    expect_count(B, sizeof B, 3, 0, "2&!0&!1", 2, 1, 1);
    expect_count(B, sizeof B, 1, 0, "0&2", 1, 1, 1);
    expect_count(B, sizeof B, 3, 2, "0&!2", 2, 1, 1);
    expect_count(B, sizeof B, 3, 15, "0|1|2", 0, 1, 0);
    expect_count(never_p, sizeof never_p, 0, 0, "1&!0", 2, 1, 1);
    expect_count(smallest, sizeof smallest, 0, 0, "0", 0, 1, 0);
    expect_count(without, sizeof without, 0, 0, "0|!0", 1, 0, 0);
}

/* The last of the most facts, and one that agrees with it in its low byte. */
static void expect_names(void)
{
    char name[8], other[24];

    snprintf(name, sizeof name, "%d", LAST_FACT);
    expect_count(widest, sizeof widest, 0, 0, name, 2, 2, 1);
    snprintf(other, sizeof other, "%d|%d", LAST_FACT, FACT_LIKE_IT);
    expect_count(widest, sizeof widest, 0, 0, other, 2, 2, 2);
    snprintf(name, sizeof name, "%04d", FACT_LIKE_IT - 256);
    expect_count(widest, sizeof widest, 0, 0, name, 2, 2, 0);
    snprintf(name, sizeof name, "%d", LESSON_MOST_FACTS);
    expect_refused("a fact too many", widest, sizeof widest, 0, 0, name, LESSON_NO_SUCH_FACT);
    expect_refused("9999", widest, sizeof widest, 0, 0, "9999", LESSON_NO_SUCH_FACT);
}

/* A text of so many bytes that ends with a digit. */
static const char *repeated(char byte, size_t length)
{
    static char text[LESSON_LONGEST_CONDITION + 3];

    memset(text, byte, length - 1);
    text[length - 1] = '0';
    text[length] = '\0';
    return text;
}

/* A name in so many brackets, with this behind it. */
static const char *nested(size_t depth, const char *behind)
{
    static char text[2 * LESSON_LONGEST_CONDITION];

    memset(text, '(', depth);
    text[depth] = '0';
    memset(text + depth + 1, ')', depth);
    strcpy(text + 2 * depth + 1, behind);
    return text;
}

/* The longest condition and the deepest brackets, and one more. */
static void expect_bounds(void)
{
    expect_fits(repeated('!', LESSON_LONGEST_CONDITION), 2);
    expect_cause("a byte too many", repeated('!', LESSON_LONGEST_CONDITION + 1),
                 LESSON_BAD_CONDITION);
    expect_fits(nested(LESSON_DEEPEST_BRACKETS, ""), 2);
    expect_fits(nested(LESSON_DEEPEST_BRACKETS, "&2"), 1);
    expect_cause("a bracket too deep", nested(LESSON_DEEPEST_BRACKETS + 1, ""), LESSON_TOO_DEEP);
    expect_cause("127 deep", nested(127, ""), LESSON_TOO_DEEP);
    expect_cause("too deep before a fact", nested(17, "&9999"), LESSON_TOO_DEEP);
    expect_cause("127 open and none closed", repeated('(', 128), LESSON_BAD_CONDITION);
    expect_cause("grammar before depth", nested(17, ")"), LESSON_BAD_CONDITION);
}

static void expect_refusals(void)
{
    expect_cause("nothing", "", LESSON_BAD_CONDITION);
    expect_cause("a blank", "0 &1", LESSON_BAD_CONDITION);
    expect_cause("an empty bracket", "()", LESSON_BAD_CONDITION);
    expect_cause("a bracket too few", "(0", LESSON_BAD_CONDITION);
    expect_cause("two operators", "0&|1", LESSON_BAD_CONDITION);
    expect_cause("not behind a name", "0!", LESSON_BAD_CONDITION);
    expect_cause("five digits", "00012", LESSON_BAD_CONDITION);
    expect_cause("fact 4 of 4", "4", LESSON_NO_SUCH_FACT);
    expect_cause("fact 4 of 4 behind others", "0|1&(2|!0004)", LESSON_NO_SUCH_FACT);
    expect_cause("grammar before fact", "4&", LESSON_BAD_CONDITION);
    expect_refused("layer 4 of 4", B, sizeof B, 4, 0, "0", LESSON_NO_SUCH_LAYER);
    expect_refused("layer before condition", B, sizeof B, 4, 16, "", LESSON_NO_SUCH_LAYER);
    expect_refused("layer 4 of 4 off", B, sizeof B, 3, 16, "0", LESSON_NO_SUCH_LAYER_OFF);
    expect_refused("set before condition", B, sizeof B, 3, 16, "(", LESSON_NO_SUCH_LAYER_OFF);
    expect_refused("fact 3 of 3", B, sizeof B, 3, 0, "3", LESSON_NO_SUCH_FACT);
    expect_refused("fact before no state", without, sizeof without, 0, 0, "1",
                   LESSON_NO_SUCH_FACT);
    expect_refused("B without its last byte", B, sizeof B - 1, 3, 0, "0", LESSON_WRONG_LENGTH);
    expect_refused("no book", NULL, 0, 0, 0, "0", LESSON_TOO_SHORT);
    expect_answer("no condition", lesson_count(B, sizeof B, 3, 0, NULL, 0), LESSON_BAD_CONDITION);
    expect_answer("a NUL belongs to no condition",
                  lesson_count(B, sizeof B, 3, 0, (const uint8_t *)"2", 2), LESSON_BAD_CONDITION);
}

int main(void)
{
    expect_meanings();
    expect_names();
    expect_bounds();
    expect_refusals();
    return report();
}
