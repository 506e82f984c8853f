/*
 * The deepest stack that each call uses, by painting a stack for it: prints the bytes and checks
 * the figures of the header against them. A figure is the bytes and 128 more, rounded up to 1,024.
 */
#define _GNU_SOURCE
#include "host.h"

#include <ucontext.h>

#define STACK_BYTES (1024 * 1024)
#define FACTS LESSON_MOST_FACTS
#define LAYERS 32
#define RULES 1024
#define BODY 16
#define WIDTH LESSON_LONGEST_RECORD
#define NOT 0x8000u
/* The head of a constraint. */
#define FALSITY 0x7FFFu
/* A fact that branches and stands in no state. */
#define NEVER (FACTS - 100u)
/* The first of those that are spoken of in no other way. */
#define OTHERS 150u
/* The first of the facts that stand with the free ones. */
#define HELPERS (FACTS - 200u)

enum call { EMPTY, CHECK, TEST, LIST, ONE, PLACE, NEAREST, COUNT, CALLS };

static const char *const names[CALLS] = {"empty call",     "lesson_check", "lesson_test",
                                         "lesson_list",    "lesson_one",   "lesson_place",
                                         "lesson_nearest", "lesson_count"};

/* The call that is measured, and its answer. The candidate, or what a call fills, are the first
 * bytes of the buffer; a call that has both fills a record, of which it is lent `room` bytes. */
static struct {
    enum call call;
    const uint8_t *book;
    size_t length;
    uint32_t layer, off, fact;
    size_t lent, room;
    const char *condition;
    uint64_t answer;
} asked;

static _Alignas(64) uint8_t stack[STACK_BYTES];
static uint8_t buffer[1 << 18], record[WIDTH];
static size_t deepest[CALLS];
static ucontext_t here, there;

static uint64_t nothing(void)
{
    return 0;
}

/* Volatile, so that it is called. */
static uint64_t (*volatile empty_call)(void) = nothing;

static uint64_t answer(void)
{
    switch (asked.call) {
    case CHECK:
        return lesson_check(asked.book, asked.length);
    case TEST:
        return lesson_test(asked.book, asked.length, asked.layer, asked.off, buffer, asked.lent);
    case LIST:
        return lesson_list(asked.book, asked.length, asked.layer, asked.off, buffer, asked.lent);
    case ONE:
        return lesson_one(asked.book, asked.length, asked.layer, asked.off, buffer, asked.lent);
    case PLACE:
        return lesson_place(asked.book, asked.length, asked.layer, asked.off, asked.fact);
    case NEAREST:
        return lesson_nearest(asked.book, asked.length, asked.layer, asked.off, buffer, asked.lent,
                              record, asked.room);
    case COUNT:
        return lesson_count(asked.book, asked.length, asked.layer, asked.off,
                            (const uint8_t *)asked.condition, strlen(asked.condition));
    default:
        return empty_call();
    }
}

/* Runs on the painted stack. */
static void make_call(void)
{
    asked.answer = answer();
    swapcontext(&there, &here);
}

/* The bytes of stack that are touched, from its top to the lowest that has lost its paint. */
static size_t touched(uint8_t paint)
{
    size_t untouched = 0;

    memset(stack, paint, sizeof stack);
    getcontext(&there);
    there.uc_stack.ss_sp = stack;
    there.uc_stack.ss_size = sizeof stack;
    there.uc_link = &here;
    makecontext(&there, make_call, 0);
    swapcontext(&here, &there);
    while (untouched < sizeof stack && stack[untouched] == paint)
        untouched++;
    return sizeof stack - untouched;
}

/* Measures the call with two paints, as it may leave one as it is. */
static uint64_t measure(enum call call)
{
    static const uint8_t paints[2] = {0xA5, 0x5A};
    size_t at;

    asked.call = call;
    for (at = 0; at < 2; at++) {
        size_t bytes = touched(paints[at]);

        if (bytes > deepest[call])
            deepest[call] = bytes;
    }
    return asked.answer;
}

/* A book being written. */
static uint8_t book[LESSON_LARGEST_BOOK];
static size_t end, rules;

static void put(size_t value, unsigned bytes)
{
    while (bytes-- > 0)
        book[end++] = (uint8_t)(value >> 8 * bytes);
}

/* A rule with a body of 16 literals, which are these two. */
static void put_rule(size_t layer, size_t head, size_t one, size_t two)
{
    unsigned at;

    put(3 + 2 * BODY, 1);
    put(layer, 1);
    put(head, 2);
    for (at = 0; at < BODY; at += 2) {
        put(one, 2);
        put(two, 2);
    }
    rules++;
}

/* A fact that may stand or not from layer 1 on, and a helper that stands with it: a quarrel about the
 * helper in layer 0, where the fact follows it, and above that the helper as it follows the fact. A
 * low fact stands where it does not, so that records come to be moved. */
static void put_free(size_t fact, size_t helper, size_t follower)
{
    put_rule(0, helper, NOT | NEVER, NOT | NEVER);
    put_rule(0, NOT | helper, NOT | NEVER, NOT | NEVER);
    put_rule(0, fact, helper, helper);
    put_rule(1, helper, fact, fact);
    put_rule(1, NOT | helper, NOT | fact, NOT | fact);
    put_rule(1, follower, NOT | fact, NOT | fact);
}

/* 32 layers in a line, with all 496 arrows. */
static void put_arrows(void)
{
    unsigned earlier, later;

    put(3 * 496, 4);
    put(496, 2);
    for (later = 1; later < LAYERS; later++)
        for (earlier = 0; earlier < later; earlier++) {
            put(2, 1);
            put(earlier, 1);
            put(later, 1);
        }
}

/*
 * The largest book. So many facts branch from layer 1 on, and NEVER is the first of them; the last
 * `free_facts` may stand or not, and the others never stand. At layer 1 few rules are relevant, at
 * layer 31 all of them. Those from layer 2 on are constraints or not, and their bodies never hold.
 */
static void put_largest(size_t branching, size_t free_facts, bool constraints)
{
    size_t fact, head;

    end = rules = 0;
    put(1, 1);
    put(LESSON_LARGEST_BOOK, 4);
    put(FACTS, 2);
    put(LAYERS, 1);
    put_arrows();
    put(RULES * (4 + 2 * BODY), 4);
    put(RULES, 2);
    for (fact = 0; fact < branching - free_facts; fact++)
        put_rule(0, FACTS - 1, NOT | (NEVER + fact), FACTS - 1);
    for (; fact < branching; fact++)
        put_free(NEVER + fact, HELPERS + fact, fact);
    while (rules < RULES) {
        head = constraints ? FALSITY : OTHERS + rules % (HELPERS - OTHERS);
        put_rule(2 + rules % (LAYERS - 2), head, NOT | NEVER, OTHERS + rules % 50);
    }
}

static void lend(const uint8_t *bytes, size_t length, uint32_t layer, uint32_t off, uint32_t fact,
                 size_t lent)
{
    asked.book = bytes;
    asked.length = length;
    asked.layer = layer;
    asked.off = off;
    asked.fact = fact;
    asked.lent = lent;
    asked.room = sizeof record;
    asked.condition = "0&!1|(2&3)";
}

/* A condition of so many bytes that begins with these over and over, closes so many brackets, and
 * names fact 0 between; the brackets that are not closed leave it outside the grammar. */
static const char *condition_of(const char *part, size_t length, size_t closed)
{
    static char text[LESSON_LONGEST_CONDITION + 1];
    size_t at;

    for (at = 0; at < length - 1 - closed; at++)
        text[at] = part[at % strlen(part)];
    text[at] = '0';
    memset(text + at + 1, ')', closed);
    text[length] = '\0';
    return text;
}

/* Counts with conditions that are read as deep as can be: brackets that stand open, all of them closed or
 * none, long runs of `!`, and both in turn. The last is the longest lawful one, which is tried on every
 * state. */
static uint64_t measure_counts(void)
{
    const size_t longest = LESSON_LONGEST_CONDITION, half = longest / 2;
    const char *const parts[] = {"(", "!", "!(", "(!", "0&(", "0|(", "!!(", "0&!(", "0|0&("};
    size_t at;

    for (at = 0; at < sizeof parts / sizeof *parts; at++) {
        asked.condition = condition_of(parts[at], longest, 0);
        measure(COUNT);
        asked.condition = condition_of(parts[at], longest, half);
        measure(COUNT);
    }
    asked.condition = condition_of("0|0&", longest, 0);
    return measure(COUNT);
}

/* Every call on a book, with a state that lesson_one has left in the buffer as the candidate. The
 * answer is that of lesson_list. */
static uint64_t measure_every(const uint8_t *bytes, size_t length, uint32_t layer, uint32_t off,
                              uint32_t fact, size_t width)
{
    lend(bytes, length, layer, off, fact, sizeof buffer);
    measure(CHECK);
    measure(ONE);
    asked.lent = width;
    measure(TEST);
    measure(NEAREST);
    buffer[0] ^= 0x80;
    measure(TEST);
    measure(NEAREST);
    asked.lent = sizeof buffer;
    measure(PLACE);
    measure(COUNT);
    return measure(LIST);
}

/* Causes 1 to 14, 16, 17 and 19, by all calls that give them. */
static void measure_refusals(void)
{
    uint8_t damaged[sizeof B];
    size_t at;

    for (at = 0; at <= sizeof B; at++)
        measure_every(B, at, 3, 0, 0, 1);
    for (at = 0; at < sizeof B; at++) {
        memcpy(damaged, B, sizeof B);
        damaged[at] ^= 1;
        measure_every(damaged, sizeof B, 3, 0, 0, 1);
    }
    measure_every(B, sizeof B, 4, 0, 0, 1);
    measure_every(B, sizeof B, 3, 16, 0, 1);
    measure_every(B, sizeof B, 3, 0, 3, 2);
    lend(B, sizeof B, 3, 0, 0, 0);
    measure(LIST);
    measure(ONE);
    lend(B, sizeof B, 3, 0, 0, 1);
    asked.room = 0;
    measure(NEAREST);
    measure_counts();
}

/* The largest books. Where 20 facts branch and all rules are relevant, only what ends early. */
static void measure_largest(void)
{
    put_largest(21, 1, false);
    expect_true("21 branching facts: list",
                measure_every(book, end, 31, 0, NEVER, WIDTH) == LESSON_TOO_MANY_BRANCHING);
    put_largest(10, 2, false);
    expect_true("10 branching facts, 1,024 rules: list",
                measure_every(book, end, 31, 0, NEVER, WIDTH) == counts(10, 4));
    expect_true("10 branching facts, 1,024 rules: count",
                lesson_state_count(measure_counts()) == 4);
    put_largest(11, 10, false);
    expect_true("11 branching facts, 10 of them free: list",
                measure_every(book, end, 1, 0, NEVER, WIDTH) == counts(11, 1024));
    expect_true("the same at layer 31, with layers 2 to 31 off: list",
                measure_every(book, end, 31, ~3u, NEVER, WIDTH) == counts(11, 1024));
    put_largest(20, 1, false);
    expect_true("20 branching facts: list",
                measure_every(book, end, 1, 0, NEVER + 19, WIDTH) == counts(20, 2));
    expect_true("20 branching facts: count", lesson_state_count(measure_counts()) == 2);
    lend(book, end, 31, 0, NEVER + 19, sizeof buffer);
    expect_true("largest book: check", measure(CHECK) == LESSON_GRANTED);
    expect_true("20 branching facts, 1,024 rules: one", measure(ONE) == counts(20, 0));
    asked.lent = WIDTH;
    expect_true("20 branching facts, 1,024 rules: test", lesson_is_stable(measure(TEST)));
    expect_true("20 branching facts, 1,024 rules: nearest", measure(NEAREST) == counts(20, 0));
    expect_true("20 branching facts, 1,024 rules: place",
                measure(PLACE) == counts(20, LESSON_IN_SOME));
}

/* The same with constraints: alone, beside few rules, and where 20 facts branch. */
static void measure_constraints(void)
{
    put_largest(0, 0, true);
    expect_true("1,024 constraints and no rule: list",
                measure_every(book, end, 31, 0, NEVER, WIDTH) == counts(0, 1));
    put_largest(11, 10, true);
    expect_true("11 branching facts, 1,024 rules and constraints: list",
                measure_every(book, end, 31, 0, NEVER, WIDTH) == counts(11, 1024));
    expect_true("the same: count", lesson_state_count(measure_counts()) == 1024);
    put_largest(20, 1, true);
    lend(book, end, 31, 0, NEVER + 19, sizeof buffer);
    expect_true("20 branching facts and constraints: check", measure(CHECK) == LESSON_GRANTED);
    expect_true("20 branching facts and constraints: one", measure(ONE) == counts(20, 0));
    asked.lent = WIDTH;
    expect_true("20 branching facts and constraints: test", lesson_is_stable(measure(TEST)));
    expect_true("20 branching facts and constraints: nearest", measure(NEAREST) == counts(20, 0));
    expect_true("20 branching facts and constraints: place",
                measure(PLACE) == counts(20, LESSON_IN_SOME));
    measure_every(never_p, sizeof never_p, 0, 0, 0, 1);
}

static void expect_figure(enum call call, size_t figure)
{
    size_t bytes = deepest[call] - deepest[EMPTY];
    char what[100];

    printf("%s uses %zu bytes of stack, the header says %zu, and it should say %zu\n", names[call],
           bytes, figure, (bytes + 128 + 1023) / 1024 * 1024);
    snprintf(what, sizeof what, "%s needs no more than the header says", names[call]);
    expect_true(what, bytes <= figure);
    snprintf(what, sizeof what, "%s needs not much less", names[call]);
    expect_true(what, figure <= bytes + 4096);
}

/* Makes every call once, so that the dynamic linker has bound what they need of the C library. */
static void bind_library(void)
{
    lend(smallest, sizeof smallest, 0, 0, 0, sizeof buffer);
    for (asked.call = CHECK; asked.call < CALLS; asked.call++)
        answer();
}

int main(void)
{
    bind_library();
    measure(EMPTY);
    measure_every(smallest, sizeof smallest, 0, 0, 0, 1);
    measure_refusals();
    measure_largest();
    measure_constraints();
    expect_figure(CHECK, LESSON_CHECK_STACK);
    expect_figure(TEST, LESSON_TEST_STACK);
    expect_figure(LIST, LESSON_LIST_STACK);
    expect_figure(ONE, LESSON_ONE_STACK);
    expect_figure(PLACE, LESSON_PLACE_STACK);
    expect_figure(NEAREST, LESSON_NEAREST_STACK);
    expect_figure(COUNT, LESSON_COUNT_STACK);
    return report();
}
