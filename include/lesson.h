/*
 * lesson.h: the lesson engine, for C11 and C++.
 *
 * Link with liblesson.a (64-bit x86, Linux); it needs nothing beyond the C
 * library. examples/host.c is a host to copy from.
 *
 * What holds for every call:
 *
 * - Slices. A byte string is a pointer and a length in bytes. All `length`
 *   bytes must be readable, and those of a buffer that the call fills writable
 *   too. Any alignment will do. NULL with length 0 is an empty slice and is
 *   allowed; NULL with another length is not.
 * - Memory. Everything is the caller's, before and after. The engine reads and
 *   writes only what it is lent, keeps nothing once a call has returned, and
 *   does not use the heap. How much stack a call needs stands below.
 * - Overlap. Two slices that are only read may overlap. A buffer that a call
 *   writes must not overlap any other slice of the same call.
 * - Threads. There is no state between calls, and no global variable. Calls may
 *   run in several threads at once, also on the same book, as long as nobody
 *   writes to a slice while a call has it.
 * - Every input has an answer. No contents and no length make a call crash, run
 *   on without end or touch other memory, however damaged a book is. A book
 *   needs no checking before it is handed to any call.
 * - A refusal leaves every byte of every buffer as it was.
 *
 * A state says of each of a book's n facts whether it stands. It goes in and out
 * as a record of n / 8 bytes, rounded up: fact f is bit 7 - f % 8 of byte f / 8,
 * bit 0 being the lowest, and it is 1 where the fact stands. The bits that are
 * left over in the last byte are 0.
 *
 * A rule of a book may have 32,767 for its head, the bytes 7F FF. It is then a
 * constraint: its body must never hold. It reaches no fact, displaces no rule, is
 * not displaced and makes no fact branch, but where it counts at the driven layer,
 * a state in which its body holds is not stable. An empty body always holds, and
 * then there is no stable state.
 *
 * Layers can be switched off for one drive. Every call on a driven layer takes a
 * set of them, `off`: where bit i is 1, bit 0 being the lowest, the rules of layer
 * i, its constraints too, do not count in this call. The order of the layers
 * stays, so what lies beyond such a layer keeps its rank, and the driven layer may
 * be off too. 0 switches nothing off. The book's own layers are meant: in a book
 * of L layers the bits from L on must be 0. The book itself is not altered.
 *
 * Every call answers with one 64-bit number. Its low byte is 0 where the call
 * is granted, and the bits above it carry what the answer carries. Where the
 * call is refused, the low byte is the number of the cause, and all other bits
 * are 0. A host that meets a number it does not know treats it as a refusal.
 */
#ifndef LESSON_H
#define LESSON_H

#include <stdbool.h>
#include <stddef.h>
#include <stdint.h>

/* Why a call was refused. Each call makes the tests that concern it, in the order
 * in which they stand here, and names the first that applies. */
enum lesson_cause_number {
    LESSON_GRANTED = 0,             /* not refused */
    LESSON_TOO_SHORT = 1,           /* book: fewer than 20 bytes */
    LESSON_WRONG_VERSION = 2,       /* book: version not 1 */
    LESSON_WRONG_LENGTH = 3,        /* book: length field differs from the bytes lent */
    LESSON_BROKEN_SECTION = 4,      /* book: a section passes the book's end, its records miss its end,
                                       their number is not the count, or bytes follow the rule section */
    LESSON_OUT_OF_RANGE = 5,        /* book: facts, layers or a count outside its range */
    LESSON_BAD_RECORD = 6,          /* book: a record's length not of its kind, or a layer or a fact
                                       that the book does not have; a rule's head may be 32,767,
                                       but not 65,535, and a body has neither */
    LESSON_REPEATED_ARROW = 7,      /* book: two equal arrows */
    LESSON_CYCLE = 8,               /* book: the arrows lead from a layer back to itself */
    LESSON_NO_SUCH_LAYER = 9,       /* driven layer that the book does not have */
    LESSON_NO_SUCH_LAYER_OFF = 19,  /* set of layers with one that the book does not have */
    LESSON_BAD_CANDIDATE = 10,      /* candidate of another length, or a spare bit set */
    LESSON_BAD_CONDITION = 16,      /* condition: empty, over 255 bytes, or outside the grammar */
    LESSON_TOO_DEEP = 17,           /* condition: brackets nested over 16 deep */
    LESSON_NO_SUCH_FACT = 11,       /* fact that the book does not have, also one that a condition
                                       names */
    LESSON_TOO_MANY_BRANCHING = 12, /* more than 20 branching facts */
    LESSON_BUFFER_TOO_SHORT = 13,   /* buffer shorter than what would be written */
    LESSON_NO_STABLE_STATE = 14     /* the book has no stable state at the driven layer */
};

/* The most facts of a book and the most states of a listing, the most bytes of a
 * book, a record and a listing, and the most bytes and the deepest brackets of a
 * condition: checked against what the engine says by tests/c/bounds_host.c, the
 * book's by tests/c/stack.c, and the condition's by tests/c/count_host.c. */
enum lesson_bound {
    LESSON_MOST_FACTS = 1024,
    LESSON_MOST_STATES = 1048576,
    LESSON_LARGEST_BOOK = 38372,
    LESSON_LONGEST_RECORD = 128,
    LESSON_LARGEST_LISTING = 134217739,
    LESSON_LONGEST_CONDITION = 255,
    LESSON_DEEPEST_BRACKETS = 16
};

/* The most bytes of stack that each call uses below its caller's frame, whatever
 * the book, rounded up: measured on the compiled archive by tests/c/stack.c.
 * Signal handlers that run on the same stack come on top, and so does a dynamic
 * linker that binds memcpy or memset at its first call. */
enum lesson_stack_bytes {
    LESSON_CHECK_STACK = 1024,
    LESSON_TEST_STACK = 47104,
    LESSON_LIST_STACK = 93184,
    LESSON_ONE_STACK = 106496,
    LESSON_PLACE_STACK = 93184,
    LESSON_NEAREST_STACK = 108544,
    LESSON_COUNT_STACK = 96256
};

/* The cause that an answer names; LESSON_GRANTED where there is none. */
static inline enum lesson_cause_number lesson_cause(uint64_t answer)
{
    return (enum lesson_cause_number)(answer & 0xFF);
}

/* Whether the call was granted. */
static inline bool lesson_granted(uint64_t answer)
{
    return (answer & 0xFF) == 0;
}

/* lesson_test: whether the candidate is a stable state; false after a refusal. */
static inline bool lesson_is_stable(uint64_t answer)
{
    return (answer >> 16 & 1) != 0;
}

/* The number g of the book's branching facts at the driven layer, those whose
 * settings the engine goes through; 0 after a refusal. */
static inline uint32_t lesson_branching_count(uint64_t answer)
{
    return (uint32_t)(answer >> 8 & 0xFF);
}

/* lesson_list and lesson_count: the number k of stable states; 0 after a refusal.
 * It has 24 bits, as the count of lesson_count stands above it. */
static inline uint32_t lesson_state_count(uint64_t answer)
{
    return (uint32_t)(answer >> 16 & 0xFFFFFF);
}

/* lesson_count: the number of stable states in which the condition holds; 0 after
 * a refusal. */
static inline uint32_t lesson_fit_count(uint64_t answer)
{
    return (uint32_t)(answer >> 40);
}

/* lesson_nearest: in how many facts the state that was written differs from the
 * candidate; 0 after a refusal. */
static inline uint32_t lesson_distance(uint64_t answer)
{
    return (uint32_t)(answer >> 16);
}

/* lesson_place: in which of the stable states a fact stands. */
enum lesson_place_number {
    LESSON_IN_NONE = 0,
    LESSON_IN_SOME = 1, /* in one at least, but not in all */
    LESSON_IN_EVERY = 2
};

/* lesson_place: the fact's place. It means nothing after a refusal. */
static inline enum lesson_place_number lesson_place_of(uint64_t answer)
{
    return (enum lesson_place_number)(answer >> 16 & 3);
}

#ifdef __cplusplus
extern "C" {
#endif

/*
 * Checks a book. Writes nothing.
 *
 * book, book_len: the bytes to check, any number of them. A lawful book has 20
 * to LESSON_LARGEST_BOOK bytes; the length field in the book has to agree with
 * book_len.
 *
 * Answers LESSON_GRANTED (the whole number is 0) where the book is accepted,
 * and else the first of LESSON_TOO_SHORT to LESSON_CYCLE that applies.
 */
uint64_t lesson_check(const uint8_t *book, size_t book_len);

/*
 * Tests whether a candidate is a stable state of a book at the driven layer.
 * Writes nothing. The book may have any number of branching facts.
 *
 * book, book_len: the book, any bytes.
 * layer: the driven layer, counted from 0, any number.
 * off: the set of layers that are switched off, any number.
 * candidate, candidate_len: the candidate as one record, any bytes.
 *
 * Answers yes or no in bit 16 (lesson_is_stable), or the first of
 * LESSON_TOO_SHORT to LESSON_NO_SUCH_LAYER, LESSON_NO_SUCH_LAYER_OFF and
 * LESSON_BAD_CANDIDATE that applies.
 */
uint64_t lesson_test(const uint8_t *book, size_t book_len, uint32_t layer, uint32_t off,
                     const uint8_t *candidate, size_t candidate_len);

/*
 * Lists every stable state of a book at the driven layer. k, their number, may
 * be 0.
 *
 * book, book_len: the book, any bytes.
 * layer: the driven layer, counted from 0, any number.
 * off: the set of layers that are switched off, any number.
 * buffer, buffer_len: where the listing goes, of any length. Where the call is
 * granted, its first bytes are the listing and the bytes past it are as they
 * were. The listing has 11 bytes of head, then k records:
 *
 *   offset 0, 1 byte: version, 1
 *   offset 1, 4 bytes: length of the whole listing in bytes
 *   offset 5, 2 bytes: number n of facts
 *   offset 7, 4 bytes: k
 *   offset 11: the records, each once, rising as byte strings
 *
 * Numbers are big-endian. k is at most 2 to the power g. A buffer of
 * LESSON_LARGEST_LISTING bytes holds every listing.
 *
 * Answers g in bits 8 to 15 (lesson_branching_count) and k in bits 16 to 39
 * (lesson_state_count), or the first of LESSON_TOO_SHORT to
 * LESSON_NO_SUCH_LAYER, LESSON_NO_SUCH_LAYER_OFF, LESSON_TOO_MANY_BRANCHING and
 * LESSON_BUFFER_TOO_SHORT that applies. The time grows with 2 to the power g.
 */
uint64_t lesson_list(const uint8_t *book, size_t book_len, uint32_t layer, uint32_t off,
                     uint8_t *buffer, size_t buffer_len);

/*
 * Hands out one stable state of a book at the driven layer: the first that
 * lesson_list lists for the same book, layer and set. So every cabinet that is
 * given these starts from the same state.
 *
 * book, book_len: the book, any bytes.
 * layer: the driven layer, counted from 0, any number.
 * off: the set of layers that are switched off, any number.
 * buffer, buffer_len: where the state goes, of any length. Where the call is
 * granted, its first bytes are the state's record and the bytes past it are as
 * they were. A buffer of LESSON_LONGEST_RECORD bytes holds every state.
 *
 * Answers g in bits 8 to 15 (lesson_branching_count), or the first of
 * LESSON_TOO_SHORT to LESSON_NO_SUCH_LAYER, LESSON_NO_SUCH_LAYER_OFF and
 * LESSON_TOO_MANY_BRANCHING to LESSON_NO_STABLE_STATE that applies. The time
 * grows with 2 to the power g. It is shortest where the branching facts have the
 * lowest numbers, or where only facts come before them that stand whatever the
 * branching ones do.
 */
uint64_t lesson_one(const uint8_t *book, size_t book_len, uint32_t layer, uint32_t off,
                    uint8_t *buffer, size_t buffer_len);

/*
 * Says whether a fact stands in every stable state of a book at the driven
 * layer, in some or in none. Writes nothing.
 *
 * book, book_len: the book, any bytes.
 * layer: the driven layer, counted from 0, any number.
 * off: the set of layers that are switched off, any number.
 * fact: the fact, counted from 0, any number.
 *
 * Answers the place in bits 16 and 17 (lesson_place_of) and g in bits 8 to 15
 * (lesson_branching_count), or the first of LESSON_TOO_SHORT to
 * LESSON_NO_SUCH_LAYER, LESSON_NO_SUCH_LAYER_OFF, LESSON_NO_SUCH_FACT,
 * LESSON_TOO_MANY_BRANCHING and LESSON_NO_STABLE_STATE that applies. The time
 * grows with 2 to the power g.
 */
uint64_t lesson_place(const uint8_t *book, size_t book_len, uint32_t layer, uint32_t off,
                      uint32_t fact);

/*
 * Hands out the stable state of a book at the driven layer that is closest to a
 * candidate: no other differs from it in fewer facts, and of those that differ in
 * as few it is the first that lesson_list lists. Where the candidate is stable,
 * and only there, no fact differs and the bytes are the candidate's.
 *
 * book, book_len: the book, any bytes.
 * layer: the driven layer, counted from 0, any number.
 * off: the set of layers that are switched off, any number.
 * candidate, candidate_len: the candidate as one record, any bytes.
 * buffer, buffer_len: where the state goes, of any length. Where the call is
 * granted, its first bytes are the state's record and the bytes past it are as
 * they were. A buffer of LESSON_LONGEST_RECORD bytes holds every state.
 *
 * Answers g in bits 8 to 15 (lesson_branching_count) and the number of facts that
 * differ from bit 16 on (lesson_distance), or the first of LESSON_TOO_SHORT to
 * LESSON_NO_SUCH_LAYER, LESSON_NO_SUCH_LAYER_OFF, LESSON_BAD_CANDIDATE and
 * LESSON_TOO_MANY_BRANCHING to LESSON_NO_STABLE_STATE that applies. More than 20
 * branching facts are refused here even where lesson_test finds the candidate
 * stable. The time grows with 2 to the power g.
 */
uint64_t lesson_nearest(const uint8_t *book, size_t book_len, uint32_t layer, uint32_t off,
                        const uint8_t *candidate, size_t candidate_len, uint8_t *buffer,
                        size_t buffer_len);

/*
 * Counts the stable states of a book at the driven layer in which a condition
 * holds. Writes nothing. A book without stable states is not refused here: it has
 * 0 of 0.
 *
 * book, book_len: the book, any bytes.
 * layer: the driven layer, counted from 0, any number.
 * off: the set of layers that are switched off, any number.
 * condition, condition_len: the condition as text, any bytes, without a NUL at its
 * end. A lawful one has 1 to LESSON_LONGEST_CONDITION bytes, all of them among the
 * digits and ! & | ( ), and is made so:
 *
 *   condition: conjunctions with | between them; it holds where one of them holds
 *   conjunction: parts with & between them; it holds where all of them hold
 *   part: a name, or ( condition ), or ! and a part, which holds where the part
 *         does not
 *   name: a fact's number, counted from 0, of one to four digits, leading zeros
 *         allowed; it holds where the fact stands
 *
 * So ! binds tightest, then &, then |, and 3&!14|(2&5) holds where fact 3 stands
 * and fact 14 does not, and where facts 2 and 5 both stand. There are no blanks.
 * Brackets may be nested LESSON_DEEPEST_BRACKETS deep, and ! repeated as often as
 * there is room.
 *
 * Answers g in bits 8 to 15 (lesson_branching_count), k in bits 16 to 39
 * (lesson_state_count) and the number of states in which the condition holds in
 * bits 40 to 63 (lesson_fit_count), or the first of LESSON_TOO_SHORT to
 * LESSON_NO_SUCH_LAYER, LESSON_NO_SUCH_LAYER_OFF and LESSON_BAD_CONDITION to
 * LESSON_TOO_MANY_BRANCHING that applies. A condition outside the grammar is that
 * however deep its brackets are, and one whose brackets are too deep is that
 * whatever facts it names. The time grows with 2 to the power g; the condition is
 * read once a call, and then tried on each state.
 */
uint64_t lesson_count(const uint8_t *book, size_t book_len, uint32_t layer, uint32_t off,
                      const uint8_t *condition, size_t condition_len);

#ifdef __cplusplus
}
#endif

#endif
