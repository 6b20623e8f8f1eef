/*
 * Calls the library from C: admits S, finds a judgment and batches of judgments, withdraws a line and sets of lines,
 * converts sheets, marks normal terms, numbers days and asks windows. Prints nothing if all is as document 01 says, and
 * for dates, normal terms, editions, sets of lines, batches, heights and conversions document 02, A1, A2, A5 to A8, A10
 * and A11.
 */
#include <inttypes.h>
#include <stdbool.h>
#include <stdio.h>
#include <string.h>

#include "mengyubad.h"

enum { S_BYTES = 170, M9_BYTES = 150, WORDS = 8 };

static int failures = 0;

static void expect(const char *what, size_t number, const size_t values[3], size_t n, size_t a, size_t b, size_t c)
{
    if (number == n && values[0] == a && values[1] == b && values[2] == c)
        return;
    fprintf(stderr, "%s: %zu (%zu %zu %zu), not %zu (%zu %zu %zu)\n", what, number, values[0], values[1], values[2], n, a, b, c);
    failures++;
}

static void expect_same(const char *what, const void *got, const void *wanted, size_t length)
{
    if (memcmp(got, wanted, length) == 0)
        return;
    fprintf(stderr, "%s: other contents\n", what);
    failures++;
}

static void expect_length(const char *what, size_t got, size_t wanted)
{
    if (got == wanted)
        return;
    fprintf(stderr, "%s: %zu bytes, not %zu\n", what, got, wanted);
    failures++;
}

static void put_word(uint8_t **at, unsigned word)
{
    *(*at)++ = (uint8_t)(word % 256);
    *(*at)++ = (uint8_t)(word / 256);
}

static void put_words(uint8_t **at, const unsigned *words, size_t count)
{
    for (size_t i = 0; i < count; i++)
        put_word(at, words[i]);
}

static void put_trailer(uint8_t **at, unsigned terms, unsigned contexts, unsigned lines, unsigned edition)
{
    const unsigned to_lines = 20 * lines, to_contexts = to_lines + 4 * contexts, to_terms = to_contexts + 10 * terms;
    const unsigned trailer[] = {terms, contexts, lines, edition, to_terms, to_contexts, to_lines, 0x4C44};
    put_words(at, trailer, 8);
}

/* The sheet S of document 01, "Sample sheets", with its first so many lines. */
static size_t sample(uint8_t *sheet, unsigned lines)
{
    static const uint8_t rows[] = {
        10, 0, 0, 0, 0, 2, 0, 0, 0, 0, 1, 0, 0, 0, 0, 4, 2, 0, 0, 0, 3, 0, 0, 0, 0, /* terms: Nat, U_0, variable 0, lambda(2), Pi(0, 0) */
        0, 0,                                                                       /* context 1 */
        0, 1, 0, 0, 0, 0, 0, 0, 0, 0, 1, 12, 0, 0, 0, 1, 0, 0, 0, 0,                /* lines 0 and 1 */
        0, 2, 1, 0, 0, 0, 0, 1, 0, 0, 1, 3, 1, 2, 0, 0, 2, 0, 0, 0,                 /* lines 2 and 3 */
        1, 5, 0, 3, 0, 4, 3, 0, 0, 0                                                /* line 4 */
    };
    uint8_t *at = sheet;
    for (size_t i = 0; i < 27 + 10 * (size_t)lines; i++)
        put_word(&at, rows[i]);
    put_trailer(&at, 5, 1, lines, 1);
    return (size_t)(at - sheet);
}

static const uint32_t poison[WORDS] = {7, 7, 7, 7, 7, 7, 7, 7};
static const uint32_t sizes[WORDS] = {1, 1, 1, 2, 3, 7, 7, 7};

static void admits(const uint8_t *s)
{
    uint32_t work[WORDS];
    size_t values[3] = {9, 9, 9};
    memcpy(work, poison, sizeof work);
    expect("S with 4 words", mengyubad_admit(s, S_BYTES, work, 4, values), values, MENGYUBAD_WORK_SHORT, 0, 0, 0);
    expect_same("work after 4", work, poison, sizeof work);
    expect("S", mengyubad_admit(s, S_BYTES, work, WORDS, values), values, MENGYUBAD_OK, 5, 1, 5);
    expect_same("work after S", work, sizes, sizeof work);
    expect("15 bytes", mengyubad_admit(s, 15, work, WORDS, values), values, MENGYUBAD_LENGTH, 0, 0, 0);
}

/* A bare trailer. */
static void admits_editions(void)
{
    static const struct {
        const char *what;
        unsigned edition;
        size_t number;
    } cases[] = {
        {"edition 0", 0, MENGYUBAD_MARK},
        {"edition 1", 1, MENGYUBAD_OK},
        {"edition 2", 2, MENGYUBAD_OK},
        {"edition 3", 3, MENGYUBAD_OK},
        {"edition 4", 4, MENGYUBAD_MARK}
    };
    for (size_t i = 0; i < sizeof cases / sizeof *cases; i++) {
        uint8_t sheet[16], *at = sheet;
        uint32_t work[WORDS];
        size_t values[3] = {9, 9, 9};
        memcpy(work, poison, sizeof work);
        put_trailer(&at, 0, 0, 0, cases[i].edition);
        const size_t number = mengyubad_admit(sheet, sizeof sheet, work, WORDS, values);
        expect(cases[i].what, number, values, cases[i].number, 0, 0, 0);
        expect_same(cases[i].what, work, poison, sizeof work);
    }
}

enum { INDUCTIONS_BYTES = 294 };

/* The premises of lines 8 and 9 as the rules are printed, and behind the motive, the lower of the two there are. */
static const unsigned printed[2][4] = {{4, 6, 0, 0}, {4, 4, 6, 0}};
static const unsigned cited[2][4] = {{3, 4, 6, 0}, {3, 4, 4, 6}};

/* Line 8 states term 4 = zero : Nat by rule 33, line 9 term 6 = term 4 : Nat by rule 34. Term 4 is ind(Nat, zero, zero,
 * variable 0), and term 6 has succ(zero) for its first zero. Lines 3 and 7 state Nat : U_0 in context 1, the motive. */
static size_t inductions(uint8_t *sheet, unsigned edition, const unsigned premises[2][4])
{
    static const unsigned rows[] = {
        10, 0, 0, 0, 0, 1, 0, 0, 0, 0, 2, 0, 0, 0, 0, 11, 0, 0, 0, 0,  /* terms 0 to 3: Nat, variable 0, U_0, zero */
        13, 0, 3, 3, 1, 12, 3, 0, 0, 0, 13, 0, 5, 3, 1,                /* terms 4 to 6 */
        0, 0, 1, 0,                                                    /* contexts 1 and 2 */
        0, 1, 0, 0, 0, 0, 0, 0, 0, 0, 1, 12, 0, 0, 0, 2, 0, 0, 0, 0,   /* lines 0 and 1 */
        0, 2, 1, 0, 0, 0, 0, 1, 0, 0, 1, 12, 1, 0, 0, 2, 2, 0, 0, 0,   /* lines 2 and 3 */
        1, 13, 0, 3, 0, 0, 0, 0, 0, 0, 0, 2, 2, 0, 0, 0, 2, 3, 0, 0,   /* lines 4 and 5 */
        1, 3, 2, 1, 0, 0, 5, 0, 0, 0, 1, 12, 1, 0, 0, 2, 2, 0, 0, 0    /* lines 6 and 7 */
    };
    static const unsigned last[2][6] = {{2, 33, 0, 4, 3, 0}, {2, 34, 0, 6, 4, 0}};
    uint8_t *at = sheet;
    put_words(&at, rows, sizeof rows / sizeof *rows);
    for (size_t i = 0; i < 2; i++) {
        put_words(&at, last[i], 6);
        put_words(&at, premises[i], 4);
    }
    put_trailer(&at, 7, 2, 10, edition);
    return (size_t)(at - sheet);
}

static const uint32_t induction_sizes[WORDS] = {1, 1, 1, 1, 5, 2, 6, 7};

static void admits_motives(void)
{
    static const struct {
        const char *what;
        unsigned edition, premises[2][4];
        size_t number, values[3];
    } cases[] = {
        {"edition 1, no motive", 1, {{4, 6, 0, 0}, {4, 4, 6, 0}}, MENGYUBAD_OK, {7, 2, 10}},
        {"edition 2, no motive", 2, {{4, 6, 0, 0}, {4, 4, 6, 0}}, MENGYUBAD_OK, {7, 2, 10}},
        {"edition 3, no motive", 3, {{4, 6, 0, 0}, {4, 4, 6, 0}}, MENGYUBAD_NO_INSTANCE, {8, 0, 0}},
        {"edition 3, no motive of rule 34", 3, {{3, 4, 6, 0}, {4, 4, 6, 0}}, MENGYUBAD_NO_INSTANCE, {9, 0, 0}},
        {"edition 1, motives", 1, {{3, 4, 6, 0}, {3, 4, 4, 6}}, MENGYUBAD_LINE, {8, 0, 0}},
        {"edition 2, motives", 2, {{3, 4, 6, 0}, {3, 4, 4, 6}}, MENGYUBAD_LINE, {8, 0, 0}},
        {"edition 2, motive of rule 34", 2, {{4, 6, 0, 0}, {3, 4, 4, 6}}, MENGYUBAD_LINE, {9, 0, 0}},
        {"edition 3, motives", 3, {{3, 4, 6, 0}, {3, 4, 4, 6}}, MENGYUBAD_OK, {7, 2, 10}},
        {"edition 3, later motives", 3, {{7, 4, 6, 0}, {7, 4, 4, 6}}, MENGYUBAD_OK, {7, 2, 10}},
        {"edition 3, motive and a fourth", 3, {{3, 4, 6, 1}, {3, 4, 4, 6}}, MENGYUBAD_LINE, {8, 0, 0}},
        {"edition 3, motive in context 0", 3, {{1, 4, 6, 0}, {3, 4, 4, 6}}, MENGYUBAD_NO_INSTANCE, {8, 0, 0}},
        {"edition 3, motive last", 3, {{4, 6, 3, 0}, {3, 4, 4, 6}}, MENGYUBAD_NO_INSTANCE, {8, 0, 0}},
        {"edition 3, motive of rule 34 last", 3, {{3, 4, 6, 0}, {4, 4, 6, 3}}, MENGYUBAD_NO_INSTANCE, {9, 0, 0}},
        {"edition 3, line 8 as its motive", 3, {{8, 4, 6, 0}, {3, 4, 4, 6}}, MENGYUBAD_LINE, {8, 0, 0}},
        {"edition 4, motives", 4, {{3, 4, 6, 0}, {3, 4, 4, 6}}, MENGYUBAD_MARK, {0, 0, 0}}
    };
    for (size_t i = 0; i < sizeof cases / sizeof *cases; i++) {
        uint8_t sheet[INDUCTIONS_BYTES];
        uint32_t work[WORDS];
        size_t values[3] = {9, 9, 9};
        memcpy(work, poison, sizeof work);
        expect_length(cases[i].what, inductions(sheet, cases[i].edition, cases[i].premises), INDUCTIONS_BYTES);
        const size_t number = mengyubad_admit(sheet, INDUCTIONS_BYTES, work, WORDS, values);
        const size_t *wanted = cases[i].values;
        expect(cases[i].what, number, values, cases[i].number, wanted[0], wanted[1], wanted[2]);
        expect_same(cases[i].what, work, number == MENGYUBAD_MARK ? poison : induction_sizes, sizeof work);
    }
}

static void finds(const uint8_t *s)
{
    uint32_t work[WORDS];
    size_t values[3] = {9, 9, 9};
    const uint32_t identity[5] = {1, 0, 3, 0, 4};
    const uint32_t nothing[5] = {1, 0, 3, 0, 65536 + 4};
    expect("lambda(2) : Pi(0, 0)", mengyubad_find(s, S_BYTES, work, WORDS, identity, values), values, MENGYUBAD_OK, 4, 0, 0);
    expect("no such judgment", mengyubad_find(s, S_BYTES, work, WORDS, nothing, values), values, MENGYUBAD_NOT_FOUND, 0, 0, 0);
}

/* Batches put to S, and to S with line 4 citing itself (M7). */
static void finds_all(const uint8_t *s)
{
    enum { ROOM = 8, NONE = MENGYUBAD_ABSENT };
    static const uint32_t wanted[] = {
        1, 0, 3, 0, 4, 1, 0, 3, 0, 65536 + 4, 0, 0, 0, 0, 0, 5, 0, 0, 0, 0, 1, 0, 3, 0, 4, 0, 1, 0, 0, 0, /* six */
        1, 1, 2, 0                                                                                       /* left over */
    };
    static const uint16_t lines[] = {4, NONE, 0, NONE, 4, 2};
    uint8_t m7[S_BYTES];
    memcpy(m7, s, S_BYTES);
    m7[146] = 4; /* the premise of line 4 */
    const struct {
        const char *what;
        const uint8_t *sheet;
        size_t length, words, wanted_words, room, number, value;
        const uint32_t *left;
    } cases[] = {
        {"six judgments", s, S_BYTES, 5, 30, 6, MENGYUBAD_OK, 6, sizes},
        {"six judgments, more room", s, S_BYTES, WORDS, 30, ROOM, MENGYUBAD_OK, 6, sizes},
        {"four words left over", s, S_BYTES, 5, 34, 6, MENGYUBAD_OK, 6, sizes},
        {"one word left over", s, S_BYTES, WORDS, 6, ROOM, MENGYUBAD_OK, 1, sizes},
        {"no whole judgment", s, S_BYTES, 5, 4, 0, MENGYUBAD_OK, 0, sizes},
        {"empty list", s, S_BYTES, 5, 0, 0, MENGYUBAD_OK, 0, sizes},
        {"empty list, more room", s, S_BYTES, WORDS, 0, ROOM, MENGYUBAD_OK, 0, sizes},
        {"room for five", s, S_BYTES, 5, 30, 5, MENGYUBAD_ANSWERS_SHORT, 0, sizes},
        {"room for none", s, S_BYTES, WORDS, 5, 0, MENGYUBAD_ANSWERS_SHORT, 0, sizes},
        {"batch, 15 bytes", s, 15, WORDS, 30, 6, MENGYUBAD_LENGTH, 0, poison},
        {"room for five, 15 bytes", s, 15, WORDS, 30, 5, MENGYUBAD_LENGTH, 0, poison},
        {"room for five, 4 words", s, S_BYTES, 4, 30, 5, MENGYUBAD_WORK_SHORT, 0, poison},
        {"batch, M7", m7, S_BYTES, WORDS, 30, ROOM, MENGYUBAD_LINE, 4, sizes},
        {"room for five, M7", m7, S_BYTES, 5, 30, 5, MENGYUBAD_LINE, 4, sizes},
        {"empty list, M7", m7, S_BYTES, 5, 0, 0, MENGYUBAD_LINE, 4, sizes}
    };
    for (size_t i = 0; i < sizeof cases / sizeof *cases; i++) {
        uint32_t work[WORDS];
        uint16_t answers[ROOM], left[ROOM];
        size_t values[3] = {9, 9, 9};
        memcpy(work, poison, sizeof work);
        memset(answers, 0xA5, sizeof answers);
        memset(left, 0xA5, sizeof left);
        if (cases[i].number == MENGYUBAD_OK)
            memcpy(left, lines, cases[i].value * sizeof *lines);
        const size_t number = mengyubad_find_all(cases[i].sheet, cases[i].length, work, cases[i].words, wanted,
                                                 cases[i].wanted_words, answers, cases[i].room, values);
        expect(cases[i].what, number, values, cases[i].number, cases[i].value, 0, 0);
        expect_same(cases[i].what, work, cases[i].left, sizeof work);
        expect_same(cases[i].what, answers, left, sizeof answers);
    }
}

static void withdraws(const uint8_t *s)
{
    uint32_t work[WORDS];
    uint8_t out[S_BYTES], untouched[S_BYTES], m9[S_BYTES];
    size_t values[3] = {9, 9, 9};
    memset(out, 0xA5, sizeof out);
    memset(untouched, 0xA5, sizeof untouched);
    expect("line 2", mengyubad_withdraw(s, S_BYTES, 2, work, WORDS, out, S_BYTES, values), values, MENGYUBAD_LINE_USED, 3, 0, 0);
    expect("line 5", mengyubad_withdraw(s, S_BYTES, 5, work, WORDS, out, S_BYTES, values), values, MENGYUBAD_NO_LINE, 5, 0, 0);
    expect("no room", mengyubad_withdraw(s, S_BYTES, 4, work, WORDS, out, 149, values), values, MENGYUBAD_OUT_SHORT, 0, 0, 0);
    expect_same("output after refusals", out, untouched, sizeof out);
    expect("line 4", mengyubad_withdraw(s, S_BYTES, 4, work, WORDS, out, S_BYTES, values), values, MENGYUBAD_OK, M9_BYTES, 0, 0);
    expect_length("M9", sample(m9, 4), M9_BYTES);
    expect_same("S without line 4", out, m9, M9_BYTES);
    expect_same("output beyond", out + M9_BYTES, untouched, S_BYTES - M9_BYTES);
    expect("the new sheet", mengyubad_admit(out, M9_BYTES, work, WORDS, values), values, MENGYUBAD_OK, 5, 1, 4);
}

/* S less its last lines is S with fewer lines. A list of no lines has a pointer all the same. */
static void withdraws_last_lines(const uint8_t *s)
{
    static const size_t all[] = {0, 1, 2, 3, 4};
    for (size_t count = 0; count <= 5; count++) {
        uint32_t work[WORDS];
        uint8_t out[S_BYTES + 1], wanted[S_BYTES + 1];
        size_t values[3] = {9, 9, 9};
        const size_t new_length = S_BYTES - 20 * count;
        memcpy(work, poison, sizeof work);
        memset(out, 0xA5, sizeof out);
        memset(wanted, 0xA5, sizeof wanted);
        char what[32];
        snprintf(what, sizeof what, "the last %zu lines", count);
        const size_t *last = all + 5 - count;
        size_t number = mengyubad_withdraw_set(s, S_BYTES, last, count, work, 5, out, new_length - 1, values);
        expect(what, number, values, MENGYUBAD_OUT_SHORT, 0, 0, 0);
        expect_same(what, out, wanted, sizeof out);
        expect_same(what, work, sizes, sizeof work);
        number = mengyubad_withdraw_set(s, S_BYTES, last, count, work, 5, out, new_length, values);
        expect(what, number, values, MENGYUBAD_OK, new_length, 0, 0);
        expect_length(what, sample(wanted, (unsigned)(5 - count)), new_length);
        expect_same(what, out, wanted, sizeof out);
        expect_same(what, work, sizes, sizeof work);
    }
}

/* A sheet of edition 2 over the terms Nat, U_0 and zero and the context (Nat), with so many lines. */
static size_t over_nat(uint8_t *sheet, const unsigned (*lines)[10], unsigned count)
{
    static const unsigned rows[] = {10, 0, 0, 0, 0, 2, 0, 0, 0, 0, 11, 0, 0, 0, 0, 0, 0};
    uint8_t *at = sheet;
    put_words(&at, rows, sizeof rows / sizeof *rows);
    put_words(&at, *lines, 10 * (size_t)count);
    put_trailer(&at, 3, 1, count, 2);
    return (size_t)(at - sheet);
}

/* Lines 2 to 5 state Nat = Nat at U_0, at heights 2, 3, 2, 3; lines 0 and 6 that the empty context is well formed. */
static void finds_least_heights(void)
{
    enum { BYTES = 190, COUNT = 4 };
    static const unsigned lines[7][10] = {
        {0, 1, 0, 0, 0, 0, 0, 0, 0, 0},
        {1, 12, 0, 0, 0, 1, 0, 0, 0, 0},
        {2, 17, 0, 0, 0, 1, 1, 0, 0, 0},
        {2, 18, 0, 0, 0, 1, 2, 0, 0, 0},
        {2, 17, 0, 0, 0, 1, 1, 0, 0, 0},
        {2, 18, 0, 0, 0, 1, 4, 0, 0, 0},
        {0, 1, 0, 0, 0, 0, 0, 0, 0, 0}
    };
    static const uint32_t wanted[COUNT][5] = {{2, 0, 0, 0, 1}, {0, 0, 0, 0, 0}, {1, 0, 0, 0, 1}, {2, 0, 0, 0, 0}};
    static const uint16_t found[COUNT] = {4, 6, 1, MENGYUBAD_ABSENT};
    uint8_t sheet[BYTES];
    uint32_t work[3];
    uint16_t answers[COUNT];
    size_t values[3] = {9, 9, 9};
    expect_length("seven lines", over_nat(sheet, lines, 7), BYTES);
    for (size_t i = 0; i < COUNT; i++) {
        const bool absent = found[i] == MENGYUBAD_ABSENT;
        const size_t number = mengyubad_find(sheet, BYTES, work, 3, wanted[i], values);
        expect("a judgment of several lines", number, values, absent ? MENGYUBAD_NOT_FOUND : MENGYUBAD_OK,
               absent ? 0 : found[i], 0, 0);
    }
    const size_t number = mengyubad_find_all(sheet, BYTES, work, 3, *wanted, 5 * COUNT, answers, COUNT, values);
    expect("judgments of several lines", number, values, MENGYUBAD_OK, COUNT, 0, 0);
    expect_same("judgments of several lines", answers, found, sizeof answers);
}

/* Lines 3 and 5 rest on line 1, the others on line 0. Without the former, line 2 is 1 and line 4, which cites it, 2. */
static void lowers_premises(void)
{
    enum { OLD_BYTES = 170, NEW_BYTES = 110 };
    static const unsigned lines[6][10] = {
        {0, 1, 0, 0, 0, 0, 0, 0, 0, 0},
        {0, 1, 0, 0, 0, 0, 0, 0, 0, 0},
        {1, 12, 0, 0, 0, 1, 0, 0, 0, 0},
        {1, 13, 0, 2, 0, 0, 1, 0, 0, 0},
        {0, 2, 1, 0, 0, 0, 0, 2, 0, 0},
        {1, 12, 0, 0, 0, 1, 1, 0, 0, 0}
    };
    static const unsigned kept[3][10] = {
        {0, 1, 0, 0, 0, 0, 0, 0, 0, 0},
        {1, 12, 0, 0, 0, 1, 0, 0, 0, 0},
        {0, 2, 1, 0, 0, 0, 0, 1, 0, 0}
    };
    static const size_t set[] = {1, 3, 5};
    uint8_t sheet[OLD_BYTES], wanted[NEW_BYTES], out[NEW_BYTES];
    uint32_t work[3];
    size_t values[3] = {9, 9, 9};
    expect_length("six lines", over_nat(sheet, lines, 6), OLD_BYTES);
    expect_length("three lines", over_nat(wanted, kept, 3), NEW_BYTES);
    const size_t number = mengyubad_withdraw_set(sheet, OLD_BYTES, set, 3, work, 3, out, NEW_BYTES, values);
    expect("lines 1, 3 and 5", number, values, MENGYUBAD_OK, NEW_BYTES, 0, 0);
    expect_same("without lines 1, 3 and 5", out, wanted, sizeof out);
}

/* Sets that S does not give up. */
static void refuses_sets(const uint8_t *s)
{
    static const struct {
        const char *what;
        size_t length, words, lines[3], count, room, number, place;
        const uint32_t *left;
    } cases[] = {
        {"equal lines", S_BYTES, WORDS, {4, 4}, 2, S_BYTES, MENGYUBAD_NOT_RISING, 0, sizes},
        {"falling lines", S_BYTES, 5, {4, 3}, 2, S_BYTES, MENGYUBAD_NOT_RISING, 0, sizes},
        {"falling behind", S_BYTES, 5, {2, 9, 3}, 3, 0, MENGYUBAD_NOT_RISING, 0, sizes},
        {"equal and none", S_BYTES, WORDS, {SIZE_MAX, SIZE_MAX}, 2, 0, MENGYUBAD_NOT_RISING, 0, sizes},
        {"falling, 15 bytes", 15, WORDS, {4, 3}, 2, S_BYTES, MENGYUBAD_LENGTH, 0, poison},
        {"falling, 4 words", S_BYTES, 4, {4, 3}, 2, S_BYTES, MENGYUBAD_WORK_SHORT, 0, poison},
        {"lines 4 and 5", S_BYTES, WORDS, {4, 5}, 2, S_BYTES, MENGYUBAD_NO_LINE, 5, sizes},
        {"lines 2, 5 and 9", S_BYTES, 5, {2, 5, 9}, 3, 0, MENGYUBAD_NO_LINE, 9, sizes},
        {"greatest number", S_BYTES, WORDS, {4, 65536, SIZE_MAX}, 3, S_BYTES, MENGYUBAD_NO_LINE, SIZE_MAX, sizes},
        {"lines 2 and 4", S_BYTES, WORDS, {2, 4}, 2, S_BYTES, MENGYUBAD_LINE_USED, 3, sizes},
        {"lines 0, 2 and 3", S_BYTES, 5, {0, 2, 3}, 3, 0, MENGYUBAD_LINE_USED, 4, sizes},
        {"lines 0 and 1", S_BYTES, 5, {0, 1}, 2, 0, MENGYUBAD_LINE_USED, 2, sizes},
        {"no room for none", S_BYTES, 5, {0}, 0, S_BYTES - 1, MENGYUBAD_OUT_SHORT, 0, sizes}
    };
    for (size_t i = 0; i < sizeof cases / sizeof *cases; i++) {
        uint32_t work[WORDS];
        uint8_t out[S_BYTES], untouched[S_BYTES];
        size_t values[3] = {9, 9, 9};
        memcpy(work, poison, sizeof work);
        memset(out, 0xA5, sizeof out);
        memset(untouched, 0xA5, sizeof untouched);
        const size_t number = mengyubad_withdraw_set(s, cases[i].length, cases[i].lines, cases[i].count, work,
                                                     cases[i].words, out, cases[i].room, values);
        expect(cases[i].what, number, values, cases[i].number, cases[i].place, 0, 0);
        expect_same(cases[i].what, work, cases[i].left, sizeof work);
        expect_same(cases[i].what, out, untouched, sizeof out);
    }
}

/* Of S, which has no line of rule 33 or 34, only the edition changes. */
static void converts(const uint8_t *s)
{
    uint32_t work[WORDS];
    uint8_t out[S_BYTES], wanted[S_BYTES];
    size_t values[3] = {9, 9, 9};
    memcpy(wanted, s, S_BYTES);
    wanted[S_BYTES - 10] = 3;
    const size_t number = mengyubad_convert(s, S_BYTES, work, WORDS, out, S_BYTES, values);
    expect("S to edition 3", number, values, MENGYUBAD_OK, S_BYTES, 0, 0);
    expect_same("S in edition 3", out, wanted, sizeof out);
}

static void converts_inductions(void)
{
    enum { BYTES = INDUCTIONS_BYTES, ROOM = BYTES + 1 };
    uint8_t wanted[ROOM], untouched[ROOM];
    memset(wanted, 0xA5, sizeof wanted);
    memset(untouched, 0xA5, sizeof untouched);
    expect_length("inductions", inductions(wanted, 3, cited), BYTES);
    for (unsigned edition = 1; edition <= 2; edition++) {
        for (size_t room = BYTES - 1; room <= ROOM; room++) {
            uint8_t sheet[BYTES], out[ROOM];
            uint32_t work[WORDS];
            size_t values[3] = {9, 9, 9};
            const bool fits = room >= BYTES;
            memcpy(work, poison, sizeof work);
            memset(out, 0xA5, sizeof out);
            char what[64];
            snprintf(what, sizeof what, "edition %u to %zu bytes", edition, room);
            expect_length(what, inductions(sheet, edition, printed), BYTES);
            const size_t number = mengyubad_convert(sheet, BYTES, work, 7, out, room, values);
            expect(what, number, values, fits ? MENGYUBAD_OK : MENGYUBAD_OUT_SHORT, fits ? BYTES : 0, 0, 0);
            expect_same(what, out, fits ? wanted : untouched, sizeof out);
            expect_same(what, work, induction_sizes, sizeof work);
        }
    }
}

/* Sheets that are not converted. 21 is not among the answers: an admitted sheet has its motives. */
static void refuses_conversions(void)
{
    enum { BYTES = INDUCTIONS_BYTES };
    static const unsigned first_cited[2][4] = {{3, 4, 6, 0}, {4, 4, 6, 0}};
    static const unsigned last_cited[2][4] = {{4, 6, 0, 0}, {3, 4, 4, 6}};
    static const unsigned exchanged[2][4] = {{6, 4, 0, 0}, {4, 4, 6, 0}};
    static const struct {
        const char *what;
        unsigned edition;
        const unsigned (*premises)[4];
        size_t length, words, room, number, place;
        const uint32_t *left;
    } cases[] = {
        {"from edition 3", 3, cited, BYTES, WORDS, BYTES, MENGYUBAD_NOT_EARLIER, 0, induction_sizes},
        {"from edition 3, short", 3, cited, BYTES, 7, BYTES - 1, MENGYUBAD_NOT_EARLIER, 0, induction_sizes},
        {"from edition 3, no room", 3, cited, BYTES, 7, 0, MENGYUBAD_NOT_EARLIER, 0, induction_sizes},
        {"from edition 2, no room", 2, printed, BYTES, 7, 0, MENGYUBAD_OUT_SHORT, 0, induction_sizes},
        {"from edition 1, 6 words", 1, printed, BYTES, 6, BYTES, MENGYUBAD_WORK_SHORT, 0, poison},
        {"from edition 3, 6 words", 3, cited, BYTES, 6, 0, MENGYUBAD_WORK_SHORT, 0, poison},
        {"from edition 4", 4, cited, BYTES, WORDS, BYTES, MENGYUBAD_MARK, 0, poison},
        {"15 bytes to convert", 2, printed, 15, WORDS, 0, MENGYUBAD_LENGTH, 0, poison},
        {"a motive left out", 3, first_cited, BYTES, 7, 0, MENGYUBAD_NO_INSTANCE, 9, induction_sizes},
        {"a motive in edition 2", 2, last_cited, BYTES, 7, BYTES, MENGYUBAD_LINE, 9, induction_sizes},
        {"premises exchanged", 1, exchanged, BYTES, WORDS, 0, MENGYUBAD_NO_INSTANCE, 8, induction_sizes}
    };
    for (size_t i = 0; i < sizeof cases / sizeof *cases; i++) {
        uint8_t sheet[BYTES], out[BYTES], untouched[BYTES];
        uint32_t work[WORDS];
        size_t values[3] = {9, 9, 9};
        memcpy(work, poison, sizeof work);
        memset(out, 0xA5, sizeof out);
        memset(untouched, 0xA5, sizeof untouched);
        expect_length(cases[i].what, inductions(sheet, cases[i].edition, cases[i].premises), BYTES);
        const size_t number = mengyubad_convert(sheet, cases[i].length, work, cases[i].words, out, cases[i].room,
                                                values);
        expect(cases[i].what, number, values, cases[i].number, cases[i].place, 0, 0);
        expect_same(cases[i].what, work, cases[i].left, sizeof work);
        expect_same(cases[i].what, out, untouched, sizeof out);
    }
}

/* Every term of S is normal. */
static void marks_normal(const uint8_t *s)
{
    static const struct {
        const char *what;
        size_t length, term, words, number, value;
        const uint32_t *left;
    } cases[] = {
        {"term Nat", S_BYTES, 0, WORDS, MENGYUBAD_OK, 1, sizes},
        {"term U_0", S_BYTES, 1, 5, MENGYUBAD_OK, 1, sizes},
        {"term variable 0", S_BYTES, 2, WORDS, MENGYUBAD_OK, 1, sizes},
        {"term lambda(2)", S_BYTES, 3, 5, MENGYUBAD_OK, 1, sizes},
        {"term Pi(0, 0)", S_BYTES, 4, WORDS, MENGYUBAD_OK, 1, sizes},
        {"term 5", S_BYTES, 5, WORDS, MENGYUBAD_NO_TERM, 5, sizes},
        {"term 65536", S_BYTES, 65536, 5, MENGYUBAD_NO_TERM, 65536, sizes},
        {"greatest number", S_BYTES, SIZE_MAX, WORDS, MENGYUBAD_NO_TERM, SIZE_MAX, sizes},
        {"term 0 with 4 words", S_BYTES, 0, 4, MENGYUBAD_WORK_SHORT, 0, poison},
        {"term 5 with 4 words", S_BYTES, 5, 4, MENGYUBAD_WORK_SHORT, 0, poison},
        {"term 5 of 15 bytes", 15, 5, WORDS, MENGYUBAD_LENGTH, 0, poison}
    };
    for (size_t i = 0; i < sizeof cases / sizeof *cases; i++) {
        uint32_t work[WORDS];
        size_t values[3] = {9, 9, 9};
        memcpy(work, poison, sizeof work);
        const size_t number = mengyubad_normal(s, cases[i].length, cases[i].term, work, cases[i].words, values);
        expect(cases[i].what, number, values, cases[i].number, cases[i].value, 0, 0);
        expect_same(cases[i].what, work, cases[i].left, sizeof work);
    }
}

/* A sheet of terms alone. */
static void marks_normal_alone(void)
{
    static const struct {
        const char *what;
        unsigned row[5];
        uint32_t size;
        size_t normal;
    } terms[] = {
        {"variable 0", {1, 0, 0, 0, 0}, 1, 1},
        {"zero", {11, 0, 0, 0, 0}, 1, 1},
        {"Nat", {10, 0, 0, 0, 0}, 1, 1},
        {"lambda(0)", {4, 0, 0, 0, 0}, 2, 1},
        {"(zero, zero)", {7, 1, 1, 0, 0}, 3, 1},
        {"succ(zero)", {12, 1, 0, 0, 0}, 2, 1},
        {"zero zero", {5, 1, 1, 0, 0}, 3, 0},
        {"(lambda 0) zero", {5, 3, 1, 0, 0}, 4, 0},
        {"first((zero, zero))", {8, 4, 0, 0, 0}, 4, 0},
        {"second((zero, zero))", {9, 4, 0, 0, 0}, 4, 0},
        {"ind with zero", {13, 2, 1, 1, 0}, 5, 0},
        {"ind with succ(zero)", {13, 2, 5, 1, 0}, 6, 0},
        {"ind with variable 0", {13, 2, 0, 1, 0}, 5, 1},
        {"variable 0 at zero", {5, 0, 1, 0, 0}, 3, 1},
        {"variable 0 at zero zero", {5, 0, 6, 0, 0}, 5, 0},
        {"lambda(zero zero)", {4, 6, 0, 0, 0}, 4, 0},
        {"first of ind with variable 0", {8, 12, 0, 0, 0}, 6, 1},
        {"ind with zero zero as its step", {13, 2, 0, 1, 6}, 7, 0}
    };
    enum { TERMS = sizeof terms / sizeof *terms, BYTES = 10 * TERMS + 16 };
    uint8_t sheet[BYTES], *at = sheet;
    uint32_t left[TERMS + 1] = {[TERMS] = 7};
    for (size_t i = 0; i < 5 * TERMS; i++)
        put_word(&at, terms[i / 5].row[i % 5]);
    put_trailer(&at, TERMS, 0, 0, 1);
    for (size_t term = 0; term < TERMS; term++)
        left[term] = terms[term].size;
    for (size_t term = 0; term < TERMS; term++) {
        uint32_t work[TERMS + 1] = {[TERMS] = 7};
        size_t values[3] = {9, 9, 9};
        const size_t number = mengyubad_normal(sheet, BYTES, term, work, TERMS + 1, values);
        expect(terms[term].what, number, values, MENGYUBAD_OK, terms[term].normal, 0, 0);
        expect_same(terms[term].what, work, left, sizeof work);
    }
}

static void numbers_days(void)
{
    static const struct {
        uint32_t date[3];
        size_t number, day;
    } cases[] = {
        {{1970, 1, 1}, MENGYUBAD_OK, 0},
        {{1970, 1, 2}, MENGYUBAD_OK, 1},
        {{2000, 2, 28}, MENGYUBAD_OK, 11015}, /* no neighbours */
        {{2000, 3, 1}, MENGYUBAD_OK, 11017},
        {{2100, 2, 28}, MENGYUBAD_OK, 47540}, /* neighbours */
        {{2100, 3, 1}, MENGYUBAD_OK, 47541},
        {{2199, 12, 31}, MENGYUBAD_OK, 84005},
        {{2100, 2, 29}, MENGYUBAD_NO_DATE, 0},
        {{1969, 12, 31}, MENGYUBAD_NO_DATE, 0},
        {{2200, 1, 1}, MENGYUBAD_NO_DATE, 0},
        {{0, 1, 1}, MENGYUBAD_NO_DATE, 0},
        {{1970, 0, 1}, MENGYUBAD_NO_DATE, 0},
        {{1970, 1, 0}, MENGYUBAD_NO_DATE, 0},
        {{UINT32_MAX, 1, 1}, MENGYUBAD_NO_DATE, 0},
        {{1970, UINT32_MAX, 1}, MENGYUBAD_NO_DATE, 0},
        {{1970, 1, UINT32_MAX}, MENGYUBAD_NO_DATE, 0},
        {{65536 + 1970, 1, 1}, MENGYUBAD_NO_DATE, 0},
        {{1970, 65536 + 1, 1}, MENGYUBAD_NO_DATE, 0},
        {{1970, 1, 65536 + 1}, MENGYUBAD_NO_DATE, 0}
    };
    for (size_t i = 0; i < sizeof cases / sizeof *cases; i++) {
        const uint32_t *date = cases[i].date;
        size_t values[3] = {9, 9, 9};
        char what[48];
        snprintf(what, sizeof what, "day %" PRIu32 "-%" PRIu32 "-%" PRIu32, date[0], date[1], date[2]);
        expect(what, mengyubad_day_number(date, values), values, cases[i].number, cases[i].day, 0, 0);
    }
}

static void asks_windows(void)
{
    static const struct {
        const char *what;
        uint32_t dates[3][3]; /* the first, the last, the one asked */
        size_t number, open;
    } cases[] = {
        {"all days", {{1970, 1, 1}, {2199, 12, 31}, {2024, 2, 29}}, MENGYUBAD_OK, 1},
        {"first day", {{2000, 2, 28}, {2000, 3, 1}, {2000, 2, 28}}, MENGYUBAD_OK, 1},
        {"last day", {{2000, 2, 28}, {2000, 3, 1}, {2000, 3, 1}}, MENGYUBAD_OK, 1},
        {"day before", {{2000, 2, 28}, {2000, 3, 1}, {2000, 2, 27}}, MENGYUBAD_OK, 0},
        {"day after", {{2000, 2, 28}, {2000, 3, 1}, {2000, 3, 2}}, MENGYUBAD_OK, 0},
        {"window of a day", {{2100, 3, 1}, {2100, 3, 1}, {2100, 3, 1}}, MENGYUBAD_OK, 1},
        {"last before first", {{2100, 3, 1}, {2100, 2, 28}, {2100, 3, 1}}, MENGYUBAD_NO_DAYS, 0},
        {"no first date", {{2100, 2, 29}, {2100, 3, 1}, {2100, 3, 1}}, MENGYUBAD_NO_DATE, 0},
        {"no last date", {{2100, 3, 1}, {2100, 2, 29}, {2100, 3, 1}}, MENGYUBAD_NO_DATE, 0},
        {"no date asked", {{2100, 3, 1}, {2100, 2, 28}, {2100, 2, 29}}, MENGYUBAD_NO_DATE, 0}
    };
    for (size_t i = 0; i < sizeof cases / sizeof *cases; i++) {
        const uint32_t(*dates)[3] = cases[i].dates;
        size_t values[3] = {9, 9, 9};
        const size_t number = mengyubad_window(dates[0], dates[1], dates[2], values);
        expect(cases[i].what, number, values, cases[i].number, cases[i].open, 0, 0);
    }
    /* What is only read may overlap. */
    const uint32_t day[3] = {2024, 2, 29};
    size_t values[3] = {9, 9, 9};
    const size_t number = mengyubad_window(day, day, day, values);
    expect("one date for all three", number, values, MENGYUBAD_OK, 1, 0, 0);
}

int main(void)
{
    uint8_t s[S_BYTES];
    expect_length("S", sample(s, 5), S_BYTES);
    admits(s);
    admits_editions();
    admits_motives();
    finds(s);
    finds_all(s);
    finds_least_heights();
    withdraws(s);
    withdraws_last_lines(s);
    lowers_premises();
    refuses_sets(s);
    converts(s);
    converts_inductions();
    refuses_conversions();
    marks_normal(s);
    marks_normal_alone();
    numbers_days();
    asks_windows();
    return failures != 0;
}
