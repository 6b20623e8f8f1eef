/*
 * Mengyubad: admission of derivation sheets, finding of a judgment or a batch of judgments, withdrawal of a line or a
 * set of lines, conversion to edition 3, marking of normal terms, day numbers and reading windows.
 *
 * Link libmengyubad.a (`rt lib` in crates/mengyubad writes it to out/; x86-64). What each function answers and
 * leaves in the buffers is proved: the contracts stand in crates/mengyubad/src/lib.rt, and the comments here say them
 * in words. docs/FORMAT.md describes sheets, of editions 1 to 3, normal terms and dates.
 *
 * What C owes: no pointer is null, even where its length is 0; each points to as many elements as its length says; a
 * buffer that is written overlaps no other; MENGYUBAD_STACK_BYTES of stack are free. Any bytes, lengths and numbers may
 * be handed over. The functions have no state of their own, allocate nothing and keep no pointer.
 *
 * Stack: terms are walked by recursion, at most 3,072 levels deep. Measured on admission, which the other functions on
 * sheets begin with, by tests/c/stack.c: a level takes 128 bytes where a term is substituted in and fewer where it is
 * raised, and the rest 13 KB, so that 3,072 levels take 406 KB. The deepest walk of a sheet that it builds, some 2,030
 * levels, takes 240 KB. A search takes 4.3 KB more and a batch 2.3 KB, for the heights of the lines; withdrawal, of a
 * line or of a set, takes 5 KB more, and conversion 6.3 KB, which is 412 KB at 3,072 levels. A normal term of 3,072
 * levels is marked in 396 KB, measured there too. The two functions on dates walk no terms and need little stack.
 *
 * Every function returns 0, or the number of a refusal, and sets all three words of `values`:
 *   0       mengyubad_admit: T, C, L; mengyubad_find: the line, 0, 0; mengyubad_find_all: the number of judgments,
 *           0, 0; mengyubad_withdraw, mengyubad_withdraw_set, mengyubad_convert: the new length, 0, 0;
 *           mengyubad_normal: 1 for yes or 0 for no, 0, 0; mengyubad_day_number: the day number, 0, 0;
 *           mengyubad_window: 1 for open or 0 for closed, 0, 0
 *   1 to 21 the place, 0, 0
 *
 * The work buffer takes the sizes of the terms, one word each; MENGYUBAD_MOST_TERMS words serve every sheet. What it
 * held does not matter. Afterwards:
 *   refusals 1 to 4           all of it is as it was
 *   refusals 5 to 7 at term k its first k words are the sizes of terms 0 to k - 1
 *   otherwise                 its first T words are the sizes of all terms
 * Words beyond these are as they were.
 *
 * A date is an array of year, month, day in the Gregorian calendar, 1970 to 2199. Its day number counts from 1 January
 * 1970, which is 0, to 31 December 2199, which is 84,005.
 */
#ifndef MENGYUBAD_H
#define MENGYUBAD_H

#include <stddef.h>
#include <stdint.h>

#ifdef __cplusplus
extern "C" {
#endif

/* Limits of the format: the terms of a sheet, and its bytes. */
enum { MENGYUBAD_MOST_TERMS = 3072, MENGYUBAD_MOST_BYTES = 52240 };

/* The stack that a call may take. */
enum { MENGYUBAD_STACK_BYTES = 786432 };

/* What the functions return. The comment names the place. */
enum mengyubad_number {
    MENGYUBAD_OK = 0,
    MENGYUBAD_LENGTH = 1,           /* length under 16 or over 52,240: 0 */
    MENGYUBAD_MARK = 2,             /* wrong mark, or an edition that is not defined, 1 to 3 being defined: 0 */
    MENGYUBAD_COUNTS = 3,           /* a count over its limit, or distances or length disagree with the counts: 0 */
    MENGYUBAD_WORK_SHORT = 4,       /* work buffer under T words: 0 */
    MENGYUBAD_TERM = 5,             /* term row breaks tag, operand or range: the term */
    MENGYUBAD_TERM_REPEATED = 6,    /* term row equals an earlier one: the term */
    MENGYUBAD_TERM_SIZE = 7,        /* size over 65,535: the term */
    MENGYUBAD_CONTEXT = 8,          /* context row: parent, type number or repetition: the context, from 1 on */
    MENGYUBAD_LINE = 9,             /* form, rule not of the edition (1: 1 to 43, 2 and 3: 1 to 67), range, form 4 to
                                       6 (rules 44 to 67) outside context 0, unused field, or a premise not earlier:
                                       the line */
    MENGYUBAD_NO_INSTANCE = 10,     /* line is no instance of its rule, which for 33 and 34 has the motive as first
                                       premise in edition 3: the line */
    MENGYUBAD_NO_LINE = 11,         /* withdrawal, no such line: the number given, of a set the highest */
    MENGYUBAD_LINE_USED = 12,       /* withdrawal, a later line uses it as a premise: the lowest such line; of a set,
                                       the highest listed line that an unlisted one uses: the lowest such unlisted
                                       line */
    MENGYUBAD_OUT_SHORT = 13,       /* withdrawal or conversion, output under the new length: 0 */
    MENGYUBAD_NOT_FOUND = 14,       /* finding, no line has those five numbers: 0 */
    MENGYUBAD_NO_DATE = 15,         /* a date that does not exist, or outside 1970 to 2199: 0 */
    MENGYUBAD_NO_DAYS = 16,         /* a window whose last date is before its first: 0 */
    MENGYUBAD_NO_TERM = 17,         /* a term number not below T: the term number */
    MENGYUBAD_NOT_RISING = 18,      /* withdrawal of a set, a list of lines that does not rise strictly: 0 */
    MENGYUBAD_ANSWERS_SHORT = 19,   /* batch, fewer words for answers than judgments: 0 */
    MENGYUBAD_NOT_EARLIER = 20,     /* conversion, a sheet of edition 3 already: 0 */
    MENGYUBAD_NO_MOTIVE = 21        /* conversion, a line of rule 33 or 34 without an earlier line that gives its P a
                                       universe in G,Nat: the lowest such line. No sheet that is admitted has one */
};

/* A batch's answer for a judgment that no line states. */
enum { MENGYUBAD_ABSENT = 65535 };

/* Admits a sheet. Returns 0 or 1 to 10. */
size_t mengyubad_admit(const uint8_t *sheet, size_t sheet_length, uint32_t *work, size_t work_words, size_t values[3]);

/*
 * Admits a sheet, then finds the line whose form (0 to 6), context, s1, s2 and s3 are the five numbers wanted, as they
 * stand in the sheet: of several such lines the one of least height, and of those the one with the highest number. A
 * line's height is 0 if its rule has no premise, else one more than the greatest height among the lines that it cites.
 * Returns 0, 1 to 10, or 14.
 */
size_t mengyubad_find(const uint8_t *sheet, size_t sheet_length, uint32_t *work, size_t work_words,
                      const uint32_t wanted[5], size_t values[3]);

/*
 * Admits a sheet once, then finds each judgment of a list. `wanted` has five words for each, as mengyubad_find takes
 * them; words that make no whole judgment do not count. Word i of `answers` is the line that mengyubad_find gives for
 * judgment i, or MENGYUBAD_ABSENT where that gives 14. Returns 0, 1 to 10, or 19 if `answers` has fewer words than
 * there are judgments; for an empty list it may have none. Words of `answers` beyond the list are as they were, and on
 * any refusal so is all of `answers`.
 */
size_t mengyubad_find_all(const uint8_t *sheet, size_t sheet_length, uint32_t *work, size_t work_words,
                          const uint32_t *wanted, size_t wanted_words, uint16_t *answers, size_t answer_words,
                          size_t values[3]);

/*
 * Admits a sheet, then writes it to `out` without line `line`: premises above the line are lowered by 1, the count of
 * lines and the three distances are lowered; the edition stays. Returns 0, 1 to 10, or 11 to 13. The new sheet is the
 * output up to the new length, which is 20 below the old length; bytes of `out` beyond it are as they were, and on any
 * refusal so is all of `out`.
 */
size_t mengyubad_withdraw(const uint8_t *sheet, size_t sheet_length, size_t line, uint32_t *work, size_t work_words,
                          uint8_t *out, size_t out_length, size_t values[3]);

/*
 * Admits a sheet, then writes it to `out` without the `count` lines that are listed, whose numbers rise strictly. It is
 * what single withdrawals give from the highest number down, each with room enough: a premise is lowered by the number
 * of listed lines below it, the count of lines by `count`, the distances accordingly; the edition stays. An empty list
 * gives the sheet itself. Returns 0, 1 to 10, then 18, 11, 12 or 13, the first of these: 12 has its place in the old
 * numbering, and 13 is measured against the length without all of the lines, which is 20 * count below the old one.
 * Bytes of `out` beyond the new length are as they were, and on any refusal so is all of `out`.
 */
size_t mengyubad_withdraw_set(const uint8_t *sheet, size_t sheet_length, const size_t *lines, size_t count,
                              uint32_t *work, size_t work_words, uint8_t *out, size_t out_length, size_t values[3]);

/*
 * Admits a sheet of edition 1 or 2, then writes it to `out` in edition 3. A line of rule 33 or 34 states in a context G
 * what ind(P, a, b, c) equals; it gets as its first premise the lowest earlier line of form 1 that gives P some
 * universe in G,Nat, and the premises that it has move one place on. Nothing else differs but the edition, so that the
 * length is the same and every line keeps its number and its judgment; what is written is admitted. Returns 0, 1 to 10,
 * then 20, 21 or 13, the first of these. Bytes of `out` beyond the length are as they were, and on any refusal so is
 * all of `out`.
 */
size_t mengyubad_convert(const uint8_t *sheet, size_t sheet_length, uint32_t *work, size_t work_words, uint8_t *out,
                         size_t out_length, size_t values[3]);

/*
 * Admits a sheet, then says whether the term with number `term` is normal. Lambda, pair, Pi, Sigma, succ, universe, Nat
 * and zero are normal if their parts are. A neutral term is normal: a variable; or an application whose function, a
 * projection whose argument or an ind whose number is neutral, its other parts being normal. No beta step applies at
 * any place in a normal term. Returns 0, 1 to 10, or 17.
 */
size_t mengyubad_normal(const uint8_t *sheet, size_t sheet_length, size_t term, uint32_t *work, size_t work_words,
                        size_t values[3]);

/* Gives a date its day number. Returns 0 or 15. */
size_t mengyubad_day_number(const uint32_t date[3], size_t values[3]);

/*
 * Says whether a reading window is open on a day: it is from `first` to `last`, both days included. Returns 0, 15 for
 * any of the three dates, or, only if all three exist, 16.
 */
size_t mengyubad_window(const uint32_t first[3], const uint32_t last[3], const uint32_t day[3], size_t values[3]);

#ifdef __cplusplus
}
#endif

#endif
