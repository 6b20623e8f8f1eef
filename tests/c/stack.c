/*
 * Measures the stack that admission, a search, a batch of searches, the withdrawal of a set of lines, a conversion and
 * the marking of a normal term take, on a stack of its own that is painted before each call. With no argument it prints
 * nothing, and it fails if the header's figure does not cover 3,072 levels; with one it prints what it measured.
 *
 * Terms are walked by recursion. Each level of a typed term has a line of its own, so that the lines of a sheet allow a
 * term of some thousand levels. Two sheets are built over c, which is succ^n of a variable: E-APPABS substitutes in c
 * alone, and E-INDSUC puts for y an ind that holds c again, so that its walk goes through c twice, the second time only
 * to raise it. What 3,072 levels would take follows from the greater growth.
 *
 * A term need not be typed to be marked, so that sheets of terms alone have all 3,072 levels. Where a neutral term is a
 * part that must be normal, a level is asked twice: whether it is normal, and then whether it is neutral.
 */
#define _GNU_SOURCE
#include <stdio.h>
#include <string.h>
#include <ucontext.h>

#include "mengyubad.h"

enum { PAINT = 0xA5, MOST_LEVELS = 3072, LEVELS = 1016 };

static uint8_t stack[8 * 1024 * 1024];
static uint8_t sheet[MENGYUBAD_MOST_BYTES];
static size_t length;
static unsigned terms, contexts, lines;
static int succeeded;
static ucontext_t here, there;

static void put_word(unsigned word)
{
    sheet[length++] = (uint8_t)(word % 256);
    sheet[length++] = (uint8_t)(word / 256);
}

static void put_words(const unsigned *words, size_t count)
{
    for (size_t i = 0; i < count; i++)
        put_word(words[i]);
}

static unsigned term(unsigned tag, unsigned a, unsigned b, unsigned c, unsigned d)
{
    const unsigned row[] = {tag, a, b, c, d};
    put_words(row, 5);
    return terms++;
}

static unsigned line(unsigned form, unsigned rule, unsigned context, unsigned s1, unsigned s2, unsigned s3, unsigned p,
                     unsigned q, unsigned r)
{
    const unsigned row[] = {form, rule, context, s1, s2, s3, p, q, r, 0};
    put_words(row, 10);
    return lines++;
}

/* The rows of succ^count over a row, one behind the other: the last of them. */
static unsigned successors(unsigned row, unsigned count)
{
    for (unsigned i = 0; i < count; i++)
        row = term(12, row, 0, 0, 0);
    return row;
}

static void clear(void)
{
    length = terms = contexts = lines = 0;
}

enum { NAT, UNIVERSE, ZERO, VARIABLE, FIRST_SUCCESSOR };

/* The rows that both sheets have, Nat, U_0, zero, variable 0 and succ^n of that: the row of c. */
static unsigned begin(unsigned n)
{
    clear();
    term(10, 0, 0, 0, 0);
    term(2, 0, 0, 0, 0);
    term(11, 0, 0, 0, 0);
    term(1, 0, 0, 0, 0);
    return successors(VARIABLE, n);
}

/* Contexts, each the one before with Nat added, and lines that type succ^n of variable 0 in the last: the last line. */
static unsigned typed(unsigned n, unsigned count)
{
    for (; contexts < count; contexts++) {
        put_word(contexts);
        put_word(NAT);
    }
    unsigned above = line(0, 1, 0, 0, 0, 0, 0, 0, 0);
    for (unsigned context = 0; context < count; context++)
        above = line(0, 2, context + 1, 0, 0, 0, above, line(1, 12, context, NAT, 0, UNIVERSE, above, 0, 0), 0);
    above = line(1, 3, count, VARIABLE, 0, NAT, above, 0, 0);
    for (unsigned i = 0; i < n; i++)
        above = line(1, 14, count, FIRST_SUCCESSOR + i, 0, NAT, above, 0, 0);
    return above;
}

static void end(void)
{
    const unsigned to_lines = 20 * lines, to_contexts = to_lines + 4 * contexts, to_terms = to_contexts + 10 * terms;
    const unsigned trailer[] = {terms, contexts, lines, 1, to_terms, to_contexts, to_lines, 0x4C44};
    put_words(trailer, 8);
}

/* (lambda c) zero = c[zero] : Nat */
static void build_application(unsigned n)
{
    const unsigned c = begin(n), result = successors(ZERO, n), applied = term(5, term(4, c, 0, 0, 0), ZERO, 0, 0);
    const unsigned body = typed(n, 1), argument = line(1, 13, 0, ZERO, 0, NAT, 0, 0, 0);
    line(2, 30, 0, applied, result, NAT, argument, body, 0);
    end();
}

/* ind(Nat, succ zero, zero, c) = c[x:=zero, y:=ind(Nat, zero, zero, c)] : Nat */
static void build_induction(unsigned n)
{
    const unsigned c = begin(n), whole = term(13, NAT, successors(ZERO, 1), ZERO, c);
    const unsigned result = successors(term(13, NAT, ZERO, ZERO, c), n);
    const unsigned step = typed(n, 2), zero = line(1, 13, 0, ZERO, 0, NAT, 0, 0, 0);
    line(2, 34, 0, whole, result, NAT, zero, zero, step);
    end();
}

/* n rows, each behind the first the application of variable 0 to the row before. */
static void build_arguments(unsigned n)
{
    clear();
    term(1, 0, 0, 0, 0);
    while (terms < n)
        term(5, 0, terms - 1, 0, 0);
    end();
}

/* The same, with the row before as the step of an ind of variable 0. */
static void build_steps(unsigned n)
{
    clear();
    term(1, 0, 0, 0, 0);
    while (terms < n)
        term(13, 0, 0, 0, terms - 1);
    end();
}

static uint32_t work[MENGYUBAD_MOST_TERMS];

static void admit(void)
{
    size_t values[3];
    succeeded = mengyubad_admit(sheet, length, work, MENGYUBAD_MOST_TERMS, values) == MENGYUBAD_OK;
}

/* Finds the judgment of line 0. */
static void find(void)
{
    static const uint32_t wanted[5];
    size_t values[3];
    const size_t number = mengyubad_find(sheet, length, work, MENGYUBAD_MOST_TERMS, wanted, values);
    succeeded = number == MENGYUBAD_OK && values[0] == 0;
}

/* Finds it twice. */
static void find_all(void)
{
    static const uint32_t wanted[10];
    uint16_t answers[2];
    size_t values[3];
    const size_t number = mengyubad_find_all(sheet, length, work, MENGYUBAD_MOST_TERMS, wanted, 10, answers, 2, values);
    succeeded = number == MENGYUBAD_OK && values[0] == 2 && answers[0] == 0 && answers[1] == 0;
}

static uint8_t out[MENGYUBAD_MOST_BYTES];

/* Withdraws all lines. */
static void withdraw(void)
{
    static size_t all[1024];
    size_t values[3];
    for (size_t i = 0; i < lines; i++)
        all[i] = i;
    const size_t number = mengyubad_withdraw_set(sheet, length, all, lines, work, MENGYUBAD_MOST_TERMS, out,
                                                 sizeof out, values);
    succeeded = number == MENGYUBAD_OK && values[0] == length - 20 * (size_t)lines;
}

/* Converts the sheet, of edition 1. */
static void convert(void)
{
    size_t values[3];
    const size_t number = mengyubad_convert(sheet, length, work, MENGYUBAD_MOST_TERMS, out, sizeof out, values);
    succeeded = number == MENGYUBAD_OK && values[0] == length;
}

/* Asks for the last term. */
static void mark(void)
{
    size_t values[3];
    const size_t number = mengyubad_normal(sheet, length, terms - 1, work, MENGYUBAD_MOST_TERMS, values);
    succeeded = number == MENGYUBAD_OK && values[0] == 1;
}

/* The bytes of stack that a call on a sheet takes; 0 if it does not succeed. */
static size_t taken(void (*call)(void), void (*build)(unsigned), unsigned n)
{
    build(n);
    memset(stack, PAINT, sizeof stack);
    getcontext(&there);
    there.uc_stack.ss_sp = stack;
    there.uc_stack.ss_size = sizeof stack;
    there.uc_link = &here;
    makecontext(&there, call, 0);
    swapcontext(&here, &there);
    size_t untouched = 0;
    while (untouched < sizeof stack && stack[untouched] == PAINT)
        untouched++;
    return succeeded ? sizeof stack - untouched : 0;
}

static size_t greater(size_t a, size_t b)
{
    return a > b ? a : b;
}

/* What a call that begins with admission takes at 3,072 levels; 0 if it does not succeed, or takes no stack. */
static size_t admission(const char *what, void (*call)(void), int told)
{
    const size_t flat = taken(call, build_application, 0), once = taken(call, build_application, LEVELS);
    const size_t twice = taken(call, build_induction, LEVELS);
    if (flat == 0 || once <= flat || twice <= once)
        return 0;
    const size_t whole = flat + greater(once - flat, twice - once) * MOST_LEVELS / LEVELS;
    if (told)
        printf("%s: no level %zu, %d levels %zu, twice as many %zu, so %d levels %zu bytes\n", what, flat, LEVELS,
               once, twice, MOST_LEVELS, whole);
    return whole;
}

/* What the marking of a normal term takes at 3,072 levels; 0 if it is not marked. */
static size_t marking(int told)
{
    const size_t arguments = taken(mark, build_arguments, MOST_LEVELS), steps = taken(mark, build_steps, MOST_LEVELS);
    if (told)
        printf("marking: %d levels of applications %zu, of inductions %zu bytes\n", MOST_LEVELS, arguments, steps);
    return arguments == 0 || steps == 0 ? 0 : greater(arguments, steps);
}

static int is_covered(const char *what, size_t bytes)
{
    if (bytes == 0)
        fprintf(stderr, "stack: %s fails, or takes no stack\n", what);
    else if (bytes > MENGYUBAD_STACK_BYTES)
        fprintf(stderr, "stack: %s at %d levels takes %zu bytes, over %d\n", what, MOST_LEVELS, bytes,
                MENGYUBAD_STACK_BYTES);
    return bytes != 0 && bytes <= MENGYUBAD_STACK_BYTES;
}

int main(int argc, char **argv)
{
    (void)argv;
    const int told = argc > 1;
    const int admitted = is_covered("admission", admission("admission", admit, told));
    const int found = is_covered("a search", admission("search", find, told));
    const int answered = is_covered("a batch", admission("batch", find_all, told));
    const int withdrawn = is_covered("withdrawal", admission("withdrawal", withdraw, told));
    const int converted = is_covered("conversion", admission("conversion", convert, told));
    const int marked = is_covered("marking", marking(told));
    return admitted && found && answered && withdrawn && converted && marked ? 0 : 1;
}
