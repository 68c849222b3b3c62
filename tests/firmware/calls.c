#include "calls.h"

#include <stdio.h>
#include <stdlib.h>

#define ROW_LENGTH (USHNAZAR_MOST_ENTRIES / USHNAZAR_MOST_ROWS)

struct sheet sheet;
char text[2 * USHNAZAR_MOST_TEXT];
size_t text_length;

static double high[USHNAZAR_MOST_VARIABLES], low[USHNAZAR_MOST_VARIABLES];
static double magnitudes[USHNAZAR_MOST_VARIABLES], errors[USHNAZAR_MOST_VARIABLES];
static uint32_t terms[USHNAZAR_MOST_VARIABLES];
uint8_t answer[USHNAZAR_MOST_ANSWER];

__typeof__(&sheet_verdict) volatile sheet_function = sheet_verdict;
__typeof__(&weigh_text) volatile text_function = weigh_text;
__typeof__(&cdouble_add) volatile add_function = cdouble_add;
__typeof__(&cdouble_add_scaled) volatile scaled_function = cdouble_add_scaled;
struct ushnazar_answer weighed;
struct ushnazar_cdouble sum, factor;
double term;
size_t answer_length;

void call_sheet(void)
{
    const struct sheet *s = &sheet;
    size_t n = s->structurals + s->rows;
    size_t most = USHNAZAR_MOST_VARIABLES;
    weighed = sheet_function(
        s->widened, s->widened_count,
        s->rows, s->structurals, s->entry_count, s->feasibility, s->checked, s->leaving_row, s->leaving_up,
        high, most, low, most, magnitudes, most, terms, most, errors, most,
        s->starts, s->rows + 1, s->columns, s->entry_count, s->entries, s->entry_count,
        s->right_sides, s->rows, s->scales, s->rows, s->integer, s->structurals,
        s->mins, n, s->maxs, n, s->low_tolerances, n, s->high_tolerances, n,
        s->basic, n, s->places, n, s->values, n,
        s->rho_hi, s->rows, s->rho_lo, s->rows, s->second, s->rows);
}

void call_text(void)
{
    answer_length = text_function((const uint8_t *)text, text_length, answer, sizeof answer);
}

/* These functions take so little of the stack that the end of a call on a stack of its own (stack.c) may write lower. The
   room lies between them and the stack's top. */
enum { ROOM = 256 };

void call_add(void)
{
    volatile char room[ROOM];
    room[0] = 0;
    add_function(&sum, term);
    (void)room[0];
}

void call_scaled(void)
{
    volatile char room[ROOM];
    room[0] = 0;
    scaled_function(&sum, factor, term);
    (void)room[0];
}

static void make_for_slices(enum numbers numbers, enum multipliers multipliers, enum widened widened)
{
    make_sheet(&sheet, ROW_LENGTH, numbers, multipliers, widened);
}

/* Rows as long as the text's limit allows. */
static void make_for_text(enum numbers numbers, enum multipliers multipliers, enum widened widened)
{
    size_t row_length = ROW_LENGTH;
    do {
        make_sheet(&sheet, row_length--, numbers, multipliers, widened);
        shorten_sheet(&sheet);
        text_length = write_sheet(&sheet, text, sizeof text);
    } while (row_length > 0 && text_length > USHNAZAR_MOST_TEXT);
}

static void each(void (*make)(enum numbers, enum multipliers, enum widened), void (*visit)(const char *words))
{
    for (int numbers = 0; numbers < NUMBERS; numbers++) {
        for (int multipliers = 0; multipliers < MULTIPLIERS; multipliers++) {
            for (int widened = 0; widened < WIDENED; widened++) {
                make(numbers, multipliers, widened);
                visit(sheet_words(numbers, multipliers, widened));
            }
        }
    }
}

void each_sheet(void (*visit)(const char *words))
{
    each(make_for_slices, visit);
}

void each_text(void (*visit)(const char *words))
{
    each(make_for_text, visit);
}

static void (*visit_sum)(const char *words);

static void take_numbers(const char *words)
{
    sum.hi = sheet.entries[0];
    sum.lo = sheet.rho_lo[0];
    factor.hi = sheet.rho_hi[1];
    factor.lo = sheet.rho_lo[1];
    term = sheet.entries[1];
    visit_sum(words);
}

void each_sum(void (*visit)(const char *words))
{
    visit_sum = visit;
    each_sheet(take_numbers);
}

void must(int fact, const char *what)
{
    if (!fact) {
        fprintf(stderr, "firmware: %s\n", what);
        exit(1);
    }
}
