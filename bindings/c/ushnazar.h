/*
 * The verdict on a declined order: whether a sheet, that is the solver's rows, ranges, basis and multipliers, shows that no
 * bake can fill the order book. Decline an order only where `declined` is true.
 *
 * Link with libushnazar.a (x86-64 Linux). C99 or C++. docs/FIRMWARE.md has stack depth, instruction counts, and how to
 * make the archive again.
 *
 * What is lent. Each list is two arguments: where it begins, and how many places it has. Lists are lent for the call and
 * nothing is kept after it. Each begins at an address that its type may have, and is not null, even with no place. The
 * lists written to overlap no other list. All other lists are only read, and may overlap each other.
 *
 * No heap, no locks, no state between calls, no callbacks: two threads may call at once, each with its own lists to write
 * to. Every input is answered; the caller owes nothing but the lists themselves. The processor is to be in the state in
 * which C programs start: round to nearest, subnormal numbers neither flushed nor taken as zero.
 */
#ifndef USHNAZAR_H
#define USHNAZAR_H

#include <stdbool.h>
#include <stddef.h>
#include <stdint.h>

#ifdef __cplusplus
extern "C" {
#endif

/* The limits of a sheet. Its variables are the structural ones and one slack for each row. */
#define USHNAZAR_MOST_ROWS 128
#define USHNAZAR_MOST_STRUCTURALS 256
#define USHNAZAR_MOST_VARIABLES (USHNAZAR_MOST_ROWS + USHNAZAR_MOST_STRUCTURALS)
#define USHNAZAR_MOST_ENTRIES 4096
/* No more items can be widened: two sides of each variable. */
#define USHNAZAR_MOST_WIDENED (2 * USHNAZAR_MOST_VARIABLES)
/* The limit of a sheet's text, in bytes. */
#define USHNAZAR_MOST_TEXT 65536
/* So many places always hold the answer's text. */
#define USHNAZAR_MOST_ANSWER 256

/* The question that a sheet fails. They are asked in this order, and the first "no" is the answer. */
enum ushnazar_refusal {
    /* No question refuses the sheet: there is a verdict. */
    USHNAZAR_ACCEPTED = 0,
    /* Does the file follow the sheet form, in at most 65,536 bytes? (weigh_text only) */
    USHNAZAR_FORM = 1,
    /* Are there 1 to 128 rows, 0 to 256 structural variables, at most 4,096 entries? */
    USHNAZAR_SIZES = 2,
    /* Does each slice have the length these need, outputs at least (second corrections and errors also when
       unchecked)? (not asked by weigh_text) */
    USHNAZAR_LENGTHS = 3,
    /* Do row starts begin at 0, never fall, end at the entry count? */
    USHNAZAR_ROW_STARTS = 4,
    /* Are each row's columns strictly ascending, structural but for the last, which must be there and is its own slack
       (structural count + row)? */
    USHNAZAR_COLUMNS = 5,
    /* Are entries and right sides finite, slack entries 1? */
    USHNAZAR_ENTRIES = 6,
    /* Is no bound NaN, min <= max, min not +infinity, max not -infinity? */
    USHNAZAR_BOUNDS = 7,
    /* Are tolerances, feasibility and scales finite with the sign bit clear (so no -0), and each feasibility times scale
       finite? */
    USHNAZAR_TOLERANCES = 8,
    /* Is each basis place 0 to rows - 1 held by just one variable, and no other place by any? */
    USHNAZAR_BASIS = 9,
    /* Are all values finite? */
    USHNAZAR_VALUES = 10,
    /* Does each widened item name a variable, no (variable, side) twice? */
    USHNAZAR_WIDENED = 11,
    /* Is the leaving row below the row count? */
    USHNAZAR_LEAVING_ROW = 12
};

/* The kept numbers: the solver's judgement, and what it is made of. */
struct ushnazar_proof {
    /* The solver's judgement, but for the rounding that the allowance speaks of: its certificate holds. An order is not to be
       declined on it alone. */
    bool holds;
    /* How far the combined row's right side lies beyond the largest value of the row within the bounds, as the solver
       reckons it; -infinity where the row has no largest value, NaN where a number on the way is not finite. */
    double gap;
    /* What the gap is weighed against: how far the variables' rooms beyond their bounds carry the row, less the cut, and
       the round-off of the sums. Each room is taken times its coefficient, rounded up whatever their size; where the
       solver's own product is not, this is not the solver's allowance. */
    double allowance;
    /* The round-off withheld from the room of a leaving slack; 0 where another variable leaves or the gap is not finite. */
    double cut;
    /* How many coefficients counted as zero within their error. */
    size_t zero_within_error;
    /* How many multipliers other than 0 were taken as 0, being within their error. */
    size_t multipliers_zeroed;
    /* How many rows the certificate combines. */
    size_t rows;
};

/* The verdict on a sheet that no question refuses. */
struct ushnazar_verdict {
    struct ushnazar_proof proof;
    /* The gap over the widened ranges, every step rounded so that it is never too high; or -infinity. Above 0 it rules out
       every point in these ranges. */
    double outward;
    /* `holds`, and the outward gap is above 0: the order may be declined. */
    bool declined;
};

/* The answer. Where the sheet is refused every field of the verdict is 0 or false. */
struct ushnazar_answer {
    /* 0, or the number of the first question whose answer is no: an enum ushnazar_refusal. */
    uint32_t refusal;
    struct ushnazar_verdict verdict;
};

/* An item of the widened list: the solver widened this side of this variable. */
struct ushnazar_widened {
    size_t variable;
    /* A flag, set for the upper side: any byte but 0 sets it. What the bytes behind it hold does not matter. */
    uint8_t up;
};

/* The sum hi + lo of two doubles, not evaluated. */
struct ushnazar_cdouble {
    double hi;
    double lo;
};

/* The layout that the archive was made for. A compiler with another one stops here. */
typedef char ushnazar_size_is_of_64_bits[sizeof(size_t) == 8 ? 1 : -1];
typedef char ushnazar_double_is_of_64_bits[sizeof(double) == 8 ? 1 : -1];
typedef char ushnazar_answer_is_of_80_bytes[sizeof(struct ushnazar_answer) == 80 ? 1 : -1];
typedef char ushnazar_widened_is_of_16_bytes[sizeof(struct ushnazar_widened) == 16 ? 1 : -1];
typedef char ushnazar_cdouble_is_of_16_bytes[sizeof(struct ushnazar_cdouble) == 16 ? 1 : -1];

/*
 * The verdict on a sheet lent in slices. With n = structurals + rows, the variables are 0 to n - 1, the structural ones
 * first, then each row's slack; m is the number of widened items. A flag is set unless 0.
 *
 * Written, where there is a verdict: the first n places of high, low, magnitudes and terms, and of errors if the
 * multipliers are checked and their refinement converged. Places beyond stay as they were; so does errors otherwise; and
 * where the sheet is refused everything stays as it was. Nothing depends on what these lists held before, and they need
 * not be set.
 */
struct ushnazar_answer sheet_verdict(
    const struct ushnazar_widened *widened, size_t widened_length,  /* m: the widened items */
    size_t rows,
    size_t structurals,
    size_t entry_count,
    double feasibility,  /* the absolute tolerance of the solver's user */
    uint8_t checked,     /* the multipliers come with second corrections */
    size_t leaving_row,
    uint8_t leaving_up,  /* the leaving variable goes up */
    double *high, size_t high_length,              /* at least n: each variable's coefficient in the combined row, */
    double *low, size_t low_length,                /* at least n: as a sum high + low */
    double *magnitudes, size_t magnitudes_length,  /* at least n: the magnitudes of its terms, added up */
    uint32_t *terms, size_t terms_length,          /* at least n: the count of its terms */
    double *errors, size_t errors_length,          /* at least n: how far the multipliers' errors may carry it */
    const size_t *starts, size_t starts_length,    /* rows + 1: where each row begins, and the end of the last */
    const size_t *columns, size_t columns_length,  /* entry_count: the variable of each entry */
    const double *entries, size_t entries_length,  /* entry_count */
    const double *right_sides, size_t right_sides_length,          /* rows */
    const double *scales, size_t scales_length,                    /* rows */
    const uint8_t *integer, size_t integer_length,                 /* structurals: a flag */
    const double *mins, size_t mins_length,                        /* n */
    const double *maxs, size_t maxs_length,                        /* n */
    const double *low_tolerances, size_t low_tolerances_length,    /* n */
    const double *high_tolerances, size_t high_tolerances_length,  /* n */
    const uint8_t *basic, size_t basic_length,                     /* n: a flag */
    const size_t *places, size_t places_length,                    /* n: the basis place, read where basic is set */
    const double *values, size_t values_length,                    /* n */
    const double *rho_hi, size_t rho_hi_length,                    /* rows: each row's multiplier, */
    const double *rho_lo, size_t rho_lo_length,                    /* rows: as a sum of two */
    const double *second, size_t second_length);                   /* rows, also when unchecked */

/*
 * The verdict on a sheet in text, as text: nine lines, or one line `(refused 7)`, each ended by a newline byte. The answer
 * is the length of that text, at most USHNAZAR_MOST_ANSWER. It is written to the front of `out` if it fits, with no byte
 * 0 behind it, and places beyond stay as they were; if it does not fit nothing is written.
 */
size_t weigh_text(const uint8_t *text, size_t text_length, uint8_t *out, size_t out_length);

/*
 * Two sums in place, as the certificate's are made. p is not null and lent for the call; every double is taken.
 *
 * cdouble_add adds v to *p: hi becomes hi + v, rounded, and what that rounding left out is added to lo.
 * cdouble_add_scaled adds c * b: c.hi * b, with what its rounding left out, and c.lo * b, rounded.
 */
void cdouble_add(struct ushnazar_cdouble *p, double v);
void cdouble_add_scaled(struct ushnazar_cdouble *p, struct ushnazar_cdouble c, double b);

#ifdef __cplusplus
}
#endif

#endif
