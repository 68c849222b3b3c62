/* The example of document 01: the sheet in slices, then the same sheet as text. Behind them, two sums in place. */
#include "ushnazar.h"

#include <inttypes.h>
#include <stdio.h>
#include <string.h>

enum { ROWS = 1, STRUCTURALS = 1, VARIABLES = ROWS + STRUCTURALS, ENTRIES = 2 };

static const char sheet[] =
    "(sheet 1 1)\n"
    "(feasibility 0)\n"
    "(var i 0 3FF0000000000000 0 0 (nonbasic 3FF0000000000000))\n"
    "(slack 0 0 0 0 (basic 0 4000000000000000))\n"
    "(row 4008000000000000 3FF0000000000000 (0 3FF0000000000000) (1 3FF0000000000000))\n"
    "(multipliers unchecked)\n"
    "(rho 3FF0000000000000 0)\n"
    "(leave 0 down)\n";

/* One cake at most (a variable from 0 to 1), and a row that asks for three: cakes + slack = 3, the slack held at 0. */
static const size_t starts[ROWS + 1] = {0, 2};
static const size_t columns[ENTRIES] = {0, 1};
static const double entries[ENTRIES] = {1, 1};
static const double right_sides[ROWS] = {3};
static const double scales[ROWS] = {1};
static const uint8_t integer[STRUCTURALS] = {1};
static const double mins[VARIABLES] = {0, 0};
static const double maxs[VARIABLES] = {1, 0};
static const double low_tolerances[VARIABLES] = {0, 0};
static const double high_tolerances[VARIABLES] = {0, 0};
static const uint8_t basic[VARIABLES] = {0, 1};
static const size_t places[VARIABLES] = {0, 0};
static const double values[VARIABLES] = {1, 2};
static const double rho_hi[ROWS] = {1};
static const double rho_lo[ROWS] = {0};
static const double second[ROWS] = {0};
static double high[VARIABLES], low[VARIABLES], magnitudes[VARIABLES], errors[VARIABLES];
static uint32_t terms[VARIABLES];

static struct ushnazar_answer weigh_slices(void)
{
    /* no item is widened: a list of no place still begins somewhere */
    static const struct ushnazar_widened widened[1] = {{0, 0}};

    return sheet_verdict(
        widened, 0, ROWS, STRUCTURALS, ENTRIES, 0.0, 0, 0, 0,
        high, VARIABLES, low, VARIABLES, magnitudes, VARIABLES, terms, VARIABLES, errors, VARIABLES,
        starts, ROWS + 1, columns, ENTRIES, entries, ENTRIES, right_sides, ROWS, scales, ROWS,
        integer, STRUCTURALS, mins, VARIABLES, maxs, VARIABLES,
        low_tolerances, VARIABLES, high_tolerances, VARIABLES,
        basic, VARIABLES, places, VARIABLES, values, VARIABLES,
        rho_hi, ROWS, rho_lo, ROWS, second, ROWS);
}

static const char *said(bool flag)
{
    return flag ? "yes" : "no";
}

static void print_double(const char *name, double x)
{
    uint64_t bits;
    memcpy(&bits, &x, sizeof bits);
    if (x != x) {
        bits = UINT64_C(0x7FF8000000000000);
    }
    printf("(%s %016" PRIX64 ")\n", name, bits);
}

static void print_answer(const struct ushnazar_answer *answer)
{
    const struct ushnazar_verdict *verdict = &answer->verdict;
    const struct ushnazar_proof *proof = &verdict->proof;
    if (answer->refusal != USHNAZAR_ACCEPTED) {
        printf("(refused %" PRIu32 ")\n", answer->refusal);
        return;
    }
    printf("(holds %s)\n", said(proof->holds));
    print_double("gap", proof->gap);
    print_double("allowance", proof->allowance);
    print_double("cut", proof->cut);
    printf("(zero-within-error %zu)\n", proof->zero_within_error);
    printf("(multipliers-zeroed %zu)\n", proof->multipliers_zeroed);
    printf("(rows %zu)\n", proof->rows);
    print_double("outward", verdict->outward);
    printf("(declined %s)\n", said(verdict->declined));
}

static void print_sum(const char *name, struct ushnazar_cdouble sum)
{
    printf("%s:\n", name);
    print_double("hi", sum.hi);
    print_double("lo", sum.lo);
}

/* Sums that are 0 in doubles alone: with d = 2^-30, 1 + d^2 - 1 is d^2, and (1 + d + d^2)(1 - d) - 1 is -d^3. */
static void add_in_place(void)
{
    const double d = 1.0 / (1 << 30);
    struct ushnazar_cdouble sum = {1, 0}, scaled = {-1, 0}, factor = {1 + d, d * d};
    cdouble_add(&sum, d * d);
    cdouble_add(&sum, -1);
    print_sum("cdouble_add", sum);
    cdouble_add_scaled(&scaled, factor, 1 - d);
    print_sum("cdouble_add_scaled", scaled);
}

int main(void)
{
    struct ushnazar_answer answer = weigh_slices();
    puts("sheet_verdict:");
    print_answer(&answer);

    uint8_t text[USHNAZAR_MOST_ANSWER];
    size_t length = weigh_text((const uint8_t *)sheet, strlen(sheet), text, sizeof text);
    puts("weigh_text:");
    fwrite(text, 1, length, stdout);

    add_in_place();
    return 0;
}
