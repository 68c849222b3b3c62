#include "sheets.h"

#include <inttypes.h>
#include <math.h>
#include <stdarg.h>
#include <stdio.h>
#include <string.h>

static uint64_t state;

static uint64_t next_random(void)
{
    state ^= state << 13;
    state ^= state >> 7;
    state ^= state << 17;
    return state;
}

static uint64_t below(uint64_t limit)
{
    return next_random() % limit;
}

static double from_bits(uint64_t bits)
{
    double x;
    memcpy(&x, &bits, sizeof x);
    return x;
}

/* A random significand with this exponent and a random sign. */
static double with_exponent(int exponent)
{
    double x = ldexp(1.0 + ldexp((double)(next_random() >> 12), -52), exponent);
    return below(2) ? x : -x;
}

static double number(enum numbers numbers)
{
    switch (numbers) {
    case PLAIN:
        return with_exponent((int)below(8) - 4);
    case POSITIVE:
        return fabs(with_exponent((int)below(8) - 4));
    case CLOSE:
        return with_exponent((int)below(60) - 30);
    case WIDE:
        return with_exponent((int)below(300) - 150);
    case HUGE_ONES:
        return with_exponent(480 + (int)below(20));
    case SMALL:
        /* products of two are subnormal */
        return with_exponent(-530 + (int)below(10));
    default:
        return from_bits(1 + below(15)) * (below(2) ? 1 : -1);
    }
}

static const char *const number_words[] = {"plain", "positive", "close", "wide", "huge", "small", "tiny"};
static const char *const multiplier_words[] = {"unchecked", "checked", "zeroed"};
static const char *const widened_words[] = {"nothing", "structurals", "forward", "backward", "by side"};

const char *sheet_words(enum numbers numbers, enum multipliers multipliers, enum widened widened)
{
    static char words[64];
    snprintf(words, sizeof words, "%s, %s, %s", number_words[numbers], multiplier_words[multipliers],
             widened_words[widened]);
    return words;
}

/* The row's slack last; its other columns spread over all structural ones. */
static void make_row(struct sheet *s, size_t r, size_t row_length, enum numbers numbers)
{
    size_t others = row_length - 1;
    size_t step = others ? s->structurals / others : 1;
    s->starts[r] = s->entry_count;
    for (size_t k = 0; k < others; k++) {
        s->columns[s->entry_count] = k * step + r % step;
        s->entries[s->entry_count++] = number(numbers);
    }
    s->columns[s->entry_count] = s->structurals + r;
    s->entries[s->entry_count++] = 1;
    s->starts[r + 1] = s->entry_count;
    s->right_sides[r] = number(numbers);
    s->scales[r] = 1;
}

/* The multiplier: the certificate keeps every one, or with a second correction as large drops every one but the first. */
static void make_multiplier(struct sheet *s, size_t r, enum numbers numbers, enum multipliers multipliers)
{
    double rho = -number(numbers == HUGE_ONES ? PLAIN : numbers);
    s->rho_hi[r] = r == 0 && multipliers == ZEROED ? ldexp(rho, 400) : rho;
    s->rho_lo[r] = numbers == TINY ? from_bits(1) : s->rho_hi[r] * ldexp(1, -55);
    s->second[r] = 0;
    if (multipliers == CHECKED && numbers != TINY) {
        s->second[r] = fabs(rho) * ldexp(1, -200);
    } else if (multipliers == ZEROED && r != 0) {
        s->second[r] = fabs(rho);
    }
}

static void make_variable(struct sheet *s, size_t v, enum numbers numbers)
{
    double reach = fabs(number(numbers == HUGE_ONES ? PLAIN : numbers));
    s->mins[v] = -reach;
    s->maxs[v] = reach;
    s->low_tolerances[v] = numbers == TINY ? 0 : reach * 1e-9;
    s->high_tolerances[v] = s->low_tolerances[v];
    s->values[v] = reach / 2;
    s->integer[v] = 0;
    /* every third variable is in the basis, so that errors go to many */
    s->basic[v] = v % 3 == 0;
    s->places[v] = v / 3;
}

static void widen(struct sheet *s, size_t v, uint8_t up)
{
    /* what stands behind a record's flag is not 0 */
    memset(&s->widened[s->widened_count], 0xA5, sizeof s->widened[0]);
    s->widened[s->widened_count].variable = v;
    s->widened[s->widened_count++].up = up;
}

/* Whether the judgement looks for the upper side of each variable: where its coefficient is above 0. */
static void find_sides(const struct sheet *s, uint8_t *ups)
{
    double coefficients[VARIABLES_HELD] = {0};
    for (size_t r = 0; r < s->rows; r++) {
        for (size_t k = s->starts[r]; k < s->starts[r + 1]; k++) {
            coefficients[s->columns[k]] += (s->leaving_up ? -s->rho_hi[r] : s->rho_hi[r]) * s->entries[k];
        }
    }
    for (size_t v = 0; v < s->structurals + s->rows; v++) {
        ups[v] = coefficients[v] > 0;
    }
}

/* Both sides of each variable, from the first to the last or from the last to the first; by side means that the sides that
   the judgement looks for come last. */
static void make_widened(struct sheet *s, enum widened widened)
{
    uint8_t ups[VARIABLES_HELD];
    size_t count = s->structurals + s->rows;
    size_t last = widened == NOTHING ? 0 : widened == STRUCTURALS ? s->structurals : count;
    find_sides(s, ups);
    s->widened_count = 0;
    for (size_t k = 0; k < 2 * last; k++) {
        size_t v = widened == BY_SIDE ? k % count : widened == BACKWARD ? count - 1 - k / 2 : k / 2;
        widen(s, v, widened == BY_SIDE ? ups[v] == (k >= count) : k % 2);
    }
}

void make_sheet(struct sheet *s, size_t row_length, enum numbers numbers, enum multipliers multipliers, enum widened widened)
{
    state = 88172645463325252u;
    s->rows = USHNAZAR_MOST_ROWS;
    s->structurals = USHNAZAR_MOST_STRUCTURALS;
    s->entry_count = 0;
    s->feasibility = 1e-9;
    s->checked = multipliers != UNCHECKED;
    s->leaving_row = s->rows - 1;
    s->leaving_up = 1;
    for (size_t r = 0; r < s->rows; r++) {
        make_row(s, r, row_length, numbers);
        make_multiplier(s, r, numbers, multipliers);
    }
    for (size_t v = 0; v < s->structurals + s->rows; v++) {
        make_variable(s, v, numbers);
    }
    make_widened(s, widened);
}

void shorten_sheet(struct sheet *s)
{
    for (size_t v = 0; v < s->structurals + s->rows; v++) {
        s->mins[v] = s->values[v] = s->low_tolerances[v] = s->high_tolerances[v] = 0;
    }
    for (size_t r = 0; r < s->rows; r++) {
        s->rho_lo[r] = 0;
    }
}

void spoil_sheet(struct sheet *s, enum ushnazar_refusal question)
{
    size_t last_row = s->rows - 1, last = s->structurals + last_row, last_entry = s->entry_count - 1;
    switch (question) {
    case USHNAZAR_SIZES: s->rows = USHNAZAR_MOST_ROWS + 1; break;
    case USHNAZAR_ROW_STARTS: s->starts[s->rows] += 1; break;
    case USHNAZAR_COLUMNS: s->columns[last_entry] -= 1; break;
    case USHNAZAR_ENTRIES: s->right_sides[last_row] = INFINITY; break;
    case USHNAZAR_BOUNDS: s->mins[last] = INFINITY; break;
    case USHNAZAR_TOLERANCES: s->scales[last_row] = -0.0; break;
    case USHNAZAR_BASIS: s->places[3 * last_row] = 0; break;
    case USHNAZAR_VALUES: s->values[last] = NAN; break;
    case USHNAZAR_WIDENED:
        if (s->widened_count == 0) {
            widen(s, 0, 0);
        }
        widen(s, s->widened[0].variable, s->widened[0].up);
        break;
    case USHNAZAR_LEAVING_ROW: s->leaving_row = s->rows; break;
    default: break;
    }
}

/* What is written so far, and how long it is. */
struct writer {
    char *text;
    size_t room, length;
};

static void put(struct writer *w, const char *form, ...)
{
    va_list items;
    va_start(items, form);
    size_t rest = w->length < w->room ? w->room - w->length : 0;
    w->length += (size_t)vsnprintf(rest ? w->text + w->length : NULL, rest, form, items);
    va_end(items);
}

static void put_double(struct writer *w, double x)
{
    uint64_t bits;
    memcpy(&bits, &x, sizeof bits);
    put(w, " %" PRIX64, bits);
}

static void put_variable(struct writer *w, const struct sheet *s, size_t v)
{
    put(w, v >= s->structurals ? "(slack" : s->integer[v] ? "(var i" : "(var r");
    put_double(w, s->mins[v]);
    put_double(w, s->maxs[v]);
    put_double(w, s->low_tolerances[v]);
    put_double(w, s->high_tolerances[v]);
    if (s->basic[v]) {
        put(w, " (basic %zu", s->places[v]);
    } else {
        put(w, " (nonbasic");
    }
    put_double(w, s->values[v]);
    put(w, "))\n");
}

static void put_row(struct writer *w, const struct sheet *s, size_t r)
{
    put(w, "(row");
    put_double(w, s->right_sides[r]);
    put_double(w, s->scales[r]);
    for (size_t k = s->starts[r]; k < s->starts[r + 1]; k++) {
        put(w, " (%zu", s->columns[k]);
        put_double(w, s->entries[k]);
        put(w, ")");
    }
    put(w, ")\n");
}

size_t write_sheet(const struct sheet *s, char *text, size_t room)
{
    struct writer w = {text, room, 0};
    put(&w, "(sheet %zu %zu)\n(feasibility", s->rows, s->structurals);
    put_double(&w, s->feasibility);
    put(&w, ")\n");
    for (size_t v = 0; v < s->structurals + s->rows; v++) {
        put_variable(&w, s, v);
    }
    for (size_t r = 0; r < s->rows; r++) {
        put_row(&w, s, r);
    }
    for (size_t k = 0; k < s->widened_count; k++) {
        put(&w, "(widened %zu %s)\n", s->widened[k].variable, s->widened[k].up ? "up" : "down");
    }
    put(&w, "(multipliers %s)\n", s->checked ? "checked" : "unchecked");
    for (size_t r = 0; r < s->rows; r++) {
        put(&w, "(rho");
        put_double(&w, s->rho_hi[r]);
        put_double(&w, s->rho_lo[r]);
        if (s->checked) {
            put_double(&w, s->second[r]);
        }
        put(&w, ")\n");
    }
    put(&w, "(leave %zu %s)\n", s->leaving_row, s->leaving_up ? "up" : "down");
    return w.length;
}
