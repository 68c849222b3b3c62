/* The outward gap of a sheet with the processor's rounding modes: document 01, "The outward gap (added)".
 *
 * The sheet is one that no question refuses, in the same slices as the library takes it. The mode is switched a few times for
 * a sheet, and each pass over numbers runs in one mode, in a function of its own that is not inlined, so that no operation can
 * be moved to where another mode rules. Both ends of a coefficient are added up in one pass that rounds up: the lower end is
 * kept negated. Compile with -O3 -frounding-math -ffp-contract=off.
 */
#include <fenv.h>
#include <math.h>
#include <stddef.h>
#include <stdint.h>
#include <string.h>

#define PASS static __attribute__((noinline))
enum { MOST_ROWS = 128, MOST_VARIABLES = 384 };

static const double unit_roundoff = 0x1p-53;
static const double roundoff_floor = 1e-14;

/* an item of the widened list */
struct widened {
    size_t variable;
    uint8_t up;
};

struct sheet {
    size_t rows, structurals;
    double feasibility;
    int checked, leaving_up;
    size_t leaving_row;
    const size_t *starts, *columns;
    const double *entries, *right_sides, *scales;
    const uint8_t *integer;
    const double *mins, *maxs, *low_tolerances, *high_tolerances;
    const uint8_t *basic;
    const size_t *places;
    const double *values;
    const struct widened *widened;
    size_t widened_count;
    const double *rho_hi, *rho_lo, *second;
};

/* a kept row and its multiplier */
struct kept {
    size_t row;
    double hi, lo;
};

/* a coefficient lies from -negated_lower to upper */
struct ends {
    double negated_lower, upper;
};

/* ---- which rows are kept, and the ranges: operations rounded to nearest, in the Rust's order */

/* max and min as the Rust has them: with one NaN the other */
static double larger(double a, double b) { return isnan(a) || b > a ? b : a; }
static double smaller(double a, double b) { return isnan(a) || b < a ? b : a; }

static int estimated(const struct sheet *s) {
    double norm = 0, second_norm = 0;
    if (!s->checked)
        return 0;
    for (size_t r = 0; r < s->rows; r++) {
        double x = s->rho_hi[r] + s->rho_lo[r];
        if (!isfinite(x) || !isfinite(s->second[r]))
            return 0;
        norm = larger(norm, fabs(x));
        second_norm = larger(second_norm, fabs(s->second[r]));
    }
    return second_norm <= unit_roundoff * norm;
}

/* how many rows are kept, or -1 where a part of a kept multiplier is not finite */
PASS int keep_rows(const struct sheet *s, struct kept *kept) {
    int errors = estimated(s), count = 0;
    for (size_t r = 0; r < s->rows; r++) {
        double a = s->leaving_up ? -s->rho_hi[r] : s->rho_hi[r];
        double b = s->leaving_up ? -s->rho_lo[r] : s->rho_lo[r];
        double hi = a + b, z = hi - a, lo = (a - (hi - z)) + (b - z), value = hi + lo;
        size_t slack = s->structurals + r;
        if (errors && fabs(value) <= fabs(s->second[r]))
            continue;
        if (value == 0 || (value > 0 ? s->maxs[slack] == INFINITY : s->mins[slack] == -INFINITY))
            continue;
        if (!isfinite(hi) || !isfinite(lo))
            return -1;
        kept[count++] = (struct kept){r, hi, lo};
    }
    return count;
}

static double band_edge(double bound, double tolerance, int up) {
    double edge = up ? bound + tolerance : bound - tolerance;
    while (fabs(edge - bound) > tolerance)
        edge = nextafter(edge, up ? -INFINITY : INFINITY);
    return edge;
}

static double slack_room(const struct sheet *s, size_t r) {
    double magnitude = fabs(s->right_sides[r]), tolerance = s->feasibility * s->scales[r];
    size_t last = s->starts[r + 1] - 1;
    for (size_t k = s->starts[r]; k < last; k++)
        magnitude += fabs(s->entries[k] * s->values[s->columns[k]]);
    double held = larger(tolerance, roundoff_floor * magnitude);
    double margin = smaller(((double)(last - s->starts[r]) + 2) * unit_roundoff * magnitude, 0.5 * held);
    return larger((held - margin) - margin, 0);
}

static int is_widened(const struct sheet *s, size_t v, int up) {
    for (size_t k = 0; k < s->widened_count; k++)
        if (s->widened[k].variable == v && (s->widened[k].up != 0) == up)
            return 1;
    return 0;
}

static size_t leaving_variable(const struct sheet *s) {
    size_t v = 0;
    while (!s->basic[v] || s->places[v] != s->leaving_row)
        v++;
    return v;
}

/* the edges of a variable; its row is gone through once for both */
static void range(const struct sheet *s, size_t leaving, size_t v, double edges[2]) {
    double room = -1;
    for (int up = 0; up < 2; up++) {
        double bound = up ? s->maxs[v] : s->mins[v], tolerance = up ? s->high_tolerances[v] : s->low_tolerances[v];
        if (isinf(bound))
            edges[up] = bound;
        else if (v == leaving)
            edges[up] = band_edge(bound, tolerance, up);
        else if (v < s->structurals && (s->integer[v] || s->mins[v] == s->maxs[v]))
            edges[up] = bound;
        else if (is_widened(s, v, up))
            edges[up] = band_edge(bound, 0, up);
        else if (v < s->structurals)
            edges[up] = band_edge(bound, tolerance, up);
        else {
            if (room < 0)
                room = slack_room(s, v - s->structurals);
            edges[up] = band_edge(bound, room, up);
        }
    }
}

/* whether every end is finite and no variable unlimited (steps 2 and 3); the ranges of those that are not skipped */
PASS int ranges(const struct sheet *s, const struct ends *ends, double (*edges)[2]) {
    size_t count = s->structurals + s->rows, leaving = leaving_variable(s);
    for (size_t v = 0; v < count; v++) {
        double l = -ends[v].negated_lower, u = ends[v].upper;
        if (!isfinite(l) || !isfinite(u))
            return 0;
        if (l == 0 && u == 0)
            continue;
        range(s, leaving, v, edges[v]);
        if ((u > 0 && edges[v][1] == INFINITY) || (l < 0 && edges[v][0] == -INFINITY))
            return 0;
    }
    return 1;
}

/* ---- the sums, in the mode that rounds up */

/* step 2, and B negated */
PASS double coefficients(const struct sheet *s, const struct kept *kept, int rows, struct ends *ends) {
    double negated_right = 0;
    for (int k = 0; k < rows; k++) {
        size_t r = kept[k].row;
        double hi = kept[k].hi, lo = kept[k].lo;
        for (size_t i = s->starts[r]; i < s->starts[r + 1]; i++) {
            struct ends *e = &ends[s->columns[i]];
            double a = s->entries[i];
            e->upper += hi * a;
            e->negated_lower += -hi * a;
            e->upper += lo * a;
            e->negated_lower += -lo * a;
        }
        negated_right += -hi * s->right_sides[r];
        negated_right += -lo * s->right_sides[r];
    }
    return negated_right;
}

/* step 4 */
PASS double largest(const struct sheet *s, const struct ends *ends, double (*edges)[2]) {
    size_t count = s->structurals + s->rows;
    double sum = 0;
    for (size_t v = 0; v < count; v++) {
        double l = -ends[v].negated_lower, u = ends[v].upper, term = -INFINITY;
        if (l == 0 && u == 0)
            continue;
        for (int up = 0; up < 2; up++) {
            double edge = edges[v][up];
            if (isfinite(edge)) {
                term = fmax(term, l * edge);
                term = fmax(term, u * edge);
            }
        }
        sum += term;
    }
    return sum;
}

/* step 5: M - B rounded up is the gap negated */
PASS double add(double a, double b) { return a + b; }

static double gap_of(const struct sheet *s) {
    struct kept kept[MOST_ROWS];
    struct ends ends[MOST_VARIABLES];
    double edges[MOST_VARIABLES][2], gap = -INFINITY;
    int rows = keep_rows(s, kept);
    if (rows < 0)
        return gap;
    memset(ends, 0, (s->structurals + s->rows) * sizeof *ends);
    fesetround(FE_UPWARD);
    double negated_right = coefficients(s, kept, rows, ends);
    fesetround(FE_TONEAREST);
    if (ranges(s, ends, edges)) {
        fesetround(FE_UPWARD);
        double most = largest(s, ends, edges);
        if (negated_right != INFINITY && most != INFINITY)
            gap = -add(most, negated_right);
        fesetround(FE_TONEAREST);
    }
    /* a zero answer is +0 */
    return gap == 0 ? 0 : gap;
}

double outward_in_c(size_t rows, size_t structurals, double feasibility, uint8_t checked, size_t leaving_row,
                    uint8_t leaving_up, const size_t *starts, const size_t *columns, const double *entries,
                    const double *right_sides, const double *scales, const uint8_t *integer, const double *mins,
                    const double *maxs, const double *low_tolerances, const double *high_tolerances,
                    const uint8_t *basic, const size_t *places, const double *values, const struct widened *widened,
                    size_t widened_count, const double *rho_hi, const double *rho_lo, const double *second) {
    struct sheet s = {rows,    structurals, feasibility,    checked,         leaving_up, leaving_row, starts, columns,
                      entries, right_sides, scales,         integer,         mins,       maxs,        low_tolerances,
                      high_tolerances,      basic,          places,          values,     widened,    widened_count,
                      rho_hi,  rho_lo,      second};
    return gap_of(&s);
}
