/* Sheets at the size limits, for the measurements. */
#ifndef SHEETS_H
#define SHEETS_H

#include "ushnazar.h"

/* One place more than the limits, so that sheets beyond them can be made too. */
#define ROWS_HELD (USHNAZAR_MOST_ROWS + 1)
#define VARIABLES_HELD (USHNAZAR_MOST_VARIABLES + 2)
#define ENTRIES_HELD (USHNAZAR_MOST_ENTRIES + ROWS_HELD)

struct sheet {
    size_t rows, structurals, entry_count;
    double feasibility;
    uint8_t checked, leaving_up;
    size_t leaving_row, widened_count;
    size_t starts[ROWS_HELD + 1], columns[ENTRIES_HELD], places[VARIABLES_HELD];
    double entries[ENTRIES_HELD], right_sides[ROWS_HELD], scales[ROWS_HELD];
    double mins[VARIABLES_HELD], maxs[VARIABLES_HELD], values[VARIABLES_HELD];
    double low_tolerances[VARIABLES_HELD], high_tolerances[VARIABLES_HELD];
    uint8_t integer[VARIABLES_HELD], basic[VARIABLES_HELD];
    struct ushnazar_widened widened[USHNAZAR_MOST_WIDENED + 1];
    double rho_hi[ROWS_HELD], rho_lo[ROWS_HELD], second[ROWS_HELD];
};

/* What a sheet's numbers are like, how its multipliers are checked, what is widened. */
enum numbers { PLAIN, POSITIVE, CLOSE, WIDE, HUGE_ONES, SMALL, TINY, NUMBERS };
enum multipliers { UNCHECKED, CHECKED, ZEROED, MULTIPLIERS };
enum widened { NOTHING, STRUCTURALS, FORWARD, BACKWARD, BY_SIDE, WIDENED };

/* The words for these, as `wide, checked, forward`. */
const char *sheet_words(enum numbers numbers, enum multipliers multipliers, enum widened widened);

/* 128 rows and 256 structural variables, with so many entries in each row, its slack's among them. */
void make_sheet(struct sheet *s, size_t row_length, enum numbers numbers, enum multipliers multipliers, enum widened widened);

/* Makes numbers that cost nothing 0, one digit in the text, so that more entries have room there. */
void shorten_sheet(struct sheet *s);

/* Changes an accepted sheet so that this question, 2 or 4 to 12, refuses it, as late as the question can. */
void spoil_sheet(struct sheet *s, enum ushnazar_refusal question);

/* Writes the sheet as text, of which at most `room` bytes are kept; answers how long it is. */
size_t write_sheet(const struct sheet *s, char *text, size_t room);

#endif
