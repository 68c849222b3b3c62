/* Calls of the archive's functions on sheets at the size limits. */
#ifndef CALLS_H
#define CALLS_H

#include "sheets.h"

/* What the next call is given. */
extern struct sheet sheet;
extern struct ushnazar_cdouble sum, factor;
extern double term;
extern char text[2 * USHNAZAR_MOST_TEXT];
extern size_t text_length;

/* What the last call answered. */
extern struct ushnazar_answer weighed;
extern uint8_t answer[USHNAZAR_MOST_ANSWER];
extern size_t answer_length;

/* The functions are called through pointers, so that another can be put in their place. */
extern __typeof__(&sheet_verdict) volatile sheet_function;
extern __typeof__(&weigh_text) volatile text_function;
extern __typeof__(&cdouble_add) volatile add_function;
extern __typeof__(&cdouble_add_scaled) volatile scaled_function;
void call_sheet(void);
void call_text(void);
void call_add(void);
void call_scaled(void);

/* Calls `visit` with every accepted sheet at the limits of slices, or of text, or with numbers of such a sheet to be
   added up. */
void each_sheet(void (*visit)(const char *words));
void each_text(void (*visit)(const char *words));
void each_sum(void (*visit)(const char *words));

/* Ends the program unless this is so: a refusal where none was meant would make a measurement worthless. */
void must(int fact, const char *what);

/* How deep each function gets, printed in a line: with a verdict or a sum, refused, over how many calls. */
void measure_stack(void);

#endif
