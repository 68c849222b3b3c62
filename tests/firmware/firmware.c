/*
 * Calls the archive on sheets at the size limits.
 *
 *     firmware stack            how deep each function gets, in bytes
 *     firmware slices           one call of sheet_verdict for each accepted sheet, its words printed after it
 *     firmware texts            the accepted sheets as texts, each after a line of its length and words
 *     firmware weigh < TEXTS    one call of weigh_text for each of these, its line printed after it
 *     firmware add              one call of cdouble_add for each sheet's numbers, the words printed after it
 *     firmware scaled           the same with cdouble_add_scaled
 *     firmware time             how long the slowest call takes here, in microseconds
 *     firmware states           how many of the verdicts another state of the floating-point unit changes
 */
#include "calls.h"

#include <stdio.h>
#include <string.h>
#include <time.h>
#include <xmmintrin.h>

/* The call that is counted or timed. */
static void (*call)(void);

static void count_verdict(const char *words)
{
    call();
    must(weighed.refusal == 0, words);
    printf("%zu entries, %s\n", sheet.entry_count, words);
}

static void count_sum(const char *words)
{
    call();
    printf("%s\n", words);
}

static void print_text(const char *words)
{
    printf("%zu bytes, %zu entries, %s\n", text_length, sheet.entry_count, words);
    fwrite(text, 1, text_length, stdout);
}

/* The texts are made by another run, so that an observed run does little else than to weigh them. */
static void weigh_each(void)
{
    char line[100];
    while (fgets(line, sizeof line, stdin) != NULL) {
        must(sscanf(line, "%zu", &text_length) == 1 && text_length <= USHNAZAR_MOST_TEXT, "a length is wrong");
        must(fread(text, 1, text_length, stdin) == text_length, "a text is cut short");
        call_text();
        must(answer[1] == 'h', line);
        fputs(line, stdout);
    }
}

static double slowest;

static void time_call(const char *words)
{
    (void)words;
    enum { TIMES = 200 };
    struct timespec before, after;
    clock_gettime(CLOCK_MONOTONIC, &before);
    for (int k = 0; k < TIMES; k++) {
        call();
    }
    clock_gettime(CLOCK_MONOTONIC, &after);
    double each = ((double)(after.tv_sec - before.tv_sec) * 1e6 + (double)(after.tv_nsec - before.tv_nsec) / 1e3) / TIMES;
    slowest = each > slowest ? each : slowest;
}

static void measure_time(const char *name, void (*each)(void (*)(const char *)), void (*timed)(void))
{
    call = timed;
    slowest = 0;
    each(time_call);
    printf("%s %.*f\n", name, slowest < 1 ? 3 : 0, slowest);
}

static void measure_times(void)
{
    measure_time("sheet_verdict", each_sheet, call_sheet);
    measure_time("weigh_text", each_text, call_text);
    measure_time("cdouble_add", each_sum, call_add);
    measure_time("cdouble_add_scaled", each_sum, call_scaled);
}

/* The unit's state as programs start with it, and five others. */
static const struct {
    const char *words;
    unsigned int bits;
} states[] = {
    {"round to nearest", 0x1F80},   {"round down", 0x3F80},      {"round up", 0x5F80},
    {"round toward zero", 0x7F80},  {"flush to zero", 0x9F80},   {"subnormals are zero", 0x1FC0},
};
enum { STATES = sizeof states / sizeof states[0] };
static size_t verdicts, changed[STATES];

static void count_changes(const char *words)
{
    struct ushnazar_answer usual;
    (void)words;
    call_sheet();
    usual = weighed;
    verdicts++;
    for (int k = 0; k < STATES; k++) {
        _mm_setcsr(states[k].bits);
        call_sheet();
        _mm_setcsr(states[0].bits);
        changed[k] += memcmp(&usual.verdict.proof.gap, &weighed.verdict.proof.gap, sizeof(double)) != 0
            || memcmp(&usual.verdict.proof.allowance, &weighed.verdict.proof.allowance, sizeof(double)) != 0
            || memcmp(&usual.verdict.proof.cut, &weighed.verdict.proof.cut, sizeof(double)) != 0
            || memcmp(&usual.verdict.outward, &weighed.verdict.outward, sizeof(double)) != 0
            || usual.refusal != weighed.refusal || usual.verdict.declined != weighed.verdict.declined;
    }
}

static void measure_states(void)
{
    each_sheet(count_changes);
    for (int k = 0; k < STATES; k++) {
        printf("%zu %zu %s\n", verdicts, changed[k], states[k].words);
    }
}

static int is(const char *a, const char *b)
{
    return strcmp(a, b) == 0;
}

int main(int argc, char **argv)
{
    const char *what = argc == 2 ? argv[1] : "";
    if (is(what, "stack")) {
        measure_stack();
    } else if (is(what, "slices")) {
        call = call_sheet;
        each_sheet(count_verdict);
    } else if (is(what, "add") || is(what, "scaled")) {
        call = is(what, "add") ? call_add : call_scaled;
        each_sum(count_sum);
    } else if (is(what, "texts")) {
        each_text(print_text);
    } else if (is(what, "weigh")) {
        weigh_each();
    } else if (is(what, "time")) {
        measure_times();
    } else if (is(what, "states")) {
        measure_states();
    } else {
        fprintf(stderr, "firmware: stack, slices, texts, weigh, add, scaled, time or states\n");
        return 1;
    }
    return 0;
}
