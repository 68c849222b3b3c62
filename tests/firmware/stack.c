/* The stack is painted before a call, and looked at after it. */
#include "calls.h"

#include <stdio.h>
#include <string.h>
#include <ucontext.h>

/* The stack that is painted, and the end of the caller's frame, which `probe` finds when it is called in the place of one
   of the functions: what lies below belongs to the call, first of all the return address. */
static unsigned char stack[1 << 20];
unsigned char *frame_end;
void probe(void);
__asm__(".text\n"
        "probe:\n"
        "    lea 8(%rsp), %rax\n"
        "    mov %rax, frame_end(%rip)\n"
        "    mov %rdi, %rax\n"
        "    ret\n");

static void on_own_stack(void (*call)(void))
{
    static ucontext_t here, there;
    getcontext(&there);
    there.uc_stack.ss_sp = stack;
    there.uc_stack.ss_size = sizeof stack;
    there.uc_link = &here;
    makecontext(&there, call, 0);
    swapcontext(&here, &there);
}

/* How far below the caller's frame the call changed the stack, painted with this byte before. */
static size_t depth_with(void (*call)(void), unsigned char paint)
{
    memset(stack, paint, sizeof stack);
    on_own_stack(call);
    unsigned char *deepest = stack;
    while (*deepest == paint) {
        deepest++;
    }
    must(deepest > stack, "the stack is too small");
    return (size_t)(frame_end - deepest);
}

/* A place that happens to be written with the paint's byte shows with the other paint. */
static size_t depth_of(void (*call)(void))
{
    size_t once = depth_with(call, 0xA5), again = depth_with(call, 0x5A);
    return once > again ? once : again;
}

static size_t deepest, deepest_refused, painted;

static void note(size_t *most, size_t depth)
{
    painted++;
    if (depth > *most) {
        *most = depth;
    }
}

static void find_frame_end(void (*call)(void))
{
    sheet_function = (__typeof__(&sheet_verdict))probe;
    text_function = (__typeof__(&weigh_text))probe;
    add_function = (__typeof__(&cdouble_add))probe;
    scaled_function = (__typeof__(&cdouble_add_scaled))probe;
    on_own_stack(call);
    sheet_function = sheet_verdict;
    text_function = weigh_text;
    add_function = cdouble_add;
    scaled_function = cdouble_add_scaled;
    deepest = deepest_refused = painted = 0;
}

/* The call that is painted. */
static void (*call)(void);

static void paint_verdict(const char *words)
{
    static struct sheet sound;
    note(&deepest, depth_of(call));
    must(weighed.refusal == 0, words);
    sound = sheet;
    for (int question = USHNAZAR_SIZES; question <= USHNAZAR_LEAVING_ROW; question++) {
        if (question != USHNAZAR_LENGTHS) {
            spoil_sheet(&sheet, question);
            note(&deepest_refused, depth_of(call));
            must(weighed.refusal == (uint32_t)question, "another refusal than was meant");
            sheet = sound;
        }
    }
}

static void paint_sum(const char *words)
{
    (void)words;
    note(&deepest, depth_of(call));
}

static void paint_refused_text(const char *line)
{
    note(&deepest_refused, depth_of(call_text));
    must(answer_length == strlen(line) && memcmp(answer, line, answer_length) == 0, line);
}

static void paint_text(const char *words)
{
    static struct sheet sound;
    note(&deepest, depth_of(call_text));
    must(answer[1] == 'h', words);
    text[text_length - 1] = ' ';
    paint_refused_text("(refused 1)\n");
    sound = sheet;
    for (int question = USHNAZAR_COLUMNS; question <= USHNAZAR_LEAVING_ROW; question++) {
        char line[16];
        spoil_sheet(&sheet, question);
        text_length = write_sheet(&sheet, text, sizeof text);
        if (text_length <= USHNAZAR_MOST_TEXT) {
            snprintf(line, sizeof line, "(refused %d)\n", question);
            paint_refused_text(line);
        }
        sheet = sound;
    }
}

/* The longest text, all of it pairs in one row, and one byte more. */
static void paint_longest_text(void)
{
    static const char end[] = ")\n(multipliers unchecked)\n(rho 0 0)\n(leave 0 down)\n";
    size_t length = (size_t)sprintf(text, "(sheet 1 0)\n(feasibility 0)\n(slack 0 0 0 0 (basic 0 0))\n(row 0");
    size_t room = USHNAZAR_MOST_TEXT - length - strlen(end) - 16;
    size_t scale = 2 + room % 6;
    length += (size_t)sprintf(text + length, " %0*d", (int)scale, 0);
    while (length + 6 + strlen(end) <= USHNAZAR_MOST_TEXT) {
        length += (size_t)sprintf(text + length, " (0 0)");
    }
    text_length = length + (size_t)sprintf(text + length, "%s", end);
    paint_refused_text("(refused 2)\n");
    memset(text + text_length, ' ', USHNAZAR_MOST_TEXT + 1 - text_length);
    text_length = USHNAZAR_MOST_TEXT;
    paint_refused_text("(refused 1)\n");
    text_length = USHNAZAR_MOST_TEXT + 1;
    paint_refused_text("(refused 1)\n");
}

static void begin(void (*painted_call)(void))
{
    call = painted_call;
    find_frame_end(call);
}

static void end(const char *name)
{
    printf("%s %zu %zu %zu\n", name, deepest, deepest_refused, painted);
}

void measure_stack(void)
{
    begin(call_sheet);
    each_sheet(paint_verdict);
    end("sheet_verdict");
    begin(call_text);
    each_text(paint_text);
    paint_longest_text();
    end("weigh_text");
    begin(call_add);
    each_sum(paint_sum);
    end("cdouble_add");
    begin(call_scaled);
    each_sum(paint_sum);
    end("cdouble_add_scaled");
}
