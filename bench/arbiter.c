/* The arbiter program: a stimulus in, a trace out. */
#include "arbitrate.h"
#include "put.h"
#include "take.h"
#include "text.h"

static struct input in;
static struct output out;

/* the texts of a master by its place */
#define GRANT_AT(i) [PLACE(i)] = GRANT(i)
#define OWNER_AT(i) [PLACE(i)] = OWNER(i)
static const u64 grants[] = {MASTERS(GRANT_AT)}, owners[] = {MASTERS(OWNER_AT)};

/* Takes so many lines, up to one that is bad; answers how many. */
APART u32 take_lines(struct arbiter *state, u64 absent, u64 lines) {
    struct arbiter a = *state;
    const u8 *start = in.bytes + in.at, *line = start, *end = line + lines * STIM_LINE;
    u8 *at = room(&out, IN_BLOCK / STIM_LINE * TRACE_LINE);
    for (; line != end; line += STIM_LINE, at += TRACE_LINE) {
        struct inputs c;
        u64 g = a.g, m = a.m;
        if (RARELY(take_inputs(line, '\n', absent, &c))) break;
        store8(at, load8(line));
        store8(at + 8, load8(line + 8));
        put_six(at + 15, grants[g], owners[m], arbitrate(&a, &c));
    }
    fit(&out, at);
    *state = a;
    in.at += (u64)(line - start);
    return (u32)((line - start) / STIM_LINE);
}

/* Takes all lines of the input; answers 0 or the refusal of the line after `count` cycles. */
static u32 run(u32 n, u32 *count) {
    struct arbiter a = RESET;
    for (;;) {
        u64 lines = (in.end - in.at) / STIM_LINE, left = LIMIT - *count;
        u32 taken = take_lines(&a, absent_masters(n), lines < left ? lines : left);
        *count += taken;
        if (taken < lines) return refusal_of(in.bytes + in.at, stimulus, n);
        fill(&in);
        if (in.end < STIM_LINE) return in.end ? 3 : 0;
    }
}

int main(void) {
    u32 n, count = 0;
    fill(&in);
    u32 refusal = take_header(&in, "stim\t1\t", &n);
    if (refusal) {
        put_refusal(&out, 1, refusal);
    } else {
        put_text(&out, "trace\t1\t");
        put_decimal(&out, n);
        put_text(&out, "\n");
        refusal = run(n, &count);
        if (refusal) put_refusal(&out, count + 2, refusal);
    }
    flush(&out);
    return 0;
}
