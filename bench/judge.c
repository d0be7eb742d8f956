/* The judging program: a trace in, a report out. */
#include "rules.h"
#include "text.h"

static struct input in;
static struct output out;
static struct judge judge;
static u32 breaches;

static const u8 names[RULES][8] = {"\tA1\n", "\tA2\n", "\tA3\n", "\tA4\n", "\tA5\n",  "\tA6\n",  "\tA7\n",
                                   "\tA8\n", "\tA9\n", "\tG1\n", "\tG2\n", "\tG3\n",  "\tG4\n",  "\tG5\n",
                                   "\tG6\n", "\tG7\n", "\tG8\n", "\tG9\n", "\tG10\n", "\tG11\n", "\tG12\n"};

/* A line for each rule charged at a cycle. */
APART void put_breaches(u32 cycle, u32 charged) {
    struct decimal number = decimal(cycle);
    u8 *at = room(&out, RULES * 12 + 8);
    for (; charged; charged &= charged - 1, breaches++) {
        u32 rule = (u32)__builtin_ctz(charged);
        store8(at, number.text);
        store8(at + number.length, load8(names[rule]));
        at += number.length + 4 + (rule >= G10);
    }
    fit(&out, at);
}

/* Takes so many lines, up to one that is bad; answers how many. */
APART u32 take_lines(u64 lines) {
    struct cycle p = judge.p;
    const u8 *start = in.bytes + in.at, *line = start, *end = line + lines * TRACE_LINE;
    for (; line != end; line += TRACE_LINE) {
        struct cycle t;
        if (RARELY(take_trace(line, judge.absent, judge.n, &p, &t))) break;
        u32 charged = judge_cycle(&judge, &p, &t);
        if (RARELY(charged)) put_breaches(judge.count + (u32)((line - start) / TRACE_LINE), charged);
        p = t;
    }
    judge.p = p;
    in.at += (u64)(line - start);
    return (u32)((line - start) / TRACE_LINE);
}

/* Takes all lines of the input; answers 0 or the refusal of the line after the cycles so far. */
static u32 run(void) {
    for (;;) {
        u64 lines = (in.end - in.at) / TRACE_LINE, left = LIMIT - judge.count;
        u32 taken = take_lines(lines < left ? lines : left);
        judge.count += taken;
        if (taken < lines) return refusal_of(in.bytes + in.at, trace, judge.n);
        fill(&in);
        if (in.end < TRACE_LINE) return in.end ? 3 : 0;
    }
}

static void put_end(void) {
    put_text(&out, "end\t");
    put_decimal(&out, judge.count);
    put_text(&out, "\t");
    put_decimal(&out, breaches);
    put_text(&out, "\n");
}

int main(void) {
    fill(&in);
    u32 refusal = take_header(&in, "trace\t1\t", &judge.n);
    if (refusal) {
        put_refusal(&out, 1, refusal);
    } else {
        judge.absent = absent_masters(judge.n);
        refusal = run();
        if (refusal) put_refusal(&out, judge.count + 2, refusal);
        else put_end();
    }
    flush(&out);
    return 0;
}
