/* Busy traffic: `traffic N CYCLES SEED` writes a stimulus of so many cycles for N masters.

   The masters answer to an arbiter, so that they keep A1 to A9 but for a slip in about one cycle of
   4,000. Most ask most of the time; bursts are INCR4, SINGLE and INCR; one piece of work in sixteen is
   locked; HREADY is high in four cycles of five. */
#include "arbitrate.h"
#include "put.h"
#include "text.h"

enum { LONGEST_WAIT = 8, LONGEST_INCR = 12 };

static struct output out;
static u64 seed;

static u32 below(u32 limit) {
    seed ^= seed << 13;
    seed ^= seed >> 7;
    seed ^= seed << 17;
    return (u32)((seed >> 32) * limit >> 32);
}

/* The inputs of a cycle. */
struct cycle {
    u32 hbusreq, hlock, hready, htrans, hburst;
};

/* The bus as its masters see it: the last cycle, whether it was a handover, and the arbiter after it. */
struct bus {
    struct arbiter arbiter;
    struct cycle last;
    u32 handover, n, beats, waits;
};

/* Masters at rest begin to ask, some with a lock. */
static void ask(struct bus *b, struct cycle *c) {
    for (u32 i = 0; i < b->n; i++) {
        u32 bit = 1u << i;
        if (c->hbusreq & bit || below(3 * b->n)) continue;
        c->hbusreq |= bit;
        c->hlock = (c->hlock & ~bit) | (below(16) ? 0 : bit);
    }
}

/* A new owner starts a burst if it asks. */
static void start(struct bus *b, struct cycle *c) {
    static const u32 bursts[4] = {INCR4, INCR4, SINGLE, INCR};
    u32 wants = c->hbusreq >> b->arbiter.m & 1;
    c->htrans = wants ? NONSEQ : IDLE;
    c->hburst = wants ? bursts[below(4)] : SINGLE;
    b->beats = c->hburst == INCR4 ? 4 : c->hburst == INCR ? 2 + below(LONGEST_INCR - 1) : 1;
}

/* The owner goes on with its burst, or rests after it and stops asking, mostly. */
static void go_on(struct bus *b, struct cycle *c) {
    u32 bit = 1u << b->arbiter.m;
    if (c->htrans != IDLE && --b->beats) {
        c->htrans = SEQ;
        return;
    }
    c->htrans = IDLE;
    c->hburst = SINGLE;
    c->hlock &= ~bit;
    if (below(4)) c->hbusreq &= ~bit;
}

static void slip(struct cycle *c) {
    static const u32 codes[3] = {IDLE, NONSEQ, SEQ};
    c->htrans = codes[below(3)];
}

/* The inputs of the next cycle. */
static struct cycle next(struct bus *b) {
    struct cycle c = b->last;
    if (!b->handover && c.hready) go_on(b, &c);
    ask(b, &c);
    if (b->handover) start(b, &c);
    if (!below(4000)) slip(&c);
    c.hready = b->waits == LONGEST_WAIT || below(5) != 0;
    b->waits = c.hready ? 0 : b->waits + 1;
    return c;
}

/* The arbiter over a cycle. */
static void answer(struct bus *b, const struct cycle *c) {
    struct inputs in = {c->hbusreq, c->hlock, CODES(c->hready, c->htrans, c->hburst)};
    b->handover = arbitrate(&b->arbiter, &in) & GRANTED && c->hready;
    b->last = *c;
}

static u32 number(const char *text) {
    u32 sum = 0;
    while (*text >= '0' && *text <= '9') sum = sum * 10 + (u32)(*text++ - '0');
    return sum;
}

int main(int words, char **word) {
    if (words != 4) return 2;
    struct bus b = {RESET, {0}, 0, number(word[1]), 0, 0};
    u32 cycles = number(word[2]);
    if (b.n < 2 || b.n > 16) return 2;
    seed = (EACH(0x9e) ^ number(word[3]) * 0x2545f4914f6cdd1dul) | 1;
    put_text(&out, "stim\t1\t");
    put_decimal(&out, b.n);
    put_text(&out, "\n");
    for (u32 t = 0; t < cycles; t++) {
        struct cycle c = t ? next(&b) : b.last;
        put_five(room(&out, STIM_LINE), c.hbusreq, c.hlock, c.hready, c.htrans, c.hburst, '\n');
        out.end += STIM_LINE;
        answer(&b, &c);
    }
    flush(&out);
    return 0;
}
