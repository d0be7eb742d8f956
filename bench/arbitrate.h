/* The arbiter's state and one cycle of it. A master is the place of its bit in the masks. */
#ifndef ARBITRATE_H
#define ARBITRATE_H

#include "lines.h"

/* FIXED + 1 to FIXED + 3 stand for Fixed k: a beat less is one less, and Done follows */
enum { FRESH = 0, DONE = 8, FIXED = DONE, OPEN = 12, KEPT = 16 };

/* `flags` are those of a line, with DECIDE and BUSREQ low */
struct arbiter {
    u64 flags, g, m;
    u32 phase;
};

static const struct arbiter RESET = {ALL_LOW, 0, 0, FRESH};

/* The phase after a Fresh cycle with GRANTED low, and whether a burst keeps the bus, by HMASTLOCK and the codes. */
static const u8 opening[2][32] = {{[CODES(1, NONSEQ, SINGLE)] = DONE,
                                   [CODES(1, NONSEQ, INCR)] = DONE,
                                   [CODES(0, NONSEQ, INCR4)] = FRESH | KEPT,
                                   [CODES(1, NONSEQ, INCR4)] = (FIXED + 3) | KEPT},
                                  {[CODES(1, NONSEQ, SINGLE)] = DONE,
                                   [CODES(0, NONSEQ, INCR)] = FRESH | KEPT,
                                   [CODES(1, NONSEQ, INCR)] = OPEN | KEPT,
                                   [CODES(0, NONSEQ, INCR4)] = FRESH | KEPT,
                                   [CODES(1, NONSEQ, INCR4)] = (FIXED + 3) | KEPT}};

/* Moves the phase over a cycle with GRANTED low; answers whether a burst keeps the bus. */
INLINE u32 beat(struct arbiter *a, const struct inputs *c, u64 request) {
    if (a->phase == FRESH) {
        u32 first = opening[a->flags & HMASTLOCK][c->codes];
        a->phase = first & ~KEPT;
        return first & KEPT;
    }
    if (a->phase == OPEN) {
        if (!request) a->phase = DONE;
    } else if (a->phase != DONE) {
        a->phase -= is_ready(c);
    }
    return a->phase != DONE;
}

/* The first requester after g, around to g itself; 0 if there is none. */
INLINE u64 winner(u32 hbusreq, u64 g) {
    u32 above = hbusreq & 0xfffffffeu << g, among = above ? above : hbusreq;
    return among ? (u32)__builtin_ctz(among) : 0;
}

/* Moves the state over a cycle; answers the flags of its line. */
INLINE u64 arbitrate(struct arbiter *a, const struct inputs *c) {
    u64 request = c->hbusreq >> a->m & 1, flags = a->flags | request << 48;
    if (flags & GRANTED) {
        if (is_ready(c)) *a = (struct arbiter){ALL_LOW | (c->hlock >> a->g & 1), a->g, a->g, FRESH};
        return flags;
    }
    if (beat(a, c, request)) return flags;
    if ((flags & HMASTLOCK) && (c->hlock >> a->m & 1)) return flags;
    if (c->hbusreq | a->m) a->flags |= GRANTED;
    a->g = winner(c->hbusreq, a->g);
    return flags | DECIDE;
}

#endif
