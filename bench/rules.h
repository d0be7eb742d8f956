/* The judge's state, and the rules charged at one cycle as the bits of a number, in report order. */
#ifndef RULES_H
#define RULES_H

#include "take.h"

enum { A1, A2, A3, A4, A5, A6, A7, A8, A9, G1, G2, G3, G4, G5, G6, G7, G8, G9, G10, G11, G12, RULES };

/* an access: not opened, opened and not watched, watched by G3 with 1 to 3 ready cycles left, or by G2 */
enum { CLOSED, UNWATCHED, LEFT_1, LEFT_2, LEFT_3, REQUESTED };

struct judge {
    u64 absent;
    u32 n, count;
    struct cycle p;
    u32 locked_row, waiting_row, access;
    u64 lost[2];
};

/* Charges a rule, which hardly any cycle breaks. */
#define CHARGE(rule, holds) \
    if (RARELY(holds)) charged |= 1u << (rule)

/* HBUSREQ of HMASTER. */
INLINE u32 owners_request(const struct cycle *c) { return c->in.hbusreq >> c->hmaster & 1; }

INLINE u32 trans(const struct cycle *c) { return c->now >> 1 & 3; }

INLINE u32 is_handover(const struct cycle *c) { return (~c->now & (READY | GRANTS)) == 0; }

/* A row goes on; a full one is charged and starts again. */
INLINE u32 is_full(u32 *length, u32 full) {
    if (!RARELY(++*length == full)) return 0;
    *length = 0;
    return 1;
}

/* A1 and A2. */
INLINE u32 rows(struct judge *j, const struct cycle *t, u32 request) {
    u32 charged = 0;
    if (request && (t->now & (BURST | LOCKED)) == (CODES(0, 0, INCR) | LOCKED)) {
        CHARGE(A1, is_full(&j->locked_row, 1024));
    } else {
        j->locked_row = 0;
    }
    if (t->now & READY) {
        j->waiting_row = 0;
    } else {
        CHARGE(A2, is_full(&j->waiting_row, 17));
    }
    return charged;
}

/* The access after its opening. */
INLINE u32 opening(const struct cycle *t) {
    u32 hburst = t->now >> 3 & 3;
    if (!(t->now & LOCKED)) return UNWATCHED;
    return hburst == INCR4 ? LEFT_3 : hburst == INCR ? REQUESTED : UNWATCHED;
}

/* G2 and G3. */
INLINE u32 watches(struct judge *j, const struct cycle *t, u32 request) {
    u32 charged = 0, access = j->access;
    if (is_handover(t)) {
        CHARGE(G2, access == REQUESTED && request);
        CHARGE(G3, access == LEFT_2 || access == LEFT_3);
        j->access = CLOSED;
    } else if (access == CLOSED) {
        if ((t->now & (READY | TRANS)) == CODES(1, NONSEQ, 0)) j->access = opening(t);
    } else if (access == REQUESTED) {
        if (!request) j->access = UNWATCHED;
    } else if (access != UNWATCHED) {
        j->access -= t->now & READY;
    }
    return charged;
}

/* G11: each master that asked and was not granted has lost once more. Each count has a byte; those of the lower
   two bits of a digit come first. */
INLINE u32 losses(struct judge *j, u32 losers) {
    u64 pairs = losers | (u64)losers << 31, low = pairs & EACH(1), high = pairs >> 2 & EACH(1);
    u64 to_full = EACH(0x80) - EACH(1) * j->n;
    j->lost[0] = (j->lost[0] + low) & 0xff * low;
    j->lost[1] = (j->lost[1] + high) & 0xff * high;
    low = (j->lost[0] + to_full) >> 7 & EACH(1);
    high = (j->lost[1] + to_full) >> 7 & EACH(1);
    if (!RARELY(low | high)) return 0;
    j->lost[0] &= ~(0xff * low);
    j->lost[1] &= ~(0xff * high);
    return 1u << G11;
}

/* The rules that compare the previous cycle with this one, but for G11. */
INLINE u32 pair(const struct cycle *p, const struct cycle *t, u32 request) {
    u32 charged = 0, moved = p->now ^ t->now;
    CHARGE(A3, ~(p->in.hbusreq | p->in.hlock) & t->in.hlock & ~t->in.hbusreq);
    if (p->now & READY) {
        CHARGE(G6, p->hgrant != 1u << t->hmaster);
    } else {
        CHARGE(A4, moved & (TRANS | BURST));
    }
    if (trans(p) == IDLE) {
        CHARGE(A5, trans(t) == SEQ);
    } else if ((p->now & (READY | TRANS | BURST | GRANTS)) == CODES(1, NONSEQ, INCR4)) {
        CHARGE(A6, trans(t) != SEQ);
    }
    if (is_handover(p)) {
        CHARGE(A7, request && trans(t) != NONSEQ);
        CHARGE(G5, t->now & GRANTS);
        CHARGE(G7, (p->in.hlock & p->hgrant) && !(t->now & LOCKED));
    } else {
        CHARGE(G5, p->now & ~t->now & GRANTS);
    }
    if (p->now & DECIDES) {
        CHARGE(G4, p->in.hbusreq && !(t->now & GRANTS));
        CHARGE(G10, !p->in.hbusreq && !(t->hgrant & 1));
    }
    if (p->seats != t->seats) {
        CHARGE(G8, !is_handover(p) && ((p->hmaster ^ t->hmaster) | (moved & LOCKED)));
        CHARGE(G9, !(p->now & DECIDES) && p->hgrant != t->hgrant);
        CHARGE(G10, t->hgrant & ~(p->in.hbusreq | p->hgrant | 1));
    }
    return charged;
}

/* A9 and G12. */
static inline u32 first_cycle(const struct cycle *t) {
    u32 charged = 0, at_reset = t->hgrant == 1 && t->hmaster == 0 && !(t->now & (LOCKED | GRANTS));
    CHARGE(A9, t->in.hbusreq | t->in.hlock | t->in.codes);
    CHARGE(G12, !at_reset || (!(t->now & DECIDES) && trans(t) == IDLE));
    return charged;
}

/* Moves the judge over a cycle, all but the count and p; answers the rules charged there. */
INLINE u32 judge_cycle(struct judge *j, const struct cycle *p, const struct cycle *t) {
    u32 request = owners_request(t), charged = rows(j, t, request) | watches(j, t, request);
    CHARGE(A8, !t->in.hbusreq && trans(t) != IDLE);
    CHARGE(G1, t->now / ASKS != request);
    if (RARELY(!p->seats)) return charged | first_cycle(t);
    charged |= pair(p, t, request);
    if (p->now & DECIDES) charged |= losses(j, p->in.hbusreq & ~t->hgrant);
    return charged;
}

#endif
