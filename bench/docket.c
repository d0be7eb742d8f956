/* The host's judge in plain C. Its bytes: n, opened, watch (1 on G2, 2 on G3), k, locked in two, waited, 0, the count in
   four, the previous cycle in fourteen, and sixteen lost counts; all low byte first. */
#include "docket.h"
#include "lines.h"

enum { A1, A2, A3, A4, A5, A6, A7, A8, A9, G1, G2, G3, G4, G5, G6, G7, G8, G9, G10, G11, G12 };

/* the bits that the first eight bytes may have, and a bit for each of opened, watch and k that belong together */
#define HEAD_BITS 0x001f03ff0303011ful
#define WATCH(opened, watch, k) (1u << ((opened) | (watch) << 1 | (k) << 3))
#define WATCHES (WATCH(0, 0, 0) | WATCH(1, 0, 0) | WATCH(1, 1, 0) | WATCH(1, 2, 1) | WATCH(1, 2, 2) | WATCH(1, 2, 3))

/* A cycle: its masks, HMASTER, and codes and flags as one number. */
enum { READY = 1, TRANS = 3 << 1, BURST = 3 << 3, LOCKED = 1 << 5, DECIDES = 1 << 6, GRANTS = 1 << 7, ASKS = 1 << 8 };
struct cycle {
    u32 hbusreq, hlock, hgrant, hmaster, now;
};

INLINE u32 number(u32 codes, u32 hmastlock, u32 decide, u32 granted, u32 busreq) {
    return codes | hmastlock << 5 | decide << 6 | granted << 7 | busreq << 8;
}

/* The judge that the bytes hold. */
struct judge {
    u32 n, there, opened, watch, k, locked, waited, count;
    struct cycle p;
    u64 lost[2];
};

/* the bytes of the masters below n, among those of eight */
INLINE u64 first(u32 n) { return n >= 8 ? ~0ul : (1ul << 8 * n) - 1; }

/* Whether eight lost counts are below n, and 0 from `masters` on. */
INLINE u32 counts_ok(u64 lost, u32 n, u32 masters) {
    return !((lost & EACH(0xf0)) | ((lost + EACH(0x80) - EACH(1) * n) & EACH(0x80)) | (lost & ~first(masters)));
}

/* The previous cycle in its fourteen bytes; answers whether it is valid. Bits 32, 40, 41, 48 and 49 of the first eight come
   side by side, and so do the four flags of the last. */
INLINE u32 see_cycle(const u8 *at, u32 there, struct cycle *p) {
    u64 low = load8(at), high = load8(at + 6);
    u32 codes = (low >> 32 & 0x030301) * (1u << 18 | 1u << 11 | 1u << 5) >> 18 & 31;
    u32 flags = (u32)((high >> 32 & 0x01010101) * (1u << 24 | 1u << 17 | 1u << 10 | 1u << 3) >> 24 & 15);
    p->hbusreq = (u32)low & 0xffff;
    p->hlock = (u32)low >> 16;
    p->hgrant = high >> 8 & 0xffff;
    p->hmaster = high >> 24 & 15;
    p->now = codes | flags << 5;
    return !((low & 0x00fcfcfe00000000ul) | (high & 0xfefefefef0000000ul) | ((p->hbusreq | p->hlock | p->hgrant) & ~there) |
             (NOT_BUILT >> codes & 1)) &&
           (there >> p->hmaster & 1);
}

/* Reads the bytes; answers whether they are a judge that is well formed. */
INLINE u32 see(const u8 *bytes, struct judge *j) {
    u64 head = load8(bytes);
    j->n = head & 31;
    j->there = j->n - 2u <= 14 ? (1u << j->n) - 1 : 0;
    j->opened = head >> 8 & 1;
    j->watch = head >> 16 & 3;
    j->k = head >> 24 & 3;
    j->locked = head >> 32 & 1023;
    j->waited = head >> 48 & 31;
    j->count = load4(bytes + 8);
    j->lost[0] = load8(bytes + 26);
    j->lost[1] = load8(bytes + 34);
    if (RARELY((head & ~HEAD_BITS) || !(WATCHES >> (j->opened | j->watch << 1 | j->k << 3) & 1) || j->waited > 16)) return 0;
    if (RARELY(!j->there || j->count > LIMIT || !see_cycle(bytes + 12, j->there, &j->p))) return 0;
    if (RARELY(!counts_ok(j->lost[0], j->n, j->n) || !counts_ok(j->lost[1], j->n, j->n > 8 ? j->n - 8 : 0))) return 0;
    if (!RARELY(j->count == 0)) return 1;
    return head == j->n && !(load8(bytes + 12) | load8(bytes + 18) | j->lost[0] | j->lost[1]);
}

/* The judge after a cycle, whose codes and flags come as bytes. */
INLINE void put(u8 *bytes, const struct judge *j, const struct cycle *t, u32 codes, u32 flags) {
    u64 head = j->n | j->opened << 8 | j->watch << 16 | j->k << 24 | (u64)j->locked << 32 | (u64)j->waited << 48;
    store8(bytes, head);
    store4(bytes + 8, j->count + 1);
    store8(bytes + 12, t->hbusreq | t->hlock << 16 | (u64)codes << 32);
    store8(bytes + 19, t->hgrant | t->hmaster << 16 | (u64)flags << 24);
    store8(bytes + 26, j->lost[0]);
    store8(bytes + 34, j->lost[1]);
}

#define CHARGE(rule, holds) \
    if (RARELY(holds)) charged |= 1u << (rule)

INLINE u32 trans(const struct cycle *c) { return c->now >> 1 & 3; }

INLINE u32 is_handover(const struct cycle *c) { return (~c->now & (READY | GRANTS)) == 0; }

/* A1, A2, G2 and G3: the rows, the opening of an access and its watch. */
INLINE u32 rows(struct judge *j, const struct cycle *t, u32 request) {
    u32 charged = 0, in_row = request && (t->now & (BURST | LOCKED)) == (CODES(0, 0, INCR) | LOCKED);
    j->locked = in_row ? j->locked + 1 : 0;
    if (RARELY(j->locked == 1024)) j->locked = 0, charged |= 1u << A1;
    j->waited = t->now & READY ? 0 : j->waited + 1;
    if (RARELY(j->waited == 17)) j->waited = 0, charged |= 1u << A2;
    if (is_handover(t)) {
        CHARGE(G2, j->watch == 1 && request);
        CHARGE(G3, j->k > 1);
        j->opened = j->watch = j->k = 0;
    } else if (!j->opened) {
        if ((t->now & (READY | TRANS)) != CODES(1, NONSEQ, 0)) return charged;
        j->opened = 1;
        if ((t->now & (LOCKED | BURST)) == (LOCKED | CODES(0, 0, INCR))) j->watch = 1;
        if ((t->now & (LOCKED | BURST)) == (LOCKED | CODES(0, 0, INCR4))) j->watch = 2, j->k = 3;
    } else if (j->watch == 1) {
        j->watch = request;
    } else if (j->watch == 2) {
        j->k -= t->now & READY;
        if (!j->k) j->watch = 0;
    }
    return charged;
}

/* Eight masks' bits, each in its byte. */
INLINE u64 spread(u32 bits) { return (((bits & 0xff) * EACH(1) & 0x8040201008040201ul) + EACH(0x7f)) >> 7 & EACH(1); }

/* G11: each master that asked and was not granted has lost once more. */
INLINE u32 losses(struct judge *j, u32 losers) {
    u32 full = 0;
    for (u32 i = 0; i < 2; i++) {
        u64 lost = spread(losers >> 8 * i), count = (j->lost[i] + lost) & 0xff * lost;
        u64 reached = (count + EACH(0x80) - EACH(1) * j->n) >> 7 & EACH(1);
        j->lost[i] = count & ~(0xff * reached);
        full |= reached != 0;
    }
    return full << G11;
}

/* The rules that compare the previous cycle with this one, but for G11. */
INLINE u32 pair(const struct cycle *p, const struct cycle *t, u32 request) {
    u32 charged = 0, moved = p->now ^ t->now;
    CHARGE(A3, ~(p->hbusreq | p->hlock) & t->hlock & ~t->hbusreq);
    if (p->now & READY) {
        CHARGE(G6, p->hgrant != 1u << t->hmaster);
    } else {
        CHARGE(A4, moved & (TRANS | BURST));
    }
    if (trans(p) == IDLE) {
        CHARGE(A5, trans(t) == SEQ);
    } else if ((p->now & (READY | TRANS | BURST | GRANTS)) == CODES(1, NONSEQ, INCR4)) {
        CHARGE(A6, trans(t) != SEQ);
    }
    if (is_handover(p)) {
        CHARGE(A7, request && trans(t) != NONSEQ);
        CHARGE(G5, t->now & GRANTS);
        CHARGE(G7, p->hlock & p->hgrant && !(t->now & LOCKED));
    } else {
        CHARGE(G5, p->now & ~t->now & GRANTS);
        CHARGE(G8, (p->hmaster ^ t->hmaster) | (moved & LOCKED));
    }
    if (p->now & DECIDES) {
        CHARGE(G4, p->hbusreq && !(t->now & GRANTS));
        CHARGE(G10, (t->hgrant & ~(p->hbusreq | p->hgrant | 1)) || (!p->hbusreq && !(t->hgrant & 1)));
    } else if (RARELY(p->hgrant != t->hgrant)) {
        charged |= 1u << G9;
        CHARGE(G10, t->hgrant & ~(p->hbusreq | p->hgrant | 1));
    }
    return charged;
}

INLINE u32 charges(struct judge *j, const struct cycle *t) {
    u32 request = t->hbusreq >> t->hmaster & 1, charged = rows(j, t, request);
    CHARGE(A8, !t->hbusreq && trans(t) != IDLE);
    CHARGE(G1, t->now / ASKS != request);
    if (RARELY(j->count == 0)) {
        CHARGE(A9, t->hbusreq | t->hlock | (t->now & (READY | TRANS | BURST)));
        CHARGE(G12, t->hgrant != 1 || t->hmaster || t->now & (LOCKED | GRANTS) || !(t->now & (DECIDES | TRANS)));
        return charged;
    }
    if (j->p.now & DECIDES) charged |= losses(j, j->p.hbusreq & ~t->hgrant);
    return charged | pair(&j->p, t, request);
}

u32 plain_judge_start(u32 n, u8 *judge, u64 judge_len) {
    if (judge_len < JUDGE_BYTES) return 9;
    if (n < 2 || n > 16) return 1;
    __builtin_memset(judge, 0, JUDGE_BYTES);
    judge[0] = (u8)n;
    return 0;
}

u32 plain_judge_step(u32 hbusreq, u32 hlock, u32 hready, u32 htrans, u32 hburst, u32 hgrant, u32 hmaster, u32 hmastlock,
                     u32 decide, u32 granted, u32 busreq, u8 *judge, u64 judge_len, u8 *broken, u64 broken_len) {
    struct judge j;
    if (RARELY(judge_len < JUDGE_BYTES || broken_len < BROKEN_BYTES)) return 9;
    if (RARELY(!see(judge, &j))) return 10;
    if (RARELY(j.count == LIMIT)) return 8;
    u32 masks = hbusreq | hlock | hgrant;
    if (RARELY(masks > 0xffff || (hready | hmastlock | decide | granted | busreq) > 1 || htrans > 3 || hburst > 7)) return 4;
    if (RARELY(not_built(htrans, hburst))) return 5;
    if (RARELY(masks & ~j.there)) return 6;
    if (RARELY(hmaster >= j.n)) return 7;
    struct cycle t = {hbusreq, hlock, hgrant, hmaster, number(CODES(hready, htrans, hburst), hmastlock, decide, granted, busreq)};
    store4(broken, charges(&j, &t));
    put(judge, &j, &t, hready | htrans << 8 | hburst << 16, hmastlock | decide << 8 | granted << 16 | busreq << 24);
    return 0;
}

u32 no_judge_step(u32 hbusreq, u32 hlock, u32 hready, u32 htrans, u32 hburst, u32 hgrant, u32 hmaster, u32 hmastlock,
                  u32 decide, u32 granted, u32 busreq, u8 *judge, u64 judge_len, u8 *broken, u64 broken_len) {
    (void)hbusreq, (void)hlock, (void)hready, (void)htrans, (void)hburst, (void)hgrant, (void)hmaster, (void)hmastlock;
    (void)decide, (void)granted, (void)busreq, (void)judge, (void)judge_len, (void)broken;
    return broken_len < BROKEN_BYTES;
}
