/* The judge's step over a row of a trace, with guarded buffers. */
#ifndef JUDGE_H
#define JUDGE_H

#include "lend.h"

/* The eleven columns of a recorded cycle. */
struct cycle {
    uint32_t hbusreq, hlock, hready, htrans, hburst, hgrant, hmaster, hmastlock, decide, granted, busreq;
};

static inline struct cycle cycle_of(const char *row) {
    struct cycle c = {column(row, 0, 4),  column(row, 5, 4),  column(row, 10, 1), column(row, 12, 1), column(row, 14, 1), column(row, 16, 4),
                      column(row, 21, 1), column(row, 23, 1), column(row, 25, 1), column(row, 27, 1), column(row, 29, 1)};
    return c;
}

static inline uint32_t judge(struct cycle c, struct lent *state, size_t state_len, struct lent *broken, size_t broken_len) {
    return espigambre_judge_step(c.hbusreq, c.hlock, c.hready, c.htrans, c.hburst, c.hgrant, c.hmaster, c.hmastlock, c.decide, c.granted,
                                 c.busreq, part(state, state_len), state_len, part(broken, broken_len), broken_len);
}

/* The mask in the first four bytes, low byte first. */
static inline uint32_t mask_of(const uint8_t *b) { return b[0] | (uint32_t)b[1] << 8 | (uint32_t)b[2] << 16 | (uint32_t)b[3] << 24; }

#endif
