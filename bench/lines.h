/* What a cycle is: the columns of a line, their codes, and how long lines and runs are. */
#ifndef LINES_H
#define LINES_H

#include "bytes.h"

enum { LIMIT = 1000000, STIM_LINE = 16, TRACE_LINE = 31 };
enum { IDLE = 0, NONSEQ = 2, SEQ = 3 };
enum { SINGLE = 0, INCR = 1, INCR4 = 3 };

/* HREADY, HTRANS and HBURST as one number below 32, and a bit for each number with HTRANS 1 or HBURST 2 */
#define CODES(hready, htrans, hburst) ((hready) | (htrans) << 1 | (hburst) << 3)
#define NOT_BUILT 0x0cff0c0cu

/* the last four columns as they are written: HMASTLOCK, DECIDE, GRANTED, BUSREQ, tabs between them, and LF */
#define ALL_LOW 0x0a30093009300930ul
#define HMASTLOCK 1ul
#define DECIDE (1ul << 16)
#define GRANTED (1ul << 32)
#define BUSREQ (1ul << 48)

/* the masks in any order of their bits */
struct inputs {
    u32 hbusreq, hlock, codes;
};

INLINE u32 is_ready(const struct inputs *c) { return c->codes & 1; }

/* HTRANS 1 and HBURST 2, 4, 5, 6, 7. */
INLINE u32 not_built(u32 htrans, u32 hburst) { return (htrans == 1) | (0xf4u >> hburst & 1); }

#endif
