/* Stimulus lines and trace lines, read by whole words. A mask stays four digits, each in its byte, the last one
   lowest, and a master is a place in it, from 0 to 27. */
#ifndef TAKE_H
#define TAKE_H

#include "lines.h"

/* the place of a master, and the places of the masters from n on, in two masks */
#define PLACE(i) ((i) + ((i) & 12))
static inline u64 absent_masters(u32 n) {
    u64 there = 0;
    for (u32 i = 0; i < n; i++) there |= 0x0000000100000001ul << PLACE(i);
    return ~there & EACH(0x0f);
}

/* A line's shape: its separators, and the largest digit of each other place. */
static const char stimulus[] = "ffff\tffff\t1\t3\t7\n", trace[] = "ffff\tffff\t1\t3\t7\tffff\tf\t1\t1\t1\t1\n";

/* A hex digit, or 16. */
static inline u32 digit(u8 sign) {
    return sign >= '0' && sign <= '9' ? sign - '0' : sign >= 'a' && sign <= 'f' ? sign - 'a' + 10u : 16;
}

/* Four hex digits as a number. */
static inline u32 mask(const u8 *at) {
    return digit(at[0]) << 12 | digit(at[1]) << 8 | digit(at[2]) << 4 | digit(at[3]);
}

/* The first test that a line fails: 3 (separators), 4 (characters), 5 (codes that are not built), 6 (masters that
   are not there), 7 (HMASTER). A line that fails none comes after the last cycle of a run: 8. */
APART u32 refusal_of(const u8 *line, const char *shape, u32 n) {
    for (u32 i = 0; shape[i]; i++)
        if (shape[i] < '0' && line[i] != shape[i]) return 3;
    for (u32 i = 0; shape[i]; i++)
        if (shape[i] >= '0' && digit(line[i]) > digit((u8)shape[i])) return 4;
    if (not_built(digit(line[12]), digit(line[14]))) return 5;
    if ((mask(line) | mask(line + 5)) >> n) return 6;
    if (shape == stimulus) return 8;
    return mask(line + 16) >> n ? 6 : digit(line[21]) >= n ? 7 : 8;
}

/* Eight hex digits by their values; `bad` is not 0 if a character is none. */
struct digits {
    u64 values, bad;
};

/* A letter is 0x51 to 0x56 before it becomes 10 to 15. What carries comes from a place that is bad already. */
INLINE struct digits hex_digits(u64 text) {
    u64 signs = text ^ EACH('0'), letters = signs >> 6 & EACH(1);
    u64 values = signs - 0x47 * letters, small = values + EACH(6) - 16 * letters;
    return (struct digits){values, (values | small) & EACH(0xf0)};
}

/* Reads the first five fields and the byte after them; answers 0 if they are good. */
INLINE u64 take_inputs(const u8 *line, u8 last, u64 absent, struct inputs *c) {
    u64 tab = line[4] ^ '\t', masks = __builtin_bswap64((u64)load4(line + 5) << 32 | load4(line));
    u64 codes = load8(line + 8) ^ (0x0030093009300900ul | (u64)last << 56);
    struct digits eight = hex_digits(masks);
    c->hbusreq = (u32)(eight.values >> 32);
    c->hlock = (u32)eight.values;
    /* bits 16, 32, 33, 48 and 49 side by side */
    c->codes = (u32)(codes * (1ul << 43 | 1ul << 28 | 1ul << 14) >> 59);
    return tab | eight.bad | (eight.values & absent) | (codes & 0xfffcfffcfffeff00ul) | (NOT_BUILT >> c->codes & 1);
}

/* codes and flags as one number */
enum { READY = 1, TRANS = 3 << 1, BURST = 3 << 3, LOCKED = 1 << 5, DECIDES = 1 << 6, GRANTS = 1 << 7, ASKS = 1 << 8 };

/* A cycle of a trace: `seats` is the text from HGRANT to HMASTLOCK, `hmaster` a place. */
struct cycle {
    struct inputs in;
    u64 seats;
    u32 hgrant, hmaster, now;
};

/* Reads HGRANT and HMASTER out of the seats; answers 0 if they are good. */
INLINE u64 take_seats(u64 absent, u32 n, struct cycle *c) {
    /* their five digits, and 0 in the other places */
    struct digits eight = hex_digits(__builtin_bswap64((c->seats & 0x0000ff00fffffffful) | 0x3030003000000000ul));
    u64 tabs = (c->seats ^ 0x0009000900000000ul) & 0x00ff00ff00000000ul;
    u32 number = (u32)eight.values >> 16;
    c->hgrant = (u32)(eight.values >> 32);
    c->hmaster = PLACE(number);
    return tabs | eight.bad | (c->hgrant & (u32)absent) | (number >= n);
}

/* Reads 31 bytes; answers 0 if they are good. Seats as at p are not read again. */
INLINE u64 take_trace(const u8 *line, u64 absent, u32 n, const struct cycle *p, struct cycle *c) {
    u64 flags = load8(line + 23) ^ ALL_LOW, bad = take_inputs(line, '\t', absent, &c->in);
    /* bits 0, 16, 32 and 48 side by side */
    c->now = c->in.codes | (u32)(flags * (1ul << 60 | 1ul << 45 | 1ul << 30 | 1ul << 15) >> 60) << 5;
    c->seats = load8(line + 16);
    c->hgrant = p->hgrant;
    c->hmaster = p->hmaster;
    if (c->seats != p->seats) bad |= take_seats(absent, n, c);
    return bad | (flags & 0xfffefffefffefffeul);
}

#endif
