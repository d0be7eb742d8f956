/* Stimulus lines and trace lines, written by whole words. */
#ifndef PUT_H
#define PUT_H

#include "lines.h"

/* the sixteen pairs of hex digits that begin with d */
#define PAIRS(d) d "0" d "1" d "2" d "3" d "4" d "5" d "6" d "7" d "8" d "9" d "a" d "b" d "c" d "d" d "e" d "f"

static const u8 pairs[] = PAIRS("0") PAIRS("1") PAIRS("2") PAIRS("3") PAIRS("4") PAIRS("5") PAIRS("6") PAIRS("7")
                          PAIRS("8") PAIRS("9") PAIRS("a") PAIRS("b") PAIRS("c") PAIRS("d") PAIRS("e") PAIRS("f");

/* Four hex digits as they stand in a line. */
INLINE u32 hex4(u32 mask) { return load2(pairs + 2 * (mask >> 8)) | load2(pairs + 2 * (mask & 0xff)) << 16; }

/* The first five fields and the byte after them, 16 bytes; the masks are numbers. */
INLINE void put_five(u8 *at, u32 hbusreq, u32 hlock, u32 hready, u32 htrans, u32 hburst, u8 last) {
    store8(at + 8, 0x0030093009300900ul | (u64)last << 56 | hready << 16 | (u64)htrans << 32 | (u64)hburst << 48);
    store4(at, hex4(hbusreq));
    at[4] = '\t';
    store4(at + 5, hex4(hlock));
}

/* X of each master */
#define MASTERS(X) \
    X(0), X(1), X(2), X(3), X(4), X(5), X(6), X(7), X(8), X(9), X(10), X(11), X(12), X(13), X(14), X(15)

/* a master as HGRANT, after a tab, and as HMASTER, between tabs: two parts of one word */
#define GRANT(i) (0x0000003030303009ul | 1ul << (32 - (i) / 4 * 8 + (i) % 4))
#define OWNER(i) (0x0900090000000000ul | ((i) + ((i) > 9 ? 'a' - 10ul : '0')) << 48)

/* The last six fields, 16 bytes from the tab before them. */
INLINE void put_six(u8 *at, u64 grant, u64 owner, u64 flags) {
    store8(at, grant | owner);
    store8(at + 8, flags);
}

#endif
