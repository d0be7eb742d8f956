/* Numbers by their width, and unaligned words in memory, low byte first. No header of a C library is
   needed: the baselines are compiled for x86-64 on machines that have none for it. */
#ifndef BYTES_H
#define BYTES_H

typedef unsigned char u8;
typedef unsigned short u16;
typedef unsigned int u32;
typedef unsigned long u64;

/* for what every cycle does, and for the loop over the cycles, which keeps all registers to itself */
#define INLINE static inline __attribute__((always_inline))
#define APART static __attribute__((noinline))

/* for what hardly any cycle does */
#define RARELY(flag) __builtin_expect((flag) != 0, 0)

/* the byte b in each place of a word */
#define EACH(b) (0x0101010101010101ul * (b))

INLINE u32 load2(const u8 *at) {
    u16 word;
    __builtin_memcpy(&word, at, 2);
    return word;
}

INLINE u32 load4(const u8 *at) {
    u32 word;
    __builtin_memcpy(&word, at, 4);
    return word;
}

INLINE u64 load8(const u8 *at) {
    u64 word;
    __builtin_memcpy(&word, at, 8);
    return word;
}

INLINE void store4(u8 *at, u32 word) { __builtin_memcpy(at, &word, 4); }

INLINE void store8(u8 *at, u64 word) { __builtin_memcpy(at, &word, 8); }

#endif
