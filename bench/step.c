/* The host's reset and both forms of its step in plain C. State bytes: n, g, m, HMASTLOCK, GRANTED, phase (0
   Fresh, 1 Fixed, 2 Open, 3 Done), k, 0, and the count, low byte first. */
#include "arbitrate.h"
#include "put.h"
#include "step.h"

/* the bits that the first eight bytes may have */
#define STATE_BITS 0x00030301010f0f1ful

/* HMASTLOCK, GRANTED, the phase, k, and whether g is m, as one number below 128 */
#define HELD(hmastlock, granted, phase, k, own) ((hmastlock) | (granted) << 1 | (phase) << 2 | (k) << 4 | (own) << 6)

/* With bits 24, 32, 40, 41, 48 and 49 side by side. */
INLINE u64 held(u64 bytes, u64 own) {
    return bytes * (1ul << 34 | 1ul << 27 | 1ul << 20 | 1ul << 14) >> 58 | own << 6;
}

/* The phases of well-formed states by these numbers, with the lowest bit high; all else is 0. */
#define IS(phase) ((phase) << 1 | 1)
#define FREE(phase, k, is) [HELD(0, 0, phase, k, 1)] = IS(is), [HELD(1, 0, phase, k, 1)] = IS(is)
#define TAKEN(phase, own, is) [HELD(0, 1, phase, 0, own)] = IS(is), [HELD(1, 1, phase, 0, own)] = IS(is)
static const u8 phases[128] = {
    FREE(0, 0, FRESH), TAKEN(0, 0, FRESH), TAKEN(0, 1, FRESH), FREE(1, 1, FIXED + 1), FREE(1, 2, FIXED + 2),
    FREE(1, 3, FIXED + 3), [HELD(1, 0, 2, 0, 1)] = IS(OPEN), FREE(3, 0, DONE), TAKEN(3, 0, DONE), TAKEN(3, 1, DONE)};

/* a phase and its k in two bytes */
static const u16 phase_bytes[] = {
    [FRESH] = 0, [FIXED + 1] = 0x0101, [FIXED + 2] = 0x0201, [FIXED + 3] = 0x0301, [OPEN] = 2, [DONE] = 3};

/* the masters that are there, by n */
#define THERE(n) [n] = (1u << (n)) - 1
static const u32 masters[32] = {THERE(2),  THERE(3),  THERE(4),  THERE(5),  THERE(6),  THERE(7),  THERE(8), THERE(9),
                                THERE(10), THERE(11), THERE(12), THERE(13), THERE(14), THERE(15), THERE(16)};

static const u64 grants[] = {MASTERS(GRANT)}, owners[] = {MASTERS(OWNER)};

INLINE void pack(u8 *state, u32 n, const struct arbiter *a, u32 count) {
    u64 flags = (a->flags & HMASTLOCK) << 24 | (a->flags & GRANTED);
    store8(state, n | a->g << 8 | a->m << 16 | flags | (u64)phase_bytes[a->phase] << 40);
    store4(state + 8, count);
}

u32 plain_reset(u32 n, u8 *state, u64 state_len) {
    if (state_len < STATE_BYTES) return 9;
    if (n < 2 || n > 16) return 1;
    pack(state, n, &RESET, 0);
    return 0;
}

/* Whether the inputs are good. */
INLINE u32 good(u32 masks, u32 there, u32 hready, u32 htrans, u32 hburst) {
    if (masks & ~there) return 0;
    if (hready > 1) return 0;
    if ((htrans | hburst) > 3) return 0;
    return !(NOT_BUILT >> CODES(hready, htrans, hburst) & 1);
}

/* The first test that they fail, if they are not. */
APART u32 refusal_of(u32 masks, u32 hready, u32 htrans, u32 hburst) {
    if (masks > 0xffff || hready > 1 || htrans > 3 || hburst > 7) return 4;
    return not_built(htrans, hburst) ? 5 : 6;
}

/* The outputs as bytes, with DECIDE low: HGRANT in two, then HMASTER and HMASTLOCK, which stand where the state has
   them, 0, GRANTED, BUSREQ, 0. */
INLINE u64 numbers(u64 bytes, u64 g, u64 request) {
    return 1ul << g | (bytes & 0x010f0000) | (bytes & GRANTED) << 8 | request << 48;
}

/* Both forms of the step; `text` is a constant where it is called. */
INLINE u32 step(u32 text, u32 hbusreq, u32 hlock, u32 hready, u32 htrans, u32 hburst, u8 *state, u64 state_len, u8 *shown,
                u64 shown_len) {
    if (RARELY(state_len < STATE_BYTES || shown_len < (text ? LINE_BYTES : OUTPUT_BYTES))) return 9;
    u64 bytes = load8(state), g = bytes >> 8 & 15, m = bytes >> 16 & 15;
    u32 n = bytes & 31, there = masters[n], phase = phases[held(bytes, g == m)], count = load4(state + 8);
    if (RARELY(bytes & ~STATE_BITS)) return 10;
    if (RARELY(!(phase & there >> g & there >> m & 1))) return 10;
    if (RARELY(count >= LIMIT)) return count == LIMIT ? 8 : 10;
    u32 masks = hbusreq | hlock;
    if (RARELY(!good(masks, there, hready, htrans, hburst))) return refusal_of(masks, hready, htrans, hburst);
    struct arbiter a = {ALL_LOW | (bytes >> 24 & 1) | (bytes & GRANTED), g, m, phase >> 1};
    struct inputs c = {hbusreq, hlock, CODES(hready, htrans, hburst)};
    if (text) put_five(shown, hbusreq, hlock, hready, htrans, hburst, '\t');
    else store8(shown, numbers(bytes, g, hbusreq >> m & 1));
    u64 flags = arbitrate(&a, &c);
    if (text) put_six(shown + 15, grants[g], owners[m], flags);
    else shown[4] = flags >> 16 & 1;
    pack(state, n, &a, count + 1);
    return 0;
}

u32 plain_step(u32 hbusreq, u32 hlock, u32 hready, u32 htrans, u32 hburst, u8 *state, u64 state_len, u8 *line,
               u64 line_len) {
    return step(1, hbusreq, hlock, hready, htrans, hburst, state, state_len, line, line_len);
}

u32 plain_step_outputs(u32 hbusreq, u32 hlock, u32 hready, u32 htrans, u32 hburst, u8 *state, u64 state_len, u8 *outputs,
                       u64 outputs_len) {
    return step(0, hbusreq, hlock, hready, htrans, hburst, state, state_len, outputs, outputs_len);
}

u32 no_step(u32 hbusreq, u32 hlock, u32 hready, u32 htrans, u32 hburst, u8 *state, u64 state_len, u8 *line,
            u64 line_len) {
    (void)hbusreq, (void)hlock, (void)hready, (void)htrans, (void)hburst, (void)state, (void)state_len, (void)line;
    return line_len < LINE_BYTES;
}
