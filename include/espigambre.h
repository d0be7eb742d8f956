/*
 * Espigambre's AHB arbiter and its judge for a C simulator: one bus cycle a call, with the state in bytes that the caller keeps.
 * Link target/staticlib/libhost.a, which `bin/archive` writes for x86-64 Linux; it is position independent, and docs/HOST.md has the link lines.
 *
 * Time. A call is one clock cycle. Its inputs are those that stand on the bus in the cycle. Its outputs are those of the same
 * cycle, before the clock edge that ends it: they come from the state that went in and from the inputs, while the state
 * that comes out is the one after the edge. HGRANT, HMASTER, HMASTLOCK and GRANTED depend on the state alone, DECIDE and BUSREQ on
 * the inputs too.
 *
 * The arbiter's state, in the first ESPIGAMBRE_STATE_SIZE bytes of its buffer:
 *
 *     byte | 0 | 1 | 2 | 3         | 4       | 5     | 6 | 7 | 8 to 11
 *          | n | g | m | HMASTLOCK | GRANTED | phase | k | 0 | cycles taken, low byte first
 *
 * n is the number of masters; m is the master that owns the bus (HMASTER); g is the master with the grant (the one bit of
 * HGRANT): while GRANTED is low it is m, while GRANTED is high it is the one that owns the bus after the next ready cycle.
 * The phase is 0 Fresh, 1 Fixed, 2 Open, 3 Done; k is 1 to 3 when Fixed, else 0; HMASTLOCK and GRANTED are 0 or 1.
 *
 * The judge, in the first ESPIGAMBRE_JUDGE_SIZE bytes of its buffer; two bytes for one number have the low byte first:
 *
 *     byte  0       n, the number of masters
 *     byte  1       1 if the access that runs has had its opening, else 0
 *     byte  2       the watch: 0 none, 1 on G2, 2 on G3
 *     byte  3       the ready cycles left, 1 to 3, in a watch on G3, else 0
 *     byte  4, 5    the length of A1's row, 0 to 1,023
 *     byte  6       the length of A2's row, 0 to 16
 *     byte  7       0
 *     byte  8 - 11  the cycles taken, low byte first
 *     byte 12 - 25  the previous cycle: HBUSREQ (2 bytes), HLOCK (2), HREADY, HTRANS, HBURST, HGRANT (2), HMASTER, HMASTLOCK,
 *                   DECIDE, GRANTED, BUSREQ
 *     byte 26 - 41  the decisions that master 0 to 15 has lost in a row
 *
 * Each call answers 0, or the number of the first refusal that applies. On a refusal no byte of any buffer changes. On 0 only
 * the first bytes of a buffer change, as many as its size below says, however long it is.
 *
 * The caller owes this much, and the calls cannot test it:
 *   - each pointer stands at as many bytes as its length says, which the call may read and write;
 *     a null pointer goes with the length 0 alone (and is refusal 9);
 *   - the two buffers of a step do not overlap;
 *   - nothing else uses either buffer during the call.
 */
#ifndef ESPIGAMBRE_H
#define ESPIGAMBRE_H

#include <stddef.h>
#include <stdint.h>

#ifdef __cplusplus
extern "C" {
#endif

/* Version 1.0.0 is 10000, 1.2.3 would be 10203: a greater version has a greater number. */
#define ESPIGAMBRE_VERSION_MAJOR 1
#define ESPIGAMBRE_VERSION_MINOR 0
#define ESPIGAMBRE_VERSION_PATCH 0
#define ESPIGAMBRE_VERSION (ESPIGAMBRE_VERSION_MAJOR * 10000 + ESPIGAMBRE_VERSION_MINOR * 100 + ESPIGAMBRE_VERSION_PATCH)

#define ESPIGAMBRE_STATE_SIZE 12
#define ESPIGAMBRE_LINE_SIZE 31
#define ESPIGAMBRE_OUTPUTS_SIZE 8
#define ESPIGAMBRE_JUDGE_SIZE 42
#define ESPIGAMBRE_BROKEN_SIZE 4

/* The cycles of a run. Beyond them the count may be set back: the arbiter's bytes 8 to 11 to 0, the judge's to 1 (1, 0, 0, 0). */
#define ESPIGAMBRE_CYCLES 1000000

/*
 * The answers. Refusals 2 and 3 are of headers and lines that are read, 12, 13 and 14 of dumps: these calls never give them. 11 is never
 * given either.
 */
enum {
    ESPIGAMBRE_TAKEN = 0,
    ESPIGAMBRE_MASTERS = 1,   /* reset and judge_start: n is not 2 to 16 */
    ESPIGAMBRE_VALUE = 4,     /* HTRANS above 3, HBURST above 7, a flag above 1, a mask above 65,535 */
    ESPIGAMBRE_NOT_BUILT = 5, /* HTRANS 1, or HBURST 2, 4, 5, 6, 7 */
    ESPIGAMBRE_ABSENT = 6,    /* HBUSREQ, HLOCK or HGRANT names a master not below n */
    ESPIGAMBRE_OWNER = 7,     /* judge_step: HMASTER not below n */
    ESPIGAMBRE_FULL = 8,      /* 1,000,000 cycles are taken already */
    ESPIGAMBRE_SHORT = 9,     /* a buffer is shorter than its size above */
    ESPIGAMBRE_STATE = 10,    /* the bytes are no state (no judge), or none that is well formed */
    ESPIGAMBRE_NOBODY = 11,   /* a decision with a request high finds no master: it always finds one */
    ESPIGAMBRE_DUMP = 12,     /* a dump's header is not ours: of dumps, never given by these calls */
    ESPIGAMBRE_TIME = 13,     /* a step's time is not that of its cycle: the same */
    ESPIGAMBRE_VARIABLE = 14  /* a step has a value of an unknown variable: the same */
};

/* The rules as bits of what judge_step calls broken, in the order of the report; docs/RULES.md explains each. */
#define ESPIGAMBRE_A1 (1u << 0)   /* masters and slaves: a locked INCR burst that does not end */
#define ESPIGAMBRE_A2 (1u << 1)   /* a slave that is never ready */
#define ESPIGAMBRE_A3 (1u << 2)   /* a lock without a request */
#define ESPIGAMBRE_A4 (1u << 3)   /* a transfer that changes while it waits */
#define ESPIGAMBRE_A5 (1u << 4)   /* SEQ after IDLE */
#define ESPIGAMBRE_A6 (1u << 5)   /* an INCR4 that stops after its first beat */
#define ESPIGAMBRE_A7 (1u << 6)   /* a new owner that does not begin */
#define ESPIGAMBRE_A8 (1u << 7)   /* a transfer that nobody asked for */
#define ESPIGAMBRE_A9 (1u << 8)   /* inputs that are not at rest in cycle 0 */
#define ESPIGAMBRE_G1 (1u << 9)   /* the arbiter: BUSREQ is not the owner's request */
#define ESPIGAMBRE_G2 (1u << 10)  /* a locked INCR cut short */
#define ESPIGAMBRE_G3 (1u << 11)  /* a locked INCR4 cut short */
#define ESPIGAMBRE_G4 (1u << 12)  /* a decision without a grant */
#define ESPIGAMBRE_G5 (1u << 13)  /* GRANTED falls too early or too late */
#define ESPIGAMBRE_G6 (1u << 14)  /* HMASTER is not the granted master */
#define ESPIGAMBRE_G7 (1u << 15)  /* a lock that does not come with the owner */
#define ESPIGAMBRE_G8 (1u << 16)  /* HMASTER or HMASTLOCK moves without a handover */
#define ESPIGAMBRE_G9 (1u << 17)  /* HGRANT moves without a decision */
#define ESPIGAMBRE_G10 (1u << 18) /* a grant that nobody asked for */
#define ESPIGAMBRE_G11 (1u << 19) /* a master that loses too often */
#define ESPIGAMBRE_G12 (1u << 20) /* cycle 0 is not the reset state */

/* The reset state of n masters into state. Refusals, in this order: 9, 1. */
uint32_t espigambre_reset(uint32_t n, uint8_t *state, size_t state_len);

/*
 * One cycle: the state after it into state, its trace line into line. Master i is bit i of hbusreq and hlock.
 * Refusals, in this order: 9, 10, 8, 4, 5, 6. The line is text: lower-case hex, a tab between two columns, LF at the end, no NUL.
 *
 *     column | HBUSREQ | HLOCK | HREADY | HTRANS | HBURST | HGRANT | HMASTER | HMASTLOCK | DECIDE | GRANTED | BUSREQ | LF
 *     offset | 0       | 5     | 10     | 12     | 14     | 16     | 21      | 23        | 25     | 27      | 29     | 30
 *     digits | 4       | 4     | 1      | 1      | 1      | 4      | 1       | 1         | 1      | 1       | 1      |
 */
uint32_t espigambre_step(uint32_t hbusreq, uint32_t hlock, uint32_t hready, uint32_t htrans, uint32_t hburst,
                         uint8_t *state, size_t state_len, uint8_t *line, size_t line_len);

/*
 * The same cycle with its outputs as numbers in place of the line. Refusals, in this order: 9, 10, 8, 4, 5, 6.
 *
 *     byte | 0 and 1                | 2       | 3         | 4      | 5       | 6      | 7
 *          | HGRANT, low byte first | HMASTER | HMASTLOCK | DECIDE | GRANTED | BUSREQ | 0
 */
uint32_t espigambre_step_outputs(uint32_t hbusreq, uint32_t hlock, uint32_t hready, uint32_t htrans, uint32_t hburst,
                                 uint8_t *state, size_t state_len, uint8_t *outputs, size_t outputs_len);

/* The judge of n masters before its first cycle into judge. Refusals, in this order: 9, 1. */
uint32_t espigambre_judge_start(uint32_t n, uint8_t *judge, size_t judge_len);

/*
 * One recorded cycle, its eleven columns as numbers: the judge after it into judge, and the rules that are broken at it into broken,
 * the bits ESPIGAMBRE_A1 to ESPIGAMBRE_G12 of one number, low byte first. Refusals, in this order: 9, 10, 8, 4, 5, 6, 7.
 */
uint32_t espigambre_judge_step(uint32_t hbusreq, uint32_t hlock, uint32_t hready, uint32_t htrans, uint32_t hburst,
                               uint32_t hgrant, uint32_t hmaster, uint32_t hmastlock, uint32_t decide, uint32_t granted, uint32_t busreq,
                               uint8_t *judge, size_t judge_len, uint8_t *broken, size_t broken_len);

#ifdef __cplusplus
}
#endif

#endif
