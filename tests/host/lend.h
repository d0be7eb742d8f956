/*
 * What the tests here share. Every call lends the first bytes of a larger room: what stands before and after the lent part,
 * and after the bytes of it that the call may change, must come back as it was, and on a refusal all of it must.
 */
#ifndef LEND_H
#define LEND_H

#include "espigambre.h"

/* The same calls again: a header with other types does not compile here. */
uint32_t espigambre_reset(uint32_t n, uint8_t *state, size_t state_len);
uint32_t espigambre_step(uint32_t hbusreq, uint32_t hlock, uint32_t hready, uint32_t htrans, uint32_t hburst,
                         uint8_t *state, size_t state_len, uint8_t *line, size_t line_len);
uint32_t espigambre_step_outputs(uint32_t hbusreq, uint32_t hlock, uint32_t hready, uint32_t htrans, uint32_t hburst,
                                 uint8_t *state, size_t state_len, uint8_t *outputs, size_t outputs_len);
uint32_t espigambre_judge_start(uint32_t n, uint8_t *judge, size_t judge_len);
uint32_t espigambre_judge_step(uint32_t hbusreq, uint32_t hlock, uint32_t hready, uint32_t htrans, uint32_t hburst,
                               uint32_t hgrant, uint32_t hmaster, uint32_t hmastlock, uint32_t decide, uint32_t granted, uint32_t busreq,
                               uint8_t *judge, size_t judge_len, uint8_t *broken, size_t broken_len);

int printf(const char *format, ...);

enum { STATE = ESPIGAMBRE_STATE_SIZE, LINE = ESPIGAMBRE_LINE_SIZE, OUTPUTS = ESPIGAMBRE_OUTPUTS_SIZE };
enum { JUDGE = ESPIGAMBRE_JUDGE_SIZE, BROKEN = ESPIGAMBRE_BROKEN_SIZE };
enum { AHEAD = 16, ROOM = 128 };

/* What the room holds where nothing was put: no byte of a state, and no two neighbours alike. */
static inline uint8_t litter(int i) { return (uint8_t)(0x80 + i % 101); }

struct lent {
    uint8_t was[ROOM];
    uint8_t is[ROOM];
};

static int checks, failures;

static inline void check(const char *name, const char *what, long wanted, long got) {
    checks++;
    if (wanted != got) {
        failures++;
        printf("FAILED %s: %s: wanted %ld, got %ld\n", name, what, wanted, got);
    }
}

static inline void lend(struct lent *b, const uint8_t *bytes, int count) {
    for (int i = 0; i < ROOM; i++) b->was[i] = b->is[i] = litter(i);
    for (int i = 0; i < count; i++) b->was[AHEAD + i] = b->is[AHEAD + i] = bytes[i];
}

/* What a call gets: the lent part of a length, and a null pointer where it is 0. */
static inline uint8_t *part(struct lent *b, size_t length) { return length ? b->is + AHEAD : 0; }

/* The lent part begins with the count bytes, or with what it had where bytes is null; all else is as it was. */
static inline void compare(const char *name, const char *what, const struct lent *b, const uint8_t *bytes, int count) {
    checks++;
    for (int i = 0; i < ROOM; i++) {
        int at = i - AHEAD;
        uint8_t wanted = bytes && 0 <= at && at < count ? bytes[at] : b->was[i];
        if (b->is[i] != wanted) {
            failures++;
            printf("FAILED %s: %s: byte %d: wanted %d, got %d\n", name, what, at, wanted, b->is[i]);
            return;
        }
    }
}

/* The column of a line that begins at a place: `digits` hex digits. */
static inline uint32_t column(const char *row, int at, int digits) {
    uint32_t v = 0;
    for (int i = at; i < at + digits; i++) v = v * 16 + (uint32_t)(row[i] <= '9' ? row[i] - '0' : row[i] - 'a' + 10);
    return v;
}

/* The last line of a test, and its status. */
static inline int summary(const char *name) {
    printf("host: %s: %d checks, %d failed\n", name, checks, failures);
    return failures ? 1 : 0;
}

#endif
