/* What document 01 says of a cycle of the arbiter, by hand from the page; and what is refused. */
#ifndef CASES_H
#define CASES_H

#include "lend.h"

struct inputs {
    uint32_t hbusreq, hlock, hready, htrans, hburst;
};

/* The inputs of a cycle are the first five columns of its line. */
static inline struct inputs inputs_of(const char *row) {
    struct inputs x = {column(row, 0, 4), column(row, 5, 4), column(row, 10, 1), column(row, 12, 1), column(row, 14, 1)};
    return x;
}

/* The whole run, as the page prints it, where spaces stand for tabs; its outputs as numbers; and the twelve bytes after each cycle. */
static const struct {
    const char *line;
    uint8_t numbers[8];
    uint8_t after[12];
} run[] = {
    {"0000 0000 0 0 0 0001 0 0 1 0 0", {1, 0, 0, 0, 1, 0, 0, 0}, {3, 0, 0, 0, 0, 0, 0, 0, 1}}, /* nobody asks, and 0 has the bus */
    {"0006 0000 1 0 0 0001 0 0 1 0 0", {1, 0, 0, 0, 1, 0, 0, 0}, {3, 1, 0, 0, 1, 0, 0, 0, 2}}, /* 1 is next */
    {"0006 0000 1 0 0 0002 0 0 0 1 0", {2, 0, 0, 0, 0, 1, 0, 0}, {3, 1, 1, 0, 0, 0, 0, 0, 3}}, /* a handover */
    {"0006 0000 1 2 3 0002 1 0 0 0 1", {2, 0, 1, 0, 0, 0, 1, 0}, {3, 1, 1, 0, 0, 1, 3, 0, 4}}, /* its INCR4 opens */
    {"0006 0000 1 3 3 0002 1 0 0 0 1", {2, 0, 1, 0, 0, 0, 1, 0}, {3, 1, 1, 0, 0, 1, 2, 0, 5}},
    {"0006 0000 0 3 3 0002 1 0 0 0 1", {2, 0, 1, 0, 0, 0, 1, 0}, {3, 1, 1, 0, 0, 1, 2, 0, 6}}, /* not ready */
    {"0006 0000 1 3 3 0002 1 0 0 0 1", {2, 0, 1, 0, 0, 0, 1, 0}, {3, 1, 1, 0, 0, 1, 1, 0, 7}},
    {"0006 0000 1 3 3 0002 1 0 1 0 1", {2, 0, 1, 0, 1, 0, 1, 0}, {3, 2, 1, 0, 1, 3, 0, 0, 8}}, /* the last beat: 2 is next */
    {"0004 0000 1 0 0 0004 1 0 0 1 0", {4, 0, 1, 0, 0, 1, 0, 0}, {3, 2, 2, 0, 0, 0, 0, 0, 9}}, /* a handover */
    {"0004 0000 1 2 0 0004 2 0 1 0 1", {4, 0, 2, 0, 1, 0, 1, 0}, {3, 2, 2, 0, 1, 3, 0, 0, 10}}, /* a SINGLE, and 2 again */
};

/* The cases P1 to P11, and one for each further sentence of "Phase after a cycle", DECIDE and the walk. */
static const struct {
    const char *name;
    uint8_t before[12];
    const char *line;
    uint8_t after[12];
} cases[] = {
    {"P1", {3, 0, 0, 0, 0, 3}, "0000 0000 1 0 0 0001 0 0 1 0 0", {3, 0, 0, 0, 0, 3, 0, 0, 1}},
    {"P2", {3, 0, 0, 0, 0, 3}, "0006 0000 1 0 0 0001 0 0 1 0 0", {3, 1, 0, 0, 1, 3, 0, 0, 1}},
    {"P3", {3, 1, 1, 0, 0, 3}, "0006 0000 1 0 0 0002 1 0 1 0 1", {3, 2, 1, 0, 1, 3, 0, 0, 1}},
    {"P4", {3, 2, 2, 0, 0, 3}, "0004 0000 1 0 0 0004 2 0 1 0 1", {3, 2, 2, 0, 1, 3, 0, 0, 1}},
    {"P5", {3, 2, 2, 0, 0, 3}, "0000 0000 1 0 0 0004 2 0 1 0 0", {3, 0, 2, 0, 1, 3, 0, 0, 1}},
    {"P6", {3, 1, 0, 0, 1, 3}, "0000 0000 0 0 0 0002 0 0 0 1 0", {3, 1, 0, 0, 1, 3, 0, 0, 1}},
    {"P7", {3, 1, 0, 0, 1, 3}, "0000 0002 1 0 0 0002 0 0 0 1 0", {3, 1, 1, 1, 0, 0, 0, 0, 1}},
    {"P8", {3, 1, 1, 0, 0, 1, 1}, "0002 0000 1 0 0 0002 1 0 1 0 1", {3, 1, 1, 0, 1, 3, 0, 0, 1}},
    {"P9", {3, 1, 1, 0, 0, 1, 1}, "0002 0000 0 0 0 0002 1 0 0 0 1", {3, 1, 1, 0, 0, 1, 1, 0, 1}},
    {"P10", {3, 1, 1, 0, 0, 0}, "0006 0000 0 2 3 0002 1 0 0 0 1", {3, 1, 1, 0, 0, 0, 0, 0, 1}},
    {"P11", {3, 1, 1, 1, 0, 3}, "0006 0002 1 0 0 0002 1 1 0 0 1", {3, 1, 1, 1, 0, 3, 0, 0, 1}},
    {"Fresh and IDLE", {3, 1, 1, 0, 0, 0}, "0006 0000 1 0 0 0002 1 0 1 0 1", {3, 2, 1, 0, 1, 0, 0, 0, 1}},
    {"INCR4 opens", {3, 1, 1, 0, 0, 0}, "0002 0000 1 2 3 0002 1 0 0 0 1", {3, 1, 1, 0, 0, 1, 3, 0, 1}},
    {"locked INCR opens", {3, 1, 1, 1, 0, 0}, "0002 0000 1 2 1 0002 1 1 0 0 1", {3, 1, 1, 1, 0, 2, 0, 0, 1}},
    {"locked INCR waits", {3, 1, 1, 1, 0, 0}, "0006 0000 0 2 1 0002 1 1 0 0 1", {3, 1, 1, 1, 0, 0, 0, 0, 1}},
    {"other INCR opens", {3, 1, 1, 0, 0, 0}, "0006 0000 1 2 1 0002 1 0 1 0 1", {3, 2, 1, 0, 1, 3, 0, 0, 1}},
    {"other INCR waits", {3, 1, 1, 0, 0, 0}, "0006 0000 0 2 1 0002 1 0 1 0 1", {3, 2, 1, 0, 1, 0, 0, 0, 1}},
    {"SINGLE opens", {3, 1, 1, 1, 0, 0}, "0002 0000 1 2 0 0002 1 1 1 0 1", {3, 1, 1, 1, 1, 3, 0, 0, 1}},
    {"SINGLE waits", {3, 1, 1, 1, 0, 0}, "0006 0000 0 2 0 0002 1 1 1 0 1", {3, 2, 1, 1, 1, 0, 0, 0, 1}},
    {"Fixed 3", {3, 1, 1, 0, 0, 1, 3}, "0002 0000 1 3 3 0002 1 0 0 0 1", {3, 1, 1, 0, 0, 1, 2, 0, 1}},
    {"Fixed 2, not ready", {3, 1, 1, 0, 0, 1, 2}, "0002 0000 0 3 3 0002 1 0 0 0 1", {3, 1, 1, 0, 0, 1, 2, 0, 1}},
    {"Open stays", {3, 1, 1, 1, 0, 2}, "0002 0000 1 3 1 0002 1 1 0 0 1", {3, 1, 1, 1, 0, 2, 0, 0, 1}},
    {"Open ends, not ready", {3, 1, 1, 1, 0, 2}, "0004 0000 0 3 1 0002 1 1 1 0 0", {3, 2, 1, 1, 1, 3, 0, 0, 1}},
    {"Open ends under a lock", {3, 1, 1, 1, 0, 2}, "0004 0002 1 3 1 0002 1 1 0 0 0", {3, 1, 1, 1, 0, 3, 0, 0, 1}},
    {"Done and NONSEQ", {3, 1, 1, 0, 0, 3}, "0006 0000 1 2 3 0002 1 0 1 0 1", {3, 2, 1, 0, 1, 3, 0, 0, 1}},
    {"HLOCK of another", {3, 1, 1, 1, 0, 3}, "0006 0004 1 0 0 0002 1 1 1 0 1", {3, 2, 1, 1, 1, 3, 0, 0, 1}},
    {"HLOCK, HMASTLOCK low", {3, 1, 1, 0, 0, 3}, "0006 0002 1 0 0 0002 1 0 1 0 1", {3, 2, 1, 0, 1, 3, 0, 0, 1}},
    {"GRANTED in Fresh", {3, 2, 1, 0, 1, 0}, "0006 0000 0 2 3 0004 1 0 0 1 1", {3, 2, 1, 0, 1, 0, 0, 0, 1}},
    {"HLOCK of m at a handover", {3, 1, 0, 1, 1, 3}, "0001 0001 1 0 0 0002 0 1 0 1 1", {3, 1, 1, 0, 0, 0, 0, 0, 1}},
    {"around", {3, 1, 1, 0, 0, 3}, "0003 0000 1 0 0 0002 1 0 1 0 1", {3, 0, 1, 0, 1, 3, 0, 0, 1}},
    {"two masters", {2, 1, 1, 0, 0, 3}, "0003 0000 1 0 0 0002 1 0 1 0 1", {2, 0, 1, 0, 1, 3, 0, 0, 1}},
    {"sixteen masters", {16, 15, 15, 0, 0, 3}, "8001 0000 1 0 0 8000 f 0 1 0 1", {16, 0, 15, 0, 1, 3, 0, 0, 1}},
    {"a long walk", {16, 10, 10, 0, 0, 3}, "0600 0000 1 0 0 0400 a 0 1 0 1", {16, 9, 10, 0, 1, 3, 0, 0, 1}},
    {"the last mask", {16, 0, 0, 0, 0, 3}, "ffff ffff 1 0 0 0001 0 0 1 0 1", {16, 1, 0, 0, 1, 3, 0, 0, 1}},
    {"count 255", {3, 0, 0, 0, 0, 3, 0, 0, 255}, "0000 0000 1 0 0 0001 0 0 1 0 0", {3, 0, 0, 0, 0, 3, 0, 0, 0, 1}},
    {"count 65535", {3, 0, 0, 0, 0, 3, 0, 0, 255, 255}, "0000 0000 1 0 0 0001 0 0 1 0 0", {3, 0, 0, 0, 0, 3, 0, 0, 0, 0, 1}},
    {"count 999,999", {3, 0, 0, 0, 0, 3, 0, 0, 0x3f, 0x42, 0x0f}, "0000 0000 1 0 0 0001 0 0 1 0 0",
     {3, 0, 0, 0, 0, 3, 0, 0, 0x40, 0x42, 0x0f}},
};

/* Bytes that are no state, or none that is well formed: 10. */
static const struct {
    const char *name;
    uint8_t bytes[12];
} malformed[] = {
    {"n 0", {0, 0, 0, 0, 0, 3}},
    {"n 1", {1, 0, 0, 0, 0, 3}},
    {"n 17", {17, 0, 0, 0, 0, 3}},
    {"n 255", {255, 0, 0, 0, 0, 3}},
    {"g is n", {3, 3, 0, 0, 1, 3}},
    {"m is n", {3, 0, 3, 0, 1, 3}},
    {"g is not m, GRANTED low", {3, 1, 0, 0, 0, 3}},
    {"HMASTLOCK 2", {3, 0, 0, 2, 0, 3}},
    {"GRANTED 2", {3, 0, 0, 0, 2, 3}},
    {"HMASTLOCK 255", {3, 0, 0, 255, 0, 3}},
    {"phase 4", {3, 0, 0, 0, 0, 4}},
    {"phase 255", {3, 0, 0, 0, 0, 255}},
    {"k 1 in Fresh", {3, 0, 0, 0, 0, 0, 1}},
    {"k 1 in Open", {3, 0, 0, 1, 0, 2, 1}},
    {"k 1 in Done", {3, 0, 0, 0, 0, 3, 1}},
    {"k 0 in Fixed", {3, 0, 0, 0, 0, 1, 0}},
    {"k 4 in Fixed", {3, 0, 0, 0, 0, 1, 4}},
    {"Fixed, GRANTED high", {3, 0, 0, 0, 1, 1, 1}},
    {"Open, GRANTED high", {3, 0, 0, 1, 1, 2}},
    {"Open, HMASTLOCK low", {3, 0, 0, 0, 0, 2}},
    {"byte 7 is 1", {3, 0, 0, 0, 0, 3, 0, 1}},
    {"byte 7 is 255", {3, 0, 0, 0, 0, 3, 0, 255}},
    {"count 1,000,001", {3, 0, 0, 0, 0, 3, 0, 0, 0x41, 0x42, 0x0f}},
    {"count 2^24", {3, 0, 0, 0, 0, 3, 0, 0, 0, 0, 0, 1}},
    {"count 2^32 - 1", {3, 0, 0, 0, 0, 3, 0, 0, 255, 255, 255, 255}},
};

/* Inputs that three masters are refused. */
static const struct {
    const char *name;
    uint32_t number;
    struct inputs x;
} wrong[] = {
    {"HBUSREQ 65,536", ESPIGAMBRE_VALUE, {65536, 0, 1, 0, 0}},
    {"HLOCK 65,536", ESPIGAMBRE_VALUE, {0, 65536, 1, 0, 0}},
    {"HBUSREQ 2^32 - 1", ESPIGAMBRE_VALUE, {0xffffffff, 0, 1, 0, 0}},
    {"HREADY 2", ESPIGAMBRE_VALUE, {0, 0, 2, 0, 0}},
    {"HREADY 256", ESPIGAMBRE_VALUE, {0, 0, 256, 0, 0}},
    {"HTRANS 4", ESPIGAMBRE_VALUE, {0, 0, 1, 4, 0}},
    {"HBURST 8", ESPIGAMBRE_VALUE, {0, 0, 1, 0, 8}},
    {"HBURST 2^31", ESPIGAMBRE_VALUE, {0, 0, 1, 0, 0x80000000}},
    {"4 before 5", ESPIGAMBRE_VALUE, {0, 0, 1, 1, 8}},
    {"4 before 6", ESPIGAMBRE_VALUE, {8, 0, 2, 0, 0}},
    {"HTRANS 1", ESPIGAMBRE_NOT_BUILT, {0, 0, 1, 1, 0}},
    {"HBURST 2", ESPIGAMBRE_NOT_BUILT, {0, 0, 1, 0, 2}},
    {"HBURST 4", ESPIGAMBRE_NOT_BUILT, {0, 0, 1, 0, 4}},
    {"HBURST 5", ESPIGAMBRE_NOT_BUILT, {0, 0, 1, 0, 5}},
    {"HBURST 6", ESPIGAMBRE_NOT_BUILT, {0, 0, 1, 0, 6}},
    {"HBURST 7", ESPIGAMBRE_NOT_BUILT, {0, 0, 1, 0, 7}},
    {"5 before 6", ESPIGAMBRE_NOT_BUILT, {8, 0, 1, 1, 0}},
    {"HBUSREQ of master 3", ESPIGAMBRE_ABSENT, {8, 0, 1, 0, 0}},
    {"HLOCK of master 3", ESPIGAMBRE_ABSENT, {0, 8, 1, 0, 0}},
    {"HBUSREQ of master 15", ESPIGAMBRE_ABSENT, {0x8000, 0, 1, 0, 0}},
};

#endif
