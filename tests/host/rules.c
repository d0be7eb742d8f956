/*
 * The rules that the judge's step names, by their bits: document 01's run, and for each rule the shortest trace that breaks it
 * once and no other rule, as docs/RULES.md prints it (two masters; spaces stand for tabs).
 */
#include "judge.h"

/* Some rows, the last of them the breach; a row may stand several times. */
struct rows {
    const char *row;
    int times;
};

static const struct trace {
    const char *name;
    uint32_t bit, number;
    struct rows rows[5];
} traces[] = {
    {"A1", ESPIGAMBRE_A1, 1, {{"0000 0000 0 0 0 0001 0 0 1 0 0", 1}, {"0001 0001 1 0 0 0001 0 0 0 1 1", 1},
                              {"0001 0001 1 2 1 0001 0 1 0 0 1", 1}, {"0001 0001 1 3 1 0001 0 1 0 0 1", 1023}}},
    {"A2", ESPIGAMBRE_A2, 2, {{"0000 0000 0 0 0 0001 0 0 1 0 0", 17}}},
    {"A3", ESPIGAMBRE_A3, 4, {{"0000 0000 0 0 0 0001 0 0 1 0 0", 1}, {"0000 0001 0 0 0 0001 0 0 1 0 0", 1}}},
    {"A4", ESPIGAMBRE_A4, 8, {{"0000 0000 0 0 0 0001 0 0 1 0 0", 1}, {"0000 0000 0 0 1 0001 0 0 1 0 0", 1}}},
    {"A5", ESPIGAMBRE_A5, 16, {{"0000 0000 0 0 0 0001 0 0 1 0 0", 1}, {"0000 0000 1 0 0 0001 0 0 1 0 0", 1},
                               {"0002 0000 1 3 0 0001 0 0 1 0 0", 1}}},
    {"A6", ESPIGAMBRE_A6, 32, {{"0000 0000 0 0 0 0001 0 0 1 0 0", 1}, {"0000 0000 1 0 0 0001 0 0 1 0 0", 1},
                               {"0001 0000 1 2 3 0001 0 0 0 0 1", 1}, {"0001 0000 1 0 0 0001 0 0 0 0 1", 1}}},
    {"A7", ESPIGAMBRE_A7, 64, {{"0000 0000 0 0 0 0001 0 0 1 0 0", 1}, {"0000 0000 1 0 0 0001 0 0 1 1 0", 1},
                               {"0001 0000 1 0 0 0001 0 0 1 0 1", 1}}},
    {"A8", ESPIGAMBRE_A8, 128, {{"0000 0000 0 0 0 0001 0 0 1 0 0", 1}, {"0000 0000 1 0 0 0001 0 0 1 0 0", 1},
                                {"0000 0000 1 2 0 0001 0 0 1 0 0", 1}}},
    {"A9", ESPIGAMBRE_A9, 256, {{"0000 0000 1 0 0 0001 0 0 1 0 0", 1}}},
    {"G1", ESPIGAMBRE_G1, 512, {{"0000 0000 0 0 0 0001 0 0 1 0 1", 1}}},
    {"G2", ESPIGAMBRE_G2, 1024, {{"0000 0000 0 0 0 0001 0 0 1 0 0", 1}, {"0001 0001 1 0 0 0001 0 0 0 1 1", 1},
                                 {"0001 0001 1 2 1 0001 0 1 0 0 1", 1}, {"0001 0001 1 3 1 0001 0 1 0 1 1", 1}}},
    {"G3", ESPIGAMBRE_G3, 2048, {{"0000 0000 0 0 0 0001 0 0 1 0 0", 1}, {"0001 0001 1 0 0 0001 0 0 0 1 1", 1},
                                 {"0001 0001 1 2 3 0001 0 1 0 0 1", 1}, {"0001 0001 1 3 3 0001 0 1 0 1 1", 1}}},
    {"G4", ESPIGAMBRE_G4, 4096, {{"0000 0000 0 0 0 0001 0 0 1 0 0", 1}, {"0001 0000 0 0 0 0001 0 0 1 0 1", 1},
                                 {"0001 0000 0 0 0 0001 0 0 0 0 1", 1}}},
    {"G5", ESPIGAMBRE_G5, 8192, {{"0000 0000 0 0 0 0001 0 0 1 0 0", 1}, {"0000 0000 0 0 0 0001 0 0 1 1 0", 1},
                                 {"0000 0000 0 0 0 0001 0 0 1 0 0", 1}}},
    {"G6", ESPIGAMBRE_G6, 16384, {{"0000 0000 0 0 0 0001 0 0 1 0 0", 1}, {"0000 0000 1 0 0 0001 0 0 1 1 0", 1},
                                  {"0000 0000 1 0 0 0001 1 0 1 0 0", 1}}},
    {"G7", ESPIGAMBRE_G7, 32768, {{"0000 0000 0 0 0 0001 0 0 1 0 0", 1}, {"0001 0001 1 0 0 0001 0 0 0 1 1", 1},
                                  {"0001 0001 1 2 0 0001 0 0 0 0 1", 1}}},
    {"G8", ESPIGAMBRE_G8, 65536, {{"0000 0000 0 0 0 0001 0 0 1 0 0", 1}, {"0000 0000 0 0 0 0001 1 0 1 0 0", 1}}},
    {"G9", ESPIGAMBRE_G9, 131072, {{"0000 0000 0 0 0 0001 0 0 1 0 0", 1}, {"0002 0000 0 0 0 0001 0 0 0 0 0", 1},
                                   {"0002 0000 0 0 0 0002 0 0 0 1 0", 1}}},
    {"G10", ESPIGAMBRE_G10, 262144, {{"0000 0000 0 0 0 0001 0 0 1 0 0", 1}, {"0000 0000 0 0 0 0000 0 0 1 0 0", 1}}},
    {"G11", ESPIGAMBRE_G11, 524288, {{"0000 0000 0 0 0 0001 0 0 1 0 0", 1}, {"0002 0000 0 0 0 0001 0 0 1 0 0", 1},
                                     {"0002 0000 0 0 0 0001 0 0 1 1 0", 1}, {"0002 0000 0 0 0 0001 0 0 0 1 0", 1}}},
    {"G12", ESPIGAMBRE_G12, 1048576, {{"0000 0000 0 0 0 0000 0 0 1 0 0", 1}}},
};

/* Where the watches end, by the page's words: the last cycle is charged with this much. */
static const struct trace watches[] = {
    {"released at the handover", 0, 0, {{"0000 0000 0 0 0 0001 0 0 1 0 0", 1}, {"0001 0001 1 0 0 0001 0 0 0 1 1", 1},
                                        {"0001 0001 1 2 1 0001 0 1 0 0 1", 1}, {"0000 0001 1 0 1 0001 0 1 0 1 0", 1}}},
    {"second ready cycle", ESPIGAMBRE_G3, 2048, {{"0000 0000 0 0 0 0001 0 0 1 0 0", 1}, {"0001 0001 1 0 0 0001 0 0 0 1 1", 1},
                                                {"0001 0001 1 2 3 0001 0 1 0 0 1", 1}, {"0001 0001 1 3 3 0001 0 1 0 0 1", 1},
                                                {"0001 0001 1 3 3 0001 0 1 0 1 1", 1}}},
    {"third ready cycle", 0, 0, {{"0000 0000 0 0 0 0001 0 0 1 0 0", 1}, {"0001 0001 1 0 0 0001 0 0 0 1 1", 1},
                                 {"0001 0001 1 2 3 0001 0 1 0 0 1", 1}, {"0001 0001 1 3 3 0001 0 1 0 0 1", 2},
                                 {"0001 0001 1 3 3 0001 0 1 0 1 1", 1}}},
};

static void start(const char *name, uint32_t n, struct lent *state) {
    lend(state, 0, 0);
    check(name, "start", ESPIGAMBRE_TAKEN, espigambre_judge_start(n, part(state, JUDGE), JUDGE));
}

/* One cycle: the mask is the one wanted, in four bytes and no more. */
static void judged(const char *name, const char *row, struct lent *state, uint32_t wanted) {
    struct lent broken;
    uint8_t bytes[BROKEN] = {(uint8_t)wanted, (uint8_t)(wanted >> 8), (uint8_t)(wanted >> 16), (uint8_t)(wanted >> 24)};
    lend(&broken, 0, 0);
    check(name, row, ESPIGAMBRE_TAKEN, judge(cycle_of(row), state, JUDGE, &broken, BROKEN));
    compare(name, row, &broken, bytes, BROKEN);
}

/* All rows are clean but the last, which breaks the one rule. */
static void all_traces(const struct trace *all, size_t count) {
    for (size_t i = 0; i < count; i++) {
        const struct trace *x = &all[i];
        struct lent state;
        check(x->name, "bit", x->number, x->bit);
        start(x->name, 2, &state);
        for (int k = 0; k < 5 && x->rows[k].times; k++)
            for (int at = 1; at <= x->rows[k].times; at++) {
                int last = at == x->rows[k].times && (k == 4 || !x->rows[k + 1].times);
                judged(x->name, x->rows[k].row, &state, last ? x->bit : 0);
            }
    }
}

/* The whole run of the page breaks nothing, and with HGRANT 0002 in cycle 8 it breaks G6 and G9 in cycle 9. */
static const char *const run[] = {
    "0000 0000 0 0 0 0001 0 0 1 0 0", "0006 0000 1 0 0 0001 0 0 1 0 0", "0006 0000 1 0 0 0002 0 0 0 1 0", "0006 0000 1 2 3 0002 1 0 0 0 1",
    "0006 0000 1 3 3 0002 1 0 0 0 1", "0006 0000 0 3 3 0002 1 0 0 0 1", "0006 0000 1 3 3 0002 1 0 0 0 1", "0006 0000 1 3 3 0002 1 0 1 0 1",
    "0004 0000 1 0 0 0004 1 0 0 1 0", "0004 0000 1 2 0 0004 2 0 1 0 1",
};

static void whole_run(void) {
    struct lent state;
    start("run", 3, &state);
    for (int t = 0; t < 10; t++) judged("run", run[t], &state, 0);
    start("HGRANT 0002", 3, &state);
    for (int t = 0; t < 8; t++) judged("HGRANT 0002", run[t], &state, 0);
    judged("HGRANT 0002", "0004 0000 1 0 0 0002 1 0 0 1 0", &state, 0);
    judged("HGRANT 0002", run[9], &state, ESPIGAMBRE_G6 | ESPIGAMBRE_G9);
}

/* Rows that go on after a charge: it is charged again when the row is full again, and not before. */
static void rows_again(void) {
    struct lent state;
    start("A2 again", 2, &state);
    for (int t = 1; t <= 51; t++) judged("A2 again", "0000 0000 0 0 0 0001 0 0 1 0 0", &state, t % 17 ? 0 : ESPIGAMBRE_A2);
    start("A1 again", 2, &state);
    for (int k = 0; k < 3; k++) judged("A1 again", traces[0].rows[k].row, &state, 0);
    for (int t = 2; t <= 2048; t++) judged("A1 again", traces[0].rows[3].row, &state, t % 1024 ? 0 : ESPIGAMBRE_A1);
}

/* Several rules in one cycle, and the master with the high bit. */
static void several(void) {
    struct lent state;
    start("cycle 0", 16, &state);
    judged("cycle 0", "0000 0000 1 2 0 8000 f 1 0 1 1", &state, ESPIGAMBRE_A8 | ESPIGAMBRE_A9 | ESPIGAMBRE_G1 | ESPIGAMBRE_G12);
    /* after a handover to master 15 master 0 owns the bus, asks and idles, and master 3 has the grant */
    judged("cycle 1", "0001 0000 0 0 0 0008 0 0 0 1 1", &state, ESPIGAMBRE_A7 | ESPIGAMBRE_G5 | ESPIGAMBRE_G6 | ESPIGAMBRE_G9 | ESPIGAMBRE_G10);
}

int main(void) {
    whole_run();
    check("the traces", "rules", 21, sizeof traces / sizeof *traces);
    all_traces(traces, sizeof traces / sizeof *traces);
    all_traces(watches, sizeof watches / sizeof *watches);
    rows_again();
    several();
    return summary("rules");
}
