/*
 * Long runs of random traffic for every number of masters: both forms of the step agree, the judge finds no breach of the
 * arbiter's, and a count that is set back changes nothing else, near the limit too.
 */
#include "cases.h"
#include "judge.h"

enum { CYCLES = 4000, COUNT = 8, LIMIT = ESPIGAMBRE_CYCLES };

static uint32_t seed = 20240229;

static uint32_t below(uint32_t limit) {
    seed ^= seed << 13;
    seed ^= seed >> 17;
    seed ^= seed << 5;
    return (seed >> 8) % limit;
}

/* Any inputs that n masters may show. */
static struct inputs draw(uint32_t n) {
    static const uint32_t trans[4] = {0, 2, 2, 3}, burst[3] = {0, 1, 3};
    uint32_t all = (1u << n) - 1, asked = below(65536) & all;
    struct inputs x = {below(4) ? asked : asked & below(65536), below(4) ? 0 : below(65536) & all, below(5) != 0, trans[below(4)], burst[below(3)]};
    return x;
}

static void set_count(uint8_t *bytes, uint32_t count) {
    for (int i = 0; i < 4; i++) bytes[COUNT + i] = (uint8_t)(count >> 8 * i);
}

static uint32_t count_in(const uint8_t *bytes) { return mask_of(bytes + COUNT); }

/* Whether two byte strings are the same but for the count. */
static int alike(const uint8_t *a, const uint8_t *b, int size) {
    for (int i = 0; i < size; i++)
        if (a[i] != b[i] && !(COUNT <= i && i < COUNT + 4)) return 0;
    return 1;
}

static uint32_t outputs(struct inputs x, uint8_t *state, uint8_t *bytes) {
    return espigambre_step_outputs(x.hbusreq, x.hlock, x.hready, x.htrans, x.hburst, state, STATE, bytes, OUTPUTS);
}

/* The cycle that inputs and outputs make. */
static struct cycle recorded(struct inputs x, const uint8_t *o) {
    struct cycle c = {x.hbusreq, x.hlock, x.hready, x.htrans, x.hburst, o[0] | (uint32_t)o[1] << 8, o[2], o[3], o[4], o[5], o[6]};
    return c;
}

static uint32_t judged(struct cycle c, uint8_t *docket, uint8_t *broken) {
    return espigambre_judge_step(c.hbusreq, c.hlock, c.hready, c.htrans, c.hburst, c.hgrant, c.hmaster, c.hmastlock, c.decide, c.granted,
                                 c.busreq, docket, JUDGE, broken, BROKEN);
}

/* The line's columns are the outputs' numbers. */
static int same_numbers(const uint8_t *line, const uint8_t *o) {
    const char *row = (const char *)line;
    uint32_t rest = 0;
    for (int i = 2; i < 7; i++) rest |= column(row, 17 + 2 * i, 1) ^ o[i];
    return column(row, 16, 4) == (o[0] | (uint32_t)o[1] << 8) && !rest && o[7] == 0;
}

/* A run of n masters: the line, the numbers, and the numbers with a count that is set to 0 now and then. */
static void arbiters(uint32_t n) {
    uint8_t one[STATE], two[STATE], three[STATE], docket[JUDGE], line[LINE], o[OUTPUTS], p[OUTPUTS], broken[BROKEN];
    int refusals = 0, states = 0, numbers = 0, counts = 0, guarantees = 0;
    refusals += espigambre_reset(n, one, STATE) || espigambre_reset(n, two, STATE) || espigambre_reset(n, three, STATE);
    refusals += espigambre_judge_start(n, docket, JUDGE) != 0;
    for (uint32_t t = 0; t < CYCLES; t++) {
        struct inputs x = draw(n);
        refusals += espigambre_step(x.hbusreq, x.hlock, x.hready, x.htrans, x.hburst, one, STATE, line, LINE) != 0;
        if (below(8) == 0) set_count(three, 0);
        refusals += outputs(x, two, o) || outputs(x, three, p) || judged(recorded(x, o), docket, broken);
        states += !alike(one, two, STATE) || count_in(one) != t + 1 || count_in(two) != t + 1 || count_in(docket) != t + 1;
        numbers += !same_numbers(line, o);
        counts += !alike(two, three, STATE) || mask_of(o) != mask_of(p) || mask_of(o + 4) != mask_of(p + 4);
        guarantees += (mask_of(broken) & ~(ESPIGAMBRE_G1 - 1)) != 0;
    }
    check("a run", "refusals", 0, refusals);
    check("a run", "other states", 0, states);
    check("a run", "lines with other numbers", 0, numbers);
    check("a run with the count set back", "cycles that differ", 0, counts);
    check("a run", "guarantees broken", 0, guarantees);
}

/* Any outputs: what the judge says of them is the same with a count that is set to 1 now and then. */
static void judges(uint32_t n) {
    uint8_t one[JUDGE], two[JUDGE], a[BROKEN], b[BROKEN];
    uint32_t all = (1u << n) - 1, seen = 0;
    const uint32_t of_masters = ESPIGAMBRE_A3 | ESPIGAMBRE_A4 | ESPIGAMBRE_A5 | ESPIGAMBRE_A6 | ESPIGAMBRE_A7;
    const uint32_t of_grants = ESPIGAMBRE_G1 | ESPIGAMBRE_G4 | ESPIGAMBRE_G5 | ESPIGAMBRE_G6 | ESPIGAMBRE_G7 | ESPIGAMBRE_G8 | ESPIGAMBRE_G9 |
                               ESPIGAMBRE_G10;
    int refusals = 0, differ = 0;
    refusals += espigambre_judge_start(n, one, JUDGE) || espigambre_judge_start(n, two, JUDGE);
    for (uint32_t t = 0; t < CYCLES; t++) {
        struct inputs x = draw(n);
        struct cycle c = {x.hbusreq, x.hlock, x.hready, x.htrans, x.hburst, below(2) ? 1u << below(n) : below(65536) & all, below(n), below(4) != 0,
                          below(2), below(8) == 0, below(2)};
        if (t && below(8) == 0) set_count(two, 1);
        refusals += judged(c, one, a) || judged(c, two, b);
        differ += !alike(one, two, JUDGE) || mask_of(a) != mask_of(b) || mask_of(a) >> 21;
        seen |= t ? mask_of(a) : 0;
    }
    check("a judge", "refusals", 0, refusals);
    check("a judge with the count set back", "cycles that differ", 0, differ);
    check("a judge", "rules of cycle 0 later", 0, seen & (ESPIGAMBRE_A9 | ESPIGAMBRE_G12));
    check("a judge", "rules never broken", 0, ~seen & (of_masters | of_grants));
}

/* The last cycles before the limit, the refusal, and the run that goes on after the count is set back. */
static void limit(uint32_t n) {
    uint8_t one[STATE], two[STATE], docket[JUDGE], other[JUDGE], o[OUTPUTS], p[OUTPUTS], a[BROKEN], b[BROKEN];
    int answers = 0, differ = 0;
    answers += espigambre_reset(n, one, STATE) || espigambre_reset(n, two, STATE);
    answers += espigambre_judge_start(n, docket, JUDGE) || espigambre_judge_start(n, other, JUDGE);
    for (uint32_t t = 0; t < 200; t++) {
        struct inputs x = draw(n);
        if (t == 100) set_count(one, LIMIT - 5), set_count(docket, LIMIT - 5);
        if (t == 105) {
            answers += outputs(x, one, o) != ESPIGAMBRE_FULL || judged(recorded(x, p), docket, a) != ESPIGAMBRE_FULL;
            answers += count_in(one) != LIMIT || count_in(docket) != LIMIT;
            /* the judge's count 0 means that there was no cycle yet */
            set_count(docket, 0);
            answers += judged(recorded(x, p), docket, a) != ESPIGAMBRE_STATE;
            set_count(one, 0), set_count(docket, 1);
        }
        answers += outputs(x, one, o) || outputs(x, two, p);
        answers += judged(recorded(x, o), docket, a) || judged(recorded(x, p), other, b);
        differ += !alike(one, two, STATE) || mask_of(o) != mask_of(p) || mask_of(o + 4) != mask_of(p + 4);
        differ += !alike(docket, other, JUDGE) || mask_of(a) != mask_of(b);
    }
    check("at the limit", "other answers", 0, answers);
    check("at the limit", "cycles that differ", 0, differ);
    check("at the limit", "the arbiter's count", 95, count_in(one));
    check("at the limit", "the judge's count", 96, count_in(docket));
}

int main(void) {
    for (uint32_t n = 2; n <= 16; n++) {
        arbiters(n);
        judges(n);
        limit(n);
    }
    return summary("runs");
}
