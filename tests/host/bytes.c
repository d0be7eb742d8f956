/*
 * The judge's 42 bytes: those of a start, those after a cycle (by hand from document 01), every byte string that is no judge or
 * none that is well formed, the refusals and their order, and the lengths of the buffers.
 */
#include "judge.h"

/* ---- the bytes after a cycle, each run from a start */

/* A layout by its parts; the bytes that are not named are 0. */
static const struct run {
    const char *name;
    uint8_t n;
    const char *rows[7];
    uint8_t after[42];
} runs[] = {
    {"nothing yet", 7, {0}, {7}},
    {"cycle 0", 2, {"0000 0000 0 0 0 0001 0 0 1 0 0"}, {2, 0, 0, 0, 0, 0, 1, 0, 1, 0, 0, 0, 0, 0, 0, 0, 0, 0, 0, 1, 0, 0, 0, 1, 0, 0}},
    /* every column of the previous cycle at its place, masks low byte first */
    {"columns", 16, {"a9b8 c7d6 1 3 1 e5f4 d 1 1 0 1"},
     {16, 0, 0, 0, 1, 0, 0, 0, 1, 0, 0, 0, 0xb8, 0xa9, 0xd6, 0xc7, 1, 3, 1, 0xf4, 0xe5, 13, 1, 1, 0, 1}},
    {"GRANTED and INCR4", 16, {"0000 0000 0 0 3 0000 0 0 0 1 0"},
     {16, 0, 0, 0, 0, 0, 1, 0, 1, 0, 0, 0, 0, 0, 0, 0, 0, 0, 3, 0, 0, 0, 0, 0, 1, 0}},
    /* a locked INCR opens: opened, on G2, and A1's row is 1 */
    {"on G2", 2, {"0000 0000 0 0 0 0001 0 0 1 0 0", "0001 0001 1 0 0 0001 0 0 0 1 1", "0001 0001 1 2 1 0001 0 1 0 0 1"},
     {2, 1, 1, 0, 1, 0, 0, 0, 3, 0, 0, 0, 1, 0, 1, 0, 1, 2, 1, 1, 0, 0, 1, 0, 0, 1}},
    /* its owner stops asking: the watch is over, the access stays opened */
    {"released", 2, {"0000 0000 0 0 0 0001 0 0 1 0 0", "0001 0001 1 0 0 0001 0 0 0 1 1", "0001 0001 1 2 1 0001 0 1 0 0 1",
                     "0000 0001 0 3 1 0001 0 1 0 0 0"},
     {2, 1, 0, 0, 0, 0, 1, 0, 4, 0, 0, 0, 0, 0, 1, 0, 0, 3, 1, 1, 0, 0, 1, 0, 0, 0}},
    /* a locked INCR4 opens: three ready cycles left, then two; a cycle that is not ready takes none */
    {"on G3", 2, {"0000 0000 0 0 0 0001 0 0 1 0 0", "0001 0001 1 0 0 0001 0 0 0 1 1", "0001 0001 1 2 3 0001 0 1 0 0 1"},
     {2, 1, 2, 3, 0, 0, 0, 0, 3, 0, 0, 0, 1, 0, 1, 0, 1, 2, 3, 1, 0, 0, 1, 0, 0, 1}},
    {"on G3, two left", 2, {"0000 0000 0 0 0 0001 0 0 1 0 0", "0001 0001 1 0 0 0001 0 0 0 1 1", "0001 0001 1 2 3 0001 0 1 0 0 1",
                            "0001 0001 1 3 3 0001 0 1 0 0 1", "0001 0001 0 3 3 0001 0 1 0 0 1"},
     {2, 1, 2, 2, 0, 0, 1, 0, 5, 0, 0, 0, 1, 0, 1, 0, 0, 3, 3, 1, 0, 0, 1, 0, 0, 1}},
    /* a handover ends the access */
    {"handover", 2, {"0000 0000 0 0 0 0001 0 0 1 0 0", "0001 0001 1 0 0 0001 0 0 0 1 1", "0001 0001 1 2 3 0001 0 1 0 0 1",
                     "0001 0001 1 3 3 0001 0 1 0 1 1"},
     {2, 0, 0, 0, 0, 0, 0, 0, 4, 0, 0, 0, 1, 0, 1, 0, 1, 3, 3, 1, 0, 0, 1, 0, 1, 1}},
    /* masters 1 and 15 lose a decision; then 15 gets the grant and 1 loses again */
    {"lost", 16, {"0000 0000 0 0 0 0001 0 0 1 0 0", "8002 0000 0 0 0 0001 0 0 1 0 0", "8002 0000 0 0 0 0001 0 0 1 1 0"},
     {16, 0, 0, 0, 0, 0, 3, 0, 3, 0, 0, 0, 2, 0x80, 0, 0, 0, 0, 0, 1, 0, 0, 0, 1, 1, 0, 0, 1, 0, 0, 0, 0, 0, 0, 0, 0, 0, 0, 0, 0, 0, 1}},
    {"lost twice", 16, {"0000 0000 0 0 0 0001 0 0 1 0 0", "8002 0000 0 0 0 0001 0 0 1 0 0", "8002 0000 0 0 0 0001 0 0 1 1 0",
                         "8002 0000 0 0 0 8000 0 0 0 1 0"},
     {16, 0, 0, 0, 0, 0, 4, 0, 4, 0, 0, 0, 2, 0x80, 0, 0, 0, 0, 0, 0, 0x80, 0, 0, 0, 1, 0, 0, 2}},
};

static void all_runs(void) {
    for (size_t i = 0; i < sizeof runs / sizeof *runs; i++) {
        const struct run *x = &runs[i];
        struct lent state, broken;
        lend(&state, 0, 0);
        check(x->name, "start", ESPIGAMBRE_TAKEN, espigambre_judge_start(x->n, part(&state, JUDGE), JUDGE));
        for (int t = 0; t < 7 && x->rows[t]; t++) {
            lend(&broken, 0, 0);
            check(x->name, "answer", ESPIGAMBRE_TAKEN, judge(cycle_of(x->rows[t]), &state, JUDGE, &broken, BROKEN));
        }
        compare(x->name, "judge", &state, x->after, JUDGE);
    }
}

/* ---- refusals */

/* A judge of three masters in an access that is watched, with something in most bytes. */
static const uint8_t good[42] = {3, 1, 2, 2, 5, 1, 4, 0, 9, 1, 0, 0, 6, 0, 4, 0, 1, 3, 3, 4, 0, 2, 1, 1, 0, 1, 2, 1, 0};
static const uint8_t fresh[42] = {3};
static const char quiet[] = "0000 0000 1 0 0 0001 0 0 1 0 0";

static void refused(const char *name, uint32_t number, struct cycle c, const uint8_t *before, size_t judge_len, size_t broken_len) {
    struct lent state, broken;
    lend(&state, before, JUDGE);
    lend(&broken, 0, 0);
    check(name, "answer", number, judge(c, &state, judge_len, &broken, broken_len));
    compare(name, "judge", &state, 0, 0);
    compare(name, "broken", &broken, 0, 0);
}

static void taken(const char *name, const uint8_t *before, size_t judge_len, size_t broken_len) {
    /* 1 and 2 asked, and 1 gets the grant; but GRANTED stays low, and HMASTER moves without a handover */
    static const char row[] = "0002 0000 1 3 3 0002 1 1 0 0 1";
    static const uint8_t after[42] = {3, 1, 2, 1, 0, 0, 0, 0, 10, 1, 0, 0, 2, 0, 0, 0, 1, 3, 3, 2, 0, 1, 1, 0, 0, 1, 0, 0, 1};
    static const uint8_t mask[4] = {0, 0x50, 0x01, 0}; /* G4, G6, G8 */
    struct lent state, broken;
    lend(&state, before, JUDGE);
    lend(&broken, 0, 0);
    check(name, "answer", ESPIGAMBRE_TAKEN, judge(cycle_of(row), &state, judge_len, &broken, broken_len));
    compare(name, "judge", &state, after, JUDGE);
    compare(name, "broken", &broken, mask, BROKEN);
}

/* The good judge with one to three bytes put otherwise. */
static const struct {
    const char *name;
    int count;
    struct {
        int at, value;
    } put[3];
} malformed[] = {
    {"n 0", 1, {{0, 0}}},
    {"n 1", 1, {{0, 1}}},
    {"n 17", 1, {{0, 17}}},
    {"n 255", 1, {{0, 255}}},
    {"opened 2", 1, {{1, 2}}},
    {"a watch, not opened", 1, {{1, 0}}},
    {"a watch on G2, not opened", 3, {{1, 0}, {2, 1}, {3, 0}}},
    {"watch 3", 1, {{2, 3}}},
    {"watch 3, k 0", 2, {{2, 3}, {3, 0}}},
    {"on G3, k 0", 1, {{3, 0}}},
    {"on G3, k 4", 1, {{3, 4}}},
    {"on G2, k 2", 1, {{2, 1}}},
    {"no watch, k 2", 1, {{2, 0}}},
    {"locked 1,024", 2, {{4, 0}, {5, 4}}},
    {"locked 65,535", 2, {{4, 255}, {5, 255}}},
    {"waited 17", 1, {{6, 17}}},
    {"waited 255", 1, {{6, 255}}},
    {"byte 7 is 1", 1, {{7, 1}}},
    {"byte 7 is 128", 1, {{7, 128}}},
    {"count 1,000,001", 3, {{8, 0x41}, {9, 0x42}, {10, 0x0f}}},
    {"count above 2^24", 1, {{11, 1}}},
    {"HBUSREQ of master 3", 1, {{12, 8}}},
    {"HBUSREQ of master 8", 1, {{13, 1}}},
    {"HLOCK of master 3", 1, {{14, 8}}},
    {"HLOCK of master 15", 1, {{15, 128}}},
    {"HREADY 2", 1, {{16, 2}}},
    {"HTRANS 1", 1, {{17, 1}}},
    {"HTRANS 4", 1, {{17, 4}}},
    {"HBURST 2", 1, {{18, 2}}},
    {"HBURST 4", 1, {{18, 4}}},
    {"HBURST 8", 1, {{18, 8}}},
    {"HGRANT of master 3", 1, {{19, 8}}},
    {"HGRANT of master 9", 1, {{20, 2}}},
    {"HMASTER 3", 1, {{21, 3}}},
    {"HMASTER 255", 1, {{21, 255}}},
    {"HMASTLOCK 2", 1, {{22, 2}}},
    {"DECIDE 2", 1, {{23, 2}}},
    {"GRANTED 2", 1, {{24, 2}}},
    {"BUSREQ 2", 1, {{25, 2}}},
    {"lost by 0: n", 1, {{26, 3}}},
    {"lost by 2: n", 1, {{28, 3}}},
    {"lost by 1: 255", 1, {{27, 255}}},
    {"lost by 3, who is absent", 1, {{29, 1}}},
    {"lost by 15, who is absent", 1, {{41, 1}}},
};

static void all_malformed(void) {
    struct cycle c = cycle_of(quiet);
    for (size_t i = 0; i < sizeof malformed / sizeof *malformed; i++) {
        uint8_t bytes[42];
        for (int k = 0; k < JUDGE; k++) bytes[k] = good[k];
        for (int k = 0; k < malformed[i].count; k++) bytes[malformed[i].put[k].at] = (uint8_t)malformed[i].put[k].value;
        refused(malformed[i].name, ESPIGAMBRE_STATE, c, bytes, JUDGE, BROKEN);
    }
    /* with the count 0 every byte but n is 0, and n is 2 to 16 */
    for (int at = 1; at < JUDGE; at++) {
        uint8_t bytes[42] = {16};
        if (8 <= at && at <= 11) continue;
        bytes[at] = (uint8_t)(at == 17 ? 2 : 1);
        if (at == 2) bytes[1] = 1;
        refused("count 0 with something beside n", ESPIGAMBRE_STATE, c, bytes, JUDGE, BROKEN);
    }
    for (int n = 0; n < 256; n += n == 1 ? 16 : 1) {
        uint8_t bytes[42] = {(uint8_t)n};
        refused("count 0, no number of masters", ESPIGAMBRE_STATE, c, bytes, JUDGE, BROKEN);
    }
}

/* Columns that three masters are refused. */
static const struct {
    const char *name;
    uint32_t number;
    struct cycle c;
} wrong[] = {
    {"HBUSREQ 65,536", ESPIGAMBRE_VALUE, {65536, 0, 1, 0, 0, 1, 0, 0, 1, 0, 0}},
    {"HLOCK 2^32 - 1", ESPIGAMBRE_VALUE, {0, 0xffffffff, 1, 0, 0, 1, 0, 0, 1, 0, 0}},
    {"HREADY 2", ESPIGAMBRE_VALUE, {0, 0, 2, 0, 0, 1, 0, 0, 1, 0, 0}},
    {"HTRANS 4", ESPIGAMBRE_VALUE, {0, 0, 1, 4, 0, 1, 0, 0, 1, 0, 0}},
    {"HBURST 8", ESPIGAMBRE_VALUE, {0, 0, 1, 0, 8, 1, 0, 0, 1, 0, 0}},
    {"HGRANT 65,536", ESPIGAMBRE_VALUE, {0, 0, 1, 0, 0, 65536, 0, 0, 1, 0, 0}},
    {"HMASTLOCK 2", ESPIGAMBRE_VALUE, {0, 0, 1, 0, 0, 1, 0, 2, 1, 0, 0}},
    {"DECIDE 2", ESPIGAMBRE_VALUE, {0, 0, 1, 0, 0, 1, 0, 0, 2, 0, 0}},
    {"GRANTED 256", ESPIGAMBRE_VALUE, {0, 0, 1, 0, 0, 1, 0, 0, 1, 256, 0}},
    {"BUSREQ 2^31", ESPIGAMBRE_VALUE, {0, 0, 1, 0, 0, 1, 0, 0, 1, 0, 0x80000000}},
    {"4 before 5, 6 and 7", ESPIGAMBRE_VALUE, {8, 0, 1, 1, 0, 8, 3, 0, 1, 0, 2}},
    {"HTRANS 1", ESPIGAMBRE_NOT_BUILT, {0, 0, 1, 1, 0, 1, 0, 0, 1, 0, 0}},
    {"HBURST 2", ESPIGAMBRE_NOT_BUILT, {0, 0, 1, 0, 2, 1, 0, 0, 1, 0, 0}},
    {"HBURST 4", ESPIGAMBRE_NOT_BUILT, {0, 0, 1, 0, 4, 1, 0, 0, 1, 0, 0}},
    {"HBURST 7", ESPIGAMBRE_NOT_BUILT, {0, 0, 1, 0, 7, 1, 0, 0, 1, 0, 0}},
    {"5 before 6 and 7", ESPIGAMBRE_NOT_BUILT, {8, 0, 1, 1, 0, 8, 3, 0, 1, 0, 0}},
    {"HBUSREQ of master 3", ESPIGAMBRE_ABSENT, {8, 0, 1, 0, 0, 1, 0, 0, 1, 0, 0}},
    {"HLOCK of master 15", ESPIGAMBRE_ABSENT, {0, 0x8000, 1, 0, 0, 1, 0, 0, 1, 0, 0}},
    {"HGRANT of master 3", ESPIGAMBRE_ABSENT, {0, 0, 1, 0, 0, 8, 0, 0, 1, 0, 0}},
    {"6 before 7", ESPIGAMBRE_ABSENT, {0, 0, 1, 0, 0, 8, 3, 0, 1, 0, 0}},
    {"HMASTER 3", ESPIGAMBRE_OWNER, {0, 0, 1, 0, 0, 1, 3, 0, 1, 0, 0}},
    {"HMASTER 16", ESPIGAMBRE_OWNER, {0, 0, 1, 0, 0, 1, 16, 0, 1, 0, 0}},
    {"HMASTER 2^32 - 1", ESPIGAMBRE_OWNER, {0, 0, 1, 0, 0, 1, 0xffffffff, 0, 1, 0, 0}},
};

/* The order: 9, 10, 8, 4, 5, 6, 7. */
static void all_wrong(void) {
    struct cycle loud = {65536, 0, 1, 1, 0, 8, 3, 0, 1, 0, 0};
    uint8_t full[42], overfull[42];
    for (int i = 0; i < JUDGE; i++) full[i] = overfull[i] = good[i];
    full[8] = overfull[8] = 0x40, full[9] = overfull[9] = 0x42, full[10] = overfull[10] = 0x0f;
    overfull[7] = 1;
    for (size_t i = 0; i < sizeof wrong / sizeof *wrong; i++) {
        refused(wrong[i].name, wrong[i].number, wrong[i].c, good, JUDGE, BROKEN);
        refused(wrong[i].name, wrong[i].number, wrong[i].c, fresh, JUDGE, BROKEN);
    }
    refused("count 1,000,000", ESPIGAMBRE_FULL, cycle_of(quiet), full, JUDGE, BROKEN);
    refused("8 before 4", ESPIGAMBRE_FULL, loud, full, JUDGE, BROKEN);
    refused("10 before 8", ESPIGAMBRE_STATE, loud, overfull, JUDGE, BROKEN);
    refused("9 before 10, broken", ESPIGAMBRE_SHORT, loud, overfull, JUDGE, BROKEN - 1);
    refused("9 before 10, judge", ESPIGAMBRE_SHORT, loud, overfull, JUDGE - 1, BROKEN);
}

/* ---- lengths, and starts */

static void all_lengths(void) {
    for (size_t i = 0; i < JUDGE; i++) refused("a short judge", ESPIGAMBRE_SHORT, cycle_of(quiet), good, i, 20);
    for (size_t i = 0; i < BROKEN; i++) refused("a short mask", ESPIGAMBRE_SHORT, cycle_of(quiet), good, 60, i);
    refused("no buffer", ESPIGAMBRE_SHORT, cycle_of(quiet), good, 0, 0);
    for (size_t i = JUDGE; i < 90; i++) taken("a longer judge", good, i, BROKEN);
    for (size_t i = BROKEN; i < 60; i++) taken("a longer mask", good, JUDGE, i);
}

static void start(const char *name, uint32_t number, uint32_t n, size_t length) {
    struct lent state;
    uint8_t after[42] = {(uint8_t)n};
    lend(&state, good, JUDGE);
    check(name, "answer", number, espigambre_judge_start(n, part(&state, length), length));
    compare(name, "judge", &state, number ? 0 : after, JUDGE);
}

static void all_starts(void) {
    for (uint32_t n = 2; n <= 16; n++) start("start", ESPIGAMBRE_TAKEN, n, JUDGE);
    for (size_t i = JUDGE; i < 90; i++) start("start of a longer judge", ESPIGAMBRE_TAKEN, 16, i);
    for (size_t i = 0; i < JUDGE; i++) start("start of a short judge", ESPIGAMBRE_SHORT, 3, i);
    start("start, 9 before 1", ESPIGAMBRE_SHORT, 17, JUDGE - 1);
    start("start with 0", ESPIGAMBRE_MASTERS, 0, JUDGE);
    start("start with 1", ESPIGAMBRE_MASTERS, 1, JUDGE);
    start("start with 17", ESPIGAMBRE_MASTERS, 17, JUDGE);
    start("start with 258", ESPIGAMBRE_MASTERS, 258, JUDGE);
    start("start with 2^32 - 1", ESPIGAMBRE_MASTERS, 0xffffffff, JUDGE);
}

int main(void) {
    all_runs();
    all_malformed();
    all_wrong();
    all_lengths();
    all_starts();
    return summary("bytes");
}
