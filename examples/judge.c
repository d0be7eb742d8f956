/* The arbiter's outputs as numbers, judged cycle by cycle, with one fault put in: prints a report of document 01. */
#include "espigambre.h"

int printf(const char *format, ...);

static const char *const names[21] = {"A1", "A2", "A3", "A4", "A5", "A6", "A7", "A8", "A9", "G1", "G2",
                                      "G3", "G4", "G5", "G6", "G7", "G8", "G9", "G10", "G11", "G12"};

int main(void) {
    /* HBUSREQ, HLOCK, HREADY, HTRANS, HBURST of each cycle */
    static const uint32_t stimulus[10][5] = {
        {0, 0, 0, 0, 0}, {6, 0, 1, 0, 0}, {6, 0, 1, 0, 0}, {6, 0, 1, 2, 3}, {6, 0, 1, 3, 3},
        {6, 0, 0, 3, 3}, {6, 0, 1, 3, 3}, {6, 0, 1, 3, 3}, {4, 0, 1, 0, 0}, {4, 0, 1, 2, 0},
    };
    uint8_t state[ESPIGAMBRE_STATE_SIZE], o[ESPIGAMBRE_OUTPUTS_SIZE];
    uint8_t judge[ESPIGAMBRE_JUDGE_SIZE], broken[ESPIGAMBRE_BROKEN_SIZE];
    int breaches = 0;
    if (espigambre_reset(3, state, sizeof state) || espigambre_judge_start(3, judge, sizeof judge)) return 1;
    for (int i = 0; i < 10; i++) {
        const uint32_t *x = stimulus[i];
        if (espigambre_step_outputs(x[0], x[1], x[2], x[3], x[4], state, sizeof state, o, sizeof o)) return 1;
        uint32_t hgrant = o[0] | (uint32_t)o[1] << 8;
        if (i == 8) hgrant = 2; /* the fault */
        if (espigambre_judge_step(x[0], x[1], x[2], x[3], x[4], hgrant, o[2], o[3], o[4], o[5], o[6], judge, sizeof judge, broken,
                                  sizeof broken))
            return 1;
        uint32_t mask = broken[0] | (uint32_t)broken[1] << 8 | (uint32_t)broken[2] << 16;
        for (int rule = 0; rule < 21; rule++)
            if (mask >> rule & 1) printf("%d\t%s\n", i, names[rule]), breaches++;
    }
    printf("end\t10\t%d\n", breaches);
    return 0;
}
