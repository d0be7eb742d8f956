/* Ten cycles of three masters through the arbiter's step: prints the trace of document 01, without its header. */
#include "espigambre.h"

int printf(const char *format, ...);

int main(void) {
    /* HBUSREQ, HLOCK, HREADY, HTRANS, HBURST of each cycle */
    static const uint32_t stimulus[10][5] = {
        {0, 0, 0, 0, 0}, {6, 0, 1, 0, 0}, {6, 0, 1, 0, 0}, {6, 0, 1, 2, 3}, {6, 0, 1, 3, 3},
        {6, 0, 0, 3, 3}, {6, 0, 1, 3, 3}, {6, 0, 1, 3, 3}, {4, 0, 1, 0, 0}, {4, 0, 1, 2, 0},
    };
    uint8_t state[ESPIGAMBRE_STATE_SIZE], line[ESPIGAMBRE_LINE_SIZE];
    uint32_t answer = espigambre_reset(3, state, sizeof state);
    for (int i = 0; answer == ESPIGAMBRE_TAKEN && i < 10; i++) {
        const uint32_t *x = stimulus[i];
        answer = espigambre_step(x[0], x[1], x[2], x[3], x[4], state, sizeof state, line, sizeof line);
        if (answer == ESPIGAMBRE_TAKEN) printf("%.*s", ESPIGAMBRE_LINE_SIZE, (const char *)line);
    }
    if (answer != ESPIGAMBRE_TAKEN) printf("refused\t%u\n", answer);
    return 0;
}
