/*
 * The arbiter's calls, as a C simulator makes them: reset, and both forms of the step. Every table is run twice, once with the
 * line and once with the outputs as numbers: the state and the answers are the same.
 */
#include "cases.h"

typedef uint32_t step_call(uint32_t hbusreq, uint32_t hlock, uint32_t hready, uint32_t htrans, uint32_t hburst, uint8_t *state,
                           size_t state_len, uint8_t *shown, size_t shown_len);

/* The line's bytes: a row as the page prints it, with tabs, and LF at its end. */
static void text_of(uint8_t *shown, const char *row) {
    for (int i = 0; i < LINE - 1; i++) shown[i] = (uint8_t)(row[i] == ' ' ? '\t' : row[i]);
    shown[LINE - 1] = '\n';
}

/* The numbers of the same row: HGRANT in two bytes, low byte first, then a byte for each column, and 0. */
static void numbers_of(uint8_t *shown, const char *row) {
    shown[0] = (uint8_t)column(row, 18, 2);
    shown[1] = (uint8_t)column(row, 16, 2);
    for (int i = 2; i < 7; i++) shown[i] = (uint8_t)column(row, 17 + 2 * i, 1);
    shown[7] = 0;
}

static const struct form {
    step_call *step;
    size_t size;
    void (*of)(uint8_t *shown, const char *row);
} line_form = {espigambre_step, LINE, text_of}, numbers_form = {espigambre_step_outputs, OUTPUTS, numbers_of};

static const struct form *form;

static uint32_t step(struct inputs x, struct lent *state, size_t state_len, struct lent *shown, size_t shown_len) {
    return form->step(x.hbusreq, x.hlock, x.hready, x.htrans, x.hburst, part(state, state_len), state_len, part(shown, shown_len),
                      shown_len);
}

/* A call that is taken, with buffers of the given lengths. */
static void taken(const char *name, const char *row, const uint8_t *before, const uint8_t *after, size_t state_len, size_t shown_len) {
    struct lent state, shown;
    uint8_t bytes[LINE];
    form->of(bytes, row);
    lend(&state, before, STATE);
    lend(&shown, 0, 0);
    check(name, "answer", ESPIGAMBRE_TAKEN, step(inputs_of(row), &state, state_len, &shown, shown_len));
    compare(name, "state", &state, after, STATE);
    compare(name, "what is shown", &shown, bytes, (int)form->size);
}

static void refused(const char *name, uint32_t number, struct inputs x, const uint8_t *before, size_t state_len, size_t shown_len) {
    struct lent state, shown;
    lend(&state, before, STATE);
    lend(&shown, 0, 0);
    check(name, "answer", number, step(x, &state, state_len, &shown, shown_len));
    compare(name, "state", &state, 0, 0);
    compare(name, "what is shown", &shown, 0, 0);
}

static void whole_run(void) {
    struct lent state, shown;
    lend(&state, 0, 0);
    check("run", "reset", ESPIGAMBRE_TAKEN, espigambre_reset(3, part(&state, STATE), STATE));
    for (size_t t = 0; t < sizeof run / sizeof *run; t++) {
        uint8_t text[LINE];
        text_of(text, run[t].line);
        lend(&shown, 0, 0);
        check("run", "answer", ESPIGAMBRE_TAKEN, step(inputs_of(run[t].line), &state, STATE, &shown, form->size));
        compare("run", run[t].line, &shown, form == &line_form ? text : run[t].numbers, (int)form->size);
        compare("run", "state", &state, run[t].after, STATE);
    }
}

static void all_cases(void) {
    for (size_t i = 0; i < sizeof cases / sizeof *cases; i++)
        taken(cases[i].name, cases[i].line, cases[i].before, cases[i].after, STATE, form->size);
}

static const struct inputs quiet = {0, 0, 1, 0, 0};
static const struct inputs loud = {65536, 0, 1, 1, 0};
static const uint8_t good[12] = {3, 0, 0, 0, 0, 3};
static const uint8_t full[12] = {3, 0, 0, 0, 0, 3, 0, 0, 0x40, 0x42, 0x0f};
static const uint8_t overfull[12] = {1, 0, 0, 0, 0, 3, 0, 0, 0x40, 0x42, 0x0f};

/* The refusals and their order: 9, 10, 8, 4, 5, 6. */
static void all_refusals(void) {
    for (size_t i = 0; i < sizeof malformed / sizeof *malformed; i++)
        refused(malformed[i].name, ESPIGAMBRE_STATE, quiet, malformed[i].bytes, STATE, form->size);
    for (size_t i = 0; i < sizeof wrong / sizeof *wrong; i++)
        refused(wrong[i].name, wrong[i].number, wrong[i].x, good, STATE, form->size);
    refused("count 1,000,000", ESPIGAMBRE_FULL, quiet, full, STATE, form->size);
    refused("8 before 4", ESPIGAMBRE_FULL, loud, full, STATE, form->size);
    refused("10 before 8", ESPIGAMBRE_STATE, loud, overfull, STATE, form->size);
    refused("9 before 10", ESPIGAMBRE_SHORT, loud, overfull, STATE, form->size - 1);
    refused("9 before 10, the state", ESPIGAMBRE_SHORT, loud, overfull, STATE - 1, form->size);
}

static void all_lengths(void) {
    static const uint8_t after[12] = {3, 0, 0, 0, 0, 3, 0, 0, 1};
    static const char row[] = "0000 0000 1 0 0 0001 0 0 1 0 0";
    for (size_t i = 0; i < STATE; i++) refused("a short state", ESPIGAMBRE_SHORT, quiet, good, i, 40);
    for (size_t i = 0; i < form->size; i++) refused("a short second buffer", ESPIGAMBRE_SHORT, quiet, good, 20, i);
    refused("no buffer", ESPIGAMBRE_SHORT, quiet, good, 0, 0);
    for (size_t i = STATE; i < 60; i++) taken("a longer state", row, good, after, i, form->size);
    for (size_t i = form->size; i < 80; i++) taken("a longer second buffer", row, good, after, STATE, i);
}

static void reset(const char *name, uint32_t number, uint32_t n, size_t length) {
    struct lent state;
    uint8_t after[12] = {(uint8_t)n};
    lend(&state, good, STATE);
    check(name, "answer", number, espigambre_reset(n, part(&state, length), length));
    compare(name, "state", &state, number ? 0 : after, STATE);
}

static void all_resets(void) {
    reset("P12, n = 17", ESPIGAMBRE_MASTERS, 17, STATE);
    reset("P12, n = 16", ESPIGAMBRE_TAKEN, 16, STATE);
    for (uint32_t n = 2; n <= 15; n++) reset("reset", ESPIGAMBRE_TAKEN, n, STATE);
    for (size_t i = STATE; i < 60; i++) reset("reset of a longer state", ESPIGAMBRE_TAKEN, 16, i);
    for (size_t i = 0; i < STATE; i++) reset("reset of a short state", ESPIGAMBRE_SHORT, 3, i);
    reset("reset, 9 before 1", ESPIGAMBRE_SHORT, 17, 11);
    reset("reset to 0", ESPIGAMBRE_MASTERS, 0, STATE);
    reset("reset to 1", ESPIGAMBRE_MASTERS, 1, STATE);
    reset("reset to 258", ESPIGAMBRE_MASTERS, 258, STATE);
    reset("reset to 2^32 - 1", ESPIGAMBRE_MASTERS, 0xffffffff, STATE);
}

/* Master 15 has the high bit of the high byte. */
static void high_byte(void) {
    static const uint8_t before[12] = {16, 15, 15, 0, 0, 3}, after[12] = {16, 0, 15, 0, 1, 3, 0, 0, 1};
    static const uint8_t numbers[8] = {0x00, 0x80, 15, 0, 1, 0, 1, 0};
    struct lent state, outputs;
    lend(&state, before, STATE);
    lend(&outputs, 0, 0);
    check("master 15", "answer", ESPIGAMBRE_TAKEN,
          espigambre_step_outputs(0x8001, 0, 1, 0, 0, part(&state, STATE), STATE, part(&outputs, OUTPUTS), OUTPUTS));
    compare("master 15", "state", &state, after, STATE);
    compare("master 15", "outputs", &outputs, numbers, OUTPUTS);
}

int main(void) {
    const struct form *const forms[2] = {&line_form, &numbers_form};
    for (int i = 0; i < 2; i++) {
        form = forms[i];
        whole_run();
        all_cases();
        all_refusals();
        all_lengths();
    }
    high_byte();
    all_resets();
    return summary("step");
}
