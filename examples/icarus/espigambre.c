/*
 * The arbiter and the judge as system functions of a Verilog simulator, by VPI. The state of both is kept here: one arbiter and
 * one judge in a simulation. Each function answers what its call answers: 0, or the number of a refusal.
 *
 *   $espigambre_start(n)                                             both at their start, for n masters
 *   $espigambre_step(hbusreq, hlock, hready, htrans, hburst, outputs)
 *       one cycle; outputs, a reg of 64 bits, gets the eight bytes of espigambre_step_outputs, byte 0 lowest
 *   $espigambre_judge(hbusreq, hlock, hready, htrans, hburst, hgrant, hmaster, hmastlock, decide, granted, busreq, broken)
 *       one recorded cycle; broken, a reg of 32 bits, gets the rules broken at it, bit 0 for A1 to bit 20 for G12
 *
 * A run longer than 1,000,000 cycles goes on: at refusal 8 the count is set back (to 0, and the judge's to 1) and the call made again.
 */
#include <vpi_user.h>

#include "espigambre.h"

static uint8_t state[ESPIGAMBRE_STATE_SIZE], judge[ESPIGAMBRE_JUDGE_SIZE];

enum { MOST = 12 };

/* The arguments of the call that is made, and how many they are. */
static int arguments(vpiHandle call, vpiHandle argument[MOST]) {
    vpiHandle all = vpi_iterate(vpiArgument, call), one;
    int count = 0;
    while (all && (one = vpi_scan(all)))
        if (count < MOST) argument[count++] = one;
    return count;
}

/* A bit that is x or z reads as 0, as vpiIntVal has it: compare after the reset only. */
static uint32_t number(vpiHandle argument) {
    s_vpi_value value = {.format = vpiIntVal};
    vpi_get_value(argument, &value);
    return (uint32_t)value.value.integer;
}

/* Bytes into a reg, byte 0 lowest. */
static void put(vpiHandle argument, const uint8_t *bytes, int words) {
    s_vpi_vecval word[2] = {{0, 0}, {0, 0}};
    s_vpi_value value = {.format = vpiVectorVal, .value.vector = word};
    for (int i = 0; i < 4 * words; i++) word[i / 4].aval |= (PLI_INT32)((uint32_t)bytes[i] << 8 * (i % 4));
    vpi_put_value(argument, &value, NULL, vpiNoDelay);
}

static PLI_INT32 answer(vpiHandle call, uint32_t number) {
    s_vpi_value value = {.format = vpiIntVal, .value.integer = (PLI_INT32)number};
    vpi_put_value(call, &value, NULL, vpiNoDelay);
    return 0;
}

static void set_back(uint8_t *bytes, uint8_t count) {
    bytes[8] = count;
    bytes[9] = bytes[10] = bytes[11] = 0;
}

static PLI_INT32 start(PLI_BYTE8 *data) {
    vpiHandle call = vpi_handle(vpiSysTfCall, NULL), a[MOST];
    uint32_t n = arguments(call, a) == 1 ? number(a[0]) : 0, refusal = espigambre_reset(n, state, sizeof state);
    (void)data;
    return answer(call, refusal ? refusal : espigambre_judge_start(n, judge, sizeof judge));
}

static uint32_t step_once(const uint32_t x[MOST], uint8_t *outputs, size_t length) {
    return espigambre_step_outputs(x[0], x[1], x[2], x[3], x[4], state, sizeof state, outputs, length);
}

static PLI_INT32 step(PLI_BYTE8 *data) {
    vpiHandle call = vpi_handle(vpiSysTfCall, NULL), a[MOST];
    uint8_t outputs[ESPIGAMBRE_OUTPUTS_SIZE];
    uint32_t x[MOST], refusal;
    (void)data;
    if (arguments(call, a) != 6) return answer(call, ESPIGAMBRE_SHORT);
    for (int i = 0; i < 5; i++) x[i] = number(a[i]);
    refusal = step_once(x, outputs, sizeof outputs);
    if (refusal == ESPIGAMBRE_FULL) {
        set_back(state, 0);
        refusal = step_once(x, outputs, sizeof outputs);
    }
    if (!refusal) put(a[5], outputs, 2);
    return answer(call, refusal);
}

static uint32_t judge_once(const uint32_t x[MOST], uint8_t *broken, size_t length) {
    return espigambre_judge_step(x[0], x[1], x[2], x[3], x[4], x[5], x[6], x[7], x[8], x[9], x[10], judge, sizeof judge, broken, length);
}

static PLI_INT32 judged(PLI_BYTE8 *data) {
    vpiHandle call = vpi_handle(vpiSysTfCall, NULL), a[MOST];
    uint8_t broken[ESPIGAMBRE_BROKEN_SIZE];
    uint32_t x[MOST], refusal;
    (void)data;
    if (arguments(call, a) != 12) return answer(call, ESPIGAMBRE_SHORT);
    for (int i = 0; i < 11; i++) x[i] = number(a[i]);
    refusal = judge_once(x, broken, sizeof broken);
    if (refusal == ESPIGAMBRE_FULL) {
        set_back(judge, 1);
        refusal = judge_once(x, broken, sizeof broken);
    }
    if (!refusal) put(a[11], broken, 1);
    return answer(call, refusal);
}

static void named(const char *name, PLI_INT32 (*function)(PLI_BYTE8 *)) {
    s_vpi_systf_data data = {.type = vpiSysFunc, .sysfunctype = vpiIntFunc, .tfname = (PLI_BYTE8 *)name, .calltf = function};
    vpi_register_systf(&data);
}

static void all_named(void) {
    named("$espigambre_start", start);
    named("$espigambre_step", step);
    named("$espigambre_judge", judged);
}

void (*vlog_startup_routines[])(void) = {all_named, NULL};
