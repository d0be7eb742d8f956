/* The host's calls of the arbiter: the product's and the plain ones, with the same meaning, and a step that does
   nothing, to know what calling costs. */
#ifndef STEP_H
#define STEP_H

#include "bytes.h"

enum { STATE_BYTES = 12, LINE_BYTES = 31, OUTPUT_BYTES = 8 };

/* in one form of the step the second buffer gets the line, in the other the outputs as numbers */
typedef u32 reset_call(u32 n, u8 *state, u64 state_len);
typedef u32 step_call(u32 hbusreq, u32 hlock, u32 hready, u32 htrans, u32 hburst, u8 *state, u64 state_len, u8 *shown,
                      u64 shown_len);

extern reset_call plain_reset, espigambre_reset;
extern step_call plain_step, espigambre_step, plain_step_outputs, espigambre_step_outputs, no_step;

#endif
