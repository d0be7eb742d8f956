/* The host's calls of the judge: the product's and the plain ones, with the same meaning, and a step that does nothing. */
#ifndef DOCKET_H
#define DOCKET_H

#include "bytes.h"

enum { JUDGE_BYTES = 42, BROKEN_BYTES = 4 };

typedef u32 start_call(u32 n, u8 *judge, u64 judge_len);
typedef u32 verdict_call(u32 hbusreq, u32 hlock, u32 hready, u32 htrans, u32 hburst, u32 hgrant, u32 hmaster,
                         u32 hmastlock, u32 decide, u32 granted, u32 busreq, u8 *judge, u64 judge_len, u8 *broken,
                         u64 broken_len);

extern start_call plain_judge_start, espigambre_judge_start;
extern verdict_call plain_judge_step, espigambre_judge_step, no_judge_step;

#endif
