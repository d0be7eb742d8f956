/* Standard input and standard output in blocks. */
#ifndef BLOCKS_H
#define BLOCKS_H

#include "bytes.h"

extern long read(int file, void *into, unsigned long most);
extern long write(int file, const void *from, unsigned long most);

enum { IN_BLOCK = 1 << 16, OUT_BLOCK = 1 << 17, SPARE = 128 };

/* bytes[at .. end) are read and not yet used; who looks ahead may look at the spare bytes */
struct input {
    u64 at, end;
    u8 bytes[IN_BLOCK + SPARE];
};

/* bytes[0 .. end) are not yet written */
struct output {
    u64 end;
    u8 bytes[OUT_BLOCK];
};

/* Moves what is left to the front and reads on until the block is full or the input ends. */
static inline void fill(struct input *in) {
    u64 left = in->end - in->at;
    __builtin_memmove(in->bytes, in->bytes + in->at, left);
    in->at = 0;
    in->end = left;
    while (in->end < IN_BLOCK) {
        long got = read(0, in->bytes + in->end, IN_BLOCK - in->end);
        if (got <= 0) return;
        in->end += (u64)got;
    }
}

/* Writes all that waits; what cannot be written is dropped. */
static inline void flush(struct output *out) {
    u64 done = 0;
    while (done < out->end) {
        long put = write(1, out->bytes + done, out->end - done);
        if (put <= 0) break;
        done += (u64)put;
    }
    out->end = 0;
}

/* A place for so many more bytes, at most a block; `fit` tells how many were used. */
static inline u8 *room(struct output *out, u64 bytes) {
    if (OUT_BLOCK - out->end < bytes) flush(out);
    return out->bytes + out->end;
}

static inline void fit(struct output *out, const u8 *end) { out->end = (u64)(end - out->bytes); }

#endif
