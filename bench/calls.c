/* `calls KIND N CALLS` calls the host's step so many times, as a simulator does. The kind is `line` for the step with
   the trace line or `outputs` for the one with the numbers, after `plain-` or `product-`; `none` calls a step that does
   nothing; `same` gives both sides the same states, inputs and buffers, good and bad, in both forms, and compares the
   answers and every byte. Status 0 if all went well. */
#include "step.h"

enum { INPUTS = 4096, RUN = 1000000, ROOM = 48 };

static u64 seed = EACH(0x5b);

static u32 below(u32 limit) {
    seed ^= seed << 13;
    seed ^= seed >> 7;
    seed ^= seed << 17;
    return (u32)((seed >> 32) * limit >> 32);
}

struct inputs {
    u32 hbusreq, hlock, hready, htrans, hburst;
};

static struct inputs draw(u32 n) {
    static const u32 htrans[4] = {0, 2, 2, 3}, hburst[4] = {0, 1, 3, 3};
    u32 all = (1u << n) - 1, hbusreq = below(1u << 16) & all;
    u32 hlock = below(8) ? 0 : hbusreq & below(1u << 16), hready = below(5) != 0;
    return (struct inputs){hbusreq, hlock, hready, htrans[below(4)], hburst[below(4)]};
}

INLINE u32 call(step_call *step, const struct inputs *in, u8 *state, u64 state_len, u8 *shown, u64 shown_len) {
    return step(in->hbusreq, in->hlock, in->hready, in->htrans, in->hburst, state, state_len, shown, shown_len);
}

static int time_calls(reset_call *reset, step_call *step, u64 shown_len, u32 n, u32 calls) {
    static struct inputs table[INPUTS];
    u8 state[STATE_BYTES], shown[LINE_BYTES];
    u32 refusals = 0;
    for (u32 i = 0; i < INPUTS; i++) table[i] = draw(n);
    for (u32 i = 0; i < calls; i++) {
        if (i % RUN == 0) refusals |= reset(n, state, sizeof state);
        refusals |= call(step, &table[i % INPUTS], state, sizeof state, shown, shown_len);
    }
    return refusals != 0;
}

/* Sometimes something that is refused, or may be. */
static void spoil(struct inputs *in, u8 *state, u64 *state_len, u64 *shown_len) {
    u32 *const numbers[5] = {&in->hbusreq, &in->hlock, &in->hready, &in->htrans, &in->hburst};
    switch (below(8)) {
    case 0: *numbers[below(5)] = below(9); break;
    case 1: *numbers[below(5)] = below(2) ? 0x10000u << below(16) : below(1u << 16); break;
    case 2: state[below(STATE_BYTES)] = (u8)below(256); break;
    case 3: state[below(8)] = (u8)below(5); break;
    case 4: store4(state + 8, RUN - 1 + below(3)); break;
    case 5: *state_len = below(ROOM); break;
    case 6: *shown_len = below(ROOM); break;
    default: break;
    }
}

static int compare_calls(u32 n, u32 calls) {
    u8 plain[2][ROOM], product[2][ROOM];
    u32 bad = 0;
    for (u32 i = 0; i < ROOM; i++) plain[0][i] = plain[1][i] = (u8)below(256);
    for (u32 i = 0; i < calls; i++) {
        struct inputs in = draw(n);
        u32 line = below(2);
        u64 state_len = STATE_BYTES, shown_len = line ? LINE_BYTES : OUTPUT_BYTES;
        /* from reset now and then, and so after every spoilt call */
        if (bad || below(64) == 0) {
            u32 masters = below(8) ? n : below(20);
            __builtin_memcpy(product, plain, sizeof plain);
            state_len = below(8) ? ROOM : below(ROOM);
            if (plain_reset(masters, plain[0], state_len) != espigambre_reset(masters, product[0], state_len)) return 1;
            if (__builtin_memcmp(plain, product, sizeof plain)) return 1;
            state_len = STATE_BYTES;
        }
        bad = below(16) == 0;
        if (bad) spoil(&in, plain[0], &state_len, &shown_len);
        __builtin_memcpy(product, plain, sizeof plain);
        u32 one = call(line ? plain_step : plain_step_outputs, &in, plain[0], state_len, plain[1], shown_len);
        u32 two = call(line ? espigambre_step : espigambre_step_outputs, &in, product[0], state_len, product[1], shown_len);
        if (one != two || __builtin_memcmp(plain, product, sizeof plain)) return 1;
    }
    return 0;
}

static u32 number(const char *text) {
    u32 sum = 0;
    while (*text >= '0' && *text <= '9') sum = sum * 10 + (u32)(*text++ - '0');
    return sum;
}

int main(int words, char **word) {
    if (words != 4) return 2;
    const char *kind = word[1];
    u32 n = number(word[2]), calls = number(word[3]);
#define IS(name) (__builtin_strcmp(kind, name) == 0)
    if (IS("plain-line")) return time_calls(plain_reset, plain_step, LINE_BYTES, n, calls);
    if (IS("product-line")) return time_calls(espigambre_reset, espigambre_step, LINE_BYTES, n, calls);
    if (IS("plain-outputs")) return time_calls(plain_reset, plain_step_outputs, OUTPUT_BYTES, n, calls);
    if (IS("product-outputs")) return time_calls(espigambre_reset, espigambre_step_outputs, OUTPUT_BYTES, n, calls);
    if (IS("none")) return time_calls(plain_reset, no_step, LINE_BYTES, n, calls);
    if (IS("same")) return compare_calls(n, calls);
    return 2;
}
