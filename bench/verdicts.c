/* `verdicts KIND N CALLS` calls the host's judge so many times, as a simulator does: `plain`, `product`, or `none` for
   a step that does nothing. The cycles are those of the arbiter, over any inputs. `same` gives both sides the same
   judges, cycles and buffers, good and bad, and compares the answers and every byte. Status 0 if all went well. */
#include "docket.h"
#include "step.h"

enum { CYCLES = 4096, RUN = 1000000, ROOM = 64 };

static u64 seed = EACH(0x6d);

static u32 below(u32 limit) {
    seed ^= seed << 13;
    seed ^= seed >> 7;
    seed ^= seed << 17;
    return (u32)((seed >> 32) * limit >> 32);
}

/* the eleven columns */
struct cycle {
    u32 at[11];
};

INLINE u32 call(verdict_call *step, const struct cycle *c, u8 *judge, u64 judge_len, u8 *broken, u64 broken_len) {
    return step(c->at[0], c->at[1], c->at[2], c->at[3], c->at[4], c->at[5], c->at[6], c->at[7], c->at[8], c->at[9],
                c->at[10], judge, judge_len, broken, broken_len);
}

/* The arbiter's next cycle, over any inputs. */
static struct cycle draw(u32 n, u8 *state) {
    static const u32 htrans[4] = {0, 2, 2, 3}, hburst[4] = {0, 1, 3, 3};
    u32 all = (1u << n) - 1, hbusreq = below(1u << 16) & all, hlock = below(8) ? 0 : hbusreq & below(1u << 16);
    struct cycle c = {{hbusreq, hlock, below(5) != 0, htrans[below(4)], hburst[below(4)]}};
    u8 o[OUTPUT_BYTES] = {0};
    plain_step_outputs(c.at[0], c.at[1], c.at[2], c.at[3], c.at[4], state, STATE_BYTES, o, sizeof o);
    store4(state + 8, 0);
    c.at[5] = load2(o);
    for (u32 i = 6; i < 11; i++) c.at[i] = o[i - 4];
    return c;
}

static int time_calls(start_call *start, verdict_call *step, u32 n, u32 calls) {
    static struct cycle table[CYCLES];
    u8 state[STATE_BYTES], judge[JUDGE_BYTES], broken[BROKEN_BYTES];
    u32 refusals = plain_reset(n, state, sizeof state);
    for (u32 i = 0; i < CYCLES; i++) table[i] = draw(n, state);
    for (u32 i = 0; i < calls; i++) {
        if (i % RUN == 0) refusals |= start(n, judge, sizeof judge);
        refusals |= call(step, &table[i % CYCLES], judge, sizeof judge, broken, sizeof broken);
    }
    return refusals != 0;
}

/* Any columns that n masters may show, those of a wrong arbiter. */
static void scramble(struct cycle *c, u32 n) {
    c->at[5] = below(2) ? 1u << below(n) : below(1u << n);
    c->at[6] = below(n);
    for (u32 i = 7; i < 11; i++) c->at[i] = below(2);
}

/* Sometimes something that is refused, or may be. */
static void spoil(struct cycle *c, u8 *judge, u64 *judge_len, u64 *broken_len) {
    switch (below(8)) {
    case 0: c->at[below(11)] = below(9); break;
    case 1: c->at[below(11)] = below(2) ? 0x10000u << below(16) : below(1u << 16); break;
    case 2: judge[below(JUDGE_BYTES)] = (u8)below(256); break;
    case 3: judge[below(8)] = (u8)below(5); break;
    case 4: judge[below(JUDGE_BYTES)] ^= (u8)(1 + below(18)); break;
    case 5: store4(judge + 8, below(2) ? RUN - 1 + below(3) : below(2)); break;
    case 6: *judge_len = below(ROOM); break;
    default: *broken_len = below(ROOM); break;
    }
}

static int compare_calls(u32 n, u32 calls) {
    u8 state[STATE_BYTES], plain[2][ROOM], product[2][ROOM];
    u32 bad = 1, wrong = 0;
    plain_reset(n, state, sizeof state);
    for (u32 i = 0; i < ROOM; i++) plain[0][i] = plain[1][i] = (u8)below(256);
    for (u32 i = 0; i < calls; i++) {
        u64 judge_len = JUDGE_BYTES, broken_len = BROKEN_BYTES;
        /* from the start now and then, and so after every spoilt call */
        if (bad || below(4096) == 0) {
            u32 masters = below(8) ? n : below(20);
            __builtin_memcpy(product, plain, sizeof plain);
            judge_len = below(8) ? ROOM : below(ROOM);
            if (plain_judge_start(masters, plain[0], judge_len) != espigambre_judge_start(masters, product[0], judge_len)) return 1;
            if (__builtin_memcmp(plain, product, sizeof plain)) return 1;
            judge_len = JUDGE_BYTES;
            wrong = below(3);
            plain_reset(n, state, sizeof state);
        }
        struct cycle c = draw(n, state);
        if (wrong == 1) scramble(&c, n);
        if (wrong == 2 && below(16) == 0) c.at[5 + below(6)] ^= 1;
        bad = below(64) == 0;
        if (bad) spoil(&c, plain[0], &judge_len, &broken_len);
        __builtin_memcpy(product, plain, sizeof plain);
        u32 one = call(plain_judge_step, &c, plain[0], judge_len, plain[1], broken_len);
        u32 two = call(espigambre_judge_step, &c, product[0], judge_len, product[1], broken_len);
        if (one != two || __builtin_memcmp(plain, product, sizeof plain)) return 1;
    }
    return 0;
}

static u32 number(const char *text) {
    u32 sum = 0;
    while (*text >= '0' && *text <= '9') sum = sum * 10 + (u32)(*text++ - '0');
    return sum;
}

int main(int words, char **word) {
    if (words != 4) return 2;
    const char *kind = word[1];
    u32 n = number(word[2]), calls = number(word[3]);
#define IS(name) (__builtin_strcmp(kind, name) == 0)
    if (IS("plain")) return time_calls(plain_judge_start, plain_judge_step, n, calls);
    if (IS("product")) return time_calls(espigambre_judge_start, espigambre_judge_step, n, calls);
    if (IS("none")) return time_calls(plain_judge_start, no_judge_step, n, calls);
    if (IS("same")) return compare_calls(n, calls);
    return 2;
}
