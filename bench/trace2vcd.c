/* The program that writes dumps: a trace in, its dump out. */
#include "dump.h"
#include "take.h"

static struct input in;
static struct output out;

/* a hex digit as four bits */
#define BITS(d) (0x30303030u | ((d) >> 3 & 1) | ((d) >> 2 & 1) << 8 | ((d) >> 1 & 1) << 16 | ((d) & 1u) << 24)
static const u32 bits[16] = {BITS(0), BITS(1), BITS(2),  BITS(3),  BITS(4),  BITS(5),  BITS(6),  BITS(7),
                             BITS(8), BITS(9), BITS(10), BITS(11), BITS(12), BITS(13), BITS(14), BITS(15)};

/* The bits of a hex digit, which is known to be one. */
INLINE u32 bits_of(u8 sign) { return bits[(sign & 0xf) + (sign >> 6) * 9]; }

/* Each writes the line of a variable, where its text differs from that in the trace line before. */
INLINE u8 *put_mask(u8 *at, const u8 *now, const u8 *old, u8 code) {
    if (load4(now) == load4(old)) return at;
    *at = 'b';
    store4(at + 1, bits_of(now[0]));
    store4(at + 5, bits_of(now[1]));
    store4(at + 9, bits_of(now[2]));
    store4(at + 13, bits_of(now[3]));
    store4(at + 17, ' ' | (u32)code << 8 | '\n' << 16);
    return at + 20;
}

/* `width` is 2, 3 or 4. */
INLINE u8 *put_digit(u8 *at, const u8 *now, const u8 *old, u32 width, u8 code) {
    if (*now == *old) return at;
    *at = 'b';
    store4(at + 1, bits_of(*now) >> 8 * (4 - width));
    store4(at + 1 + width, ' ' | (u32)code << 8 | '\n' << 16);
    return at + width + 4;
}

INLINE u8 *put_bit(u8 *at, const u8 *now, const u8 *old, u8 code) {
    if (*now == *old) return at;
    store4(at, *now | (u32)code << 8 | '\n' << 16);
    return at + 3;
}

INLINE u8 *put_step(u8 *at, u32 t, const u8 *now, const u8 *old) {
    struct decimal time = decimal(t);
    *at = '#';
    store8(at + 1, time.text);
    at[1 + time.length] = '\n';
    at += time.length + 2;
    at = put_mask(at, now, old, '!');
    at = put_mask(at, now + 5, old + 5, '"');
    at = put_bit(at, now + 10, old + 10, '#');
    at = put_digit(at, now + 12, old + 12, 2, '$');
    at = put_digit(at, now + 14, old + 14, 3, '%');
    at = put_mask(at, now + 16, old + 16, '&');
    at = put_digit(at, now + 21, old + 21, 4, '\'');
    at = put_bit(at, now + 23, old + 23, '(');
    at = put_bit(at, now + 25, old + 25, ')');
    at = put_bit(at, now + 27, old + 27, '*');
    return put_bit(at, now + 29, old + 29, '+');
}

/* the last trace line, and the cycle in it; before cycle 0 its columns have no value */
static u8 last[TRACE_LINE];
static struct cycle before;

/* Takes so many lines, up to one that is bad; answers how many. */
APART u32 take_lines(u32 n, u64 absent, u32 count, u64 lines) {
    struct cycle p = before;
    const u8 *start = in.bytes + in.at, *line = start, *end = line + lines * TRACE_LINE, *old = last;
    for (; line != end; line += TRACE_LINE) {
        struct cycle t;
        if (RARELY(take_trace(line, absent, n, &p, &t))) break;
        fit(&out, put_step(room(&out, LONGEST_STEP + 8), count++, line, old));
        old = line;
        p = t;
    }
    before = p;
    __builtin_memmove(last, old, TRACE_LINE);
    in.at += (u64)(line - start);
    return (u32)((line - start) / TRACE_LINE);
}

/* Takes all lines of the input; answers 0 or the refusal of the line after `count` cycles. */
static u32 run(u32 n, u32 *count) {
    for (;;) {
        u64 lines = (in.end - in.at) / TRACE_LINE, left = LIMIT - *count;
        u32 taken = take_lines(n, absent_masters(n), *count, lines < left ? lines : left);
        *count += taken;
        if (taken < lines) return refusal_of(in.bytes + in.at, trace, n);
        fill(&in);
        if (in.end < TRACE_LINE) return in.end ? 3 : 0;
    }
}

int main(void) {
    u32 n, count = 0;
    fill(&in);
    u32 refusal = take_header(&in, "trace\t1\t", &n);
    if (refusal) {
        put_refusal(&out, 1, refusal);
    } else {
        put_text(&out, before_n);
        put_decimal(&out, n);
        put_text(&out, after_n);
        refusal = run(n, &count);
        if (refusal) put_refusal(&out, count + 2, refusal);
    }
    flush(&out);
    return 0;
}
