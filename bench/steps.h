/* The refusal of a bad step, looked at by every test in its order. */
#ifndef STEPS_H
#define STEPS_H

#include "dump.h"
#include "take.h"

/* A variable: its width, its code, and the place of its column in a trace line. */
struct variable {
    u32 width, place;
    u8 code;
};
static const struct variable variables[] = {{16, 0, '!'},  {16, 5, '"'},  {1, 10, '#'}, {2, 12, '$'}, {3, 14, '%'}, {16, 16, '&'},
                                            {4, 21, '\''}, {1, 23, '('}, {1, 25, ')'}, {1, 27, '*'}, {1, 29, '+'}};
enum { VARIABLES = 11 };

/* The bytes of a step, of so many that are left: up to the LF before the next `#`, and one more than any good step has. */
static inline u32 step_length(const u8 *text, u64 left) {
    u32 length = 0;
    while (length < left && length <= LONGEST_STEP)
        if (text[length++] == '\n' && length < left && text[length] == '#') break;
    return length;
}

/* Whether a line, which ends with LF or before `end`, changes a variable that is none of the eleven. */
static inline u32 is_unknown(const u8 *line, const u8 *end) {
    static const char scalars[] = "01xXzZ", vectors[] = "bBrR";
    u32 scalar = 0, vector = 0, signs = 0;
    if (line == end) return 0;
    for (const char *kind = scalars; *kind; kind++) scalar |= *line == (u8)*kind;
    for (const char *kind = vectors; *kind; kind++) vector |= *line == (u8)*kind;
    if (!scalar && !vector) return 0;
    for (; vector && *line != ' '; line++)
        if (line + 1 == end || line[1] == '\n') return 0;
    const u8 *code = line + 1;
    while (code + signs != end && code[signs] >= '!' && code[signs] <= '~') signs++;
    return signs > 1 || (signs == 1 && *code > '+');
}

/* Reads the changes of a step's lines into `line`, which has the values before; answers 0, or 3, or 4. At t = 0 all must be there. */
static inline u32 take_changes(const u8 *at, const u8 *end, u32 t, u8 *line) {
    u32 next = 0, changes = 0, characters = 0;
    for (; at != end; changes++) {
        const u8 *stop = at;
        while (stop != end && *stop != '\n') stop++;
        if (stop == end) return 3;
        u32 length = (u32)(stop - at);
        for (; next < VARIABLES; next++) {
            u32 width = variables[next].width;
            if (length == (width == 1 ? 2 : width + 3) && stop[-1] == variables[next].code) break;
        }
        if (next == VARIABLES) return 3;
        const struct variable *v = &variables[next++];
        if (v->width > 1 && (at[0] != 'b' || stop[-2] != ' ')) return 3;
        u32 bad = 0, value = 0, differs = t == 0;
        for (u32 i = 0; i < v->width; i++) {
            u32 bit = at[(v->width > 1) + i] ^ '0';
            bad |= bit >> 1;
            value = value << 1 | (bit & 1);
        }
        for (u32 digits = v->width == 16 ? 4 : 1, i = 0; i < digits; i++) {
            u8 sign = (u8)"0123456789abcdef"[value >> 4 * (digits - 1 - i) & 0xf];
            differs |= bad | (line[v->place + i] != sign);
            line[v->place + i] = sign;
        }
        if (!differs) return 3;
        characters |= bad;
        at = stop + 1;
    }
    if (t == 0 && changes < VARIABLES) return 3;
    return characters ? 4 : 0;
}

/* The first test that a step fails, at time t and after the cycle of `before`; `left` bytes of the input are left. */
APART u32 refusal_of_step(const u8 *text, u64 left, u32 n, u32 t, const u8 *before) {
    u32 length = step_length(text, left), digits = 0, known = 0;
    const u8 *end = text + length;
    struct decimal time = decimal(t % LIMIT);
    u8 line[TRACE_LINE], wanted[8];
    __builtin_memcpy(line, before, TRACE_LINE);
    store8(wanted, time.text);
    if (t == LIMIT) __builtin_memcpy(wanted, "1000000", time.length = 7);
    if (text[0] == '#') {
        while (1 + digits < length && text[1 + digits] >= '0' && text[1 + digits] <= '9') digits++;
        u32 is_time = digits == 1 || (digits > 1 && text[1] != '0');
        known = digits == time.length && !__builtin_memcmp(text + 1, wanted, digits);
        if (is_time && !known) return 13;
        if (known && t == LIMIT) return 8;
    }
    for (const u8 *at = text; at != end; at++)
        if (*at == '\n' && is_unknown(at + 1, end)) return 14;
    const u8 *body = text + 1 + digits;
    if (!known || body == end || *body != '\n') return 3;
    u32 refusal = take_changes(body + 1, end, t, line);
    return refusal ? refusal : refusal_of(line, trace, n);
}

#endif
