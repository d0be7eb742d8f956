/* The program that reads dumps: a dump in, its trace out. */
#include "put.h"
#include "steps.h"

static struct input in;
static struct output out;

/* where the run stands: the cycles and the lines of the input so far, and the line of the last cycle */
struct run {
    u32 cycles, lines;
    const u8 *last;
};

/* before cycle 0 no column has a value */
static const u8 none[] = "----\t----\t-\t-\t-\t----\t-\t-\t-\t-\t-\n";

/* A step that is being read, the line of its cycle, and whether something in it is bad. */
struct step {
    const u8 *at;
    u8 *line;
    u32 changes, bad;
};

/* the end of a vector's line, after a byte of its value */
#define END(code) (' ' | (code) << 8 | '\n' << 16)

/* The number in eight bits. */
INLINE u32 eight_bits(u64 text) { return (u32)(text * 0x8040201008040201ul >> 56); }

/* Each reads the change of a variable, if it stands here: the line of another begins or ends otherwise. */
INLINE void take_mask(struct step *s, u32 code, u32 place, u32 absent) {
    if (s->at[0] != 'b' || load4(s->at + 16) >> 8 != END(code)) return;
    u64 high = load8(s->at + 1) ^ EACH('0'), low = load8(s->at + 9) ^ EACH('0');
    /* a line may end here, and another one there */
    if (RARELY(((high | low) & ~EACH(1)) != 0)) return;
    u32 value = eight_bits(high) << 8 | eight_bits(low), text = hex4(value);
    s->bad |= (value & absent) | (text == load4(s->line + place));
    store4(s->line + place, text);
    s->at += 20;
    s->changes++;
}

INLINE void take_code(struct step *s, u32 width, u32 code, u32 place, u32 absent) {
    if (s->at[0] != 'b' || load4(s->at + width) >> 8 != END(code)) return;
    u32 value = 0;
    for (u32 i = 1; i <= width; i++) {
        u32 bit = s->at[i] ^ '0';
        s->bad |= bit >> 1;
        value = value << 1 | (bit & 1);
    }
    u8 text = pairs[2 * value + 1];
    s->bad |= (absent >> value & 1) | (text == s->line[place]);
    s->line[place] = text;
    s->at += width + 4;
    s->changes++;
}

/* Three bytes, of which the first is a bit. */
INLINE void take_flag(struct step *s, u32 code, u32 place) {
    if ((load4(s->at) & 0xfffffe) != ('0' | code << 8 | '\n' << 16)) return;
    s->bad |= s->at[0] == s->line[place];
    s->line[place] = s->at[0];
    s->at += 3;
    s->changes++;
}

INLINE void take_time(struct step *s, u32 t) {
    struct decimal time = decimal(t);
    u64 text = load8(s->at) ^ ('#' | time.text << 8 | (u64)'\n' << 8 * (time.length + 1));
    s->bad = text << (48 - 8 * time.length) != 0;
    s->at += time.length + 2;
}

/* Takes steps that begin before `end`, up to one that is bad. */
APART void take_steps(struct run *run, u32 n, u64 end) {
    u32 absent = 0xffffu << n & 0xffff;
    const u8 *at = in.bytes + in.at;
    for (; at < in.bytes + end && run->cycles < LIMIT; run->cycles++) {
        struct step s = {at, room(&out, TRACE_LINE), 0, 0};
        __builtin_memcpy(s.line, run->last, TRACE_LINE);
        take_time(&s, run->cycles);
        take_mask(&s, '!', 0, absent);
        take_mask(&s, '"', 5, absent);
        take_flag(&s, '#', 10);
        take_code(&s, 2, '$', 12, 0x02);
        take_code(&s, 3, '%', 14, 0xf4);
        take_mask(&s, '&', 16, absent);
        take_code(&s, 4, '\'', 21, absent);
        take_flag(&s, '(', 23);
        take_flag(&s, ')', 25);
        take_flag(&s, '*', 27);
        take_flag(&s, '+', 29);
        if (RARELY(s.bad | (*s.at != '#') | (run->cycles == 0 && s.changes < VARIABLES))) break;
        run->last = s.line;
        run->lines += s.changes + 1;
        out.end += TRACE_LINE;
        at = s.at;
    }
    in.at = (u64)(at - in.bytes);
}

/* Takes all steps of the input; answers 0 or the refusal of the step after those that were taken. */
static u32 take_all(struct run *run, u32 n) {
    for (;;) {
        u32 ended = in.end < IN_BLOCK;
        u64 end = ended ? in.end : in.end - LONGEST_STEP - 1;
        /* the last step ends as if another one followed it */
        if (ended) {
            __builtin_memset(in.bytes + in.end, 0, SPARE);
            in.bytes[in.end] = '#';
        }
        take_steps(run, n, end);
        if (in.at < end) return refusal_of_step(in.bytes + in.at, in.end - in.at, n, run->cycles, run->last);
        if (ended) return 0;
        fill(&in);
    }
}

/* Takes the header; answers 0, 1 or 12. */
static u32 take_dump_header(u32 *n) {
    const u8 *at = in.bytes, *end = at + in.end;
    for (const char *text = before_n; *text; text++)
        if (at == end || *at++ != (u8)*text) return 12;
    u32 digits = 0;
    for (*n = 0; at != end && *at >= '0' && *at <= '9' && digits < 3; digits++) *n = *n * 10 + (*at++ - '0');
    if (digits < 1 || digits > 2 || (digits == 2 && *n < 10)) return 12;
    for (const char *text = after_n; *text; text++)
        if (at == end || *at++ != (u8)*text) return 12;
    in.at = (u64)(at - in.bytes);
    return *n < 2 || *n > 16;
}

int main(void) {
    struct run run = {0, HEADER_LINES, none};
    u32 n;
    fill(&in);
    u32 refusal = take_dump_header(&n);
    if (refusal) {
        put_refusal(&out, 1, refusal);
    } else {
        put_text(&out, "trace\t1\t");
        put_decimal(&out, n);
        put_text(&out, "\n");
        refusal = take_all(&run, n);
        if (refusal) put_refusal(&out, run.lines + 1, refusal);
    }
    flush(&out);
    return 0;
}
