/* Short texts and decimal numbers, the line of a refusal, and the reading of a header. */
#ifndef TEXT_H
#define TEXT_H

#include "blocks.h"

static inline void put_text(struct output *out, const char *text) {
    for (; *text; text++, out->end++) *room(out, 1) = (u8)*text;
}

/* the ten pairs of digits that begin with d */
#define TEN(d) d "0" d "1" d "2" d "3" d "4" d "5" d "6" d "7" d "8" d "9"

static const u8 hundred[] = TEN("0") TEN("1") TEN("2") TEN("3") TEN("4") TEN("5") TEN("6") TEN("7") TEN("8") TEN("9");

struct decimal {
    u64 text, length;
};

/* A number below 1,000,000 without leading zeros. */
INLINE struct decimal decimal(u32 number) {
    u32 high = number / 10000, low = number % 10000;
    u64 middle = load2(hundred + 2 * (low / 100)), last = load2(hundred + 2 * (low % 100));
    u64 six = load2(hundred + 2 * high) | middle << 16 | last << 32;
    u32 zeros = (u32)__builtin_ctzl((six & EACH(0x0f)) | 1ul << 40) / 8;
    return (struct decimal){six >> 8 * zeros, 6 - zeros};
}

static inline void put_decimal(struct output *out, u32 number) {
    u8 *at = room(out, 16);
    u32 ten = 1;
    while (number / 10 >= ten) ten *= 10;
    for (; ten; ten /= 10) *at++ = (u8)('0' + number / ten % 10);
    fit(out, at);
}

static inline void put_refusal(struct output *out, u32 line, u32 refusal) {
    put_text(out, "refused\t");
    put_decimal(out, line);
    put_text(out, "\t");
    put_decimal(out, refusal);
    put_text(out, "\n");
}

/* Takes the header that starts with the given bytes; answers 0, 1 or 2. */
static inline u32 take_header(struct input *in, const char *start, u32 *n) {
    const u8 *at = in->bytes + in->at, *end = in->bytes + in->end;
    for (; *start; start++)
        if (at == end || *at++ != (u8)*start) return 2;
    u32 digits = 0, number = 0;
    for (; at != end && *at >= '0' && *at <= '9' && digits < 3; digits++) number = number * 10 + (*at++ - '0');
    if (digits < 1 || digits > 2 || (digits == 2 && number < 10)) return 2;
    if (at == end || *at++ != '\n') return 2;
    if (number < 2 || number > 16) return 1;
    *n = number;
    in->at = (u64)(at - in->bytes);
    return 0;
}

#endif
