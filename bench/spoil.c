/* `spoil one` and `spoil many` copy a trace and break rules in it. Both flip BUSREQ in every line, which
   breaks G1; `many` also flips DECIDE in every line, HREADY in every second one and GRANTED in two of four,
   so that busy traffic breaks between two and three rules in a line. */
#include "lines.h"
#include "text.h"

static struct input in;
static struct output out;

/* where these columns stand in a line */
enum { AT_HREADY = 10, AT_DECIDE = 25, AT_GRANTED = 27, AT_BUSREQ = 29 };

static void spoil(u8 *line, u32 cycle, u32 many) {
    line[AT_BUSREQ] ^= 1;
    if (!many) return;
    line[AT_DECIDE] ^= 1;
    line[AT_HREADY] ^= cycle & 1;
    line[AT_GRANTED] ^= cycle >> 1 & 1;
}

int main(int words, char **word) {
    u32 n, cycle = 0;
    if (words != 2) return 2;
    fill(&in);
    if (take_header(&in, "trace\t1\t", &n)) return 1;
    put_text(&out, "trace\t1\t");
    put_decimal(&out, n);
    put_text(&out, "\n");
    for (;;) {
        if (in.end - in.at < TRACE_LINE) fill(&in);
        if (in.end - in.at < TRACE_LINE) break;
        u8 *at = room(&out, TRACE_LINE);
        __builtin_memcpy(at, in.bytes + in.at, TRACE_LINE);
        spoil(at, cycle++, word[1][0] == 'm');
        in.at += TRACE_LINE;
        out.end += TRACE_LINE;
    }
    flush(&out);
    return in.end != in.at;
}
