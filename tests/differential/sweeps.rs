//! Every byte in each place where a byte decides: the kind of a line, a code, a value, the time's line, and the header.

use crate::case::{plain, trace_text, Case, Program, Promise};
use crate::dump::Dump;
use crate::reference::lines::Cycle;

/// Three cycles of two masters; HREADY and HBURST change in the second.
fn dump() -> Dump {
    let one = Cycle { hgrant: 1, decide: true, ..Cycle::default() };
    let two = Cycle { hready: true, hburst: 3, ..one };
    Dump::of(2, &[one, two, one])
}

/// The places for a byte in the lines of step 1, which are `#1`, `1#` and `b011 %`, by a text before it and one after it.
const PLACES: [(&str, &str); 10] = [
    // the time's line
    ("#1", "\n1#\nb011 %\n"),
    ("#", "1\n1#\nb011 %\n"),
    // the kind of a line whose code is known, and of one whose code is not
    ("#1\n1#\nb011 %\n", "(\n"),
    ("#1\n", ",\n1#\n"),
    ("#1\n", "1 ,\n"),
    // a code, what follows one, and what stands before it
    ("#1\n1", "\n"),
    ("#1\n1#\nb011 ", "\n"),
    ("#1\n1#", "\nb011 %\n"),
    ("#1\nb1", ",\n"),
    // a value
    ("#1\n1#\nb0", "1 %\n"),
];

/// How many cases there are of a byte in a place.
pub const BYTES: usize = 256 * PLACES.len();

pub fn bytes(turn: usize) -> Vec<Case> {
    let ((before, after), byte) = (PLACES[turn / 256 % PLACES.len()], (turn % 256) as u8);
    let mut dump = dump();
    dump.steps[1] = vec![[before.as_bytes(), &[byte], after.as_bytes()].concat()];
    vec![plain(Program::Vcd2trace, dump.text())]
}

/// More than a header has bytes.
pub const HEADER: usize = 400;

/// A header with one byte changed, by its place.
pub fn headers(turn: usize) -> Vec<Case> {
    let (mut dump, at) = (dump(), turn);
    assert!(dump.header.len() < HEADER);
    if at >= dump.header.len() {
        return Vec::new();
    }
    // the digit becomes another one
    dump.header[at] ^= 1;
    let promise = match dump.header[at] {
        b'3' if at == "$comment masters ".len() => Promise::Known(trace_text(3, &dump.trace)),
        _ => Promise::Refused(1, 12),
    };
    vec![Case { promise, ..plain(Program::Vcd2trace, dump.text()) }]
}
