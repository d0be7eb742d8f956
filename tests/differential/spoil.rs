//! Dumps damaged without an aim: bytes changed, put in and left out, and lines swapped, doubled, dropped and put in.

use crate::case::{any_trace, plain, Case, Program};
use crate::dump::{Dump, HEADER_LINES};
use crate::rng::Rng;

/// Bytes that stand in dumps, or that damage likes to leave.
const ODD: &[u8] = b"#\n 01xXzZbBrR!\"$%&'()*+,~\t\r\0\x7f\x80\xff2389";

/// A dump damaged in one to three bytes.
pub fn bytes(rng: &mut Rng, n: usize) -> Vec<Case> {
    let cycles = rng.within(1, 12);
    let dump = Dump::of(n, &any_trace(rng, n, cycles));
    let mut text = dump.text();
    // seldom in the header, where every damage is the same
    let start = if rng.chance(1, 12) { 0 } else { dump.header.len() };
    for _ in 0..rng.pick(&[1, 1, 1, 2, 3]) {
        let at = rng.within(start, text.len() - 1);
        match rng.below(7) {
            0 => text[at] = rng.byte(),
            1 | 2 => text[at] = rng.pick(ODD),
            3 => text.insert(at, rng.pick(ODD)),
            4 => {
                text.remove(at);
            }
            5 => text.swap(at, at - 1),
            _ => text[at] ^= 1 << rng.below(8),
        }
    }
    vec![plain(Program::Vcd2trace, text)]
}

/// A dump whose lines were moved, mostly those of its steps.
pub fn lines(rng: &mut Rng, n: usize) -> Vec<Case> {
    let cycles = rng.within(1, 12);
    let text = Dump::of(n, &any_trace(rng, n, cycles)).text();
    let mut lines: Vec<&[u8]> = text.split_inclusive(|&byte| byte == b'\n').collect();
    let other = Dump::of(n, &any_trace(rng, n, 4)).text();
    let others: Vec<&[u8]> = other.split_inclusive(|&byte| byte == b'\n').collect();
    let first = if rng.chance(1, 12) { 0 } else { HEADER_LINES };
    for _ in 0..rng.pick(&[1, 1, 2]) {
        let one = rng.within(first, lines.len() - 1);
        // near to it, so that both are often of one step
        let two = (one + rng.below(4)).min(lines.len() - 1);
        match rng.below(6) {
            0 => lines.swap(one, two),
            1 => lines.insert(two, lines[one]),
            2 => {
                lines.remove(one);
            }
            3 => lines.insert(one, rng.pick(&others)),
            4 => lines[one] = rng.pick(&others),
            _ => {
                lines.drain(one..=two);
            }
        }
        if lines.len() <= first {
            break;
        }
    }
    vec![plain(Program::Vcd2trace, lines.concat())]
}
