//! Runs at the limit of 1,000,000 cycles, for the long form.

use crate::case::{line_start, plain, stimulus_text, trace_text, Case, Program, Promise};
use crate::chaos::chaotic;
use crate::dump::Dump;
use crate::reference::arbiter;
use crate::reference::lines::LIMIT;
use crate::rng::Rng;
use crate::traffic::lawful;

/// What may follow the last step of a dump, and the refusal that it gives, if any: of the step that it begins, or of the
/// last one, which it is then a part of.
const AFTER: [(&str, usize); 9] = [
    ("", 0),
    ("#1000000\n", 8),
    ("#1000000", 8),
    ("#1000000x\n1,\n", 8),
    ("#1000001\n", 13),
    ("#999999\n", 13),
    ("#", 3),
    ("hello\n", 3),
    ("1,\n", 14),
];

/// How many cases of lines there are, and how many in all.
const LINES: usize = 19;
pub const COUNT: usize = LINES + AFTER.len();

/// Case `turn`: what follows exactly 1,000,000 cycles is nothing, a good line, one stray byte, a line
/// that is refused for itself, a cut line, or a good line and something that must not be read.
pub fn cases(rng: &mut Rng, turn: usize) -> Vec<Case> {
    let n = 2 + rng.below(15);
    if turn >= LINES {
        return dumps(rng, n, turn - LINES);
    }
    if turn == 18 {
        // no lawful masters, so that the report is long as well
        let trace = arbiter::run(n, &chaotic(rng, n, LIMIT));
        return vec![Case { promise: Promise::NoGuarantee, ..plain(Program::Judge, trace_text(n, &trace)) }];
    }
    let program = [Program::Arbiter, Program::Judge, Program::Trace2vcd][turn % 3];
    let stimulus = lawful(rng, n, LIMIT + 1);
    let mut input = match program {
        Program::Arbiter => stimulus_text(n, &stimulus),
        _ => trace_text(n, &arbiter::run(n, &stimulus)),
    };
    let end = line_start(program, n, LIMIT + 1);
    match turn / 3 {
        0 => input.truncate(end),
        1 => {}
        2 => {
            input.truncate(end);
            input.push(rng.pick(b"\n0\0x"));
        }
        // HTRANS 1
        3 => input[end + 12] = b'1',
        4 => input.truncate(input.len() - 1),
        _ => input.push(b'x'),
    }
    let promise = if turn == 1 { Promise::Clean } else { Promise::Nothing };
    vec![Case { promise, ..plain(program, input) }]
}

/// A dump of 1,000,000 cycles, and what follows it.
fn dumps(rng: &mut Rng, n: usize, turn: usize) -> Vec<Case> {
    let trace = arbiter::run(n, &lawful(rng, n, LIMIT));
    let dump = Dump::of(n, &trace);
    let (after, number) = AFTER[turn];
    let mut input = dump.text();
    let last = if after.starts_with('#') { LIMIT } else { LIMIT - 1 };
    let promise = if number == 0 { Promise::Known(trace_text(n, &trace)) } else { Promise::Refused(dump.line(last), number) };
    input.extend(after.bytes());
    vec![Case { promise, ..plain(Program::Vcd2trace, input) }]
}
