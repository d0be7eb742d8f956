//! Lines of the right shape with values that are refused: characters, codes, masters that are not
//! there; one fault in a line or several, so that the order of the tests shows.

use crate::case::{line_start, plain, sample, Case, Program, LINED};
use crate::rng::Rng;

/// Where the fields stand in a line.
const MASKS: [usize; 3] = [0, 5, 16];
const HREADY: usize = 10;
const HTRANS: usize = 12;
const HBURST: usize = 14;
const HMASTER: usize = 21;
const FLAGS: [usize; 5] = [HREADY, 23, 25, 27, 29];

/// How many kinds of fault there are.
pub const FAULTS: usize = 13;

/// The first fields that stand in this program's lines.
fn fields<'a>(program: Program, all: &'a [usize]) -> &'a [usize] {
    let known = all.iter().filter(|&&at| at < program.shape().len()).count();
    &all[..known]
}

/// Puts a fault of this kind into a line. Where the kind has no room (16 masters leave none absent, a
/// stimulus has no HMASTER) the line stays as it is.
pub fn spoil(rng: &mut Rng, program: Program, n: usize, line: &mut [u8], fault: usize) {
    let mask = rng.pick(fields(program, &MASKS));
    match fault {
        0 => line[HTRANS] = b'1',
        1 => line[HTRANS] = rng.pick(b"444456789abcdefX/:\0"),
        2 => line[HBURST] = rng.pick(b"24567"),
        3 => line[HBURST] = rng.pick(b"88889abcdefX/:\0"),
        4 => line[rng.pick(fields(program, &FLAGS))] = rng.pick(b"2222379afA/:\0"),
        5 | 6 if n < 16 => {
            let master = rng.within(n, 15);
            let mut value = rng.mask(n, 4) | 1 << master;
            if fault == 6 {
                value |= rng.mask(16, 8);
            }
            line[mask..mask + 4].copy_from_slice(format!("{value:04x}").as_bytes());
        }
        7 if n < 16 && program != Program::Arbiter => {
            line[HMASTER] = b"0123456789abcdef"[rng.within(n, 15)];
        }
        8 if program != Program::Arbiter => line[HMASTER] = rng.pick(b"ABCDEFGg/: \t\n\0"),
        9 => line[mask + rng.below(4)] = rng.pick(b"ABCDEFGgx/:`@ \0"),
        // a separator inside a field is a character that the field does not allow
        10 => {
            let inside: Vec<usize> =
                (0..line.len()).filter(|&at| !matches!(program.shape()[at], b'\t' | b'\n')).collect();
            line[rng.pick(&inside)] = rng.pick(b"\t\n\r");
        }
        11 => {
            let between: Vec<usize> =
                (0..line.len()).filter(|&at| matches!(program.shape()[at], b'\t' | b'\n')).collect();
            line[rng.pick(&between)] = rng.pick(b"\t\n\r 0,");
        }
        // 16 or more masters in a mask of this shape: all bits
        12 => line[mask..mask + 4].copy_from_slice(b"ffff"),
        _ => {}
    }
}

/// An input for each program with `count` faults of kinds `first`, `first + 1 drawn`, .. in one line,
/// and now and then another fault in a later line, which must not be reached.
fn spoiled(rng: &mut Rng, n: usize, first: usize, count: usize) -> Vec<Case> {
    let mut all = Vec::new();
    for program in LINED {
        let cycles = rng.within(1, 6);
        let mut input = sample(rng, program, n, cycles);
        let at = rng.within(1, cycles);
        let mut faults: Vec<(usize, usize)> = vec![(at, first)];
        for _ in 1..count {
            faults.push((at, rng.below(FAULTS)));
        }
        if rng.chance(1, 4) {
            faults.push((rng.within(at, cycles), rng.below(FAULTS)));
        }
        for (line, fault) in faults {
            let start = line_start(program, n, line);
            spoil(rng, program, n, &mut input[start..start + program.shape().len()], fault);
        }
        all.push(plain(program, input));
    }
    all
}

/// One fault, of kind `turn`.
pub fn single(rng: &mut Rng, n: usize, turn: usize) -> Vec<Case> {
    spoiled(rng, n, turn % FAULTS, 1)
}

/// Two to four faults in one line.
pub fn several(rng: &mut Rng, n: usize, turn: usize) -> Vec<Case> {
    let count = rng.within(2, 4);
    spoiled(rng, n, turn % FAULTS, count)
}
