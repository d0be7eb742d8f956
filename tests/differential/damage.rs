//! Damaged inputs: bytes changed, put in or left out, files cut short or with something after them.

use crate::case::{line_start, plain, sample, Case, Program, LINED};
use crate::rng::Rng;

/// Bytes that damage likes to leave.
pub const ODD: &[u8] = b"\t\n\r \0\x0b\x7f\x80\xff019afgAFGxX,;-+";

/// A short input for each program, damaged in one place.
pub fn bytes(rng: &mut Rng, n: usize) -> Vec<Case> {
    LINED.map(|program| damaged(rng, program, n)).into_iter().collect()
}

pub fn damaged(rng: &mut Rng, program: Program, n: usize) -> Case {
    let cycles = rng.within(1, 8);
    let mut input = sample(rng, program, n, cycles);
    let line = rng.within(1, cycles);
    let start = if rng.chance(1, 6) { 0 } else { line_start(program, n, line) };
    let at = rng.within(start, input.len() - 1);
    let end = line_start(program, n, line) + program.shape().len() - 1;
    match rng.below(11) {
        0 => input[at] = rng.byte(),
        1 | 2 => input[at] = rng.pick(ODD),
        3 => input.insert(at, rng.pick(ODD)),
        4 => {
            input.remove(at);
        }
        5 => input.swap(at, at.saturating_sub(1)),
        // an upper-case hex digit in a mask
        6 => input[end + 1 - program.shape().len() + rng.below(4)] = b'A' + rng.below(6) as u8,
        7 => input.insert(end, b'\r'),
        // a separator in the place of another
        8 => {
            let separators: Vec<usize> = (start..input.len()).filter(|&i| input[i] == b'\t' || input[i] == b'\n').collect();
            let place = rng.pick(&separators);
            input[place] = if input[place] == b'\t' { b'\n' } else { b'\t' };
        }
        9 => input.insert(end + 1, b'\n'),
        _ => {
            let mut all = Vec::new();
            for byte in input {
                if byte == b'\n' {
                    all.push(b'\r');
                }
                all.push(byte);
            }
            input = all;
        }
    }
    plain(program, input)
}

/// How many places there are to cut at.
pub const CUTS: usize = 31 + 12;

/// An input for each program cut short: at place `turn` of a line, or of the header.
pub fn cuts(rng: &mut Rng, n: usize, turn: usize) -> Vec<Case> {
    let mut all = Vec::new();
    for program in LINED {
        let cycles = rng.within(1, 6);
        let input = sample(rng, program, n, cycles);
        let line = rng.within(1, cycles);
        let end = match turn % CUTS {
            place @ 0..=30 if place < program.shape().len() => line_start(program, n, line) + place,
            place => place % 12,
        };
        all.push(plain(program, input[..end.min(input.len())].to_vec()));
    }
    all
}

/// An input for each program with something after its end, before its start or between its lines.
pub fn extra(rng: &mut Rng, n: usize) -> Vec<Case> {
    let mut all = Vec::new();
    for program in LINED {
        let cycles = rng.below(5);
        let mut input = sample(rng, program, n, cycles);
        let whole = sample(rng, program, n, 1);
        let line = &whole[line_start(program, n, 1)..];
        let piece: Vec<u8> = match rng.below(7) {
            0 => vec![rng.pick(ODD)],
            1 => line[..rng.within(1, line.len() - 1)].to_vec(),
            2 => whole.clone(),
            3 => vec![b'\n'; rng.within(1, 32)],
            4 => vec![0; rng.within(1, 64)],
            // a line of the other length
            5 => {
                let other = if program == Program::Arbiter { Program::Judge } else { Program::Arbiter };
                sample(rng, other, n, 1).split_off(line_start(other, n, 1))
            }
            _ => (0..rng.within(1, 40)).map(|_| rng.byte()).collect(),
        };
        let at = match rng.below(8) {
            0 => 0,
            1 => line_start(program, n, rng.within(1, cycles + 1)),
            _ => input.len(),
        };
        input.splice(at..at, piece);
        all.push(plain(program, input));
    }
    all
}

/// A longer input for each program, whole or cut within a byte of a usual buffer's size.
pub fn blocks(rng: &mut Rng, n: usize, turn: usize) -> Vec<Case> {
    // the last one is for counts that do not fit in 16 bits
    let sizes = [512, 1024, 4096, 8192, 16384, 32768, 65536, 131_072, 2_200_000];
    let size = sizes[turn % sizes.len()];
    let mut all = Vec::new();
    for program in LINED {
        let cycles = size / program.shape().len() + rng.within(2, 40);
        let mut input = sample(rng, program, n, cycles);
        if rng.chance(3, 4) {
            input.truncate(size + 1 - rng.below(3));
        }
        all.push(plain(program, input));
    }
    all
}
