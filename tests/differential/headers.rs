//! Headers of every shape, right and wrong, of stimuli and traces.

use crate::case::{plain, sample, Case, LINED};
use crate::rng::Rng;

/// The numbers of masters as they may be written, well or badly.
const NUMBERS: [&str; 40] = [
    "0", "1", "2", "3", "9", "10", "11", "15", "16", "17", "18", "20", "32", "99", "00", "01", "02", "09", "003",
    "010", "016", "017", "100", "102", "1000", "", "a", "f", "2a", "a2", "1f", "+2", "-2", " 2", "2 ", "2.", "1_",
    "２", "2\0", "\0",
];

/// Headers with other faults; `@` stands for the program's own word and `%` for another one.
const SHAPES: [&str; 57] = [
    "", "\n", "\t", "@", "@\n", "@\t", "@\t\n", "@\t1", "@\t1\n", "@\t1\t", "@\t1\t2", "@\t1\t16", "@\t1\t17",
    "@\t1\t0", "@\t1\t02", "@\t0\t2\n", "@\t2\t2\n", "@\t9\t2\n", "@\t01\t2\n", "@\t11\t2\n", "@\t1.0\t2\n",
    "@\t\t2\n", "@\tx\t2\n", "@\t1 \t2\n", "@\t 1\t2\n", "%\t1\t2\n", "%\t1\t16\n", "%\t1\t17\n", "%\t1\t0\n",
    "%\t2\t2\n", "@\t2\t17\n", "@\t2\t0\n", "@ 1 2\n", "@\t1 2\n", "@ 1\t2\n", "@\t\t1\t2\n", "@\t1\t\t2\n",
    "\t@\t1\t2\n", "@\t1\t2\t\n", "@,1,2\n", "@1\t2\n", "@\t12\n", " @\t1\t2\n", "@ \t1\t2\n", "x@\t1\t2\n",
    "@s\t1\t2\n", "\t1\t2\n", "1\t2\n", "@\t1\t2\r\n", "@\t1\t16\r\n", "@\t1\t17\r\n", "@\t1\t0\r\n", "@\t1\t2\r",
    "@\t1\t2\n\n", "\n@\t1\t2\n", "\u{feff}@\t1\t2\n", "@\t1\t2\t3\n",
];

/// How many headers there are to try.
pub const COUNT: usize = NUMBERS.len() + SHAPES.len() + DRAWN;

/// The headers that are drawn: words with a fault, and numbers out of range and in it.
const DRAWN: usize = 16;

/// Header `turn` for each program, with a few good lines after it or none.
pub fn cases(rng: &mut Rng, turn: usize) -> Vec<Case> {
    let turn = turn % COUNT;
    let mut all = Vec::new();
    for program in LINED {
        let header = match turn {
            // the word without one of its letters
            0..=4 => program.word().replacen(letter(program.word(), turn), "", 1) + "\t1\t2\n",
            5 => program.word().to_uppercase() + "\t1\t2\n",
            6 => program.word().replacen('t', "T", 1) + "\t1\t2\n",
            7..=12 => format!("{}\t1\t{}\n", program.word(), rng.within(17, 99)),
            13..DRAWN => format!("{}\t1\t{}\n", program.word(), rng.within(2, 16)),
            _ => match NUMBERS.get(turn - DRAWN) {
                Some(number) => format!("{}\t1\t{number}\n", program.word()),
                None => SHAPES[turn - DRAWN - NUMBERS.len()].replace('@', program.word()).replace('%', program.other_word()),
            },
        };
        let mut input = header.into_bytes();
        if rng.flag() {
            // the lines after a header for two masters are good for every number of them
            let cycles = rng.within(1, 3);
            let whole = sample(rng, program, 2, cycles);
            input.extend(&whole[program.word().len() + 5..]);
        }
        all.push(plain(program, input));
    }
    all
}

fn letter(word: &str, place: usize) -> &str {
    let place = place % word.len();
    &word[place..=place]
}
