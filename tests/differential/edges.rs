//! Long inputs with something to see next to the edge of a block. The programs take a stimulus by 2,048
//! lines and a trace by 1,024. They look at most lines quickly, and at the others with every test; none of
//! that may show in an answer.

use crate::aimed::{aimed, arbiter_trace};
use crate::case::{line_start, plain, sample, stimulus_text, trace_text, Case, Feed, Program, LINED};
use crate::chaos::chaotic;
use crate::codes::{spoil, FAULTS};
use crate::damage::ODD;
use crate::mutate;
use crate::reference::arbiter;
use crate::reference::judge::{breaches, Trace, RULES};
use crate::reference::lines::Inputs;
use crate::rng::Rng;
use crate::traffic::lawful;

/// How many lines a program takes at a time.
fn block(program: Program) -> usize {
    if program == Program::Arbiter { 2048 } else { 1024 }
}

/// Runs that end next to an edge, and one that has several.
const LENGTHS: [usize; 9] = [1023, 1024, 1025, 1026, 2047, 2048, 2049, 2050, 4100];

/// The places next to an edge: the last two lines of a block are 0 and 1, the first three of the next are
/// 2 to 4.
const PLACES: usize = 5;

/// One of the lengths, and a line of it, counted from 0, that has this place at one of the edges.
fn spot(rng: &mut Rng, program: Program, place: usize) -> (usize, usize) {
    let block = block(program);
    let lines = |length: usize| (block - 2 + place..length).step_by(block).map(move |line| (length, line));
    let all: Vec<(usize, usize)> = LENGTHS.iter().copied().flat_map(lines).collect();
    rng.pick(&all)
}

/// 2 to 16 masters, the ends more often.
fn masters(rng: &mut Rng) -> usize {
    if rng.flag() { rng.pick(&[2, 3, 16]) } else { rng.within(2, 16) }
}

/// A good input, most often one that breaks no rule.
fn good(rng: &mut Rng, program: Program, n: usize, cycles: usize) -> Vec<u8> {
    match program {
        _ if rng.chance(1, 4) => sample(rng, program, n, cycles),
        Program::Arbiter => stimulus_text(n, &lawful(rng, n, cycles)),
        _ => trace_text(n, &arbiter::run(n, &lawful(rng, n, cycles))),
    }
}

/// How many pairs of a place and a fault there are.
pub const SPOILED: usize = PLACES * (FAULTS + 3);

/// A line that is refused for a value in it, or that has one byte changed, put in or left out.
pub fn spoiled(rng: &mut Rng, turn: usize) -> Vec<Case> {
    let (place, fault) = (turn % PLACES, turn / PLACES % (FAULTS + 3));
    // with 16 masters none is absent
    let n = masters(rng).min(if matches!(fault, 5..=7) { 15 } else { 16 });
    let mut all = Vec::new();
    for program in LINED {
        let (length, line) = spot(rng, program, place);
        let mut input = good(rng, program, n, length);
        let (start, width) = (line_start(program, n, line + 1), program.shape().len());
        let at = start + rng.below(width);
        match fault.checked_sub(FAULTS) {
            None => spoil(rng, program, n, &mut input[start..start + width], fault),
            Some(0) => input[at] = rng.pick(ODD),
            Some(1) => input.insert(at, rng.pick(ODD)),
            _ => {
                input.remove(at);
            }
        }
        all.push(plain(program, input));
    }
    all
}

/// A file that ends after any byte of a line. Some are fed in pieces that end near an edge as well.
pub fn cut(rng: &mut Rng, turn: usize) -> Vec<Case> {
    let n = masters(rng);
    let mut all = Vec::new();
    for program in LINED {
        let (_, line) = spot(rng, program, turn % PLACES);
        let mut input = good(rng, program, n, line + 1);
        input.truncate(line_start(program, n, line + 1) + turn % program.shape().len());
        let feed = match rng.below(3) {
            0 => Feed::Pieces(vec![line_start(program, n, block(program) + 1) - 2 + rng.below(5), rng.within(1, 40)]),
            _ => Feed::Whole,
        };
        all.push(Case { feed, ..plain(program, input) });
    }
    all
}

/// A whole run of each length, and its trace with a breach in every line or in every second one.
pub fn broken(rng: &mut Rng, turn: usize) -> Vec<Case> {
    let (n, length, kind) = (masters(rng), LENGTHS[turn % LENGTHS.len()], turn / LENGTHS.len() % 5);
    let stimulus = if kind == 4 { chaotic(rng, n, length) } else { lawful(rng, n, length) };
    let mut trace = arbiter::run(n, &stimulus);
    let (first, step) = if kind % 2 == 0 { (0, 1) } else { (rng.below(2), 2) };
    for cycle in trace.iter_mut().skip(first).step_by(step) {
        // some lines break more than G1
        if kind >= 2 {
            let column = rng.below(10);
            mutate::change(rng, n, cycle, column);
        }
        cycle.busreq = !cycle.owner_request();
    }
    vec![plain(Program::Arbiter, stimulus_text(n, &stimulus)), plain(Program::Judge, trace_text(n, &trace))]
}

/// How many pairs of a place and a rule there are. A9 and G12 know cycle 0 alone.
pub const CHARGED: usize = PLACES * (RULES.len() - 2);

/// A trace in which a rule is charged, so that what the judge keeps for it comes over the edge: the line
/// before, the run of A1 or A2, the watch of G2 or G3, the counts of G11.
pub fn charged(rng: &mut Rng, turn: usize) -> Vec<Case> {
    let n = masters(rng);
    let rules: Vec<usize> = (0..RULES.len()).filter(|&rule| !matches!(RULES[rule].0, "A9" | "G12")).collect();
    let rule = rules[turn / PLACES % rules.len()];
    let piece = Trace { n, cycles: aimed(rng, n, RULES[rule].0) };
    let charges = breaches(&piece);
    let found: Vec<usize> = (0..charges.len()).filter(|&t| charges[t] >> rule & 1 == 1).collect();
    // a piece that comes near the charge and no further has its last line at the edge
    let charge = if found.is_empty() { charges.len() - 1 } else { rng.pick(&found) };
    let block = block(Program::Judge);
    let edges = (block - 2 + turn % PLACES..).step_by(block);
    let lines: Vec<usize> = edges.filter(|&line| line > charge).take(2).collect();
    let before = rng.pick(&lines) - charge;
    let mut stimulus = lawful(rng, n, before - 1);
    // a ready line without requests, so that no run or count of these lines goes on in the piece
    stimulus.push(Inputs { hready: true, ..Inputs::default() });
    let mut trace = arbiter::run(n, &stimulus);
    trace.extend(piece.cycles);
    let after = rng.below(40);
    trace.extend(arbiter_trace(rng, n, after));
    vec![plain(Program::Judge, trace_text(n, &trace))]
}
