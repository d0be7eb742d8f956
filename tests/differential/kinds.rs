//! The kinds of case, and how many of each the short and the long form run.

use crate::aimed::{aimed, arbiter_trace};
use crate::case::{plain, sample, stimulus_text, trace_text, Case, Feed, Program, Promise, LINED};
use crate::chaos::{chaotic, random_trace};
use crate::reference::arbiter;
use crate::reference::judge::RULES;
use crate::reference::lines::Inputs;
use crate::rng::Rng;
use crate::traffic::lawful;
use crate::{codes, damage, edges, faults, headers, mutate, runs, spoil, sweeps, there};

/// A kind makes the cases of its turn; the turns go round the numbers of masters.
pub struct Kind {
    pub name: &'static str,
    pub make: fn(&mut Rng, usize) -> Vec<Case>,
    pub short: usize,
    pub long: usize,
}

/// 2 to 16 masters, turn by turn.
fn masters(turn: usize) -> usize {
    2 + turn % 15
}

pub const KINDS: [Kind; 34] = [
    Kind { name: "lawful traffic", make: lawful_runs, short: 120, long: 900 },
    Kind { name: "chaotic stimuli", make: chaotic_runs, short: 120, long: 900 },
    Kind { name: "random traces", make: random_traces, short: 90, long: 900 },
    Kind { name: "one column changed", make: one_change, short: 150, long: 1500 },
    Kind { name: "several columns changed", make: several_changes, short: 150, long: 1500 },
    Kind { name: "lines moved", make: moved_lines, short: 60, long: 600 },
    Kind { name: "aimed at a rule", make: aimed_traces, short: 630, long: 21 * 15 * 14 },
    Kind { name: "long locked bursts", make: locked_bursts, short: 45, long: 300 },
    Kind { name: "lost decisions", make: lost_decisions, short: 135, long: 135 * 6 },
    Kind { name: "headers", make: headers::cases, short: headers::COUNT, long: headers::COUNT * 3 },
    Kind { name: "one refused value", make: one_fault, short: 195, long: 1170 },
    Kind { name: "several refused values", make: several_faults, short: 75, long: 750 },
    Kind { name: "damaged bytes", make: damaged_bytes, short: 75, long: 900 },
    Kind { name: "cut short", make: cut_short, short: damage::CUTS, long: damage::CUTS * 8 },
    Kind { name: "something extra", make: something_extra, short: 30, long: 300 },
    Kind { name: "block sizes", make: block_sizes, short: 18, long: 90 },
    Kind { name: "fed in pieces", make: in_pieces, short: 30, long: 200 },
    Kind { name: "spoiled at an edge", make: edges::spoiled, short: edges::SPOILED * 2, long: edges::SPOILED * 6 },
    Kind { name: "cut at an edge", make: edges::cut, short: 80, long: 310 },
    Kind { name: "breach after breach", make: edges::broken, short: 45, long: 180 },
    Kind { name: "charged at an edge", make: edges::charged, short: edges::CHARGED * 2, long: edges::CHARGED * 6 },
    Kind { name: "dumps there and back", make: |rng, turn| there::and_back(rng, masters(turn)), short: 90, long: 900 },
    Kind { name: "dumps of rough traces", make: |rng, turn| there::rough(rng, masters(turn)), short: 60, long: 600 },
    Kind { name: "headers of dumps", make: there::headers, short: there::HEADERS, long: there::HEADERS * 3 },
    Kind { name: "a header's byte changed", make: |_, turn| sweeps::headers(turn), short: sweeps::HEADER, long: sweeps::HEADER },
    Kind { name: "a dump cut at every byte", make: |_, turn| there::cut(turn), short: there::CUTS, long: there::CUTS },
    Kind { name: "every byte in a step", make: |_, turn| sweeps::bytes(turn), short: sweeps::BYTES, long: sweeps::BYTES },
    Kind { name: "one fault in a step", make: one_in_a_step, short: faults::FAULTS.len() * 18, long: faults::FAULTS.len() * 150 },
    Kind { name: "one fault far in a dump", make: one_far_in, short: faults::FAULTS.len() * 8, long: faults::FAULTS.len() * 60 },
    Kind { name: "several faults in a step", make: |rng, turn| faults::several(rng, masters(turn)), short: 240, long: 3000 },
    Kind { name: "long steps", make: long_steps, short: 160, long: 1600 },
    Kind { name: "bytes of a dump changed", make: |rng, turn| spoil::bytes(rng, masters(turn)), short: 300, long: 3000 },
    Kind { name: "lines of a dump moved", make: |rng, turn| spoil::lines(rng, masters(turn)), short: 180, long: 1800 },
    Kind { name: "dumps otherwise", make: otherwise, short: 132, long: 1100 },
];

/// A stimulus for the arbiter, and the trace that comes of it for the judge.
fn both(n: usize, stimulus: &[Inputs], promise: Promise) -> Vec<Case> {
    let trace = trace_text(n, &arbiter::run(n, stimulus));
    let judged = Case { promise, ..plain(Program::Judge, trace) };
    vec![plain(Program::Arbiter, stimulus_text(n, stimulus)), judged]
}

fn lawful_runs(rng: &mut Rng, turn: usize) -> Vec<Case> {
    let (n, cycles) = (masters(turn), rng.within(1, 200));
    both(n, &lawful(rng, n, cycles), Promise::Clean)
}

fn chaotic_runs(rng: &mut Rng, turn: usize) -> Vec<Case> {
    let (n, cycles) = (masters(turn), rng.within(1, 150));
    both(n, &chaotic(rng, n, cycles), Promise::NoGuarantee)
}

fn random_traces(rng: &mut Rng, turn: usize) -> Vec<Case> {
    let n = masters(turn);
    let cycles = if rng.chance(1, 4) { rng.below(4) } else { rng.within(4, 120) };
    vec![plain(Program::Judge, trace_text(n, &random_trace(rng, n, cycles)))]
}

fn one_change(rng: &mut Rng, turn: usize) -> Vec<Case> {
    changed(rng, turn, 1)
}

fn several_changes(rng: &mut Rng, turn: usize) -> Vec<Case> {
    let count = rng.within(2, 12);
    changed(rng, turn, count)
}

fn changed(rng: &mut Rng, turn: usize, count: usize) -> Vec<Case> {
    let (n, cycles) = (masters(turn), rng.within(1, 80));
    let mut trace = arbiter_trace(rng, n, cycles);
    mutate::flip(rng, n, &mut trace, count);
    vec![plain(Program::Judge, trace_text(n, &trace))]
}

fn moved_lines(rng: &mut Rng, turn: usize) -> Vec<Case> {
    let (n, cycles) = (masters(turn), rng.within(2, 60));
    let mut trace = arbiter_trace(rng, n, cycles);
    for _ in 0..rng.within(1, 3) {
        mutate::move_lines(rng, &mut trace);
    }
    vec![plain(Program::Judge, trace_text(n, &trace))]
}

fn aimed_traces(rng: &mut Rng, turn: usize) -> Vec<Case> {
    let (n, rule) = (masters(turn), RULES[turn / 15 % RULES.len()].0);
    vec![plain(Program::Judge, trace_text(n, &aimed(rng, n, rule)))]
}

fn locked_bursts(rng: &mut Rng, turn: usize) -> Vec<Case> {
    let n = masters(turn);
    vec![plain(Program::Judge, trace_text(n, &runs::locked_incr(rng, n)))]
}

/// Every master of every number of masters in turn.
fn lost_decisions(rng: &mut Rng, turn: usize) -> Vec<Case> {
    let all: Vec<(usize, usize)> = (2..=16).flat_map(|n| (0..n).map(move |victim| (n, victim))).collect();
    let (n, victim) = all[turn % all.len()];
    vec![plain(Program::Judge, trace_text(n, &runs::losses(rng, n, victim)))]
}

fn one_fault(rng: &mut Rng, turn: usize) -> Vec<Case> {
    codes::single(rng, masters(turn), turn)
}

fn several_faults(rng: &mut Rng, turn: usize) -> Vec<Case> {
    codes::several(rng, masters(turn), turn)
}

fn damaged_bytes(rng: &mut Rng, turn: usize) -> Vec<Case> {
    damage::bytes(rng, masters(turn))
}

fn cut_short(rng: &mut Rng, turn: usize) -> Vec<Case> {
    damage::cuts(rng, masters(turn), turn)
}

fn something_extra(rng: &mut Rng, turn: usize) -> Vec<Case> {
    damage::extra(rng, masters(turn))
}

fn block_sizes(rng: &mut Rng, turn: usize) -> Vec<Case> {
    damage::blocks(rng, masters(turn), turn)
}

fn one_in_a_step(rng: &mut Rng, turn: usize) -> Vec<Case> {
    faults::single(rng, masters(turn), turn)
}

fn one_far_in(rng: &mut Rng, turn: usize) -> Vec<Case> {
    faults::far(rng, masters(turn), turn)
}

fn long_steps(rng: &mut Rng, turn: usize) -> Vec<Case> {
    faults::long(rng, masters(turn), turn)
}

/// Dumps fed in pieces, followed by something, and as long as usual buffers.
fn otherwise(rng: &mut Rng, turn: usize) -> Vec<Case> {
    match turn % 12 {
        0..=3 => there::in_pieces(rng, masters(turn)),
        4..=9 => there::extra(rng, masters(turn)),
        _ => there::blocks(rng, masters(turn), turn / 12 + turn % 12 * 5),
    }
}

/// Inputs fed a byte at a time, or in pieces that fit no line; some of them are refused.
fn in_pieces(rng: &mut Rng, turn: usize) -> Vec<Case> {
    let n = masters(turn);
    let mut all = Vec::new();
    for program in LINED {
        let cycles = rng.within(0, 12);
        let (input, sizes) = match rng.below(3) {
            0 => (sample(rng, program, n, cycles), vec![1]),
            1 => (damage::damaged(rng, program, n).input, vec![1]),
            _ => {
                let usual = [1, 2, 3, 5, 7, 15, 16, 17, 30, 31, 32, 33, 61, 64, 100];
                let sizes = (0..rng.within(1, 5)).map(|_| rng.pick(&usual)).collect();
                (sample(rng, program, n, cycles * 8), sizes)
            }
        };
        all.push(Case { feed: Feed::Pieces(sizes), ..plain(program, input) });
    }
    all
}
