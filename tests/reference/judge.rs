//! The judging program: it reads all cycles first, then decides each rule over the whole trace.

use super::lines::{self, Cycle, Refusal, FULL, LIMIT};
use super::{assumptions as a, guarantees as g};
use std::io::Write;

/// The cycles that were read, for `n` masters.
pub struct Trace {
    pub n: usize,
    pub cycles: Vec<Cycle>,
}

/// A rule: the cycles of a trace that it is charged at, each once.
type Rule = fn(&Trace) -> Vec<usize>;

/// The rules in the order of the report.
pub const RULES: [(&str, Rule); 21] = [
    ("A1", a::a1),
    ("A2", a::a2),
    ("A3", a::a3),
    ("A4", a::a4),
    ("A5", a::a5),
    ("A6", a::a6),
    ("A7", a::a7),
    ("A8", a::a8),
    ("A9", a::a9),
    ("G1", g::g1),
    ("G2", g::g2),
    ("G3", g::g3),
    ("G4", g::g4),
    ("G5", g::g5),
    ("G6", g::g6),
    ("G7", g::g7),
    ("G8", g::g8),
    ("G9", g::g9),
    ("G10", g::g10),
    ("G11", g::g11),
    ("G12", g::g12),
];

/// For each cycle the rules charged there: bit k stands for `RULES[k]`.
pub fn breaches(trace: &Trace) -> Vec<u32> {
    let mut charged = vec![0; trace.cycles.len()];
    for (k, (_, rule)) in RULES.iter().enumerate() {
        for t in rule(trace) {
            charged[t] |= 1 << k;
        }
    }
    charged
}

/// Reads lines up to the end of the input or the first refusal, which comes with its line number.
fn read_cycles(input: &[u8], start: usize, n: usize) -> (Vec<Cycle>, Option<(usize, Refusal)>) {
    let mut cycles = Vec::new();
    loop {
        let at = start + cycles.len() * lines::TRACE_SHAPE.len();
        let refusal = match lines::read_trace(input, at, n) {
            Ok(None) => return (cycles, None),
            Ok(Some(cycle)) if cycles.len() < LIMIT => {
                cycles.push(cycle);
                continue;
            }
            Ok(Some(_)) => FULL,
            Err(refusal) => refusal,
        };
        let line = cycles.len() + 2;
        return (cycles, Some((line, refusal)));
    }
}

/// The judging program: a trace in, a report out.
pub fn program(input: &[u8]) -> Vec<u8> {
    let mut out = Vec::new();
    let (n, start) = match lines::read_header(input, "trace") {
        Ok(header) => header,
        Err(refusal) => {
            lines::write_refusal(&mut out, 1, refusal);
            return out;
        }
    };
    let (cycles, refused) = read_cycles(input, start, n);
    let trace = Trace { n, cycles };
    let mut total = 0;
    for (t, charged) in breaches(&trace).into_iter().enumerate() {
        for (k, (name, _)) in RULES.iter().enumerate() {
            if charged >> k & 1 == 1 {
                write!(out, "{t}\t{name}\n").unwrap();
                total += 1;
            }
        }
    }
    match refused {
        None => write!(out, "end\t{}\t{total}\n", trace.cycles.len()).unwrap(),
        Some((line, refusal)) => lines::write_refusal(&mut out, line, refusal),
    }
    out
}
