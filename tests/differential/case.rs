//! One case: an input for one of the programs, how it is fed, and what is known of it beforehand.

use crate::aimed::arbiter_trace;
use crate::chaos::{chaotic, random_trace};
use crate::dump::Dump;
use crate::reference::lines::{self, Cycle, Inputs};
use crate::reference::{arbiter, dumps, judge, steps};
use crate::rng::Rng;
use crate::traffic::lawful;

#[derive(Clone, Copy, PartialEq, Eq, Debug)]
pub enum Program {
    Arbiter,
    Judge,
    Trace2vcd,
    Vcd2trace,
}

pub const PROGRAMS: [Program; 4] = [Program::Arbiter, Program::Judge, Program::Trace2vcd, Program::Vcd2trace];

/// The programs that read lines of one length: a stimulus or a trace.
pub const LINED: [Program; 3] = [Program::Arbiter, Program::Judge, Program::Trace2vcd];

impl Program {
    pub fn name(self) -> &'static str {
        match self {
            Program::Arbiter => "arbiter",
            Program::Judge => "judge",
            Program::Trace2vcd => "trace2vcd",
            Program::Vcd2trace => "vcd2trace",
        }
    }

    /// The word of the header that the program reads, and the ending of its input's name.
    pub fn word(self) -> &'static str {
        match self {
            Program::Arbiter => "stim",
            Program::Judge | Program::Trace2vcd => "trace",
            Program::Vcd2trace => "vcd",
        }
    }

    /// The word that belongs to another program.
    pub fn other_word(self) -> &'static str {
        if self == Program::Arbiter { "trace" } else { "stim" }
    }

    /// The shape of the lines that the program reads.
    pub fn shape(self) -> &'static [u8] {
        if self == Program::Arbiter { lines::STIM_SHAPE } else { lines::TRACE_SHAPE }
    }

    /// What the reference answers.
    pub fn reference(self, input: &[u8]) -> Vec<u8> {
        match self {
            Program::Arbiter => arbiter::program(input),
            Program::Judge => judge::program(input),
            Program::Trace2vcd => dumps::program(input),
            Program::Vcd2trace => steps::program(input),
        }
    }

    /// The numbers that the program can refuse with. 8 takes a run of a million cycles, and a stimulus has no HMASTER.
    pub fn refusals(self) -> &'static [usize] {
        match self {
            Program::Arbiter => &[1, 2, 3, 4, 5, 6, 8],
            Program::Judge | Program::Trace2vcd => &[1, 2, 3, 4, 5, 6, 7, 8],
            Program::Vcd2trace => &[1, 3, 4, 5, 6, 7, 8, 12, 13, 14],
        }
    }
}

/// How an input goes through the pipe: at once, or in pieces of these sizes, over and over.
#[derive(Clone)]
pub enum Feed {
    Whole,
    Pieces(Vec<usize>),
}

/// What must hold of the reference's own answer.
pub enum Promise {
    Nothing,
    /// No rule is charged.
    Clean,
    /// No rule on the arbiter is charged.
    NoGuarantee,
    /// The answer is this one, which is stored.
    Stored(Vec<u8>),
    /// The answer is this one.
    Known(Vec<u8>),
    /// The last line is a refusal in this line and with this number.
    Refused(usize, usize),
}

pub struct Case {
    pub program: Program,
    pub input: Vec<u8>,
    pub feed: Feed,
    pub promise: Promise,
}

/// A case of which nothing is known, fed at once.
pub fn plain(program: Program, input: Vec<u8>) -> Case {
    Case { program, input, feed: Feed::Whole, promise: Promise::Nothing }
}

pub fn stimulus_text(n: usize, stimulus: &[Inputs]) -> Vec<u8> {
    let mut out = Vec::new();
    lines::write_header(&mut out, "stim", n);
    stimulus.iter().for_each(|inputs| lines::write_stimulus(&mut out, inputs));
    out
}

pub fn trace_text(n: usize, trace: &[Cycle]) -> Vec<u8> {
    let mut out = Vec::new();
    lines::write_header(&mut out, "trace", n);
    trace.iter().for_each(|cycle| lines::write_trace(&mut out, cycle));
    out
}

/// A well-formed input for a program, of any kind.
pub fn sample(rng: &mut Rng, program: Program, n: usize, cycles: usize) -> Vec<u8> {
    match (program, rng.below(3)) {
        (Program::Arbiter, 0) => stimulus_text(n, &chaotic(rng, n, cycles)),
        (Program::Arbiter, _) => stimulus_text(n, &lawful(rng, n, cycles)),
        (Program::Judge | Program::Trace2vcd, _) => trace_text(n, &any_trace(rng, n, cycles)),
        (Program::Vcd2trace, _) => Dump::of(n, &any_trace(rng, n, cycles)).text(),
    }
}

/// A trace that the arbiter wrote, or one that none wrote.
pub fn any_trace(rng: &mut Rng, n: usize, cycles: usize) -> Vec<Cycle> {
    if rng.chance(1, 3) { random_trace(rng, n, cycles) } else { arbiter_trace(rng, n, cycles) }
}

/// Where line `line` of an input starts; the header is line 0 here and the first cycle's line 1.
pub fn line_start(program: Program, n: usize, line: usize) -> usize {
    let header = program.word().len() + if n < 10 { 5 } else { 6 };
    if line == 0 { 0 } else { header + (line - 1) * program.shape().len() }
}
