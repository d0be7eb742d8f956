//! A dump taken apart: its header, and the lines of each step.

use crate::reference::dumps::{self, change, Variable, VARIABLES};
use crate::reference::lines::Cycle;

/// The lines of a dump before its first step.
pub const HEADER_LINES: usize = 16;

#[derive(Clone)]
pub struct Dump {
    pub n: usize,
    pub header: Vec<u8>,
    /// The lines of each step, the time first, each with its LF.
    pub steps: Vec<Vec<Vec<u8>>>,
    /// The cycles that were dumped.
    pub trace: Vec<Cycle>,
}

impl Dump {
    pub fn of(n: usize, trace: &[Cycle]) -> Dump {
        let mut dump = Dump {
            n,
            header: dumps::header(&n.to_string()).into_bytes(),
            steps: Vec::with_capacity(trace.len()),
            trace: trace.to_vec(),
        };
        for t in 0..trace.len() {
            let lines = dump.lines(t, &trace[t]);
            dump.steps.push(lines);
        }
        dump
    }

    /// The lines of step t with another cycle in it.
    pub fn lines(&self, t: usize, now: &Cycle) -> Vec<Vec<u8>> {
        let mut text = Vec::new();
        let before = t.checked_sub(1).map(|before| &self.trace[before]);
        dumps::write_step(&mut text, t, before, now);
        text.split_inclusive(|&byte| byte == b'\n').map(<[u8]>::to_vec).collect()
    }

    /// Step t with another value in this column.
    pub fn set(&mut self, t: usize, column: usize, value: u16) {
        let mut values = dumps::values(&self.trace[t]);
        values[column] = value;
        self.steps[t] = self.lines(t, &dumps::cycle(&values));
    }

    /// The lines of step t that are as long as those of a variable and end with its code: their places and columns.
    pub fn changed(&self, t: usize) -> Vec<(usize, usize)> {
        let ends = |v: &Variable| [v.code, b'\n'];
        let fits = |v: &Variable, line: &[u8]| line.len() == change(v, 0).len() && line.ends_with(&ends(v));
        let column = |line: &[u8]| VARIABLES.iter().position(|v| fits(v, line));
        (1..self.steps[t].len()).filter_map(|place| Some((place, column(&self.steps[t][place])?))).collect()
    }

    pub fn text(&self) -> Vec<u8> {
        let steps = self.steps.iter().flatten().flatten().copied();
        self.header.iter().copied().chain(steps).collect()
    }

    /// The line of the file in which step t begins. Only for lines with one LF each.
    pub fn line(&self, t: usize) -> usize {
        HEADER_LINES + 1 + self.steps[..t].iter().map(Vec::len).sum::<usize>()
    }
}
