//! Accesses, and the opening of each.

use super::lines::{Cycle, NONSEQ};

/// An access of a trace, from its first cycle up to and including its last.
pub struct Access {
    pub first: usize,
    pub last: usize,
    /// Whether the last cycle is a handover; if not, the run ends inside this access.
    pub handed_over: bool,
    /// The first ready cycle with NONSEQ.
    pub opening: Option<usize>,
}

/// The accesses of a trace, in order: one starts at cycle 0 and one after each handover.
pub fn accesses(cycles: &[Cycle]) -> Vec<Access> {
    let after_handovers = (1..cycles.len()).filter(|&t| cycles[t - 1].handover());
    let starts: Vec<usize> = (0..cycles.len().min(1)).chain(after_handovers).collect();
    let ends = starts.iter().skip(1).copied().chain([cycles.len()]);
    starts.iter().zip(ends).map(|(&first, end)| access(cycles, first, end)).collect()
}

fn access(cycles: &[Cycle], first: usize, end: usize) -> Access {
    Access {
        first,
        last: end - 1,
        handed_over: cycles[end - 1].handover(),
        opening: (first..end).find(|&t| cycles[t].hready && cycles[t].htrans == NONSEQ),
    }
}
