//! Ways of looking at a whole trace: each cycle, each pair of neighbours, stretches, and "the first
//! later cycle with". Every one gives the numbers of the cycles it finds, in order.

use super::lines::Cycle;

/// The cycles for which `holds`.
pub fn each(cycles: &[Cycle], holds: impl Fn(&Cycle) -> bool) -> Vec<usize> {
    (0..cycles.len()).filter(|&t| holds(&cycles[t])).collect()
}

/// The cycles t for which `holds` of the cycle before and of t itself; cycle 0 has none before it.
pub fn each_pair(cycles: &[Cycle], holds: impl Fn(&Cycle, &Cycle) -> bool) -> Vec<usize> {
    (1..cycles.len()).filter(|&t| holds(&cycles[t - 1], &cycles[t])).collect()
}

/// The first cycle alone, if there is one and it `holds`.
pub fn first(cycles: &[Cycle], holds: impl Fn(&Cycle) -> bool) -> Vec<usize> {
    each(&cycles[..cycles.len().min(1)], holds)
}

/// The longest stretches of true in `flags`, as (first, one past the last).
fn stretches(flags: &[bool]) -> Vec<(usize, usize)> {
    let starts = (0..flags.len()).filter(|&i| flags[i] && (i == 0 || !flags[i - 1]));
    let ends = (0..flags.len()).filter(|&i| flags[i] && (i + 1 == flags.len() || !flags[i + 1]));
    starts.zip(ends.map(|i| i + 1)).collect()
}

/// Where `length` in a row are full: the places length, 2 length, .. of each stretch of true.
pub fn full_runs(flags: &[bool], length: usize) -> Vec<usize> {
    let places = |(start, end): (usize, usize)| (start + length - 1..end).step_by(length);
    stretches(flags).into_iter().flat_map(places).collect()
}

/// For every cycle, the first later cycle for which `holds`.
pub fn first_later(cycles: &[Cycle], holds: impl Fn(&Cycle) -> bool) -> Vec<Option<usize>> {
    let mut found = vec![None; cycles.len()];
    for t in (1..cycles.len()).rev() {
        found[t - 1] = if holds(&cycles[t]) { Some(t) } else { found[t] };
    }
    found
}
