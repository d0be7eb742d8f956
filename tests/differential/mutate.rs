//! Changes to a trace that leave every column valid: one column, several, or whole lines.

use crate::reference::lines::Cycle;
use crate::rng::Rng;

/// A value of `from` other than `now`.
fn other(rng: &mut Rng, from: &[u8], now: u8) -> u8 {
    let rest: Vec<u8> = from.iter().copied().filter(|&value| value != now).collect();
    rng.pick(&rest)
}

/// A mask other than `now`: mostly one bit away.
fn other_mask(rng: &mut Rng, n: usize, now: u16) -> u16 {
    let drawn = rng.mask(n, 8);
    if drawn != now && rng.chance(1, 4) { drawn } else { now ^ 1 << rng.master(n) }
}

/// Gives one column of a line, by its place 0 to 10, another value.
pub fn change(rng: &mut Rng, n: usize, cycle: &mut Cycle, column: usize) {
    match column {
        0 => cycle.hbusreq = other_mask(rng, n, cycle.hbusreq),
        1 => cycle.hlock = other_mask(rng, n, cycle.hlock),
        2 => cycle.hready = !cycle.hready,
        3 => cycle.htrans = other(rng, &[0, 2, 3], cycle.htrans),
        4 => cycle.hburst = other(rng, &[0, 1, 3], cycle.hburst),
        5 => cycle.hgrant = other_mask(rng, n, cycle.hgrant),
        6 => {
            let all: Vec<u8> = (0..n as u8).collect();
            cycle.hmaster = other(rng, &all, cycle.hmaster);
        }
        7 => cycle.hmastlock = !cycle.hmastlock,
        8 => cycle.decide = !cycle.decide,
        9 => cycle.granted = !cycle.granted,
        _ => cycle.busreq = !cycle.busreq,
    }
}

/// Changes `count` columns, the first and last lines a little more often than the rest.
pub fn flip(rng: &mut Rng, n: usize, trace: &mut [Cycle], count: usize) {
    if trace.is_empty() {
        return;
    }
    for _ in 0..count {
        let t = match rng.below(12) {
            0 => 0,
            1 => trace.len() - 1,
            _ => rng.below(trace.len()),
        };
        let column = rng.below(11);
        change(rng, n, &mut trace[t], column);
    }
}

/// Moves whole lines: one is dropped, doubled, swapped with another or copied over another, or a part
/// of the trace is turned round or repeated.
pub fn move_lines(rng: &mut Rng, trace: &mut Vec<Cycle>) {
    if trace.is_empty() {
        return;
    }
    let (one, two) = (rng.below(trace.len()), rng.below(trace.len()));
    let (low, high) = (one.min(two), one.max(two));
    match rng.below(6) {
        0 => {
            trace.remove(one);
        }
        1 => trace.insert(one, trace[one]),
        2 => trace.swap(one, two),
        3 => trace[one] = trace[two],
        4 => trace[low..=high].reverse(),
        _ => {
            let part = trace[low..=high].to_vec();
            trace.splice(low..low, part);
        }
    }
}
