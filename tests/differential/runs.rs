//! Traces aimed at the rules that look further than two lines: the long runs of A1 and A2, the watches
//! of G2 and G3, and the lost decisions of G11. Each is drawn on both sides of the bound.

use crate::aimed::arbiter_trace;
use crate::mutate;
use crate::reference::arbiter;
use crate::reference::lines::{Cycle, Inputs, IDLE, INCR, INCR4, NONSEQ, SEQ, SINGLE};
use crate::rng::Rng;
use crate::traffic::lawful;

/// A locked INCR of about 1,024 or 2,048 cycles, sometimes with a gap.
pub fn locked_incr(rng: &mut Rng, n: usize) -> Vec<Cycle> {
    let owner = 1u16 << rng.master(n);
    let want = Inputs { hbusreq: owner, hlock: owner, hready: true, htrans: IDLE, hburst: SINGLE };
    let mut stimulus = vec![Inputs::default(), want, want];
    let length = rng.pick(&[1022, 1023, 1024, 1024, 1025, 2047, 2048, 2049]);
    for place in 0..length {
        stimulus.push(Inputs {
            hbusreq: owner | rng.mask(n, 4),
            hlock: owner | rng.mask(n, 2),
            hready: place % 16 == 0 || rng.chance(12, 16),
            htrans: if place == 0 { NONSEQ } else { SEQ },
            hburst: INCR,
        });
    }
    let tail = rng.below(4);
    stimulus.extend(vec![Inputs { hready: true, ..Inputs::default() }; tail]);
    let mut trace = arbiter::run(n, &stimulus);
    let gap = rng.within(3, length + 2);
    match rng.below(6) {
        0 => trace[gap].hburst = rng.pick(&[SINGLE, INCR4]),
        1 => trace[gap].hbusreq &= !owner,
        2 => trace[gap].hmastlock = false,
        // the column BUSREQ is not what the rule reads
        3 => trace[gap].busreq = false,
        // a change of owner does not end the run while the new one requests too
        4 => {
            trace[gap].hbusreq = (1u32 << n).wrapping_sub(1) as u16;
            trace[gap].hmaster = rng.below(n) as u8;
        }
        _ => {}
    }
    trace
}

/// Runs of cycles that are not ready, of about 17, 34 or 51.
pub fn waits(rng: &mut Rng, n: usize) -> Vec<Cycle> {
    let cycles = rng.within(1, 30);
    let mut stimulus = lawful(rng, n, cycles);
    let runs = rng.within(1, 3);
    for _ in 0..runs {
        let at = rng.below(stimulus.len());
        let length = rng.pick(&[15, 16, 17, 18, 33, 34, 35, 50, 51, 52]);
        let still = Inputs { hready: false, ..stimulus[at] };
        stimulus.splice(at..at, vec![still; length]);
    }
    arbiter::run(n, &stimulus)
}

/// Access after access with openings of every kind, and handovers close behind them.
pub fn watched(rng: &mut Rng, n: usize) -> Vec<Cycle> {
    let start = rng.below(6);
    let mut trace = arbiter_trace(rng, n, start);
    let accesses = rng.within(2, 10);
    for _ in 0..accesses {
        let owner = rng.below(n) as u8;
        let locked = rng.chance(7, 8);
        let before = rng.below(3);
        for _ in 0..before {
            let htrans = rng.pick(&[IDLE, SEQ]);
            let idle = Cycle { htrans, hready: rng.flag(), granted: false, ..inside(rng, n, owner, locked) };
            trace.push(idle);
        }
        let opening = Cycle { htrans: NONSEQ, hready: true, granted: false, ..inside(rng, n, owner, locked) };
        trace.push(opening);
        let after = rng.below(6);
        for _ in 0..after {
            let mut cycle = inside(rng, n, owner, locked);
            cycle.granted = !cycle.hready && rng.chance(1, 3);
            trace.push(cycle);
        }
        let handover = Cycle { granted: true, hready: true, ..inside(rng, n, owner, locked) };
        trace.push(handover);
    }
    if rng.chance(1, 3) {
        let count = rng.within(1, 4);
        mutate::flip(rng, n, &mut trace, count);
    }
    trace
}

/// A cycle of a watched access: the owner mostly keeps its request.
fn inside(rng: &mut Rng, n: usize, owner: u8, locked: bool) -> Cycle {
    // a foreign trace may move HMASTER inside an access
    let hmaster = if rng.chance(1, 24) { rng.below(n) as u8 } else { owner };
    let others = rng.mask(n, 6) & !(1 << hmaster);
    let hbusreq = others | u16::from(rng.chance(14, 16)) << hmaster;
    Cycle {
        hbusreq,
        hlock: rng.mask(n, 4),
        hready: rng.chance(2, 3),
        htrans: rng.pick(&[IDLE, NONSEQ, SEQ, SEQ]),
        hburst: rng.pick(&[SINGLE, INCR, INCR, INCR4, INCR4]),
        hgrant: 1 << owner,
        hmaster,
        hmastlock: locked ^ rng.chance(1, 24),
        decide: rng.flag(),
        granted: false,
        busreq: hbusreq >> hmaster & 1 == 1,
    }
}

/// This master, and sometimes others, lose about n or 2n decisions in a row, a few times over.
pub fn losses(rng: &mut Rng, n: usize, victim: usize) -> Vec<Cycle> {
    let start = rng.within(1, 8);
    let mut trace = arbiter_trace(rng, n, start);
    let rounds = rng.within(2, 4);
    for round in 0..rounds {
        // the first row is the victim's alone, and no decision in it spares the victim
        let company = if round > 0 && rng.chance(1, 3) { rng.mask(n, 4) } else { 0 };
        // the last of them is won by the line after the row
        let lost = rng.pick(&[n - 1, n, n, n + 1, 2 * n - 1, 2 * n, 2 * n + 1]);
        let decisions = 1 + if round > 0 { lost } else { lost.max(n) };
        let mercy = if round > 0 && rng.chance(1, 4) { rng.within(1, decisions) } else { 0 };
        lose(rng, n, &mut trace, 1 << victim | company, decisions, mercy);
        // a line that grants the victim, so that the next row starts from 0
        let hgrant = 1 << victim;
        trace.push(Cycle { hbusreq: rng.mask(n, 8), hgrant, decide: rng.chance(1, 8), ..Cycle::default() });
    }
    if rng.chance(1, 4) {
        mutate::flip(rng, n, &mut trace, 1);
    }
    trace
}

/// Lines in which the victims lose decisions in a row, with lines without a decision in between,
/// which must neither add to the row nor end it. The decision `mercy` spares some of the victims.
fn lose(rng: &mut Rng, n: usize, trace: &mut Vec<Cycle>, victims: u16, decisions: usize, mercy: usize) {
    let winner = 1u16 << rng.master(n);
    let mut left = decisions;
    while left > 0 {
        let decide = rng.chance(2, 3);
        let (mut hbusreq, mut hgrant) = (victims | rng.mask(n, 4), winner);
        if !decide && rng.flag() {
            (hbusreq, hgrant) = (hbusreq & rng.mask(n, 8), rng.mask(n, 4));
        }
        if decide && left == mercy {
            hbusreq &= rng.mask(n, 12);
        }
        // whether a decision is lost shows in the grant of the line after it
        if trace.last().is_some_and(|last| last.decide) {
            hgrant &= if left == mercy { !rng.mask(n, 4) } else { !victims };
        }
        let (hmaster, hready, granted) = (rng.below(n) as u8, rng.flag(), rng.flag());
        let busreq = hbusreq >> hmaster & 1 == 1;
        trace.push(Cycle { hbusreq, hready, hgrant, hmaster, decide, granted, busreq, ..Cycle::default() });
        left -= usize::from(decide);
    }
}
