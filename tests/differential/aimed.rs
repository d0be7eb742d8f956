//! Traces aimed at one rule each: a run of the arbiter with two neighbouring lines bent so that the
//! rule is charged. The rules that need more than two lines are made in `runs.rs`.

use crate::chaos::chaotic;
use crate::mutate;
use crate::reference::arbiter;
use crate::reference::lines::{Cycle, IDLE, INCR4, NONSEQ, SEQ};
use crate::rng::Rng;
use crate::runs;
use crate::traffic::lawful;

/// A trace of the reference arbiter, from lawful traffic or from chaos.
pub fn arbiter_trace(rng: &mut Rng, n: usize, cycles: usize) -> Vec<Cycle> {
    let stimulus = if rng.chance(3, 4) { lawful(rng, n, cycles) } else { chaotic(rng, n, cycles) };
    arbiter::run(n, &stimulus)
}

/// A trace for `n` masters in which the rule of this name is charged, or nearly charged.
pub fn aimed(rng: &mut Rng, n: usize, rule: &str) -> Vec<Cycle> {
    let mut trace = match rule {
        "A1" => return runs::locked_incr(rng, n),
        "A2" => return runs::waits(rng, n),
        "G2" | "G3" => return runs::watched(rng, n),
        "G11" => {
            let victim = rng.master(n);
            return runs::losses(rng, n, victim);
        }
        _ => {
            let cycles = rng.within(2, 60);
            arbiter_trace(rng, n, cycles)
        }
    };
    if rng.chance(1, 4) {
        let count = rng.within(1, 3);
        mutate::flip(rng, n, &mut trace, count);
    }
    let places = rng.within(1, 3);
    for _ in 0..places {
        let at = if rng.chance(1, 6) { 1 } else { rng.within(1, trace.len() - 1) };
        let (before, rest) = trace.split_at_mut(at);
        let (p, t) = (&mut before[at - 1], &mut rest[0]);
        match rule {
            "A9" | "G12" => bend_first(rng, n, rule, &mut trace[0]),
            _ if rule.starts_with('A') => bend_masters(rng, n, rule, p, t),
            _ => bend_arbiter(rng, n, rule, p, t),
        }
    }
    trace
}

/// Cycle 0 with an input that is not zero (A9), or with an output that is not the reset's (G12).
fn bend_first(rng: &mut Rng, n: usize, rule: &str, first: &mut Cycle) {
    let column = if rule == "A9" { rng.below(5) } else { rng.within(5, 9) };
    mutate::change(rng, n, first, column);
}

/// Bends two neighbouring lines so that a rule on the masters is charged at the second.
fn bend_masters(rng: &mut Rng, n: usize, rule: &str, p: &mut Cycle, t: &mut Cycle) {
    let bit = 1u16 << rng.master(n);
    match rule {
        "A3" => {
            p.hbusreq &= !bit;
            p.hlock &= !bit;
            t.hbusreq &= !bit;
            t.hlock |= bit;
        }
        "A4" => {
            p.hready = false;
            (t.htrans, t.hburst) = (p.htrans, p.hburst);
            let column = rng.within(3, 4);
            mutate::change(rng, n, t, column);
        }
        "A5" => {
            p.htrans = IDLE;
            t.htrans = SEQ;
        }
        "A6" => {
            (p.htrans, p.hburst, p.hready, p.granted) = (NONSEQ, INCR4, true, rng.chance(1, 8));
            t.htrans = rng.pick(&[IDLE, NONSEQ]);
        }
        "A7" => {
            (p.granted, p.hready) = (true, true);
            t.hbusreq |= 1 << t.hmaster;
            t.htrans = rng.pick(&[IDLE, SEQ]);
        }
        _ => {
            t.hbusreq = 0;
            t.htrans = rng.pick(&[NONSEQ, SEQ]);
        }
    }
}

/// Bends two neighbouring lines so that a rule on the arbiter is charged at the second.
fn bend_arbiter(rng: &mut Rng, n: usize, rule: &str, p: &mut Cycle, t: &mut Cycle) {
    let bit = 1u16 << rng.master(n);
    match rule {
        "G1" => t.busreq = !t.owner_request(),
        "G4" => {
            p.decide = true;
            p.hbusreq |= bit;
            t.granted = false;
        }
        "G5" => {
            p.granted = true;
            t.granted = p.hready;
        }
        "G6" => {
            p.hready = true;
            // another master, two bits, or none
            p.hgrant = rng.pick(&[bit, bit | 1 << t.hmaster, 0]);
        }
        "G7" => {
            (p.granted, p.hready, t.hmastlock) = (true, true, false);
            p.hgrant |= bit;
            p.hlock |= bit;
        }
        "G8" => {
            (p.granted, p.hready) = rng.pick(&[(false, false), (false, true), (true, false)]);
            (t.hmaster, t.hmastlock) = (p.hmaster, p.hmastlock);
            let column = rng.within(6, 7);
            mutate::change(rng, n, t, column);
        }
        "G9" => {
            p.decide = false;
            t.hgrant = p.hgrant;
            mutate::change(rng, n, t, 5);
        }
        _ if rng.flag() => {
            p.hgrant &= !bit;
            p.hbusreq &= !bit;
            t.hgrant |= bit;
        }
        _ => {
            p.decide = true;
            p.hbusreq = 0;
            t.hgrant &= !1;
        }
    }
}
