//! The rules on the arbiter, G1 to G12. Each gives the cycles it is charged at.

use super::access::{accesses, Access};
use super::judge::Trace;
use super::lines::{IDLE, INCR, INCR4};
use super::spans::{each, each_pair, first, first_later, full_runs};

/// BUSREQ is not the owner's request.
pub fn g1(trace: &Trace) -> Vec<usize> {
    each(&trace.cycles, |c| c.busreq != c.owner_request())
}

/// The accesses that G2 and G3 watch, with their openings: opened with this burst, GRANTED low and
/// HMASTLOCK high, and ended by a handover.
fn watched(trace: &Trace, burst: u8) -> Vec<(Access, usize)> {
    let locked = |t: usize| {
        let c = &trace.cycles[t];
        c.hburst == burst && !c.granted && c.hmastlock
    };
    let all = accesses(&trace.cycles).into_iter().filter(|access| access.handed_over);
    all.filter_map(|access| access.opening.filter(|&t| locked(t)).map(|t| (access, t))).collect()
}

/// Whether cycle `t` comes before `release`, which may never come.
fn before(t: usize, release: Option<usize>) -> bool {
    release.map_or(true, |release| t < release)
}

/// A locked INCR: a handover before the first later cycle with the owner's request low.
pub fn g2(trace: &Trace) -> Vec<usize> {
    let next_low = first_later(&trace.cycles, |c| !c.owner_request());
    let cut = |(access, opening): &(Access, usize)| before(access.last, next_low[*opening]);
    watched(trace, INCR).into_iter().filter(cut).map(|(access, _)| access.last).collect()
}

/// A locked INCR4: a handover before the third later ready cycle.
pub fn g3(trace: &Trace) -> Vec<usize> {
    let next_ready = first_later(&trace.cycles, |c| c.hready);
    let third = |opening: usize| {
        let one = next_ready[opening]?;
        let two = next_ready[one]?;
        next_ready[two]
    };
    let cut = |(access, opening): &(Access, usize)| before(access.last, third(*opening));
    watched(trace, INCR4).into_iter().filter(cut).map(|(access, _)| access.last).collect()
}

/// A decision with a request, and GRANTED does not follow.
pub fn g4(trace: &Trace) -> Vec<usize> {
    each_pair(&trace.cycles, |p, t| p.decide && p.hbusreq != 0 && !t.granted)
}

/// GRANTED falls after a ready cycle and stays after any other.
pub fn g5(trace: &Trace) -> Vec<usize> {
    each_pair(&trace.cycles, |p, t| p.granted && t.granted == p.hready)
}

/// After a ready cycle the owner is the one master that HGRANT named.
pub fn g6(trace: &Trace) -> Vec<usize> {
    each_pair(&trace.cycles, |p, t| p.hready && p.hgrant != 1 << t.hmaster)
}

/// A handover to a master with HLOCK raises HMASTLOCK.
pub fn g7(trace: &Trace) -> Vec<usize> {
    each_pair(&trace.cycles, |p, t| p.handover() && p.hlock & p.hgrant != 0 && !t.hmastlock)
}

/// HMASTER and HMASTLOCK stay where there is no handover.
pub fn g8(trace: &Trace) -> Vec<usize> {
    each_pair(&trace.cycles, |p, t| !p.handover() && (p.hmaster != t.hmaster || p.hmastlock != t.hmastlock))
}

/// HGRANT stays where there is no decision.
pub fn g9(trace: &Trace) -> Vec<usize> {
    each_pair(&trace.cycles, |p, t| !p.decide && p.hgrant != t.hgrant)
}

/// A grant to a master other than 0 that did not ask; or nobody asked, and master 0 is not granted.
pub fn g10(trace: &Trace) -> Vec<usize> {
    each_pair(&trace.cycles, |p, t| {
        let unasked = t.hgrant & !p.hgrant & !p.hbusreq & !1;
        unasked != 0 || (p.decide && p.hbusreq == 0 && t.hgrant & 1 == 0)
    })
}

/// A master that loses n decisions in a row; the row restarts then.
pub fn g11(trace: &Trace) -> Vec<usize> {
    let cycles = &trace.cycles;
    // a decision of the cycle before is seen at t
    let decisions: Vec<usize> = (1..cycles.len()).filter(|&t| cycles[t - 1].decide).collect();
    let mut charged = vec![false; cycles.len()];
    for master in 0..16 {
        let bit = 1u16 << master;
        let lost: Vec<bool> = decisions
            .iter()
            .map(|&t| cycles[t - 1].hbusreq & bit != 0 && cycles[t].hgrant & bit == 0)
            .collect();
        for place in full_runs(&lost, trace.n) {
            charged[decisions[place]] = true;
        }
    }
    (0..cycles.len()).filter(|&t| charged[t]).collect()
}

/// Cycle 0 is not the reset state, or has DECIDE low with IDLE.
pub fn g12(trace: &Trace) -> Vec<usize> {
    first(&trace.cycles, |c| {
        let reset = c.hgrant == 1 && c.hmaster == 0 && !c.hmastlock && !c.granted;
        !reset || (!c.decide && c.htrans == IDLE)
    })
}
