//! The rules on the masters and on the slaves, A1 to A9. Each gives the cycles it is charged at.

use super::judge::Trace;
use super::lines::{IDLE, INCR, INCR4, NONSEQ, SEQ};
use super::spans::{each, each_pair, first, full_runs};

/// 1,024 cycles in a row with HMASTLOCK, INCR and the owner's request.
pub fn a1(trace: &Trace) -> Vec<usize> {
    let held: Vec<bool> =
        trace.cycles.iter().map(|c| c.hmastlock && c.hburst == INCR && c.owner_request()).collect();
    full_runs(&held, 1024)
}

/// 17 cycles in a row that are not ready.
pub fn a2(trace: &Trace) -> Vec<usize> {
    let waiting: Vec<bool> = trace.cycles.iter().map(|c| !c.hready).collect();
    full_runs(&waiting, 17)
}

/// A lock raised from rest without a request.
pub fn a3(trace: &Trace) -> Vec<usize> {
    each_pair(&trace.cycles, |p, t| {
        let at_rest = !p.hbusreq & !p.hlock;
        let lock_alone = t.hlock & !t.hbusreq;
        at_rest & lock_alone != 0
    })
}

/// HTRANS or HBURST moved after a cycle that was not ready.
pub fn a4(trace: &Trace) -> Vec<usize> {
    each_pair(&trace.cycles, |p, t| !p.hready && (p.htrans != t.htrans || p.hburst != t.hburst))
}

/// SEQ right after IDLE.
pub fn a5(trace: &Trace) -> Vec<usize> {
    each_pair(&trace.cycles, |p, t| p.htrans == IDLE && t.htrans == SEQ)
}

/// An INCR4 whose first beat was taken does not go on.
pub fn a6(trace: &Trace) -> Vec<usize> {
    each_pair(&trace.cycles, |p, t| {
        p.htrans == NONSEQ && p.hburst == INCR4 && p.hready && !p.granted && t.htrans != SEQ
    })
}

/// A new owner with a request does not start.
pub fn a7(trace: &Trace) -> Vec<usize> {
    each_pair(&trace.cycles, |p, t| p.handover() && t.owner_request() && t.htrans != NONSEQ)
}

/// A transfer while nobody requests.
pub fn a8(trace: &Trace) -> Vec<usize> {
    each(&trace.cycles, |c| c.hbusreq == 0 && c.htrans != IDLE)
}

/// Cycle 0 with an input other than zero.
pub fn a9(trace: &Trace) -> Vec<usize> {
    first(&trace.cycles, |c| c.hbusreq != 0 || c.hlock != 0 || c.hready || c.htrans != 0 || c.hburst != 0)
}
