//! The arbiter, cycle by cycle, and the arbiter program.

use super::lines::{self, Cycle, Inputs, FULL, INCR, INCR4, LIMIT, NONSEQ};

#[derive(Clone, Copy, PartialEq, Eq, Debug)]
pub enum Phase {
    Fresh,
    Fixed(u8),
    Open,
    Done,
}

#[derive(Clone, Copy, PartialEq, Eq, Debug)]
pub struct Arbiter {
    pub n: usize,
    pub grant: usize,
    pub master: usize,
    pub mastlock: bool,
    pub granted: bool,
    pub phase: Phase,
    pub count: usize,
}

impl Arbiter {
    pub fn reset(n: usize) -> Arbiter {
        Arbiter { n, grant: 0, master: 0, mastlock: false, granted: false, phase: Phase::Fresh, count: 0 }
    }

    fn handover(&self, c: &Inputs) -> bool {
        self.granted && c.hready
    }

    fn phase_after(&self, c: &Inputs) -> Phase {
        if self.granted {
            return if self.handover(c) { Phase::Fresh } else { self.phase };
        }
        match self.phase {
            Phase::Fresh if c.hready && c.htrans == NONSEQ => match c.hburst {
                INCR4 => Phase::Fixed(3),
                INCR if self.mastlock => Phase::Open,
                _ => Phase::Done,
            },
            Phase::Fixed(1) if c.hready => Phase::Done,
            Phase::Fixed(k) if c.hready => Phase::Fixed(k - 1),
            Phase::Open if !bit(c.hbusreq, self.master) => Phase::Done,
            other => other,
        }
    }

    fn decide(&self, c: &Inputs) -> bool {
        let inside = matches!(self.phase_after(c), Phase::Fixed(_) | Phase::Open);
        let locked = self.mastlock && bit(c.hlock, self.master);
        let protected_kind = c.hburst == INCR4 || (c.hburst == INCR && self.mastlock);
        let about_to_open = self.phase == Phase::Fresh && c.htrans == NONSEQ && protected_kind && !c.hready;
        !self.granted && !inside && !locked && !about_to_open
    }

    /// The trace line of the cycle with these inputs.
    pub fn line(&self, c: &Inputs) -> Cycle {
        Cycle {
            hbusreq: c.hbusreq,
            hlock: c.hlock,
            hready: c.hready,
            htrans: c.htrans,
            hburst: c.hburst,
            hgrant: 1 << self.grant,
            hmaster: self.master as u8,
            hmastlock: self.mastlock,
            decide: self.decide(c),
            granted: self.granted,
            busreq: bit(c.hbusreq, self.master),
        }
    }

    /// The state after the cycle with these inputs.
    pub fn after(&self, c: &Inputs) -> Arbiter {
        let mut next = Arbiter { phase: self.phase_after(c), count: self.count + 1, ..*self };
        if self.decide(c) {
            let winner = (1..=self.n).map(|step| (self.grant + step) % self.n).find(|&i| bit(c.hbusreq, i));
            next.grant = winner.unwrap_or(0);
            next.granted = winner.is_some() || self.master != 0;
        }
        if self.handover(c) {
            next.master = self.grant;
            next.mastlock = bit(c.hlock, self.grant);
            next.granted = false;
        }
        next
    }
}

fn bit(mask: u16, master: usize) -> bool {
    mask >> master & 1 == 1
}

/// The trace lines that a fresh arbiter gives for a whole stimulus.
pub fn run(n: usize, stimulus: &[Inputs]) -> Vec<Cycle> {
    let mut arbiter = Arbiter::reset(n);
    let mut trace = Vec::with_capacity(stimulus.len());
    for inputs in stimulus {
        trace.push(arbiter.line(inputs));
        arbiter = arbiter.after(inputs);
    }
    trace
}

/// The arbiter program: a stimulus in, a trace out.
pub fn program(input: &[u8]) -> Vec<u8> {
    let mut out = Vec::with_capacity(input.len() * 2 + 64);
    let (n, mut at) = match lines::read_header(input, "stim") {
        Ok(header) => header,
        Err(refusal) => {
            lines::write_refusal(&mut out, 1, refusal);
            return out;
        }
    };
    lines::write_header(&mut out, "trace", n);
    let mut arbiter = Arbiter::reset(n);
    loop {
        let read = match lines::read_stimulus(input, at, n) {
            Ok(Some(_)) if arbiter.count == LIMIT => Err(FULL),
            other => other,
        };
        match read {
            Ok(None) => return out,
            Ok(Some(inputs)) => {
                lines::write_trace(&mut out, &arbiter.line(&inputs));
                arbiter = arbiter.after(&inputs);
                at += lines::STIM_SHAPE.len();
            }
            Err(refusal) => {
                lines::write_refusal(&mut out, arbiter.count + 2, refusal);
                return out;
            }
        }
    }
}
