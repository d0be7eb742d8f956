//! Chaotic inputs: valid columns drawn at random, with densities drawn once for each run.

use crate::reference::lines::{Cycle, Inputs, IDLE, INCR, INCR4, NONSEQ, SEQ, SINGLE};
use crate::rng::Rng;

/// The densities of one run; parts of 16, and weights for the codes.
struct Mix {
    request: usize,
    lock: usize,
    ready: usize,
    trans: [usize; 3],
    burst: [usize; 3],
    /// How often a line's inputs repeat those of the line before.
    repeat: usize,
}

fn draw_mix(rng: &mut Rng) -> Mix {
    if rng.chance(1, 4) {
        return Mix { request: 8, lock: 8, ready: 8, trans: [1; 3], burst: [1; 3], repeat: 0 };
    }
    let weight = [1, 1, 2, 6];
    let mut weights = || [rng.pick(&weight), rng.pick(&weight), rng.pick(&weight)];
    let (trans, burst) = (weights(), weights());
    Mix {
        request: rng.pick(&[0, 1, 4, 8, 12, 15, 16]),
        lock: rng.pick(&[0, 1, 4, 8, 14, 16]),
        ready: rng.pick(&[1, 4, 8, 12, 15, 16]),
        trans,
        burst,
        repeat: rng.pick(&[0, 0, 4, 12]),
    }
}

fn draw_inputs(rng: &mut Rng, n: usize, mix: &Mix) -> Inputs {
    Inputs {
        hbusreq: rng.mask(n, mix.request),
        hlock: rng.mask(n, mix.lock),
        hready: rng.chance(mix.ready, 16),
        htrans: [IDLE, NONSEQ, SEQ][rng.weighted(&mix.trans)],
        hburst: [SINGLE, INCR, INCR4][rng.weighted(&mix.burst)],
    }
}

/// A stimulus of `cycles` lines for `n` masters that keeps no rule.
pub fn chaotic(rng: &mut Rng, n: usize, cycles: usize) -> Vec<Inputs> {
    let mix = draw_mix(rng);
    let mut stimulus: Vec<Inputs> = Vec::with_capacity(cycles);
    let zero_first = rng.flag();
    for t in 0..cycles {
        let line = match stimulus.last() {
            None if zero_first => Inputs::default(),
            Some(&before) if t > 0 && rng.chance(mix.repeat, 16) => before,
            _ => draw_inputs(rng, n, &mix),
        };
        stimulus.push(line);
    }
    stimulus
}

/// A trace that no arbiter wrote: chaotic inputs, and outputs drawn at random too.
pub fn random_trace(rng: &mut Rng, n: usize, cycles: usize) -> Vec<Cycle> {
    let stimulus = chaotic(rng, n, cycles);
    let parts = [0, 2, 8, 14, 16];
    let [mastlock, decide, granted, busreq] = [(); 4].map(|()| rng.pick(&parts));
    let (one_hot, steady) = (rng.pick(&[0, 8, 15, 16]), rng.pick(&[0, 8, 14]));
    let mut trace: Vec<Cycle> = Vec::with_capacity(cycles);
    for inputs in stimulus {
        let (mut hgrant, mut hmaster) = (rng.mask(n, 8), rng.below(n) as u8);
        if rng.chance(one_hot, 16) {
            hgrant = 1 << rng.below(n);
        }
        if let Some(before) = trace.last().filter(|_| rng.chance(steady, 16)) {
            (hgrant, hmaster) = (before.hgrant, before.hmaster);
        }
        trace.push(Cycle {
            hgrant,
            hmaster,
            hmastlock: rng.chance(mastlock, 16),
            decide: rng.chance(decide, 16),
            granted: rng.chance(granted, 16),
            busreq: rng.chance(busreq, 16),
            ..with_inputs(inputs)
        });
    }
    trace
}

/// A trace line with these inputs and all outputs low.
pub fn with_inputs(c: Inputs) -> Cycle {
    Cycle {
        hbusreq: c.hbusreq,
        hlock: c.hlock,
        hready: c.hready,
        htrans: c.htrans,
        hburst: c.hburst,
        ..Cycle::default()
    }
}
