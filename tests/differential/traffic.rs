//! Lawful traffic: masters that keep the rules A1 to A9, run against the reference arbiter so that
//! what they do answers to who has the bus.

use crate::reference::arbiter::Arbiter;
use crate::reference::lines::{Inputs, IDLE, INCR, INCR4, NONSEQ, SEQ, SINGLE};
use crate::rng::Rng;

/// One piece of work of a master: beats still to be done in bursts of one kind.
#[derive(Clone, Copy)]
struct Job {
    burst: u8,
    beats: usize,
    locked: bool,
    /// The lock falls with the last beat and not after it.
    early: bool,
}

#[derive(Clone, Copy, Default)]
struct Master {
    job: Option<Job>,
    /// Cycles without a request before the next job.
    rest: usize,
    /// Cycles for which HLOCK outlives the request.
    tail: usize,
}

/// How busy the masters and how slow the slaves of one run are, in 16ths.
struct Style {
    want: usize,
    lock: usize,
    wait: usize,
    rest: usize,
}

struct Bus {
    masters: Vec<Master>,
    last: Inputs,
    last_owner: usize,
    /// The last cycle was a handover.
    fresh: bool,
    /// The owner's burst has begun in this access and goes on.
    in_burst: bool,
    /// Cycles in a row without HREADY.
    waits: usize,
    style: Style,
}

/// A lawful stimulus of `cycles` lines for `n` masters.
pub fn lawful(rng: &mut Rng, n: usize, cycles: usize) -> Vec<Inputs> {
    let style = Style {
        want: rng.pick(&[1, 2, 4, 8, 16, 48]),
        lock: rng.pick(&[0, 2, 6, 12]),
        wait: rng.pick(&[0, 2, 4, 8, 14]),
        rest: rng.pick(&[1, 3, 12]),
    };
    let masters = vec![Master::default(); n];
    let mut bus =
        Bus { masters, last: Inputs::default(), last_owner: 0, fresh: false, in_burst: false, waits: 1, style };
    let mut arbiter = Arbiter::reset(n);
    let mut stimulus = Vec::with_capacity(cycles);
    for t in 0..cycles {
        let inputs = if t == 0 { Inputs::default() } else { bus.drive(rng, &arbiter) };
        bus.last = inputs;
        bus.last_owner = arbiter.master;
        bus.fresh = arbiter.granted && inputs.hready;
        arbiter = arbiter.after(&inputs);
        stimulus.push(inputs);
    }
    stimulus
}

impl Bus {
    fn drive(&mut self, rng: &mut Rng, arbiter: &Arbiter) -> Inputs {
        self.take_beat(rng, arbiter.mastlock);
        self.plan_jobs(rng, arbiter.master);
        let (htrans, hburst) = self.transfer(rng, arbiter.master);
        let hready = self.waits >= 16 || !rng.chance(self.style.wait, 16);
        self.waits = if hready { 0 } else { self.waits + 1 };
        let (mut hbusreq, mut hlock) = (0, 0);
        for (i, master) in self.masters.iter().enumerate() {
            let locked = |job: Job| job.locked && !(job.early && job.beats == 1);
            hbusreq |= u16::from(master.job.is_some()) << i;
            hlock |= u16::from(master.job.is_some_and(locked) || master.tail > 0) << i;
        }
        Inputs { hbusreq, hlock, hready, htrans, hburst }
    }

    /// Counts the beat that the last cycle completed, and ends the job with its last beat.
    fn take_beat(&mut self, rng: &mut Rng, mastlock: bool) {
        let master = &mut self.masters[self.last_owner];
        if self.last.hready && self.last.htrans != IDLE {
            if let Some(job) = &mut master.job {
                job.beats -= 1;
                self.in_burst = job.beats > 0;
                if job.beats == 0 {
                    let locked = job.locked;
                    master.tail = if locked && rng.chance(1, 8) { rng.within(2, 3) } else { 0 };
                    master.rest = master.tail + usize::from(locked || mastlock) + rng.below(self.style.rest);
                    master.job = None;
                }
            }
        }
        if self.fresh {
            self.in_burst = false;
            // a four-beat burst that lost the bus starts again
            if let Some(job) = &mut master.job {
                if job.burst == INCR4 {
                    job.beats = 4;
                }
            }
        }
    }

    fn plan_jobs(&mut self, rng: &mut Rng, owner: usize) {
        let (want, lock) = (self.style.want, self.style.lock);
        for (i, master) in self.masters.iter_mut().enumerate() {
            master.tail = master.tail.saturating_sub(usize::from(master.job.is_none() && master.rest > 0));
            if master.job.is_some() {
                // a master that waits may think better of it
                if i != owner && i != self.last_owner && rng.chance(1, 200) {
                    *master = Master::default();
                }
            } else if master.rest > 0 {
                master.rest -= 1;
            } else if rng.chance(want, 64) {
                let burst = rng.pick(&[SINGLE, INCR, INCR4]);
                let beats = [1, rng.within(1, 12), 4][usize::from(burst).min(2)];
                master.tail = 0;
                master.job = Some(Job { burst, beats, locked: rng.chance(lock, 16), early: rng.flag() });
            }
        }
    }

    /// HTRANS and HBURST of this cycle.
    fn transfer(&mut self, rng: &mut Rng, owner: usize) -> (u8, u8) {
        if !self.last.hready {
            return (self.last.htrans, self.last.hburst);
        }
        match self.masters[owner].job {
            Some(job) if self.in_burst => (SEQ, job.burst),
            Some(job) if self.fresh || rng.chance(3, 4) => (NONSEQ, job.burst),
            _ => (IDLE, if rng.flag() { self.last.hburst } else { SINGLE }),
        }
    }
}
