//! Looks for the shortest traces that break one rule and no other, for two masters, by trying every
//! trace of up to three cycles. It prints one such trace for each rule, with the least to tell it from
//! a run of the arbiter, and names the rules that need more cycles.

#[path = "mod.rs"]
#[allow(dead_code)]
mod reference;

use reference::arbiter;
use reference::judge::{breaches, Trace, RULES};
use reference::lines::{write_header, write_trace, Cycle};

const N: usize = 2;
const LONGEST: usize = 3;

/// Every valid trace line for two masters.
fn all_lines() -> Vec<Cycle> {
    let mut all = Vec::new();
    for masks in 0..64u16 {
        for codes in 0..9u8 {
            for flags in 0..64u8 {
                let flag = |place: u8| flags >> place & 1 == 1;
                all.push(Cycle {
                    hbusreq: masks & 3,
                    hlock: masks >> 2 & 3,
                    hready: flag(0),
                    htrans: [0, 2, 3][usize::from(codes % 3)],
                    hburst: [0, 1, 3][usize::from(codes / 3)],
                    hgrant: masks >> 4 & 3,
                    hmaster: flags >> 1 & 1,
                    hmastlock: flag(2),
                    decide: flag(3),
                    granted: flag(4),
                    busreq: flag(5),
                });
            }
        }
    }
    all
}

/// How far a trace is from what the arbiter would print, and then how much its inputs move.
fn distance(cycles: &[Cycle]) -> usize {
    let inputs: Vec<_> = cycles.iter().map(Cycle::inputs).collect();
    let own = arbiter::run(N, &inputs);
    let bent = cycles.iter().zip(&own).map(|(one, two)| differing(one, two)).sum::<usize>();
    let moves = cycles.windows(2).map(|pair| differing(&pair[0], &pair[1])).sum::<usize>();
    bent * 100 + moves + differing(&cycles[0], &Cycle::default())
}

/// The number of columns that differ.
fn differing(one: &Cycle, two: &Cycle) -> usize {
    let columns = |c: &Cycle| {
        let flags = [c.hready, c.hmastlock, c.decide, c.granted, c.busreq].map(u16::from);
        let numbers = [c.hbusreq, c.hlock, u16::from(c.htrans), u16::from(c.hburst), c.hgrant, u16::from(c.hmaster)];
        [&flags[..], &numbers[..]].concat()
    };
    columns(one).iter().zip(columns(two)).filter(|(a, b)| **a != *b).count()
}

fn main() {
    let lines = all_lines();
    let mut clean: Vec<Vec<Cycle>> = vec![Vec::new()];
    let mut found: Vec<Option<Vec<Cycle>>> = vec![None; RULES.len()];
    for length in 1..=LONGEST {
        let mut longer = Vec::new();
        let mut now: Vec<Option<(usize, Vec<Cycle>)>> = vec![None; RULES.len()];
        for start in &clean {
            for &line in &lines {
                let mut cycles = start.clone();
                cycles.push(line);
                let trace = Trace { n: N, cycles };
                let charged = breaches(&trace)[length - 1];
                if charged == 0 && length < LONGEST {
                    longer.push(trace.cycles);
                } else if charged.count_ones() == 1 {
                    let rule = charged.trailing_zeros() as usize;
                    let far = distance(&trace.cycles);
                    if found[rule].is_none() && now[rule].as_ref().map_or(true, |(best, _)| far < *best) {
                        now[rule] = Some((far, trace.cycles));
                    }
                }
            }
        }
        for (rule, best) in now.into_iter().enumerate() {
            found[rule] = found[rule].take().or(best.map(|(_, cycles)| cycles));
        }
        clean = longer;
    }
    for (rule, (name, _)) in RULES.iter().enumerate() {
        match &found[rule] {
            None => println!("{name}: more than {LONGEST} cycles"),
            Some(cycles) => {
                let mut text = Vec::new();
                write_header(&mut text, "trace", N);
                cycles.iter().for_each(|cycle| write_trace(&mut text, cycle));
                print!("{name}: cycles {}\n{}", cycles.len(), String::from_utf8_lossy(&text));
            }
        }
    }
}
