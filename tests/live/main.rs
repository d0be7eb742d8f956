//! Talks with the programs as a simulator does: writes a line, waits for its answer, goes on. Exit status 0
//! means that each answer was right and came within the limit, and that each program ended as it should.

#[path = "../reference/mod.rs"]
#[allow(dead_code)]
mod reference;
#[path = "../differential/rng.rs"]
#[allow(dead_code)]
mod rng;
mod script;
mod talk;

use reference::lines::{self, Inputs};
use rng::Rng;
use script::{Program, Script};
use std::fs;
use std::process::ExitCode;

const CYCLES: usize = 3000;

fn main() -> ExitCode {
    let words: Vec<String> = std::env::args().skip(1).collect();
    if words.len() != 4 {
        eprintln!("usage: live ARBITER JUDGE TRACE2VCD VCD2TRACE");
        return ExitCode::from(2);
    }
    let mut faults = 0;
    let scripts = scripts();
    for (what, script) in &scripts {
        match talk::hold(&words[script.program as usize], script) {
            Ok(times) => println!("live: {what}: {}", told(times)),
            Err(fault) => {
                println!("live: {what}: {fault}");
                faults += 1;
            }
        }
    }
    println!("live: {} talks, {faults} faults", scripts.len());
    ExitCode::from(u8::from(faults > 0))
}

/// The median and the longest of the waits in microseconds; the first has the start of the program in it.
fn told(mut times: Vec<u128>) -> String {
    let start = times.remove(0) / 1000;
    times.sort();
    let (Some(longest), median) = (times.last(), times.get(times.len() / 2)) else {
        return format!("1 answer after {start} ms");
    };
    format!("{} answers, the first after {start} ms, the others after {} us (median) to {longest} us", times.len() + 1, median.unwrap_or(longest))
}

fn scripts() -> Vec<(&'static str, Script)> {
    let stimulus = drawn_stimulus();
    let trace = reference::arbiter::program(&stimulus);
    let dump = reference::dumps::program(&trace);
    let (busy, rough) = (Script::of(Program::Arbiter, &stimulus), Script::of(Program::Judge, &trace));
    let (drawn, recalled) = (Script::of(Program::Trace2vcd, &trace), Script::of(Program::Vcd2trace, &dump));
    // after two breaches a line with HTRANS 1
    let refused = [&read("hgrant.trace")[..], b"0000\t0000\t1\t1\t0\t0001\t0\t0\t1\t0\t0\n"].concat();
    // the time of cycle 5 is 6, and another step follows
    let late = String::from_utf8(read("three.vcd")).expect("dumps are text").replace("#5\n", "#6\n").into_bytes();
    vec![
        ("document 01's stimulus", stored(Program::Arbiter, "three.stim", "three.trace")),
        ("a refused stimulus", stored(Program::Arbiter, "arb_r5_later_refused.stim", "arb_r5_later_refused.trace")),
        ("document 01's trace", stored(Program::Judge, "three.trace", "three.report")),
        ("a trace with breaches", stored(Program::Judge, "hgrant.trace", "hgrant.report")),
        ("a trace refused after a breach", Script::of(Program::Judge, &refused)),
        ("document 01's trace as a dump", stored(Program::Trace2vcd, "three.trace", "three.vcd")),
        ("a refused trace as a dump", Script::of(Program::Trace2vcd, &refused)),
        ("document 01's dump", stored(Program::Vcd2trace, "three.vcd", "three.trace")),
        ("a dump that is a header", stored(Program::Vcd2trace, "header_only.vcd", "header_only.trace")),
        ("a dump whose last step is refused", stored(Program::Vcd2trace, "vcd_r14_variable_refused.vcd", "vcd_r14_variable_refused.trace")),
        ("a dump refused before its last step", Script::of(Program::Vcd2trace, &late)),
        ("a stimulus line by line", busy.clone()),
        ("a trace line by line", rough.clone()),
        ("a stimulus in pieces", busy.cut(&mut Rng::new(1, 0, 0))),
        ("a trace in pieces", rough.cut(&mut Rng::new(1, 1, 0))),
        ("a dump written line by line", drawn.clone()),
        ("a dump written in pieces", drawn.cut(&mut Rng::new(1, 3, 0))),
        ("a dump read step by step", recalled.clone()),
        ("a dump read in pieces", recalled.cut(&mut Rng::new(1, 4, 0))),
    ]
}

fn read(name: &str) -> Vec<u8> {
    fs::read(format!("examples/{name}")).unwrap_or_else(|error| panic!("examples/{name}: {error}"))
}

fn stored(program: Program, input: &str, answer: &str) -> Script {
    Script::new(program, &read(input), &read(answer))
}

/// Inputs without any order, so that nearly every cycle of their trace breaks a rule.
fn drawn_stimulus() -> Vec<u8> {
    let (n, mut rng, mut out) = (5, Rng::new(1, 2, 0), Vec::new());
    lines::write_header(&mut out, "stim", n);
    for _ in 0..CYCLES {
        let mut mask = || rng.below(1 << n) as u16;
        let (hbusreq, hlock) = (mask(), mask());
        let (htrans, hburst) = ([0, 2, 3][rng.below(3)], [0, 1, 3][rng.below(3)]);
        lines::write_stimulus(&mut out, &Inputs { hbusreq, hlock, hready: rng.chance(4, 5), htrans, hburst });
    }
    out
}
