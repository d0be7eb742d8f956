//! Whole dumps: traces there and back, headers, dumps that are cut, fed in pieces or followed by something.

use crate::case::{any_trace, plain, sample, trace_text, Case, Feed, Program, Promise};
use crate::chaos::random_trace;
use crate::damage::ODD;
use crate::dump::Dump;
use crate::reference::dumps;
use crate::reference::lines::Cycle;
use crate::rng::Rng;

/// A trace for the one program, and its dump for the other, which must give the trace back.
fn both(n: usize, trace: &[Cycle]) -> Vec<Case> {
    let (trace, dump) = (trace_text(n, trace), Dump::of(n, trace).text());
    let there = Case { promise: Promise::Known(dump.clone()), ..plain(Program::Trace2vcd, trace.clone()) };
    let back = Case { promise: Promise::Known(trace), ..plain(Program::Vcd2trace, dump) };
    vec![there, back]
}

pub fn and_back(rng: &mut Rng, n: usize) -> Vec<Case> {
    let cycles = if rng.chance(1, 8) { rng.below(4) } else { rng.within(4, 150) };
    let trace = any_trace(rng, n, cycles);
    both(n, &trace)
}

/// Traces in which many columns change at once, or none for a long time.
pub fn rough(rng: &mut Rng, n: usize) -> Vec<Case> {
    let cycles = rng.within(4, 80);
    let mut trace = random_trace(rng, n, cycles);
    let full = Cycle { hbusreq: !0u16 >> (16 - n), hlock: !0u16 >> (16 - n), htrans: 3, hburst: 3, ..Cycle::default() };
    for t in 1..cycles {
        match rng.below(6) {
            0 | 1 => trace[t] = trace[t - 1],
            // every column but HTRANS and HBURST has its other value
            2 => {
                let p = trace[t - 1];
                trace[t] = Cycle {
                    hbusreq: full.hbusreq & !p.hbusreq,
                    hlock: full.hlock & !p.hlock,
                    hready: !p.hready,
                    hgrant: full.hbusreq & !p.hgrant,
                    hmaster: (p.hmaster + 1) % n as u8,
                    hmastlock: !p.hmastlock,
                    decide: !p.decide,
                    granted: !p.granted,
                    busreq: !p.busreq,
                    ..trace[t]
                };
            }
            3 => trace[t] = full,
            _ => {}
        }
    }
    both(n, &trace)
}

/// Numbers of masters as they may be written, well or badly.
const NUMBERS: [&str; 30] = [
    "0", "1", "2", "9", "10", "16", "17", "20", "99", "00", "02", "016", "100", "1000", "", " 2", "2 ", "+2", "-2", "2.",
    "f", "1f", "0x2", "２", "2\0", "two", "2\t", "2\n", "2 $end\n$comment", "\0",
];

/// Changes of the header that other tools make, or a hand: what is replaced, and by what.
const CHANGES: [(&str, &str); 44] = [
    ("$comment", "$date today $end\n$comment"),
    ("$comment", "$version 1 $end\n$comment"),
    ("$comment", "\n$comment"),
    ("$comment", " $comment"),
    ("$comment", "\u{feff}$comment"),
    ("$comment", "trace\t1\t2\n$comment"),
    ("$comment", "$Comment"),
    ("masters", "Masters"),
    ("masters ", "masters\t"),
    ("masters ", "masters  "),
    ("$comment masters", "$comment\nmasters"),
    (" $end\n$timescale", "\n$end\n$timescale"),
    (" $end\n$timescale", "  $end\n$timescale"),
    (" $end\n$timescale", " $end\n\n$timescale"),
    ("$timescale 1 ns $end\n", ""),
    ("1 ns", "1ns"),
    ("1 ns", "10 ns"),
    ("1 ns", "1 ps"),
    ("1 ns", "1 us"),
    ("module ahb", "module top"),
    ("module", "begin"),
    ("$scope module ahb $end\n", ""),
    ("wire 16 ! HBUSREQ", "reg 16 ! HBUSREQ"),
    ("wire 16 ! HBUSREQ", "logic 16 ! HBUSREQ"),
    ("wire 16 ! HBUSREQ", "wire 16 ! HBUSREQ [15:0]"),
    ("wire 16 ! HBUSREQ", "wire 16 ! HBUSREQ[15:0]"),
    ("wire 16 ! HBUSREQ", "wire 8 ! HBUSREQ"),
    ("wire 16 ! HBUSREQ", "wire 16 ! hbusreq"),
    ("16 ! HBUSREQ $end\n$var wire 16 \" HLOCK", "16 ! HLOCK $end\n$var wire 16 \" HBUSREQ"),
    ("16 ! HBUSREQ $end\n$var wire 16 \" HLOCK", "16 \" HBUSREQ $end\n$var wire 16 ! HLOCK"),
    ("$var wire 1 # HREADY $end\n", ""),
    ("$var wire 1 # HREADY $end\n", "$var wire 1 # HREADY $end\n$var wire 1 # HREADY $end\n"),
    ("$var wire 1 + BUSREQ $end\n", "$var wire 1 + BUSREQ $end\n$var wire 1 , CLK $end\n"),
    ("4 ' HMASTER", "5 ' HMASTER"),
    ("( HMASTLOCK", ") HMASTLOCK"),
    ("$upscope $end\n", ""),
    ("$upscope $end\n", "$upscope $end\n$upscope $end\n"),
    ("$enddefinitions $end\n", ""),
    ("$enddefinitions $end\n", "$enddefinitions $end"),
    ("$enddefinitions $end\n", "$enddefinitions $end\r\n"),
    ("$enddefinitions", "$enddefinition"),
    ("\n", "\r\n"),
    ("\n", " "),
    (" ", "  "),
];

/// How many headers there are to try.
pub const HEADERS: usize = NUMBERS.len() + CHANGES.len();

/// Header `turn`, with a few good steps after it or none.
pub fn headers(rng: &mut Rng, turn: usize) -> Vec<Case> {
    let turn = turn % HEADERS;
    let cycles = rng.below(3);
    let mut dump = Dump::of(2, &any_trace(rng, 2, cycles));
    let number = match NUMBERS.get(turn) {
        Some(number) => {
            dump.header = dumps::header(number).into_bytes();
            match number.parse::<usize>() {
                Ok(n) if n.to_string() == **number && n < 100 => if (2..=16).contains(&n) { 0 } else { 1 },
                _ => 12,
            }
        }
        None => {
            let (good, other) = CHANGES[turn - NUMBERS.len()];
            dump.header = dumps::header("2").replacen(good, other, if good.len() > 1 { 1 } else { 99 }).into_bytes();
            12
        }
    };
    let promise = if number == 0 { Promise::Known(trace_of(&dump)) } else { Promise::Refused(1, number) };
    vec![Case { promise, ..plain(Program::Vcd2trace, dump.text()) }]
}

/// The trace that a good dump gives back.
fn trace_of(dump: &Dump) -> Vec<u8> {
    let n = String::from_utf8_lossy(&dump.header["$comment masters ".len()..]).split(' ').next().unwrap().parse().unwrap();
    trace_text(n, &dump.trace)
}

/// A dump of eleven cycles for two masters: all columns, some, and none, up to a time of two digits.
fn small() -> Dump {
    let one = Cycle { hgrant: 1, decide: true, ..Cycle::default() };
    let two = Cycle { hbusreq: 2, hready: true, htrans: 2, busreq: true, ..one };
    let mut trace = vec![one; 2];
    trace.resize(11, two);
    Dump::of(2, &trace)
}

/// More than the small dump has bytes.
pub const CUTS: usize = 560;

/// The small dump, cut after `turn` bytes.
pub fn cut(turn: usize) -> Vec<Case> {
    let dump = small();
    let (text, end) = (dump.text(), turn);
    assert!(text.len() < CUTS);
    if end > text.len() {
        return Vec::new();
    }
    let mut start = dump.header.len();
    let mut promise = if end < start { Promise::Refused(1, 12) } else { Promise::Known(trace_text(2, &[])) };
    for (t, step) in dump.steps.iter().enumerate() {
        let next = start + step.concat().len();
        if end > start {
            promise = match text[start..end] {
                _ if end >= next => Promise::Known(trace_text(2, &dump.trace[..=t])),
                // a later step that ends with one of its lines is a good one
                [.., b'\n'] if t > 0 => Promise::Nothing,
                [b'#', b'1'] if t == 10 => Promise::Refused(dump.line(t), 13),
                _ => Promise::Refused(dump.line(t), 3),
            };
        }
        start = next;
    }
    vec![Case { promise, ..plain(Program::Vcd2trace, text[..end].to_vec()) }]
}

/// A dump with something after its end, before its start or between its lines.
pub fn extra(rng: &mut Rng, n: usize) -> Vec<Case> {
    let cycles = rng.below(5);
    let mut input = sample(rng, Program::Vcd2trace, n, cycles);
    let piece: Vec<u8> = match rng.below(8) {
        0 => vec![rng.pick(ODD)],
        1 => sample(rng, Program::Vcd2trace, n, 1),
        2 => vec![b'\n'; rng.within(1, 130)],
        3 => vec![0; rng.within(1, 130)],
        4 => format!("#{cycles}").into_bytes(),
        5 => format!("#{cycles}\n#{}\n", cycles + 1).into_bytes(),
        6 => rng.pick(&["$dumpvars\n", "$end\n", "$comment end $end\n", "$dumpoff\n"]).as_bytes().to_vec(),
        _ => (0..rng.within(1, 130)).map(|_| rng.byte()).collect(),
    };
    let at = match rng.below(8) {
        0 => 0,
        1 => rng.below(input.len() + 1),
        _ => input.len(),
    };
    input.splice(at..at, piece);
    vec![plain(Program::Vcd2trace, input)]
}

/// A dump fed a byte at a time, or in pieces that fit no line; some are refused.
pub fn in_pieces(rng: &mut Rng, n: usize) -> Vec<Case> {
    let cycles = rng.below(8);
    let (mut input, sizes) = if rng.flag() {
        (sample(rng, Program::Vcd2trace, n, cycles), vec![1])
    } else {
        let usual = [1, 2, 3, 5, 20, 31, 64, 100, 104, 105, 106, 300, 340];
        let sizes = (0..rng.within(1, 5)).map(|_| rng.pick(&usual)).collect();
        (sample(rng, Program::Vcd2trace, n, cycles * 8), sizes)
    };
    if rng.chance(1, 3) {
        let at = rng.below(input.len());
        input[at] = rng.pick(ODD);
    }
    vec![Case { feed: Feed::Pieces(sizes), ..plain(Program::Vcd2trace, input) }]
}

/// A longer dump, whole, cut or damaged within a step of a usual buffer's size, and its trace for the other program.
pub fn blocks(rng: &mut Rng, n: usize, turn: usize) -> Vec<Case> {
    let sizes = [512, 1024, 4096, 8192, 16384, 32768, 65536, 98304, 131_072, 262_144, 1_800_000];
    let size = sizes[turn % sizes.len()];
    let cycles = size / 16 + 8;
    let trace = any_trace(rng, n, cycles);
    let mut dump = Dump::of(n, &trace).text();
    let at = (size + rng.below(220)).saturating_sub(110).min(dump.len() - 1);
    match rng.below(4) {
        0 => dump.truncate(at),
        1 => dump[at] = rng.pick(ODD),
        2 => {
            dump.remove(at);
        }
        _ => {}
    }
    vec![plain(Program::Vcd2trace, dump), plain(Program::Trace2vcd, trace_text(n, &trace))]
}
