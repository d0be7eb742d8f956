//! The reference as a program: `reference arbiter` turns a stimulus on standard input into a trace on
//! standard output, `reference judge` turns a trace into a report, `reference trace2vcd` a trace into a dump, and
//! `reference vcd2trace` a dump into a trace.

use std::io::{self, Read, Write};
use std::process::ExitCode;

#[path = "mod.rs"]
#[allow(dead_code)]
mod reference;

fn main() -> ExitCode {
    let words: Vec<String> = std::env::args().skip(1).collect();
    let program: fn(&[u8]) -> Vec<u8> = match words.iter().map(String::as_str).collect::<Vec<_>>()[..] {
        ["arbiter"] => reference::arbiter::program,
        ["judge"] => reference::judge::program,
        ["trace2vcd"] => reference::dumps::program,
        ["vcd2trace"] => reference::steps::program,
        _ => {
            eprintln!("usage: reference arbiter | judge | trace2vcd | vcd2trace");
            return ExitCode::from(2);
        }
    };
    let mut input = Vec::new();
    if let Err(error) = io::stdin().lock().read_to_end(&mut input) {
        eprintln!("reference: cannot read standard input: {error}");
        return ExitCode::from(2);
    }
    match io::stdout().lock().write_all(&program(&input)) {
        Ok(()) => ExitCode::SUCCESS,
        Err(_) => ExitCode::from(2),
    }
}
