//! The stored examples as cases. STEM.stim is run by the arbiter and gives STEM.trace; where there is a
//! STEM.report, STEM.trace is judged and gives it; STEM.vcd gives STEM.trace, which gives it back if it is not refused.

use crate::case::{plain, Case, Program, Promise};
use std::io;
use std::path::{Path, PathBuf};

/// The cases of a folder, in the order of their names.
pub fn load(folder: &Path) -> io::Result<Vec<Case>> {
    let mut names: Vec<PathBuf> = Vec::new();
    for entry in std::fs::read_dir(folder)? {
        names.push(entry?.path());
    }
    names.sort();
    let mut cases = Vec::new();
    let mut add = |program: Program, input: &Path, answer: &Path| -> io::Result<()> {
        let promise = Promise::Stored(std::fs::read(answer)?);
        cases.push(Case { promise, ..plain(program, std::fs::read(input)?) });
        Ok(())
    };
    for name in names {
        let trace = name.with_extension("trace");
        match name.extension().and_then(|ending| ending.to_str()) {
            Some("stim") => add(Program::Arbiter, &name, &trace)?,
            Some("report") => add(Program::Judge, &trace, &name)?,
            Some("vcd") => {
                add(Program::Vcd2trace, &name, &trace)?;
                if !name.to_string_lossy().ends_with("_refused.vcd") {
                    add(Program::Trace2vcd, &trace, &name)?;
                }
            }
            _ => {}
        }
    }
    Ok(cases)
}
