//! Keeps the files of a mismatch: the input, what was expected, and what came.

use crate::case::Case;
use crate::runner::Outcome;
use std::fs;
use std::io;
use std::path::Path;

const PREFIX: &str = "mismatch_";

/// Makes the folder, and removes the mismatches of an earlier run from it.
pub fn clear(folder: &Path) -> io::Result<()> {
    fs::create_dir_all(folder)?;
    for entry in fs::read_dir(folder)? {
        let entry = entry?;
        if entry.file_name().to_string_lossy().starts_with(PREFIX) {
            fs::remove_file(entry.path())?;
        }
    }
    Ok(())
}

/// Writes the files of mismatch `number` and gives their names.
pub fn mismatch(folder: &Path, number: usize, case: &Case, expected: &[u8], got: &Outcome) -> io::Result<String> {
    let input = format!("input.{}", case.program.word());
    let mut names = Vec::new();
    let mut keep = |ending: &str, bytes: &[u8]| -> io::Result<()> {
        let path = folder.join(format!("{PREFIX}{number:03}.{ending}"));
        fs::write(&path, bytes)?;
        names.push(path.display().to_string());
        Ok(())
    };
    keep(&input, &case.input)?;
    keep("expected", expected)?;
    keep("got", &got.stdout)?;
    if !got.stderr.is_empty() {
        keep("stderr", &got.stderr)?;
    }
    Ok(names.join(" "))
}
