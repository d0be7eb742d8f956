//! The words on the command line.

use crate::case::PROGRAMS;
use std::path::PathBuf;

pub const USAGE: &str = "usage: differential --arbiter \"COMMAND\" --judge \"COMMAND\" --trace2vcd \"COMMAND\" --vcd2trace \"COMMAND\"
    [--long] [--seed N] [--jobs N] [--examples FOLDER] [--out FOLDER]";

pub struct Options {
    /// How to start each program under test: the command and its words.
    pub commands: [Vec<String>; 4],
    pub long: bool,
    pub seed: u64,
    pub jobs: usize,
    /// The folder of stored examples, if they are to be run.
    pub examples: Option<PathBuf>,
    /// Where mismatches are saved.
    pub out: PathBuf,
}

impl Options {
    pub fn read(words: impl Iterator<Item = String>) -> Result<Options, String> {
        let mut options = Options {
            commands: Default::default(),
            long: false,
            seed: 20,
            jobs: std::thread::available_parallelism().map_or(1, usize::from),
            examples: None,
            out: PathBuf::from("target/differential"),
        };
        let mut words = words;
        while let Some(word) = words.next() {
            if word == "--long" {
                options.long = true;
                continue;
            }
            let value = words.next().ok_or(format!("{word} is unknown or wants a value"))?;
            let number = || value.parse::<u64>().map_err(|_| format!("{word} wants a number"));
            let command = || value.split_whitespace().map(String::from).collect();
            if let Some(program) = PROGRAMS.iter().find(|program| word.strip_prefix("--") == Some(program.name())) {
                options.commands[*program as usize] = command();
                continue;
            }
            match word.as_str() {
                "--seed" => options.seed = number()?,
                "--jobs" => options.jobs = number()?.max(1) as usize,
                "--examples" => options.examples = Some(PathBuf::from(value)),
                "--out" => options.out = PathBuf::from(value),
                _ => return Err(format!("{word} is unknown")),
            }
        }
        match PROGRAMS.iter().find(|program| options.commands[**program as usize].is_empty()) {
            Some(program) => Err(format!("--{} is needed", program.name())),
            None => Ok(options),
        }
    }
}
