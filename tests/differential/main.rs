//! The differential tester: many inputs, each answered by a program under test and by the reference,
//! byte for byte. Exit status 0 means that no answer differs and that every rule was charged and every
//! refusal given that the programs can give.

mod aimed;
mod big;
mod case;
mod chaos;
mod codes;
mod damage;
mod dump;
mod edges;
mod examples;
mod faults;
mod headers;
mod kinds;
mod mutate;
mod options;
#[path = "../reference/mod.rs"]
#[allow(dead_code)]
mod reference;
mod rng;
mod runner;
mod runs;
mod save;
mod spoil;
mod sweeps;
mod tally;
mod there;
mod traffic;

use case::{Case, Promise};
use kinds::KINDS;
use options::{Options, USAGE};
use rng::Rng;
use runner::{Ended, Outcome};
use std::process::ExitCode;
use std::sync::atomic::{AtomicUsize, Ordering};
use std::sync::Mutex;
use std::time::Instant;
use tally::Tally;

/// One thing for a worker to do.
enum Job {
    Example(Case),
    Drawn { kind: usize, turn: usize },
    Big { turn: usize },
}

fn main() -> ExitCode {
    let options = match Options::read(std::env::args().skip(1)) {
        Ok(options) => options,
        Err(message) => {
            eprintln!("differential: {message}\n{USAGE}");
            return ExitCode::from(2);
        }
    };
    let jobs = match plan(&options) {
        Ok(jobs) => jobs,
        Err(message) => {
            eprintln!("differential: {message}");
            return ExitCode::from(2);
        }
    };
    let began = Instant::now();
    let tally = Mutex::new(Tally::default());
    let next = AtomicUsize::new(0);
    let failed = Mutex::new(None);
    std::thread::scope(|scope| {
        for _ in 0..options.jobs {
            scope.spawn(|| work(&options, &jobs, &next, &tally, &failed));
        }
    });
    if let Some(message) = failed.into_inner().unwrap() {
        eprintln!("differential: {message}");
        return ExitCode::from(2);
    }
    let tally = tally.into_inner().unwrap();
    let missing = tally.missing(options.long);
    println!("{}", tally.summary());
    for what in &missing {
        println!("not seen: {what}");
    }
    if tally.hopeless() {
        println!("the rest was left after so many mismatches");
    }
    let form = if options.long { "long" } else { "short" };
    let seconds = began.elapsed().as_secs();
    println!(
        "differential: {form} form, seed {}, {} runs in {seconds} s, {} mismatches, {} things not seen",
        options.seed,
        tally.runs(),
        tally.mismatches,
        missing.len()
    );
    if tally.mismatches == 0 && missing.is_empty() { ExitCode::SUCCESS } else { ExitCode::FAILURE }
}

/// All that is to be done, the stored examples first.
fn plan(options: &Options) -> Result<Vec<Job>, String> {
    save::clear(&options.out).map_err(|error| format!("{}: {error}", options.out.display()))?;
    let mut jobs = Vec::new();
    if let Some(folder) = &options.examples {
        let stored = examples::load(folder).map_err(|error| format!("{}: {error}", folder.display()))?;
        jobs.extend(stored.into_iter().map(Job::Example));
    }
    for (kind, entry) in KINDS.iter().enumerate() {
        let turns = if options.long { entry.long } else { entry.short };
        jobs.extend((0..turns).map(|turn| Job::Drawn { kind, turn }));
    }
    if options.long {
        jobs.extend((0..big::COUNT).map(|turn| Job::Big { turn }));
    }
    Ok(jobs)
}

/// A worker: takes job after job until none is left, or until there is no use in going on.
fn work(options: &Options, jobs: &[Job], next: &AtomicUsize, tally: &Mutex<Tally>, failed: &Mutex<Option<String>>) {
    while let Some(job) = jobs.get(next.fetch_add(1, Ordering::Relaxed)) {
        let drawn: Vec<Case>;
        let (name, cases) = match job {
            Job::Example(case) => ("stored examples", std::slice::from_ref(case)),
            Job::Drawn { kind, turn } => {
                drawn = (KINDS[*kind].make)(&mut Rng::new(options.seed, *kind, *turn), *turn);
                (KINDS[*kind].name, &drawn[..])
            }
            Job::Big { turn } => {
                drawn = big::cases(&mut Rng::new(options.seed, KINDS.len(), *turn), *turn);
                ("a million cycles", &drawn[..])
            }
        };
        for case in cases {
            if failed.lock().unwrap().is_some() || tally.lock().unwrap().hopeless() {
                return;
            }
            if let Err(message) = try_case(options, name, case, tally) {
                *failed.lock().unwrap() = Some(message);
            }
        }
    }
}

/// Runs one case and counts it; a mismatch is saved and told.
fn try_case(options: &Options, name: &str, case: &Case, tally: &Mutex<Tally>) -> Result<(), String> {
    let expected = case.program.reference(&case.input);
    let seen = tally::read_answer(case.program, &expected);
    let command = &options.commands[case.program as usize];
    let got = runner::run(command, case).map_err(|error| format!("cannot start {}: {error}", command[0]))?;
    let fault = if !seen.keeps(&case.promise, &expected) {
        Some("the reference's own answer is not what it should be")
    } else {
        fault(&expected, &got)
    };
    let mut tally = tally.lock().unwrap();
    let drawn = !matches!(case.promise, Promise::Stored(_));
    tally.add(name, case.program, drawn.then_some(&seen), fault.is_some());
    tally.late += usize::from(got.ended == Ended::Late);
    if let Some(fault) = fault {
        let stem = save::mismatch(&options.out, tally.mismatches, case, &expected, &got)
            .map_err(|error| format!("{}: {error}", options.out.display()))?;
        println!("mismatch ({name}, {:?}): {fault}\n  {stem}", case.program);
    }
    Ok(())
}

/// What is wrong with an answer. The programs set no status and write nothing to the error stream.
fn fault(expected: &[u8], got: &Outcome) -> Option<&'static str> {
    match got.ended {
        Ended::Late => Some("it did not end in time"),
        _ if got.stdout != expected => Some("the answers differ"),
        Ended::Badly(_) => Some("it ended with a status other than 0"),
        Ended::Well if !got.stderr.is_empty() => Some("it wrote to the error stream"),
        Ended::Well => None,
    }
}
