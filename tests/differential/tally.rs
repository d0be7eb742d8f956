//! What was seen: cases and mismatches by kind, charges by rule, refusals by program.

use crate::case::{Program, Promise, PROGRAMS};
use crate::reference::judge::RULES;
use std::collections::BTreeMap;
use std::fmt::Write;

#[derive(Default)]
pub struct Tally {
    /// Runs and mismatches by kind, in the order in which the kinds first came.
    kinds: Vec<(String, usize, usize)>,
    /// Charges and reports by rule.
    rules: BTreeMap<String, (usize, usize)>,
    /// Refusals by number, for each program.
    refusals: BTreeMap<usize, [usize; 4]>,
    pub mismatches: usize,
    /// Runs that did not end in time.
    pub late: usize,
}

/// The rules charged in a report, and the number of its refusal.
pub struct Seen {
    rules: BTreeMap<String, usize>,
    refusal: Option<usize>,
}

/// Reads an answer of the reference: a report, or a trace or a dump of which only the last line matters.
pub fn read_answer(program: Program, answer: &[u8]) -> Seen {
    let text = String::from_utf8_lossy(answer);
    let mut rules = BTreeMap::new();
    if program == Program::Judge {
        for line in text.lines() {
            if let [_, rule] = line.split('\t').collect::<Vec<_>>()[..] {
                *rules.entry(rule.to_string()).or_insert(0) += 1;
            }
        }
    }
    let last: Vec<&str> = text.lines().last().unwrap_or("").split('\t').collect();
    let refusal = if last[0] == "refused" { last.last().and_then(|number| number.parse().ok()) } else { None };
    Seen { rules, refusal }
}

impl Seen {
    /// Whether the reference's own answer is what the case said of it.
    pub fn keeps(&self, promise: &Promise, answer: &[u8]) -> bool {
        match promise {
            Promise::Nothing => true,
            Promise::Clean => self.rules.is_empty() && self.refusal.is_none(),
            Promise::NoGuarantee => !self.rules.keys().any(|rule| rule.starts_with('G')),
            Promise::Stored(known) | Promise::Known(known) => known == answer,
            Promise::Refused(line, number) => answer.ends_with(format!("refused\t{line}\t{number}\n").as_bytes()),
        }
    }
}

impl Tally {
    /// Counts a run. What was seen is left out for stored examples, so that the drawn inputs alone
    /// must bring up every rule and refusal.
    pub fn add(&mut self, kind: &str, program: Program, seen: Option<&Seen>, mismatch: bool) {
        let place = match self.kinds.iter().position(|(name, ..)| name == kind) {
            Some(place) => place,
            None => {
                self.kinds.push((kind.to_string(), 0, 0));
                self.kinds.len() - 1
            }
        };
        self.kinds[place].1 += 1;
        self.kinds[place].2 += usize::from(mismatch);
        self.mismatches += usize::from(mismatch);
        let Some(seen) = seen else { return };
        for (rule, times) in &seen.rules {
            let entry = self.rules.entry(rule.clone()).or_default();
            entry.0 += times;
            entry.1 += 1;
        }
        if let Some(number) = seen.refusal {
            self.refusals.entry(number).or_default()[program as usize] += 1;
        }
    }

    /// Whether there is no use in going on: many mismatches, or a program that does not end.
    pub fn hopeless(&self) -> bool {
        self.mismatches >= 50 || self.late >= 2
    }

    pub fn runs(&self) -> usize {
        self.kinds.iter().map(|(_, runs, _)| runs).sum()
    }

    /// What should have come up and did not. Refusal 8 takes a run of a million cycles, which only the
    /// long form has.
    pub fn missing(&self, long: bool) -> Vec<String> {
        let rules = RULES.iter().filter(|(name, _)| !self.rules.contains_key(*name));
        let mut missing: Vec<String> = rules.map(|(name, _)| format!("rule {name}")).collect();
        for program in PROGRAMS {
            for number in program.refusals() {
                let seen = self.refusals.get(number).is_some_and(|seen| seen[program as usize] > 0);
                if !seen && (long || *number != 8) {
                    missing.push(format!("refusal {number} of {}", program.name()));
                }
            }
        }
        missing
    }

    pub fn summary(&self) -> String {
        let mut out = format!("{:<26}{:>9}{:>12}\n", "kind", "runs", "mismatches");
        for (name, runs, mismatches) in &self.kinds {
            writeln!(out, "{name:<26}{runs:>9}{mismatches:>12}").unwrap();
        }
        writeln!(out, "{:<26}{:>9}{:>12}\n", "all", self.runs(), self.mismatches).unwrap();
        writeln!(out, "{:<26}{:>9}{:>12}", "rule", "charges", "reports").unwrap();
        for (name, _) in RULES {
            let (charges, reports) = self.rules.get(name).copied().unwrap_or_default();
            writeln!(out, "{name:<26}{charges:>9}{reports:>12}").unwrap();
        }
        let [arbiter, judge, writer, reader] = PROGRAMS.map(Program::name);
        writeln!(out, "\n{:<26}{arbiter:>9}{judge:>12}{writer:>12}{reader:>12}", "refusal").unwrap();
        for number in (1..=8).chain(12..=14) {
            let [arbiter, judge, writer, reader] = self.refusals.get(&number).copied().unwrap_or_default();
            writeln!(out, "{number:<26}{arbiter:>9}{judge:>12}{writer:>12}{reader:>12}").unwrap();
        }
        out
    }
}
