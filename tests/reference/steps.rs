//! Reading dumps: a header, a step, and the program that writes their trace.
//!
//! A step is tested as a whole, one test after the other: its time (13, 8), the codes in it (14), its lines (3), the
//! characters of its values (4), and then the cycle that they make (5, 6, 7).

use super::dumps::{self, Variable, VARIABLES};
use super::lines::{self, Cycle, Refusal, CHARACTER, FULL, LIMIT, MASTERS, PLACE};

pub const DUMP: Refusal = Refusal(12);
pub const TIME: Refusal = Refusal(13);
pub const VARIABLE: Refusal = Refusal(14);

/// The most bytes of a step that are looked at: one more than a longest good step has.
pub const LONGEST: usize = 105;

/// Reads the header: the number of masters, and where the first step starts.
pub fn read_header(input: &[u8]) -> Result<(usize, usize), Refusal> {
    for n in 0..100 {
        let header = dumps::header(&n.to_string());
        if input.starts_with(header.as_bytes()) {
            return if (2..=16).contains(&n) { Ok((n, header.len())) } else { Err(MASTERS) };
        }
    }
    Err(DUMP)
}

/// The text of the step that `rest` begins with: up to the LF before the next `#`.
fn step_text(rest: &[u8]) -> &[u8] {
    let end = rest.windows(2).position(|pair| pair == b"\n#").map_or(rest.len(), |place| place + 1);
    &rest[..end.min(LONGEST)]
}

/// The digits of the time that a step begins with, if it begins with one.
fn time(text: &[u8]) -> Option<&[u8]> {
    let digits = text.strip_prefix(b"#")?.split(|byte| !byte.is_ascii_digit()).next()?;
    match digits {
        [] | [b'0', _, ..] => None,
        _ => Some(digits),
    }
}

/// Whether a line is the change of a variable that is none of the eleven.
fn is_unknown(line: &[u8]) -> bool {
    let after = match line.first() {
        Some(b'0' | b'1' | b'x' | b'X' | b'z' | b'Z') => &line[1..],
        Some(b'b' | b'B' | b'r' | b'R') => match line.iter().position(|&byte| byte == b' ') {
            Some(space) => &line[space + 1..],
            None => return false,
        },
        _ => return false,
    };
    let code: Vec<u8> = after.iter().copied().take_while(|byte| (b'!'..=b'~').contains(byte)).collect();
    match code[..] {
        [] => false,
        [one] => !VARIABLES.iter().any(|variable| variable.code == one),
        _ => true,
    }
}

/// The characters of the value in a line of this variable, if it is one.
fn value_in<'a>(variable: &Variable, line: &'a [u8]) -> Option<&'a [u8]> {
    let value = match variable.width {
        1 => line.strip_suffix(&[variable.code])?,
        _ => line.strip_prefix(b"b")?.strip_suffix(&[b' ', variable.code])?,
    };
    (value.len() == variable.width).then_some(value)
}

/// Test 3: the changes of a step by their columns. The lines are those of the time and of variables in column order,
/// none twice, each with its LF, none with the value of the cycle before, and all of them where there is none before.
fn changes<'a>(text: &'a [u8], t: usize, before: Option<&Cycle>) -> Result<[Option<&'a [u8]>; 11], Refusal> {
    let body = text.strip_prefix(format!("#{t}\n").as_bytes()).ok_or(PLACE)?;
    let mut found = [None; 11];
    let mut next = 0;
    for line in body.split_inclusive(|&byte| byte == b'\n') {
        let line = line.strip_suffix(b"\n").ok_or(PLACE)?;
        let column = (next..11).find(|&k| value_in(&VARIABLES[k], line).is_some()).ok_or(PLACE)?;
        found[column] = value_in(&VARIABLES[column], line);
        next = column + 1;
    }
    match before {
        None if found.contains(&None) => return Err(PLACE),
        None => {}
        Some(before) => {
            let same = |column: usize| {
                let width = VARIABLES[column].width;
                found[column] == Some(format!("{:0width$b}", dumps::values(before)[column]).as_bytes())
            };
            if (0..11).any(same) {
                return Err(PLACE);
            }
        }
    }
    Ok(found)
}

/// The number in the bits of a value, or test 4.
fn number(bits: &[u8]) -> Result<u16, Refusal> {
    bits.iter().try_fold(0, |sum, byte| match byte {
        b'0' | b'1' => Ok(sum << 1 | u16::from(byte - b'0')),
        _ => Err(CHARACTER),
    })
}

/// The step of cycle t at `at`, after the cycle before it, and where the next one starts; or none at the end of the
/// input.
pub fn read_step(
    input: &[u8],
    at: usize,
    n: usize,
    t: usize,
    before: Option<&Cycle>,
) -> Result<Option<(Cycle, usize)>, Refusal> {
    let text = step_text(&input[at..]);
    if text.is_empty() {
        return Ok(None);
    }
    if let Some(digits) = time(text) {
        if digits != t.to_string().as_bytes() {
            return Err(TIME);
        }
        if t >= LIMIT {
            return Err(FULL);
        }
    }
    if text.split(|&byte| byte == b'\n').skip(1).any(is_unknown) {
        return Err(VARIABLE);
    }
    let found = changes(text, t, before)?;
    let mut values = before.map_or([0; 11], dumps::values);
    for (value, change) in values.iter_mut().zip(found) {
        if let Some(bits) = change {
            *value = number(bits)?;
        }
    }
    let cycle = dumps::cycle(&values);
    lines::valid(&cycle, n)?;
    Ok(Some((cycle, at + text.len())))
}

/// The line of the input in which a place stands.
fn line_of(input: &[u8], at: usize) -> usize {
    1 + input[..at].iter().filter(|&&byte| byte == b'\n').count()
}

/// The program that reads dumps: a dump in, its trace out.
pub fn program(input: &[u8]) -> Vec<u8> {
    let mut out = Vec::with_capacity(input.len() + 64);
    let (n, mut at) = match read_header(input) {
        Ok(read) => read,
        Err(refusal) => {
            lines::write_refusal(&mut out, 1, refusal);
            return out;
        }
    };
    lines::write_header(&mut out, "trace", n);
    let mut before = None;
    for t in 0.. {
        match read_step(input, at, n, t, before.as_ref()) {
            Ok(None) => break,
            Ok(Some((now, next))) => {
                lines::write_trace(&mut out, &now);
                before = Some(now);
                at = next;
            }
            Err(refusal) => {
                lines::write_refusal(&mut out, line_of(input, at), refusal);
                break;
            }
        }
    }
    out
}
