//! What is written to a program, piece by piece, and what it must have answered after each piece.

use crate::reference;
use crate::rng::Rng;

#[derive(Clone, Copy, PartialEq, Eq)]
pub enum Program {
    Arbiter,
    Judge,
    Trace2vcd,
    Vcd2trace,
}

/// The lines of a dump's header.
const HEADER_LINES: usize = 16;

#[derive(Clone)]
pub struct Script {
    pub program: Program,
    /// What is written, and what is answered to it.
    pub pieces: Vec<(Vec<u8>, Vec<u8>)>,
    /// What is answered when the input is closed; nothing if the program has ended before.
    pub end: Option<Vec<u8>>,
    pub status: i32,
}

impl Script {
    /// A script whose answers are those of the reference.
    pub fn of(program: Program, input: &[u8]) -> Script {
        let answer = match program {
            Program::Arbiter => reference::arbiter::program,
            Program::Judge => reference::judge::program,
            Program::Trace2vcd => reference::dumps::program,
            Program::Vcd2trace => reference::steps::program,
        };
        Script::new(program, input, &answer(input))
    }

    /// Line by line, or step by step, from the whole input and the whole answer.
    pub fn new(program: Program, input: &[u8], answer: &[u8]) -> Script {
        let mut answers = answer_parts(program, answer);
        let refused = answers.last().is_some_and(|part| part.starts_with(b"refused"));
        let breached = program == Program::Judge && answers.iter().any(|line| line[0].is_ascii_digit());
        let parts = input_parts(program, input);
        // the judge has a last line, and a dump's last step ends with the input
        let late = match program {
            Program::Judge => !refused,
            Program::Vcd2trace => answers.len() == parts.len() && parts.len() > 1,
            _ => false,
        };
        let end = late.then(|| answers.pop().expect("there is a last part"));
        let mut left = answers.into_iter().enumerate().peekable();
        let mut pieces = Vec::new();
        for (number, part) in parts.into_iter().enumerate() {
            let mut reply = Vec::new();
            while let Some((_, next)) = left.next_if(|(place, next)| answers_part(program, *place, next, number)) {
                reply.extend(next);
            }
            pieces.push((part, reply));
            // nothing is read after a refusal
            if refused && !late && left.peek().is_none() {
                break;
            }
        }
        let status = if refused { 2 } else { i32::from(breached) };
        let open = !refused || late;
        Script { program, pieces, end: open.then(|| end.unwrap_or_default()), status }
    }

    /// The same bytes in pieces of 1 to 70: lines cut anywhere, and several at once.
    pub fn cut(&self, rng: &mut Rng) -> Script {
        let (mut pieces, mut piece, mut reply) = (Vec::new(), Vec::new(), Vec::new());
        let mut size = rng.within(1, 70);
        for (line, answer) in &self.pieces {
            for (place, &byte) in line.iter().enumerate() {
                piece.push(byte);
                if place + 1 == line.len() {
                    reply.extend_from_slice(answer);
                }
                if piece.len() == size {
                    pieces.push((std::mem::take(&mut piece), std::mem::take(&mut reply)));
                    size = rng.within(1, 70);
                }
            }
        }
        pieces.push((piece, reply));
        Script { pieces, ..self.clone() }
    }
}

fn lines(text: &[u8]) -> Vec<Vec<u8>> {
    text.split_inclusive(|&byte| byte == b'\n').map(<[u8]>::to_vec).collect()
}

/// A dump's header and its steps, with a refusal line by itself.
fn steps(text: &[u8]) -> Vec<Vec<u8>> {
    let mut parts: Vec<Vec<u8>> = Vec::new();
    for (number, line) in lines(text).into_iter().enumerate() {
        match parts.last_mut() {
            Some(part) if number != HEADER_LINES && line[0] != b'#' && !line.starts_with(b"refused") => part.extend(line),
            _ => parts.push(line),
        }
    }
    parts
}

/// What is written at a time: a line; of a dump its header, and then each step up to the `#` of the next one, which ends it.
fn input_parts(program: Program, input: &[u8]) -> Vec<Vec<u8>> {
    if program != Program::Vcd2trace {
        return lines(input);
    }
    let mut parts = steps(input);
    for number in 1..parts.len().saturating_sub(1) {
        let hash = parts[number + 1].remove(0);
        parts[number].push(hash);
    }
    parts
}

fn answer_parts(program: Program, answer: &[u8]) -> Vec<Vec<u8>> {
    if program == Program::Trace2vcd { steps(answer) } else { lines(answer) }
}

/// Whether the answer's part at a place belongs to the input's part of that number, both counted from 0. A trace and a dump have one for
/// each; in a report a breach line begins with its cycle, and a refusal has its line, counted from 1.
fn answers_part(program: Program, place: usize, answer: &[u8], number: usize) -> bool {
    if program != Program::Judge {
        return place == number;
    }
    let text = std::str::from_utf8(answer).expect("answers are text");
    match text.trim_end().split('\t').collect::<Vec<_>>()[..] {
        ["refused", line, _] => line == (number + 1).to_string(),
        [cycle, _] => cycle.parse() == Ok(number.wrapping_sub(1)),
        _ => false,
    }
}
