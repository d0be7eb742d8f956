//! Headers, stimulus lines and trace lines: their shapes, their reading and their writing. Dumps are in `dumps.rs`.
//!
//! A line is tested as a whole, one test after the other: its separators (3), its characters (4), the
//! codes that are not built (5), masters that are not there (6), and the owner (7).

use std::io::Write;

/// The most cycles a run may have.
pub const LIMIT: usize = 1_000_000;

pub const IDLE: u8 = 0;
pub const NONSEQ: u8 = 2;
pub const SEQ: u8 = 3;

pub const SINGLE: u8 = 0;
pub const INCR: u8 = 1;
pub const INCR4: u8 = 3;

/// A refusal, by its number.
#[derive(Clone, Copy, PartialEq, Eq, Debug)]
pub struct Refusal(pub u8);

pub const MASTERS: Refusal = Refusal(1);
pub const HEADER: Refusal = Refusal(2);
pub const PLACE: Refusal = Refusal(3);
pub const CHARACTER: Refusal = Refusal(4);
pub const CODE: Refusal = Refusal(5);
pub const ABSENT: Refusal = Refusal(6);
pub const OWNER: Refusal = Refusal(7);
pub const FULL: Refusal = Refusal(8);

/// The five columns of a stimulus line.
#[derive(Clone, Copy, PartialEq, Eq, Debug, Default)]
pub struct Inputs {
    pub hbusreq: u16,
    pub hlock: u16,
    pub hready: bool,
    pub htrans: u8,
    pub hburst: u8,
}

/// The eleven columns of a trace line.
#[derive(Clone, Copy, PartialEq, Eq, Debug, Default)]
pub struct Cycle {
    pub hbusreq: u16,
    pub hlock: u16,
    pub hready: bool,
    pub htrans: u8,
    pub hburst: u8,
    pub hgrant: u16,
    pub hmaster: u8,
    pub hmastlock: bool,
    pub decide: bool,
    pub granted: bool,
    pub busreq: bool,
}

impl Cycle {
    /// HBUSREQ of HMASTER.
    pub fn owner_request(&self) -> bool {
        self.hbusreq >> self.hmaster & 1 == 1
    }

    pub fn handover(&self) -> bool {
        self.granted && self.hready
    }

    pub fn inputs(&self) -> Inputs {
        Inputs { hbusreq: self.hbusreq, hlock: self.hlock, hready: self.hready, htrans: self.htrans, hburst: self.hburst }
    }
}

/// The shape of a stimulus line: `h` a hex digit, `f` a flag, `t` an HTRANS and `b` an HBURST digit;
/// every other byte stands for itself.
pub const STIM_SHAPE: &[u8; 16] = b"hhhh\thhhh\tf\tt\tb\n";

/// The shape of a trace line.
pub const TRACE_SHAPE: &[u8; 31] = b"hhhh\thhhh\tf\tt\tb\thhhh\th\tf\tf\tf\tf\n";

fn is_separator(shape: u8) -> bool {
    shape == b'\t' || shape == b'\n'
}

fn allows(shape: u8, byte: u8) -> bool {
    match shape {
        b'h' => byte.is_ascii_digit() || (b'a'..=b'f').contains(&byte),
        b'f' => byte == b'0' || byte == b'1',
        b't' => (b'0'..=b'3').contains(&byte),
        b'b' => (b'0'..=b'7').contains(&byte),
        _ => true,
    }
}

/// The number in the hex digits at `from`, `digits` of them. Only for bytes that passed test 4.
fn hex(line: &[u8], from: usize, digits: usize) -> u16 {
    line[from..from + digits].iter().fold(0, |sum, &byte| {
        let digit = if byte.is_ascii_digit() { byte - b'0' } else { byte - b'a' + 10 };
        sum * 16 + u16::from(digit)
    })
}

/// The first five columns of a line that passed test 4.
fn inputs_of(line: &[u8]) -> Inputs {
    Inputs {
        hbusreq: hex(line, 0, 4),
        hlock: hex(line, 5, 4),
        hready: line[10] == b'1',
        htrans: line[12] - b'0',
        hburst: line[14] - b'0',
    }
}

/// Tests 3 and 4: the whole line's separators, then the whole line's characters.
fn shaped<'a>(input: &'a [u8], at: usize, shape: &[u8]) -> Result<&'a [u8], Refusal> {
    let line = input.get(at..at + shape.len()).ok_or(PLACE)?;
    let pairs = || shape.iter().copied().zip(line.iter().copied());
    if pairs().any(|(wanted, byte)| is_separator(wanted) && byte != wanted) {
        return Err(PLACE);
    }
    if pairs().any(|(wanted, byte)| !allows(wanted, byte)) {
        return Err(CHARACTER);
    }
    Ok(line)
}

/// Test 5.
fn built(inputs: &Inputs) -> Result<(), Refusal> {
    if inputs.htrans == 1 || [2, 4, 5, 6, 7].contains(&inputs.hburst) { Err(CODE) } else { Ok(()) }
}

/// Test 6, for the masks of a line put together.
fn present(masks: u16, n: usize) -> Result<(), Refusal> {
    if u32::from(masks) >> n != 0 { Err(ABSENT) } else { Ok(()) }
}

/// The stimulus line at `at`, or none at the end of the input.
pub fn read_stimulus(input: &[u8], at: usize, n: usize) -> Result<Option<Inputs>, Refusal> {
    if at == input.len() {
        return Ok(None);
    }
    let inputs = inputs_of(shaped(input, at, STIM_SHAPE)?);
    built(&inputs)?;
    present(inputs.hbusreq | inputs.hlock, n)?;
    Ok(Some(inputs))
}

/// The trace line at `at`, or none at the end of the input.
pub fn read_trace(input: &[u8], at: usize, n: usize) -> Result<Option<Cycle>, Refusal> {
    if at == input.len() {
        return Ok(None);
    }
    let line = shaped(input, at, TRACE_SHAPE)?;
    let inputs = inputs_of(line);
    let cycle = Cycle {
        hbusreq: inputs.hbusreq,
        hlock: inputs.hlock,
        hready: inputs.hready,
        htrans: inputs.htrans,
        hburst: inputs.hburst,
        hgrant: hex(line, 16, 4),
        hmaster: hex(line, 21, 1) as u8,
        hmastlock: line[23] == b'1',
        decide: line[25] == b'1',
        granted: line[27] == b'1',
        busreq: line[29] == b'1',
    };
    valid(&cycle, n)?;
    Ok(Some(cycle))
}

/// Tests 5, 6 and 7 of a cycle.
pub fn valid(cycle: &Cycle, n: usize) -> Result<(), Refusal> {
    built(&cycle.inputs())?;
    present(cycle.hbusreq | cycle.hlock | cycle.hgrant, n)?;
    if usize::from(cycle.hmaster) >= n { Err(OWNER) } else { Ok(()) }
}

/// Reads the header with the given word: the number of masters, and where the first line starts.
pub fn read_header(input: &[u8], word: &str) -> Result<(usize, usize), Refusal> {
    let end = input.iter().position(|&byte| byte == b'\n').ok_or(HEADER)?;
    let start = format!("{word}\t1\t");
    let digits = input[..end].strip_prefix(start.as_bytes()).ok_or(HEADER)?;
    let n = match *digits {
        [ones @ b'0'..=b'9'] => ones - b'0',
        [tens @ b'1'..=b'9', ones @ b'0'..=b'9'] => (tens - b'0') * 10 + (ones - b'0'),
        _ => return Err(HEADER),
    };
    if (2..=16).contains(&n) { Ok((usize::from(n), end + 1)) } else { Err(MASTERS) }
}

pub fn write_header(out: &mut Vec<u8>, word: &str, n: usize) {
    write!(out, "{word}\t1\t{n}\n").unwrap();
}

pub fn write_stimulus(out: &mut Vec<u8>, c: &Inputs) {
    let ready = u8::from(c.hready);
    write!(out, "{:04x}\t{:04x}\t{ready}\t{}\t{}\n", c.hbusreq, c.hlock, c.htrans, c.hburst).unwrap();
}

pub fn write_trace(out: &mut Vec<u8>, c: &Cycle) {
    write_stimulus(out, &c.inputs());
    out.pop();
    let [lock, decide, granted, busreq] = [c.hmastlock, c.decide, c.granted, c.busreq].map(u8::from);
    write!(out, "\t{:04x}\t{:x}\t{lock}\t{decide}\t{granted}\t{busreq}\n", c.hgrant, c.hmaster).unwrap();
}

/// The last line of a run that was refused; the header is line 1.
pub fn write_refusal(out: &mut Vec<u8>, line: usize, refusal: Refusal) {
    write!(out, "refused\t{line}\t{}\n", refusal.0).unwrap();
}
