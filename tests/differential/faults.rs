//! Steps with one fault each, aimed at a refusal, and steps with several, so that the order of the tests shows.

use crate::case::{any_trace, plain, Case, Program, Promise};
use crate::dump::Dump;
use crate::reference::dumps::{change, values, VARIABLES};
use crate::reference::steps::LONGEST;
use crate::rng::Rng;

/// The columns with more than one bit, and those with one.
const VECTORS: [usize; 6] = [0, 1, 3, 4, 5, 6];
const SCALARS: [usize; 5] = [2, 7, 8, 9, 10];
const MASKS: [usize; 3] = [0, 1, 5];

/// A fault puts itself into step t of a dump, and says which refusal that gives; none where the step has no room for it. It
/// expects a good step.
type Fault = fn(&mut Rng, &mut Dump, usize) -> Option<usize>;

pub const FAULTS: [(&str, Fault); 19] = [
    ("another time", another_time),
    ("a step dropped or doubled", another_step),
    ("no time", no_time),
    ("another first line", another_first),
    ("something after the time", after_time),
    ("another code", another_code),
    ("an unknown variable's line", unknown_line),
    ("a value repeated", repeated),
    ("lines swapped", swapped),
    ("a line twice", twice),
    ("missing in cycle 0", missing),
    ("another width", width),
    ("another kind", kind),
    ("another form", form),
    ("a line of no shape", no_shape),
    ("no bit", no_bit),
    ("a code that is not built", not_built),
    ("an absent master", absent),
    ("an absent owner", owner),
];

/// The line of a step for one of these columns: its place in the step and its column.
fn line_of(rng: &mut Rng, dump: &Dump, t: usize, columns: &[usize]) -> Option<(usize, usize)> {
    let some: Vec<(usize, usize)> = dump.changed(t).into_iter().filter(|(_, column)| columns.contains(column)).collect();
    (!some.is_empty()).then(|| rng.pick(&some))
}

fn any_line(rng: &mut Rng, dump: &Dump, t: usize) -> Option<(usize, usize)> {
    line_of(rng, dump, t, &[&VECTORS[..], &SCALARS].concat())
}

fn another_time(rng: &mut Rng, dump: &mut Dump, t: usize) -> Option<usize> {
    let wide = t as u128;
    let time = match rng.below(9) {
        0 => wide + 1,
        1 => wide.checked_sub(1)?,
        2 => wide + rng.within(2, 2_000_000) as u128,
        // numbers that a word of the machine does not tell from t
        3 => wide + (1 << rng.pick(&[8, 16, 24, 31, 32])),
        4 => wide + (1 << rng.pick(&[63, 64, 96])),
        5 => 1_000_000,
        // a digit more, and one less
        6 if t > 0 => wide * 10 + rng.below(10) as u128,
        7 if t > 9 => wide / 10,
        _ => {
            let zeros = "0".repeat(rng.within(90, 140));
            dump.steps[t][0] = format!("#{}{zeros}\n", t + 1).into_bytes();
            return Some(13);
        }
    };
    dump.steps[t][0] = format!("#{time}\n").into_bytes();
    Some(13)
}

/// The step after this one is in its place, or the one before it.
fn another_step(rng: &mut Rng, dump: &mut Dump, t: usize) -> Option<usize> {
    let other = if rng.flag() { t + 1 } else { t.checked_sub(1)? };
    dump.steps[t] = dump.steps.get(other)?.clone();
    Some(13)
}

fn no_time(rng: &mut Rng, dump: &mut Dump, t: usize) -> Option<usize> {
    let line = match rng.below(7) {
        0 => "#\n".to_string(),
        1 => format!("# {t}\n"),
        2 => format!("#0{t}\n"),
        3 => "#00\n".to_string(),
        4 => format!("#x{t}\n"),
        5 => format!("#-{t}\n"),
        _ => format!("##{t}\n"),
    };
    dump.steps[t][0] = line.into_bytes();
    Some(3)
}

/// A first step without a time: its first line is looked at for nothing else.
fn another_first(rng: &mut Rng, dump: &mut Dump, t: usize) -> Option<usize> {
    if t > 0 {
        return None;
    }
    let line = rng.pick(&["1,\n", "x~\n", "b1 ,\n", "r1 q\n", "0\n", "\n", "$dumpvars\n", "0\n", " #0\n", "1#\n", ""]);
    dump.steps[0][0] = line.as_bytes().to_vec();
    Some(3)
}

fn after_time(rng: &mut Rng, dump: &mut Dump, t: usize) -> Option<usize> {
    let after = rng.pick(&[" ", "\r", "\t", "x", ".5", " ns", "_", "#", "\0", " $end", "\n", ":", "/", "a"]);
    dump.steps[t][0] = format!("#{t}{after}\n").into_bytes();
    Some(3)
}

/// A code that is none of the eleven.
fn code(rng: &mut Rng) -> String {
    match rng.below(4) {
        0 => ",".to_string(),
        1 => char::from(rng.within(b',' as usize, b'~' as usize) as u8).to_string(),
        2 => rng.pick(&["!!", "##", "+!", "!+", "~", "HREADY", "n12"]).to_string(),
        _ => (0..rng.within(2, 4)).map(|_| char::from(rng.within(b'!' as usize, b'~' as usize) as u8)).collect(),
    }
}

fn another_code(rng: &mut Rng, dump: &mut Dump, t: usize) -> Option<usize> {
    let (place, _) = any_line(rng, dump, t)?;
    let line = &mut dump.steps[t][place];
    line.truncate(line.len() - 2);
    line.extend(code(rng).bytes().chain([b'\n']));
    Some(14)
}

fn unknown_line(rng: &mut Rng, dump: &mut Dump, t: usize) -> Option<usize> {
    let kind = rng.pick(&["0", "1", "x", "X", "z", "Z", "b1 ", "B01 ", "r1.5 ", "R0 ", "b ", "bxz ", "b1\t ", "b!! "]);
    let end = rng.pick(&["\n", "\n", "\n", " \n", "\r\n", "\t\n", " !\n"]);
    let line = format!("{kind}{}{end}", code(rng)).into_bytes();
    // it is looked at where its code begins within the step's first bytes
    let places: Vec<usize> = (1..=dump.steps[t].len())
        .filter(|&place| dump.steps[t][..place].concat().len() + line.len() <= LONGEST)
        .collect();
    if places.is_empty() {
        return None;
    }
    dump.steps[t].insert(rng.pick(&places), line);
    Some(14)
}

/// A column that has no line gets one, with the value of the cycle before.
fn repeated(rng: &mut Rng, dump: &mut Dump, t: usize) -> Option<usize> {
    let before = values(&dump.trace[t.checked_sub(1)?]);
    let changed: Vec<usize> = dump.changed(t).into_iter().map(|(_, column)| column).collect();
    let same: Vec<usize> = (0..11).filter(|column| !changed.contains(column)).collect();
    if same.is_empty() {
        return None;
    }
    let column = rng.pick(&same);
    let place = 1 + changed.iter().filter(|&&other| other < column).count();
    dump.steps[t].insert(place, change(&VARIABLES[column], before[column]).into_bytes());
    Some(3)
}

fn swapped(rng: &mut Rng, dump: &mut Dump, t: usize) -> Option<usize> {
    let last = dump.steps[t].len() - 1;
    let one = rng.within(1, last.checked_sub(1).filter(|&place| place > 0)?);
    let two = rng.within(one + 1, last);
    dump.steps[t].swap(one, two);
    Some(3)
}

/// A line again: as it is or with another value, after it or later.
fn twice(rng: &mut Rng, dump: &mut Dump, t: usize) -> Option<usize> {
    let (place, column) = any_line(rng, dump, t)?;
    let mut line = dump.steps[t][place].clone();
    if rng.flag() {
        let bit = usize::from(VARIABLES[column].width > 1);
        line[bit] ^= 1;
    }
    let at = rng.within(place + 1, dump.steps[t].len());
    dump.steps[t].insert(at, line);
    Some(3)
}

fn missing(rng: &mut Rng, dump: &mut Dump, t: usize) -> Option<usize> {
    if t > 0 {
        return None;
    }
    for _ in 0..rng.pick(&[1, 1, 2, 11]) {
        let last = dump.steps[0].len() - 1;
        if last > 0 {
            dump.steps[0].remove(rng.within(1, last));
        }
    }
    Some(3)
}

fn width(rng: &mut Rng, dump: &mut Dump, t: usize) -> Option<usize> {
    let (place, column) = line_of(rng, dump, t, &VECTORS)?;
    let width = VARIABLES[column].width;
    let other = rng.pick(&[0, 1, width - 1, width + 1, width + 1, 2, 3, 4, 16, 17, 32]);
    if other == width {
        return None;
    }
    let bits: String = (0..other).map(|_| rng.pick(&['0', '1'])).collect();
    dump.steps[t][place] = format!("b{bits} {}\n", char::from(VARIABLES[column].code)).into_bytes();
    Some(3)
}

/// A vector as a scalar, a scalar as a vector, a real number.
fn kind(rng: &mut Rng, dump: &mut Dump, t: usize) -> Option<usize> {
    let (place, column) = any_line(rng, dump, t)?;
    let variable = char::from(VARIABLES[column].code);
    let line = match (VARIABLES[column].width, rng.below(2)) {
        (1, _) => format!("{} {variable}\n", rng.pick(&["b1", "b0", "b01", "r1", "B1", "b"])),
        (_, 0) => format!("{}{variable}\n", rng.pick(&['0', '1', 'x', 'z'])),
        _ => {
            let line = &mut dump.steps[t][place];
            line[0] = rng.pick(b"BrR");
            return Some(3);
        }
    };
    dump.steps[t][place] = line.into_bytes();
    Some(3)
}

/// A line with a byte too many or too few, which leaves its code as it is.
fn form(rng: &mut Rng, dump: &mut Dump, t: usize) -> Option<usize> {
    let (place, column) = any_line(rng, dump, t)?;
    let scalar = VARIABLES[column].width == 1;
    let line = &mut dump.steps[t][place];
    let end = line.len() - 1;
    match rng.below(8) {
        0 => line.insert(end, b' '),
        1 => line.insert(end, b'\r'),
        2 => line.insert(end, b'\t'),
        3 => line.insert(0, b' '),
        4 if scalar => line.insert(1, b' '),
        5 if scalar => {
            line.remove(1);
        }
        4 => line.insert(end - 1, b' '),
        5 => {
            line.remove(end - 2);
        }
        6 => line.insert(end + 1, b'\n'),
        // no space, but something else
        _ if !scalar => line[end - 2] = rng.pick(b"\t_,0\0"),
        _ => line.insert(end, 0x7f),
    }
    Some(3)
}

fn no_shape(rng: &mut Rng, dump: &mut Dump, t: usize) -> Option<usize> {
    let lines = [
        "\n", " \n", "hello\n", "$end\n", "$dumpvars\n", "$comment x $end\n", ".\n", "-\n", "2!\n", "b\n", "b \n", "0\n", "b11\n",
        "s1 !\n", "0 !\n", "b0  !\n", "\r\n", "!\n", "B\n", "%0\n",
    ];
    let place = rng.within(1, dump.steps[t].len());
    dump.steps[t].insert(place, rng.pick(&lines).as_bytes().to_vec());
    Some(3)
}

/// A character in a value that is no bit; LF and `#` at the start of a line are other faults, and so is a space in a vector.
fn no_bit(rng: &mut Rng, dump: &mut Dump, t: usize) -> Option<usize> {
    let (place, column) = any_line(rng, dump, t)?;
    let (from, width) = (usize::from(VARIABLES[column].width > 1), VARIABLES[column].width);
    let byte = if rng.flag() { rng.pick(b"xXzZ23/-!") } else { rng.byte() };
    if matches!(byte, b'\n' | b'#' | b' ' | b'0' | b'1') {
        return None;
    }
    dump.steps[t][place][from + rng.below(width)] = byte;
    Some(4)
}

fn not_built(rng: &mut Rng, dump: &mut Dump, t: usize) -> Option<usize> {
    match rng.below(6) {
        0 => dump.set(t, 3, 1),
        burst => dump.set(t, 4, [2, 4, 5, 6, 7][burst - 1]),
    }
    Some(5)
}

/// A master that is not there, mostly the first of them.
fn stranger(rng: &mut Rng, n: usize) -> Option<u16> {
    (n < 16).then(|| if rng.flag() { n as u16 } else { rng.within(n, 15) as u16 })
}

fn absent(rng: &mut Rng, dump: &mut Dump, t: usize) -> Option<usize> {
    let column = rng.pick(&MASKS);
    let value = values(&dump.trace[t])[column] | 1 << stranger(rng, dump.n)?;
    dump.set(t, column, value);
    Some(6)
}

fn owner(rng: &mut Rng, dump: &mut Dump, t: usize) -> Option<usize> {
    let value = stranger(rng, dump.n)?;
    dump.set(t, 6, value);
    Some(7)
}

/// A dump and a step of it, the first more often.
fn drawn(rng: &mut Rng, n: usize) -> (Dump, usize) {
    let cycles = if rng.chance(1, 4) { rng.within(11, 120) } else { rng.within(1, 6) };
    let dump = Dump::of(n, &any_trace(rng, n, cycles));
    let step = if rng.chance(1, 3) { 0 } else { rng.below(cycles) };
    (dump, step)
}

/// The case of a fault in a step, if it has room for it.
fn spoiled(rng: &mut Rng, mut dump: Dump, t: usize, fault: usize) -> Option<Case> {
    let line = dump.line(t);
    let number = FAULTS[fault % FAULTS.len()].1(rng, &mut dump, t)?;
    Some(Case { promise: Promise::Refused(line, number), ..plain(Program::Vcd2trace, dump.text()) })
}

/// Fault `turn`, in a step that has room for it.
pub fn single(rng: &mut Rng, n: usize, turn: usize) -> Vec<Case> {
    let mut tries = (0..50).filter_map(|_| {
        let (dump, t) = drawn(rng, n.min(15));
        spoiled(rng, dump, t, turn)
    });
    tries.next().into_iter().collect()
}

/// Fault `turn` after thousands of cycles: anywhere, or in a step next to the edge of a block.
pub fn far(rng: &mut Rng, n: usize, turn: usize) -> Vec<Case> {
    let cycles = rng.within(2500, 6000);
    let dump = Dump::of(n.min(15), &any_trace(rng, n.min(15), cycles));
    let mut ends = Vec::with_capacity(cycles);
    let mut end = dump.header.len();
    for step in &dump.steps {
        end += step.iter().map(Vec::len).sum::<usize>();
        ends.push(end);
    }
    let edge = rng.pick(&[4096, 8192, 16384, 32768, 49152, 65536]);
    let mut tries = (0..50).filter_map(|_| {
        let near = ends.iter().position(|&end| end + 120 > edge).filter(|_| rng.flag());
        let t = near.map_or(rng.below(cycles), |t| (t + rng.below(12)).min(cycles - 1));
        spoiled(rng, dump.clone(), t, turn)
    });
    tries.next().into_iter().collect()
}

/// Two to four faults in one step.
pub fn several(rng: &mut Rng, n: usize) -> Vec<Case> {
    let (mut dump, t) = drawn(rng, n);
    // those that build the step anew first
    let mut faults: Vec<usize> = (0..rng.within(2, 4)).map(|_| rng.below(FAULTS.len())).collect();
    faults.sort_by_key(|&fault| std::cmp::Reverse(fault));
    for fault in faults {
        FAULTS[fault].1(rng, &mut dump, t);
    }
    vec![plain(Program::Vcd2trace, dump.text())]
}

/// Steps of about the length that is looked at, with something to find next to the place where looking stops.
pub fn long(rng: &mut Rng, n: usize, turn: usize) -> Vec<Case> {
    let (mut dump, t) = drawn(rng, n);
    let filler = rng.pick(&["b11 $\n", "\n", "hello\n", "0#\n", "b0000000000000000 !\n", " ", "x", "b"]);
    let mut step = if rng.flag() { dump.steps[t].concat() } else { dump.steps[t][0].clone() };
    let end = LONGEST + 5 - turn % 16;
    while step.len() + filler.len() <= end {
        step.extend(filler.bytes());
    }
    step.resize(end, b'-');
    let last = rng.pick(&["\n1,\n", "\n1!!\n", "\nb1 ,\n", "\nb1 !!\n", "\nb1 !\n", "\nr1 ~", "\n", "\n0", "\n#", "1,\n", "\nb1  ,\n"]);
    step.extend(last.bytes());
    dump.steps[t] = vec![step];
    if rng.chance(1, 3) {
        dump.steps.truncate(t + 1);
    }
    vec![plain(Program::Vcd2trace, dump.text())]
}
