//! Dumps: the eleven variables, the header, the step of a cycle, and the program that writes them.

use super::lines::{self, Cycle, FULL, LIMIT};
use std::io::Write;

/// A variable of a dump: a column, its width in bits, and its code.
pub struct Variable {
    pub name: &'static str,
    pub width: usize,
    pub code: u8,
}

const fn variable(name: &'static str, width: usize, code: u8) -> Variable {
    Variable { name, width, code }
}

/// The variables in column order.
pub const VARIABLES: [Variable; 11] = [
    variable("HBUSREQ", 16, b'!'),
    variable("HLOCK", 16, b'"'),
    variable("HREADY", 1, b'#'),
    variable("HTRANS", 2, b'$'),
    variable("HBURST", 3, b'%'),
    variable("HGRANT", 16, b'&'),
    variable("HMASTER", 4, b'\''),
    variable("HMASTLOCK", 1, b'('),
    variable("DECIDE", 1, b')'),
    variable("GRANTED", 1, b'*'),
    variable("BUSREQ", 1, b'+'),
];

/// The values of a cycle in column order, and the cycle of such values.
pub fn values(c: &Cycle) -> [u16; 11] {
    let [ready, lock, decide, granted, busreq] =
        [c.hready, c.hmastlock, c.decide, c.granted, c.busreq].map(u16::from);
    let [trans, burst, master] = [c.htrans, c.hburst, c.hmaster].map(u16::from);
    [c.hbusreq, c.hlock, ready, trans, burst, c.hgrant, master, lock, decide, granted, busreq]
}

pub fn cycle(v: &[u16; 11]) -> Cycle {
    Cycle {
        hbusreq: v[0],
        hlock: v[1],
        hready: v[2] == 1,
        htrans: v[3] as u8,
        hburst: v[4] as u8,
        hgrant: v[5],
        hmaster: v[6] as u8,
        hmastlock: v[7] == 1,
        decide: v[8] == 1,
        granted: v[9] == 1,
        busreq: v[10] == 1,
    }
}

/// The header, with any text in the place of n.
pub fn header(n: &str) -> String {
    let declared: String =
        VARIABLES.iter().map(|v| format!("$var wire {} {} {} $end\n", v.width, char::from(v.code), v.name)).collect();
    format!(
        "$comment masters {n} $end\n$timescale 1 ns $end\n$scope module ahb $end\n{declared}$upscope $end\n$enddefinitions $end\n"
    )
}

/// The line of a value.
pub fn change(variable: &Variable, value: u16) -> String {
    let code = char::from(variable.code);
    match variable.width {
        1 => format!("{value}{code}\n"),
        width => format!("b{value:0width$b} {code}\n"),
    }
}

/// The step of cycle t, after the cycle before it, if there is one.
pub fn write_step(out: &mut Vec<u8>, t: usize, before: Option<&Cycle>, now: &Cycle) {
    write!(out, "#{t}\n").unwrap();
    let old = before.map(values);
    for (column, value) in values(now).into_iter().enumerate() {
        if old.map_or(true, |old| old[column] != value) {
            out.extend(change(&VARIABLES[column], value).bytes());
        }
    }
}

/// The program that writes dumps: a trace in, its dump out.
pub fn program(input: &[u8]) -> Vec<u8> {
    let mut out = Vec::with_capacity(input.len() * 2 + 512);
    let (n, start) = match lines::read_header(input, "trace") {
        Ok(read) => read,
        Err(refusal) => {
            lines::write_refusal(&mut out, 1, refusal);
            return out;
        }
    };
    out.extend(header(&n.to_string()).bytes());
    let mut before = None;
    for t in 0.. {
        let refusal = match lines::read_trace(input, start + t * lines::TRACE_SHAPE.len(), n) {
            Ok(None) => break,
            Ok(Some(now)) if t < LIMIT => {
                write_step(&mut out, t, before.as_ref(), &now);
                before = Some(now);
                continue;
            }
            Ok(Some(_)) => FULL,
            Err(refusal) => refusal,
        };
        lines::write_refusal(&mut out, t + 2, refusal);
        break;
    }
    out
}
