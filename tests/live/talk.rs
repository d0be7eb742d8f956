//! One talk with a program over two pipes.

use crate::script::Script;
use std::io::{Read, Write};
use std::process::{Child, Command, Stdio};
use std::sync::mpsc::{channel, Receiver};
use std::thread;
use std::time::{Duration, Instant};

/// How long an answer may take, the start of the program included.
const LIMIT: Duration = Duration::from_secs(2);

/// Holds a program to a script; answers how long each of its answers took, in microseconds.
pub fn hold(command: &str, script: &Script) -> Result<Vec<u128>, String> {
    let mut child = Command::new(command)
        .stdin(Stdio::piped())
        .stdout(Stdio::piped())
        .spawn()
        .map_err(|error| format!("{command} does not start: {error}"))?;
    let times = converse(&mut child, script);
    if times.is_err() {
        let _ = child.kill();
    }
    let status = child.wait().map_err(|error| error.to_string())?.code();
    let times = times?;
    if status == Some(script.status) { Ok(times) } else { Err(format!("it ended with {status:?} and not with {}", script.status)) }
}

fn converse(child: &mut Child, script: &Script) -> Result<Vec<u128>, String> {
    let mut stdin = child.stdin.take().expect("stdin is piped");
    let heard = listen(child.stdout.take().expect("stdout is piped"));
    let mut times = Vec::new();
    for (number, (piece, reply)) in script.pieces.iter().enumerate() {
        let began = Instant::now();
        stdin.write_all(piece).map_err(|error| format!("piece {number} is not taken: {error}"))?;
        if !reply.is_empty() {
            expect(&heard, reply).map_err(|fault| format!("after piece {number} {fault}"))?;
            times.push(began.elapsed().as_micros());
        }
    }
    let mut open = Some(stdin);
    if let Some(end) = &script.end {
        open = None;
        let began = Instant::now();
        expect(&heard, end).map_err(|fault| format!("at the end {fault}"))?;
        if times.is_empty() {
            times.push(began.elapsed().as_micros());
        }
    }
    match heard.recv_timeout(LIMIT) {
        Ok(more) => return Err(format!("there is more: {}", show(&more))),
        Err(std::sync::mpsc::RecvTimeoutError::Timeout) => return Err("it does not end".to_string()),
        Err(_) => drop(open),
    }
    Ok(times)
}

fn listen(mut pipe: impl Read + Send + 'static) -> Receiver<Vec<u8>> {
    let (send, receive) = channel();
    thread::spawn(move || {
        let mut bytes = [0; 65536];
        while let Ok(got @ 1..) = pipe.read(&mut bytes) {
            if send.send(bytes[..got].to_vec()).is_err() {
                return;
            }
        }
    });
    receive
}

fn expect(heard: &Receiver<Vec<u8>>, wanted: &[u8]) -> Result<(), String> {
    let (mut got, deadline) = (Vec::new(), Instant::now() + LIMIT);
    while got.len() < wanted.len() {
        match heard.recv_timeout(deadline.saturating_duration_since(Instant::now())) {
            Ok(more) => got.extend(more),
            Err(_) => return Err(format!("only this came in time: {}", show(&got))),
        }
    }
    if got == wanted { Ok(()) } else { Err(format!("this came: {} and not {}", show(&got), show(wanted))) }
}

fn show(bytes: &[u8]) -> String {
    format!("{:?}", String::from_utf8_lossy(bytes))
}
