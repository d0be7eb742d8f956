//! Runs a program under test as a child process on one input.

use crate::case::{Case, Feed};
use std::io::{self, Read, Write};
use std::process::{Child, ChildStdin, Command, Stdio};
use std::sync::mpsc::{channel, Receiver};
use std::thread;
use std::time::{Duration, Instant};

/// How a child process ended.
#[derive(Clone, Copy, PartialEq, Eq, Debug)]
pub enum Ended {
    Well,
    /// With a status other than 0, or by a signal.
    Badly(Option<i32>),
    /// It was stopped because it took too long.
    Late,
}

pub struct Outcome {
    pub stdout: Vec<u8>,
    pub stderr: Vec<u8>,
    pub ended: Ended,
}

/// Before the first piece of a slow feed, so that the program waits for it, and between pieces.
const BEFORE: Duration = Duration::from_millis(80);
const BETWEEN: Duration = Duration::from_micros(150);

/// Runs the command on the case's input and gives what it wrote. The error is of starting it.
pub fn run(command: &[String], case: &Case) -> io::Result<Outcome> {
    let mut child = Command::new(&command[0])
        .args(&command[1..])
        .stdin(Stdio::piped())
        .stdout(Stdio::piped())
        .stderr(Stdio::piped())
        .spawn()?;
    // a minute, and a second more for every 100,000 bytes
    let deadline = Instant::now() + Duration::from_secs(60 + case.input.len() as u64 / 100_000);
    let stdin = child.stdin.take().expect("stdin is piped");
    let (input, feed) = (case.input.clone(), case.feed.clone());
    thread::spawn(move || write_input(stdin, &input, &feed));
    let stdout = read_all(child.stdout.take().expect("stdout is piped"));
    let stderr = read_all(child.stderr.take().expect("stderr is piped"));
    let written = collect(&stdout, deadline).and_then(|out| Some((out, collect(&stderr, deadline)?)));
    let ended = if written.is_some() { wait(&mut child, deadline) } else { Ended::Late };
    if ended == Ended::Late {
        let _ = child.kill();
        let _ = child.wait();
    }
    let (stdout, stderr) = written.unwrap_or_default();
    Ok(Outcome { stdout, stderr, ended })
}

/// Writes the input and closes the pipe. A program may stop reading after a refusal, so a broken pipe
/// is no fault.
fn write_input(mut pipe: ChildStdin, input: &[u8], feed: &Feed) {
    let sizes = match feed {
        Feed::Whole => {
            let _ = pipe.write_all(input);
            return;
        }
        Feed::Pieces(sizes) => sizes,
    };
    thread::sleep(BEFORE);
    let mut rest = input;
    for &size in sizes.iter().cycle() {
        let (piece, after) = rest.split_at(size.min(rest.len()));
        if piece.is_empty() || pipe.write_all(piece).is_err() {
            return;
        }
        rest = after;
        thread::sleep(BETWEEN);
    }
}

fn read_all(mut pipe: impl Read + Send + 'static) -> Receiver<Vec<u8>> {
    let (send, receive) = channel();
    thread::spawn(move || {
        let mut all = Vec::new();
        let _ = pipe.read_to_end(&mut all);
        let _ = send.send(all);
    });
    receive
}

fn collect(from: &Receiver<Vec<u8>>, deadline: Instant) -> Option<Vec<u8>> {
    from.recv_timeout(deadline.saturating_duration_since(Instant::now())).ok()
}

fn wait(child: &mut Child, deadline: Instant) -> Ended {
    loop {
        match child.try_wait() {
            Ok(Some(status)) if status.success() => return Ended::Well,
            Ok(Some(status)) => return Ended::Badly(status.code()),
            Ok(None) if Instant::now() < deadline => thread::sleep(Duration::from_micros(200)),
            _ => return Ended::Late,
        }
    }
}
