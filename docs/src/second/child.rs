//! Runs a program under test with some input and takes what it prints.

use crate::rng::Rng;
use std::ffi::OsString;
use std::io::{Read, Write};
use std::process::{Child, Command, ExitStatus, Stdio};
use std::sync::mpsc;
use std::thread;
use std::time::Duration;

/// A program that is silent for so long has failed.
const PATIENCE: Duration = Duration::from_secs(120);
const PAUSE: Duration = Duration::from_millis(4);

pub struct Outcome {
    pub output: Vec<u8>,
    pub status: ExitStatus,
}

impl Outcome {
    /// The only line printed; what was printed with escapes if it is not one line.
    pub fn only_line(&self) -> String {
        match self.output.split_last() {
            Some((10, line)) if !line.contains(&10) => line.escape_ascii().to_string(),
            _ => format!("(not one line) {}", self.output.escape_ascii()),
        }
    }

    /// Ended by a signal, or as a panic ends.
    pub fn crashed(&self) -> bool {
        matches!(self.status.code(), None | Some(101))
    }
}

/// So many pieces, one more than there are cuts; together they are the input.
pub fn cut(rng: &mut Rng, input: &[u8], cuts: usize) -> Vec<Vec<u8>> {
    let mut pieces = Vec::new();
    let mut left = input;
    for _ in 0..cuts {
        let (piece, rest) = left.split_at(rng.below(left.len() + 1));
        pieces.push(piece.to_vec());
        left = rest;
    }
    pieces.push(left.to_vec());
    pieces
}

pub fn run(program: &str, arguments: &[OsString], pieces: Vec<Vec<u8>>) -> Result<Outcome, String> {
    run_with_pause(program, arguments, pieces, PAUSE)
}

/// Input goes in pieces from a thread of its own, so that neither pipe can block the other. If the pause
/// before the second piece is longer than the program needs to start, it reads the first one alone.
pub fn run_with_pause(
    program: &str,
    arguments: &[OsString],
    pieces: Vec<Vec<u8>>,
    first_pause: Duration,
) -> Result<Outcome, String> {
    let mut child = start(program, arguments)?;
    let input = child.stdin.take();
    let writer = thread::spawn(move || {
        let mut input = match input {
            Some(input) => input,
            None => return,
        };
        for (number, piece) in pieces.iter().enumerate() {
            match number {
                0 => {}
                1 => thread::sleep(first_pause),
                _ => thread::sleep(PAUSE),
            }
            // A program may stop reading early; its answer is judged, not this.
            if input.write_all(piece).and_then(|_| input.flush()).is_err() {
                return;
            }
        }
    });
    let output = collect(&mut child, program)?;
    let status = child.wait().map_err(|error| format!("{program}: {error}"))?;
    writer.join().map_err(|_| String::from("the writing thread failed"))?;
    Ok(Outcome { output, status })
}

fn start(program: &str, arguments: &[OsString]) -> Result<Child, String> {
    Command::new(program)
        .args(arguments)
        .stdin(Stdio::piped())
        .stdout(Stdio::piped())
        .stderr(Stdio::null())
        .spawn()
        .map_err(|error| format!("{program} cannot be started: {error}"))
}

/// Everything printed, if it comes within the time allowed.
fn collect(child: &mut Child, program: &str) -> Result<Vec<u8>, String> {
    let stdout = child.stdout.take();
    let (sender, receiver) = mpsc::channel();
    thread::spawn(move || {
        let mut output = Vec::new();
        if let Some(mut stdout) = stdout {
            let _ = stdout.read_to_end(&mut output);
        }
        let _ = sender.send(output);
    });
    receiver.recv_timeout(PATIENCE).map_err(|_| {
        let _ = child.kill();
        let _ = child.wait();
        format!("{program} did not end within {} seconds", PATIENCE.as_secs())
    })
}
