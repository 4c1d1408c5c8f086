//! pipes PROGRAM: does as a caller by pipes may with the program `answers` (docs/ANSWERS.md), and ends with 1 where it waits for
//! more than the page says. A caller writes a window of lines before it reads an answer; another reads all answers to a full
//! window before it writes on.

use std::error::Error;
use std::io::{Read, Write};
use std::process::{Child, ChildStdin, ChildStdout, Command, ExitCode, Stdio};
use std::sync::mpsc::{channel, Receiver};
use std::thread;
use std::time::Duration;

/// Octets that the program holds of its input.
const WINDOW: usize = 131_073;
const LINE: &[u8] = b"reset 2\n";
/// Whoever waits as long waits for good; a sound program needs a fraction of a second.
const LONG: Duration = Duration::from_secs(60);

fn main() -> ExitCode {
    let Some(program) = std::env::args().nth(1) else {
        eprintln!("called as: pipes PROGRAM");
        return ExitCode::from(2);
    };
    match write_first(&program).and_then(|()| read_all(&program)) {
        Ok(()) => {
            println!("pipes: a window is taken before an answer is read, and no answer is held back ({program})");
            ExitCode::SUCCESS
        }
        Err(error) => {
            eprintln!("pipes: {program}: {error}");
            ExitCode::FAILURE
        }
    }
}

/// As many octets as the window holds, but one, and no answer is read meanwhile.
fn write_first(program: &str) -> Result<(), Box<dyn Error>> {
    let (mut child, input, mut output) = start(program)?;
    let written = in_background(move || write_lines(input, &LINE.repeat(WINDOW / LINE.len())));
    let taken = written.recv_timeout(LONG).is_ok();
    let mut answers = Vec::new();
    if taken {
        output.read_to_end(&mut answers)?;
    }
    end(&mut child, taken, "it does not take a window of lines before an answer is read")?;
    let lines = answers.iter().filter(|octet| **octet == b'\n').count();
    if lines != WINDOW / LINE.len() {
        return Err(format!("{lines} lines of {}", WINDOW / LINE.len()).into());
    }
    Ok(())
}

/// A full window, whose last line is empty, and the input stays open until every line has come back.
fn read_all(program: &str) -> Result<(), Box<dyn Error>> {
    let (mut child, mut input, mut output) = start(program)?;
    let lines = WINDOW / LINE.len() + 1;
    let mut window = LINE.repeat(lines - 1);
    window.push(b'\n');
    let read = in_background(move || read_lines(&mut output, lines));
    input.write_all(&window)?;
    let whole = read.recv_timeout(LONG).is_ok_and(|whole| whole);
    drop(input);
    end(&mut child, whole, "it holds back answers to a full window while the input is open")
}

fn start(program: &str) -> Result<(Child, ChildStdin, ChildStdout), Box<dyn Error>> {
    let mut child = Command::new(program)
        .stdin(Stdio::piped())
        .stdout(Stdio::piped())
        .spawn()?;
    let input = child.stdin.take().ok_or("no pipe to it")?;
    let output = child.stdout.take().ok_or("no pipe from it")?;
    Ok((child, input, output))
}

/// It is killed where something is wrong, since it may wait for good.
fn end(child: &mut Child, sound: bool, wrong: &str) -> Result<(), Box<dyn Error>> {
    if !sound {
        child.kill()?;
        child.wait()?;
        return Err(wrong.into());
    }
    match child.wait()?.code() {
        Some(0) => Ok(()),
        code => Err(format!("status {code:?}").into()),
    }
}

fn in_background<T: Send + 'static>(work: impl FnOnce() -> T + Send + 'static) -> Receiver<T> {
    let (done, outcome) = channel();
    thread::spawn(move || done.send(work()));
    outcome
}

/// Whether all were taken. The input is closed behind them.
fn write_lines(mut input: ChildStdin, lines: &[u8]) -> bool {
    input.write_all(lines).is_ok()
}

/// Whether so many lines came.
fn read_lines(output: &mut ChildStdout, lines: usize) -> bool {
    let mut part = [0; 4096];
    let mut come = 0;
    while come < lines {
        match output.read(&mut part) {
            Ok(0) | Err(_) => return false,
            Ok(n) => come += part[..n].iter().filter(|octet| **octet == b'\n').count(),
        }
    }
    true
}
