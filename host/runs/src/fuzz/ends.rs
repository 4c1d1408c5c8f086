//! Standard streams that are no ordinary pipes: input that does not wait for its octets, output that
//! nobody reads, and what the shell puts in place of a stream or closes.

use crate::compare::difference;
use crate::perform::perform;
use crate::run::{Done, Files, Given};
use std::io::{self, Write};
use std::os::fd::{AsRawFd, OwnedFd};
use std::os::unix::net::UnixStream;
use std::path;
use std::process::{Child, Stdio};
use std::sync::mpsc::channel;
use std::thread;
use std::time::Duration;
use tool::scratch::Scratch;
use tool::Tool;

extern "C" {
    fn fcntl(descriptor: i32, command: i32, ...) -> i32;
}

const F_GETFL: i32 = 3;
const F_SETFL: i32 = 4;
const O_NONBLOCK: i32 = 0o4000;

/// What is written at a time, and how long nothing is.
const PIECE: usize = 7;
const PAUSE: Duration = Duration::from_millis(3);
/// How long a program may take to say that its input does not wait. It is long, since the machine may
/// be busy.
const LIMIT: Duration = Duration::from_secs(120);

/// Calls that are done with such streams.
pub struct Odd {
    /// What the program says is said under this name.
    pub name: &'static str,
    /// Their input comes slowly.
    pub slow: Vec<Given>,
    /// It writes more than a pipe holds, and nobody reads it.
    pub unread: Given,
    /// It reads standard input, which cannot be made to wait.
    pub unwaiting: Given,
    pub redirected: Vec<Redirected>,
}

#[derive(Clone)]
pub struct Redirected {
    /// As the shell has it.
    pub how: &'static str,
    pub given: Given,
    /// What is due, beside what the program does without it.
    pub due: fn(Done) -> Done,
}

impl Odd {
    /// What is wrong with how a program meets a slow pipe that does not wait, output that nobody reads,
    /// and other streams by the shell.
    pub fn of_any(&self, tool: &Tool) -> Result<Vec<String>, String> {
        let mut lines = Vec::new();
        for given in &self.slow {
            let (due, found) = slowly(tool, given)?;
            let how = format!("{}, with a pipe that does not wait", given.call());
            lines.extend(told(tool, &how, &due, &found));
        }
        let found = unread(tool, &self.unread)?;
        let due = Done {
            said: format!("{}: cannot write standard output: Broken pipe\n", self.name).into(),
            status: Some(1),
            ..Done::default()
        };
        lines.extend(told(tool, "output that nobody reads", &due, &found));
        for redirected in &self.redirected {
            let (due, found) = by_shell(tool, redirected)?;
            let how = format!("{} {}", redirected.given.call(), redirected.how);
            lines.extend(told(tool, &how, &due, &found));
        }
        Ok(lines)
    }

    /// What is wrong with how a program meets input that cannot be made to wait.
    pub fn of_unwaiting(&self, tool: &Tool) -> Result<Vec<String>, String> {
        let found = by_socket(tool, &self.unwaiting)?;
        let what = "cannot read standard input, which does not wait: No such device or address";
        let due = Done {
            said: format!("{}: {what}\n", self.name).into(),
            status: Some(1),
            ..Done::default()
        };
        let line = told(tool, "a socket that does not wait", &due, &found);
        Ok(line.into_iter().collect())
    }
}

fn told(tool: &Tool, how: &str, due: &Done, found: &Done) -> Option<String> {
    difference(due, found).map(|line| named(tool, &format!("{how}: {line}")))
}

fn named(tool: &Tool, line: &str) -> String {
    format!("{}: {line}", tool.command.join(" "))
}

/// What the program has to do with a pipe that waits, and what it does with one that does not.
fn slowly(tool: &Tool, given: &Given) -> Result<(Done, Done), String> {
    let told = |error: io::Error| format!("a pipe that does not wait: {error}");
    let scratch = Scratch::with(&given.files)?;
    let (reader, mut writer) = io::pipe().map_err(told)?;
    stop_waiting(&reader).map_err(told)?;
    let child = tool.start(scratch.folder(), &given.words, Stdio::from(reader))?;
    let input = given.input.clone();
    // It ends where the program does, which may be before everything is written.
    thread::spawn(move || {
        input.chunks(PIECE).try_for_each(|piece| {
            thread::sleep(PAUSE);
            writer.write_all(piece)
        })
    });
    let found = done(child, &scratch)?;
    Ok((perform(tool, given)?, found))
}

fn stop_waiting(end: &impl AsRawFd) -> io::Result<()> {
    let descriptor = end.as_raw_fd();
    // SAFETY: the descriptor is open for as long as its owner is borrowed, and the two commands take
    // and give numbers alone.
    let set = unsafe {
        let flags = fcntl(descriptor, F_GETFL);
        fcntl(descriptor, F_SETFL, flags | O_NONBLOCK)
    };
    if set < 0 {
        return Err(io::Error::last_os_error());
    }
    Ok(())
}

/// What the program does where standard input is a socket that does not wait: that cannot be opened
/// again by a name.
fn by_socket(tool: &Tool, given: &Given) -> Result<Done, String> {
    let told = |error: io::Error| format!("a socket: {error}");
    let scratch = Scratch::with(&Files::new())?;
    let (ours, theirs) = UnixStream::pair().map_err(told)?;
    theirs.set_nonblocking(true).map_err(told)?;
    let input = Stdio::from(OwnedFd::from(theirs));
    let child = tool.start(scratch.folder(), &given.words, input)?;
    while_nothing_comes(child, &scratch, ours)
}

/// What the program does while nothing is written to the other end of its input. After a while that is
/// closed, so that a program that waits all the same ends.
fn while_nothing_comes(
    child: Child,
    scratch: &Scratch,
    other_end: impl Send + 'static,
) -> Result<Done, String> {
    let (ended, end) = channel::<()>();
    thread::spawn(move || {
        // Either the program has ended, or the time is over.
        let _ = end.recv_timeout(LIMIT);
        std::mem::drop(other_end);
    });
    let found = done(child, scratch)?;
    std::mem::drop(ended);
    Ok(found)
}

fn done(child: Child, scratch: &Scratch) -> Result<Done, String> {
    let output = child.wait_with_output().map_err(|e| e.to_string())?;
    Ok(Done {
        output: output.stdout,
        said: output.stderr,
        status: output.status.code(),
        files: scratch.files()?,
    })
}

/// What is due, and what the program does, where the shell starts it with another stream.
fn by_shell(tool: &Tool, redirected: &Redirected) -> Result<(Done, Done), String> {
    let due = (redirected.due)(perform(tool, &redirected.given)?);
    let (program, before) = tool.command.split_first().ok_or("no command given")?;
    let program = path::absolute(program).map_err(|e| e.to_string())?;
    let line = format!("exec \"$0\" \"$@\" {}", redirected.how);
    let shell = ["sh", "-c", &line, &program.to_string_lossy()];
    let other = Tool {
        command: [shell.map(str::to_string).as_slice(), before].concat(),
    };
    Ok((due, perform(&other, &redirected.given)?))
}

/// What the program does where nobody reads what it writes. No signal ends it: the write fails as any other.
fn unread(tool: &Tool, given: &Given) -> Result<Done, String> {
    let scratch = Scratch::with(&Files::new())?;
    let mut child = tool.start(scratch.folder(), &given.words, Stdio::piped())?;
    std::mem::drop(child.stdout.take());
    if let Some(mut pipe) = child.stdin.take() {
        // The program may be gone before it has read everything.
        let _ = pipe.write_all(&given.input);
    }
    let output = child.wait_with_output().map_err(|e| e.to_string())?;
    Ok(Done {
        said: output.stderr,
        status: output.status.code(),
        ..Done::default()
    })
}

#[cfg(test)]
mod tests {
    use super::*;

    fn shell(line: &str) -> Tool {
        Tool {
            command: ["sh", "-c", line].map(str::to_string).to_vec(),
        }
    }

    #[test]
    fn a_pipe_does_not_wait_where_it_is_told_so() {
        let scratch = Scratch::with(&Files::new()).unwrap();
        let (reader, writer) = io::pipe().unwrap();
        stop_waiting(&reader).unwrap();
        let words: [&str; 0] = [];
        let child = shell("exec cat").start(scratch.folder(), &words, Stdio::from(reader));
        let found = while_nothing_comes(child.unwrap(), &scratch, writer).unwrap();
        assert_eq!((found.output.len(), found.status), (0, Some(1)));
    }

    /// Opened by its name it waits, however busy the machine is.
    #[test]
    fn what_comes_slowly_comes_whole() {
        let given = Given {
            input: vec![b'x'; 20],
            ..Given::default()
        };
        let (due, found) = slowly(&shell("exec cat /dev/stdin"), &given).unwrap();
        assert_eq!((found.output.len(), found.status), (20, Some(0)));
        assert_eq!(due, found);
    }

    #[test]
    fn a_filter_is_ended_by_the_signal_and_another_program_is_not() {
        let given = Given {
            input: vec![b'x'; 100_000],
            ..Given::default()
        };
        let status = |line: &str| unread(&shell(line), &given).map(|done| done.status);
        assert_eq!(status("exec cat"), Ok(None));
        assert_eq!(status("cat >/dev/null"), Ok(Some(0)));
    }

    #[test]
    fn a_socket_is_no_file_with_a_name() {
        let found = by_socket(&shell("cat /dev/stdin"), &Given::default()).unwrap();
        assert_eq!(found.status, Some(1));
        let said = String::from_utf8_lossy(&found.said).into_owned();
        assert!(said.contains("No such device or address"), "{said}");
    }

    #[test]
    fn the_shell_puts_another_stream_in_place() {
        let redirected = Redirected {
            how: ">/dev/full",
            given: Given {
                input: b"x".to_vec(),
                ..Given::default()
            },
            due: |done| done,
        };
        let cat = Tool {
            command: vec!["/bin/cat".to_string(), "-".to_string()],
        };
        let (due, found) = by_shell(&cat, &redirected).unwrap();
        assert_eq!((due.output, due.status), (b"x".to_vec(), Some(0)));
        assert_eq!((found.output, found.status), (vec![], Some(1)));
    }
}
