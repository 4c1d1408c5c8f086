//! How far it is, on standard error: one line that counts up on a terminal, elsewhere a line now and
//! then.

use crate::verdict::Verdict;
use std::io::{stderr, IsTerminal};
use std::sync::Mutex;
use std::time::{Duration, Instant};

/// Where there is no terminal, after how many mutants a line is due.
const STEP: usize = 50;

pub struct Progress {
    total: usize,
    started: Instant,
    is_terminal: bool,
    counts: Mutex<Counts>,
}

#[derive(Clone, Copy, Default)]
struct Counts {
    done: usize,
    unseen: usize,
    not_built: usize,
}

impl Progress {
    pub fn new(total: usize) -> Progress {
        Progress {
            total,
            started: Instant::now(),
            is_terminal: stderr().is_terminal(),
            counts: Mutex::default(),
        }
    }

    pub fn tell(&self, verdict: Verdict) {
        let mut counts = self.counts.lock().expect("no judge panics");
        counts.add(verdict);
        let is_last = counts.done == self.total;
        let line = counts.line(self.total, self.started.elapsed());
        if self.is_terminal {
            let end = if is_last { "\n" } else { "" };
            eprint!("\r{line}\x1b[K{end}");
        } else if is_last || counts.done.is_multiple_of(STEP) {
            eprintln!("{line}");
        }
    }
}

impl Counts {
    fn add(&mut self, verdict: Verdict) {
        self.done += 1;
        self.unseen += usize::from(verdict == Verdict::Unseen);
        self.not_built += usize::from(verdict == Verdict::NotBuilt);
    }

    fn line(self, total: usize, elapsed: Duration) -> String {
        let Counts {
            done,
            unseen,
            not_built,
        } = self;
        let left = elapsed.mul_f64((total - done) as f64 / done as f64);
        let left = time(left);
        format!("{done} of {total}; unseen {unseen}, not built {not_built}; {left} left")
    }
}

fn time(duration: Duration) -> String {
    let seconds = duration.as_secs();
    format!("{}:{:02}", seconds / 60, seconds % 60)
}

#[cfg(test)]
mod tests {
    use super::*;

    #[test]
    fn the_line_counts_and_says_what_is_left() {
        let mut counts = Counts::default();
        for verdict in [Verdict::Unseen, Verdict::Seen("it"), Verdict::NotBuilt] {
            counts.add(verdict);
        }
        let line = counts.line(30, Duration::from_secs(21));
        assert_eq!(line, "3 of 30; unseen 1, not built 1; 3:09 left");
    }
}
