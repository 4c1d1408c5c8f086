//! Time or instructions. Time is the least of several rounds, in which the programs take turns, so
//! that a load that comes and goes meets all of them. Instructions are those of the whole run less
//! those of a run on nothing, so that starting the program does not count.

use crate::program::{Program, Run};
use std::io::{self, IsTerminal};

#[derive(Clone, Copy, PartialEq, Eq)]
pub enum Measure {
    Time,
    Count,
}

pub struct Measured {
    /// Seconds, or instructions.
    pub cost: f64,
    pub octets: Vec<u8>,
}

const ROUNDS: usize = 5;

impl Measure {
    pub fn named(word: &str) -> Option<Measure> {
        match word {
            "time" => Some(Measure::Time),
            "count" => Some(Measure::Count),
            _ => None,
        }
    }

    pub fn heading(self, seconds: usize, samples: usize) -> String {
        let how = match self {
            Measure::Time => format!("nanoseconds a sample, least of {ROUNDS} rounds in turns"),
            Measure::Count => "instructions a sample".to_string(),
        };
        format!("{seconds} s of speech, {samples} samples; {how}")
    }

    pub fn unit(self) -> f64 {
        match self {
            Measure::Time => 1e9,
            Measure::Count => 1.0,
        }
    }

    /// Each program's cost on its own input, which is made from its place in the list.
    pub fn of(
        self,
        programs: &[&Program],
        call: &str,
        input: impl Fn(usize) -> Vec<u8>,
    ) -> Result<Vec<Measured>, String> {
        let rounds = match self {
            Measure::Time => ROUNDS,
            Measure::Count => 1,
        };
        let mut least: Vec<Option<Measured>> = programs.iter().map(|_| None).collect();
        for round in 1..=rounds {
            progress(&format!("{call}: round {round} of {rounds}"));
            for (place, program) in programs.iter().enumerate() {
                let measured = self.once(program, call, &input(place))?;
                let best = &mut least[place];
                if best.as_ref().is_none_or(|b| measured.cost < b.cost) {
                    *best = Some(measured);
                }
            }
        }
        progress("");
        Ok(least.into_iter().flatten().collect())
    }

    fn once(self, program: &Program, call: &str, input: &[u8]) -> Result<Measured, String> {
        let run = program.run(call, input)?;
        let cost = match self {
            Measure::Time => run.took.as_secs_f64(),
            Measure::Count => counted(&run)? - counted(&program.run(call, b"")?)?,
        };
        let octets = run.octets;
        Ok(Measured { cost, octets })
    }
}

/// On a terminal, in a line that the next one overwrites.
fn progress(line: &str) {
    if io::stderr().is_terminal() {
        eprint!("\r{line:40}\r");
    }
}

/// The last number that stands after what callgrind ("Collected :") or the counter of this folder
/// ("instructions:") writes.
fn counted(run: &Run) -> Result<f64, String> {
    let count = |line: &str| {
        let (_, number) = line
            .split_once("instructions: ")
            .or_else(|| line.split_once("Collected : "))?;
        number.trim().parse().ok()
    };
    run.said
        .lines()
        .rev()
        .find_map(count)
        .ok_or_else(|| "no count of instructions was written".to_string())
}

#[cfg(test)]
mod tests {
    use super::*;
    use std::time::Duration;

    fn said(text: &str) -> Run {
        Run {
            took: Duration::ZERO,
            octets: Vec::new(),
            said: text.to_string(),
        }
    }

    #[test]
    fn both_counters_are_read() {
        assert_eq!(counted(&said("instructions: 42\n")), Ok(42.0));
        let callgrind = "==7== Events    : Ir\n==7== Collected : 1269\n==7== \n";
        assert_eq!(counted(&said(callgrind)), Ok(1269.0));
        assert!(counted(&said("nothing\n")).is_err());
    }
}
