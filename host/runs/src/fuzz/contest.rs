//! Two programs beside each other, call by call: fixed ones, and drawn ones. The first differences are
//! printed as stored runs, in which what the double did is due.

use super::ends::Odd;
use crate::compare::difference;
use crate::perform::perform;
use crate::run::{Done, Given};
use crate::written::text;
use random::Random;
use std::env;
use std::io::{self, Write};
use std::process::ExitCode;
use tool::Tool;

/// What both are called to do.
pub struct Calls {
    pub odd: Odd,
    pub fixed: Vec<Given>,
    pub draw: fn(&mut Random) -> Given,
}

const SHOWN: usize = 10;
/// From so many drawn calls on there is a line of progress.
const MANY: u64 = 500;
const STEP: usize = 100;

/// The program of this name, from its words to its status, which is 1 where something differs.
pub fn run(name: &'static str, calls: &Calls) -> ExitCode {
    let words: Vec<String> = env::args().skip(1).collect();
    let Some((count, seed, mut contest)) = read(name, &words) else {
        eprintln!("how it is called: {name} COUNT SEED PROGRAM DOUBLE");
        return ExitCode::from(2);
    };
    match contest.all(calls, count, seed) {
        Ok(()) if contest.differing == 0 => ExitCode::SUCCESS,
        Ok(()) => ExitCode::FAILURE,
        Err(line) => {
            eprintln!("{name}: {line}");
            ExitCode::FAILURE
        }
    }
}

fn read(name: &'static str, words: &[String]) -> Option<(u64, u64, Contest)> {
    let [count, seed, tool, double] = words else {
        return None;
    };
    let contest = Contest::new(name, tool, double);
    Some((count.parse().ok()?, seed.parse().ok()?, contest))
}

struct Contest {
    name: &'static str,
    tool: Tool,
    double: Tool,
    calls: usize,
    alike: usize,
    /// Calls that were not alike, and ends that were not as they have to be.
    differing: usize,
    /// How often the double ended with 0, 1 and 2.
    statuses: [usize; 3],
}

impl Contest {
    fn new(name: &'static str, tool: &str, double: &str) -> Contest {
        let program = |name: &str| Tool {
            command: vec![name.to_string()],
        };
        Contest {
            name,
            tool: program(tool),
            double: program(double),
            calls: 0,
            alike: 0,
            differing: 0,
            statuses: [0; 3],
        }
    }

    fn all(&mut self, calls: &Calls, count: u64, seed: u64) -> Result<(), String> {
        self.ends(&calls.odd)?;
        for given in &calls.fixed {
            self.compare(given)?;
        }
        let mut random = Random::new(seed);
        let name = self.name;
        for _ in 0..count {
            self.compare(&(calls.draw)(&mut random))?;
            if count >= MANY && self.calls.is_multiple_of(STEP) {
                eprintln!("{name}: {} calls, {} alike", self.calls, self.alike);
            }
        }
        let (alike, calls, [a, b, c]) = (self.alike, self.calls, self.statuses);
        println!("{name}: {alike} of {calls} calls alike (0: {a}, 1: {b}, 2: {c}; seed {seed})");
        Ok(())
    }

    fn compare(&mut self, given: &Given) -> Result<(), String> {
        let due = perform(&self.double, given)?;
        let found = perform(&self.tool, given)?;
        self.calls += 1;
        let status = due.status.and_then(|status| usize::try_from(status).ok());
        if let Some(count) = status.and_then(|status| self.statuses.get_mut(status)) {
            *count += 1;
        }
        match difference(&due, &found) {
            None => self.alike += 1,
            Some(line) => self.tell(&format!("call {}: {line}", self.calls), given, &due)?,
        }
        Ok(())
    }

    fn tell(&mut self, line: &str, given: &Given, due: &Done) -> Result<(), String> {
        self.differing += 1;
        if self.differing > SHOWN {
            return Ok(());
        }
        let comment = line.replace('\n', "\n# ");
        let run = [format!("# {comment}\n").as_bytes(), &text(given, due)].concat();
        io::stdout().write_all(&run).map_err(|e| e.to_string())
    }

    /// The ends that are no ordinary pipes. That input cannot be made to wait is asked of the tool
    /// alone, since the double may do otherwise.
    fn ends(&mut self, odd: &Odd) -> Result<(), String> {
        let mut lines = odd.of_any(&self.double)?;
        lines.extend(odd.of_any(&self.tool)?);
        lines.extend(odd.of_unwaiting(&self.tool)?);
        for line in &lines {
            println!("{}: {line}", self.name);
        }
        self.differing += lines.len();
        Ok(())
    }
}
