//! A job from its files to its end: a piece is read, something is made of it, and that is written.

use crate::call::Job;
use crate::stop::Place;
use crate::work::{Made, Work};
use crate::PROGRAM;
use filter::files::{Sink, Source};
use filter::line::{put, say, Line};
use filter::stop::Stop;
use filter::words::Word;
use second::state::State;

const STATES: &str = "frame YU YL DMS DML AP A1 A2 B1 B2 B3 B4 B5 B6 \
                      DQ1 DQ2 DQ3 DQ4 DQ5 DQ6 SR1 SR2 PK1 PK2 TD core number\n";

/// Does it, and hands back a line for each thing that went wrong.
pub fn run(job: &Job) -> Vec<Line> {
    let stops = match open(job) {
        Ok((mut work, mut streams)) => {
            let ended = streams.run(&mut work);
            vec![ended, streams.end(&work)]
        }
        Err(stop) => vec![Err(stop)],
    };
    let stops = stops.into_iter().filter_map(Result::err);
    stops.map(|stop| stop.0).collect()
}

struct Streams {
    input: Source,
    output: Sink,
    states: Option<Sink>,
    verbose: bool,
}

/// The list is read before any file is opened or emptied.
fn open(job: &Job) -> Result<(Work, Streams), Stop> {
    let work = Work::new(&job.command)?;
    let streams = Streams {
        input: input(&job.input)?,
        output: output(&job.output)?,
        states: job.states.as_ref().map(states).transpose()?,
        verbose: job.verbose,
    };
    Ok((work, streams))
}

fn input(word: &Option<Word>) -> Result<Source, Stop> {
    match word {
        Some(word) => Source::file("IN", word),
        None => Ok(Source::standard()),
    }
}

fn output(word: &Option<Word>) -> Result<Sink, Stop> {
    match word {
        Some(word) => Sink::file("OUT", word),
        None => Ok(Sink::standard()),
    }
}

fn states(word: &Word) -> Result<Sink, Stop> {
    Sink::file("the file of -states", word)
}

impl Streams {
    fn run(&mut self, work: &mut Work) -> Result<(), Stop> {
        self.output.put(work.heading().as_bytes())?;
        if let Some(states) = &mut self.states {
            states.put(STATES.as_bytes())?;
        }
        let mut place = Place::default();
        loop {
            let piece = work.piece(&mut self.input, place)?;
            if piece.is_empty() {
                return Ok(());
            }
            self.write(work.make(&piece, place)?, place)?;
            place = place.next(piece.len());
        }
    }

    fn write(&mut self, made: Made, place: Place) -> Result<(), Stop> {
        if let Some(note) = &made.note {
            say(PROGRAM.name, &[b"note: ", note.as_slice()].concat());
        }
        self.output.put(&made.octets)?;
        match &made.state {
            Some(state) => self.show(state, place),
            None => Ok(()),
        }
    }

    fn show(&mut self, state: &State, place: Place) -> Result<(), Stop> {
        if !self.verbose && self.states.is_none() {
            return Ok(());
        }
        let numbers: Vec<String> = state.numbers().iter().map(u32::to_string).collect();
        let line = format!("{} {}\n", place.frame, numbers.join(" "));
        if self.verbose {
            put(line.as_bytes());
        }
        match &mut self.states {
            Some(states) => states.put(line.as_bytes()),
            None => Ok(()),
        }
    }

    /// What stands under the last piece, also where the input stopped the run.
    fn end(&mut self, work: &Work) -> Result<(), Stop> {
        if self.output.failed {
            return Ok(());
        }
        self.output.put(work.ending().as_bytes())
    }
}
