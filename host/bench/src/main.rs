//! bench time|count SECONDS SAMPLES TOOL SECOND [SPANDSP]: encodes and decodes SECONDS of the speech
//! in the folder SAMPLES with each program, and prints how long each takes and the ratios, or how
//! many instructions. A program is given by its words with single spaces between them; to count,
//! they begin with a counter. Octets that differ between the tool and the second tool end it with 1.

mod job;
mod measure;
mod program;
mod speech;
mod table;

use job::{Job, JOBS};
use measure::Measure;
use program::Program;
use std::path::Path;
use std::process::ExitCode;
use std::{env, fs};

const HOW: &str = "called as: bench time|count SECONDS SAMPLES TOOL SECOND [SPANDSP]";
const TITLES: [&str; 3] = ["tool", "second codec", "spandsp"];

fn main() -> ExitCode {
    let words: Vec<String> = env::args().skip(1).collect();
    match bench(&words) {
        Ok(()) => ExitCode::SUCCESS,
        Err(line) => {
            eprintln!("bench: {line}");
            ExitCode::FAILURE
        }
    }
}

fn bench(words: &[String]) -> Result<(), String> {
    let [kind, seconds, samples, commands @ ..] = words else {
        return Err(HOW.to_string());
    };
    let measure = Measure::named(kind).ok_or(HOW)?;
    let seconds: usize = seconds.parse().map_err(|_| HOW)?;
    if !(2..=TITLES.len()).contains(&commands.len()) || seconds == 0 {
        return Err(HOW.to_string());
    }
    let folder = env::temp_dir().join(format!("parchfennel-bench-{}", std::process::id()));
    fs::create_dir_all(&folder).map_err(|error| format!("{}: {error}", folder.display()))?;
    let programs: Vec<Program> = (TITLES.iter().zip(commands))
        .map(|(title, command)| Program::new(title, command, &folder))
        .collect();
    let speech = speech::seconds(Path::new(samples), seconds)?;
    println!("{}", measure.heading(seconds, speech.len()));
    let result = JOBS
        .iter()
        .try_for_each(|job| row(job, measure, &programs, &speech));
    // What could not be removed stays in the folder for temporary files.
    let _ = fs::remove_dir_all(&folder);
    result
}

fn row(job: &Job, measure: Measure, programs: &[Program], speech: &[u8]) -> Result<(), String> {
    let able: Vec<&Program> = programs.iter().filter(|p| job.is_for(p.title)).collect();
    let encoded = measure.of(&able, &job.encode(), |_| job.input(speech))?;
    let decoded = measure.of(&able, &job.decode(), |place| encoded[place].octets.clone())?;
    for (verb, measured) in [("encode", &encoded), ("decode", &decoded)] {
        let title = job.title(verb);
        if measured[0].octets != measured[1].octets {
            return Err(format!("{title}: tool and second tool differ"));
        }
        table::print(&title, &able, measured, speech.len(), measure);
    }
    Ok(())
}
