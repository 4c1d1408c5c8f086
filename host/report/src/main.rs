//! report FOLDER SAMPLES COMMAND...: runs the tool that COMMAND starts on every .mu file of the folder
//! SAMPLES and writes FOLDER/report.html. Ends with 1 where anything failed or any state differed.

use report::fault::{at_width, Drift, Faulty, CORE, WIDTH};
use report::page::{decibels, page, title, total, Faults, Heard};
use report::runs::{at_core, Sample, CORES};
use std::path::{Path, PathBuf};
use std::process::ExitCode;
use std::{env, fs};
use tool::{folder, Tool};

fn main() -> ExitCode {
    let words: Vec<String> = env::args().skip(1).collect();
    let [folder, samples, command @ ..] = words.as_slice() else {
        eprintln!("how it is called: report FOLDER SAMPLES COMMAND...");
        return ExitCode::from(2);
    };
    let tool = Tool {
        command: command.to_vec(),
    };
    match demonstrate(Path::new(folder), Path::new(samples), &tool) {
        Ok(true) => ExitCode::SUCCESS,
        Ok(false) => ExitCode::FAILURE,
        Err(line) => {
            eprintln!("report: {line}");
            ExitCode::FAILURE
        }
    }
}

fn demonstrate(folder: &Path, samples: &Path, tool: &Tool) -> Result<bool, String> {
    let mut all = Vec::new();
    for sample in read_samples(samples)? {
        all.push(heard(tool, sample)?);
    }
    let first = all.first().ok_or("no sample found")?;
    println!("the trial unit's fault: {}", title(&first.sample.name));
    let faults = Faults {
        heard: first,
        decoder: drifts(Faulty::Decoder, first),
        both: drifts(Faulty::Both, first),
    };
    let place = folder.join("report.html");
    fs::create_dir_all(folder).map_err(|error| format!("{}: {error}", folder.display()))?;
    let text = page(&all, &faults);
    fs::write(&place, &text).map_err(|error| format!("{}: {error}", place.display()))?;
    let whole = summary(&all, &faults);
    println!("report: {} ({} kB)", place.display(), text.len() / 1000);
    Ok(whole)
}

fn read_samples(folder: &Path) -> Result<Vec<Sample>, String> {
    let sample = |place: &PathBuf| {
        Ok(Sample {
            name: folder::name(place),
            speech: folder::read(place)?,
        })
    };
    folder::files(folder, "mu")?.iter().map(sample).collect()
}

fn heard(tool: &Tool, sample: Sample) -> Result<Heard, String> {
    let mut runs = Vec::new();
    for core in CORES {
        println!("{}: core {core}, widths 5 to {core}", title(&sample.name));
        runs.extend(at_core(tool, &sample, core)?);
    }
    Ok(Heard { sample, runs })
}

fn drifts(faulty: Faulty, heard: &Heard) -> Vec<Drift> {
    (CORE..=WIDTH)
        .rev()
        .map(|width| at_width(faulty, &heard.sample.speech, width))
        .collect()
}

/// Prints it, and says whether all states of the proved tool agreed.
fn summary(all: &[Heard], faults: &Faults) -> bool {
    let runs = || all.iter().flat_map(|heard| &heard.runs);
    let sum = total(runs().map(|run| &run.agreement));
    println!();
    println!(
        "proved tool: {} streams, states agreed after {} of {} frames",
        runs().count(),
        sum.agreed,
        sum.frames
    );
    println!("{}, core {CORE}:", title(&faults.heard.sample.name));
    let proved = faults.heard.runs.iter().filter(|run| run.core == CORE);
    for (run, (one, two)) in proved.zip(faults.decoder.iter().zip(&faults.both)) {
        println!(
            "  {} kbit/s: proved {} dB; with the fault in the decoder {} dB ({} of {} frames agree), at both ends {} dB ({} of {})",
            8 * run.width,
            decibels(run.snr),
            decibels(one.snr),
            one.agreement.agreed,
            one.agreement.frames,
            decibels(two.snr),
            two.agreement.agreed,
            two.agreement.frames
        );
    }
    sum.is_whole()
}
