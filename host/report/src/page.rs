//! The page: one file, with its sounds, drawings and style within, so that it can be sent on as it is.

use crate::drawing::{two_curves, waveform};
use crate::fault::{Drift, CORE};
use crate::runs::{Run, Sample};
use crate::sound::{base64, levels, wav};
use crate::states::Agreement;

pub struct Heard {
    pub sample: Sample,
    pub runs: Vec<Run>,
}

/// The fault on one sample: with one faulty unit, and with two.
pub struct Faults<'a> {
    pub heard: &'a Heard,
    pub decoder: Vec<Drift>,
    pub both: Vec<Drift>,
}

/// A file's name as words, safe within the page.
pub fn title(name: &str) -> String {
    name.replace(['-', '_'], " ")
        .replace('&', "&amp;")
        .replace('<', "&lt;")
        .replace('"', "&quot;")
}

pub fn decibels(snr: f64) -> String {
    if snr.is_finite() {
        format!("{snr:.1}")
    } else {
        "no noise".to_string()
    }
}

fn player(levels: &[i32], label: &str) -> String {
    format!(
        "<audio controls preload=\"metadata\" aria-label=\"{label}\" src=\"data:audio/wav;base64,{}\"></audio>",
        base64(&wav(levels))
    )
}

fn agreed(agreement: &Agreement) -> String {
    let class = if agreement.is_whole() { "good" } else { "bad" };
    format!(
        "<span class=\"{class}\">{} of {}</span>",
        agreement.agreed, agreement.frames
    )
}

pub fn page(all: &[Heard], faults: &Faults) -> String {
    let speech: String = all.iter().enumerate().map(section).collect();
    format!(
        "<!DOCTYPE html>\n<html lang=\"en\"><head><meta charset=\"utf-8\">\
         <meta name=\"viewport\" content=\"width=device-width, initial-scale=1\">\
         <title>Parchfennel: the demonstration</title><style>{}</style></head><body>\n\
         {}{}{}{speech}</body></html>\n",
        include_str!("style.css"),
        include_str!("opening.html").replace("LINKS", &links(all)),
        table(all),
        fault_section(faults),
    )
}

/// For the one who came to listen, since the numbers come first.
fn links(all: &[Heard]) -> String {
    let link = |(place, heard): (usize, &Heard)| {
        let name = title(&heard.sample.name);
        format!("<a href=\"#sample{place}\">&ldquo;{name}&rdquo;</a>\n")
    };
    let samples: String = all.iter().enumerate().map(link).collect();
    format!("<p class=\"links\">{samples}<a href=\"#fault\">the fault</a></p>\n")
}

/// All samples have the same pairs in the same order, so a row is a place in their lists.
fn table(all: &[Heard]) -> String {
    let names: String = all
        .iter()
        .map(|heard| format!("<th>dB, {}</th>", title(&heard.sample.name)))
        .collect();
    let rows: String = (0..all.first().map_or(0, |heard| heard.runs.len()))
        .map(|place| row(&all.iter().map(|h| &h.runs[place]).collect::<Vec<_>>()))
        .collect();
    format!(
        "<div class=\"scroll\"><table><thead><tr><th>pair</th><th>kbit/s</th><th>with headers</th>{names}\
         <th>frames agreed</th></tr></thead><tbody>{rows}</tbody></table></div>\n"
    )
}

fn row(runs: &[&Run]) -> String {
    let Run {
        width,
        core,
        kbit_on_air,
        ..
    } = runs[0];
    let ratios: String = runs
        .iter()
        .map(|run| format!("<td>{}</td>", decibels(run.snr)))
        .collect();
    let sum = total(runs.iter().map(|run| &run.agreement));
    format!(
        "<tr><td>({width},{core})</td><td>{}</td><td>{kbit_on_air:.1}</td>{ratios}<td>{}</td></tr>\n",
        8 * width,
        agreed(&sum)
    )
}

/// Counts added up. Where one stream went apart first has no meaning for several, and is left out.
pub fn total<'a>(all: impl Iterator<Item = &'a Agreement>) -> Agreement {
    let none = Agreement {
        frames: 0,
        agreed: 0,
        first_apart: None,
    };
    all.fold(none, |sum, one| Agreement {
        frames: sum.frames + one.frames,
        agreed: sum.agreed + one.agreed,
        first_apart: None,
    })
}

fn section((place, heard): (usize, &Heard)) -> String {
    let original = levels(&heard.sample.speech);
    let name = title(&heard.sample.name);
    let mut text = format!(
        "<h2 id=\"sample{place}\">&ldquo;{name}&rdquo;, through the proved tool</h2>\n<div class=\"grid\">"
    );
    text += &original_card(&original, &name);
    text += "</div>\n";
    for runs in heard.runs.chunk_by(|a, b| a.core == b.core) {
        let core = runs[0].core;
        let cards: String = runs.iter().map(|run| card(&original, run, &name)).collect();
        text += &format!("<h3>Core of {core} bits</h3>\n<div class=\"grid\">{cards}</div>\n");
    }
    text
}

fn original_card(original: &[i32], name: &str) -> String {
    format!(
        "<div class=\"card\"><b>original</b><p>mu-law, 64 kbit/s</p>{}{}</div>\n",
        waveform(original, original, &format!("waveform of {name}")),
        player(original, &format!("{name}, original"))
    )
}

fn card(original: &[i32], run: &Run, name: &str) -> String {
    let label = format!("{name}, width {}, core {}", run.width, run.core);
    format!(
        "<div class=\"card\"><b>({},{}) at {} kbit/s</b><p>{} dB; states agreed {}</p>{}{}</div>\n",
        run.width,
        run.core,
        8 * run.width,
        decibels(run.snr),
        agreed(&run.agreement),
        waveform(original, &run.levels, &format!("waveform of {label}")),
        player(&run.levels, &label)
    )
}

fn fault_section(faults: &Faults) -> String {
    let original = levels(&faults.heard.sample.speech);
    let name = title(&faults.heard.sample.name);
    let proved: String = faults
        .heard
        .runs
        .iter()
        .filter(|run| run.core == CORE)
        .map(|run| fault_card(&original, &Shown::from(run), &name))
        .collect();
    let cards = |drifts: &[Drift]| -> String {
        drifts
            .iter()
            .map(|drift| fault_card(&original, &Shown::from(drift), &name))
            .collect()
    };
    format!(
        "{}<h3>The proved tool, core of 2 bits</h3>\n<div class=\"grid\">{proved}</div>\n\
         <h3>A right encoder, a decoder with the fault</h3>\n<div class=\"grid\">{}</div>\n\
         <h3>Both ends with the fault</h3>\n<div class=\"grid\">{}</div>\n",
        include_str!("fault.html"),
        cards(&faults.decoder),
        cards(&faults.both)
    )
}

/// What a stream of the tool and a stream of the faulty unit have in common.
struct Shown<'a> {
    width: u8,
    snr: f64,
    levels: &'a [i32],
    agreement: &'a Agreement,
    sample_apart: Option<usize>,
    near: &'a [u32],
    far: &'a [u32],
}

impl<'a> From<&'a Run> for Shown<'a> {
    fn from(run: &'a Run) -> Self {
        Shown {
            width: run.width,
            snr: run.snr,
            levels: &run.levels,
            agreement: &run.agreement,
            // The tool writes states by the frame, not by the sample.
            sample_apart: None,
            near: &run.near,
            far: &run.far,
        }
    }
}

impl<'a> From<&'a Drift> for Shown<'a> {
    fn from(drift: &'a Drift) -> Self {
        Shown {
            width: drift.width,
            snr: drift.snr,
            levels: &drift.levels,
            agreement: &drift.agreement,
            sample_apart: drift.sample_apart,
            near: &drift.near,
            far: &drift.far,
        }
    }
}

fn fault_card(original: &[i32], shown: &Shown, name: &str) -> String {
    let label = format!("{name}, width {}", shown.width);
    format!(
        "<div class=\"card\"><b>({},{CORE}) at {} kbit/s</b><p>{} dB; {}</p>{}{}{}</div>\n",
        shown.width,
        8 * shown.width,
        decibels(shown.snr),
        drift_words(shown),
        waveform(original, shown.levels, &format!("waveform of {label}")),
        two_curves(shown.near, shown.far, "slow scale factor at both ends"),
        player(shown.levels, &label)
    )
}

fn drift_words(shown: &Shown) -> String {
    let frames = agreed(shown.agreement);
    let apart = match (shown.agreement.first_apart, shown.sample_apart) {
        (Some(frame), Some(sample)) => {
            format!("; apart first in frame {frame}, from sample {sample} on")
        }
        (Some(frame), None) => format!("; apart first in frame {frame}"),
        (None, _) => String::new(),
    };
    format!("states agreed {frames}{apart}")
}

#[cfg(test)]
mod tests {
    use super::*;

    #[test]
    fn titles_cannot_break_the_page() {
        assert_eq!(title("bay-fifteen"), "bay fifteen");
        assert_eq!(title("a<b\"&"), "a&lt;b&quot;&amp;");
    }

    #[test]
    fn totals_keep_a_disagreement() {
        let one = |agreed| Agreement {
            frames: 3,
            agreed,
            first_apart: None,
        };
        assert!(total([one(3), one(3)].iter()).is_whole());
        assert!(!total([one(3), one(2)].iter()).is_whole());
    }

    #[test]
    fn no_noise_is_said_in_words() {
        assert_eq!(decibels(f64::INFINITY), "no noise");
        assert_eq!(decibels(-1.26), "-1.3");
    }
}
