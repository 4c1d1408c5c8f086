//! A job from its input to its output, each of them whole.

use crate::call::{Job, Plan};
use crate::taken::Taken;
use filter::files::{Sink, Source};
use filter::line::{quoted, Line};
use filter::stop::Stop;
use filter::words::Word;
use second::text::{write_whole, LINE_VALUES};

/// Does it, and hands back the line of what went wrong.
pub fn run(job: &Job) -> Vec<Line> {
    let ended = done(job);
    ended.err().map(|stop| stop.0).into_iter().collect()
}

fn done(job: &Job) -> Result<(), Stop> {
    let homing = match job {
        Job::Encode(plan) | Job::Decode(plan) => homing(&plan.homing)?,
        Job::Read | Job::Write => Vec::new(),
    };
    let (input, unread) = Source::standard().rest();
    let (output, stop) = made(job, &homing, input, unread);
    Sink::standard().put(&output)?;
    stop.map_or(Ok(()), Err)
}

/// The values of the homing file; none where there is no word for it.
fn homing(word: &Option<Word>) -> Result<Vec<u8>, Stop> {
    let Some(word) = word else {
        return Ok(Vec::new());
    };
    let (text, unread) = Source::file("HOMING", word)?.rest();
    if let Some(stop) = unread {
        return Err(stop);
    }
    let taken = Taken::of_text(&text, None);
    match taken.stop {
        None => Ok(taken.values),
        Some(Stop(line)) => Err(Stop([&quoted(word), b": ".as_slice(), &line].concat())),
    }
}

/// What is written, and what stops the run afterwards.
fn made(job: &Job, homing: &[u8], input: Vec<u8>, unread: Option<Stop>) -> (Vec<u8>, Option<Stop>) {
    match job {
        Job::Write => (text(&input, unread.is_none()), unread),
        Job::Read => {
            let taken = Taken::of_text(&input, unread);
            (taken.values, taken.stop)
        }
        Job::Encode(Plan { codec, .. }) => {
            let taken = Taken::of_text(&input, unread);
            let codewords = codec.encode(homing, &taken.values);
            (text(&codewords, taken.stop.is_none()), taken.stop)
        }
        Job::Decode(Plan { codec, .. }) => {
            let taken = Taken::of_text(&input, unread).below(codec.width);
            let pcm = codec.decode(homing, &taken.values);
            (text(&pcm, taken.stop.is_none()), taken.stop)
        }
    }
}

/// The text of these values. Where more were to come it has no remainder, and its last line has a line
/// feed only where it is full.
fn text(values: &[u8], is_whole: bool) -> Vec<u8> {
    let mut text = write_whole(values);
    if !is_whole {
        let remainder = b"00\n".len();
        let open = usize::from(!values.len().is_multiple_of(LINE_VALUES));
        text.truncate(text.len() - remainder - open);
    }
    text
}

#[cfg(test)]
mod tests {
    use super::*;

    fn shown(count: usize, is_whole: bool) -> String {
        String::from_utf8(text(&vec![0xAB; count], is_whole)).unwrap()
    }

    #[test]
    fn what_is_unfinished_has_no_remainder() {
        let line = "AB".repeat(32) + "\n";
        assert_eq!(shown(0, true), "00\n");
        assert_eq!(shown(0, false), "");
        assert_eq!(shown(2, true), "ABAB\n57\n");
        assert_eq!(shown(2, false), "ABAB");
        assert_eq!(shown(32, false), line);
        assert_eq!(shown(33, false), line.clone() + "AB");
        assert_eq!(shown(64, true), line.repeat(2) + "EA\n");
        assert_eq!(shown(64, false), line.repeat(2));
    }
}
