//! What the tool is called to do.

use crate::sound::end;
use filter::line::Line;
use filter::pair::{octet, pair};
use filter::words::{number, wrong, Word, Words};
use second::end::End;
use second::frame::{is_edition, is_sample_count, PLAIN};
use second::replies::{NARROWEST_CORE, WIDEST};

#[derive(Debug, PartialEq, Eq)]
pub struct Job {
    pub verbose: bool,
    pub states: Option<Word>,
    pub command: Command,
    /// None is the standard one, here and below.
    pub input: Option<Word>,
    pub output: Option<Word>,
}

#[derive(Debug, PartialEq, Eq)]
pub enum Command {
    Encode(Plan),
    Drop { widths: Widths, most: bool },
    Decode { to: End },
    Inspect,
}

#[derive(Clone, Copy, Debug, PartialEq, Eq)]
pub struct Plan {
    pub from: End,
    pub width: u8,
    pub core: u8,
    pub samples: usize,
    pub edition: u8,
}

#[derive(Debug, PartialEq, Eq)]
pub enum Widths {
    One(u8),
    List(Word),
}

const SAMPLES: usize = 160;

/// The job, or what is wrong with the first wrong word.
pub fn job(words: &mut Words) -> Result<Job, Line> {
    let (verbose, states) = options(words)?;
    let command = command(words, states.is_some())?;
    let input = words.place()?;
    let output = words.place()?;
    words.end()?;
    apart(&output, [&input, &list(&command)])?;
    apart(&states, [&input, &output])?;
    Ok(Job {
        verbose,
        states,
        command,
        input,
        output,
    })
}

/// An option that comes again is left to be read as a command, and there is none of its name.
fn options(words: &mut Words) -> Result<(bool, Option<Word>), Line> {
    let (mut verbose, mut states) = (false, None);
    loop {
        if !verbose && words.take("-v") {
            verbose = true;
        } else if states.is_none() && words.take("-states") {
            states = Some(words.file()?);
        } else {
            return Ok((verbose, states));
        }
    }
}

fn command(words: &mut Words, states: bool) -> Result<Command, Line> {
    let word = words.due("COMMAND")?;
    match word.as_slice() {
        b"encode" => encode(words).map(Command::Encode),
        b"decode" => end(words).map(|to| Command::Decode { to }),
        b"drop" | b"inspect" if states => Err(wrong("no states to write", word)),
        b"drop" => drop(words),
        b"inspect" => Ok(Command::Inspect),
        _ => Err(wrong("unknown word", word)),
    }
}

fn encode(words: &mut Words) -> Result<Plan, Line> {
    let from = end(words)?;
    let (width, core) = pair(words)?;
    let samples = words.take_digits().map_or(Ok(SAMPLES), samples)?;
    let edition = words.take_digits().map_or(Ok(PLAIN), edition)?;
    Ok(Plan {
        from,
        width,
        core,
        samples,
        edition,
    })
}

fn samples(word: &Word) -> Result<usize, Line> {
    let count = number(word)?;
    if is_sample_count(count) {
        Ok(count)
    } else {
        Err(wrong("no count of samples", word))
    }
}

fn edition(word: &Word) -> Result<u8, Line> {
    let edition = u8::try_from(number(word)?).ok();
    edition
        .filter(|&edition| is_edition(edition))
        .ok_or_else(|| wrong("no edition", word))
}

fn drop(words: &mut Words) -> Result<Command, Line> {
    let most = words.take("-most");
    let widths = if words.take("-list") {
        Widths::List(words.file()?)
    } else {
        Widths::One(width(words)?)
    };
    Ok(Command::Drop { widths, most })
}

fn width(words: &mut Words) -> Result<u8, Line> {
    let (word, width) = octet(words, "WIDTH")?;
    if (NARROWEST_CORE..=WIDEST).contains(&width) {
        Ok(width)
    } else {
        Err(wrong("no width", word))
    }
}

fn list(command: &Command) -> Option<Word> {
    match command {
        Command::Drop {
            widths: Widths::List(word),
            ..
        } => Some(word.clone()),
        _ => None,
    }
}

/// Insists that a file that is written is none of the others.
fn apart(written: &Option<Word>, others: [&Option<Word>; 2]) -> Result<(), Line> {
    match written {
        Some(word) if others.contains(&written) => Err(wrong("two words for one file", word)),
        _ => Ok(()),
    }
}

#[cfg(test)]
mod tests {
    use super::*;
    use filter::program::{parse, Call};
    use second::g711::Law;

    fn read(words: &str) -> Result<Call<Job>, String> {
        let words: Vec<Word> = words.split_whitespace().map(Word::from).collect();
        parse(&words, job).map_err(|line| String::from_utf8_lossy(&line).into_owned())
    }

    fn plan(samples: usize, edition: u8) -> Plan {
        Plan {
            from: End::Of(Law::A),
            width: 5,
            core: 2,
            samples,
            edition,
        }
    }

    #[test]
    fn a_call_is_read() {
        let expected = Job {
            verbose: true,
            states: Some("s".into()),
            command: Command::Encode(plan(160, 1)),
            input: None,
            output: Some("f".into()),
        };
        let found = read("-states s -v encode a 5 2 - f");
        assert_eq!(found, Ok(Call::Job(expected)));
    }

    #[test]
    fn samples_and_edition_are_told_from_a_file() {
        for (words, (samples, edition), input) in [
            ("encode a 5 2", (160, 1), None),
            ("encode a 5 2 008", (8, 1), None),
            ("encode a 5 2 8 002", (8, 2), None),
            ("encode a 5 2 8 1", (8, 1), None),
            ("encode a 5 2 8x", (160, 1), Some("8x".into())),
            ("encode a 5 2 8 2x", (8, 1), Some("2x".into())),
            ("encode a 5 2 8 ./2", (8, 1), Some("./2".into())),
            ("encode a 5 2 8 2 ./2", (8, 2), Some("./2".into())),
        ] {
            let Ok(Call::Job(job)) = read(words) else {
                panic!("{words} is wrong");
            };
            let expected = Command::Encode(plan(samples, edition));
            assert_eq!(job.command, expected, "{words}");
            assert_eq!(job.input, input, "{words}");
        }
    }

    #[test]
    fn a_law_may_be_linear() {
        for (words, command) in [
            ("decode linear", Command::Decode { to: End::Linear }),
            (
                "encode linear 5 2 8",
                Command::Encode(Plan {
                    from: End::Linear,
                    ..plan(8, 1)
                }),
            ),
        ] {
            let Ok(Call::Job(job)) = read(words) else {
                panic!("{words} is wrong");
            };
            assert_eq!(job.command, command, "{words}");
        }
    }

    #[test]
    fn the_two_standard_files_are_no_file_twice() {
        assert!(read("inspect - -").is_ok());
        assert!(read("drop -list w w -").is_ok());
    }

    #[test]
    fn the_first_wrong_word_is_told() {
        for (words, wrong) in [
            ("", "a word is missing: COMMAND"),
            ("-v", "a word is missing: COMMAND"),
            ("-states", "a word is missing: FILE"),
            ("encode", "a word is missing: LAW"),
            ("encode mu 9", "a word is missing: CORE"),
            ("encode u 5 x", "no law: 'u'"),
            ("encode Linear 5 x", "no law: 'Linear'"),
            ("encode linear", "a word is missing: WIDTH"),
            ("encode linear linear", "not a number: 'linear'"),
            ("encode mu 9 x", "not a number: 'x'"),
            ("encode mu 9 2 7", "no pair of WIDTH and CORE: '9 2'"),
            ("encode mu 5 2 2", "no count of samples: '2'"),
            ("encode mu 5 2 12 3", "no count of samples: '12'"),
            ("encode mu 5 2 160 0", "no edition: '0'"),
            ("encode mu 5 2 160 258 8", "no edition: '258'"),
            ("-v -v decode mu", "unknown word: '-v'"),
            ("-v --help", "unknown word: '--help'"),
            ("--help --version", "unknown word: '--version'"),
            ("-states s drop x", "no states to write: 'drop'"),
            ("drop", "a word is missing: WIDTH"),
            ("drop two", "not a number: 'two'"),
            ("drop 258", "no width: '258'"),
            ("drop -most -most 3", "not a number: '-most'"),
            ("drop -most -list", "a word is missing: FILE"),
            ("inspect a a b", "unknown word: 'b'"),
            ("inspect a a", "two words for one file: 'a'"),
            ("drop -list w - w", "two words for one file: 'w'"),
            ("-states a decode a a b c", "unknown word: 'c'"),
            ("-states b decode a a b", "two words for one file: 'b'"),
        ] {
            assert_eq!(read(words), Err(wrong.to_string()), "{words}");
        }
    }

    #[test]
    fn what_is_no_file_name_is_told_at_its_place() {
        let what = "not a file name (one called so is written with ./ before it)";
        for (words, wrong) in [
            ("decode mu -v", "-v"),
            ("drop 2 3", "3"),
            ("drop -list w -list", "-list"),
            ("drop -list -", "-"),
            ("-states - decode mu", "-"),
            ("encode mu 5 2 160 2 8", "8"),
            ("encode mu 5 2 160 -2", "-2"),
        ] {
            assert_eq!(read(words), Err(format!("{what}: '{wrong}'")), "{words}");
        }
    }
}
