//! What the program is called to do.

use filter::line::Line;
use filter::pair::{law, pair};
use filter::words::{wrong, Word, Words};
use sequences::codec::Codec;

#[derive(Debug, PartialEq, Eq)]
pub enum Job {
    Read,
    Write,
    Encode(Plan),
    Decode(Plan),
}

#[derive(Debug, PartialEq, Eq)]
pub struct Plan {
    pub codec: Codec,
    pub homing: Option<Word>,
}

/// The job, or what is wrong with the first wrong word.
pub fn job(words: &mut Words) -> Result<Job, Line> {
    let word = words.due("COMMAND")?;
    let job = match word.as_slice() {
        b"read" => Job::Read,
        b"write" => Job::Write,
        b"encode" => Job::Encode(plan(words)?),
        b"decode" => Job::Decode(plan(words)?),
        _ => return Err(wrong("unknown word", word)),
    };
    words.end()?;
    Ok(job)
}

fn plan(words: &mut Words) -> Result<Plan, Line> {
    let law = law(words)?;
    let (width, core) = pair(words)?;
    Ok(Plan {
        codec: Codec { law, width, core },
        homing: words.optional_file()?,
    })
}

#[cfg(test)]
mod tests {
    use super::*;
    use second::g711::Law;

    fn read(words: &str) -> Result<Job, String> {
        let words: Vec<Word> = words.split(' ').skip(1).map(Word::from).collect();
        let job = job(&mut Words::new(&words));
        job.map_err(|line| String::from_utf8_lossy(&line).into_owned())
    }

    #[test]
    fn each_command_is_read() {
        let plan = |homing: Option<&str>| Plan {
            codec: Codec {
                law: Law::A,
                width: 4,
                core: 3,
            },
            homing: homing.map(Word::from),
        };
        for (words, due) in [
            ("sequences read", Job::Read),
            ("sequences write", Job::Write),
            ("sequences encode a 4 3", Job::Encode(plan(None))),
            ("sequences encode a 4 3 f", Job::Encode(plan(Some("f")))),
            (
                "sequences decode a 04 3 ./7",
                Job::Decode(plan(Some("./7"))),
            ),
        ] {
            assert_eq!(read(words), Ok(due), "{words}");
        }
    }

    #[test]
    fn the_first_wrong_word_is_told() {
        for (words, wrong) in [
            ("sequences", "a word is missing: COMMAND"),
            ("sequences ", "unknown word: ''"),
            ("sequences -v read", "unknown word: '-v'"),
            ("sequences Read", "unknown word: 'Read'"),
            ("sequences read -", "unknown word: '-'"),
            ("sequences write f", "unknown word: 'f'"),
            ("sequences encode", "a word is missing: LAW"),
            ("sequences encode mu", "a word is missing: WIDTH"),
            ("sequences decode a 9", "a word is missing: CORE"),
            ("sequences decode A x", "no law: 'A'"),
            ("sequences decode a x 2", "not a number: 'x'"),
            ("sequences decode a 9 ", "not a number: ''"),
            (
                "sequences encode mu 2 3 -",
                "no pair of WIDTH and CORE: '2 3'",
            ),
            ("sequences encode mu 5 2 f g", "unknown word: 'g'"),
        ] {
            assert_eq!(read(words), Err(wrong.to_string()), "{words}");
        }
    }

    #[test]
    fn what_is_no_file_name_is_told() {
        let what = "not a file name (one called so is written with ./ before it)";
        for word in ["", "7", "-", "-f"] {
            let found = read(&format!("sequences decode mu 5 2 {word} g"));
            assert_eq!(found, Err(format!("{what}: '{word}'")));
        }
    }
}
