//! answers [make | check | compare]: without a word the double of the proved program `answers`, lines of calls in and the same lines
//! with the second codec's answers out; with one, what is done about the stored calls. Ends with 1 where something differs.

use answers::report;
use answers::stored::{compare, write};
use std::env;
use std::io::{self, Read, Write};
use std::process::ExitCode;

fn main() -> ExitCode {
    let words: Vec<String> = env::args().skip(1).collect();
    let words: Vec<&str> = words.iter().map(String::as_str).collect();
    let done = match words.as_slice() {
        [] => double().map_err(|error| error.to_string()),
        ["make"] => write().map(|lines| {
            println!("answers: {lines} lines written, with the second codec's answers")
        }),
        ["check"] => report::check().map(|report| println!("{report}")),
        ["compare"] => compare()
            .map(|lines| println!("answers: the second codec answers {lines} lines as stored")),
        _ => {
            eprintln!("how it is called: answers [make | check | compare]");
            return ExitCode::from(2);
        }
    };
    match done {
        Ok(()) => ExitCode::SUCCESS,
        Err(why) => {
            eprintln!("answers: {why}");
            ExitCode::FAILURE
        }
    }
}

fn double() -> io::Result<()> {
    let mut asked = String::new();
    io::stdin().lock().read_to_string(&mut asked)?;
    let answered = answers::answer(&asked);
    io::stdout().lock().write_all(answered.as_bytes())
}
