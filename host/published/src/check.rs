//! A program held to all files of a folder, a line for each.

use crate::folder::Folder;
use crate::in_order::in_order;
use crate::program::Program;
use crate::table::{rows, Row, Run};
use crate::texts::{Text, Texts};
use crate::verdict::{Counts, Verdict};
use std::ops::ControlFlow;
use std::path::Path;
use std::thread;

/// Says a line for each file as it is done, and the counts. Hands back whether none differs; that not
/// one of them could be compared is an error.
pub fn check(
    program: &str,
    folder: &Path,
    say: &mut dyn FnMut(&str) -> Result<(), String>,
) -> Result<bool, String> {
    let rows = rows();
    let program = Program::open(program)?;
    let names = rows.iter().flat_map(Row::names);
    let texts = Texts::new(Folder::open(folder)?, &program, names);
    let counts = counted(&rows, |row| judge(row, &texts, &program), say)?;
    say(&counts.to_string())?;
    if counts.agree + counts.differ == 0 {
        let place = folder.display();
        return Err(format!("not one of the files is there: {place}"));
    }
    Ok(counts.differ == 0)
}

fn counted(
    rows: &[Row],
    judge: impl Fn(&Row) -> Result<Verdict, String> + Sync,
    say: &mut dyn FnMut(&str) -> Result<(), String>,
) -> Result<Counts, String> {
    let mut counts = Counts::default();
    let mut ended = Ok(());
    // Each worker waits for one program at a time.
    let workers = thread::available_parallelism().map_or(1, usize::from);
    in_order(rows, workers, judge, |row, verdict| {
        let said = verdict.and_then(|verdict| {
            counts.add(&verdict);
            say(&format!("{} {verdict}", row.name))
        });
        match said {
            Ok(()) => ControlFlow::Continue(()),
            Err(line) => {
                ended = Err(line);
                ControlFlow::Break(())
            }
        }
    });
    ended.map(|()| counts)
}

fn judge(row: &Row, texts: &Texts, program: &Program) -> Result<Verdict, String> {
    let published = match texts.get(&row.name)? {
        Text::Absent => return Ok(Verdict::Absent),
        Text::Unread(why) => return Ok(Verdict::Unread(why.clone())),
        Text::Read(read) => &read.values,
    };
    let run = match &row.otherwise {
        Some(otherwise) if !texts.is_there(&row.run.input) => otherwise,
        _ => &row.run,
    };
    let made = match made(run, texts, program)? {
        Ok(made) => made,
        Err(verdict) => return Ok(verdict),
    };
    let first = row.first.unwrap_or(usize::MAX).min(published.len());
    let made = made.get(run.skipped..).unwrap_or_default();
    Ok(Verdict::of(&published[..first], made))
}

/// What the program gives, or why it gives nothing.
fn made(run: &Run, texts: &Texts, program: &Program) -> Result<Result<Vec<u8>, Verdict>, String> {
    let mut read = Vec::new();
    for name in run.names() {
        match texts.get(name)? {
            Text::Absent => return Ok(Err(Verdict::Without(name.clone()))),
            Text::Unread(why) => {
                let why = format!("{name} cannot be read: {why}");
                return Ok(Err(Verdict::Unrun(why)));
            }
            Text::Read(text) => read.push(text),
        }
    }
    let homing = read.get(1).map(|text| text.place.as_path());
    let made = program.run(run, homing, &read[0].characters)?;
    Ok(made.map_err(|why| Verdict::Unrun(format!("{}: {why}", run.input))))
}
