//! Whether a check says what it has to say: of the stand-ins for all files, and of folders with a few of
//! them in which one thing was changed.

mod cases;
mod changes;
mod homing;
mod stock;

use crate::check::check;
use crate::table::{rows, Row};
use stock::Stock;
use tool::scratch::{Files, Scratch};

/// A folder, and what has to be said of it.
#[derive(Clone)]
struct Case {
    what: &'static str,
    files: Files,
    /// The lines of all files of the table that are there.
    lines: Vec<String>,
    counts: String,
    ends: Ends,
}

#[derive(Clone, Copy, Debug, PartialEq, Eq)]
enum Ends {
    Well,
    WithDifferences,
    WithNothingCompared,
}

/// A line that says how much was as it has to be, or the first thing that was not.
pub fn tried(program: &str) -> Result<String, String> {
    let stock = Stock::made()?;
    let whole = whole(&stock);
    held(program, &whole)?;
    let cases = cases::all(&stock);
    for case in &cases {
        held(program, case)?;
    }
    Ok(format!(
        "{} stand-ins agree, {} changed folders were told as due ({program})",
        whole.lines.len(),
        cases.len()
    ))
}

fn whole(stock: &Stock) -> Case {
    let line = |row: Row| {
        let values = stock.values(&row.name).len();
        let compared = row.first.unwrap_or(values);
        format!("{} agrees; values: {compared}", row.name)
    };
    Case {
        what: "all stand-ins",
        files: stock.all(),
        lines: rows().into_iter().map(line).collect(),
        counts: "agree: 270; differ: 0; not there: 0".to_string(),
        ends: Ends::Well,
    }
}

fn held(program: &str, case: &Case) -> Result<(), String> {
    let scratch = Scratch::with(&case.files)?;
    let mut lines = Vec::new();
    let ended = check(program, scratch.folder(), &mut |line| {
        lines.push(line.to_string());
        Ok(())
    });
    let told = |line: String| format!("{}: {line}", case.what);
    let ends = match ended {
        Ok(true) => Ends::Well,
        Ok(false) => Ends::WithDifferences,
        Err(line) if line.starts_with("not one of the files is there") => Ends::WithNothingCompared,
        Err(line) => return Err(told(line)),
    };
    same(case, &lines).map_err(told)?;
    if ends != case.ends {
        return Err(told(format!("{:?} is due, it ended {ends:?}", case.ends)));
    }
    Ok(())
}

/// Insists that the lines are those that are due, and that each file of the table has one.
fn same(case: &Case, lines: &[String]) -> Result<(), String> {
    let is_absent = |line: &String| line.ends_with(" is not there") && !line.contains(':');
    let found: Vec<&String> = lines.iter().filter(|line| !is_absent(line)).collect();
    let due: Vec<&String> = case.lines.iter().chain([&case.counts]).collect();
    if lines.len() != rows().len() + 1 {
        return Err(format!("{} lines were said", lines.len()));
    }
    let shown = |line: Option<&&String>| line.map_or("nothing".to_string(), |l| l.to_string());
    match (0..due.len().max(found.len())).find(|&place| due.get(place) != found.get(place)) {
        None => Ok(()),
        Some(place) => Err(format!(
            "\n  due:  {}\n  said: {}",
            shown(due.get(place)),
            shown(found.get(place))
        )),
    }
}
