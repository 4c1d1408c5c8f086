//! The stored files are what is made, and a change in them would be noticed.

use answers::answer;
use answers::report::check;
use answers::stored::{first_difference, read, ANSWERED, ASKED};

#[test]
fn the_files_are_as_they_are_made() {
    let report = check().unwrap_or_else(|why| panic!("{why}\nthe program make writes them anew"));
    assert!(report.groups > 0 && report.levels == 512);
}

/// The last digit of each field of an answer changed, in every 97th line.
#[test]
fn a_changed_answer_is_found() {
    let answered = read(ANSWERED).unwrap();
    let lines: Vec<&str> = answered.lines().collect();
    for place in (0..lines.len()).step_by(97) {
        let Some((asked, answer)) = lines[place].split_once(" = ") else {
            continue;
        };
        for field in 0..answer.split(' ').count() {
            let spoilt = format!("{asked} = {}", with_field_changed(answer, field));
            assert!(first_difference(lines[place], &spoilt).is_some());
            assert_ne!(answers::answer(asked), format!("{spoilt}\n"));
        }
    }
}

fn with_field_changed(answer: &str, field: usize) -> String {
    let mut fields: Vec<String> = answer.split(' ').map(str::to_string).collect();
    let last = fields[field].pop().expect("a digit");
    fields[field].push(if last == '1' { '2' } else { '1' });
    fields.join(" ")
}

/// Lines may be given again with any others left out: each stands for itself.
#[test]
fn each_line_stands_for_itself() {
    let asked = read(ASKED).unwrap();
    let answered = read(ANSWERED).unwrap();
    for (line, due) in asked.lines().zip(answered.lines()).step_by(53) {
        if !due.starts_with('#') {
            assert_eq!(answer(line), format!("{due}\n"));
        }
    }
}
