//! The table beside the description's as printed: the names in their order, and what stands in one row.

use published::table::{rows, Row};
use std::collections::{BTreeMap, BTreeSet};

const TABLES: &str = include_str!("tables.txt");
const SECTIONS: &str = include_str!("sections.txt");

/// The rows of Tables 4 to 7: the algorithm, then the names from left to right.
fn printed_rows() -> Vec<Vec<&'static str>> {
    let lines = TABLES.lines().filter(|line| !line.starts_with(['#', 'T']));
    lines.map(|line| line.split(' ').collect()).collect()
}

fn is_input(name: &str) -> bool {
    ["NRM", "OVR", "PCM_INIT"].contains(&name.split('.').next().unwrap_or_default())
        || ["I16", "I24", "I32", "I40"].contains(&name)
}

fn by_name() -> BTreeMap<String, Row> {
    rows().into_iter().map(|r| (r.name.clone(), r)).collect()
}

#[test]
fn the_names_of_the_tables_in_their_order() {
    let mut seen = BTreeSet::new();
    let printed: Vec<&str> = printed_rows()
        .iter()
        .flat_map(|row| row[1..].to_vec())
        .filter(|name| !is_input(name) && seen.insert(*name))
        .collect();
    let rows = rows();
    let names: Vec<&str> = rows.iter().map(|row| row.name.as_str()).collect();
    assert_eq!(names[..252], printed);
    assert_eq!(names.len(), 252 + 18);
    assert!(names[252..].iter().all(|name| name.starts_with("I_INIT")));
}

/// Section 5.2 has HI33_A.I in its item 6, where Table 5 has HI33_A.O: that is a misprint, since every
/// file of I-inputs is an output.
#[test]
fn the_names_of_the_sections() {
    let words = SECTIONS
        .lines()
        .filter(|line| !line.starts_with(['#', '5']))
        .flat_map(|line| line.split(' '));
    let printed: BTreeSet<&str> = words
        .map(|name| if name == "HI33_A.I" { "HI33_A.O" } else { name })
        .collect();
    let rows = rows();
    let ours: BTreeSet<&str> = rows
        .iter()
        .flat_map(Row::names)
        .map(String::as_str)
        .collect();
    assert_eq!(ours, printed);
    assert_eq!(ours.len(), 252 + 18 + 10);
}

/// In a row of a table, each output stands behind the input that it is made of.
#[test]
fn a_file_is_made_of_what_stands_before_it_in_its_row() {
    let table = by_name();
    for printed in printed_rows() {
        let (width, core) = printed[0].split_once(',').unwrap();
        for (place, name) in printed.iter().enumerate().skip(1) {
            let Some(row) = table.get(*name) else {
                assert!(is_input(name), "{name}");
                continue;
            };
            let run = row.otherwise.as_ref().unwrap_or(&row.run);
            assert!(printed[1..place].contains(&run.input.as_str()), "{name}");
            assert_eq!(run.words[2..], [width, core], "{name}");
            assert_eq!(run.homing.is_some(), name.starts_with('H'), "{name}");
        }
    }
}

fn shown(row: &Row) -> String {
    let runs = [Some(&row.run), row.otherwise.as_ref()];
    let shown = runs.into_iter().flatten().map(|run| {
        let homing = run.homing.as_deref().unwrap_or("-");
        let (words, input) = (run.words.join(" "), &run.input);
        format!("{words} {homing} of {input} from {}", run.skipped)
    });
    shown.collect::<Vec<_>>().join(" or ")
}

/// Worked by hand from sections 5 and 6.4.
#[test]
fn what_gives_a_file() {
    let table = by_name();
    for (name, due) in [
        ("RN52_M.I", "encode mu 5 2 - of NRM.M from 0"),
        ("HN42_A.I", "encode a 4 2 PCM_INIT.A of NRM.A from 0"),
        ("RV33_A.I", "encode a 3 3 - of OVR.A from 0"),
        ("HV54_M.I", "encode mu 5 4 PCM_INIT.M of OVR.M from 0"),
        ("RN22_M.O", "decode mu 2 2 - of RN22_M.I from 0"),
        ("HN44_A.O", "decode a 4 4 PCM_INIT.A of HN44_A.I from 0"),
        ("HV53_M.O", "decode mu 5 3 PCM_INIT.M of HV53_M.I from 0"),
        ("RI32_A.O", "decode a 3 2 - of I24 from 0"),
        ("RI22_M.O", "decode mu 2 2 - of I16 from 0"),
        (
            "HI43_A.O",
            "decode a 4 3 - of I_INIT43.A from 3496 or decode a 4 3 PCM_INIT.A of I32 from 0",
        ),
        ("RN52_C.O", "decode a 5 2 - of RN52_M.I from 0"),
        ("HN32_C.O", "decode a 3 2 PCM_INIT.A of HN32_M.I from 0"),
        ("RV44_X.O", "decode mu 4 4 - of RV44_A.I from 0"),
        ("HV54_X.O", "decode mu 5 4 PCM_INIT.M of HV54_A.I from 0"),
        ("I_INIT32.A", "encode a 3 2 - of PCM_INIT.A from 0"),
    ] {
        assert_eq!(shown(&table[name]), due, "{name}");
    }
    let cut = rows().into_iter().filter(|row| row.first == Some(3_496));
    assert!(cut
        .map(|row| row.name)
        .all(|name| name.starts_with("I_INIT")));
    assert_eq!(table["I_INIT54.M"].first, Some(3_496));
}
