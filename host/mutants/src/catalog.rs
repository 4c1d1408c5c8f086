//! All mutants of the second codec in the order of its sources.

use crate::mutant::{mutants, Mutant};
use crate::told::told;
use std::fs;
use std::path::{Path, PathBuf};
use tool::folder::files;

/// Every mutant of every source in the folder and in the folders there, numbered from 1. A source has
/// its path from the folder as its name.
pub fn all(folder: &Path) -> Result<Vec<Mutant>, String> {
    let mut found = Vec::new();
    for place in sources(folder)? {
        let text = fs::read_to_string(&place).map_err(told(&place))?;
        let path = place.strip_prefix(folder).unwrap_or(&place);
        found.extend(mutants(&path.to_string_lossy(), &text));
    }
    for (number, mutant) in (1..).zip(&mut found) {
        mutant.number = number;
    }
    Ok(found)
}

/// Those of the folder itself first, so that their numbers stay when a folder is put beside them.
fn sources(folder: &Path) -> Result<Vec<PathBuf>, String> {
    let mut found = files(folder, "rs")?;
    for inner in folders(folder)? {
        found.extend(sources(&inner)?);
    }
    Ok(found)
}

/// In the order of their names.
fn folders(folder: &Path) -> Result<Vec<PathBuf>, String> {
    let mut found: Vec<PathBuf> = fs::read_dir(folder)
        .map_err(told(folder))?
        .map(|entry| entry.map(|found| found.path()))
        .collect::<Result<_, _>>()
        .map_err(told(folder))?;
    found.retain(|place| place.is_dir());
    found.sort();
    Ok(found)
}

#[cfg(test)]
mod tests {
    use super::*;
    use crate::equivalents::{parse, LISTED};
    use crate::mutant::Identity;
    use std::collections::HashSet;

    fn of_the_second_codec() -> Vec<Mutant> {
        all(&Path::new(env!("CARGO_MANIFEST_DIR")).join("../second/src")).unwrap()
    }

    #[test]
    fn the_second_codec_has_mutants_in_every_computing_source() {
        let all = of_the_second_codec();
        for file in [
            "adaptation.rs",
            "g711.rs",
            "predictor.rs",
            "tables.rs",
            "text/reader.rs",
            "text/whole.rs",
            "text/writer.rs",
        ] {
            let count = all.iter().filter(|m| m.identity.file == file).count();
            assert!(count > 10, "{file}: {count}");
        }
        assert_eq!(all.last().map(|mutant| mutant.number), Some(all.len()));
    }

    #[test]
    fn sources_in_folders_follow_the_others_and_both_are_in_order() {
        let all = of_the_second_codec();
        let names: Vec<&str> = all.iter().map(|m| m.identity.file.as_str()).collect();
        let is_in_folder = |name: &str| name.contains('/');
        assert!(names.is_sorted_by_key(|name| (is_in_folder(name), *name)));
        assert!(names.last().is_some_and(|name| is_in_folder(name)));
    }

    #[test]
    fn all_that_is_listed_as_equivalent_is_there() {
        let all = of_the_second_codec();
        for entry in parse(LISTED).unwrap() {
            let is_there = all.iter().any(|mutant| mutant.identity == entry.identity);
            assert!(is_there, "no such mutant:\n{}", entry.identity);
        }
    }

    #[test]
    fn no_two_mutants_have_one_name() {
        let all = of_the_second_codec();
        let names: HashSet<&Identity> = all.iter().map(|mutant| &mutant.identity).collect();
        assert_eq!(names.len(), all.len());
    }
}
