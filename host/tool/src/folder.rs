//! The files of a folder.

use std::fs;
use std::path::{Path, PathBuf};

/// All that is in it, in the order of their names, since a folder has no order of its own.
pub fn entries(folder: &Path) -> Result<Vec<PathBuf>, String> {
    let told = |error| format!("{}: {error}", folder.display());
    let mut places: Vec<PathBuf> = fs::read_dir(folder)
        .map_err(told)?
        .map(|entry| entry.map(|found| found.path()))
        .collect::<Result<_, _>>()
        .map_err(told)?;
    places.sort();
    Ok(places)
}

/// Those with this ending. None at all is an error: nothing would be done, and that would look like success.
pub fn files(folder: &Path, ending: &str) -> Result<Vec<PathBuf>, String> {
    let mut places = entries(folder)?;
    places.retain(|place| place.extension().is_some_and(|found| found == ending));
    if places.is_empty() {
        return Err(format!("{}: no file *.{ending} there", folder.display()));
    }
    Ok(places)
}

pub fn read(place: &Path) -> Result<Vec<u8>, String> {
    fs::read(place).map_err(|error| format!("{}: {error}", place.display()))
}

/// The file's name without its ending.
pub fn name(place: &Path) -> String {
    let stem = place.file_stem().unwrap_or_default();
    stem.to_string_lossy().into_owned()
}

#[cfg(test)]
mod tests {
    use super::*;

    #[test]
    fn files_are_found_by_their_ending_and_in_order() {
        let found = files(Path::new("src"), "rs").unwrap();
        let names: Vec<String> = found.iter().map(|place| name(place)).collect();
        assert_eq!(names, ["folder", "lib", "scratch"]);
    }

    #[test]
    fn a_folder_without_them_is_an_error() {
        assert!(files(Path::new("src"), "txt").is_err_and(|line| line.contains("*.txt")));
        assert!(files(Path::new("no-such-folder"), "rs").is_err());
    }
}
