//! The files of a folder and of the folders in it, by their names in capitals.

use std::collections::BTreeMap;
use std::path::{self, Path, PathBuf};
use tool::folder::entries;

/// A name that is there more than once means the file in the folder itself, or else the one in the first
/// of the folders in it.
pub struct Folder {
    files: BTreeMap<String, PathBuf>,
}

impl Folder {
    pub fn open(place: &Path) -> Result<Folder, String> {
        // Whatever the folder is called, a whole path is a file's name to every program.
        let place = path::absolute(place).map_err(|e| format!("{}: {e}", place.display()))?;
        let (inner, mut files): (Vec<_>, Vec<_>) =
            entries(&place)?.into_iter().partition(|p| p.is_dir());
        for folder in inner {
            files.extend(entries(&folder)?);
        }
        let mut found = BTreeMap::new();
        for file in files.into_iter().filter(|place| place.is_file()) {
            found.entry(capitals(&file)).or_insert(file);
        }
        Ok(Folder { files: found })
    }

    pub fn find(&self, name: &str) -> Option<&Path> {
        self.files.get(name).map(PathBuf::as_path)
    }
}

fn capitals(place: &Path) -> String {
    let name = place.file_name().unwrap_or_default();
    name.to_string_lossy().to_ascii_uppercase()
}

#[cfg(test)]
mod tests {
    use super::*;
    use std::fs;
    use tool::scratch::{Files, Scratch};

    #[test]
    fn a_name_is_found_in_either_case_and_in_folders() {
        let names = ["nrm.M", "one/i40", "two/I40", "two/NRM.M", "two/in/OVR.M"];
        let files = names.map(|name| (name.into(), name.into()));
        let scratch = Scratch::with(&Files::from(files)).unwrap();
        let folder = Folder::open(scratch.folder()).unwrap();
        let found = |name: &str| folder.find(name).map(|place| fs::read(place).unwrap());
        assert_eq!(found("NRM.M"), Some(b"nrm.M".to_vec()));
        assert_eq!(found("I40"), Some(b"one/i40".to_vec()));
        assert_eq!((found("OVR.M"), found("TWO")), (None, None));
        assert!(Folder::open(&scratch.folder().join("none")).is_err());
    }
}
