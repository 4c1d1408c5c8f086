//! A folder that is there for one run.

use std::collections::BTreeMap;
use std::ffi::OsString;
use std::path::{Path, PathBuf};
use std::sync::atomic::{AtomicUsize, Ordering};
use std::{env, fs, process};

/// Files by their names.
pub type Files = BTreeMap<OsString, Vec<u8>>;

pub struct Scratch(PathBuf);

impl Scratch {
    /// A file's name may have folders before it.
    pub fn with(files: &Files) -> Result<Scratch, String> {
        static MADE: AtomicUsize = AtomicUsize::new(0);
        let count = MADE.fetch_add(1, Ordering::Relaxed);
        let place = env::temp_dir().join(format!("runs-{}-{count}", process::id()));
        fs::create_dir(&place).map_err(|error| format!("{}: {error}", place.display()))?;
        let scratch = Scratch(place);
        for (name, octets) in files {
            let place = scratch.0.join(name);
            let folder = place.parent().unwrap_or(&scratch.0);
            fs::create_dir_all(folder)
                .and_then(|()| fs::write(&place, octets))
                .map_err(|error| format!("{}: {error}", place.display()))?;
        }
        Ok(scratch)
    }

    pub fn folder(&self) -> &Path {
        &self.0
    }

    /// All that are in it, where there is no folder among them.
    pub fn files(&self) -> Result<Files, String> {
        let told = |error| format!("{}: {error}", self.0.display());
        fs::read_dir(&self.0)
            .map_err(told)?
            .map(|entry| {
                let entry = entry.map_err(told)?;
                Ok((entry.file_name(), fs::read(entry.path()).map_err(told)?))
            })
            .collect()
    }
}

impl Drop for Scratch {
    fn drop(&mut self) {
        // What cannot be removed stays in the folder for temporary files, and changes no verdict.
        let _ = fs::remove_dir_all(&self.0);
    }
}

#[cfg(test)]
mod tests {
    use super::*;

    #[test]
    fn a_folder_has_its_files_and_goes() {
        let files = Files::from([("a".into(), vec![1]), ("b".into(), vec![])]);
        let scratch = Scratch::with(&files).unwrap();
        assert_eq!(scratch.files(), Ok(files));
        let other = Scratch::with(&Files::new()).unwrap();
        assert_eq!(other.files(), Ok(Files::new()));
        let place = scratch.folder().to_path_buf();
        drop(scratch);
        assert!(!place.exists());
    }

    #[test]
    fn a_file_may_stand_in_a_folder() {
        let scratch = Scratch::with(&Files::from([("a/b".into(), vec![7])])).unwrap();
        assert_eq!(fs::read(scratch.folder().join("a/b")).ok(), Some(vec![7]));
    }
}
