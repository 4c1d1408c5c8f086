//! The speech that is coded: the samples one after the other, over and over.

use std::path::Path;
use tool::folder;

const RATE: usize = 8_000;

pub fn seconds(folder: &Path, seconds: usize) -> Result<Vec<u8>, String> {
    let mut once = Vec::new();
    for place in folder::files(folder, "mu")? {
        once.extend(folder::read(&place)?);
    }
    Ok(once.into_iter().cycle().take(RATE * seconds).collect())
}
