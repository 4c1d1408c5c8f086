//! Recorded speech from Debian's asterisk-core-sounds-en-wav: 8 kHz, 16 bits, one channel.

use crate::inputs::Signal;
use std::fs;
use std::path::{Path, PathBuf};

const RECORDINGS: &str = "/usr/share/asterisk/sounds";

/// All recordings in the order of their names; none where the package is missing.
pub fn recordings() -> Vec<Signal> {
    let mut paths = Vec::new();
    collect(Path::new(RECORDINGS), &mut paths);
    paths.sort();
    paths.dedup();
    paths.iter().filter_map(|path| read(path)).collect()
}

fn collect(directory: &Path, found: &mut Vec<PathBuf>) {
    for entry in fs::read_dir(directory).into_iter().flatten().flatten() {
        // The package links the same recordings under other names; each is wanted once.
        let Ok(path) = entry.path().canonicalize() else {
            continue;
        };
        if path.is_dir() {
            collect(&path, found);
        } else if path.extension().is_some_and(|kind| kind == "wav") {
            found.push(path);
        }
    }
}

fn read(path: &Path) -> Option<Signal> {
    let file = fs::read(path).ok()?;
    let samples = samples(&file)?;
    Some(Signal {
        name: format!("recording {}", path.file_name()?.to_string_lossy()),
        levels: samples,
    })
}

/// The samples of a wav file brought from sixteen bits to fourteen.
fn samples(file: &[u8]) -> Option<Vec<i32>> {
    if chunk(file, b"fmt ")?.get(..8)? != [1, 0, 1, 0, 0x40, 0x1F, 0, 0] {
        return None;
    }
    let level = |pair: &[u8]| i32::from(i16::from_le_bytes([pair[0], pair[1]]) >> 2);
    Some(chunk(file, b"data")?.chunks_exact(2).map(level).collect())
}

/// The body of the first chunk of that name in a RIFF file.
fn chunk<'a>(file: &'a [u8], name: &[u8; 4]) -> Option<&'a [u8]> {
    let mut rest = file.get(12..)?;
    loop {
        let length = u32::from_le_bytes(rest.get(4..8)?.try_into().ok()?) as usize;
        let body = rest.get(8..)?;
        if rest.starts_with(name) {
            return Some(&body[..length.min(body.len())]);
        }
        rest = body.get(length + length % 2..)?;
    }
}
