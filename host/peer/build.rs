//! Looks for spandsp's header and library where a system keeps them. The program is built either
//! way; `spandsp` is set only where both were found.

use std::path::{Path, PathBuf};
use std::{env, fs};

const PREFIXES: [&str; 2] = ["/usr", "/usr/local"];

fn main() {
    println!("cargo:rustc-check-cfg=cfg(spandsp)");
    println!("cargo:rerun-if-changed=build.rs");
    let header = find("include", "spandsp.h");
    let library = find("lib", "libspandsp.so");
    watch(&header, "spandsp.h");
    watch(&library, "libspandsp.so");
    if let (Some(_), Some(library)) = (header, library) {
        println!("cargo:rustc-cfg=spandsp");
        println!("cargo:rustc-link-lib=dylib=spandsp");
        let directory = library.parent().unwrap_or(Path::new("/"));
        println!("cargo:rustc-link-search=native={}", directory.display());
    }
}

/// In the directory itself or just below it: Debian keeps one for each architecture, and what is in
/// another's cannot be linked.
fn find(kind: &str, name: &str) -> Option<PathBuf> {
    let architecture = env::var("CARGO_CFG_TARGET_ARCH").unwrap_or_default();
    let is_ours = |entry: &fs::DirEntry| {
        let name = entry.file_name();
        name.to_string_lossy().starts_with(&architecture)
    };
    PREFIXES.iter().find_map(|prefix| {
        let own = Path::new(prefix).join(kind);
        let below = fs::read_dir(&own).into_iter().flatten().flatten();
        std::iter::once(own.clone())
            .chain(below.filter(is_ours).map(|entry| entry.path()))
            .map(|directory| directory.join(name))
            .find(|file| file.exists())
    })
}

/// A watched file that does not exist makes cargo look again with every build, so that a package
/// installed later is found.
fn watch(found: &Option<PathBuf>, name: &str) {
    let path = found.clone().unwrap_or(PathBuf::from(name));
    println!("cargo:rerun-if-changed={}", path.display());
}
