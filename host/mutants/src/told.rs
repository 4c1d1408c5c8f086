//! An error of the system, with the place that it is about.

use std::io::Error;
use std::path::Path;

pub fn told(place: &Path) -> impl Fn(Error) -> String + '_ {
    move |error| format!("{}: {error}", place.display())
}

#[cfg(test)]
mod tests {
    use super::*;
    use std::fs;

    #[test]
    fn the_place_is_told_first() {
        let place = Path::new("no-such-file");
        let line = fs::read(place).map_err(told(place)).unwrap_err();
        assert!(line.starts_with("no-such-file: "), "{line}");
    }
}
