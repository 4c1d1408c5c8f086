//! The two ends compared: the lines that the tool writes with `-v`, one after each frame.

#[derive(Clone, Copy, Debug, PartialEq, Eq)]
pub struct Agreement {
    pub frames: usize,
    pub agreed: usize,
    /// The first frame after which the states differ, counted from 0.
    pub first_apart: Option<usize>,
}

impl Agreement {
    pub fn is_whole(&self) -> bool {
        self.frames > 0 && self.agreed == self.frames
    }
}

/// Line by line. A line that only one end has is a frame without agreement.
pub fn compare<T: PartialEq>(near: &[T], far: &[T]) -> Agreement {
    let frames = near.len().max(far.len());
    let agrees =
        |&frame: &usize| matches!((near.get(frame), far.get(frame)), (Some(a), Some(b)) if a == b);
    Agreement {
        frames,
        agreed: (0..frames).filter(agrees).count(),
        first_apart: (0..frames).find(|frame| !agrees(frame)),
    }
}

const NUMBERS: usize = 27;
const PLACE_OF_YL: usize = 2;

/// The lines of states: the frame's index and 26 numbers. Anything else is not what was asked for,
/// and must not pass as agreement because both ends say it.
pub fn lines(said: &str) -> Result<Vec<String>, String> {
    said.lines()
        .enumerate()
        .map(|(frame, line)| {
            let numbers: Option<Vec<u32>> = line.split(' ').map(|word| word.parse().ok()).collect();
            match numbers {
                Some(n) if n.len() == NUMBERS && n[0] as usize == frame => Ok(line.to_string()),
                _ => Err(format!("not the state after frame {frame}: {line}")),
            }
        })
        .collect()
}

/// YL, the slow scale factor, of each line: the part of the state that is easiest to see drift.
pub fn slow_scales(lines: &[String]) -> Vec<u32> {
    lines
        .iter()
        .filter_map(|line| line.split(' ').nth(PLACE_OF_YL)?.parse().ok())
        .collect()
}

#[cfg(test)]
mod tests {
    use super::*;

    fn line(frame: usize, core: u8) -> String {
        format!("{frame} 544 34816{} {core} 0", " 0".repeat(22))
    }

    #[test]
    fn equal_ends_agree_on_every_frame() {
        let found = compare(&["a", "b", "c"], &["a", "b", "c"]);
        assert!(found.is_whole());
        assert_eq!((found.agreed, found.first_apart), (3, None));
    }

    #[test]
    fn a_difference_is_counted_and_placed() {
        let found = compare(&["a", "b", "c"], &["a", "x", "c"]);
        assert_eq!((found.agreed, found.first_apart), (2, Some(1)));
        assert!(!found.is_whole());
    }

    #[test]
    fn a_missing_line_is_no_agreement() {
        for (near, far) in [(2, 3), (3, 2)] {
            let found = compare(&["a", "b", "c"][..near], &["a", "b", "c"][..far]);
            assert_eq!((found.frames, found.agreed), (3, 2));
            assert_eq!(found.first_apart, Some(2));
        }
    }

    #[test]
    fn no_frames_are_no_proof_of_agreement() {
        assert!(!compare::<String>(&[], &[]).is_whole());
    }

    #[test]
    fn state_lines_are_told_from_other_lines() {
        let said = format!("{}\n{}\n", line(0, 2), line(1, 2));
        let found = lines(&said).unwrap();
        assert_eq!(found, [line(0, 2), line(1, 2)]);
        assert_eq!(slow_scales(&found), [34_816, 34_816]);
        assert!(lines("filled up with 4 samples of silence\n").is_err());
        assert!(lines(&line(1, 2)).is_err());
    }
}
