//! Drawings as inline SVG: a waveform with its error over it, and two curves that ought to be one.

use std::fmt::Write;

const ACROSS: usize = 300;
const HIGH: i32 = 60;
/// The samples stay below it, so that they fill the drawing; what a fault adds beyond is cut off.
const EDGE: i32 = 5_000;

/// One upright stroke a column, from the least to the greatest level in it.
fn strokes(levels: &[i32]) -> String {
    let mut path = String::new();
    for column in 0..ACROSS {
        let place = |column: usize| column * levels.len() / ACROSS;
        let part = &levels[place(column)..place(column + 1)];
        if let (Some(&least), Some(&most)) = (part.iter().min(), part.iter().max()) {
            let _ = write!(path, "M{column} {}V{}", height(most), height(least));
        }
    }
    path
}

/// Tenths are enough for the eye and keep the page small.
fn height(level: i32) -> String {
    let held = f64::from(level.clamp(-EDGE, EDGE));
    let middle = f64::from(HIGH) / 2.0;
    format!("{:.1}", middle - held * middle / f64::from(EDGE))
}

/// The heard speech, and over it what was heard too much or too little.
pub fn waveform(original: &[i32], heard: &[i32], label: &str) -> String {
    let error: Vec<i32> = original.iter().zip(heard).map(|(a, b)| b - a).collect();
    let over = if error.iter().any(|&level| level != 0) {
        format!("<path class=\"error\" d=\"{}\"/>", strokes(&error))
    } else {
        String::new()
    };
    format!(
        "<svg viewBox=\"0 0 {ACROSS} {HIGH}\" preserveAspectRatio=\"none\" role=\"img\" aria-label=\"{label}\">\
         <path class=\"wave\" d=\"{}\"/>{over}</svg>",
        strokes(heard)
    )
}

/// Each end's slow scale factor, frame by frame, on one scale.
pub fn two_curves(near: &[u32], far: &[u32], label: &str) -> String {
    let all = || near.iter().chain(far);
    let (least, most) = (
        all().min().copied().unwrap_or(0),
        all().max().copied().unwrap_or(0),
    );
    let curve = |values: &[u32]| {
        let mut points = String::new();
        for (frame, &value) in values.iter().enumerate() {
            let x = (frame * ACROSS) as f64 / (values.len().max(2) - 1) as f64;
            let part = f64::from(value - least) / f64::from((most - least).max(1));
            let y = f64::from(HIGH - 2) - part * f64::from(HIGH - 4);
            let _ = write!(points, "{x:.1},{y:.1} ");
        }
        points
    };
    format!(
        "<svg viewBox=\"0 0 {ACROSS} {HIGH}\" preserveAspectRatio=\"none\" role=\"img\" aria-label=\"{label}\">\
         <polyline class=\"near\" points=\"{}\"/><polyline class=\"far\" points=\"{}\"/></svg>",
        curve(near),
        curve(far)
    )
}

#[cfg(test)]
mod tests {
    use super::*;

    #[test]
    fn full_levels_reach_the_edges_and_silence_the_middle() {
        assert_eq!(height(EDGE), "0.0");
        assert_eq!(height(-EDGE), "60.0");
        assert_eq!(height(0), "30.0");
        assert_eq!(height(99_999), "0.0");
    }

    #[test]
    fn error_is_drawn_only_where_there_is_one() {
        let levels = vec![5; 600];
        assert!(!waveform(&levels, &levels, "").contains("error"));
        assert!(waveform(&levels, &vec![6; 600], "").contains("error"));
    }

    #[test]
    fn short_input_is_drawn_too() {
        assert!(waveform(&[1], &[1], "").contains("wave"));
        assert!(two_curves(&[], &[], "").contains("near"));
        assert!(two_curves(&[4], &[9], "").contains("0.0,58.0"));
    }
}
