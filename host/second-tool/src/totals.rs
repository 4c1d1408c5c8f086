//! What inspect writes under its lines.

#[derive(Default)]
pub struct Totals {
    frames: u64,
    samples: u64,
    octets: u64,
}

impl Totals {
    pub fn add(&mut self, samples: usize, octets: usize) {
        self.frames += 1;
        self.samples += samples as u64;
        self.octets += octets as u64;
    }

    pub fn line(&self) -> String {
        let (frames, samples) = (self.frames, self.samples);
        // Eight samples are a millisecond, and a frame has a multiple of eight.
        let milliseconds = samples / 8;
        let (seconds, rest) = (milliseconds / 1_000, milliseconds % 1_000);
        let (kbit, tenth) = (self.tenths() / 10, self.tenths() % 10);
        format!(
            "frames: {frames}; samples: {samples}; seconds: {seconds}.{rest:03}; kbit/s: {kbit}.{tenth}\n"
        )
    }

    /// Tenths of a kbit/s: an octet a sample is 64 kbit/s. Half goes up.
    fn tenths(&self) -> u64 {
        (2 * 640 * self.octets + self.samples)
            .checked_div(2 * self.samples)
            .unwrap_or(0)
    }
}

#[cfg(test)]
mod tests {
    use super::*;

    fn of(frames: u64, samples: u64, octets: u64) -> String {
        Totals {
            frames,
            samples,
            octets,
        }
        .line()
    }

    #[test]
    fn totals_are_written() {
        for (frames, samples, octets, rest) in [
            (0, 0, 0, "seconds: 0.000; kbit/s: 0.0"),
            (2, 24, 19, "seconds: 0.003; kbit/s: 50.7"),
            (9, 8_056, 3_000, "seconds: 1.007; kbit/s: 23.8"),
            // Exactly 22.25, and 22.06.
            (1, 256, 89, "seconds: 0.032; kbit/s: 22.3"),
            (1, 264, 91, "seconds: 0.033; kbit/s: 22.1"),
        ] {
            let due = format!("frames: {frames}; samples: {samples}; {rest}\n");
            assert_eq!(of(frames, samples, octets), due);
        }
    }
}
