//! Levels of mu-law speech, the signal-to-noise ratio, and a WAV file as an address that a page can
//! carry within itself.

use second::g711::{expand, Law};

pub const RATE: usize = 8_000;

pub fn levels(speech: &[u8]) -> Vec<i32> {
    speech.iter().map(|&byte| expand(Law::Mu, byte)).collect()
}

/// In decibels, of linear levels: infinite where nothing differs, and so also for silence kept.
pub fn signal_to_noise(original: &[i32], decoded: &[i32]) -> f64 {
    let power = |level: i32| f64::from(level) * f64::from(level);
    let signal: f64 = original.iter().map(|&level| power(level)).sum();
    let noise: f64 = original
        .iter()
        .zip(decoded)
        .map(|(&sent, &heard)| power(sent - heard))
        .sum();
    if noise == 0.0 {
        f64::INFINITY
    } else {
        10.0 * (signal / noise).log10()
    }
}

const HEADER: usize = 44;

/// Sixteen-bit PCM rather than WAV's own mu-law: every browser plays it.
pub fn wav(levels: &[i32]) -> Vec<u8> {
    let octets = 2 * levels.len();
    let mut file = Vec::with_capacity(HEADER + octets);
    let long = |number: usize| (number as u32).to_le_bytes();
    let short = |number: u16| number.to_le_bytes();
    file.extend(b"RIFF");
    file.extend(long(HEADER - 8 + octets));
    file.extend(b"WAVEfmt ");
    file.extend(long(16));
    file.extend(short(1));
    file.extend(short(1));
    file.extend(long(RATE));
    file.extend(long(2 * RATE));
    file.extend(short(2));
    file.extend(short(16));
    file.extend(b"data");
    file.extend(long(octets));
    // Levels have 14 bits with their sign: mu-law ends at 8,031, so four times a level fits.
    file.extend(
        levels
            .iter()
            .flat_map(|&level| ((4 * level) as i16).to_le_bytes()),
    );
    file
}

const DIGITS: &[u8; 64] = b"ABCDEFGHIJKLMNOPQRSTUVWXYZabcdefghijklmnopqrstuvwxyz0123456789+/";

pub fn base64(octets: &[u8]) -> String {
    let mut text = String::with_capacity(octets.len().div_ceil(3) * 4);
    for three in octets.chunks(3) {
        let bits = (0..3).fold(0u32, |bits, i| {
            bits << 8 | u32::from(*three.get(i).unwrap_or(&0))
        });
        for place in 0..4 {
            text.push(if place <= three.len() {
                char::from(DIGITS[(bits >> (18 - 6 * place) & 63) as usize])
            } else {
                '='
            });
        }
    }
    text
}

#[cfg(test)]
mod tests {
    use super::*;

    #[test]
    fn a_tenth_of_the_level_as_noise_is_twenty_decibels() {
        let found = signal_to_noise(&[100, -100, 50], &[110, -90, 55]);
        assert!((found - 20.0).abs() < 1e-9, "{found}");
    }

    #[test]
    fn no_noise_is_infinite() {
        assert_eq!(signal_to_noise(&[3, -4], &[3, -4]), f64::INFINITY);
    }

    #[test]
    fn louder_noise_than_signal_is_negative() {
        assert!(signal_to_noise(&[10, 10], &[-30, 40]) < 0.0);
    }

    #[test]
    fn wav_header_counts_what_follows() {
        let file = wav(&[0, 1, -1, 8_031, -8_031]);
        assert_eq!(file.len(), 54);
        assert_eq!(&file[..4], b"RIFF");
        assert_eq!(file[4..8], 46u32.to_le_bytes());
        assert_eq!(&file[8..16], b"WAVEfmt ");
        assert_eq!(file[24..28], 8_000u32.to_le_bytes());
        assert_eq!(file[28..32], 16_000u32.to_le_bytes());
        assert_eq!(file[40..44], 10u32.to_le_bytes());
        assert_eq!(file[50..52], 32_124i16.to_le_bytes());
        assert_eq!(file[52..54], (-32_124i16).to_le_bytes());
    }

    #[test]
    fn base64_of_every_remainder() {
        assert_eq!(base64(b""), "");
        assert_eq!(base64(b"M"), "TQ==");
        assert_eq!(base64(b"Ma"), "TWE=");
        assert_eq!(base64(b"Man"), "TWFu");
        assert_eq!(base64(&[0xFB, 0xFF, 0xFE]), "+//+");
    }
}
