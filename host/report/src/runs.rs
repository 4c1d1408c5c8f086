//! Speech through the tool: encoded at width 5, thinned, decoded, at every core and width.

use crate::sound::{levels, signal_to_noise, RATE};
use crate::states::{compare, lines, slow_scales, Agreement};
use tool::Tool;

pub const WIDEST: u8 = 5;
pub const CORES: [u8; 3] = [2, 3, 4];

pub struct Sample {
    pub name: String,
    pub speech: Vec<u8>,
}

pub struct Run {
    pub core: u8,
    pub width: u8,
    pub levels: Vec<i32>,
    pub snr: f64,
    /// With the headers of the frames.
    pub kbit_on_air: f64,
    pub agreement: Agreement,
    pub near: Vec<u32>,
    pub far: Vec<u32>,
}

/// All widths at one core, from one encoding: what is thrown away later cannot reach the encoder.
pub fn at_core(tool: &Tool, sample: &Sample, core: u8) -> Result<Vec<Run>, String> {
    let words = ["-v", "encode", "mu", "5", &core.to_string()];
    let sent = tool.run_whole(&words, &sample.speech)?;
    let near = lines(&sent.text())?;
    (core..=WIDEST)
        .rev()
        .map(|width| thinned(tool, sample, &sent.octets, &near, (width, core)))
        .collect()
}

fn thinned(
    tool: &Tool,
    sample: &Sample,
    frames: &[u8],
    near: &[String],
    (width, core): (u8, u8),
) -> Result<Run, String> {
    let drop = ["drop", &width.to_string()];
    let thin = tool.run_whole(&drop, frames)?.octets;
    let heard = tool.run_whole(&["-v", "decode", "mu"], &thin)?;
    if heard.octets.len() != sample.speech.len() {
        let (sent, got) = (sample.speech.len(), heard.octets.len());
        return Err(format!(
            "{}: {sent} samples in, {got} out; the length must be a multiple of 8",
            sample.name
        ));
    }
    let far = lines(&heard.text())?;
    let levels_heard = levels(&heard.octets);
    Ok(Run {
        core,
        width,
        snr: signal_to_noise(&levels(&sample.speech), &levels_heard),
        levels: levels_heard,
        kbit_on_air: kbit(thin.len(), sample.speech.len()),
        agreement: compare(near, &far),
        near: slow_scales(near),
        far: slow_scales(&far),
    })
}

/// Thousands of bits a second, of octets that carry that many samples.
pub fn kbit(octets: usize, samples: usize) -> f64 {
    (octets * 8 * RATE) as f64 / (samples as f64 * 1000.0)
}

#[cfg(test)]
mod tests {
    use super::*;

    #[test]
    fn mu_law_itself_is_64_kbit() {
        assert_eq!(kbit(160, 160), 64.0);
    }

    #[test]
    fn a_frame_of_width_5_is_40_kbit_and_its_header() {
        assert!((kbit(102, 160) - 40.8).abs() < 1e-9);
    }
}
