//! What is measured: encoding at a pair, and decoding what was encoded, with samples of either kind.

use second::g711::{expand, Law};

#[derive(Clone, Copy, PartialEq, Eq)]
enum Samples {
    Mu,
    Linear,
}

pub struct Job {
    samples: Samples,
    width: u8,
    core: u8,
}

const fn job(samples: Samples, width: u8, core: u8) -> Job {
    Job {
        samples,
        width,
        core,
    }
}

pub const JOBS: [Job; 6] = [
    job(Samples::Mu, 5, 2),
    job(Samples::Mu, 4, 4),
    job(Samples::Mu, 2, 2),
    job(Samples::Linear, 5, 2),
    job(Samples::Linear, 4, 4),
    job(Samples::Linear, 2, 2),
];

impl Job {
    fn law(&self) -> &'static str {
        match self.samples {
            Samples::Mu => "mu",
            Samples::Linear => "linear",
        }
    }

    pub fn encode(&self) -> String {
        format!("encode {} {} {}", self.law(), self.width, self.core)
    }

    pub fn decode(&self) -> String {
        format!("decode {}", self.law())
    }

    /// The speech, which is in mu-law, as the samples that are encoded.
    pub fn input(&self, speech: &[u8]) -> Vec<u8> {
        match self.samples {
            Samples::Mu => speech.to_vec(),
            Samples::Linear => speech.iter().flat_map(|&octet| linear(octet)).collect(),
        }
    }

    pub fn title(&self, verb: &str) -> String {
        let kind = match self.samples {
            Samples::Mu => "",
            Samples::Linear => " linear",
        };
        format!("{verb}{kind} ({},{})", self.width, self.core)
    }

    /// G.726 at 16 kbit/s has the tables of (2,2), and G.726 at no rate has those of another pair.
    pub fn is_for(&self, title: &str) -> bool {
        let neighbour = (self.samples, self.width, self.core) == (Samples::Mu, 2, 2);
        title != "spandsp" || neighbour
    }
}

/// EXPAND's level, the least significant octet first.
fn linear(octet: u8) -> [u8; 2] {
    (expand(Law::Mu, octet) as i16).to_le_bytes()
}
