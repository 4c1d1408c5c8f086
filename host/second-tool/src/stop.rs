//! Why a run ends at a frame, and the line that says so.

use crate::sound;
use filter::line::Line;
use filter::stop::Stop;
use second::end::End;
use second::linear::{GREATEST, LEAST};
use second::replies;

/// A frame of the stream: its index, and the octet of the stream at which it begins.
#[derive(Clone, Copy, Default)]
pub struct Place {
    pub frame: u64,
    pub octet: u64,
}

impl Place {
    pub fn next(self, octets: usize) -> Place {
        Place {
            frame: self.frame + 1,
            octet: self.octet + octets as u64,
        }
    }

    pub fn line(self, what: &str) -> Line {
        format!("frame {} at octet {}: {what}", self.frame, self.octet).into_bytes()
    }

    pub fn refused(self, number: u8) -> Stop {
        self.refused_since(number, meaning(number))
    }

    /// Refused since the frame bears this number and not the due one.
    pub fn misnumbered(self, found: u8, due: u8) -> Stop {
        let what = format!("number {found} where {due} was due");
        self.refused_since(replies::OTHER_NUMBER, &what)
    }

    /// Refused since the linear sample at this place of the frame has this value.
    pub fn off_scale(self, place: usize, value: i16) -> Stop {
        let sample = self.octet / sound::octets(End::Linear) as u64 + place as u64;
        let what = format!("sample {sample} is {value}, not from {LEAST} to {GREATEST}");
        self.refused_since(replies::SAMPLE_OUT_OF_RANGE, &what)
    }

    fn refused_since(self, number: u8, what: &str) -> Stop {
        Stop(self.line(&format!("refused with {number}: {what}")))
    }

    pub fn cut(self, octets: usize) -> Stop {
        let what = format!("the stream ends inside the frame; octets of it: {octets}");
        Stop(self.line(&what))
    }

    pub fn cut_sample(self) -> Stop {
        Stop(self.line("the stream ends inside a sample"))
    }
}

fn meaning(number: u8) -> &'static str {
    match number {
        replies::NO_SUCH_PAIR => "width or core not one of the nine pairs",
        replies::BAD_SAMPLE_COUNT => {
            "sample count not a multiple of 8 from 8 to 320, or g not 1 to 40"
        }
        replies::OUT_TOO_SHORT => "out buffer shorter than the result",
        replies::STATE_OUT_OF_RANGE => "a state variable outside its range",
        replies::NOT_A_FRAME => "fewer than 2 octets, or edition neither 01 nor 10",
        replies::WRONG_LENGTH => {
            "length not 2 + x times g in edition 1, 3 + x times g in edition 2"
        }
        replies::OTHER_CORE => "frame's core differs from the state's",
        replies::BAD_TARGET_WIDTH => "target width below y or above x",
        replies::SAMPLE_OUT_OF_RANGE => "a sample not from -8192 to 8191",
        _ => "law not 0 (mu) or 1 (A)",
    }
}
