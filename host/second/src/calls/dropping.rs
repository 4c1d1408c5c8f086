//! A frame thinned to its first planes.

use crate::frame::{self, Header};
use crate::replies::{self, demand};

#[derive(Clone, Copy, Debug, PartialEq, Eq)]
pub struct DropAnswer {
    pub number: u8,
    pub octets: usize,
}

/// The frame with only its first `target` planes.
pub fn drop_planes(frame: &[u8], target: u8, out: &mut [u8]) -> DropAnswer {
    match drop_plan(frame, target, out.len()) {
        Err(number) => DropAnswer { number, octets: 0 },
        Ok(thinner) => {
            let octets = thinner.octets();
            frame::keep_first_planes(thinner, frame, &mut out[..octets]);
            DropAnswer {
                number: replies::DONE,
                octets,
            }
        }
    }
}

fn drop_plan(frame: &[u8], target: u8, room: usize) -> Result<Header, u8> {
    let header = frame::read_header(frame)?;
    let possible = (header.core..=header.width).contains(&target);
    demand(possible, replies::BAD_TARGET_WIDTH)?;
    let thinner = Header {
        width: target,
        ..header
    };
    demand(room >= thinner.octets(), replies::OUT_TOO_SHORT)?;
    Ok(thinner)
}
