//! The public calls: reset, encode a frame, decode a frame, drop planes. Each tests its input in
//! the order laid down for it and answers with the number of the first row that applies;
//! a refused call writes nothing and hands back the state it was given.

mod decoding;
mod dropping;
mod encoding;

pub use decoding::{decode, decode_linear, DecodeAnswer, DecodeLinearAnswer};
pub use dropping::{drop_planes, DropAnswer};
pub use encoding::{encode, encode_linear, EncodeAnswer};

use crate::frame::Header;
use crate::replies;
use crate::state::State;

#[derive(Clone, Copy, Debug, PartialEq, Eq)]
pub struct ResetAnswer {
    pub number: u8,
    pub octets: usize,
    pub state: State,
}

/// For a core that does not exist the answer carries the reset state of core 2.
pub fn reset(core: u8) -> ResetAnswer {
    let (number, granted) = if replies::is_core(core) {
        (replies::DONE, core)
    } else {
        (replies::NO_SUCH_PAIR, replies::NARROWEST_CORE)
    };
    ResetAnswer {
        number,
        octets: 0,
        state: State::reset(granted),
    }
}

/// The last sample's state with the number that is due behind a frame done: the one after the
/// frame's own, or the same where it has none.
fn behind(header: Header, last: State) -> State {
    let after = |number: u8| number.wrapping_add(1);
    State {
        number: header.number.map_or(last.number, after),
        ..last
    }
}
