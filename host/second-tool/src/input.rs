//! The stream frame by frame, each as long as its header says.

use crate::stop::Place;
use filter::files::Source;
use filter::stop::Stop;
use second::frame::{self, Header, HEADER_OCTETS};
use second::replies;

/// The next frame; nothing at the end of the stream. A header that is wrong by itself is refused
/// without a look at what follows it.
pub fn frame(input: &mut Source, place: Place) -> Result<Vec<u8>, Stop> {
    let mut frame = input.piece(HEADER_OCTETS)?;
    let due = match *frame.as_slice() {
        [] => return Ok(frame),
        [first, groups] => due(first, groups).map_err(|number| place.refused(number))?,
        _ => return Err(place.cut(frame.len())),
    };
    frame.extend(input.piece(due - HEADER_OCTETS)?);
    if frame.len() < due {
        return Err(place.cut(frame.len()));
    }
    Ok(frame)
}

/// The header of a whole frame.
pub fn header(frame: &[u8], place: Place) -> Result<Header, Stop> {
    frame::read_header(frame).map_err(|number| place.refused(number))
}

/// The length of the frame whose header begins so.
fn due(first: u8, groups: u8) -> Result<usize, u8> {
    let beginning = Header {
        edition: first >> 6,
        width: first >> 3 & 7,
        core: first & 7,
        groups: usize::from(groups),
        number: None,
    };
    match frame::read_header(&[first, groups]) {
        Err(number) if number != replies::WRONG_LENGTH => Err(number),
        _ => Ok(beginning.octets()),
    }
}
