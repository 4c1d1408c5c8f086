//! What each command makes of a piece of the stream: of samples, or of a frame.

use crate::call::{Command, Plan, Widths};
use crate::input::{frame, header};
use crate::list;
use crate::sound;
use crate::stop::Place;
use crate::totals::Totals;
use filter::files::Source;
use filter::line::Line;
use filter::stop::Stop;
use second::calls::{self, reset};
use second::end::End;
use second::frame::GROUP;
use second::replies::{DONE, OTHER_NUMBER, SAMPLE_OUT_OF_RANGE};
use second::state::State;

pub enum Work {
    Encode { plan: Plan, state: State },
    Drop { widths: Vec<u8>, most: bool },
    Decode { to: End, state: Option<State> },
    Inspect(Totals),
}

#[derive(Default)]
pub struct Made {
    pub note: Option<Line>,
    pub octets: Vec<u8>,
    pub state: Option<State>,
}

/// More octets than any frame has.
const ROOM: usize = 320;

impl Work {
    pub fn new(command: &Command) -> Result<Work, Stop> {
        Ok(match command {
            Command::Encode(plan) => Work::Encode {
                plan: *plan,
                state: reset(plan.core).state,
            },
            Command::Drop { widths, most } => Work::Drop {
                widths: all_of(widths)?,
                most: *most,
            },
            Command::Decode { to } => Work::Decode {
                to: *to,
                state: None,
            },
            Command::Inspect => Work::Inspect(Totals::default()),
        })
    }

    /// The next piece; nothing at the end of the stream.
    pub fn piece(&self, input: &mut Source, place: Place) -> Result<Vec<u8>, Stop> {
        match self {
            Work::Encode { plan, .. } => input.piece(plan.samples * sound::octets(plan.from)),
            _ => frame(input, place),
        }
    }

    pub fn make(&mut self, piece: &[u8], place: Place) -> Result<Made, Stop> {
        match self {
            Work::Encode { plan, state } => encode(plan, state, piece, place),
            Work::Drop { widths, most } => {
                let turn = (place.frame % widths.len() as u64) as usize;
                drop(widths[turn], *most, piece, place)
            }
            Work::Decode { to, state } => decode(*to, state, piece, place),
            Work::Inspect(totals) => inspect(totals, piece, place),
        }
    }

    pub fn heading(&self) -> &'static str {
        match self {
            Work::Inspect(_) => "frame edition x y g number octets\n",
            _ => "",
        }
    }

    pub fn ending(&self) -> String {
        match self {
            Work::Inspect(totals) => totals.line(),
            _ => String::new(),
        }
    }
}

fn all_of(widths: &Widths) -> Result<Vec<u8>, Stop> {
    match widths {
        Widths::One(width) => Ok(vec![*width]),
        Widths::List(word) => list::read(word),
    }
}

/// The octets where the number is 0, else the refusal.
fn done(number: u8, place: Place, octets: &[u8]) -> Result<Vec<u8>, Stop> {
    if number == DONE {
        Ok(octets.to_vec())
    } else {
        Err(place.refused(number))
    }
}

fn encode(plan: &Plan, state: &mut State, piece: &[u8], place: Place) -> Result<Made, Stop> {
    let (speech, note) = filled(plan.from, piece, place)?;
    let mut out = [0; ROOM];
    let form = (plan.edition, plan.width);
    let answer = sound::encode(plan.from, *state, form, &speech, &mut out);
    if let (SAMPLE_OUT_OF_RANGE, Some((index, value))) = (answer.number, sound::off_scale(&speech))
    {
        return Err(place.off_scale(index, value));
    }
    let octets = done(answer.number, place, &out[..answer.octets])?;
    *state = answer.state;
    Ok(Made {
        note,
        octets,
        state: Some(*state),
    })
}

/// The samples, with silence behind them up to a whole group, and a note of it. A piece that ends inside
/// a sample is not filled up.
fn filled(from: End, piece: &[u8], place: Place) -> Result<(Vec<u8>, Option<Line>), Stop> {
    let each = sound::octets(from);
    if !piece.len().is_multiple_of(each) {
        return Err(place.cut_sample());
    }
    let mut speech = piece.to_vec();
    let whole = speech.len().next_multiple_of(GROUP * each);
    let lacking = (whole - speech.len()) / each;
    speech.resize(whole, sound::silence(from));
    let what = format!("filled up with silence; samples added: {lacking}");
    Ok((speech, (lacking > 0).then(|| place.line(&what))))
}

fn drop(width: u8, most: bool, frame: &[u8], place: Place) -> Result<Made, Stop> {
    let header = header(frame, place)?;
    let target = if most {
        width.min(header.width).max(header.core)
    } else {
        width
    };
    let mut out = [0; ROOM];
    let answer = calls::drop_planes(frame, target, &mut out);
    Ok(Made {
        octets: done(answer.number, place, &out[..answer.octets])?,
        ..Made::default()
    })
}

fn decode(to: End, kept: &mut Option<State>, frame: &[u8], place: Place) -> Result<Made, Stop> {
    let header = header(frame, place)?;
    let state = kept.unwrap_or_else(|| reset(header.core).state);
    let (number, speech, next) = sound::decode(to, state, frame);
    if let (OTHER_NUMBER, Some(found)) = (number, header.number) {
        return Err(place.misnumbered(found, state.number));
    }
    let octets = done(number, place, &speech)?;
    *kept = Some(next);
    Ok(Made {
        octets,
        state: *kept,
        ..Made::default()
    })
}

fn inspect(totals: &mut Totals, frame: &[u8], place: Place) -> Result<Made, Stop> {
    let header = header(frame, place)?;
    totals.add(header.samples(), frame.len());
    let (index, edition, octets) = (place.frame, header.edition, frame.len());
    let (x, y, g) = (header.width, header.core, header.groups);
    let number = header.number.map_or("-".to_string(), |n| n.to_string());
    Ok(Made {
        octets: format!("{index} {edition} {x} {y} {g} {number} {octets}\n").into_bytes(),
        ..Made::default()
    })
}

#[cfg(test)]
mod tests {
    use super::*;
    use second::g711::Law;

    #[test]
    fn a_most_is_held_between_core_and_width() {
        let frame = [0x63, 1, 0xFF, 0, 0, 0];
        for (most, width) in [(2, 3), (3, 3), (4, 4), (5, 4)] {
            let made = drop(most, true, &frame, Place::default()).ok();
            let octets = made.map(|made| made.octets).unwrap_or_default();
            assert_eq!(
                (octets[0] >> 3 & 7, octets.len()),
                (width, 2 + usize::from(width))
            );
        }
        assert!(drop(5, false, &frame, Place::default()).is_err());
    }

    /// The line that ends a stream of these frames, or none.
    fn stopped(frames: &[[u8; 5]]) -> Option<String> {
        let (mut kept, mut place) = (None, Place::default());
        for frame in frames {
            if let Err(stop) = decode(End::Of(Law::Mu), &mut kept, frame, place) {
                return Some(String::from_utf8_lossy(&stop.0).into_owned());
            }
            place = place.next(frame.len());
        }
        None
    }

    #[test]
    fn a_number_that_is_not_due_is_told_beside_the_due_one() {
        let numbered = |number| [0x92, 1, number, 0xF0, 0x0F];
        assert_eq!(stopped(&[0, 1, 2].map(numbered)), None);
        assert_eq!(
            stopped(&[0, 1, 3].map(numbered)),
            Some("frame 2 at octet 10: refused with 10: number 3 where 2 was due".to_string())
        );
        assert_eq!(
            stopped(&[255].map(numbered)),
            Some("frame 0 at octet 0: refused with 10: number 255 where 0 was due".to_string())
        );
    }

    fn filled_up(from: End, piece: &[u8]) -> (Vec<u8>, Option<Line>) {
        filled(from, piece, Place::default()).unwrap_or_else(|_| panic!("it is filled up"))
    }

    #[test]
    fn only_what_is_no_whole_group_is_filled_up() {
        let (speech, note) = filled_up(End::Of(Law::A), &[1; 9]);
        assert_eq!(speech[8..], [1, 0xD5, 0xD5, 0xD5, 0xD5, 0xD5, 0xD5, 0xD5]);
        assert!(note.is_some());
        let (speech, note) = filled_up(End::Of(Law::Mu), &[1; 8]);
        assert_eq!((speech.len(), note), (8, None));
    }

    /// Counted in samples, of which each has two octets.
    #[test]
    fn linear_speech_is_filled_up_with_zeros() {
        let (speech, note) = filled_up(End::Linear, &[1; 14]);
        assert_eq!(speech[14..], [0; 2]);
        let due = b"frame 0 at octet 0: filled up with silence; samples added: 1";
        assert_eq!(note, Some(due.to_vec()));
        let (speech, note) = filled_up(End::Linear, &[1; 16]);
        assert_eq!((speech.len(), note), (16, None));
        assert!(filled(End::Linear, &[1; 15], Place::default()).is_err());
    }

    #[test]
    fn a_sample_off_the_scale_is_told_with_its_place_in_the_stream() {
        let plan = Plan {
            from: End::Linear,
            width: 5,
            core: 2,
            samples: 8,
            edition: 1,
        };
        let place = Place {
            frame: 3,
            octet: 48,
        };
        let mut piece = [0; 16];
        piece[10..12].copy_from_slice(&(-8_193_i16).to_le_bytes());
        let mut state = State::reset(2);
        let stop = encode(&plan, &mut state, &piece, place).err();
        let line = stop.map(|stop| String::from_utf8_lossy(&stop.0).into_owned());
        let due =
            "frame 3 at octet 48: refused with 11: sample 29 is -8193, not from -8192 to 8191";
        assert_eq!(line, Some(due.to_string()));
        assert_eq!(state, State::reset(2));
    }
}
