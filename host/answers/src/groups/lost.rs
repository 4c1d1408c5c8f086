//! Frames that are lost or come late. Each stream begins at reset; a test goes through it and holds every numbered frame to its
//! place.

use super::parts::{decode_fitting, encode_fitting, frame_octets};
use crate::due::Due;
use crate::page::Page;
use random::Random;
use second::calls;
use second::state::State;

/// Both ends, with what is drawn for them.
struct Ends {
    random: Random,
    sender: State,
    receiver: State,
}

impl Ends {
    fn new(core: u8) -> Ends {
        Ends {
            random: Random::new(SEED + u64::from(core)),
            sender: State::reset(core),
            receiver: State::reset(core),
        }
    }

    /// Asks for the next frame, of one group at core width.
    fn write(&mut self, page: &mut Page, edition: u8) -> Vec<u8> {
        let width = self.sender.core;
        let samples = self.random.bytes(8);
        let mut frame = vec![0; frame_octets(edition, width, 8)];
        let call = encode_fitting(self.sender, 0, edition, width, samples.clone());
        page.due(Due::Done(frame.len()), call);
        self.sender = calls::encode(self.sender, 0, edition, width, &samples, &mut frame).state;
        frame
    }

    /// Hands a frame to the receiver, which takes it.
    fn take(&mut self, page: &mut Page, frame: &[u8]) {
        self.receive(page, frame, Due::Done(8));
    }

    fn refuse(&mut self, page: &mut Page, frame: &[u8]) {
        self.receive(page, frame, Due::Refused(10));
    }

    fn receive(&mut self, page: &mut Page, frame: &[u8], due: Due) {
        page.due(due, decode_fitting(self.receiver, 0, frame.to_vec()));
        self.receiver = calls::decode(self.receiver, 0, frame, &mut [0; 8]).state;
    }
}

const SEED: u64 = 16;

pub fn lost(page: &mut Page) {
    page.group(
        "lost",
        "frames that come late, twice or never, and one 256 places off; drawn from seeds 18 to 20",
    );
    for core in 2..=4 {
        page.note(format!("a frame comes late, core {core}"));
        late(page, core);
    }
    page.note("a frame is lost: 255 are refused, with one of edition 1 behind every fifth, and the next is taken for it");
    never(page, 2);
}

/// Both ends are in step again once those that were refused meanwhile are handed in again.
fn late(page: &mut Page, core: u8) {
    let mut ends = Ends::new(core);
    let first = ends.write(page, 2);
    ends.take(page, &first);
    ends.refuse(page, &first);
    let held_up = ends.write(page, 2);
    let next = [0; 3].map(|_| ends.write(page, 2));
    for frame in &next {
        ends.refuse(page, frame);
    }
    ends.take(page, &held_up);
    ends.refuse(page, &held_up);
    for frame in &next {
        ends.take(page, frame);
    }
}

fn never(page: &mut Page, core: u8) {
    let mut ends = Ends::new(core);
    for _ in 0..3 {
        let frame = ends.write(page, 2);
        ends.take(page, &frame);
    }
    ends.write(page, 2);
    for place in 0..255 {
        let frame = ends.write(page, 2);
        ends.refuse(page, &frame);
        if place % 5 == 0 {
            let plain = ends.write(page, 1);
            ends.take(page, &plain);
        }
    }
    let mistaken = ends.write(page, 2);
    ends.take(page, &mistaken);
}
