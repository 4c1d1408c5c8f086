//! What a drawn call is meant to come to.

use random::Random;

/// What a call is drawn to end with. The program decides, but in this way no status is rare.
#[derive(Clone, Copy, Debug, PartialEq, Eq)]
pub enum Aim {
    Done,
    Fault,
    WrongWords,
}

const ALL: [Aim; 8] = [
    Aim::Done,
    Aim::Done,
    Aim::Fault,
    Aim::Fault,
    Aim::Fault,
    Aim::WrongWords,
    Aim::WrongWords,
    Aim::WrongWords,
];

impl Aim {
    pub fn draw(random: &mut Random) -> Aim {
        random.pick(&ALL)
    }
}
