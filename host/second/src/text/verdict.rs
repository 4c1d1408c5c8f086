//! What a text can be refused for, and what is said of it at its end.

#[derive(Clone, Copy, Debug, PartialEq, Eq, PartialOrd, Ord, Hash)]
pub enum Refusal {
    BadCharacter,
    LineTooLong,
    WrongRemainder,
    MissingRemainder,
}

impl Refusal {
    /// In the order of their numbers, which begin with 1.
    pub const ALL: [Refusal; 4] = [
        Refusal::BadCharacter,
        Refusal::LineTooLong,
        Refusal::WrongRemainder,
        Refusal::MissingRemainder,
    ];

    pub fn name(self) -> &'static str {
        match self {
            Refusal::BadCharacter => "bad character",
            Refusal::LineTooLong => "line too long",
            Refusal::WrongRemainder => "wrong remainder",
            Refusal::MissingRemainder => "missing remainder",
        }
    }

    pub fn number(self) -> u8 {
        self as u8 + 1
    }

    pub fn at(self, place: u64) -> Refused {
        Refused {
            refusal: self,
            place,
        }
    }
}

/// Places count characters from 0.
#[derive(Clone, Copy, Debug, PartialEq, Eq, PartialOrd, Ord, Hash)]
pub struct Refused {
    pub refusal: Refusal,
    pub place: u64,
}

#[derive(Clone, Copy, Debug, Default, PartialEq, Eq)]
pub enum Verdict {
    #[default]
    Sound,
    Refused(Refused),
}

impl Verdict {
    /// 0 where it is sound.
    pub fn number(self) -> u8 {
        self.refused().map_or(0, |refused| refused.refusal.number())
    }

    /// 0 where it is sound.
    pub fn place(self) -> u64 {
        self.refused().map_or(0, |refused| refused.place)
    }

    pub fn refused(self) -> Option<Refused> {
        match self {
            Verdict::Sound => None,
            Verdict::Refused(refused) => Some(refused),
        }
    }
}
