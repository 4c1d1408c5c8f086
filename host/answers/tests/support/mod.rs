//! The stored lines beside the calls that they are answers to. The answers are read from the file to which the proved program is held.

use answers::call::Call;
use answers::groups;
use answers::page::{Item, Page};
use answers::parts::{parts, Parts};
use answers::stored::{read, ANSWERED};

pub struct Stored {
    pub page: Page,
    pub lines: Vec<String>,
}

pub fn stored() -> Stored {
    let text = read(ANSWERED).expect("the stored answers");
    Stored {
        page: groups::all(),
        lines: text.lines().map(str::to_string).collect(),
    }
}

impl Stored {
    fn answer(&self, place: usize) -> &str {
        let line = &self.lines[place];
        line.split_once(" = ").map_or("", |(_, answer)| answer)
    }

    /// The group's calls with their answers.
    pub fn group(&self, name: &str) -> Vec<(&Call, Parts)> {
        self.answered(self.page.places(name))
    }

    /// All calls of the codec with their answers.
    pub fn of_codec(&self) -> Vec<(&Call, Parts)> {
        self.answered(0..self.page.items.len())
    }

    fn answered(&self, places: std::ops::Range<usize>) -> Vec<(&Call, Parts)> {
        let call = |place: usize| match &self.page.items[place] {
            Item::Call(call, _) if call.is_of_codec() => {
                Some((call, parts(call, self.answer(place)).unwrap()))
            }
            _ => None,
        };
        places.filter_map(call).collect()
    }
}
