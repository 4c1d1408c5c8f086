//! The calls in the order in which they are stored: groups with a name, notes between calls, and beside a call what is due.

use crate::call::Call;
use crate::due::Due;

#[derive(Debug)]
pub enum Item {
    /// The name of the group that begins, and what it is there for.
    Group(&'static str, &'static str),
    Note(String),
    Call(Call, Due),
    /// A line that is no call, and the line that is due for it. `N` in that stands for the line's number.
    Other(String, String),
}

impl Item {
    /// The line that is stored.
    pub fn line(&self) -> String {
        match self {
            Item::Group(name, why) => format!("# group {name}: {why}"),
            Item::Note(text) => format!("# {text}"),
            Item::Call(call, _) => call.to_string(),
            Item::Other(line, _) => line.clone(),
        }
    }
}

#[derive(Debug, Default)]
pub struct Page {
    pub items: Vec<Item>,
}

impl Page {
    pub fn group(&mut self, name: &'static str, why: &'static str) {
        self.items.push(Item::Group(name, why));
    }

    pub fn note(&mut self, text: impl Into<String>) {
        self.items.push(Item::Note(text.into()));
    }

    /// A call of which the rules do not say the answer: the second codec's is stored.
    pub fn ask(&mut self, call: Call) {
        self.due(Due::Open, call);
    }

    pub fn due(&mut self, due: Due, call: Call) {
        self.items.push(Item::Call(call, due));
    }

    pub fn other(&mut self, line: impl Into<String>, due: impl Into<String>) {
        self.items.push(Item::Other(line.into(), due.into()));
    }

    /// Every line. The last has no line feed: it is a line all the same.
    pub fn text(&self) -> String {
        let lines: Vec<String> = self.items.iter().map(Item::line).collect();
        lines.join("\n")
    }

    /// The places of a group's items.
    pub fn places(&self, group: &str) -> std::ops::Range<usize> {
        let begins = |item: &Item| matches!(item, Item::Group(..));
        let named = |item: &Item| matches!(item, Item::Group(name, _) if *name == group);
        let first = self
            .items
            .iter()
            .position(named)
            .expect("a group of this name")
            + 1;
        let length = self.items[first..].iter().position(begins);
        first..length.map_or(self.items.len(), |length| first + length)
    }
}
