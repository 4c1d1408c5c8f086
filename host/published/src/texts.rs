//! The published texts, each read once.

use crate::folder::Folder;
use crate::program::{Program, Refused};
use std::collections::BTreeMap;
use std::fs;
use std::path::PathBuf;
use std::sync::OnceLock;

pub enum Text {
    Absent,
    Unread(Refused),
    Read(Read),
}

pub struct Read {
    pub place: PathBuf,
    pub characters: Vec<u8>,
    pub values: Vec<u8>,
}

pub struct Texts<'a> {
    folder: Folder,
    program: &'a Program,
    read: BTreeMap<String, OnceLock<Result<Text, String>>>,
}

impl<'a> Texts<'a> {
    /// Of these names alone.
    pub fn new<'b>(
        folder: Folder,
        program: &'a Program,
        names: impl Iterator<Item = &'b String>,
    ) -> Texts<'a> {
        Texts {
            folder,
            program,
            read: names.map(|name| (name.clone(), OnceLock::new())).collect(),
        }
    }

    /// Who asks for a text that another one is reading waits for it.
    pub fn get(&self, name: &str) -> Result<&Text, String> {
        let once = self.read.get(name).ok_or("no such file in the table")?;
        let text = once.get_or_init(|| self.read(name));
        text.as_ref().map_err(String::clone)
    }

    pub fn is_there(&self, name: &str) -> bool {
        self.folder.find(name).is_some()
    }

    fn read(&self, name: &str) -> Result<Text, String> {
        let Some(place) = self.folder.find(name) else {
            return Ok(Text::Absent);
        };
        let characters = match fs::read(place) {
            Ok(characters) => characters,
            Err(error) => return Ok(Text::Unread(error.to_string())),
        };
        Ok(match self.program.read(&characters)? {
            Err(refused) => Text::Unread(refused),
            Ok(values) => Text::Read(Read {
                place: place.to_path_buf(),
                characters,
                values,
            }),
        })
    }
}
