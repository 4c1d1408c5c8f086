//! The stand-ins by their names, as files.

use second::text::write_whole;
use sequences::files::Inputs;
use sequences::stand_ins;
use std::collections::BTreeMap;
use tool::scratch::Files;

pub struct Stock(BTreeMap<String, Vec<u8>>);

impl Stock {
    pub fn made() -> Result<Stock, String> {
        let all = stand_ins::all(&Inputs::read()?);
        let named = all
            .into_iter()
            .map(|stand_in| (stand_in.name, stand_in.values));
        Ok(Stock(named.collect()))
    }

    pub fn values(&self, name: &str) -> &[u8] {
        &self.0[name]
    }

    /// The values with one of them changed in these bits.
    pub fn changed(&self, name: &str, place: usize, bits: u8) -> Vec<u8> {
        let mut values = self.values(name).to_vec();
        values[place] ^= bits;
        values
    }

    pub fn text(&self, name: &str) -> Vec<u8> {
        write_whole(self.values(name))
    }

    pub fn all(&self) -> Files {
        let names: Vec<&str> = self.0.keys().map(String::as_str).collect();
        self.files(&names)
    }

    pub fn files(&self, names: &[&str]) -> Files {
        names
            .iter()
            .map(|name| (name.into(), self.text(name)))
            .collect()
    }
}
