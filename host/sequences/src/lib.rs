//! Stand-ins for the ITU's test sequences of G.727, which could not be had: how they are made, the
//! second codec's answers to them, and the comparison with another codec's answers.
//! docs/SEQUENCES.md describes all of it. "The description" is the ITU's, of its own sequences
//! (docs/RULES.md, "Sources").

pub mod checksum;
pub mod codec;
pub mod codewords;
pub mod compare;
pub mod files;
pub mod lines;
pub mod magnitudes;
pub mod modem;
pub mod names;
pub mod output;
pub mod pcm;
pub mod play;
pub mod signals;
pub mod signs;
pub mod sine;
pub mod stand_ins;
