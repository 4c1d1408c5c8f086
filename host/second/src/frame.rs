//! The radio frame, a house format: a header (2 bits edition, 3 bits width, 3 bits core, 8 bits
//! groups of eight samples, and in edition 2 an octet of frame number), then one plane of octets
//! for each bit of the codewords, the sign bits first.

use crate::replies::{self, demand};

pub const PLAIN: u8 = 1;
pub const NUMBERED: u8 = 2;
/// Those that the headers of both editions begin with.
pub const HEADER_OCTETS: usize = 2;
pub const MOST_GROUPS: usize = 40;
pub const GROUP: usize = 8;

#[derive(Clone, Copy, Debug, PartialEq, Eq)]
pub struct Header {
    pub edition: u8,
    pub width: u8,
    pub core: u8,
    pub groups: usize,
    /// In edition 2, where the frame is long enough to have it.
    pub number: Option<u8>,
}

impl Header {
    pub fn samples(&self) -> usize {
        GROUP * self.groups
    }

    /// The length of the whole frame.
    pub fn octets(&self) -> usize {
        self.octets_before_planes() + usize::from(self.width) * self.groups
    }

    fn octets_before_planes(&self) -> usize {
        HEADER_OCTETS + usize::from(has_number(self.edition))
    }

    fn to_octets(self) -> Vec<u8> {
        let first = self.edition << 6 | self.width << 3 | self.core;
        let head = [first, self.groups as u8];
        head.into_iter().chain(self.number).collect()
    }
}

pub fn is_edition(edition: u8) -> bool {
    [PLAIN, NUMBERED].contains(&edition)
}

pub fn has_number(edition: u8) -> bool {
    edition == NUMBERED
}

pub fn is_sample_count(count: usize) -> bool {
    count.is_multiple_of(GROUP) && (1..=MOST_GROUPS).contains(&(count / GROUP))
}

/// The header of a well-formed frame, or the number of the first thing wrong with it.
pub fn read_header(frame: &[u8]) -> Result<Header, u8> {
    let &[first, groups, ref behind @ ..] = frame else {
        return Err(replies::NOT_A_FRAME);
    };
    let edition = first >> 6;
    let header = Header {
        edition,
        width: first >> 3 & 7,
        core: first & 7,
        groups: usize::from(groups),
        number: behind.first().copied().filter(|_| has_number(edition)),
    };
    demand(is_edition(edition), replies::NOT_A_FRAME)?;
    demand(
        replies::is_pair(header.width, header.core),
        replies::NO_SUCH_PAIR,
    )?;
    demand(is_sample_count(header.samples()), replies::BAD_SAMPLE_COUNT)?;
    demand(frame.len() == header.octets(), replies::WRONG_LENGTH)?;
    Ok(header)
}

/// Writes a frame over the whole of `out`, which must have the frame's length.
pub fn pack(header: Header, codewords: &[u8], out: &mut [u8]) {
    let (head, planes) = out.split_at_mut(header.octets_before_planes());
    head.copy_from_slice(&header.to_octets());
    for (place, plane) in planes.chunks_mut(header.groups).enumerate() {
        let bit = usize::from(header.width) - 1 - place;
        for (octet, group) in plane.iter_mut().zip(codewords.chunks(GROUP)) {
            *octet = group
                .iter()
                .fold(0, |bits, codeword| bits << 1 | codeword >> bit & 1);
        }
    }
}

/// The codewords of a well-formed frame, first sample first.
pub fn unpack(header: Header, frame: &[u8]) -> Vec<u8> {
    let planes = &frame[header.octets_before_planes()..];
    let planes: Vec<&[u8]> = planes.chunks(header.groups).collect();
    (0..header.samples())
        .map(|sample| {
            let (octet, bit) = (sample / GROUP, GROUP - 1 - sample % GROUP);
            planes
                .iter()
                .fold(0, |codeword, plane| codeword << 1 | plane[octet] >> bit & 1)
        })
        .collect()
}

/// Writes the first planes of a frame under a new header over the whole of `out`,
/// which must have the length that the new header calls for.
pub fn keep_first_planes(thinner: Header, frame: &[u8], out: &mut [u8]) {
    out.copy_from_slice(&frame[..thinner.octets()]);
    out[..thinner.octets_before_planes()].copy_from_slice(&thinner.to_octets());
}
