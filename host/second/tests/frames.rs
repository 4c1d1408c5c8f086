//! The worked frames, and packing, unpacking and dropping over every pair and many lengths, in
//! both editions.

use random::states::PAIRS;
use random::Random;
use second::calls::drop_planes;
use second::frame::{pack, read_header, unpack, Header};

fn header(width: u8, core: u8, groups: usize) -> Header {
    Header {
        edition: 1,
        width,
        core,
        groups,
        number: None,
    }
}

fn numbered(width: u8, core: u8, groups: usize, number: u8) -> Header {
    Header {
        edition: 2,
        number: Some(number),
        ..header(width, core, groups)
    }
}

fn packed(header: Header, codewords: &[u8]) -> Vec<u8> {
    let mut out = vec![0xEE; header.octets()];
    pack(header, codewords, &mut out);
    out
}

fn dropped(frame: &[u8], target: u8) -> Vec<u8> {
    let mut out = vec![0xEE; 203];
    let answer = drop_planes(frame, target, &mut out);
    assert_eq!(answer.number, 0);
    assert!(out[answer.octets..].iter().all(|&octet| octet == 0xEE));
    out.truncate(answer.octets);
    out
}

#[test]
fn eight_times_10000() {
    let frame = packed(header(5, 2, 1), &[0b10000; 8]);
    assert_eq!(frame, [0x6A, 0x01, 0xFF, 0x00, 0x00, 0x00, 0x00]);
    assert_eq!(dropped(&frame, 2), [0x52, 0x01, 0xFF, 0x00]);
}

#[test]
fn once_00001_and_seven_times_00000() {
    let frame = packed(header(5, 2, 1), &[1, 0, 0, 0, 0, 0, 0, 0]);
    assert_eq!(frame, [0x6A, 0x01, 0x00, 0x00, 0x00, 0x00, 0x80]);
    assert_eq!(dropped(&frame, 4), [0x62, 0x01, 0x00, 0x00, 0x00, 0x00]);
}

/// An octet of number behind g, and all else as in edition 1.
#[test]
fn eight_times_10000_with_the_number_a5() {
    let frame = packed(numbered(5, 2, 1, 0xA5), &[0b10000; 8]);
    assert_eq!(frame, [0xAA, 0x01, 0xA5, 0xFF, 0x00, 0x00, 0x00, 0x00]);
    assert_eq!(dropped(&frame, 2), [0x92, 0x01, 0xA5, 0xFF, 0x00]);
}

fn drawn_codewords(random: &mut Random, head: Header) -> Vec<u8> {
    (0..head.samples())
        .map(|_| random.below(1 << head.width) as u8)
        .collect()
}

#[test]
fn a_frame_gives_its_header_and_codewords_back() {
    let mut random = Random::new(4);
    for (width, core) in PAIRS {
        for groups in [1, 2, 3, 17, 39, 40] {
            let plain = header(width, core, groups);
            let numbered = numbered(width, core, groups, random.byte());
            for (head, before_planes) in [(plain, 2), (numbered, 3)] {
                let codewords = drawn_codewords(&mut random, head);
                let frame = packed(head, &codewords);
                assert_eq!(frame.len(), before_planes + usize::from(width) * groups);
                assert_eq!(read_header(&frame), Ok(head));
                assert_eq!(unpack(head, &frame), codewords);
            }
        }
    }
}

/// Dropping planes shifts every codeword, and dropping in two steps is dropping in one.
#[test]
fn dropping_shifts_the_codewords() {
    let mut random = Random::new(5);
    for (width, core) in PAIRS {
        shifts(&mut random, header(width, core, 7));
        let number = random.byte();
        shifts(&mut random, numbered(width, core, 7, number));
    }
}

fn shifts(random: &mut Random, head: Header) {
    let codewords = drawn_codewords(random, head);
    let frame = packed(head, &codewords);
    assert_eq!(dropped(&frame, head.width), frame);
    for width in head.core..=head.width {
        let thin = dropped(&frame, width);
        let gone = head.width - width;
        let shifted: Vec<u8> = codewords.iter().map(|c| c >> gone).collect();
        let thin_header = Header { width, ..head };
        assert_eq!(read_header(&thin), Ok(thin_header));
        assert_eq!(unpack(thin_header, &thin), shifted);
        for last in head.core..=width {
            assert_eq!(dropped(&thin, last), dropped(&frame, last));
        }
    }
}

#[test]
fn the_longest_frames_have_202_and_203_octets() {
    assert_eq!(header(5, 4, 40).octets(), 202);
    assert_eq!(numbered(5, 4, 40, 0).octets(), 203);
}
