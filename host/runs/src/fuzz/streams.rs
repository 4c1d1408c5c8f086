//! What goes in: octets like those of speech, frames of the second codec, and damage to them.

use random::Random;
use second::calls;
use second::end::End;
use second::frame::{HEADER_OCTETS, NUMBERED, PLAIN};
use second::g711::{compress, Law};
use second::linear::{GREATEST, LEAST};
use second::state::State;

pub const EDITIONS: [u8; 2] = [PLAIN, NUMBERED];
/// Octets of the longest frame, which is of edition 2.
const LONGEST: usize = 203;

/// Samples of any value that is taken, or noise whose levels hang together as those of speech do.
pub fn sound(random: &mut Random, end: End, count: usize) -> Vec<u8> {
    match (random.below(3), end) {
        (0, End::Of(_)) => random.bytes(count),
        (0, End::Linear) => {
            let scale = u64::from(GREATEST.abs_diff(LEAST));
            let mut any = || random.within(0, scale) as i16 + LEAST;
            linear(&(0..count).map(|_| any()).collect::<Vec<_>>())
        }
        (_, End::Of(law)) => {
            let levels = noise(random, count).into_iter();
            levels.map(|level| compress(law, level.into())).collect()
        }
        (_, End::Linear) => linear(&noise(random, count)),
    }
}

fn noise(random: &mut Random, count: usize) -> Vec<i16> {
    let strength = 1 << random.within(3, 11);
    let mut level = 0;
    (0..count)
        .map(|_| {
            let push = random.below(2 * strength) as i32 - strength as i32;
            level = (level * 7 / 8 + push).clamp(-8_000, 8_000);
            level as i16
        })
        .collect()
}

fn linear(samples: &[i16]) -> Vec<u8> {
    samples.iter().flat_map(|s| s.to_le_bytes()).collect()
}

/// Speech in linear samples that encode does not take: one is off the scale, or there is half of one
/// more.
pub fn spoil_linear(random: &mut Random, speech: &mut Vec<u8>) {
    let (samples, _) = speech.as_chunks_mut();
    if samples.is_empty() || random.below(3) == 0 {
        speech.push(random.byte());
        return;
    }
    let far = random.within(u64::from(GREATEST.unsigned_abs()) + 1, 32_767) as i16;
    let off = random.pick(&[GREATEST + 1, LEAST - 1, i16::MIN, far, -far - 1]);
    let place = random.below(samples.len() as u64) as usize;
    samples[place] = off.to_le_bytes();
}

/// Up to nine frames of one core, of one edition or of both.
pub fn frames(random: &mut Random, core: u8) -> Vec<Vec<u8>> {
    let one = [random.pick(&EDITIONS)];
    let editions = random.pick(&[one.as_slice(), EDITIONS.as_slice()]);
    let count = random.below(10);
    stream(random, core, editions, count)
}

/// Frames of one core as an encoder writes them one after the other, each of one of these editions.
pub fn stream(random: &mut Random, core: u8, editions: &[u8], count: u64) -> Vec<Vec<u8>> {
    let law = random.pick(&Law::BOTH);
    let mut state = calls::reset(core).state;
    (0..count)
        .map(|_| {
            let edition = random.pick(editions);
            frame(random, law, edition, &mut state)
        })
        .collect()
}

/// One in sixteen may be long.
fn frame(random: &mut Random, law: Law, edition: u8, state: &mut State) -> Vec<u8> {
    let most_groups = if random.below(16) == 0 { 40 } else { 5 };
    let samples = 8 * random.within(1, most_groups) as usize;
    let width = random.within(state.core.into(), 5) as u8;
    let mut out = [0; LONGEST];
    let pcm = sound(random, End::Of(law), samples);
    let answer = calls::encode(*state, law.number(), edition, width, &pcm, &mut out);
    *state = answer.state;
    out[..answer.octets].to_vec()
}

/// The greatest width that every frame has.
pub fn narrowest(frames: &[Vec<u8>]) -> u8 {
    let widths = frames.iter().map(|frame| frame[0] >> 3 & 7);
    widths.min().unwrap_or(5)
}

/// Damage of one kind. Not all of it is noticed: a bit of a plane may be any bit.
pub fn damage(random: &mut Random, frames: &mut Vec<Vec<u8>>) {
    let Some(place) = any_place(random, frames) else {
        return;
    };
    let frame = &mut frames[place];
    match random.below(7) {
        0 => frame[0] ^= 1 << random.below(8),
        1 => {
            let octet = random.below(frame.len() as u64) as usize;
            frame[octet] ^= 1 << random.below(8);
        }
        2 => {
            frame.truncate(random.below(frame.len() as u64) as usize);
            frames.truncate(place + 1);
        }
        // The other edition, whose frame has another length.
        3 => frame[0] ^= (PLAIN ^ NUMBERED) << 6,
        4 => frames.insert(place, garbage(random)),
        5 => misplace(random, frames),
        _ => {
            let core = random.within(2, 4) as u8;
            let mut others = self::frames(random, core);
            frames.append(&mut others);
        }
    }
}

/// A frame lost, doubled, exchanged with another or given another number. In edition 1 decode does not
/// notice.
pub fn misplace(random: &mut Random, frames: &mut Vec<Vec<u8>>) {
    let Some(place) = any_place(random, frames) else {
        return;
    };
    match random.below(4) {
        0 => {
            frames.remove(place);
        }
        1 => frames.insert(place, frames[place].clone()),
        2 => {
            let other = random.below(frames.len() as u64) as usize;
            frames.swap(place, other);
        }
        _ => renumber(random, &mut frames[place]),
    }
}

/// The place of a frame that is not empty. Where there is none, there is garbage afterwards.
fn any_place(random: &mut Random, frames: &mut Vec<Vec<u8>>) -> Option<usize> {
    frames.retain(|frame| !frame.is_empty());
    if frames.is_empty() {
        frames.push(garbage(random));
        return None;
    }
    Some(random.below(frames.len() as u64) as usize)
}

/// Another number, one time in two a near one. A frame that has none is spoiled at the same place.
fn renumber(random: &mut Random, frame: &mut [u8]) {
    let any = random.byte();
    let by = random.pick(&[1, 255, any, any]);
    if let Some(number) = frame.get_mut(HEADER_OCTETS) {
        *number = number.wrapping_add(by);
    }
}

fn garbage(random: &mut Random) -> Vec<u8> {
    let count = random.within(1, 9) as usize;
    random.bytes(count)
}

#[cfg(test)]
mod tests {
    use super::*;
    use second::frame::read_header;

    #[test]
    fn frames_are_whole_and_of_their_core() {
        let mut random = Random::new(1);
        for core in [2, 3, 4].repeat(50) {
            for frame in frames(&mut random, core) {
                let header = read_header(&frame).unwrap();
                assert_eq!(header.core, core);
            }
        }
    }

    #[test]
    fn numbers_go_on_through_both_editions_and_begin_again() {
        let mut random = Random::new(3);
        let frames = stream(&mut random, 4, &EDITIONS, 900);
        let headers = frames.iter().flat_map(|frame| read_header(frame));
        let numbers: Vec<u8> = headers.filter_map(|header| header.number).collect();
        let due: Vec<u8> = (0..=255).cycle().take(numbers.len()).collect();
        assert_eq!(numbers, due);
        assert!((300..600).contains(&numbers.len()));
    }

    fn samples_of(speech: &[u8]) -> Vec<i16> {
        let (pairs, _) = speech.as_chunks();
        pairs.iter().map(|&pair| i16::from_le_bytes(pair)).collect()
    }

    #[test]
    fn linear_speech_keeps_to_the_scale_and_meets_its_ends() {
        let mut random = Random::new(4);
        let speech: Vec<u8> = (0..60)
            .flat_map(|_| sound(&mut random, End::Linear, 40))
            .collect();
        let samples = samples_of(&speech);
        assert_eq!(samples.len(), 60 * 40);
        assert_eq!(samples.iter().min(), Some(&LEAST));
        assert_eq!(samples.iter().max(), Some(&GREATEST));
    }

    #[test]
    fn spoilt_linear_speech_is_odd_or_off_the_scale() {
        let mut random = Random::new(5);
        let (mut odd, mut off) = (0, 0);
        for count in (0..9).cycle().take(300) {
            let mut speech = sound(&mut random, End::Linear, count);
            spoil_linear(&mut random, &mut speech);
            let is_off = |s: &i16| !(LEAST..=GREATEST).contains(s);
            odd += speech.len() % 2;
            off += samples_of(&speech).iter().filter(|s| is_off(s)).count();
        }
        assert_eq!(odd + off, 300);
        assert!(odd > 50 && off > 50, "{odd} {off}");
    }

    #[test]
    fn damage_leaves_few_streams_as_they_were() {
        let mut random = Random::new(2);
        let mut same = 0;
        for _ in 0..300 {
            let mut stream = frames(&mut random, 2);
            let before = stream.clone();
            damage(&mut random, &mut stream);
            same += usize::from(stream == before);
        }
        assert!(same < 50, "{same}");
    }
}
