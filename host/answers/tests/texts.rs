//! The stored lines of the calls that read and write texts, judged by the whole text: what the lines of one text give together is
//! what reading or writing it in one go gives. The answers are read from the file to which the proved program is held.

use answers::call::Call;
use answers::groups;
use answers::page::Item;
use answers::stored::{read, ANSWERED};
use answers::text_due::{read_parts, verdict_part, write_parts};
use answers::text_fields::writer;
use second::text::{read_whole, write_whole, Reader, Refusal, Stage, Verdict, Writer};

/// The calls of a group, each with what stands behind the equals sign.
fn group(name: &str) -> Vec<(Call, String)> {
    let text = read(ANSWERED).expect("the stored answers");
    let lines: Vec<&str> = text.lines().collect();
    let page = groups::all();
    let answered = |place: usize| match &page.items[place] {
        Item::Call(call, _) => {
            let (_, answer) = lines[place].split_once(" = ").expect("an answer");
            Some((call.clone(), answer.to_string()))
        }
        _ => None,
    };
    page.places(name).filter_map(answered).collect()
}

/// One text as its lines read it.
#[derive(Default)]
struct TextRead {
    reader: Reader,
    text: Vec<u8>,
    /// What the last line left of its piece, which the next one has to begin with.
    left: Vec<u8>,
    values: Vec<u8>,
}

impl TextRead {
    fn line(&mut self, call: &answers::call::Read, answer: &str) {
        assert_eq!(call.reader, self.reader, "a line goes on from the last");
        assert!(call.text.starts_with(&self.left));
        let found = read_parts(answer).unwrap();
        self.reader = found.next;
        self.values.extend(found.made());
        let (taken, left) = call.text.split_at(found.taken);
        self.text.extend(taken);
        match self.reader.verdict {
            Verdict::Sound => self.left = left.to_vec(),
            Verdict::Refused(_) => {
                self.text.extend(left);
                self.left.clear();
            }
        }
    }

    fn end(&self, reader: Reader, answer: &str) -> Verdict {
        assert_eq!(reader, self.reader);
        assert!(self.left.is_empty());
        let found = verdict_part(answer).unwrap();
        let due = read_whole(&self.text);
        let shown = String::from_utf8_lossy(&self.text);
        assert_eq!(self.values, due.values, "{shown:?}");
        let verdict = due.refused.map_or(Verdict::Sound, Verdict::Refused);
        assert_eq!(found, verdict, "{shown:?}");
        found
    }
}

/// The verdicts of all texts of a group, each judged.
fn judged(name: &str) -> Vec<Verdict> {
    let mut verdicts = Vec::new();
    let mut begun = TextRead::default();
    for (call, answer) in group(name) {
        match call {
            Call::Read(call) => begun.line(&call, &answer),
            Call::EndText(reader) => {
                verdicts.push(begun.end(reader, &answer));
                begun = TextRead::default();
            }
            other => panic!("{other} stands among texts that are read"),
        }
    }
    assert!(begun.text.is_empty() && begun.reader == Reader::default());
    verdicts
}

#[test]
fn in_pieces_as_in_one_go() {
    for (name, texts) in [("texts", 232), ("cuts", 540), ("drawn-texts", 1_500)] {
        let verdicts = judged(name);
        assert_eq!(verdicts.len(), texts, "{name}");
        for number in 0..5 {
            let met = verdicts.iter().filter(|v| v.number() == number).count();
            assert!(met >= 10, "{name}: verdict {number} {met} times");
        }
    }
}

/// The buffers of the cut texts: of no octet, of one, of two and of more, and such that are too short.
#[test]
fn cuts_meet_full_buffers() {
    let mut full = [0; 6];
    for (call, answer) in group("cuts") {
        if let Call::Read(call) = call {
            let found = read_parts(&answer).unwrap();
            let sound = found.next.verdict == Verdict::Sound;
            if sound && found.taken < call.text.len() {
                assert_eq!(found.written, call.values.len());
                full[found.written] += 1;
            }
        }
    }
    assert!(full[..3].iter().all(|&lines| lines > 10), "{full:?}");
}

/// What a sound reader says of a text that ends, for readers that no text makes.
#[test]
fn any_reader_s_end() {
    for (call, answer) in group("readers") {
        let Call::EndText(r) = call else { continue };
        let remainder = u16::from(r.held) == u16::from(r.sum) % 255;
        let due = match (r.verdict, r.column, r.holds) {
            (Verdict::Refused(_), ..) => r.verdict,
            (_, 0, true) if remainder => Verdict::Sound,
            (_, 0, true) => Verdict::Refused(Refusal::WrongRemainder.at(r.line.wrapping_sub(3))),
            _ => Verdict::Refused(Refusal::MissingRemainder.at(r.line)),
        };
        assert_eq!(verdict_part(&answer), Ok(due), "{r:?}");
    }
}

/// One text as its lines write it.
#[derive(Default)]
struct TextWritten {
    writer: Writer,
    values: Vec<u8>,
    left: Vec<u8>,
    text: Vec<u8>,
    ended: bool,
}

impl TextWritten {
    fn line(&mut self, call: &answers::call::Write, answer: &str) {
        assert_eq!(call.writer, self.writer, "a line goes on from the last");
        assert!(call.values.starts_with(&self.left));
        let found = write_parts(answer).unwrap();
        let (taken, left) = call.values.split_at(found.taken);
        self.writer = found.next;
        self.values.extend(taken);
        self.left = left.to_vec();
        self.text.extend(found.made());
    }

    fn end(&mut self, before: Writer, answer: &str) {
        assert_eq!(before, self.writer);
        assert!(self.left.is_empty() && !self.ended);
        self.writer = writer(answer).unwrap();
        self.ended = true;
    }
}

#[test]
fn written_in_pieces_as_in_one_go() {
    let mut begun = TextWritten::default();
    let mut counts = Vec::new();
    for (call, answer) in group("written") {
        match call {
            Call::Write(call) => begun.line(&call, &answer),
            Call::EndValues(before) => begun.end(before, &answer),
            other => panic!("{other} stands among texts that are written"),
        }
        if begun.writer.stage == Stage::Done {
            assert!(begun.ended);
            assert_eq!(begun.text, write_whole(&begun.values));
            counts.push(begun.values.len());
            begun = TextWritten::default();
        }
    }
    assert_eq!((begun.text, counts.len()), (vec![], 100));
    assert!([0, 1, 31, 32, 33, 64, 65]
        .iter()
        .all(|c| counts.contains(c)));
}
