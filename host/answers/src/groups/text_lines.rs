//! Lines that are no calls of a reader or a writer, and long ones that are, as a part of the group `lines`.

use super::lines::unread;
use super::parts::{pattern, room};
use super::text_parts::{read, write};
use crate::call::Call;
use crate::due::Due;
use crate::page::Page;
use second::text::{write_whole, Reader, Verdict, Writer};

const READER: &str = "1,0000000000000011,0000000000000010,2,3,1,5,6";
const SOUND: &str = "0,0000000000000000,0000000000000010,2,3,1,5,6";

pub fn text_lines(page: &mut Page) {
    words(page);
    readers(page);
    writers(page);
    octets(page);
    long(page);
}

fn words(page: &mut Page) {
    for line in [
        "Read 0",
        "reads",
        "end",
        "end_",
        "end_tex",
        "endtext",
        "end-text",
        "end_value",
        "writ",
        "end_values=",
    ] {
        page.other(line, "# line N: no such call");
    }
    page.other(format!("read {READER} - - "), "# line N: too many: field 5");
    page.other(
        format!("end_text {READER} -"),
        "# line N: too many: field 3",
    );
    page.other("write 0,0,0,0 - - -", "# line N: too many: field 5");
    page.other("end_values 0,0,0,0 ", "# line N: too many: field 3");
}

/// What stands in READER, and what is put in its place: a number too great, another form, a part too few or too many.
const SLIPS: [(&str, &str); 28] = [
    ("1,", "5,"),
    ("1,", "01,"),
    ("1,", "10,"),
    ("1,", ","),
    ("0000000000000011", "11"),
    ("0000000000000011", "17"),
    ("0000000000000011", "000000000000011"),
    ("0000000000000011", "00000000000000011"),
    ("0000000000000011", "000000000000000011"),
    ("0000000000000011", "000000000000001A"),
    ("0000000000000011", "000000000000001g"),
    ("0000000000000010", "-"),
    ("0000000000000010", ""),
    ("0000000000000010", "0000000000001F10"),
    (",2,", ",256,"),
    (",2,", ",02,"),
    (",3,", ",256,"),
    (",3,", ",,"),
    (",1,", ",2,"),
    (",1,", ",01,"),
    (",1,", ",-,"),
    (",5,", ",256,"),
    (",6", ",256"),
    (",6", ",x"),
    (",6", ""),
    (",6", ","),
    (",6", ",6,"),
    (",6", ",6,0"),
];

fn readers(page: &mut Page) {
    let spoilt = |from: &str, to: &str| READER.replacen(from, to, 1);
    let mut wrong: Vec<String> = SLIPS.map(|(from, to)| spoilt(from, to)).to_vec();
    wrong.push(SOUND.replacen("0000000000000000", "0000000000000001", 1));
    wrong.push(SOUND.replacen("0000000000000000", "8000000000000000", 1));
    wrong.push(READER.replace(',', "."));
    for reader in &wrong {
        unread(page, 2, &format!("read {reader} 30 -"));
        unread(page, 2, &format!("end_text {reader}"));
    }
    unread(page, 2, "read");
    unread(page, 2, "end_text");
    unread(page, 2, "end_text ");
}

fn writers(page: &mut Page) {
    for writer in [
        "",
        "-",
        "0",
        "0,0,0",
        "0,0,0,0,0",
        "0,0,0,0,",
        "4,0,0,0",
        "00,0,0,0",
        "0,256,0,0",
        "0,0,256,0",
        "0,0,0,256",
        "0,,0,0",
        "0,01,0,0",
        "0;0;0;0",
    ] {
        unread(page, 2, &format!("write {writer} 30 -"));
        unread(page, 2, &format!("end_values {writer}"));
    }
    unread(page, 2, "write");
    unread(page, 2, "end_values");
}

fn octets(page: &mut Page) {
    for wrong in ["", "3", "303", "3G", "FF", "--"] {
        unread(page, 3, &format!("read {READER} {wrong} x"));
        unread(page, 4, &format!("read {READER} - {wrong}"));
        unread(page, 3, &format!("write 0,0,0,0 {wrong} x"));
        unread(page, 4, &format!("write 0,0,0,0 - {wrong}"));
    }
    unread(page, 3, &format!("read {READER}"));
    unread(page, 4, &format!("read {READER} 30"));
    unread(page, 3, "write 0,0,0,0");
    unread(page, 4, "write 0,0,0,0 30");
}

/// A text of more than 32,768 characters in one call, which takes nearly as long a line as there may be.
fn long(page: &mut Page) {
    let values = pattern(0x11, 0x35, 21_000);
    let text = write_whole(&values);
    let mut buffer = room(values.len());
    let reading = read(Reader::default(), &text, buffer.clone());
    page.due(Due::Read(text.len(), values.clone()), reading);
    let reader = Reader::default().read(&text, &mut buffer).reader;
    page.due(Due::Verdict(Verdict::Sound), Call::EndText(reader));
    let begun = &text[..text.len() - "00\n".len()];
    let writing = write(Writer::default(), &values, room(begun.len()));
    // The last line is not full, so its line feed waits for more.
    let due = begun[..begun.len() - 1].to_vec();
    page.due(Due::Written(values.len(), due), writing);
}
