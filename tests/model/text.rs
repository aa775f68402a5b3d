//! Cases as text, and the shared pieces as bytes.

use crate::packet::{zero_header, Header};
use crate::receiver::{Answer, Receiver, Selection, TimeCode};
use crate::record::{Page, CELLS};
use crate::recording::Mended;
use crate::transmission::Wanted;

/// SELECTION, two bytes and HEADER, and each cell's character and mark.
pub const RECEIVER_LENGTH: usize = 18 + 2 * CELLS;

/// The longest input that two bytes can name.
pub const LONGEST: usize = 65_535;

/// Bytes in hexadecimal, two lower-case digits each.
pub fn hex(bytes: &[u8]) -> String {
    let digits = b"0123456789abcdef";
    let mut out = String::with_capacity(bytes.len() * 2);
    for byte in bytes {
        out.push(digits[(byte / 16) as usize] as char);
        out.push(digits[(byte % 16) as usize] as char);
    }
    out
}

/// A case: its sort, its input, and the record (of sort t the room) that is lent, if the sort has one.
pub struct Case {
    pub sort: char,
    pub input: Vec<u8>,
    pub record: Option<Vec<u8>>,
}

impl Case {
    /// A case that no record is lent for.
    pub fn alone(sort: char, input: Vec<u8>) -> Case {
        Case { sort, input, record: None }
    }

    /// A case with a record.
    pub fn lent(sort: char, input: Vec<u8>, record: Vec<u8>) -> Case {
        Case { sort, input, record: Some(record) }
    }

    /// Its line of text, without the line feed.
    pub fn line(&self) -> String {
        assert!(self.input.len() <= LONGEST, "an input has at most 65,535 bytes");
        match &self.record {
            None => format!("{} {}", self.sort, hex(&self.input)),
            Some(record) => format!("{} {},{}", self.sort, hex(&self.input), hex(record)),
        }
    }
}

/// A number of two bytes, high byte first.
pub fn two_bytes(number: usize) -> [u8; 2] {
    [(number / 256) as u8, (number % 256) as u8]
}

/// The number of two bytes.
pub fn of_two_bytes(bytes: &[u8]) -> usize {
    bytes[0] as usize * 256 + bytes[1] as usize
}

/// The first bytes of an input: what is not there is read as zeros.
pub fn filled<const COUNT: usize>(x: &[u8]) -> [u8; COUNT] {
    std::array::from_fn(|place| x.get(place).copied().unwrap_or(0))
}

/// SELECTION, 8 bytes.
pub fn selection_bytes(selection: &Selection) -> Vec<u8> {
    let mut out = vec![selection.magazine, selection.tens, selection.units];
    match &selection.time {
        None => out.extend([0, 0, 0, 0, 0]),
        Some(t) => out.extend([1, t.hours_tens, t.hours_units, t.minutes_tens, t.minutes_units]),
    }
    out
}

/// SELECTION back.
pub fn selection_of(x: &[u8]) -> Selection {
    let time = TimeCode { hours_tens: x[4], hours_units: x[5], minutes_tens: x[6], minutes_units: x[7] };
    Selection { magazine: x[0], tens: x[1], units: x[2], time: if x[3] == 1 { Some(time) } else { None } }
}

/// HEADER, 8 bytes.
pub fn header_bytes(h: &Header) -> Vec<u8> {
    let mut out = vec![h.tens, h.units, h.hours_tens, h.hours_units, h.minutes_tens, h.minutes_units];
    out.extend(two_bytes(h.control as usize));
    out
}

/// HEADER back.
pub fn header_of(x: &[u8]) -> Header {
    let mut h = zero_header();
    h.tens = x[0];
    h.units = x[1];
    h.hours_tens = x[2];
    h.hours_units = x[3];
    h.minutes_tens = x[4];
    h.minutes_units = x[5];
    h.control = of_two_bytes(&x[6..8]) as u16;
    h
}

/// RECEIVER, 2,018 bytes.
pub fn receiver_bytes(receiver: &Receiver) -> Vec<u8> {
    let mut out = selection_bytes(&receiver.selection);
    out.push(receiver.open as u8);
    out.push(receiver.doubt as u8);
    out.extend(header_bytes(&receiver.header));
    out.extend(&receiver.characters);
    out.extend(&receiver.marks);
    assert_eq!(out.len(), RECEIVER_LENGTH);
    out
}

/// RECEIVER back.
pub fn receiver_of(x: &[u8]) -> Receiver {
    Receiver {
        selection: selection_of(&x[0..8]),
        open: x[8] == 1,
        doubt: x[9] == 1,
        header: header_of(&x[10..18]),
        characters: x[18..18 + CELLS].to_vec(),
        marks: x[18 + CELLS..18 + 2 * CELLS].to_vec(),
    }
}

/// PAGE: the form of a receiver, with the magazine in the selection and `clean` in the place of "page open".
pub fn page_bytes(page: &Page) -> Vec<u8> {
    let mut out = vec![page.magazine, 0, 0, 0, 0, 0, 0, 0, page.clean as u8, 0];
    out.extend(header_bytes(&page.header));
    out.extend(&page.characters);
    out.extend(&page.marks);
    assert_eq!(out.len(), RECEIVER_LENGTH);
    out
}

/// PAGE back.
pub fn page_of(x: &[u8]) -> Page {
    let receiver = receiver_of(x);
    Page {
        magazine: receiver.selection.magazine,
        header: receiver.header,
        clean: receiver.open,
        characters: receiver.characters,
        marks: receiver.marks,
    }
}

/// WANTED back: a 1 is yes, all else is no, and so is what is not there.
pub fn wanted_of(x: &[u8]) -> Wanted {
    std::array::from_fn(|k| x.get(k) == Some(&1))
}

/// A place, 8 bytes, high byte first.
pub fn place_bytes(place: u64) -> [u8; 8] {
    place.to_be_bytes()
}

/// The place of the first 8 bytes.
pub fn place_of(x: &[u8]) -> u64 {
    x[..8].iter().fold(0, |place, byte| place * 256 + *byte as u64)
}

/// ANSWER, 5 bytes.
pub fn answer_bytes(a: &Answer) -> [u8; 5] {
    [a.number, a.kind, a.count, a.closing, a.mended]
}

/// MENDED, 6 bytes: three numbers of two bytes.
pub fn mended_bytes(mended: &Mended) -> Vec<u8> {
    [mended.bytes, mended.lines, mended.own].map(two_bytes).concat()
}

/// CONTROL back, of the first two bytes.
pub fn control_of(x: &[u8]) -> u16 {
    u16::from_be_bytes(filled(x))
}

/// FORM, 5 bytes: the language's own UTF-8 form, and its own word on which numbers have none.
pub fn form_bytes(number: u32) -> [u8; 5] {
    let mut out = [0; 5];
    if let Some(letter) = char::from_u32(number) {
        out[0] = letter.encode_utf8(&mut out[1..]).len() as u8;
    }
    out
}

/// A step of a run: its entry, its length in two bytes, and its bytes.
pub fn step(entry: char, bytes: &[u8]) -> Vec<u8> {
    let mut out = vec![entry as u8];
    out.extend(two_bytes(bytes.len()));
    out.extend(bytes);
    out
}
