//! The page record, written and read, and the refusals 12 and 20 to 24.

use crate::packet::{zero_header, Header};
use crate::receiver::{NEVER, SPACE};

/// "The row limit rises from 24 to 25, so the receiver holds 1,000 characters."
pub const ROWS: usize = 25;
pub const COLUMNS: usize = 40;
pub const CELLS: usize = ROWS * COLUMNS;

/// A form of the record: its row code, its rows, and its length in bytes.
#[derive(Clone, Copy, PartialEq, Debug)]
pub struct Form {
    pub row_code: u16,
    pub rows: usize,
    pub length: usize,
}

impl Form {
    /// How many cells it has.
    pub const fn cells(&self) -> usize {
        self.rows * COLUMNS
    }
}

/// "The record's four zero bits become a row code: 0 is the old form of 1,085 bytes, 1 the new of 1,130."
pub const OLD: Form = Form { row_code: 0, rows: 24, length: 1085 };
pub const NEW: Form = Form { row_code: 1, rows: ROWS, length: 1130 };
pub const FORMS: [Form; 2] = [OLD, NEW];

/// "The writer makes the new form and needs 1,130 bytes."
pub const RECORD_LENGTH: usize = NEW.length;

/// What a page record holds, whatever its form was.
#[derive(Clone, PartialEq, Debug)]
pub struct Page {
    pub magazine: u8,
    pub header: Header,
    pub clean: bool,
    pub characters: Vec<u8>,
    pub marks: Vec<u8>,
}

/// "All zeros": the value beside a refusal of the reader.
pub fn zero_page() -> Page {
    Page { magazine: 0, header: zero_header(), clean: false, characters: vec![0; CELLS], marks: vec![0; CELLS] }
}

/// Does a number need more than so many bits?
fn too_large(number: u16, bits: u32) -> bool {
    number >= (1 << bits)
}

/// 24: a part of the header too large for its bits.
pub fn header_part_too_large(h: &Header) -> bool {
    too_large(h.tens as u16, 4)
        || too_large(h.units as u16, 4)
        || too_large(h.hours_tens as u16, 2)
        || too_large(h.hours_units as u16, 4)
        || too_large(h.minutes_tens as u16, 3)
        || too_large(h.minutes_units as u16, 4)
        || too_large(h.control, 11)
}

/// 24: a mark or character too large for its bits (2 and 7).
pub fn cell_part_too_large(characters: &[u8], marks: &[u8]) -> bool {
    let mark_too_large = marks.iter().any(|mark| too_large(*mark as u16, 2));
    let character_too_large = characters.iter().any(|code| too_large(*code as u16, 7));
    mark_too_large || character_too_large
}

/// 24: magazine not 1 to 8, or a part, mark or character too large for its bits.
pub fn cause_24(page: &Page) -> bool {
    page.magazine < 1
        || page.magazine > 8
        || header_part_too_large(&page.header)
        || cell_part_too_large(&page.characters, &page.marks)
}

/// 22: page digit above 9.
pub fn cause_22(header: &Header) -> bool {
    header.tens > 9 || header.units > 9
}

/// 23: mark 3; mark 0 with a character not 20; row 0 column 0 to 7 not marked 0.
pub fn cause_23(characters: &[u8], marks: &[u8]) -> bool {
    for cell in 0..CELLS {
        let mark_3 = marks[cell] == 3;
        let never_and_not_space = marks[cell] == 0 && characters[cell] != 0x20;
        let first_eight_marked = cell < 8 && marks[cell] != 0;
        if mark_3 || never_and_not_space || first_eight_marked {
            return true;
        }
    }
    false
}

/// "Record writer 12, 24, 22, 23."
pub fn writer_refusal(page: &Page, lent: usize) -> u8 {
    if lent < RECORD_LENGTH {
        12
    } else if cause_24(page) {
        24
    } else if cause_22(&page.header) {
        22
    } else if cause_23(&page.characters, &page.marks) {
        23
    } else {
        0
    }
}

/// So many bits of a number, most significant first.
fn push_bits(bits: &mut Vec<u8>, number: u16, count: u32) {
    for k in (0..count).rev() {
        bits.push(((number >> k) & 1) as u8);
    }
}

/// The bits before the cells: magazine 3 (0 for 8), tens 4, units 4, hours 2 and 4,
/// minutes 3 and 4, C4 to C14 11, clean 1, row code 4.
fn leading_bits(page: &Page, row_code: u16) -> Vec<u8> {
    let mut bits = Vec::new();
    push_bits(&mut bits, (page.magazine % 8) as u16, 3);
    push_bits(&mut bits, page.header.tens as u16, 4);
    push_bits(&mut bits, page.header.units as u16, 4);
    push_bits(&mut bits, page.header.hours_tens as u16, 2);
    push_bits(&mut bits, page.header.hours_units as u16, 4);
    push_bits(&mut bits, page.header.minutes_tens as u16, 3);
    push_bits(&mut bits, page.header.minutes_units as u16, 4);
    push_bits(&mut bits, page.header.control, 11);
    push_bits(&mut bits, page.clean as u16, 1);
    push_bits(&mut bits, row_code, 4);
    bits
}

/// All bits of the record: then the form's cells "row by row, mark 2 and character 7".
fn record_bits(page: &Page, form: &Form) -> Vec<u8> {
    let mut bits = leading_bits(page, form.row_code);
    for cell in 0..form.cells() {
        push_bits(&mut bits, page.marks[cell] as u16, 2);
        push_bits(&mut bits, page.characters[cell] as u16, 7);
    }
    bits
}

/// Eight bits a byte, most significant first.
fn packed(bits: &[u8]) -> Vec<u8> {
    bits.chunks(8).map(|eight| eight.iter().fold(0, |byte, bit| byte * 2 + bit)).collect()
}

/// A page's bytes in a form; in the old one row 24 is left out.
pub fn encoded(page: &Page, form: &Form) -> Vec<u8> {
    let bytes = packed(&record_bits(page, form));
    assert_eq!(bytes.len(), form.length);
    bytes
}

/// The record writer: "the writer makes the new form". Bytes of a lent buffer past it stay.
pub fn write_page(page: &Page, record: &mut [u8]) -> u8 {
    let number = writer_refusal(page, record.len());
    if number == 0 {
        record[..RECORD_LENGTH].copy_from_slice(&encoded(page, &NEW));
    }
    number
}

/// The record of a page that is lawful, in a form.
pub fn record_of(page: &Page, form: &Form) -> Vec<u8> {
    assert_eq!(writer_refusal(page, RECORD_LENGTH), 0);
    encoded(page, form)
}

/// The bits of a record, one by one, with the place of the next to be taken.
struct Taker {
    bits: Vec<u8>,
    next: usize,
}

impl Taker {
    /// The bits of these bytes, most significant first.
    fn of(bytes: &[u8]) -> Taker {
        let mut bits = Vec::new();
        for byte in bytes {
            push_bits(&mut bits, *byte as u16, 8);
        }
        Taker { bits, next: 0 }
    }

    /// The next so many bits as a number.
    fn take(&mut self, count: usize) -> u16 {
        let mut number = 0;
        for _ in 0..count {
            number = number * 2 + self.bits[self.next] as u16;
            self.next += 1;
        }
        number
    }
}

/// The digits, time and control bits, in the order of the record.
fn take_header(taker: &mut Taker) -> Header {
    let mut header = zero_header();
    header.tens = taker.take(4) as u8;
    header.units = taker.take(4) as u8;
    header.hours_tens = taker.take(2) as u8;
    header.hours_units = taker.take(4) as u8;
    header.minutes_tens = taker.take(3) as u8;
    header.minutes_units = taker.take(4) as u8;
    header.control = taker.take(11);
    header
}

/// Everything a record of a form's length says, unchecked, and its row code. What the form has no cells
/// for is spaces marked never: "an old one giving row 24 as spaces marked never".
fn taken(record: &[u8], form: &Form) -> (Page, u16) {
    let mut taker = Taker::of(record);
    let mut page = Page { characters: vec![SPACE; CELLS], marks: vec![NEVER; CELLS], ..zero_page() };
    let magazine = taker.take(3) as u8;
    page.magazine = if magazine == 0 { 8 } else { magazine };
    page.header = take_header(&mut taker);
    page.clean = taker.take(1) == 1;
    let row_code = taker.take(4);
    for cell in 0..form.cells() {
        page.marks[cell] = taker.take(2) as u8;
        page.characters[cell] = taker.take(7) as u8;
    }
    (page, row_code)
}

/// "21 for a row code above 1 or one that doesn't fit the length."
fn cause_21(row_code: u16, form: &Form) -> bool {
    row_code > NEW.row_code || row_code != form.row_code
}

/// The record reader: "reader 20 to 23". "Our reader takes both" forms, and 20 is a length that neither has.
pub fn read_page(record: &[u8]) -> (u8, Page) {
    let Some(form) = FORMS.iter().find(|form| record.len() == form.length) else {
        return (20, zero_page());
    };
    let (page, row_code) = taken(record, form);
    if cause_21(row_code, form) {
        (21, zero_page())
    } else if cause_22(&page.header) {
        (22, zero_page())
    } else if cause_23(&page.characters, &page.marks) {
        (23, zero_page())
    } else {
        (0, page)
    }
}
