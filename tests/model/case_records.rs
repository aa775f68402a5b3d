//! Cases of sorts w (pages to be written) and d (records to be read).

use crate::case_forms::{set_row_code, some_cell, some_cell_of, LENGTHS, ROW_CODES, TO_READ, TO_WRITE};
use crate::case_receivers::{lawful_cells, spoil_cell};
use crate::counted::{count_of, made};
use crate::random::Random;
use crate::receiver::{new_receiver, SPACE};
use crate::record::{record_of, zero_page, Page, CELLS, FORMS, OLD, RECORD_LENGTH};
use crate::send::{any_selection, matching_header};
use crate::text::{page_bytes, Case};

/// A lawful page, parts now and then at their edges.
pub fn lawful_page(random: &mut Random) -> Page {
    let selection = any_selection(random);
    let (_, receiver) = new_receiver(&selection);
    let mut page = zero_page();
    page.magazine = selection.magazine;
    page.header = matching_header(&selection, random);
    page.clean = random.once_in(2);
    page.characters = receiver.characters;
    page.marks = receiver.marks;
    if !random.once_in(8) {
        lawful_cells(&mut page.characters, &mut page.marks, random);
    }
    match random.below(8) {
        0 => page.header.hours_tens = 3,
        1 => page.header.hours_units = 15,
        2 => page.header.minutes_tens = 7,
        3 => page.header.minutes_units = 15,
        4 => page.header.control = 1 << random.below(11),
        _ => {}
    }
    page
}

/// A part too large for its bits (24).
pub fn part_too_large(page: &mut Page, random: &mut Random) {
    let cell = some_cell(CELLS, random);
    match random.below(10) {
        0 => page.magazine = random.pick(&[0, 9, 15, 16, 255]),
        1 => page.header.tens = random.pick(&[16, 25, 255]),
        2 => page.header.units = random.pick(&[16, 25, 255]),
        3 => page.header.hours_tens = random.pick(&[4, 7, 255]),
        4 => page.header.hours_units = random.pick(&[16, 255]),
        5 => page.header.minutes_tens = random.pick(&[8, 15, 255]),
        6 => page.header.minutes_units = random.pick(&[16, 255]),
        7 => page.header.control = random.pick(&[2048, 2049, 4095, 32768, 65535]),
        8 => page.marks[cell] = random.pick(&[4, 5, 64, 255]),
        _ => page.characters[cell] = random.pick(&[128, 160, 255]),
    }
}

/// A page digit above 9 (22).
pub fn digit_above_9(page: &mut Page, random: &mut Random) {
    if random.once_in(2) {
        page.header.tens = random.within(10, 15);
    } else {
        page.header.units = random.within(10, 15);
    }
}

/// A cell refused by 23 and not by 24.
pub fn cell_23(page: &mut Page, random: &mut Random) {
    let cell = some_cell(CELLS, random);
    let first = random.below(8) as usize;
    match random.below(4) {
        0 => page.marks[cell] = 3,
        1 => {
            page.marks[cell] = 0;
            page.characters[cell] = random.pick(&[0, 0x1F, 0x21, 0x7F, 0x41]);
        }
        2 => page.marks[first] = random.pick(&[1, 2]),
        _ => {
            page.marks[first] = random.pick(&[1, 2]);
            page.characters[first] = random.within(0, 0x7F);
        }
    }
}

/// Spoil a page by one cause.
fn spoil_by(page: &mut Page, cause: u64, random: &mut Random) {
    match cause {
        0 => part_too_large(page, random),
        1 => digit_above_9(page, random),
        2 => cell_23(page, random),
        _ => spoil_cell(&mut page.characters, &mut page.marks, random),
    }
}

/// A page of anything at all.
fn page_of_anything(random: &mut Random) -> Page {
    let mut page = lawful_page(random);
    page.magazine = random.byte();
    page.header.tens = random.byte();
    page.header.control = random.below(65536) as u16;
    page.characters = random.bytes(CELLS);
    page.marks = random.bytes(CELLS);
    page
}

/// Pages lawful, spoiled by one cause, by two, and anything; several lent lengths.
fn some_page_to_write(i: u64, random: &mut Random) -> Case {
    let mut page = lawful_page(random);
    match i % 12 {
        0..=2 => {}
        3..=5 => spoil_by(&mut page, 0, random),
        6 => spoil_by(&mut page, 1, random),
        7 => spoil_by(&mut page, 2, random),
        8 => spoil_by(&mut page, 3, random),
        9..=10 => {
            let one = random.below(3);
            let other = random.below(3);
            spoil_by(&mut page, one, random);
            spoil_by(&mut page, other, random);
        }
        _ => page = page_of_anything(random),
    }
    let any = random.pick(&LENGTHS);
    let length = random.pick(&[any, OLD.length, RECORD_LENGTH - 1, RECORD_LENGTH + 1, RECORD_LENGTH, RECORD_LENGTH]);
    Case::lent('w', page_bytes(&page), random.bytes(length))
}

/// How many pages to be written are counted out.
pub fn to_write_counted_out() -> u64 {
    count_of(&TO_WRITE)
}

/// Sort w.
pub fn page_to_write(i: u64, random: &mut Random) -> Case {
    made(&TO_WRITE, some_page_to_write, i, random)
}

/// Put so many bits into a record, most significant first.
pub fn set_bits(record: &mut [u8], place: usize, count: usize, value: u16) {
    for k in 0..count {
        let bit = ((value >> (count - 1 - k)) & 1) as u8;
        let at = place + k;
        record[at / 8] = record[at / 8] & !(0x80 >> (at % 8)) | bit << (7 - at % 8);
    }
}

/// Put a mark and a character into a record's cell.
pub fn set_cell(record: &mut [u8], cell: usize, mark: u16, character: u16) {
    set_bits(record, 40 + 9 * cell, 2, mark);
    set_bits(record, 42 + 9 * cell, 7, character);
}

/// One part of a record spoiled: row code, digits, marks, first columns, mark 0 with a character.
fn spoil_record(record: &mut [u8], random: &mut Random) {
    let cell = some_cell_of(record, random);
    let first = random.below(8) as usize;
    let character = random.below(128) as u16;
    match random.below(10) {
        0 => record[4] ^= 1 << random.below(4),
        1 => set_row_code(record, random.below(ROW_CODES as u64) as u16),
        2 => set_bits(record, 3, 4, random.between(9, 15) as u16),
        3 => set_bits(record, 7, 4, random.between(9, 15) as u16),
        4 => set_cell(record, cell, 3, character),
        5 => set_cell(record, cell, 0, random.pick(&[0, 0x1F, 0x21, 0x60, 0x7F])),
        6 => set_cell(record, first, random.pick(&[1, 2, 3]), SPACE as u16),
        7 => set_cell(record, first, random.pick(&[0, 1, 2, 3]), character),
        8 => set_cell(record, random.pick(&[8, 40, cell]), random.pick(&[1, 2]), character),
        _ => set_bits(record, 0, 3, random.below(8) as u16),
    }
}

/// Records of both forms, with one part or two spoiled, a bit changed, random, other lengths.
pub fn some_record(i: u64, random: &mut Random) -> Vec<u8> {
    let form = random.pick(&FORMS);
    let mut record = record_of(&lawful_page(random), &form);
    match i % 14 {
        0..=2 => {}
        3..=6 => spoil_record(&mut record, random),
        7..=8 => {
            spoil_record(&mut record, random);
            spoil_record(&mut record, random);
        }
        9..=10 => {
            let bytes = random.pick(&[5, 16, form.length as u64]);
            record[random.below(bytes) as usize] ^= 1 << random.below(8);
        }
        11 => record = random.bytes(form.length),
        12 => {
            if random.once_in(2) {
                spoil_record(&mut record, random);
            }
            record.resize(random.pick(&LENGTHS), 0);
        }
        _ => {
            let first_five = random.bytes(5);
            record[..5].copy_from_slice(&first_five);
        }
    }
    record
}

/// How many records to be read are counted out.
pub fn to_read_counted_out() -> u64 {
    count_of(&TO_READ)
}

/// Sort d.
pub fn record_to_read(i: u64, random: &mut Random) -> Case {
    made(&TO_READ, |i, random| Case::lent('d', some_record(i, random), Vec::new()), i, random)
}
