//! Records of both forms: every row code with every length at a border, refusals in their order, the cells of
//! row 24, and rooms of every such length for the writer. They are counted out.

use crate::case_records::{cell_23, digit_above_9, lawful_page, part_too_large, set_bits, set_cell};
use crate::counted::Maker;
use crate::random::Random;
use crate::receiver::{NEVER, SPACE};
use crate::record::{record_of, Form, Page, CELLS, COLUMNS, FORMS, NEW, OLD};
use crate::text::{page_bytes, Case};

/// Lengths at the borders of both forms, around the bits before the cells, and others.
pub const LENGTHS: [usize; 19] = [
    0,
    1,
    4,
    5,
    6,
    50,
    OLD.length - 45,
    OLD.length - 1,
    OLD.length,
    OLD.length + 1,
    OLD.length + 5,
    OLD.length + 15,
    NEW.length - 1,
    NEW.length,
    NEW.length + 1,
    NEW.length + 5,
    NEW.length + 45,
    2 * OLD.length,
    2 * NEW.length,
];

/// The row codes that four bits can have.
pub const ROW_CODES: u16 = 16;

/// Put a row code into a record.
pub fn set_row_code(record: &mut [u8], row_code: u16) {
    set_bits(record, 36, 4, row_code);
}

/// The form that a record has by its length; a record of another length counts as old.
fn form_by_length(record: &[u8]) -> Form {
    FORMS.into_iter().find(|form| form.length == record.len()).unwrap_or(OLD)
}

/// A cell that a record of some form has: at the edges of rows, of the old form and of the new, and any.
pub fn some_cell(cells: usize, random: &mut Random) -> usize {
    let any = random.below(cells as u64) as usize;
    let last = cells - 1;
    random.pick(&[0, 7, 8, 39, 40, OLD.cells() - 1, cells - COLUMNS, last - 1, last, any, any, any])
}

/// A cell of a record.
pub fn some_cell_of(record: &[u8], random: &mut Random) -> usize {
    some_cell(form_by_length(record).cells(), random)
}

/// What the old form can hold of a page: its row 24 is spaces, never received.
pub fn as_old(mut page: Page) -> Page {
    page.characters[OLD.cells()..].fill(SPACE);
    page.marks[OLD.cells()..].fill(NEVER);
    page
}

/// A row code that is not the form's own: above 1, or one that does not fit the length.
fn wrong_row_code(form: &Form, random: &mut Random) -> u16 {
    (form.row_code + random.between(1, ROW_CODES as u64 - 1) as u16) % ROW_CODES
}

/// A cell refused by 23: mark 3, a character that was never received, a mark in the first columns.
fn spoil_cell_23(record: &mut [u8], random: &mut Random) {
    let cell = some_cell_of(record, random);
    let first = random.below(8) as usize;
    match random.below(3) {
        0 => set_cell(record, cell, 3, random.below(128) as u16),
        1 => set_cell(record, cell, 0, random.pick(&[0, 0x1F, 0x21, 0x41, 0x60, 0x7F])),
        _ => set_cell(record, first, random.pick(&[1, 2]), random.pick(&[0x20, 0x20, 0x41])),
    }
}

/// How many sets of the causes 20 to 23 there are.
pub const SETS_OF_CAUSES: u64 = 16;

/// Spoil a record of either form by causes, each named by its bit: 2 is 21, 4 is 22, 8 is 23, and 1 is 20,
/// which comes last so that the others stay.
pub fn spoil_by(record: &mut Vec<u8>, causes: u64, random: &mut Random) {
    let form = form_by_length(record);
    if causes & 2 != 0 {
        set_row_code(record, wrong_row_code(&form, random));
    }
    if causes & 4 != 0 {
        set_bits(record, random.pick(&[3, 7]), 4, random.between(10, 15) as u16);
    }
    if causes & 8 != 0 {
        spoil_cell_23(record, random);
    }
    if causes & 1 != 0 {
        let around = [OLD.length - 1, OLD.length + 1, NEW.length - 1, NEW.length + 1, form.length - 1, form.length + 1];
        let neither = random.pick(&[OLD.length - 45, 2 * OLD.length, 5, 0]);
        let length = if random.once_in(3) { neither } else { random.pick(&around) };
        record.resize(length, 0);
    }
}

/// The record of a lawful page, in the form with this number.
fn lawful_record(form: u64, random: &mut Random) -> Vec<u8> {
    record_of(&lawful_page(random), &FORMS[form as usize % 2])
}

/// A case of sort d.
fn to_read(record: Vec<u8>) -> Case {
    Case::lent('d', record, Vec::new())
}

/// Every row code with every length, cut from the new form or filled with zeros.
fn each_code_and_length(i: u64, random: &mut Random) -> Case {
    let mut record = lawful_record(1, random);
    set_row_code(&mut record, (i % ROW_CODES as u64) as u16);
    record.resize(LENGTHS[(i / ROW_CODES as u64) as usize], 0);
    to_read(record)
}

const TIMES_EACH: u64 = 4;

/// A record of each form spoiled by every set of causes.
fn each_set_of_causes(i: u64, random: &mut Random) -> Case {
    let mut record = lawful_record(i / SETS_OF_CAUSES, random);
    spoil_by(&mut record, i % SETS_OF_CAUSES, random);
    to_read(record)
}

/// Cells at the end of row 23 and in row 24.
pub const LATE_CELLS: [usize; 6] = [OLD.cells() - 1, OLD.cells(), OLD.cells() + 1, CELLS - 21, CELLS - 2, CELLS - 1];

/// What is put into them: lawful, and refused by 23.
const LATE: [(u16, u16); 6] = [(3, 0x20), (3, 0x41), (0, 0x41), (0, 0x20), (1, 0x00), (2, 0x7F)];

/// Each of these in each of the late cells of a new record.
fn each_late_cell(i: u64, random: &mut Random) -> Case {
    let (mark, character) = LATE[i as usize / LATE_CELLS.len()];
    let mut record = lawful_record(1, random);
    set_cell(&mut record, LATE_CELLS[i as usize % LATE_CELLS.len()], mark, character);
    to_read(record)
}

/// Sort d, counted out.
pub const TO_READ: [(u64, Maker<Case>); 3] = [
    (ROW_CODES as u64 * LENGTHS.len() as u64, each_code_and_length),
    (2 * SETS_OF_CAUSES * TIMES_EACH, each_set_of_causes),
    ((LATE.len() * LATE_CELLS.len()) as u64, each_late_cell),
];

/// A page to be written into a room of every length: lawful, and refused by 24, 22 and 23.
fn each_room(i: u64, random: &mut Random) -> Case {
    let mut page = lawful_page(random);
    match i % 4 {
        0 => {}
        1 => part_too_large(&mut page, random),
        2 => digit_above_9(&mut page, random),
        _ => cell_23(&mut page, random),
    }
    Case::lent('w', page_bytes(&page), random.bytes(LENGTHS[i as usize / 4]))
}

/// A page whose late cells are at their edges or past them: mark, character.
fn each_late_cell_written(i: u64, random: &mut Random) -> Case {
    let mut page = lawful_page(random);
    let cell = LATE_CELLS[i as usize % LATE_CELLS.len()];
    let put = [(3, 0x20), (0, 0x41), (4, 0x20), (2, 0x80), (0, 0xA0), (1, 0x00), (2, 0x7F)];
    (page.marks[cell], page.characters[cell]) = put[i as usize / LATE_CELLS.len()];
    Case::lent('w', page_bytes(&page), random.bytes(NEW.length + 3))
}

/// Sort w, counted out.
pub const TO_WRITE: [(u64, Maker<Case>); 2] =
    [(4 * LENGTHS.len() as u64, each_room), (7 * LATE_CELLS.len() as u64, each_late_cell_written)];
