//! The writer of pages, by request 2 of document 02: from a page record the data-lines of one
//! transmission.

use crate::packet::control_weight;
use crate::record::{read_page, Page, COLUMNS, ROWS};
use crate::send::{header_line, row_line};

pub const LINE_LENGTH: usize = 45;

/// "Demands 2 and 3 and request 2 read 24 rows beside the header": rows 1 to 24 are sent where they are wanted.
pub const CHOOSABLE: usize = ROWS - 1;

/// A yes or no for each row 1 to 24, row 1 first.
pub type Wanted = [bool; CHOOSABLE];

/// The rows that are wanted, rising.
pub fn rows_wanted(wanted: &Wanted) -> Vec<u8> {
    (1..=CHOOSABLE as u8).filter(|row| wanted[*row as usize - 1]).collect()
}

/// "45 bytes for each line": the header's and one for each row wanted.
pub fn room_needed(wanted: &Wanted) -> usize {
    LINE_LENGTH * (1 + rows_wanted(wanted).len())
}

/// "Header first with C4 set, rows rising." Columns 0 to 7 of row 0 are not sent.
fn lines_of(page: &Page, wanted: &Wanted) -> Vec<Vec<u8>> {
    let mut header = page.header.clone();
    header.control |= control_weight(4);
    let mut lines = vec![header_line(page.magazine, &header, &page.characters[8..COLUMNS])];
    for row in rows_wanted(wanted) {
        let cells = row as usize * COLUMNS..(row as usize + 1) * COLUMNS;
        lines.push(row_line(page.magazine, row, &page.characters[cells]));
    }
    lines
}

/// The number and the count of lines. "Refusals: 20 to 23 in their order, then 30, lent room shorter
/// than 45 bytes for each line"; "Room past the lines stays".
pub fn send_page(record: &[u8], wanted: &Wanted, room: &mut [u8]) -> (u8, u8) {
    let (number, page) = read_page(record);
    if number != 0 {
        return (number, 0);
    }
    if room.len() < room_needed(wanted) {
        return (30, 0);
    }
    let lines = lines_of(&page, wanted);
    for (place, line) in room.chunks_mut(LINE_LENGTH).zip(&lines) {
        place.copy_from_slice(line);
    }
    (0, lines.len() as u8)
}
