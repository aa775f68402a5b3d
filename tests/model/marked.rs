//! The thirteen marked cases of document 01, and the counts of Hamming bytes.

use crate::bits::{character, decode, framing_passes, Decoded, SENT};
use crate::display::{display, pattern, Cell, Symbol};
use crate::packet::{address, zero_header, Address};
use crate::receiver::{new_receiver, Selection};
use crate::record::{encoded, write_page, Page, CELLS, COLUMNS, NEW, OLD, RECORD_LENGTH, ROWS};

/// The address of a packet that begins with these bytes (after turning).
fn address_of(first: u8, second: u8) -> Address {
    let mut packet = vec![0; 42];
    packet[0] = crate::bits::turned(first);
    packet[1] = crate::bits::turned(second);
    address(&packet)
}

/// The cells of one row of a page that begins with these codes, among spaces.
fn cells(codes: &[u8], row: usize) -> Vec<Cell> {
    let start = row * COLUMNS;
    let mut page = vec![0x20; CELLS];
    page[start..start + codes.len()].copy_from_slice(codes);
    display(&page).1[start..start + COLUMNS].to_vec()
}

/// Does this hold of the row that begins with these codes, whichever of the 25 it is?
fn on_every_row(codes: &[u8], holds: fn(&[Cell]) -> bool) -> bool {
    (0..ROWS).all(|row| holds(&cells(codes, row)))
}

/// An exact byte of this message.
fn is_exact(byte: u8, message: u8) -> bool {
    decode(byte) == Decoded::Exact { message }
}

/// A corrected byte of this message, with this bit wrong.
fn corrects_to(byte: u8, message: u8, position: u8) -> bool {
    decode(byte) == Decoded::Corrected { message, position }
}

/// Is this cell this mosaic, contiguous, in this colour?
fn mosaic(cell: &Cell, pattern: u8, foreground: u8) -> bool {
    cell.symbol == Symbol::Mosaic { pattern, separated: false } && cell.foreground == foreground
}

/// Case 9, also as the page shows it.
fn case_9() -> bool {
    let patterns = pattern(0x35) == 21 && pattern(0x60) == 32 && pattern(0x7F) == 63;
    patterns
        && on_every_row(&[0x11, 0x35, 0x60, 0x7F], |row| {
            mosaic(&row[1], 21, 1) && mosaic(&row[2], 32, 1) && mosaic(&row[3], 63, 1)
        })
}

/// Case 10.
fn case_10() -> bool {
    on_every_row(&[0x11, 0x7F, 0x1E, 0x12, 0x20], |row| {
        row[0].symbol == Symbol::Letter(0x20)
            && mosaic(&row[1], 63, 1)
            && mosaic(&row[2], 63, 1)
            && mosaic(&row[3], 63, 1)
            && mosaic(&row[4], 0, 2)
    })
}

/// Case 11.
fn case_11() -> bool {
    on_every_row(&[0x0B, 0x0B, 0x41, 0x0A, 0x0A], |row| {
        (0..COLUMNS).all(|column| row[column].boxed == (1..=3).contains(&column))
    })
}

/// Case 12.
fn case_12() -> bool {
    on_every_row(&[0x01, 0x1D, 0x41], |row| {
        row[2].symbol == Symbol::Letter(0x41) && row[2].foreground == 1 && row[2].background == 1
    })
}

/// Does a record start with these five bytes and then with the nine of eight cells never received?
fn starts(record: &[u8], five: [u8; 5]) -> bool {
    record[..5] == five && record[5..14] == [0x10, 0x08, 0x04, 0x02, 0x01, 0x00, 0x80, 0x40, 0x20]
}

/// "Marked case 13 stays as the old form; in the new its fifth byte is 11." The writer makes the new one.
fn case_13() -> bool {
    let (_, receiver) = new_receiver(&Selection { magazine: 1, tens: 0, units: 0, time: None });
    let page = Page {
        magazine: 1,
        header: zero_header(),
        clean: true,
        characters: receiver.characters,
        marks: receiver.marks,
    };
    let mut record = vec![0xAA; RECORD_LENGTH];
    write_page(&page, &mut record) == 0
        && record == encoded(&page, &NEW)
        && starts(&record, [0x20, 0, 0, 0, 0x11])
        && starts(&encoded(&page, &OLD), [0x20, 0, 0, 0, 0x10])
}

/// Each marked case, in the paper's order.
fn marked_cases() -> Vec<bool> {
    vec![
        is_exact(0x15, 0) && is_exact(0xEA, 15),
        corrects_to(0x14, 0, 1) && corrects_to(0x55, 0, 7),
        decode(0x16) == Decoded::Refused,
        corrects_to(0x00, 1, 2) && corrects_to(0xFF, 14, 2),
        address_of(0x02, 0x15) == Address::Whole { magazine: 1, row: 0 },
        address_of(0xD0, 0x9B) == Address::Whole { magazine: 8, row: 23 },
        character(0xC1) == Some(0x41) && character(0x41).is_none(),
        framing_passes(0xE4) && framing_passes(0xE5) && !framing_passes(0xE7) && !framing_passes(0x1B),
        case_9(),
        case_10(),
        case_11(),
        case_12(),
        case_13(),
    ]
}

/// Of 256 bytes, how many are exact, corrected, refused.
fn counts() -> (usize, usize, usize) {
    let all = || (0..=255u8).map(decode);
    (
        all().filter(|decoded| matches!(decoded, Decoded::Exact { .. })).count(),
        all().filter(|decoded| matches!(decoded, Decoded::Corrected { .. })).count(),
        all().filter(|decoded| *decoded == Decoded::Refused).count(),
    )
}

/// The published bytes are the exact ones, and a corrected byte is one bit away from its own.
fn table_agrees() -> bool {
    (0..=255u8).all(|byte| match decode(byte) {
        Decoded::Exact { message } => byte == SENT[message as usize],
        Decoded::Corrected { message, .. } => (byte ^ SENT[message as usize]).count_ones() == 1,
        Decoded::Refused => SENT.iter().all(|sent| (byte ^ sent).count_ones() >= 2),
    })
}

/// The lister's two inputs of the paper.
fn lister_agrees() -> bool {
    crate::answers::lister_words(&[0x99, 0xFF, 0x00]) == "1 255 0 end 3"
        && crate::answers::lister_words(&[0x10, 0xFF, 0x00]) == "refused 16 at 1"
}

/// Print how many of the thirteen hold, and whatever fails.
pub fn print() {
    let cases = marked_cases();
    for (k, holds) in cases.iter().enumerate() {
        if !holds {
            println!("case {} fails", k + 1);
        }
    }
    if counts() != (16, 128, 112) {
        println!("counts fail: {:?}", counts());
    }
    if !table_agrees() {
        println!("the table of messages fails");
    }
    if !lister_agrees() {
        println!("the lister's inputs fail");
    }
    println!("{} of {}", cases.iter().filter(|holds| **holds).count(), cases.len());
}
