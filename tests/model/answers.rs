//! The answer to a case, worked out from the case's own bytes.

use crate::bits::*;
use crate::display::{display, Cell, Height, Symbol};
use crate::field::{list, search, unit_from, Found};
use crate::national::{english_stands_in, letter, printed_page, value, LONGEST_TEXT};
use crate::packet::{address, data_line_refusal, forty, header, packet_of_line, zero_header, Address};
use crate::receiver::{new_receiver, receive_line, receive_line_lent, receive_packet, Answer, Receiver, CLOSED_NONE};
use crate::record::{read_page, write_page};
use crate::recording::play;
use crate::send::{header_line, row_line};
use crate::text::*;
use crate::transmission::{send_page, CHOOSABLE};

/// In the place of a message, a position, a character or a header that is not read.
const REFUSED: u8 = 0xFF;

/// The kind where a recording came to its end.
const AT_END: u8 = 0xFF;

/// The bytes of the answer.
pub fn answer(case: &Case) -> Vec<u8> {
    let x = &case.input[..];
    let record = case.record.clone().unwrap_or_default();
    match case.sort {
        'b' => byte_answer(x[0]),
        'n' => vec![data_line_refusal(x)],
        'a' => packet_answer(x),
        'f' => search_answer(x),
        'u' => unit_answer(x),
        'g' => display_answer(x),
        'e' => protected_answer(x),
        'k' => packets_answer(x),
        'i' => form_bytes(u32::from_be_bytes(filled(x))).to_vec(),
        'c' => letter_answer(x),
        'o' => text_answer(x),
        's' => selection_answer(x),
        'r' => run_answer(x, record),
        'w' => writer_answer(x, record),
        'd' => reader_answer(x),
        't' => sender_answer(x, record),
        _ => panic!("no such sort"),
    }
}

/// The position of a Hamming byte's wrong bit, 1 to 8; 0 where it is exact.
fn position(x: u8) -> u8 {
    match decode(x) {
        Decoded::Exact { .. } => 0,
        Decoded::Corrected { position, .. } => position,
        Decoded::Refused => REFUSED,
    }
}

/// Sort b.
fn byte_answer(x: u8) -> Vec<u8> {
    vec![
        turned(x),
        framing_passes(x) as u8,
        test_a(x) as u8,
        test_b(x) as u8,
        test_c(x) as u8,
        test_d(x) as u8,
        message(x).unwrap_or(REFUSED),
        position(x),
        character(x).unwrap_or(REFUSED),
    ]
}

/// Sort a: zeros beside a refusal.
fn packet_answer(x: &[u8]) -> Vec<u8> {
    if x.len() != 42 {
        let mut out = vec![0; 53];
        out[0] = 10;
        out[4] = 10;
        return out;
    }
    let mut out = match address(x) {
        Address::Whole { magazine, row } => vec![0, 3, magazine, row],
        Address::First { magazine, row_weight_1 } => vec![0, 1, magazine, row_weight_1],
        Address::Second { message } => vec![0, 2, message, 0],
        Address::Unread => vec![0, 0, 0, 0],
    };
    let read = header(x);
    out.push(if read.is_some() { 0 } else { REFUSED });
    out.extend(header_bytes(&read.unwrap_or(zero_header())));
    out.extend(forty(x));
    out
}

/// Three numbers of a byte, and two of four bytes.
fn five(number: u8, first: u8, second: u8, place: usize, after: usize) -> Vec<u8> {
    let mut out = vec![number, first, second];
    out.extend((place as u32).to_be_bytes());
    out.extend((after as u32).to_be_bytes());
    out
}

/// Sort f.
fn search_answer(x: &[u8]) -> Vec<u8> {
    match search(&x[8..], place_of(x) as usize) {
        Found::Packet { place, parity, offset, after } => five(0, parity, offset, place, after),
        Found::NoMore => five(0, 0, 0, 0, 0),
        Found::Refused { number, place } => five(number, 0, 0, place.unwrap_or(0), 0),
    }
}

/// Sort u.
fn unit_answer(x: &[u8]) -> Vec<u8> {
    match unit_from(&x[8..], place_of(x) as usize) {
        Ok(Some(unit)) => five(0, unit.id, unit.length as u8, 0, unit.place + 2 + unit.length),
        Ok(None) => five(0, 0, 0, 0, 0),
        Err((number, place)) => five(number, 0, 0, place.unwrap_or(0), 0),
    }
}

/// What the unit lister prints of a field, its lines joined by spaces.
pub fn lister_words(field: &[u8]) -> String {
    let (units, number, place) = list(field);
    let mut words = Vec::new();
    for unit in units {
        words.push(format!("{} {} {}", unit.place, unit.id, unit.length));
    }
    match (number, place) {
        (0, _) => words.push(format!("end {}", field.len())),
        (number, Some(place)) => words.push(format!("refused {} at {}", number, place)),
        (number, None) => words.push(format!("refused {}", number)),
    }
    words.join(" ")
}

/// One cell, 8 bytes.
fn cell_bytes(cell: &Cell) -> [u8; 8] {
    let (kind, value) = match cell.symbol {
        Symbol::Letter(code) => (b'L', code),
        Symbol::Mosaic { pattern, separated: false } => (b'C', pattern),
        Symbol::Mosaic { pattern, separated: true } => (b'S', pattern),
    };
    let height = match cell.height {
        Height::Normal => 0,
        Height::Upper => 1,
        Height::Lower => 2,
    };
    let (flash, conceal, boxed) = (cell.flash as u8, cell.conceal as u8, cell.boxed as u8);
    [kind, value, cell.foreground, cell.background, flash, conceal, boxed, height]
}

/// Sort g.
fn display_answer(x: &[u8]) -> Vec<u8> {
    let (number, cells) = display(x);
    let mut out = vec![number];
    for cell in &cells {
        out.extend(cell_bytes(cell));
    }
    out
}

/// Sort s.
fn selection_answer(x: &[u8]) -> Vec<u8> {
    let (number, receiver) = new_receiver(&selection_of(x));
    let mut out = vec![number];
    out.extend(receiver_bytes(&receiver));
    out
}

/// One step of a run: for a recording how many lines it used and MENDED, and then ANSWER.
fn step_answer(entry: u8, receiver: &mut Receiver, record: &mut [u8], bytes: &[u8]) -> Vec<u8> {
    match entry {
        b'm' => answer_bytes(&receive_line_lent(receiver, record, bytes)).to_vec(),
        b'r' => {
            let played = play(receiver, record, bytes);
            let end = Answer { number: 0, kind: AT_END, count: 0, closing: CLOSED_NONE, mended: 0 };
            let mut out = two_bytes(played.lines).to_vec();
            out.extend(mended_bytes(&played.mended));
            out.extend(answer_bytes(&played.stop.unwrap_or(end)));
            out
        }
        _ => {
            let by_value = if entry == b'p' { receive_packet } else { receive_line };
            let (answer, after) = by_value(receiver, record, bytes);
            *receiver = after;
            answer_bytes(&answer).to_vec()
        }
    }
}

/// Sort r: after each step the record, and last the receiver.
fn run_answer(x: &[u8], mut record: Vec<u8>) -> Vec<u8> {
    let mut receiver = receiver_of(&x[..RECEIVER_LENGTH]);
    let mut steps = &x[RECEIVER_LENGTH..];
    let mut out = Vec::new();
    while !steps.is_empty() {
        let end = 3 + of_two_bytes(&steps[1..3]);
        out.extend(step_answer(steps[0], &mut receiver, &mut record, &steps[3..end]));
        out.extend(&record);
        steps = &steps[end..];
    }
    out.extend(receiver_bytes(&receiver));
    out
}

/// Sort w.
fn writer_answer(x: &[u8], mut record: Vec<u8>) -> Vec<u8> {
    let mut out = vec![write_page(&page_of(x), &mut record)];
    out.extend(record);
    out
}

/// Sort d.
fn reader_answer(x: &[u8]) -> Vec<u8> {
    let (number, page) = read_page(x);
    let mut out = vec![number];
    out.extend(page_bytes(&page));
    out
}

/// Sort e: an input that is empty is read as a zero.
fn protected_answer(x: &[u8]) -> Vec<u8> {
    let byte = x.first().copied().unwrap_or(0);
    vec![SENT[(byte % 16) as usize], character_byte(byte)]
}

/// Sort k: a number too large for its bits goes by its low bits; what is not there is zeros.
fn packets_answer(x: &[u8]) -> Vec<u8> {
    let mut x = x.to_vec();
    x.resize(50, 0);
    let (magazine, row, text) = (x[0] % 8, x[1] % 32, &x[10..50]);
    let of_row = row_line(magazine, row, text);
    let of_header = header_line(magazine, &header_of(&x[2..10]), &text[8..]);
    [packet_of_line(&of_row), packet_of_line(&of_header)].concat()
}

/// Sort c.
fn letter_answer(x: &[u8]) -> Vec<u8> {
    let [_, _, code] = filled(x);
    let control = control_of(x);
    let letter = letter(control, code) as u32;
    let mut out = vec![value(control) as u8, english_stands_in(control) as u8];
    out.extend(letter.to_be_bytes());
    out.extend(form_bytes(letter));
    out
}

/// Sort o: the codes are only those that are there.
fn text_answer(x: &[u8]) -> Vec<u8> {
    let printed = printed_page(control_of(x), x.get(2..).unwrap_or_default());
    let mut out = vec![printed.number, printed.stands_in as u8];
    out.extend(two_bytes(printed.text.len()));
    out.extend(printed.text.bytes());
    out.resize(4 + LONGEST_TEXT, 0);
    out
}

/// Sort t.
fn sender_answer(x: &[u8], mut room: Vec<u8>) -> Vec<u8> {
    let record = x.get(CHOOSABLE..).unwrap_or_default();
    let (number, lines) = send_page(record, &wanted_of(x), &mut room);
    let mut out = vec![number, lines];
    out.extend(room);
    out
}
