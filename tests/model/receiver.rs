//! The receiver for one selected page: selection, kinds, storing, opening, closing.

use crate::bits::character;
use crate::examined::mended;
use crate::packet::{
    address, c4, data_line_refusal, forty, header, packet_of_line, thirty_two, zero_header, Address, Header,
};
use crate::record::{
    cause_23, cell_part_too_large, header_part_too_large, write_page, Page, CELLS, COLUMNS, RECORD_LENGTH, ROWS,
};

pub const NEVER: u8 = 0;
pub const OLDER: u8 = 1;
pub const FRESH: u8 = 2;
pub const SPACE: u8 = 0x20;

pub const CLOSED_NONE: u8 = 0;
pub const CLOSED_CLEAN: u8 = 1;
pub const CLOSED_DOUBT: u8 = 2;

/// "In kind 4 the harmless second messages start at 13."
const HARMLESS_FROM: u8 = 13;

/// Hours tens, hours units, minutes tens, minutes units.
#[derive(Clone, Copy, PartialEq, Debug)]
pub struct TimeCode {
    pub hours_tens: u8,
    pub hours_units: u8,
    pub minutes_tens: u8,
    pub minutes_units: u8,
}

/// "A selection is magazine 1 to 8, tens and units 0 to 9, and perhaps a time code."
#[derive(Clone, PartialEq, Debug)]
pub struct Selection {
    pub magazine: u8,
    pub tens: u8,
    pub units: u8,
    pub time: Option<TimeCode>,
}

/// The receiver's state.
#[derive(Clone, PartialEq, Debug)]
pub struct Receiver {
    pub selection: Selection,
    pub open: bool,
    pub doubt: bool,
    pub header: Header,
    pub characters: Vec<u8>,
    pub marks: Vec<u8>,
}

/// The answer to one line: the number of refusal or 0, the kind, the count, the closing word, and how
/// many of its examined Hamming bytes were corrected.
#[derive(Clone, PartialEq, Debug)]
pub struct Answer {
    pub number: u8,
    pub kind: u8,
    pub count: u8,
    pub closing: u8,
    pub mended: u8,
}

/// A refused line answers its number and otherwise zeros: it counts no mended byte.
fn refused(number: u8) -> Answer {
    Answer { number, kind: 0, count: 0, closing: CLOSED_NONE, mended: 0 }
}

/// Hours tens 0 to 3, hours units 0 to 9, minutes tens 0 to 7, minutes units 0 to 9.
fn time_in_range(time: &TimeCode) -> bool {
    time.hours_tens <= 3 && time.hours_units <= 9 && time.minutes_tens <= 7 && time.minutes_units <= 9
}

/// 13: selection out of range.
pub fn cause_13(selection: &Selection) -> bool {
    let magazine_in_range = selection.magazine >= 1 && selection.magazine <= 8;
    let page_in_range = selection.tens <= 9 && selection.units <= 9;
    let time_code_in_range = match &selection.time {
        None => true,
        Some(time) => time_in_range(time),
    };
    !(magazine_in_range && page_in_range && time_code_in_range)
}

/// The receiver of zeros, beside refusal 13.
fn zero_receiver() -> Receiver {
    Receiver {
        selection: Selection { magazine: 0, tens: 0, units: 0, time: None },
        open: false,
        doubt: false,
        header: zero_header(),
        characters: vec![0; CELLS],
        marks: vec![0; CELLS],
    }
}

/// "A new receiver has spaces (20) marked never and no page open."
pub fn new_receiver(selection: &Selection) -> (u8, Receiver) {
    if cause_13(selection) {
        return (13, zero_receiver());
    }
    let mut receiver = zero_receiver();
    receiver.selection = selection.clone();
    receiver.characters = vec![SPACE; CELLS];
    receiver.marks = vec![NEVER; CELLS];
    (0, receiver)
}

/// Is the header's time the time code?
fn same_time(header: &Header, time: &TimeCode) -> bool {
    header.hours_tens == time.hours_tens
        && header.hours_units == time.hours_units
        && header.minutes_tens == time.minutes_tens
        && header.minutes_units == time.minutes_units
}

/// "A header matches by magazine and page, and by time code where one was selected":
/// page and time; the magazine is asked where the line is known to be ours.
pub fn page_and_time_match(selection: &Selection, header: &Header) -> bool {
    let page = header.tens == selection.tens && header.units == selection.units;
    let time = match &selection.time {
        None => true,
        Some(time) => same_time(header, time),
    };
    page && time
}

/// "With none open there is no doubt, and digits, time and control bits are 0."
fn none_open_as_it_should_be(receiver: &Receiver) -> bool {
    !receiver.doubt && receiver.header == zero_header()
}

/// 18: the receiver handed in is not lawful.
pub fn cause_18(receiver: &Receiver) -> bool {
    let selection_fails_13 = cause_13(&receiver.selection);
    let open_header_differs = receiver.open && !page_and_time_match(&receiver.selection, &receiver.header);
    let none_open_is_wrong = !receiver.open && !none_open_as_it_should_be(receiver);
    let fails_24 =
        header_part_too_large(&receiver.header) || cell_part_too_large(&receiver.characters, &receiver.marks);
    let fails_23 = cause_23(&receiver.characters, &receiver.marks);
    selection_fails_13 || open_header_differs || none_open_is_wrong || fails_24 || fails_23
}

/// The table of kinds, first column and second column.
pub fn kind_of(receiver: &Receiver, packet: &[u8]) -> u8 {
    let ours = receiver.selection.magazine;
    match address(packet) {
        Address::Whole { magazine, row } => {
            if magazine == ours {
                kind_of_our_row(receiver, row, packet)
            } else {
                0
            }
        }
        // "A first message good and of another magazine [...] is kind 0 instead."
        Address::First { magazine, .. } => {
            if magazine == ours {
                4
            } else {
                0
            }
        }
        // "... or a second message" that is harmless "is kind 0 instead".
        Address::Second { message } => {
            if message >= HARMLESS_FROM {
                0
            } else {
                4
            }
        }
        Address::Unread => 4,
    }
}

/// The kinds of our own rows, both address messages good.
fn kind_of_our_row(receiver: &Receiver, row: u8, packet: &[u8]) -> u8 {
    if row as usize >= ROWS {
        return 0;
    }
    if row >= 1 {
        return if receiver.open { 1 } else { 0 };
    }
    match header(packet) {
        None => 5,
        Some(header) => {
            if page_and_time_match(&receiver.selection, &header) {
                2
            } else {
                3
            }
        }
    }
}

/// "Storing writes each odd-parity byte to its cell, marked fresh; other bytes leave their
/// cells and put the page in doubt." Hands back the count of bytes written.
fn store(receiver: &mut Receiver, first_cell: usize, bytes: &[u8]) -> u8 {
    let mut count = 0;
    for (k, byte) in bytes.iter().enumerate() {
        match character(*byte) {
            Some(code) => {
                receiver.characters[first_cell + k] = code;
                receiver.marks[first_cell + k] = FRESH;
                count += 1;
            }
            None => receiver.doubt = true,
        }
    }
    count
}

/// The page as it stands, for the record: "clean where there was no doubt".
fn page_as_it_stands(receiver: &Receiver) -> Page {
    Page {
        magazine: receiver.selection.magazine,
        header: receiver.header.clone(),
        clean: !receiver.doubt,
        characters: receiver.characters.clone(),
        marks: receiver.marks.clone(),
    }
}

/// "Closing happens only where a page is open. It writes the record [...] and answers
/// "clean" or "doubt"; else "none"."
fn close(receiver: &mut Receiver, record: &mut [u8]) -> u8 {
    if !receiver.open {
        return CLOSED_NONE;
    }
    let number = write_page(&page_as_it_stands(receiver), record);
    assert_eq!(number, 0, "a lawful receiver's page is written");
    let closing = if receiver.doubt { CLOSED_DOUBT } else { CLOSED_CLEAN };
    receiver.open = false;
    receiver.doubt = false;
    receiver.header = zero_header();
    closing
}

/// "Opening with C4 set makes all [...] cells space and never; without C4, fresh becomes older."
fn clear_or_age(receiver: &mut Receiver, header: &Header) {
    for cell in 0..CELLS {
        if c4(header) {
            receiver.characters[cell] = SPACE;
            receiver.marks[cell] = NEVER;
        } else if receiver.marks[cell] == FRESH {
            receiver.marks[cell] = OLDER;
        }
    }
}

/// "The page starts without doubt; then the 32 header characters are stored and counted."
fn open(receiver: &mut Receiver, packet: &[u8]) -> u8 {
    let header = header(packet).expect("kind 2 has eight good messages");
    clear_or_age(receiver, &header);
    receiver.open = true;
    receiver.doubt = false;
    receiver.header = header;
    store(receiver, 8, &thirty_two(packet))
}

/// "The line could have been row 0: no good message shows a row bit set."
fn could_have_been_row_0(packet: &[u8]) -> bool {
    match address(packet) {
        Address::Whole { row, .. } => row == 0,
        Address::First { row_weight_1, .. } => row_weight_1 == 0,
        Address::Second { message } => message == 0,
        Address::Unread => true,
    }
}

/// Kind 4: "With a page open it is put in doubt, and closed too if the line could have been
/// row 0 [...]. With none open nothing changes."
fn address_refused(receiver: &mut Receiver, record: &mut [u8], packet: &[u8]) -> u8 {
    if !receiver.open {
        return CLOSED_NONE;
    }
    receiver.doubt = true;
    if could_have_been_row_0(packet) {
        close(receiver, record)
    } else {
        CLOSED_NONE
    }
}

/// Kind 1: stored.
fn stored(receiver: &mut Receiver, packet: &[u8]) -> u8 {
    let row = match address(packet) {
        Address::Whole { row, .. } => row as usize,
        _ => unreachable!("kind 1 has a whole address"),
    };
    store(receiver, row * COLUMNS, &forty(packet))
}

/// The table of kinds, third column: the effect of a packet that is not refused.
fn effect(receiver: &mut Receiver, record: &mut [u8], packet: &[u8]) -> Answer {
    let kind = kind_of(receiver, packet);
    let mended = mended(receiver.selection.magazine, packet);
    let mut answer = Answer { number: 0, kind, count: 0, closing: CLOSED_NONE, mended };
    match kind {
        1 => answer.count = stored(receiver, packet),
        2 => {
            answer.closing = close(receiver, record);
            answer.count = open(receiver, packet);
        }
        3 | 5 => answer.closing = close(receiver, record),
        4 => answer.closing = address_refused(receiver, record, packet),
        _ => {}
    }
    answer
}

/// Order for packets: 18, 12, 10.
fn packet_refusal(receiver: &Receiver, record: &[u8], packet: &[u8]) -> u8 {
    if cause_18(receiver) {
        18
    } else if record.len() < RECORD_LENGTH {
        12
    } else if packet.len() != 42 {
        10
    } else {
        0
    }
}

/// Order for lines: 18, 12, 10, 11.
fn line_refusal(receiver: &Receiver, record: &[u8], line: &[u8]) -> u8 {
    if cause_18(receiver) {
        18
    } else if record.len() < RECORD_LENGTH {
        12
    } else {
        data_line_refusal(line)
    }
}

/// One packet, by value: the answer and the receiver after.
pub fn receive_packet(receiver: &Receiver, record: &mut [u8], packet: &[u8]) -> (Answer, Receiver) {
    let mut after = receiver.clone();
    let number = packet_refusal(receiver, record, packet);
    if number != 0 {
        return (refused(number), after);
    }
    let answer = effect(&mut after, record, packet);
    (answer, after)
}

/// One line, by value: the answer and the receiver after.
pub fn receive_line(receiver: &Receiver, record: &mut [u8], line: &[u8]) -> (Answer, Receiver) {
    let mut after = receiver.clone();
    let number = line_refusal(receiver, record, line);
    if number != 0 {
        return (refused(number), after);
    }
    let answer = effect(&mut after, record, packet_of_line(line));
    (answer, after)
}

/// "One thin entry takes the day's receiver lent and alters it there."
pub fn receive_line_lent(receiver: &mut Receiver, record: &mut [u8], line: &[u8]) -> Answer {
    let (answer, after) = receive_line(receiver, record, line);
    *receiver = after;
    answer
}
