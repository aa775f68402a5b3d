//! Runs of one step: a receiver, a line or packet by one of the entries, and a lent record.

use crate::bits::SENT;
use crate::case_forms::some_cell;
use crate::packet::{header, packet_of_line, zero_header};
use crate::random::Random;
use crate::receiver::{new_receiver, receive_line, Receiver, Selection, SPACE};
use crate::record::{CELLS, OLD, RECORD_LENGTH};
use crate::send::*;
use crate::text::{receiver_bytes, step, Case};

/// A receiver after so many lines of a broadcast with this level of damage.
fn run(lines: u64, level: u64, random: &mut Random) -> Receiver {
    let selection = any_selection(random);
    let (_, mut receiver) = new_receiver(&selection);
    let mut record = vec![0; RECORD_LENGTH];
    let mut broadcaster = Broadcaster::new(&selection, 12, random);
    for _ in 0..lines {
        let (row, sent) = broadcaster.next_line(random);
        let received = damaged(&sent, row, level, 6, random);
        receiver = receive_line(&receiver, &mut record, &received).1;
    }
    receiver
}

/// A receiver reached by the model: open or not, in doubt or not, with cells left.
pub fn reached(open: bool, doubt: bool, random: &mut Random) -> Receiver {
    for _ in 0..40 {
        let lines = random.between(10, 60);
        let level = if doubt { random.pick(&[2, 3, 4, 7]) } else { random.pick(&[0, 1]) };
        let receiver = run(lines, level, random);
        let some_fresh = receiver.marks.contains(&2);
        if receiver.open == open && receiver.doubt == doubt && some_fresh {
            return receiver;
        }
    }
    run(30, 0, random)
}

/// Cells that are lawful though no run makes them.
pub fn lawful_cells(characters: &mut [u8], marks: &mut [u8], random: &mut Random) {
    let style = random.below(4);
    for cell in 8..CELLS {
        let mark = match style {
            0 => random.within(0, 2),
            1 => random.pick(&[0, 0, 0, 0, 0, 0, 0, 1, 2]),
            2 => random.within(1, 2),
            _ => 2 * ((cell / 40) % 2) as u8,
        };
        marks[cell] = mark;
        characters[cell] = if mark == 0 { SPACE } else { random.pick(&[0, 0x1F, 0x20, 0x41, 0x7F, 0x55]) };
        if mark != 0 && random.once_in(2) {
            characters[cell] = random.within(0, 0x7F);
        }
    }
}

/// A lawful receiver that no run makes.
pub fn lawful(open: bool, random: &mut Random) -> Receiver {
    let selection = any_selection(random);
    let (_, mut receiver) = new_receiver(&selection);
    lawful_cells(&mut receiver.characters, &mut receiver.marks, random);
    receiver.open = open;
    if open {
        receiver.header = matching_header(&selection, random);
        receiver.doubt = random.once_in(2);
    }
    receiver
}

/// The selection spoiled in one part, an open header going with it or not.
fn spoil_selection(receiver: &mut Receiver, random: &mut Random) {
    let value = random.pick(&[10, 15, 16, 255]);
    let along = random.once_in(2) && receiver.open;
    let parts = if receiver.selection.time.is_some() { 7 } else { 3 };
    let part = random.below(parts);
    match (part, receiver.selection.time.as_mut()) {
        (0, _) => receiver.selection.magazine = random.pick(&[0, 9, 16, 255]),
        (1, _) => receiver.selection.tens = value,
        (2, _) => receiver.selection.units = value,
        (3, Some(time)) => time.hours_tens = random.pick(&[4, 255]),
        (4, Some(time)) => time.hours_units = value,
        (5, Some(time)) => time.minutes_tens = random.pick(&[8, 255]),
        (_, Some(time)) => time.minutes_units = value,
        (_, None) => {}
    }
    if along {
        header_goes_along(receiver);
    }
}

/// The open header made to match the selection, whatever that is.
fn header_goes_along(receiver: &mut Receiver) {
    receiver.header.tens = receiver.selection.tens;
    receiver.header.units = receiver.selection.units;
    if let Some(time) = receiver.selection.time {
        receiver.header.hours_tens = time.hours_tens;
        receiver.header.hours_units = time.hours_units;
        receiver.header.minutes_tens = time.minutes_tens;
        receiver.header.minutes_units = time.minutes_units;
    }
}

/// One part of the header at an edge or past it: lawful or not as the selection says.
fn spoil_header(receiver: &mut Receiver, random: &mut Random) {
    let h = &mut receiver.header;
    match random.below(10) {
        0 => h.tens = (h.tens + 1) % 10,
        1 => h.units = (h.units + 1) % 10,
        2 => h.tens = random.pick(&[10, 15, 16, 255]),
        3 => h.units = random.pick(&[10, 15, 16, 255]),
        4 => h.hours_tens = random.pick(&[1, 3, 4, 255]),
        5 => h.hours_units = random.pick(&[1, 9, 10, 15, 16, 255]),
        6 => h.minutes_tens = random.pick(&[1, 7, 8, 255]),
        7 => h.minutes_units = random.pick(&[1, 9, 10, 15, 16, 255]),
        _ => h.control = random.pick(&[1, 0x400, 0x7FF, 0x800, 0x801, 0x8000, 0xFFFF]),
    }
}

/// None open, with doubt.
fn spoil_doubt(receiver: &mut Receiver) {
    receiver.open = false;
    receiver.header = zero_header();
    receiver.doubt = true;
}

/// One cell spoiled, or brought to a lawful edge.
pub fn spoil_cell(characters: &mut [u8], marks: &mut [u8], random: &mut Random) {
    let cell = some_cell(CELLS, random).max(8);
    let first = random.below(8) as usize;
    match random.below(11) {
        0 => marks[cell] = 3,
        1 => marks[cell] = random.pick(&[4, 5, 128, 255]),
        2 => {
            marks[cell] = 0;
            characters[cell] = random.pick(&[0, 0x1F, 0x21, 0x7F, 0xA0]);
        }
        3 => {
            marks[cell] = 2;
            characters[cell] = random.pick(&[0x80, 0xA0, 0xFF]);
        }
        4 => {
            marks[cell] = 0;
            characters[cell] = random.pick(&[0x80, 0xA0, 0xFF]);
        }
        5..=6 => marks[first] = random.pick(&[1, 2]),
        7 => marks[first] = random.pick(&[3, 4]),
        8 => characters[first] = random.pick(&[0, 0x21, 0x7F, 0x80, 0xA0]),
        9 => {
            marks[first] = 2;
            characters[first] = 0x41;
        }
        _ => {
            marks[cell] = random.pick(&[1, 2]);
            characters[cell] = random.pick(&[0, 0x20, 0x7F]);
        }
    }
}

/// A receiver with exactly one part spoiled, or at a lawful edge.
pub fn spoiled(random: &mut Random) -> Receiver {
    let open = random.once_in(2);
    let mut receiver = if random.once_in(3) { reached(open, false, random) } else { lawful(open, random) };
    match random.below(10) {
        0..=2 => spoil_selection(&mut receiver, random),
        3..=5 => spoil_header(&mut receiver, random),
        6 => spoil_doubt(&mut receiver),
        _ => spoil_cell(&mut receiver.characters, &mut receiver.marks, random),
    }
    if random.once_in(12) && receiver.open {
        // closed, but digits, time or control bits left as they were
        receiver.open = false;
        receiver.doubt = false;
    }
    receiver
}

/// A receiver of anything at all.
fn anything(random: &mut Random) -> Receiver {
    let mut receiver = lawful(random.once_in(2), random);
    receiver.selection.magazine = random.byte();
    receiver.doubt = random.once_in(2);
    receiver.header.tens = random.byte();
    receiver.header.units = random.byte();
    receiver.header.hours_units = random.byte();
    receiver.header.minutes_units = random.byte();
    receiver.header.control = random.below(65536) as u16;
    receiver.characters = random.bytes(CELLS);
    receiver.marks = random.bytes(CELLS);
    receiver
}

/// The receiver of a case.
fn some_receiver(i: u64, random: &mut Random) -> Receiver {
    match i % 16 {
        0 => new_receiver(&any_selection(random)).1,
        1..=3 => reached(true, false, random),
        4 => reached(true, true, random),
        5..=6 => reached(false, false, random),
        7 => lawful(false, random),
        8..=11 => lawful(true, random),
        12..=14 => spoiled(random),
        _ => {
            if random.once_in(4) {
                anything(random)
            } else {
                spoiled(random)
            }
        }
    }
}

/// The selection's magazine, or any where it is no magazine.
fn our_magazine(selection: &Selection, random: &mut Random) -> u8 {
    if (1..=8).contains(&selection.magazine) {
        selection.magazine
    } else {
        random.within(1, 8)
    }
}

/// A magazine that is not ours.
pub fn other_magazine(ours: u8, random: &mut Random) -> u8 {
    (ours - 1 + random.within(1, 7)) % 8 + 1
}

/// A line by the rules, with its row: ours or another's, matching or not.
fn sent_line(receiver: &Receiver, random: &mut Random) -> (u8, Vec<u8>) {
    let selection = &receiver.selection;
    let ours = our_magazine(selection, random);
    let other = other_magazine(ours, random);
    let words = text(random);
    let any = random.within(1, LAST_SHOWN);
    let row = random.pick(&[any, any, any, LAST_SHOWN]);
    let high = random.within(LAST_SHOWN + 1, LAST_SENT);
    match random.below(20) {
        0..=5 => (0, header_line(ours, &matching_header(selection, random), &words)),
        6..=8 => (0, header_line(ours, &nearly_matching_header(selection, random), &words)),
        9 => (0, header_line(ours, &any_header(random), &words)),
        10..=14 => (row, row_line(ours, row, &words)),
        15..=16 => (high, row_line(ours, high, &words)),
        17 => (0, header_line(other, &matching_header(selection, random), &words)),
        18 => (row, row_line(other, row, &words)),
        _ => (high, row_line(other, high, &words)),
    }
}

/// The bytes of an address message that is refused: any of the 112.
pub fn refused_byte(random: &mut Random) -> u8 {
    SENT[random.below(16) as usize] ^ random.ones(2)
}

/// Address forms of kind 4 and its neighbours over a matching header or a row's characters.
fn address_form(receiver: &Receiver, random: &mut Random) -> Vec<u8> {
    let (_, mut line) = sent_line(receiver, random);
    let ours = our_magazine(&receiver.selection, random);
    let other = other_magazine(ours, random);
    let weight_1 = random.within(0, 1);
    let first_ours = SENT[address_messages(ours, weight_1)[0] as usize];
    let first_other = SENT[address_messages(other, weight_1)[0] as usize];
    let any_low = random.within(0, 12);
    let low = SENT[random.pick(&[0, 0, 1, 2, 4, 8, 11, 12, 12, any_low]) as usize];
    let high = SENT[random.pick(&[13, 13, 14, 15]) as usize];
    let refused = refused_byte(random);
    let refused_too = refused_byte(random);
    let (first, second) = match random.below(9) {
        0..=1 => (first_ours, refused),
        2 => (first_other, refused),
        3..=4 => (refused, low),
        5 | 7 => (refused, high),
        6 => (refused, refused_too),
        _ => (first_ours ^ random.ones(1), refused),
    };
    line[3] = crate::bits::turned(first);
    line[4] = crate::bits::turned(second);
    line
}

/// A line with the header's eight messages refused in exactly one place.
fn header_spoiled(receiver: &Receiver, random: &mut Random) -> Vec<u8> {
    let ours = our_magazine(&receiver.selection, random);
    let mut line = header_line(ours, &matching_header(&receiver.selection, random), &text(random));
    let place = random.between(5, 12) as usize;
    flip(&mut line[place], 2, random);
    assert!(header(packet_of_line(&line)).is_none());
    line
}

/// A line by the rules whose Hamming bytes are then exact, corrected and refused in any mix; one in five
/// is another magazine's header.
pub fn mixed_line(receiver: &Receiver, random: &mut Random) -> Vec<u8> {
    let (mut row, mut line) = sent_line(receiver, random);
    if random.once_in(5) {
        let other = other_magazine(our_magazine(&receiver.selection, random), random);
        (row, line) = (0, header_line(other, &matching_header(&receiver.selection, random), &text(random)));
    }
    mixed_damage(&mut line, row, random);
    line
}

/// A line of 45 bytes for a receiver.
fn line_of_45(receiver: &Receiver, random: &mut Random) -> Vec<u8> {
    match random.below(20) {
        0..=4 => address_form(receiver, random),
        5..=6 => header_spoiled(receiver, random),
        7 if random.once_in(2) => random.bytes(45),
        8..=10 => mixed_line(receiver, random),
        _ => {
            let (row, line) = sent_line(receiver, random);
            let level = random.pick(&[0, 0, 0, 0, 1, 2, 2, 3, 3, 4, 4, 7]);
            let rate = random.pick(&[1, 2, 4, 10]);
            let mut line = damaged(&line, row, level, rate, random);
            if random.once_in(3) {
                let (only_odd, rate) = (random.once_in(2), random.pick(&[2, 8, 30]));
                character_damage(&mut line, row, only_odd, rate, random);
            }
            line
        }
    }
}

/// A line of any length, framing now and then spoiled.
fn some_line(receiver: &Receiver, random: &mut Random) -> Vec<u8> {
    let line = line_of_45(receiver, random);
    spoiled_or_not(line, random)
}

/// A line refused by 10 or by 11, or left as it is.
pub fn spoiled_or_not(mut line: Vec<u8>, random: &mut Random) -> Vec<u8> {
    match random.below(24) {
        0 => framing_damage(&mut line, 2, 2, random),
        1 => framing_damage(&mut line, 2, 8, random),
        2..=3 => framing_damage(&mut line, 1, 1, random),
        4 | 6 => line.resize(random.pick(&[0, 1, 42, 44, 44, 46, 46, 90]), 0x55),
        5 => {
            framing_damage(&mut line, 2, 3, random);
            line.resize(random.pick(&[3, 44, 46]), 0x55);
        }
        _ => {}
    }
    line
}

/// A record to be lent: of several lengths, and of any bytes.
fn lent_record(random: &mut Random) -> Vec<u8> {
    let length = match random.below(20) {
        0 => 0,
        1..=2 => RECORD_LENGTH - 1,
        3..=4 => RECORD_LENGTH + 1,
        5 => OLD.length,
        6 => random.pick(&[1, OLD.length - 1, OLD.length + 1, RECORD_LENGTH - 2, RECORD_LENGTH + 2, 2000]),
        _ => RECORD_LENGTH,
    };
    random.bytes(length)
}

/// A packet, of any length.
fn some_packet(receiver: &Receiver, random: &mut Random) -> Vec<u8> {
    let mut packet = line_of_45(receiver, random)[3..].to_vec();
    if random.once_in(12) {
        packet.resize(random.pick(&[0, 1, 41, 43, 45]), 0x55);
    }
    packet
}

/// A run of one line, by value (l) or lent (m), or of one packet (p).
pub fn one_step(entry: char, i: u64, random: &mut Random) -> Case {
    let receiver = some_receiver(i, random);
    let record = lent_record(random);
    let bytes = if entry == 'p' { some_packet(&receiver, random) } else { some_line(&receiver, random) };
    let mut input = receiver_bytes(&receiver);
    input.extend(step(entry, &bytes));
    Case::lent('r', input, record)
}
