//! Runs around row 24: every row about it, every second message where the first is refused, row 24 over two
//! openings, and lent records of every length at a border. All are counted out.

use crate::bits::{turned, SENT};
use crate::case_forms::{LATE_CELLS, LENGTHS};
use crate::case_receivers::{lawful, other_magazine, refused_byte};
use crate::counted::{count_of, made, Maker};
use crate::packet::control_weight;
use crate::random::Random;
use crate::receiver::{new_receiver, Receiver};
use crate::record::RECORD_LENGTH;
use crate::send::*;
use crate::text::{receiver_bytes, step, Case};

/// The entries of a step.
const ENTRIES: [char; 4] = ['l', 'm', 'p', 'r'];

/// The states of a receiver: new; none open though with cells of any sort; open and clean; open and in doubt.
const STATES: u64 = 4;

/// A receiver in a state.
fn in_state(state: u64, random: &mut Random) -> Receiver {
    match state % STATES {
        0 => new_receiver(&any_selection(random)).1,
        1 => lawful(false, random),
        _ => Receiver { doubt: state % STATES == 3, ..lawful(true, random) },
    }
}

/// A step of one line by an entry: a packet where the entry takes one.
fn step_of(entry: char, line: &[u8]) -> Vec<u8> {
    step(entry, if entry == 'p' { &line[3..] } else { line })
}

/// A run of some lines, each by any entry, with a lent record of any bytes.
fn run_of(receiver: &Receiver, lines: &[Vec<u8>], random: &mut Random) -> Case {
    let mut input = receiver_bytes(receiver);
    for line in lines {
        input.extend(step_of(random.pick(&ENTRIES), line));
    }
    Case::lent('r', input, random.bytes(RECORD_LENGTH))
}

/// How the characters of a row arrive: right, some of them spoiled, all of them spoiled by one bit.
const ARRIVALS: u64 = 3;

/// A row of a magazine as it arrives.
fn row_as_it_arrives(magazine: u8, row: u8, arrival: u64, random: &mut Random) -> Vec<u8> {
    let mut line = row_line(magazine, row, &text(random));
    for byte in &mut line[5..] {
        let spoiled = arrival == 2 || (arrival == 1 && random.once_in(5));
        flip(byte, spoiled as u32, random);
    }
    line
}

/// The first of the rows looked at: from row 22 to the last that can be sent.
const FIRST_ROW: u8 = 22;
const ROWS_ABOUT: u64 = (LAST_SENT - FIRST_ROW + 1) as u64;

/// Each row about row 24, ours and another's, in each state, arriving in each manner.
fn each_row(i: u64, random: &mut Random) -> Case {
    let row = FIRST_ROW + (i % ROWS_ABOUT) as u8;
    let left = i / ROWS_ABOUT;
    let receiver = in_state(left, random);
    let ours = receiver.selection.magazine;
    let magazine = if left / STATES % 2 == 0 { ours } else { other_magazine(ours, random) };
    let line = row_as_it_arrives(magazine, row, left / STATES / 2, random);
    run_of(&receiver, &[line], random)
}

/// Each second message, exact and corrected, with the first refused, in each state; behind the address stands a
/// matching header or a row's text.
fn each_second_message(i: u64, random: &mut Random) -> Case {
    let (message, wrong) = (i % 16, i / 16 % 2);
    let receiver = in_state(i / 32, random);
    let ours = receiver.selection.magazine;
    let mut line = if random.once_in(2) {
        header_line(ours, &matching_header(&receiver.selection, random), &text(random))
    } else {
        row_line(ours, LAST_SHOWN, &text(random))
    };
    line[3] = turned(refused_byte(random));
    line[4] = turned(SENT[message as usize] ^ random.ones(wrong as u32));
    run_of(&receiver, &[line], random)
}

/// A matching header with C4 set or clear.
fn opening(receiver: &Receiver, c4: bool, random: &mut Random) -> Vec<u8> {
    let mut header = matching_header(&receiver.selection, random);
    header.control = header.control % control_weight(4) + c4 as u16 * control_weight(4);
    header_line(receiver.selection.magazine, &header, &text(random))
}

/// Two openings, each with C4 or without, each with row 24 behind it or not, and a third header: whether row 24 is
/// fresh, older, or cleared. They begin with a new receiver, with none open, and with a page open.
fn each_history(i: u64, random: &mut Random) -> Case {
    let receiver = in_state(i / 64, random);
    let mut lines = Vec::new();
    for bits in [i % 8, i / 8 % 8] {
        lines.push(opening(&receiver, bits % 2 == 1, random));
        if bits / 2 != 0 {
            let arrival = bits / 2 - 1;
            lines.push(row_as_it_arrives(receiver.selection.magazine, LAST_SHOWN, arrival, random));
        }
    }
    let third = nearly_matching_header(&receiver.selection, random);
    lines.push(header_line(receiver.selection.magazine, &third, &text(random)));
    run_of(&receiver, &lines, random)
}

/// A line for a lent record of each length: it closes the page; it is row 24; it is another magazine's; it is refused
/// by 10; by 11.
const LINES_FOR_LENGTHS: u64 = 5;

/// The line with this number.
fn line_for_a_length(which: u64, receiver: &Receiver, random: &mut Random) -> Vec<u8> {
    let ours = receiver.selection.magazine;
    let mut line = opening(receiver, random.once_in(2), random);
    match which {
        0 => {}
        1 => line = row_line(ours, LAST_SHOWN, &text(random)),
        2 => line = row_line(other_magazine(ours, random), 1, &text(random)),
        3 => line.truncate(44),
        _ => framing_damage(&mut line, 2, 3, random),
    }
    line
}

/// Lent records of each length, for each of these lines by each entry, with a page open; some receivers are
/// refused by 18, which goes before 12.
fn each_lent_length(i: u64, random: &mut Random) -> Case {
    let mut receiver = in_state(2, random);
    let line = line_for_a_length(i / 4 % LINES_FOR_LENGTHS, &receiver, random);
    if random.once_in(8) {
        receiver.marks[0] = 1;
    }
    let mut input = receiver_bytes(&receiver);
    input.extend(step_of(ENTRIES[(i % 4) as usize], &line));
    Case::lent('r', input, random.bytes(LENGTHS[(i / 4 / LINES_FOR_LENGTHS) as usize]))
}

/// What is put into a late cell: mark and character, lawful or not.
const LATE: [(u8, u8); 7] = [(3, 0x41), (0, 0x41), (4, 0x20), (2, 0x80), (0, 0xA0), (0, 0x20), (2, 0x00)];

/// Receivers whose late cells are lawful or not, open and with none open.
fn each_late_cell(i: u64, random: &mut Random) -> Case {
    let mut receiver = lawful(i % 2 == 0, random);
    let cell = LATE_CELLS[i as usize / 2 % LATE_CELLS.len()];
    (receiver.marks[cell], receiver.characters[cell]) = LATE[i as usize / 2 / LATE_CELLS.len()];
    let line = opening(&receiver, random.once_in(2), random);
    run_of(&receiver, &[line], random)
}

const COUNTED_OUT: [(u64, Maker<Case>); 5] = [
    (ROWS_ABOUT * STATES * 2 * ARRIVALS, each_row),
    (16 * 2 * STATES, each_second_message),
    (64 * STATES, each_history),
    (4 * LINES_FOR_LENGTHS * LENGTHS.len() as u64, each_lent_length),
    ((2 * LATE_CELLS.len() * LATE.len()) as u64, each_late_cell),
];

/// How many runs are made.
pub fn counted_out() -> u64 {
    count_of(&COUNTED_OUT)
}

/// The run with this number; past the last they begin again.
pub fn run(i: u64, random: &mut Random) -> Case {
    made(&COUNTED_OUT, run, i, random)
}
