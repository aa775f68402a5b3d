//! Sending: lines by the rules, damage to them, and a small broadcaster of several magazines.

use crate::bits::{character_byte, turned, FRAMING, SENT};
use crate::packet::{control_weight, zero_header, Header};
use crate::random::Random;
use crate::receiver::{Selection, TimeCode};
use crate::record::ROWS;

/// The last row that is shown, and the last that can be sent.
pub const LAST_SHOWN: u8 = ROWS as u8 - 1;
pub const LAST_SENT: u8 = 31;

/// The two address messages of a magazine and row.
pub fn address_messages(magazine: u8, row: u8) -> [u8; 2] {
    [(magazine % 8) + 8 * (row % 2), row / 2]
}

/// Is control bit Cn set? As 1 or 0.
fn c(header: &Header, n: u32) -> u8 {
    (header.control & control_weight(n) != 0) as u8
}

/// The eight messages of a header, in the order of sending.
pub fn header_messages(h: &Header) -> [u8; 8] {
    [
        h.units % 16,
        h.tens % 16,
        h.minutes_units % 16,
        (h.minutes_tens % 8) + 8 * c(h, 4),
        h.hours_units % 16,
        (h.hours_tens % 4) + 4 * c(h, 5) + 8 * c(h, 6),
        c(h, 7) + 2 * c(h, 8) + 4 * c(h, 9) + 8 * c(h, 10),
        c(h, 11) + 2 * c(h, 12) + 4 * c(h, 13) + 8 * c(h, 14),
    ]
}

/// A line: run-in, framing code, and the 42 bytes turned.
pub fn line_of(bytes: &[u8]) -> Vec<u8> {
    let mut line = vec![0xAA, 0xAA, FRAMING];
    line.extend(bytes.iter().map(|byte| turned(*byte)));
    line
}

/// The line of a row 0.
pub fn header_line(magazine: u8, header: &Header, text: &[u8]) -> Vec<u8> {
    let mut bytes: Vec<u8> = Vec::new();
    bytes.extend(address_messages(magazine, 0).iter().map(|m| SENT[*m as usize]));
    bytes.extend(header_messages(header).iter().map(|m| SENT[*m as usize]));
    bytes.extend(text[..32].iter().map(|code| character_byte(*code)));
    line_of(&bytes)
}

/// The line of a row 1 to 31.
pub fn row_line(magazine: u8, row: u8, text: &[u8]) -> Vec<u8> {
    let mut bytes: Vec<u8> = Vec::new();
    bytes.extend(address_messages(magazine, row).iter().map(|m| SENT[*m as usize]));
    bytes.extend(text[..40].iter().map(|code| character_byte(*code)));
    line_of(&bytes)
}

/// Forty characters: anything, or readable, or one character throughout.
pub fn text(random: &mut Random) -> Vec<u8> {
    let one = random.within(0, 0x7F);
    match random.below(4) {
        0 => (0..40).map(|_| random.within(0x20, 0x7F)).collect(),
        1 => vec![one; 40],
        _ => (0..40).map(|_| random.within(0, 0x7F)).collect(),
    }
}

/// A header of any page and time, with any control bits.
pub fn any_header(random: &mut Random) -> Header {
    let mut h = zero_header();
    h.tens = random.within(0, 15);
    h.units = random.within(0, 15);
    any_time(&mut h, random);
    h.control = random.below(2048) as u16;
    h
}

/// Any time a header may carry, units up to 15.
pub fn any_time(h: &mut Header, random: &mut Random) {
    h.hours_tens = random.within(0, 3);
    h.hours_units = random.within(0, 15);
    h.minutes_tens = random.within(0, 7);
    h.minutes_units = random.within(0, 15);
}

/// A header that matches a selection (cut to what a header can carry).
pub fn matching_header(selection: &Selection, random: &mut Random) -> Header {
    let mut h = any_header(random);
    h.tens = selection.tens % 16;
    h.units = selection.units % 16;
    if let Some(time) = &selection.time {
        h.hours_tens = time.hours_tens % 4;
        h.hours_units = time.hours_units % 16;
        h.minutes_tens = time.minutes_tens % 8;
        h.minutes_units = time.minutes_units % 16;
    }
    if random.once_in(3) {
        h.control = random.pick(&[0, 0x400, 0x7FF, 0x3FF]);
    }
    h
}

/// A header that differs from a matching one in exactly one part.
pub fn nearly_matching_header(selection: &Selection, random: &mut Random) -> Header {
    let mut h = matching_header(selection, random);
    let parts = if selection.time.is_some() { 6 } else { 2 };
    match random.below(parts) {
        0 => h.tens = (h.tens + random.within(1, 15)) % 16,
        1 => h.units = (h.units + random.within(1, 15)) % 16,
        2 => h.hours_tens = (h.hours_tens + random.within(1, 3)) % 4,
        3 => h.hours_units = (h.hours_units + random.within(1, 15)) % 16,
        4 => h.minutes_tens = (h.minutes_tens + random.within(1, 7)) % 8,
        _ => h.minutes_units = (h.minutes_units + random.within(1, 15)) % 16,
    }
    h
}

/// A selection in range.
pub fn any_selection(random: &mut Random) -> Selection {
    let time = TimeCode {
        hours_tens: random.within(0, 3),
        hours_units: random.within(0, 9),
        minutes_tens: random.within(0, 7),
        minutes_units: random.within(0, 9),
    };
    Selection {
        magazine: random.within(1, 8),
        tens: random.within(0, 9),
        units: random.within(0, 9),
        time: if random.once_in(2) { Some(time) } else { None },
    }
}

/// Change exactly so many bits of a byte.
pub fn flip(byte: &mut u8, count: u32, random: &mut Random) {
    *byte ^= random.ones(count);
}

/// Where the Hamming bytes of a line as sent are: the address, and in row 0 the eight after it.
fn hamming_places(row: u8) -> std::ops::Range<usize> {
    if row == 0 {
        3..13
    } else {
        3..5
    }
}

/// Where the characters of a line as sent are; rows 25 to 31 have none.
fn character_places(row: u8) -> std::ops::Range<usize> {
    match row {
        0 => 13..45,
        1..=LAST_SHOWN => 5..45,
        _ => 45..45,
    }
}

/// Wrong bits in Hamming bytes, at most so many in each, in one byte of every `rate`.
fn hamming_damage(line: &mut [u8], row: u8, most: u64, rate: u64, random: &mut Random) {
    for place in hamming_places(row) {
        if random.once_in(rate) {
            let count = random.between(1, most) as u32;
            flip(&mut line[place], count, random);
        }
    }
}

/// How many wrong bits each of the first ten bytes of a packet gets, by manner: none; one; none or one; any
/// up to three; one in one byte alone; one in all but one byte; two in one byte and none or one in the
/// others; some in the address alone; some in the eight after it alone.
fn wrong_bits_by_manner(manner: u64, random: &mut Random) -> [u32; 10] {
    let one = random.below(10) as usize;
    match manner {
        0 => [0; 10],
        1 => [1; 10],
        2 => [0; 10].map(|_| random.pick(&[0, 1])),
        3 => [0; 10].map(|_| random.pick(&[0, 1, 2, 3])),
        4 => std::array::from_fn(|place| (place == one) as u32),
        5 => std::array::from_fn(|place| (place != one) as u32),
        6 => std::array::from_fn(|place| if place == one { 2 } else { random.pick(&[0, 1]) }),
        7 => std::array::from_fn(|place| if place < 2 { random.pick(&[0, 1, 2, 3]) } else { 0 }),
        _ => std::array::from_fn(|place| if place < 2 { 0 } else { random.pick(&[0, 1, 1, 2]) }),
    }
}

/// Exact, corrected and refused bytes in every mix, where the Hamming bytes of a row 0 are. In other rows
/// only the address is spoiled, save in one of four.
pub fn mixed_damage(line: &mut [u8], row: u8, random: &mut Random) {
    let manner = random.below(9);
    let spoiled = if row == 0 || random.once_in(4) { 10 } else { 2 };
    let counts = wrong_bits_by_manner(manner, random);
    for (byte, count) in line[3..13].iter_mut().zip(counts).take(spoiled) {
        flip(byte, count, random);
    }
}

/// Wrong bits in characters: an odd number of them, or any number, in one byte of every `rate`.
pub fn character_damage(line: &mut [u8], row: u8, only_odd: bool, rate: u64, random: &mut Random) {
    for place in character_places(row) {
        if random.once_in(rate) {
            let count = if only_odd { random.pick(&[1, 1, 3, 5, 7]) } else { random.between(1, 8) as u32 };
            flip(&mut line[place], count, random);
        }
    }
}

/// Wrong bits in the framing code, at least `least` and at most `most`.
pub fn framing_damage(line: &mut [u8], least: u64, most: u64, random: &mut Random) {
    let count = random.between(least, most) as u32;
    flip(&mut line[2], count, random);
}

/// The address messages refused: two wrong bits in the first, the second or both.
fn address_damage(line: &mut [u8], random: &mut Random) {
    let which = random.below(3);
    if which != 1 {
        flip(&mut line[3], 2, random);
    }
    if which != 0 {
        flip(&mut line[4], 2, random);
    }
}

pub const LEVELS: u64 = 9;

/// A line as received. Levels: 0 none; 1 within damage 1, characters right; 2 within damage 1;
/// 3 within damage 2; 4 past it; 5 framing spoiled; 6 lines of random bytes; 7 addresses
/// refused; 8 any of these, line by line.
pub fn damaged(line: &[u8], row: u8, level: u64, rate: u64, random: &mut Random) -> Vec<u8> {
    let mut out = line.to_vec();
    if (1..=4).contains(&level) {
        let most = [0, 1, 1, 2, 8][level as usize];
        hamming_damage(&mut out, row, most, rate, random);
        framing_damage(&mut out, 0, 1, random);
        let run_in = random.bytes(2);
        out[..2].copy_from_slice(&run_in);
    }
    match level {
        2 | 3 => character_damage(&mut out, row, true, rate * 20, random),
        4 => character_damage(&mut out, row, false, rate * 10, random),
        5 if random.once_in(rate) => framing_damage(&mut out, 2, 8, random),
        6 if random.once_in(rate) => out = random.bytes(45),
        7 if random.once_in(rate) => address_damage(&mut out, random),
        8 => {
            let one = random.below(8);
            return damaged(line, row, one, rate, random);
        }
        _ => {}
    }
    out
}

/// A broadcaster: for each magazine what it will send next, in order.
pub struct Broadcaster {
    selection: Selection,
    magazines: Vec<u8>,
    waiting: Vec<Vec<(u8, Vec<u8>)>>,
    texts: Vec<Vec<u8>>,
    most_rows: u64,
    again: Vec<(u8, Vec<u8>)>,
    how_often_again: u64,
}

impl Broadcaster {
    /// Our magazine, and up to three others that may be ours again.
    pub fn new(selection: &Selection, most_rows: u64, random: &mut Random) -> Broadcaster {
        let mut magazines = vec![selection.magazine];
        for _ in 0..random.below(4) {
            magazines.push(random.within(1, 8));
        }
        magazines.sort();
        magazines.dedup();
        let waiting = vec![Vec::new(); magazines.len()];
        let texts = (0..4).map(|_| text(random)).collect();
        let (again, how_often_again) = (Vec::new(), random.pick(&[2, 4, 8, 8]));
        let selection = selection.clone();
        let mut broadcaster =
            Broadcaster { selection, magazines, waiting, texts, most_rows, again, how_often_again };
        broadcaster.again = broadcaster.selected_page(random);
        broadcaster
    }

    /// The selected page, to be sent again and again without a change.
    fn selected_page(&self, random: &mut Random) -> Vec<(u8, Vec<u8>)> {
        let header = matching_header(&self.selection, random);
        self.page(self.selection.magazine, &header, random)
    }

    /// A text: one of a few that come again and again, or a new one.
    fn some_text(&self, random: &mut Random) -> Vec<u8> {
        if random.once_in(2) {
            self.texts[random.below(4) as usize].clone()
        } else {
            text(random)
        }
    }

    /// The header of a magazine's next page: the selected one again and again, and others.
    fn next_header(&self, random: &mut Random) -> Header {
        match random.below(8) {
            0..=3 => matching_header(&self.selection, random),
            4..=5 => nearly_matching_header(&self.selection, random),
            _ => any_header(random),
        }
    }

    /// The rows of a page: in order or in any order, some of them twice, now and then row 24 behind them and
    /// one of 25 to 31.
    fn next_rows(&self, random: &mut Random) -> Vec<u8> {
        let count = random.below(self.most_rows + 1);
        let mut rows: Vec<u8> = (0..count).map(|_| random.within(1, LAST_SHOWN)).collect();
        if random.once_in(2) {
            rows.sort();
        }
        if random.once_in(3) {
            rows.push(LAST_SHOWN);
        }
        if random.once_in(3) {
            rows.push(random.within(LAST_SHOWN + 1, LAST_SENT));
        }
        rows
    }

    /// The next page of a magazine: now and then the selected one as it was sent before.
    fn next_page(&self, magazine: u8, random: &mut Random) -> Vec<(u8, Vec<u8>)> {
        if magazine == self.selection.magazine && random.once_in(self.how_often_again) {
            return self.again.clone();
        }
        let header = self.next_header(random);
        self.page(magazine, &header, random)
    }

    /// A page: its header and its rows, with their row numbers.
    fn page(&self, magazine: u8, header: &Header, random: &mut Random) -> Vec<(u8, Vec<u8>)> {
        let mut lines = vec![(0, header_line(magazine, header, &self.some_text(random)))];
        for row in self.next_rows(random) {
            lines.push((row, row_line(magazine, row, &self.some_text(random))));
        }
        lines
    }

    /// The next line sent, with its row number: of any magazine, pages interleaved.
    pub fn next_line(&mut self, random: &mut Random) -> (u8, Vec<u8>) {
        let ours = self.magazines.iter().position(|m| *m == self.selection.magazine);
        let any = random.below(self.magazines.len() as u64) as usize;
        let which = if random.once_in(2) { ours.unwrap_or(any) } else { any };
        if self.waiting[which].is_empty() {
            self.waiting[which] = self.next_page(self.magazines[which], random);
        }
        self.waiting[which].remove(0)
    }
}
