//! Cases of sorts n (data-lines), a (packets) and s (selections).

use crate::bits::FRAMING;
use crate::random::Random;
use crate::receiver::{Selection, TimeCode};
use crate::send::{any_header, any_selection, flip, header_line, row_line, text};
use crate::text::selection_bytes;

/// A line of so many bytes, its framing code (where there is one) with so many wrong bits.
fn line_with_framing(length: usize, wrong: u32, random: &mut Random) -> Vec<u8> {
    let mut line = random.bytes(length);
    if length > 2 {
        line[2] = FRAMING ^ random.ones(wrong);
    }
    line
}

/// Sort n: good lines, framing with wrong bits, wrong lengths, random lines.
pub fn data_line(i: u64, random: &mut Random) -> Vec<u8> {
    match i % 16 {
        0 => line_with_framing(45, 0, random),
        1..=4 => line_with_framing(45, 1, random),
        5..=7 => line_with_framing(45, 2, random),
        8 => line_with_framing(45, 3, random),
        9 => {
            let wrong = random.between(0, 8) as u32;
            line_with_framing(45, wrong, random)
        }
        10 => {
            let mut line = line_with_framing(45, 0, random);
            line[2] = random.pick(&[0x27, 0x1B, 0xE5, 0xE7, 0x26, 0xD8, 0x00, 0xFF]);
            line
        }
        11..=12 => random.bytes(45),
        13 => {
            let length = random.pick(&[0, 1, 2, 3, 42, 43, 44, 46, 47, 90, 255]);
            line_with_framing(length, 0, random)
        }
        14 => {
            let length = random.pick(&[44, 46]);
            let wrong = random.between(0, 3) as u32;
            line_with_framing(length, wrong, random)
        }
        _ => {
            let length = random.below(120) as usize;
            random.bytes(length)
        }
    }
}

/// A packet by the rules: the header of a row 0, or a row, of every magazine in turn.
fn packet_by_the_rules(i: u64, random: &mut Random) -> Vec<u8> {
    let magazine = (i % 8 + 1) as u8;
    let row = if random.once_in(3) { 0 } else { random.within(0, 31) };
    let line = if row == 0 {
        header_line(magazine, &any_header(random), &text(random))
    } else {
        row_line(magazine, row, &text(random))
    };
    line[3..].to_vec()
}

/// Wrong bits in the first ten bytes: each with 0, 1, 2 or any number of them.
fn spoil_hamming_bytes(packet: &mut [u8], random: &mut Random) {
    let rate = random.pick(&[1, 2, 4, 10]);
    let most = random.pick(&[1, 2, 2, 8]);
    for place in 0..10 {
        if random.once_in(rate) {
            let count = random.between(1, most) as u32;
            flip(&mut packet[place], count, random);
        }
    }
}

/// Exactly one of the first ten bytes spoiled, in so many bits.
fn spoil_one(packet: &mut [u8], i: u64, random: &mut Random) {
    let count = random.between(1, 3) as u32;
    flip(&mut packet[(i % 10) as usize], count, random);
}

/// Sort a: packets by the rules, spoiled, random, and of wrong lengths.
pub fn packet(i: u64, random: &mut Random) -> Vec<u8> {
    let mut packet = packet_by_the_rules(i / 10, random);
    match i % 10 {
        0..=1 => {}
        2..=3 => spoil_one(&mut packet, i / 10, random),
        4 => spoil_one(&mut packet, random.below(2), random),
        5 => {
            flip(&mut packet[0], 2, random);
            flip(&mut packet[1], random.pick(&[0, 1, 2, 2, 4]), random);
        }
        6..=7 => spoil_hamming_bytes(&mut packet, random),
        8 => packet = random.bytes(42),
        _ => {
            let length = random.pick(&[0, 1, 2, 10, 40, 41, 41, 42, 43, 43, 44, 45, 84]);
            packet.resize(length, 0x40);
        }
    }
    packet
}

/// One part of a selection just out of range, at its edge, or far out.
fn selection_with_edge(part: u64, random: &mut Random) -> Selection {
    let mut selection = any_selection(random);
    let mut time = selection.time.unwrap_or(TimeCode {
        hours_tens: 3,
        hours_units: 9,
        minutes_tens: 7,
        minutes_units: 9,
    });
    match part {
        0 => selection.magazine = random.pick(&[0, 1, 8, 9, 10, 16, 127, 128, 255]),
        1 => selection.tens = random.pick(&[0, 9, 10, 15, 16, 255]),
        2 => selection.units = random.pick(&[0, 9, 10, 15, 16, 255]),
        3 => time.hours_tens = random.pick(&[0, 3, 4, 5, 7, 255]),
        4 => time.hours_units = random.pick(&[0, 9, 10, 15, 16, 255]),
        5 => time.minutes_tens = random.pick(&[0, 5, 6, 7, 8, 9, 255]),
        _ => time.minutes_units = random.pick(&[0, 9, 10, 15, 16, 255]),
    }
    if part >= 3 || selection.time.is_some() {
        selection.time = Some(time);
    }
    selection
}

/// A selection of any eight bytes.
fn selection_of_anything(random: &mut Random) -> Selection {
    let mut selection = any_selection(random);
    selection.magazine = random.byte();
    selection.tens = random.byte();
    selection.units = random.byte();
    if let Some(time) = &mut selection.time {
        time.hours_tens = random.byte();
        time.hours_units = random.byte();
        time.minutes_tens = random.byte();
        time.minutes_units = random.byte();
    }
    selection
}

/// Sort s: selections in range, one part at an edge, two parts, anything.
pub fn selection(i: u64, random: &mut Random) -> Vec<u8> {
    let selection = match i % 10 {
        0..=1 => any_selection(random),
        2..=8 => selection_with_edge(i % 10 - 2, random),
        _ => selection_of_anything(random),
    };
    selection_bytes(&selection)
}
