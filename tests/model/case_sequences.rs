//! Runs of many steps: lines one by one, and recordings.

use crate::random::Random;
use crate::receiver::{new_receiver, Selection};
use crate::record::{OLD, RECORD_LENGTH};
use crate::recording::play;
use crate::send::{any_selection, damaged, Broadcaster, LEVELS};
use crate::text::{receiver_bytes, step, Case, LONGEST};

/// So many received lines of a broadcast, with one level of damage.
fn received(selection: &Selection, count: u64, level: u64, random: &mut Random) -> Vec<Vec<u8>> {
    let most_rows = random.pick(&[1, 3, 6, 12, 25]);
    let rate = random.pick(&[3, 8, 20, 60]);
    let mut broadcaster = Broadcaster::new(selection, most_rows, random);
    let mut lines = Vec::new();
    for _ in 0..count {
        let (row, sent) = broadcaster.next_line(random);
        lines.push(damaged(&sent, row, level, rate, random));
    }
    lines
}

/// A record to be lent, now and then too short, of any bytes.
fn some_record(random: &mut Random) -> Vec<u8> {
    let length = match random.below(20) {
        0 => random.pick(&[0, OLD.length, RECORD_LENGTH - 1]),
        1..=3 => random.pick(&[RECORD_LENGTH + 1, RECORD_LENGTH + 5, RECORD_LENGTH + 15]),
        _ => RECORD_LENGTH,
    };
    random.bytes(length)
}

/// The entry of a line, or of its packet where the line has one.
fn entry(mixed: bool, line: &[u8], random: &mut Random) -> char {
    match random.below(3) {
        1 if mixed => 'm',
        2 if mixed && line.len() == 45 => 'p',
        _ => 'l',
    }
}

/// Up to 60 lines, some of wrong lengths in between; in one run of four by all of the entries.
pub fn lines(i: u64, random: &mut Random) -> Case {
    let selection = any_selection(random);
    let record = some_record(random);
    let mut input = receiver_bytes(&new_receiver(&selection).1);
    let count = if i % 40 == 39 { random.below(3) } else { random.between(20, 60) };
    let wrong_lengths = random.once_in(3);
    let mixed = random.once_in(4);
    for mut line in received(&selection, count, i % LEVELS, random) {
        if wrong_lengths && random.once_in(10) {
            line.resize(random.pick(&[0, 1, 42, 44, 46, 90]), 0);
        }
        let entry = entry(mixed, &line, random);
        input.extend(step(entry, if entry == 'p' { &line[3..] } else { &line }));
    }
    Case::lent('r', input, record)
}

/// A recording of up to 200 lines end to end, the last now and then cut short; at each stop what is left is played again, while there is room.
pub fn recording(i: u64, random: &mut Random) -> Case {
    let selection = any_selection(random);
    let record = some_record(random);
    let mut receiver = new_receiver(&selection).1;
    let mut input = receiver_bytes(&receiver);
    let count = if i % 20 == 19 { random.below(2) } else { random.between(40, 200) };
    let mut left: Vec<u8> = received(&selection, count, i % LEVELS, random).concat();
    if random.once_in(3) && count > 0 {
        let cut = random.pick(&[1, 2, 3, 42, 43, 44]);
        left.truncate(left.len() - cut);
    }
    let mut played_into = record.clone();
    while input.len() + 3 + left.len() <= LONGEST {
        input.extend(step('r', &left));
        let played = play(&mut receiver, &mut played_into, &left);
        if played.stop.is_none() {
            break;
        }
        left = left[std::cmp::min(left.len(), 45 * played.lines)..].to_vec();
    }
    Case::lent('r', input, record)
}
