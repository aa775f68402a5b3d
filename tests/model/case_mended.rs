//! Runs whose Hamming bytes are mended. Some are counted out, and made whatever COUNT is: every pair of
//! address bytes, and every mix of exact, corrected and refused control bytes. They are recordings whose
//! lines all have one count, so that the sums tell it of each line. The others are random.

use crate::bits::{decode, turned, Decoded, SENT};
use crate::case_receivers::*;
use crate::counted::{count_of, made, Maker};
use crate::packet::{address, Address};
use crate::random::Random;
use crate::receiver::{new_receiver, Receiver, Selection};
use crate::record::{OLD, RECORD_LENGTH};
use crate::send::{address_messages, any_selection, line_of, LAST_SHOWN};
use crate::text::{receiver_bytes, step, Case};

/// A line that is to have so many mended bytes.
type Counted = (usize, Vec<u8>);

/// Is a byte corrected?
fn corrected(byte: &u8) -> bool {
    matches!(decode(*byte), Decoded::Corrected { .. })
}

/// A corrected byte: any of the 128.
fn corrected_byte(random: &mut Random) -> u8 {
    SENT[random.below(16) as usize] ^ random.ones(1)
}

/// A line of these address bytes, these eight after them, and any text.
fn line_with(pair: (u8, u8), eight: &[u8], random: &mut Random) -> Vec<u8> {
    let mut bytes = vec![pair.0, pair.1];
    bytes.extend(eight);
    bytes.extend(random.bytes(32));
    line_of(&bytes)
}

/// A run of recordings: one for each stretch of lines that have one count.
fn recordings(receiver: &Receiver, lines: &[Counted], random: &mut Random) -> Case {
    let mut input = receiver_bytes(receiver);
    for stretch in lines.chunk_by(|one, next| one.0 == next.0) {
        let recording: Vec<u8> = stretch.iter().flat_map(|(_, line)| line.clone()).collect();
        input.extend(step('r', &recording));
    }
    Case::lent('r', input, random.bytes(RECORD_LENGTH))
}

/// The part with this number of a list that is shared out over so many cases.
fn part<T>(list: &[T], i: u64, cases: u64) -> &[T] {
    list.chunks(list.len().div_ceil(cases as usize)).nth(i as usize).unwrap_or_default()
}

/// Every pair of bytes, by how many of the two are corrected. 128 bytes are, and 128 are not.
fn pairs() -> Vec<(usize, (u8, u8))> {
    let (mended, others): (Vec<u8>, Vec<u8>) = (0..=255).partition(corrected);
    let mut out = Vec::new();
    for (count, firsts, seconds) in
        [(0, &others, &others), (1, &mended, &others), (1, &others, &mended), (2, &mended, &mended)]
    {
        out.extend(firsts.iter().flat_map(|first| seconds.iter().map(move |second| (count, (*first, *second)))));
    }
    out
}

/// What a pair tells as an address.
fn address_of(pair: (u8, u8)) -> Address {
    address(&[turned(pair.0), turned(pair.1)])
}

/// Every pair of address bytes, with none open. Behind the address stand eight corrected bytes, of which
/// none is examined; in row 0 of ours, where they would be, the exact ones of a page that nobody can select.
fn each_pair(i: u64, random: &mut Random) -> Case {
    let selection = any_selection(random);
    let our_row_0 = Address::Whole { magazine: 8, row: 0 };
    let line = |(count, pair): &(usize, (u8, u8))| {
        let ours = address_of(*pair) == our_row_0;
        let eight = [0; 8].map(|_| if ours { SENT[15] } else { corrected_byte(random) });
        (*count, line_with(*pair, &eight, random))
    };
    let lines: Vec<Counted> = part(&pairs(), i, CASES_OF_PAIRS).iter().map(line).collect();
    recordings(&new_receiver(&Selection { magazine: 8, ..selection }).1, &lines, random)
}

/// Every pair that is the address of a row 1 to 24 of ours, with a page open: lines of kind 1, so that the
/// sum over the page's own lines tells them.
fn each_stored_pair(i: u64, random: &mut Random) -> Case {
    let mut receiver = lawful(true, random);
    receiver.selection.magazine = 1;
    let mut stored = pairs();
    stored.retain(|(_, pair)| matches!(address_of(*pair), Address::Whole { magazine: 1, row: 1..=LAST_SHOWN }));
    let line = |(count, pair): &(usize, (u8, u8))| {
        let eight = [0; 8].map(|_| corrected_byte(random));
        (*count, line_with(*pair, &eight, random))
    };
    let lines: Vec<Counted> = part(&stored, i, CASES_OF_STORED_PAIRS).iter().map(line).collect();
    recordings(&receiver, &lines, random)
}

/// Every mix of eight bytes that are exact (0), corrected (1) or refused (2), by how many are corrected.
fn mixes() -> Vec<[u8; 8]> {
    let digits = |number: u32| std::array::from_fn(|place| (number / 3u32.pow(place as u32) % 3) as u8);
    let mut out: Vec<[u8; 8]> = (0..3u32.pow(8)).map(digits).collect();
    out.sort_by_key(|mix| mix.iter().filter(|wrong| **wrong == 1).count());
    out
}

/// A row 0 with this mix of control bytes, by how many are corrected. The page's tens are 15, so that nobody
/// can select it. Of four stretches one has a wrong bit in both address bytes too, and two in one of them.
fn mixed_row_0(mix: &[u8; 8], magazine: u8, random: &mut Random) -> Counted {
    let count = mix.iter().filter(|wrong| **wrong == 1).count();
    let [first, second] = address_messages(magazine, 0);
    let mut spoiled = |message: u8, wrong: u8| SENT[message as usize] ^ random.ones(wrong as u32);
    let pair = (spoiled(first, count as u8 % 2), spoiled(second, count as u8 / 2 % 2));
    let tens = spoiled(15, mix[1]);
    let mut eight = mix.map(|wrong| SENT[random.below(16) as usize] ^ random.ones(wrong as u32));
    eight[1] = tens;
    (count, line_with(pair, &eight, random))
}

/// Every mix of control bytes in a row 0 of this magazine, with none open. Ours is 5.
fn each_mix(i: u64, magazine: u8, random: &mut Random) -> Case {
    let selection = Selection { magazine: 5, ..any_selection(random) };
    let line = |mix: &[u8; 8]| mixed_row_0(mix, magazine, random);
    let lines: Vec<Counted> = part(&mixes(), i, CASES_OF_MIXES).iter().map(line).collect();
    recordings(&new_receiver(&selection).1, &lines, random)
}

/// How many cases each of these fills: a case has room for 1,411 lines.
const CASES_OF_PAIRS: u64 = 64;
const CASES_OF_STORED_PAIRS: u64 = 2;
const CASES_OF_MIXES: u64 = 6;

/// What is counted out: how many cases, and their maker.
const COUNTED_OUT: [(u64, Maker<Case>); 4] = [
    (CASES_OF_PAIRS, each_pair),
    (CASES_OF_STORED_PAIRS, each_stored_pair),
    (CASES_OF_MIXES, |i, random| each_mix(i, 5, random)),
    (CASES_OF_MIXES, |i, random| each_mix(i, 6, random)),
];

/// How many runs are counted out.
pub fn counted_out() -> u64 {
    count_of(&COUNTED_OUT)
}

/// A receiver of any state; one in eight is not lawful, so that its lines are refused by 18.
fn some_receiver(i: u64, random: &mut Random) -> Receiver {
    match i % 8 {
        0..=1 => new_receiver(&any_selection(random)).1,
        2 => reached(true, false, random),
        3 => reached(true, true, random),
        4 => reached(false, false, random),
        5 => lawful(true, random),
        6 => lawful(false, random),
        _ => spoiled(random),
    }
}

/// Up to eight lines end to end, now and then one of them refused, or the last cut short.
fn some_recording(receiver: &Receiver, random: &mut Random) -> Vec<u8> {
    let mut recording = Vec::new();
    for _ in 0..random.below(9) {
        let mut line = mixed_line(receiver, random);
        if random.once_in(20) {
            line[2] ^= random.ones(2);
        }
        recording.extend(line);
    }
    if random.once_in(6) {
        recording.truncate(recording.len().saturating_sub(random.pick(&[1, 2, 42, 44])));
    }
    recording
}

/// One step by any of the entries.
fn some_step(receiver: &Receiver, random: &mut Random) -> Vec<u8> {
    match random.pick(&['l', 'm', 'p', 'r', 'r']) {
        'r' => step('r', &some_recording(receiver, random)),
        'p' => {
            let mut packet = mixed_line(receiver, random)[3..].to_vec();
            if random.once_in(16) {
                packet.resize(random.pick(&[0, 2, 10, 41, 43]), 0x55);
            }
            step('p', &packet)
        }
        entry => {
            let line = mixed_line(receiver, random);
            step(entry, &spoiled_or_not(line, random))
        }
    }
}

/// Any steps, fewer where all are refused: by 18, or by 12 for the lent record.
fn some_run(i: u64, random: &mut Random) -> Case {
    let receiver = some_receiver(i, random);
    let too_short = random.once_in(8);
    let long_enough = random.pick(&[RECORD_LENGTH, RECORD_LENGTH, RECORD_LENGTH + 1]);
    let record = if too_short { random.pick(&[0, OLD.length, RECORD_LENGTH - 1]) } else { long_enough };
    let steps = if too_short || i % 8 == 7 { random.between(2, 6) } else { random.between(12, 30) };
    let mut input = receiver_bytes(&receiver);
    for _ in 0..steps {
        input.extend(some_step(&receiver, random));
    }
    Case::lent('r', input, random.bytes(record))
}

/// First those that are counted out, then random ones.
pub fn run(i: u64, random: &mut Random) -> Case {
    made(&COUNTED_OUT, some_run, i, random)
}
