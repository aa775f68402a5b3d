//! Cases of sorts i (a number's UTF-8 form), c (a code's letter) and o (a page as text). Those that are
//! counted out are made in every run; the others are random.

use crate::case_pages::{last_rows, lawful_page, page, spoil, SETS_OF_LAST_ROWS, SPOILINGS};
use crate::counted::{count_of, made};
use crate::national::{letter, THIRTEEN, VALUES};
use crate::random::Random;
use crate::record::{CELLS, COLUMNS, ROWS};

/// A maker of inputs, by their number.
type Maker = crate::counted::Maker<Vec<u8>>;

/// One of the thirteen codes.
fn national_code(random: &mut Random) -> u8 {
    random.pick(THIRTEEN.as_bytes())
}

/// Any code, the thirteen as often as all others.
fn some_code(random: &mut Random) -> u8 {
    if random.once_in(2) {
        national_code(random)
    } else {
        random.byte()
    }
}

/// CONTROL with this value and any other bits, those above C4 too.
fn control_with(value: u16, random: &mut Random) -> [u8; 2] {
    (random.next() as u16 / VALUES * VALUES + value).to_be_bytes()
}

/// CONTROL with any value.
fn some_control(random: &mut Random) -> [u8; 2] {
    let value = random.below(VALUES as u64) as u16;
    control_with(value, random)
}

/// The last numbers of each form's length, before the surrogates, of these and of all, and the first ones after
/// them.
const BORDERS: [u32; 14] = [
    0, 0x7F, 0x80, 0x7FF, 0x800, 0xD7FF, 0xD800, 0xDFFF, 0xE000, 0xFFFF, 0x1_0000, 0x10_FFFF, 0x11_0000, 0xFFFF_FFFF,
];

/// Every border and its neighbours; before 0 comes the largest number.
fn each_border(i: u64, _: &mut Random) -> Vec<u8> {
    let border = BORDERS[(i / 3) as usize];
    let number = border.wrapping_add((i % 3) as u32).wrapping_sub(1);
    number.to_be_bytes().to_vec()
}

/// Every bit alone, every bit with all below it, and every bit beside the A, which a number cut short would be.
fn each_bit_of_a_number(i: u64, _: &mut Random) -> Vec<u8> {
    let bit = 1u32 << (i / 3);
    let number = match i % 3 {
        0 => bit,
        1 => bit | (bit - 1),
        _ => bit | 0x41,
    };
    number.to_be_bytes().to_vec()
}

/// Every letter of every value.
fn each_letter(i: u64, _: &mut Random) -> Vec<u8> {
    let code = THIRTEEN.as_bytes()[(i % 13) as usize];
    (letter((i / 13) as u16, code) as u32).to_be_bytes().to_vec()
}

/// Numbers of none to three bytes: the rest is zeros.
fn each_short_number(i: u64, _: &mut Random) -> Vec<u8> {
    [0x00, 0x10, 0xFF][..i as usize].to_vec()
}

const NUMBERS: [(u64, Maker); 4] = [
    (3 * BORDERS.len() as u64, each_border),
    (3 * 32, each_bit_of_a_number),
    (13 * VALUES as u64, each_letter),
    (4, each_short_number),
];

/// Numbers of each form's length, surrogates, and numbers past the last one, near it and far.
fn some_number(i: u64, random: &mut Random) -> Vec<u8> {
    let largest = random.pick(&[0x1F_FFFF, 0x3FF_FFFF, 0x7FFF_FFFF, 0xFFFF_FFFF]);
    let number = match i % 8 {
        0 => random.between(0, 0x7F),
        1 => random.between(0x80, 0x7FF),
        2 | 3 => random.between(0x800, 0xFFFF),
        4 | 5 => random.between(0x1_0000, 0x10_FFFF),
        6 => random.between(0xD800, 0xDFFF),
        _ => random.between(0x11_0000, largest),
    };
    (number as u32).to_be_bytes().to_vec()
}

/// How many numbers are counted out.
pub fn numbers_counted_out() -> u64 {
    count_of(&NUMBERS)
}

/// Sort i.
pub fn number(i: u64, random: &mut Random) -> Vec<u8> {
    made(&NUMBERS, some_number, i, random)
}

/// Every code under every value.
fn each_code(i: u64, random: &mut Random) -> Vec<u8> {
    let [high, low] = control_with((i / 256) as u16, random);
    vec![high, low, i as u8]
}

/// Every control bit set alone and clear alone, with those above C4.
fn each_control_bit(i: u64, random: &mut Random) -> Vec<u8> {
    let alone = 1u16 << (i / 2);
    let [high, low] = if i % 2 == 0 { alone } else { !alone }.to_be_bytes();
    vec![high, low, national_code(random)]
}

/// Inputs of none to two bytes: the rest is zeros.
fn each_short_code(i: u64, _: &mut Random) -> Vec<u8> {
    [0x07, 0x07][..i as usize].to_vec()
}

const CODES: [(u64, Maker); 3] = [(256 * VALUES as u64, each_code), (2 * 16, each_control_bit), (3, each_short_code)];

/// Any code under any control bits.
fn some_letter(_: u64, random: &mut Random) -> Vec<u8> {
    let [high, low] = some_control(random);
    vec![high, low, some_code(random)]
}

/// How many codes are counted out.
pub fn codes_counted_out() -> u64 {
    count_of(&CODES)
}

/// Sort c.
pub fn code(i: u64, random: &mut Random) -> Vec<u8> {
    made(&CODES, some_letter, i, random)
}

/// Rows of codes, each filled with spaces, and rows of spaces after the last.
fn page_of(rows: &[Vec<u8>]) -> Vec<u8> {
    let filled = |row: usize| {
        let mut codes = rows.get(row).cloned().unwrap_or_default();
        codes.resize(COLUMNS, 0x20);
        codes
    };
    (0..ROWS).flat_map(filled).collect()
}

/// A page of these codes, one after the other and again: thirteen stand one column further in each row.
fn page_full_of(codes: &[u8]) -> Vec<u8> {
    codes.iter().copied().cycle().take(CELLS).collect()
}

/// The codes whose letters have the longest form in the set of a value: in English and Italian the arrows are
/// among them.
fn longest_codes(value: u16) -> Vec<u8> {
    let length = |code: &u8| letter(value, *code).len_utf8();
    let longest = THIRTEEN.as_bytes().iter().map(length).max();
    THIRTEEN.bytes().filter(|code| Some(length(code)) == longest).collect()
}

/// Under every value a page full of the thirteen, one of the longest text, and that one with a single letter of
/// one byte, at the end.
fn each_full_page(i: u64, random: &mut Random) -> Vec<u8> {
    let value = (i / 3) as u16;
    let mut codes = page_full_of(&longest_codes(value));
    match i % 3 {
        0 => codes = page_full_of(THIRTEEN.as_bytes()),
        1 => {}
        _ => codes[CELLS - 1] = 0x41,
    }
    [&control_with(value, random)[..], &codes].concat()
}

/// National letters among codes that conceal, flash, box, colour and change size and hold, but for 0D.
const AMONG_CONTROL_CODES: [u8; 36] = [
    0x18, 0x23, 0x24, 0x08, 0x40, 0x0B, 0x0B, 0x5B, 0x5C, 0x1D, 0x5D, 0x01, 0x5E, 0x1C, 0x5F, 0x0A, 0x0A, 0x60, 0x09,
    0x7B, 0x0C, 0x7C, 0x1A, 0x7D, 0x1E, 0x00, 0x7E, 0x11, 0x1F, 0x5B, 0x5F, 0x00, 0x20, 0x02, 0x7F, 0x7E,
];

/// Every code from 20 on in three rows, each begun by the same codes.
fn every_code_after(start: &[u8]) -> Vec<Vec<u8>> {
    [0x20, 0x40, 0x60].map(|first| start.iter().copied().chain(first..first + 0x20).collect()).to_vec()
}

/// Eight control codes, each where a mosaic is held.
fn held_at(first: u8) -> Vec<u8> {
    (first..first + 8).flat_map(|code| [0x16, 0x7B, 0x1E, code]).collect()
}

/// Under every value a page of all codes: in letters, in mosaics, in headlines of both, and control codes that
/// show a held mosaic. 0D is on row 22; below it and below the headlines stand letters that are not shown. Row 24
/// has national letters and held mosaics, 0D among them.
fn each_page_of_all_codes(i: u64, random: &mut Random) -> Vec<u8> {
    let not_shown = page_full_of(THIRTEEN.as_bytes())[..COLUMNS].to_vec();
    let mut rows = every_code_after(&[0x03]);
    rows.extend(every_code_after(&[0x13]));
    for headline in [every_code_after(&[0x0D]), every_code_after(&[0x0D, 0x14])].concat() {
        rows.extend([headline, not_shown.clone()]);
    }
    rows.extend([held_at(0x00), held_at(0x10), held_at(0x18), AMONG_CONTROL_CODES.to_vec(), held_at(0x08), not_shown]);
    rows.push([THIRTEEN.as_bytes(), &held_at(0x08)].concat());
    [&control_with(i as u16, random)[..], &page_of(&rows)].concat()
}

/// 0D on every set of the last rows, among national letters.
fn each_set_of_last_rows(i: u64, random: &mut Random) -> Vec<u8> {
    let mut codes = last_rows(i, 0, random);
    put_national_codes(&mut codes, random);
    [&some_control(random)[..], &codes].concat()
}

/// A page refused in every manner, with value 7 and with one that has a set.
fn each_refused_page(i: u64, random: &mut Random) -> Vec<u8> {
    let value = if i % 2 == 0 { 7 } else { random.below(7) as u16 };
    let mut codes = page_full_of(THIRTEEN.as_bytes());
    spoil(&mut codes, i / 2, random);
    [&control_with(value, random)[..], &codes].concat()
}

/// Inputs that end within CONTROL.
fn each_short_page(i: u64, _: &mut Random) -> Vec<u8> {
    [0x07][..i as usize].to_vec()
}

const PAGES: [(u64, Maker); 5] = [
    (3 * VALUES as u64, each_full_page),
    (VALUES as u64, each_page_of_all_codes),
    (SETS_OF_LAST_ROWS, each_set_of_last_rows),
    (2 * SPOILINGS, each_refused_page),
    (2, each_short_page),
];

/// Of the codes that are not control codes all, some or none become national ones; one past 7F stays.
fn put_national_codes(codes: &mut [u8], random: &mut Random) {
    let once_in = random.pick(&[1, 2, 5, 1000]);
    for code in codes.iter_mut().filter(|code| (0x20..=0x7F).contains(*code)) {
        if random.once_in(once_in) {
            *code = national_code(random);
        }
    }
}

/// The codes of a page with national ones among them.
pub fn lawful_national_page(i: u64, random: &mut Random) -> Vec<u8> {
    let mut codes = lawful_page(i, random);
    put_national_codes(&mut codes, random);
    codes
}

/// A page of any sort; of twenty one is refused.
fn some_page(i: u64, random: &mut Random) -> Vec<u8> {
    let mut codes = page(i, random);
    put_national_codes(&mut codes, random);
    [&some_control(random)[..], &codes].concat()
}

/// How many pages are counted out.
pub fn pages_counted_out() -> u64 {
    count_of(&PAGES)
}

/// Sort o.
pub fn page_as_text(i: u64, random: &mut Random) -> Vec<u8> {
    made(&PAGES, some_page, i, random)
}
