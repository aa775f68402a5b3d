//! National letters, by request 4 of document 02: the letter of a code under a page's control bits, and
//! the page as UTF-8 text.

use crate::display::{display, Cell, Symbol};
use crate::packet::control_weight;
use crate::record::{COLUMNS, ROWS};

/// "Thirteen codes change their letter with C12 to C14": 23 24 40 5B 5C 5D 5E 5F 60 7B 7C 7D 7E, written as
/// the characters that they are in ASCII.
pub const THIRTEEN: &str = "#$@[\\]^_`{|}~";

/// The letters of each set at the thirteen codes, in their order; the place of a set is its value. Those that
/// look like others are written by their numbers: the dash, the double bar and the degree sign.
const SETS: [&str; 7] = [
    "£$@←½→↑#\u{2014}¼\u{2016}¾÷", // English
    "#$§ÄÖÜ^_\u{B0}äöüß",          // German
    "#¤ÉÄÖÅÜ_éäöåü",               // Swedish, Finnish, Hungarian
    "£$é\u{B0}ç→↑#ùàòèì",          // Italian
    "éïàëêùî#èâôûç",               // French
    "ç$¡áéíóú¿üñèà",               // Portuguese, Spanish
    "#ůčťžýířéáěúš",               // Czech, Slovak
];

/// The values that C12 to C14 can have, with a set or without one.
pub const VALUES: u16 = 8;

/// The most bytes that a page's text can have: lines of forty letters of three bytes, and a line feed each.
pub const LONGEST_TEXT: usize = ROWS * (COLUMNS * 3 + 1);

/// "4·C12 + 2·C13 + C14 as the standard's table prints them (not the weights of the sent message)."
pub fn value(control: u16) -> u16 {
    let c = |number| control / control_weight(number) % 2;
    4 * c(12) + 2 * c(13) + c(14)
}

/// The set of a value, if it has one.
fn set(value: u16) -> Option<&'static str> {
    SETS.get(value as usize).copied()
}

/// "A C12 to C14 value with no set there uses the English one and says so."
pub fn english_stands_in(control: u16) -> bool {
    set(value(control)).is_none()
}

/// The letter of a code. One outside the thirteen is its own letter in every set.
pub fn letter(control: u16, code: u8) -> char {
    let own = code as char;
    let national = set(value(control)).unwrap_or(SETS[0]);
    match THIRTEEN.chars().position(|one| one == own) {
        Some(place) => national.chars().nth(place).expect("a set has thirteen letters"),
        None => own,
    }
}

/// "Letters only: mosaics and 7F print "?"." Blank mosaics do too, and control codes print what they show.
fn printed(control: u16, cell: &Cell) -> char {
    match cell.symbol {
        Symbol::Mosaic { .. } | Symbol::Letter(0x7F) => '?',
        Symbol::Letter(code) => letter(control, code),
    }
}

/// A page as text: the number, whether English stands in, and the text.
pub struct Printed {
    pub number: u8,
    pub stands_in: bool,
    pub text: String,
}

/// The page's text: a line for each row, nothing trimmed, each with a line feed at its end. A page that is
/// not displayed has none, and nothing is said of its letters.
pub fn printed_page(control: u16, codes: &[u8]) -> Printed {
    let (number, cells) = display(codes);
    if number != 0 {
        return Printed { number, stands_in: false, text: String::new() };
    }
    let line = |row: &[Cell]| row.iter().map(|cell| printed(control, cell)).chain(['\n']).collect::<String>();
    Printed { number, stands_in: english_stands_in(control), text: cells.chunks(COLUMNS).map(line).collect() }
}
