//! The makers of cases, and how many cases each makes. A maker's letter is the sort that it makes, or, of the runs
//! (sort r), the entry of their steps. Five letters are neither: e makes runs of lines one by one, and so h (for
//! Hamming) makes sort e; c makes runs by all entries whose Hamming bytes are corrected, and so v (for the value of
//! C12 to C14) makes sort c; x makes runs by all entries around row 24, the extra one.

use crate::random::Random;
use crate::text::Case;
use crate::{
    case_fields, case_letters, case_lines, case_mended, case_pages, case_receivers, case_records, case_row_24,
    case_sending, case_sequences,
};

pub const MAKERS: &str = "bnaslmpercxwdfughktivo";

/// The share of each maker, in parts of the whole.
fn weight(maker: char) -> u64 {
    match maker {
        'n' => 70,
        'a' => 130,
        's' => 40,
        'l' => 130,
        'm' => 60,
        'p' => 80,
        'e' => 20,
        'r' => 8,
        'c' => 8,
        'w' => 80,
        'd' => 90,
        'f' => 130,
        'u' => 80,
        'g' => 121,
        'k' => 34,
        't' => 72,
        'i' => 12,
        'v' => 6,
        'o' => 28,
        _ => 0,
    }
}

/// A page counts as so many cases, since it shows 25 rows at once and has a long answer: displayed (sort g) of 8,001
/// bytes, as text (sort o) of 3,029. At COUNT 50000 some 310 and 140 are made, of 7,800 and 3,600 rows, and besides
/// those that are always made.
fn cases_for_one(maker: char) -> u64 {
    match maker {
        'g' => 16,
        'o' => 8,
        _ => 1,
    }
}

/// How many cases a maker makes whatever COUNT is: every byte, and what is counted out of the runs, the records
/// written and read, the pages displayed and sent, the numbers, the letters and the pages as text.
fn always(maker: char) -> u64 {
    match maker {
        'b' | 'h' => 256,
        'c' => case_mended::counted_out(),
        'x' => case_row_24::counted_out(),
        'w' => case_records::to_write_counted_out(),
        'd' => case_records::to_read_counted_out(),
        'g' => case_pages::counted_out(),
        't' => case_sending::counted_out(),
        'i' => case_letters::numbers_counted_out(),
        'v' => case_letters::codes_counted_out(),
        'o' => case_letters::pages_counted_out(),
        _ => 0,
    }
}

/// How many cases a maker makes, where COUNT is shared out over the makers asked for.
pub fn share(maker: char, count: u64, makers: &str) -> u64 {
    if weight(maker) == 0 {
        return always(maker);
    }
    let whole: u64 = MAKERS.chars().filter(|m| makers.contains(*m)).map(weight).sum();
    always(maker) + std::cmp::max(1, count * weight(maker) / whole / cases_for_one(maker))
}

/// The case with this number among those of its maker.
pub fn case(maker: char, i: u64, random: &mut Random) -> Case {
    match maker {
        'b' => Case::alone('b', vec![i as u8]),
        'n' => Case::alone('n', case_lines::data_line(i, random)),
        'a' => Case::alone('a', case_lines::packet(i, random)),
        's' => Case::lent('s', case_lines::selection(i, random), Vec::new()),
        'l' | 'm' | 'p' => case_receivers::one_step(maker, i, random),
        'e' => case_sequences::lines(i, random),
        'r' => case_sequences::recording(i, random),
        'c' => case_mended::run(i, random),
        'x' => case_row_24::run(i, random),
        'w' => case_records::page_to_write(i, random),
        'd' => case_records::record_to_read(i, random),
        'f' | 'u' => case_fields::field_and_place(maker, i, random),
        'g' => Case::alone('g', case_pages::page_displayed(i, random)),
        'h' => Case::alone('e', vec![i as u8]),
        'k' => Case::alone('k', case_sending::packets_to_make(i, random)),
        't' => case_sending::page_sent(i, random),
        'i' => Case::alone('i', case_letters::number(i, random)),
        'v' => Case::alone('c', case_letters::code(i, random)),
        'o' => Case::alone('o', case_letters::page_as_text(i, random)),
        _ => panic!("no such maker"),
    }
}
