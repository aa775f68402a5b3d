//! An independent model of document 01 and of requests 1 to 5 of document 02: prints seeded cases, each
//! with the answer expected.
//!
//! `model SEED COUNT [MAKERS]` prints about COUNT cases, of which a page to be displayed or printed counts
//! as several, shared out over the makers asked for (all where none are named), and besides them those
//! that are always made: a case line, then "= " and its answer, as FORMAT.md has them. `model marked`
//! checks the marked cases. `model demand SEED COUNT` checks the two laws on clean closings over
//! random runs, `model double SEED COUNT` those on double height over random pages, `model sending
//! SEED COUNT` those on pages sent and received again, `model mended SEED COUNT` those on mended bytes
//! over all bytes and over random runs, `model letters SEED COUNT` those on national letters over all
//! letters, control bits and numbers and over random pages, `model forms SEED COUNT` those on the two forms
//! of the record and on row 24.

mod answers;
mod bits;
mod case_fields;
mod case_forms;
mod case_letters;
mod case_lines;
mod case_mended;
mod case_pages;
mod case_receivers;
mod case_records;
mod case_row_24;
mod case_sending;
mod case_sequences;
mod cases;
mod counted;
mod demand;
mod display;
mod double;
mod examined;
mod field;
mod forms;
mod laws;
mod letters;
mod marked;
mod mended;
mod national;
mod packet;
mod random;
mod receiver;
mod record;
mod recording;
mod send;
mod sending;
mod text;
mod transmission;

use std::io::{BufWriter, Write};

/// The words that the program takes.
const USAGE: &str = "model SEED COUNT [MAKERS] | model marked | model demand|double|sending|mended|letters|forms SEED COUNT";

/// A number from the command line.
fn number(word: &str) -> u64 {
    word.parse().expect("a number is wanted")
}

/// Print the cases and their answers.
fn print_cases(seed: u64, count: u64, makers: &str) {
    let mut out = BufWriter::new(std::io::stdout());
    for maker in cases::MAKERS.chars().filter(|maker| makers.contains(*maker)) {
        let mut random = random::Random::new(seed, maker);
        for i in 0..cases::share(maker, count, makers) {
            let case = cases::case(maker, i, &mut random);
            let answer = text::hex(&answers::answer(&case));
            writeln!(out, "{}\n= {}", case.line(), answer).expect("output fails");
        }
    }
}

fn main() {
    let words: Vec<String> = std::env::args().skip(1).collect();
    let words: Vec<&str> = words.iter().map(|word| word.as_str()).collect();
    match words[..] {
        ["marked"] => marked::print(),
        ["demand", seed, count] => demand::print(number(seed), number(count)),
        ["double", seed, count] => double::print(number(seed), number(count)),
        ["sending", seed, count] => sending::print(number(seed), number(count)),
        ["mended", seed, count] => mended::print(number(seed), number(count)),
        ["letters", seed, count] => letters::print(number(seed), number(count)),
        ["forms", seed, count] => forms::print(number(seed), number(count)),
        [seed, count] => print_cases(number(seed), number(count), cases::MAKERS),
        [seed, count, makers] => print_cases(number(seed), number(count), makers),
        _ => println!("{}", USAGE),
    }
}
