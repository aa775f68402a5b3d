//! Cases of sort g: pages of codes to be displayed. Those of sort o are made of them too.

use crate::counted::{count_of, made, Maker};
use crate::random::Random;
use crate::record::{CELLS, COLUMNS, OLD, ROWS};

/// Colours, mosaics, hold and release, sizes, contiguous and separated, among mosaics.
const HOLDING: [u8; 22] = [
    0x11, 0x12, 0x17, 0x1E, 0x1E, 0x1F, 0x0C, 0x0D, 0x19, 0x1A, 0x01, 0x07, 0x20, 0x35, 0x7F, 0x60, 0x41, 0x5F, 0x40,
    0x3F, 0x10, 0x00,
];

/// Boxes, and codes between them.
const BOXING: [u8; 8] = [0x0A, 0x0A, 0x0A, 0x0B, 0x0B, 0x0B, 0x41, 0x00];

/// Backgrounds, colours, flash and conceal.
const COLOURS: [u8; 18] = [
    0x01, 0x02, 0x04, 0x06, 0x11, 0x15, 0x1D, 0x1D, 0x1C, 0x18, 0x18, 0x08, 0x09, 0x41, 0x7F, 0x21, 0x1B, 0x0E,
];

/// Headlines in pieces: what a row is made of around its big print, and big print begun, undone and
/// begun again.
const PIECES: [&[u8]; 24] = [
    &[0x0D],
    &[0x0D, 0x41],
    &[0x0D, 0x0C],
    &[0x0D, 0x41, 0x0C, 0x42],
    &[0x0C],
    &[0x0C, 0x43, 0x0D, 0x44],
    &[0x0D, 0x0D, 0x45],
    &[0x01, 0x1D, 0x07],
    &[0x04, 0x1D],
    &[0x1C],
    &[0x08, 0x46],
    &[0x09],
    &[0x18, 0x47],
    &[0x03],
    &[0x0B, 0x0B],
    &[0x0B, 0x0B, 0x0D, 0x48, 0x0A, 0x0A],
    &[0x0A, 0x0A],
    &[0x11, 0x7F, 0x1E, 0x0D, 0x00, 0x35, 0x0D, 0x00],
    &[0x12, 0x1A, 0x35, 0x1E, 0x0C, 0x00],
    &[0x1E, 0x16, 0x60, 0x0D, 0x12],
    &[0x1F],
    &[0x19, 0x7F],
    &[0x20, 0x20, 0x20],
    &[0x4F, 0x6C, 0x64],
];

/// The manners of a row's codes: eight of codes drawn one by one, one of pieces, one of spaces.
const MANNERS: u64 = 10;
const IN_PIECES: u64 = 8;
const SPACES: u64 = 9;

/// One code in the manner of a row.
fn code(manner: u64, random: &mut Random) -> u8 {
    match manner {
        0 => random.within(0, 0x7F),
        1 => random.within(0, 0x1F),
        2 | 3 => random.pick(&HOLDING),
        4 => random.pick(&BOXING),
        5 => random.pick(&COLOURS),
        6 => {
            let of = random.below(6);
            code(of, random)
        }
        _ => {
            if random.once_in(2) {
                random.within(0x20, 0x7F)
            } else {
                random.within(0, 0x1F)
            }
        }
    }
}

/// A row of pieces, the last one cut off.
fn row_of_pieces(random: &mut Random) -> Vec<u8> {
    let mut codes = Vec::new();
    while codes.len() < COLUMNS {
        codes.extend(random.pick(&PIECES));
    }
    codes.truncate(COLUMNS);
    codes
}

/// A row in some manner, which now and then is in mosaics and hold from the start.
fn row(manner: u64, random: &mut Random) -> Vec<u8> {
    if manner == SPACES {
        return vec![0x20; COLUMNS];
    }
    let mut codes = match manner {
        IN_PIECES => row_of_pieces(random),
        _ => (0..COLUMNS).map(|_| code(manner, random)).collect(),
    };
    if random.once_in(4) {
        codes[0] = random.within(0x11, 0x17);
        codes[1] = random.pick(&[0x1E, 0x7F, 0x1A]);
    }
    codes
}

/// A place in a row: the first and the last columns as often as all the others.
fn column(random: &mut Random) -> usize {
    match random.below(6) {
        0 => 0,
        1 => COLUMNS - 1,
        2 => random.pick(&[1, 38]),
        _ => random.below(COLUMNS as u64) as usize,
    }
}

/// A 0D put into a row; sometimes it is undone at once, or after one letter.
fn put_0d(row: &mut [u8], random: &mut Random) {
    let big_print: &[u8] = random.pick(&[&[0x0D], &[0x0D], &[0x0D, 0x0C], &[0x0D, 0x41, 0x0C, 0x42]]);
    for (code, put) in row[column(random)..].iter_mut().zip(big_print) {
        *code = *put;
    }
}

/// No 0D in the row.
fn without_0d(row: &mut [u8]) {
    for code in row.iter_mut().filter(|code| **code == 0x0D) {
        *code = 0x00;
    }
}

/// Several rows running, of which the first is at the page's ends more often than elsewhere.
fn some_rows_running(random: &mut Random) -> Vec<usize> {
    let any = random.below(ROWS as u64) as usize;
    let first = random.pick(&[0, 1, 2, 19, 20, 21, 22, 23, any, any, any, any]);
    (first..first + random.between(2, 5) as usize).filter(|row| *row < ROWS).collect()
}

/// The manners of placing 0D.
const PLACINGS: u64 = 7;

/// The rows that have a 0D, and no others: all; so few that about a third are doubled; several
/// running; at the page's ends; one. `None` leaves the rows as they are.
fn rows_with_0d(placing: u64, random: &mut Random) -> Option<Vec<usize>> {
    match placing {
        0 => None,
        1 => Some((0..ROWS).collect()),
        2 => {
            let once_in = random.pick(&[2, 4]);
            Some((0..ROWS).filter(|_| random.once_in(once_in)).collect())
        }
        3 => Some(some_rows_running(random)),
        4 => Some([0, 1, 2, 21, 22, 23, 24].into_iter().filter(|_| random.once_in(2)).collect()),
        5 => Some(vec![random.pick(&[0, 1, 21, 22, 23, 24])]),
        _ => Some(vec![random.below(ROWS as u64) as usize]),
    }
}

/// The rows named have a 0D, and the others none.
fn place_0d(rows: &mut [Vec<u8>], named: &[usize], random: &mut Random) {
    for (number, row) in rows.iter_mut().enumerate() {
        if !named.contains(&number) {
            without_0d(row);
        } else if !row.contains(&0x0D) {
            put_0d(row, random);
        }
    }
}

/// A mosaic, hold, 0D and other control codes, which show it as long as it is held.
fn held_over_0d(row: &mut [u8], random: &mut Random) {
    row[0] = random.within(0x11, 0x17);
    row[1] = random.pick(&[0x19, 0x1A]);
    row[2] = random.pick(&[0x35, 0x7F, 0x60, 0x21]);
    row[3] = 0x1E;
    for code in &mut row[4..10] {
        *code = random.pick(&[0x0D, 0x0D, 0x00, 0x0C, 0x13, 0x1D, 0x19, 0x1A]);
    }
}

/// All rows in one manner, or, on three pages of thirteen, each in its own.
fn some_rows(i: u64, random: &mut Random) -> Vec<Vec<u8>> {
    let of_page = i % (MANNERS + 3);
    let in_manner = |_| {
        let own = random.below(MANNERS);
        row(if of_page < MANNERS { of_page } else { own }, random)
    };
    (0..ROWS).map(in_manner).collect()
}

/// The codes of a page, with 0D placed in each manner in turn; sometimes the first, the last two and
/// another row have a held mosaic and 0D.
pub fn lawful_page(i: u64, random: &mut Random) -> Vec<u8> {
    let mut rows = some_rows(i, random);
    if let Some(named) = rows_with_0d(i % PLACINGS, random) {
        place_0d(&mut rows, &named, random);
    }
    let all_spaces = i % (MANNERS + 3) == SPACES;
    if !all_spaces && random.once_in(3) {
        let between = random.between(1, 22) as usize;
        for number in [0, between, 23, 24] {
            held_over_0d(&mut rows[number], random);
        }
    }
    rows.concat()
}

/// How many manners of spoiling there are: eight lengths, and four places of a code past 7F, each twice.
pub const SPOILINGS: u64 = 16;

/// A page that is refused, for its length and for a code past 7F in turn.
pub fn spoil(codes: &mut Vec<u8>, turn: u64, random: &mut Random) {
    let lengths = [0, CELLS + 1, CELLS - 1, COLUMNS, OLD.cells(), CELLS + COLUMNS, 1, 2 * CELLS];
    let past = random.pick(&[0x80, 0xA0, 0xFF]);
    let any = random.below(CELLS as u64) as usize;
    match turn % 8 {
        0 | 2 | 4 | 6 => codes.resize(lengths[(turn / 2 % 8) as usize], 0x20),
        1 => codes[0] = past,
        3 => codes[CELLS - 1] = past,
        5 => codes[any] = past,
        _ => codes.fill(past),
    }
}

/// Codes of these counts: at the borders of a page, of one of 24 rows, and others.
const COUNTS: [usize; 12] = [
    0,
    1,
    COLUMNS,
    OLD.cells() - 1,
    OLD.cells(),
    OLD.cells() + 1,
    CELLS - 1,
    CELLS,
    CELLS + 1,
    CELLS + COLUMNS,
    2 * OLD.cells(),
    2 * CELLS,
];

/// Codes of each of these counts.
fn each_count(i: u64, random: &mut Random) -> Vec<u8> {
    let mut codes = lawful_page(i, random);
    codes.resize(COUNTS[i as usize], 0x20);
    codes
}

/// The sets of rows 20 to 24, and the manners in which these have a 0D.
pub const SETS_OF_LAST_ROWS: u64 = 32;
const MANNERS_OF_LAST_ROWS: u64 = 3;

/// A page on which the rows of a set of rows 20 to 24 have a 0D: somewhere, in column 39, or at a held mosaic.
pub fn last_rows(set: u64, manner: u64, random: &mut Random) -> Vec<u8> {
    let mut rows = vec![row(SPACES, random); ROWS];
    for (place, codes) in rows[20..].iter_mut().enumerate() {
        *codes = row(IN_PIECES, random);
        without_0d(codes);
        match (set >> place & 1, manner) {
            (0, _) => {}
            (_, 0) => put_0d(codes, random),
            (_, 1) => codes[COLUMNS - 1] = 0x0D,
            _ => {
                held_over_0d(codes, random);
                codes[4] = 0x0D;
            }
        }
    }
    rows.concat()
}

/// Every set in every manner.
fn each_set_of_last_rows(i: u64, random: &mut Random) -> Vec<u8> {
    last_rows(i % SETS_OF_LAST_ROWS, i / SETS_OF_LAST_ROWS, random)
}

const COUNTED_OUT: [(u64, Maker<Vec<u8>>); 2] =
    [(COUNTS.len() as u64, each_count), (SETS_OF_LAST_ROWS * MANNERS_OF_LAST_ROWS, each_set_of_last_rows)];

/// How many pages of sort g are counted out.
pub fn counted_out() -> u64 {
    count_of(&COUNTED_OUT)
}

/// Sort g.
pub fn page_displayed(i: u64, random: &mut Random) -> Vec<u8> {
    made(&COUNTED_OUT, page, i, random)
}

/// Any page; of twenty one is refused.
pub fn page(i: u64, random: &mut Random) -> Vec<u8> {
    let mut codes = lawful_page(i, random);
    if i % 20 == 19 {
        spoil(&mut codes, i / 20, random);
    }
    codes
}
