//! Cases of sorts k (packets to be sent) and t (pages to be sent). Those of sort t that are counted
//! out are made in every run; the others are random.

use crate::case_forms::{as_old, spoil_by, SETS_OF_CAUSES};
use crate::case_records::{lawful_page, set_bits, some_record};
use crate::counted::{count_of, made, Maker};
use crate::random::Random;
use crate::receiver::{NEVER, SPACE};
use crate::record::{record_of, Form, Page, COLUMNS, FORMS, NEW, OLD, ROWS};
use crate::send::{any_header, text};
use crate::text::{header_bytes, Case};
use crate::transmission::{room_needed, Wanted, CHOOSABLE, LINE_LENGTH};

const NONE: Wanted = [false; CHOOSABLE];
const ALL: Wanted = [true; CHOOSABLE];

/// Sort k: parts in range, one number of any byte, anything, and inputs cut short; every row in turn.
pub fn packets_to_make(i: u64, random: &mut Random) -> Vec<u8> {
    let mut input = vec![random.within(0, 8), (i % 32) as u8];
    input.extend(header_bytes(&any_header(random)));
    input.extend(text(random));
    match random.below(8) {
        0..=3 => {}
        4..=5 => input[random.below(10) as usize] = random.byte(),
        6 => input = random.bytes(50),
        _ => input.truncate(random.below(50) as usize),
    }
    input
}

/// One row of one kind: never received, older, fresh, or all of these.
fn row_of_one_kind(page: &mut Page, row: usize, random: &mut Random) {
    let kind = random.within(0, 3);
    let words = text(random);
    let first = if row == 0 { 8 } else { 0 };
    for column in first..COLUMNS {
        let cell = row * COLUMNS + column;
        let mark = if kind == 3 { random.within(0, 2) } else { kind };
        page.marks[cell] = mark;
        page.characters[cell] = if mark == NEVER { SPACE } else { words[column] };
    }
}

/// A lawful page; of two pages one has rows of one kind each.
pub fn page_to_send(random: &mut Random) -> Page {
    let mut page = lawful_page(random);
    if random.once_in(2) {
        for row in 0..ROWS {
            row_of_one_kind(&mut page, row, random);
        }
    }
    page
}

/// A lawful page as its record has it, in either form, and that form.
pub fn page_in_a_form(random: &mut Random) -> (Page, Form) {
    let (page, form) = (page_to_send(random), random.pick(&FORMS));
    (if form == OLD { as_old(page) } else { page }, form)
}

/// The record of a lawful page, in either form.
fn lawful_record(random: &mut Random) -> Vec<u8> {
    let (page, form) = page_in_a_form(random);
    record_of(&page, &form)
}

/// Some rows: about half, few, many, several running, none, all.
pub fn some_choice(random: &mut Random) -> Wanted {
    let mut row = || random.below(CHOOSABLE as u64) as usize;
    let (one, other) = (row(), row());
    match random.below(8) {
        0..=2 => ALL.map(|_| random.once_in(2)),
        3 => ALL.map(|_| random.once_in(6)),
        4 => ALL.map(|_| !random.once_in(6)),
        5 => std::array::from_fn(|row| one.min(other) <= row && row <= one.max(other)),
        6 => NONE,
        _ => ALL,
    }
}

/// These rows the other way round than the others.
fn turned_round(mut wanted: Wanted, rows: &[usize]) -> Wanted {
    for row in rows {
        wanted[row - 1] = !wanted[row - 1];
    }
    wanted
}

/// WANTED. A "no" is any byte but 1.
fn wanted_bytes(wanted: &Wanted, random: &mut Random) -> Vec<u8> {
    let no = [0, 0, 0, 2, 0x80, 0x81, 0xFF];
    wanted.iter().map(|yes| if *yes { 1 } else { random.pick(&no) }).collect()
}

/// A case of sort t with a room of so many random bytes, so that what stays is seen.
fn case_of(wanted: &Wanted, record: &[u8], room: usize, random: &mut Random) -> Case {
    let mut input = wanted_bytes(wanted, random);
    input.extend(record);
    Case::lent('t', input, random.bytes(room))
}

/// None, all, each row alone, all but each row, and each two rows alone.
fn choices() -> Vec<Wanted> {
    let mut out = vec![NONE, ALL];
    for row in 1..=CHOOSABLE {
        out.push(turned_round(NONE, &[row]));
        out.push(turned_round(ALL, &[row]));
        out.extend((1..row).map(|before| turned_round(NONE, &[before, row])));
    }
    out
}

const CHOICES: u64 = (2 + 2 * CHOOSABLE + CHOOSABLE * (CHOOSABLE - 1) / 2) as u64;

/// Each of the choices, with room enough.
fn each_choice(i: u64, random: &mut Random) -> Case {
    let wanted = choices()[i as usize];
    let room = room_needed(&wanted) + random.pick(&[0, 0, 1, 44, 45, 46, 90]);
    case_of(&wanted, &lawful_record(random), room, random)
}

/// How far rooms around the needed length go: one byte past a line, shorter and longer.
const AROUND: usize = 46;
const LENGTHS_AROUND: u64 = 2 * AROUND as u64 + 1;

/// Every length of room around the needed one, for no rows, all, and some.
fn each_room_around(i: u64, random: &mut Random) -> Case {
    let wanted = match i / LENGTHS_AROUND {
        0 => NONE,
        1 => ALL,
        _ => some_choice(random),
    };
    let room = (room_needed(&wanted) + (i % LENGTHS_AROUND) as usize).saturating_sub(AROUND);
    case_of(&wanted, &lawful_record(random), room, random)
}

/// A room for all lines, the header's and those of all rows.
const ROOM_FOR_ALL: usize = LINE_LENGTH * ROWS;

/// Rooms of lengths at the edges of one line, of all but one and of all, and a longer one.
const FIXED_ROOMS: [usize; 10] = [
    0,
    LINE_LENGTH - 1,
    LINE_LENGTH,
    ROOM_FOR_ALL - LINE_LENGTH - 1,
    ROOM_FOR_ALL - LINE_LENGTH,
    ROOM_FOR_ALL - LINE_LENGTH + 1,
    ROOM_FOR_ALL - 1,
    ROOM_FOR_ALL,
    ROOM_FOR_ALL + 1,
    ROOM_FOR_ALL + 75,
];

/// Each of these rooms, for no rows, the first, the last, all but one, all but the last, and all.
fn each_fixed_room(i: u64, random: &mut Random) -> Case {
    let rooms = FIXED_ROOMS.len() as u64;
    let wanted = match i / rooms {
        0 => NONE,
        1 => turned_round(NONE, &[1]),
        2 => turned_round(NONE, &[CHOOSABLE]),
        3 => turned_round(ALL, &[12]),
        4 => turned_round(ALL, &[CHOOSABLE]),
        _ => ALL,
    };
    case_of(&wanted, &lawful_record(random), FIXED_ROOMS[(i % rooms) as usize], random)
}

/// Row 24 chosen and not, of each form, with the room needed and with one byte less: alone, with row 23, with all,
/// row 23 alone, all but row 24, none.
fn each_form(i: u64, random: &mut Random) -> Case {
    let wanted = match i / 4 {
        0 => turned_round(NONE, &[CHOOSABLE]),
        1 => turned_round(NONE, &[CHOOSABLE - 1, CHOOSABLE]),
        2 => ALL,
        3 => turned_round(NONE, &[CHOOSABLE - 1]),
        4 => turned_round(ALL, &[CHOOSABLE]),
        _ => NONE,
    };
    let record = record_of(&page_to_send(random), &FORMS[(i % 2) as usize]);
    case_of(&wanted, &record, room_needed(&wanted) - (i / 2 % 2) as usize, random)
}

/// All sets of the causes 20, 21, 22, 23 and 30, so many times each in each form.
const SETS_WITH_30: u64 = 2 * SETS_OF_CAUSES;
const TIMES_EACH: u64 = 4;

/// A record of each form spoiled by every set of causes; the bit past the others' is 30, a room too short.
fn each_set_of_causes(i: u64, random: &mut Random) -> Case {
    let causes = i % SETS_WITH_30;
    let mut record = record_of(&page_to_send(random), &FORMS[(i / SETS_WITH_30 % 2) as usize]);
    spoil_by(&mut record, causes, random);
    let wanted = some_choice(random);
    let needed = room_needed(&wanted);
    let any_too_short = random.below(needed as u64) as usize;
    let too_short = random.pick(&[0, needed - LINE_LENGTH, needed - 1, any_too_short]);
    let room = if causes & SETS_OF_CAUSES != 0 { too_short } else { needed };
    case_of(&wanted, &record, room, random)
}

/// The parts before the cells: the place of their bits in a record, their count, and of how many
/// values. Of the control bits each is set alone and clear alone instead.
const PARTS: [(usize, usize, u64); 7] =
    [(0, 3, 8), (3, 4, 10), (7, 4, 10), (11, 2, 4), (13, 4, 16), (17, 3, 8), (20, 4, 16)];
const VALUES: u64 = 8 + 10 + 10 + 4 + 16 + 8 + 16;
const CONTROL_BITS: u64 = 11;

/// Put the value with this number, over all the parts, into a record.
fn set_value(record: &mut [u8], i: u64) {
    let mut value = i;
    for (place, bits, values) in PARTS {
        if value < values {
            return set_bits(record, place, bits, value as u16);
        }
        value -= values;
    }
    let alone = 1 << (value / 2);
    set_bits(record, 24, CONTROL_BITS as usize, if value % 2 == 0 { alone } else { 0x7FF ^ alone });
}

/// Every value of every part before the cells.
fn each_value(i: u64, random: &mut Random) -> Case {
    let mut record = lawful_record(random);
    set_value(&mut record, i);
    let wanted = some_choice(random);
    case_of(&wanted, &record, room_needed(&wanted), random)
}

/// Inputs that end within WANTED, right after it, within the record, where an old one would end, and one byte
/// short.
const SHORT_INPUTS: [usize; 8] = [
    0,
    1,
    CHOOSABLE - 1,
    CHOOSABLE,
    CHOOSABLE + 1,
    CHOOSABLE + OLD.length - 1,
    CHOOSABLE + OLD.length,
    CHOOSABLE + NEW.length - 1,
];

/// Each of these inputs, cut from one with a new record, with room enough for all.
fn each_short_input(i: u64, random: &mut Random) -> Case {
    let record = record_of(&page_to_send(random), &NEW);
    let mut case = case_of(&ALL, &record, ROOM_FOR_ALL, random);
    case.input.truncate(SHORT_INPUTS[i as usize]);
    case
}

/// What is counted out: how many cases, and their maker.
const COUNTED_OUT: [(u64, Maker<Case>); 7] = [
    (CHOICES, each_choice),
    (3 * LENGTHS_AROUND, each_room_around),
    (6 * FIXED_ROOMS.len() as u64, each_fixed_room),
    (6 * 4, each_form),
    (2 * SETS_WITH_30 * TIMES_EACH, each_set_of_causes),
    (VALUES + 2 * CONTROL_BITS, each_value),
    (SHORT_INPUTS.len() as u64, each_short_input),
];

/// How many cases of sort t are counted out.
pub fn counted_out() -> u64 {
    count_of(&COUNTED_OUT)
}

/// A room: at the edges, of any length, around the needed length, just that, or longer.
fn some_room(needed: usize, random: &mut Random) -> usize {
    match random.below(8) {
        0 => random.pick(&FIXED_ROOMS),
        1 => random.below(ROOM_FOR_ALL as u64 + 100) as usize,
        2..=4 => (needed + random.below(LENGTHS_AROUND) as usize).saturating_sub(AROUND),
        5 => needed,
        _ => needed + random.pick(&[1, 44, 45, 46, 90, 300]),
    }
}

/// Any rows, a record lawful or, once in three times, of any sort, and any room.
fn some_page_sent(i: u64, random: &mut Random) -> Case {
    let wanted = some_choice(random);
    let record = if i % 3 == 2 { some_record(i, random) } else { lawful_record(random) };
    let room = some_room(room_needed(&wanted), random);
    case_of(&wanted, &record, room, random)
}

/// Sort t: first those that are counted out, then random ones.
pub fn page_sent(i: u64, random: &mut Random) -> Case {
    made(&COUNTED_OUT, some_page_sent, i, random)
}
