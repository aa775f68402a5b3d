//! Both forms of the record and row 24 looked at over random pages and receivers: what must hold of every record
//! read and written, and of every row received.

use crate::bits::turned;
use crate::case_forms::{as_old, set_row_code, spoil_by, LENGTHS, ROW_CODES, SETS_OF_CAUSES};
use crate::case_receivers::{lawful, refused_byte};
use crate::case_records::{lawful_page, some_record};
use crate::laws::{counted_over, Law};
use crate::random::Random;
use crate::receiver::{receive_line, Answer, Receiver, CLOSED_DOUBT, CLOSED_NONE, FRESH, NEVER, SPACE};
use crate::record::*;
use crate::send::{row_line, text, LAST_SENT};

/// The paper's numbers, said here again so that the laws do not lean on the model's own.
const OLD_BYTES: usize = 1085;
const NEW_BYTES: usize = 1130;
const OLD_CELLS: usize = 960;
const LAST_ROW: usize = 24;

/// A lawful page and its records, records of any sort, and records spoiled, each with the first of its causes.
struct Formed {
    page: Page,
    old: Vec<u8>,
    new: Vec<u8>,
    any: Vec<Vec<u8>>,
    spoiled: Vec<(u8, Vec<u8>)>,
}

/// So many bits of a record from a place on, as a number.
fn bits_at(record: &[u8], place: usize, count: usize) -> u16 {
    let bit = |at: usize| (record[at / 8] >> (7 - at % 8) & 1) as u16;
    (place..place + count).fold(0, |number, at| 2 * number + bit(at))
}

/// Is the cell of a record refused by 23?
fn cell_is_refused(record: &[u8], cell: usize) -> bool {
    let (mark, character) = (bits_at(record, 40 + 9 * cell, 2), bits_at(record, 42 + 9 * cell, 7));
    mark == 3 || (mark == 0 && character != 0x20) || (cell < 8 && mark != 0)
}

/// An old reader, by document 01 alone: the number that it gives.
fn old_reader(record: &[u8]) -> u8 {
    if record.len() != OLD_BYTES {
        20
    } else if bits_at(record, 36, 4) != 0 {
        21
    } else if bits_at(record, 3, 4) > 9 || bits_at(record, 7, 4) > 9 {
        22
    } else if (0..OLD_CELLS).any(|cell| cell_is_refused(record, cell)) {
        23
    } else {
        0
    }
}

/// The first cause of a set: its bits are 20, 21, 22 and 23.
fn first_cause(causes: u64) -> u8 {
    if causes == 0 {
        0
    } else {
        20 + causes.trailing_zeros() as u8
    }
}

/// A random page in both forms, and records of many sorts.
fn some_formed(random: &mut Random) -> Formed {
    let page = lawful_page(random);
    let (old, new) = (record_of(&page, &OLD), record_of(&page, &NEW));
    let any = (0..14).map(|i| some_record(i, random)).collect();
    let mut spoiled = Vec::new();
    for record in [&old, &new] {
        for causes in 0..SETS_OF_CAUSES {
            let mut record = record.clone();
            spoil_by(&mut record, causes, random);
            spoiled.push((first_cause(causes), record));
        }
    }
    Formed { page, old, new, any, spoiled }
}

impl Formed {
    /// All of the records.
    fn records(&self) -> impl Iterator<Item = &Vec<u8>> {
        [&self.old, &self.new].into_iter().chain(&self.any).chain(self.spoiled.iter().map(|(_, record)| record))
    }

    /// The pages of those that are taken, of one length, each with its record.
    fn taken(&self, length: usize) -> Vec<(&Vec<u8>, Page)> {
        let of_length = self.records().filter(|record| record.len() == length);
        let read = of_length.map(|record| (record, read_page(record)));
        read.filter(|(_, (number, _))| *number == 0).map(|(record, (_, page))| (record, page)).collect()
    }
}

/// What the writer makes of a page in a room of zeros.
fn written(page: &Page) -> Vec<u8> {
    let mut record = vec![0; RECORD_LENGTH];
    assert_eq!(write_page(page, &mut record), 0);
    record
}

/// Reading what was written gives the page: asked of each page.
fn back(formed: &Formed) -> Vec<bool> {
    vec![read_page(&written(&formed.page)) == (0, formed.page.clone())]
}

/// Writing what was read from a new record gives the same bytes: asked of each new record that is taken.
fn same(formed: &Formed) -> Vec<bool> {
    formed.taken(NEW.length).iter().map(|(record, page)| written(page) == **record).collect()
}

/// An old record read and encoded in the old form gives the same bytes: asked of each that is taken.
fn old_same(formed: &Formed) -> Vec<bool> {
    formed.taken(OLD.length).iter().map(|(record, page)| encoded(page, &OLD) == **record).collect()
}

/// An old record's row 24 is spaces marked never, and all else is the page's: asked of each old record that is
/// taken, and of the page's own.
fn row_24(formed: &Formed) -> Vec<bool> {
    let never_received =
        |page: &Page| page.characters[OLD_CELLS..] == [SPACE; COLUMNS] && page.marks[OLD_CELLS..] == [NEVER; COLUMNS];
    let mut held: Vec<bool> = formed.taken(OLD.length).iter().map(|(_, page)| never_received(page)).collect();
    held.push(read_page(&formed.old) == (0, as_old(formed.page.clone())));
    held
}

/// An old record written again is longer by a row of cells never received, and of the bytes before only the fifth
/// is another, by one: asked of each old record that is taken.
fn renewed(formed: &Formed) -> Vec<bool> {
    let never = [0x10, 0x08, 0x04, 0x02, 0x01, 0x00, 0x80, 0x40, 0x20].repeat(5);
    let holds = |(record, page): &(&Vec<u8>, Page)| {
        let mut wanted = [&record[..], &never].concat();
        wanted[4] += 1;
        written(page) == wanted
    };
    formed.taken(OLD.length).iter().map(holds).collect()
}

/// An old reader refuses by 20 every record of the new length, and gives to every other the number that ours gives:
/// asked of each record.
fn old_readers(formed: &Formed) -> Vec<bool> {
    let holds = |record: &Vec<u8>| match record.len() == NEW_BYTES {
        true => old_reader(record) == 20,
        false => old_reader(record) == read_page(record).0,
    };
    formed.records().map(holds).collect()
}

/// Of several causes the first is answered, in both forms: asked of each set of causes.
fn order(formed: &Formed) -> Vec<bool> {
    formed.spoiled.iter().map(|(number, record)| read_page(record).0 == *number).collect()
}

/// Beside a refusal the page is zeros: asked of each record refused.
fn zeros(formed: &Formed) -> Vec<bool> {
    let refused = formed.records().map(|record| read_page(record)).filter(|(number, _)| *number != 0);
    refused.map(|(_, page)| page == zero_page()).collect()
}

/// A room under the new form's length is refused by 12 and stays; past them a longer one stays: asked of each length.
fn rooms(formed: &Formed) -> Vec<bool> {
    let holds = |length: &usize| {
        let mut room = vec![0xA5; *length];
        let number = write_page(&formed.page, &mut room);
        let from = if *length < NEW_BYTES { 0 } else { NEW_BYTES };
        number == (if from == 0 { 12 } else { 0 }) && room[from..].iter().all(|byte| *byte == 0xA5)
    };
    LENGTHS.iter().map(holds).collect()
}

/// No third form: of all row codes and all lengths up to some past the longer form, two pairs are taken; 20 is each
/// other length, 21 each other code. Asked of each pair.
fn third(record: &Vec<u8>) -> Vec<bool> {
    let of_pair = |(row_code, length): (u16, usize)| {
        let mut record = record.clone();
        set_row_code(&mut record, row_code);
        record.resize(length, 0);
        let wanted = match (length, row_code) {
            (OLD_BYTES, 0) | (NEW_BYTES, 1) => 0,
            (OLD_BYTES, _) | (NEW_BYTES, _) => 21,
            _ => 20,
        };
        read_page(&record).0 == wanted
    };
    let lengths = 0..=2 * NEW_BYTES;
    lengths.flat_map(|length| (0..ROW_CODES).map(move |row_code| (row_code, length))).map(of_pair).collect()
}

/// A receiver with a page open and one with none, and for each row the answers to it, and to it with the first
/// address message refused, each with the receiver after.
struct Received {
    receivers: [Receiver; 2],
    texts: Vec<Vec<u8>>,
    whole: Vec<[(Answer, Receiver); 2]>,
    refused: Vec<[(Answer, Receiver); 2]>,
}

/// The answers of both receivers to rows 1 up of their own magazine, with what was sent.
fn some_received(random: &mut Random) -> Received {
    let open = lawful(true, random);
    let mut closed = lawful(false, random);
    closed.selection = open.selection.clone();
    let receivers = [open, closed];
    let (mut texts, mut whole, mut refused) = (Vec::new(), Vec::new(), Vec::new());
    for row in 1..=LAST_SENT {
        let text = text(random);
        let mut line = row_line(receivers[0].selection.magazine, row, &text);
        let fed = |line: &[u8]| receivers.each_ref().map(|to| receive_line(to, &mut [0; RECORD_LENGTH], line));
        whole.push(fed(&line));
        line[3] = turned(refused_byte(random));
        refused.push(fed(&line));
        texts.push(text);
    }
    Received { receivers, texts, whole, refused }
}

/// Rows 1 to 24 are stored where a page is open, and in their own cells alone; rows 25 to 31, and all where none is
/// open, change nothing: asked of each row and receiver.
fn limit(received: &Received) -> Vec<bool> {
    let mut held = Vec::new();
    for (text, row) in received.texts.iter().zip(1..) {
        for (before, (answer, after)) in received.receivers.iter().zip(&received.whole[row - 1]) {
            let mut wanted = before.clone();
            let stored = before.open && row <= LAST_ROW;
            if stored {
                let cells = row * COLUMNS..(row + 1) * COLUMNS;
                wanted.characters[cells.clone()].copy_from_slice(text);
                wanted.marks[cells].fill(FRESH);
            }
            let said = (answer.kind, answer.count, answer.closing);
            held.push(*after == wanted && said == (stored as u8, 40 * stored as u8, CLOSED_NONE));
        }
    }
    held
}

/// A line whose first message is refused is kind 4 where one of the two rows with that second message is shown, and
/// then an open page is in doubt; it closes where one of the two is row 0. Else it changes nothing. Asked of each
/// row and receiver.
fn seconds(received: &Received) -> Vec<bool> {
    let mut held = Vec::new();
    for row in 1..=LAST_SENT as usize {
        let (shown, row_0) = (row / 2 * 2 <= LAST_ROW, row / 2 == 0);
        for (before, (answer, after)) in received.receivers.iter().zip(&received.refused[row - 1]) {
            let closes = before.open && row_0;
            let kind = if shown { 4 } else { 0 };
            let said = answer.kind == kind && answer.closing == if closes { CLOSED_DOUBT } else { CLOSED_NONE };
            let doubt = if shown { before.open && !closes } else { before.doubt };
            let cells = after.characters == before.characters && after.marks == before.marks;
            held.push(said && cells && after.doubt == doubt && after.open == (before.open && !closes));
        }
    }
    held
}

const RECORD_LAWS: [(&str, Law<Formed>); 9] = [
    ("back", back),
    ("same", same),
    ("old same", old_same),
    ("row 24", row_24),
    ("renewed", renewed),
    ("old readers", old_readers),
    ("order", order),
    ("zeros", zeros),
    ("rooms", rooms),
];

const PAIR_LAWS: [(&str, Law<Vec<u8>>); 1] = [("third", third)];

const ROW_LAWS: [(&str, Law<Received>); 2] = [("limit", limit), ("seconds", seconds)];

/// Print how often each law was asked and how often it failed.
pub fn print(seed: u64, count: u64) {
    let mut random = Random::new(seed, 'F');
    let of_records = counted_over(&RECORD_LAWS, (0..count).map(|_| some_formed(&mut random)));
    let one = record_of(&lawful_page(&mut random), &NEW);
    let of_pairs = counted_over(&PAIR_LAWS, std::iter::once(one));
    let of_rows = counted_over(&ROW_LAWS, (0..count).map(|_| some_received(&mut random)));
    println!("{}; {}; {}", of_records, of_pairs, of_rows);
}
