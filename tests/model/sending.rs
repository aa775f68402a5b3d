//! Sending looked at over random pages: what must hold of the lines written, and of the page that a
//! fresh receiver closes after them.

use crate::bits::{all_turned, character, exact, FRAMING};
use crate::case_sending::{page_in_a_form, some_choice};
use crate::laws::{print_over, Law};
use crate::packet::{address, control_weight, packet_of_line, Address, Header};
use crate::random::Random;
use crate::receiver::*;
use crate::record::{read_page, record_of, Page, CELLS, COLUMNS, RECORD_LENGTH, ROWS};
use crate::send::{any_header, flip, framing_damage, header_line, text};
use crate::transmission::{room_needed, rows_wanted, send_page, Wanted, LINE_LENGTH};

/// A page that was sent, and every feeding of its lines to a fresh receiver.
struct Sent {
    given: Page,
    wanted: Wanted,
    record: Vec<u8>,
    answer: (u8, u8),
    room_before: Vec<u8>,
    room: Vec<u8>,
    feedings: Vec<Feeding>,
}

/// What a fresh receiver answers to the lines and to a further one, and what becomes of its record.
struct Feeding {
    answers: Vec<Answer>,
    further: Answer,
    record_untouched: bool,
    record: Vec<u8>,
}

impl Sent {
    /// The lines that were written.
    fn lines(&self) -> Vec<&[u8]> {
        self.room.chunks(LINE_LENGTH).take(self.answer.1 as usize).collect()
    }

    /// How many bytes the lines have.
    fn length(&self) -> usize {
        self.answer.1 as usize * LINE_LENGTH
    }
}

/// The selections that the page matches: any time, or its own where that can be selected.
fn selections(page: &Page) -> Vec<Selection> {
    let h = &page.header;
    let own = TimeCode {
        hours_tens: h.hours_tens,
        hours_units: h.hours_units,
        minutes_tens: h.minutes_tens,
        minutes_units: h.minutes_units,
    };
    let selection = |time| Selection { magazine: page.magazine, tens: h.tens, units: h.units, time };
    let both = [selection(None), selection(Some(own))];
    both.into_iter().filter(|selection| !cause_13(selection)).collect()
}

/// The manners of the further line.
const FURTHER: u64 = 5;

/// A row 0 of the magazine: the page's own header; any other; with control bytes refused; with at
/// most one wrong bit in the framing and in each address byte; with anything after the address.
fn further_line(page: &Page, manner: u64, random: &mut Random) -> Vec<u8> {
    let header = if manner == 0 { page.header.clone() } else { any_header(random) };
    let mut line = header_line(page.magazine, &header, &text(random));
    if manner == 2 {
        let first = random.between(5, 12) as usize;
        let last = random.between(first as u64, 12) as usize;
        line[first..=last].iter_mut().for_each(|byte| flip(byte, 2, random));
    }
    if manner == 4 {
        line[5..].copy_from_slice(&random.bytes(40));
        line[..2].copy_from_slice(&random.bytes(2));
    }
    if manner >= 3 {
        framing_damage(&mut line, 0, 1, random);
        line[3..5].iter_mut().for_each(|byte| flip(byte, random.pick(&[0, 1]), random));
    }
    line
}

/// Feed the lines and a further one to a fresh receiver, whose lent record is of any bytes.
fn fed(lines: &[&[u8]], further: &[u8], selection: &Selection, random: &mut Random) -> Feeding {
    let (_, mut receiver) = new_receiver(selection);
    let lent = random.bytes(RECORD_LENGTH);
    let mut record = lent.clone();
    let mut feed = |line: &[u8]| receive_line_lent(&mut receiver, &mut record, line);
    let answers = lines.iter().map(|line| feed(line)).collect();
    let record_untouched = record == lent;
    let further = receive_line_lent(&mut receiver, &mut record, further);
    Feeding { answers, further, record_untouched, record }
}

/// A random page, from a record of either form, sent into a random room that is long enough, and fed with every
/// selection and every manner of the further line.
fn some_sent(random: &mut Random) -> Sent {
    let ((given, form), wanted) = (page_in_a_form(random), some_choice(random));
    let record = record_of(&given, &form);
    let past = random.pick(&[0, 0, 1, 44, 45, 90]);
    let room_before = random.bytes(room_needed(&wanted) + past);
    let mut room = room_before.clone();
    let answer = send_page(&record, &wanted, &mut room);
    let mut sent = Sent { given, wanted, record, answer, room_before, room, feedings: Vec::new() };
    for selection in selections(&sent.given) {
        for manner in 0..FURTHER {
            let further = further_line(&sent.given, manner, random);
            let feeding = fed(&sent.lines(), &further, &selection, random);
            sent.feedings.push(feeding);
        }
    }
    sent
}

/// "Sent by the rules" means 45 bytes, framing and Hamming bytes exact, character bytes odd: asked of
/// each line.
fn rules(sent: &Sent) -> Vec<bool> {
    let by_the_rules = |line: &&[u8]| {
        let packet = packet_of_line(line);
        let row_0 = matches!(address(packet), Address::Whole { row: 0, .. });
        let bytes = all_turned(packet);
        let (hamming, characters) = bytes.split_at(if row_0 { 10 } else { 2 });
        line.len() == 45
            && line[2] == FRAMING
            && hamming.iter().all(|byte| exact(*byte))
            && characters.iter().all(|byte| character(*byte).is_some())
    };
    sent.lines().iter().map(by_the_rules).collect()
}

/// The run-in is AA AA; first comes row 0, then the rows wanted, rising: asked of each page.
fn rows(sent: &Sent) -> Vec<bool> {
    let lines = sent.lines();
    let run_in = lines.iter().all(|line| line[..2] == [0xAA, 0xAA]);
    let row = |line: &&[u8]| match address(packet_of_line(line)) {
        Address::Whole { magazine, row } if magazine == sent.given.magazine => Some(row as usize),
        _ => None,
    };
    let read: Option<Vec<usize>> = lines.iter().map(row).collect();
    let holds = |read: Vec<usize>| {
        let rising = read.windows(2).all(|two| two[0] < two[1]);
        let as_wanted = (1..ROWS).all(|row| read.contains(&row) == sent.wanted[row - 1]);
        read.first() == Some(&0) && rising && as_wanted
    };
    vec![sent.answer.0 == 0 && run_in && read.is_some_and(holds)]
}

/// Room past the lines stays, and a room shorter by one byte is refused and stays: asked of each page.
fn room(sent: &Sent) -> Vec<bool> {
    let length = sent.length();
    let too_short = &sent.room_before[..length - 1];
    let mut after = too_short.to_vec();
    let answer = send_page(&sent.record, &sent.wanted, &mut after);
    vec![sent.room[length..] == sent.room_before[length..], answer == (30, 0) && after == too_short]
}

/// Kind 2 with count 32, kind 1 with count 40 for each row, no byte mended, and the further line closes
/// clean; no line before it touches the record: asked of each feeding.
fn answers(sent: &Sent) -> Vec<bool> {
    let stored = |kind, count| Answer { number: 0, kind, count, closing: CLOSED_NONE, mended: 0 };
    let mut wanted = vec![stored(2, 32)];
    wanted.resize(1 + rows_wanted(&sent.wanted).len(), stored(1, 40));
    let holds = |feeding: &Feeding| {
        let further = &feeding.further;
        let closes = further.number == 0 && further.closing == CLOSED_CLEAN;
        feeding.answers == wanted && closes && [2, 3, 5].contains(&further.kind) && feeding.record_untouched
    };
    sent.feedings.iter().map(holds).collect()
}

/// Is the cell sent? Those of the header's columns 8 to 39 and of the rows wanted are.
fn cell_is_sent(wanted: &Wanted, cell: usize) -> bool {
    match cell / COLUMNS {
        0 => cell >= 8,
        row => wanted[row - 1],
    }
}

/// The record then read has the number, time and C5 to C14 of the given one, C4 set, and is clean;
/// cells that were sent are equal and fresh, all others space and never: asked of each feeding.
fn record(sent: &Sent) -> Vec<bool> {
    let given = &sent.given;
    let c4 = control_weight(4);
    let header = Header { control: c4 + given.header.control % c4, ..given.header.clone() };
    let cell = |cell: usize| match cell_is_sent(&sent.wanted, cell) {
        true => (given.characters[cell], FRESH),
        false => (SPACE, NEVER),
    };
    let holds = |feeding: &Feeding| {
        let (number, page) = read_page(&feeding.record);
        number == 0
            && page.magazine == given.magazine
            && page.header == header
            && page.clean
            && (0..CELLS).all(|place| (page.characters[place], page.marks[place]) == cell(place))
    };
    sent.feedings.iter().map(holds).collect()
}

const LAWS: [(&str, Law<Sent>); 5] =
    [("rules", rules), ("rows", rows), ("room", room), ("answers", answers), ("record", record)];

/// Print how often each law was asked and how often it failed.
pub fn print(seed: u64, count: u64) {
    let mut random = Random::new(seed, 'S');
    print_over(&LAWS, (0..count).map(|_| some_sent(&mut random)));
}
