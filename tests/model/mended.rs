//! Mended bytes looked at over all bytes and over random runs: what must hold of every count.

use crate::bits::{all_turned, decode, wrong_bits, Decoded, FRAMING, SENT};
use crate::case_receivers::lawful;
use crate::laws::{counted_over, Law};
use crate::packet::{address, packet_of_line, Address};
use crate::random::Random;
use crate::receiver::*;
use crate::record::{CELLS, RECORD_LENGTH};
use crate::recording::{play, Mended};
use crate::send::{any_selection, damaged, mixed_damage, Broadcaster};

/// Each byte with what decoding it answers.
type Bytes = Vec<(u8, Decoded)>;

/// Turning over the named bit gives the byte in which the message is sent; a refused byte is further than
/// one bit from each of those: asked of each byte.
fn bits(bytes: &Bytes) -> Vec<bool> {
    let holds = |(byte, decoded): &(u8, Decoded)| match *decoded {
        Decoded::Exact { message } => *byte == SENT[message as usize],
        Decoded::Corrected { message, position } => byte ^ (1 << (position - 1)) == SENT[message as usize],
        Decoded::Refused => SENT.iter().all(|sent| wrong_bits(*byte, *sent) > 1),
    };
    bytes.iter().map(holds).collect()
}

/// "Of 256 bytes, 16 are exact, 128 corrected, 112 refused", and at each position as many as there are
/// messages, one of each: asked of each sort and of each position.
fn sorts(bytes: &Bytes) -> Vec<bool> {
    let exact = bytes.iter().filter(|(_, decoded)| matches!(decoded, Decoded::Exact { .. })).count();
    let corrected = bytes.iter().filter(|(_, decoded)| matches!(decoded, Decoded::Corrected { .. })).count();
    let mut held = vec![exact == 16, corrected == 128, bytes.len() - exact - corrected == 112];
    for position in 1..=8 {
        held.push((0..16).all(|message| {
            let wanted = Decoded::Corrected { message, position };
            bytes.iter().filter(|(_, decoded)| *decoded == wanted).count() == 1
        }));
    }
    held
}

/// A line that was received, with the answers to it and to lines and receivers like it.
struct Looked {
    ours: u8,
    sent: Vec<u8>,
    received: Vec<u8>,
    /// Has no Hamming byte more than one wrong bit?
    slight: bool,
    answer: Answer,
    /// To the line as it was sent.
    as_sent: Answer,
    /// To the line with every byte changed that is not examined.
    changed: Answer,
    /// By the other entries.
    by_entries: Vec<Answer>,
    /// By receivers of the same magazine in other states.
    by_others: Vec<Answer>,
    /// Where the line is refused, with the number wanted.
    refused: Vec<(u8, Answer)>,
}

/// A run: its lines, and of each recording that its lines were played as the sums and the answers to the
/// same lines entered one by one.
struct Run {
    lines: Vec<Looked>,
    recordings: Vec<(Mended, Vec<Answer>)>,
}

/// The answer of a receiver that is not altered.
fn asked(receiver: &Receiver, line: &[u8]) -> Answer {
    receive_line(receiver, &mut [0; RECORD_LENGTH], line).0
}

/// Does a line, as received, read as row 0 of a magazine? A byte reads as the message whose sent byte
/// differs from it in at most one bit.
fn reads_as_row_0(line: &[u8], magazine: u8) -> bool {
    let bytes = all_turned(&line[3..5]);
    let reads_as = |byte: u8, message: u8| wrong_bits(byte, SENT[message as usize]) <= 1;
    reads_as(bytes[0], magazine % 8) && reads_as(bytes[1], 0)
}

/// Where the examined bytes of a line end.
fn end_of_examined(line: &[u8], ours: u8) -> usize {
    if reads_as_row_0(line, ours) {
        13
    } else {
        5
    }
}

/// Receivers of the same magazine: new, open, and with none open though with cells of any sort.
fn others(selection: &Selection, random: &mut Random) -> Vec<Receiver> {
    let mut out = vec![new_receiver(selection).1, lawful(true, random), lawful(false, random)];
    for receiver in &mut out {
        receiver.selection.magazine = selection.magazine;
    }
    out
}

/// The line refused by 18, 12, 10 (too short, too long) and 11, and its packet by 18, 12 and 10.
fn refusals(receiver: &Receiver, line: &[u8], random: &mut Random) -> Vec<(u8, Answer)> {
    let mut unlawful = receiver.clone();
    unlawful.marks[random.below(CELLS as u64) as usize] = 3;
    let mut framing = line.to_vec();
    framing[2] = FRAMING ^ random.ones(2);
    let long = [line, &[0]].concat();
    let packet = packet_of_line(line);
    vec![
        (18, asked(&unlawful, line)),
        (12, receive_line(receiver, &mut [0; RECORD_LENGTH - 1], line).0),
        (10, asked(receiver, &line[..44])),
        (10, asked(receiver, &long)),
        (11, asked(receiver, &framing)),
        (18, receive_packet(&unlawful, &mut [0; RECORD_LENGTH], packet).0),
        (12, receive_packet(receiver, &mut [0; RECORD_LENGTH - 1], packet).0),
        (10, receive_packet(receiver, &mut [0; RECORD_LENGTH], &packet[..41]).0),
    ]
}

/// A line looked at; it alters the receiver.
fn looked(receiver: &mut Receiver, sent: Vec<u8>, received: &[u8], slight: bool, random: &mut Random) -> Looked {
    let ours = receiver.selection.magazine;
    let mut changed = received.to_vec();
    let end = end_of_examined(received, ours);
    changed[..2].copy_from_slice(&random.bytes(2));
    changed[end..].copy_from_slice(&random.bytes(45 - end));
    let others = others(&receiver.selection, random);
    let refused = refusals(receiver, received, random);
    let by_packet = receive_packet(receiver, &mut [0; RECORD_LENGTH], packet_of_line(received)).0;
    let (answer, as_sent, changed) = (asked(receiver, received), asked(receiver, &sent), asked(receiver, &changed));
    let by_lent = receive_line_lent(receiver, &mut [0; RECORD_LENGTH], received);
    let by_others = others.iter().map(|other| asked(other, received)).collect();
    let by_entries = vec![by_packet, by_lent];
    Looked { ours, sent, received: received.to_vec(), slight, answer, as_sent, changed, by_entries, by_others, refused }
}

/// Lines played as recordings, each from where the last one stopped, and the same lines one by one.
fn played(selection: &Selection, lines: &[Vec<u8>]) -> Vec<(Mended, Vec<Answer>)> {
    let (mut played_by, mut record) = (new_receiver(selection).1, vec![0; RECORD_LENGTH]);
    let (mut entered_by, mut out, mut used) = (played_by.clone(), Vec::new(), 0);
    while used < lines.len() {
        let played = play(&mut played_by, &mut record, &lines[used..].concat());
        let mut enter = |line: &Vec<u8>| receive_line_lent(&mut entered_by, &mut record, line);
        let entered = lines[used..used + played.lines].iter().map(&mut enter).collect();
        used += played.lines;
        out.push((played.mended, entered));
    }
    out
}

/// A run of some lines: of two one has at most one wrong bit in each Hamming byte, the other any mix.
fn some_run(random: &mut Random) -> Run {
    let selection = any_selection(random);
    let mut receiver = new_receiver(&selection).1;
    let mut broadcaster = Broadcaster::new(&selection, random.pick(&[2, 5, 12]), random);
    let (mut lines, mut recorded) = (Vec::new(), Vec::new());
    for _ in 0..random.between(20, 60) {
        let (row, sent) = broadcaster.next_line(random);
        let slight = random.once_in(2);
        let level = random.pick(&[0, 1, 2, 2]);
        let mut received = damaged(&sent, row, level, random.pick(&[1, 2, 4]), random);
        if !slight {
            mixed_damage(&mut received, row, random);
        }
        lines.push(looked(&mut receiver, sent, &received, slight, random));
        if random.once_in(20) {
            received[2] ^= random.ones(3);
        }
        recorded.push(received);
    }
    Run { lines, recordings: played(&selection, &recorded) }
}

/// Of a line with at most one wrong bit in each Hamming byte the count is the number of examined bytes that
/// were hit, as it was sent: asked of each such line.
fn hits(run: &Run) -> Vec<bool> {
    let holds = |line: &Looked| {
        let our_row_0 = Address::Whole { magazine: line.ours, row: 0 };
        let end = if address(packet_of_line(&line.sent)) == our_row_0 { 13 } else { 5 };
        let hit = (3..end).filter(|place| line.sent[*place] != line.received[*place]).count();
        line.answer.mended as usize == hit
    };
    run.lines.iter().filter(|line| line.slight).map(holds).collect()
}

/// Of a line sent by the rules and not hit it is 0: asked of each line.
fn none(run: &Run) -> Vec<bool> {
    run.lines.iter().map(|line| line.as_sent.number == 0 && line.as_sent.mended == 0).collect()
}

/// "Each count equals the number of such bytes by 01's tests": of the examined bytes those that fail D, with
/// an even count of ones. Asked of each line.
fn tests(run: &Run) -> Vec<bool> {
    let holds = |line: &Looked| {
        let examined = &line.received[3..end_of_examined(&line.received, line.ours)];
        let fail_d = examined.iter().filter(|byte| byte.count_ones() % 2 == 0).count();
        line.answer.mended as usize == fail_d
    };
    run.lines.iter().map(holds).collect()
}

/// Bytes that are not examined do not change it: asked of each line.
fn elsewhere(run: &Run) -> Vec<bool> {
    run.lines.iter().map(|line| line.changed.mended == line.answer.mended).collect()
}

/// Neither what the cells hold nor whether a page is open changes it: asked of each other receiver.
fn states(run: &Run) -> Vec<bool> {
    let of_line = |line: &Looked| {
        let same = |other: &Answer| other.number == 0 && other.mended == line.answer.mended;
        line.by_others.iter().map(same).collect::<Vec<bool>>()
    };
    run.lines.iter().flat_map(of_line).collect()
}

/// Every entry answers the same: asked of the lent entry and of the packet's.
fn entries(run: &Run) -> Vec<bool> {
    run.lines.iter().flat_map(|line| line.by_entries.iter().map(|other| *other == line.answer)).collect()
}

/// "A refused line counts 0": asked of each refusal.
fn refusals_count_none(run: &Run) -> Vec<bool> {
    let zeros = |number| Answer { number, kind: 0, count: 0, closing: CLOSED_NONE, mended: 0 };
    run.lines.iter().flat_map(|line| line.refused.iter().map(|(number, given)| *given == zeros(*number))).collect()
}

/// A recording's sums are those of the same lines entered one by one: asked of each recording.
fn recordings(run: &Run) -> Vec<bool> {
    let holds = |(played, entered): &(Mended, Vec<Answer>)| {
        let sum = |kinds: &[u8]| {
            let of_kinds = entered.iter().filter(|answer| kinds.contains(&answer.kind));
            of_kinds.map(|answer| answer.mended as usize).sum()
        };
        let lines = entered.iter().filter(|answer| answer.mended != 0).count();
        *played == Mended { bytes: sum(&[0, 1, 2, 3, 4, 5]), lines, own: sum(&[1, 2]) }
    };
    run.recordings.iter().map(holds).collect()
}

const BYTE_LAWS: [(&str, Law<Bytes>); 2] = [("bits", bits), ("sorts", sorts)];

const RUN_LAWS: [(&str, Law<Run>); 8] = [
    ("hits", hits),
    ("none", none),
    ("tests", tests),
    ("elsewhere", elsewhere),
    ("states", states),
    ("entries", entries),
    ("refusals", refusals_count_none),
    ("recordings", recordings),
];

/// Print how often each law was asked and how often it failed.
pub fn print(seed: u64, count: u64) {
    let bytes: Bytes = (0..=255).map(|byte| (byte, decode(byte))).collect();
    let mut random = Random::new(seed, 'M');
    let of_bytes = counted_over(&BYTE_LAWS, std::iter::once(bytes));
    let of_runs = counted_over(&RUN_LAWS, (0..count).map(|_| some_run(&mut random)));
    println!("{}; {}", of_bytes, of_runs);
}
