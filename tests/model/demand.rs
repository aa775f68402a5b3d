//! Demand 3 looked at over random runs: what a clean closing says about the lines sent (law A),
//! and when a page must close clean (law C).

use crate::bits::all_turned;
use crate::packet::{address, header, packet_of_line, Address, Header};
use crate::random::Random;
use crate::receiver::{new_receiver, page_and_time_match, receive_line, Answer, Selection};
use crate::record::{read_page, Page, RECORD_LENGTH};
use crate::send::{any_selection, damaged, Broadcaster, LAST_SHOWN};

/// One line of a run: as sent, as answered, the record after it, and the damage it suffered.
struct Step {
    sent: Vec<u8>,
    answer: Answer,
    record: Vec<u8>,
    level: u64,
}

/// A run of a new receiver with damage 2 throughout; stretches of it have less.
fn run(selection: &Selection, random: &mut Random) -> Vec<Step> {
    let (_, mut receiver) = new_receiver(selection);
    let mut record = vec![0; RECORD_LENGTH];
    let mut broadcaster = Broadcaster::new(selection, random.pick(&[2, 5, 12]), random);
    let mut level = 0;
    let mut steps = Vec::new();
    for _ in 0..random.between(40, 200) {
        if random.once_in(10) {
            level = random.below(4);
        }
        let (row, sent) = broadcaster.next_line(random);
        let received = damaged(&sent, row, level, random.pick(&[2, 8, 20]), random);
        let (answer, after) = receive_line(&receiver, &mut record, &received);
        receiver = after;
        steps.push(Step { sent, answer, record: record.clone(), level });
    }
    steps
}

/// The magazine and row of a line as sent.
fn sent_address(step: &Step) -> (u8, u8) {
    match address(packet_of_line(&step.sent)) {
        Address::Whole { magazine, row } => (magazine, row),
        _ => panic!("sent by the rules"),
    }
}

/// The header of a row 0 as sent.
fn sent_header(step: &Step) -> Header {
    header(packet_of_line(&step.sent)).expect("sent by the rules")
}

/// The characters of a line as sent, from a place in the packet.
fn sent_text(step: &Step, from: usize) -> Vec<u8> {
    all_turned(&step.sent[3 + from..]).iter().map(|byte| byte & 0x7F).collect()
}

/// Is this line, as sent, a row 0 of our magazine?
fn our_row_0(step: &Step, selection: &Selection) -> bool {
    sent_address(step) == (selection.magazine, 0)
}

/// The last row 0 of our magazine sent before line j.
fn row_0_before(steps: &[Step], j: usize, selection: &Selection) -> Option<usize> {
    (0..j).rev().find(|i| our_row_0(&steps[*i], selection))
}

/// The last line between i and j that sent this row of our magazine.
fn last_sent(steps: &[Step], i: usize, j: usize, selection: &Selection, row: u8) -> Option<usize> {
    (i + 1..j).rev().find(|k| sent_address(&steps[*k]) == (selection.magazine, row))
}

/// The number, time, control bits and header text of the page are those of line i.
fn header_is_of(page: &Page, step: &Step, selection: &Selection) -> bool {
    page.magazine == selection.magazine
        && page.header == sent_header(step)
        && page.clean
        && page.characters[8..40] == sent_text(step, 10)[..]
        && page.marks[8..40].iter().all(|mark| *mark == 2)
        && page.marks[..8].iter().all(|mark| *mark == 0)
}

/// The cells of one row are the last text sent, or none of them is fresh.
fn row_is_of(page: &Page, row: u8, text: Option<Vec<u8>>) -> bool {
    let cells = row as usize * 40..row as usize * 40 + 40;
    match text {
        Some(text) => {
            page.characters[cells.clone()] == text[..] && page.marks[cells].iter().all(|mark| *mark == 2)
        }
        None => page.marks[cells].iter().all(|mark| *mark != 2),
    }
}

/// Law A at a line j that closes clean.
fn law_a(steps: &[Step], j: usize, selection: &Selection) -> bool {
    let Some(i) = row_0_before(steps, j, selection) else {
        return false;
    };
    let (number, page) = read_page(&steps[j].record);
    number == 0
        && our_row_0(&steps[j], selection)
        && steps[i].answer.kind == 2
        && page_and_time_match(selection, &sent_header(&steps[i]))
        && header_is_of(&page, &steps[i], selection)
        && (1..=LAST_SHOWN).all(|row| {
            let text = last_sent(steps, i, j, selection, row).map(|k| sent_text(&steps[k], 2));
            row_is_of(&page, row, text)
        })
}

/// Law C at a row 0 of ours, line j: does it ask for a clean closing, and is there one?
fn law_c(steps: &[Step], j: usize, selection: &Selection) -> Option<bool> {
    let i = row_0_before(steps, j, selection)?;
    let matches = page_and_time_match(selection, &sent_header(&steps[i]));
    let damage_1 = steps[i..=j].iter().all(|step| step.level <= 2);
    let ours_right = steps[i..j].iter().all(|step| sent_address(step).0 != selection.magazine || step.level <= 1);
    if !(matches && damage_1 && ours_right) {
        return None;
    }
    Some(steps[i].answer.kind == 2 && steps[i].answer.count == 32 && steps[j].answer.closing == 1)
}

/// Print how often each law was asked and how often it failed.
pub fn print(seed: u64, count: u64) {
    let mut random = Random::new(seed, 'D');
    let (mut a, mut a_fails, mut c, mut c_fails) = (0, 0, 0, 0);
    for _ in 0..count {
        let selection = any_selection(&mut random);
        let steps = run(&selection, &mut random);
        for j in 0..steps.len() {
            if steps[j].answer.closing == 1 {
                a += 1;
                a_fails += !law_a(&steps, j, &selection) as u64;
            }
            if our_row_0(&steps[j], &selection) {
                if let Some(holds) = law_c(&steps, j, &selection) {
                    c += 1;
                    c_fails += !holds as u64;
                }
            }
        }
    }
    println!("law A asked {} times, failed {}; law C asked {} times, failed {}", a, a_fails, c, c_fails);
}
