//! National letters looked at over all letters, all control bits and all numbers, and over random pages: what
//! must hold of every letter, form and text.

use crate::answers::answer;
use crate::case_letters::lawful_national_page;
use crate::case_pages::{spoil, SPOILINGS};
use crate::display::{display, Cell, Height, Symbol};
use crate::laws::{counted_over, Law};
use crate::national::{english_stands_in, letter, value, LONGEST_TEXT, THIRTEEN, VALUES};
use crate::random::Random;
use crate::record::{CELLS, COLUMNS, ROWS};
use crate::text::{form_bytes, of_two_bytes, Case};

/// The letter of every code under every value.
type Letters = Vec<Vec<char>>;

/// Is the code one of the thirteen?
fn national(code: u8) -> bool {
    THIRTEEN.as_bytes().contains(&code)
}

/// "Codes outside the thirteen give the same letter in each", the code itself: asked of each such code.
fn outside(letters: &Letters) -> Vec<bool> {
    let own_letter = |code: u8| letters.iter().all(|of_value| of_value[code as usize] as u32 == code as u32);
    (0..=255).filter(|code| !national(*code)).map(own_letter).collect()
}

/// "Every letter's UTF-8 form reads back as that letter", and as nothing more: asked of each letter.
fn forms(letters: &Letters) -> Vec<bool> {
    let reads_back = |letter: &char| {
        let [count, form @ ..] = form_bytes(*letter as u32);
        let read = std::str::from_utf8(&form[..count as usize]);
        read.is_ok_and(|read| read.chars().eq([*letter]))
    };
    letters.iter().flatten().map(reads_back).collect()
}

/// In one set no two codes from 20 to 7E have the same letter: asked of each code under each value.
fn once(letters: &Letters) -> Vec<bool> {
    let of_value = |of_value: &Vec<char>| {
        let shown = of_value[0x20..=0x7E].to_vec();
        let alone = |letter: &char| shown.iter().filter(|other| *other == letter).count() == 1;
        shown.iter().map(alone).collect::<Vec<bool>>()
    };
    letters.iter().flat_map(of_value).collect()
}

/// Where English stands in, its letters do: asked of each code.
fn english(letters: &Letters) -> Vec<bool> {
    letters[0].iter().zip(&letters[7]).map(|(english, standing_in)| english == standing_in).collect()
}

/// C12 to C14 alone matter, and of their values 7 alone has no set: asked of each number of control bits.
fn values(control: &u16) -> Vec<bool> {
    let low = control % VALUES;
    let same_letter = |code: u8| letter(*control, code) == letter(low, code);
    vec![value(*control) == low && english_stands_in(*control) == (low == 7) && THIRTEEN.bytes().all(same_letter)]
}

/// A form is the shortest that holds its number, six bits in each byte but the first; surrogates and numbers past
/// 10FFFF have none. Asked of each number.
fn numbers(number: &u32) -> Vec<bool> {
    let [count, form @ ..] = form_bytes(*number);
    let (marker, length) = match number {
        0xD800..=0xDFFF | 0x11_0000.. => return vec![(count, form) == (0, [0; 4])],
        0..=0x7F => (0x00, 1),
        0x80..=0x7FF => (0xC0, 2),
        0x800..=0xFFFF => (0xE0, 3),
        _ => (0xF0, 4),
    };
    let six = |place: usize| (number >> (6 * (length - 1 - place))) as u8;
    let wanted = std::array::from_fn(|place| match place {
        0 => marker | six(0),
        _ if place < length => 0x80 | (six(place) & 0x3F),
        _ => 0,
    });
    vec![(count as usize, form) == (length, wanted)]
}

/// A page printed: its cells, the answers under each value, those with other bits above each value, and those to
/// the page spoiled.
struct Page {
    cells: Vec<Cell>,
    answers: Vec<Vec<u8>>,
    above: Vec<Vec<u8>>,
    refused: Vec<Vec<u8>>,
}

impl Page {
    /// The letters of the text under a value, row by row and without line feeds; a zero where one is missing.
    fn letters(&self, value: usize) -> Vec<char> {
        let mut letters: Vec<char> = text(&self.answers[value]).chars().filter(|letter| *letter != '\n').collect();
        letters.resize(CELLS, '\0');
        letters
    }

    /// The letters under each value.
    fn letters_of_each(&self) -> Vec<Vec<char>> {
        (0..VALUES as usize).map(|value| self.letters(value)).collect()
    }
}

/// The bytes of the text that an answer says it has.
fn text_bytes(answer: &[u8]) -> &[u8] {
    &answer[4..4 + of_two_bytes(&answer[2..4])]
}

/// The text of an answer; none where it is not UTF-8.
fn text(answer: &[u8]) -> &str {
    std::str::from_utf8(text_bytes(answer)).unwrap_or_default()
}

/// The answer to a page as text.
fn printed(control: u16, codes: &[u8]) -> Vec<u8> {
    answer(&Case::alone('o', [&control.to_be_bytes()[..], codes].concat()))
}

/// A random page, printed.
fn some_page(i: u64, random: &mut Random) -> Page {
    let codes = lawful_national_page(i, random);
    let mut with_others = |value: u16| printed(random.next() as u16 / VALUES * VALUES + value, &codes);
    let above = (0..VALUES).map(&mut with_others).collect();
    let mut spoiled = |turn: u64| {
        let mut codes = codes.clone();
        spoil(&mut codes, turn, random);
        printed(turn as u16 % VALUES, &codes)
    };
    let refused = [i % SPOILINGS, 7].map(&mut spoiled).to_vec();
    let answers = (0..VALUES).map(|value| printed(value, &codes)).collect();
    Page { cells: display(&codes).1, answers, above, refused }
}

/// The text is UTF-8 of 25 lines of 40 letters, behind it are zeros, and value 7 alone says that English stands
/// in: asked of each value.
fn lines(page: &Page) -> Vec<bool> {
    let holds = |(value, answer): (usize, &Vec<u8>)| {
        let length = text_bytes(answer).len();
        let lines: Vec<&str> = text(answer).split_terminator('\n').collect();
        answer[..2] == [0, (value == 7) as u8]
            && lines.len() == ROWS
            && lines.iter().all(|line| line.chars().count() == COLUMNS)
            && text(answer).ends_with('\n')
            && answer.len() == 4 + LONGEST_TEXT
            && answer[4 + length..].iter().all(|byte| *byte == 0)
    };
    page.answers.iter().enumerate().map(holds).collect()
}

/// Value 7 prints the same as value 0: asked of each page.
fn seven(page: &Page) -> Vec<bool> {
    vec![page.answers[7][2..] == page.answers[0][2..]]
}

/// What stands above C12 changes nothing: asked of each value.
fn above(page: &Page) -> Vec<bool> {
    page.answers.iter().zip(&page.above).map(|(answer, above)| answer == above).collect()
}

/// Two sets print differently only where a letter with one of the thirteen codes is shown, and there what the code
/// is in each: asked of each such cell.
fn places(page: &Page) -> Vec<bool> {
    let of_each = page.letters_of_each();
    let holds = |place: usize| {
        let own = |value: usize, code: u8| of_each[value][place] == letter(value as u16, code);
        match page.cells[place].symbol {
            Symbol::Letter(code) if national(code) => Some((0..VALUES as usize).all(|value| own(value, code))),
            _ if of_each.iter().any(|letters| letters[place] != of_each[0][place]) => Some(false),
            _ => None,
        }
    };
    (0..CELLS).filter_map(holds).collect()
}

/// Mosaics and 7F print "?", every other letter outside the thirteen its own code: asked of each such cell.
fn symbols(page: &Page) -> Vec<bool> {
    let english = page.letters(0);
    let holds = |place: usize| match page.cells[place].symbol {
        Symbol::Mosaic { .. } | Symbol::Letter(0x7F) => Some(english[place] == '?'),
        Symbol::Letter(code) if !national(code) => Some(english[place] == code as char),
        _ => None,
    };
    (0..CELLS).filter_map(holds).collect()
}

/// A lower half prints its letter again: asked of each upper half.
fn halves(page: &Page) -> Vec<bool> {
    let of_each = page.letters_of_each();
    let again = |place: usize| of_each.iter().all(|letters| letters[place + COLUMNS] == letters[place]);
    (0..CELLS).filter(|place| page.cells[*place].height == Height::Upper).map(again).collect()
}

/// Behind a refusal are zeros: asked of each page refused.
fn refusals(page: &Page) -> Vec<bool> {
    let zeros_behind = |answer: &Vec<u8>| {
        answer.len() == 4 + LONGEST_TEXT && answer[0] == 25 && answer[1..].iter().all(|byte| *byte == 0)
    };
    page.refused.iter().map(zeros_behind).collect()
}

const LETTER_LAWS: [(&str, Law<Letters>); 4] =
    [("outside", outside), ("forms", forms), ("once", once), ("english", english)];

const CONTROL_LAWS: [(&str, Law<u16>); 1] = [("values", values)];

const NUMBER_LAWS: [(&str, Law<u32>); 1] = [("numbers", numbers)];

const PAGE_LAWS: [(&str, Law<Page>); 7] = [
    ("lines", lines),
    ("seven", seven),
    ("above", above),
    ("places", places),
    ("symbols", symbols),
    ("halves", halves),
    ("refusals", refusals),
];

/// Every number up to some past the last that has a form, and then one for each sixteen high bits.
fn some_of_all_numbers() -> impl Iterator<Item = u32> {
    (0..=0x11_FFFF).chain((0x12..=0xFFFF).map(|high| (high << 16) + 0x41))
}

/// Print how often each law was asked and how often it failed.
pub fn print(seed: u64, count: u64) {
    let letters: Letters = (0..VALUES).map(|value| (0..=255).map(|code| letter(value, code)).collect()).collect();
    let mut random = Random::new(seed, 'N');
    let counted = [
        counted_over(&LETTER_LAWS, std::iter::once(letters)),
        counted_over(&CONTROL_LAWS, 0..=u16::MAX),
        counted_over(&NUMBER_LAWS, some_of_all_numbers()),
        counted_over(&PAGE_LAWS, (0..count).map(|i| some_page(i, &mut random))),
    ];
    println!("{}", counted.join("; "));
}
