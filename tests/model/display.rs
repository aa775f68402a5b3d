//! Display cells of a page: 25 rows of 40 codes.

use crate::bits::b;
use crate::record::{CELLS, COLUMNS, ROWS};

/// "A letter with its code, or a mosaic with six bits and contiguous or separated."
#[derive(Clone, Copy, PartialEq, Debug)]
pub enum Symbol {
    Letter(u8),
    Mosaic { pattern: u8, separated: bool },
}

/// Normal, or double: "a cell gains "upper" or "lower" beside double".
#[derive(Clone, Copy, PartialEq, Debug)]
pub enum Height {
    Normal,
    Upper,
    Lower,
}

/// A cell: its symbol, foreground and background, flash, conceal, boxed, height.
#[derive(Clone, Copy, PartialEq, Debug)]
pub struct Cell {
    pub symbol: Symbol,
    pub foreground: u8,
    pub background: u8,
    pub flash: bool,
    pub conceal: bool,
    pub boxed: bool,
    pub height: Height,
}

/// The state along a row.
struct State {
    mosaics: bool,
    foreground: u8,
    background: u8,
    flash: bool,
    conceal: bool,
    boxed: bool,
    double: bool,
    separated: bool,
    hold: bool,
    held: Symbol,
}

/// "Held blank (mosaic 0, contiguous)."
const BLANK: Symbol = Symbol::Mosaic { pattern: 0, separated: false };

/// The zero cell, beside refusal 25.
pub fn zero_cell() -> Cell {
    Cell {
        symbol: Symbol::Letter(0),
        foreground: 0,
        background: 0,
        flash: false,
        conceal: false,
        boxed: false,
        height: Height::Normal,
    }
}

/// "Starting letters, white on black, steady, revealed, unboxed, normal, contiguous, hold off,
/// held blank."
fn start() -> State {
    State {
        mosaics: false,
        foreground: 7,
        background: 0,
        flash: false,
        conceal: false,
        boxed: false,
        double: false,
        separated: false,
        hold: false,
        held: BLANK,
    }
}

/// "25 asks for 1,000 codes", of 00 to 7F.
fn cause_25(codes: &[u8]) -> bool {
    codes.len() != CELLS || codes.iter().any(|code| *code > 0x7F)
}

/// 0C: normal; "held goes blank when [...] size really changes".
fn normal(state: &mut State) {
    if state.double {
        state.held = BLANK;
    }
    state.double = false;
}

/// "Taking effect at their own cell."
fn at_own_cell(state: &mut State, code: u8) {
    match code {
        0x09 => state.flash = false,
        0x0C => normal(state),
        0x18 => state.conceal = true,
        0x19 => state.separated = false,
        0x1A => state.separated = true,
        0x1C => state.background = 0,
        0x1D => state.background = state.foreground,
        0x1E => state.hold = true,
        _ => {}
    }
}

/// "0B right after 0B boxes from the second; 0A right after 0A unboxes from the second."
fn boxing(state: &mut State, before: Option<u8>, code: u8) {
    if code == 0x0B && before == Some(0x0B) {
        state.boxed = true;
    }
    if code == 0x0A && before == Some(0x0A) {
        state.boxed = false;
    }
}

/// "The pattern b1 + 2·b2 + 4·b3 + 8·b4 + 16·b5 + 32·b7."
pub fn pattern(code: u8) -> u8 {
    b(code, 1) + 2 * b(code, 2) + 4 * b(code, 3) + 8 * b(code, 4) + 16 * b(code, 5) + 32 * b(code, 7)
}

/// Codes 20 to 3F and 60 to 7F.
fn mosaic_code(code: u8) -> bool {
    (0x20..=0x3F).contains(&code) || (0x60..=0x7F).contains(&code)
}

/// What is shown; a mosaic shown from its code becomes held.
fn shown(state: &mut State, code: u8) -> Symbol {
    if code < 0x20 {
        return if state.hold && state.mosaics { state.held } else { Symbol::Letter(0x20) };
    }
    if state.mosaics && mosaic_code(code) {
        state.held = Symbol::Mosaic { pattern: pattern(code), separated: state.separated };
        return state.held;
    }
    Symbol::Letter(code)
}

/// Letters or mosaics in a colour; "both also reveal"; held goes blank where they really change.
fn colour(state: &mut State, mosaics: bool, code: u8) {
    if state.mosaics != mosaics {
        state.held = BLANK;
    }
    state.mosaics = mosaics;
    state.foreground = code % 8;
    state.conceal = false;
}

/// 0D: double, after its cell.
fn double(state: &mut State) {
    if !state.double {
        state.held = BLANK;
    }
    state.double = true;
}

/// "After their cell."
fn after_cell(state: &mut State, code: u8) {
    match code {
        0x01..=0x07 => colour(state, false, code),
        0x11..=0x17 => colour(state, true, code),
        0x08 => state.flash = true,
        0x0D => double(state),
        0x1F => state.hold = false,
        _ => {}
    }
}

/// One cell: effects at its own cell, what is shown, effects after it.
fn cell(state: &mut State, before: Option<u8>, code: u8) -> Cell {
    at_own_cell(state, code);
    boxing(state, before, code);
    let cell = Cell {
        symbol: shown(state, code),
        foreground: state.foreground,
        background: state.background,
        flash: state.flash,
        conceal: state.conceal,
        boxed: state.boxed,
        height: if state.double { Height::Upper } else { Height::Normal },
    };
    after_cell(state, code);
    cell
}

/// What the codes of a row give alone.
fn row_alone(codes: &[u8]) -> Vec<Cell> {
    let mut state = start();
    let mut cells = Vec::new();
    for column in 0..COLUMNS {
        let before = if column == 0 { None } else { Some(codes[column - 1]) };
        cells.push(cell(&mut state, before, codes[column]));
    }
    cells
}

/// The rows that can be double: not row 0, and "rows 23 and 24 can't be double".
const CAN_BE_DOUBLE: std::ops::RangeInclusive<usize> = 1..=22;

/// On the other rows "the code 0D does nothing": there it is a control code like 00.
fn obeyed(row: usize, codes: &[u8]) -> Vec<u8> {
    let idle = !CAN_BE_DOUBLE.contains(&row);
    codes.iter().map(|code| if idle && *code == 0x0D { 0x00 } else { *code }).collect()
}

/// "Where a displayed row from 1 to 22 has a 0D code, the row below doesn't show its own
/// characters": in whatever column the code stands, and whatever comes after it.
fn takes_the_row_below(row: usize, codes: &[u8]) -> bool {
    CAN_BE_DOUBLE.contains(&row) && codes.contains(&0x0D)
}

/// "Under a double cell it shows that cell's lower half, under any other a space on that cell's
/// background"; "all else is as in the cell above".
fn cell_below(above: &Cell) -> Cell {
    match above.height {
        Height::Normal => Cell { symbol: Symbol::Letter(0x20), ..*above },
        Height::Upper | Height::Lower => Cell { height: Height::Lower, ..*above },
    }
}

/// The rows from the top; one that the row above takes "isn't searched for 0D itself".
fn page_cells(codes: &[u8]) -> Vec<Cell> {
    let mut cells: Vec<Cell> = Vec::new();
    let mut taken = false;
    for row in 0..ROWS {
        let own = &codes[row * COLUMNS..(row + 1) * COLUMNS];
        let displayed: Vec<Cell> = if taken {
            cells[(row - 1) * COLUMNS..].iter().map(cell_below).collect()
        } else {
            row_alone(&obeyed(row, own))
        };
        cells.extend(displayed);
        taken = !taken && takes_the_row_below(row, own);
    }
    cells
}

/// The number and the page's 1,000 cells, row by row.
pub fn display(codes: &[u8]) -> (u8, Vec<Cell>) {
    if cause_25(codes) {
        return (25, vec![zero_cell(); CELLS]);
    }
    (0, page_cells(codes))
}
