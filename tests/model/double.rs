//! Double height looked at over random pages: what must hold of the cells of every page.

use crate::case_pages::lawful_page;
use crate::display::{display, Cell, Height, Symbol};
use crate::laws::{print_over, Law};
use crate::random::Random;
use crate::record::{CELLS, COLUMNS, ROWS};

/// The rows on which 0D does nothing.
const IDLE: [usize; 3] = [0, 23, 24];

/// A page that is displayed: its codes and its cells.
struct Displayed {
    codes: Vec<u8>,
    cells: Vec<Cell>,
}

impl Displayed {
    /// The codes of a row.
    fn codes_of(&self, row: usize) -> &[u8] {
        &self.codes[row * COLUMNS..(row + 1) * COLUMNS]
    }

    /// The cells of a row.
    fn cells_of(&self, row: usize) -> &[Cell] {
        &self.cells[row * COLUMNS..(row + 1) * COLUMNS]
    }

    /// The cell above a cell, if there is one.
    fn above(&self, place: usize) -> Option<Cell> {
        place.checked_sub(COLUMNS).map(|above| self.cells[above])
    }

    /// Has the row an upper half?
    fn has_upper(&self, row: usize) -> bool {
        self.cells_of(row).iter().any(|cell| cell.height == Height::Upper)
    }

    /// Is the row taken by the one above it? It is where an odd number of rows with a 0D, of rows 1
    /// to 22, stand right above it.
    fn taken(&self, row: usize) -> bool {
        let has_0d = |above: &usize| !IDLE.contains(above) && self.codes_of(*above).contains(&0x0D);
        (0..row).rev().take_while(has_0d).count() % 2 == 1
    }
}

/// What the codes of a row give in the middle of a page of spaces.
fn alone_among_spaces(codes: &[u8]) -> Vec<Cell> {
    let middle = 11 * COLUMNS..12 * COLUMNS;
    let mut page = vec![0x20; CELLS];
    page[middle.clone()].copy_from_slice(codes);
    display(&page).1[middle].to_vec()
}

/// Rows 0, 23 and 24 hold no double cell that they made themselves, and row 23 alone can have one made above:
/// asked of each.
fn ends(page: &Displayed) -> Vec<bool> {
    let normal = |cell: &Cell| cell.height == Height::Normal;
    let made_above = |cell: &Cell| cell.height == Height::Lower && page.taken(23);
    vec![
        page.cells_of(0).iter().all(normal),
        page.cells_of(23).iter().all(|cell| normal(cell) || made_above(cell)),
        page.cells_of(24).iter().all(normal),
    ]
}

/// A row that is not taken is what its codes alone give; on rows 0, 23 and 24 what they give with 00 for
/// 0D. Asked of each such row.
fn alone(page: &Displayed) -> Vec<bool> {
    let of_row = |row: usize| {
        let mut codes = page.codes_of(row).to_vec();
        if IDLE.contains(&row) {
            codes.iter_mut().filter(|code| **code == 0x0D).for_each(|code| *code = 0x00);
        }
        page.cells_of(row) == alone_among_spaces(&codes)
    };
    (0..ROWS).filter(|row| !page.taken(*row)).map(of_row).collect()
}

/// A lower half is its upper half but for the word, and each upper half has one: asked of each half.
fn halves(page: &Displayed) -> Vec<bool> {
    let half = |place: usize| {
        let cell = page.cells[place];
        match cell.height {
            Height::Normal => None,
            Height::Upper => Some(page.cells.get(place + COLUMNS) == Some(&Cell { height: Height::Lower, ..cell })),
            Height::Lower => Some(page.above(place) == Some(Cell { height: Height::Upper, ..cell })),
        }
    };
    (0..CELLS).filter_map(half).collect()
}

/// A normal cell of a row that is taken is a space, and for the rest the normal cell above it: asked
/// of each such cell.
fn spaces(page: &Displayed) -> Vec<bool> {
    let normal = |place: &usize| page.taken(place / COLUMNS) && page.cells[*place].height == Height::Normal;
    let space = |above: Cell| Cell { symbol: Symbol::Letter(0x20), height: Height::Normal, ..above };
    let from_above = |place: usize| {
        page.above(place).is_some_and(|above| above.height == Height::Normal && page.cells[place] == space(above))
    };
    (0..CELLS).filter(normal).map(from_above).collect()
}

/// No two rows running both have an upper half: asked of each row that has one.
fn uppers(page: &Displayed) -> Vec<bool> {
    let next_has_none = |row: usize| row + 1 == ROWS || !page.has_upper(row + 1);
    (0..ROWS).filter(|row| page.has_upper(*row)).map(next_has_none).collect()
}

const LAWS: [(&str, Law<Displayed>); 5] =
    [("ends", ends), ("alone", alone), ("halves", halves), ("spaces", spaces), ("uppers", uppers)];

/// Print how often each law was asked and how often it failed.
pub fn print(seed: u64, count: u64) {
    let mut random = Random::new(seed, 'H');
    let displayed = |i| {
        let codes = lawful_page(i, &mut random);
        let cells = display(&codes).1;
        Displayed { codes, cells }
    };
    print_over(&LAWS, (0..count).map(displayed));
}
