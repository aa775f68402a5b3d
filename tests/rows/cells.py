"""A plain model of the section "Display cells" and of double height over the page, from document 01 and requests 1 and 5 of document 02 alone.

Nothing here is taken from the code that is tried by it.
"""
from collections import namedtuple

ROWS, COLUMNS = 25, 40
CELLS = ROWS * COLUMNS
# The last row that can be double, and the rows on which a 0D does nothing: the header, and the two below that row.
LAST_DOUBLE = 22
EDGES = (0, LAST_DOUBLE + 1, LAST_DOUBLE + 2)
DOUBLE = 0x0D
NORMAL, UPPER, LOWER = 0, 1, 2
SPACE = ("L", 0x20)
BLANK = ("C", 0)

Cell = namedtuple("Cell", "symbol foreground background flash conceal boxed height")
ZERO = Cell(("L", 0), 0, 0, False, False, False, NORMAL)


class State:
    """The start of every row: letters, white on black, steady, revealed, unboxed, normal, contiguous, hold off, held blank."""

    def __init__(self):
        self.mosaics = False
        self.foreground, self.background = 7, 0
        self.flash = self.conceal = self.boxed = self.double = False
        self.separated = False
        self.hold = False
        self.held = BLANK
        self.before = None


def own_cell(state, code):
    """Effects at a code's own cell, which come before it is shown."""
    if code == 0x09:
        state.flash = False
    elif code == 0x0C:
        if state.double:
            state.held = BLANK
        state.double = False
    elif code == 0x18:
        state.conceal = True
    elif code == 0x19:
        state.separated = False
    elif code == 0x1A:
        state.separated = True
    elif code == 0x1C:
        state.background = 0
    elif code == 0x1D:
        state.background = state.foreground
    elif code == 0x1E:
        state.hold = True
    elif code == 0x0B and state.before == 0x0B:
        state.boxed = True
    elif code == 0x0A and state.before == 0x0A:
        state.boxed = False


def pattern(code):
    bit = lambda n: code >> (n - 1) & 1
    return bit(1) + 2 * bit(2) + 4 * bit(3) + 8 * bit(4) + 16 * bit(5) + 32 * bit(7)


def shown(state, code):
    if code < 0x20:
        return state.held if state.hold and state.mosaics else SPACE
    if state.mosaics and (0x20 <= code <= 0x3F or 0x60 <= code <= 0x7F):
        state.held = ("S" if state.separated else "C", pattern(code))
        return state.held
    return ("L", code)


def after_cell(state, code):
    """Effects after a code's cell."""
    if 0x01 <= code <= 0x07 or 0x11 <= code <= 0x17:
        mosaics = code >= 0x11
        if mosaics != state.mosaics:
            state.held = BLANK
        state.mosaics = mosaics
        state.foreground = code & 7
        state.conceal = False
    elif code == 0x08:
        state.flash = True
    elif code == 0x0D:
        if not state.double:
            state.held = BLANK
        state.double = True
    elif code == 0x1F:
        state.hold = False
    state.before = code


def cells(codes):
    """The cells of a row from its codes alone; a double cell is an upper half."""
    state = State()
    row = []
    for code in codes:
        own_cell(state, code)
        symbol = shown(state, code)
        height = UPPER if state.double else NORMAL
        row.append(Cell(symbol, state.foreground, state.background, state.flash, state.conceal, state.boxed, height))
        after_cell(state, code)
    return row


def row_of_its_own(number, codes):
    """A row that shows its own codes. On rows 0, 23 and 24 a 0D is a control code like 00."""
    if number in EDGES:
        codes = [0x00 if code == DOUBLE else code for code in codes]
    return cells(codes)


def cell_below(above):
    """Under a double cell its lower half, under any other a space; all else is as in the cell above."""
    if above.height == UPPER:
        return above._replace(height=LOWER)
    return above._replace(symbol=SPACE)


def rows_of(page):
    return [page[start : start + COLUMNS] for start in range(0, CELLS, COLUMNS)]


def shown_rows(page):
    """The rows of a page from the top. A row from 1 to 22 that has a 0D takes the row below it, which is not looked at."""
    rows, taken = [], False
    for number, codes in enumerate(rows_of(page)):
        if taken:
            rows.append([cell_below(above) for above in rows[-1]])
            taken = False
        else:
            rows.append(row_of_its_own(number, codes))
            taken = number not in EDGES and DOUBLE in codes
    return rows


def answer(page):
    if len(page) == CELLS and all(0x00 <= code <= 0x7F for code in page):
        return 0, sum(shown_rows(page), [])
    return 25, [ZERO] * CELLS
