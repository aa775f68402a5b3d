"""The pages of codes on which a display is tried, from document 01 and requests 1 and 5 of document 02 alone: with the worked rows, by hand, refused, by chance.

Nothing here is taken from the code that is tried on them.
"""
import random

from cells import CELLS, COLUMNS, DOUBLE, LAST_DOUBLE, ROWS
from worked_rows import hexes, worked_rows


def text(number):
    """Forty letters of plain text, which start with another letter on each row."""
    return [0x61 + (number + column) % 26 for column in range(COLUMNS)]


def laid(rows):
    """A page of plain text in which some rows start with other codes."""
    page = []
    for number in range(ROWS):
        codes = list(rows.get(number, []))
        page += codes + text(number)[len(codes) :]
    return page


def at(numbers, words):
    """The same codes on each of these rows."""
    return {number: hexes(words) for number in numbers}


def headline(number, column):
    """A row of text with a 0D in one column."""
    return text(number)[:column] + [DOUBLE]


def pages_of_worked_rows():
    """The worked rows, three to a page on rows 0, 23 and 24, and ten or eleven between, each above plain text: on odd rows and on even ones by turns."""
    rows = list(worked_rows())
    place = 0
    for n in range(0, len(rows), 2):
        page = {0: rows[n], 23: rows[(n + 1) % len(rows)], 24: rows[(n + 2) % len(rows)]}
        for number in range(1 + n // 2 % 2, LAST_DOUBLE, 2):
            page[number] = rows[place % len(rows)]
            place += 1
        yield laid(page)


def pages_with_one_0d():
    """One 0D to a page: on the first and the last row where it counts, and on the rows beside them."""
    for number in (0, 1, 2, 21, 22, 23, 24):
        yield laid({number: headline(number, 1)})


def pages_with_0d_in_end_columns():
    """Three 0D to a page, on three rows: in column 0, then in column 39."""
    for column in (0, 39):
        for numbers in ((0, 12, 22), (1, 21, 23), (2, 20, 24)):
            yield laid({number: headline(number, column) for number in numbers})


def pages_of_rows_running():
    """A 0D on two to five rows running, from the top, into each of the last three rows and between; on every row; on every row from 2 on."""
    for runs in (
        ((1, 2), (5, 3), (10, 4), (21, 2)),
        ((0, 2), (4, 3), (9, 4), (22, 2)),
        ((0, 3), (7, 2), (20, 4)),
        ((0, 4), (7, 5), (21, 3)),
        ((0, 2), (7, 3), (23, 2)),
        ((1, 3), (7, 4), (22, 3)),
        ((1, 2), (7, 2), (21, 4)),
        ((0, ROWS),),
        ((2, ROWS - 2),),
    ):
        yield laid({number: headline(number, number) for first, count in runs for number in range(first, first + count)})


def over_pages(rows):
    """Each of these rows on a page of its own, on rows 0, 1, 12, 21, 23 and 24; then all of them on one page, the last on row 22 and again on 24."""
    for words in rows:
        yield laid(at((0, 1, 12, 21, 23, 24), words))
    yield laid({22 - 3 * n: hexes(words) for n, words in enumerate(reversed(rows))} | at((24,), rows[-1]))


def pages_with_0d_undone():
    """A 0D undone by 0C at once, later, more than once, and in the last two columns; a 0C that comes before it."""
    in_the_last_columns = bytes(text(0)[:38] + [DOUBLE, 0x0C]).hex()
    yield from over_pages(("0D 0C", "41 0D 42 43 0C 44", "0D 41 0C 42 0D 43", "41 0C 42 0D 43", "0D 0C 0D 0D 0C 41 0C", in_the_last_columns))


def pages_with_attributes():
    """A background, flash, conceal, a box, and all of them in letters and in mosaics: before the double cells, among them, after them, and
    where a 0D makes none. Then each colour as background."""
    for start, end in (
        ("01 1D 07", "1C"),
        ("08", "09"),
        ("18", "07"),
        ("0B 0B", "0A 0A"),
        ("04 1D 03 08 0B 0B 18", "0A 0A 09 1C 05"),
        ("14 1D 13 08 0B 0B 18", "0A 0A 09 1C 15"),
    ):
        before_the_last = hexes(start) + bytes(text(19)[len(hexes(start)) : 39])
        yield laid({
            1: hexes(f"41 {start} 42 35 0D 43 36 0C 44 37 {end} 45 38"),
            4: hexes(f"41 0D 42 35 {start} 43 36 {end} 44 37 0C 45 38"),
            7: hexes(f"41 0D 42 35 {start} 43 36 0C 44 37 {end} 45 38"),
            10: hexes(f"41 0D 42 35 0C 43 {start} 44 36 {end} 45 38"),
            13: hexes(f"{start} 41 35 {end} 42 0D 0C 43 36"),
            16: hexes(f"{start} 0D 41 35 {end} 42 36"),
            19: before_the_last + bytes([DOUBLE]),
            22: hexes(f"{start} 41 0D 42 35"),
        })
    yield laid({1 + 2 * colour: [colour, 0x1D, 7 - colour, 0x41, 0x0D, 0x42, 0x0C, 0x43] for colour in range(8)})


def pages_of_held_mosaics():
    """Held mosaics before and after a 0D: held goes blank where the 0D counts, and stays on rows 0, 23 and 24."""
    yield from over_pages((
        "11 7F 1E 00 0D 00 35 00 0D 00 0C 00 6A 00 0C 00",
        "12 1A 7F 1E 0D 00 19 00 35 00",
        "13 1E 0D 7F 00 0C 00 0D 00",
        "14 7F 1E 0D 0C 00 35 0C 00",
        "15 7F 0D 1E 00 37 1F 00 1E 00",
        "0D 16 7F 1E 00 06 00 16 00 3F 00",
    ))


def pages_with_rows_below():
    """A row below a doubled one with codes of its own, none of which shows, and the row after it, which starts afresh."""
    everything = "11 1D 17 08 1A 0B 0B 18 1E 7F 0D 35"
    for below in ("0D 41", "41 0C 42", "11 7F 1E 12 00 35", "01 1D 08 18 0B 0B 41", "0D 0C 0D 11 1E 7F 0D", bytes(range(0x20)).hex()):
        rows = at((4,), "41 0D 42") | at((8, 12, 22), everything) | at((5, 9, 13, 15, 23), below)
        yield laid(rows | at((10,), "35 00 41") | at((14, 24), "35 0D 36"))


def pages_that_start_afresh():
    """Rows that leave everything set, and pairs of 0B that are split over two rows; the rows before them as they are, and doubled."""
    for first in (0x00, DOUBLE):
        rows = {2: hexes("11 1D 17 08 1A 0B 0B 18 1E 7F"), 7: [0x0B] * 39, 14: text(14)[:38] + [0x0B], 19: text(19)[:38] + [0x0B]}
        afresh = at((3, 4), "35 00 36") | at((8, 9, 15, 16, 20, 21), "0B 41")
        yield laid({number: [first, *codes] for number, codes in rows.items()} | afresh)


def pages_by_hand():
    yield from pages_with_one_0d()
    yield from pages_with_0d_in_end_columns()
    yield from pages_of_rows_running()
    yield from pages_with_0d_undone()
    yield from pages_with_attributes()
    yield from pages_of_held_mosaics()
    yield from pages_with_rows_below()
    yield from pages_that_start_afresh()


def replaced(page, place, code):
    return page[:place] + [code] + page[place + 1 :]


def refused_pages():
    """The pages that are refused, each beside the nearest that is not."""
    for length in (0, 1, 40, CELLS - COLUMNS - 1, CELLS - COLUMNS, CELLS - COLUMNS + 1, CELLS - 1, CELLS, CELLS + 1, CELLS + COLUMNS):
        yield [0x41] * length
    yield [0x20] * CELLS + [0x80]
    yield [0x80] * (CELLS - 1)
    yield [0x80] * CELLS
    for code in (0x7F, 0x80, 0xC1, 0xFF):
        for place in (0, 1, 20, 39, 40, 500, CELLS - COLUMNS - 1, CELLS - COLUMNS, CELLS - 1):
            yield replaced([0x42] * CELLS, place, code)
    # below a doubled row too, where the code would not be shown; and a 0D with the eighth bit set
    for code in (0x7F, 0x80):
        yield replaced(laid({7: headline(7, 3)}), 8 * COLUMNS + 5, code)
    yield replaced(laid({}), 7 * COLUMNS + 3, 0x80 + DOUBLE)


def chance_row(chance, often, share):
    """A row by chance, of which so much is control codes. Where a share is given, so many rows have a 0D and the others have none."""
    row = [chance.randrange(0x20) if chance.random() < often else chance.randrange(0x20, 0x80) for _ in range(COLUMNS)]
    if share is None:
        return row
    row = [0x0C if code == DOUBLE else code for code in row]
    if chance.random() < share:
        row[chance.randrange(COLUMNS)] = DOUBLE
    return row


def chance_pages():
    """60 pages by chance, the same each time. Half of them are of control codes for the most part; a third has 0D as it falls, a third in a quarter
    of the rows, a third in few rows."""
    chance = random.Random(25)
    for n in range(60):
        often = 0.25 if n % 2 else 0.6
        share = (None, 0.25, 0.05)[n % 3]
        yield sum((chance_row(chance, often, share) for _ in range(ROWS)), [])
