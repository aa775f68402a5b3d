"""What the model is held to by itself, from document 01 and requests 1 and 5 of document 02 alone: small examples, and laws of every page.

Nothing here is taken from the code that is tried by the model.
"""
from cells import BLANK, CELLS, COLUMNS, DOUBLE, EDGES, LAST_DOUBLE, LOWER, NORMAL, ROWS, SPACE, UPPER, Cell, answer, row_of_its_own, rows_of, shown_rows
from pages import at, headline, laid, text
from worked_rows import hexes, worked_rows


def row_of_a_page(number, words):
    return shown_rows(laid({number: hexes(words)}))[number]


def marked_cases():
    """The cases 9 to 12 as document 01 has them, on a row of a page: the model itself is held to them."""
    assert [cell.symbol for cell in row_of_a_page(5, "11 35 60 7F")[1:4]] == [("C", 21), ("C", 32), ("C", 63)]
    held = row_of_a_page(6, "11 7F 1E 12 20")
    assert held[0].symbol == SPACE
    assert [cell[:2] for cell in held[1:5]] == [(("C", 63), 1), (("C", 63), 1), (("C", 63), 1), (("C", 0), 2)]
    boxed = row_of_a_page(7, "0B 0B 41 0A 0A")
    assert [column for column, cell in enumerate(boxed) if cell.boxed] == [1, 2, 3]
    assert row_of_a_page(8, "01 1D 41")[2][:3] == (("L", 0x41), 1, 1)


def headline_cases():
    """The sentences of request 1 on small examples: the model itself is held to them."""
    above, below = shown_rows(laid(at((1, 2), "41 0D 42 0C 43")))[1:3]
    assert [(cell.symbol[1], cell.height) for cell in above[:5]] == [(0x41, NORMAL), (0x20, NORMAL), (0x42, UPPER), (0x20, NORMAL), (0x43, NORMAL)]
    assert [(cell.symbol[1], cell.height) for cell in below[:5]] == [(0x20, NORMAL), (0x20, NORMAL), (0x42, LOWER), (0x20, NORMAL), (0x20, NORMAL)]
    assert all(cell.symbol == SPACE for cell in shown_rows(laid({5: headline(5, 39)}))[6])
    red = shown_rows(laid(at((22,), "01 1D 07 08 41 0D 42")))[23]
    assert red[4] == Cell(SPACE, 7, 1, True, False, False, NORMAL) and red[6] == Cell(("L", 0x42), 7, 1, True, False, False, LOWER)
    for number in range(ROWS):
        held = row_of_a_page(number, "11 7F 1E 0D 00 35")
        assert [cell.symbol for cell in held[3:6]] == [("C", 63), ("C", 63) if number in EDGES else BLANK, ("C", 21)]
    heights = [max(cell.height for cell in row) for row in shown_rows([DOUBLE] * CELLS)]
    assert heights == [NORMAL] + [UPPER, LOWER] * 11 + [NORMAL] * 2


def last_row_cases():
    """The sentence of request 5 on small examples: rows 23 and 24 can't be double, and row 23 can be the lower half of row 22."""
    last = shown_rows(laid(at((22, 23, 24), "41 0D 42")))[22:]
    assert [[(cell.symbol[1], cell.height) for cell in row[:3]] for row in last] == [
        [(0x41, NORMAL), (0x20, NORMAL), (0x42, UPPER)],
        [(0x20, NORMAL), (0x20, NORMAL), (0x42, LOWER)],
        [(0x41, NORMAL), (0x20, NORMAL), (0x42, NORMAL)],
    ]
    for number in (23, 24):
        plain, doubled = shown_rows(laid({})), shown_rows(laid(at((number,), "0D")))
        assert plain[:number] == doubled[:number] and plain[number + 1:] == doubled[number + 1:] and plain[number][1:] == doubled[number][1:]
        assert doubled[number][0] == Cell(SPACE, 7, 0, False, False, False, NORMAL)


def below_a_doubled_row(rows, number):
    """Whether the row above can be double, and the rows with a 0D that run up to this one, row 0 left out, are odd in number."""
    if number - 1 in EDGES:
        return False
    running = 0
    while number - running > 1 and DOUBLE in rows[number - running - 1]:
        running += 1
    return running % 2 == 1


def lower_row_law(above, below):
    """A lower half is its upper half but for the word; under any other cell is a space of normal height with the colours and the rest of that cell."""
    for upper, lower in zip(above, below):
        assert lower[1:6] == upper[1:6]
        if upper.height == UPPER:
            assert lower.height == LOWER and lower.symbol == upper.symbol
        else:
            assert upper.height == lower.height == NORMAL and lower.symbol == SPACE


def edge_law(displayed):
    """Rows 0 and 24 hold no double cell, and row 23 none that it made itself."""
    assert all(cell.height == NORMAL for number in (0, 24) for cell in displayed[number])
    assert all(cell.height == NORMAL or cell.height == LOWER and above.height == UPPER for above, cell in zip(displayed[LAST_DOUBLE], displayed[LAST_DOUBLE + 1]))


def upper_law(displayed):
    """No two rows running are both upper, and no row is upper in one cell and lower in another."""
    heights = [{cell.height for cell in row} for row in displayed]
    assert not any(UPPER in first and UPPER in second for first, second in zip(heights, heights[1:]))
    assert not any({UPPER, LOWER} <= row for row in heights)


def page_laws(page):
    """What holds of every page. A row that is not below a doubled one is what its codes alone give; the codes of one that is don't count."""
    assert len(page) == CELLS
    rows, displayed = rows_of(page), shown_rows(page)
    hidden = [number for number in range(ROWS) if below_a_doubled_row(rows, number)]
    for number in range(ROWS):
        if number in hidden:
            lower_row_law(displayed[number - 1], displayed[number])
        else:
            assert displayed[number] == row_of_its_own(number, rows[number])
    edge_law(displayed)
    upper_law(displayed)
    for other in ([DOUBLE] * COLUMNS, text(0)):
        assert displayed == shown_rows(sum((other if number in hidden else codes for number, codes in enumerate(rows)), []))


def layout_law(pages):
    """Every worked row is shown on row 0, 23 or 24 of some page and on a row between of some page. There the row below is taken where it has a 0D."""
    at_edges, between = set(), set()
    for rows in map(rows_of, pages):
        for number, codes in enumerate(rows):
            if not below_a_doubled_row(rows, number):
                (at_edges if number in EDGES else between).add(bytes(codes))
                assert number in EDGES or below_a_doubled_row(rows, number + 1) == (DOUBLE in codes)
    assert {bytes(codes) for codes in worked_rows()} <= at_edges & between


def refusal_law(pages):
    """Of the pages beside the refused ones eleven are taken: one of 1,000 letters, nine with a 7F, and one with a 7F below a doubled row."""
    assert [answer(page)[0] for page in pages].count(0) == 11


def all_hold(worked, by_hand, refused, by_chance):
    """Stops at the first example or law that does not hold."""
    marked_cases()
    headline_cases()
    last_row_cases()
    layout_law(worked)
    refusal_law(refused)
    for page in worked + by_hand + by_chance:
        page_laws(page)
