#!/usr/bin/env python3
"""Page records, written and read as the paper's sentences have them: cases and answers for `tests/model/compare -`.

Document 01: "Bit-packed, most significant first: magazine 3 (0 for 8), page tens 4, units 4, hours tens 2, units 4, minutes tens 3, units 4, C4 to C14 in
order 11, clean 1, zero 4; then 960 cells row by row, mark 2 and character 7. In all 1,085 bytes."

Request 5 of document 02: "The record's four zero bits become a row code: 0 is the old form of 1,085 bytes, 1 the new of 1,130. Our reader takes both, an old one
giving row 24 as spaces marked never; the writer makes the new form and needs 1,130 bytes, so only new bytes come back the same."

A record that is read is written again too: one in the new form must give the same bytes, one in the old form the same page in the new form.
"""
ROWS, COLUMNS = 25, 40
CELLS = ROWS * COLUMNS
LAST = ROWS - 1
# The row codes, and the bytes and cells that a record with one has.
OLD, NEW = 0, 1
LENGTHS = {OLD: 1085, NEW: 1130}
CELL_COUNTS = {OLD: CELLS - COLUMNS, NEW: CELLS}
LENGTH = LENGTHS[NEW]
ROOMY = LENGTH + 20
SPACE = 0x20
LENT = b'\xaa'  # every byte of a buffer that is lent


def put(bits, width, value):
    bits.extend((value >> (width - 1 - k)) & 1 for k in range(width))


def packed(page, form=NEW):
    """A page's record in one of the two forms; in the old one row 24 is left out."""
    bits = []
    put(bits, 3, page['magazine'] % 8)
    for name, width in FIELDS:
        put(bits, width, page[name])
    put(bits, 1, page['clean'])
    put(bits, 4, form)
    for character, mark in list(zip(page['characters'], page['marks']))[:CELL_COUNTS[form]]:
        put(bits, 2, mark)
        put(bits, 7, character)
    assert len(bits) == LENGTHS[form] * 8
    return bytes(int(''.join(map(str, bits[k:k + 8])), 2) for k in range(0, len(bits), 8))


FIELDS = [('tens', 4), ('units', 4), ('hours_tens', 2), ('hours_units', 4), ('minutes_tens', 3), ('minutes_units', 4), ('control', 11)]


def page(magazine=1, clean=1, cells=(), **parts):
    """A clean page 100 with spaces marked never, but for what is given; cells are (row, column, mark, character)."""
    made = {name: 0 for name, _ in FIELDS}
    made.update(parts, magazine=magazine, clean=clean, characters=[SPACE] * CELLS, marks=[0] * CELLS)
    for row, column, mark, character in cells:
        made['marks'][row * COLUMNS + column] = mark
        made['characters'][row * COLUMNS + column] = character
    return made


def lawful_cells(p):
    """23: mark 3; mark 0 with a character not 20; row 0 column 0 to 7 not marked 0."""
    return (all(m < 3 for m in p['marks'])
            and all(m != 0 or c == SPACE for c, m in zip(p['characters'], p['marks']))
            and all(m == 0 for m in p['marks'][:8]))


def write_number(p, lent):
    if lent < LENGTH:
        return 12
    if not 1 <= p['magazine'] <= 8:
        return 24
    if any(p[name] >= 1 << width for name, width in FIELDS):
        return 24
    if any(c > 127 for c in p['characters']) or any(m > 3 for m in p['marks']):
        return 24
    if p['tens'] > 9 or p['units'] > 9:
        return 22
    return 0 if lawful_cells(p) else 23


def unpacked(record):
    """A page and a row code. What the record has no cells for is spaces marked never."""
    bits = [(byte >> (7 - k)) & 1 for byte in record for k in range(8)]
    place = 0

    def take(width):
        nonlocal place
        value = 0
        for bit in bits[place:place + width]:
            value = 2 * value + bit
        place += width
        return value

    p = page(magazine=take(3) or 8)
    for name, width in FIELDS:
        p[name] = take(width)
    p['clean'] = take(1)
    code = take(4)
    for cell in range((len(bits) - place) // 9):
        p['marks'][cell] = take(2)
        p['characters'][cell] = take(7)
    return p, code


def read_number(record):
    if len(record) not in LENGTHS.values():
        return 20, None
    p, code = unpacked(record)
    if LENGTHS.get(code) != len(record):
        return 21, None
    if p['tens'] > 9 or p['units'] > 9:
        return 22, None
    if not lawful_cells(p):
        return 23, None
    return 0, p


MARKED_13 = page()
LARGEST = page(magazine=8, tens=9, units=9, hours_tens=3, hours_units=15, minutes_tens=7, minutes_units=15, control=2047,
               cells=[(r, c, 2, 127) for r in range(ROWS) for c in range(COLUMNS) if (r, c) >= (0, 8)])
PLACES = [(0, 8), (0, 23), (0, 39), (1, 0), (1, 20), (1, 39), (23, 0), (23, 20), (23, 39), (24, 0), (24, 20), (24, 39)]
SCATTERED = page(magazine=5, clean=0, tens=3, units=7, hours_tens=1, hours_units=9, minutes_tens=5, minutes_units=8, control=0b10000000001,
                 cells=[(r, c, 1 + k % 2, 0x41 + k) for k, (r, c) in enumerate(PLACES)])
PROMPT = page(cells=[(LAST, c, 2, code) for c, code in enumerate(b'Otters  Bakers  Weather  Puzzle')])
DIGIT_10 = dict(tens=10)
CELL_23 = [(5, 5, 3, 0x41)]
CELL_24 = [(23, 39, 4, 0x41)]
# The same in row 24, which the old form does not have.
LAST_23 = [[(LAST, 0, 3, 0x41)], [(LAST, 39, 3, SPACE)], [(LAST, 0, 0, 0x00)], [(LAST, 39, 0, 0x41)]]
LAST_24 = [[(LAST, 0, 4, SPACE)], [(LAST, 39, 1, 128)]]

WRITTEN = [
    (MARKED_13, LENGTH), (MARKED_13, ROOMY), (LARGEST, ROOMY), (SCATTERED, LENGTH + 1), (PROMPT, LENGTH), (PROMPT, ROOMY),
    # one for each number
    (MARKED_13, 0), (MARKED_13, LENGTHS[OLD] - 1), (MARKED_13, LENGTHS[OLD]), (MARKED_13, LENGTHS[OLD] + 1), (MARKED_13, LENGTH - 1),
    (page(magazine=0), ROOMY), (page(magazine=9), ROOMY), (page(tens=16), ROOMY), (page(control=2048), ROOMY), (page(hours_tens=4), ROOMY),
    (page(minutes_tens=8), ROOMY), (page(minutes_units=16), ROOMY), (page(cells=CELL_24), ROOMY), (page(cells=[(9, 9, 1, 128)]), ROOMY),
    (page(**DIGIT_10), ROOMY), (page(units=10), ROOMY), (page(cells=CELL_23), ROOMY), (page(cells=[(3, 3, 0, 0x41)]), ROOMY), (page(cells=[(0, 7, 1, SPACE)]), ROOMY),
    *((page(cells=cells), ROOMY) for cells in LAST_23 + LAST_24),
    # two at once
    (page(magazine=0), 0), (page(**DIGIT_10), LENGTH - 1), (page(cells=CELL_23), LENGTH - 1), (page(cells=LAST_23[0]), LENGTHS[OLD]), (page(cells=CELL_24, **DIGIT_10), ROOMY),
    (page(cells=CELL_24 + CELL_23), ROOMY), (page(cells=CELL_23, **DIGIT_10), ROOMY),
    *((page(cells=cells + CELL_23, **DIGIT_10), ROOMY) for cells in LAST_24), (page(cells=LAST_23[0], **DIGIT_10), ROOMY),
]


def coded(record, code):
    """A record with another row code, which is the low half of its fifth byte."""
    return record[:4] + bytes([record[4] & 0xF0 | code]) + record[5:]


def mixes(record):
    """A record in the new form, of whatever page, with every mix of row code and length around the borders. It is cut, or made longer by a zero."""
    for code in (OLD, NEW, 2, 15):
        for length in (1084, 1085, 1086, 1129, 1130, 1131):
            yield coded(record, code)[:length].ljust(length, b'\0')


def read_in(form):
    """Records in one form, and such as are near to it."""
    good = packed(SCATTERED, form)
    yield from (packed(p, form) for p in (MARKED_13, LARGEST, SCATTERED))
    # one for each number
    yield from (good[:-1], good + b'\0')
    yield from (coded(good, code) for code in range(16))
    for p in (page(**DIGIT_10), page(units=15), page(cells=CELL_23), page(cells=[(3, 3, 0, 0x41)]), page(cells=[(0, 0, 1, SPACE)]), page(cells=[(0, 7, 2, 0x41)])):
        yield packed(p, form)
    # two at once: 20 before all, 21 before 22 and 23, 22 before 23
    both = packed(page(cells=CELL_23, **DIGIT_10), form)
    yield from (coded(good, 4)[:-1], packed(page(**DIGIT_10), form)[:-1], packed(page(cells=CELL_23), form) + b'\0', both)
    yield from (coded(record, code) for record in (both, packed(page(**DIGIT_10), form), packed(page(cells=CELL_23), form)) for code in (1 - form, 2))


def read_records():
    yield b''
    yield from read_in(OLD)
    yield from read_in(NEW)
    yield from mixes(packed(SCATTERED))
    yield from mixes(packed(page(cells=LAST_23[0])))
    # In row 24; in the old form the same pages can be read.
    for p in (PROMPT, *(page(cells=cells) for cells in LAST_23)):
        yield from (packed(p), packed(p, OLD))
    yield packed(page(cells=LAST_23[0], **DIGIT_10))
    # Two records in the old form, one behind the other; one with a blank row behind it, by either row code.
    old, row = packed(SCATTERED, OLD), packed(MARKED_13)[-45:]
    yield from (old + old, old + row, coded(old + row, NEW))


def form(p):
    """A page's form in a case (tests/model/FORMAT.md)."""
    head = [p['magazine']] + [0] * 7 + [p['clean'], 0] + [p[name] for name, _ in FIELDS[:6]] + [p['control'] >> 8, p['control'] & 255]
    return bytes(head) + bytes(p['characters']) + bytes(p['marks'])


def print_written(p, lent):
    number = write_number(p, lent)
    before = LENT * lent
    after = before if number else packed(p) + before[LENGTH:]
    print('w %s,%s' % (form(p).hex(), before.hex()))
    print('= %02x %s' % (number, after.hex()))


def hold_read(p, record):
    """A page that was read, packed in the record's own form, gives the record; in the old form its row 24 is spaces marked never."""
    row_code = record[4] % 16
    assert packed(p, row_code) == record
    if row_code == OLD:
        assert p['characters'][-COLUMNS:] == [SPACE] * COLUMNS and p['marks'][-COLUMNS:] == [0] * COLUMNS


def print_read(record):
    number, p = read_number(record)
    print('d %s,' % record.hex())
    print('= %02x %s' % (number, (form(p) if p else bytes(len(form(page())))).hex()))
    if p:
        hold_read(p, record)
        print_written(p, LENGTH)


# Marked case 13, in the old form and in the new.
for row_code, fifth in ((OLD, '10'), (NEW, '11')):
    start = packed(MARKED_13, row_code)[:14]
    assert start.hex(' ') == '20 00 00 00 ' + fifth + ' 10 08 04 02 01 00 80 40 20', start.hex(' ')
for p, lent in WRITTEN:
    print_written(p, lent)
for record in read_records():
    print_read(record)
