#!/usr/bin/env python3
"""What the programs `cost`, `cost_pages` and `cost_bytes` are given for a piece of work: case.py WORK COUNT, with the way before the work where there are several.

    lines: (value | lent | recording) (other | stored | opening | closing | pair) COUNT
    fields: search (15 | 30 | 60) COUNT      pages: page (letters | controls | doubles | headlines) COUNT
    records: write page COUNT, or read (page | old) COUNT, of which old is in the old form
    pages printed: (ascii | english | german) (letters | controls | doubles | headlines | national) COUNT
    pages sent: send (every | none) COUNT, with every row from 1 to 24 or none of them
    Hamming bytes: (message | wrong | packet) (exact | corrected) COUNT, so many of them: `message` reads the messages, `wrong` the positions of the wrong bits too, `packet`
        the messages of bytes as they stand in a packet

Nothing is a constant of a program, so that nothing is worked out beforehand. All but the Hamming bytes comes from the file `input` beside this script: five pairs of data-lines,
which are taken in turn, two rows of codes, of which pages are made, a field of 60 units, and the record of a page with a header and one row, in the new form.
"""
import os
import sys

with open(os.path.join(os.path.dirname(os.path.abspath(__file__)), "input"), "rb") as file:
    INPUT = file.read()

LINE = 45
OPENING = INPUT[180:180 + LINE]

# A work on lines: where its pair lies, whether a page is open before, whether the receiver of a turn goes on to the next, and how many lines a recording has, where it
# is played once for each turn; else it is played once, and has as many lines as are counted.
LINES = {
    "other": (0, True, True, None),
    "stored": (90, True, True, None),
    "opening": (180, False, False, 1),
    "closing": (360, True, False, 1),
    "pair": (270, False, True, 2),
}
WAYS = {"value": b"l", "lent": b"m", "recording": b"r"}
FIELDS = {"15": 691, "30": 1381, "60": 2761}
ROWS, COLUMNS = 25, 40
LETTERS = INPUT[450:450 + COLUMNS]
MOSAICS = INPUT[490:490 + COLUMNS]

# A page of 25 rows of letters; of control codes and mosaics, without and with a 0D in each row, so that in the second every other row is a lower one; of letters with
# a double-height headline on rows 1, 3, and so on to 21; and of one national code alone, in English an arrow of three bytes.
PAGES = {
    "letters": ROWS * LETTERS,
    "controls": ROWS * MOSAICS.replace(b"\x0d", b"\x00"),
    "doubles": ROWS * MOSAICS,
    "headlines": 11 * (LETTERS + b"\x0d" + LETTERS[1:]) + (ROWS - 22) * LETTERS,
    "national": ROWS * COLUMNS * b"[",
}

# The record; and in the old form, which has the row code 0 and no row 24, of 45 bytes.
RECORD = INPUT[3291:]
RECORDS = {"page": RECORD, "old": RECORD[:4] + bytes([RECORD[4] & 0xF0]) + RECORD[5:-45]}

# Hamming bytes: document 01's sixteen, and those one bit off.
SENT = bytes.fromhex("15 02 49 5E 64 73 38 2F D0 C7 8C 9B A1 B6 FD EA")
HAMMING = {"exact": SENT, "corrected": bytes(byte ^ 1 << bit for byte in SENT for bit in range(8))}
BYTE_WAYS = {"message": b"h", "wrong": b"w", "packet": b"p"}


def part(data):
    return len(data).to_bytes(2, "big") + data


def framed(work, count, data):
    return work + part(count.to_bytes(2, "big")) + part(data)


def on_bytes(way, work, count):
    data = (HAMMING[work] * count)[:count]
    if way == "packet":
        data = bytes(int(f"{byte:08b}"[::-1], 2) for byte in data)
    return BYTE_WAYS[way] + part(data)


def on_lines(way, work, count):
    at, is_open, carried, chunk = LINES[work]
    pair = INPUT[at:at + 2 * LINE]
    first = OPENING if is_open else b""
    if way == "recording":
        lines = (pair * count)[:LINE * (chunk or count)]
        count = count // chunk if chunk else 1
    else:
        lines = pair
    return framed(WAYS[way], count, bytes([carried, len(first)]) + first + lines)


def main(way, work, count):
    count = int(count)
    if way in WAYS:
        return on_lines(way, work, count)
    if way in BYTE_WAYS:
        return on_bytes(way, work, count)
    return {
        "search": lambda: framed(b"f", count, INPUT[530:530 + FIELDS.get(work, 0)]),
        "write": lambda: framed(b"w", count, RECORD),
        "read": lambda: framed(b"d", count, RECORDS.get(work, b"")),
        "send": lambda: framed(b"t", count, bytes([work == "every"]) + RECORD),
        "page": lambda: framed(b"g", count, PAGES.get(work, b"")),
        "ascii": lambda: framed(b"a", count, PAGES.get(work, b"")),
        "english": lambda: framed(b"u", count, b"\x00\x00" + PAGES.get(work, b"")),
        "german": lambda: framed(b"u", count, b"\x00\x01" + PAGES.get(work, b"")),
    }[way]()


sys.stdout.buffer.write(main(*sys.argv[1:]))
