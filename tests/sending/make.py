#!/usr/bin/env python3
"""What the program `send` must write for a record and some rows, by a small writer of its own: written from document 01 and requests 2 and 5 of document 02, and for the closing
line from README, with nothing taken from the project's code. The record may be in the old form or in the new.

    make.py [ROWS] < RECORD > LINES     the lines of one transmission and the line that ends it; ROWS as "1-5,20", all where they are left out
    make.py page < RECORD               the page's number, to be asked of `receive`
"""
import sys

# Document 01, "Hamming bytes": messages 0 to 15 are sent as.
SENT = bytes.fromhex("1502495e6473382fd0c78c9ba1b6fdea")
ROWS, COLUMNS = 25, 40
SPACES = COLUMNS * [0x20]


def bits_of(record):
    """The record's bits, the most significant of each byte first."""
    return "".join(f"{byte:08b}" for byte in record)


def parts_of(bits):
    """Magazine, page tens and units, hours tens and units, minutes tens and units, C4 to C14."""
    parts, at = [], 0
    for width in (3, 4, 4, 2, 4, 3, 4):
        parts.append(int(bits[at:at + width], 2))
        at += width
    return parts + [[int(bit) for bit in bits[at:at + 11]]]


def rows_of(bits):
    """The characters of each row: a cell is a mark of two bits, which is not asked here, and seven bits of character. The row that an old record has not is spaces."""
    cells = [int(bits[at + 2:at + 9], 2) for at in range(40, len(bits), 9)]
    rows = [cells[at:at + COLUMNS] for at in range(0, len(cells), COLUMNS)]
    return rows + (ROWS - len(rows)) * [SPACES]


def character(code):
    """Seven bits, and an eighth that makes the count of ones odd."""
    return code if bin(code).count("1") % 2 else code + 128


def line(magazine, row, messages, codes):
    """Run-in, framing code, and the packet's bytes, each the first bit sent first."""
    address = [magazine + 8 * (row % 2), row // 2]
    packet = [SENT[message] for message in address + messages] + [character(code) for code in codes]
    return b"\xaa\xaa\xe4" + bytes(int(f"{byte:08b}"[::-1], 2) for byte in packet)


def weighed(bits):
    """Lowest weight first."""
    return sum(bit << n for n, bit in enumerate(bits))


def header(bits, tens, units):
    """Row 0 with C4 set, whatever the record says. Its first eight columns are not sent."""
    magazine, _, _, hours_tens, hours_units, minutes_tens, minutes_units, control = parts_of(bits)
    c5_to_c14 = control[1:]
    messages = [units, tens, minutes_units, minutes_tens + 8, hours_units, hours_tens + 4 * weighed(c5_to_c14[:2]),
                weighed(c5_to_c14[2:6]), weighed(c5_to_c14[6:])]
    return line(magazine, 0, messages, rows_of(bits)[0][8:])


def chosen(argument):
    """The rows that an argument names."""
    rows = set()
    for part in argument.split(","):
        first, _, last = part.partition("-")
        rows |= set(range(int(first), int(last or first) + 1))
    return rows


def main(argument=f"1-{ROWS - 1}"):
    bits = bits_of(sys.stdin.buffer.read())
    magazine, tens, units = parts_of(bits)[:3]
    if argument == "page":
        print(f"{magazine or 8}{tens}{units}")
        return
    lines = [header(bits, tens, units)]
    lines += [line(magazine, row, [], rows_of(bits)[row]) for row in sorted(chosen(argument))]
    # The closing header is of page FF.
    sys.stdout.buffer.write(b"".join(lines) + header(bits, 15, 15))


main(*sys.argv[1:])
