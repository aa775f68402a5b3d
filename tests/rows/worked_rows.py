"""Rows of codes on which a display is tried, made by hand from document 01 and requests 1 and 5 of document 02 alone.

Nothing here is taken from the code that is tried on them.
"""
from cells import COLUMNS


def filled(codes, fill=0x20):
    return list(codes) + [fill] * (COLUMNS - len(codes))


def hexes(words):
    return bytes.fromhex(words)


def marked_rows():
    """The marked cases 9 to 12, and a blank row."""
    yield filled(hexes("11 35 60 7F"))
    yield filled(hexes("11 7F 1E 12 20"))
    yield filled(hexes("0B 0B 41 0A 0A"))
    yield filled(hexes("01 1D 41"))
    yield filled([])


def rows_of_symbols():
    """Every code from 20 up, as letters and as both kinds of mosaics."""
    for start in ("00 00", "11 19", "11 1A"):
        for first in (0x20, 0x40, 0x60):
            yield filled(list(hexes(start)) + list(range(first, first + 0x20)))


def rows_of_control_codes():
    """Every code below 20 between letters, between mosaics, and between held mosaics, which shows whether it is set at its own cell or after
    it; once where every attribute is at its start and once where each is set already."""
    every = hexes("08 0D 18 1A 0B 0B 1E")
    for code in range(0x20):
        yield filled([0x41, code, 0x42, 0x35, code, 0x43])
        yield filled([0x13, 0x35, code, 0x6A, 0x41, code, 0x35])
        yield filled([0x13, 0x1E, 0x35, code, 0x00, 0x6A, code, 0x14, code, 0x00])
        yield filled([0x02, 0x1D, 0x15] + list(every) + [0x37, code, 0x00, 0x75, code, code, 0x00, 0x41])


def rows_that_hold():
    """Hold with each kind of change: of mode, of size, both ways and not really; what a letter does; release and hold again. Then rows
    where the held mosaic keeps its form, and a change to contiguous or separated comes after it."""
    for change in ("01", "11", "0D", "0C", "0D 0D", "0D 0C", "0C 0D", "0D 0D 0C", "0D 0C 0C", "07 17", "17 07", "01 11 12", "41", "5F", "1F 1E", "1F 00 1E"):
        for form in ("19", "1A"):
            yield filled(hexes("16 " + form + " 7E 1E 00 " + change + " 00 " + change + " 00 33 00"))
    yield filled(hexes("11 1E 1A 3F 19 00 3F 1A 00 20 00 12 00 19 60 1A 00"))
    yield filled(hexes("1A 11 3F 1E 00 19 00 07 00 17 00 3F 00"))


def rows_with_boxes():
    """Box pairs and triples and split pairs, from the first column and up to the last."""
    for codes in ("0B", "0B 0B", "0B 0B 0B", "0B 41 0B", "0B 00 0B 0B", "0B 0A 0B 0A", "0B 0B 0A 0B 0A 0A 0B", "0B 0B 0B 0A 0A 0A 0B 0B", "0A 0A 0B 0B 0A 41 0A"):
        yield filled(hexes(codes))
        yield list(hexes("41 " * (COLUMNS - len(hexes(codes)))) + hexes(codes))


def rows_with_attributes():
    """Conceal and reveal, flash and steady, backgrounds."""
    yield filled(hexes("41 18 42 01 43 18 44 11 35 18 35 1E 12 35 18 00 07 41"))
    yield filled(hexes("41 08 42 08 43 09 44 09 45 08 01 42 11 35 09 00"))
    yield filled(hexes("01 1D 02 41 1D 03 1C 41 14 1D 35 17 1C 1D 1D 06 1D 1C"))
    for colour in range(8):
        yield filled([colour, 0x1D, 0x41, 0x10 + colour, 0x35, 0x1D, 0x1C, 0x41])


def rows_with_last_codes():
    """Control codes and characters in the last column."""
    for code in (0x01, 0x08, 0x0C, 0x0D, 0x11, 0x18, 0x1C, 0x1D, 0x1E, 0x1F, 0x20, 0x7F):
        yield list(hexes("12 1E 0D 6B" + " 35" * 35)) + [code]


def worked_rows():
    """The rows that are made by hand, one after the other."""
    yield from marked_rows()
    yield from rows_of_symbols()
    yield from rows_of_control_codes()
    yield from rows_that_hold()
    yield from rows_with_boxes()
    yield from rows_with_attributes()
    yield from rows_with_last_codes()
