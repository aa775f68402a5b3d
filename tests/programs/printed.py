"""What the page printer must print, by a model of its own from document 01, "Programs", and requests 1 and 5 of document 02. Nothing here is taken from the project's code."""

# The rows that a 0D makes double; on any other it does nothing.
DOUBLED = range(1, 23)


def printed_row(codes):
    """What a row's own codes print. Colours, flash, box and size never show in it; what is held is always some mosaic, and so a question mark."""
    text, mosaics, hold = "", False, False
    for code in codes:
        hold = hold or code == 0x1E
        if code < 0x20:
            text += "?" if hold and mosaics else " "
        elif code == 0x7F or mosaics and not 0x40 <= code <= 0x5F:
            text += "?"
        else:
            text += chr(code)
        if 0x01 <= code <= 0x07 or 0x11 <= code <= 0x17:
            mosaics = code > 0x10
        hold = hold and code != 0x1F
    return text


def double_cells(codes):
    """Which cells of a row are double: those after a 0D, up to a 0C."""
    cells, double = [], False
    for code in codes:
        double = double and code != 0x0C
        cells.append(double)
        double = double or code == 0x0D
    return cells


def printed_below(codes):
    """What the row below a doubled one prints: the same again under a double cell, and a space under any other."""
    return "".join(letter if double else " " for letter, double in zip(printed_row(codes), double_cells(codes)))


def printed_rows(rows):
    """The lines of a page, from the top: a row from 1 to 22 that has a 0D takes the row below it too, which is not looked at."""
    lines = []
    while len(lines) < len(rows):
        number, codes = len(lines), rows[len(lines)]
        lines.append(printed_row(codes))
        if number in DOUBLED and 0x0D in codes:
            lines.append(printed_below(codes))
    return lines


def printing(page):
    number = page.refused()
    if number:
        return f"refused {number}\n"
    return "".join(line + "\n" for line in printed_rows(page.characters))
