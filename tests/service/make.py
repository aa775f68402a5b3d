"""Writes a recording of a small teletext service to standard output.

    python3 make.py > stdin
    python3 make.py earlier > earlier
    python3 make.py lost > lost

What is sent, and with which damage, stands in plan.py; here it becomes bytes.
Which code shows which letter stands in tests/published/letters.py.
"""

import os
import sys

from plan import EARLIER, LOST, MAGAZINE_1, MAGAZINE_2, MAGAZINE_3, TEXTS

sys.path.insert(0, os.path.join(os.path.dirname(os.path.abspath(__file__)), "..", "published"))
import letters

# ------------------------------------------------------------ codes of cells

COLOURS = ["red", "green", "yellow", "blue", "magenta", "cyan", "white"]

CODES = {"flash": 0x08, "steady": 0x09, "double": 0x0D, "conceal": 0x18, "separated": 0x1A,
         "new background": 0x1D, "hold": 0x1E, "release": 0x1F, "block": 0x7F}
for number, colour in enumerate(COLOURS, start=1):
    CODES[colour] = number
    CODES["mosaic " + colour] = 0x10 + number


def cells(text, width, letter_set):
    """The codes of a text in a letter set, filled up with spaces."""
    codes = []
    while text:
        if text[0] == "{":
            name, text = text[1:].split("}", 1)
            codes.append(CODES[name])
        else:
            codes.append(letters.code(letter_set, text[0]))
            text = text[1:]
    assert len(codes) <= width, "a row is too long"
    return codes + [0x20] * (width - len(codes))


# ------------------------------------------------------------ protected bytes

HAMMING = bytes.fromhex("15 02 49 5E 64 73 38 2F D0 C7 8C 9B A1 B6 FD EA")


def hamming(messages):
    return [HAMMING[message] for message in messages]


def odd(codes):
    """The codes with b8 set wherever the ones would be even in number."""
    return [c if bin(c).count("1") % 2 else c | 0x80 for c in codes]


def turned(byte):
    """The byte end for end: b1 is sent first, and first means on the left."""
    return int(f"{byte:08b}"[::-1], 2)


# ----------------------------------------------------------- packets and lines

def address(magazine, row):
    """The row's lowest bit rides with the magazine, the rest comes after."""
    return hamming([magazine % 8 + 8 * (row % 2), row // 2])


def c11_to_c14(letter_set):
    """The message goes lowest weight first, a letter set the other way: it is
    4 * C12 + 2 * C13 + C14. C11 is 0, as the magazines are sent in parallel."""
    c12, c13, c14 = letter_set // 4, letter_set // 2 % 2, letter_set % 2
    return 2 * c12 + 4 * c13 + 8 * c14


def header(magazine, page, time, erase, letter_set):
    hours_tens, hours, minutes_tens, minutes = (int(d) for d in time if d != ":")
    tens, units = int(page[1], 16), int(page[2], 16)
    # All of C5 to C10 are 0.
    numbers = [units, tens, minutes, minutes_tens + 8 * erase, hours, hours_tens, 0, c11_to_c14(letter_set)]
    text = f"LANTERNTEXT {page} Sat 14 Mar {time}"
    return address(magazine, 0) + hamming(numbers) + odd(cells(text, 32, letter_set))


def row(magazine, number, text, letter_set):
    return address(magazine, number) + odd(cells(text, 40, letter_set))


def links(magazine):
    """A row 27 whose six links lead nowhere."""
    nowhere = [15, 15, 15, 7, 15, 3]
    return address(magazine, 27) + hamming([0] + 6 * nowhere + [15, 0, 0])


def line(packet):
    """Clock run-in and framing code stand as sent, the packet is turned."""
    return bytearray([0xAA, 0xAA, 0xE4] + [turned(byte) for byte in packet])


# --------------------------------------------------------------------- damage

PLACES = {"framing": 2, "address 1": 3, "address 2": 4, "page units": 5, "page tens": 6, "minutes units": 7, "minutes tens": 8,
          "hours units": 9, "hours tens": 10, "C7 to C10": 11, "C11 to C14": 12}


def place(name):
    """Where in the line a byte stands. Column 0 would be the sixth byte."""
    if name.startswith("column "):
        return 5 + int(name.removeprefix("column "))
    return PLACES[name]


def spoil(sent, damage):
    """Turns over the first bit or the first two bits of the bytes named."""
    for part in damage.split(" and "):
        count, name = part.split(" in ")
        sent[place(name)] ^= {"one wrong bit": 0x80, "two wrong bits": 0xC0}[count]


# ------------------------------------------------------- from plan to recording

def entries(plan):
    """The plan without its remarks: pairs of what is sent and the damage."""
    for words in plan.splitlines():
        words = words.split("#")[0].strip()
        if words:
            what, _, damage = words.partition("; ")
            yield what, damage


def set_named(words):
    """The letter set that a page's words name, 0 where they name none."""
    return int(words[words.index("set") + 1]) if "set" in words else 0


def packets(magazine, words, letter_set):
    if words[0] == "links":
        return [links(magazine)]
    if words[0] == "page":
        return [header(magazine, words[1], words[3], "erase" in words, letter_set)]
    numbers, text = words[1:-2], TEXTS[words[-1]]
    return [row(magazine, int(number), text[int(number)], letter_set) for number in numbers]


def lines(magazine, plan):
    """The lines of a plan. A row has the letter set of the page sent before it."""
    letter_set, sets = 0, {}
    for what, damage in entries(plan):
        words = what.replace(",", "").split()
        if words[0] == "page":
            letter_set = set_named(words)
            assert sets.setdefault(words[1], letter_set) == letter_set, f"page {words[1]} has two letter sets"
        for packet in packets(magazine, words, letter_set):
            sent = line(packet)
            if damage:
                spoil(sent, damage)
            yield sent


def recording():
    plans = [MAGAZINE_1, MAGAZINE_2, MAGAZINE_3]
    streams = [list(lines(number, plan)) for number, plan in enumerate(plans, start=1)]
    lengths = [len(stream) for stream in streams]
    assert lengths == [50, 50, 50], lengths
    return b"".join(one for three in zip(*streams) for one in three)


def short(plan):
    return b"".join(lines(1, plan))


if __name__ == "__main__":
    name = "".join(sys.argv[1:])
    made = {"": recording, "earlier": lambda: short(EARLIER), "lost": lambda: short(LOST)}
    sys.stdout.buffer.write(made[name]())
