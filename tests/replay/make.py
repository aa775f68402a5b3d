#!/usr/bin/env python3
"""The cases that the programs `decode` and `replay` are bundled with, at least one of each sort and entry and one of a sort that is not known, and their answers.

    make.py PROGRAM stdin      crates/PROGRAM/stdin
    make.py PROGRAM stdout     what it must write: crates/PROGRAM/stdout

Cases and answers are put together from pieces in hexadecimal, worked out by hand from document 01 and requests 1 to 5 of document 02: nothing here computes an
answer.
"""
import os
import sys

sys.path.insert(0, os.path.join(os.path.dirname(os.path.abspath(__file__)), "..", "model"))
import form

# The rows of a page, its cells, the bytes of a record, and those of the longest text that a page has in UTF-8.
ROWS = 25
CELLS = 40 * ROWS
RECORD_BYTES = 1130
TEXT = (40 * 3 + 1) * ROWS

# A line's run-in and framing code. Packets as they stand, each byte end for end: message 0 is A8, 1 is 40, 9 is E3, 12 is 85, 13 is 6D, and a space of odd parity 04.
START = "5555e4"
HEADER_100 = "40a8" + 8 * "a8" + 32 * "04"
HEADER_101 = "40a8" + "40" + 7 * "a8" + 32 * "04"
ROW_1 = "e3a8" + 40 * "04"
ROW_24 = "4085" + 40 * "04"

# With b1 and b2 wrong message 1 is 80, and is refused: row 24 or 25, and row 26 or 27, of a magazine that is not read.
UNREAD_24 = "8085" + 40 * "04"
UNREAD_26 = "806d" + 40 * "04"

# The same with wrong bits. With b1 wrong message 0 is 28, 9 is 63, 2 (which is 92) is 12 and 10 (which is 31) is B1; with b1 and b2 wrong 0 is 68, and is refused. Row 1 with both
# address bytes mended, and with one; row 1 of magazine 2 with one; the header of page 101 with its second and its last control byte mended; a header of ours whose first control
# byte is refused, and its other seven and its second address byte mended; a header of magazine 2 with a bit wrong in all of its ten Hamming bytes.
MENDED_ROW_1 = "6328" + 40 * "04"
HALF_MENDED_ROW_1 = "63a8" + 40 * "04"
OTHER_ROW_1 = "b1a8" + 40 * "04"
MENDED_101 = "40a8" + "40" + "28" + 5 * "a8" + "28" + 32 * "04"
MENDED_AND_REFUSED = "4028" + "68" + 7 * "28" + 32 * "04"
MENDED_200 = "1228" + 8 * "28" + 32 * "04"

# Page 100 at any time; a receiver's two flags and header, with none open, with that page open, and in doubt.
ANY_100 = "01" + 7 * "00"
SHUT = "0000" + 8 * "00"
OPEN = "0100" + 8 * "00"
DOUBT = "0101" + 8 * "00"

# Cells, characters and marks: a new receiver's, those after the header, after the header and row 1, and after the header and row 24.
NEW = CELLS * "20" + CELLS * "00"
HEADED = CELLS * "20" + 8 * "00" + 32 * "02" + (CELLS - 40) * "00"
ROWED = CELLS * "20" + 8 * "00" + 72 * "02" + (CELLS - 80) * "00"
LASTED = CELLS * "20" + 8 * "00" + 32 * "02" + (CELLS - 80) * "00" + 40 * "02"

# The clean record of page 100 with its header's text alone, with row 1 too, and with row 24 too; the first in the old form, which has no row 24; and its page, that of both. Eight cells
# are nine bytes. The fifth byte has the row code: 1, in the old form 0.
NEVER = "100804020100804020"
FRESH = "904824120904824120"
RECORD = "2000000011" + NEVER + 4 * FRESH + (ROWS - 1) * 5 * NEVER
ROWED_RECORD = "2000000011" + NEVER + 9 * FRESH + (ROWS - 2) * 5 * NEVER
LASTED_RECORD = "2000000011" + NEVER + 4 * FRESH + (ROWS - 2) * 5 * NEVER + 5 * FRESH
OLD_RECORD = "2000000010" + NEVER + 4 * FRESH + (ROWS - 2) * 5 * NEVER
PAGE = "01" + 7 * "00" + "0100" + 8 * "00" + HEADED

# A lent record before a call, and one that is a byte short. The length of a line, of a packet, and of the recordings below: two lines and three bytes, and then those three; three lines.
LENT = RECORD_BYTES * "aa"
SHORT = LENT[:-2]
LINE, PACKET, PLAYED, LEFT, THREE = "002d", "002a", "005d", "0003", "0087"
RECORDING = START + HEADER_100 + START + HEADER_101 + START
MENDED_RECORDING = START + HALF_MENDED_ROW_1 + START + OTHER_ROW_1 + START + MENDED_101

# What a recording says of mended bytes where there are none: none, in no line, and none in the page's own lines.
NONE_MENDED = "0000" + "0000" + "0000"

LETTER, MOSAIC = b"L".hex(), b"C".hex()

# Forty cells: spaces, white on black. A page whose row 1 is marked case 10 with spaces to its end, whose row 3 is double behind a 0D in its first column, so
# that row 4, of the letter A, is not shown, and whose row 24 has such a 0D too, which does nothing there. A cell is its kind, code or pattern, foreground, background, flash, conceal, boxed and height: 1 upper, 2 lower.
BLANK_ROW = 40 * (LETTER + "2007000000 0000")
HELD = "117f1e1220" + 35 * "20"
HELD_ROW = LETTER + "2007000000 0000" + 3 * (MOSAIC + "3f01000000 0000") + 36 * (MOSAIC + "0002000000 0000")
HEADLINE = "0d" + 39 * "42"
UPPER_ROW = LETTER + "2007000000 0000" + 39 * (LETTER + "4207000000 0001")
LOWER_ROW = LETTER + "2007000000 0000" + 39 * (LETTER + "4207000000 0002")
NORMAL_ROW = LETTER + "2007000000 0000" + 39 * (LETTER + "4207000000 0000")
SHOWN = 40 * "20" + HELD + 40 * "20" + HEADLINE + 40 * "41" + (ROWS - 6) * 40 * "20" + HEADLINE
SHOWN_CELLS = BLANK_ROW + HELD_ROW + BLANK_ROW + UPPER_ROW + LOWER_ROW + (ROWS - 6) * BLANK_ROW + NORMAL_ROW
STEP_L, STEP_M, STEP_P, STEP_R = (letter.encode().hex() for letter in "lmpr")

# A page with 5B at the start of rows 1 and 24, in German A with two dots and in English an arrow, and a headline of 5D on row 3, in German U with two dots and in English arrows, which is
# printed again below. A line is forty letters and a line feed.
NATIONAL = 40 * "20" + "5b" + 79 * "20" + "0d" + 39 * "5d" + (ROWS - 5) * 40 * "20" + "5b" + 39 * "20"
BLANK_LINE = 40 * "20" + "0a"
GERMAN_LINE, ENGLISH_LINE = "c384" + 39 * "20" + "0a", "e28690" + 39 * "20" + "0a"
GERMAN_TEXT = BLANK_LINE + GERMAN_LINE + BLANK_LINE + 2 * ("20" + 39 * "c39c" + "0a") + (ROWS - 6) * BLANK_LINE + GERMAN_LINE
ENGLISH_TEXT = BLANK_LINE + ENGLISH_LINE + BLANK_LINE + 2 * ("20" + 39 * "e28692" + "0a") + (ROWS - 6) * BLANK_LINE + ENGLISH_LINE
GERMAN_LENGTH, ENGLISH_LENGTH = ROWS * 41 + 2 + 2 * 39, ROWS * 41 + 2 * 2 + 2 * 2 * 39

# Forty characters of a packet that is sent: eight letters A (41, with its parity C1, end for end 83) and spaces. A header of page 12 at 34:56 with C4, C5, C7 and C14:
# its messages are 2, 1, 6, 13, 4, 7, 1 and 8, sent as 49 02 38 B6 64 2F 02 D0. The packets of row 23 of magazine 8 and of its row 0, which has no letter A.
LETTERS = 8 * "41" + 32 * "20"
TIMED = "010203040506" + "0681"
ROW_23 = "0bd9" + 8 * "83" + 32 * "04"
TIMED_HEADER = "a8a8" + "92401c6d26f4400b" + 32 * "04"

# Row 1 is wanted and no other: 02 is not yes. Row 24 is wanted and no other. A line that is sent has the run-in AA AA, and the header has C4: message 8 in the place of minutes tens. A room a byte short
# of two lines, and one that has three bytes behind them.
WANTED = "01" + "02" + (ROWS - 3) * "00"
LAST_WANTED = (ROWS - 2) * "00" + "01"
SENT_START = "aaaae4"
HEADER_C4 = "40a8" + "a8a8a80b" + 4 * "a8" + 32 * "04"
SHORT_ROOM, ROOM = 89 * "bb", 93 * "bb"

# Of each program: sort, input, record, answer.
CASES = {
    "decode": [
        # Exact; b7 wrong, which test D alone tells; refused.
        ("b", "15", None, "a8 00 01 01 01 01 00 00 15"),
        ("b", "55", None, "aa 00 01 01 01 00 00 07 ff"),
        ("b", "16", None, "68 00 01 00 00 01 ff ff 16"),
        ("n", START + HEADER_100, None, "00"),
        ("a", HEADER_100, None, "00 03 01 00" + "00" + 8 * "00" + 8 * "15" + 32 * "20"),
        # One unit: reserved bits set, parity 1, offset 7.
        ("f", 8 * "00" + "10" + "022c" + "e7e4" + ROW_1, None, "00 01 07 00000005 0000002f"),
        ("u", 8 * "00" + "99ff00", None, "00 ff 00 00000000 00000003"),
        ("g", SHOWN, None, "00" + SHOWN_CELLS),
        # A code less than a page has.
        ("g", (CELLS - 1) * "20", None, "19" + CELLS * (LETTER + 7 * "00")),
        ("e", "00", None, "15 80"),
        ("e", "ff", None, "ea 7f"),
        ("k", "08" + "17" + TIMED + LETTERS, None, ROW_23 + TIMED_HEADER),
        # An arrow, the last number of all, and the first surrogate, which has no form.
        ("i", "00002190", None, "03 e2869000"),
        ("i", "0010ffff", None, "04 f48fbfbf"),
        ("i", "0000d800", None, "00 00000000"),
        # The English pound sign, the German number sign, and 7E where English stands in, with all other control bits.
        ("c", "0000" + "23", None, "00 00 000000a3 02 c2a30000"),
        ("c", "0001" + "23", None, "01 00 00000023 01 23000000"),
        ("c", "07ff" + "7e", None, "07 01 000000f7 02 c3b70000"),
        ("o", "0001" + NATIONAL, None, "00 00" + f"{GERMAN_LENGTH:04x}" + GERMAN_TEXT + (TEXT - GERMAN_LENGTH) * "00"),
        ("o", "0007" + NATIONAL, None, "00 01" + f"{ENGLISH_LENGTH:04x}" + ENGLISH_TEXT + (TEXT - ENGLISH_LENGTH) * "00"),
        # A code less than a page has: nothing is said of its letters.
        ("o", "0007" + (CELLS - 1) * "20", None, "19" + "00" + "0000" + TEXT * "00"),
        ("x", "", None, "ff"),
    ],
    "replay": [
        ("s", ANY_100, "", "00" + ANY_100 + SHUT + NEW),
        ("r", ANY_100 + SHUT + NEW + STEP_L + LINE + START + HEADER_100, LENT, "0002200000" + LENT + ANY_100 + OPEN + HEADED),
        ("r", ANY_100 + OPEN + HEADED + STEP_M + LINE + START + HEADER_101, LENT, "0003000100" + RECORD + ANY_100 + SHUT + HEADED),
        ("r", ANY_100 + OPEN + HEADED + STEP_P + PACKET + ROW_1, LENT, "0001280000" + LENT + ANY_100 + OPEN + ROWED),
        # The header, an empty line, and another page's header.
        ("r", ANY_100 + SHUT + NEW + STEP_L + LINE + START + HEADER_100 + STEP_L + "0000" + STEP_L + LINE + START + HEADER_101, LENT,
         "0002200000" + LENT + "0a00000000" + LENT + "0003000100" + RECORD + ANY_100 + SHUT + HEADED),
        # A recording that is stopped by another page's header, then by a line cut after three bytes, and is then at its end.
        ("r", ANY_100 + SHUT + NEW + STEP_R + PLAYED + RECORDING + STEP_R + LEFT + START + STEP_R + "0000", LENT,
         "0002" + NONE_MENDED + "0003000100" + RECORD + "0001" + NONE_MENDED + "0a00000000" + RECORD + "0000" + NONE_MENDED + "00ff000000" + RECORD + ANY_100 + SHUT + HEADED),
        # Row 1 with two mended bytes, through the lent entry.
        ("r", ANY_100 + OPEN + HEADED + STEP_M + LINE + START + MENDED_ROW_1, LENT, "0001280002" + LENT + ANY_100 + OPEN + ROWED),
        # With none open, our header with eight bytes mended beside a refused one, and another magazine's, of which the address alone counts.
        ("r", ANY_100 + SHUT + NEW + STEP_L + LINE + START + MENDED_AND_REFUSED + STEP_P + PACKET + MENDED_200, LENT,
         "0005000008" + LENT + "0000000002" + LENT + ANY_100 + SHUT + NEW),
        # A recording with a mended byte in our row, one in another magazine's, and two in the header that closes: four in three lines, and one in the page's own lines.
        ("r", ANY_100 + OPEN + HEADED + STEP_R + THREE + MENDED_RECORDING, LENT, "0003" + "000400030001" + "0003000102" + ROWED_RECORD + ANY_100 + SHUT + ROWED),
        # Row 24, and then another page's header, which closes.
        ("r", ANY_100 + OPEN + HEADED + STEP_P + PACKET + ROW_24 + STEP_P + PACKET + HEADER_101, LENT,
         "0001280000" + LENT + "0003000100" + LASTED_RECORD + ANY_100 + SHUT + LASTED),
        # Of a magazine that is not read row 26 or 27 does no harm, and row 24 or 25 puts the page in doubt.
        ("r", ANY_100 + OPEN + HEADED + STEP_P + PACKET + UNREAD_26, LENT, "0000000000" + LENT + ANY_100 + OPEN + HEADED),
        ("r", ANY_100 + OPEN + HEADED + STEP_P + PACKET + UNREAD_24, LENT, "0004000000" + LENT + ANY_100 + DOUBT + HEADED),
        # A lent record that is a byte short.
        ("r", ANY_100 + OPEN + HEADED + STEP_M + LINE + START + ROW_24, SHORT, "0c00000000" + SHORT + ANY_100 + OPEN + HEADED),
        ("w", PAGE, LENT, "00" + RECORD),
        ("w", PAGE, SHORT, "0c" + SHORT),
        ("d", RECORD, "", "00" + PAGE),
        # In the old form; and that with a blank row behind it, which its row code does not fit.
        ("d", OLD_RECORD, "", "00" + PAGE),
        ("d", OLD_RECORD + 5 * NEVER, "", "15" + (18 + 2 * CELLS) * "00"),
        ("t", WANTED + RECORD, ROOM, "00 02" + SENT_START + HEADER_C4 + SENT_START + ROW_1 + 3 * "bb"),
        ("t", LAST_WANTED + OLD_RECORD, ROOM, "00 02" + SENT_START + HEADER_C4 + SENT_START + ROW_24 + 3 * "bb"),
        # In a short room: a record that lacks its last byte, which is asked first, and a good one.
        ("t", WANTED + RECORD[:-2], SHORT_ROOM, "14 00" + SHORT_ROOM),
        ("t", WANTED + RECORD, SHORT_ROOM, "1e 00" + SHORT_ROOM),
        ("x", "", "", "ff"),
    ],
}


def main(program, file):
    for sort, given, record, answer in CASES[program]:
        parts = [given] if record is None else [given, record]
        made = form.framed(form.Case(sort, tuple(bytes.fromhex(part) for part in parts))) if file == "stdin" else bytes.fromhex(answer)
        sys.stdout.buffer.write(made)


main(*sys.argv[1:])
