"""The records on which the page printers are tried: pages in the new form, some of them in the old form too, and records of a wrong length."""
import random

from records import FRESH, LAST, LENGTHS, NEVER, NEW, OLD, OLDER, ROWS, SPACE, Page

HEADLINE = b"now \x0DBIG\x0Cend"


def full_page():
    """A page with text on every row."""
    page = Page()
    for row in range(ROWS):
        page.put(row, f"row {row} has text from here to the right")
    return page


def headlines_on(rows):
    """A 0D on each of these rows, each in another column."""
    page = full_page()
    for row in rows:
        page.put(row, b"e" * row + b"\x0DBIG")
    return page


def headline_on(*rows):
    """The same headline on each of these rows."""
    page = full_page()
    for row in rows:
        page.put(row, HEADLINE)
    return page


def headlines():
    """Double height over the page, above text that it hides or leaves."""
    yield "headline_on_row_1", headline_on(1)
    yield "headline_on_row_22", headline_on(22)
    yield "no_headline_on_row_0", headline_on(0)
    yield "no_headline_on_row_23", headline_on(23)
    yield "no_headline_on_row_24", headline_on(24)
    yield "no_headline_on_rows_23_and_24", headline_on(23, 24)
    yield "headline_on_row_22_and_not_on_24", headline_on(22, 24)
    yield "headlines_on_rows_21_to_23", headline_on(21, 22, 23)
    yield "headlines_on_rows_21_to_24", headline_on(21, 22, 23, 24)
    yield "headlines_on_rows_22_to_24", headline_on(22, 23, 24)
    yield "headline_in_column_0", full_page().put(6, b"\x0DBIG")
    yield "headline_in_column_39", full_page().put(6, b"x" * 39 + b"\x0D")
    yield "headlines_on_two_rows_running", headline_on(4).put(5, b"hidden \x0DHIDDEN")
    yield "headlines_on_three_rows_running", headline_on(4).put(5, b"hidden \x0DHIDDEN").put(6, b"shown \x0DTWICE")
    yield "headlines_on_every_row", headlines_on(range(ROWS))
    yield "headlines_from_row_2_on", headlines_on(range(2, ROWS))
    yield "headline_undone_at_once", full_page().put(8, b"small \x0D\x0C text with nothing below it")
    yield "headline_undone_and_again", full_page().put(8, b"\x0DBIG\x0Csmall\x0DBIG")
    yield "headline_of_mosaics", full_page().put(10, b"\x11\x35\x0D\x35\x41\x7F\x1E\x12\x0C\x12\x35\x0D\x07\x41\x7F")
    yield "mosaics_below_headline", headline_on(10).put(11, [0x11] + [0x7F] * 39)
    yield "control_codes_below_headline", headline_on(10).put(11, [0x0C, 0x11, 0x1E, 0x0D] + [0x7F] * 36)
    yield "headline_concealed", full_page().put(14, b"\x18\x0DANSWER\x07\x0Cshown")


def prompts():
    """Row 24, with the prompts that newer services put there, and with whatever else a row can have."""
    yield "prompt", Page().put(LAST, "Otters  Bakers  Weather  Puzzle")
    yield "prompts_in_colours", full_page().put(LAST, b"\x01Otters  \x02Bakers  \x03Weather  \x06Puzzle")
    yield "prompt_to_the_end", Page().put(LAST, "!" * 40)
    yield "prompt_older", Page(clean=0).put(LAST, "Old mill: page 201", OLDER)
    yield "prompt_of_mosaics", Page().put(23, [0x11] + [0x7F] * 39).put(LAST, [0x20, 0x41, 0x17, 0x35, 0x41, 0x7F])
    yield "prompt_held", Page().put(LAST, [0x11, 0x35, 0x1E, 0x0D, 0x12, 0x0C, 0x1F, 0x0D, 0x14, 0x36])
    yield "prompt_below_the_lower_half", headline_on(22).put(LAST, "Otters  Bakers  Weather  Puzzle")


def plain_pages():
    yield "spaces", Page()
    yield "letters", Page().put(0, "P100 NIPAVRIIK Sun 15 Nov 12:34:56").put(1, range(0x20, 0x48)).put(2, range(0x48, 0x70)).put(23, range(0x58, 0x80)).put(LAST, range(0x20, 0x48))
    yield "last_letter_7f", Page().put(5, [0x41, 0x7F, 0x42] + [0x7E, 0x7F])
    yield "mosaics", Page().put(3, [0x11] + list(range(0x20, 0x47))).put(4, [0x17] + list(range(0x58, 0x7F))).put(5, [0x12, 0x7F])
    yield "blank_mosaic", Page().put(7, [0x11, 0x20, 0x20, 0x60, 0x07, 0x20, 0x60])
    yield "letters_among_mosaics", Page().put(8, [0x14] + list(b"!@ABZ[_`a~") + [0x7F])
    yield "marked_case_10", Page().put(9, [0x11, 0x7F, 0x1E, 0x12, 0x20])
    yield "held_in_letters", Page().put(9, [0x1E, 0x01, 0x02, 0x41, 0x0D, 0x42])
    yield "held_and_released", Page().put(10, [0x11, 0x35, 0x1E, 0x13, 0x1F, 0x14, 0x36])
    yield "held_blank", Page().put(11, [0x11, 0x1E, 0x12, 0x7F, 0x0D, 0x0C, 0x01, 0x02, 0x41])
    yield "hold_before_mosaics", Page().put(11, [0x1E, 0x11, 0x12, 0x7F, 0x13])
    yield "concealed", Page().put(12, [0x18] + list(b"SECRET REFERENCE 12345") + [0x07] + list(b"shown"))
    yield "concealed_mosaics", Page().put(12, [0x11, 0x18, 0x7F, 0x35, 0x41, 0x12, 0x7F])
    yield "double_height", Page().put(13, [0x0D] + list(b"DOUBLE") + [0x0C] + list(b"normal")).put(14, "below")
    yield "boxed", Page().put(15, [0x0B, 0x0B, 0x41, 0x0A, 0x0A, 0x42])
    yield "colours_and_flash", Page().put(16, [0x01, 0x1D, 0x41, 0x1C, 0x08, 0x42, 0x09, 0x43, 0x19, 0x1A, 0x44])
    yield "control_codes", Page().put(17, range(0x20)).put(19, [0x00, 0x0E, 0x0F, 0x10, 0x1B, 0x41])
    yield "rows_start_afresh", Page().put(19, [0x20] * 39 + [0x11]).put(20, "letters again").put(21, [0x17, 0x1E] + [0x7F] * 38).put(22, [0x09, 0x30])
    yield "header_from_column_8", Page().put(0, [0x11] + [0x7F] * 31)
    yield "older", Page(clean=0).put(1, "older text", OLDER).put(2, "fresh text").put(3, [0x20] * 40, OLDER)
    yield "every_part", Page(magazine=0, tens=9, units=9, hours_tens=3, hours_units=15, minutes_tens=7, minutes_units=15, control=2047).put(1, "x")
    yield "full", Page().put(0, "m" * 32).put(23, "!" * 40).put(LAST, "?" * 40)


def refused_pages():
    yield "tens_10", Page(tens=10)
    yield "units_15", Page(units=15).put(1, "text")
    yield "mark_3", Page().cell(23, 39, 3, 0x41)
    yield "mark_3_space", Page().cell(1, 0, 3, SPACE)
    yield "never_a_letter", Page().cell(12, 20, NEVER, 0x41)
    yield "never_a_zero", Page().cell(23, 39, NEVER, 0x00)
    yield "header_column_0", Page().cell(0, 0, FRESH, SPACE)
    yield "header_column_7", Page().cell(0, 7, OLDER, 0x50)
    yield "mark_3_in_row_24", Page().cell(LAST, 39, 3, 0x41)
    yield "mark_3_space_in_row_24", Page().cell(LAST, 0, 3, SPACE)
    yield "never_a_letter_in_row_24", Page().cell(LAST, 20, NEVER, 0x41)
    yield "never_a_zero_in_row_24", Page().cell(LAST, 39, NEVER, 0x00)
    yield "21_before_22", Page(code=2, tens=12).cell(1, 1, 3, 0x41)
    yield "21_before_23_in_row_24", Page(code=OLD).cell(LAST, 39, 3, 0x41)
    yield "22_before_23", Page(units=11).cell(1, 1, 3, 0x41)
    yield "22_before_23_in_row_24", Page(tens=10).cell(LAST, 0, 3, 0x41)


def row_codes():
    """Every row code in either length: 0 fits the one alone, 1 the other alone, and any other neither."""
    for code in range(16):
        yield f"row_code_{code}_of_{LENGTHS[OLD]}_bytes", Page().put(1, "text").put(LAST, "prompt").old(code)
        yield f"row_code_{code}_of_{LENGTHS[NEW]}_bytes", Page(code=code).put(1, "text").put(LAST, "prompt")


def drawn_pages():
    for seed in range(10):
        draw = random.Random(f"page {seed}")
        page = Page(control=draw.randrange(2048), tens=draw.randrange(10), units=draw.randrange(10), clean=draw.randrange(2))
        for row in range(ROWS):
            codes = [draw.choice((draw.randrange(0x20), draw.randrange(0x20, 0x80), 0x1E, 0x11)) for _ in range(40)]
            page.put(row, codes, draw.choice((OLDER, FRESH)))
        yield f"drawn_{seed:02}", page


# The pages that are kept in the old form too: there their row 24 is blank.
KEPT_OLD = {
    "spaces", "letters", "mosaics", "marked_case_10", "held_and_released", "older", "every_part", "full", "headline_on_row_22", "no_headline_on_row_23",
    "headlines_on_rows_21_to_23", "headlines_on_every_row", "drawn_00", "drawn_01", "drawn_02", "tens_10", "mark_3", "never_a_zero", "header_column_7", "22_before_23",
}


def in_the_old_form(named_pages, kept):
    """Those of some pages whose names are kept, each in the old form."""
    return [(f"old_{name}", page.old()) for name, page in named_pages if name in kept]


def pages():
    both = [*plain_pages(), *headlines(), *refused_pages(), *drawn_pages()]
    yield from both
    yield from prompts()
    yield from row_codes()
    yield from in_the_old_form(both, KEPT_OLD)
    # What was refused while the row code was four zero bits is refused still.
    yield "old_zero_bits_1", Page().old(1)
    yield "old_zero_bits_8", Page().put(1, "text").old(8)
    yield "old_21_before_22", Page(tens=12).cell(1, 1, 3, 0x41).old(2)


def wrong_lengths():
    """Records that are refused by 20, whatever they hold: around the length of either form, and far from both."""
    good = Page().put(1, "text")
    yield "empty", b""
    for form, page in ((OLD, good.old()), (NEW, good)):
        record, length = page.record(), LENGTHS[form]
        yield f"{length - 1}_bytes", record[:-1]
        yield f"{length + 1}_bytes", record + b"\0"
        yield f"{2 * length}_bytes", record + record
    yield "one_byte", good.old().record()[:1]
    yield "1107_bytes", good.record()[:1107]
    yield "20_before_21", Page(code=15).record() + b"\0"
    yield "old_20_before_21", Page().old(15).record() + b"\0"
    yield "100000_bytes", bytes(100000)
