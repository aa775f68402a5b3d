"""The page printer with national letters, by a model of its own from requests 4 and 5 of document 02: the pages on which it alone is tried, and what it must print. The
letters stand in tests/published. Nothing here is taken from the project's code."""
import sys
from pathlib import Path

from pages import in_the_old_form
from printed import printing
from records import LAST, LENGTHS, NEW, OLD, OLDER, ROWS, Page

sys.path.insert(0, str(Path(__file__).resolve().parent.parent / "published"))
import letters

THIRTEEN = letters.CODES
GERMAN, NO_SET = 1, letters.NO_SET

# C4 to C14 are a number of 11 bits with C4 the most significant: C12 to C14 are its last three bits, and the value of the set.
OTHER_BITS = 0b11111111000


def value_of(page):
    return page.head["control"] % 8


def national_printing(page):
    """The lines of `printer`, with the letters of the page's own set. Question mark, space and line feed are none of the thirteen codes, so that they stay."""
    return printing(page) if page.refused() else letters.text(value_of(page), printing(page).encode("ascii"))


def stand_in(page):
    """What must be on standard error. Of a page that is refused no letter is printed, and nothing stands in."""
    said = letters.stands_in(value_of(page)) and not page.refused()
    return f"English stands in for letter set {value_of(page)}\n" if said else ""


def every_letter(value):
    """All codes from 20 to 7F in letters and among mosaics; the thirteen in the header, in headlines, concealed, older, beside held mosaics and in the last rows."""
    page = Page(control=value).put(0, THIRTEEN)
    page.put(1, range(0x20, 0x48)).put(2, range(0x48, 0x70)).put(3, range(0x70, 0x80))
    page.put(5, [0x11, *range(0x20, 0x47)]).put(6, [0x12, *range(0x47, 0x6E)]).put(7, [0x13, *range(0x6E, 0x80)])
    # The row below is hidden: under the double letters these are printed again, and under the others a space.
    page.put(9, [0x0D, *THIRTEEN, 0x0C, *THIRTEEN]).put(10, THIRTEEN * 3)
    page.put(12, [0x11, 0x0D, *THIRTEEN]).put(13, THIRTEEN * 3)
    page.put(15, [0x18, *THIRTEEN, 0x07, *THIRTEEN])
    page.put(17, THIRTEEN, OLDER)
    page.put(19, [0x11, 0x35, 0x1E, 0x5B, 0x12, 0x5D, 0x1F, 0x14, 0x40])
    return page.put(23, THIRTEEN * 3).put(LAST, [0x0D, *THIRTEEN, 0x17, *THIRTEEN])


def filled_with(codes, **parts):
    """A page with these codes again and again, wherever a record may have letters."""
    page = Page(**parts)
    for row in range(ROWS):
        page.put(row, codes * 40)
    return page


def german(text):
    return bytes(letters.code(GERMAN, letter) for letter in text)


def appeal():
    """The page that is kept as the program's example: an appeal in German, of an invented charity, with prompts on row 24."""
    page = Page(magazine=2, units=1, hours_tens=1, hours_units=2, minutes_units=3, control=GERMAN)
    page.put(0, german("P201  Sa 14. März  12:03"))
    page.put(1, b"\x03\x0D" + german("FREUNDE DER ALTEN MÜHLE"))
    page.put(3, b"\x07" + german("Ein erfundener Verein als Beispiel."))
    page.put(5, german("Die Mühle braucht ein größeres Rad."))
    page.put(6, german("Äpfel und Öl gibt es zum Dank."))
    page.put(9, b"\x06" + german("Bitte diese Nummer angeben:"))
    page.put(10, b"\x03" + german("MÜHLE 2201 5566"))
    page.put(20, b"\x14" + german("pppMÜHLEppp"))
    return page.put(LAST, b"\x01" + german("Mühle ") + b"\x02" + german("Bäcker ") + b"\x03" + german("Wetter ") + b"\x06" + german("Rätsel"))


def own_pages():
    yield "appeal", appeal()
    for value in range(8):
        yield f"every_letter_{value}", every_letter(value)
    for value in range(8):
        yield f"other_bits_{value}", Page(control=OTHER_BITS + value).put(4, THIRTEEN)
    for number in range(4, 12):
        yield f"c{number}_alone", Page(control=1 << 14 - number).put(4, THIRTEEN)
    # Three bytes are the most that a letter has: the arrows, the dash and the double bar of the English set.
    yield "longest", filled_with([0x5B])
    yield "longest_stand_in", filled_with([0x5B, 0x5D, 0x5E, 0x60, 0x7C], control=NO_SET)
    # That English stands in goes by the value alone: no letter need show it, and the page need not be clean.
    yield "stand_in_spaces", Page(control=NO_SET)
    yield "stand_in_not_clean", Page(control=NO_SET, clean=0).put(4, THIRTEEN, OLDER)
    yield "no_set_refused_22", Page(control=NO_SET, units=10).put(4, THIRTEEN)
    yield "no_set_refused_23", Page(control=NO_SET).put(4, THIRTEEN).cell(23, 39, 3, 0x23)


# Those that are kept in the old form too.
KEPT_OLD = {"appeal", "every_letter_1", "every_letter_7", "longest_stand_in", "stand_in_spaces", "no_set_refused_22", "no_set_refused_23"}


def national_pages():
    yield from own_pages()
    yield from in_the_old_form(own_pages(), KEPT_OLD)
    yield "prompt_alone", Page(control=GERMAN).put(LAST, THIRTEEN * 3)
    yield "no_set_refused_23_in_row_24", Page(control=NO_SET).put(4, THIRTEEN).cell(LAST, 39, 3, 0x23)
    yield "no_set_refused_21", Page(control=NO_SET, code=OLD).put(4, THIRTEEN)
    yield "old_no_set_refused_21", Page(control=NO_SET).put(4, THIRTEEN).old(NEW)


def national_wrong_lengths():
    good = Page(control=NO_SET).put(4, THIRTEEN)
    for form, page in ((OLD, good.old()), (NEW, good)):
        yield f"no_set_{LENGTHS[form] - 1}_bytes", page.record()[:-1]
        yield f"no_set_{LENGTHS[form] + 1}_bytes", page.record() + b"\0"
