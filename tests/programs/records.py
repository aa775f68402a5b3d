"""Page records by a model of its own, from document 01 and request 5 of document 02: how a page is packed in the old form and in the new, and what refuses it. Nothing
here is taken from the project's code."""
import copy

ROWS, COLUMNS = 25, 40
LAST = ROWS - 1
SPACE, NEVER, OLDER, FRESH = 0x20, 0, 1, 2

# The two row codes: the old form has no row 24. The bytes of a record in each form.
OLD, NEW = 0, 1
LENGTHS = {OLD: 1085, NEW: 1130}

WIDTHS = (("magazine", 3), ("tens", 4), ("units", 4), ("hours_tens", 2), ("hours_units", 4), ("minutes_tens", 3), ("minutes_units", 4),
          ("control", 11), ("clean", 1), ("code", 4))


class Page:
    """A page of spaces that were never received, page 100, clean, in the new form."""

    def __init__(self, **parts):
        self.form = NEW
        self.head = dict(magazine=1, tens=0, units=0, hours_tens=0, hours_units=0, minutes_tens=0, minutes_units=0, control=0, clean=1, code=NEW)
        self.head.update(parts)
        self.characters = [[SPACE] * COLUMNS for _ in range(ROWS)]
        self.marks = [[NEVER] * COLUMNS for _ in range(ROWS)]

    def put(self, row, codes, mark=FRESH):
        first = 8 if row == 0 else 0
        codes = list(codes.encode("ascii") if isinstance(codes, str) else codes)[: COLUMNS - first]
        for column, code in enumerate(codes, first):
            self.characters[row][column], self.marks[row][column] = code, mark
        return self

    def cell(self, row, column, mark, code):
        self.characters[row][column], self.marks[row][column] = code, mark
        return self

    def old(self, code=OLD):
        """The same page in the old form: its row 24 is not in the record, and is read as spaces that were never received."""
        made = copy.deepcopy(self)
        made.form, made.head["code"] = OLD, code
        made.characters[LAST], made.marks[LAST] = [SPACE] * COLUMNS, [NEVER] * COLUMNS
        return made

    def record(self):
        bits = "".join(format(self.head[name], f"0{width}b") for name, width in WIDTHS)
        for row in range(ROWS if self.form == NEW else LAST):
            bits += "".join(format(mark, "02b") + format(code, "07b") for code, mark in zip(self.characters[row], self.marks[row]))
        assert len(bits) == 8 * LENGTHS[self.form]
        return bytes(int(bits[at : at + 8], 2) for at in range(0, len(bits), 8))

    def refused(self):
        """The number of the first refusal, in the order 21, 22, 23."""
        if self.head["code"] != self.form:
            return 21
        if self.head["tens"] > 9 or self.head["units"] > 9:
            return 22
        for row in range(ROWS):
            for column in range(COLUMNS):
                mark, code = self.marks[row][column], self.characters[row][column]
                if mark == 3 or mark == NEVER and code != SPACE or row == 0 and column < 8 and mark != NEVER:
                    return 23
        return 0
