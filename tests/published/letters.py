"""The Latin national option sets that ETS 300 706 gives under designation 0000: which letters the control bits C12 to C14 put at thirteen codes.

The facts are the standard's, written out as code points. Nothing here is taken from the code that is tried by them."""

# The codes whose letters change.
CODES = bytes.fromhex("23 24 40 5B 5C 5D 5E 5F 60 7B 7C 7D 7E")

# The value 4 * C12 + 2 * C13 + C14, then the letters at the thirteen codes, in their order, then the name.
TABLE = """
0  00A3 0024 0040 2190 00BD 2192 2191 0023 2014 00BC 2016 00BE 00F7  English
1  0023 0024 00A7 00C4 00D6 00DC 005E 005F 00B0 00E4 00F6 00FC 00DF  German
2  0023 00A4 00C9 00C4 00D6 00C5 00DC 005F 00E9 00E4 00F6 00E5 00FC  Swedish, Finnish, Hungarian
3  00A3 0024 00E9 00B0 00E7 2192 2191 0023 00F9 00E0 00F2 00E8 00EC  Italian
4  00E9 00EF 00E0 00EB 00EA 00F9 00EE 0023 00E8 00E2 00F4 00FB 00E7  French
5  00E7 0024 00A1 00E1 00E9 00ED 00F3 00FA 00BF 00FC 00F1 00E8 00E0  Portuguese, Spanish
6  0023 016F 010D 0165 017E 00FD 00ED 0159 00E9 00E1 011B 00FA 0161  Czech, Slovak
"""

# The letter of each of the thirteen codes, by value and code.
SETS = {int(value): dict(zip(CODES, (int(point, 16) for point in points[:len(CODES)]), strict=True))
        for value, *points in (line.split() for line in TABLE.split("\n") if line)}

# The value that has no set, and the set that is used for it.
NO_SET, ENGLISH = 7, 0


def stands_in(value):
    """Whether English stands in, since the value has no set of its own."""
    return value == NO_SET


def letter(value, code):
    """The code point of a code's letter. A code outside the thirteen is its own letter."""
    return SETS[ENGLISH if stands_in(value) else value].get(code, code)


def text(value, codes):
    """The letters of some codes."""
    return "".join(chr(letter(value, code)) for code in codes)


def code(value, wanted):
    """The code that shows a letter, the way back. Within a set no letter has two codes; one that the set has not is an error."""
    found = [code for code in range(0x20, 0x7F) if letter(value, code) == ord(wanted)]
    if not found:
        raise ValueError(f"letter set {value} has no {wanted!r}")
    return found[0]
