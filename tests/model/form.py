"""Cases and answers as FORMAT.md has them: read from text, handed to the built programs that answer them, and taken apart by the names of their parts."""
import collections
import os
import subprocess
import sys

ROOT = os.path.dirname(os.path.dirname(os.path.dirname(os.path.abspath(__file__))))

# Which program answers which sorts, in the order of FORMAT.md.
PROGRAMS = {"decode": "bnafugekico", "replay": "srwdt"}
SORTS = "".join(PROGRAMS.values())

# A case: its sort, and its parts as bytes: the input and, for `replay`, the record (for sort t the room) that is lent.
Case = collections.namedtuple("Case", "sort parts")

ROWS = 25
COLUMNS = 40
CELLS = ROWS * COLUMNS
STEP = 3

# The longest text of a page: forty letters of three bytes and a line feed in each row.
TEXT = ROWS * (3 * COLUMNS + 1)

# The parts of inputs and answers, each with its length in bytes.
SELECTION = [("magazine, tens, units", 3), ("timed, hours, minutes", 5)]
HEADER = [("page tens, units", 2), ("hours, minutes", 4), ("control bits", 2)]
CHARACTERS = [("characters", CELLS), ("marks", CELLS)]
RECEIVER = SELECTION + [("page open", 1), ("doubt", 1)] + HEADER + CHARACTERS
PAGE = [("magazine", 1), ("zeros", 7), ("clean", 1), ("zero", 1)] + HEADER + CHARACTERS
ANSWER = [("number", 1), ("kind", 1), ("count", 1), ("closing", 1), ("mended", 1)]
MENDED = [("bytes mended", 2), ("lines with one or more", 2), ("bytes mended in the page's own lines", 2)]
NUMBER = [("number", 1)]
WANTED = [("rows wanted", ROWS - 1)]
CONTROL = [("control bits", 2)]
FORM = [("count of bytes", 1), ("UTF-8 form", 4)]
STANDS_IN = [("English stands in", 1)]


def size(parts):
    return sum(length for _, length in parts)


def named(before, parts):
    """Parts with some words before their names."""
    return [(before + name, length) for name, length in parts]


def case_of(line):
    """The case of its line of text."""
    return Case(line[0], tuple(bytes.fromhex(part) for part in line[1:].split(",")))


def cases_in(lines):
    """The cases of some lines, each with its answer: a case line and a line of "= " and the answer in turn. Other lines that start with # are passed over."""
    lines = (line.strip() for line in lines)
    lines = (line for line in lines if line and not line.startswith("#"))
    for line in lines:
        answer = next(lines, "")
        if not answer.startswith("="):
            sys.exit(f"no answer stands under the case {line[:80]}")
        yield case_of(line), bytes.fromhex(answer[1:])


def steps_of(case):
    """The steps of a run: entry and bytes."""
    left, steps = case.parts[0][size(RECEIVER):], []
    while left:
        end = STEP + int.from_bytes(left[1:STEP], "big")
        steps.append((chr(left[0]), left[STEP:end]))
        left = left[end:]
    return steps


def input_parts(case):
    """The parts of a case's input and of its record, each a name and bytes."""
    place, numbers = [("place", 8)], [("magazine", 1), ("row", 1)] + HEADER
    first = {
        "f": place, "u": place, "k": numbers, "i": [("number", 4)], "c": CONTROL + [("code", 1)], "o": CONTROL,
        "s": SELECTION, "r": RECEIVER, "w": PAGE, "t": WANTED,
    }.get(case.sort, [])
    found, at = [], 0
    for name, length in first:
        found.append((name, case.parts[0][at:at + length]))
        at += length
    if case.sort == "r":
        return found + [(f"step {n}, entry {entry}", data) for n, (entry, data) in enumerate(steps_of(case))] + [("record", case.parts[1])]
    rest = {"g": "codes", "k": "characters", "o": "codes", "t": "record"}.get(case.sort, "the rest")
    lent = "room" if case.sort == "t" else "record"
    return found + [(rest, case.parts[0][at:])] + [(lent, part) for part in case.parts[1:]]


def answer_parts(case):
    """The names and lengths of the parts that a case's answer has."""
    record = [("record", len(part)) for part in case.parts[1:]]
    if case.sort == "r":
        parts = []
        for n, (entry, _) in enumerate(steps_of(case)):
            parts += named(f"step {n}: ", ([("lines used", 2)] + MENDED if entry == "r" else []) + ANSWER + record)
        return parts + RECEIVER
    return {
        "b": [(name, 1) for name in ("turned", "framing", "test A", "test B", "test C", "test D", "message", "position", "character")],
        "n": NUMBER,
        "a": NUMBER + [("messages read", 1), ("address", 2), ("header's number", 1)] + HEADER + [("text", COLUMNS)],
        "f": NUMBER + [("parity", 1), ("offset", 1), ("place", 4), ("after", 4)],
        "u": NUMBER + [("id", 1), ("length", 1), ("place", 4), ("after", 4)],
        "g": NUMBER + [(f"row {row}, cell {column}", 8) for row in range(ROWS) for column in range(COLUMNS)],
        "e": [("Hamming byte", 1), ("character byte", 1)],
        "k": [("row: address", 2), ("row: text", COLUMNS), ("header: address", 2), ("header: messages", 8), ("header: text", COLUMNS - 8)],
        "i": FORM,
        "c": [("value", 1)] + STANDS_IN + [("letter", 4)] + FORM,
        "o": NUMBER + STANDS_IN + [("bytes of the text", 2), ("text", TEXT)],
        "s": NUMBER + RECEIVER,
        "w": NUMBER + record,
        "d": NUMBER + PAGE,
        "t": NUMBER + [("count of lines", 1)] + [("room", len(part)) for part in case.parts[1:]],
    }[case.sort]


def framed(case):
    """A case as its program reads it."""
    return case.sort.encode() + b"".join(len(part).to_bytes(2, "big") + part for part in case.parts)


def said_by(program, cases):
    """What a built program writes for some cases."""
    if not os.path.exists(os.path.join(ROOT, "crates", program, "out", program)):
        sys.exit(f"{program} is not built: rt run in crates/{program}")
    given = b"".join(framed(case) for case in cases)
    run = subprocess.run([os.path.join(ROOT, "tests", "start"), program], input=given, check=True, capture_output=True)
    if run.stderr:
        sys.exit(f"{program} says: {run.stderr.decode('utf-8', 'replace')[:200]}")
    return run.stdout


def asked(cases):
    """The answers of the built programs to some cases, in their order. Where a program writes too much or too little, an answer differs."""
    answers = {}
    for program, sorts in PROGRAMS.items():
        of_it = [(number, case) for number, case in enumerate(cases) if case.sort in sorts]
        said, at = said_by(program, [case for _, case in of_it]), 0
        for number, case in of_it:
            answers[number] = said[at:at + size(answer_parts(case))]
            at += len(answers[number])
        if at < len(said):
            sys.exit(f"{program} wrote {len(said) - at} bytes more than the answers to its {len(of_it)} cases have")
    return [answers[number] for number in range(len(cases))]
