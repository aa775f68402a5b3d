#!/usr/bin/env python3
"""Cases for three programs, written from document 01, "Programs", and requests 1, 4 and 5 of document 02 by small models beside this file: what a field's units are
(fields.py), how a record is packed and refused (records.py), what each cell of a page prints (printed.py), and with which letters (national.py).

  make.py FOLDER            write FOLDER/units/*.in, *.out, FOLDER/printer/*.in, *.out and FOLDER/printer_utf8/*.in, *.out, *.err
  make.py FOLDER --small    what is kept beside this file: the same without the inputs of more than 4,096 bytes, and of printer_utf8 only its own
                            pages, as all those of printer are kept once already
  make.py FOLDER --stored   write FOLDER/printer_utf8/stdin and stdout, as they are kept in crates

An .in is a case's input, .out what must be on standard output, and .err what must be on standard error, mostly nothing. A case whose name begins with old_ is a record
as it was kept before there was a row 24, byte for byte; it prints that row blank."""
import sys
from pathlib import Path

from fields import fields, listing
from national import appeal, national_pages, national_printing, national_wrong_lengths, stand_in
from pages import pages, wrong_lengths
from printed import printing

SMALL = 4096
REFUSED_20 = "refused 20\n"

# The cases: name, input, and the texts expected by the endings of their files.


def unit_cases():
    for name, field in fields():
        yield name, field, {"out": listing(field)}


def printer_cases():
    for name, page in pages():
        yield name, page.record(), {"out": printing(page)}
    for name, record in wrong_lengths():
        yield name, record, {"out": REFUSED_20}


def utf8_cases(some_pages, some_records):
    for name, page in some_pages:
        yield name, page.record(), {"out": national_printing(page), "err": stand_in(page)}
    for name, record in some_records:
        yield name, record, {"out": REFUSED_20, "err": ""}


def write_cases(folder, cases):
    folder.mkdir(parents=True, exist_ok=True)
    for name, given, texts in cases:
        assert not (folder / f"{name}.in").exists(), f"two cases are called {name}"
        (folder / f"{name}.in").write_bytes(given)
        for ending, text in texts.items():
            (folder / f"{name}.{ending}").write_bytes(text.encode("utf-8"))


def write_stored(folder):
    folder.mkdir(parents=True, exist_ok=True)
    (folder / "stdin").write_bytes(appeal().record())
    (folder / "stdout").write_bytes(national_printing(appeal()).encode("utf-8"))


def main():
    folder, small = Path(sys.argv[1]), "--small" in sys.argv[2:]
    if "--stored" in sys.argv[2:]:
        write_stored(folder / "printer_utf8")
        return
    own, printers = utf8_cases(national_pages(), national_wrong_lengths()), utf8_cases(pages(), wrong_lengths())
    made = {"units": unit_cases(), "printer": printer_cases(), "printer_utf8": own if small else (*printers, *own)}
    for program, cases in made.items():
        write_cases(folder / program, (case for case in cases if not small or len(case[1]) <= SMALL))


main()
