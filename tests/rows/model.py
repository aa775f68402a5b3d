#!/usr/bin/env python3
"""Pages of codes and what they show, from document 01 and requests 1 and 5 of document 02 alone: cases and answers for `tests/model/compare -`.

The model of the display is in cells.py, the pages on which it is tried in pages.py and worked_rows.py, and what it is held to itself in laws.py.
Nothing in them is taken from the code that is tried by them.
"""
from cells import answer
from laws import all_hold
from pages import chance_pages, pages_by_hand, pages_of_worked_rows, refused_pages


def form(cell):
    """The eight bytes of a cell (tests/model/FORMAT.md)."""
    (kind, value), *rest = cell
    return bytes([ord(kind), value, *rest])


def print_case(page):
    number, shown_cells = answer(page)
    print("g", bytes(page).hex())
    print("=", "%02x" % number, b"".join(map(form, shown_cells)).hex())


def main():
    worked, by_hand, refused, by_chance = map(list, (pages_of_worked_rows(), pages_by_hand(), refused_pages(), chance_pages()))
    all_hold(worked, by_hand, refused, by_chance)
    for page in worked + by_hand + refused + by_chance:
        print_case(page)


main()
