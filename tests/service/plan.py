"""The texts of a small teletext service, and the plan by which it is sent.

The service has three magazines, sent in parallel: one line of magazine 1,
one of magazine 2, one of magazine 3, and again, 150 lines in all. So line n
of magazine m is line 3n - 3 + m of the recording, counting from 1.

The two short plans are of magazine 1 alone. In each a sending that must not
be read out leaves rows in the record, and the next sending is clean.

Most pages have English letters; page 201 has German ones, 302 French and 303
Czech ones. Page 101 names a letter set that does not exist.

The charities, their references and the places are invented.
"""

# ---------------------------------------------------------------- the texts
# A name in braces is a control code and takes one cell, like a letter.
# {block} is the code 7F. Rows are filled up with spaces to 40 cells.
# A letter is written as itself, and is sent as the code that shows it in the
# letter set of its page.

TEXTS = {
    # Page 100. Row 1 is a double-height headline, and takes row 2. Row 10 is
    # what a reader copies on to a payment slip: with "#" for the pound sign it
    # would be a wrong amount. Row 24 has the prompts, and is the last.
    "appeal": {
        1: "{yellow}{double}LANTERN MOSS OTTER TRUST",
        3: "{white}An invented charity in an example.",
        5: "The otters of Lantern Moss need a new",
        6: "holt before winter. A plank costs £2",
        7: "and a round door costs £9.",
        9: "{cyan}To give £9, quote this reference:",
        10: "{yellow}MOSS £9 4417 0926",
        12: "Given so far: £1,204",
        20: "Stall by the mill on Sunday at three.",
        22: "{green}Bakers → page 101",
        24: "Otters  Bakers  Weather  Puzzle",
    },
    "total": {
        12: "Given so far: £1,260",
    },
    # Page 101. Its reference stands in the same row as that of page 100,
    # so that a receiver which mixes the two pages sends gifts astray. Its set
    # 7 has no letters: English stands in, and that is said.
    "fund": {
        1: "{yellow}BRASS KETTLE BAKERS' FUND",
        3: "{white}Another invented charity.",
        9: "{cyan}To give £3, quote this reference:",
        10: "{yellow}BUNS £3 8050 3371",
    },
    # Page 200.
    "weather": {
        1: "{yellow}WEATHER FOR LANTERN MOSS",
        3: "{cyan}Morning: mist, then bright",
        4: "{cyan}Noon: bright",
        5: "{cyan}Afternoon: cloud from the west",
        7: "{cyan}Evening: rain on the hills",
        9: "{white}Wind: light, from the north",
        11: "{white}Frost: none before Tuesday",
        24: "Old mill: page 201",
    },
    # Page 201, in German: the friends of an old mill.
    "mill": {
        1: "{yellow}{double}FREUNDE DER ALTEN MÜHLE",
        5: "Ein größeres Mühlrad kostet 90 Taler.",
        6: "Äpfel, Öl und Mehl für Bäcker sonntags.",
        10: "{yellow}MÜHLE 2201 5566",
    },
    # Page 301: colours, mosaics, hold and conceal.
    "puzzle": {
        1: "{yellow}PUZZLE CORNER",
        3: "{blue}{new background}{white}Lantern Moss by night",
        5: "{mosaic green}jjjj5555{white}Reeds",
        # Capitals show as letters among mosaics, and so does the arrow.
        6: "{mosaic cyan}ppp→RIVER→ppp{white}The river",
        # Never back to letters: its spaces are blank mosaics to the end.
        7: "{mosaic yellow}{block}{block}  {block}",
        # Hold shows the last mosaic at the control codes, release ends it.
        9: "{mosaic red}{block}{hold}{mosaic green}{mosaic blue}{block}"
           "{release}{mosaic white}{white}Held, then released",
        # Going to letters forgets the held mosaic; coming back it is blank.
        10: "{mosaic red}{block}{hold}{white}A{cyan}B{mosaic red}"
            "{mosaic blue}{separated}{block}{white}Held, then blank",
        11: "{cyan}What swims, whistles and digs holts?",
        12: "{white}Answer:{conceal}AN OTTER{white}(press reveal)",
        # Double from the second word on: row 14 is hidden where this is sent.
        13: "{green}The{double}blot {block} is code 7F",
        14: "Readers 4, puzzle 2",
        16: "{flash}Next puzzle at 12:30{steady}or so",
        25: "Row 25 is not for the page",
    },
    "puzzle-later": {
        11: "{cyan}What has a door and no key?",
        12: "{white}Answer:{conceal}A HOLT{white}(press reveal)",
        14: "Readers 5, puzzle 2",
        18: "{magenta}New at 12:03: the second puzzle",
    },
    # Page 302, in French: the friends of a forest. The set has small letters
    # with accents and no capitals; all twelve are here.
    "forest": {
        1: "{yellow}{double}Amis de la forêt et de la côte",
        5: "Où le maïs a brûlé, des chênes naîtront",
        6: "grâce à vous, çà et là, dès Noël.",
        10: "{yellow}forêt 7310 2284",
    },
    # Page 303, in Czech: the friends of river dragonflies.
    "dragonflies": {
        1: "{yellow}{double}Spolek přátel říčních vážek",
        10: "{yellow}vážka 3090 6612",
    },
}

# ----------------------------------------------------------------- the plan
# One entry is one line; "rows 1 3 of fund" is one line for each number.
# "erase" sets C4. Without it, what the page held before stays, as older.
# "set 4" gives C12 to C14 the value 4 (4 * C12 + 2 * C13 + C14), where nothing
# is said 0. All sendings of a page have the same set.
# After a semicolon comes the damage on the way. One wrong bit in framing, an
# address or a header's number is put right; two are not, and the byte (for
# framing, the line) is refused. One wrong bit in a character is refused.
# A byte of an address or of a header's numbers, control bits among them, that
# is put right is mended. In an address it counts for whoever listens, in a
# header's numbers for its own magazine alone. A sending's own mended bytes are
# those of the header that opened it and of the rows stored in it.
# Pages with FF are time-filling: nobody can ask for them, but they end the
# page before. "links" is a row 27.

MAGAZINE_1 = """
    page 100 at 12:01, erase; one wrong bit in minutes units # line 1
    rows 1 3 5 6 7 9 of appeal
    row 10 of appeal; one wrong bit in column 9      # line 22: a digit of the reference
    rows 12 20 22 24 of appeal
    # The header that ends 100 at 12:01 is none of its own lines.
    # Line 44 ends 101 at 12:02, in doubt, so that nothing is said of its letters.
    page 101 at 12:02, erase, set 7; one wrong bit in page tens   # line 37: ends 100 at 12:01, in doubt
    rows 1 3 of fund
    row 9 of fund; one wrong bit in address 1        # line 46: neither 100 nor 101 is open

    # Row 20 is not sent again and nothing is erased, so the text of 12:01
    # stays; whoever asked for 100/1204 never had it. The single wrong bits
    # and the unread row 27 do no harm: this sending is clean.
    page 100 at 12:04; one wrong bit in hours units  # line 49
    row 1 of appeal
    row 3 of appeal; one wrong bit in framing        # line 55: framing is not counted
    rows 5 6 of appeal
    row 7 of appeal; one wrong bit in address 2      # line 64
    row 9 of appeal; one wrong bit in address 1      # line 67
    row 10 of appeal
    row 12 of total
    rows 22 24 of appeal
    # Its row is mended, and is 26 or 27; whose it is cannot be read.
    links; two wrong bits in address 1 and one wrong bit in address 2   # line 82

    # Which page begins here cannot be read, but one does: 100 at 12:04 ends,
    # clean, and the rows that follow must not be filed in it. The two bytes
    # mended behind the refused one count, though not as page 100's own.
    page 101 at 12:05, erase, set 7; two wrong bits in page units and one wrong bit in hours tens and one wrong bit in C11 to C14   # line 85
    rows 1 9 10 of fund

    # Here the header of page 101 is lost whole, and its rows 9 and 10 do land
    # in page 100. The receiver cannot know; the missing line must count. Its
    # own single wrong bits do not: a refused line mends nothing.
    page 100 at 12:07, erase; one wrong bit in page units and one wrong bit in C7 to C10   # line 97
    rows 1 3 5 6 7 of appeal
    row 9 of appeal; one wrong bit in address 1 and one wrong bit in address 2   # line 115
    row 10 of appeal
    row 12 of total
    row 22 of appeal
    page 101 at 12:08, erase, set 7; two wrong bits in framing and one wrong bit in address 1 and one wrong bit in page tens   # line 127
    row 9 of fund; one wrong bit in address 1        # line 130: stored, so it counts as page 100's own
    row 10 of fund
    page 1FF at 12:09; one wrong bit in address 2    # line 136: ends 100 at 12:07

    # Of 101 at 12:02, which was in doubt, row 3 is still there. This sending
    # is clean, and says that English stands in.
    page 101 at 12:10, set 7; one wrong bit in minutes tens   # line 139
    rows 1 10 of fund
    page 100 at 12:10                                # line 148: ends 101 at 12:10; open at the end
"""

MAGAZINE_2 = """
    page 200 at 12:01, erase
    rows 1 3 5 of weather
    row 7 of weather; one wrong bit in address 1 and two wrong bits in address 2   # line 14: not row 0, so doubt only
    rows 9 11 of weather
    row 24 of weather; one wrong bit in address 1    # line 23: stored, so it counts as page 200's own
    # The header that ends a sending of its own page opens the next, and is
    # that one's own line.
    page 200 at 12:02; one wrong bit in address 1 and one wrong bit in hours units   # line 26: ends 200 at 12:01
    rows 1 3 5 7 9 of weather
    # Nothing of this address can be read: it may have been a header of any
    # magazine. It ends pages 200 and 101; 100 and 301 are not open now.
    row 11 of weather; two wrong bits in address 1 and two wrong bits in address 2   # line 44
    row 24 of weather
    page 201 at 12:03, erase, set 1; one wrong bit in page units   # line 50: 200 is not open
    rows 1 5 10 of mill
    page 200 at 12:04, erase                         # line 62: ends 201 at 12:03, clean
    row 1 of weather
    row 3 of weather; one wrong bit in address 2     # line 68
    # An even row, so it may have been row 0: page 200 ends, and 5, 7 and 9
    # go nowhere. Magazine 2 was read, so pages 100 and 301 are not touched.
    row 4 of weather; one wrong bit in address 1 and two wrong bits in address 2   # line 71
    rows 5 7 9 of weather
    page 200 at 12:06, erase; one wrong bit in minutes units and one wrong bit in C7 to C10   # line 83
    rows 1 3 of weather
    # Magazine unread, and no row 0: doubt for 200 and for 301, both open.
    row 5 of weather; two wrong bits in address 1 and one wrong bit in address 2   # line 92
    # Magazine unread, and row 24 or 25: doubt again, for 200 and for the next
    # sending of 301.
    row 24 of weather; two wrong bits in address 1   # line 95
    row 9 of weather; one wrong bit in address 1     # line 98
    page 2FF at 12:07; one wrong bit in page tens    # line 101: ends 200 at 12:06
    page 200 at 12:08; one wrong bit in address 1 and one wrong bit in address 2 and one wrong bit in hours tens   # line 104
    row 1 of weather
    row 3 of weather; one wrong bit in column 11     # line 110
    rows 5 7 9 of weather
    row 11 of weather; one wrong bit in address 2    # line 122
    row 24 of weather
    # Line 127 is missing, but 201 was not open then.
    page 201 at 12:09, erase, set 1                  # line 128: ends 200 at 12:08
    rows 1 6 10 of mill
    page 200 at 12:10, erase                         # line 140: ends 201 at 12:09, clean
    row 1 of weather
    row 4 of weather; two wrong bits in address 2    # line 146: ends 200 at 12:10, as line 71
    row 5 of weather
"""

MAGAZINE_3 = """
    page 301 at 12:00, erase; one wrong bit in hours tens    # line 3
    rows 1 3 of puzzle
    row 5 of puzzle; one wrong bit in address 1 and one wrong bit in address 2   # line 12
    rows 6 7 9 10 11 12 13 14 16 of puzzle
    page 3FF at 12:01; one wrong bit in page units and one wrong bit in page tens   # line 42: ends 301 at 12:00, clean
    page 302 at 12:01, erase, set 4                  # line 45
    rows 1 10 of forest

    # Three rows replaced and one added; all others are those of 12:00, older.
    page 301 at 12:03                                # line 54: ends 302 at 12:01, clean
    row 11 of puzzle-later
    row 12 of puzzle-later; one wrong bit in address 1       # line 60
    rows 14 18 of puzzle-later
    row 25 of puzzle; one wrong bit in address 2     # line 69: not for the page
    # Its row 1 is that of 12:01, older.
    page 302 at 12:04, set 4                         # line 72: ends 301 at 12:03, clean
    rows 5 6 10 of forest
    # This ends 302 at 12:04, clean: line 82, while it was open, is of row 26
    # or 27. Of this sending's lines one byte is mended; that of line 92 is no
    # line of its own.
    page 301 at 12:06, erase; one wrong bit in C11 to C14    # line 84: in doubt from line 92
    rows 1 3 of puzzle
    # All of this sending's own lines are good; line 95 may have been its row 24.
    page 301 at 12:07, erase                         # line 93: ends 301 at 12:06; in doubt from line 95
    row 6 of puzzle
    row 7 of puzzle; one wrong bit in address 2      # line 99
    row 9 of puzzle
    page 303 at 12:07, erase, set 6                  # line 105: ends 301 at 12:07
    rows 1 10 of dragonflies
    # Line 127 is missing while this sending is open. It was not even of this
    # magazine, but that is just what a refused framing code does not say.
    page 301 at 12:08, erase                         # line 114: ends 303 at 12:07, clean
    rows 1 3 5 9 11 13 of puzzle
    page 3FF at 12:09                                # line 135: ends 301 at 12:08
    # Erased, so nothing older shows. Its own next header ends it, clean.
    page 301 at 12:09, erase; one wrong bit in page units and one wrong bit in minutes tens   # line 138
    row 1 of puzzle; one wrong bit in address 1      # line 141
    row 14 of puzzle-later; one wrong bit in address 2       # line 144
    page 301 at 12:10; one wrong bit in address 2 and one wrong bit in minutes units   # line 147: open at the end
    links; one wrong bit in address 1                # line 150: not for the page
"""

# What an earlier sending in doubt left: its row 10, with a digit missing, and
# its row 24 are not sent again, and nothing is erased. The byte mended in the
# second header is of the sending that it opens, and not of the one that it ends.
EARLIER = """
    page 100 at 12:01, erase
    row 1 of appeal
    row 10 of appeal; one wrong bit in column 9
    row 24 of appeal
    page 100 at 12:02; one wrong bit in hours units  # line 5: ends 100 at 12:01, in doubt
    rows 1 9 of appeal
    page 1FF at 12:03                                # line 8: ends 100 at 12:02, clean
"""

# What another page left: the header of page 101 is lost whole, and its rows 9
# and 10 are filed under 100. They are not sent again, and nothing is erased.
# The mended bytes before the lost line and behind it are of one sending.
LOST = """
    page 100 at 12:01, erase; one wrong bit in address 1 and one wrong bit in page units
    row 1 of appeal
    page 101 at 12:02, erase, set 7; two wrong bits in framing and one wrong bit in page units
    row 9 of fund
    row 10 of fund; one wrong bit in address 2
    page 100 at 12:03                                # line 6: ends 100 at 12:01
    row 1 of appeal
    page 1FF at 12:04; one wrong bit in page tens    # line 8: ends 100 at 12:03, clean
"""
