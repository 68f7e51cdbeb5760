#!/usr/bin/env python3
"""Runs the day program on both sides of each limit.

day_cases.py                    crates/day_program/out/day_program, as rt ci and rt run build it
day_cases.py PROGRAM            one that was built elsewhere
day_cases.py PROGRAM WORD ..    an example that must print the same lines, called so where book.bin and day.bin are; it
                                ends with status 1 if the run is not made
"""
import os
import sys

from program_cases import (CASES, EACH_BOOK, FULL_BOOK, SMALL_BOOK, SMALL_DAY, a_folder, a_loop, day, difference, hold,
                           in_pieces, many, of_size, ran, refused)

TOP = os.path.dirname(os.path.dirname(os.path.abspath(__file__)))
PROGRAM = os.path.join(TOP, "crates", "day_program", "out", "day_program")

# What it lends and reads no more than, and a file that it can't read, which counts as empty.
OWN = [
    ("both files missing", None, None, refused(1)),
    ("the day file missing", SMALL_BOOK, None, refused(8)),
    ("the book missing", None, SMALL_DAY, refused(1)),
    ("a folder for the book", a_folder, SMALL_DAY, refused(1)),
    ("a folder for the day", SMALL_BOOK, a_folder, refused(8)),
    ("a book that can't be opened", a_loop, SMALL_DAY, refused(1)),
    ("a day that can't be opened", SMALL_BOOK, a_loop, refused(8)),
    ("1,025 messages", EACH_BOOK, many(1025)[0], refused(11)),
    ("4,095 messages", EACH_BOOK, day([b""] * 4095), refused(11)),
    ("a book of 4,611 bytes", FULL_BOOK + b"\0", SMALL_DAY, "too long\n"),
    ("a book of 65,536 bytes", FULL_BOOK + bytes(65536 - 4610), SMALL_DAY, "too long\n"),
    ("a byte after a day file of 32,768", EACH_BOOK, of_size(32768)[0] + b"\0", "too long\n"),
    ("a day file of 32,769 bytes", EACH_BOOK, of_size(32769)[0], "too long\n"),
    ("a day file of 32,769 bytes in pieces", EACH_BOOK, in_pieces(of_size(32769)[0]), "too long\n"),
    ("a day file of 65,536 bytes", EACH_BOOK, of_size(65536)[0], "too long\n"),
    ("both too long", FULL_BOOK + b"\0", of_size(32769)[0], "too long\n"),
    ("a day file that is too long, and no book", None, of_size(32769)[0], "too long\n"),
]


def made(lines):
    return lines.split("\n")[-2].startswith("total 0 ")


def tried(case, call, status_if_not_made):
    _, the_book, the_day, lines = case
    status, out, err = ran(call, the_book, the_day)
    wanted = 0 if made(lines) else status_if_not_made
    if status != wanted:
        yield "it ends with %d, and must end with %d" % (status, wanted)
    if out != lines:
        yield difference(out, lines)
    if err:
        yield "on standard error it says %r" % err


def main():
    program, *words = sys.argv[1:] or [PROGRAM]
    if not os.path.exists(program):
        sys.exit("day cases: %s is not built" % program)
    call, status_if_not_made = [os.path.abspath(program), *words], 1 if words else 0
    who = "day cases of " + os.path.basename(program)
    hold(who, CASES + OWN, lambda case: list(tried(case, call, status_if_not_made)))


if __name__ == "__main__":
    main()
