#!/usr/bin/env python3
"""Runs show, why, make and check of the command on cases by hand: what they print, word by word, and how they end.

desk_cases.py COMMAND STAND_IN    the command, and the command linked with stand_in.c in the library's place

The stand-in gives wrong answers, so that the command has something to differ from. command_cases.py has `run`; what show,
why and check say of thousands of other inputs is held against the second engine by command_fuzz.c.
"""
import json
import os
import subprocess
import sys
import tempfile

from command_cases import words_of
from house import LONG
from program_cases import difference, filters, hold, nested, rows
from small_day import (CALL, DAY, LATE, LEAF, NOT, OR, SERVICE, SMALL_BOOK, SMALL_DAY, STEP, TRUE, book, call, day, end, node, start,
                       state, text, u16, u32)

NAMES = b"1 service\n2 call # a stop\n\n3 late\r\n32772 day\n"
GIVEN = {"book.bin": SMALL_BOOK, "day.bin": SMALL_DAY, "names.txt": NAMES}
COMMAND, STAND_IN = 0, 1


class Case:
    """A call, by the files that it finds beside the given ones; what it must print, and what file it must leave."""

    def __init__(self, name, words, out="", err="", status=0, files=None, given=b"", leaves=None, program=COMMAND):
        self.name, self.words, self.out, self.err, self.status = name, words, out, err, status
        self.files, self.given, self.leaves, self.program = {**GIVEN, **(files or {})}, given, leaves, program

    def __getitem__(self, k):
        return [self.name][k]


# ---- check

def refused_file(name, data, number, place, kind="book"):
    """A file that check refuses: its verdict, and the place in words."""
    path, what = ("book.bin", "a filter book") if kind == "book" else ("day.bin", "a day file")
    out = rows("%s: %s, refused, %d: %s" % (path, what, number, words_of(number)), "%s: %s" % (path, place))
    return Case("check: " + name, ["check", "--" + kind, path], out, status=1, files={path: data})


def one_filter(*states):
    return book([(10, list(states))])


def bad_books():
    yield refused_file("no byte", b"", 1, "byte 0: the book has 0 of the 2 bytes that say how many filters")
    yield refused_file("one byte", b"\1", 1, "byte 1: the book has 1 of the 2 bytes that say how many filters")
    yield refused_file("contents cut", SMALL_BOOK[:25], 1, "byte 25: 3 filters need 26 bytes of contents, and the book has 25")
    yield refused_file("65 filters", filters(range(65)), 2, "byte 0: it says that it has 65 filters")
    yield refused_file("ids", filters([5, 6, 6]), 3, "filter 6, byte 18: id 6 comes after id 6")
    yield refused_file("no state", book([(1, [state(TRUE)]), (2, [])]), 4, "filter 2, byte 16: the filter has no state")
    yield refused_file("513 states", filters([1, 2], 257)[:2] + u32(1) + u16(18) + u16(256) + u32(2) + u16(18 + 8 * 256) + u16(257)
                       + state(TRUE) * 513, 4, "filter 2, byte 16: with this filter there are 513 states")
    yield refused_file("a body astray", u16(1) + u32(1) + u16(11) + u16(1) + state(TRUE), 5,
                       "filter 1, byte 6: the body is said to start at byte 11, and must start at 10")
    yield refused_file("a byte more", SMALL_BOOK + b"\0", 5, "byte 154: the last body ends here, and bytes follow")
    yield refused_file("a byte less", SMALL_BOOK[:-1], 5, "byte 153: the book ends here, and its last body only at byte 154")
    yield refused_file("kind 6", one_filter(state(TRUE), b"\6" + bytes(7)), 6, "filter 10, state 1, byte 18: kind 6 is none of 0 to 5")
    yield refused_file("relation 0", one_filter(b"\1" + bytes(7)), 6,
                       "filter 10, state 0, byte 11: the relation of a LEAF is 1 to 6, and is 0")
    yield refused_file("relation 7", one_filter(b"\1\7" + bytes(6)), 6,
                       "filter 10, state 0, byte 11: the relation of a LEAF is 1 to 6, and is 7")
    yield refused_file("a STEP's last byte", one_filter(b"\5" + bytes(6) + b"\x09"), 6,
                       "filter 10, state 0, byte 17: byte 7 of a STEP must be 0, and is 9")
    yield refused_file("a NOT's second successor", one_filter(state(NOT, 1, 1), state(TRUE)), 6,
                       "filter 10, state 0, byte 14: byte 4 of a NOT must be 0, and is 1")
    yield refused_file("a successor outside", one_filter(state(STEP, 1, 2), state(TRUE)), 7,
                       "filter 10, state 0, byte 14: the STEP leads to state 2, and its body has 2 states, from 0 on")
    yield refused_file("a successor that is its own", one_filter(state(TRUE), state(OR, 2, 1), state(TRUE)), 7,
                       "filter 10, state 1, byte 22: the OR leads to state 1, which is not higher than its own, 1")


def bad_days():
    long = u16(1) + u32(10) + u32(1048567) + bytes(1048567)
    for name, data, number, place in (
        ("no byte", b"", 8, "byte 0: the file has 0 of the 2 bytes that say how many messages"),
        ("table cut", SMALL_DAY[:41], 8, "byte 41: 5 messages need a table of 42 bytes, and the file has 41"),
        ("too long", long, 8, "byte 1048576: the file has more than 1,048,576 bytes"),
        ("4,097 messages", day([b""] * 4097), 9, "byte 0: it says that it has 4097 messages"),
        ("a message astray", SMALL_DAY[:10] + u32(88) + SMALL_DAY[14:], 10,
         "message 2, byte 10: it is said to start at byte 88, and must start at 87"),
        ("a byte more", SMALL_DAY + b"\0", 10, "byte 171: the last message ends here, and bytes follow"),
        ("a byte less", SMALL_DAY[:-1], 10, "byte 170: the file ends here, and its last message only at byte 171"),
    ):
        yield refused_file(name, data, number, place, "day")


TOP_START, NOTHING = "the start of the top element", "nothing: the message ends here"
IN_CALL = "the start of an attribute, the start of a child element, a text, the end of 2"
BAD_MESSAGES = [  # a name, a body, number and place, the event there, why, and what may stand there
    ("kind 4", b"\4", 21, 0, "bytes 04", "the first byte of an event is 1, 2 or 3", TOP_START),
    ("a start cut", start(2) + b"\1\1", 22, 3, "bytes 01 01", "a start or an end takes 3 bytes", IN_CALL),
    ("a text with no length", start(2) + b"\2", 22, 3, "bytes 02", "a text without its length byte", IN_CALL),
    ("a text cut", start(2) + b"\2\3ab", 22, 3, "bytes 02 03 61 62", "a text longer than what is left", IN_CALL),
    ("label 0", start(0), 23, 0, "start 0", "no node has this label; in a STEP it means any", TOP_START),
    ("an attribute at top", start(DAY), 24, 0, "start 32772", "an attribute with no element open", TOP_START),
    ("a second top", node(1) + start(1), 24, 6, "start 1", "a second top element", NOTHING),
    ("inside an attribute", start(1) + start(DAY) + start(2), 24, 6, "start 2", "a start inside an attribute", "a text, the end of 32772"),
    ("after a text", start(1) + text(b"a") + start(2), 24, 6, "start 2", "a child element after a text", "the end of 1"),
    ("an attribute after a text", start(1) + text(b"") + start(DAY), 24, 5, "start 32772", "an attribute after the text of its element",
     "the end of 1"),
    ("an attribute after a child", start(1) + node(2) + start(DAY), 24, 9, "start 32772", "an attribute after a child element",
     "the start of a child element, the end of 1"),
    ("65 open", start(2) * 65, 25, 192, "start 2", "64 starts are open, attributes counted", "a text, the end of 2"),
    ("a text at top", text(b"a"), 26, 0, 'text "a"', "a text with nothing open", TOP_START),
    ("a second text", start(1) + text(b"") + text(b"a"), 26, 5, 'text "a"', "a second text", "the end of 1"),
    ("a text after a child", start(1) + node(2) + text(b"a"), 26, 9, 'text "a"', "a text after a child element",
     "the start of a child element, the end of 1"),
    ("out of range", start(2) + text(b"2147483648"), 27, 3, 'text "2147483648"', "a value lies from -2,147,483,648 to 2,147,483,647",
     "the end of 2"),
    ("an end at top", end(1), 28, 0, "end 1", "an end with nothing open", TOP_START),
    ("another end", start(1) + start(2) + end(1), 28, 6, "end 1", "an end with another label than that of the innermost open start",
     IN_CALL),
    ("no top", b"", 29, 0, "the end of the message", "the top element never came", TOP_START),
    ("still open", start(2), 29, 3, "the end of the message", "the top element is still open", IN_CALL),
]


def verdict(number, place, at, message=1):
    return "day.bin: message %d, byte %d (byte %d of the file), %d: %s" % (message, place, at + place, number, words_of(number))


def bad_messages():
    for name, body, number, place, event, why, allowed in BAD_MESSAGES:
        whole = day([body])
        head = "day.bin: a day file of %d bytes, messages: 1: accepted" % len(whole)
        said = rows(head, verdict(number, place, 10), "  %s: %s; here may stand: %s" % (event, why, allowed))
        yield Case("check: " + name, ["check", "--day", "day.bin"], said, files={"day.bin": whole})


def verdicts():
    good = "book.bin: a filter book of 154 bytes, filters: 3, states: 16: accepted\n"
    yield Case("check: a good book", ["check", "book.bin"], good)
    fine = {"day.bin": day([node(1), nested(64)])}
    all_read = "day.bin: a day file of 408 bytes, messages: 2: accepted\n"
    yield Case("check: a good day", ["check", "--strict", "day.bin"], all_read, files=fine)
    with_one = rows("day.bin: a day file of 171 bytes, messages: 5: accepted", verdict(24, 9, 159, 5),
                    "  start @day: an attribute after a child element; here may stand: the start of a child element, the end of service")
    yield Case("check: names", ["check", "day.bin", "--names", "names.txt"], with_one)
    yield Case("check: --strict", ["check", "--strict", "--names", "names.txt", "day.bin"], with_one, status=3)
    yield Case("check: standard input", ["check", "-"], good.replace("book.bin", "standard input"), given=SMALL_BOOK)


# ---- What a file is taken for

def kinds():
    taken = {True: "x.bin: a filter book", False: "x.bin: a day file"}
    for name, data, is_book in (("a bad book, by its first entry", SMALL_BOOK[:-1], True),
                                ("a bad day, by its first entry", SMALL_DAY + b"x", False)):
        refusal = 5 if is_book else 10
        place = "byte 153: the book ends here, and its last body only at byte 154" if is_book else \
            "byte 171: the last message ends here, and bytes follow"
        out = rows("%s, refused, %d: %s" % (taken[is_book], refusal, words_of(refusal)), "x.bin: " + place)
        yield Case("a kind: " + name, ["check", "x.bin"], out, status=1, files={"x.bin": data})
    empty_book = "%s: a filter book of 2 bytes, filters: 0, states: 0: accepted"
    empty_day = "%s: a day file of 2 bytes, messages: 0: accepted"
    for path, out in (("a/book", rows(empty_book % "a/book")), ("book/day.1", rows(empty_day % "book/day.1")),
                      ("x", rows(empty_book % "x", empty_day % "x")), ("book-day", rows(empty_book % "book-day", empty_day % "book-day"))):
        yield Case("a kind: " + path, ["check", path], out, files={path: u16(0)})
    asks = "esquirmell: is x a book or a day file? --book or --day says so\n"
    yield Case("a kind: show asks", ["show", "x"], err=asks, status=2, files={"x": u16(0)})
    yield Case("a kind: a book as a day", ["show", "--day", "book.bin"], status=1, err=rows(
        "book.bin: refused, 10: %s" % words_of(10),
        "book.bin: message 1, byte 2: it is said to start at byte 10, and must start at 26"))
    yield Case("a kind: no message of a book", ["show", "book.bin", "1"], status=2,
               err="esquirmell: book.bin is a filter book, and has no messages\n")


# ---- show

def shown():
    a_book = book([(7, [state(OR, 1, 2), state(STEP, 32768, 2), state(LEAF, 2, -2147483648)]),
                   (4294967295, [state(STEP, 0, 0), state(STEP, DAY, 1)])])
    yield Case("show: a book", ["show", "--names", "names.txt", "a.bin"], rows(
        "book                                      # byte 0: 02 00, filters: 2",
        "filter 7                                  # byte 2: 07 00 00 00 12 00 03 00, body at byte 18, states 0 to 2 of the book",
        "  0 OR 1 2                                # byte 18: 03 00 01 00 02 00 00 00",
        "  1 STEP @* -> 2                          # byte 26: 05 00 00 80 02 00 00 00",
        "  2 LEAF != -2147483648                   # byte 34: 01 02 00 00 00 00 00 80",
        "filter 4294967295                         # byte 10: ff ff ff ff 2a 00 02 00, body at byte 42, states 3 to 4 of the book",
        "  0 STEP * -> 0                           # byte 42: 05 00 00 00 00 00 00 00",
        "  1 STEP @day -> 1                        # byte 50: 05 00 04 80 01 00 00 00"), files={"a.bin": a_book})
    a_day = day([start(1) + text(b'a"\\\n\xc3\xa4') + end(1), start(2) + text(b"\xff\x07" + b"x" * 9) + b"\1", b""])
    yield Case("show: a day", ["show", "a.bin"], rows(
        "day                                       # byte 0: 03 00, messages: 3",
        "message 1                                 # byte 2: 1a 00 00 00 0e 00 00 00, body at byte 26, 14 bytes",
        "  start 1                                 # byte 26, place 0: 01 01 00",
        '    text "a\\"\\\\\\nä"                      # byte 29, place 3: 02 06 61 22 5c 0a c3 a4',
        "  end 1                                   # byte 37, place 11: 03 01 00",
        "message 2                                 # byte 10: 28 00 00 00 11 00 00 00, body at byte 40, 17 bytes",
        "  start 2                                 # byte 40, place 0: 01 02 00",
        '    text "\\xff\\x07xxxxxxxxx"              # byte 43, place 3: 02 0b ff 07 78 78 78 78 ..',
        "    bytes 01                              # byte 56, place 16; refused here, 22: " + words_of(22),
        "message 3                                 # byte 18: 39 00 00 00 00 00 00 00, body at byte 57, 0 bytes",
        "  # byte 57, place 0; refused here, 29: " + words_of(29)), files={"a.bin": a_day})
    yield Case("show: one message", ["show", "day.bin", "4", "--names", "names.txt"], rows(
        "day                                       # byte 0: 05 00, messages: 5",
        "message 4                                 # byte 26: 99 00 00 00 06 00 00 00, body at byte 153, 6 bytes",
        "  start service                           # byte 153, place 0: 01 01 00",
        "  end service                             # byte 156, place 3: 03 01 00"))


def shown_else():
    """A message that is none, and the memory."""
    for word in ("0", "6", "x", ""):
        yield Case("show: message '%s'" % word, ["show", "day.bin", word], status=2,
                   err="esquirmell: %s is no message of day.bin, which has 5\n" % word)
    yield Case("show: a memory", ["show", "--memory", "book.bin", "day.bin", "2"], rows(
        "memory of 2 slots: asked 17, worked out anew 14, filled 2",
        "slot 0: 32772 with states 3 9 14 -> 12",
        "slot 1: 3 with states 3 9 -> 2 8",
        "state 0: filter 10, 0 STEP 1 -> 1", "state 1: filter 10, 1 STEP 2 -> 2", "state 2: filter 10, 2 STEP 3 -> 3",
        "state 3: filter 10, 3 LEAF > 5", "state 6: filter 20, 2 STEP * -> 1", "state 7: filter 20, 3 STEP 2 -> 4",
        "state 8: filter 20, 4 STEP 3 -> 5", "state 9: filter 20, 5 LEAF > 5", "state 10: filter 30, 0 STEP 1 -> 1",
        "state 12: filter 30, 2 STEP 32772 -> 4", "state 13: filter 30, 3 STEP 2 -> 5", "state 14: filter 30, 4 LEAF = 6"))


# ---- why

def why(name, words, *lines, **more):
    return Case("why: " + name, ["why", "--names", "names.txt", *words], rows(*lines), **more)


def head(message, at, ids):
    return "day.bin: message %d, from byte %d on, is read; filters true by the proved run: %s" % (message, at, ids)


def verdict_of(ident, yes):
    return "filter %d: %s by the proved run, %s by the match rule" % (ident, *["true" if yes else "not true"] * 2)


def leaves():
    """A LEAF at nodes with a number, a word, no text; a refused message has no reason but its refusal."""
    is_not = {"book.bin": book([(1, [state(STEP, 3, 1), state(LEAF, 2, 7)])])}
    for name, body, said in (("a number", node(LATE, text(b" 7 ")), "7 is not != 7"),
                             ("a word", node(LATE, text(b"can\tcelled")), 'its text "can\\tcelled" is no number'),
                             ("no text", node(LATE), "it has no text")):
        yield why(name, ["book.bin", "day.bin", "1", "1"], head(1, 10, "none"), verdict_of(1, False),
                  "  0 STEP late -> 1 at /: no, the one child that fits does not match 1",
                  "    1 LEAF != 7 at /late, byte 10: no, " + said, files={**is_not, "day.bin": day([body])})
    yield why("a LEAF at the root", ["book.bin", "day.bin", "1"], head(1, 10, "none"), verdict_of(1, False),
              "  0 LEAF = 0 at /: no, the root has no text",
              files={"book.bin": book([(1, [state(LEAF, 1, 0)])]), "day.bin": day([node(1)])})


def children():
    """What a STEP that fails has looked at: ten children, or all with --all; labels of those that do not fit."""
    late = {"book.bin": book([(1, [state(STEP, 1, 1), state(STEP, 2, 2), state(LEAF, 5, 5)])]),
            "day.bin": day([node(1, *[node(2, text(b"%d" % k)) for k in range(-7, 5)])])}
    lines = [head(1, 10, "none"), verdict_of(1, False), "  0 STEP service -> 1 at /: no, the one child that fits does not match 1"]
    step = "    1 STEP call -> 2 at /service, byte 10: no, of 12 children that fit none matches 2"
    at = [13 + sum(8 + len(str(k)) for k in range(-7, j)) for j in range(-7, 5)]
    each = ["      2 LEAF > 5 at /service/call[%d], byte %d: no, %d is not > 5" % (k + 1, at[k], k - 7) for k in range(12)]
    words = ["book.bin", "day.bin", "1"]
    yield why("ten of twelve", words, *lines, step + "; the first 10 are gone into, --all goes into each", *each[:10], files=late)
    yield why("all of twelve", ["--all", *words], *lines, step, *each, files=late)
    none = {"book.bin": book([(1, [state(STEP, 1, 1), state(STEP, 9, 0)])]), "day.bin": day([node(1, *[node(2), node(3)] * 5)])}
    fits = "    1 STEP 9 -> 0 at /service, byte 10: no, no child fits: call late call late call late call late .."
    yield why("labels that do not fit", words, *lines, fits, files=none)
    yield why("as above", ["book.bin", "day.bin", "1"], head(1, 10, "1"), verdict_of(1, True),
              "  0 AND 1 2 at /: yes, both match", "    1 NOT 3 at /: yes, 3 does not match",
              "      3 STEP * -> 4 at /: no, the one child that fits does not match 4",
              "        4 STEP @* -> 0 at /service, byte 10: no, it has no child",
              "    2 NOT 3 at /: yes, 3 does not match", "      3 STEP * -> 4 at /: no, as above",
              files={"book.bin": book([(1, [b"\2\0\1\0\2\0\0\0", state(NOT, 3), state(NOT, 3), state(STEP, 0, 4), state(STEP, 32768, 0)])]),
                     "day.bin": day([node(1)])})


def reasons():
    small = ["book.bin", "day.bin"]
    yield why("a filter that is true", [*small, "1", "30"], head(1, 42, "10 30"), verdict_of(30, True),
              "  0 STEP service -> 1 at /: yes, a child that fits matches 1",
              "    1 AND 2 3 at /service, byte 42: yes, both match",
              "      2 STEP @day -> 4 at /service, byte 42: yes, a child that fits matches 4",
              "        4 LEAF = 6 at /service/@day, byte 45: yes, 6 = 6",
              "      3 STEP call -> 5 at /service, byte 42: yes, a child that fits matches 5",
              "        5 TRUE at /service/call[1], byte 54: yes, TRUE matches every node")
    yield why("a filter that is not", [*small, "4", "30"], head(4, 153, "20"), verdict_of(30, False),
              "  0 STEP service -> 1 at /: no, the one child that fits does not match 1",
              "    1 AND 2 3 at /service, byte 153: no, 2 does not match",
              "      2 STEP @day -> 4 at /service, byte 153: no, it has no child")
    yield why("a refused message", [*small, "5", "10"], verdict(24, 9, 159, 5), "  the event there: start @day",
              "  open there: /service", "  why: an attribute after a child element",
              "  here may stand: the start of a child element, the end of service", "  a refused message matches no filter")
    yield why("no event", ["book.bin", "day.bin", "1"], verdict(29, 0, 10), "  the event there: the end of the message",
              "  open there: nothing", "  why: the top element never came", "  here may stand: " + TOP_START,
              "  a refused message matches no filter", files={"day.bin": day([b""])})
    for word in ("0", "6", "1x"):
        yield why("message %s" % word, [*small, word], status=2, err="esquirmell: %s is no message of day.bin, which has 5\n" % word)
    for word in ("11", "x", "4294967306"):
        yield why("filter %s" % word, [*small, "1", word], status=2, err="esquirmell: %s is no filter of book.bin\n" % word)
    yield why("a bad book", [*small, "1"], status=1, files={"book.bin": SMALL_BOOK + b"x"}, err=rows(
        "book.bin: refused, 5: " + words_of(5), "book.bin: byte 154: the last body ends here, and bytes follow"))


def long_reason():
    """Without --all a reason of more than 1,000 lines is cut."""
    ladder = book([(1, [state(NOT, 1), state(OR, 2, 3), state(STEP, 1, 1), state(STEP, 2, 0)])])
    deep = day([node(1, *[node(1, *[node(1, *[node(1) for _ in range(9)]) for _ in range(9)]) for _ in range(9)])])
    return ladder, deep


# ---- make

def made_from(name, words, lines, data):
    return Case("make: " + name, ["make", "t.txt", "made.bin", *words], files={"t.txt": rows(*lines).encode()}, leaves={"made.bin": data})


def bad_text(name, place, said, *lines, words=()):
    return Case("make: " + name, ["make", "t.txt", *words], status=1, err="t.txt: %s: %s\n" % (place, said),
                files={"t.txt": rows(*lines).encode()})


KIND = "a kind is expected: TRUE LEAF AND OR NOT STEP"
CONSTANT = "a constant is expected, -2147483648 to 2147483647"
ESCAPES = "an escape is one of \\\" \\\\ \\n \\r \\t \\xHH"


def made():
    names = ["--names", "names.txt"]
    yield made_from("a book of no filter", [], ["# nothing", "", "book"], u16(0))
    yield made_from("a day of no message", [], ["day"], u16(0))
    yield made_from("a day with an empty message", [], ["day", "message 1", "message 2 # none"], day([b"", b""]))
    yield made_from("messages from 4 on", [], ["day", "message 4", "start 1", "end 1", "message 5"], day([node(1), b""]))
    yield made_from("labels", [], ["day", "message 1", "start 00", "end 65535"], day([start(0) + end(65535)]))
    yield made_from("names", names, ["book", "filter 1", "0 STEP @day -> 0", "1 STEP * -> 0", "2 STEP @* -> 0", "3 STEP call -> 0"],
                    book([(1, [state(STEP, label, 0) for label in (DAY, 0, 32768, CALL)])]))
    yield made_from("relations", [], ["book", "filter 1"] + ["%d LEAF %s %d" % (k, sign, c) for k, (sign, c) in enumerate(
        [("=", 0), ("!=", -1), ("<", 2147483647), ("<=", -2147483648), (">", 5), (">=", 6)])],
        book([(1, [state(LEAF, k + 1, c) for k, c in enumerate([0, -1, 2147483647, -2147483648, 5, 6])])]))
    yield made_from("escapes", [], ["day", "message 1", '  text "\\"\\\\\\n\\r\\t\\x00\\xFf # ä"', "bytes 00 fF"],
                    day([text(b'"\\\n\r\t\x00\xff # \xc3\xa4') + b"\0\xff"]))
    yield made_from("a text of 255", [], ["day", "message 1", 'text "%s"' % ("y" * 255)], day([text(b"y" * 255)]))
    yield Case("make: standard output", ["make", "-"], out=u16(0).decode(), given=b"book\r\n")
    yield Case("make: a text without an end", ["make", "/dev/zero", "made.bin"], status=2, leaves={"made.bin": None},
               err="esquirmell: /dev/zero is too long for a text: it has 268435456 bytes or more\n")
    yield Case("make: no such folder", ["make", "t.txt", "none/made.bin"], status=2, files={"t.txt": b"day"},
               err="esquirmell: none/made.bin can't be written: No such file or directory\n")


def bad_texts():
    yield bad_text("nothing", "line 1, column 1", "book or day is expected")
    yield bad_text("another word", "line 2, column 3", "book or day is expected", "# a remark", "  books")
    yield bad_text("a word more", "line 1, column 6", "the line should end here", "book 1")
    yield bad_text("a state first", "line 2, column 1", "a filter is expected before its states", "book", "0 TRUE")
    yield bad_text("no number", "line 3, column 2", "a state or a filter is expected", "book", "filter 1", " TRUE")
    yield bad_text("another number", "line 4, column 1", "this is state 1 of its filter", "book", "filter 1", "0 TRUE", "2 TRUE")
    yield bad_text("no kind", "line 3, column 2", KIND, "book", "filter 1", "0")
    yield bad_text("no such kind", "line 3, column 3", KIND, "book", "filter 1", "0 WORD")
    yield bad_text("no id", "line 2, column 7", "an id is expected, 0 to 4294967295", "book", "filter")
    yield bad_text("an id too high", "line 2, column 8", "an id is expected, 0 to 4294967295", "book", "filter 4294967296")
    yield bad_text("a state's end", "line 3, column 8", "the line should end here", "book", "filter 1", "0 TRUE 1")
    yield bad_text("no relation", "line 3, column 8", "a relation is expected: = != < <= > >=", "book", "filter 1", "0 LEAF == 5")
    yield bad_text("no constant", "line 3, column 10", CONSTANT, "book", "filter 1", "0 LEAF = ä5")
    yield bad_text("a constant too high", "line 3, column 10", CONSTANT, "book", "filter 1",
                   "0 LEAF = 2147483648")
    yield bad_text("no arrow", "line 3, column 10", "-> is expected", "book", "filter 1", "0 STEP 1 1")
    yield bad_text("no label", "line 3, column 8", "a label is expected, 0 to 65,535; names need --names", "book", "filter 1",
                   "0 STEP call -> 0")
    yield bad_text("no such name", "line 3, column 8", "no label has this name", "book", "filter 1", "0 STEP @call -> 0",
                   words=["--names", "names.txt"])
    yield bad_text("any element in a message", "line 3, column 7", "no label has this name", "day", "message 1", "start *",
                   words=["--names", "names.txt"])


def bad_wholes():
    """What shows only when more of the text is there: the line is that of the fault."""
    yield bad_text("a successor outside", "line 3, column 2",
                   "refused, 7: the STEP leads to state 1, and its body has 1 state, from 0 on", "book", "filter 1", " 0 STEP 1 -> 1")
    yield bad_text("ids", "line 4, column 1", "refused, 3: id 2 comes after id 2", "book", "filter 2", "0 TRUE", "filter 2", "0 TRUE")
    yield bad_text("no state", "line 2, column 1", "refused, 4: the filter has no state", "book", "filter 2", "filter 3", "0 TRUE")
    yield bad_text("65 filters", "line 130, column 1", "refused, 2: this would be the 65th filter", "book",
                   *["filter %d\n0 TRUE" % k for k in range(64)], "filter 64")
    yield bad_text("513 states", "line 515, column 1", "refused, 4: this would be the 513th state", "book", "filter 1",
                   *["%d TRUE" % k for k in range(513)])


def bad_day_texts():
    yield bad_text("an event first", "line 2, column 1", "a message is expected before its events", "day", "start 1")
    yield bad_text("another event", "line 3, column 1", "message, start, text, end or bytes is expected", "day", "message 1", "stop 1")
    yield bad_text("message 0", "line 2, column 9", "a message's number is expected, 1 to 4096", "day", "message 0")
    yield bad_text("message 3 after 1", "line 3, column 9", "this is message 2", "day", "message 1", "message 3")
    yield bad_text("no quotes", "line 3, column 6", "a text between quotes is expected", "day", "message 1", "text 6")
    yield bad_text("an open quote", "line 3, column 6", "a text between quotes is expected", "day", "message 1", 'text "6\\"')
    yield bad_text("an escape", "line 3, column 8", ESCAPES, "day", "message 1", 'text "6\\a"')
    yield bad_text("half an escape", "line 3, column 8", ESCAPES, "day", "message 1", 'text "6\\x4"')
    yield bad_text("a text of 256", "line 3, column 6", "a text has at most 255 bytes, and this has 256", "day", "message 1",
                   'text "%s"' % ("y" * 256))
    yield bad_text("a column behind a letter of two bytes", "line 3, column 10", "the line should end here", "day", "message 1",
                   'text "ä" x')
    yield bad_text("bytes", "line 3, column 10", "a byte is expected, as two digits of base 16", "day", "message 1", "bytes 00 0")
    yield bad_text("no bytes", "line 3, column 6", "bytes are expected, each as two digits of base 16", "day", "message 1", "bytes")
    full = ["day", "message 1"] + ['text "%s"' % ("y" * 255)] * 4080 + ["bytes" + " 00" * 6]  # 10 + 4,080 * 257 + 6 bytes
    yield bad_text("too long", "line 4084, column 1", "refused, 8: with this line the file has more than 1,048,576 bytes", *full,
                   "bytes 00")


def bad_names():
    label = "a label is expected, 1 to 32,767 or 32,769 to 65,535"
    name = "this is no name: a letter or _, then letters, digits, . - _"
    for what, text_, place, said in (
        ("label 0", "0 a", "line 1, column 1", label), ("label 32768", "1 a\n32768 b", "line 2, column 1", label),
        ("no label", "service 1", "line 1, column 1", label), ("label 65536", "65536 a", "line 1, column 1", label),
        ("no name", "1", "line 1, column 2", "a name is expected"), ("a digit first", "1 1a", "line 1, column 3", name),
        ("a colon", "1 a:b", "line 1, column 3", name), ("a name too long", "1 " + "a" * 256, "line 1, column 3", name),
        ("a label twice", "1 a\n1 b", "line 2, column 1", "label 1 has a name already"),
        ("a name twice", "1 a\n2 a", "line 2, column 3", "this name has a label already"),
        ("a word more", "1 a b", "line 1, column 5", "the line should end here"),
    ):
        yield Case("names: " + what, ["show", "--names", "n.txt", "book.bin"], status=1, err="n.txt: %s: %s\n" % (place, said),
                   files={"n.txt": text_.encode()})
    one_line = rows("memory of 0 slots: asked 1, worked out anew 1, filled 0", "state 0: filter 1, 0 STEP %s -> 0")
    alike = {"n.txt": b"1 a\n32769 a\n2 \xc3\xa4.-_9\n", "book.bin": book([(1, [state(STEP, 32769, 0)])]), "day.bin": day([node(1)])}
    yield Case("names: of an element and an attribute", ["show", "--names", "n.txt", "--memory", "book.bin", "day.bin", "0"],
               one_line % "@a", files=alike)
    yield Case("names: not there", ["show", "--names", "n.txt", "book.bin"], status=2,
               err="esquirmell: n.txt can't be read: No such file or directory\n")


# ---- JSON

def in_json(name, words, value, **more):
    return Case("json: " + name, [words[0], "--json", *words[1:]], value, **more)


TINY = {"book.bin": book([(5, [state(STEP, SERVICE, 1), state(LEAF, 2, -3)])]),
        "day.bin": day([node(SERVICE, text(b"7")), start(SERVICE) + b"\2\5\xff"])}


def as_json():
    small = ["book.bin", "day.bin"]
    broken = {"message": 2, "refusal": 22, "place": 3, "byte": 30, "words": words_of(22)}
    yield in_json("run", ["run", *small, "1"], {
        "refusal": 0, "messages": [{"message": 1, "refusal": 0, "place": 0, "filters": [5]}, {**broken, "filters": []}],
        "asked": 1, "anew": 1, "filled": 1}, files=TINY, err=rows(verdict(22, 3, 27, 2)))
    yield in_json("a refused run", ["run", *small], {
        "refusal": 1, "words": words_of(1), "messages": [], "asked": 0, "anew": 0, "filled": 0}, status=1, files={"book.bin": b""},
                  err=rows(
                      "book.bin: refused, 1: " + words_of(1), "book.bin: byte 0: the book has 0 of the 2 bytes that say how many filters"))
    yield in_json("show, a book", ["show", "--names", "names.txt", "book.bin"], {"book": [{"filter": 5, "byte": 10, "states": [
        {"state": 0, "byte": 10, "kind": "STEP", "label": 1, "name": "service", "to": [1]},
        {"state": 1, "byte": 18, "kind": "LEAF", "relation": "!=", "constant": -3}]}]}, files=TINY)
    yield in_json("show, a day", ["show", "day.bin"], {"day": [
        {"message": 1, "byte": 18, "length": 9, "refusal": 0, "place": 0, "events": [
            {"place": 0, "byte": 18, "event": "start", "label": 1}, {"place": 3, "byte": 21, "event": "text", "text": "7", "bytes": "37"},
            {"place": 6, "byte": 24, "event": "end", "label": 1}]},
        {"message": 2, "byte": 27, "length": 6, "refusal": 22, "place": 3, "words": words_of(22), "events": [
            {"place": 0, "byte": 27, "event": "start", "label": 1}, {"place": 3, "byte": 30, "event": "bytes", "bytes": "02 05 ff"}]}]},
        files=TINY)
    yield in_json("a control character", ["show", "day.bin"], {"day": [{
        "message": 1, "byte": 10, "length": 3, "refusal": 26, "place": 0, "words": words_of(26),
        "events": [{"place": 0, "byte": 10, "event": "text", "text": "\x01", "bytes": "01"}]}]}, files={"day.bin": day([text(b"\1")])})
    yield in_json("show, a memory", ["show", "--memory", *small, "1"], {"slots": 1, "asked": 1, "anew": 1, "filled": 1, "memory": [
        {"slot": 0, "label": 1, "asked": [1], "answer": [0]}]}, files=TINY)


def reasons_as_json():
    small = ["book.bin", "day.bin"]
    yield in_json("why", ["why", *small, "1"], {"message": 1, "refusal": 0, "place": 0, "byte": 18, "filters": [
        {"filter": 5, "proved": True, "rule": True, "steps": [
            {"depth": 0, "state": 0, "kind": "STEP 1 -> 1", "path": "/", "holds": True, "because": "a child that fits matches 1"},
            {"depth": 1, "state": 1, "kind": "LEAF != -3", "path": "/1", "place": 0, "byte": 18, "holds": True, "because": "7 != -3"}],
         "cut": False}]},
        files=TINY)
    yield in_json("why, refused", ["why", *small, "2"], {
        "message": 2, "refusal": 22, "place": 3, "byte": 30, "words": words_of(22), "event": "bytes 02 05 ff", "open": "/1",
        "cause": "a text longer than what is left",
        "allowed": "the start of an attribute, the start of a child element, a text, the end of 1", "filters": []}, files=TINY)
    yield in_json("check, a book", ["check", "book.bin"], {"file": "book.bin", "kind": "book", "bytes": 26, "refusal": 0,
                                                          "filters": 1, "states": 2}, files=TINY)
    yield in_json("check, a bad book", ["check", "book.bin"], {
        "file": "book.bin", "kind": "book", "bytes": 18, "refusal": 6, "words": words_of(6), "filter": 10, "state": 0, "byte": 10,
        "cause": "kind 9 is none of 0 to 5"}, status=1, files={"book.bin": one_filter(b"\x09" + bytes(7))})
    yield in_json("check, a day", ["check", "day.bin"], {
        "file": "day.bin", "kind": "day", "bytes": 33, "refusal": 0, "messages": 2, "refused": [
        {"message": 2, "refusal": 22, "place": 3, "byte": 30, "words": words_of(22), "event": "bytes 02 05 ff",
         "cause": "a text longer than what is left",
         "allowed": "the start of an attribute, the start of a child element, a text, the end of 1"}]}, files=TINY)


# ---- Where the proved answers and the rules part

def differs(name, words, said, **more):
    err = "esquirmell: DIFFERENT ANSWERS: %s. One of them is wrong: please report it, with the files.\n" % said
    return Case("differs: " + name, words, status=4, err=err, program=STAND_IN, **more)


def different():
    two = "of %s the proved library says %d, and the command's own reading %d"
    yield differs("a book", ["check", "--book", "b"], two % ("b", 3, 1), files={"b": u16(3)})
    yield differs("a book that is shown", ["show", "--book", "b"], two % ("b", 3, 1), files={"b": u16(3)})
    yield differs("a day", ["check", "--day", "d"], two % ("d", 0, 10), files={"d": u16(0) + b"x"})
    yield differs("a day that is shown", ["show", "--day", "d"], two % ("d", 0, 10), files={"d": u16(0) + b"x"})
    yield differs("why, the book", ["why", "b", "day.bin", "1"], two % ("b", 0, 7), files={"b": book([(1, [state(NOT, 0)])])})
    yield differs("why, the day", ["why", "book.bin", "d", "1"], two % ("d", 0, 8), files={"d": u16(1)})
    at = "of message %d of %s the proved library says %d at byte %d, and the command's own reading %d at byte %d"
    out = "day.bin: a day file of 171 bytes, messages: 5: accepted\n"
    yield differs("a message", ["check", "day.bin"], at % (1, "day.bin", 1, 3, 0, 0), out=out)
    yield differs("why, a message", ["why", "book.bin", "day.bin", "5"], at % (5, "day.bin", 0, 0, 24, 9))
    first = "filter 30: not true by the proved run, true by the match rule"
    yield differs("why, a filter", ["why", "book.bin", "day.bin", "3", "30"],
                  "of filter 30 on message 3 the proved run says no, and the match rule yes",
                  out=rows(head(3, 132, "none"), first, "  0 STEP 1 -> 1 at /: yes, a child that fits matches 1",
                           "    1 AND 2 3 at /1, byte 132: yes, both match",
                           "      2 STEP 32772 -> 4 at /1, byte 132: yes, a child that fits matches 4",
                           "        4 LEAF = 6 at /1/@32772, byte 135: yes, 6 = 6",
                           "      3 STEP 2 -> 5 at /1, byte 132: yes, a child that fits matches 5",
                           "        5 TRUE at /1/2, byte 144: yes, TRUE matches every node"))


# ---- All of them

GROUPS = [bad_books, bad_days, bad_messages, verdicts, kinds, shown, shown_else, leaves, children, reasons, made, bad_texts, bad_wholes,
          bad_day_texts, bad_names, as_json, reasons_as_json, different]


def called(case, programs):
    """Runs a case in a folder of its own: exit status, standard output and error, and what is in the files it must leave."""
    with tempfile.TemporaryDirectory() as folder:
        for path, data in case.files.items():
            os.makedirs(os.path.dirname(os.path.join(folder, path)), exist_ok=True)
            with open(os.path.join(folder, path), "wb") as f:
                f.write(data)
        done = subprocess.run([programs[case.program], *case.words], cwd=folder, input=case.given, capture_output=True, timeout=LONG)
        left = {}
        for path in case.leaves or {}:
            there = os.path.join(folder, path)
            left[path] = open(there, "rb").read() if os.path.exists(there) else None
    return done.returncode, done.stdout.decode(), done.stderr.decode(), left


def loaded(out):
    """What a line of JSON says; what is no such line stays as it is."""
    try:
        return json.loads(out) if out.count("\n") == 1 else out
    except ValueError:
        return out


def tried(case, programs):
    status, out, err, left = called(case, programs)
    if status != case.status:
        yield "it ends with %d, and must end with %d; it says %r" % (status, case.status, err)
    if isinstance(case.out, dict):
        out = loaded(out)
        if out != case.out:
            yield "it prints\n%s\nand must print\n%s" % (json.dumps(out, sort_keys=True), json.dumps(case.out, sort_keys=True))
    elif out != case.out:
        yield "standard output, " + difference(out, case.out)
    if err != case.err:
        yield "standard error, " + difference(err, case.err)
    if left != (case.leaves or {}):
        yield "it leaves %r" % left


def cut_reason(command):
    """A reason of more than 1,000 lines, cut and whole."""
    ladder, deep = long_reason()
    with tempfile.TemporaryDirectory() as folder:
        for path, data in (("book.bin", ladder), ("day.bin", deep)):
            with open(os.path.join(folder, path), "wb") as f:
                f.write(data)
        words = [command, "why", "book.bin", "day.bin", "1"]
        cut, whole = (subprocess.run(words + more, cwd=folder, capture_output=True, check=True, text=True).stdout.split("\n")
                      for more in ([], ["--all"]))
    if len(cut) != 1004 or cut[:1002] != whole[:1002] or cut[1002] != "  cut after 1000 lines; --all gives them all":
        yield "a long reason is cut to %d lines, and ends with %r" % (len(cut), cut[-3:])
    if len(whole) < 1004 or any("--all" in line for line in whole):
        yield "a long reason has %d lines with --all" % len(whole)


def main():
    if len(sys.argv) != 3:
        sys.exit(__doc__)
    programs = [os.path.abspath(word) for word in sys.argv[1:]]
    wrong = list(cut_reason(programs[COMMAND]))
    if wrong:
        sys.exit("\n".join("desk: " + line for line in wrong))
    hold("desk", [case for group in GROUPS for case in group()], lambda case: list(tried(case, programs)))


if __name__ == "__main__":
    main()
