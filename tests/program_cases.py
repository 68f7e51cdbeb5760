"""Books and days on both sides of each limit, with the lines that every program must print for them.

day_cases.py runs the day program and the examples on them, command_cases.py the command. The lines are written out by
hand, or follow from how the input is made.
"""
import concurrent.futures
import contextlib
import fcntl
import itertools
import os
import struct
import subprocess
import sys
import tempfile
import termios
import threading
import time

from house import LONG
from small_day import (CALL, DAY, NOT, OR, SERVICE, SMALL_BOOK, SMALL_DAY, STEP, TRUE,
                       book, day, end, node, start, state, text, u16, u32)

SMALL_ROWS = ["1 0 0 10 30", "2 0 0 10 30", "3 0 0 20 30", "4 0 0 20", "5 24 9"]
ANY = [(7, [state(TRUE)])]  # a filter that is true of every message read


def rows(*lines):
    return "".join(line + "\n" for line in lines)


def refused(number):
    return "total %d 0 0 0 0\n" % number


def small_lines(anew, filled):
    return rows(*SMALL_ROWS, "total 0 5 17 %d %d" % (anew, filled))


def nested(depth, label=SERVICE):
    return start(label) * depth + end(label) * depth


def one(body):
    """The row of one message, of filter 7 alone: read if it has no refusal."""
    return book(ANY), day([body])


def read(questions, different):
    return rows("1 0 0 7", "total 0 1 %d %d %d" % (questions, different, different))


def bad(number, place, asked=0, anew=0):
    return rows("1 %d %d" % (number, place), "total 0 1 %d %d %d" % (asked, anew, anew))


def filters(idents, states=1):
    """A book whose filters are all true of every message read."""
    return book([(ident, [state(TRUE)] * states) for ident in idents])


def value(s):
    return one(node(SERVICE, text(s)))


# An id of one byte, of two, three and four that all differ; both sides of 2^31; the highest.
IDENTS = [1, 0x0102, 0x010203, 0x01020304, 0x7FFFFFFF, 0x80000000, 0x89ABCDEF, 0xFFFFFFFF]
FULL_BOOK = filters(range(1, 65), 8)  # 64 filters, 512 states, 4,610 bytes

# Filter k of 64 is true of a top element with label k + 1, and all are of one with label ALL.
ALL = 100
EACH_IDENT = [50661129 * (k + 1) for k in range(64)]
EACH_BOOK = book([(EACH_IDENT[k], [state(OR, 1, 2), state(STEP, k + 1, 3), state(STEP, ALL, 3), state(TRUE)])
                  for k in range(64)])


def each_row(message, label):
    true = EACH_IDENT if label == ALL else EACH_IDENT[label - 1:label]
    return " ".join(map(str, [message, 0, 0] + true))


def each_of(labels, anew, filled):
    """A day with a bare element of each label, and its lines: each message asks one question, its label's."""
    lines = [each_row(k + 1, label) for k, label in enumerate(labels)]
    total = "total 0 %d %d %d %d" % (len(labels), len(labels), anew, filled)
    return day([node(label) for label in labels]), rows(*lines, total)


def many(messages):
    """More messages than filters: every label in turn, and at last ALL, the 65th question, which finds no slot free."""
    return each_of([k % 64 + 1 for k in range(messages - 1)] + [ALL], 65, 64)


def seventy_twice(slots):
    """70 different questions, each asked twice: the second time those that were kept are not worked out."""
    return each_of(list(range(1, 71)) * 2, 140 - slots, slots)


def calls_of(size):
    """Calls that take so many bytes together: a call with a text takes 8 and the text."""
    lengths = [255] * ((size - 16) // 263)
    left = size - 263 * len(lengths)
    return [node(CALL, text(b"x" * length)) for length in lengths + [left // 2 - 8, left - left // 2 - 8]]


def of_size(size, messages=1):
    """A day of so many bytes, and its lines: bare elements, and at last one with label ALL, filled up with calls."""
    labels = [k % 64 + 1 for k in range(messages - 1)]
    before = [node(label) for label in labels]
    calls = calls_of(size - len(day(before + [node(ALL)])))
    whole = day(before + [node(ALL, *calls)])
    assert len(whole) == size, (len(whole), size)
    different = len(set(labels + [CALL])) + 1
    total = "total 0 %d %d %d %d" % (messages, messages + len(calls), different, min(64, different))
    return whole, rows(*[each_row(k + 1, label) for k, label in enumerate(labels + [ALL])], total)


def in_pieces(data):
    """In the place of a file: a pipe that hands its data over in pieces, the second once the first is read."""
    def hand_over(path):
        # Not unbuffered: the system may end a write early, where the program is paused meanwhile, and this writes on.
        with contextlib.suppress(BrokenPipeError), open(path, "wb") as pipe:
            pipe.write(data[:9])
            pipe.flush()
            for _ in itertools.takewhile(lambda n: n < 5000 and waiting_in(pipe), itertools.count()):
                time.sleep(0.001)
            pipe.write(data[9:])

    def made(path):
        os.mkfifo(path)
        threading.Thread(target=hand_over, args=[path], daemon=True).start()
    return made


def waiting_in(pipe):
    return struct.unpack("i", fcntl.ioctl(pipe, termios.FIONREAD, struct.pack("i", 0)))[0]


# In the place of a file: one that can't be opened, and one that can't be read.
def a_loop(path):
    os.symlink(path, path)


a_folder = os.mkdir

# A name, a book, a day, and the lines that every program prints for them.
CASES = [
    ("the small day", SMALL_BOOK, SMALL_DAY, small_lines(8, 8)),
    ("the small day in pieces", in_pieces(SMALL_BOOK), in_pieces(SMALL_DAY), small_lines(8, 8)),
    ("empty files", b"", b"", refused(1)),
    ("an empty book", b"", SMALL_DAY, refused(1)),
    ("an empty day", SMALL_BOOK, b"", refused(8)),
    ("a book of one byte", b"\0", SMALL_DAY, refused(1)),
    ("a day of one byte", SMALL_BOOK, b"\0", refused(8)),
    ("no filter, no message", u16(0), u16(0), "total 0 0 0 0 0\n"),
    ("a byte after an empty book", u16(0) + b"\0", u16(0), refused(5)),
    ("a byte after an empty day file", u16(0), u16(0) + b"\0", refused(10)),
    ("the contents cut short", SMALL_BOOK[:25], SMALL_DAY, refused(1)),
    ("64 filters", filters(range(1, 65)), u16(0), "total 0 0 0 0 0\n"),
    ("65 filters", filters(range(1, 66)), u16(0), refused(2)),
    ("ids that fall", filters([2, 1]), u16(0), refused(3)),
    ("ids that stay", filters([1, 1]), u16(0), refused(3)),
    ("ids of 32 bits", filters(IDENTS), day([node(SERVICE)]),
     rows("1 0 0 1 258 66051 16909060 2147483647 2147483648 2309737967 4294967295", "total 0 1 1 1 1")),
    ("each of 64 filters, then all", EACH_BOOK, *each_of([*range(1, 65), ALL], 65, 64)),
    ("a filter with no state", book([(1, [])]), u16(0), refused(4)),
    ("512 states", filters([1], 512), u16(0), "total 0 0 0 0 0\n"),
    ("513 states", filters([1], 513), u16(0), refused(4)),
    ("a body one byte on", u16(1) + u32(1) + u16(11) + u16(1) + state(TRUE), u16(0), refused(5)),
    ("a byte after the last body", SMALL_BOOK + b"\0", SMALL_DAY, refused(5)),
    ("a book cut by a byte", SMALL_BOOK[:153], SMALL_DAY, refused(5)),
    ("kind 6", book([(1, [b"\6" + b"\0" * 7])]), u16(0), refused(6)),
    ("relation 7", book([(1, [b"\1\7" + b"\0" * 6])]), u16(0), refused(6)),
    ("a successor past the body", book([(1, [state(STEP, 1, 1)])]), u16(0), refused(7)),
    ("a NOT of itself", book([(1, [state(NOT, 0)])]), u16(0), refused(7)),
    ("a STEP to itself", book([(1, [state(STEP, 1, 0)])]), u16(0), "total 0 0 0 0 0\n"),
    ("a book of 4,610 bytes", FULL_BOOK, day([node(SERVICE)]),
     rows("1 0 0 " + " ".join(map(str, range(1, 65))), "total 0 1 1 1 1")),
    ("a day file of 32,768 bytes", EACH_BOOK, *of_size(32768)),
    ("a day file of 32,768 bytes and 1,024 messages", EACH_BOOK, *of_size(32768, 1024)),
    ("a day file of 32,768 bytes in pieces", EACH_BOOK, in_pieces(of_size(32768)[0]), of_size(32768)[1]),
    ("1,024 messages", EACH_BOOK, *many(1024)),
    ("70 questions twice", EACH_BOOK, *seventy_twice(64)),
    ("messages out of place", SMALL_BOOK, SMALL_DAY[:2] + u32(99) + SMALL_DAY[6:], refused(10)),
    ("a day cut by a byte", SMALL_BOOK, SMALL_DAY[:170], refused(10)),
    ("64 open starts", *one(nested(64)), read(64, 1)),
    ("65 open starts", *one(nested(65)), bad(25, 192)),
    ("2147483647", *value(b"2147483647"), read(1, 1)),
    ("2147483648", *value(b"2147483648"), bad(27, 3)),
    ("-2147483648", *value(b"-2147483648"), read(1, 1)),
    ("-2147483649", *value(b"-2147483649"), bad(27, 3)),
    ("a kind that is none", *one(b"\4"), bad(21, 0)),
    ("a start cut short", *one(b"\1\1"), bad(22, 0)),
    ("a text with no length", *one(start(1) + b"\2"), bad(22, 3)),
    ("a text one byte short", *one(start(1) + b"\2\3ab"), bad(22, 3)),
    ("a start with label 0", *one(start(0)), bad(23, 0)),
    ("a start with label 32,768", *one(start(1) + start(32768)), bad(23, 3)),
    ("an attribute at top", *one(start(DAY)), bad(24, 0)),
    ("a start in an attribute", *one(start(1) + start(DAY) + start(2)), bad(24, 6)),
    ("an attribute after a child", *one(start(1) + node(2) + start(DAY)), bad(24, 9, 1, 1)),
    ("an element after a text", *one(start(1) + text(b"a") + start(2)), bad(24, 6)),
    ("a second top element", *one(node(1) + start(1)), bad(24, 6, 1, 1)),
    ("a text with nothing open", *one(text(b"a")), bad(26, 0)),
    ("a second text", *one(start(1) + text(b"") + text(b"a")), bad(26, 5)),
    ("a text after a child", *one(start(1) + node(2) + text(b"a")), bad(26, 9, 1, 1)),
    ("an end with nothing open", *one(end(1)), bad(28, 0)),
    ("an end with another label", *one(start(1) + end(2)), bad(28, 3)),
    ("an empty message", *one(b""), bad(29, 0)),
    ("an element left open", *one(start(1) + node(2)), bad(29, 9, 1, 1)),
]
assert len(FULL_BOOK) == 4610


def write(path, data):
    """None is no file; what can be called makes something else in the place of one."""
    if callable(data):
        data(path)
    elif data is not None:
        with open(path, "wb") as f:
            f.write(data)


def ran(words, the_book, the_day):
    """Runs a program in a folder with book.bin and day.bin: its exit status, standard output and standard error."""
    with tempfile.TemporaryDirectory() as folder:
        write(os.path.join(folder, "book.bin"), the_book)
        write(os.path.join(folder, "day.bin"), the_day)
        done = subprocess.run(words, cwd=folder, capture_output=True, timeout=LONG)
    return done.returncode, done.stdout.decode(), done.stderr.decode()


def difference(got, wanted):
    """Where two texts part: the first line that is not the same, shortened if it is long."""
    got, wanted = got.split("\n"), wanted.split("\n")
    for k, (is_there, must_be) in enumerate(itertools.zip_longest(got, wanted)):
        if is_there != must_be:
            return "line %d is %.300r, and must be %.300r" % (k + 1, is_there, must_be)


def hold(who, cases, tried):
    """Tries every case, on every core; `tried` gives what is wrong, a text each. Ends the program if anything is."""
    with concurrent.futures.ThreadPoolExecutor(os.cpu_count()) as pool:
        found = zip(cases, pool.map(tried, cases))
        wrong = ["%s: %s: %s" % (who, case[0], said) for case, all_said in found for said in all_said]
    for line in wrong:
        print(line)
    if wrong:
        sys.exit("%s: %d wrong, in %d cases" % (who, len(wrong), len(cases)))
    print("%s: %d cases, each as it must be" % (who, len(cases)))
