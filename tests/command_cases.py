#!/usr/bin/env python3
"""Runs `run` of the command on both sides of each limit: its lines, its words on standard error, its exit status.

command_cases.py COMMAND STAND_IN    the command, and the command linked with stand_in.c in the library's place

Words for 11 and 12 can't be had from the library: the command lends room for every message, and a whole workspace. The
stand-in shows both: what is lent, and what is said of any number at all. desk_cases.py has the other words of the command.
"""
import os
import re
import subprocess
import sys

from house import read
from pages import refusal_words
from program_cases import (ALL, CASES, EACH_BOOK, FULL_BOOK, SMALL_BOOK, SMALL_DAY, a_folder, a_loop, day,
                           difference, each_row, hold, in_pieces, many, node, of_size, ran, refused, rows,
                           seventy_twice, small_lines, u16)

TOP = os.path.dirname(os.path.dirname(os.path.abspath(__file__)))
COMMAND, STAND_IN = "command", "stand-in"  # the first word of a case's call, until it is made
FILES = ["book.bin", "day.bin"]
MOST_SLOTS = 4096
NOT_TO_BE_HAD = [11, 12]
# Where a refused file is wrong: desk_cases.py has these lines whole.
PLACE = re.compile(r"^(?:book|day)\.bin: (?:filter \d+, )?(?:state \d+, )?(?:message \d+, )?byte \d+: .*\n", re.M)


WORDS = refusal_words()


def words_of(number):
    return WORDS.get(number, "a number that no rule has")


def said_of(lines, the_day):
    """What standard error says beside these lines, line by line, but for the place in a refused file."""
    said = []
    for line in lines.split("\n")[:-1]:
        first, second, third = line.split()[:3]
        if first == "total" and second != "0":
            thing = "book.bin" if int(second) <= 7 else "day.bin" if int(second) <= 10 else "the run"
            said.append("%s: refused, %s: %s" % (thing, second, words_of(int(second))))
        elif first != "total" and second != "0":
            byte = int.from_bytes(the_day[8 * int(first) - 6:8 * int(first) - 2], "little") + int(third)
            place = "message %s, byte %s (byte %d of the file)" % (first, third, byte)
            said.append("day.bin: %s, %s: %s" % (place, second, words_of(int(second))))
    return rows(*said)


def made(name, the_book, the_day, lines, *words):
    """A run that is tried: the lines say the words and the exit status."""
    refusal = lines.split("\n")[-2].split()[1]
    bytes_there = the_day if isinstance(the_day, bytes) else SMALL_DAY
    status = 1 if refusal != "0" else 3 if "--strict" in words and said_of(lines, bytes_there) else 0
    return name, the_book, the_day, [COMMAND, "run", *FILES, *words], status, lines, said_of(lines, bytes_there)


def not_tried(name, words, said, the_book=SMALL_BOOK, the_day=SMALL_DAY):
    return name, the_book, the_day, [COMMAND, *words], 2, "", said + "\n"


def slots_and_counts():
    """The slots show in the counts: 70 questions twice, and 4,100 twice in a message that asks one more."""
    for slots in (0, 1, 63, 64, 65):
        yield made("%d slots" % slots, EACH_BOOK, *seventy_twice(slots), str(slots))
    yield made("064 slots", EACH_BOOK, *seventy_twice(64), "064")
    for slots, counts in (("0", (17, 0)), ("2", (14, 2)), ("5", (9, 5)), ("4096", (8, 8))):
        yield made("the small day with %s slots" % slots, SMALL_BOOK, SMALL_DAY, small_lines(*counts), slots)
    bodies = [node(label) for label in range(1001, 5101)]
    the_day = day([node(ALL, *bodies, *bodies)])
    for slots in (4095, MOST_SLOTS, 4097, 65535, 65536, 2**32, 2**32 + 1, 2**64 - 1, 2**64, 10**20):
        used = min(slots, MOST_SLOTS)
        lines = rows(each_row(1, ALL), "total 0 1 8201 %d %d" % (8201 - used, used))
        yield made("%d slots" % slots, EACH_BOOK, the_day, lines, str(slots))


def strict():
    """With --strict a refused message has a status of its own; a refused run keeps its own."""
    yield made("--strict, a message refused", SMALL_BOOK, SMALL_DAY, small_lines(8, 8), "--strict")
    yield made("--strict, none refused", EACH_BOOK, *seventy_twice(64), "--strict")
    yield made("--strict, the run refused", b"", SMALL_DAY, refused(1), "--strict")


USAGE = {
    "": "run | show | why | make | check ..",
    "run": "[--strict] [--json] BOOK DAY [SLOTS]",
    "show": "[--names NAMES] [--json] [--book | --day] FILE [MESSAGE], or show --memory BOOK DAY [SLOTS]",
    "why": "[--names NAMES] [--json] [--all] BOOK DAY MESSAGE [ID]",
    "make": "[--names NAMES] TEXT [FILE]",
    "check": "[--names NAMES] [--strict] [--json] [--book | --day] FILE",
}
BAD_WORDS = {
    "": [[], ["walk"], ["--json", "run", *FILES]],
    "run": [["run"], ["run", "book.bin"], ["run", *FILES, "64", "64"], ["run", "--names", "n", *FILES], ["run", "--all", *FILES],
            ["run", "--", *FILES, "64", "--strict"], ["run", *FILES, "--stric"], ["run", "--strict --json", *FILES],
            ["run", *FILES, "--j"]],
    "show": [["show"], ["show", *FILES, "5"], ["show", "--memory", "book.bin"], ["show", "--strict", "book.bin"],
             ["show", "--memory", *FILES, "5", "5"], ["show", "--memory", "--day", *FILES], ["show", "--book", "--day", "book.bin"],
             ["show", "book.bin", "--names"]],
    "why": [["why"], ["why", *FILES], ["why", *FILES, "1", "10", "20"], ["why", "--strict", *FILES, "1"]],
    "make": [["make"], ["make", "t", "f", "g"], ["make", "--json", "t"]],
    "check": [["check"], ["check", *FILES], ["check", "--all", "book.bin"], ["check", "--book", "--day", "book.bin"]],
}


def words_that_are_wrong():
    for word in ("-1", "+1", "", "6x", " 6", "6 ", "0x6", "1e3", "-0"):
        yield not_tried("slots '%s'" % word, ["run", *FILES, word], "esquirmell: %s is no number of slots" % word)
    for verb, calls in BAD_WORDS.items():
        said = "esquirmell: usage: esquirmell %s; esquirmell --help says more" % (verb + " " + USAGE[verb]).strip()
        for call in calls:
            yield not_tried("the words '%s'" % " ".join(call), call, said)


def files():
    reasons = [(None, "No such file or directory"), (a_folder, "Is a directory"),
               (a_loop, "Too many levels of symbolic links")]
    call = ["run", *FILES]
    for thing, why in reasons:
        yield not_tried("a book: " + why, call, "esquirmell: book.bin can't be read: " + why, the_book=thing)
        yield not_tried("a day: " + why, call, "esquirmell: day.bin can't be read: " + why, the_day=thing)
    yield not_tried("standard input twice", ["run", "-", "-"], "esquirmell: standard input can stand for one file only")
    yield made("a book of 4,611 bytes", FULL_BOOK + b"\0", SMALL_DAY, refused(5))
    for size in (524281, 524282, 524289, 524290, 524291, 5000000):
        yield made("a book of %d zeros" % size, bytes(size), SMALL_DAY, refused(5))
        yield made("65,535 filters in %d bytes" % size, u16(65535) + bytes(size - 2), SMALL_DAY, refused(1 if size < 524282 else 2))
    for size in (32769, 65535, 65536, 65537, 131071, 131072, 131073, 524288, 1048575):
        yield made("a day file of %d bytes" % size, EACH_BOOK, *of_size(size))
    longest, its_lines = of_size(1048576, 4096)
    yield made("a day file of 1,048,576 bytes and 4,096 messages", EACH_BOOK, longest, its_lines)
    yield made("a day file of 1,048,576 bytes in pieces", EACH_BOOK, in_pieces(longest), its_lines)
    yield made("a byte after a day file of 1,048,576", EACH_BOOK, longest + b"\0", refused(8))
    yield made("a day file of 1,048,577 bytes", EACH_BOOK, of_size(1048577)[0], refused(8))
    yield made("1,025 messages", EACH_BOOK, *many(1025))
    yield made("4,096 messages", EACH_BOOK, *many(4096))
    yield made("4,097 messages", EACH_BOOK, many(4097)[0], refused(9))
    yield made("65,535 messages", EACH_BOOK, day([b""] * 65535), refused(9))
    # A file without an end: reading stops once its size decides.
    yield made("a book without an end", lambda path: os.symlink("/dev/zero", path), SMALL_DAY, refused(5))
    yield made("a day file without an end", SMALL_BOOK, lambda path: os.symlink("/dev/zero", path), refused(8))


def handed_over(name, refusal, messages, slots, lent_slots, day_bytes=0):
    """With the stand-in: what is lent stands in the counts, and message k is refused by k."""
    lent = "%d %d %d" % (17 * lent_slots, 3 * 4096, 650)
    total = "total %d %d %s" % (refusal, 0 if refusal else messages, lent)
    lines = rows(*["%d %d %d" % (k, k, 2 * k + 1) for k in range(1, messages + 1) if not refusal], total)
    the_day = day([b""] * messages)
    the_day += bytes(max(0, day_bytes - len(the_day)))
    return name, u16(refusal), the_day, [STAND_IN, "run", *FILES, *slots], int(refusal != 0), lines, said_of(lines, the_day)


def stood_in():
    yield handed_over("the words of every number, and what is lent", 0, 4096, [], 64)
    for slots in (0, 63, MOST_SLOTS, MOST_SLOTS + 1, 2**64):
        yield handed_over("what is lent for %d slots" % slots, 0, 1, [str(slots)], min(slots, MOST_SLOTS))
    for number in (1, 7, 8, 10, *NOT_TO_BE_HAD, 13, 65535):
        yield handed_over("the words of a run refused by %d" % number, number, 1, [], 64)
    for size in (10, 65535, 65536, 65537, 131072):
        yield handed_over("a file of %d bytes in a room of as many" % size, 0, 1, [], 64, size)


def tried(case, programs):
    _, the_book, the_day, words, *wanted = case
    status, out, err = ran([programs[words[0]], *words[1:]], the_book, the_day)
    if status != wanted[0]:
        yield "it ends with %d, and must end with %d" % (status, wanted[0])
    for where, is_there, must_be in (("standard output", out, wanted[1]), ("standard error", PLACE.sub("", err), wanted[2])):
        if is_there != must_be:
            yield "%s, %s" % (where, difference(is_there, must_be))


def listed(page, head, mark=r"^\| (\d+) \|"):
    """The numbers in the part of a page that begins with this head."""
    part = re.split(r"\n#|\nThe call that", read(page).split(head)[1])[0]
    return sorted(int(n) for n in re.findall(mark, part, re.M))


def numbers_with_words():
    """Each refusal has words; each of a run and of a message is provoked."""
    page = "docs/FORMATS.md"
    run = listed(page, "## Refusals of a whole run") + listed(page, "## Refusals of one message")
    calls = listed(page, "The call that answers a single question")
    if sorted(WORDS) != sorted(run + calls):
        yield "include/esquirmell.h has words for %s, and docs/FORMATS.md lists %s" % (sorted(WORDS), sorted(run + calls))
    lines = "".join(case[5] for case in CASES_OF_COMMAND if case[3][0] == COMMAND).split("\n")
    provoked = {int(line.split()[1]) for line in lines if line} - {0}
    if sorted(provoked | set(NOT_TO_BE_HAD)) != run:
        yield "the cases provoke %s, and docs/FORMATS.md lists %s" % (sorted(provoked), run)


def full_disk(command):
    small = [os.path.join(TOP, "small", name) for name in FILES]
    for words in (["run", *small], ["show", small[1]], ["why", *small, "1"], ["check", small[0]]):
        with open("/dev/full", "wb") as full:
            done = subprocess.run([command, *words], stdout=full, stderr=subprocess.PIPE)
        said = done.stderr.decode().strip().split("\n")[-1]
        if (done.returncode, said) != (2, "esquirmell: the lines can't be written: No space left on device"):
            yield "a full disk: %s ends with %d and says %r" % (words[0], done.returncode, said)


CASES_OF_COMMAND = [made(*case) for case in CASES]
CASES_OF_COMMAND += [*slots_and_counts(), *strict(), *words_that_are_wrong(), *files(), *stood_in()]


def main():
    if len(sys.argv) != 3:
        sys.exit(__doc__)
    programs = {COMMAND: os.path.abspath(sys.argv[1]), STAND_IN: os.path.abspath(sys.argv[2])}
    wrong = [*numbers_with_words(), *full_disk(programs[COMMAND])]
    if wrong:
        sys.exit("\n".join("command: " + line for line in wrong))
    hold("command", CASES_OF_COMMAND, lambda case: list(tried(case, programs)))


if __name__ == "__main__":
    main()
