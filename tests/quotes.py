#!/usr/bin/env python3
"""Checks what the pages quote: bytes, printed lines, contracts, definitions, and tables that the library can be asked for.

- README.md's printed lines are the day program's.
- docs/FORMATS.md's tables of slots, counts, answers, values and kinds are what the library gives; each side of a limit gets
  from it the number that the table says.
- Its tables of refusals, those of docs/RULES.md and the words of the header have the numbers of the definitions in their
  order; all say each number in the same words, docs/FORMATS.md perhaps with more behind them.
- docs/RULES.md draws the tree of the small day's first message, and has the table of counts, too.
- The contracts and definitions that docs/HELP.md quotes stand in the source.
- docs/ARCHITECTURE.md has each crate of crates.txt in its drawing and in its table, and no other.
- The times in docs/PERFORMANCE.md fit each other.
"""
import re
import sys

from house import end_if_wrong, listed, read, under
from library import Run
from pages import page, refusal_words
from small_day import LEAF, NOT, SMALL_BOOK, SMALL_DAY, STEP, TRUE, book, day, end, node, start, state, text, u16, u32

NAMES = {0: "any element", 1: "service", 2: "call", 3: "late", 32772: "@day"}
KINDS = ["TRUE", "LEAF", "AND", "OR", "NOT", "STEP"]
RELATIONS = ["", "=", "≠", "<", "≤", ">", "≥"]
RULES = "crates/rules/specs/"


def two(data, at):
    return int.from_bytes(data[at:at + 2], "little")


def four(data, at):
    return int.from_bytes(data[at:at + 4], "little")


def hexes(data):
    return " ".join("%02x" % byte for byte in data)


def differ(what, said, should):
    """Where two lists of lines part."""
    for number in range(max(len(said), len(should))):
        here, there = (lines[number] if number < len(lines) else "nothing" for lines in (said, should))
        if here != there:
            yield "%s: it says '%s', and it is '%s'" % (what, here, there)


def cells(rows):
    return [" | ".join(map(str, row)) for row in rows]


# ---- The small day as a tree

def state_words(data):
    kind, x, y = KINDS[data[0]], two(data, 2), two(data, 4)
    if kind == "LEAF":
        return "LEAF %s %d" % (RELATIONS[data[1]], four(data, 4))
    if kind == "STEP":
        return "STEP %d → %d (%s)" % (x, y, NAMES[x])
    return " ".join([kind] + {"TRUE": [], "NOT": [str(x)]}.get(kind, [str(x), str(y)]))


def events(body):
    """The events of a message that is not cut short: place, how many starts are open around it, and its bytes."""
    place, depth = 0, 0
    while place < len(body):
        size = 2 + body[place + 1] if body[place] == 2 else 3
        event = body[place:place + size]
        depth -= event[0] == 3
        yield place, depth, event
        depth += event[0] == 1
        place += size


def message_body(number):
    """The bytes of a message of the small day, counted from 1."""
    at = four(SMALL_DAY, 8 * number - 6)
    return SMALL_DAY[at:at + four(SMALL_DAY, 8 * number - 2)]


def drawing_lines(body):
    """The tree of a message: a letter for each node, its name and its text."""
    nodes, later, lines = [[0, "root"]], set(), []
    for _, depth, event in events(body):
        if event[0] == 1:
            nodes.append([depth + 1, NAMES[two(event, 1)]])
        elif event[0] == 2:
            holder = [node_ for node_ in nodes if node_[0] == depth][-1]
            holder[1] += ' "%s"' % event[2:].decode()
    for k, (depth, words) in reversed(list(enumerate(nodes))):
        later = {other for other in later if other <= depth}  # depths at which a brother follows, of it or of a node above it
        above = "".join("│   " if other in later else "    " for other in range(1, depth))
        branch = above + ("├── " if depth in later else "└── ") if depth else ""
        lines.append("%s   %s%s" % (chr(ord("A") + k), branch, words))
        later.add(depth)
    return lines[::-1]


def drawing():
    drawn = page("docs/RULES.md").fence("with a letter before each node")
    yield from differ("docs/RULES.md, the drawing", drawn, drawing_lines(message_body(1)))


# ---- What the small day gives

def members(number):
    return [k for k in range(64) if number >> k & 1]


def ids_of(filters):
    return [four(SMALL_BOOK, 2 + 8 * k) for k in members(filters)]


def printed_lines(run):
    lines = []
    for k in range(1, two(SMALL_DAY, 0) + 1):
        refusal, place, filters = run.row(k)
        lines.append(" ".join(map(str, [k, refusal, place] + ids_of(filters))))
    return lines + ["total %d %d %d %d %d" % (run.refusal, len(lines), run.asked, run.anew, run.filled)]


def set_cells(number):
    return ["`0x%x`" % number if number else "`0`", ", ".join(map(str, members(number))) or "none"]


def slot_rows(run):
    for k in range(run.filled):
        slot = run.memory[17 * k:17 * k + 17]
        if any(slot[1:8]) or any(slot[10:]):
            yield ["a number of a set past the first is not 0"]
        yield [k] + set_cells(slot[0]) + ["{:,}".format(slot[8])] + set_cells(slot[9])


def answer_words(row, before):
    if row[0]:
        return "refused by %d at place %d" % (row[0], row[1])
    if row == before:
        return "the same"
    bits, ids = (" and ".join(map(str, numbers)) for numbers in (members(row[2]), ids_of(row[2])))
    return ("bits %s, ids %s" if " and " in bits else "bit %s, id %s") % (bits, ids)


def answer_lines(run):
    before = None
    for k in range(1, two(SMALL_DAY, 0) + 1):
        row = run.row(k)
        yield "%2d %3d %3d     message %d: %s" % (*row, k, answer_words(row, before))
        before = row


def small_day_gives():
    formats, run = page("docs/FORMATS.md"), Run(SMALL_BOOK, SMALL_DAY)
    stored = read("crates/day_program/stdout").rstrip("\n").split("\n")
    yield from differ("README.md, the printed lines", page("README.md").fence("prints a line a message"), stored)
    yield from differ("crates/day_program/stdout", stored, printed_lines(run))
    slots = formats.table("| slot | asked set |", covers=True)
    yield from differ("docs/FORMATS.md, the slots", cells(slots), cells(slot_rows(run)))
    runs = [(slots, Run(SMALL_BOOK, SMALL_DAY, 17 * slots)) for slots in (64, 5, 2, 0)]
    should = cells((lent, run_.asked, run_.anew, run_.filled) for lent, run_ in runs)
    for name in ("docs/FORMATS.md", "docs/RULES.md"):
        yield from differ(name + ", the counts", cells(page(name).table("| slots lent | asked |", covers=True)), should)
    yield from differ("docs/FORMATS.md, the answers", formats.fence("fifteen answers"), list(answer_lines(run)))


# ---- Values

ANY = book([(7, [state(TRUE)])])  # a filter that is true of every message read
NO_DAY = u16(0)


def message_number(body):
    return Run(ANY, day([body])).row(1)[0]


def value(words):
    """What the library takes a text for: a whole number, 'no number', or a refusal."""
    found = re.fullmatch(rb"-?\d+", words.strip(b" \t\r\n"))
    number = int(found.group(0)) if found else 0
    if not -2 ** 31 <= number < 2 ** 31:
        return "the message is refused, %d" % message_number(node(1, text(words)))
    equal_or_not = [(relation, [state(STEP, 1, 1), state(LEAF, relation, number)]) for relation in (1, 2)]
    refusal, _, filters = Run(book(equal_or_not), day([node(1, text(words))])).row(1)
    if refusal:
        return "the message is refused, %d" % refusal
    return {0: "no number", 1: "{:,}".format(number)}.get(filters, "another number")


def value_table():
    """The table of texts and their values: texts between backticks, and two in words."""
    for texts, should in page("docs/FORMATS.md").table("| text | value |", covers=True):
        given = [words.encode() for words in re.findall(r"`([^`]*)`", texts)]
        given += [words for name, words in (("empty", b""), ("blanks", b" \t ")) if name in texts]
        for words in given:
            got = value(words)
            if got != should:
                yield "docs/FORMATS.md, the values: '%s' is %s there, and %s to the library" % (words.decode(), should, got)


# ---- The limits, on both sides

def run_number(a_book, a_day, **lent):
    return Run(a_book, a_day, **lent).refusal


def trues(filters, states=1):
    return book([(k + 1, [state(TRUE)] * states) for k in range(filters)])


def one(*states):
    return book([(1, list(states))])


def long_day(size):
    """A day file of so many bytes, with one message."""
    return u16(1) + u32(10) + u32(size - 10) + b"\0" * (size - 10)


def kinds_table():
    """Where a kind's cell has 0, another number there is refused by 6; with each other cell filled in the state is good."""
    parts = [(1, 2), (2, 4), (4, 6), (6, 8)]
    for kind, name, *holds in page("docs/FORMATS.md").table("| byte 0 | kind |", covers=True):
        words = "docs/FORMATS.md, the kinds: %s: " % name
        good = bytearray([int(kind)] + [0] * 7)
        for (first, _), cell in zip(parts, holds):
            good[first] = 0 if cell == "0" else 1
        if kind != str(KINDS.index(name)) or run_number(one(bytes(good), state(TRUE)), NO_DAY) != 0:
            yield words + "such a state is refused"
        for (first, last), cell in zip(parts, holds):
            for at in range(first, last) if cell == "0" else []:
                bad = bytes(good[:at]) + b"\1" + bytes(good[at + 1:])
                if run_number(one(bad, state(TRUE)), NO_DAY) != 6:
                    yield words + "byte %d need not be 0" % at


# The first cell of a row, and the number that comes back for a value of its other cells.
LIMITS = {
    "length of a book with F = 0": lambda n: run_number(b"\0" * n, NO_DAY),
    "filters": lambda n: run_number(trues(n), NO_DAY),
    "id after id 10": lambda n: run_number(book([(10, [state(TRUE)]), (n, [state(TRUE)])]), NO_DAY),
    "states of a filter": lambda n: run_number(trues(1, n), NO_DAY),
    "states of a book": lambda n: run_number(trues(1, n), NO_DAY),
    "kind of a state": lambda n: run_number(one(bytes([n, 0, 0, 0, 0, 0, 0, 0])), NO_DAY),
    "relation of a LEAF": lambda n: run_number(one(state(LEAF, n, 0)), NO_DAY),
    "successor of a NOT that is state i": lambda n: run_number(one(state(TRUE), state(NOT, n), state(TRUE)), NO_DAY),
    "successor in a body of n states": lambda n: run_number(one(state(STEP, 1, n), *[state(TRUE)] * 4), NO_DAY),
    "length of a day file with N = 0": lambda n: run_number(ANY, b"\0" * n),
    "length of any day file": lambda n: run_number(ANY, long_day(n)),
    "messages": lambda n: run_number(ANY, day([b""] * n)),
    "answer numbers lent": lambda n: run_number(ANY, day([b""] * 4), answers=n),
    "workspace numbers lent": lambda n: run_number(ANY, NO_DAY, workspace=n),
    "label of a start": lambda n: message_number(node(1, node(n)) if n % 32768 else start(n)),
    "open starts": lambda n: message_number(start(1) * n + end(1) * n),
    "bytes of a text": lambda n: message_number(node(1, text(b"x" * n))),
    "value": lambda n: message_number(node(1, text(b"%d" % n))),
}
LETTERS = {"i": 1, "n": 5, "3N": 12}  # what the letters of a cell stand for in the inputs above


def value_of(words):
    """A cell's value: a figure, perhaps with letters, a unit or an ordinal's end."""
    found = re.fullmatch(r"(?:a )?(-?[\d,]+|i|n|3N)(?: ([+-]) (\d+))?(?:th| bytes?)?", words.strip())
    if not found:
        sys.exit("quotes: docs/FORMATS.md, the limits: no value in '%s'" % words)
    first, sign, more = found.groups()
    value_ = LETTERS[first] if first in LETTERS else int(first.replace(",", ""))
    return value_ + int((sign or "+") + (more or "0"))


def wanted(fine, bad):
    """The values of a row's two cells, each with the number that must come back."""
    for words in re.split(r", (?=\d)| and ", fine):
        yield value_of(words), 0
    for part in [part for part in bad.split("; ") if ": " in part]:
        sides, _, number = part.rpartition(": ")
        for words in sides.split(" and "):
            yield value_of(words), int(number)


def limits():
    for what, fine, bad in page("docs/FORMATS.md").table("## The limits, on both sides", covers=True):
        if what not in LIMITS:
            yield "docs/FORMATS.md, the limits: tests/quotes.py has no input for '%s'" % what
            continue
        for number, should in wanted(fine, bad):
            got = LIMITS[what](number)
            if got != should:
                words = "docs/FORMATS.md, the limits: %s, %d: the table says %d, and the library gives %d"
                yield words % (what, number, should, got)


# ---- Refusals

def numbers_of(path, name):
    """The numbers of a list of checks, in its order."""
    block = re.search(r"^%s [^\n]*=\n(.*?)\n\n" % name, read(RULES + path) + "\n\n", re.M | re.S)
    return re.findall(r"number = (\d+);", block.group(1))


def orders():
    """The numbers that each call, and a message, can get, in the order of the checks."""
    of_book, of_day = numbers_of("Book.antt", "book_checks"), numbers_of("DayFile.antt", "day_checks")
    return {"book": of_book, "day": of_day, "run": of_book + of_day + numbers_of("Run.antt", "lent_checks"),
            "question": numbers_of("Calls.antt", "question_checks"), "counts": numbers_of("Calls.antt", "count_checks"),
            "message": numbers_of("MessageTable.antt", "message_rows")}


# Each list of refusals, and words before its table in docs/FORMATS.md and in docs/RULES.md.
REFUSALS = [("run", "## Refusals of a whole run", "### The whole run"),
            ("question", "its two counts. It gives", "Two calls beside the run"),
            ("message", "## Refusals of one message", "### One message")]


def refusals():
    formats, rules, order = page("docs/FORMATS.md"), page("docs/RULES.md"), orders()
    for name, *before in REFUSALS:
        tables = [(there, there.numbered_table(words)) for there, words in zip((formats, rules), before)]
        for there, rows in tables:
            there.cover_first(number for number, _ in rows)
            yield from differ("%s, the refusals of the %s" % (there.name, name), [row[0] for _, row in rows], order[name])
        for (_, said), (_, row) in zip(*(rows for _, rows in tables)):
            if said[-1] != row[-1] and not said[-1].startswith((row[-1] + ": ", row[-1] + "; ")):
                yield "docs/FORMATS.md, refusal %s: it says '%s', and docs/RULES.md '%s'" % (said[0], said[-1], row[-1])


def header_refusals():
    """The header's words are those of docs/RULES.md, for each number of a call or a message, and for no other."""
    header, order, words = page("include/esquirmell.h"), orders(), refusal_words()
    header.cover_first(number for number, line in enumerate(header.lines, 1) if re.match(r"\s+case \d+:", line))
    should = sorted(set(order["run"] + order["counts"] + order["question"]), key=int) + order["message"]
    yield from differ("include/esquirmell.h, the refusals", [str(number) for number in words], should)
    for _, _, before in REFUSALS:
        for row in page("docs/RULES.md").table(before):
            if words.get(int(row[0])) != row[-1]:
                yield "docs/RULES.md, refusal %s: it says '%s', and esquirmell_words '%s'" % (row[0], row[-1], words.get(int(row[0])))


# ---- Quotes of the source

def stands(line, paths):
    """Whether some file has this line, whatever blanks are before it."""
    return any(line.strip() in [there.strip() for there in read(path).split("\n")] for path in paths)


def quoted():
    desk = page("docs/HELP.md")
    for line in desk.fence("Here is the whole promise of the run"):
        if not stands(line, ["crates/day_run/src/lib.rt"]):
            yield "docs/HELP.md: crates/day_run/src/lib.rt has no line '%s'" % line.strip()
    for line in desk.fence("A definition is a name, its type, and then its cases"):
        words = re.split(r"\s{3,}", line)[0]
        if not stands(words, under("crates/rules/specs", ".antt")):
            yield "docs/HELP.md: no file of crates/rules/specs has the line '%s'" % words


def crates_drawn():
    architecture, crates = page("docs/ARCHITECTURE.md"), list(listed())
    drawing = "\n".join(architecture.fence("the crates that each one's files name, and no more"))
    drawn = set(re.findall(r"[a-z]\w*", drawing))
    for crate in [crate for crate in crates if crate not in drawn]:
        yield "docs/ARCHITECTURE.md: the drawing of the wings lacks %s" % crate
    for word in sorted(word for word in drawn if "_" in word and word not in crates):
        yield "docs/ARCHITECTURE.md: the drawing of the wings has %s, which is no crate" % word
    rows = [row[0].strip("`") for row in architecture.table("| crate | in a line |")]
    yield from differ("docs/ARCHITECTURE.md, the crates", sorted(rows), sorted(crates))


# ---- Times

def times():
    """A row's ns a byte are its ms over the day's bytes, rounded, with two figures or more."""
    performance = page("docs/PERFORMANCE.md")
    size = int(re.search(r"messages, ([\d,]+) bytes \(the same as XML", performance.text).group(1).replace(",", ""))
    for row in performance.table("| filters | states | engine | ms |"):
        each = float(row[3].split(" ")[0]) * 1e6 / size
        should = "%.*f" % (1 if each >= 1 else 2, each)
        if row[4] != should:
            yield "docs/PERFORMANCE.md: %s, %s filters: %s ms are %s ns a byte, and not %s" % (
                row[2], row[0], row[3].split(" ")[0], should, row[4])


CHECKS = [drawing, small_day_gives, value_table, kinds_table, limits, refusals, header_refusals, quoted, crates_drawn,
          times]


def wrong():
    return [line for check in CHECKS for line in check()]


def main():
    faults = wrong()
    end_if_wrong("quotes", faults)
    print("quotes: the pages' bytes, lines, tables and contracts are what the files, the library and the source have")


if __name__ == "__main__":
    main()
