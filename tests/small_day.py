#!/usr/bin/env python3
"""The small day of the paper, written out from its words: small/book.bin (154 bytes) and small/day.bin (171 bytes).

small_day.py            compares the two files, and the bytes in crates/rules/specs/ASmallDay.antt, with what the words give
small_day.py --write    writes them
"""
import os
import re
import sys

TOP = os.path.dirname(os.path.dirname(os.path.abspath(__file__)))
SERVICE, CALL, LATE, DAY = 1, 2, 3, 32772
TRUE, LEAF, AND, OR, NOT, STEP = range(6)
EQUAL, ABOVE = 1, 5


def u16(n):
    return n.to_bytes(2, "little")


def u32(n):
    return n.to_bytes(4, "little")


def state(kind, *rest):
    if kind == LEAF:
        relation, constant = rest
        return bytes([kind, relation, 0, 0]) + constant.to_bytes(4, "little", signed=True)
    numbers = list(rest) + [0] * (3 - len(rest))
    return bytes([kind, 0]) + b"".join(u16(n) for n in numbers)


def book(filters):
    contents, bodies, at = b"", b"", 2 + 8 * len(filters)
    for ident, states in filters:
        contents += u32(ident) + u16(at) + u16(len(states))
        bodies += b"".join(states)
        at += 8 * len(states)
    return u16(len(filters)) + contents + bodies


def day(messages):
    table, at = [], 2 + 8 * len(messages)
    for body in messages:
        table.append(u32(at) + u32(len(body)))
        at += len(body)
    return u16(len(messages)) + b"".join(table + messages)


def start(label):
    return b"\1" + u16(label)


def text(s):
    return bytes([2, len(s)]) + s


def end(label):
    return b"\3" + u16(label)


def node(label, *inside):
    return start(label) + b"".join(inside) + end(label)


SMALL_BOOK = book([
    (10, [state(STEP, SERVICE, 1), state(STEP, CALL, 2), state(STEP, LATE, 3), state(LEAF, ABOVE, 5)]),
    (20, [state(NOT, 1), state(OR, 2, 3), state(STEP, 0, 1), state(STEP, CALL, 4), state(STEP, LATE, 5), state(LEAF, ABOVE, 5)]),
    (30, [state(STEP, SERVICE, 1), state(AND, 2, 3), state(STEP, DAY, 4), state(STEP, CALL, 5), state(LEAF, EQUAL, 6), state(TRUE)]),
])

SATURDAY = node(DAY, text(b"6"))


def call(late):
    return node(CALL, node(LATE, text(late)))


SMALL_DAY = day([
    node(SERVICE, SATURDAY, call(b"7"), call(b"2")),
    node(SERVICE, SATURDAY, call(b"2"), call(b"7")),
    node(SERVICE, SATURDAY, node(CALL)),
    node(SERVICE),
    start(SERVICE) + node(CALL) + start(DAY),
])

# the four range ends, each as the text of an element
ENDS = day([node(SERVICE, text(t)) for t in (b"2147483647", b"2147483648", b"-2147483648", b"-2147483649")])

# a call late by just 5; a service with an attribute and a text; a word; no text
EDGES = day([
    node(SERVICE, call(b"5")),
    node(SERVICE, SATURDAY, text(b"7")),
    node(SERVICE, text(b"cancelled")),
    node(SERVICE),
])
# id 1, /service[@day=6 and . > 5]; id 2, /service[. != 0]; id 3, /service/call/late >= 5
EDGE_BOOK = book([
    (1, [state(STEP, SERVICE, 1), state(AND, 2, 3), state(STEP, DAY, 4), state(LEAF, ABOVE, 5), state(LEAF, EQUAL, 6)]),
    (2, [state(STEP, SERVICE, 1), state(LEAF, 2, 0)]),
    (3, [state(STEP, SERVICE, 1), state(STEP, CALL, 2), state(STEP, LATE, 3), state(LEAF, 6, 5)]),
    (4, [state(STEP, SERVICE, 1), state(STEP, CALL, 2), state(STEP, LATE, 3), state(LEAF, ABOVE, 5)]),
])

LISTS = [
    ("book", "the filter book of \"A small day, whole\", 154 bytes", SMALL_BOOK),
    ("day", "its day file, 171 bytes", SMALL_DAY),
    ("range_ends", "section \"On both sides\": a message for each range end", ENDS),
    ("edge_book", "id 1, /service[@day=6 and . > 5]; 2, /service[. != 0]; 3, /service/call/late >= 5; 4, /service/call/late > 5", EDGE_BOOK),
    ("edges", "a call late by just 5; a service with an attribute and a text; with a word; with no text", EDGES),
]


def antt():
    out = ["-- The bytes of the small day and of a few messages beside it, written by tests/small_day.py.",
           "use Rattle.std.specs.Prelude.{List, [], ◌∷◌, ℕ}"]
    for name, what, data in LISTS:
        numbers = [str(b) for b in data]
        rows = [" ∷ ".join(numbers[i:i + 24]) for i in range(0, len(numbers), 24)]
        out += ["", "-- " + what, "abbrev pub %s : List ℕ" % name, "%s =" % name, "    " + " ∷\n    ".join(rows) + " ∷ []"]
    return "\n".join(out) + "\n"


FILES = [("small/book.bin", SMALL_BOOK), ("small/day.bin", SMALL_DAY), ("crates/rules/specs/ASmallDay.antt", antt().encode())]


def main():
    assert len(SMALL_BOOK) == 154 and len(SMALL_DAY) == 171
    write = sys.argv[1:] == ["--write"]
    if sys.argv[1:] and not write:
        sys.exit(__doc__)
    for name, data in FILES:
        path = os.path.join(TOP, name)
        if write:
            with open(path, "wb") as f:
                f.write(data)
        else:
            with open(path, "rb") as f:
                there = f.read()
            squeeze = lambda b: re.sub(rb"\s+", b" ", b)
            if squeeze(there) != squeeze(data) if name.endswith(".antt") else there != data:
                sys.exit("%s is not what the words of the paper give" % name)
    print("small day: 3 files %s" % ("written" if write else "as the paper says"))


if __name__ == "__main__":
    main()
