"""What tests/figures.txt may name in an expression: numbers of the tree, answers of the library, the benchmark's counts."""
import os
import re
import subprocess
import sys
import tempfile
import types

import believed
import house
import quotes
import small_day
from house import TOP, read, under
from library import ARCHIVE, CC, Run
from pages import page
from small_day import LEAF, SERVICE, SMALL_BOOK, SMALL_DAY, STEP, book, day, node, state, text

Named = types.SimpleNamespace
SMALL = Run(SMALL_BOOK, SMALL_DAY)
MESSAGES = range(1, quotes.two(SMALL_DAY, 0) + 1)
TIMES = "| filters | states | engine | ms |"


# ---- Numbers of the tree

def evaluated(said):
    """The values of expressions that name each other: {name: expression}."""
    found = {}
    while len(found) < len(said):
        before = len(found)
        for name in [name for name in said if name not in found]:
            try:
                found[name] = eval(said[name], {"__builtins__": {}}, found)
            except NameError:
                continue
        if len(found) == before:
            sys.exit("figures: no value for %s" % ", ".join(sorted(set(said) - set(found))))
    return found


def definitions():
    """Each `abbrev` that is a number, of the files directly in specs."""
    said = {}
    for path in [p for p in under("crates", ".antt") if re.fullmatch(r"crates/\w+/specs/\w+\.antt", p)]:
        for name, expression in re.findall(r"^abbrev pub (\w+) : ℕ\n\1 = (.*)$", read(path), re.M):
            said[name] = expression.replace("^", "**").replace("/", "//")
    return evaluated(said)


def constants():
    """The `const`s of the code, as crate.NAME: in an expression each is written with its crate, `crate__NAME`."""
    said = {}
    for path in [p for p in under("crates", ".rt") if "/src/" in p]:
        crate, source = path.split("/")[1], read(path)
        own = re.findall(r"^(?:pub )?const (\w+): \w+ = (.*);", source, re.M)
        owner = {name: other for other, name in re.findall(r"^use (\w+)::([A-Z_]+);", source, re.M)}
        owner.update({name: crate for name, _ in own})
        for name, expression in own:
            whole = re.sub(r"(?<!::)\b([A-Z_]+)\b", lambda m: "%s__%s" % (owner[m.group(1)], m.group(1)), expression)
            said["%s__%s" % (crate, name)] = whole.replace("::", "__")
    crates = {}
    for name, value in evaluated(said).items():
        crate, _, last = name.partition("__")
        setattr(crates.setdefault(crate, Named()), last, value)
    return crates


def of_case_h():
    return Named(**{name: int(value) for name, value in re.findall(r"^\s+(\w+) = (\d+)", read("second/case.h"), re.M)})


def stack():
    """The bytes of stack that bench/stack.c finds, by call."""
    with tempfile.TemporaryDirectory() as room:
        program, include = os.path.join(room, "stack"), "-I" + os.path.join(TOP, "include")
        words = ["-std=c11", include, os.path.join(TOP, "bench/stack.c"), ARCHIVE, "-o", program]
        subprocess.run([*CC, *words], check=True)
        small = [os.path.join(TOP, "small", name) for name in ("book.bin", "day.bin")]
        said = subprocess.run([program, *small], check=True, capture_output=True, text=True).stdout
    return Named(**{name: int(size) for name, size in re.findall(r"^(\w+) +(\d+) bytes", said, re.M)})


def order(numbers):
    """Numbers in the order of their checks: '1 to 12, then 14, then 19'."""
    numbers, last = [int(number) for number in numbers], 0
    while last + 1 < len(numbers) and numbers[last + 1] == numbers[last] + 1:
        last += 1
    head = "%d to %d" % (numbers[0], numbers[last]) if last else str(numbers[0])
    return ", then ".join([head] + [str(number) for number in numbers[last + 1:]])


# ---- The small day

def entry(at):
    two, four = quotes.two, quotes.four
    return Named(id=four(SMALL_BOOK, at), start=two(SMALL_BOOK, at + 4), count=two(SMALL_BOOK, at + 6))


ENTRIES = [entry(at) for at in range(2, 2 + 8 * quotes.two(SMALL_BOOK, 0), 8)]


def asked(k):
    """The questions that message k asks, counted from 1."""
    return Run(SMALL_BOOK, day([quotes.message_body(k)])).asked


def ids(k):
    """The true filters of message k."""
    return ", ".join(map(str, quotes.ids_of(SMALL.row(k)[2])))


def states(k):
    """The states of filter k, in words."""
    at = ENTRIES[k].start
    words = [quotes.state_words(SMALL_BOOK[at + 8 * i:at + 8 * i + 8]) for i in range(ENTRIES[k].count)]
    return ", ".join(re.sub(r"STEP \d+ (→ \d+) \((.*)\)", r"STEP \2 \1", word) for word in words)


def rows_alike():
    runs = [Run(SMALL_BOOK, SMALL_DAY, 17 * slots) for slots in (64, 5, 2, 0)]
    return "64, 5, 2 or no" if all(run.answers == SMALL.answers for run in runs) else "not all of"


# ---- Answers of the library

SIGNS = {"=": int.__eq__, "≠": int.__ne__, "<": int.__lt__, "≤": int.__le__, ">": int.__gt__, "≥": int.__ge__}


def relation(sign):
    """The number of a relation: the one with which a LEAF is true of the values that the sign says."""
    for r in range(1, 7):
        a_book = book([(1, [state(STEP, SERVICE, 1), state(LEAF, r, 5)])])
        true = [Run(a_book, day([node(SERVICE, text(b"%d" % v))])).row(1)[2] for v in (4, 5, 6)]
        if true == [SIGNS[sign](v, 5) for v in (4, 5, 6)]:
            return r
    return "no relation"


def blank(byte):
    """A byte that is stripped at both ends of a text, so that the rest is a number."""
    return byte if quotes.value(bytes([byte]) + b"7" + bytes([byte])) == "7" else "%d, which is not stripped" % byte


def alike(first, *others):
    """A figure that is the same in each of these cases."""
    return first if all(other == first for other in others) else "%s, or %s" % (first, others)


# ---- All of them

def of_orders():
    of = quotes.orders()
    return {"bookOrder": of["book"], "dayOrder": of["day"], "runOrder": of["run"], "questionOrder": of["question"],
            "countOrder": of["counts"], "messageOrder": of["message"], "passOrder": of["run"] + of["counts"],
            "askOrder": of["book"] + of["question"], "own": sorted(set(of["question"] + of["counts"]), key=int)}


def values():
    found = {**definitions(), **constants(), **of_orders(), **vars(small_day)}
    found.update({
        "longestBook": 2 + found["entry_width"] * found["most_filters"] + found["state_width"] * found["most_states"],
        "second": of_case_h(), "stack": stack(), "house": house, "believed": believed.count(believed.follow()[0]),
        "size": lambda path: os.path.getsize(os.path.join(TOP, path)), "order": order, "len": len, "max": max,
        "small": SMALL, "messages": len(MESSAGES), "filters": len(ENTRIES), "entries": ENTRIES, "rows_alike": rows_alike(),
        "starts": {k: quotes.four(SMALL_DAY, 8 * k - 6) for k in MESSAGES},
        "refused": [k for k in MESSAGES if SMALL.row(k)[0]][0], "asked": asked, "ids": ids, "states": states,
        "number": quotes.message_number, "run_number": quotes.run_number, "relation": relation, "blank": blank,
        "value": lambda words: quotes.value(words.encode()), "alike": alike, "members": quotes.members, "hex": quotes.hexes,
        "trues": quotes.trues, "ANY": quotes.ANY, "NO_DAY": quotes.NO_DAY, "Run": Run,
    })
    return found


# ---- The benchmark

def timed(column):
    """A figure of docs/PERFORMANCE.md's own table of times, by filters and engine."""
    rows = page("docs/PERFORMANCE.md").table(TIMES)
    found = {(int(row[0]), row[2]): float(row[column].split(" ")[0]) for row in rows}
    return lambda filters, engine: found[filters, engine]


def grown(part):
    """The ns a byte of a part of the day, with 4,096 slots, as docs/PERFORMANCE.md has them."""
    parts = {row[0]: row for row in page("docs/PERFORMANCE.md").table("| part of the day |")}
    return float(parts[part][4].split(" ")[0])


def reckoned(ms, whole, anew):
    """The ms of one answer worked out, and of all LEAF states joined, with 64 filters, reckoned from the times."""
    each = (ms(64, "proved, 0 slots") - ms(64, "proved, 4,096 slots")) / (whole.questions - anew)
    return {"anewTime": each, "leafTime": ms(64, "proved, 4,096 slots") - each * anew - 1e-6 * whole.bytes * grown("no numbers")}


def bench_values():
    """What bench/run --counts says: of parts of the day, of a run by filters and slots, of finding questions by filters."""
    words = [os.path.join(TOP, "bench/run"), "--counts"]
    said = subprocess.run(words, check=True, capture_output=True, text=True).stdout
    found = {"runs": {}, "looks": {}, "ms": timed(3), "ratio": timed(5), "grown": grown}
    for word, *rest in [line.split() for line in said.split("\n") if line and not line.startswith("bench:")]:
        if word == "run":
            found["runs"][int(rest[0]), int(rest[1])] = Named(anew=int(rest[2]), filled=int(rest[3]))
        elif word == "looks":
            found["looks"][int(rest[0])] = Named(each=float(rest[4]), most=int(rest[5]))
        else:
            names = ("messages", "bytes", "xml", "events", "numbers", "questions")
            found[word] = Named(**dict(zip(names, map(int, rest))))
    return {**found, **reckoned(found["ms"], found["whole"], found["runs"][64, 4096].anew)}
