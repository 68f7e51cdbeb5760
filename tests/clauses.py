#!/usr/bin/env python3
"""Tries a wrong form of each clause of the definitions: crate `rules` or `lists` itself must refuse it, by a law or an example.

    python3 tests/clauses.py [DEFINITION..]     all wrong forms, or those of the definitions named
    python3 tests/clauses.py --by-definition    the same, and at the end what refuses each definition's changes

The wrong forms are in tests/clauses.txt. Each is put into a copy of the tree, and the crate of the definition is checked: REFUSED with
the law or example that refuses it first, UNNOTICED, or BAD EDIT where the wrong form is no definition (a scope, type or parse error in
it), which shows nothing. Every `abbrev` and `unfoldable` definition of a door file of the two crates must have a wrong form: a door is a
file right in specs/, but for those of BEHIND, which hold words of proofs that no promise names. It is no part of the gate.
"""
import glob
import os
import queue
import re
import shutil
import sys
import tempfile
import threading
import time

import trees
from house import TOP

CRATES = ["rules", "lists"]
BEHIND = {("rules", "Leading"), ("rules", "OneBit")}
WORKERS = 2
DECLARED = re.compile(r"\s*(?:abbrev |unfoldable |pub )+(?:data |record )?(\S+)")
MUST = re.compile(r"\s*(?:abbrev|unfoldable) (?:pub )?(\S+) :")
ERROR = re.compile(r"^\./(specs|proofs)/(\S+)\.antt:(\d+):\d+: error: (?:`([^`\s]+)`: )?(.*)", re.M)


def read(path):
    return open(path, encoding="utf-8").read()


def door(top, crate, name):
    return os.path.join(top, "crates", crate, "specs", name + ".antt")


def wrong_forms():
    """The rows of tests/clauses.txt: crate, file, definition, old text, new text."""
    rows, crate, name = [], None, None
    for line in read(os.path.join(TOP, "tests", "clauses.txt")).split("\n"):
        if line.startswith("== "):
            _, crate, name = line.split()
        elif line and not line.startswith("#"):
            definition, _, texts = line.partition(": ")
            old, arrow, new = texts.partition(" ⇒ ")
            if not arrow:
                sys.exit("clauses.txt: no ⇒ in: " + line)
            rows.append((crate, name, definition, old.replace("\\n", "\n"), new.replace("\\n", "\n")))
    return rows


def block(text, definition):
    """The lines of a definition, from its declaration to the next empty line: where they start and end in the text."""
    at = 0
    for line in text.split("\n"):
        declared = DECLARED.match(line)
        if declared and declared.group(1) == definition:
            end = text.find("\n\n", at)
            return at, len(text) if end < 0 else end
        at += len(line) + 1
    return None


def changed(text, row):
    """The file with the wrong form in it, or what is wrong with the row."""
    crate, name, definition, old, new = row
    found = block(text, definition)
    if found is None:
        return None, "no definition %s in %s" % (definition, name)
    start, end = found
    count = text[start:end].count(old)
    if count != 1:
        return None, "the old text stands %d times in %s: %s" % (count, definition, old)
    return text[:start] + text[start:end].replace(old, new) + text[end:], None


def forgotten(rows):
    """Definitions without a wrong form."""
    have = {row[:3] for row in rows}
    for crate in CRATES:
        for path in sorted(glob.glob(door(TOP, crate, "*"))):
            name = os.path.basename(path)[: -len(".antt")]
            for line in read(path).split("\n") if (crate, name) not in BEHIND else []:
                must = MUST.match(line)
                if must and (crate, name, must.group(1)) not in have:
                    yield "%s.%s.%s has no wrong form" % (crate, name, must.group(1))


def definitions():
    """The names that the door files declare, proved ones left out."""
    names = set()
    for crate in CRATES:
        for path in glob.glob(door(TOP, crate, "*")):
            text = read(path)
            names |= set(re.findall(r"^\s*(?:abbrev|unfoldable) (?:pub )?(\S+) :", text, re.M))
            names |= set(re.findall(r"^\s*(?:pub )?(?:data|record) (\S+)", text, re.M))
    return names


def write(path, text):
    if read(path) != text:
        with open(path, "w", encoding="utf-8") as f:
            f.write(text)


def examples(crate):
    """The doors that have examples: for each the file that names them, and theirs, both below the crate's folder."""
    found = {}
    for part in ("specs", "proofs"):
        for path in glob.glob(os.path.join(TOP, "crates", crate, part, "*", "Examples.antt")):
            name = os.path.basename(os.path.dirname(path))
            found[name] = os.path.join(part, name + ".antt"), os.path.join(part, name, "Examples.antt")
    return found


def own_examples(crate, name):
    """The doors whose examples are checked first with a change of this one: its own, and those that these name."""
    there, found, new = examples(crate), set(), {name}
    while new:
        found |= new
        texts = [read(os.path.join(TOP, "crates", crate, there[n][1])) for n in new if n in there]
        new = {n for text in texts for n in re.findall(r"(?:specs|proofs)\.(\w+)\.Examples", text)} - found
    return found


def left_out(tree, crate, names):
    """Leaves the examples of these doors out of the crate, and has those of all others in it."""
    here, there = (os.path.join(top, "crates", crate) for top in (tree, TOP))
    for name, (names_them, file) in examples(crate).items():
        text = read(os.path.join(there, names_them))
        if name in names:
            text = text.replace("pub mod Examples\n", "")
            if os.path.exists(os.path.join(here, file)):
                os.remove(os.path.join(here, file))
        elif not os.path.exists(os.path.join(here, file)):
            shutil.copy2(os.path.join(there, file), os.path.join(here, file))
        write(os.path.join(here, names_them), text)


def without_others(tree, crate, name):
    """The examples of a door alone: a change that is not refused by these and the laws is tried with all."""
    stay = own_examples(crate, name)
    left_out(tree, crate, [n for n in examples(crate) if n not in stay])


def with_all(tree, crate):
    left_out(tree, crate, [])


def checked(tree, row):
    """The first error of a check with the wrong form in the file; None where there is none."""
    path = door(tree, row[0], row[1])
    text = read(path)
    write(path, changed(text, row)[0])
    try:
        status, said = trees.check(tree, row[0])
    finally:
        write(path, text)
    if status == 0:
        return None
    first = ERROR.search(said)
    return first.groups() if first else ("", "", "", None, said.strip().split("\n")[-1])


def verdict(tree, row, defined):
    crate, name = row[:2]
    fault = changed(read(door(TOP, crate, name)), row)[1]
    if fault:
        return "BAD EDIT", fault
    first = checked(tree, row)
    if not first:
        with_all(tree, crate)
        first = checked(tree, row)
        without_others(tree, crate, name)
    if not first:
        return "UNNOTICED", ""
    part, file, line, declared, message = first
    if declared is None or (part == "specs" and "/" not in file and declared in defined):
        return "BAD EDIT", "%s/%s:%s: %s" % (part, file, line, message)
    return "REFUSED", "%s:%s %s.%s.%s" % (file, line, crate, file.replace("/", "."), declared)


def told(row, what, where, seconds):
    crate, name, definition, old, new = row
    change = ("%s ⇒ %s" % (old, new)).replace("\n", "\\n")
    print("%s %s.%s.%s: %s   at %s (%.1f s)" % (what, crate, name, definition, change, where, seconds), flush=True)


def tried(rows):
    """What becomes of each row, told as it comes. A worker takes a door at a time, the one with most rows first."""
    waiting, results, defined = queue.Queue(), {}, definitions()
    doors = [row[:2] for row in rows]
    for one in sorted(set(doors), key=lambda d: -doors.count(d)):
        waiting.put(one)

    def work(tree):
        while True:
            try:
                crate, name = waiting.get_nowait()
            except queue.Empty:
                return
            without_others(tree, crate, name)
            for row in rows:
                if row[:2] == (crate, name):
                    began = time.time()
                    what, where = verdict(tree, row, defined)
                    results[row] = what, where
                    told(row, what, where, time.time() - began)
            with_all(tree, crate)

    with tempfile.TemporaryDirectory() as folder:
        threads = []
        for _ in range(min(WORKERS, len(set(doors)))):
            tree = trees.copied(CRATES, folder)
            for crate in CRATES:
                status, said = trees.check(tree, crate)
                if status != 0:
                    sys.exit("crate %s is not proved as it stands:\n%s" % (crate, said))
            threads.append(threading.Thread(target=work, args=(tree,)))
        for thread in threads:
            thread.start()
        for thread in threads:
            thread.join()
    return [results[row] for row in rows]


def main():
    words = sys.argv[1:]
    by_definition = "--by-definition" in words
    names = [w for w in words if not w.startswith("--")]
    rows = wrong_forms()
    missing = list(forgotten(rows))
    rows = [row for row in rows if not names or row[2] in names]
    if not rows:
        sys.exit("clauses: no such definition")
    results = tried(rows)
    refusers = {}
    for (crate, name, definition, _, _), (what, where) in zip(rows, results):
        if what == "REFUSED":
            refusers.setdefault("%s.%s.%s" % (crate, name, definition), []).append(where.split(" ")[1])
    if by_definition:
        for definition, by in refusers.items():
            print("%s → %s" % (definition, ", ".join(dict.fromkeys(by))))
    for line in missing:
        print("MISSING " + line)
    refused = sum(1 for what, _ in results if what == "REFUSED")
    print("%d clauses, %d refused" % (len(rows), refused))
    if missing or refused < len(rows):
        sys.exit(1)


if __name__ == "__main__":
    main()
