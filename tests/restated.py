#!/usr/bin/env python3
"""Shows that an edit of a definition or a statement is refused for what it says, and not because a text was changed.

restated.py [CRATE..]   proves each crate with the true forms of its edits, over what earlier checks kept
restated.py --lines     looks at the lines alone, with no prover

In an edit of a file under specs/, a line `# true: TEXT` stands behind each `new: ` line: a true form in the same place, changed as the
wrong one is changed or wrapped so that it computes away. The true forms of a crate's edits go into a copy of the crate, all at once but
for those that change the same words, which go into another copy. Each copy must be proved.
"""
import concurrent.futures
import glob
import os
import re
import resource
import sys
import tempfile

import trees
from house import TOP, end_if_wrong

JOBS = 2


def read(path):
    with open(path, encoding="utf-8") as f:
        return f.read()


def edits():
    """The edits of files under specs/, as crate/name, each with its lines."""
    for path in sorted(glob.glob(os.path.join(TOP, "crates/*/must-fail/*.edit"))):
        lines = read(path).rstrip("\n").split("\n")
        if any(line.startswith("file: specs/") for line in lines):
            yield "%s/%s" % (path.split("/")[-3], os.path.basename(path)[: -len(".edit")]), lines


def changes(lines):
    """For each `new: ` line its file, the old text, the wrong one, and the true one: None where the next line has none."""
    file = old = None
    for line, after in zip(lines, lines[1:] + [""]):
        if line.startswith("file: "):
            file = line[len("file: "):]
        elif line.startswith("old: "):
            old = line[len("old: "):]
        elif line.startswith("new: "):
            yield file, old, line[len("new: "):], after[len("# true: "):] if after.startswith("# true: ") else None


def wrong_lines(edit, lines):
    for file, old, new, true in changes(lines):
        if true is None:
            yield "%s.edit: no `# true: ` line behind `new: %s`" % (edit, new)
        elif true in (old, new):
            yield "%s.edit: its true form is the old text or the wrong one" % edit
        if read(os.path.join(TOP, "crates", edit.split("/")[0], file)).count(old) != 1:
            yield "%s.edit: its old text does not stand once in %s" % (edit, file)


def spans(edit, lines):
    """Where its true forms go: (file, start, end, text)."""
    for file, old, _, true in changes(lines):
        at = read(os.path.join(TOP, "crates", edit.split("/")[0], file)).index(old)
        yield file, at, at + len(old), true


def apart(one, other):
    """Whether two changes have no word in common, or are the same change."""
    return one == other or one[0] != other[0] or one[2] <= other[1] or other[2] <= one[1]


def groups(names):
    """(crate, changes) for each copy: an edit goes into the first one of its crate where it meets no other."""
    found = []
    for edit, lines in names:
        mine = set(spans(edit, lines))
        for crate, there in found:
            if crate == edit.split("/")[0] and all(apart(a, b) for a in mine for b in there):
                there |= mine
                break
        else:
            found.append((edit.split("/")[0], mine))
    return found


def proved(group, room):
    """What the prover says of a copy with these true forms: nothing, if it is proved."""
    crate, there = group
    tree = trees.copied([crate], room)
    for file, start, end, true in sorted(there, key=lambda change: -change[1]):
        path = os.path.join(tree, "crates", crate, file)
        text = read(path)
        with open(path, "w", encoding="utf-8") as f:
            f.write(text[:start] + true + text[end:])
    status, said = trees.check(tree, crate)
    if status == 0:
        return []
    errors = [line for line in said.split("\n") if re.match(r"(note: )?\S+:\d+:\d+: |error", line)]
    return ["%s is not proved with true forms: %s" % (crate, (errors or [said[-300:]])[0])]


def main():
    words = sys.argv[1:]
    crates = [word for word in words if not word.startswith("--")]
    names = [(edit, lines) for edit, lines in edits() if not crates or edit.split("/")[0] in crates]
    wrong = [line for edit, lines in names for line in wrong_lines(edit, lines)]
    if not wrong and "--lines" not in words:
        with tempfile.TemporaryDirectory() as room, concurrent.futures.ThreadPoolExecutor(JOBS) as pool:
            made = groups(names)
            wrong = sum(pool.map(lambda group: proved(group, room), made), [])
    end_if_wrong("restated", wrong if names else ["there is no statement edit"])
    if "--lines" in words:
        print("restated: %d statement edits, each with its true form" % len(names))
        return
    spent = resource.getrusage(resource.RUSAGE_CHILDREN)
    print("restated: %d statement edits, each proved with its true form (%d groups, %d s of processor time)"
          % (len(names), len(made), spent.ru_utime + spent.ru_stime))


if __name__ == "__main__":
    main()
