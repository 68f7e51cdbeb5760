#!/usr/bin/env python3
"""Checks how the house is kept.

- crates.txt lists every crate and, for each, the crates that its files name and no other.
- No line of a contract, and no line of code or comment beside it, has more than 120 columns.
- Nothing is imported that the file does not name. A function's proof is in Invariants.antt and Answers.antt, whose facts are goals by name.
- Every link of a page leads to a file or a folder, and every heading that it names is there.
- Each row of a table has as many cells as its head. A `|` between backticks ends a cell too, as it does where pages are shown.
"""
import glob
import os
import re
import sys

TOP = os.path.dirname(os.path.dirname(os.path.abspath(__file__)))
MADE = {"out", "target"}  # folders that rt and the scripts make
WIDTH = 120
LONG = 600  # seconds: beside proofs, and at the lowest priority, a moment becomes minutes; what hangs is ended


def read(path):
    return open(os.path.join(TOP, path), encoding="utf-8").read()


def under(folder, *endings):
    found = [p for p in glob.glob(os.path.join(TOP, folder, "**"), recursive=True) if p.endswith(endings) and os.path.isfile(p)]
    return sorted(p for p in (os.path.relpath(p, TOP) for p in found) if not MADE & set(p.split("/")))


def listed():
    lines = [line for line in read("crates.txt").split("\n") if line and not line.startswith("#")]
    return {name.split()[0]: words.split() for name, _, words in (line.partition(":") for line in lines)}


def named(crate, crates):
    """The crates that the files of a crate name: in a path of a specification, or before `::` in code.

    Beside the crates of the tree these are the libraries of the kit that some line of crates.txt lists; std is everyone's.
    """
    known = set(crates).union(*crates.values())
    found = set()
    for path in under("crates/" + crate, ".antt", ".rt"):
        text = read(path)
        found |= set(re.findall(r"\bRattle\.(\w+)\.", text))
        if path.endswith(".rt"):
            code = re.sub(r"//.*", "", text)
            found |= set(re.findall(r"(?<![\w:])(\w+)::", code)) & known
    return found - {crate, "std"}


def crates_as_listed():
    crates = listed()
    for crate in sorted({path.split("/")[1] for path in under("crates", ".antt", ".rt")} - set(crates)):
        yield "crates/%s is not listed in crates.txt" % crate
    for crate, words in crates.items():
        want = named(crate, crates)
        for word in sorted(want - set(words)):
            yield "crates.txt: %s names %s, which is not listed" % (crate, word)
        for word in sorted(set(words) - want):
            yield "crates.txt: %s lists %s, which it does not name" % (crate, word)


def narrow():
    for path in under("crates", ".rt"):
        for number, line in enumerate(read(path).split("\n"), 1):
            if len(line) > WIDTH:
                yield "%s:%d: %d columns" % (path, number, len(line))


IMPORT = re.compile(r"^(?:ghost )?use ([^\n{;]*?)(?:(?:\.|::)\{([^}]*)\})?( as [^\n;]+)?;?\n", re.M)


def mentions(text, name):
    """Whether a text names something: an operator by its parts, anything else as a word."""
    if not re.search(r"\w", name) or "◌" in name:
        return all(part in text for part in name.split("◌"))
    return re.search(r"(?<![\w\-'])" + re.escape(name) + r"(?![\w\-'])", text) is not None


def imports_named():
    for path in under("crates", ".antt", ".rt"):
        text = read(path)
        rest = re.sub(r"^\s*(--|//).*$", "", IMPORT.sub("", text), flags=re.M)
        for place, names, alias in IMPORT.findall(text):
            words = [word.strip() for word in names.replace("\n", " ").split(",") if word.strip()]
            if not names:
                words = [(alias.replace(" as ", "") or re.split(r"[.:]", place)[-1]).strip()]
            for word in words:
                if not mentions(rest, re.sub(r"^(?:\w+(?:\.|::))+", "", word.split(" as ")[-1])):
                    yield "%s: imports %s, which it does not name" % (path, word)


def proofs_by_goals():
    for path in under("crates", "/Proof.antt"):
        yield "%s: a function's proof is its invariants and its answers, in files of these names" % path


def anchors(text):
    heads = re.findall(r"^#+ (.*)$", text, re.M)
    return {re.sub(r"[^\w\- ]", "", head.lower()).replace(" ", "-") for head in heads}


def pages():
    return under("", ".md")


def links():
    for page in pages():
        for link in re.findall(r"\]\(([^)\s]+)\)", re.sub(r"```.*?```", "", read(page), flags=re.S)):
            path, _, head = link.partition("#")
            there = os.path.normpath(os.path.join(os.path.dirname(page), path)) if path else page
            if not os.path.exists(os.path.join(TOP, there)):
                yield "%s: the link %s leads nowhere" % (page, link)
            elif head and head not in anchors(read(there)):
                yield "%s: %s has no heading %s" % (page, there, head)


def cells(row):
    return len(re.split(r"(?<!\\)\|", row.strip())) - 2


def table_rows(page):
    """Each line of a page's tables, with the cells that its table's head has; lines of a fence are none."""
    fenced, wanted = False, None
    for number, line in enumerate(read(page).split("\n"), 1):
        fenced = fenced != line.startswith("```")
        wanted = (wanted or cells(line)) if line.startswith("|") and not fenced else None
        if wanted:
            yield number, line, wanted


def tables():
    for page in pages():
        for number, line, wanted in table_rows(page):
            if cells(line) != wanted or not line.rstrip().endswith("|"):
                yield "%s:%d: a row of %d cells in a table of %d" % (page, number, cells(line), wanted)


def end_if_wrong(who, wrong):
    """Prints what a check found wrong, and ends it if that is anything."""
    for line in wrong:
        print("%s: %s" % (who, line))
    if wrong:
        sys.exit("%s: %d faults" % (who, len(wrong)))


def main():
    wrong = list(crates_as_listed()) + list(narrow()) + list(imports_named())
    wrong += list(proofs_by_goals()) + list(links()) + list(tables())
    end_if_wrong("house", wrong)
    print("house: crates.txt, columns, imports, proofs, links and tables are as they should be")


if __name__ == "__main__":
    main()
