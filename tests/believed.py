#!/usr/bin/env python3
"""Follows the names from the page of the demands and the page of the promises, and says how much there is to believe.

A statement on those pages, a record of the demands, a theorem's type or a promise, names definitions; each definition names others. Every one
that is met must stand at a door: a file directly in crates/*/specs. What stands in a folder behind a door, or in proofs, is a law, so meeting
it is an error. The theorems of the demands stand in proofs, and what they state is part of the page.
The first lines of the demands' page list the files that are met, and they must be just those. The last line is the count, which the docs cite.
"""
import os
import re
import sys

TOP = os.path.dirname(os.path.dirname(os.path.abspath(__file__)))
PAGES = [("demands", "Demands", "specs"), ("demands", "Demands", "proofs"), ("rules", "Promise", "specs")]
CITED = ["docs/HELP.md", "docs/DECISIONS.md"]
TOKEN = re.compile(r"[^\s(){}\[\],;]+")
DECLARED = re.compile(r"\s*(?:abbrev |unfoldable |pub )*(data |record )?([^\s:]+)(.*)$")


def source(crate, module, folder="specs"):
    return os.path.join(TOP, "crates", crate, folder, *module.split(".")) + ".antt"


def read(path):
    return open(path, encoding="utf-8").read()


def bare(line):
    return re.sub(r"(^|\s)--.*", "", line).rstrip()


class File:
    """A file's imports, and its declarations: for each name the lines that say what it is."""

    def __init__(self, crate, module, folder):
        self.crate, self.module = crate, module
        self.imports, self.aliases, self.said, self.stated = {}, {}, {}, {}
        lines = [bare(line) for line in read(source(crate, module, folder)).split("\n")]
        for line in lines:
            if line.startswith("use "):
                self.use(line[4:])
        self.declarations([line for line in lines if line and not line.startswith(("use ", "pub mod "))])

    def use(self, text):
        named = re.match(r"Rattle\.(?!std\b)(\w+)\.(specs|proofs)\.?([\w.]*?)\.?(?:\{(.*)\})?(?: as (\w+))?$", text)
        if not named:
            return
        crate, folder, module, items, alias = named.groups()
        if items is None:
            self.aliases[alias or module.split(".")[-1]] = (crate, module, folder)
            return
        for item in items.split(","):
            name, _, other = item.strip().partition(" as ")
            whole = (module + "." if module else "") + name
            inside, _, last = whole.rpartition(".")
            self.imports[other or last] = (crate, inside, folder, last)

    def declarations(self, lines):
        """A declaration is its signature and its clauses; of a data type or a record, all that is indented below it.

        `stated` has what a reader must read of it: everything of a definition, the type alone of a theorem.
        """
        name, kind = None, None
        for line in lines:
            indent = len(line) - len(line.lstrip())
            if line.startswith("module _"):
                name = None
                continue
            head = DECLARED.match(line)
            if head.group(1) and indent <= 2:
                name, kind = head.group(2), "data"
            elif indent <= 2 and re.match(r"\s*(?:abbrev |unfoldable )?(?:pub )?\S+ :( |$)", line) and not (kind == "data" and indent == 2 and name):
                name, kind = head.group(2), "definition" if re.match(r"\s*(abbrev|unfoldable) ", line) else "theorem"
            elif indent <= 2 and name and kind == "theorem" and line.split()[0] == name:
                kind = "proof"
            elif indent == 0 and kind == "data":
                name = None
            if name is None or line.lstrip().startswith("unfolding"):
                continue
            self.said.setdefault(name, []).append(line)
            if kind != "proof":
                self.stated.setdefault(name, []).append(line)
            if kind == "data" and indent == 2 and re.match(r"  [^:]+ :", line) and not line.lstrip().startswith("pub "):
                for constructor in line.split(":")[0].split():
                    self.said.setdefault(constructor, self.said[name])
                    self.stated.setdefault(constructor, self.stated[name])


def files():
    found = {}

    def file(*place):
        if place not in found:
            found[place] = File(*place)
        return found[place]

    return file


def names(lines):
    """The words of some lines; of a projection `x.field` both x and field, too."""
    for word in TOKEN.findall(" ".join(lines)):
        word = word.strip(".")
        if word:
            yield word
            yield from word.split(".") if "." in word else []


def follow():
    """The definitions that the pages' statements reach: {(crate, module): {name: lines}}; and the laws that they reach, which is wrong."""
    file, met, laws, todo = files(), {}, set(), []
    for place in PAGES:
        page = file(*place)
        todo += [(page, name) for name in page.stated]
    while todo:
        at, name = todo.pop()
        here = met.setdefault((at.crate, at.module), {})
        if name in here:
            continue
        here[name] = at.stated[name]
        for word in names(at.stated[name]):
            first, _, rest = word.partition(".")
            if word in at.stated:
                todo.append((at, word))
            elif word in at.imports:
                *place, last = at.imports[word]
                if is_law(*place):
                    laws.add((*place, last))
                elif last in file(*place).stated:
                    todo.append((file(*place), last))
                else:
                    sys.exit("believed: %s of %s/%s is not found in %s/%s" % (word, at.crate, at.module, *place[:2]))
            elif rest and first in at.aliases:
                owner = file(*at.aliases[first])
                if is_law(*at.aliases[first]):
                    laws.add((*at.aliases[first], rest))
                elif rest in owner.stated:
                    todo.append((owner, rest))
    return met, laws


def is_law(crate, module, folder):
    """Whether a file has laws: one of proofs, or one in a folder behind a door."""
    return folder == "proofs" or "." in module


def listed():
    """The files that the head of the demands' page lists."""
    head = []
    for line in read(source(*PAGES[0])).split("\n"):
        if not line.startswith("--"):
            break
        head.append(line[2:].strip())
    found = set()
    for crate, words in re.findall(r"in (?:this )?crate(?: (\w+))?, specs/ ?([\w, ]+)", " ".join(head).replace(" --", "")):
        found |= {(crate or "demands", word) for word in words.split(", ") if word}
    return found


def count(met):
    """How much there is to believe, as the docs say it."""
    lines = {tuple(lines) for ns in met.values() for lines in ns.values()}
    return "%d files, %d lines" % (len(met), sum(len(block) for block in lines))


def main():
    met, laws = follow()
    for crate, module, folder, name in sorted(laws):
        print("believed: a statement rests on a law, crates/%s/%s/%s: %s" % (crate, folder, module.replace(".", "/"), name))
    if laws:
        sys.exit("believed: %d laws met" % len(laws))
    doors = set(met) - {PAGES[0][:2]}
    if doors != listed():
        for c, m in sorted(doors - listed()):
            print("believed: the head of the demands' page does not list %s/specs/%s.antt" % (c, m))
        for c, m in sorted(listed() - doors):
            print("believed: the head of the demands' page lists %s/specs/%s.antt, which no statement reaches" % (c, m))
        sys.exit("believed: the head of the demands' page is not right")
    for page in CITED:
        if count(met) not in read(os.path.join(TOP, page)):
            sys.exit("believed: %s does not say '%s'" % (page, count(met)))
    print("believed: %s, and no law among them" % count(met))


if __name__ == "__main__":
    main()
