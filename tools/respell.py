#!/usr/bin/env python3
"""Brings the repository's own names to the spelling that its toolchain asks for: definitions, lemmas, fields and constructors of specs/
in snake case, a fact with a capital; in contracts `x.now`, `x.old` and `x.new` for a parameter's `was x` and `left x`; and the names in
must-fail edits. Run once, at the top, right after the toolchain's own script; docs/PORT.md says where.

usage: python3 tools/respell.py [--map]      --map prints old and new name, a line each, and changes nothing

Functions of src/, exported names, strings, inputs and outputs keep their names; a name that starts with a capital does too.
"""
import glob
import re
import sys

TOKEN = re.compile(r"[A-Za-z_][\w'₀-₉]*(?:-[\w'₀-₉]+)*")
DEFINED = re.compile(r"^\s*(?:(?:pub|abbrev|unfoldable|ruleset) )*([a-z][\w'₀-₉]*(?:-[\w'₀-₉]+)*)\s*(?::(?!:)|=)")
TURNED = re.compile(r"-|(?<=[a-z0-9])[A-Z]")
# A fact is spelled as a type.
OWN = {"hasSlot": "HasSlot"}
# Lemmas that would have the name of the definition that they speak of, in a file that has both.
LEMMAS = ["day-nodes", "end_by", "first-different", "gives-step", "key-of", "leads-well", "level_in", "message-count", "no_zero", "on-end",
          "on-text", "one-element", "pass-to", "place-of", "question-lent", "range-ends", "read-tree", "refused-at", "slots-written",
          "stage-after", "start-by", "child_fits"]
# Names that a line gives several of, or that an import gives.
LOCAL = ["ids-is", "ids-not", "is-not", "leads-is", "leads-not", "long-l", "long-q", "off-not", "places-not", "rows-not", "short-not",
         "sizes-not", "withBit"]


def snake(name):
    return re.sub(r"(?<=[a-z0-9])([A-Z])", lambda m: "_" + m.group(1).lower(), name.replace("-", "_"))


def read(path):
    with open(path, encoding="utf-8") as f:
        return f.read()


def imported(text):
    """The names that a file takes from the toolchain's library."""
    names = set()
    for m in re.finditer(r"use (Rattle\.std|mathlib|borrow|Prim|native|lib|denote)[\w.]*\.\{([^}]*)\}", text):
        for part in m.group(2).split(","):
            names.add(part.split(" as ")[-1].strip())
    return names


def signatures(text):
    """Each function's start, the end of its clauses, and its parameters that are slices: name and whether it is lent by &mut."""
    for m in re.finditer(r"\bfn \w+\(", text):
        end = text.find("\n{", m.end())
        inner = re.search(r"\n +\{\n", text[m.end():])
        ends = [e for e in (end, m.end() + inner.start() if inner else -1) if e >= 0]
        if ends:
            stop = min(ends)
            params = dict(re.findall(r"(\w+): (&mut |&)\[", text[m.end():stop]))
            yield m.end(), stop, {name: lent == "&mut " for name, lent in params.items()}


def clauses(text):
    """`was x` and `left x` of a parameter as the language's own words."""
    for start, stop, params in reversed(list(signatures(text))):
        part = text[start:stop]

        def word(m):
            name = m.group("a") or m.group("b")
            left = (m.group("x") or m.group("y")) == "left"
            if name not in params or (left and not params[name]):
                return m.group(0)
            return name + (".new" if left else ".old" if params[name] else ".now")
        part = re.sub(r"\((?P<x>was|left) (?P<a>\w+)\)|\b(?P<y>was|left) (?P<b>\w+)\b(?!\.)", word, part)
        text = text[:start] + part + text[stop:]
    for name in ("was", "left"):
        if not re.search(r"requires .*\b%s\b|ensures .*\b%s\b|^ +.*[(≡] *%s \w" % (name, name, name), text, re.M):
            text = re.sub(r"(ghost use Rattle\.lists\.specs\.Lending\.\{[^}]*?)\b%s\b(, )?" % name, r"\1", text)
    text = re.sub(r"ghost use Rattle\.lists\.specs\.Lending\.\{\};\n", "", text)
    return re.sub(r"(Lending\.\{\w+), \}", r"\1}", text)


def edits(names):
    """The names in must-fail edits, as the file that each changes has them now."""
    for path in sorted(glob.glob("crates/*/must-fail/*.edit")):
        text = read(path)
        there = set()
        for file in re.findall(r"^file: (\S+)", text, re.M):
            try:
                there |= set(TOKEN.findall(read(path.split("/must-fail/")[0] + "/" + file)))
            except FileNotFoundError:
                print(f"look: {path} changes {file}, which is not there")

        def word(m):
            new = names.get(m.group(0), snake(m.group(0)))
            return new if TURNED.search(m.group(0)) and m.group(0)[0].islower() and new in there else m.group(0)
        lines = [TOKEN.sub(word, line) if line.startswith(("old:", "new:", "#")) else line for line in text.split("\n")]
        with open(path, "w", encoding="utf-8") as f:
            f.write("\n".join(lines))


def main():
    specs = sorted(glob.glob("crates/*/specs/**/*.antt", recursive=True))
    proofs = sorted(glob.glob("crates/*/proofs/**/*.antt", recursive=True))
    sources = sorted(glob.glob("crates/*/src/*.rt"))
    defined = set()
    for path in specs:
        for line in read(path).splitlines():
            m = DEFINED.match(line)
            if m:
                defined.add(m.group(1))
    names = {n: OWN.get(n, snake(n)) for n in defined if TURNED.search(n)} | {n: snake(n) + "_lem" for n in LEMMAS} | {n: snake(n) for n in LOCAL}
    if "--map" in sys.argv[1:]:
        for old in sorted(names):
            print(old, names[old])
        return
    for path in specs + proofs + sources:
        text = read(path)
        tokens = set(TOKEN.findall(text))
        foreign = imported(text)
        for old, new in sorted(names.items()):
            if old in tokens and new in tokens and new not in names and path.endswith(".antt"):
                print(f"look: {path} has {old} and {new}")
            if old in tokens and any(other != old and other in tokens and names[other] == new for other in names):
                print(f"look: {path} has two names that become {new}")
        for old in sorted(tokens & set(names)):
            if old in foreign:
                print(f"look: {path} takes {old} from the library")
            if names[old] in foreign:
                print(f"look: {path} takes {names[old]}, to which {old} turns, from the library")
        here = names if path.endswith(".antt") else {old: new for old, new in names.items() if "_" not in old}
        turned = TOKEN.sub(lambda m: here.get(m.group(0), m.group(0)), text)
        if path.endswith(".rt"):
            turned = clauses(turned)
        if turned != text:
            with open(path, "w", encoding="utf-8") as f:
                f.write(turned)
    edits(names)


main()
