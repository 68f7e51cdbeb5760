#!/usr/bin/env python3
"""Checks that each name between backticks on a page is in the tree.

In docs/PROMISES.md a name is one of these, and nothing else:

    `crate.File.name`      a definition in crates/crate/specs, or a law there or in crates/crate/proofs
    `crate::name`          a function, a method or a type of crates/crate/src; `name` alone where the page has it so, too
    `crate/label.edit`     a must-fail edit
    `crate`, a path        a crate of crates.txt, a file or a folder, perhaps with `python3` before it

The forms themselves and a few words of the languages are in OWN_WORDS.

On the other pages names are shorter: a file without its folders, `File.name` without its crate, `Type::name`, or a text
that stands in the source just so. In a path CRATE, NAME and * stand for anything. A command of Python names a script and
words that stand in the source. What has no letter is a number or a sign; other notation that is no name is in NOTATION,
page by page. Left out are the line of the toolchain, which ./test compares, and CHANGELOG.md, docs/PORT.md,
docs/DESIGN-PASS.md and docs/LOOK-BACK.md, which have old names.
"""
import functools
import glob
import os
import re

from house import MADE, TOP, end_if_wrong, listed, read
from pages import texts

PAGE = "docs/PROMISES.md"
OWN_WORDS = {"CRATE.File.name", "CRATE::name", "CRATE/label.edit", "crates/CRATE/specs", "crates/CRATE/proofs", "must-fail", "requires",
             "pub"}
SOURCE = ["crates/*/specs/**/*.antt", "crates/*/proofs/**/*.antt", "crates/*/src/**/*.rt", "second/*.[ch]", "bench/*.[ch]", "tool/*.c", "include/*.h", "examples/**/*.[cr]*",
          "tests/*.py", "second/*.py", "test", "run", "esquirmell", "tool/*.[ht]*", "*/check", "bench/run", "crates.txt"]
NOTATION = {
    "README.md": {"small/day.bin: message 5, byte 9 (byte 168 of the file), 24: a start is not allowed here"},  # held by tests/commands.py
    "CONTRIBUTING.md": {"x.now", "x.old", "x.new", "# true: TEXT", "_lem", "proofs/F", "rt check --start F", "rt fmt", "rt tidy", "rt doc"},
    "second/README.md": {'LINK="-lpthread -ldl" second/check lib.a'},
    "docs/COMMAND.md": {"0 TRUE", "0 LEAF > 5", "0 AND 1 2", "0 OR 1 2", "0 NOT 1", "0 STEP 3 -> 1", "start 1", 'text "6"', "end 1",
                        "bytes 01 ff", r"\xHH", "STEP service -> 1", "start @day"},
    "docs/ARCHITECTURE.md": {"day_tally"},  # a crate of a later request
    "docs/DECISIONS.md": {"endian", "_lem"},  # a name that was not taken, and an ending
    "docs/HELP.md": {"{ .. }", "f x y", "f (g x) y", "x.now", "x.old", "x.new", "lent ..", "returned ..", "a ≡ b",
                     "A × B", "A → B", "A ↔ B", "A → ⊥", "(n : ℕ) → A", "x.field", "a ∷ s", "s ++ t", "get_or s i 0", "cpu="},
    "docs/RULES.md": {"OR 1 2",  # what follows is XPath
                      "//late", "//@day", "/service[call]", "/service[@day]/call/late", "/service/@day = 6", "/service[@day = 6]",
                      "not(/service/call)", "/service[not(call)]", "/service/call/late > 5 or not(/service/@day)",
                      "/service[@day = 6 and not(call/late > 5)]", "/service[.//late > 5]", "/service//late > 5",
                      "/service/call[late > 5 and late < 5]", "/service[call/late > 5 and call/late < 5]",
                      "not(/service/call/late > 5)", "not(//call/late > 5)", "/service/call/late > 5", "/service[@day=6 and call]",
                      "/service/call/late <= 5", "/service/call/late != 7",
                      "not(/service/call/late = 7)", "late != 7", "/service/call = 7"},
}


@functools.lru_cache(None)
def text(*patterns):
    paths = [p for pattern in patterns for p in sorted(glob.glob(os.path.join(TOP, pattern), recursive=True))]
    files = [p for p in paths if os.path.isfile(p) and not os.path.samefile(p, __file__)]
    return "\n".join(open(p, encoding="utf-8").read() for p in files)


@functools.lru_cache(None)
def declared(form, pattern):
    """What some files declare, in lines of this form."""
    return set(re.findall(form, text(pattern), re.M))


def defined(crate, path, name):
    form = r"^\s*(?:unfoldable |abbrev |pub )*(?:data |record |ruleset )?(\S+)(?: |$)"
    places = ["crates/%s/%s/%s.antt" % (crate, folder, path.replace(".", "/")) for folder in ("specs", "proofs")]
    return any(name in declared(form, place) for place in places)


def function(crate, name):
    return name in declared(r"\b(?:fn|struct|enum) (\w+)", "crates/%s/src/*.rt" % crate)


def edit(crate, label):
    return os.path.exists(os.path.join(TOP, "crates", crate, "must-fail", label + ".edit"))


def is_path(path):
    """Whether it leads to a file or a folder; of what rt and the scripts make, below out and target, it is not asked."""
    shape = re.sub(r"\b(CRATE|NAME)\b", "*", path)
    made = MADE & set(path.split("/")[:-1])
    return bool(made) or ("/" in path or "." in path) and glob.glob(os.path.join(TOP, shape)) != []


def promised(name):
    """Whether a name in one of the three forms of the promises is in the tree; None if it is in none of them."""
    for pattern, there in (
        (r"([a-z0-9_]+)\.([A-Z]\w*(?:\.[A-Z]\w*)*)\.(\S+)", defined),
        (r"([a-z0-9_]+)::(?:[A-Z]\w*::)?(\w+)", function),
        (r"([a-z0-9_]+)/(\w+)\.edit", edit),
    ):
        found = re.fullmatch(pattern, name)
        if found:
            return there(*found.groups())
    return None


def in_promises(name, names):
    there = promised(name)
    if there is not None:
        return there
    called = {n.split("::")[-1] for n in names if "::" in n}
    return name in OWN_WORDS or name in listed() or name in called or is_path(re.sub(r"^python3 ", "", name))


def stands_in(source, name):
    """Whether a text has these words, with no letter and no hyphen right before or behind them."""
    at = source.find(name)
    while at >= 0:
        around = source[at - 1:at] + source[at + len(name):at + len(name) + 1]
        if not re.search(r"[\w\-]", around):
            return True
        at = source.find(name, at + 1)
    return False


def on_a_page(page, name, source):
    """Whether a name on another page is in the tree, in one of the shorter forms."""
    no_name = not re.search(r"[^\W\d_]", re.sub(r"\b0x[0-9a-f]+", "", name))
    if no_name or name in NOTATION.get(page, ()) or promised(name) or stands_in(source, name):
        return True
    if name.startswith("python3 "):
        return all(is_path(word) or stands_in(source, word) for word in name.split(" ")[1:])
    near = ["", os.path.dirname(page), "crates", "crates/*", "crates/*/specs", "crates/*/proofs"]
    if any(is_path(os.path.join(place, name)) for place in near) or is_path("crates/*/must-fail/%s.edit" % name):
        return True
    found = re.fullmatch(r"((?:[A-Z]\w*\.)+)(\S+)", name)
    if found:
        return defined("*", found.group(1).rstrip("."), found.group(2))
    return re.fullmatch(r"[A-Z]\w*::\w+", name) is not None and function("*", name.split("::")[1])


def names_of(page):
    body = re.sub(r"^Toolchain: .*$", "", re.sub(r"```.*?```", "", read(page), flags=re.S), flags=re.M)
    return re.findall(r"`([^`\n]+)`", body), [line for line in body.split("\n") if line.count("`") % 2]


def unknown_names():
    source = text(*SOURCE)
    for page in texts():
        names, broken = names_of(page)
        yield from ("%s: a backtick without its other: %s" % (page, line) for line in broken)
        for name in sorted(set(names)):
            if not (in_promises(name, names) if page == PAGE else on_a_page(page, name, source)):
                yield "%s: `%s` is nowhere in the tree" % (page, name)


def main():
    wrong = list(unknown_names())
    end_if_wrong("promises", wrong)
    count = len(set(names_of(PAGE)[0]))
    print("promises: %d names on %s, and those of the other pages, are in the tree" % (count, PAGE))


if __name__ == "__main__":
    main()
