#!/usr/bin/env python3
"""Checks that no library rests on an assumption, and that a program rests on those of the kit's C functions alone.

assumed.py [FOLDER]     reads what `rt ci` said, and `rt lib` in crates/exported, in target/ci.log and target/library.log; what the files of
                        FOLDER say of a crate stands in for that

Each form of an assumption was tried on a crate, and this is what the toolchain does with it:

    `axiom f : A`; what rests on `lem` or `ac` of Prim.Axiom; a hole      `logic=not-proved`
    a function without a body, `#[trusted]`, `assume!`                    no such form
    `extern "C" { .. }` of the crate's own                                refused
    a C function of the kit's libc or os, called in a library             proved, and its last line does not say so: the lines `statements`
                                                                          then say that modules of libc or os were loaded
    C functions that std reaches, by a handle, in a library               proved, for whatever handle is passed: its code names std or the handle
    the same in a program or a static library                             proved: lines `axioms NAME: ..`, and `axioms=`
    an earlier run's results, as `rt check` and `rt lib` take them        proved: `incremental=trusted`

So a library shows its C functions only by what it names. That is asked of crates.txt and of the files: a library names the tree's own
crates and nothing else, but for std's `Model` and `Range`, each by a line of its own. And it is asked of the prover's list of what it
loaded: of libc and os no module, of the tree the crates that are reached, and no other. The static library, which every engine crate is
part of, is said by the prover to reach no C function. In what the prover said no other line, and no other word, may stand; where nothing is
kept, `rt lib` asks it first for nothing, and it says `only=0 proved=0`. A crate that `rt ci` proved in an earlier run, from the same files,
has a line that says so in place of all these; the static library has its own lines always, since `rt lib` says them anew.
"""
import glob
import os
import re
import sys

from house import TOP, end_if_wrong, listed, named, read, under

LOGS = ["target/ci.log", "target/library.log"]
STATIC = "exported"  # the library that other languages link
HANDLES = ["HostRuntime", "Alloc", "AllocGlobal", "Global", "Files", "Input", "Print"]
OWN_PATHS = {"crate", "self", "super", "bool", "char", "u8", "u16", "u32", "u64", "u128", "usize", "i8", "i16", "i32", "i64", "i128", "isize"}
PLAIN_OF_STD = re.compile(r"^use std::(?:marker::Model|ops::Range);$")  # what a struct is to clauses, and two numbers
C_CODE = {"libc", "os"}
KIT = {"core", "io", "libc", "os", "std", "std_alloc", "std_collections", "std_heap", "std_io"}
PROVED = re.compile(r"(?:fn|impl|struct|enum) (\S+): (.*)")
CLOSURE = re.compile(r"\w+::fn::\S+")  # it is asked what its callers are proved to give
OF_CLOSURE = "proved where its callers give what it asks"
LOADED = re.compile(r"(statements|library) (\w+): modules loaded=(\d+) checked=\d+")
OWN = re.compile(r"crate (\w+): modules loaded=\d+ checked=\d+")
AXIOMS = re.compile(r"axioms (\w+): (.*) ?(?:of the|\(\d+ of the) \d+ declared\)?")
KEPT = re.compile(r"rt: (\w+) is kept: an earlier run on this machine proved the same files over the same libraries")
PASSED_OVER = re.compile(r"(?:\S+:\d+:\d+: )?note: |logic /|linked target=|only=0 proved=0$|rt: |checked \S+, \d+ of \d+|empty contracts: 0 found; |warning: \d")
WORDS = [r"logic=proved", r"functions=\d+", r"sum=[0-9a-f]+", r"native=nat,char,string", r"logic-built=trusted",
         r"libraries-built=trusted", r"statements=trusted"]
LINKED = [r"target=x86_64-unknown-linux-gnu", r"cpu=x86-64-v\d"]
ASSUMED = [r"axioms=\d+"]
KEPT_WORK = [r"incremental=trusted"]  # of `rt lib`, which links over what an earlier check kept; `rt ci` proves from nothing


def is_library(crate):
    return os.path.exists(os.path.join(TOP, "crates", crate, "src", "lib.rt"))


def reached(crate, leads):
    """The crates that a crate reaches, each with the way to it."""
    ways, todo = {}, [(crate, [crate])]
    while todo:
        here, way = todo.pop(0)
        for name in sorted(leads.get(here, [])):
            if name not in ways:
                ways[name] = way + [name]
                todo.append((name, ways[name]))
    return ways


def blocks(path):
    """What a log says of each crate, up to its last line: the crate, whether `rt ci` said it, and the lines."""
    crate, by_ci, lines = None, False, []
    for line in open(path, encoding="utf-8", errors="replace").read().split("\n"):
        head, own = re.fullmatch(r"== (\w+)", line), OWN.fullmatch(line)
        if head:
            crate, by_ci, lines = head.group(1), True, []
        elif own:
            crate = own.group(1)
        elif line:
            lines.append(line)
        if line.startswith("logic="):
            yield crate, by_ci, lines
            crate, by_ci, lines = None, False, []


def said(logs):
    """What the logs say: blocks of lines, crate by crate, and the crates that an earlier run proved."""
    found, kept = {}, set()
    for path in filter(os.path.isfile, logs):
        for crate, by_ci, lines in blocks(path):
            found.setdefault(crate, []).append((by_ci, lines))
        kept |= {match.group(1) for match in map(KEPT.match, open(path, encoding="utf-8", errors="replace")) if match}
    return found, kept


def words_amiss(crate, line, by_ci):
    """What the last line says beyond 'proved, from the logic and the libraries as they were built'."""
    library = is_library(crate)
    allowed = WORDS + (LINKED if not library or crate == STATIC else []) + ([] if library else ASSUMED) + ([] if by_ci else KEPT_WORK)
    words = line.split(" ")
    for word in words:
        if not any(re.fullmatch(form, word) for form in allowed):
            yield "%s: its last line has '%s'" % (crate, word)
    if "logic=proved" not in words:
        yield "%s: its last line does not say logic=proved" % crate


def lines_amiss(crate, lines):
    for line in lines[:-1]:
        proved, axioms = PROVED.fullmatch(line), AXIOMS.fullmatch(line)
        if proved:
            if proved.group(2) != "proved" and not (CLOSURE.fullmatch(proved.group(1)) and proved.group(2) == OF_CLOSURE):
                yield "%s: %s is %s" % (crate, proved.group(1), proved.group(2))
        elif axioms:
            if axioms.group(2).strip() != "none reached" and (is_library(crate) or axioms.group(1) not in C_CODE):
                yield "%s: it assumes what %s declares: %s" % (crate, *axioms.groups())
        elif not LOADED.fullmatch(line) and not PASSED_OVER.match(line):
            yield "%s: the prover said '%s'" % (crate, line[:100])


def loaded_amiss(crate, lines, ways, crates):
    """Whether the prover loaded C code for a library, or other crates than the crate reaches; a program may use what the kit has, too."""
    loaded = {match.group(2): int(match.group(3)) for match in map(LOADED.fullmatch, lines) if match}
    for name in sorted(C_CODE) if is_library(crate) else []:
        if loaded.get(name):
            yield "%s, a library: the prover loaded %d modules of %s" % (crate, loaded[name], name)
    for name in sorted(set(loaded) - KIT - set(ways)):
        if is_library(crate) or name in crates:
            yield "%s: the prover was handed %s, which it does not reach" % (crate, name)
    for name in sorted(set(ways) & set(crates) - set(loaded)):
        yield "%s: the prover was not handed %s" % (crate, name)


def named_amiss(crate, ways, crates):
    """What a library reaches outside of the tree: by a crate that it lists or names, or in code by std or a handle."""
    for name in sorted(set(ways) - set(crates)):
        yield "%s, a library, reaches %s: %s" % (crate, name, ", ".join(ways[name]))
    for path in under("crates/%s/src" % crate, ".rt"):
        code = re.sub(r"//.*|^ghost use [^;]*;", lambda found: "\n" * found.group(0).count("\n"), read(path), flags=re.M)
        for number, line in enumerate(code.split("\n"), 1):
            if PLAIN_OF_STD.match(line):
                continue
            paths = re.findall(r"(?<![\w:])([a-z]\w*)::", line)
            for word in [word for word in paths if word not in OWN_PATHS | set(crates)] + re.findall(r"\b(?:%s)\b" % "|".join(HANDLES), line):
                yield "%s, a library, names %s: %s:%d" % (crate, word, path, number)


def amiss(crate, leads, found, kept):
    ways = reached(crate, leads)
    if is_library(crate):
        yield from named_amiss(crate, ways, listed())
    if crate not in found and (crate not in kept or crate == STATIC):
        yield "%s: no log has a verdict on it" % crate
    for by_ci, lines in found.get(crate, []):
        yield from lines_amiss(crate, lines)
        yield from words_amiss(crate, lines[-1], by_ci)
        yield from loaded_amiss(crate, lines, ways, listed())
    if crate == STATIC and not any("target=" in lines[-1] for _, lines in found.get(crate, [])):
        yield "%s: no last line is of the static library; rt lib, in crates/%s, makes it" % (crate, crate)


def main():
    if len(sys.argv) > 2:
        sys.exit(__doc__)
    crates = listed()
    leads = {crate: set(words) | named(crate, crates) for crate, words in crates.items()}
    found, kept = said(os.path.join(TOP, path) for path in LOGS)
    if sys.argv[1:]:
        found.update(said(sorted(glob.glob(os.path.join(TOP, sys.argv[1], "*"))))[0])
    wrong = [line for crate in crates for line in amiss(crate, leads, found, kept)]
    libraries = sum(map(is_library, crates))
    end_if_wrong("assumed", wrong if libraries else ["no library is listed"])
    programs = len(crates) - libraries
    print("assumed: %d libraries rest on no assumption, %d programs on C functions of the kit" % (libraries, programs))


if __name__ == "__main__":
    main()
