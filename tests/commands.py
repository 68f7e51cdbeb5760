#!/usr/bin/env python3
"""Checks the commands that the pages show in blocks: each is run here, or by ./test, or has a reason why not.

Here they are run as they are printed, in a folder of their own with a copy of what they need, page by page and in their order. The
lines below a command that stands after `$ ` are what it must print. `commands.py -v` says which are not run, and why.
"""
import os
import re
import shutil
import subprocess
import sys
import tempfile

from house import TOP, end_if_wrong, read
from library import Run
from pages import PAGES, page
from quotes import differ, printed_lines
from small_day import SMALL_BOOK, SMALL_DAY

COMMAND = re.compile(r"(?:\$ )?(?:\./|\(cd |rt |man |gcc |rustc |python3 |printf |cmp |bench/|second/|tests/|compare |store )")
NEEDED = ["esquirmell", "run", "VERSION", "crates.txt", "tool", "include", "examples", "small", "docs"]
PROVER = "it takes the prover, and is for one who changes a crate; ./test does the same for all crates by rt ci"
ARCHIVE = "crates/exported/out/libexported.a"
SAYS = re.compile(r"On standard error it says each refusal in words: `(.*?)`")


def ran(room, command):
    """Status, standard output and standard error of a line of a page, as a shell runs it."""
    ended = subprocess.run(["bash", "-c", command], cwd=room, capture_output=True, text=True)
    return ended.returncode, ended.stdout, ended.stderr


def lines(slots):
    return "\n".join(printed_lines(Run(SMALL_BOOK, SMALL_DAY, 17 * slots))) + "\n"


def works(room, command):
    status, _, err = ran(room, command)
    if status != 0:
        yield "it ended with %d: %s" % (status, err)


def prints(slots):
    """It prints the small day's lines with so many slots."""
    def check(room, command):
        status, out, err = ran(room, command)
        if (status, out) != (0, lines(slots)):
            yield "it ended with %d and does not print the small day's lines: %s%s" % (status, out, err)
    return check


def says(slots):
    """It says the small day's refusal in README.md's words, too."""
    def check(room, command):
        yield from prints(slots)(room, command)
        refusal, said = SAYS.search(page("README.md").text).group(1), ran(room, command)[2]
        if said != refusal + "\n":
            yield "on standard error it says '%s', and the page '%s'" % (said.rstrip("\n"), refusal)
    return check


def gives(output):
    """It prints what stands below it on the page: standard output, standard error, and the status if that is not 0."""
    def check(room, command):
        status, out, err = ran(room, command)
        there = (out + err).rstrip("\n").split("\n") + ["(exit status %d)" % status] * (status != 0)
        yield from differ("below it", output, there)
    return check


def where(tool, check):
    """Where a tool is there that a machine need not have."""
    def perhaps(room, command):
        if shutil.which(tool):
            yield from check(room, command)
        else:
            print("commands: %s is not here, so '%s' was not run" % (tool, command))
    return perhaps


def example(room, command):
    """A compiler's line with the small example for a program of the reader's own."""
    shutil.copy(os.path.join(TOP, "examples/small.c"), os.path.join(room, "program.c"))
    yield from works(room, command)


def in_gate(words):
    def check(room, command):
        if words not in read("test"):
            yield "./test does not run it"
    return check


# What becomes of a command that is not simply run: a function that runs it and looks, the words of ./test that do, or the reason why not.
# On README.md and below docs each command is run as it is printed, but for ./test and bench/run.
COMMANDS = {
    "README.md": {
        "./run": says(64),
        "./run small/book.bin small/day.bin 5": says(5),
        "./test": "it is what runs this",
        "(cd crates/exported && rt lib)": in_gate("(cd crates/exported && rt lib)"),
        "./small_day small/book.bin small/day.bin": prints(64),
        "rustc --edition 2021 -O examples/rust/small.rs -C link-arg=crates/exported/out/libexported.a -o small_rust": where("rustc", works),
        "./small_rust small/book.bin small/day.bin": where("rustc", prints(64)),
    },
    "include/esquirmell.h": {
        "(cd crates/exported && rt lib)": in_gate("(cd crates/exported && rt lib)"),
        "gcc -Iinclude program.c crates/exported/out/libexported.a -o program": example,
    },
    "CONTRIBUTING.md": {
        "rt check": PROVER,
        "rt check --allow-holes": PROVER,
        "rt tidy": PROVER,
        "rt ci CRATE": PROVER,
        "rt must-fail CRATE": PROVER,
        "./test": "it is what runs this",
    },
    "second/README.md": {
        "second/check LIBRARY [SEED]": in_gate("second/check "),
        "second/check self [SEED]": "tests/faults/comparison.txt runs it, with `stored` and with `quick` for SEED",
        "python3 second/faults.py": in_gate("python3 second/faults.py"),
        "compare [SEED] [half | quick] [table]": "second/check runs it",
        "store check FOLDER SMALL": "second/check runs it",
        "store write FOLDER": "second/check runs it",
    },
    "docs/COMMAND.md": {
        "man -l docs/esquirmell.1": where("man", works),
    },
    "docs/PERFORMANCE.md": {
        "bench/run": "it times for a minute; ./test compiles it, and takes its counts by bench/run --counts",
        "bench/run 7": "as bench/run",
    },
}


def in_blocks(name):
    """The lines of a page's blocks: of fences, set in by four blanks, and of a comment in C; None where a block ends."""
    fenced = False
    for line in page(name).lines:
        fenced = fenced != line.startswith("```")
        inside = line if fenced else re.sub(r"^(?: \* {5}| {4})(?=\S)", "\0", line)
        if line.startswith("```") or not (fenced or inside.startswith("\0")):
            yield None
        else:
            yield inside.lstrip("\0").rstrip()


def shown(name):
    """The commands of a page, each with the lines that stand below it as its output, or None: only one after `$ ` has any."""
    found, output = [], None
    for line in in_blocks(name):
        if line is not None and COMMAND.match(line):
            output = [] if line.startswith("$ ") else None
            found.append((line[2:] if line.startswith("$ ") else re.split(r"\s{2,}|\s+#", line)[0], output))
        elif line is None:
            output = None
        elif output is not None:
            output.append(line)
    return found


def as_printed(name):
    return name == "README.md" or name.startswith("docs/")


def wrong_on(room, name):
    """The commands of one page, in their order."""
    for command, output in shown(name):
        usual = gives(output) if output is not None else works if as_printed(name) else None
        how = COMMANDS.get(name, {}).get(command, usual)
        if how is None:
            yield "'%s' is not in the list of tests/commands.py" % command
        elif callable(how):
            yield from ("'%s': %s" % (command, what) for what in how(room, command))
        elif as_printed(name) and not re.match(r"\./test$|bench/run", command):
            yield "'%s' is not run, and each command of this page must be" % command


def wrong(room):
    for name in PAGES:
        there = [command for command, _ in shown(name)]
        for command in [command for command in COMMANDS.get(name, {}) if command not in there]:
            yield "%s: '%s' is in the list of tests/commands.py, and not on the page" % (name, command)
        yield from ("%s: %s" % (name, what) for what in wrong_on(room, name))


def prepared(room):
    """A copy of what the commands need, with the library, and the command built."""
    for name in NEEDED:
        copy = shutil.copytree if os.path.isdir(os.path.join(TOP, name)) else shutil.copy2
        copy(os.path.join(TOP, name), os.path.join(room, name))
    os.makedirs(os.path.join(room, os.path.dirname(ARCHIVE)))
    shutil.copy(os.path.join(TOP, ARCHIVE), os.path.join(room, ARCHIVE))
    ran(room, "./run")


def main():
    with tempfile.TemporaryDirectory() as room:
        prepared(room)
        faults = list(wrong(room))
    end_if_wrong("commands", faults)
    every = [(name, command, COMMANDS.get(name, {}).get(command)) for name in PAGES for command, _ in shown(name)]
    for name, command, how in [row for row in every if "-v" in sys.argv[1:] and isinstance(row[2], str)]:
        print("commands: %s: '%s' is not run: %s" % (name, command, how))
    count = sum(not isinstance(how, str) for _, _, how in every)
    print("commands: %d on the pages, %d of them run here or by ./test" % (len(every), count))


if __name__ == "__main__":
    main()
