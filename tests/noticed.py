#!/usr/bin/env python3
"""Puts faults into copies of the tree, one at a time: the check that should notice must fail, and must say why.

noticed.py              every fault of tests/faults/*.txt
noticed.py WORD ..      those whose name holds one of the words
noticed.py --tree       those whose check reads the tree alone, and can run before anything is built
noticed.py --built      the others

A fault is a few lines, with an empty line behind it:

    fault: what is wrong with the tree
    check: a command, run in the copy's top folder; LIBRARY in it is the exported library
    file: a path
    old: a text that stands there once
    new: what stands there instead (several pairs may follow, and several files; \\n is a line's end)
    says: words that a line of what the check prints must hold

Instead of a pair, `add: text` adds a line at the end of the file, and makes the file if there is none; `gone: yes` takes the file away.
Each check must pass on the copy as it stands. `target` is a link to the tree's own, so a check may read what was said there, and must write
to it nothing that is true of a faulty tree alone. Of the folder `out` of a crate the copy has the files, which rt built, and not the folders
with what rt keeps for itself; with --tree it has none of them.
"""
import concurrent.futures
import glob
import os
import re
import shlex
import shutil
import subprocess
import sys
import tempfile
import threading

TOP = os.path.dirname(os.path.dirname(os.path.abspath(__file__)))
LIBRARY = "crates/exported/out/libexported.a"
LEFT_OUT = (".git", "target", "__pycache__")
READS_TARGET = re.compile(r"LIBRARY|bench/run|tests/(?:assumed|commands|edits|figures|quotes)\.py")
copies = threading.local()


def faults():
    """Each fault as a list of (word, text), in the order of its lines."""
    for path in sorted(glob.glob(os.path.join(TOP, "tests/faults/*.txt"))):
        for block in open(path, encoding="utf-8").read().split("\n\n"):
            lines = [line for line in block.split("\n") if line and not line.startswith("#")]
            if lines:
                yield [tuple(line.split(": ", 1)) for line in lines]


def only(fault, word):
    found = [text for name, text in fault if name == word]
    if len(found) != 1:
        sys.exit("noticed: a fault has %d lines '%s': %s" % (len(found), word, fault))
    return found[0]


def left_out(folder, names):
    """What a copy of the tree lacks."""
    kept = os.path.basename(folder) == "out"
    return [name for name in names if name in LEFT_OUT or kept and os.path.isdir(os.path.join(folder, name))
            or name == "out" and sys.argv[1:] == ["--tree"]]


def copy_of_tree():
    """A copy of the tree for this thread, made once and set right after each fault."""
    if not hasattr(copies, "path"):
        copies.path = os.path.join(tempfile.mkdtemp(dir=ROOM), "tree")
        shutil.copytree(TOP, copies.path, symlinks=True, ignore=left_out)
        os.symlink(os.path.join(TOP, "target"), os.path.join(copies.path, "target"))
    return copies.path


def read(path):
    if not os.path.exists(path):
        return None
    with open(path, encoding="utf-8", newline="") as f:
        return f.read()


def write(path, text):
    os.makedirs(os.path.dirname(path), exist_ok=True)
    with open(path, "w", encoding="utf-8", newline="") as f:
        f.write(text)


def put_in(tree, fault, before):
    """Edits the copy, and writes down what each file held before."""
    path, old = None, None
    for word, text in fault:
        if word == "file":
            path = os.path.join(tree, text)
            before.setdefault(path, read(path))
        elif word == "old":
            old = text.replace("\\n", "\n")
        elif word == "new":
            there = read(path)
            if there is None or there.count(old) != 1:
                raise ValueError("'%s' does not stand once in %s" % (old, path))
            write(path, there.replace(old, text.replace("\\n", "\n")))
        elif word == "add":
            write(path, (read(path) or "") + text.replace("\\n", "\n") + "\n")
        elif word == "gone":
            os.remove(path)


def set_right(before):
    for path, text in before.items():
        if text is None:
            if os.path.exists(path):
                os.remove(path)
        else:
            write(path, text)


def run(tree, command):
    words = [LIBRARY if word == "LIBRARY" else word for word in shlex.split(command)]
    done = subprocess.run(words, cwd=tree, capture_output=True, text=True, errors="replace", env={**os.environ, "OBJECTS": OBJECTS})
    return done.returncode, done.stdout + done.stderr


def passes(command):
    status, said = run(copy_of_tree(), command)
    return [] if status == 0 else ["noticed: %s fails with no fault put in:\n%s" % (command, said)]


def tried(fault):
    """What is wrong with the check's answer to this fault: nothing, if it noticed."""
    tree, name, before = copy_of_tree(), only(fault, "fault"), {}
    try:
        put_in(tree, fault, before)
        status, said = run(tree, only(fault, "check"))
    except ValueError as error:
        return ["noticed: %s: %s" % (name, error)]
    finally:
        set_right(before)
    if status == 0:
        return ["noticed: %s: %s passed" % (name, only(fault, "check"))]
    if not any(only(fault, "says") in line for line in said.split("\n")):
        return ["noticed: %s: no line says '%s':\n%s" % (name, only(fault, "says"), said)]
    return []


def is_chosen(fault):
    if sys.argv[1:] in (["--tree"], ["--built"]):
        return bool(READS_TARGET.search(only(fault, "check"))) == (sys.argv[1] == "--built")
    return not sys.argv[1:] or any(word in only(fault, "fault") for word in sys.argv[1:])


def main():
    chosen = [fault for fault in faults() if is_chosen(fault)]
    checks = sorted({only(f, "check") for f in chosen})
    with concurrent.futures.ThreadPoolExecutor(os.cpu_count()) as pool:
        wrong = sum(list(pool.map(passes, checks)) + list(pool.map(tried, chosen)), [])
    for line in wrong:
        print(line)
    if wrong or not chosen:
        sys.exit("noticed: %d of %d faults or checks are not as they should be" % (len(wrong), len(chosen)))
    print("noticed: %d faults, each noticed by its check (%d checks)" % (len(chosen), len(checks)))


if __name__ == "__main__":
    with tempfile.TemporaryDirectory() as ROOM:
        OBJECTS = os.path.join(ROOM, "objects")  # where tool/check leaves what a fault does not change
        os.mkdir(OBJECTS)
        main()
