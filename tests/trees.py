"""Copies of crates in a folder of their own, to check a changed text on: for the tests that put a text into a crate and run `rt check`."""
import os
import shutil
import subprocess
import tempfile

from house import TOP


def lines():
    """The lines of crates.txt by the name that each is for; a name may have words behind it, as `exported staticlib`."""
    with open(os.path.join(TOP, "crates.txt"), encoding="utf-8") as f:
        found = [line for line in f.read().split("\n") if line and not line.startswith("#")]
    return {line.split(":")[0].split()[0]: line for line in found}


def below(*crates):
    """The crates that these build on, themselves included; those of the toolchain are left out."""
    known, reached, todo = lines(), set(), list(crates)
    while todo:
        name = todo.pop()
        if name in known and name not in reached:
            reached.add(name)
            todo += known[name].partition(":")[2].split()
    return reached


def copied(crates, room):
    """A folder below `room` with these crates and those that they build on, with what earlier checks kept, and without their edits."""
    tree, names = tempfile.mkdtemp(dir=room), below(*crates)
    with open(os.path.join(tree, "crates.txt"), "w", encoding="utf-8") as f:
        f.write("".join(line + "\n" for name, line in lines().items() if name in names))
    for name in names:
        shutil.copytree(os.path.join(TOP, "crates", name), os.path.join(tree, "crates", name), symlinks=True,
                        ignore=shutil.ignore_patterns("must-fail"))
    return tree


def check(tree, crate):
    """How `rt check` of a crate of such a folder ends, and all that it says; a path in it begins at the crate's folder."""
    done = subprocess.run(["rt", "check"], cwd=os.path.join(tree, "crates", crate), stdin=subprocess.DEVNULL, stdout=subprocess.PIPE,
                          stderr=subprocess.STDOUT, text=True, errors="replace")
    return done.returncode, done.stdout
