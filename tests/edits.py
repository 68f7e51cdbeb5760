#!/usr/bin/env python3
"""Checks that each must-fail edit does what it says; run after `rt ci`, which tries each and keeps what became of it.

edits.py [CRATE..]      every edit, or those of some crates
edits.py --try FOLDER   logs made up to show nothing: each must be called wrong

- Every line of an edit is applied, and its first line reads `# WRONG PROGRAM; refused at PLACE: FACT`.
- `rt must-fail` says that the edit is refused, and not by a limit or for a name that is gone. It tells the first error; PLACE is where
  that is: `File.name`, a law or an example of the crate, or a function and, between backticks, the goal of its proof. Where another
  place is refused before the one that the edit is meant for, the second line reads `# refused before at OTHER`.
- The first error, and that at PLACE, show a fact that is false: a goal that no proof was found for, or an equation whose two sides
  differ as far as they compute. It is no error of scope, type or layout, it is not in the declaration that the edit wrote into, and
  it is not that a proof has another shape than the code asks for.
- `rt must-fail` tells the beginning of the first error alone. Where that is not enough, and at each edit of a definition, the edit
  is put into a copy of its crate, and all that the prover says of it is read; it is kept in target/tried, by what it was said of.
- Each edit is cited in docs/PROMISES.md, which says how many there are; as many were refused. Each library has one.
"""
import concurrent.futures
import glob
import hashlib
import os
import re
import subprocess
import sys
import tempfile
import threading

import trees
from house import TOP, end_if_wrong

PAGE = "docs/PROMISES.md"
LOGS = os.path.join(TOP, "target/tried")
JOBS = 2
COUNT = re.compile(r"(\d+) wrong programs and definitions")
FIRST = re.compile(r"# (.+); refused at ([\w./-]+)(?: `([\w-]+)`)?: (.+)")
BEFORE = re.compile(r"# refused before at ([\w./-]+)(?: `([\w-]+)`)?")
TOLD = re.compile(r"^rt: must-fail (\w+/[\w.-]+)\.edit: (.*)$", re.M)
REFUSED = "refused, as it must be: "
# The prover's error at a place of a specification or a proof file, or at a function whose proof the toolchain makes by itself.
ERROR = re.compile(r"^(?:note: )?(?:\./)?((?:specs|proofs)/\S+)\.antt:(\d+):\d+: error: (?:`([^`\s]+)`: )?(.*)$"
                   r"|^note: (?:\./)?(src/\S+\.rt):(\d+):\d+: (it is not proved that .*?) \(`([\w-]+)`\)(?:;.*)?$", re.M)
NO_PROOF = re.compile(r"`(?:search|cc|omega|grind)`: (?:no proof|the goal)|it is not proved that "
                      r"|must be a path whose two ends are equal, and .* is none", re.S)
TWO_SIDES = re.compile(r"the two (?:types|values) (?:first )?(?:differ|are)")
EQUATION = re.compile(r"but this has type `[^\n]*(?:≡|Path )")
NOT_SHOWN = "what the two types compute to is not shown"


def read(path):
    return open(os.path.join(TOP, path), encoding="utf-8", errors="replace").read()


def edits(crates=()):
    found = glob.glob(os.path.join(TOP, "crates/*/must-fail/*.edit"))
    names = sorted("%s/%s" % (p.split("/")[-3], os.path.basename(p)[: -len(".edit")]) for p in found)
    return [name for name in names if not crates or name.split("/")[0] in crates]


def lines_of(edit):
    return read("crates/%s/must-fail/%s.edit" % tuple(edit.split("/"))).rstrip("\n").split("\n")


def applied(edit):
    """`old:` and `new:` are a line each, in turn; what stands on any other line is passed over."""
    words = []
    for number, line in enumerate(lines_of(edit), 1):
        if not line.startswith(("# ", "file: ", "old: ", "new: ")):
            yield "%s.edit:%d: a line that is passed over" % (edit, number)
        words += [line[:4]] if line.startswith(("old: ", "new: ")) else []
    if not words or words != ["old:", "new:"] * (len(words) // 2):
        yield "%s.edit: `old:` and `new:` are not in turn" % edit


def is_definition(edit):
    return any(line.startswith("file: specs/") for line in lines_of(edit))


def changed(edit):
    """The files that an edit changes, each with its new text."""
    crate, texts, file, old = edit.split("/")[0], {}, None, None
    for line in lines_of(edit):
        if line.startswith("file: "):
            file = "crates/%s/%s" % (crate, line[len("file: "):])
            texts.setdefault(file, read(file))
        elif line.startswith("old: "):
            old = line[len("old: "):]
        elif line.startswith("new: "):
            texts[file] = texts[file].replace(old, line[len("new: "):])
    return texts


# ── what the toolchain said ──
def told(crates):
    """What `rt must-fail` says of each edit of some crates, or of all, beginning with what became of it."""
    done = subprocess.run(["rt", "must-fail", *crates], cwd=TOP, stdin=subprocess.DEVNULL, stdout=subprocess.PIPE, stderr=subprocess.STDOUT,
                          text=True, errors="replace")
    return dict(TOLD.findall(done.stdout))


def log_of(edit):
    """Where all that is said of an edit is kept: by the toolchain, the crate with those below it, and what the edit makes of its files."""
    crate, whole = edit.split("/")[0], hashlib.sha256()
    whole.update(subprocess.run(["rt", "version"], capture_output=True).stdout)
    for name in sorted(trees.below(crate)):
        for part in ("src", "specs", "proofs"):
            for path in sorted(glob.glob(os.path.join(TOP, "crates", name, part, "**", "*.*t*"), recursive=True)):
                whole.update(("%s\n%s\n" % (os.path.relpath(path, TOP), read(path))).encode())
    whole.update(repr(sorted(changed(edit).items())).encode())
    return os.path.join(LOGS, crate, "%s.%s.log" % (edit.split("/")[1], whole.hexdigest()[:16]))


def try_in(tree, edit):
    """All that a check says of the crate with an edit, in a copy of it that is set right afterwards."""
    texts = changed(edit)
    for file, text in texts.items():
        with open(os.path.join(tree, file), "w", encoding="utf-8") as f:
            f.write(text)
    _, said = trees.check(tree, edit.split("/")[0])
    for file in texts:
        with open(os.path.join(tree, file), "w", encoding="utf-8") as f:
            f.write(read(file))
    return said


def logs(names):
    """All that is said of each of these edits."""
    found, here = {edit: log_of(edit) for edit in names}, threading.local()
    lacking = [edit for edit in names if not os.path.exists(found[edit])]

    def make(edit):
        if not hasattr(here, "tree"):
            here.tree = trees.copied({edit.split("/")[0] for edit in lacking}, room)
        said = try_in(here.tree, edit)
        os.makedirs(os.path.dirname(found[edit]), exist_ok=True)
        with tempfile.NamedTemporaryFile("w", encoding="utf-8", dir=os.path.dirname(found[edit]), delete=False) as f:
            f.write(said)
        os.replace(f.name, found[edit])

    with tempfile.TemporaryDirectory() as room, concurrent.futures.ThreadPoolExecutor(JOBS) as pool:
        list(pool.map(make, lacking))
    return {edit: read(path) for edit, path in found.items()}


# ── where the errors are, and what they show ──
def in_proof(crate, file, line, name):
    """The function of a proof file, and the goal at a line: the answer's name, or in a proof by hand the label behind it."""
    function = file.split("/")[-2]
    if name != function + "_spec":
        return function, name
    below = "\n".join(read("crates/%s/%s.antt" % (crate, file)).split("\n")[line - 1:])
    label = re.search(r"  -- ([\w-]+)$", below, re.M)
    return function, label.group(1) if label else name


def in_source(crate, file, line, goal):
    """A goal told at a line of the code: of the function that holds it, or whose attribute it is."""
    lines = read("crates/%s/%s" % (crate, file)).split("\n")
    while lines[line - 1].lstrip().startswith("#["):
        line += 1
    return re.findall(r"\bfn (\w+)", "\n".join(lines[:line]))[-1], goal


def is_function(crate, file):
    """Whether a proof file is that of a function: it stands in a folder with the name of one."""
    parts = file.split("/")
    if parts[-1] not in ("Answers", "Invariants", "Proof"):
        return False
    sources = glob.glob(os.path.join(TOP, "crates", crate, "src", "**", "*.rt"), recursive=True)
    return any(re.search(r"\bfn %s\b" % re.escape(parts[-2]), read(path)) for path in sources)


def errors(crate, log):
    """The errors of a log: the place of each, its file and line if it is not in a function's proof, and what is said of it."""
    for found in ERROR.finditer(log):
        file, line, name, _, source, at, _, goal = found.groups()
        said = re.match(r"[^\n]*\n(?:  [^\n]*\n|note: what antt said[^\n]*\n)*", log[found.start():] + "\n").group(0)
        if source:
            yield in_source(crate, source, int(at), goal), None, said
        elif is_function(crate, file):
            yield in_proof(crate, file, int(line), name), None, said
        else:
            yield ("%s.%s" % (file.split("/", 1)[1].replace("/", "."), name), None), (file + ".antt", int(line)), said


def shown(place):
    return place[0] + (" `%s`" % place[1] if place[1] else "")


def written(edit):
    """The declarations that an edit writes into: the file, and the lines between two empty ones."""
    file = None
    for line in lines_of(edit):
        if line.startswith("file: "):
            file = line[len("file: "):]
        elif line.startswith("old: "):
            text = "\n\n%s\n\n" % read("crates/%s/%s" % (edit.split("/")[0], file))
            at = text.find(line[len("old: "):])
            first, last = (text.count("\n", 0, end) for end in (text.rfind("\n\n", 0, at) + 1, text.find("\n\n", at)))
            yield file, first, last - 1


def shows_nothing(edit, at, said):
    if at is None:
        if not NO_PROOF.search(said) and not TWO_SIDES.search(said):
            yield "shows no fact that is false"
        return
    if NOT_SHOWN in said:
        yield "does not show what its two sides compute to"
    elif not TWO_SIDES.search(said) or not EQUATION.search(said):
        yield "shows no equation that is false"
    if any(file == at[0] and first <= at[1] <= last for file, first, last in written(edit)):
        yield "is in the declaration that it wrote into"


def refused_there(edit, log, whole=None):
    """What is amiss with the errors of a log, of which `whole` may have more than its beginning."""
    crate, lines = edit.split("/")[0], lines_of(edit)
    first, before = FIRST.fullmatch(lines[0]), BEFORE.fullmatch(lines[1])
    if not first:
        yield "%s.edit: its first line is not `# WRONG PROGRAM; refused at PLACE: FACT`" % edit
        return
    known = list(errors(crate, log)) or list(errors(crate, whole or ""))
    if not known:
        yield "%s: no error of the prover in its log" % edit
        return
    place, wanted = known[0][0], first.groups()[1:3]
    if place != (before.groups() if before else wanted):
        yield "%s: refused at %s, and its first line says %s" % (edit, shown(place), shown(before.groups() if before else wanted))
    found = list(errors(crate, whole or log))
    for at_place in [place] + [wanted] * (wanted != place and bool(before)):
        there = [error for error in found if error[0] == at_place]
        if not there:
            yield "%s: no error is at %s" % (edit, shown(at_place))
        for words in shows_nothing(edit, *there[0][1:]) if there else []:
            yield "%s: its error at %s %s: %s" % (edit, shown(at_place), words, there[0][2][:300].replace("\n", " "))


def counted(names):
    page = read(PAGE)
    for edit in names:
        if "`%s.edit`" % edit not in page:
            yield "%s.edit: %s does not cite it" % (edit, PAGE)
    said = COUNT.search(page)
    if not said or int(said.group(1)) != len(names):
        yield "%s says %s, and there are %d edits" % (PAGE, said.group(0) if said else "no count", len(names))


def without(names):
    libraries = [path.split("/")[-3] for path in glob.glob(os.path.join(TOP, "crates/*/src/lib.rt"))]
    for crate in sorted(set(libraries) - {edit.split("/")[0] for edit in names}):
        yield "%s: a library with no edit" % crate


def refused(names, crates):
    said = told(crates)
    there = {edit: said[edit][len(REFUSED):] for edit in names if said.get(edit, "").startswith(REFUSED)}
    whole = logs([edit for edit, error in there.items() if is_definition(edit) or any(refused_there(edit, error))])
    for edit in names:
        if edit not in there:
            yield "%s: it was not tried and refused: %s" % (edit, said.get(edit, "nothing is said of it"))
        else:
            yield from refused_there(edit, there[edit], whole.get(edit))


def tried(logs):
    """A made-up log has two lines before it: the edit that it is tried as, and words that a fault of it must hold."""
    for path in logs:
        edit, words, log = read(path).split("\n", 2)
        said = list(refused_there(edit[len("edit: "):], log))
        if not any(words[len("says: "):] in line for line in said):
            yield "%s is not called wrong, '%s'; said of it: %s" % (os.path.basename(path), words[len("says: "):], said)


def try_logs(folder):
    logs = sorted(glob.glob(os.path.join(folder, "*.log")))
    wrong = list(tried([os.path.abspath(path) for path in logs]))
    end_if_wrong("edits", wrong if logs else ["there is no made-up log"])
    print("edits: %d made-up logs, each called wrong" % len(logs))


def main():
    if sys.argv[1:2] == ["--try"]:
        return try_logs(sys.argv[2])
    crates = sys.argv[1:]
    names = edits(crates)
    wrong = [line for edit in names for line in applied(edit)]
    if not crates:
        wrong += list(counted(names)) + list(without(names))
    # what is wrong without a try is told without one
    end_if_wrong("edits", wrong if names else ["there is no edit"])
    end_if_wrong("edits", list(refused(names, crates)))
    print("edits: %d wrong programs and definitions, each refused at the fact that it names" % len(names))


if __name__ == "__main__":
    main()
