#!/usr/bin/env python3
"""Guards the public calls, as the table under "The public calls" of docs/PROMISES.md lists them.

Each call has no `requires`; its one `ensures` is its named promise, with no condition before it, over the result and every argument, of an
area that may be written both what it held and what it holds; the promise comes from rules/specs/Promise.antt. At least two must-fail
edits are its own: they stand in its crate and beside its name on the page, and beside no other call. A test runs it: a program whose
output is stored, or, from C, a program that the gate builds. What is marked `extern "C"` is in the table and in the header, and nothing
else. Every other `pub fn` is for sister crates, and its crate's first lines say so.
"""
import glob
import os
import re

from house import TOP, end_if_wrong, read

PAGE = "docs/PROMISES.md"
RUN_FROM_C = ["examples/calls.c", "second/case.c"]


def code_of(path):
    return re.sub(r"//.*", "", read(path))


def section(name):
    return read(PAGE).split("\n## " + name + "\n", 1)[1].split("\n## ", 1)[0]


def listed():
    """The calls of the table: (crate, function, promise)."""
    for row in re.findall(r"^\| `[^\n]*$", section("The public calls"), re.M):
        cells = [cell.strip(" `") for cell in row.strip("|").split("|")]
        promise = cells[2].split(".")[-1]
        for call in [cell for cell in cells[:2] if cell]:
            yield (*call.split("::"), promise)


def contract(crate, name):
    """The parameters of a public function, and the text between them and its body, which begins with a line of its own."""
    code = code_of("crates/%s/src/lib.rt" % crate)
    found = re.search(r"^pub (?:extern \"C\" )?fn %s\(" % name, code, re.M)
    if not found:
        return None, None
    parameters, _, words = code[found.end():].split("\n{\n", 1)[0].partition(")")
    return parameters, words


def words_of(parameters):
    """What a promise must speak of: the result and every argument; of an area that may be written, what it held and what it holds."""
    yield "result"
    for word, lent in re.findall(r"(\w+): (&mut )?", parameters):
        yield from [word + ".old", word + ".new"] if lent else [word]


def promised(crate, name, promise):
    call = "%s::%s" % (crate, name)
    parameters, words = contract(crate, name)
    if words is None:
        yield "%s: no such public function" % call
        return
    if "requires" in words:
        yield "%s: has a `requires`, and a public call refuses instead" % call
    if words.count("ensures") != 1:
        yield "%s: has %d `ensures`, and its promise is one" % (call, words.count("ensures"))
    says = re.search(r"ensures (?:\w+ )?\{\s*%s\b([^→↔×⊎{}]*)\}" % promise, words)
    if not says:
        yield "%s: its `ensures` is not its promise, %s, and that alone" % (call, promise)
        return
    for word in words_of(parameters):
        if not re.search(r"\b%s\b" % re.escape(word), says.group(1)):
            yield "%s: its promise does not speak of %s" % (call, word)
    from_page = re.findall(r"^ghost use Rattle\.rules\.specs\.Promise\.\{([^}]*)\}", read("crates/%s/src/lib.rt" % crate), re.M)
    if promise not in re.split(r",\s*", ",".join(from_page)):
        yield "%s: %s is not that of rules/specs/Promise.antt" % (call, promise)


def own_edits(calls):
    """Each call's edits, from the list under the table."""
    beside = {}
    for names, edits in re.findall(r"^- ((?:`\w+::\w+`(?:, )?)+):((?:\s+`[^`]+`,?)+)", section("The public calls"), re.M):
        for call in re.findall(r"`([^`]+)`", names):
            beside.setdefault(call, set()).update(re.findall(r"`([^`]+)\.edit`", edits))
    for crate, name, _ in calls:
        call = "%s::%s" % (crate, name)
        others = set().union(*[edits for other, edits in beside.items() if other != call])
        own = {edit for edit in beside.get(call, set()) - others if edit.startswith(crate + "/")}
        if len(own) < 2:
            yield "%s: has %d must-fail edits of its own in %s, and two are wanted" % (call, len(own), PAGE)


def run_by_a_test(calls):
    programs = [p for p in glob.glob(os.path.join(TOP, "crates/*/src/main.rt"))
                if os.path.exists(os.path.join(os.path.dirname(os.path.dirname(p)), "stdout"))]
    in_rattle = "\n".join(code_of(os.path.relpath(p, TOP)) for p in programs)
    in_c = "\n".join(code_of(p) for p in RUN_FROM_C)
    for crate, name, _ in calls:
        there = re.search(r"\b%s\(" % name, in_c) if crate == "exported" else re.search(r"\b%s::%s\(" % (crate, name), in_rattle)
        if not there:
            yield "%s::%s: no test runs it" % (crate, name)


def others(calls):
    """What else is public: for other languages nothing, for sister crates only where the crate's first lines say so."""
    known = {(crate, name) for crate, name, _ in calls}
    header = read("include/esquirmell.h")
    for path in sorted(glob.glob(os.path.join(TOP, "crates/*/src/lib.rt"))):
        crate = path.split("/")[-3]
        text = open(path, encoding="utf-8").read()
        head = re.sub(r"\n// ", " ", re.match(r"(?://.*\n)*", text).group(0))
        for foreign, name in re.findall(r"\bpub (extern \"C\" )?(?:const )?fn (\w+)", text):
            if (crate, name) in known:
                if foreign and not re.search(r"\b%s\(" % name, header):
                    yield "%s::%s: is not in the header" % (crate, name)
            elif foreign:
                yield "%s::%s: is exported, and %s does not list it" % (crate, name, PAGE)
            elif "`pub` is for sister crates" not in head:
                yield "%s::%s: is `pub`, and the crate's first lines do not say for whom" % (crate, name)
    for name in re.findall(r"^esq_\w+ (\w+)\(", header, re.M):
        if ("exported", name) not in known:
            yield "include/esquirmell.h: declares %s, which %s does not list" % (name, PAGE)


def main():
    calls = list(listed())
    wrong = [line for call in calls for line in promised(*call)]
    wrong += list(own_edits(calls)) + list(run_by_a_test(calls)) + list(others(calls))
    end_if_wrong("calls", wrong if calls else ["no public call is listed"])
    print("calls: %d public calls, each with its promise alone, two wrong programs of its own and a test" % len(calls))


if __name__ == "__main__":
    main()
