#!/usr/bin/env python3
"""Lists names that nothing uses and no page cites: definitions, laws, records, fields, constructors and rulesets of the
specifications, functions and constants of the code.

A specification is a file of specs, or a file of proofs that is no function's invariants and answers: laws stand in both. A name of a
specification is used where another file brings it in by a `use` line, or by its module's name and a dot, or code names it to a tactic by
its whole path; a field or a constructor also where its word stands in another file; and all of them where their word stands in their own
file outside the lines that define them. Proofs count. A function or a constant of the code is used where code outside its
own body calls or names it. An example of a file `Examples` and an exported call are used by nobody: a page must cite them.

A page cites a name between backticks: by itself, as `crate::name`, or as `crate.File.name`, perhaps without the crate.
CHANGELOG.md, docs/PORT.md, docs/DESIGN-PASS.md and docs/LOOK-BACK.md are left out: they have old names.
"""
import re
import sys

from house import read, under
from pages import texts

SIGNATURE = re.compile(r"(?:(?:abbrev|unfoldable|pub) )*(\S+) :(?: |$)")
HEAD = re.compile(r"(?:pub )?(record|data) (\S+)")
RULESET = re.compile(r"(?:pub )?ruleset (\S+) =")
NO_DECLARATION = re.compile(r"(use|pub mod|module|infix[lr]?) ")
WORD = re.compile(r"[^\s(){}\[\],;|]+")
USE = re.compile(r"^(?:ghost )?use Rattle\.(\w+)\.(?:specs|proofs)(?:\.([\w.]+?))?(?:\.\{([^}]*)\})?(?: as ([^\s;]+))?;?$", re.M)
TO_TACTIC = re.compile(r"\b(\w+)::(?:specs|proofs)::((?:\w+::)*)(\w+)")
SPEC = re.compile(r"crates/\w+/(?:specs/|proofs/(?!(?:.*/)?(?:Invariants|Answers|Proof)\.antt$).*\.antt$)")


def bare(text):
    """A text without its comments."""
    return re.sub(r"(^|\s)--.*", r"\1", text)


def words(text):
    """The words of a text; of `a.b` and `.b` also b."""
    found = set(WORD.findall(text))
    for word in [word for word in found if "." in word]:
        found.update(word.split("."))
    return found


class Spec:
    """A file of specifications: what it declares, each with its kind and the numbers of its lines."""

    def __init__(self, path):
        _, self.crate, _, rest = path.split("/", 3)
        self.path, self.module = path, rest[:-len(".antt")].replace("/", ".")
        self.lines = [bare(line).rstrip() for line in read(path).split("\n")]
        self.declared, self.places = {}, {}
        for number, line in enumerate(self.lines):
            for word in words(line):
                self.places.setdefault(word, set()).add(number)
        self.declare()

    def add(self, name, kind, number):
        self.declared.setdefault((name, kind), set()).add(number)
        return name, kind

    def declare(self):
        """Follows the layout: a declaration stands at its module's margin, and what belongs to it below or further in."""
        margins, owner, members, member = [0], None, None, None
        for number, line in [(number, line) for number, line in enumerate(self.lines) if line]:
            margin, text = len(line) - len(line.lstrip()), line.strip()
            while margin < margins[-1]:
                margins.pop()
            if margin == margins[-1]:
                owner, members, member = self.head(text, number, owner), HEAD.match(text), None
                if text.startswith("module "):
                    margins.append(margin + 2)
            elif members and margin == margins[-1] + 2 and " :" in text:
                kind = "field" if members.group(1) == "record" else "constructor"
                names = re.sub(r"^pub ", "", text).split(" :")[0].split()
                member = [self.add(name, kind, number) for name in names]
            if owner and margin > margins[-1]:
                for name in member or [owner]:
                    self.declared[name].add(number)

    def head(self, text, number, owner):
        """Whose lines begin here: those of a new declaration, or a clause or an `unfolding` of the one before."""
        for form, kind in ((HEAD, "record"), (RULESET, "ruleset")):
            if form.match(text):
                return self.add(form.match(text).groups()[-1], kind, number)
        if NO_DECLARATION.match(text):
            return None
        found = SIGNATURE.match(text)
        if found:
            return self.add(found.group(1), "law", number)
        if owner:
            self.declared[owner].add(number)
        return owner


def brought(text):
    """What a file brings in by `use` lines: (crate, module, name); and the names that it gives to modules."""
    names, modules = set(), {}
    for crate, module, items, alias in USE.findall(text):
        if not items:
            inside, _, last = module.rpartition(".")
            names.add((crate, inside, last))
            modules[alias or last] = (crate, module)
        for item in [item.strip().split(" as ")[0] for item in items.split(",") if item.strip()]:
            inside, _, last = (module + "." + item).strip(".").rpartition(".")
            names.add((crate, inside, last))
    return names, modules


def children(path, text):
    """The modules behind a file of specifications, which it may name without a `use` line."""
    found = re.match(r"crates/(\w+)/(?:specs|proofs)/(.*)\.antt$", path)
    if not found:
        return {}
    crate, inside = found.group(1), found.group(2).replace("/", ".") + "."
    inside = "" if inside == "Lib." else inside
    return {name: (crate, inside + name) for name in re.findall(r"^(?:pub )?mod (\w+)", text, re.M)}


class Tree:
    """All files of the crates, what each brings in and says, and what the pages cite."""

    def __init__(self):
        paths = under("crates", ".antt", ".rt")
        self.texts = {path: read(path) for path in paths}
        self.specs = [Spec(path) for path in paths if SPEC.match(path)]
        self.names, self.words = {}, {spec.path: set(spec.places) for spec in self.specs}
        for path, text in self.texts.items():
            self.look(path, bare(text) if path.endswith(".antt") else re.sub(r"//.*", "", text))
        self.cited = {name for page in texts() for name in re.findall(r"`([^`\n]+)`", read(page))}

    def look(self, path, text):
        names, modules = brought(text)
        modules.update(children(path, text))
        for crate, module, name in TO_TACTIC.findall(text) if path.endswith(".rt") else []:
            names.add((path.split("/")[1] if crate == "crate" else crate, module[:-2].replace("::", "."), name))
        if path not in self.words:
            self.words[path] = words(text)
        dotted = [word.split(".", 1) for word in self.words[path] if "." in word]
        for name in names | {modules[first] + (last,) for first, last in dotted if first in modules}:
            self.names.setdefault(name, set()).add(path)

    def used(self, spec, name, kind, lines):
        """Whether a name of a specification is used outside the lines that define it."""
        inside = "%s.%s" % (spec.module, name)
        if {name, inside, spec.crate + "." + inside} & self.cited:
            return True
        if self.names.get((spec.crate, spec.module, name), set()) - {spec.path} or spec.places.get(name, set()) - lines:
            return True
        others = (there for path, there in self.words.items() if path != spec.path)
        return kind in ("field", "constructor") and any(name in there for there in others)


def dead_in_specs(tree):
    for spec in tree.specs:
        for (name, kind), lines in spec.declared.items():
            if not tree.used(spec, name, kind, lines):
                yield spec.path, name


def converted(text, at, sources):
    """Whether the function at a place is that of an `impl From<..> for TYPE` or `TryFrom` whose type code calls it by."""
    impls = re.findall(r"^impl (?:Try)?From<.*> for (\w+) \{$", text[:at], re.M)
    name = re.match(r"(?:fn|const) (\w+)", text[at:]).group(1)
    return name in ("from", "try_from") and impls and any(re.search(r"\b%s::%s\(" % (impls[-1], name), there) for there in sources)


def called(crate, name, own, others):
    """Whether code calls or names it: in its crate by itself, elsewhere by the crate's name or as a method."""
    here = r"\b%s\(|\.%s\(" % (name, name) if name.islower() else r"\b%s\b" % name
    there = r"\b%s::(?:\w+::)?%s\b|\.%s\(" % (crate, name, name)
    return any(re.search(here, text) for text in own) or any(re.search(there, text) for text in others)


def dead_in_code(tree):
    sources = {path: re.sub(r"//.*", "", text) for path, text in tree.texts.items() if "/src/" in path}
    for path, text in sources.items():
        crate = path.split("/")[1]
        others = [there for other, there in sources.items() if other.split("/")[1] != crate]
        for found in re.finditer(r"\b(?:fn|const) (\w+)\b", text):
            name = found.group(1)
            if converted(text, found.start(), sources.values()):
                continue
            body = re.search(r"^( *)[^\n]*\b(?:fn|const) %s\b(?:[^\n]*;|.*?^\1\})$" % name, text, re.S | re.M)
            own = [there for other, there in sources.items() if other != path and other.split("/")[1] == crate]
            own.append(text[:body.start()] + text[body.end():])
            if name != "main" and "%s::%s" % (crate, name) not in tree.cited and not called(crate, name, own, others):
                yield path, name


def main():
    tree = Tree()
    dead = list(dead_in_specs(tree)) + list(dead_in_code(tree))
    for path, name in dead:
        print("dead: %s: %s is used by nothing, and no page cites it" % (path, name))
    if dead:
        sys.exit("dead: %d names" % len(dead))
    print("dead: none of the %d names of the specifications, and none of the code" % sum(len(s.declared) for s in tree.specs))


if __name__ == "__main__":
    main()
