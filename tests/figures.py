#!/usr/bin/env python3
"""Checks the figures of the pages: each must be what the tree, or the library, gives.

figures.py               the words of tests/figures.txt, each on its page
figures.py --bench       its words with the benchmark's counts, which bench/run --counts gives
figures.py --uncovered   all of these; prints each line of a page with a figure that neither they nor tests/quotes.py nor
                         tests/cookbook.py check

tests/figures.txt has words that a page must say. A figure stands there in braces, as an expression: {most_filters + 1} is
one more than the definition has. Names in it are the numbers of the definitions (an `abbrev` of a file directly in specs),
`crate.NAME` for a `const` of a crate, and what tests/values.py has. {..:word} and {..:Word} spell a figure out, {..:plain}
leaves out the commas, and {..:.1f} is Python's; what is no number stands as it is. Where a page breaks its lines does not
matter.
"""
import re
import sys

import cookbook
import quotes
from house import end_if_wrong, read
from pages import PAGES, page
from values import TIMES, bench_values, values

TABLE = "tests/figures.txt"
WORDS = ["no", "one", "two", "three", "four", "five", "six", "seven", "eight", "nine", "ten", "eleven", "twelve", "thirteen",
         "fourteen", "fifteen", "sixteen", "seventeen"]


def spelled(value, form):
    if form in ("word", "Word") and value < len(WORDS):
        return WORDS[value] if form == "word" else WORDS[value].capitalize()
    if form and form.startswith("."):
        return format(value, form)
    return "{:,}".format(value) if isinstance(value, int) and form != "plain" else str(value)


def filled(words, names):
    """The words with their figures, and where in them the figures stand."""
    whole, spans = "", []
    for k, part in enumerate(re.split(r"\{([^{}]*)\}", words)):
        if k % 2:
            expression, form = re.fullmatch(r"(.*?)(?::(word|Word|plain|\.\df))?", part).groups()
            part = spelled(eval(expression, {"__builtins__": {}}, names), form)
            spans.append((len(whole), len(whole) + len(part)))
        whole += part
    return whole, spans


def rows(bench):
    """The rows of the table, of the benchmark's counts or the others: page and words."""
    name, of_bench = None, False
    for line in read(TABLE).split("\n"):
        if line.startswith("== "):
            name, _, rest = line[3:].partition(", ")
            of_bench = rest == "bench"
        elif line and not line.startswith("# ") and of_bench == bench:
            yield name, line


def instead(name, words):
    """What the page says where the figures of these words should be."""
    parts = [re.escape(part) for part in re.split(r"\{[^{}]*\}", words)]
    found = re.search(r"(.{1,40}?)".join(parts), page(name).text)
    return "; it says '%s'" % found.group(0) if found else ""


def amiss(bench, names):
    for name, words in rows(bench):
        try:
            should, spans = filled(words, names)
        except (NameError, AttributeError, LookupError, TypeError) as error:
            yield "%s: no value for a figure of '%s': %s" % (TABLE, words, error)
            continue
        at = page(name).text.find(should)
        if at < 0:
            yield "%s: it does not say '%s'%s" % (name, should, instead(name, words))
        while at >= 0:
            page(name).spans += [(at + first, at + last) for first, last in spans]
            at = page(name).text.find(should, at + 1)


def runs_amiss(runs):
    """The last two columns of the table of times."""
    for row in page("docs/PERFORMANCE.md").table(TIMES):
        engine = re.fullmatch(r"proved, ([\d,]+) slots", row[2])
        if engine:
            run = runs[int(row[0]), int(engine.group(1).replace(",", ""))]
            should = ["{:,}".format(run.anew), "{:,}".format(run.filled)]
            if row[7:] != should:
                yield "docs/PERFORMANCE.md: %s, %s filters: it says %s, and it is %s" % (row[2], row[0], row[7:], should)


def main():
    how = sys.argv[1:]
    if how not in ([], ["--bench"], ["--uncovered"]):
        sys.exit(__doc__)
    names, wrong = values(), []
    if how != ["--bench"]:
        wrong += amiss(False, names)
    if how:
        names.update(bench_values())
        wrong += list(amiss(True, names)) + list(runs_amiss(names["runs"]))
    end_if_wrong("figures", wrong)
    if how != ["--uncovered"]:
        print("figures: %d lines of the table are words of their pages" % len(list(rows(how == ["--bench"]))))
        return
    quotes.wrong()
    cookbook.every()
    for name in PAGES:
        for number, figures, line in page(name).uncovered():
            print("%s:%d: [%s] %s" % (name, number, " ".join(figures), line))


if __name__ == "__main__":
    main()
