"""The pages as texts: lines, fences, tables, and which of their figures are checked."""
import bisect
import glob
import os
import re

from house import TOP, read

PAGES = ["README.md", "CONTRIBUTING.md", "second/README.md", "include/esquirmell.h", "docs/ARCHITECTURE.md", "docs/COMMAND.md",
         "docs/DECISIONS.md", "docs/FORMATS.md", "docs/HELP.md", "docs/PERFORMANCE.md", "docs/PROMISES.md", "docs/RULES.md"]
FIGURE = re.compile(r"(?<![\w.,^])\d[\d,]*(?:\.\d+)?(?![\w^]|-bit)")
pages = {}


class Page:
    """A page's lines, and the same as one text with one blank between words, so that words may be broken anywhere."""

    def __init__(self, name):
        self.name, self.lines, self.text = name, read(name).split("\n"), ""
        self.starts = []  # where the words start in the text, each with the number of its line
        self.covered, self.spans = set(), []  # lines, and parts of the text, in which every figure is checked
        for number, line in enumerate(self.lines, 1):
            if name.endswith(".h"):
                line = re.sub(r"^\s*(/\*|\*/|\*)", "", line)
            for word in line.split():
                self.starts.append((len(self.text), number))
                self.text += word + " "

    def figures(self):
        """Every figure of the text, with its line."""
        for figure in FIGURE.finditer(self.text):
            at = bisect.bisect_right(self.starts, (figure.start(), len(self.lines)))
            yield figure, self.starts[at - 1][1]

    def cover_first(self, numbers):
        """Says that the first figure on each of these lines is checked."""
        left = set(numbers)
        for figure, line in self.figures():
            if line in left:
                self.spans.append(figure.span())
                left.remove(line)

    def uncovered(self):
        """The figures that are not checked, line by line."""
        found = {}
        for figure, line in self.figures():
            if line not in self.covered and not any(first <= figure.start() < last for first, last in self.spans):
                found.setdefault(line, []).append(figure.group(0).rstrip(","))
        return [(line, found[line], self.lines[line - 1].strip()) for line in sorted(found)]

    def after(self, words):
        """The number of the first line with these words."""
        for number, line in enumerate(self.lines, 1):
            if words in line:
                return number
        raise LookupError("%s: no line says '%s'" % (self.name, words))

    def fence(self, words):
        """The lines of the first fence after a line with these words; all that stands there is checked."""
        first = self.lines.index("```", self.after(words) - 1)
        last = self.lines.index("```", first + 1)
        self.covered |= set(range(first + 2, last + 1))
        return self.lines[first + 1:last]

    def table(self, words, covers=False):
        """The rows of the first table from a line with these words on, without its head; `covers`: all of it is checked."""
        return [cells for _, cells in self.numbered_table(words, covers)]

    def numbered_table(self, words, covers=False):
        first = self.after(words)
        while not self.lines[first - 1].startswith("|"):
            first += 1
        last = first
        while self.lines[last].startswith("|"):
            last += 1
        if covers:
            self.covered |= set(range(first, last + 1))
        rows = [[cell.strip() for cell in line.strip().strip("|").split("|")] for line in self.lines[first + 1:last]]
        return list(enumerate(rows, first + 2))


def texts():
    """Every page that is written for the tree as it is; CHANGELOG.md, docs/PORT.md, docs/DESIGN-PASS.md and docs/LOOK-BACK.md have old names."""
    found = [path for shape in ("*.md", "*/*.md") for path in glob.glob(os.path.join(TOP, shape))]
    return sorted({os.path.relpath(path, TOP) for path in found} - {"CHANGELOG.md", "docs/PORT.md", "docs/DESIGN-PASS.md", "docs/LOOK-BACK.md"})


def refusal_words():
    """The words of each refusal, from the one table that has them, in its order."""
    cases = re.findall(r'case (\d+):\s*return ((?:"[^"]*"\s*)+);', read("include/esquirmell.h"))
    return {int(number): "".join(re.findall(r'"([^"]*)"', words)) for number, words in cases}


def page(name):
    if name not in pages:
        pages[name] = Page(name)
    return pages[name]
