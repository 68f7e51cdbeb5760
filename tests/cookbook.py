#!/usr/bin/env python3
"""Checks the filters that docs/RULES.md shows in its match rule and in its cookbook.

cookbook.py COMMAND     COMMAND is the compiled command, as target/esquirmell

Each block there becomes a book, by COMMAND's `make` with small/names.txt, and the library runs the book.

- In the cookbook the line above a block has its XPath wish: the same names, comparisons and loops as the states. The words behind
  the block say `True of messages 1, 2 and 3.`, and the small day says so, too.
- In the match rule they say `It matches B. It fails at A ..`, letters of the drawing, and between them every node. State 0 is
  asked of a node in a message of its own: the node, and a STEP to it in front of the block's states.
"""
import os
import re
import subprocess
import sys

from house import TOP, end_if_wrong
from library import Run
from pages import page
from quotes import events, message_body, two
from small_day import AND, NOT, OR, SERVICE, SMALL_DAY, STEP, book, day, node, state

PAGE = "docs/RULES.md"
NAMES = os.path.join(TOP, "small/names.txt")
LETTERS = "ABCDEFG"
WISH = re.compile(r"(?:### .*: )?`([^`]+)`(?: is:)?")
MESSAGES = re.compile(r"True of (no message|messages? \d(?:(?:, | and )\d)*)\.")
NODES = re.compile(r"It matches ([A-G](?:(?:, | and )[A-G])*)\. It fails at (no node|[A-G](?:(?:, | and )[A-G])*)[.:]")


class Block:
    """A block of states: where it stands, the wish above it, its lines, and the words from it to the next block or heading."""

    def __init__(self, number, wish, lines, words):
        self.number, self.wish, self.lines, self.words = number, wish and wish.group(1), lines, " ".join(words)


def blocks(section):
    """The blocks of a section; their lines, their wishes and the messages behind them are what is checked here."""
    there = page(PAGE)
    first = there.after("## " + section)
    last = next((k for k, line in enumerate(there.lines[first:], first) if line.startswith("## ")), len(there.lines))
    marks = [k for k in range(first, last) if there.lines[k] == "```"]
    if not marks:
        sys.exit("cookbook: %s: section '%s' has no block" % (PAGE, section))
    there.spans += [found.span() for found in MESSAGES.finditer(there.text)]
    for opens, closes in zip(marks[::2], marks[1::2]):
        wish = WISH.fullmatch(there.lines[opens - 2])
        there.covered |= set(range(opens - 1 if wish else opens + 1, closes + 2))
        stops = [k for k in range(closes + 1, last) if there.lines[k].startswith(("```", "#"))]
        behind = there.lines[closes + 1:(stops + [last])[0]]
        yield Block(opens + 2, wish, there.lines[opens + 1:closes], behind)


def made(command, lines):
    """The book that the command makes of these lines."""
    words = [command, "make", "--names", NAMES, "-"]
    ended = subprocess.run(words, input="\n".join(lines + [""]).encode(), capture_output=True)
    if ended.returncode != 0:
        raise ValueError("make ended with %d: %s" % (ended.returncode, ended.stderr.decode().strip()))
    return ended.stdout


# ---- The cookbook

def true_messages(a_book):
    run = Run(a_book, SMALL_DAY)
    if run.refusal:
        raise ValueError("the book is refused by %d" % run.refusal)
    return [k for k in range(1, two(SMALL_DAY, 0) + 1) if run.row(k)[2]]


def wish_amiss(block):
    """Whether the wish above a block has the names, the comparisons and the loops of its states."""
    wish, states = block.wish, "\n".join(block.lines)
    if not wish:
        raise ValueError("no wish stands above it")
    names = [name for name in re.findall(r"@?[a-z]+", wish) if name not in ("and", "or", "not")] + ["*"] * wish.count("//")
    for what, wished, there in (
        ("names and loops", names, re.findall(r"STEP (\S+)", states)),
        ("comparisons", re.findall(r"([!<>]?=|[<>]) (-?\d+)", wish), re.findall(r"LEAF (\S+) (\S+)", states)),
    ):
        if sorted(wished) != sorted(there):
            yield "the %s of `%s` are not those of the states" % (what, wish)


def recipe_amiss(command, block):
    yield from wish_amiss(block)
    said = MESSAGES.findall(block.words)
    if len(said) != 1:
        raise ValueError("%d sentences say which messages it is true of" % len(said))
    should = true_messages(made(command, ["book"] + block.lines))
    if [int(number) for number in re.findall(r"\d", said[0])] != should:
        yield "it says 'true of %s', and it is true of %s" % (said[0], should)


# ---- The match rule

def nodes():
    """Each node of the drawing, in its order: a message, and the states that lead from its root to the node."""
    whole, opened = message_body(1), []
    found = [(whole, [])]
    for place, _, event in events(whole):
        if event[0] == 1:
            opened.append((len(found), place))
            found.append(None)
        elif event[0] == 3:
            k, first = opened.pop()
            part = whole[first:place + len(event)]
            attribute = [state(STEP, 0, 1), state(STEP, 32768, 2)]
            found[k] = (node(SERVICE, part), attribute) if two(event, 1) > 32768 else (part, attribute[:1])
    return found


def shifted(a_state, by):
    """A state of a body that has some states more in front."""
    kind, first, second = a_state[0], two(a_state, 2), two(a_state, 4)
    if kind in (AND, OR):
        return state(kind, first + by, second + by)
    if kind == NOT:
        return state(kind, first + by)
    return state(kind, first, second + by) if kind == STEP else a_state


def matched(a_book):
    """The letters of the nodes that state 0 of the book's one filter matches."""
    body, letters = [a_book[k:k + 8] for k in range(two(a_book, 6), len(a_book), 8)], ""
    for letter, (message, way) in zip(LETTERS, nodes()):
        one = book([(1, way + [shifted(a_state, len(way)) for a_state in body])])
        letters += letter if Run(one, day([message])).row(1)[2] else ""
    return letters


def kind_amiss(command, block):
    said = NODES.findall(block.words)
    if len(said) != 1:
        raise ValueError("%d sentences say which nodes it matches" % len(said))
    yes, no = ("".join(re.findall(r"\b[A-G]\b", part)) for part in said[0])
    should = matched(made(command, ["book", "filter 1"] + block.lines))
    if yes != should:
        yield "it says that state 0 matches %s, and it matches %s" % (yes, should)
    if no != "".join(letter for letter in LETTERS if letter not in yes):
        yield "the nodes that it matches and those at which it fails are not all"


SECTIONS = [("The match rule", kind_amiss), ("Cookbook", recipe_amiss)]


def every():
    """Each block of the page, with what checks it."""
    return [(amiss, block) for section, amiss in SECTIONS for block in blocks(section)]


def wrong(command):
    for amiss, block in every():
        try:
            faults = list(amiss(command, block))
        except (ValueError, OSError) as error:
            faults = [str(error)]
        yield from ("%s:%d: %s" % (PAGE, block.number, fault) for fault in faults)


def together_amiss(command):
    """The page says that its filters may stand under each other in one book."""
    lines = [line for amiss, block in every() if amiss is recipe_amiss for line in block.lines]
    try:
        made(command, ["book"] + lines)
    except (ValueError, OSError) as error:
        yield "%s: the cookbook as one book: %s" % (PAGE, error)


def main():
    if len(sys.argv) != 2:
        sys.exit(__doc__)
    faults = list(wrong(sys.argv[1])) + list(together_amiss(sys.argv[1]))
    end_if_wrong("cookbook", faults)
    print("cookbook: %d filters of %s are made, and true of what the page says" % (len(every()), PAGE))


if __name__ == "__main__":
    main()
