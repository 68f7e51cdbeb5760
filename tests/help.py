#!/usr/bin/env python3
"""Checks that the help, the page for man and docs/COMMAND.md say the same of the command.

The usage, and each word, option and exit status with what is said of it, must be the same on the three, and so must the paragraph on files
and defaults. Each example of the help is on the other two; docs/COMMAND.md has it as a command that tests/commands.py runs. The words that
the script and the program take are those of the usage, and the program's options, word by word, too. The help has at most 80 columns, and
groff, where it is there, must read the page for man without a warning.
"""
import re
import shutil
import subprocess

from house import TOP, end_if_wrong, read

HELP, MAN, PAGE = "tool/help.txt", "docs/esquirmell.1", "docs/COMMAND.md"
WIDTH = 80
PARTS = {"usage": "usage:", "words": "words:", "options": "options, ", "statuses": "exit status:", "examples": "examples:"}
IN_MAN = {"usage": "SYNOPSIS", "words": "DESCRIPTION", "options": "OPTIONS", "statuses": "EXIT STATUS", "examples": "EXAMPLES"}
IN_PAGE = {"words": "word", "options": "option", "statuses": "exit status"}


def squeezed(text):
    return " ".join(text.split())


def entries(text):
    """Rows of the help: a name, two blanks and what is said of it, with more of it further in below."""
    found = re.findall(r"^  (\S+(?: [A-Z]+)?)  +(\S.*(?:\n {4,}.*)*)", text, re.M)
    return {name: squeezed(said) for name, said in found}


def of_help():
    text, found = read(HELP), {}
    for part, head in PARTS.items():
        block = re.search(r"^%s.*\n((?:  .*\n)+)" % head, text, re.M).group(1)
        in_lines = part in ("usage", "examples")
        found[part] = [squeezed(line) for line in block.rstrip("\n").split("\n")] if in_lines else entries(block)
    found["files"] = squeezed(re.search(r"^BOOK, DAY.*?(?=\n\n)", text, re.M | re.S).group(0))
    return found


def of_man():
    text, found = read(MAN).replace("\\-", "-"), {}
    for part, head in IN_MAN.items():
        section = re.search(r"^\.SH %s\n(.*?)(?=^\.SH|\Z)" % head, text, re.M | re.S).group(1)
        if part in ("usage", "examples"):
            found[part] = [squeezed(line.replace("\\&", "")) for line in section.split("\n") if line and not line.startswith(".")]
        else:
            found[part] = dict(re.findall(r"^\.TP\n\.B (.*)\n(.*)$", section, re.M))
    found["files"] = squeezed(re.search(r"^BOOK, DAY.*?(?=\n\.SH)", text, re.M | re.S).group(0))
    return found


def of_page():
    text, found = read(PAGE), {}
    for part, head in IN_PAGE.items():
        table = re.search(r"^\| %s \|.*\n\|-.*\n((?:\|.*\n)+)" % head, text, re.M).group(1)
        rows = [[cell.strip() for cell in row.strip("|").split("|")] for row in table.rstrip("\n").split("\n")]
        found[part] = {name.strip("`"): said for name, said in rows}
    found["usage"] = [squeezed(line) for line in re.findall(r"^esquirmell .*", text, re.M)]
    found["examples"] = [squeezed(line) for line in re.findall(r"^(?:\$ )?(\./esquirmell .*)", text, re.M)]
    found["files"] = squeezed(re.search(r"^BOOK, DAY.*?(?=\n\n)", text, re.M | re.S).group(0))
    return found


def parted(where, part, there, wanted):
    """How what a page says of one part differs from the help."""
    if isinstance(wanted, dict):
        for name in [name for name in {**wanted, **there} if there.get(name) != wanted.get(name)]:
            yield "%s, %s: of %s it says '%s', and %s '%s'" % (where, part, name, there.get(name), HELP, wanted.get(name))
    elif part == "examples" and where == PAGE:
        for line in [line for line in wanted if line not in there]:
            yield "%s: it lacks the example '%s'" % (where, line)
    elif there != wanted:
        yield "%s, %s: it says '%s', and %s '%s'" % (where, part, there, HELP, wanted)


def words_amiss(wanted):
    """The script's words, the usage's and those that are explained."""
    script = re.search(r"^case \$\{1:-\} in\n(.*?)\) ;;", read("esquirmell"), re.M).group(1).split(" | ")
    in_usage = list(dict.fromkeys(line.split()[1] for line in wanted["usage"][:-1]))
    options = {word.split()[0] for word in wanted["options"]}
    for what, there in (("the script", script), ("the usage", in_usage)):
        if there != list(wanted["words"]):
            yield "%s takes the words %s, and the help has %s" % (what, there, list(wanted["words"]))
    if set(re.findall(r"--\w+", " ".join(wanted["usage"]))) != options:
        yield "%s: the options of the usage are not those that are explained" % HELP
    for word in [word for word in in_usage if not any(" %s " % word in line for line in wanted["examples"])]:
        yield "%s: there is no example of %s" % (HELP, word)


def program_amiss(wanted):
    """The words of tool/command.c and the options that each takes."""
    rows = re.findall(r'\{"(\w+)",\s*do_\w+,\s*\d, \d,\s*"([^"]*)"', read("tool/command.c"))
    if [word for word, _ in rows] != list(wanted["words"]):
        yield "tool/command.c takes the words %s, and the help has %s" % ([word for word, _ in rows], list(wanted["words"]))
    for word, options in rows:
        lines = [line for line in wanted["usage"] if line.split()[1] == word]
        if set(options.split()) != set(re.findall(r"--\w+", " ".join(lines))):
            yield "tool/command.c: %s takes %s, and the help says otherwise" % (word, " ".join(options.split()))


def layout():
    for number, line in enumerate(read(HELP).split("\n"), 1):
        if len(line) > WIDTH:
            yield "%s:%d: %d columns" % (HELP, number, len(line))
    if shutil.which("groff"):
        done = subprocess.run(["groff", "-man", "-Tascii", "-ww", "-z", MAN], cwd=TOP, capture_output=True, text=True, check=False)
        if done.returncode != 0 or done.stderr:
            yield "groff: %s" % done.stderr


def main():
    wanted = of_help()
    wrong = [*words_amiss(wanted), *program_amiss(wanted), *layout()]
    for where, there in ((MAN, of_man()), (PAGE, of_page())):
        wrong += [line for part in wanted for line in parted(where, part, there[part], wanted[part])]
    end_if_wrong("help", wrong)
    counts = [len(wanted[part]) for part in ("words", "options", "statuses", "examples")]
    print("help: %d words, %d options, %d exit statuses and %d examples, the same on three pages" % tuple(counts))


if __name__ == "__main__":
    main()
