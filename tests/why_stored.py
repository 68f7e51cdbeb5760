#!/usr/bin/env python3
"""Asks `why` of the stored days, every filter and message, and holds its verdicts against the stored answers.

why_stored.py COMMAND

The days are those of second/stored that a run, or a pass from no filled slot, read. A pass from filled slots takes their answers as they
stand, so its own may be other ones than the match rule's. A call on all filters and a call on each one must say the same, end with 0, and
give a reason that begins with state 0 at the root. Of a refused message both say the number and the place, and no filter.
"""
import concurrent.futures
import glob
import os
import re
import struct
import subprocess
import sys
import tempfile

TOP = os.path.dirname(os.path.dirname(os.path.abspath(__file__)))
VERDICT = re.compile(r"filter (\d+): (true|not true) by the proved run, (true|not true) by the match rule")
ROOT = re.compile(r"  0 \S.* at /: (yes|no), ")
REFUSED = re.compile(r".*: message (\d+), byte (\d+) \(byte (\d+) of the file\), (\d+): ")


def bytes_of(text):
    """Hex digits; `00*8` is a byte eight times."""
    return b"".join(bytes.fromhex(word.split("*")[0]) * int((word.split("*") + ["1"])[1]) for word in text.split())


def numbers_of(text):
    numbers = []
    for word in text.split():
        number, times = (word.split("*") + ["1"])[:2]
        numbers += [int(number, 16)] * int(times)
    return numbers


def stored(path):
    """Book, day and answers of a stored case; None if no answer of the match rule is stored there."""
    field, given = {}, {}
    for line in open(path, encoding="ascii"):
        word, _, rest = line.rstrip("\n").partition(" ")
        (given if "gives" in given or word == "gives" else field)[word] = rest
    if field["call"] not in ("run", "pass") or field["filled"] != "0" or not given["gives"].startswith("0 "):
        return None
    return bytes_of(field["book"]), bytes_of(field["day"]), numbers_of(given.get("answers", ""))


def entries(data, form):
    """The table at the front of a book or a day file."""
    return [struct.unpack_from(form, data, 2 + 8 * k) for k in range(data[0] | data[1] << 8)]


def wrong_with(lines, message, start, row, wanted):
    """What is wrong with the lines of a call; `wanted` is the verdict of each filter, in order."""
    if row[0] != 0:
        found = REFUSED.match(lines[0])
        if not found or [int(n) for n in found.groups()] != [message, row[1], start + row[1], row[0]]:
            return "the refusal %d at %d is not told" % (row[0], row[1])
        return "a refused message has a filter" if any(VERDICT.match(line) for line in lines) else None
    found = [(k, VERDICT.match(line)) for k, line in enumerate(lines) if line.startswith("filter ")]
    if [(v and (v[1], v[2], v[3])) for _, v in found] != [(str(i), yes, yes) for i, yes in wanted]:
        return "the verdicts are not %s" % wanted
    for (k, _), (_, yes) in zip(found, wanted):
        root = ROOT.match(lines[k + 1]) if k + 1 < len(lines) else None
        if not root or root[1] != ("yes" if yes == "true" else "no"):
            return "no reason at the root follows '%s'" % lines[k]
    return None


def asked(case):
    """One call: nothing, or a line that says what is wrong."""
    name, files, message, start, row, wanted, words = case
    call = [COMMAND, "why", *files, str(message), *words]
    done = subprocess.run(call, capture_output=True, text=True, errors="replace")
    wrong = "it ends with %d: %s" % (done.returncode, done.stderr) if done.returncode != 0 else None
    wrong = wrong or wrong_with(done.stdout.split("\n"), message, start, row, wanted)
    return "why: %s, message %d %s: %s\n%s" % (name, message, " ".join(words), wrong, done.stdout[:500]) if wrong else None


def calls_of(name, files, book, day, answers):
    """Each message with all filters, and with each one."""
    ids = [entry[0] for entry in entries(book, "<IHH")]
    for k, (start, _) in enumerate(entries(day, "<II")):
        row = answers[3 * k:3 * k + 3]
        wanted = [(i, "true" if row[2] >> place & 1 else "not true") for place, i in enumerate(ids)]
        yield name, files, k + 1, start, row, wanted, []
        for one in wanted:
            yield name, files, k + 1, start, row, [one], [str(one[0])]


def main():
    calls, days = [], 0
    for path in sorted(glob.glob(os.path.join(TOP, "second/stored/*.txt"))):
        case = stored(path)
        if case is None:
            continue
        name = os.path.basename(path)[:-len(".txt")]
        files = [os.path.join(ROOM, name + end) for end in (".book", ".day")]
        for file, data in zip(files, case):
            with open(file, "wb") as f:
                f.write(data)
        days += 1
        calls += calls_of(name, files, *case)
    with concurrent.futures.ThreadPoolExecutor(os.cpu_count()) as pool:
        wrong = [line for line in pool.map(asked, calls) if line]
    print("\n".join(wrong[:5]) + ("\n" if wrong else ""), end="")
    verdicts = sum(len(wanted) for _, _, _, _, row, wanted, words in calls if row[0] == 0 and not words)
    refused = sum(1 for _, _, _, _, row, _, words in calls if row[0] != 0 and not words)
    if wrong or not verdicts or not refused:
        sys.exit("why: %d of %d calls on the stored days are wrong" % (len(wrong), len(calls)))
    print("why: %d stored days, %d verdicts and %d refused messages, %d calls" % (days, verdicts, refused, len(calls)))


if __name__ == "__main__":
    if len(sys.argv) != 2:
        sys.exit(__doc__)
    COMMAND = os.path.abspath(sys.argv[1])
    with tempfile.TemporaryDirectory() as ROOM:
        main()
