#!/usr/bin/env python3
"""Holds include/esquirmell.h against the library: header.c, as C99 and as C++, must find every constant and field right.

header.py LIBRARY      CC and CXX name other compilers, with flags if need be; without a C++ compiler that part is left out, with a message

What no program can see, the names and the order of parameters, is held against crates/exported, and what the library needs
from outside against what nm says. second_header.c holds the header against second/under_test.h, which declares the same
calls for the comparison. The Rust example repeats some of its constants.
"""
import concurrent.futures
import glob
import os
import re
import shlex
import shutil
import subprocess
import sys
import tempfile

from house import TOP, end_if_wrong, read

CC, CXX = (shlex.split(os.environ.get(name) or usual) for name, usual in (("CC", "gcc"), ("CXX", "g++")))
STRICT = ["-pedantic-errors", "-Wall", "-Wextra", "-Werror", "-Iinclude"]
RESULTS = {"Total": "esq_total", "Answered": "esq_reply", "Part": "esq_part"}
TYPES = {
    "&[u8]": "const uint8_t *{0}, size_t {0}_bytes",
    "&[u64]": "const uint64_t *{0}, size_t {0}_numbers",
    "&mut [u64]": "uint64_t *{0}, size_t {0}_numbers",
    "u64": "uint64_t {0}",
    "u32": "uint32_t {0}",
    "usize": "size_t {0}",
}


def squeezed(text):
    return re.sub(r"\s+", " ", re.sub(r"/\*.*?\*/", "", text, flags=re.S))


def in_c(fields):
    """Parameters or fields of Rattle, as C has them."""
    pairs = re.findall(r"(\w+): ([^,\n]+),?", fields)
    return [TYPES[kind].format(name) for name, kind in pairs]


def declared():
    """Each call of crates/exported and each struct that it gives, as the header must declare them."""
    calls = re.findall(r'extern "C" fn (\w+)\(([^)]*)\) -> (\w+)', read("crates/exported/src/lib.rt"))
    for name, fields, result in calls:
        yield "%s %s(%s);" % (RESULTS[result], name, ", ".join(in_c(fields)))
    code = "".join(read(path) for path in glob.glob(os.path.join(TOP, "crates/*/src/lib.rt")))
    for result, name in RESULTS.items():
        fields = re.search(r"#\[repr\(C\)\]\n(?:#\[[^\n]*\]\n)*pub struct %s \{(.*?)\}" % result, code, re.S).group(1)
        yield "typedef struct { %s; } %s;" % ("; ".join(in_c(fields)), name)


def as_exported():
    header, wanted = squeezed(read("include/esquirmell.h")), list(declared())
    for text in wanted:
        if text not in header:
            yield "it does not say '%s', as the crates do" % text
    if len(re.findall(r"\w \w+\([^)]*\);|typedef", header)) != len(wanted):
        yield "it has declarations that crates/exported has not"


def all_named():
    """header.c must name every constant, field and call of the header."""
    header, test = squeezed(read("include/esquirmell.h")), read("tests/header.c")
    names = re.findall(r"\b(ESQ_\w+) =", header) + re.findall(r"\b(esquirmell_\w+)\(", header)
    for fields, struct in re.findall(r"typedef struct \{ ([^}]*) \} (\w+);", header):
        names += ["%s.%s" % (struct, field) for field in re.findall(r"(\w+);", fields)]
    for name in names:
        if not re.search(r"\b%s\b" % re.escape(name), test):
            yield "tests/header.c does not name %s" % name


def in_rust():
    """The constants that the Rust example repeats: a workspace with a number too many would not show when it runs."""
    header, example = squeezed(read("include/esquirmell.h")), read("examples/rust/small.rs")
    repeated = re.findall(r"const (\w+_NUMBERS): usize = (\d+);", example)
    for name, number in repeated:
        if "ESQ_%s = %s" % (name, number) not in header:
            yield "examples/rust/small.rs has %s = %s, and the header has not" % (name, number)
    if not repeated:
        yield "examples/rust/small.rs repeats no constant"


def needed(library):
    """What the library takes from outside is what the header says."""
    listed = subprocess.run(["nm", "-P", library], capture_output=True, text=True, check=True).stdout
    symbols = re.findall(r"^(\S+) (\w)\b", listed, re.M)
    needs = {name for name, kind in symbols if kind in "Uvw"} - {name for name, kind in symbols if kind not in "Uvw"}
    if "and needs nothing but %s.\n" % ", ".join(sorted(needs)) not in read("include/esquirmell.h"):
        yield "the library needs %s, and the header does not say so" % (", ".join(sorted(needs)) or "nothing")


def called(words):
    done = subprocess.run(words, cwd=TOP, capture_output=True, text=True)
    return [] if done.returncode == 0 else ["%s: %s" % (" ".join(words[:3]), done.stdout + done.stderr)]


def built_and_run(library, folder, compiler, standard, *language):
    program = os.path.join(folder, standard)
    build = [*compiler, "-std=" + standard, *language, "tests/header.c", *STRICT, "-x", "none", library, "-o", program]
    return called(build) or called([program, "small/book.bin", "small/day.bin"])


def compiled(library):
    with tempfile.TemporaryDirectory() as folder, concurrent.futures.ThreadPoolExecutor(os.cpu_count()) as pool:
        jobs = [pool.submit(built_and_run, library, folder, CC, "c99")]
        if shutil.which(CXX[0]):
            jobs.append(pool.submit(built_and_run, library, folder, CXX, "c++11", "-x", "c++"))
        else:
            print("header: %s is not here, so the header was not compiled as C++" % CXX[0])
        agree = [*CC, "-std=c11", "-fsyntax-only", *STRICT, "-Isecond", "tests/second_header.c"]
        jobs.append(pool.submit(called, agree))
        return sum([job.result() for job in jobs], [])


def main():
    if len(sys.argv) != 2:
        sys.exit(__doc__)
    wrong = [*as_exported(), *all_named(), *in_rust(), *needed(sys.argv[1]), *compiled(os.path.abspath(sys.argv[1]))]
    end_if_wrong("header", wrong)
    print("header: every constant, field and call is as the library has it")


if __name__ == "__main__":
    main()
