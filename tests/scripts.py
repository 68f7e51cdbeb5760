#!/usr/bin/env python3
"""Tries the scripts in the root, ./esquirmell, ./run and ./test, in a small room of their own.

In the room `rt` is a few lines of shell, which write down that they were called and say what rt says, the library is an empty archive, and
the command is a program that prints its words: what is tried is what the scripts do around them. Then the other scripts are read:
whatever takes CC must take it with flags.
"""
import contextlib
import fcntl
import os
import re
import shutil
import signal
import subprocess
import tempfile

from house import LONG, TOP, end_if_wrong, read, under

TOOLS = ["bash", "cat", "date", "dirname", "env", "find", "flock", "grep", "head", "mkdir", "mktemp", "mv", "nice", "nproc", "python3",
         "realpath", "rm", "sed", "setsid", "sleep", "tail", "tee", "touch", "wc"]
FILES = {
    "crates.txt": "# remark: lists\nlists:\nrules: lists\nexported staticlib: book_check rules csv\nbook_check: lists rules\nalone: lists\n",
    "crates/exported/src/lib.rt": "", "crates/lists/out/kept": "",
    "crates/lists/src/lib.rt": "", "crates/lists/specs/Lists.antt": "", "crates/lists/must-fail/wrong.edit": "",
    "crates/alone/stdout": "", "crates/alone/data/book.bin": "",
    "include/esquirmell.h": "", "small/book.bin": "", "small/day.bin": "",
    "README.md": "Toolchain: `none`\n",
    "tool/words.c": """#include <stdio.h>
#ifndef FLAG
#define FLAG 0
#endif
int main(int count, char **words) {
    printf("%d", FLAG);
    for (int k = 1; k < count; k++) printf(" %s", words[k]);
    puts("");
}
""",
}
RT = r"""#!/usr/bin/env bash
top=$(dirname "$0")/../room
echo "$*" >>"$top/calls"
case $1 in
lib)
  [ "$PWD" -ef "$top/crates/exported" ] || exit 9
  echo 'rt: chose --jobs 2 for lists'
  echo 'fn lists::clear: proved'
  echo 'rt: rules: begins with what a check kept in /elsewhere'
  [ ! -e "$top/refuse" ] || { echo 'rt: the library book_check did not build, so nothing above it was checked' >&2; exit 1; }
  echo 'rt: chose --jobs 4 for book_check'
  echo 'rt: chose --jobs 2 for exported'
  mkdir -p out
  printf '!<arch>\n' >out/libexported.a ;;
ci)
  [ "$PWD" -ef "$top" ] || exit 9
  flock -n "$top" true && echo free >>"$top/calls"
  setsid sleep 900 >/dev/null 2>&1 &
  echo $! >"$top/sleeper"
  [ -e "$top/well" ] || exit 1
  echo 'rt: lists proved'
  echo 'rt: rules is kept: an earlier run on this machine proved the same files over the same libraries'
  cat "$top/well" ;;
esac
"""
WAITING = "waiting: ./test or another build is at work here"


class Room:
    """A small tree with copies of the scripts, and two lists of programs: `bare` has neither rt nor a compiler."""

    def __init__(self, place):
        self.path = os.path.join(place, "room")
        self.bare, self.full = os.path.join(place, "bare"), os.path.join(place, "full")
        for name, text in {**FILES, "../full/rt": RT, "../full/gcc": "#!/bin/sh\nPATH=%s exec gcc \"$@\"\n" % os.environ["PATH"]}.items():
            self.write(name, text)
        for name in ["esquirmell", "run", "test", "VERSION", "tool/help.txt"]:
            shutil.copy2(os.path.join(TOP, name), self.at(name))
        os.makedirs(self.bare)
        for name in [name for name in TOOLS if shutil.which(name)]:
            os.symlink(shutil.which(name), os.path.join(self.bare, name))
            os.symlink(shutil.which(name), os.path.join(self.full, name))
        for name in ("rt", "gcc"):
            os.chmod(os.path.join(self.full, name), 0o755)

    def at(self, name):
        return os.path.join(self.path, name)

    def write(self, name, text):
        os.makedirs(os.path.dirname(self.at(name)), exist_ok=True)
        with open(self.at(name), "w", encoding="utf-8") as f:
            f.write(text)

    def started(self, *words, path=None, **more):
        env = {**{name: value for name, value in os.environ.items() if name != "CC"}, "PATH": path or self.full, **more}
        return subprocess.Popen(words, cwd=self.path, env=env, stdout=subprocess.PIPE, stderr=subprocess.PIPE, text=True)

    def ran(self, *words, **more):
        """Status, standard output and standard error of a script."""
        process = self.started(*words, **more)
        out, err = process.communicate(timeout=LONG)
        return process.returncode, out, err

    def calls(self):
        return open(self.at("calls"), encoding="utf-8").read().splitlines() if os.path.exists(self.at("calls")) else []

    def newer(self, name, than):
        """Gives a file a time right behind another's."""
        at = os.stat(self.at(than)).st_mtime_ns + 1000000
        os.utime(self.at(name), ns=(at, at))

    def left_over(self):
        """Whether the child that rt left behind is there, which is ended then, and whether the lock is free beside it."""
        with open(self.at("sleeper"), encoding="utf-8") as f:
            number = int(f.read())
        free = subprocess.run(["flock", "-n", self.path, "true"], check=False).returncode == 0
        try:
            os.kill(number, signal.SIGTERM)
        except ProcessLookupError:
            return False, free
        return True, free

    @contextlib.contextmanager
    def held(self):
        """The lock, as another process has it."""
        folder = os.open(self.path, os.O_RDONLY)
        fcntl.flock(folder, fcntl.LOCK_EX)
        try:
            yield folder
        finally:
            os.close(folder)


def differs(what, got, wanted):
    if got != wanted:
        yield "%s: it gives %r, and must give %r" % (what, got, wanted)


def at_once(room):
    """Help, version and words that are none: with nothing built, and no rt and no compiler to be found."""
    page, version = read("tool/help.txt"), "esquirmell %s\n" % read("VERSION").strip()
    for words in (["./esquirmell", "--help"], ["./run", "--help"], ["./esquirmell", "show", "x", "--help"]):
        yield from differs(" ".join(words), room.ran(*words, path=room.bare), (0, page, ""))
    yield from differs("--version", room.ran("./esquirmell", "--version", path=room.bare), (0, version, ""))
    usage = "esquirmell: usage: esquirmell run | show | why | make | check ..; esquirmell --help says more\n"
    for words in ([], ["shew"], ["-"], ["--json", "run"]):
        yield from differs("the words %s" % words, room.ran("./esquirmell", *words, path=room.bare), (2, "", usage))
    if os.path.exists(room.at("target")):
        yield "something was built where help, version or usage were asked for"


def missing(room):
    """Without rt, and without a compiler: status 2, and where to read on."""
    said = "the Rattle toolchain (rt) is missing; README.md says what a machine needs"
    for words in (["./run"], ["./esquirmell", "make", "--", "--help"]):
        status, _, err = room.ran(*words, path=room.bare)
        yield from differs("without rt", (status, err), (2, "esquirmell: %s\n" % said))
    status, _, err = room.ran("./run", CC="no-such-cc -O1")
    yield from differs("without a compiler", (status, err.split("\n")[-2]),
                       (2, "esquirmell: no-such-cc is missing; README.md says what a machine needs"))
    for built in ("target", "crates/exported/out"):
        shutil.rmtree(room.at(built))


def builds(room):
    """The first time: what is said while it is proved, the program with CC's flags, and the small day's files."""
    open(room.at("refuse"), "w").close()
    status, out, err = room.ran("./run")
    log = os.path.realpath(room.at("target/esquirmell.log"))
    refused = "rt: the library book_check did not build, so nothing above it was checked"
    if (status, out) != (2, "") or log not in err or refused not in err.split("\n"):
        yield "a library that is not proved: it ends with %d and says '%s'" % (status, err)
    os.remove(room.at("refuse"))
    status, out, err = room.ran("./run", CC="gcc -DFLAG=7")
    yield from differs("a first run, with flags in CC", (status, out), (0, "7 run small/book.bin small/day.bin\n"))
    steps = ["proving, 1 of 4: lists", "proving, 3 of 4: book_check", "proving, 4 of 4: exported", "compiling the command"]
    yield from differs("what is said while it builds", err.split("\n")[1:], ["esquirmell: " + step for step in steps] + [""])
    if "fn lists::clear: proved\n" not in open(room.at("target/esquirmell.log")):
        yield "what the prover says is not in target/esquirmell.log"


def words_handed_on(room):
    """The small day's files are put in where no file is named, and nowhere else."""
    small = "small/book.bin small/day.bin"
    for words, more in (("--json --strict", small), ("--", small), ("a b 5", ""), ("--json -- a", ""), ("-", "")):
        wanted = " ".join(["7 run", words] + [more] * bool(more)) + "\n"
        yield from differs("./run " + words, room.ran("./run", *words.split()), (0, wanted, ""))
    yield from differs("show with no words", room.ran("./esquirmell", "show"), (0, "7 show\n", ""))
    os.symlink(room.at("run"), room.at("tool/linked"))
    there = os.path.realpath(room.path) + "/small/"
    wanted = "7 run %sbook.bin %sday.bin\n" % (there, there)
    yield from differs("a link, from another folder", room.ran("bash", "-c", "cd tool && ./linked"), (0, wanted, ""))


def rebuilds(room):
    """What is newer than the library or the command is built again, and wrong programs and printed lines are no part of them."""
    library, before = "crates/exported/out/libexported.a", len(room.calls())
    for name in ("crates/lists/must-fail/wrong.edit", "crates/lists/must-fail", "crates/lists", "crates/alone/stdout",
                 "crates/alone/data/book.bin", "crates/lists/out/kept", "crates/lists/out"):
        room.newer(name, library)
        yield from differs("a change of " + name, (room.ran("./run", "a")[2], len(room.calls()) - before), ("", 0))
    for name in ("crates/lists/src/lib.rt", "crates/lists/specs", "crates.txt"):
        before = len(room.calls())
        room.newer(name, library)
        room.ran("./run", "a")
        yield from differs("calls of rt after a change of " + name, len(room.calls()) - before, 1)
    for name in ("tool/words.c", "include/esquirmell.h"):
        room.newer(name, "target/esquirmell")
        yield from differs("a change of " + name, room.ran("./run", "a"), (0, "0 run a\n", "esquirmell: compiling the command\n"))
    yield from differs("and then", room.ran("./run", "a"), (0, "0 run a\n", ""))


def waits(room):
    """One that waits says so, and goes on when the other ends; where there is no flock, nobody waits."""
    with room.held() as folder:
        process = room.started("./run", "a")
        said = process.stderr.readline()
        early = process.poll() is not None
        fcntl.flock(folder, fcntl.LOCK_UN)
        out, err = process.communicate(timeout=LONG)
    yield from differs("./run while another builds", (said, early, out, err), ("esquirmell: %s\n" % WAITING, False, "0 run a\n", ""))
    os.remove(os.path.join(room.bare, "flock"))
    with room.held():
        yield from differs("./run without flock", room.ran("./run", "a", path=room.bare), (0, "0 run a\n", ""))


def the_gate(room):
    """./test takes no words, waits, holds the lock while rt is at work, and leaves it to none of its children."""
    status, out, err = room.ran("./test", "quick")
    yield from differs("./test with a word", (status, out, "it takes no words" in err), (2, "", True))
    with room.held() as folder:
        process = room.started("./test")
        said = process.stdout.readline()
        fcntl.flock(folder, fcntl.LOCK_UN)
        out = process.communicate(timeout=LONG)[0]
    yield from differs("./test while another builds", said, "waiting: ./esquirmell or another ./test is at work here\n")
    yield from differs("what ./test ends with", (process.returncode, "FAILED: rt ci ended with status 1" in out), (1, True))
    yield from differs("rt's calls by ./test", room.calls()[-2:], ["version", "ci"])
    yield from differs("after ./test: a child of rt's is alive, and the lock is free", room.left_over(), (True, True))


WELL = "rt: ok; handles allowed: none; must-fail edits: 12 refused, 1 of them only by a limit%s; every proof was done in this run"
PASSED = "2 passed, 0 failed"


def what_the_gate_reads(room):
    """After rt ci: ./test fails where a crate failed, where an edit is bad or nothing is said of edits, and goes on where all is well."""
    for last, words in ((["rt: FAILED: lists", "1 passed, 1 failed"], "rt ci closed with '1 passed, 1 failed'"),
                        ([WELL % "", "0 passed, 0 failed"], "rt ci closed with '0 passed, 0 failed'"),
                        ([PASSED], "rt ci has no line 'rt: ok'"),
                        ([WELL % ", 11 bad", PASSED], "rt ci has bad edits: " + WELL % ", 11 bad")):
        room.write("well", "\n".join(last) + "\n")
        status, out, _ = room.ran("./test")
        yield from differs("./test after %s" % last, (status, out.split("\n")[-2], room.calls()[-1]), (1, "FAILED: " + words, "ci"))
        room.left_over()
    room.write("well", "\n".join([WELL % "", PASSED]) + "\n")
    status, out, _ = room.ran("./test")
    yield from differs("./test where rt ci passes, and no other test is there", (status, PASSED in out, room.calls()[-1]), (1, False, "lib"))
    said = open(room.at("target/ci.log"), encoding="utf-8").read().split("\n")
    yield from differs("the end of target/ci.log", said[-3:], [WELL % "", PASSED, ""])
    room.left_over()


def one_word_for_cc():
    """The lines of scripts that take a compiler's name whole, as one word."""
    for path in ["esquirmell", "run", "test", "bench/run", "examples/check", "second/check", "tool/compile"]:
        for line in [line for line in read(path).split("\n") if "${CC" in line]:
            if not re.fullmatch(r'read -ra cc <<<"\$\{CC:-gcc\}"', line):
                yield "%s takes CC as one word: %s" % (path, line.strip())
    for path in under("tests", ".py") + under("second", ".py"):
        for line in [line for line in read(path).split("\n") if re.search(r"environ\.get\(.CC", line)]:
            if "shlex.split(" not in line:
                yield "%s takes CC as one word: %s" % (path, line.strip())


def flags_taken(_):
    """One of those scripts, with a compiler that has a flag."""
    done = subprocess.run([os.path.join(TOP, "second/check"), "self", "stored"], env={**os.environ, "CC": "gcc -m64"},
                          capture_output=True, text=True, check=False)
    if done.returncode != 0:
        yield "second/check does not take flags in CC: %s" % done.stderr


STEPS = [flags_taken, at_once, missing, builds, words_handed_on, rebuilds]
LOCKED = [waits, the_gate, what_the_gate_reads]


def main():
    steps = STEPS + (LOCKED if shutil.which("flock") else [])
    if steps == STEPS:
        print("scripts: flock is not here, so nothing waits, and that was not tried")
    with tempfile.TemporaryDirectory() as place:
        room = Room(place)
        wrong = [line for step in steps for line in step(room)] + list(one_word_for_cc())
    end_if_wrong("scripts", wrong)
    print("scripts: ./esquirmell, ./run and ./test build, wait, refuse and hand on as they should")


if __name__ == "__main__":
    main()
