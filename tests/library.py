"""The exported library, called from Python: crates/exported/out/libexported.a, linked into a shared one for the while."""
import ctypes
import os
import shlex
import subprocess
import tempfile

TOP = os.path.dirname(os.path.dirname(os.path.abspath(__file__)))
ARCHIVE = os.path.join(TOP, "crates/exported/out/libexported.a")
SIZE = ctypes.c_size_t
CC = shlex.split(os.environ.get("CC") or "gcc")  # another compiler, with flags if need be


class Total(ctypes.Structure):
    _fields_ = [("refusal", ctypes.c_uint64), ("asked", ctypes.c_uint64), ("anew", ctypes.c_uint64), ("filled", SIZE)]


def load():
    with tempfile.TemporaryDirectory() as room:
        shared = os.path.join(room, "library.so")
        words = ["-shared", "-o", shared, "-Wl,--whole-archive", ARCHIVE, "-Wl,--no-whole-archive"]
        subprocess.run([*CC, *words], check=True)
        library = ctypes.CDLL(shared)
    library.esquirmell_run.restype = Total
    return library


LIBRARY = load()


class Run:
    """A run, and what it leaves in all that was lent to it."""

    def __init__(self, book, day, memory=64 * 17, answers=None, workspace=650):
        messages = int.from_bytes(day[:2], "little")
        sizes = [memory, 3 * messages if answers is None else answers, workspace]
        areas = [(ctypes.c_uint64 * max(size, 1))() for size in sizes]
        lent = [word for area, size in zip(areas, sizes) for word in (area, SIZE(size))]
        total = LIBRARY.esquirmell_run(book, SIZE(len(book)), day, SIZE(len(day)), *lent)
        self.memory, self.answers, self.workspace = (list(area)[:size] for area, size in zip(areas, sizes))
        self.refusal, self.asked, self.anew, self.filled = total.refusal, total.asked, total.anew, total.filled

    def row(self, message):
        """The row of a message, counted from 1: refusal, place, filters."""
        return self.answers[3 * message - 3:3 * message]
