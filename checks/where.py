"""Runs target/where, which checks/readme.py leaves, on books of every kind, and holds what it says to what the separate program finds.

EMULATOR names the words that run it (checks/setup sets it).
"""

import os
import random
import struct
import subprocess
import sys
import tempfile

TOP = os.path.dirname(os.path.dirname(os.path.abspath(__file__)))
sys.path.insert(0, os.path.join(TOP, "compare"))

import meshes  # noqa: E402
import reference as rules  # noqa: E402


def where(path):
    """The exit code, and what was printed and said of a file."""
    words = os.environ.get("EMULATOR", "").split() + [os.path.join(TOP, "target", "where")]
    done = subprocess.run(words + [path], stdout=subprocess.PIPE, stderr=subprocess.PIPE)
    return done.returncode, done.stdout.decode(), done.stderr.decode()


def expected(book):
    """The line for a book."""
    frame = rules.Frame.of(book)
    if frame is None:
        return "the frame is broken\n"
    place = frame.broken()
    if place is None:
        return "not broken\n"
    if place.kind == "free word":
        return "free word %d\n" % place.position
    d, e = divmod(place.key, 4)
    if place.kind in ("first offset", "falling offset", "wrong size"):
        return "relation %d→%d, offset %d\n" % (d, e, place.position)
    return "relation %d→%d, index %d\n" % (d, e, place.position - len(frame.offsets(d, e)))


def demand(what, got, wanted):
    if got != wanted:
        sys.exit("where: %s: %r, and not %r" % (what, got, wanted))


def books():
    rng = random.Random(11)
    yield from ([], [0] * 5, [0x40000000, 16, 0, 0, 6, 0], [0x40000000, 16, 0, 0, 6, 0] + [0] * 300000, [0x40000000, 16, 0, 0, 6, 0] + [0] * 300000 + [1])
    for _ in range(120):
        yield meshes.broken_book(rng, meshes.lying_book(rng, 30))


def main():
    said = {}
    with tempfile.TemporaryDirectory() as folder:
        path = os.path.join(folder, "a.book")

        def of(data):
            with open(path, "wb") as file:
                file.write(data)
            return where(path)

        for book in books():
            line = expected(book)
            demand("a book", of(struct.pack("<%dI" % len(book), *book)), (0, line, ""))
            kind = line.split()[-2]
            said[kind] = said.get(kind, 0) + 1
        for size in (1, 7, 65537):
            demand("%d bytes" % size, of(bytes(size)), (2, "", path + ": it is not a whole number of 32-bit words long\n"))
        demand("a folder", where(folder), (2, "", folder + ": Is a directory\n"))
        demand("no file", where(path + "s"), (2, "", path + "s: No such file or directory\n"))
    for kind in ("not", "is", "offset", "index", "word"):
        demand("some that end in '%s'" % kind, kind in said, True)
    print("where: %d books, each with the words that the separate program gives" % sum(said.values()))


if __name__ == "__main__":
    main()
