#!/usr/bin/env python3
"""Runs dayreport on files of every kind, and compares each output, byte for byte, with what the separate program makes of the file.

EMULATOR holds the words that run a program for x86-64 (checks/setup sets them); the one argument is the program's path.
"""

import os
import random
import subprocess
import sys
import time

import meshes
import reference as rules

WORDS = 12288
LONGEST = 2048


def with_all(data, words):
    """The first refusal, 0 where there is none, of a load and of asks for all relations, and the book."""
    book = [0] * words
    number, _ = rules.load(data, book)
    top = book[0] >> 30
    for d in range(top + 1):
        for e in range(top + 1):
            number = number or rules.ask(book, d, e)[0]
    return number, book


def expected(data):
    """Document 01's lines for a file."""
    if len(data) > LONGEST:
        return b"too long\n"
    number, book = with_all(data, WORDS)
    if number:
        return b"refused %d\n" % number
    frame = rules.Frame.of(book)
    lines = ["mesh %d" % frame.D + "".join(" %d" % frame.counts[d] for d in range(frame.D + 1))]
    for d, e in sorted(frame.held):
        lines.append("%d %d %d %d" % (d, e, frame.counts[d], frame.offsets(d, e)[-1]))
    return ("\n".join(lines) + "\n").encode()


def used(mesh):
    """The words that a mesh takes with all its relations."""
    return with_all(rules.file_bytes(*mesh), 1 << 17)[1][4]


def strip(n):
    """A strip of n triangles."""
    return 2, n + 2, [[i, i + 1, i + 2] for i in range(n)]


def just_fitting():
    """A mesh that takes 12,288 words to the last, and one with a vertex more: a vertex in no cell takes three."""
    n, words = 220, used(strip(220))
    while words <= WORDS:
        if (WORDS - words) % 3 == 0:
            D, points, cells = strip(n)
            points += (WORDS - words) // 3
        n += 1
        words = used(strip(n))
    return (D, points, cells), (D, points + 1, cells)


def cases():
    t = (2, 4, [[0, 1, 3], [1, 2, 3]])
    yield "T", rules.file_bytes(*t)
    for D in (1, 2, 3):
        yield "no cells, D = %d" % D, rules.file_bytes(D, 0, [])
        yield "no cells, D = %d, five vertices" % D, rules.file_bytes(D, 5, [])
    yield "one tetrahedron in file order 3 1 0 2", rules.file_bytes(3, 4, [[3, 1, 0, 2]])
    fits, fits_not = just_fitting()
    assert used(fits) == WORDS and used(fits_not) > WORDS
    yield "all relations take 12,288 words", rules.file_bytes(*fits)
    yield "all relations take three words more", rules.file_bytes(*fits_not)
    yield "empty input", b""
    longest = rules.file_bytes(1, 629, [[i, i + 1] for i in range(628)])
    yield "the longest mesh: no mesh's file has 2,046 to 2,048 bytes", longest
    yield "2,048 bytes", longest + bytes(LONGEST - len(longest))
    yield "2,049 bytes", longest + bytes(LONGEST + 1 - len(longest))
    yield "a mesh's file of 2,049 bytes", rules.file_bytes(1, 630, [[i, i + 1] for i in range(629)])
    yield "many bytes", bytes(100000)
    whole = bytearray(rules.file_bytes(*t))

    def turned(bit):
        data = bytearray(whole)
        data[bit // 8] ^= 128 >> bit % 8
        return bytes(data)

    yield "refusal 1", bytes(whole[:3])
    yield "refusal 2", bytes([0]) + bytes(whole[1:])
    yield "refusal 3", rules.file_bytes(2, 8193, [])
    yield "refusal 4", bytes((((2 << 30) | (4 << 16) | (4097 << 3)).to_bytes(4, "big")))
    yield "refusal 5", turned(31)
    yield "refusal 6", bytes(whole) + b"\0"
    yield "refusal 7", rules.file_bytes(2, 3, t[2])
    yield "refusal 8", rules.file_bytes(2, 4, [[0, 1, 3], [1, 1, 3]])
    yield "refusal 9", bytes(whole[:-1]) + b"\x0d"
    yield "refusal 23", rules.file_bytes(2, 4, [[0, 1, 3], [3, 0, 1]])
    rng = random.Random(6)
    for k in range(60):
        mesh = meshes.small_mesh(rng)
        yield "mesh %d" % k, rules.file_bytes(*mesh)
        yield "damaged mesh %d" % k, meshes.damaged_file(rng, rules.file_bytes(*mesh))


def main():
    words = os.environ.get("EMULATOR", "").split() + [sys.argv[1]]
    given = {}
    for name, data in cases():
        want = expected(data)
        got = subprocess.run(words, input=data, stdout=subprocess.PIPE, check=True).stdout
        if got != want:
            sys.exit("%s: printed %r, expected %r" % (name, got, want))
        kind = want.split(b"\n")[0] if not want.startswith(b"mesh") else b"mesh"
        given[kind] = given.get(kind, 0) + 1
    data = rules.file_bytes(2, 4, [[0, 1, 3], [1, 2, 3]])
    pieces = subprocess.Popen(words, stdin=subprocess.PIPE, stdout=subprocess.PIPE, bufsize=0)
    for k in range(0, len(data), 3):
        pieces.stdin.write(data[k:k + 3])
        time.sleep(0.02)
    got, _ = pieces.communicate()
    if got != expected(data):
        sys.exit("input in pieces: printed %r" % got)
    for number in (1, 2, 3, 4, 5, 6, 7, 8, 9, 13, 23):
        if b"refused %d" % number not in given:
            sys.exit("refusal %d was not met" % number)
    print("dayreport printed what the separate program gives for %d files: %s"
          % (sum(given.values()) + 1, ", ".join("%s: %d" % (k.decode(), n) for k, n in sorted(given.items()))))


if __name__ == "__main__":
    main()
