#!/usr/bin/env python3
"""Runs daysalvage on files of every kind, and compares what it writes, byte for byte, with what the separate program makes of the file, and what it says
on standard error, word for word, with what is said of it here. Then an input in pieces, one that stays open, and input and output that fail.

EMULATOR holds the words that run a program for x86-64 (checks/setup sets them); the one argument is the program's path.
"""

import itertools
import os
import random
import subprocess
import sys
import time

import meshes
import reference as rules

LONGEST = 26628
REASONS = {6: "not whole in the file", 7: "a vertex out of range", 8: "a vertex twice", 23: "equal to an earlier cell"}
REFUSALS = {1: "fewer than 4 bytes", 2: "D is 0", 3: "more than 8192 vertices", 4: "more than 4096 cells"}


def words_for(data, said, dropped):
    """What is said of a file that was salvaged: a line for each run of cells dropped for one reason, what was wrong besides, and how much was kept."""
    pairs = list(zip(dropped[0:2 * said.dropped:2], dropped[1:2 * said.dropped:2]))
    for (_, why), run in itertools.groupby(enumerate(pairs), lambda at: (at[1][0] - at[0], at[1][1])):
        cells = [pair[0] for _, pair in run]
        named = "cell %d" % cells[0] if len(cells) == 1 else "cells %d to %d" % (cells[0], cells[-1])
        yield "%s: dropped, %s (%d)" % (named, REASONS[why], why)
    for was, line in ((said.spare, "spare bits were set"), (said.pad, "pad bits were set"), (said.wrong_length, "the length was not the one that the header asks")):
        if was:
            yield line
    count = int.from_bytes(data[:4], "big") >> 3 & 8191
    yield "kept %d of %d cells, %d bytes written" % (count - said.dropped, count, said.length)


def expected(data):
    """What is written for this input, which is read no further than its first 26,628 bytes, what is said of it, and why each cell dropped was."""
    out, dropped = bytearray(LONGEST), [0] * 8192
    number, said = rules.salvage(data[:LONGEST], out, dropped)
    if number:
        return b"refused %d\n" % number, b"refused: %s\n" % REFUSALS[number].encode(), []
    text = "".join(line + "\n" for line in words_for(data, said, dropped))
    return bytes(out[:said.length]), text.encode(), dropped[1:2 * said.dropped:2]


def head(D, points, cells, spare=0):
    return (D << 30 | points << 16 | cells << 3 | spare).to_bytes(4, "big")


def cases():
    t = rules.file_bytes(2, 4, [[0, 1, 3], [1, 2, 3]])
    tetrahedra = rules.file_bytes(3, 6, [[3, 1, 0, 2], [5, 4, 3, 2], [0, 1, 2, 3]])
    for data in (t, tetrahedra, rules.file_bytes(1, 3, [[0, 1], [2, 1], [1, 1], [0, 2]])):
        for length in range(len(data) + 1):
            yield "%d bytes of %s" % (length, data.hex()), data[:length]
        for more in (b"\0", b"\xff", bytes(30000), b"\xff" * 30000):
            yield "%s and %d bytes" % (data.hex(), len(more)), data + more
    for number, data in ((2, head(0, 4, 2)), (3, head(2, 8193, 2)), (4, head(2, 4, 4097))):
        yield "refusal %d" % number, data
        yield "refusal %d of a longer file" % number, data + t[4:]
    for D in (1, 2, 3):
        yield "no cells, D = %d" % D, head(D, 5, 0)
        yield "4,096 cells that are not there, D = %d" % D, head(D, 8192, 4096, 5)
    yield "pad bits", t[:-1] + b"\x0f"
    yield "spare bits", head(2, 4, 2, 7) + t[4:]
    yield from full_size()
    rng = random.Random(10)
    for k in range(250):
        yield "file %d" % k, meshes.file_to_salvage(rng)


def full_size():
    """4,096 tetrahedra make the longest file, of 26,628 bytes; 4,096 triangles one of 19,972."""
    whole, flat = rules.file_bytes(*meshes.scattered(4096, 8192)), rules.file_bytes(*meshes.strip(2, 4098, 0))
    assert len(whole) == LONGEST and len(flat) == 19972
    for length in (LONGEST, LONGEST - 1, LONGEST // 2, 20000, 4):
        yield "%d bytes of the longest file" % length, whole[:length]
    for more in (1, 7, 100000):
        yield "the longest file and %d bytes" % more, whole + b"\xff" * more
    for length in (19972, 19971, 9986):
        yield "%d bytes of 4,096 triangles" % length, flat[:length]
    for more in (LONGEST - 19972 - 1, LONGEST - 19972, LONGEST - 19972 + 1, 100000):
        yield "4,096 triangles and %d bytes" % more, flat + b"\xff" * more
    for D in (1, 2, 3):
        yield "4,096 times one cell, D = %d" % D, rules.file_bytes(D, 9, [[2, 8, 5, 7][:D + 1]] * 4096)
    yield "every second cell spoiled", rules.file_bytes(2, 4098, [[c, c + 1, c + 1 + (c + 1) % 2] for c in range(4096)])
    yield "no vertices", head(3, 0, 4096) + whole[4:]
    yield "any bytes", head(3, 4096, 4096, 1) + random.Random(3).randbytes(LONGEST)


def in_pieces(words):
    data = rules.file_bytes(2, 4, [[0, 1, 3], [1, 2, 3]])[:-1]
    pieces = subprocess.Popen(words, stdin=subprocess.PIPE, stdout=subprocess.PIPE, stderr=subprocess.PIPE, bufsize=0)
    for k in range(0, len(data), 3):
        pieces.stdin.write(data[k:k + 3])
        time.sleep(0.02)
    if pieces.communicate() != expected(data)[:2]:
        sys.exit("input in pieces: wrote something else")


def left_open(words):
    """The longest file, and an input that does not end behind it: no more is waited for."""
    data = rules.file_bytes(*meshes.scattered(4096, 8192))
    reading, writing = os.pipe()
    done = subprocess.Popen(words, stdin=reading, stdout=subprocess.PIPE, stderr=subprocess.PIPE)
    os.close(reading)
    with os.fdopen(writing, "wb") as stream:
        stream.write(data)
        stream.flush()
        try:
            got = done.communicate(timeout=60)
        except subprocess.TimeoutExpired:
            done.kill()
            sys.exit("an input that stays open behind the longest file: it waits")
    if got != expected(data)[:2]:
        sys.exit("an input that stays open behind the longest file: wrote something else")


def failing(words):
    """An input that cannot be read, and an output that cannot be written: that is told, and nothing else."""
    folder = os.open(os.path.dirname(os.path.abspath(__file__)), os.O_RDONLY)
    done = subprocess.run(words, stdin=folder, stdout=subprocess.PIPE, stderr=subprocess.PIPE)
    os.close(folder)
    if done.stdout or b"standard input" not in done.stderr or b"kept" in done.stderr or b"refused" in done.stderr:
        sys.exit("an input that cannot be read: wrote %r, said %r" % (done.stdout, done.stderr))
    with open("/dev/full", "wb") as full:
        done = subprocess.run(words, input=rules.file_bytes(2, 4, [[0, 1, 3]]), stdout=full, stderr=subprocess.PIPE)
    if b"standard output" not in done.stderr or b"kept" in done.stderr:
        sys.exit("an output that cannot be written: said %r" % done.stderr)


def main():
    words = os.environ.get("EMULATOR", "").split() + [sys.argv[1]]
    given = {}

    def meet(kind):
        given[kind] = given.get(kind, 0) + 1

    for name, data in cases():
        want, said, reasons = expected(data)
        done = subprocess.run(words, input=data, stdout=subprocess.PIPE, stderr=subprocess.PIPE, check=True)
        if done.stdout != want:
            sys.exit("%s: wrote %d bytes, %r, expected %d, %r" % (name, len(done.stdout), done.stdout[:80], len(want), want[:80]))
        if done.stderr != said:
            sys.exit("%s: said\n%s, expected\n%s" % (name, done.stderr[:2000].decode(), said[:2000].decode()))
        meet(want.decode().strip() if want.startswith(b"refused") else "with cells dropped" if reasons else "with none dropped")
        for why in set(reasons):
            meet("with %d" % why)
    in_pieces(words)
    left_open(words)
    failing(words)
    for kind in ["refused %d" % number for number in (1, 2, 3, 4)] + ["with %d" % why for why in rules.REASONS] + ["with none dropped"]:
        if kind not in given:
            sys.exit("'%s' was not met" % kind)
    print("daysalvage wrote what the separate program gives, and said so in its words: %s" % ", ".join("%s: %d" % kind for kind in sorted(given.items())))


if __name__ == "__main__":
    main()
