"""Runs target/walk and target/rim, which checks/readme.py leaves, on meshes of every kind, and holds what they say to what the separate program finds.

EMULATOR names the words that run them (checks/setup sets it).
"""

import os
import random
import subprocess
import sys
import tempfile

TOP = os.path.dirname(os.path.dirname(os.path.abspath(__file__)))
sys.path.insert(0, os.path.join(TOP, "compare"))

import meshes  # noqa: E402
import reference as rules  # noqa: E402

WHYS = {1: "D is not 2", 2: "vertex %d lies in no cell", 3: "edge %d does not lie in one cell or two"}


def said(name, path):
    """The exit code, and what was printed and said of a file."""
    words = os.environ.get("EMULATOR", "").split() + [os.path.join(TOP, "target", name)]
    done = subprocess.run(words + [path], stdout=subprocess.PIPE, stderr=subprocess.PIPE)
    return done.returncode, done.stdout.decode(), done.stderr.decode()


def sheet(book):
    """Why the book is no sheet, in words, or None, and the edges of its rim; None for more than there may be."""
    across, rim, vertices, edges = [None] * (3 * (book[0] >> 3 & 0x1FFF)), bytearray(13316), [None] * 8192, [None] * 4096
    number, given, why, _ = rules.sheet(book, across, rim, vertices, edges)
    if why:
        return WHYS[why.why] if why.which is None else WHYS[why.why] % why.which, None
    assert number in (0, 29), number
    return None, edges[:given.edges] if given else None


def pieces(edges, ends):
    """How many pieces these edges are: each vertex begins as a piece of its own, and each edge makes those of its ends one."""
    of = {v: v for edge in edges for v in ends[edge]}
    for edge in edges:
        one, other = [of[v] for v in ends[edge]]
        of = {v: one if piece == other else piece for v, piece in of.items()}
    return len(set(of.values()))


def walked(book):
    """The lines of a walk through a book, by the cells at each edge."""
    for relation in ((2, 1), (1, 2), (2, 2)):
        assert rules.ask(book, *relation) == (0, None)
    used = book[4]
    for relation in ((0, 1), (0, 2)):
        assert rules.drop(book, *relation) == (0, None)
    frame = rules.Frame.of(book)
    edges_of, cells_at, ends, around = [frame.rows(*relation) for relation in ((2, 1), (1, 2), (1, 0), (2, 2))]
    why, rim = sheet(book)
    out = ["no sheet: " + why if why else "a sheet, edges at the rim: " + ("over 4096" if rim is None else str(len(rim)))]
    seen, count = set(), 0
    for first in range(len(edges_of)):
        if first in seen:
            continue
        out.append("cell %d: a piece begins here" % first)
        seen.add(first)
        queue, count = [first], count + 1
        for cell in queue:
            for edge in edges_of[cell]:
                for other in [other for other in cells_at[edge] if other not in seen]:
                    seen.add(other)
                    queue.append(other)
                    out.append("cell %d from cell %d over edge %d, from vertex %d to vertex %d" % (other, cell, edge, *ends[edge]))
    out.append("cells: %d, pieces: %d, edges: %d, at the border: %d, most cells around one: %d" % (
        len(edges_of), count, len(ends), sum(len(cells) == 1 for cells in cells_at), max(map(len, around), default=0)))
    return out + ["words: %d, of which %d were given back" % (used, used - book[4])], why, rim, ends


def expected(data):
    """What both programs have to say of a file, each with its exit code."""
    D, book = data[0] >> 6, [0] * (1 << 18)
    assert rules.load(data, book) == (0, None)
    if D != 2:
        return (1, "no triangles: D is %d\n" % D, ""), (1, "", "no sheet: D is not 2\n")
    lines, why, rim, ends = walked(book)
    walk = 0, "\n".join(lines) + "\n", ""
    if why or rim is None:
        return walk, (1, "", "no sheet: %s\n" % why if why else "refused 29\n")
    told = "a sheet, edges at the rim: %d, vertices: %d, pieces: %d\n" % (len(rim), len({v for edge in rim for v in ends[edge]}), pieces(rim, ends))
    return walk, (0, "".join("%d %d %d\n" % (edge, *ends[edge]) for edge in rim), told)


def files():
    rng = random.Random(11)
    for name in ("t", "dam", "scan", "stack"):
        with open(os.path.join(TOP, "examples", name + ".day"), "rb") as file:
            yield file.read()
    for mesh in ((1, 2, [[0, 1]]), (2, 0, []), (2, 3, []), meshes.ribbon(4095), meshes.torus(5, 4)) + meshes.CLOSED:
        yield rules.file_bytes(*mesh)
    for _ in range(60):
        yield rules.file_bytes(*meshes.near_sheet(rng))


def main():
    kinds = {}
    with tempfile.TemporaryDirectory() as folder:
        path = os.path.join(folder, "a.day")
        for data in files():
            with open(path, "wb") as file:
                file.write(data)
            for name, wanted in zip(("walk", "rim"), expected(data)):
                got = said(name, path)
                if got != wanted:
                    sys.exit("%s: of %s: %.600r, and not %.600r" % (name, data[:64].hex(), got, wanted))
            kind = got[2].split(":")[0].split()[0]
            kinds[kind] = kinds.get(kind, 0) + 1
    if set(kinds) != {"a", "no", "refused"}:
        sys.exit("walk: not every kind was met: %s" % kinds)
    print("walk and rim: %d meshes, each with the words that the separate program gives; %d are sheets" % (sum(kinds.values()), kinds["a"]))


if __name__ == "__main__":
    main()
