"""Runs target/samecells, which checks/readme.py leaves, on pairs of files of every kind, and holds all its lines to what the separate program finds; and the same
with a library that lies.

CC_X86 names the compiler, EMULATOR the words that run what it makes (checks/setup sets both); where EMULATOR is not empty the program is linked statically.
"""

import functools
import os
import random
import subprocess
import sys
import tempfile

import accept

TOP = accept.TOP
sys.path.insert(0, os.path.join(TOP, "compare"))

import meshes  # noqa: E402
import reference as rules  # noqa: E402

RIGHT, WRONG = [os.path.join(TOP, "target", name) for name in ("samecells", "samecells-lies")]
MOST_SHOWN = 10
NAMES = {1: ["vertex", "cell"], 2: ["vertex", "edge", "cell"], 3: ["vertex", "edge", "face", "cell"]}

# A library that lies in the book of file SIDE, 1 or 2. The numbers are those of the environment; what is not set is not done.
#   ASK           the refusal of daybook_ask_list; ANSWER that of its first pair
#   COUNT, MORE   word COUNT of the book, which has an N_d or the used length, is greater by MORE, as the program sees it
#   EULER         the Euler number is greater by so much; REFUSE_EULER is its refusal
#   D, E, I       say which row is meant, and FROM the reading of it that is the first to be a lie, 1 where it is not set
#     AS          row AS is given in its place
#     START, LONG it begins so much later, it is so much longer
#     REFUSE      its refusal, with a place
#     WORD, TO    in the book itself, number WORD of the row is TO
#   FULL          no book is ever large enough
LYING = """#include "daybook.h"
#include <stdlib.h>
static const uint8_t *files[2];
static const uint32_t *books[2];
static int readings;
static int is_set(const char *name) { return getenv(name) != NULL; }
static int value(const char *name) { return is_set(name) ? atoi(getenv(name)) : 0; }
static int is_meant(const uint32_t *book) { return book == books[value("SIDE") - 1]; }
static int is_row(uint32_t d, uint32_t e, uint32_t i) { return is_set("I") && (int)d == value("D") && (int)e == value("E") && (int)i == value("I"); }
static void count(const uint32_t *book, int more) { if (is_set("COUNT") && is_meant(book)) ((uint32_t *)book)[value("COUNT")] += (uint32_t)more; }
uint32_t lying_load(const uint8_t *file, size_t file_len, uint32_t *book, size_t book_len, uint32_t *cell) {
    int side = files[0] && files[0] != file;
    files[side] = file, books[side] = book;
    return is_set("FULL") ? DAYBOOK_NO_ROOM : daybook_load(file, file_len, book, book_len, cell);
}
uint32_t lying_ask_list(uint32_t *book, size_t book_len, const uint32_t *pairs, size_t pairs_len, uint32_t *answers, size_t answers_len) {
    uint32_t key, number = daybook_ask_list(book, book_len, pairs, pairs_len, answers, answers_len);
    size_t start, size, position;
    if (!is_meant(book)) return number;
    if (is_set("ASK")) return (uint32_t)value("ASK");
    if (is_set("ANSWER")) answers[0] = (uint32_t)value("ANSWER");
    if (is_set("WORD") && !daybook_row(book, book_len, (uint32_t)value("D"), (uint32_t)value("E"), (uint32_t)value("I"), &start, &size, &key, &position))
        book[start + (size_t)value("WORD")] = (uint32_t)value("TO");
    count(book, value("MORE"));
    return number;
}
uint32_t lying_row(const uint32_t *book, size_t book_len, uint32_t d, uint32_t e, uint32_t i, size_t *start, size_t *size, uint32_t *key, size_t *position) {
    int is_lie = is_meant(book) && is_row(d, e, i) && ++readings >= value("FROM");
    if (is_lie && is_set("REFUSE")) return *key = 4 * d + e, *position = i, (uint32_t)value("REFUSE");
    count(book, -value("MORE"));
    uint32_t number = daybook_row(book, book_len, d, e, is_lie && is_set("AS") ? (uint32_t)value("AS") : i, start, size, key, position);
    count(book, value("MORE"));
    if (is_lie) *start += (size_t)value("START"), *size += (size_t)value("LONG");
    return number;
}
uint32_t lying_euler(const uint32_t *book, size_t book_len, int64_t *number, uint32_t *key, size_t *position) {
    if (is_meant(book) && is_set("REFUSE_EULER")) return (uint32_t)value("REFUSE_EULER");
    uint32_t refusal = daybook_euler(book, book_len, number, key, position);
    if (is_meant(book)) *number += value("EULER");
    return refusal;
}
"""
LIES = {"daybook_load": "lying_load", "daybook_ask_list": "lying_ask_list", "daybook_row": "lying_row", "daybook_euler": "lying_euler"}

# Each file is asked for more than once.
relations = functools.lru_cache(maxsize=4)(accept.relations)


def demand(what, got, wanted):
    if got != wanted:
        sys.exit("samecells: %s: %.900r, and not %.900r" % (what, got, wanted))


def difference(one, other):
    """The lines of two meshes that are not the same cells."""
    lines = ["not the same"]
    if one[0] != other[0]:
        return lines + ["D: %d and %d" % (one[0], other[0])]
    if one[1] != other[1]:
        lines.append("vertices: %d and %d" % (one[1], other[1]))
    ours, theirs = [[frozenset(cell) for cell in mesh[2]] for mesh in (one, other)]
    if set(ours) == set(theirs):
        return lines + ["cells: the same %d" % len(ours)]
    for which, cells, others in (("first", ours, set(theirs)), ("second", theirs, set(ours))):
        alone = [c for c, cell in enumerate(cells) if cell not in others]
        lines.append("cells only in the %s: %d" % (which, len(alone)))
        lines += ["cell %d: vertices %s" % (c, " ".join(map(str, sorted(cells[c])))) for c in alone[:MOST_SHOWN]]
    return lines


def head_lines(one, other, maps):
    """What is said of two meshes that are the same cells, before the map or the relations."""
    D, points, cells = one
    used, moved = len({v for cell in cells for v in cell}), [sum(i != k for i, k in enumerate(of)) for of in maps]
    lines = ["the same cells in %s order" % ("another" if moved[D] else "the same")]
    lines.append("vertices: %d, with the same numbers; Euler number: %d" % (points, used + sum((-1) ** d * len(maps[d]) for d in range(1, D + 1))))
    return lines + ["%ss: %d, with another number: %d" % (NAMES[D][d], len(maps[d]), moved[d]) for d in range(1, D + 1)]


def map_lines(one, maps):
    """The map, a line for each edge, face and cell."""
    lines = []
    for d in range(1, one[0] + 1):
        for vertices, i in rules.numbers_of(one, d).items():
            lines.append("%s %d is %d: vertices %s" % (NAMES[one[0]][d], i, maps[d][i], " ".join(map(str, sorted(vertices)))))
    return lines


def relation_lines(one, other, maps):
    """What each relation has, read through the map; the separate program finds the same entries, or says that the paper is wrong."""
    (counts, ours), (others, theirs) = [relations(rules.file_bytes(*mesh)) for mesh in (one, other)]
    demand("every N_d", counts, others)
    for (d, e), rows in ours.items():
        demand("the entries of %d→%d" % (d, e), rules.through(rows, maps[d], maps[e]), theirs[d, e])
    demand("0→0", ours[0, 0], theirs[0, 0])
    return ["%d→%d: the same %s" % (*r, "words" if ours[r] == theirs[r] else "entries, other words") for r in ours]


def expected(names, files, whole):
    """The exit code and all lines of two files, by the separate program; the map, or with --relations the relations."""
    read = [rules.read_file(data) for data in files]
    refused = ["%s: refused %d%s" % (name, number, "" if cell is None else ", cell %d" % cell) for name, (number, cell, _) in zip(names, read) if number]
    if refused:
        return 1, refused
    one, other = [mesh for _, _, mesh in read]
    if not rules.same_cells(one, other):
        return 1, difference(one, other)
    maps = [rules.partners(one, other, d) for d in range(one[0] + 1)]
    demand("the map of the vertices", maps[0], list(range(one[1])))
    return 0, head_lines(one, other, maps) + (relation_lines(one, other, maps) if whole else map_lines(one, maps))


class Pairs:
    """Runs the program on pairs of files, and counts them by what it says first."""

    def __init__(self, folder):
        self.names = [os.path.join(folder, name) for name in ("a.day", "b.day")]
        self.said = {}

    def hold(self, one, other, whole):
        """Holds the lines on two files, given as bytes or as meshes, to the separate program's."""
        files = [mesh if isinstance(mesh, bytes) else rules.file_bytes(*mesh) for mesh in (one, other)]
        for name, data in zip(self.names, files):
            with open(name, "wb") as file:
                file.write(data)
        code, lines = expected(self.names, files, whole)
        got = accept.said(RIGHT, self.names + (["--relations"] if whole else []))
        demand("of %s and %s" % tuple(data[:64].hex() for data in files), got, (code, "".join(line + "\n" for line in lines), ""))
        kind = "refused" if "refused" in lines[0] else lines[0]
        self.said[kind] = self.said.get(kind, 0) + 1

    def both(self, one, other):
        """The same with and without --relations, and each of the two as the first."""
        for whole in (False, True):
            self.hold(one, other, whole)
            self.hold(other, one, whole)


def contents(name):
    with open(os.path.join(TOP, "examples", name + ".day"), "rb") as file:
        return file.read()


def same_ones(pairs, rng):
    """The same cells: T, meshes of every D with points in no cell and without, meshes without cells, the same file, and cells that differ in the order of their vertices alone."""
    t, again, dam = [contents(name) for name in ("t", "t-again", "dam")]
    pairs.both(t, again)
    for data in (t, again):
        pairs.hold(data, data, False)
        pairs.hold(data, data, True)
    for mesh in [(D, points, []) for D in (1, 2, 3) for points in (0, 5, 8192)]:
        pairs.both(mesh, mesh)
    # the last two cells of a tetrahedron's surface in another order, which leaves every edge its number
    D, points, cells = meshes.CLOSED[0]
    pairs.both((D, points, cells), (D, points, cells[:2] + [cells[3], cells[2]]))
    some = [meshes.random_mesh(rng, D, points, count) for D in (1, 2, 3) for points, count in ((4, 3), (6, 5), (9, 14), (12, 30))]
    some += [(D, 8192, [list(range(low, low + D + 1)) for low in (8191 - D, 0, 17)]) for D in (1, 2, 3)]
    for D, points, cells in some + [meshes.small_mesh(rng) for _ in range(20)] + list(meshes.CLOSED):
        turned = D, points, [rng.sample(cell, D + 1) for cell in cells]
        pairs.hold((D, points, cells), turned, rng.random() < 0.5)
        for _ in range(2):
            pairs.both((D, points, cells), meshes.in_another_order(rng, (D, points, cells)))
    for mesh in (meshes.box(3, 3, 3), meshes.sheet(15, 15), meshes.fan(90), meshes.pages(60), meshes.scattered(200, 300)):
        pairs.hold(mesh, meshes.in_another_order(rng, mesh), True)
    pairs.hold(dam, meshes.in_another_order(rng, rules.read_file(dam)[2]), True)


def full_ones(pairs, rng):
    """Meshes of the full size."""
    for mesh in (meshes.box(8, 8, 10), meshes.sheet(47, 45), meshes.fan(4098), meshes.scattered(4096, 8192), meshes.strip(1, 8192, 4000), meshes.strip(3, 8192, 4000)):
        other = meshes.in_another_order(rng, mesh)
        pairs.hold(mesh, other, False)
        pairs.hold(mesh, (other[0], other[1], other[2][:-1]), False)


def other_ones(pairs, rng):
    """Not the same: a cell more, fewer or changed, many changed, another number of vertices, another D."""
    for _ in range(60):
        D, points, cells = meshes.random_mesh(rng, rng.choice((1, 2, 3)), rng.choice((5, 6, 9, 14)), rng.choice((1, 2, 5, 30)))
        _, _, others = meshes.in_another_order(rng, (D, points, cells))
        new = rng.sample(range(points), D + 1)
        fresh = set(new) not in map(set, cells)
        pairs.both((D, points, cells), (D, points + 1, others))
        pairs.hold((D, points, cells), (D, points, others[1:]), rng.random() < 0.5)
        pairs.hold((D, points, cells), (D, points, others + [new] * fresh), rng.random() < 0.5)
        pairs.hold((D, points, cells), (D, points + 3, others[1:] + [new] * fresh), rng.random() < 0.5)
        pairs.hold((D, points, cells), meshes.random_mesh(rng, D, points, 30), rng.random() < 0.5)
        pairs.hold((D, points, cells), meshes.random_mesh(rng, D % 3 + 1, points, 3), rng.random() < 0.5)
    pairs.both((2, 4, []), (3, 4, []))
    pairs.both((2, 4, []), (2, 5, []))
    pairs.hold(contents("dam"), contents("scan"), False)


def refused_ones(pairs, rng):
    """Files that are refused, the first, the second or both, with each number."""
    t, met = contents("t"), set()
    for _ in range(150):
        data = rng.choice((meshes.faulty_file, lambda r: meshes.damaged_file(r, rules.file_bytes(*meshes.small_mesh(r)))))(rng)
        met.add(rules.read_file(data)[0])
        one, other = rng.choice(((t, data), (data, t), (data, data), (data, meshes.faulty_file(rng))))
        pairs.hold(one, other, rng.random() < 0.5)
    pairs.hold(t, t + bytes(40000), False)
    demand("the refusals", {1, 2, 3, 4, 5, 6, 7, 8, 9, 23} - met, set())


def words(pairs):
    """Words that are wrong, files that are not there, folders, and lines that cannot be written."""
    a, b = pairs.names
    missing, folder = a + "s", os.path.dirname(a)
    usage = "samecells FIRST SECOND [--relations]: two day files, and whether their relations are compared\n"
    for given in ([], [a], [a, b, b], [a, b, "--relation"], [a, b, "--relations", b], ["--relations", a, b], [a, "--relations"], [a, "--relations", b], ["--relations", a],
                  [missing, folder, "--all"], ["--", a], [a, b, ""]):
        demand("the words %s" % given, accept.said(RIGHT, given), (2, "", usage))
    for more in ([], ["--relations"]):
        for given, said in (([missing, a], missing + " cannot be opened\n"), ([a, missing], missing + " cannot be opened\n"), ([folder, a], folder + " cannot be read\n"),
                            ([a, folder], folder + " cannot be read\n"), ([missing, folder], "%s cannot be opened\n%s cannot be read\n" % (missing, folder))):
            demand("the files %s" % given, accept.said(RIGHT, given + more), (2, "", said))
    with open("/dev/full", "w") as full:
        done = subprocess.run(accept.EMULATOR.split() + [RIGHT, a, a], stdout=full, stderr=subprocess.PIPE)
    demand("lines that cannot be written", (done.returncode, done.stderr.decode()), (2, "the lines cannot be written\n"))


def build_wrong(folder):
    """The program with the library that lies in the place of the right one."""
    source, words = os.path.join(folder, "lying.c"), os.environ.get("CC_X86", "cc").split() + ["-std=c99", "-O2", "-I", accept.FOLDER]
    with open(source, "w") as file:
        file.write(LYING)
    parts = [os.path.join(folder, name) for name in ("lying.o", "samecells.o")]
    subprocess.run(words + ["-c", source, "-o", parts[0]], check=True)
    subprocess.run(words + ["-D%s=%s" % lie for lie in LIES.items()] + ["-c", os.path.join(TOP, "examples", "samecells.c"), "-o", parts[1]], check=True)
    subprocess.run(words + (["-static"] if accept.EMULATOR else []) + parts + [os.path.join(accept.FOLDER, "libdaybook.a"), "-o", WRONG], check=True)


def lie(line, after, whole=False, **how):
    """A library that lies so is found out on T and T again: the exit code, the line that says so, and how many lines stand before it."""
    names = [os.path.join(TOP, "examples", name + ".day") for name in ("t", "t-again")]
    code, out, err = accept.said(WRONG, names + (["--relations"] if whole else []), **how)
    lines = out.splitlines()
    demand("a lie of %s" % how, (code, lines[after:after + 1], err), (1, [line], ""))
    demand("what is called the same", lines[:1] == ["the same cells in another order"], after > 0)


def single_lies():
    """One lie for each thing that the program looks at. T again has the edges 1 2, 1 3, 2 3, 0 1 and 0 3."""
    t, again = [os.path.join(TOP, "examples", name + ".day") for name in ("t", "t-again")]
    rule = "WRONG: %s: row %d of %d→%d breaks the row rule"
    # a row that is too long, too short, outside the book, not ascending, with a number twice, with one that is too large
    lie(rule % (again, 3, 1, 0), 0, SIDE=2, D=1, E=0, I=3, LONG=1)
    lie(rule % (t, 0, 2, 0), 0, SIDE=1, D=2, E=0, I=0, LONG=-1)
    lie(rule % (again, 4, 1, 0), 0, SIDE=2, D=1, E=0, I=4, START=1000000)
    lie(rule % (again, 0, 1, 0), 0, SIDE=2, D=1, E=0, I=0, WORD=0, TO=3)
    lie(rule % (again, 0, 1, 0), 0, SIDE=2, D=1, E=0, I=0, WORD=0, TO=2)
    lie(rule % (again, 2, 1, 0), 0, SIDE=2, D=1, E=0, I=2, WORD=1, TO=4)
    lie(rule % (t, 1, 1, 2), 9, True, SIDE=1, D=1, E=2, I=1, LONG=1)
    lie(t + ": refused 11, relation 1→2, index 1", 0, True, SIDE=1, D=1, E=2, I=1, WORD=0, TO=2)
    # rows and calls that are refused
    lie(again + ": refused 16", 0, SIDE=2, D=1, E=0, I=2, REFUSE=16)
    lie(t + ": refused 11, relation 2→0, offset 1", 0, SIDE=1, D=2, E=0, I=1, REFUSE=11)
    lie(again + ": refused 20", 0, SIDE=2, ASK=20)
    lie(t + ": refused 25", 0, SIDE=1, ANSWER=25)
    lie(again + ": refused 15", 0, SIDE=2, REFUSE_EULER=15)
    # the same vertices twice, other vertices, other numbers
    lie("WRONG: %s: two edges have the vertices of edge 1" % again, 0, SIDE=2, D=1, E=0, I=1, AS=0)
    lie("WRONG: %s: two cells have the vertices of cell 1" % t, 0, SIDE=1, D=2, E=0, I=0, AS=1)
    lie("WRONG: edges without a partner: 1", 0, SIDE=2, D=1, E=0, I=4, WORD=1, TO=2)
    lie("WRONG: edges: 5 and 6", 0, SIDE=2, COUNT=2, MORE=1)
    lie("WRONG: edges: 4 and 5", 0, SIDE=1, COUNT=2, MORE=-1)
    lie("WRONG: Euler number: 1 and 2", 0, SIDE=2, EULER=1)
    lie("WRONG: %s: more words are used than are lent" % again, 0, SIDE=2, COUNT=4, MORE=1000000)
    # rows that are others when they are read again, before the first line and in the map
    lie("WRONG: edge 1 and its partner 4 have other vertices", 0, SIDE=2, D=1, E=0, I=4, AS=0, FROM=2)
    lie("WRONG: cell 1 and its partner 0 have other vertices", 0, SIDE=1, D=2, E=0, I=1, AS=0, FROM=2)
    lie("WRONG: edge 1 and its partner 4 have other vertices", 5, SIDE=2, D=1, E=0, I=4, AS=0, FROM=3)
    lie("WRONG: cell 0 and its partner 1 have other vertices", 9, SIDE=1, D=2, E=0, I=0, AS=1, FROM=3)


def relation_lies():
    """Relations of which one row is another, longer or shorter, or has one entry that is another, in either book."""
    other = "%d→%d: OTHER ENTRIES, first at row %d and its partner %d"
    lie(other % (1, 2, 2, 1), 9, True, SIDE=2, D=1, E=2, I=1, AS=0)
    lie(other % (1, 2, 2, 1), 9, True, SIDE=2, D=1, E=2, I=1, LONG=-1)
    lie(other % (1, 2, 4, 2), 9, True, SIDE=2, D=1, E=2, I=2, LONG=1)
    lie(other % (1, 2, 0, 3), 9, True, SIDE=1, D=1, E=2, I=0, AS=2)
    lie(other % (0, 0, 3, 3), 4, True, SIDE=2, D=0, E=0, I=3, AS=1)
    lie(other % (2, 1, 1, 0), 11, True, SIDE=1, D=2, E=1, I=1, AS=0)
    lie(other % (1, 0, 2, 1), 7, True, SIDE=2, D=1, E=0, I=1, AS=0, FROM=3)


def every_entry():
    """Each entry of each relation of T, in either book, changed by one up or down: none is called the same."""
    names, tried = [os.path.join(TOP, "examples", name + ".day") for name in ("t", "t-again")], 0
    for side, name in enumerate(names, 1):
        rows = relations(contents(os.path.basename(name)[:-4]))[1]
        for d, e in rows:
            for i, row in enumerate(rows[d, e]):
                for k, j in enumerate(row):
                    for to in (j + 1, j - 1) if j else (j + 1,):
                        code, out, _ = accept.said(WRONG, names + ["--relations"], SIDE=side, D=d, E=e, I=i, WORD=k, TO=to)
                        found = any(words in out for words in ("WRONG: ", ": OTHER ENTRIES, ", ": refused 11, relation ")) or (d, e) == (2, 0) and out.startswith("not the same\n")
                        demand("%d→%d, row %d of file %d with %d for %d" % (d, e, i, side, to, j), (code, found), (1, True))
                        tried += 1
    return tried


def wrong_ones(folder):
    """Libraries that lie; one that does not, and one that finds no book large enough."""
    build_wrong(folder)
    names = [os.path.join(TOP, "examples", name + ".day") for name in ("t", "t-again")]
    for more in ([], ["--relations"]):
        demand("a right library", accept.said(WRONG, names + more, SIDE=1), accept.said(RIGHT, names + more))
    demand("no room", accept.said(WRONG, names, SIDE=1, FULL=1), (2, "", "the book does not fit in memory\n"))
    single_lies()
    relation_lies()
    return every_entry()


def main():
    with tempfile.TemporaryDirectory() as folder:
        pairs, rng = Pairs(folder), random.Random(13)
        same_ones(pairs, rng)
        full_ones(pairs, rng)
        other_ones(pairs, rng)
        refused_ones(pairs, rng)
        words(pairs)
        lies = wrong_ones(folder)
    demand("what is said first", set(pairs.said), {"the same cells in another order", "the same cells in the same order", "not the same", "refused"})
    same = sum(count for said, count in pairs.said.items() if said.startswith("the same"))
    print("samecells: %d pairs of files, %d of them the same cells, each line as the separate program has it; libraries that lie are found out, %d of them by one entry"
          % (sum(pairs.said.values()), same, lies))


if __name__ == "__main__":
    main()
