"""Tests mesh.py: it makes the example files as they stand here, its pictures count the edges, colour the triangles, frame cells, mark
the rim and show the cells that are missing as the separate program does, and Gmsh files come out as the bytes written below, or with
one line that says what is wrong. The broken book is broken in the one word that README.md shows, the boxes and the rim that README.md
shows are the separate program's, and so are the cells of the file that was cut. A file that is shuffled has the same cells in another order.

    python3 examples/check.py
"""

import os
import struct
import subprocess
import sys
import tempfile
from xml.dom import minidom

HERE = os.path.dirname(os.path.abspath(__file__))
sys.path.insert(0, os.path.join(os.path.dirname(HERE), "compare"))

import phases  # noqa: E402
import reference as rules  # noqa: E402
import shapes  # noqa: E402

FILES = ("t.day", "t.xy", "t-again.day", "dam.day", "dam.xy", "dam.counts", "scan.day", "scan.xy", "stack.day", "stack.xy", "broken.book", "cut.day", "dam.rim")
COLOURS = {"minus": -1, "cells": 0, "plus": 1, "masked": 2}
T = bytes.fromhex("80040010 0000004006001001000c")
T_AGAIN = bytes.fromhex("80040010 00180040040010018000")
TETRAHEDRON = bytes.fromhex("c0040008 00180040000020")

# T with tags 3, 5, 7, 10, and a node that no triangle uses; a point and a line are passed by.
T_2 = """$MeshFormat
2.2 0 8
$EndMeshFormat
$PhysicalNames
1
2 1 "face"
$EndPhysicalNames
$Nodes
5
10 0 1 0
3 0 0 0
7 1 1 0
5 1 0 0
99 9 9 0
$EndNodes
$Elements
4
1 15 2 0 1 3
2 1 2 0 1 3 5
3 2 2 1 1 3 5 10
4 2 0 5 7 10
$EndElements
"""
T_4 = """$MeshFormat
4.1 0 8
$EndMeshFormat
$Entities
0 0 1 0
1 0 0 0 1 1 0 0 0
$EndEntities
$Nodes
2 5 3 99
1 1 0 2
3
5
0 0 0
1 0 0
2 1 1 3
7
10
99
1 1 0 1 1
0 1 0 0 1
9 9 0 9 9
$EndNodes
$Elements
3 4 1 9
0 1 15 1
1 3
1 1 1 1
2 3 5
2 1 2 2
8 3 5 10
9 5 7 10
$EndElements
"""
# The paper's tetrahedron, vertices in the order 3 1 0 2, and one of its triangles, which is left out.
SOLID_2 = """$MeshFormat
2.2 0 8
$EndMeshFormat
$Nodes
4
1 0 0 0
2 1 0 0
3 0 1 0
4 0 0.5 1e0
$EndNodes
$Elements
2
1 2 2 0 1 1 2 3
2 4 2 0 1 4 2 1 3
$EndElements
"""
SOLID_4 = """$MeshFormat
4.1 0 8
$EndMeshFormat
$Nodes
1 4 1 4
3 1 0 4
1
2
3
4
0 0 0
1 0 0
0 1 0
0 0.5 1e0
$EndNodes
$Elements
2 2 1 2
2 1 2 1
1 1 2 3
3 1 4 1
2 4 2 1 3
$EndElements
"""


def run(*words):
    """The exit code, and what was printed and said."""
    done = subprocess.run([sys.executable, os.path.join(HERE, "mesh.py")] + list(words), stdout=subprocess.PIPE, stderr=subprocess.PIPE)
    return done.returncode, done.stdout.decode(), done.stderr.decode()


def demand(what, got, wanted):
    if got != wanted:
        sys.exit("examples: %s: %.300r, and not %.300r" % (what, got, wanted))


def contents(*path):
    with open(os.path.join(*path), "rb") as file:
        return file.read()


def put(path, data):
    with open(path, "wb") as file:
        file.write(data if isinstance(data, bytes) else data.encode())
    return path


def made(folder):
    demand("make ends", run("make", "--to", folder)[0], 0)
    for name in FILES:
        demand(name + " is what make writes", contents(folder, name) == contents(HERE, name), True)
    demand("T", contents(folder, "t.day"), T)
    demand("T again", contents(folder, "t-again.day"), T_AGAIN)


def cell_sets(data):
    """D, N_0 and the vertex sets of the cells of a file, by the separate program."""
    D, points, cells = rules.read_file(data)[2]
    return D, points, [frozenset(cell) for cell in cells]


def shuffled(folder):
    """The same cells in another order, the vertices within each too; a seed gives one order, another seed another. T again is such a file."""
    day = os.path.join(folder, "other.day")
    for name in ("t", "dam", "stack"):
        source, orders = os.path.join(HERE, name + ".day"), []
        D, points, cells = cell_sets(contents(source))
        for seed in ([], ["--seed", "1"], ["--seed", "-7"]):
            said = "%s: D = %d, %d vertices, %d cells\n" % (day, D, points, len(cells))
            demand("shuffle", run("shuffle", source, day, *seed), (0, said, ""))
            orders.append(contents(day))
            given = cell_sets(orders[-1])
            demand("the same cells", (given[:2], len(given[2]), set(given[2])), ((D, points), len(cells), set(cells)))
            if len(cells) > 2:
                demand("another order", given[2] != cells, True)
                demand("vertices in another order", any(cell != sorted(cell) for cell in rules.read_file(orders[-1])[2][2]), True)
        demand("a seed gives one order, and another seed another", (orders[0] == orders[1], len(cells) == 2 or orders[1] != orders[2]), (True, True))
    demand("T again is T", [set(cell_sets(data)[2]) for data in (T, T_AGAIN)], [{frozenset((0, 1, 3)), frozenset((1, 2, 3))}] * 2)
    for data in (rules.file_bytes(1, 0, []), rules.file_bytes(3, 9, []), TETRAHEDRON):
        source = put(os.path.join(folder, "in.day"), data)
        demand("shuffle", [run("shuffle", source, source)[0], cell_sets(contents(source))], [0, cell_sets(data)])
    missing = os.path.join(folder, "none.day")
    for data, words in ((T[:13], "refused 6"), (b"\x80\x03" + T[2:], "refused 7, cell 0")):
        demand("shuffle", run("shuffle", put(source, data), missing), (1, "", "%s: %s\n" % (source, words)))
    demand("shuffle", run("shuffle", missing, missing), (1, "", "%s: No such file or directory\n" % missing))
    demand("a refused file is not written", os.path.exists(missing), False)


def broken():
    """The book that the separate program makes of T, but for word 87: 1→2 begins at word 84, and its offsets are 0 1 2 4 5 6."""
    book, right = list(struct.unpack("<128I", contents(HERE, "broken.book"))), [0] * 128
    demand("load", rules.load(T, right), (0, None))
    demand("ask", [rules.ask(right, d, e) for d in range(3) for e in range(3)], [(0, None)] * 9)
    demand("the words that are changed", [(at, word, right[at]) for at, word in enumerate(book) if word != right[at]], [(87, 0, 4)])
    demand("where the book is broken", rules.euler(book), (11, 0, (6, 3, "falling offset")))
    demand("README.md shows where", b"\n$ target/where examples/broken.book\nrelation 1\xe2\x86\x922, offset 3\n" in contents(HERE, "..", "README.md"), True)


def incidence(day):
    """N_0 to N_D, the Euler number, and how many edges touch one cell, two, and more, by the separate program."""
    book = [0] * (1 << 18)
    demand("load", rules.load(contents(day), book), (0, None))
    D = book[0] >> 30
    demand("ask", [rules.ask(book, d, e) for d, e in [(1, D)] + [(d, 0) for d in range(1, D)]], [(0, None)] * D)
    frame = rules.Frame.of(book)
    touched = [len(row) for row in frame.rows(1, D)]
    kinds = {"one": touched.count(1), "two": touched.count(2), "more": sum(n > 2 for n in touched)}
    return [frame.counts[d] for d in range(D + 1)], rules.euler(book), kinds


def closures(day, counts):
    """Each face's closure, and for each edge whether it is masked, by the separate program."""
    book = [0] * (1 << 18)
    demand("load", rules.load(contents(day), book), (0, None))
    demand("ask", [rules.ask(book, d, 0) for d in (1, 2)], [(0, None)] * 2)
    sizes = rules.Frame.of(book).counts
    faces, steps, masked = [[None] * sizes[d] for d in (2, 1, 1)]
    demand("closures", rules.closures(book, counts, faces, steps, masked), (0, None))
    return faces, masked


def scan():
    """The dam's file but for N_0, which is forty greater."""
    D, points, cells = rules.read_file(contents(HERE, "dam.day"))[2]
    demand("the scan is the dam and forty points", contents(HERE, "scan.day"), rules.file_bytes(D, points + 40, cells))


def salvaged(data):
    """The file that the separate program saves, and what it says of the one given and of each cell dropped."""
    out, dropped = bytearray(len(data)), [None] * 8192
    number, said = rules.salvage(data, out, dropped)
    demand("salvage", number, 0)
    return bytes(out[:said.length]), said, list(zip(dropped[:2 * said.dropped:2], dropped[1::2]))


def cut():
    """The first half of the dam's file; a cell has 39 bits. Saved are its first 1,841 cells, and README.md has their number and that of the others."""
    whole, half = [contents(HERE, name) for name in ("dam.day", "cut.day")]
    D, points, cells = rules.read_file(whole)[2]
    demand("the first half of the dam's file", half, whole[:len(whole) // 2])
    demand("a load of the half", rules.read_file(half)[:2], (6, None))
    saved, said, dropped = salvaged(half)
    demand("the dam's first cells are saved", saved, rules.file_bytes(D, points, cells[:1841]))
    demand("what is said of the half", said, (8979, 1842, False, False, True))
    demand("the cells dropped", dropped, [(c, 6) for c in range(1841, 3683)])
    for words in (b"\ncells: 1841, pieces: 1,", b"1,841 triangles arrived, and 1,842 are missing"):
        demand("README.md shows the cells saved", words in contents(HERE, "..", "README.md"), True)
    return saved


def missing_pictures(folder):
    """What was saved of the dam beside the whole; T without a cell, a whole mesh that is the same, and tetrahedra, with places and without: the edges, the cells and the points that are missing."""
    t, stack, halves = contents(HERE, "t.day"), contents(HERE, "stack.day"), [rules.file_bytes(2, 5, [[0, 1, 3]]), rules.file_bytes(2, 5, [[1, 2, 3], [3, 1, 0]])]
    some = salvaged(stack[:1000])[0]
    for part, whole, xy in ((cut(), contents(HERE, "dam.day"), "dam.xy"), (halves[0], halves[1], None), (halves[1], halves[0], None), (t, t, "t.xy"), (some, stack, "stack.xy"), (some, stack, None)):
        day, full, svg = [os.path.join(folder, name) for name in ("saved.day", "whole.day", "saved.svg")]
        words = ["--xy", os.path.join(HERE, xy)] if xy else []
        demand("draw", run("draw", put(day, part), svg, "--whole", put(full, whole), *words), (0, "", ""))
        texts, _, paths = parts(svg)
        sets = [[set(cell) for cell in rules.read_file(data)[2][2]] for data in (part, whole)]
        lost = [cell for cell in sets[1] if cell not in sets[0]]
        edges = [{(a, b) for cell in cells for a in cell for b in cell if a < b} for cells in (sets[0], lost)]
        demand("edges that are missing", paths["missing"].count("M"), len(edges[1] - edges[0]))
        demand("legend of what is missing", texts[-4], "missing: %d cell%s" % (len(lost), "" if len(lost) == 1 else "s"))
        demand("points that no cell uses", paths["alone"].count("M"), rules.read_file(part)[2][1] - len(set().union(*sets[0], *lost)))
        if xy == "dam.xy":
            demand("cut.svg is what draw writes", contents(svg) == contents(HERE, "cut.svg"), True)
    counts = put(os.path.join(folder, "in.counts"), "0\n" * 5)
    demand("draw", run("draw", put(day, halves[0]), svg, "--whole", put(full, halves[1]), "--counts", counts), (0, "", ""))
    demand("legends", [text.split(":")[0] for text in parts(svg)[0][-8:-3]], ["missing", "closure −1", "closure 0", "closure +1", "masked"])


def sheet(data):
    """The separate program's answer for a file's sheet: its number, why it is none, and the rim's edges, each with its number and its vertices."""
    book = [0] * (1 << 18)
    demand("load", rules.load(data, book), (0, None))
    if data[0] >> 6 == 2:
        demand("ask", rules.ask(book, 1, 2), (0, None))
    across, rim, vertices, edges = [None] * (3 * (book[0] >> 3 & 0x1FFF)), bytearray(13316), [None] * 8192, [None] * 4096
    number, said, why, _ = rules.sheet(book, across, rim, vertices, edges)
    if number:
        return number, why, None
    ends = rules.read_file(bytes(rim[:said.length]))[2][2]
    return 0, None, [(edge, *[vertices[v] for v in two]) for edge, two in zip(edges, ends)]


def sheets():
    """The dam is a sheet, and its rim is dam.rim; README.md has its numbers. The scan, the half that was saved and the stack are none, and README.md says why of the scan."""
    number, _, rim = sheet(contents(HERE, "dam.day"))
    demand("the dam is a sheet", number, 0)
    demand("dam.rim", contents(HERE, "dam.rim").decode(), "".join("%d %d %d\n" % edge for edge in rim))
    page, shown = contents(HERE, "..", "README.md"), "a sheet, edges at the rim: %d, vertices: %d, pieces: 3\n" % (len(rim), len({v for _, *two in rim for v in two}))
    demand("README.md shows the rim's numbers", shown.encode() in page, True)
    number, why, _ = sheet(contents(HERE, "scan.day"))
    demand("the scan is no sheet", (number, why), (28, (2, 1956)))
    demand("README.md shows why", b"no sheet: vertex %d lies in no cell\n" % why.which in page, True)
    demand("what is left is no sheet", [sheet(data)[:2] for data in (cut(), contents(HERE, "stack.day"))], [(28, (2, 56)), (28, (1, None))])


def lines_of(path):
    """The lines of a path, each as a set of its ends."""
    return [frozenset(line.split("L")) for line in path.split("M")[1:]]


def rim_pictures(folder):
    """The rims of T, of the dam, of two triangles that touch in a vertex, of two apart, and of a closed surface: a line for each edge that touches one cell, and no other; and how many pieces they are."""
    two = [[0, 1, 2], [2, 3, 4]], [[0, 1, 2], [3, 4, 5]]
    closed = rules.file_bytes(2, 4, [[0, 1, 2], [0, 1, 3], [0, 2, 3], [1, 2, 3]])
    for data, xy, edges, pieces in ((T, "t.xy", "4 edges", "1 piece"), (contents(HERE, "dam.day"), "dam.xy", "231 edges", "3 pieces"), (rules.file_bytes(2, 5, two[0]), None, "6 edges", "1 piece"),
                                    (rules.file_bytes(2, 6, two[1]), None, "6 edges", "2 pieces"), (closed, None, "0 edges", "0 pieces")):
        day, beside, svg = [os.path.join(folder, name) for name in ("in.day", "in.rim", "rim.svg")]
        words = ["--xy", os.path.join(HERE, xy)] if xy else []
        put(beside, "".join("%d %d %d\n" % edge for edge in sheet(data)[2]))
        demand("draw", run("draw", put(day, data), svg, "--rim", beside, *words), (0, "", ""))
        texts, _, paths = parts(svg)
        demand("the lines of the rim", lines_of(paths["rim"]), lines_of(paths["one"]))
        demand("legend of the rim", texts[-4], "rim: %s, %s" % (edges, pieces))
        demand("without a rim there is none", [run("draw", day, svg, *words), "rim" in parts(svg)[2]], [(0, "", ""), False])
    counts, full = put(os.path.join(folder, "in.counts"), "0\n" * 4), put(os.path.join(folder, "full.day"), rules.file_bytes(2, 4, [[0, 1, 2]]))
    demand("draw", run("draw", put(day, T), svg, "--rim", put(beside, "4 2 3\n"), "--counts", counts, "--whole", full), (0, "", ""))
    demand("legends", [text.split(":")[0] for text in parts(svg)[0][-9:-3]], ["rim", "missing", "closure −1", "closure 0", "closure +1", "masked"])
    heights = [float(text.getAttribute("y")) for text in minidom.parse(svg).getElementsByTagName("text")[-9:]]
    demand("a row for each legend", sorted(set(heights)), [heights[-1] - 26 * k for k in (3, 2, 1, 0)])
    demand("one edge of T", lines_of(parts(svg)[2]["rim"]) == lines_of(parts(svg)[2]["one"])[-1:], True)


def boxes(name, cells=()):
    """The box of the whole mesh and those of cells, by the separate program, as README.md shows them; the coordinates are whole numbers."""
    book = [0] * (1 << 18)
    demand("load", rules.load(contents(HERE, name + ".day"), book), (0, None))
    places = [float(x) for x in contents(HERE, name + ".xy").split()]
    given = [rules.whole_box(book, places, 2)] + [rules.box(book, places, 2, book[0] >> 30, cell) for cell in cells]
    demand("boxes", [number for number, _, _ in given], [0] * len(given))
    return ["%s: x %d to %d, y %d to %d\n" % (what, *box[:4]) for what, (_, box, _) in zip(["mesh"] + ["cell %d" % cell for cell in cells], given)]


def framed():
    """README.md shows the dam's boxes; forty points more have no part in the scan's."""
    shown = boxes("dam", (1027, 1905))
    demand("README.md shows the dam's boxes", "".join(shown).encode() in contents(HERE, "..", "README.md"), True)
    demand("the scan's box", boxes("scan"), shown[:1])


def parts(svg):
    """The picture's texts, its rings by their class, and its paths by their names."""
    page = minidom.parse(svg)
    texts = [text.firstChild.data for text in page.getElementsByTagName("text")]
    rings = [ring.getAttribute("class") for ring in page.getElementsByTagName("circle") if ring.getAttribute("class")]
    return texts, rings, {path.getAttribute("id"): path.getAttribute("d") for path in page.getElementsByTagName("path")}


def pictures(folder):
    for name, euler, alone in (("t", 1, 0), ("dam", -1, 0), ("scan", -1, 40), ("stack", 1, 0)):
        day = os.path.join(HERE, name + ".day")
        counts, given, kinds = incidence(day)
        demand("Euler number of " + name, given, (0, euler, None))
        for with_xy in (True, False):
            svg = os.path.join(folder, name + ".svg")
            words = ["--xy", os.path.join(HERE, name + ".xy")] if with_xy else []
            demand("draw " + name, run("draw", day, svg, *words), (0, "", ""))
            demand(name + ".svg is short", len(contents(svg)) < 500000, True)
            texts, rings, paths = parts(svg)
            demand("edges of %s by colour" % name, {kind: paths[kind].count("M") for kind in kinds}, kinds)
            demand("%s without counts has no colours of closures" % name, [rings, set(paths) & {"minus", "plus", "masked"}], [[], set()])
            demand("points of %s that no cell uses" % name, paths["alone"].count("M"), alone)
            D = len(counts) - 1
            if D == 2:
                demand("cells of " + name, paths["cells"].count("Z"), counts[2])
            title = "%s.day: D = %d, N₀ = %d, N₁ = %d, N%s = %d" % (name, D, counts[0], counts[1], "₂₃"[D - 2], counts[D])
            demand("title of " + name, texts[0], title)
            words = [text.split(": ")[1].split()[0] for text in texts[-3:]]
            demand("legend of " + name, words, [str(kinds[kind]) for kind in ("one", "two", "more")])
            if with_xy and name == "t":
                demand("t.svg is what draw writes", contents(svg) == contents(HERE, "t.svg"), True)


def coloured(folder, day, words, counts):
    """Draws with and without counts, demands that each triangle has the colour of its closure, and gives texts and rings."""
    plain, svg = [os.path.join(folder, name) for name in ("plain.svg", "closures.svg")]
    beside = put(os.path.join(folder, "in.counts"), "".join("%d\n" % count for count in counts))
    demand("draw", [run("draw", day, plain, *words), run("draw", day, svg, "--counts", beside, *words)], [(0, "", "")] * 2)
    triangles = parts(plain)[2]["cells"].split("Z")[:-1]
    faces = closures(day, counts)[0]
    texts, rings, paths = parts(svg)
    for colour, closure in COLOURS.items():
        wanted = [triangle for triangle, other in zip(triangles, faces) if other == closure]
        demand("triangles of the colour " + colour, paths[colour].split("Z")[:-1], wanted)
    legend = [text.split(": ")[1].split()[0] for text in texts[-7:-3]]
    demand("legend of closures", legend, [str(faces.count(closure)) for closure in COLOURS.values()])
    return texts, rings


def closure_pictures(folder):
    """T by hand, and the dam with the numbers that README.md shows."""
    t, dam = [os.path.join(HERE, name) for name in ("t.day", "dam.day")]
    for counts, wanted in (((0, 21846, 0, -21846), [1, -1]), ((0, -21846, 65536, 21846), [-1, 2]), ((-32768, 32767, 0, -32768), [0, -1])):
        demand("closures of T", closures(t, counts)[0], wanted)
        demand("rings of T", coloured(folder, t, [], counts)[1], [])
    xy = ["--xy", os.path.join(HERE, "dam.xy"), "--rim", os.path.join(HERE, "dam.rim")]
    demand("rings where residues are many", coloured(folder, dam, xy, [32767 - v * v % 65536 for v in range(1956)])[1], [])
    counts = [int(line) for line in contents(HERE, "dam.counts").split()]
    faces, masked = closures(dam, counts)
    signs = [closure for closure in faces if closure in (-1, 1)]
    texts, rings = coloured(folder, dam, xy, counts)
    demand("rings of the dam", [COLOURS[ring] for ring in rings], signs)
    demand("texts of the dam", texts[1:-8], [{-1: "−1", 1: "+1"}[sign] for sign in signs])
    demand("dam.svg is what draw writes", contents(folder, "closures.svg") == contents(HERE, "dam.svg"), True)
    shown = "faces: %d, closures -1: %d, 0: %d, +1: %d, masked: %d; edges: %d, masked: %d\n" % (
        len(faces), faces.count(-1), faces.count(0), faces.count(1), faces.count(2), len(masked), sum(masked))
    demand("README.md shows the dam's numbers", shown.encode() in contents(HERE, "..", "README.md"), True)
    demand("the dam has each closure", set(faces), {-1, 0, 1, 2})
    demand("the dam without slips closes", set(closures(dam, phases.dam(shapes.dam()[1], ()))[0]), {0, 2})


def framed_pictures(folder):
    """The frames of T, the dam and the scan around the triangles' own paths; the whole mesh's leaves out the scan's forty points."""
    for name, cells in (("t", (0, 1)), ("dam", (1027, 1905, 0, 3682)), ("scan", (7,)), ("t", ())):
        day, xy, svg = [os.path.join(where, name + kind) for where, kind in ((HERE, ".day"), (HERE, ".xy"), (folder, ".svg"))]
        words = [word for cell in cells for word in ("--box", str(cell))]
        demand("draw " + name, run("draw", day, svg, "--xy", xy, *words), (0, "", ""))
        triangles = [[[float(x) for x in corner.split()] for corner in path[1:].split("L")] for path in parts(svg)[2]["cells"].split("Z")[:-1]]
        wanted = []
        for what, corners in [("mesh", sum(triangles, []))] * bool(cells) + [("cell%d" % cell, triangles[cell]) for cell in cells]:
            (left, right), (top, bottom) = [(min(axis), max(axis)) for axis in zip(*corners)]
            wanted.append((what, left, top, right - left, bottom - top))
        rects = [rect for rect in minidom.parse(svg).getElementsByTagName("rect") if rect.getAttribute("class")]
        demand("frames of " + name, [rect.getAttribute("class") for rect in rects], [what for what, *_ in wanted])
        for rect, (_, *sizes) in zip(rects, wanted):
            apart = [float(rect.getAttribute(side)) - size for side, size in zip(("x", "y", "width", "height"), sizes)]
            demand("a frame of " + name, max(map(abs, apart)) < 0.16, True)  # each is rounded to a tenth


def refusals(folder):
    """Every number that a file can be refused with, and files that are no help."""
    day, svg = os.path.join(folder, "bad.day"), os.path.join(folder, "bad.svg")
    many = (2 << 30 | 4 << 16 | 4097 << 3).to_bytes(4, "big")
    for data, words in ((T[:3], "1"), (b"\0" + T[1:], "2"), (rules.file_bytes(2, 8193, []), "3"), (many, "4"),
                        (T[:3] + b"\x11" + T[4:], "5"), (T + b"\0", "6"), (b"\x80\x03" + T[2:], "7, cell 0"),
                        (rules.file_bytes(2, 4, [[0, 1, 3], [1, 1, 3]]), "8, cell 1"), (T[:-1] + b"\x0d", "9"),
                        (rules.file_bytes(2, 4, [[0, 1, 3], [3, 0, 1]]), "23, cell 1")):
        demand("draw", run("draw", put(day, data), svg), (1, "", "refused %s\n" % words))
    xy = os.path.join(folder, "bad.xy")
    for text, words in (("0 0\n1 0\n1 1\n", "3 lines for 4 vertices"), ("0 0\n1\n1 1\n0 1\n", "a line is not two numbers"),
                        ("0 0\n1 0\n1 x\n0 1\n", "a line is not two numbers"), ("0 0\n1 0\n1 nan\n0 1\n", "a line is not two numbers")):
        demand("draw", run("draw", put(day, T), svg, "--xy", put(xy, text)), (1, "", "%s: %s\n" % (xy, words)))
    counts = os.path.join(folder, "bad.counts")
    whole, outside = "a line is not a whole number", "a number is neither from -32768 to 32767 nor 65536"
    for text, words in (("0\n1\n2\n", "3 lines for 4 vertices"), ("0\n1\n2\n3\n4\n", "5 lines for 4 vertices"), ("", "0 lines for 4 vertices"),
                        ("0\n1\nx\n3\n", whole), ("0\n1\n0.5\n3\n", whole), ("0\n1\n\n3\n", whole), ("0\n1 2\n3\n", whole),
                        (b"0\n1\n\xff\n3\n", whole), ("0\n1\n32768\n3\n", outside), ("0\n1\n-32769\n3\n", outside),
                        ("0\n65535\n2\n3\n", outside), ("0\n1\n2\n65537\n", outside)):
        demand("draw", run("draw", put(day, T), svg, "--counts", put(counts, text)), (1, "", "%s: %s\n" % (counts, words)))
    for D, data in ((1, rules.file_bytes(1, 4, [[0, 1]])), (3, TETRAHEDRON)):
        said = "%s: D is %d, and only triangles are coloured by their closure\n" % (day, D)
        demand("draw", run("draw", put(day, data), svg, "--counts", put(counts, "0\n1\n2\n3\n")), (1, "", said))
    demand("draw", run("draw", put(day, T), svg, "--counts", svg), (1, "", "%s: No such file or directory\n" % svg))
    for cell in ("2", "-1"):
        said = "%s: there is no cell %s\n" % (day, cell)
        demand("draw", run("draw", put(day, T), svg, "--xy", os.path.join(HERE, "t.xy"), "--box=" + cell), (1, "", said))
    demand("draw", run("draw", put(day, T), svg, "--box", "1"), (1, "", "%s: boxes are of places, and there is no --xy\n" % day))
    rim, numbers = os.path.join(folder, "bad.rim"), "a line is not three whole numbers"
    for text, words in (("0 0 1\n1 0\n", numbers), ("0 0 1\n1 0 x\n", numbers), ("0 0 1 3\n", numbers), ("\n", numbers), (b"\xff\n", numbers), ("0 0 1\n5 2 3\n", "there is no edge 5 with the vertices 2 and 3"),
                        ("-1 2 3\n", "there is no edge -1 with the vertices 2 and 3"), ("1 0 1\n", "there is no edge 1 with the vertices 0 and 1"), ("0 1 0\n", "there is no edge 0 with the vertices 1 and 0")):
        demand("draw", run("draw", put(day, T), svg, "--rim", put(rim, text)), (1, "", "%s: %s\n" % (rim, words)))
    for D, data in ((1, rules.file_bytes(1, 4, [[0, 1]])), (3, TETRAHEDRON)):
        demand("draw", run("draw", put(day, data), svg, "--rim", put(rim, "0 0 1\n")), (1, "", "%s: D is %d, and only triangles have a rim\n" % (day, D)))
    demand("draw", run("draw", put(day, T), svg, "--rim", svg), (1, "", "%s: No such file or directory\n" % svg))
    whole = os.path.join(folder, "whole.day")
    for data, words in ((T[:13], "refused 6"), (b"\x80\x03" + T[2:], "refused 7, cell 0"), (rules.file_bytes(2, 5, [[0, 1, 3]]), "D and N_0 are not those of " + day),
                        (rules.file_bytes(3, 4, []), "D and N_0 are not those of " + day)):
        demand("draw", run("draw", put(day, T), svg, "--whole", put(whole, data)), (1, "", "%s: %s\n" % (whole, words)))
    demand("draw", run("draw", put(day, T), svg, "--whole", svg), (1, "", "%s: No such file or directory\n" % svg))
    demand("draw", run("draw", svg, svg), (1, "", "%s: No such file or directory\n" % svg))
    demand("a refused picture is not written", os.path.exists(svg), False)


def gmsh_files(folder):
    msh, day, xy = [os.path.join(folder, "in." + kind) for kind in ("msh", "day", "xy")]
    square, solid = b"0 0\n1 0\n1 1\n0 1\n", b"0 0\n1 0\n0 1\n0 0.5\n"
    for text, data, places in ((T_2, T, square), (T_4, T, square), (SOLID_2, TETRAHEDRON, solid), (SOLID_4, TETRAHEDRON, solid),
                               (T_2.replace("\n", "\r\n"), T, square)):
        D, points, count = data[0] >> 6, 4, 2 if data == T else 1
        said = "%s: D = %d, %d vertices, %d cells\n" % (day, D, points, count)
        demand("from-msh", run("from-msh", put(msh, text), day, "--xy", xy), (0, said, ""))
        demand("the day file", contents(day), data)
        demand("the places", contents(xy), places)
        os.remove(day)

    def many(points, cells):
        nodes = ["%d %d 0 0" % (v + 1, v) for v in range(points)]
        elements = ["%d 2 0 %s" % (c + 1, " ".join(str((3 * c + k) % points + 1) for k in range(3))) for c in range(cells)]
        return "$MeshFormat\n2.2 0 8\n$EndMeshFormat\n$Nodes\n%d\n%s\n$EndNodes\n$Elements\n%d\n%s\n$EndElements\n" % (
            points, "\n".join(nodes), cells, "\n".join(elements))

    shape = "the nodes or elements are not as format %s has them, or are cut short"
    only = "; a day file has straight triangles or tetrahedra only"
    for text, words in ((many(8193, 2731), "8193 vertices are too many; a day file has at most 8192"),
                        (many(6, 4097), "4097 cells are too many; a day file has at most 4096"),
                        (T_2.replace("2.2 0", "2.2 1"), "a binary file is not read; save it as ASCII"),
                        (T_4.replace("4.1 0", "4.1 1"), "a binary file is not read; save it as ASCII"),
                        (T_4.replace("4.1 0", "4 0"), "format 4 is not read, only 2.2 and 4.1"),
                        ("solid", "this is not a Gmsh file: it does not begin with $MeshFormat"),
                        ("", "this is not a Gmsh file: it does not begin with $MeshFormat"),
                        (T_2.replace("3 2 2 1 1 3 5 10\n4 2 0 5 7 10", "3 1 0 3 5\n4 1 0 5 7"), "there are no triangles and no tetrahedra"),
                        (T_2.replace("4 2 0 5 7 10", "4 9 0 3 5 7 10 99 3"), "element 4 is a triangle of second order" + only),
                        (T_4.replace("2 1 2 2", "2 1 3 2"), "element 8 is a quadrangle" + only),
                        (T_2.replace("4 2 0 5 7 10", "4 2 0 5 7 11"), "element 4 does not name 3 nodes of the file"),
                        (T_2.replace("4 2 0 5 7 10", "4 2 0 5 7"), "element 4 does not name 3 nodes of the file"),
                        (T_4.replace("9 5 7 10", "9 5 7 5"), "element 9 names a node twice"),
                        (T_4.replace("9 5 7 10", "9 10 3 5"), "element 9 has the nodes of element 8; a day file has each cell once"),
                        (T_2.replace("7 1 1 0", "7 1 one 0"), shape % "2.2"), (T_2[:T_2.index("7 1 1 0")], shape % "2.2"),
                        (T_4.replace("9 5 7 10\n", ""), shape % "4.1"), (T_4[:T_4.index("$Elements")], shape % "4.1")):
        demand("from-msh", run("from-msh", put(msh, text), day), (1, "", "%s: %s\n" % (msh, words)))
    demand("a refused mesh is not written", os.path.exists(day), False)
    demand("the largest mesh", run("from-msh", put(msh, many(8192, 4096)), day)[0], 0)
    demand("its bytes", contents(day), rules.file_bytes(2, 8192, [[(3 * c + k) % 8192 for k in range(3)] for c in range(4096)]))


def main():
    with tempfile.TemporaryDirectory() as folder:
        made(folder)
        shuffled(folder)
        broken()
        scan()
        framed()
        sheets()
        pictures(folder)
        closure_pictures(folder)
        framed_pictures(folder)
        missing_pictures(folder)
        rim_pictures(folder)
        refusals(folder)
        gmsh_files(folder)
    print("examples: the files are as they are made, the pictures count, colour and frame right, mark the rim and show what is missing, Gmsh files are read or refused as they should be, and shuffled files have the same cells")


if __name__ == "__main__":
    main()
