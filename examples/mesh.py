#!/usr/bin/env python3
"""The example meshes: writes their day files, one that was cut, one in another order, a rim, and a broken book, turns a Gmsh file into a day
file, puts a day file's cells in another order, and draws a day file.

    python3 examples/mesh.py make
    python3 examples/mesh.py from-msh IN.msh OUT.day [--xy OUT.xy]
    python3 examples/mesh.py shuffle IN.day OUT.day [--seed N]
    python3 examples/mesh.py draw FILE.day [--xy FILE.xy] [--counts FILE.counts] [--box CELL]... [--whole WHOLE.day] [--rim FILE.rim] OUT.svg

A day file has no coordinates. They stand beside it, one line "x y" for each vertex. Where there are none, `draw` lays the
mesh out by how many edges part two vertices, so that what is far apart along the mesh is far apart in the picture.

Nor has it phases. They stand beside it as counts, one line for each vertex: a whole number of 65,536ths of a turn, from -32768
to 32767, or 65536 where the vertex is masked. With them `draw` colours each triangle by its closure. The closure's sign is that
of the way around by ascending vertices, be it clockwise or counterclockwise in the picture.

`shuffle` writes the same cells in another order, and the vertices within each cell in another order too, as a mesher may send them. The
seed, 1 where none is named, gives the order.

With --box `draw` also frames the whole mesh and each cell that is named, by their upright boxes. These are of places, so --xy has
to be there.

With --whole `draw` also shows, by their edges, the cells that are missing: those of WHOLE.day that FILE.day has not. Both have the
same D and the same vertices.

With --rim `draw` also marks the rim of a sheet. FILE.rim is what examples/rim.c prints: a line for each edge of the rim, with the
edge's number and its two vertices.
"""

import argparse
import math
import os
import random
import struct
import sys

HERE = os.path.dirname(os.path.abspath(__file__))
sys.path.insert(0, os.path.join(os.path.dirname(HERE), "compare"))

import msh  # noqa: E402
import phases  # noqa: E402
import picture  # noqa: E402
import reference as rules  # noqa: E402
import shapes  # noqa: E402


def read(path):
    try:
        with open(path, "rb") as file:
            return file.read()
    except OSError as fault:
        sys.exit("%s: %s" % (path, fault.strerror))


def write(path, data):
    try:
        with open(path, "wb") as file:
            file.write(data if isinstance(data, bytes) else data.encode())
    except OSError as fault:
        sys.exit("%s: %s" % (path, fault.strerror))


def lines_of(places):
    return "".join("%s %s\n" % (x, y) for x, y in places)


def broken_book():
    """T with all nine relations in 128 words, and a bit turned in offset 3 of 1→2, which is 4 and becomes 0; its bytes."""
    book = [0] * 128
    rules.load(rules.file_bytes(*shapes.t()[0]), book)
    for d in range(3):
        for e in range(3):
            rules.ask(book, d, e)
    book[rules.Frame.of(book).places[1, 2] + 3] ^= 4
    return struct.pack("<128I", *book)


def rim_lines(mesh):
    """The rim of a sheet, by the separate program, as examples/rim.c prints it."""
    book = [0] * (16 + mesh[1] + 29 * len(mesh[2]))
    rules.load(rules.file_bytes(*mesh), book)
    rules.ask(book, 1, 2)
    frame = rules.Frame.of(book)
    ends = frame.rows(1, 0)
    return ["%d %d %d\n" % (edge, *ends[edge]) for edge in rules.rim_of(frame)[2]]


def make(folder):
    for shape in (shapes.t, shapes.dam, shapes.scan, shapes.stack):
        mesh, places = shape()
        path = os.path.join(folder, shape.__name__)
        write(path + ".day", rules.file_bytes(*mesh))
        write(path + ".xy", lines_of(places))
        print("%s.day: D = %d, %d vertices, %d cells" % (shape.__name__, mesh[0], mesh[1], len(mesh[2])))
        if shape is shapes.t:
            write(path + "-again.day", rules.file_bytes(*shapes.t_again()))
            print("t-again.day: the cells of t.day in another order")
        if shape is shapes.dam:
            counts = phases.dam(places)
            write(path + ".counts", "".join("%d\n" % count for count in counts))
            print("dam.counts: %d vertices, %d masked" % (len(counts), counts.count(rules.MASKED)))
            whole = rules.file_bytes(*mesh)
            write(os.path.join(folder, "cut.day"), whole[:len(whole) // 2])
            print("cut.day: the first %d of the %d bytes of dam.day" % (len(whole) // 2, len(whole)))
            lines = rim_lines(mesh)
            write(path + ".rim", "".join(lines))
            print("dam.rim: %d edges" % len(lines))
    write(os.path.join(folder, "broken.book"), broken_book())
    print("broken.book: 128 words")


def from_msh(source, day, xy):
    try:
        mesh, places = msh.mesh_of(read(source))
    except msh.Fault as fault:
        sys.exit("%s: %s" % (source, fault))
    write(day, rules.file_bytes(*mesh))
    if xy:
        write(xy, lines_of(places))
    print("%s: D = %d, %d vertices, %d cells" % (day, mesh[0], mesh[1], len(mesh[2])))


def shuffle(source, day, seed):
    """Orders by random numbers, of which Python says that a seed always gives the same."""
    D, points, cells = mesh_of(source, source + ": ")
    rng = random.Random(seed)
    order = [sorted(cell, key=lambda _: rng.random()) for cell in cells]
    write(day, rules.file_bytes(D, points, sorted(order, key=lambda _: rng.random())))
    print("%s: D = %d, %d vertices, %d cells" % (day, D, points, len(cells)))


def places_of(path, points):
    """The coordinates that stand beside a day file."""
    try:
        places = [tuple(map(float, line.split())) for line in read(path).decode().splitlines()]
        right = all(len(p) == 2 and all(map(math.isfinite, p)) for p in places)
    except ValueError:
        right = False
    if not right:
        sys.exit("%s: a line is not two numbers" % path)
    if len(places) != points:
        sys.exit("%s: %d lines for %d vertices" % (path, len(places), points))
    return places


def counts_of(path, points):
    """The phases that stand beside a day file."""
    try:
        counts = [int(line) for line in read(path).decode().splitlines()]
    except ValueError:
        sys.exit("%s: a line is not a whole number" % path)
    if len(counts) != points:
        sys.exit("%s: %d lines for %d vertices" % (path, len(counts), points))
    if not all(map(rules.may_be_lent, counts)):
        sys.exit("%s: a number is neither from -32768 to 32767 nor 65536" % path)
    return counts


def rim_of(path, edges):
    """The edges of a rim by their vertices; each is one of the mesh's edges, by its number."""
    try:
        lines = [[int(number) for number in line.split()] for line in read(path).decode().splitlines()]
        right = all(len(line) == 3 for line in lines)
    except ValueError:
        right = False
    if not right:
        sys.exit("%s: a line is not three whole numbers" % path)
    for edge, *vertices in lines:
        if not 0 <= edge < len(edges) or edges[edge][0] != tuple(vertices):
            sys.exit("%s: there is no edge %d with the vertices %d and %d" % (path, edge, *vertices))
    return [tuple(vertices) for _, *vertices in lines]


def mesh_of(path, before=""):
    """The mesh of a day file; where it is refused, the words that go before that."""
    number, cell, mesh = rules.read_file(read(path))
    if number:
        sys.exit(before + "refused %d" % number + (", cell %d" % cell if cell is not None else ""))
    return mesh


def draw(day, xy, counts, boxes, whole, rim, svg):
    mesh = mesh_of(day)
    if counts and mesh[0] != 2:
        sys.exit("%s: D is %d, and only triangles are coloured by their closure" % (day, mesh[0]))
    if rim and mesh[0] != 2:
        sys.exit("%s: D is %d, and only triangles have a rim" % (day, mesh[0]))
    for cell in boxes:
        if not 0 <= cell < len(mesh[2]):
            sys.exit("%s: there is no cell %d" % (day, cell))
    if boxes and not xy:
        sys.exit("%s: boxes are of places, and there is no --xy" % day)
    full = mesh_of(whole, whole + ": ") if whole else None
    if full and full[:2] != mesh[:2]:
        sys.exit("%s: D and N_0 are not those of %s" % (whole, day))
    write(svg, picture.drawing(os.path.basename(day), mesh, places_of(xy, mesh[1]) if xy else None,
                               counts_of(counts, mesh[1]) if counts else None, boxes, full, rim_of(rim, picture.edges_of(2, mesh[2])) if rim else None))


def main():
    parser = argparse.ArgumentParser(description=__doc__, formatter_class=argparse.RawDescriptionHelpFormatter)
    commands = parser.add_subparsers(dest="command", required=True)
    making = commands.add_parser("make", help="write the example files")
    making.add_argument("--to", default=HERE, help="a folder other than the script's own")
    turning = commands.add_parser("from-msh", help="a Gmsh file's tetrahedra, or else its triangles, as a day file")
    turning.add_argument("msh")
    turning.add_argument("day")
    turning.add_argument("--xy", help="where to write the vertices' x and y")
    mixing = commands.add_parser("shuffle", help="a day file's cells in another order, and the vertices within each cell")
    mixing.add_argument("source", metavar="in.day")
    mixing.add_argument("day", metavar="out.day")
    mixing.add_argument("--seed", type=int, default=1, help="a number that gives the order")
    showing = commands.add_parser("draw", help="a day file as an SVG picture")
    showing.add_argument("day")
    showing.add_argument("svg")
    showing.add_argument("--xy", help="the vertices' x and y")
    showing.add_argument("--counts", help="the vertices' phases, to colour triangles by their closure")
    showing.add_argument("--box", type=int, action="append", default=[], metavar="CELL", help="a cell to frame by its box, and the whole mesh")
    showing.add_argument("--whole", metavar="DAY", help="the day file that has the cells that are missing")
    showing.add_argument("--rim", help="the edges of the rim, to mark it")
    given = parser.parse_args()
    if given.command == "make":
        make(given.to)
    elif given.command == "from-msh":
        from_msh(given.msh, given.day, given.xy)
    elif given.command == "shuffle":
        shuffle(given.source, given.day, given.seed)
    else:
        draw(given.day, given.xy, given.counts, given.box, given.whole, given.rim, given.svg)


if __name__ == "__main__":
    main()
