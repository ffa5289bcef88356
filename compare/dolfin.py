"""The library against DOLFIN, a mesh library that nobody here wrote: for each mesh the number of entities of each dimension,
their vertex sets, and for d ≠ e which of them touch, must be the same.

    /usr/bin/python3 compare/dolfin.py [--seed S]

It needs Debian's package python3-dolfin, and says so where that is missing. DOLFIN numbers edges and faces in an order of its
own, so these are named by their vertices, and cells by their number besides. d→d is left to run.py: for DOLFIN an entity
touches itself there and nothing else. Nor does it make relations of a mesh without cells, so there is none here; vertices
in no cell and facets in many cells are compared too.
"""

import argparse
import os
import random
import struct
import sys

HERE = os.path.dirname(os.path.abspath(__file__))
TOP = os.path.dirname(HERE)
SYSTEM = "/usr/bin/python3"
ROOM = 1 << 20

sys.path[:] = [folder for folder in sys.path if os.path.abspath(folder) != HERE]  # else DOLFIN's name would mean this file
try:
    import dolfin
except ImportError:
    if os.path.exists(SYSTEM) and not os.path.samefile(SYSTEM, sys.executable):
        os.execv(SYSTEM, [SYSTEM] + sys.argv)
    print("DOLFIN is not installed: this comparison is skipped; install python3-dolfin")
    sys.exit(0)
sys.path.insert(0, HERE)

import meshes  # noqa: E402
import reference as rules  # noqa: E402
import run  # noqa: E402


def ours(library, data, D):
    """The rows of every d→e with d ≠ e, as the library hands them out."""
    library.call(b"B" + struct.pack("<I", ROOM) + b"\xff" * (4 * ROOM))
    numbers = [library.call(b"L" + struct.pack("<I", len(data)) + data)[0]]
    pairs = [(d, e) for d in range(D + 1) for e in range(D + 1) if d != e]
    numbers += [library.call(b"A" + struct.pack("<II", d, e))[0] for d, e in pairs]
    if any(numbers):
        sys.exit("the library refused a load or an ask: %s" % numbers)
    rows = {}
    for d, e in pairs:
        number, rows[d, e] = library.rows(d, e)
        if number != 17:
            sys.exit("the library refused a row of %d→%d with %d" % (d, e, number))
    return rows


def theirs(D, points, cells):
    """The same of DOLFIN. Its vertices need places, which have no part in who touches whom."""
    mesh, editor = dolfin.Mesh(), dolfin.MeshEditor()
    editor.open(mesh, ("interval", "triangle", "tetrahedron")[D - 1], D, D)
    editor.init_vertices(points)
    editor.init_cells(len(cells))
    for v in range(points):
        editor.add_vertex(v, [float(v ** k) for k in range(1, D + 1)])
    for c, cell in enumerate(cells):
        editor.add_cell(c, cell)
    editor.close()
    rows = {}
    for d in range(D + 1):
        for e in range(D + 1):
            if d != e:
                mesh.init(d, e)
                touching = mesh.topology()(d, e)
                rows[d, e] = [[int(j) for j in touching(i)] for i in range(mesh.num_entities(d))]
    return rows


def named(D, rows):
    """Numbers of entities, their vertex sets, and the pairs that touch: sorted lists, so that one listed twice would show."""
    names = {d: [tuple(sorted(row)) for row in rows[d, 0]] for d in range(1, D + 1)}
    names[0] = [(v,) for v in range(len(rows[0, D]))]
    names[D] = [(c,) + name for c, name in enumerate(names[D])]
    touching = {r: sorted((names[r[0]][i], names[r[1]][j]) for i, row in enumerate(rows[r]) for j in row) for r in rows}
    return [len(names[d]) for d in range(D + 1)], {d: sorted(names[d]) for d in names}, touching


def all_meshes(seed):
    for name in ("t", "dam", "stack"):
        with open(os.path.join(TOP, "examples", name + ".day"), "rb") as file:
            yield name + ".day", rules.read_file(file.read())[2]
    yield "sheet of 46 by 46 points", meshes.sheet(46, 46)
    yield "box of 8 by 8 by 10 cubes", meshes.box(8, 8, 10)
    yield "one tetrahedron", (3, 4, [[3, 1, 0, 2]])
    yield "4096 intervals in a row", (1, 4097, [[i + 1, i] for i in range(4096)])
    yield "fan of 500 points", meshes.fan(500)
    rng = random.Random(seed)
    for k in range(12):
        D = k % 3 + 1
        points, count = ((8, 6), (30, 40), (200, 400), (4000, 3000))[k // 3]
        yield "random, D = %d" % D, meshes.random_mesh(rng, D, points, count)


def main():
    words = argparse.ArgumentParser(description=__doc__, formatter_class=argparse.RawDescriptionHelpFormatter)
    words.add_argument("--seed", type=int, default=1)
    given = words.parse_args()
    library, count, total = run.Library(run.built()), 0, 0
    for name, mesh in all_meshes(given.seed):
        D = mesh[0]
        numbers, sets, touching = named(D, ours(library, rules.file_bytes(*mesh), D))
        for what, got, wanted in zip(("numbers of entities", "vertex sets", "incidences"), (numbers, sets, touching),
                                     named(D, theirs(*mesh))):
            if got != wanted:
                sys.exit("DISAGREE: %s: the %s of the library and of DOLFIN are different" % (name, what))
        pairs = sum(map(len, touching.values()))
        print("%-26s N_0 to N_D %s: %d incidences agree" % (name, " ".join(map(str, numbers)), pairs))
        count, total = count + 1, total + pairs
    print("dolfin: %d meshes with %d incidences agree with DOLFIN %s, seed %d" % (count, total, dolfin.__version__, given.seed))


if __name__ == "__main__":
    main()
