"""Gmsh files in ASCII, formats 2.2 and 4.1."""

import math


class Fault(Exception):
    """What is wrong with a file, in one line."""


TRIANGLE, TETRAHEDRON = 2, 4
PASSED_BY = (1, 15)  # lines and points
OTHERS = {3: "a quadrangle", 5: "a hexahedron", 6: "a prism", 7: "a pyramid", 8: "a line of second order",
          9: "a triangle of second order", 11: "a tetrahedron of second order"}


def sections(text):
    """The lines of each section by its name; a section that comes again is put behind."""
    found, name = {}, None
    for line in text.split("\n"):
        line = line.strip()
        if line.startswith("$End"):
            name = None
        elif line.startswith("$"):
            name = line[1:]
            found.setdefault(name, [])
        elif name and line:
            found[name].append(line.split())
    return found


def msh_2(nodes, elements):
    """Format 2.2: places by tag, and (tag, type, nodes) of each element."""
    places = {int(w[0]): (w[1], w[2]) for w in nodes[1:1 + int(nodes[0][0])]}
    if len(places) != int(nodes[0][0]) or len(elements) != 1 + int(elements[0][0]):
        raise IndexError
    return places, [(w[0], int(w[1]), [int(v) for v in w[3 + int(w[2]):]]) for w in elements[1:]]


def msh_4(nodes, elements):
    """Format 4.1: the same, from blocks; a block of nodes has its tags first, then its places."""
    places, found, at = {}, [], 1
    for _ in range(int(nodes[0][0])):
        count = int(nodes[at][3])
        for k in range(at + 1, at + 1 + count):
            places[int(nodes[k][0])] = tuple(nodes[k + count][:2])
        at += 1 + 2 * count
    at = 1
    for _ in range(int(elements[0][0])):
        kind, count = int(elements[at][2]), int(elements[at][3])
        found += [(w[0], kind, [int(v) for v in w[1:]]) for w in elements[at + 1:at + 1 + count]]
        at += 1 + count
    if len(found) != int(elements[0][1]) or len(places) != int(nodes[0][1]):
        raise IndexError
    return places, found


def mesh_of(data):
    """The mesh of a Gmsh file, and its vertices' places."""
    text = data.decode("latin-1")
    words = text[text.find("$MeshFormat"):].split()[1:3]
    if not text.lstrip().startswith("$MeshFormat") or len(words) < 2:
        raise Fault("this is not a Gmsh file: it does not begin with $MeshFormat")
    if words[0] not in ("2.2", "4.1"):
        raise Fault("format %s is not read, only 2.2 and 4.1" % words[0])
    if words[1] != "0":
        raise Fault("a binary file is not read; save it as ASCII")
    found = sections(text)
    try:
        nodes = found.get("Nodes") or found["ParametricNodes"]
        places, elements = (msh_2 if words[0] == "2.2" else msh_4)(nodes, found["Elements"])
        if not all(math.isfinite(float(c)) for place in places.values() for c in place):
            raise ValueError
    except (KeyError, IndexError, ValueError):
        raise Fault("the nodes or elements are not as format %s has them, or are cut short" % words[0])
    for tag, kind, _ in elements:
        if kind not in (TRIANGLE, TETRAHEDRON) + PASSED_BY:
            what = OTHERS.get(kind, "of type %d" % kind)
            raise Fault("element %s is %s; a day file has straight triangles or tetrahedra only" % (tag, what))
    kind = TETRAHEDRON if any(e[1] == TETRAHEDRON for e in elements) else TRIANGLE
    chosen = [e for e in elements if e[1] == kind]
    D = 3 if kind == TETRAHEDRON else 2
    for tag, _, nodes in chosen:
        if len(nodes) != D + 1 or any(v not in places for v in nodes):
            raise Fault("element %s does not name %d nodes of the file" % (tag, D + 1))
        if len(set(nodes)) < len(nodes):
            raise Fault("element %s names a node twice" % tag)
    tags = sorted({v for e in chosen for v in e[2]})
    if not chosen:
        raise Fault("there are no triangles and no tetrahedra")
    if len(tags) > 8192:
        raise Fault("%d vertices are too many; a day file has at most 8192" % len(tags))
    if len(chosen) > 4096:
        raise Fault("%d cells are too many; a day file has at most 4096" % len(chosen))
    met = {}
    for tag, _, nodes in chosen:
        earlier = met.setdefault(frozenset(nodes), tag)
        if earlier != tag:
            raise Fault("element %s has the nodes of element %s; a day file has each cell once" % (tag, earlier))
    number = {tag: i for i, tag in enumerate(tags)}
    return (D, len(tags), [[number[v] for v in e[2]] for e in chosen]), [places[tag] for tag in tags]
