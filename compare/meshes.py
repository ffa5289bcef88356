"""Files and books to try: true, damaged and lying ones."""

import itertools
import math

import reference as rules


def random_mesh(rng, D, points, count):
    """At most count different cells of D + 1 different vertices in any order."""
    if points < D + 1:
        count = 0
    near = rng.random() < 0.5
    cells, met = [], set()
    for _ in range(count):
        if near:
            low = rng.randrange(max(1, points - D - 3))
            cell = rng.sample(range(low, min(points, low + D + 4)), D + 1)
        else:
            cell = rng.sample(range(points), D + 1)
        if frozenset(cell) not in met:
            met.add(frozenset(cell))
            cells.append(cell)
    return D, points, cells


def with_repeats(rng, mesh):
    """The mesh with one to three cells more, each a cell that it has, its vertices in any order, anywhere behind or before it."""
    D, points, cells = mesh
    cells = list(cells)
    for _ in range(rng.choice((1, 1, 1, 2, 3)) if cells else 0):
        again = list(rng.choice(cells))
        rng.shuffle(again)
        cells.insert(rng.randrange(len(cells) + 1), again)
    return D, points, cells


def all_used(mesh):
    """The mesh without the vertices that no cell uses; the others are numbered anew."""
    D, _, cells = mesh
    new = {v: k for k, v in enumerate(sorted({v for cell in cells for v in cell}))}
    return D, len(new), [[new[v] for v in cell] for cell in cells]


def small_mesh(rng):
    return random_mesh(rng, rng.choice((1, 2, 2, 3, 3)), rng.choice((0, 1, 3, 4, 5, 6, 8, 12)), rng.choice((0, 1, 1, 2, 3, 5, 8, 14)))


def fan(points):
    """Triangles around vertex 0."""
    return 2, points, [[0, k, k + 1] for k in range(1, points - 1)]


def strip(D, points, low):
    """4,096 cells, each of D + 1 vertices one after another; the first begins at vertex low, and each shares a facet with the next."""
    return D, points, [list(range(low + c, low + c + D + 1)) for c in range(4096)]


def pages(points):
    """Triangles around the edge 0 1."""
    return 2, points, [[0, 1, k] for k in range(2, points)]


def sheet(n, m):
    """A square of n by m points and 2 (n - 1) (m - 1) triangles."""
    cells = []
    for y in range(m - 1):
        for x in range(n - 1):
            a, b, c, d = y * n + x, y * n + x + 1, (y + 1) * n + x, (y + 1) * n + x + 1
            cells += [[a, b, d], [a, c, d]]
    return 2, n * m, cells


def ribbon(count):
    """So many triangles in a row, each of which has an edge in common with the next; its rim has two edges more than that."""
    return 2, count + 2, [[c, c + 1, c + 2] for c in range(count)]


def band(count):
    """The same, its ends joined; five or more, and with an odd number it has one side only."""
    return 2, count, [[c, (c + 1) % count, (c + 2) % count] for c in range(count)]


def wheel(count):
    """So many triangles all around vertex 0, three or more."""
    return 2, count + 1, [[0, c + 1, (c + 1) % count + 1] for c in range(count)]


def torus(n, m):
    """A square of n by m points whose opposite sides are one, each three or more: 2 n m triangles, and no rim."""
    cells = []
    for y in range(m):
        for x in range(n):
            a, b, c, d = [(y + down) % m * n + (x + right) % n for down in (0, 1) for right in (0, 1)]
            cells += [[a, b, d], [a, c, d]]
    return 2, n * m, cells


def apart(count):
    """So many triangles, none of which has an edge in common with another; each has a vertex in common with the next, and the last with the first."""
    return 2, 2 * count, [[2 * c, 2 * c + 1, (2 * c + 2) % (2 * count)] for c in range(count)]


# The surface of a tetrahedron, that of an octahedron, the torus of seven vertices, and the projective plane of six, which has one side only.
CLOSED = ((2, 4, [list(cell) for cell in itertools.combinations(range(4), 3)]),
          (2, 6, [[a, b, c] for a in (0, 1) for b in (2, 3) for c in (4, 5)]),
          (2, 7, [[v, (v + k) % 7, (v + 3) % 7] for v in range(7) for k in (1, 2)]),
          (2, 6, [[0, v, v % 5 + 1] for v in range(1, 6)] + [[v, v % 5 + 1, (v + 2) % 5 + 1] for v in range(1, 6)]))


def surface(rng):
    """A square, a fan, a wheel, a ribbon, a band, or a closed surface."""
    few = rng.randrange(5, 9)
    return rng.choice((sheet(rng.randrange(2, 5), rng.randrange(2, 4)), fan(few), wheel(few), ribbon(few), ribbon(1), band(few)) + CLOSED)


def joined(first, second, touching):
    """Both meshes, the second's vertices behind the first's; or so that they touch in vertex 0, which both have."""
    more = first[1] - touching
    return 2, more + second[1], first[2] + [[v + more if v or not touching else 0 for v in cell] for cell in second[2]]


def shuffled(rng, mesh):
    """The mesh with its vertices in another order, its cells too, and the vertices in each."""
    D, points, cells = mesh
    new = rng.sample(range(points), points)
    return in_another_order(rng, (D, points, [[new[v] for v in cell] for cell in cells]))


def in_another_order(rng, mesh):
    """The mesh with its cells in another order, and the vertices in each; each vertex keeps its number."""
    D, points, cells = mesh
    return D, points, rng.sample([rng.sample(cell, D + 1) for cell in cells], len(cells))


def with_branch(rng, mesh):
    """The mesh with one cell more, at an edge that it has, and with any third vertex or a new one; a cell that it has is not added."""
    D, points, cells = mesh
    a, b = rng.sample(rng.choice(cells), 2)
    cell = [a, b, rng.choice([v for v in range(points + 1) if v not in (a, b)])]
    return (D, points, cells) if frozenset(cell) in set(map(frozenset, cells)) else (D, max(points, cell[2] + 1), cells + [cell])


def near_sheet(rng):
    """One surface or two, apart or touching in a vertex. At times cells are taken out, with the vertices that then no cell has or without; or a cell more
    stands on an edge, or there are vertices that no cell uses; or there is nothing at all."""
    mesh = surface(rng)
    if rng.random() < 0.3:
        mesh = joined(mesh, surface(rng), rng.random() < 0.5)
    if rng.random() < 0.07:
        mesh = 2, 0, []
    if rng.random() < 0.3:
        D, points, cells = mesh
        mesh = D, points, rng.sample(cells, rng.randrange(max(0, len(cells) - 4), len(cells) + 1))
        if rng.random() < 0.7:
            mesh = all_used(mesh)
    while mesh[2] and rng.random() < 0.2:
        mesh = with_branch(rng, mesh)
    if rng.random() < 0.08:
        mesh = mesh[0], mesh[1] + rng.randrange(1, 4), mesh[2]
    return shuffled(rng, mesh)


def box(n, m, k):
    """A box of n by m by k cubes, six tetrahedra each."""
    def at(x, y, z):
        return (z * (m + 1) + y) * (n + 1) + x
    cells = []
    for z in range(k):
        for y in range(m):
            for x in range(n):
                for first, second in (((1, 0, 0), (1, 1, 0)), ((1, 0, 0), (1, 0, 1)), ((0, 1, 0), (1, 1, 0)),
                                      ((0, 1, 0), (0, 1, 1)), ((0, 0, 1), (1, 0, 1)), ((0, 0, 1), (0, 1, 1))):
                    cells.append([at(x, y, z), at(x + first[0], y + first[1], z + first[2]),
                                  at(x + second[0], y + second[1], z + second[2]), at(x + 1, y + 1, z + 1)])
    return 3, (n + 1) * (m + 1) * (k + 1), cells


def scattered(count, points):
    """Random tetrahedra, the same as those of bench/bench.cpp."""
    last, cells = 7, []
    while len(cells) < count:
        cell = []
        while len(cell) < 4:
            last = (last * 1664525 + 1013904223) & 0xFFFFFFFF
            v = last * points >> 32
            if v not in cell:
                cell.append(v)
        cells.append(cell)
    return 3, points, cells


def damaged_file(rng, data):
    """The file cut, made longer, with a bit turned, or broken on purpose so that each refusal comes up."""
    data = bytearray(data)
    way = rng.randrange(9)
    if way == 0:
        return bytes(data[:rng.randrange(len(data) + 1)])
    if way == 1:
        return bytes(data) + bytes(rng.randrange(256) for _ in range(rng.randrange(1, 4)))
    if way == 2:
        data[0] &= 0x3F
    elif way == 3:
        data[0] = data[0] & 0xC0 | 0x3F
    elif way == 4:
        data[2] = 0xFF
    elif way == 5:
        data[3] |= rng.randrange(1, 8)
    elif way == 6:
        data[-1] |= 1 << rng.randrange(8)
    else:
        bit = rng.randrange(8 * len(data))
        data[bit // 8] ^= 0x80 >> bit % 8
    return bytes(data)


def faulty_file(rng):
    """Cells with vertices out of range, vertices twice, cells twice, or more of these, and perhaps bits after the end."""
    D = rng.choice((1, 2, 3))
    points = rng.choice((0, 2, 4, 6))
    cells = [[rng.randrange(points + rng.choice((0, 0, 1))) if points else 0 for _ in range(D + 1)] for _ in range(rng.randrange(1, 6))]
    if rng.random() < 0.4:
        D, points, cells = with_repeats(rng, random_mesh(rng, D, 6, 6) if rng.random() < 0.7 else (D, points, cells))
    data = bytearray(rules.file_bytes(D, points, cells))
    if rng.random() < 0.3:
        data[-1] |= 1
    return bytes(data)


def spoiled_cells(rng, D, points, count):
    """So many cells, mostly right ones; or with a vertex out of range, a vertex twice, or both; or an earlier one again, be that right or not, its vertices in any order."""
    cells = []
    for _ in range(count):
        if cells and rng.random() < 0.3:
            cell = list(rng.choice(cells))
            rng.shuffle(cell)
        else:
            cell = rng.sample(range(points), D + 1) if points > D else [rng.randrange(points + 1) for _ in range(D + 1)]
            if rng.random() < 0.15:
                cell[rng.randrange(D + 1)] = min(8191, rng.choice((points, points, points + 1, 8191)))
            if rng.random() < 0.15:
                one, other = rng.sample(range(D + 1), 2)
                cell[one] = cell[other]
        cells.append(cell)
    return cells


def with_lies(rng, data):
    """The file with another D, N_0 or N_D in its head: mostly with more cells than there are, or fewer, or the most that there may be and one more."""
    head = int.from_bytes(data[:4], "big")
    count, way = head >> 3 & 0x1FFF, rng.randrange(5)
    if way == 0:
        head ^= rng.randrange(1, 4) << 30
    elif way == 1:
        head = head & ~(0x3FFF << 16) | rng.choice((0, 1, 3, 8191, 8192, 8193, 16383)) << 16
    else:
        more = count + 1, count + 1, count + 2, max(0, count - 1), 0, 4095, 4096, 4097, 8191
        head = head & ~(0x1FFF << 3) | rng.choice(more) << 3
    return head.to_bytes(4, "big") + data[4:]


def shortened(rng, data):
    """The file cut anywhere, or where a cell ends, or a byte before or behind that, or within its head."""
    size = 13 * ((data[0] >> 6) + 1)
    end = (32 + size * rng.randrange(8 * len(data) // size + 1) + 7) // 8
    return data[:max(0, rng.choice((rng.randrange(len(data)), len(data) - 1, len(data) - 1, end - 1, end, end + 1, rng.randrange(5))))]


def file_to_salvage(rng):
    """A right file, or any bytes; or one with cells of every kind, in which, each at times, pad bits and spare bits are set, the head lies, and the end is cut or bytes follow it."""
    way = rng.random()
    if way < 0.05:
        return rng.randbytes(rng.randrange(60))
    if way < 0.2:
        return rules.file_bytes(*small_mesh(rng))
    D, points = rng.choice((1, 2, 3)), rng.choice((0, 2, 4, 5, 6, 9, 8192))
    right = rng.random() < 0.3
    cells = random_mesh(rng, D, points, rng.randrange(9))[2] if right else spoiled_cells(rng, D, points, rng.randrange(9))
    data = bytearray(rules.file_bytes(D, points, cells))
    pad = -13 * (D + 1) * len(cells) % 8
    if pad and rng.random() < 0.3:
        data[-1] |= rng.choice((1, 1 << pad - 1, rng.randrange(1, 1 << pad)))
    if rng.random() < 0.2:
        data[3] |= rng.randrange(1, 8)
    if rng.random() < 0.15:
        data = with_lies(rng, bytes(data))
    way = rng.random()
    if way < 0.25:
        data = shortened(rng, data)
    elif way < 0.45:
        data += rng.choice((bytes, rng.randbytes))(rng.choice((1, 1, 2, 5, 60)))
    return bytes(data)


def lying_book(rng, room, crowded=False):
    """A book that breaks no rule and tells no truth: different cells, where `crowded` more of them on few vertices, so that they share edges; any relations, with all that they are made from or without;
    N_1 and N_2 as many as the cells have, or not; and any rows that ascend and lie below the counts."""
    D = rng.choice((1, 2, 2, 3, 3))
    points = rng.choice((5, 6) if crowded else (4, 5, 7))
    count = min(rng.choice((4, 5) if crowded else (0, 1, 2, 4)), math.comb(points, D + 1))
    cells = rng.sample(list(itertools.combinations(range(points), D + 1)), count)
    held, complete = {(D, 0)}, rng.random() < 0.3
    if rng.random() < 0.4:
        held |= {(d, 0) for d in range(1, D)}
    for _ in range(rng.randrange(9)):
        d, e = rng.randrange(D + 1), rng.randrange(D + 1)
        if not complete or all(n in held for n in rules.needs(D, d, e)):
            held.add((d, e))
    counts = {0: points, D: count}
    for d in range(1, D):
        if rules.names(held, d):
            found = {vertices for cell in cells for vertices in itertools.combinations(cell, d + 1)}
            counts[d] = rng.choice((len(found), rng.randrange({(2, 1): 3, (3, 1): 6, (3, 2): 4}[D, d] * count + 1)))
    words = []
    for d, e in sorted(held):
        rows = []
        for _ in range(counts[d]):
            if e == 0 and d > 0:
                size = d + 1
            else:
                size = rng.randrange(min(counts[e], 4) + 1)
            rows.append(sorted(rng.sample(range(counts[e]), size)))
        words += rules.words_of([list(cell) for cell in cells] if (d, e) == (D, 0) else rows)
    head = D << 30 | points << 16 | count << 3
    inner = [counts[d] if d < D and rules.names(held, d) else 0 for d in (1, 2)]
    book = [head, sum(1 << 4 * d + e for d, e in held)] + inner + [5 + len(words)] + words
    return book + [0] * rng.choice((0, 0, 1, 20, room))


def assembled(D, counts, rows, spare):
    """The book with these counts and rows, and so many free words."""
    words = [word for relation in sorted(rows) for word in rules.words_of(rows[relation])]
    inner = [counts[d] if d < D and rules.names(rows, d) else 0 for d in (1, 2)]
    head = D << 30 | counts[0] << 16 | counts[D] << 3
    return [head, sum(1 << 4 * d + e for d, e in rows)] + inner + [5 + len(words)] + words + [0] * spare


def lying_edges(rng, count, rim):
    """For each edge the cells that it lists, one or two, and for each of so many cells its three edges, which list it. As far as it can be, so many edges
    list one cell, or one more."""
    places = [(cell, k) for cell in range(count) for k in range(3)]
    rng.shuffle(places)
    pairs, alone = [], []
    for place in places:
        others = [at for at, (cell, _) in enumerate(alone[-4:], max(0, len(alone) - 4)) if cell != place[0]]
        if others and 3 * count - 2 * len(pairs) > rim + 1:
            pairs.append([place, alone.pop(others[0])])
        else:
            alone.append(place)
    edges = rng.sample(pairs + [[place] for place in alone], len(pairs) + len(alone))
    of = {place: edge for edge, here in enumerate(edges) for place in here}
    return [sorted(cell for cell, _ in here) for here in edges], [sorted(of[cell, k] for k in range(3)) for cell in range(count)]


def spoil_vertices(rng, counts, rows):
    """One to three vertices more, which no cell has."""
    counts[0] += rng.randrange(1, 4)


def spoil_ends(rng, counts, rows):
    """The vertices of up to three edges, any two."""
    for edge in rng.sample(range(counts[1]), min(counts[1], 3)):
        rows[1, 0][edge] = sorted(rng.sample(range(counts[0]), 2))


def spoil_edge(rng, counts, rows):
    """The cells of one to three edges: none, or any up to four."""
    for edge in rng.sample(range(counts[1]), min(counts[1], rng.randrange(1, 4))):
        rows[1, 2][edge] = sorted(rng.sample(range(counts[2]), min(counts[2], rng.choice((0, 1, 2, 3, 4)))))


def spoil_cell(rng, counts, rows):
    """One cell, or two: an edge less; one more, which is made to list it where it can be; an edge for one of its own that does not list it; or one of its own does not list it any more."""
    lists = rows[1, 2]
    for cell in rng.sample(range(counts[2]), min(counts[2], rng.choice((1, 1, 2)))):
        own, way = rows[2, 1][cell], rng.choice((0, 1, 1, 2, 2, 3, 3))
        others = [edge for edge in range(counts[1]) if edge not in own]
        gone = rng.choice(own) if own else None
        if way == 0:
            own = [edge for edge in own if edge != gone]
        elif way == 1 and others:
            more = rng.choice(others)
            own = own + [more]
            lists[more] = sorted({cell, *lists[more][:1]})
        elif way == 2 and any(cell not in lists[edge] for edge in others):
            own = [edge for edge in own if edge != gone] + [rng.choice([edge for edge in others if cell not in lists[edge]])]
        elif way == 3 and own and counts[2] > 1:
            lists[gone] = [other for other in lists[gone] if other != cell] or [(cell + 1) % counts[2]]
        rows[2, 1][cell] = sorted(own)


def lying_sheet(rng, count, rim, points, lies):
    """A book that breaks no rule, tells no truth, and is mostly taken for a sheet: different cells that have each of so many vertices, as far as they can; edges with any vertices, of which
    so many list one cell, or one more; and, as often as is said, edges more, which no cell has, second cells that have not the edge that lists them, and what makes it no sheet."""
    triangles = list(itertools.combinations(range(points), 3))
    count = min(count, len(triangles))
    _, points, cells = all_used((2, points, rng.sample(triangles, count)))
    lists, edges = lying_edges(rng, count, rim)
    if rng.random() < lies:
        more = rng.randrange(3 * count - len(lists) + 1)
        lists += [sorted(rng.sample(range(count), rng.choice((1, 1, min(2, count))))) for _ in range(min(more, 3))]
    for edge, cell in [(edge, cells_of[0]) for edge, cells_of in enumerate(lists) if len(cells_of) == 1 < count]:
        if rng.random() < lies / 3:
            lists[edge] = sorted([cell, rng.choice([other for other in range(count) if other != cell])])
    counts = {0: points, 1: len(lists), 2: count}
    ends = [sorted(rng.sample(range(points), 2)) for _ in lists]
    rows = {(1, 0): ends, (1, 2): lists, (2, 0): [sorted(cell) for cell in cells], (2, 1): edges}
    while rng.random() < lies:
        rng.choice((spoil_vertices, spoil_ends, spoil_edge, spoil_cell, spoil_cell, spoil_cell))(rng, counts, rows)
    for d, e in ((0, 0), (0, 2), (1, 1), (2, 2)):
        if rng.random() < lies / 3:
            rows[d, e] = [sorted(rng.sample(range(counts[e]), min(counts[e], rng.randrange(3)))) for _ in range(counts[d])]
    return assembled(2, counts, rows, rng.choice((0, 0, 1, 20)))


def unmade(book):
    """Each d, 0 < d < D, whose N_d is kept though d→0 is not held, in a book whose frame is right."""
    frame = rules.Frame.of(book)
    return [d for d in range(1, frame.D) if rules.names(frame.held, d) and (d, 0) not in frame.held]


def miscounted(book, more):
    """Each d, 0 < d < D, whose N_d is kept and is more, or less, than the number of vertex sets that the cells have, in a right book."""
    frame = rules.Frame.of(book)
    found = {d: {vertices for cell in frame.rows(frame.D, 0) for vertices in itertools.combinations(cell, d + 1)} for d in range(1, frame.D)}
    return [d for d in found if d in frame.counts and frame.counts[d] != len(found[d]) and (frame.counts[d] > len(found[d])) == more]


def damaged_book(rng, book):
    """A head word, an offset, an index or a free word changed, or the book cut or made longer."""
    book = list(book)
    way = rng.randrange(8)
    strange = rng.choice((0, 1, 2, 5, 0xFFFF, 0x10000, 0x7FFFFFFF, 0x80000000, 0xFFFFFFFF, rng.randrange(1 << 32)))
    if way == 0 and book:
        book[rng.randrange(min(5, len(book)))] = strange
    elif way == 1 and book:
        at = rng.randrange(min(5, len(book)))
        book[at] ^= 1 << rng.randrange(32)
    elif way in (2, 3) and len(book) > 5:
        at = rng.randrange(5, len(book))
        book[at] = rng.choice((strange, book[at] + 1, max(0, book[at] - 1), rng.randrange(8))) & 0xFFFFFFFF
    elif way == 4 and len(book) > 5:
        end = min(len(book), max(6, book[4]))
        at = rng.randrange(5, end)
        book[at] = (book[at] + rng.choice((1, 0xFFFFFFFF))) & 0xFFFFFFFF
    elif way == 5 and len(book) > 5:
        used = book[4]
        if used < len(book):
            book[rng.randrange(used, len(book))] = strange
    elif way == 6:
        book = book[:rng.randrange(len(book) + 1)]
    else:
        book += [0] * rng.randrange(1, 5)
    return book


def repeat_cell(rng, book, frame, *_):
    """A cell written over another one."""
    cells, size = frame.counts[frame.D], frame.D + 1
    if cells > 1:
        first = frame.places[frame.D, 0] + cells + 1
        one, other = [first + size * c for c in rng.sample(range(cells), 2)]
        book[other:other + size] = book[one:one + size]


def enlarge_index(rng, book, frame, d, e):
    """An index that is N_e or more."""
    first, total = frame.places[d, e] + frame.counts[d] + 1, frame.offsets(d, e)[-1]
    if total:
        book[first + rng.randrange(total)] = rng.choice((frame.counts[e], frame.counts[e], frame.counts[e] + 1, 0x80000000, 0xFFFFFFFF))


def lower_index(rng, book, frame, d, e):
    """An index that is not above the one before it, which is mostly of the same row."""
    first, total = frame.places[d, e] + frame.counts[d] + 1, frame.offsets(d, e)[-1]
    if total > 1:
        at = first + rng.randrange(1, total)
        book[at] = rng.choice((book[at - 1], rng.randrange(book[at - 1] + 1)))


def spoil_indices(rng, book, frame, d, e):
    """Up to six indices, one after another, that are anything up to N_e, so that faults of both kinds stand side by side."""
    first, total = frame.places[d, e] + frame.counts[d] + 1, frame.offsets(d, e)[-1]
    start = rng.randrange(total + 1)
    for at in range(first + start, first + min(total, start + 6)):
        book[at] = rng.randrange(frame.counts[e] + 1)


def resize_row(rng, book, frame, d, e):
    """An index more or less at the end of a row, or before the first, with all that follows moved and the used length set right."""
    offsets, at = frame.offsets(d, e), frame.places[d, e]
    end = rng.randrange(len(offsets))
    word = at + len(offsets) + offsets[end]
    more = 1 if end == 0 or offsets[end] == offsets[end - 1] or rng.random() < 0.5 else -1
    if more == 1:
        book.insert(word, rng.randrange(frame.counts[e] + 1))
    else:
        del book[word - 1]
    for k in range(end, len(offsets)):
        book[at + k] += more
    book[4] += more


def set_free_word(rng, book, frame, *_):
    """A free word that is not 0, in a book that has one."""
    if book[4] < len(book):
        book[rng.randrange(book[4], len(book))] = rng.choice((1, 7, 0x80000000, 0xFFFFFFFF))


def set_first_offset(rng, book, frame, d, e):
    """A first offset that is not 0; where it is the last too, the frame rule looks at it, and it stays."""
    if frame.counts[d]:
        book[frame.places[d, e]] = rng.choice((1, 1, 2, frame.offsets(d, e)[-1] + 1, 0xFFFFFFFF))


def set_offset(rng, book, frame, d, e):
    """An offset but the first and the last, changed by one, or beyond one beside it, or above the total."""
    if frame.counts[d] > 1:
        at = frame.places[d, e] + rng.randrange(1, frame.counts[d])
        total = frame.offsets(d, e)[-1]
        book[at] = max(0, rng.choice((book[at] + 1, book[at] - 1, book[at + 1] + 1, book[at - 1] - 1, total + 1, 0xFFFFFFFF))) & 0xFFFFFFFF


def spoil_offsets(rng, book, frame, d, e):
    """Up to four offsets, one after another and without the first and the last, that are anything up to the total and one more."""
    if frame.counts[d] > 1:
        start = rng.randrange(1, frame.counts[d])
        for k in range(start, min(frame.counts[d], start + 4)):
            book[frame.places[d, e] + k] = rng.randrange(frame.offsets(d, e)[-1] + 2)


# Those that need right offsets stand before those that spoil them.
FAULTS = (repeat_cell, enlarge_index, lower_index, spoil_indices, resize_row, set_free_word, set_first_offset, set_offset, spoil_offsets)


def broken_book(rng, book):
    """One to four faults in a book that has none, in any of its relations or in one; the frame stays right, and at times a fault does no harm."""
    book = list(book) + [0] * rng.choice((0, 1, 5))
    frame = rules.Frame.of(book)
    held = sorted(frame.held)
    if rng.random() < 0.5:
        held = [rng.choice(held + [(frame.D, 0)] * 3)]
    for which in sorted(rng.choices(range(len(FAULTS)), k=rng.choice((1, 1, 2, 2, 3, 4)))):
        FAULTS[which](rng, book, rules.Frame.of(book), *rng.choice(held))
    return book


def worn_book(rng, book):
    """A word changed that no frame rule looks at: an offset but the last, an index or a free word; or a cell written over another one."""
    book = list(book)
    frame = rules.Frame.of(book)
    if frame is None:
        return book
    if frame.counts[frame.D] > 1 and rng.random() < 0.3:
        repeat_cell(rng, book, frame)
        return book
    lasts = {frame.places[r] + frame.counts[r[0]] for r in frame.held}
    places = [at for at in range(5, len(book)) if at not in lasts]
    if places:
        at = rng.choice(places)
        book[at] = rng.choice((book[at] + 1, max(0, book[at] - 1), rng.randrange(9), 0xFFFFFFFF)) & 0xFFFFFFFF
    return book


def tiny_book(rng):
    """0 to 6 words of any value."""
    return [rng.choice((0, 1, 5, 6, 16, 256, 4096, 0x40000000, 0x80040010, 0xFFFFFFFF, rng.randrange(1 << 32))) for _ in range(rng.randrange(7))]
