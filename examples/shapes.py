"""The example meshes, each with its vertices' places. Points lie on whole numbers (centimetres for the dam and the slope) and
circles are compared in whole numbers, so that every machine makes the same triangles."""

import math
import random


def turn(a, b, c):
    """Twice the area of a, b, c; positive where they run counterclockwise."""
    return (b[0] - a[0]) * (c[1] - a[1]) - (b[1] - a[1]) * (c[0] - a[0])


def in_circle(a, b, c, p):
    """Whether p lies within the circle through a, b, c, which run counterclockwise."""
    (ax, ay), (bx, by), (cx, cy) = [(q[0] - p[0], q[1] - p[1]) for q in (a, b, c)]
    return ((ax * ax + ay * ay) * (bx * cy - cx * by) - (bx * bx + by * by) * (ax * cy - cx * ay)
            + (cx * cx + cy * cy) * (ax * by - bx * ay)) > 0


def delaunay(places):
    """The Delaunay triangles of points with whole coordinates: each point digs out the triangles whose circle holds it."""
    n, far = len(places), 10000 * max(abs(c) for p in places for c in p)
    at = places + [(-far, -far), (far, -far), (0, far)]
    across = {}  # for each edge, the corner on its left

    def put(a, b, c):
        across[a, b], across[b, c], across[c, a] = c, a, b

    put(n, n + 1, n + 2)
    corner = (n, n + 1, n + 2)
    for p in range(n):
        beyond = True
        while beyond:
            a, b, c = corner
            beyond = [(v, u) for u, v in ((a, b), (b, c), (c, a)) if turn(at[u], at[v], at[p]) < 0]
            if beyond:
                corner = beyond[0] + (across[beyond[0]],)
        edges = [(a, b), (b, c), (c, a)]
        for edge in edges:
            del across[edge]
        while edges:
            u, v = edges.pop()
            w = across.get((v, u))
            if w is not None and in_circle(at[v], at[u], at[w], at[p]):
                del across[v, u], across[u, w], across[w, v]
                edges += [(u, w), (w, v)]
            else:
                put(u, v, p)
                corner = (u, v, p)
    return [(a, b, c) for (a, b), c in across.items() if a < min(b, c) and max(b, c) < n]


def along(line, step):
    """Points on a line at even distances of about step, without its last point."""
    sums = [0]
    for a, b in zip(line, line[1:]):
        sums.append(sums[-1] + math.sqrt((b[0] - a[0]) ** 2 + (b[1] - a[1]) ** 2))
    parts, k, out = max(1, round(sums[-1] / step)), 0, []
    for i in range(parts):
        while sums[k + 1] <= sums[-1] * i / parts:
            k += 1
        t = (sums[-1] * i / parts - sums[k]) / (sums[k + 1] - sums[k])
        out.append(tuple(round(p + t * (q - p)) for p, q in zip(line[k], line[k + 1])))
    return out


def meshed(loops, step, seed):
    """Triangles within the first loop and outside the others: points on the loops, then shaken rows of points between."""
    rng = random.Random(seed)
    places = [p for loop in loops for p in loop]
    border = [edge for loop in loops for edge in zip(loop, loop[1:] + loop[:1])]

    def within(x, y):
        return sum((ay > y) != (by > y) and x < ax + (bx - ax) * (y - ay) / (by - ay) for (ax, ay), (bx, by) in border) % 2

    (left, right), (low, high) = [(min(c), max(c)) for c in zip(*places)]
    near = (0.6 * step) ** 2
    edge = list(places)
    for j in range(int((high - low) / (0.866 * step)) + 1):
        for i in range(int((right - left) / step) + 1):
            x = round(left + step * (i + j % 2 / 2 + 0.6 * (rng.random() - 0.5)))
            y = round(low + step * (0.866 * j + 0.6 * (rng.random() - 0.5)))
            if within(x, y) and all((x - a) ** 2 + (y - b) ** 2 > near for a, b in edge):
                places.append((x, y))
    found = []
    for cell in delaunay(places):
        x, y = [sum(places[v][k] for v in cell) / 3 for k in (0, 1)]
        if within(x, y):
            found.append((y, x, list(cell)))
    return places, [cell for _, _, cell in sorted(found)]


def t():
    """The two triangles of the paper's T, on the unit square."""
    return (2, 4, [[0, 1, 3], [1, 2, 3]]), [(0, 0), (1, 0), (1, 1), (0, 1)]


def t_again():
    """T's cells in another order, and so are the vertices within each; the places are those of T."""
    return 2, 4, [[3, 1, 2], [1, 3, 0]]


def dam():
    """The face of a dam seen from downstream, 300 m wide at the crest, with a spillway and two outlets."""
    step = 356
    parts = [i / 100 for i in range(101)]
    flank = [(5600 + 11400 * t - 2000 * t * t, 10000 * t) for t in parts]
    lines = [[(5600 * (2 * t - 1), -1000 * t * (1 - t)) for t in parts], flank, [(15000, 10000), (3000, 10000)],
             [(3000, 10000), (2300, 8700)], [(2300, 8700), (-2300, 8700)], [(-2300, 8700), (-3000, 10000)],
             [(-3000, 10000), (-15000, 10000)], [(-x, y) for x, y in reversed(flank)]]
    outlets = [[(round(x + 650 * math.cos(math.pi * k / 8)), round(2300 - 650 * math.sin(math.pi * k / 8))) for k in range(16)]
               for x in (-2800, 2800)]
    places, cells = meshed([[p for line in lines for p in along(line, step)]] + outlets, step, 1)
    return (2, len(places), cells), places


def scan():
    """The dam and forty points more in a row below its foot, which no triangle uses."""
    (D, points, cells), places = dam()
    return (D, points + 40, cells), places + [(280 * k - 5460, -1000) for k in range(40)]


def stack():
    """Two scans of a rock slope, one above the other: each prism between two triangles is cut into three tetrahedra, by
    the diagonals that rise from the lower number to the higher, so that prisms side by side are cut alike. Seen aslant."""
    corners = [(0, 0), (5200, -600), (9600, 300), (10800, 3600), (8200, 6400), (3600, 6800), (-400, 4400)]
    sheet, triangles = meshed([[p for ends in zip(corners, corners[1:] + corners[:1]) for p in along(ends, 850)]], 850, 2)
    n, cells = len(sheet), []
    for triangle in triangles:
        a, b, c = sorted(triangle)
        cells += [[a, b, c, c + n], [a, b, b + n, c + n], [a, a + n, b + n, c + n]]
    places = [(x + y // 2, y * 2 // 5 + up) for up in (0, 4000) for x, y in sheet]
    return (3, 2 * n, cells), places
