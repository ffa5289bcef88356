"""Places in the plane for the vertices of a mesh that has no coordinates."""

import math


def steps_from(near, start):
    """How many edges each vertex lies from one."""
    found, wave = {start: 0}, [start]
    for v in wave:
        for w in near[v]:
            if w not in found:
                found[w] = found[v] + 1
                wave.append(w)
    return found


def laid_out(near, part, axes):
    """Classical scaling: the steps from up to 24 vertices, each far from the ones before, squared and centred, along the two
    or three widest directions that a space of points has; of three, the third is seen aslant."""
    if len(part) == 1:
        return [(0, 0)]
    rows, pivots, nearest = [], [], {v: math.inf for v in part}
    while len(rows) < 24 and max(nearest.values()) > 0:
        pivots.append(max(range(len(part)), key=lambda i: nearest[part[i]]))
        rows.append(steps_from(near, part[pivots[-1]]))
        nearest = {v: min(nearest[v], rows[-1][v]) for v in part}
    k, n = len(rows), len(part)
    across = [sum(row[v] ** 2 for row in rows) / k for v in part]
    centred = []
    for row in rows:
        mean = sum(row[v] ** 2 for v in part) / n - sum(across) / n
        centred.append([a + mean - row[v] ** 2 for a, v in zip(across, part)])
    square = [[sum(a * b for a, b in zip(p, q)) for q in centred] for p in centred]
    places, taken = [], []
    while len(places) < axes:
        axis = [1 / (i + 1 + len(taken)) for i in range(k)]
        for _ in range(100):
            axis = [sum(a * b for a, b in zip(row, axis)) for row in square]
            for other in taken:
                dot = sum(a * b for a, b in zip(axis, other))
                axis = [a - dot * b for a, b in zip(axis, other)]
            length = math.hypot(*axis)
            axis = [a / length if length > 1e-6 else 0 for a in axis]
        taken.append(axis)
        seen = [sum(a * row[i] for a, row in zip(axis, centred)) for i in range(n)]
        if sum(a * seen[i] for a, i in zip(axis, pivots)) >= 0:
            size = math.sqrt(math.hypot(*seen)) or 1
            places.append([a / size for a in seen])
    return [(x + 0.4 * sum(z), y + 0.3 * sum(z)) for x, y, *z in zip(*places)]


def spread(points, edges, axes):
    """Places for vertices without coordinates: each connected part laid out for itself, the parts side by side in rows."""
    near = [[] for _ in range(points)]
    for a, b in edges:
        near[a].append(b)
        near[b].append(a)
    parts, seen = [], set()
    for v in range(points):
        if v not in seen:
            parts.append(sorted(steps_from(near, v)))
            seen.update(parts[-1])
    at, boxes = {}, []
    for part in sorted(parts, key=len, reverse=True):
        at.update(zip(part, laid_out(near, part, axes)))
        lengths = [math.dist(at[v], at[w]) for v in part for w in near[v]]
        size = len(lengths) / sum(lengths) if sum(lengths) else 0  # makes edges 1 long on average
        low = [min(at[v][k] for v in part) for k in (0, 1)]
        for v in part:
            at[v] = [size * (at[v][k] - low[k]) for k in (0, 1)]
        boxes.append((part, max(at[v][0] for v in part), max(at[v][1] for v in part)))
    limit = 1.6 * math.sqrt(sum((wide + 1) * (high + 1) for _, wide, high in boxes))
    x, y, tall = 0, 0, 0
    for part, wide, high in boxes:
        if x > 0 and x + wide > limit:
            x, y, tall = 0, y - tall - 1, 0
        for v in part:
            at[v] = (x + at[v][0], y - high + at[v][1])
        x, tall = x + wide + 1, max(tall, high)
    return [at[v] for v in range(points)]
