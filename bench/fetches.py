"""Counts what a load fetches from a day file, for the square of 4,050 triangles and 4,096 tetrahedra: bench/fetches runs it.

A load reads each cell once: D, 2 bits, and the vertices, 13 bits each; and the first 32 bits and those after the last vertex. A field needs the bytes from its first bit's to its last bit's. Fails where
more bytes were fetched than these fields need.
"""

import os
import subprocess
import sys

top = sys.argv[1]
sys.path.insert(0, os.path.join(top, "compare"))
import reference

HEADS = 4  # how often the first 32 bits are read: for the faults of the head, for those of the cells, for the room, and for the words


def needed(bit, width):
    return (bit + width - 1) // 8 - bit // 8 + 1


def fetched(D, points, cells):
    data = reference.file_bytes(D, points, cells)
    path = os.path.join(top, "target", "bench", "fetches.day")
    with open(path, "wb") as out:
        out.write(bytes(data))
    words = 6 + len(cells) * (D + 2)
    trace = path + ".trace"
    run = subprocess.run(["valgrind", "--tool=lackey", "--trace-mem=yes", "--log-file=" + trace, os.path.join(top, "target", "bench", "fetches"), path, str(words)], stdout=subprocess.PIPE, check=True)
    start, length = map(int, run.stdout.split())
    loads = total = 0
    with open(trace, errors="replace") as lines:
        for line in lines:
            if line[:3] in (" L ", " M "):
                at, size = line[3:].split(",")
                if start <= int(at, 16) < start + length:
                    loads += 1
                    total += int(size)
    os.remove(trace)
    end = 32 + 13 * (D + 1) * len(cells)
    vertices = sum(needed(bit, 13) for bit in range(32, end, 13))
    most = vertices + len(cells) + 4 * HEADS + needed(end, 7)
    by_bits = 13 * (D + 1) * len(cells) + 2 * len(cells) + 32 * HEADS + 7
    print("%d cells, D = %d: %d bytes fetched, by %d loads; the fields need %d; a byte for each bit would be %d" % (len(cells), D, total, loads, most, by_bits))
    return total <= most


def square(n):
    w = n + 1
    return [cell for y in range(n) for x in range(n) for cell in ([w * y + x, w * y + x + 1, w * y + x + w + 1], [w * y + x, w * y + x + w, w * y + x + w + 1])]


fits = [fetched(2, 46 * 46, square(45)), fetched(3, 4099, [[c, c + 1, c + 2, c + 3] for c in range(4096)])]
sys.exit(0 if all(fits) else 1)
