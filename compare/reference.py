"""A separate reading of documents 01 and 02: every call of the library, on plain Python lists.

Written from the papers alone. It shares no definition with crates/ and takes the plain way
where the library takes the quick one, so that a mistake has to be made twice to go unseen.
A file is a bytes object, a book a list of numbers below 2^32 that the calls change in place.
"""

import functools
import math
from collections import namedtuple
from fractions import Fraction

FREE_WORDS = 16  # the key of the free words
KINDS = ("first offset", "falling offset", "wrong size", "not ascending", "too large", "repeated cell", "free word")
OWN_KINDS = ("offset i", "offset i + 1")

# Where a book is broken: the two numbers that go with 11, and which fault is seen there, which no call tells.
Place = namedtuple("Place", "key position kind")


# ---- the day file

class Bits:
    """Bit fields, most significant bit first; bits past the end are 0."""

    def __init__(self, data):
        self.size, self.data = 8 * len(data), bytes(data)

    def field(self, at, width):
        first, last = at // 8, (at + width + 7) // 8
        number = int.from_bytes(self.data[first:last].ljust(last - first, b"\0"), "big")
        return number >> (8 * last - at - width) & ((1 << width) - 1)


def file_length(D, cells):
    return 4 + (13 * (D + 1) * cells + 7) // 8


def head_of(data):
    """Refusals 1 to 4: (number, None), or (0, (D, N_0, N_D, the spare bits))."""
    if len(data) < 4:
        return 1, None
    bits = Bits(data[:4])
    D, points, count, spare = bits.field(0, 2), bits.field(2, 14), bits.field(16, 13), bits.field(29, 3)
    if D == 0:
        return 2, None
    if points > 8192:
        return 3, None
    if count > 4096:
        return 4, None
    return 0, (D, points, count, spare)


def read_file(data):
    """Refusals 1 to 8, 23 and 9: (number, cell, None), or (0, None, (D, N_0, cells as they stand in the file))."""
    number, head = head_of(data)
    if number:
        return number, None, None
    (D, points, count, spare), bits = head, Bits(data)
    if spare:
        return 5, None, None
    if len(data) != file_length(D, count):
        return 6, None, None
    cells = [[bits.field(32 + 13 * ((D + 1) * c + k), 13) for k in range(D + 1)] for c in range(count)]
    for c, cell in enumerate(cells):
        if any(v >= points for v in cell):
            return 7, c, None
    for c, cell in enumerate(cells):
        if len(set(cell)) < len(cell):
            return 8, c, None
    earlier = set()
    for c, cell in enumerate(cells):
        if frozenset(cell) in earlier:
            return 23, c, None
        earlier.add(frozenset(cell))
    end = 32 + 13 * (D + 1) * count
    if bits.field(end, 8 * len(data) - end):
        return 9, None, None
    return 0, None, (D, points, cells)


def file_bytes(D, points, cells):
    """The bytes of a file; cells in the order and with the vertices given."""
    text = format(D, "02b") + format(points, "014b") + format(len(cells), "013b") + "000"
    text += "".join(format(v, "013b") for cell in cells for v in cell)
    text += "0" * (-len(text) % 8)
    return int(text, 2).to_bytes(len(text) // 8, "big")


# ---- salvage: the cells of a file that can be saved

REASONS = (6, 7, 8, 23)

# What is said of a file that was salvaged.
Salvaged = namedtuple("Salvaged", "length dropped spare pad wrong_length")


def why_dropped(bits, D, points, at, kept):
    """Why the cell whose bits begin at `at` is dropped, 0 where it is kept; kept has the vertex sets kept before it."""
    if at + 13 * (D + 1) > bits.size:
        return 6
    cell = [bits.field(at + 13 * k, 13) for k in range(D + 1)]
    if any(v >= points for v in cell):
        return 7
    if len(set(cell)) < len(cell):
        return 8
    return 23 if frozenset(cell) in kept else 0


def salvage(data, out, dropped):
    """(number, what is said of the file, or None on a refusal); out is a bytearray, dropped a list of numbers."""
    number, head = head_of(data)
    if number:
        return number, None
    (D, points, count, spare), bits = head, Bits(data)
    cells, kept, listed = [], set(), []
    for c in range(count):
        at = 32 + 13 * (D + 1) * c
        why = why_dropped(bits, D, points, at, kept)
        if why:
            listed += [c, why]
        else:
            cells.append([bits.field(at + 13 * k, 13) for k in range(D + 1)])
            kept.add(frozenset(cells[-1]))
    saved = file_bytes(D, points, cells)
    if len(out) < len(saved):
        return 18, None
    if len(dropped) < 2 * count:
        return 21, None
    out[:len(saved)] = saved
    dropped[:len(listed)] = listed
    end, exact = 32 + 13 * (D + 1) * count, file_length(D, count)
    pad = any(bits.field(at, 1) for at in range(end, 8 * exact) if at < bits.size)
    return 0, Salvaged(len(saved), len(listed) // 2, spare != 0, pad, len(data) != exact)


# ---- the book

def needs(D, d, e):
    """What d→e is made from."""
    if e == 0 and d > 0:
        return [] if d == D else [(D, 0)]
    if d < e:
        return [(e, d)]
    if d > e:
        return [(d, 0), (0, e), (e, 0)]
    if d > 0:
        return [(d, 0), (0, d)]
    return [(0, D), (D, 0)]


def names(held, d):
    """Whether one of these relations names d, as its first or its second."""
    return any(d in relation for relation in held)


class Frame:
    """A book whose frame is right, taken apart; None of it is made where the frame rule is broken."""

    @staticmethod
    def of(book):
        if len(book) < 5:
            return None
        head, mask = book[0], book[1]
        frame = Frame()
        D, points, cells = head >> 30, head >> 16 & 0x3FFF, head >> 3 & 0x1FFF
        if D == 0 or points > 8192 or cells > 4096 or head & 7:
            return None
        frame.D, frame.book = D, book
        frame.counts = {0: points, D: cells}
        frame.held = {divmod(k, 4) for k in range(32) if mask >> k & 1}
        if any(d > D or e > D for d, e in frame.held) or (D, 0) not in frame.held:
            return None
        for d in (1, 2):
            if d < D and names(frame.held, d):
                most = {(2, 1): 3, (3, 1): 6, (3, 2): 4}[D, d]
                if book[1 + d] > most * cells:
                    return None
                frame.counts[d] = book[1 + d]
            elif book[1 + d] != 0:
                return None
        used = book[4]
        if used > len(book):
            return None
        frame.places, at = {}, 5
        for d, e in sorted(frame.held):
            frame.places[d, e] = at
            last = at + frame.counts[d]
            if last >= used:
                return None
            at = last + 1 + book[last]
        if at != used:
            return None
        return frame

    def offsets(self, d, e):
        at = self.places[d, e]
        return self.book[at:at + self.counts[d] + 1]

    def rows(self, d, e):
        """The rows of a relation, of a book whose rows are right."""
        offsets = self.offsets(d, e)
        first = self.places[d, e] + self.counts[d] + 1
        return [self.book[first + a:first + b] for a, b in zip(offsets, offsets[1:])]

    def used_vertices(self):
        """The vertices that lie in at least one cell, of a book whose rows are right."""
        return {v for cell in self.rows(self.D, 0) for v in cell}

    def rows_right(self):
        for d, e in sorted(self.held):
            offsets = self.offsets(d, e)
            if offsets[0] != 0 or any(a > b for a, b in zip(offsets, offsets[1:])):
                return False
            rows = self.rows(d, e)
            for row in rows:
                if any(a >= b for a, b in zip(row, row[1:])):
                    return False
                if any(j >= self.counts[e] for j in row):
                    return False
                if e == 0 and d > 0 and len(row) != d + 1:
                    return False
            if (d, e) == (self.D, 0) and len(set(map(tuple, rows))) < len(rows):
                return False
        return not any(self.book[self.book[4]:])

    def faults(self, d, e):
        """Every position of a relation at which a fault is seen, with its kind; behind bad offsets there are no rows to look at."""
        offsets = self.offsets(d, e)
        found = [(0, "first offset")] if offsets[0] != 0 else []
        for end in range(1, len(offsets)):
            size = offsets[end] - offsets[end - 1]
            if size < 0:
                found.append((end, "falling offset"))
            if e == 0 and d > 0 and size != d + 1:
                found.append((end, "wrong size"))
        if found:
            return found
        earlier, position = set(), len(offsets)
        for row in self.rows(d, e):
            if (d, e) == (self.D, 0) and tuple(row) in earlier:
                found.append((position, "repeated cell"))
            earlier.add(tuple(row))
            for t, index in enumerate(row):
                if t > 0 and not index > row[t - 1]:
                    found.append((position + t, "not ascending"))
                if index >= self.counts[e]:
                    found.append((position + t, "too large"))
            position += len(row)
        return found

    def first_fault(self):
        """The place of the first relation with a fault and its lowest position, else of the first free word that is not 0, else None."""
        for d, e in sorted(self.held):
            found = self.faults(d, e)
            if found:
                return Place(4 * d + e, *min(found, key=lambda fault: fault[0]))
        for distance, word in enumerate(self.book[self.book[4]:]):
            if word:
                return Place(FREE_WORDS, distance, "free word")
        return None

    def broken(self):
        """None where the row rule holds, else the place; the rule and the search for the place are two readings of the paper."""
        if self.rows_right():
            return None
        place = self.first_fault()
        assert place, "the row rule is broken and no fault is seen"
        return place

    def own_fault(self, d, e, i):
        """The place where a row's own two offsets are not first ≤ second ≤ total, else None."""
        at, total = self.places[d, e], self.offsets(d, e)[-1]
        if self.book[at + i] > total:
            return Place(4 * d + e, i, "offset i")
        if not self.book[at + i] <= self.book[at + i + 1] <= total:
            return Place(4 * d + e, i + 1, "offset i + 1")
        return None


def words_of(rows):
    """A relation as words: its offsets, then its indices."""
    words, total = [0], 0
    for row in rows:
        total += len(row)
        words.append(total)
    for row in rows:
        words.extend(row)
    return words


def choose(n, xs):
    """The sets of n members of an ascending list, in lexicographic order."""
    if n == 0:
        return [[]]
    return [[x] + rest for i, x in enumerate(xs) for rest in choose(n - 1, xs[i + 1:])]


def made(D, counts, rows, d, e):
    """d→e by the five rules, from the rows of other relations, whatever they say."""
    if e == 0 and d > 0:
        met, order = set(), []
        for cell in rows[D, 0]:
            for s in choose(d + 1, cell):
                if tuple(s) not in met:
                    met.add(tuple(s))
                    order.append(s)
        return order
    if d < e:
        out = [[] for _ in range(counts[d])]
        for j, row in enumerate(rows[e, d]):
            for i in row:
                out[i].append(j)
        return out
    if d > e:
        out = []
        for row in rows[d, 0]:
            inside = set(row)
            listed = sorted({j for v in row for j in rows[0, e][v]})
            out.append([j for j in listed if inside.issuperset(rows[e, 0][j])])
        return out
    if d > 0:
        return [sorted({j for v in row for j in rows[0, d][v]} - {i}) for i, row in enumerate(rows[d, 0])]
    return [sorted({j for c in row for j in rows[D, 0][c]} - {i}) for i, row in enumerate(rows[0, D])]


# ---- the calls; those that can give 11 return, last, the place that goes with it, None with any other number

def load(data, book):
    """(number, cell or None)"""
    number, cell, mesh = read_file(data)
    if number:
        return number, cell
    D, points, cells = mesh
    body = words_of([sorted(cell) for cell in cells])
    words = [int.from_bytes(data[:4], "big"), 1 << 4 * D, 0, 0, 5 + len(body)] + body
    if len(words) > len(book):
        return 13, None
    book[:] = words + [0] * (len(book) - len(words))
    return 0, None


class State:
    """The relations of a right book as rows, to make others from or to drop one, and to put together again."""

    def __init__(self, frame):
        self.D, self.counts = frame.D, dict(frame.counts)
        self.rows = {r: frame.rows(*r) for r in frame.held}

    def make(self, d, e):
        """0; or 25, where another relation keeps N_d and d→0 is found to have another number of entities."""
        rows = made(self.D, self.counts, self.rows, d, e)
        if e == 0 and 0 < d < self.D:
            if names(self.rows, d) and self.counts[d] != len(rows):
                return 25
            self.counts[d] = len(rows)
        self.rows[d, e] = rows
        return 0

    def ask(self, d, e):
        """Makes what is missing, back to what is held: 0, or 25 where it comes on the way."""
        if (d, e) in self.rows:
            return 0
        for x, y in needs(self.D, d, e):
            number = self.ask(x, y)
            if number:
                return number
        return self.make(d, e)

    def words(self, head):
        inner = [self.counts[d] if d < self.D and names(self.rows, d) else 0 for d in (1, 2)]
        body = [w for r in sorted(self.rows) for w in words_of(self.rows[r])]
        return [head, sum(1 << 4 * d + e for d, e in self.rows)] + inner + [5 + len(body)] + body


def settle(state, book):
    words = state.words(book[0])
    if len(words) > len(book):
        return 13
    book[:] = words + [0] * (len(book) - len(words))
    return 0


def checked(book):
    """What a call that checks the whole book begins with: its frame, 10, 11 or else 0, and with 11 the place."""
    frame = Frame.of(book)
    if frame is None:
        return None, 10, None
    place = frame.broken()
    return frame, 11 if place else 0, place


def make(book, d, e):
    """(number, place)"""
    frame, number, place = checked(book)
    if number:
        return number, place
    if d > frame.D or e > frame.D:
        return 12, None
    if (d, e) in frame.held:
        return 14, None
    if any(n not in frame.held for n in needs(frame.D, d, e)):
        return 15, None
    state = State(frame)
    return state.make(d, e) or settle(state, book), None


def ask(book, d, e):
    """(number, place)"""
    frame, number, place = checked(book)
    if number:
        return number, place
    if d > frame.D or e > frame.D:
        return 12, None
    state = State(frame)
    return state.ask(d, e) or settle(state, book), None


def ask_list(book, pairs, answers):
    """One ask after another; each one's number, and nothing more, goes in its place among the answers."""
    if len(pairs) % 2 == 1 or len(pairs) // 2 > 16 or len(answers) != len(pairs) // 2:
        return 20
    for place in range(len(answers)):
        answers[place] = ask(book, pairs[2 * place], pairs[2 * place + 1])[0]
    return 0


def drop(book, d, e):
    """(number, place)"""
    frame, number, place = checked(book)
    if number:
        return number, place
    if d > frame.D or e > frame.D:
        return 12, None
    if (d, e) not in frame.held:
        return 16, None
    if (d, e) == (frame.D, 0):
        return 24, None
    state = State(frame)
    del state.rows[d, e]
    return settle(state, book), None


def row(book, d, e, i):
    """(number, start, count, place), start and count 0 on a refusal"""
    frame = Frame.of(book)
    if frame is None:
        return 10, 0, 0, None
    if d > frame.D or e > frame.D:
        return 12, 0, 0, None
    if (d, e) not in frame.held:
        return 16, 0, 0, None
    if i >= frame.counts[d]:
        return 17, 0, 0, None
    place = frame.own_fault(d, e, i)
    if place:
        return 11, 0, 0, place
    first, second = frame.offsets(d, e)[i:i + 2]
    return 0, frame.places[d, e] + frame.counts[d] + 1 + first, second - first, None


def find(book, d, e, i, j):
    """(number, yes, indices read, place), no and 0 on a refusal"""
    number, start, count, place = row(book, d, e, i)
    if number:
        return number, False, 0, place
    if j >= Frame.of(book).counts[e]:
        return 19, False, 0, None
    indices = book[start:start + count]
    not_below = [at for at, index in enumerate(indices) if not index < j]
    leading = not_below[0] if not_below else count
    other = indices[leading:leading + 1]
    return 0, other == [j], leading + len(other), None


def write(book, out):
    """(number, length, place); out is a bytearray"""
    frame, number, place = checked(book)
    if number:
        return number, 0, place
    data = file_bytes(frame.D, frame.counts[0], frame.rows(frame.D, 0))
    if len(out) < len(data):
        return 18, 0, None
    out[:len(data)] = data
    return 0, len(data), None


def euler(book):
    """(number, Euler number, place); here N_0 is the number of vertices that lie in at least one cell"""
    frame, number, place = checked(book)
    if number:
        return number, 0, place
    if any((d, 0) not in frame.held for d in range(1, frame.D)):
        return 15, 0, None
    counts = {**frame.counts, 0: len(frame.used_vertices())}
    return 0, sum((-1) ** d * counts[d] for d in range(frame.D + 1)), None


def held_count(book):
    """(number, count)"""
    frame = Frame.of(book)
    if frame is None:
        return 10, 0
    return 0, len(frame.held)


# ---- phase closures: counts are 65,536ths of a turn

TURN = MASKED = 65536


def may_be_lent(count):
    return -32768 <= count <= 32767 or count == MASKED


def step(lower, higher):
    """The step in 65,536ths between two counts, by whole numbers alone; None where an end is masked."""
    if MASKED in (lower, higher):
        return None
    return (higher - lower + TURN // 2) % TURN - TURN // 2


def closure(a, b, c):
    """The closure of a face's counts in turns, 2 where an end is masked."""
    if MASKED in (a, b, c):
        return 2
    whole, rest = divmod(step(a, b) + step(b, c) - step(a, c), TURN)
    assert rest == 0
    return whole


def closures(book, counts, faces, steps, masked):
    """(number, place); faces gets the closures, steps fractions of a turn, masked 1 or 0."""
    frame, number, place = checked(book)
    if number:
        return number, place
    if frame.D == 1:
        return 12, None
    if not {(1, 0), (2, 0)} <= frame.held:
        return 15, None
    if [len(counts), len(faces), len(steps), len(masked)] != [frame.counts[d] for d in (0, 2, 1, 1)]:
        return 21, None
    if not all(map(may_be_lent, counts)):
        return 22, None
    for i, row in enumerate(frame.rows(2, 0)):
        faces[i] = closure(*(counts[v] for v in row))
    for i, row in enumerate(frame.rows(1, 0)):
        taken = step(*(counts[v] for v in row))
        steps[i], masked[i] = Fraction(taken or 0, TURN), int(taken is None)
    return 0, None


# ---- boxes: coordinates are floats, two or three for each vertex, vertex by vertex

def coordinates_number(frame, coordinates, axes):
    """26, 21 or 27, or 0 where the coordinates may be lent."""
    if axes not in (2, 3):
        return 26
    if len(coordinates) != axes * frame.counts[0]:
        return 21
    if not all(map(math.isfinite, coordinates)):
        return 27
    return 0


def ends(vertices, coordinates, axes):
    """The box of vertices in this order: least x, greatest x, and so on. Of equal values, and only zeros are told apart then, min and max
    give the first that they meet, as does a box that begins as the first vertex and is grown only by what is strictly smaller or greater."""
    out = []
    for axis in range(axes):
        values = [coordinates[axes * v + axis] for v in vertices]
        out += [min(values), max(values)]
    return out + [0.0] * (6 - len(out))


def box(book, coordinates, axes, d, i):
    """(number, the six ends or None, place)"""
    frame, number, place = checked(book)
    if number:
        return number, None, place
    if d > frame.D:
        return 12, None, None
    if d > 0 and (d, 0) not in frame.held:
        return 15, None, None
    if i >= frame.counts[d]:
        return 17, None, None
    number = coordinates_number(frame, coordinates, axes)
    if number:
        return number, None, None
    return 0, ends(frame.rows(d, 0)[i] if d > 0 else [i], coordinates, axes), None


def whole_box(book, coordinates, axes):
    """(number, the six ends or None, place); 0 and None where no vertex lies in a cell"""
    frame, number, place = checked(book)
    if number:
        return number, None, place
    number = coordinates_number(frame, coordinates, axes)
    if number:
        return number, None, None
    vertices = sorted(frame.used_vertices())
    return 0, ends(vertices, coordinates, axes) if vertices else None, None


# ---- the sheet: triangles of which at most two meet at an edge; the cell across each edge of a cell, and the rim

NONE_ACROSS = 65535
MOST_RIM_EDGES = 4096
WHYS = (1, 2, 3, 4)

# Why a book is no sheet, and the lowest vertex, edge or cell that makes it none; with 1, another dimension, which is None.
NotASheet = namedtuple("NotASheet", "why which")

# What is said of a rim: the length of its file, and how many vertices and edges it has.
Rim = namedtuple("Rim", "length vertices edges")


def not_a_sheet(frame):
    """2, 3 or 4 with the vertex, edge or cell, or None, of a right book of triangles that holds 2→1 and 1→2."""
    used = frame.used_vertices()
    for vertex in range(frame.counts[0]):
        if vertex not in used:
            return NotASheet(2, vertex)
    cells_at = frame.rows(1, 2)
    for edge, cells in enumerate(cells_at):
        if len(cells) not in (1, 2):
            return NotASheet(3, edge)
    for cell, edges in enumerate(frame.rows(2, 1)):
        if len(edges) != 3 or not all(cell in cells_at[edge] for edge in edges):
            return NotASheet(4, cell)
    return None


def cells_across(frame):
    """For each cell and each of its edges the other cell at that edge, NONE_ACROSS where there is none."""
    cells_at, out = frame.rows(1, 2), []
    for cell, edges in enumerate(frame.rows(2, 1)):
        for edge in edges:
            others = [other for other in cells_at[edge] if other != cell]
            out.append(others[0] if others else NONE_ACROSS)
    return out


def rim_of(frame):
    """The rim's file, the old number of each of its vertices, and that of each of its edges."""
    edges = [edge for edge, cells in enumerate(frame.rows(1, 2)) if len(cells) == 1]
    ends = frame.rows(1, 0)
    vertices = sorted({v for edge in edges for v in ends[edge]})
    new = {v: number for number, v in enumerate(vertices)}
    return file_bytes(1, len(vertices), [[new[v] for v in ends[edge]] for edge in edges]), vertices, edges


def sheet(book, across, rim, rim_vertices, rim_edges):
    """(number, what is said of the rim or None, why it is no sheet or None, place); rim is a bytearray, the others are lists of numbers."""
    frame, number, place = checked(book)
    if number:
        return number, None, None, place
    if frame.D != 2:
        return 28, None, NotASheet(1, None), None
    if not {(1, 0), (2, 1), (1, 2)} <= frame.held:
        return 15, None, None, None
    fault = not_a_sheet(frame)
    if fault:
        return 28, None, fault, None
    if sum(len(cells) == 1 for cells in frame.rows(1, 2)) > MOST_RIM_EDGES:
        return 29, None, None, None
    file, vertices, edges = rim_of(frame)
    if len(rim) < len(file):
        return 18, None, None, None
    if len(across) != 3 * frame.counts[2] or len(rim_vertices) < len(vertices) or len(rim_edges) < len(edges):
        return 21, None, None, None
    across[:] = cells_across(frame)
    rim[:len(file)] = file
    rim_vertices[:len(vertices)] = vertices
    rim_edges[:len(edges)] = edges
    return 0, Rim(len(file), len(vertices), len(edges)), None, None


# ---- a plain answer: from the cells' vertex sets and nothing else that a book holds

def numbers_of(mesh, d):
    """The number of each entity of dimension d by its vertex set, of a mesh as read_file gives it: every vertex, or what the cells have, by first meeting."""
    D, points, cells = mesh
    if d == 0:
        return {frozenset([v]): v for v in range(points)}
    met = {}  # in the order in which its keys came, which is that of the numbers
    for cell in cells:
        for vertices in choose(d + 1, sorted(cell)):
            met.setdefault(frozenset(vertices), len(met))
    return met


def vertex_sets(frame, d):
    """The vertex set of each entity of dimension d, of a right book."""
    return list(numbers_of((frame.D, frame.counts[0], frame.rows(frame.D, 0)), d))


@functools.lru_cache(maxsize=1)
def numbered(words):
    """What a book says of its entities: 10, 11 or else 0, with 11 the place, and the vertex sets of each dimension. A book that is asked again and again is numbered once."""
    frame, number, place = checked(list(words))
    return number, place, None if number else [vertex_sets(frame, d) for d in range(frame.D + 1)]


def incident(sets, d, e, i, j):
    """Whether (e, j) is incident to (d, i), by the vertex sets of each dimension, those of the cells the last."""
    one, other = sets[d][i], sets[e][j]
    if d > e:
        return other <= one
    if d < e:
        return one <= other
    if d > 0:
        return j != i and not one.isdisjoint(other)
    return j != i and any(i in cell and j in cell for cell in sets[-1])


def plain(book, d, e, i, j):
    """(number, yes, place), no on a refusal"""
    number, place, sets = numbered(tuple(book))
    if number:
        return number, False, place
    if d >= len(sets) or e >= len(sets):
        return 12, False, None
    if i >= len(sets[d]):
        return 17, False, None
    if j >= len(sets[e]):
        return 19, False, None
    return 0, incident(sets, d, e, i, j), None


# ---- the same cells in another order: two meshes, each as read_file gives it

def same_cells(one, other):
    """Whether D, N_0 and the set of cells, as vertex sets, are equal."""
    return one[:2] == other[:2] and set(map(frozenset, one[2])) == set(map(frozenset, other[2]))


def partners(one, other, d):
    """For each entity of dimension d of the one mesh, by its number, the number of that with the same vertices in the other."""
    theirs = numbers_of(other, d)
    return [theirs[vertices] for vertices in numbers_of(one, d)]


def through(rows, from_d, from_e):
    """The rows of a relation d→e of the one mesh as the other has them, by the partners of dimension d and of dimension e."""
    out = [None] * len(rows)
    for i, row in enumerate(rows):
        out[from_d[i]] = sorted(from_e[j] for j in row)
    return out
