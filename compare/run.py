"""Random sequences of calls, through the C interface and through reference.py: every answer, with 11 its place, every
lent word, byte and float (by its bits), and every guard word must agree.

    python3 compare/run.py [--calls N] [--seed S] [--full]

--full adds meshes of the full size. It prints, for each call, how often each number was given, how often each
answer of a list of asks and each closure of a face was written, how often random calls met each kind of place
where a book is broken, each answer that comes of dropping relations, each kind of mesh that an Euler number was
given for, each answer and kind of a box, of a salvage, of a sheet and of a plain answer, what two books of the same
cells in another order have, and the seed. From 20,000 calls on each of these has to be met, from 200,000 on a
hundred times.
"""

import argparse
import itertools
import os
import platform
import random
import struct
import subprocess
import sys
import zlib
from fractions import Fraction

HERE = os.path.dirname(os.path.abspath(__file__))
TOP = os.path.dirname(HERE)
sys.path.insert(0, HERE)

import meshes  # noqa: E402
import reference as rules  # noqa: E402

OUT = 0xA5A5A5A5A5A5A5A5
LOW = 0xFFFFFFFF00000000
# What comes of dropping relations: each answer of drop, 25 of make, ask and a list of asks, and a book whose words are as before once
# the relation is made, or asked for, again.
ROOM = ("drop 0", "drop 10", "drop 11", "drop 12", "drop 16", "drop 24", "make 25", "ask 25", "its answers 25", "made again", "asked again")
# What an Euler number was given for, no cells at all left aside: D, whether calls alone have written the book since a load, and whether each
# vertex lies in a cell.
POINTS = tuple("D = %d, %s, %s" % kind for kind in itertools.product((1, 2, 3), ("reached", "not reached"), ("all used", "some unused")))
# What boxes give: each number of both calls, no box, the axes, the entities, books that calls alone have written since a load and others; and
# ends that are zeros, where both zeros are among the coordinates: the first of them in the order of the vertices is the end.
BOXES = tuple("box %d" % number for number in (0, 10, 11, 12, 15, 17, 26, 21, 27)) + tuple("whole_box %d" % number for number in (0, 10, 11, 26, 21, 27))
BOX_KINDS = ("no box",) + tuple("%s, %s" % kind for kind in itertools.product(
    ("d = 0", "d = 1", "d = 2", "d = 3", "whole"), ("2 axes", "3 axes", "reached", "not reached"))) + tuple(
    "%s %s %s" % kind for kind in itertools.product(("box", "whole"), ("least", "greatest"), ("0.0", "-0.0")))
# What a salvage gives: each number; why cells are dropped; what else spoke against a cell of which there is something, a fault of its own or an earlier cell with the
# same vertices, those that are missing taken for 0, or that nothing did; each flag where the other two are 0; pad bits set and bytes behind them; both lengths too short;
# cells, and none kept; and a file that a load accepts.
SALVAGES = tuple("salvage %d" % number for number in (0, 1, 2, 3, 4, 18, 21)) + tuple("dropped %d" % why for why in rules.REASONS)
SALVAGE_KINDS = tuple("%d over %d" % pair for pair in itertools.combinations(rules.REASONS, 2)) + (
    "6 alone", "spare alone", "pad alone", "wrong_length alone", "pad and more bytes", "18 and 21", "none kept", "comes back")
# What the sheet gives: each number, and with 28 each why.
SHEETS = tuple("sheet %d" % number for number in (0, 10, 11, 28, 15, 29, 18, 21)) + tuple("not a sheet, %d" % why for why in rules.WHYS)
# What it was given for: books that calls alone have written since a load and others, with a rim and without; no cells; a cell across that does not go back; a rim that has an
# edge twice, and one that comes to a vertex four times or more; lists longer than is needed; the dimensions that are no sheet's, also where all that is needed is held; of vertices, edges
# and cells that make a book no sheet, more than one, and not the first; edges in no cell and in three or more; cells with two or four edges that all list them, and with three of which one does not; what each
# relation that is missing gives alone; whatever else would have been refused after it; a rim of the most edges and of one more or less, and each list that is off alone.
SHEET_KINDS = tuple("%s, %s" % kind for kind in itertools.product(("rim", "no rim"), ("reached", "not reached"))) + (
    "no cells", "one way", "edge twice", "rims touch", "longer lists", "D = 1", "D = 3", "D = 3, all held") + tuple(
    "%d, %s" % kind for kind in itertools.product((2, 3, 4), ("several", "not the first"))) + (
    "in no cell", "in three or more", "two, listed", "four, listed", "first alone not listed", "second alone not listed", "third alone not listed", "1→0 missing", "2→1 missing", "1→2 missing", "15 over 28", "2 over 3", "2 over 4", "3 over 4",
    "28 over 18", "28 over 21", "29 over 18", "29 over 21", "18 over 21", "4096 edges", "4095 edges", "4097 edges",
    "across longer", "across shorter", "vertices shorter", "edges shorter")
# What plain answers give: each number, and yes and no for each D, d and e.
PLAINS = tuple("plain %d" % number for number in (0, 10, 11, 12, 17, 19)) + tuple(
    "D = %d, %d→%d, %s" % (D, d, e, answer) for D in (1, 2, 3) for d in range(D + 1) for e in range(D + 1) for answer in ("yes", "no"))
# What they were given for: by each rule yes and no, in books that calls alone have written since a load and in others; 12 for d alone and for e alone, and 17 where 19 would have come too; entities
# of a dimension whose number the book does not keep, or keeps though d→0 was dropped; relations that are not held; vertices that no cell uses; and, in books that lie, what a search in the held row
# says instead, also where it finds and the answer is a refusal.
PLAIN_RULES = ("inside", "around", "shared vertex", "shared cell")
PLAIN_KINDS = tuple("%s, %s, %s" % kind for kind in itertools.product(PLAIN_RULES, ("yes", "no"), ("reached", "not reached"))) + (
    "12 for d alone", "12 for e alone", "17 over 19", "not kept, reached", "not kept, not reached", "dropped, reached", "not held, reached", "unused vertex",
    "yes, and found no", "no, and found yes", "yes, and found 17", "no, and found 17", "yes, and found 19", "no, and found 19", "17, and found", "19, and found")
# What two books of the same cells in another order were held to each other for: for each D 0→0, a relation that has other words, and an Euler number that both give; another relation
# than 0→0 that has the same words; the same relations held, and others.
ORDERS = tuple("D = %d, %s" % kind for kind in itertools.product((1, 2, 3), ("0→0", "other words", "Euler number in both"))) + (
    "the same words", "the same relations", "other relations")
# Floats by their bits: zeros, the least of all and the least that is normal and its neighbour, ones, the greatest and its neighbour.
ZEROS = (0, 1 << 63)
SMALL = ZEROS + tuple(sign << 63 | bits for sign in (0, 1) for bits in (1, 2, (1 << 52) - 1, 1 << 52))
LARGE = tuple(sign << 63 | bits for sign in (0, 1) for bits in (0x3FF << 52, 0x7FE << 52, (0x7FF << 52) - 2, (0x7FF << 52) - 1))
# Infinities and NaNs, of both signs, quiet and signalling, with the least payload and the greatest.
NOT_FINITE = tuple(sign << 63 | 0x7FF << 52 | bits for sign in (0, 1) for bits in (0, 0, 1, 1 << 51, (1 << 51) - 1, (1 << 52) - 1, 0xDEADBEEF))
OUTSIDE = (-32769, 32768, 65535, 65537, 98304, 131072, -65536, 2 ** 31 - 1, -2 ** 31)  # what no count may be
ODD_FLOATS = [struct.pack("<Q", bits) for bits in (0, 1 << 63, 0x7FF8 << 48, 0xFFF0 << 48 | 1)]  # 0.0, -0.0 and two NaNs


def tools():
    """The C compiler for x86-64, and the words that run what it makes."""
    if platform.machine() == "x86_64":
        return ["cc"], []
    return ["x86_64-linux-gnu-gcc"], ["qemu-x86_64"]


def built():
    """The driver, linked with the proved library that stands in target/staticlib."""
    archive = os.path.join(TOP, "target", "staticlib", "libdaybook_c.a")
    if not os.path.exists(archive):
        subprocess.run([os.path.join(TOP, "library")], check=True, stdout=subprocess.DEVNULL)
    folder = os.path.join(TOP, "target", "compare")
    os.makedirs(folder, exist_ok=True)
    program = os.path.join(folder, "driver")
    mine = "%s.%d" % (program, os.getpid())
    compiler, run = tools()
    subprocess.run(compiler + ["-std=c11", "-O2", "-Wall", "-Wextra", "-static", "-I", os.path.join(TOP, "include"),
                   os.path.join(HERE, "driver.c"), archive, "-o", mine], check=True)
    os.replace(mine, program)  # two runs side by side never meet half a program
    return run + [program]


class Library:
    """The calls through the C interface."""

    def __init__(self, command):
        self.process = subprocess.Popen(command, stdin=subprocess.PIPE, stdout=subprocess.PIPE)

    def call(self, text, key=0, position=0):
        """The answer to a call; key and position are what their places hold before it."""
        self.process.stdin.write(text[:1] + struct.pack("<IQ", key, position) + text[1:])
        self.process.stdin.flush()
        answer = self.process.stdout.read(44)
        if len(answer) < 44:
            raise SystemExit("the library's program ended early")
        return struct.unpack("<IQQIIIIQ", answer)

    def rows(self, d, e):
        """Every row of a relation, as the row call hands them out one by one, and the number that refuses the next."""
        number, count, indices = self.call(b"T" + struct.pack("<II", d, e))[:3]
        words = struct.unpack("<%dI" % (count + indices), self.process.stdout.read(4 * (count + indices)))
        out, at = [], 0
        while at < len(words):
            out.append(words[at + 1:at + 1 + words[at]])
            at += 1 + words[at]
        return number, out


def packed(words):
    return struct.pack("<%dI" % len(words), *words)


def unpacked(data):
    return list(struct.unpack("<%dI" % (len(data) // 4), data))


def checksum(words):
    return zlib.crc32(packed(words))


def signed(numbers):
    return struct.pack("<%di" % len(numbers), *numbers)


def doubles(numbers):
    """The floats that have these bits."""
    return list(struct.unpack("<%dd" % len(numbers), long_words(numbers)))


def bits_of(numbers):
    """The bits of these floats."""
    return list(struct.unpack("<%dQ" % len(numbers), struct.pack("<%dd" % len(numbers), *numbers)))


def long_words(numbers):
    return struct.pack("<%dQ" % len(numbers), *numbers)


def floats(steps):
    """The bytes of a list of steps: those that were there before the call, or a fraction's, which a float holds exactly."""
    return b"".join(step if isinstance(step, bytes) else struct.pack("<d", float(step)) for step in steps)


def outcome(number, yes):
    """What a search or a plain answer gives, in a word."""
    return str(number) if number else "yes" if yes else "no"


class Runs:
    def __init__(self, seed, library, calls):
        self.rng, self.library, self.left = random.Random(seed), library, calls
        self.table, self.book, self.past, self.made, self.sequences = {}, [], [], 0, 0
        self.sum = None  # the book's checksum, where it is known: it is taken anew after a call that writes
        self.file = None  # the file that the book was loaded from, where calls alone have written it since
        self.rims = itertools.cycle((4097, 4096, 4095, 4200))
        self.told = None  # the key and the position that the last call gave
        self.count_kinds()

    def count_kinds(self):
        """Counts from 0 how often each kind of place is met, by the calls that check the whole book, by row and by find; what comes of drops; what an
        Euler number is given for; what boxes give; what salvages give; what the sheet gives; what plain answers give; and what two orders of the same cells have."""
        self.kinds = {"places": dict.fromkeys(rules.KINDS, 0), "row's": dict.fromkeys(rules.OWN_KINDS, 0), "find's": dict.fromkeys(rules.OWN_KINDS, 0),
                      "room": dict.fromkeys(ROOM, 0), "points": dict.fromkeys(POINTS, 0), "boxes": dict.fromkeys(BOXES + BOX_KINDS, 0),
                      "salvages": dict.fromkeys(SALVAGES + SALVAGE_KINDS, 0), "sheets": dict.fromkeys(SHEETS + SHEET_KINDS, 0),
                      "plains": dict.fromkeys(PLAINS + PLAIN_KINDS, 0), "orders": dict.fromkeys(ORDERS, 0)}

    def fail(self, what, got, wanted):
        print("DISAGREE: %s: the library says %s, the reference %s" % (what, got, wanted))
        print("book before: %s" % (self.past[:200],))
        raise SystemExit(1)

    def use(self, book):
        self.book, self.sum, self.file = list(book), None, None
        self.library.call(b"B" + struct.pack("<I%dI" % len(book), len(book), *book))

    def check(self, name, text, number, first, second, data=b"", what="", place=None):
        """Makes the call and compares all of its answer; key and position are written with a place alone, which goes with 11 alone."""
        assert (place is None) == (number != 11)
        before = self.rng.getrandbits(32), self.rng.getrandbits(64)
        got = self.library.call(text, *before)
        if self.sum is None:
            self.sum = checksum(self.book)
        wanted = (number, first, second, self.sum, zlib.crc32(data), 1) + (place[:2] if place else before)
        if got != wanted:
            self.fail("%s %s" % (name, what), got, wanted)
        self.count(name, number)
        self.told = place and place[:2]
        if place:
            self.kinds.get(name + "'s", self.kinds["places"])[place.kind] += 1
        self.left -= 1
        self.made += 1

    def count(self, name, number):
        row = self.table.setdefault(name, {})
        row[number] = row.get(number, 0) + 1
        self.meet("%s %d" % (name, number))
        if number == 25 and self.file is not None:
            raise SystemExit("%s: 25 in a book that calls alone have written" % name)

    def meet(self, what):
        for row in (self.kinds["room"], self.kinds["boxes"], self.kinds["salvages"], self.kinds["sheets"], self.kinds["plains"], self.kinds["orders"]):
            if what in row:
                row[what] += 1

    def load(self, data):
        self.past, self.sum = list(self.book), None
        number, cell = rules.load(data, self.book)
        first = OUT if cell is None else OUT & LOW | cell
        self.check("load", b"L" + struct.pack("<I", len(data)) + data, number, first, OUT, data, data[:64].hex())
        if number == 0:
            self.file = data
        return number

    def relation(self, name, d, e):
        self.past, self.sum = list(self.book), None
        call, letter = {"make": (rules.make, b"M"), "ask": (rules.ask, b"A"), "drop": (rules.drop, b"D")}[name]
        number, place = call(self.book, d, e)
        self.check(name, letter + struct.pack("<II", d, e), number, OUT, OUT, what=(d, e), place=place)
        return number

    def ask_list(self, pairs, answers):
        """The list's number, and the answers after it."""
        self.past, self.sum = list(self.book), None
        text = b"Q" + struct.pack("<II", len(pairs), len(answers)) + packed(pairs) + packed(answers)
        after = list(answers)
        number = rules.ask_list(self.book, pairs, after)
        self.check("ask_list", text, number, checksum(pairs), OUT, packed(after), (pairs, answers))
        for answer in after if number == 0 else []:
            self.count("its answers", answer)
        return number, after

    def row(self, d, e, i):
        self.past = self.book
        number, start, count, place = rules.row(self.book, d, e, i)
        first, second = (OUT, OUT) if number else (start, count)
        self.check("row", b"R" + struct.pack("<III", d, e, i), number, first, second, what=(d, e, i), place=place)
        return number

    def find(self, d, e, i, j):
        self.past = self.book
        number, yes, read, place = rules.find(self.book, d, e, i, j)
        first, second = (OUT, OUT) if number else (OUT & LOW | yes, read)
        self.check("find", b"F" + struct.pack("<IIII", d, e, i, j), number, first, second, what=(d, e, i, j), place=place)
        return number, yes, read

    def write(self, size):
        self.past = self.book
        data = bytearray(self.rng.randrange(256) for _ in range(size)) if size < 4096 else bytearray(b"\x5a" * size)
        text = b"W" + struct.pack("<I", size) + bytes(data)
        number, length, place = rules.write(self.book, data)
        self.check("write", text, number, OUT if number else length, OUT, bytes(data), size, place)
        return number

    def euler(self):
        self.past = self.book
        number, value, place = rules.euler(self.book)
        self.check("euler", b"E", number, OUT if number else value % 2 ** 64, OUT, place=place)
        frame = rules.Frame.of(self.book)
        if number == 0 and frame.counts[frame.D] > 0:
            all_used = len(frame.used_vertices()) == frame.counts[0]
            kind = frame.D, "not reached" if self.file is None else "reached", "all used" if all_used else "some unused"
            self.kinds["points"]["D = %d, %s, %s" % kind] += 1
        return number

    def held_count(self):
        self.past = self.book
        number, count = rules.held_count(self.book)
        self.check("held_count", b"H", number, OUT if number else OUT & LOW | count, OUT)

    def closures(self, counts, faces, steps, masked):
        """The call's number, and the three lists after it; a step is 8 bytes, or a fraction where it was written."""
        self.past = self.book
        sizes = [len(counts), len(faces), len(steps), len(masked)]
        text = b"P" + packed(sizes) + signed(counts) + signed(faces) + floats(steps) + bytes(masked)
        faces, steps, masked = list(faces), list(steps), list(masked)
        number, place = rules.closures(self.book, counts, faces, steps, masked)
        second = zlib.crc32(signed(faces)) | zlib.crc32(floats(steps)) << 32
        self.check("closures", text, number, zlib.crc32(signed(counts)), second, bytes(masked), (sizes, counts[:200]), place)
        for face in faces if number == 0 else []:
            self.count("its closures", face)
        return number, faces, steps, masked

    def box(self, coordinates, axes, d, i):
        """The call's number and, where accepted, the six ends; the coordinates are given by their bits."""
        self.past = self.book
        before = self.rng.randbytes(48)
        text = b"X" + packed([len(coordinates), axes, d, i]) + long_words(coordinates) + before
        number, ends, place = rules.box(self.book, doubles(coordinates), axes, d, i)
        after = before if ends is None else struct.pack("<6d", *ends)
        self.check("box", text, number, zlib.crc32(long_words(coordinates)), OUT, after, (axes, d, i, doubles(coordinates[:40])), place)
        if number == 0:
            vertices = rules.Frame.of(self.book).rows(d, 0)[i] if d else [i]
            self.meet_box("d = %d" % d, "box", vertices, coordinates, axes, ends)
        return number, ends

    def whole_box(self, coordinates, axes):
        """The same for the whole mesh; where there is no box, None."""
        self.past = self.book
        before, some = self.rng.randbytes(48), self.rng.getrandbits(32)
        text = b"Y" + packed([len(coordinates), axes]) + long_words(coordinates) + before + packed([some])
        number, ends, place = rules.whole_box(self.book, doubles(coordinates), axes)
        after = before if ends is None else struct.pack("<6d", *ends)
        if number == 0:
            some = int(ends is not None)
        self.check("whole_box", text, number, zlib.crc32(long_words(coordinates)), OUT & LOW | some, after, (axes, doubles(coordinates[:40])), place)
        if number == 0 and ends is None:
            self.meet("no box")
        elif number == 0:
            self.meet_box("whole", "whole", rules.Frame.of(self.book).used_vertices(), coordinates, axes, ends)
        return number, ends

    def meet_box(self, what, call, vertices, coordinates, axes, ends):
        """Counts what a box was given for, and its ends that are one of two zeros."""
        self.meet("%s, %d axes" % (what, axes))
        self.meet("%s, %s" % (what, "not reached" if self.file is None else "reached"))
        for place, end in enumerate(ends[:2 * axes]):
            if end == 0 and set(ZEROS) <= {coordinates[axes * v + place // 2] for v in vertices}:
                self.meet("%s %s %s" % (call, ("least", "greatest")[place % 2], end))

    def salvage(self, data, out, dropped):
        """The call's number and, where accepted, what is said of the file, the file that was written, and the numbers of the cells dropped."""
        self.past = self.book
        before = self.rng.randbytes(28)
        text = b"S" + packed([len(data), len(out), len(dropped)]) + data + bytes(out) + packed(dropped) + before
        out, dropped = bytearray(out), list(dropped)
        number, said = rules.salvage(data, out, dropped)
        after = before if number else struct.pack("<QQIII", *said)
        first = zlib.crc32(data) | checksum(dropped) << 32
        self.check("salvage", text, number, first, zlib.crc32(after), bytes(out), (len(data), data[:400].hex(), len(out), len(dropped), said, dropped[:40]))
        if number == 18 and len(dropped) < 2 * rules.head_of(data)[1][2]:
            self.meet("18 and 21")
        if number:
            return number, None, None, None
        saved, listed = bytes(out[:said.length]), dropped[:2 * said.dropped]
        self.demand("a load's number of what was saved", rules.read_file(saved)[0], 0)
        if rules.read_file(data)[0] == 0:
            self.demand("a file that a load accepts comes back", (saved, said), (data, (len(data), 0, False, False, False)))
            self.meet("comes back")
        self.meet_salvage(data, said, listed)
        return number, said, saved, listed

    def meet_salvage(self, data, said, listed):
        """Counts the cells dropped by why, and by what else spoke against each; and what is said of the file."""
        (D, points, count, _), bits, earlier = rules.head_of(data)[1], rules.Bits(data), set()
        reasons = dict(zip(listed[::2], listed[1::2]))
        for c in range(count):
            cell = sorted(bits.field(32 + 13 * ((D + 1) * c + k), 13) for k in range(D + 1))
            if c in reasons:
                self.meet("dropped %d" % reasons[c])
                against = {7: cell[-1] >= points, 8: len(set(cell)) <= D, 23: tuple(cell) in earlier}
                if 32 + 13 * (D + 1) * c < bits.size:
                    for other in [other for other in against if against[other]]:
                        self.meet("%d over %d" % (reasons[c], other))
                    if reasons[c] == 6 and not any(against.values()):
                        self.meet("6 alone")
            earlier.add(tuple(cell))
        if [said.spare, said.pad, said.wrong_length].count(True) == 1:
            self.meet("%s alone" % next(name for name in ("spare", "pad", "wrong_length") if getattr(said, name)))
        if said.pad and said.wrong_length:
            self.meet("pad and more bytes")
        if said.dropped == count > 0:
            self.meet("none kept")

    def lent_for(self, data, size=None, places=None):
        """Bytes for the output and places for the cells dropped, with any bits: so many, or as many as are needed."""
        number, head = rules.head_of(data)
        if size is None:
            out = bytearray(len(data))
            size = 0 if number else rules.salvage(data, out, [0] * 8192)[1].length
        places = places if places is not None else 0 if number else 2 * head[2]
        return self.rng.randbytes(size), unpacked(self.rng.randbytes(4 * places))

    def saved_again(self, saved):
        """What was saved, loaded into the words that it takes, and salvaged again, which gives the same."""
        D, _, cells = rules.read_file(saved)[2]
        self.use([7] * (6 + len(cells) * (D + 2)))
        self.demand("a load of what was saved", self.load(saved), 0)
        self.demand("salvaged twice", self.salvage(saved, *self.lent_for(saved)), (0, (len(saved), 0, False, False, False), saved, []))

    def sheet(self, across, rim, rim_vertices, rim_edges):
        """The call's number, and what came of it: where accepted what is said of the rim and the four lists as far as they were written, with 28 why and which."""
        self.past = self.book
        sizes = [len(across), len(rim), len(rim_vertices), len(rim_edges)]
        before = self.rng.randbytes(32)
        text = b"U" + packed(sizes) + packed(across) + bytes(rim) + packed(rim_vertices) + packed(rim_edges) + before
        across, rim, rim_vertices, rim_edges = list(across), bytearray(rim), list(rim_vertices), list(rim_edges)
        number, said, fault, place = rules.sheet(self.book, across, rim, rim_vertices, rim_edges)
        after = before
        if said:
            after = struct.pack("<QQQ", *said) + before[24:]
        elif fault:
            after = before[:24] + packed(fault[:1]) + (before[28:] if fault.which is None else packed(fault[1:]))
        first, second = checksum(across) | checksum(rim_vertices) << 32, checksum(rim_edges) | zlib.crc32(after) << 32
        self.check("sheet", text, number, first, second, bytes(rim), (sizes, said, fault), place)
        if number not in (10, 11):
            self.meet_sheet(number, fault, sizes)
        if number:
            return number, fault
        written = across, bytes(rim[:said.length]), rim_vertices[:said.vertices], rim_edges[:said.edges]
        self.meet_accepted(said, sizes, *written)
        return (number, said) + written

    def meet_sheet(self, number, fault, sizes):
        """Counts why a book is no sheet, what else would have been refused, and how long its rim and the lists are."""
        frame = rules.Frame.of(self.book)
        missing = [r for r in ((1, 0), (2, 1), (1, 2)) if r not in frame.held]
        if frame.D != 2:
            self.meet("not a sheet, 1")
            self.meet("D = %d" % frame.D + (", all held" if not missing else ""))
            return
        unused = sorted(set(range(frame.counts[0])) - frame.used_vertices())
        if missing:
            if len(missing) == 1:
                self.meet("%d→%d missing" % missing[0])
            if unused:
                self.meet("15 over 28")
            return
        lists = frame.rows(1, 2)
        odd = [edge for edge, cells in enumerate(lists) if len(cells) not in (1, 2)]
        wrong = [cell for cell, edges in enumerate(frame.rows(2, 1)) if len(edges) != 3 or any(cell not in lists[edge] for edge in edges)]
        rim, vertices, edges = rules.rim_of(frame)
        off = {"across longer": sizes[0] > 3 * frame.counts[2], "across shorter": sizes[0] < 3 * frame.counts[2],
               "vertices shorter": sizes[2] < len(vertices), "edges shorter": sizes[3] < len(edges)}
        for over, short in ((18, sizes[1] < len(rim)), (21, any(off.values()))):
            if short:
                self.meet("%d over %d" % (number, over))
        if fault:
            self.meet("not a sheet, %d" % fault.why)
            faults = {2: unused, 3: odd, 4: wrong}
            for other in (3, 4):
                if other > fault.why and faults[other]:
                    self.meet("%d over %d" % (fault.why, other))
            if len(faults[fault.why]) > 1:
                self.meet("%d, several" % fault.why)
            if fault.which > 0:
                self.meet("%d, not the first" % fault.why)
            if fault.why == 3:
                self.meet("in three or more" if lists[fault.which] else "in no cell")
            if fault.why == 4:
                listed = [fault.which in lists[edge] for edge in frame.rows(2, 1)[fault.which]]
                self.meet({(True,) * 2: "two, listed", (True,) * 4: "four, listed", (False, True, True): "first alone not listed", (True, False, True): "second alone not listed",
                           (True, True, False): "third alone not listed"}.get(tuple(listed)))
            return
        self.meet("%d edges" % len(edges))
        if number == 21 and list(off.values()).count(True) == 1:
            self.meet(next(name for name in off if off[name]))

    def meet_accepted(self, said, sizes, across, rim, vertices, edges):
        """Counts what the sheet was given for. In a book that calls alone have written each cell across goes back by the same edge, a load accepts the rim, and each
        vertex of it has an even number of edges."""
        frame, reached = rules.Frame.of(self.book), self.file is not None
        ends, own = frame.rows(1, 0), frame.rows(2, 1)
        self.meet("%s, %s" % ("rim" if edges else "no rim", "reached" if reached else "not reached"))
        if not own:
            self.meet("no cells")
        there = {(c, edge): across[3 * c + k] for c, row in enumerate(own) for k, edge in enumerate(row)}
        one_way = [place for place, other in there.items() if other != rules.NONE_ACROSS and there.get((other, place[1])) != place[0]]
        at = dict.fromkeys(vertices, 0)
        for v in [v for edge in edges for v in ends[edge]]:
            at[v] += 1
        loaded = rules.read_file(rim)[0]
        for kind, met in (("one way", one_way), ("edge twice", loaded == 23), ("rims touch", any(count > 3 for count in at.values())),
                          ("longer lists", all(size > need for size, need in zip(sizes[1:], said)))):
            if met:
                self.meet(kind)
        self.demand("a number that a load can give to a rim", loaded in (0, 23), True)
        if reached:
            self.demand("across goes back, the rim is a file, and each vertex of it has an even number of edges", (one_way, loaded, [v for v in at if at[v] % 2]), ([], 0, []))

    def places_for(self, *sizes):
        """Lists for the cells across, the rim and its two maps, of these lengths and with any bits."""
        across, rim, vertices, edges = [self.rng.randbytes(size * width) for size, width in zip(sizes, (4, 1, 4, 4))]
        return unpacked(across), rim, unpacked(vertices), unpacked(edges)

    def sheet_sizes(self):
        """The lengths that the sheet needs, as far as the book says them."""
        frame = rules.Frame.of(self.book)
        if rules.checked(self.book)[1] or frame.D != 2 or not {(1, 0), (1, 2)} <= frame.held:
            return [3 * frame.counts[frame.D] if frame else self.rng.randrange(10), self.rng.randrange(4, 20), self.rng.randrange(6), self.rng.randrange(6)]
        rim, vertices, edges = rules.rim_of(frame)
        return [3 * frame.counts[2], len(rim), len(vertices), len(edges)]

    def some_sheet(self):
        """The sheet, mostly with the lengths that it needs or longer; or with some of them too short, or too many cells across."""
        rng, sizes = self.rng, self.sheet_sizes()
        short = rng.choice((0, 0.1, 0.1, 0.1, 0.5))
        for which, size in enumerate(sizes):
            if rng.random() < short:
                sizes[which] = max(0, size - rng.choice((1, 1, 2, 3, size)))
            elif rng.random() < (0.05 if which == 0 else 0.4):
                sizes[which] += rng.choice((1, 1, 2, 3, 30))
        return self.sheet(*self.places_for(*sizes))

    def plain(self, d, e, i, j):
        """The call's number, and whether it says yes."""
        self.past = self.book
        before = self.rng.choice((0, 1, self.rng.getrandbits(32)))
        number, yes, place = rules.plain(self.book, d, e, i, j)
        text = b"I" + packed([d, e, i, j, before])
        self.check("plain", text, number, OUT & LOW | (before if number else yes), OUT, what=(d, e, i, j), place=place)
        if number not in (10, 11):
            self.meet_plain(number, yes, d, e, i, j)
        return number, yes

    def meet_plain(self, number, yes, d, e, i, j):
        """Counts what a plain answer was given for, and what a search says. In a book that calls alone have written both say the same."""
        frame, sets = rules.Frame.of(self.book), rules.numbered(tuple(self.book))[2]
        if number == 12:
            self.meet("12 for %s alone" % "".join(name for name, dimension in (("d", d), ("e", e)) if dimension > frame.D))
            return
        if number == 17 and j >= len(sets[e]):
            self.meet("17 over 19")
        if (d, e) in frame.held:
            found = (rules.find(self.book, d, e, i, j) if self.file is None else self.find(d, e, i, j))[:2]
            if self.file is not None:
                self.demand("a plain answer, where a search says so", (number, yes), found)
            self.meet("%d, and found" % number if number and found[0] == 0 else "%s, and found %s" % (outcome(number, yes), outcome(*found)))
        if number == 0:
            self.meet_incidence(frame, sets, outcome(number, yes), d, e, i, j)

    def meet_incidence(self, frame, sets, given, d, e, i, j):
        """Counts a yes or a no by its rule, and by what the book holds of the two entities."""
        reached = "not reached" if self.file is None else "reached"
        self.meet("D = %d, %d→%d, %s" % (frame.D, d, e, given))
        self.meet("%s, %s, %s" % (PLAIN_RULES[0 if d > e else 1 if d < e else 2 if d else 3], given, reached))
        between = [x for x in (d, e) if 0 < x < frame.D]
        if any(x not in frame.counts for x in between):
            self.meet("not kept, %s" % reached)
        if any(x in frame.counts and (x, 0) not in frame.held for x in between):
            self.meet("dropped, %s" % reached)
        if (d, e) not in frame.held:
            self.meet("not held, %s" % reached)
        if any(x == 0 and not any(v in cell for cell in sets[-1]) for x, v in ((d, i), (e, j))):
            self.meet("unused vertex")

    def entity(self, frame, sets, d):
        """The number of an entity, mostly of one that the cells have; or one between their count and the book's own, where it lies; or one past the last, or any number."""
        rng, own = self.rng, len(sets[d]) if sets and d < len(sets) else 0
        kept = frame.counts.get(d, own) if frame else 0
        if own != kept and rng.random() < 0.35:
            return rng.randrange(min(own, kept), max(own, kept))
        if own and rng.random() < 0.9:
            return rng.choice((own - 1, rng.randrange(own), rng.randrange(own)))
        return rng.choice((own, own, own + 1, kept, self.number()))

    def some_dimensions(self, frame, false):
        """d and e, mostly both up to D, at times of a relation that is held, best of one with a false count, rather for e than for d; or one of them over D."""
        rng = self.rng
        if not frame or rng.random() < 0.03:
            return self.dimension(), self.dimension()
        d, e = rng.randrange(frame.D + 1), rng.randrange(frame.D + 1)
        if rng.random() < (0.6 if false else 0.2):
            held = sorted(frame.held)
            d, e = rng.choice([pair for pair in held if pair[rng.choice((0, 1, 1))] in false] or held)
        over = rng.choice((frame.D + 1, 4, 0xFFFFFFFF))
        return rng.choice(((over, e), (d, over))) if rng.random() < 0.03 else (d, e)

    def some_plain(self):
        """A plain answer, mostly for two entities that there are, as often a yes as a no; or for others, at times for one that a held row has, or for other dimensions."""
        rng, frame = self.rng, rules.Frame.of(self.book)
        sets = rules.numbered(tuple(self.book))[2]
        false = {d for d in frame.counts if len(sets[d]) != frame.counts[d]} if sets else set()
        d, e = self.some_dimensions(frame, false)
        i, j = [self.entity(frame, sets, x) for x in (d, e)]
        start, count = rules.row(self.book, d, e, i)[1:3]
        if false & {d, e} and count and rng.random() < 0.4:
            j = rng.choice((self.book[start + count - 1], rng.choice(self.book[start:start + count])))
        elif sets and max(d, e) <= frame.D and i < len(sets[d]) and j < len(sets[e]) and rng.random() < 0.9:
            wanted = rng.random() < 0.5
            j = rng.choice([other for other in range(len(sets[e])) if rules.incident(sets, d, e, i, other) == wanted] or [j])
        return self.plain(d, e, i, j)

    def dimension(self):
        return self.rng.choice((0, 0, 1, 1, 2, 2, 3, 3, 4, 0xFFFFFFFF)) if self.rng.random() < 0.2 else self.rng.randrange(4)

    def number(self):
        """Any number of an entity."""
        return self.rng.choice((self.rng.randrange(4), self.rng.randrange(20), 8191, 0xFFFFFFFF))

    def place(self):
        """A row to look at, mostly one that is held, and its relation's N_e, or None."""
        rng, frame = self.rng, rules.Frame.of(self.book)
        if not frame or rng.random() < 0.3:
            return self.dimension(), self.dimension(), self.number(), None
        d, e = rng.choice(sorted(frame.held))
        i = rng.randrange(frame.counts[d]) if frame.counts[d] and rng.random() < 0.8 else self.number()
        return d, e, i, frame.counts[e]

    def search(self):
        """A search for an index, mostly for one that is in the row or beside one that is, or for N_e or the one before it."""
        rng = self.rng
        d, e, i, bound = self.place()
        start, count = rules.row(self.book, d, e, i)[1:3]
        near = self.book[start:start + count] + ([bound, bound - 1] if bound else [])
        j = rng.choice(near) + rng.choice((0, 0, 1, -1)) if near and rng.random() < 0.8 else self.number()
        self.find(d, e, i, j & 0xFFFFFFFF)

    def look(self):
        """One call that only reads."""
        rng = self.rng
        way = rng.randrange(11)
        if way < 4:
            self.row(*self.place()[:3])
        elif way < 7:
            for _ in range(4):
                self.search()
        elif way < 9:
            self.write(rng.choice((0, 3, 4, rng.randrange(64), 200)))
        elif way == 9:
            self.euler()
        else:
            self.held_count()

    def some_asks(self):
        """A list of asks, mostly one that is accepted, or one with a pair or a place too many or too few."""
        rng = self.rng
        count = rng.choice((0, 1, 2, 3, 5, 9, 15, 16, 17))
        pairs = [self.dimension() for _ in range(2 * count)]
        answers = [rng.randrange(1 << 32) for _ in range(count)]
        way = rng.random()
        if way < 0.1:
            pairs.append(self.dimension())
        elif way < 0.15:
            answers.append(0)
        elif way < 0.2:
            answers = answers[1:]
        self.ask_list(pairs, answers)

    def some_drop(self):
        """A drop, mostly of a relation that is held; at times it is then made, or asked for, again."""
        rng, frame = self.rng, rules.Frame.of(self.book)
        d, e = rng.choice(sorted(frame.held)) if frame and rng.random() < 0.7 else (self.dimension(), self.dimension())
        if self.relation("drop", d, e) == 0 and rng.random() < 0.4:
            self.restore(rng.choice(("make", "ask")), d, e)

    def restore(self, name, d, e):
        """Makes, or asks for, the relation that the last call has dropped: in a book that calls alone have written it has its old words
        again, if what it is made from is held."""
        before, frame = self.past, rules.Frame.of(self.past)
        number = self.relation(name, d, e)
        if self.file is not None and all(n in frame.held for n in rules.needs(frame.D, d, e)):
            self.demand("%d→%d dropped and then restored by %s" % (d, e, name), (number, self.book == before), (0, True))
            self.meet({"make": "made again", "ask": "asked again"}[name])

    def as_if_fresh(self):
        """A book that calls alone have written since a load has the words of a fresh one with the same relations, however it came to them.
        Said of the separate program's book, to which the library's is held after each call."""
        if self.file is None:
            return
        fresh, held = [0] * len(self.book), rules.Frame.of(self.book).held
        rules.load(self.file, fresh)
        state = rules.State(rules.Frame.of(fresh))
        for relation in sorted(held):
            state.ask(*relation)
        state.rows = {relation: state.rows[relation] for relation in held}
        words = state.words(self.book[0])
        self.demand("the words with %s" % sorted(held), self.book, words + [0] * (len(self.book) - len(words)))

    def some_counts(self, points):
        """A count for each point: any, all the same, or some that lie half a turn apart or one beside it; at times masked ones among them."""
        rng, first = self.rng, self.rng.randrange(-32768, 32768)
        near = [(first + apart + 32768) % 65536 - 32768 for apart in (0, 1, 32767, 32768, 32769)]
        among = rng.choice((range(-32768, 32768), [first], near, near))
        masked = rng.choice((0, 0, 0, 0.1, 0.4, 1))
        return [rules.MASKED if rng.random() < masked else rng.choice(among) for _ in range(points)]

    def unwritten(self, faces, steps, masked):
        """Lists of these lengths for closures, steps and masked bytes, with any bits."""
        rng = self.rng
        numbers = struct.unpack("<%di" % faces, rng.randbytes(4 * faces))
        return list(numbers), [rng.choice(ODD_FLOATS + [rng.randbytes(8)]) for _ in range(steps)], list(rng.randbytes(masked))

    def lengths(self):
        """The lengths of the four lists of phase closures, as far as the book says them."""
        frame = rules.Frame.of(self.book)
        known = frame.counts if frame else {}
        return [known.get(d, self.rng.randrange(4)) for d in (0, 2, 1, 1)]

    def some_closures(self):
        """Phase closures, mostly with right lengths and counts, or with a list one too long or too short, a count outside, or both."""
        rng, sizes = self.rng, self.lengths()
        if rng.random() < 0.15:
            which = rng.randrange(4)
            sizes[which] = max(0, sizes[which] + rng.choice((1, -1)))
        counts = self.some_counts(sizes[0])
        if counts and rng.random() < 0.15:
            counts[rng.randrange(len(counts))] = rng.choice(OUTSIDE)
        self.closures(counts, *self.unwritten(*sizes[1:]))

    def some_coordinates(self, length):
        """So many coordinates, by their bits: any finite ones, few different ones, the smallest or the greatest, and mostly zeros of both signs among them."""
        rng = self.rng

        def finite():
            bits = rng.getrandbits(64)
            return bits if bits >> 52 & 0x7FF < 0x7FF else bits ^ 1 << 62

        few = [finite() for _ in range(3)]
        among = rng.choice((ZEROS, SMALL, LARGE, SMALL + LARGE, few, few, None))
        zeros = rng.choice((0, 0, 0.2, 0.6))
        return [rng.choice(ZEROS) if rng.random() < zeros else rng.choice(among) if among else finite() for _ in range(length)]

    def some_axes(self):
        """Coordinates and a number of axes, mostly right ones; or another number of axes, of which some have the right length modulo 2^32; or too many or too few
        coordinates, as many as for another number of axes among them; or one or two that are not finite."""
        rng, frame = self.rng, rules.Frame.of(self.book)
        points = frame.counts[0] if frame else rng.randrange(6)
        axes = rng.choice((2, 3))
        length = axes * points
        if rng.random() < 0.12:
            again = 2 ** 32 // (points & -points) if points and points % 2 == 0 else 1 << 31
            axes = rng.choice((0, 1, 4, 0xFFFFFFFF, axes + again, 4, 1 << 31 | axes, 1 << 16 | axes)) & 0xFFFFFFFF
            length = rng.choice((length, axes * points if axes < 5 else length, axes * points % 2 ** 32 % 64))
        if rng.random() < 0.12:
            length = rng.choice((0, max(0, length - 1), length + 1, points, 2 * points, 3 * points, 4 * points, max(0, length - points), length + 32))
        coordinates = self.some_coordinates(length)
        if coordinates and rng.random() < 0.12:
            for _ in range(rng.choice((1, 1, 2))):
                coordinates[rng.choice((0, length - 1, rng.randrange(length), rng.randrange(length)))] = rng.choice(NOT_FINITE)
        return coordinates, axes

    def some_box(self):
        """The box of an entity, mostly one that there is, or of the whole mesh."""
        rng, frame = self.rng, rules.Frame.of(self.book)
        coordinates, axes = self.some_axes()
        if rng.random() < 0.3:
            return self.whole_box(coordinates, axes)
        d = rng.randrange(frame.D + 1) if frame and rng.random() < 0.9 else self.dimension()
        count = frame.counts.get(d, 0) if frame else 0
        i = rng.choice((rng.randrange(count), rng.randrange(count), count - 1)) if count and rng.random() < 0.9 else rng.choice((count, 0, self.number()))
        return self.box(coordinates, axes, d, i)

    def some_salvage(self):
        """A salvage, mostly with the lengths that it needs or longer; or with one or both of them too short."""
        rng, data = self.rng, meshes.file_to_salvage(self.rng)
        out, dropped = self.lent_for(data)
        need, places, short = len(out), len(dropped), rng.random()
        if short < 0.15 or rng.random() < 0.3:
            need = max(0, need + rng.choice((-1, -1, -1, -5, -need) if short < 0.15 else (1, 2, 30, len(data) - need)))
        if 0.1 < short < 0.25 or rng.random() < 0.3:
            places = max(0, places + rng.choice((-1, -1, -2, -places // 2, -places) if 0.1 < short < 0.25 else (1, 2, 3, 40)))
        saved = self.salvage(data, *self.lent_for(data, need, places))[2]
        if saved is not None and rng.random() < 0.3:
            self.saved_again(saved)

    def salvage_run(self):
        for _ in range(10):
            self.some_salvage()

    def step(self, made):
        rng = self.rng
        if rng.random() < made:
            way = rng.choice(("make", "ask", "list", "drop"))
            if way == "list":
                self.some_asks()
            elif way == "drop":
                self.some_drop()
            else:
                self.relation(way, self.dimension(), self.dimension())
        elif rng.random() < 0.1:
            self.some_closures()
        elif rng.random() < 0.1:
            self.some_box()
        elif rng.random() < 0.05:
            self.some_sheet()
        elif rng.random() < 0.1:
            self.some_plain()
        else:
            self.look()

    def true_run(self):
        rng = self.rng
        self.use([rng.randrange(1 << 32) for _ in range(rng.choice((0, 4, 5, 6, 14, 40, 60, 119, 300, 900)))])
        for _ in range(rng.randrange(1, 4)):
            mesh = meshes.small_mesh(rng)
            if rng.random() < 0.06:
                mesh = meshes.with_repeats(rng, mesh)
            data = rules.file_bytes(*mesh)
            way = rng.random()
            if way < 0.3:
                data = meshes.damaged_file(rng, data)
            elif way < 0.45:
                data = meshes.faulty_file(rng)
            elif way < 0.6:
                need = 6 + len(mesh[2]) * (mesh[0] + 2)
                self.use([rng.randrange(1 << 32) for _ in range(need + rng.choice((-1, 0, 1)))])
            self.load(data)
            for _ in range(rng.randrange(7)):
                self.step(0.6)
            self.as_if_fresh()

    def strange_run(self):
        rng = self.rng
        way = rng.random()
        if way < 0.15:
            self.use(meshes.tiny_book(rng))
        elif way < 0.6:
            self.use(meshes.lying_book(rng, rng.choice((3, 30, 300))))
        if rng.random() < 0.3:
            self.use(meshes.worn_book(rng, self.book))
        elif rng.random() < 0.6:
            self.use(meshes.damaged_book(rng, self.book))
        for _ in range(rng.randrange(1, 6)):
            self.step(0.5)

    def room_run(self):
        """Drops, makes and asks by turns, in a book with all relations, or in a lying one, mostly one that keeps N_1 or N_2 without 1→0 or 2→0."""
        rng = self.rng
        if rng.random() < 0.3:
            self.use([7] * rng.choice((200, 900)))
            self.load(rules.file_bytes(*meshes.random_mesh(rng, rng.choice((2, 3)), rng.choice((4, 6, 8)), rng.choice((1, 2, 5, 8)))))
            self.ask_list([x for d in range(4) for e in range(4) for x in (d, e)], [7] * 16)
            for _ in range(rng.randrange(6)):
                self.some_drop()
        else:
            books = [meshes.lying_book(rng, rng.choice((3, 30, 300))) for _ in range(3)]
            self.use(next(filter(meshes.unmade, books), books[0]))
        for _ in range(rng.randrange(2, 7)):
            way, d = rng.randrange(6), rng.choice(meshes.unmade(self.book) or [1, 2])
            if way == 0:
                self.some_drop()
            elif way == 1:
                self.some_asks()
            elif way < 4:
                self.relation("make", d, 0)
            else:
                self.relation("ask", rng.choice((d, self.dimension())), self.dimension())
        self.as_if_fresh()

    def phase_run(self):
        """Phase closures on a book that holds edges and faces, true or lying ones, or has not the room for them, at times with a word changed."""
        rng = self.rng
        if rng.random() < 0.5:
            self.use([7] * 900)
            self.load(rules.file_bytes(*meshes.random_mesh(rng, rng.choice((2, 3)), rng.choice((4, 6, 8, 12)), rng.choice((0, 1, 2, 5, 14)))))
        else:
            self.use(meshes.lying_book(rng, 300))
        for d in (1, 2):
            self.relation("ask", d, 0)
        if rng.random() < 0.1:
            self.use(meshes.worn_book(rng, self.book))
        for _ in range(8):
            self.some_closures()

    def box_run(self):
        """Boxes in a book that holds edges and faces, true or lying ones, or has not the room for them, or has dropped one; at times with a word changed, or broken
        or damaged. In a book that calls alone have written, boxes that should lie in each other do."""
        rng = self.rng
        if rng.random() < 0.5:
            self.use([7] * rng.choice((900, 900, 900, 60)))
            D, points, cells = meshes.random_mesh(rng, rng.choice((1, 2, 3)), rng.choice((1, 4, 6, 8, 12)), rng.choice((0, 1, 2, 5, 14)))
            self.load(rules.file_bytes(D, points + rng.choice((0, 0, 1, 9)), cells))
        else:
            self.use(meshes.lying_book(rng, 300))
        for d in (1, 2):
            self.relation("ask", d, 0)
        if rng.random() < 0.2:
            self.relation("drop", rng.choice((1, 2)), 0)
        way = rng.random()
        if way < 0.08:
            self.use(meshes.worn_book(rng, self.book))
        elif way < 0.14 and rules.checked(self.book)[1] == 0:
            self.use(meshes.broken_book(rng, self.book))
        elif way < 0.2:
            self.use(meshes.damaged_book(rng, self.book))
        for _ in range(8):
            self.some_box()
        if self.file is not None:
            axes = rng.choice((2, 3))
            self.boxes_inside(self.some_coordinates(axes * rules.Frame.of(self.book).counts[0]), axes, 2)

    def boxes_inside(self, coordinates, axes, most):
        """At most so many boxes of cells, and at most so many of what lies inside each: all lie in each other and in that of the whole mesh."""
        rng, frame = self.rng, rules.Frame.of(self.book)
        whole, state = self.whole_box(coordinates, axes)[1], rules.State(frame)
        for c in rng.sample(range(frame.counts[frame.D]), min(most, frame.counts[frame.D])):
            cell, vertices = self.box(coordinates, axes, frame.D, c)[1], set(state.rows[frame.D, 0][c])
            self.lies_in("cell %d" % c, cell, whole)
            for d in range(frame.D):
                sets = [{v} for v in range(frame.counts[0])] if d == 0 else map(set, state.rows.get((d, 0), ()))
                inside = [i for i, one in enumerate(sets) if one <= vertices]
                for i in rng.sample(inside, min(most, len(inside))):
                    self.lies_in("(%d, %d)" % (d, i), self.box(coordinates, axes, d, i)[1], cell)

    def lies_in(self, what, inner, outer):
        self.demand("the box of %s lies in the one around it" % what, all(inner[k] >= outer[k] and inner[k + 1] <= outer[k + 1] for k in (0, 2, 4)), True)

    def points_run(self):
        """The Euler number of a mesh as it is, without its unused points and with forty more, which is the same; and of lying books, mostly of such as hold
        what it needs."""
        rng, given = self.rng, set()
        D, points, cells = mesh = meshes.random_mesh(rng, rng.choice((1, 2, 3)), rng.choice((4, 6, 8, 12)), rng.choice((1, 2, 5, 14)))
        for one in (mesh, meshes.all_used(mesh), (D, points + 40, cells)):
            self.use([7] * 900)
            self.load(rules.file_bytes(*one))
            for d in range(1, D):
                self.relation("ask", d, 0)
            self.euler()
            given.add(rules.euler(self.book))
        self.demand("Euler numbers of one mesh", [number for number, _, _ in given], [0])
        for _ in range(5):
            books = [meshes.lying_book(rng, 3) for _ in range(3)]
            self.use(next((book for book in books if rules.euler(book)[0] == 0), books[0]))
            self.euler()

    def order_run(self):
        """The same cells in two orders, each in a book of its own that makes, asks, lists of asks and drops have written, at times the same ones: by
        vertices both tell the same."""
        rng, frames, eulers, steps = self.rng, [], [], None
        D = rng.choice((1, 2, 3, 3))
        mesh = meshes.random_mesh(rng, D, rng.choice((5, 6, 8, 12)), rng.choice((0, 1, 2, 5, 8, 14)))
        sent = [mesh, meshes.in_another_order(rng, mesh)]
        for one in sent:
            self.use([7] * rng.choice((900, 2000)))
            self.load(rules.file_bytes(*one))
            if steps is None or rng.random() < 0.5:
                steps = [(rng.choice(("make", "ask", "ask", "list", "drop")), [rng.randrange(D + 1) for _ in range(10)]) for _ in range(rng.randrange(1, 7))]
            for name, pairs in steps:
                if name == "list":
                    self.ask_list(pairs, [7] * 5)
                else:
                    self.relation(name, *pairs[:2])
            if rng.random() < 0.9:
                self.relation("ask", 0, 0)
            eulers.append(rules.euler(self.book)[1] if self.euler() == 0 else None)
            frames.append(rules.Frame.of(self.book))
        self.by_vertices(sent, frames, eulers)

    def by_vertices(self, sent, frames, eulers):
        """Two meshes with the same cells, the frames of their books and their Euler numbers, or None: what cannot differ does not. Said of the separate
        program's books, to which the library's are held after each call."""
        one, other = frames
        D, maps = one.D, [rules.partners(*sent, d) for d in range(one.D + 1)]
        self.demand("the same cells", (rules.same_cells(*sent), maps[0]), (True, list(range(sent[0][1]))))
        for d in one.counts.keys() & other.counts.keys():
            self.demand("N_%d in two orders" % d, one.counts[d], other.counts[d])
        for d, e in one.held & other.held:
            ours, theirs = one.rows(d, e), other.rows(d, e)
            self.demand("%d→%d in two orders" % (d, e), rules.through(ours, maps[d], maps[e]), theirs)
            if d == e == 0:
                self.demand("the words of 0→0 in two orders", ours, theirs)
                self.meet("D = %d, 0→0" % D)
            else:
                self.meet("the same words" if ours == theirs else "D = %d, other words" % D)
        if None not in eulers:
            self.demand("Euler numbers in two orders", *eulers)
            self.meet("D = %d, Euler number in both" % D)
        if one.held == other.held:
            self.demand("words in two orders", one.book[4], other.book[4])
        self.meet("%s relations" % ("the same" if one.held == other.held else "other"))

    def sheet_run(self):
        """Sheets, and what is nearly one, in a book that calls alone have written, or in lying ones; without one of the relations, or with more; at times with a word changed, or
        broken or damaged. A rim is then loaded, and is no sheet."""
        rng, rim = self.rng, None
        reached = rng.random() < 0.5
        for _ in range(1 if reached else 8):
            if reached:
                self.use([7] * 2500)
                mesh = meshes.near_sheet(rng)
                if rng.random() < 0.15:
                    mesh = meshes.random_mesh(rng, rng.choice((1, 2, 3, 3)), rng.choice((0, 3, 4, 6)), rng.choice((0, 1, 2, 5)))
                self.load(rules.file_bytes(*mesh))
                self.relation("ask", 1, 2)
                if rng.random() < 0.3:
                    self.relation("ask", self.dimension(), self.dimension())
            else:
                self.use(meshes.lying_sheet(rng, rng.choice((1, 2, 3, 4, 6)), rng.choice((0, 0, 3, 6, 40)), rng.choice((3, 4, 5, 6)), rng.choice((0.3, 0.6))))
            if rng.random() < 0.15:
                self.relation("drop", *rng.choice(((1, 0), (2, 1), (1, 2), (0, 1))))
            way = rng.random()
            if way < 0.05:
                self.use(meshes.worn_book(rng, self.book))
            elif way < 0.1:
                self.use(meshes.broken_book(rng, self.book))
            elif way < 0.15:
                self.use(meshes.damaged_book(rng, self.book))
            for _ in range(3 if reached else 1):
                given = self.some_sheet()
                rim = given[3] if given[0] == 0 else rim
        if rim and rng.random() < 0.2:
            self.use([7] * (6 + 3 * rules.head_of(rim)[1][2]))
            self.demand("a rim is loaded or has an edge twice", self.load(rim) in (0, 23), True)
            self.some_sheet()

    def rim_run(self):
        """Rims of as many edges as there may be, of one less or more, or of many more, by turns; in lying books, which have few vertices for so many. Then without room for anything."""
        edges = next(self.rims)
        self.use(meshes.lying_sheet(self.rng, 1400 - edges % 2, edges, 23, 0))
        self.some_sheet()
        self.some_sheet()
        self.sheet(*self.places_for(0, 0, 0, 0))

    def plain_run(self):
        """Plain answers in a book that calls alone have written, with relations asked for and dropped, or in lying ones, mostly such as have a false count; at times with a word changed, or broken
        or damaged."""
        rng = self.rng
        reached = rng.random() < 0.5
        for _ in range(1 if reached else 3):
            if reached:
                self.use([7] * rng.choice((100, 900, 900)))
                D, points, cells = meshes.random_mesh(rng, rng.choice((1, 1, 2, 2, 2, 3, 3, 3, 3)), rng.choice((5, 6, 8, 12)), rng.choice((0, 1, 2, 5, 5, 8, 14, 14)))
                self.load(rules.file_bytes(D, points + rng.choice((0, 0, 0, 2)), cells))
                for _ in range(rng.randrange(4)):
                    self.relation("ask", rng.randrange(D + 1), rng.randrange(D + 1))
                for pair in ((1, 0), (2, 0), (0, 1)):
                    if rng.random() < 0.4:
                        self.relation("drop", *pair)
            else:
                books, more = [meshes.lying_book(rng, 3, rng.random() < 0.6) for _ in range(5)], rng.random() < 0.5
                self.use(next((book for book in books if meshes.miscounted(book, more)), books[0]))
            way = rng.random()
            if way < 0.05:
                self.use(meshes.worn_book(rng, self.book))
            elif way < 0.1 and rules.checked(self.book)[1] == 0:
                self.use(meshes.broken_book(rng, self.book))
            elif way < 0.15:
                self.use(meshes.damaged_book(rng, self.book))
            for _ in range(16 if reached else 6):
                self.some_plain()

    def broken_run(self):
        """Faults in a right book, true or lying: calls that check the whole book, and rows and searches at the offsets that are broken, or anywhere."""
        rng = self.rng
        if rng.random() < 0.3:
            self.use([7] * 400)
            self.load(rules.file_bytes(*meshes.random_mesh(rng, rng.choice((1, 2, 3)), rng.choice((4, 6, 8)), rng.choice((1, 2, 5, 8)))))
            self.ask_list([rng.randrange(4) for _ in range(8)], [7] * 4)
        else:
            self.use(meshes.lying_book(rng, 3))
        self.use(meshes.broken_book(rng, self.book))
        frame = rules.Frame.of(self.book)
        rows = [(d, e, i) for d, e in sorted(frame.held) for i in range(frame.counts[d]) if frame.own_fault(d, e, i)]
        for d, e, i in rng.sample(rows, min(2, len(rows))):
            self.row(d, e, i)
            self.find(d, e, i, self.number())
        for way in rng.sample(range(10), 3):
            if way < 3:
                self.relation(("make", "ask", "drop")[way], self.dimension(), self.dimension())
            elif way == 3:
                self.write(rng.choice((0, 200)))
            elif way == 4:
                self.euler()
            elif way == 5:
                self.some_closures()
            elif way == 6:
                self.some_box()
            elif way == 7:
                self.some_sheet()
            elif way == 8:
                self.some_plain()
            else:
                self.look()

    def full_size(self):
        """Meshes of the full size, those of bench/ among them: whole, and one vertex, one cell or one word too many, or a cell twice."""
        rng = self.rng
        whole = meshes.scattered(4096, 8192)
        for mesh in (whole, meshes.sheet(46, 46), meshes.box(8, 8, 10), meshes.fan(4098), meshes.random_mesh(rng, 1, 8192, 4096)):
            data = rules.file_bytes(*mesh)
            need = 6 + len(mesh[2]) * (mesh[0] + 2)
            for room in (need - 1, need, 1500000):
                self.use([0xFFFFFFFF] * room)
                self.load(data)
            for size in (len(data) - 1, len(data), len(data) + 3):
                self.write(size)
            for d in range(mesh[0] + 1):
                for e in range(mesh[0] + 1):
                    if not (d == e > 0 and mesh[2][-1][0] == 0):
                        self.relation("ask", d, e)
                    self.row(d, e, 0)
                    self.row(d, e, mesh[1] - 1)
                    for j in (0, 1, 2047, 4095, 8191, mesh[1], 0xFFFFFFFF):
                        self.find(d, e, 0, j)
            self.euler()
            self.held_count()
        self.points_of_full_size()
        self.lists_of_full_size()
        self.closures_of_full_size()
        self.boxes_of_full_size()
        self.repeats_of_full_size()
        self.salvages_of_full_size()
        self.sheets_of_full_size()
        self.plains_of_full_size()
        many = bytearray(rules.file_bytes(*whole))
        for at in (0, 2):
            more = bytearray(many)
            more[at] |= 0x3F if at == 0 else 0xFF
            self.load(bytes(more))

    def points_of_full_size(self):
        """4,096 cells among 8,192 points. A strip has 1, be its points the first or the last: cell after cell can be taken off, and one is left.
        4,096 intervals that use every point are as many pieces."""
        for D in (1, 2, 3):
            for low in (0, 4096 - D):
                self.euler_is(1, rules.file_bytes(*meshes.strip(D, 8192, low)))
        self.euler_is(4096, rules.file_bytes(1, 8192, [[2 * c, 2 * c + 1] for c in range(4096)]))

    def lists_of_full_size(self):
        """All relations of two meshes of bench/ by one list: with room for all, where drops and places are then tried, and with room for some."""
        for mesh in (meshes.sheet(46, 46), meshes.box(8, 8, 10)):
            pairs = [x for d in range(mesh[0] + 1) for e in range(mesh[0] + 1) for x in (d, e)]
            for room in (1500000, 100000):
                self.use([0xFFFFFFFF] * room)
                self.load(rules.file_bytes(*mesh))
                if not any(self.ask_list(pairs, [0xFFFFFFFF] * (len(pairs) // 2))[1]):
                    self.plains_here(3)
                    self.drops_of_full_size()
                    self.places_of_full_size()

    def drops_of_full_size(self):
        """The book with all relations: the first and the last dropped and restored; then 1→0 where 0→1 keeps N_1, the true one or one more."""
        D, data, whole = self.book[0] >> 30, self.file, list(self.book)
        for name, d, e in (("make", 0, 0), ("ask", D, D)):
            self.demand("a drop", self.relation("drop", d, e), 0)
            self.restore(name, d, e)
        self.use([0xFFFFFFFF] * 200000)
        self.load(data)
        self.demand("0→1, and 1→0 dropped", [self.relation("ask", 0, 1), self.relation("drop", 1, 0)], [0, 0])
        right = list(self.book)
        for more, number in ((0, 0), (1, 25)):
            for name in ("make", "ask"):
                self.use(right[:2] + [right[2] + more] + right[3:])
                self.demand("%s of 1→0 with N_1 and %d" % (name, more), self.relation(name, 1, 0), number)
        self.use(whole)

    def closures_of_full_size(self):
        """Phase closures of the four meshes of bench/: any counts, masked ones among them, one outside, and each list one too long or too short."""
        rng = self.rng
        for mesh in (meshes.sheet(46, 46), meshes.box(8, 8, 10), meshes.scattered(4096, 8192), meshes.fan(4098)):
            self.use([0xFFFFFFFF] * 200000)
            self.load(rules.file_bytes(*mesh))
            for d in (1, 2):
                self.relation("ask", d, 0)
            sizes = self.lengths()
            counts = [rng.randrange(-32768, 32768) for _ in range(sizes[0])]
            some_masked = [rules.MASKED if rng.random() < 0.05 else count for count in counts]
            for lent in (counts, some_masked, self.some_counts(sizes[0]), counts[:-1] + [rng.choice(OUTSIDE)]):
                self.closures(lent, *self.unwritten(*sizes[1:]))
            for which in range(4):
                off = list(sizes)
                off[which] += rng.choice((1, -1))
                self.closures((counts + [0])[:off[0]], *self.unwritten(*off[1:]))

    def boxes_of_full_size(self):
        """Meshes with 8,192 points, of each dimension, whose last points cells use or do not, and the sheet of bench/, with two axes and with three: the whole mesh's box, those of the
        first, the last and one other entity of each dimension; with the last coordinate not finite, and one too many or too few; then of three cells with what lies inside."""
        rng = self.rng
        for mesh in (meshes.scattered(4096, 8192), meshes.strip(3, 8192, 4093), meshes.strip(2, 8192, 0), meshes.sheet(46, 46), meshes.random_mesh(rng, 1, 8192, 4096)):
            self.use([0xFFFFFFFF] * 200000)
            self.load(rules.file_bytes(*mesh))
            for d in range(1, mesh[0]):
                self.relation("ask", d, 0)
            counts = rules.Frame.of(self.book).counts
            for axes in (2, 3):
                coordinates = self.some_coordinates(axes * mesh[1])
                self.demand("number", self.whole_box(coordinates, axes)[0], 0)
                for d in range(mesh[0] + 1):
                    for i in (0, counts[d] - 1, rng.randrange(counts[d]), counts[d]):
                        self.demand("number", self.box(coordinates, axes, d, i)[0], 0 if i < counts[d] else 17)
                wrong = (coordinates[:-1] + [rng.choice(NOT_FINITE)], 27), (coordinates[:-1], 21), (coordinates + coordinates[:1], 21)
                for lent, number in wrong:
                    self.demand("number", [self.box(lent, axes, mesh[0], 0)[0], self.whole_box(lent, axes)[0]], [number] * 2)
            self.boxes_inside(coordinates, 3, 3)

    def repeats_of_full_size(self):
        """Full meshes whose last cell is made another one, its vertices turned about: the first, the one before it, or any; then as books."""
        rng = self.rng
        for D, points, cells in (meshes.scattered(4096, 8192), meshes.fan(4098), meshes.pages(4098), meshes.random_mesh(rng, 1, 8192, 4096)):
            last = len(cells) - 1
            for again in (0, last - 1, rng.randrange(last)):
                twice = cells[:last] + [cells[again][::-1]]
                self.use([0xFFFFFFFF] * 60000)
                self.demand("a cell at the end again", self.load(rules.file_bytes(D, points, twice)), 23)
            self.load(rules.file_bytes(D, points, cells))
            self.demand("0→D of different cells", self.relation("ask", 0, D), 0)
            start, count = [rules.row(self.book, D, 0, c)[1] for c in (rng.randrange(last), last)], D + 1
            self.use(self.book[:start[1]] + self.book[start[0]:start[0] + count] + self.book[start[1] + count:])
            self.demand("the last cell of the book again", self.relation("ask", 0, 0), 11)
            self.demand("the first index of the last cell", self.told, (4 * D, last + 1 + 1 + (D + 1) * last))

    def salvages_of_full_size(self):
        """4,096 cells of each dimension: whole, cut in many places, followed by 40,000 bytes, with lying heads, with every cell the first one again or the last one an earlier one, and with every
        second one spoiled in each way; with just the room that is needed, or a byte or a place less. What is saved is loaded, and salvaged again."""
        for D, points, cells in (meshes.scattered(4096, 8192), meshes.strip(2, 8000, 100), meshes.strip(1, 4097, 0)):
            right, size = rules.file_bytes(D, points, cells), 13 * (D + 1)
            files = [(right, 4096), (right + bytes(40000), 4096), (right[:len(right) // 2], (len(right) // 2 * 8 - 32) // size), (right[:-1], 4095), (right[:4], 0)]
            files.append((rules.file_bytes(D, points, [cells[0][::(-1) ** c] for c in range(4096)]), 1))
            files += [(rules.file_bytes(D, points, cells[:-1] + [cells[again][::-1]]), 4095) for again in (0, 4094, self.rng.randrange(4095))]
            for spoil in (lambda c: [cells[c][1]] + cells[c][1:], lambda c: cells[c][:-1] + [min(points, 8191)], lambda c: cells[self.rng.randrange(0, c, 2)][::-1]):
                files.append((rules.file_bytes(D, points, [cells[c] if c % 2 == 0 else spoil(c) for c in range(4096)]), None))
            few = (D << 30 | (points - 1) << 16 | 4096 << 3 | 7).to_bytes(4, "big")
            files += [(few + right[4:], None), ((D << 30 | 4096 << 3).to_bytes(4, "big") + right[4:], 0), ((D << 30 | points << 16 | 4095 << 3).to_bytes(4, "big") + right[4:], 4095)]
            for data, kept in files:
                out, dropped = self.lent_for(data)
                number, said, saved, _ = self.salvage(data, out, dropped)
                self.demand("number", number, 0)
                if kept is not None:
                    self.demand("cells kept of %d bytes" % len(data), rules.head_of(saved)[1][2], kept)
                self.demand("a byte or a place less", [self.salvage(data, out[1:], dropped[1:])[0], self.salvage(data, out, dropped[1:])[0]], [18, 21])
                self.saved_again(saved)

    def sheets_of_full_size(self):
        """Sheets of 4,096 cells, with a rim and without; ribbons, the longest that is accepted and the next two, and triangles apart, as many as there may be and as many as make one edge less
        than there may be; with just the room that is needed, and a byte or a place less; and an edge in 1,000 cells, and vertices in none. Then lying books."""
        alone = [(2, 3 * count, [[3 * c, 3 * c + 1, 3 * c + 2] for c in range(count)]) for count in (1365, 1366, 2730)]
        for mesh, wanted in ((meshes.sheet(33, 65), 192), (meshes.torus(64, 32), 0), (meshes.ribbon(4094), 4096), (alone[0], 4095), (meshes.ribbon(4095), 29), (meshes.ribbon(4096), 29),
                             (alone[1], 29), (alone[2], 29), (meshes.apart(4096), 29), (meshes.pages(1002), (28, (3, 0))), (meshes.strip(2, 8192, 0), (28, (2, 4098)))):
            self.use([0xFFFFFFFF] * 150000)
            self.demand("a file of the full size, and 1→2", [self.load(rules.file_bytes(*mesh)), self.relation("ask", 1, 2)], [0, 0])
            if isinstance(wanted, int) and wanted != 29:
                self.just_enough(len(mesh[2]), wanted, wanted)
            else:
                refused = wanted if wanted != 29 else (29, None)
                for sizes in ((3 * len(mesh[2]), 40000, 20000, 20000), (0, 0, 0, 0)):
                    self.demand("a rim that is too long, or none", self.sheet(*self.places_for(*sizes)), refused)
        self.lies_of_full_size()

    def just_enough(self, cells, vertices, edges):
        """The sheet with just the room that it needs, or a byte or a place less; its rim is loaded then."""
        need = [3 * cells, rules.file_length(1, edges), vertices, edges]
        given = self.sheet(*self.places_for(*need))
        self.demand("a sheet", given[:2], (0, tuple(need[1:])))
        for which, number in enumerate((21, 18, 21, 21)):
            less = need[:which] + [max(0, need[which] - 1)] + need[which + 1:]
            self.demand("less by one", self.sheet(*self.places_for(*less))[0], number if need[which] else 0)
        self.demand("more by one", [self.sheet(*self.places_for(need[0] + 1, *need[1:]))[0], self.sheet(*self.places_for(need[0], *[size + 1 for size in need[1:]]))[0]], [21, 0])
        book = list(self.book)
        self.use([7] * (6 + 3 * edges))
        self.demand("its rim is loaded", self.load(given[3]), 0)
        self.use(book)

    def lies_of_full_size(self):
        """4,096 cells in a ring, each with an edge to the next and one of its own, which has two vertices that no other has: the longest rim, with 8,192 vertices. Then the last vertex, the last edge
        or the last cell makes it none."""
        n = 4096
        counts = {0: 2 * n, 1: 2 * n, 2: n}
        rows = {(1, 0): [[0, 1] if edge % 2 else [edge, edge + 1] for edge in range(2 * n)], (1, 2): [[edge // 2] if edge % 2 == 0 else sorted([edge // 2, (edge // 2 + 1) % n]) for edge in range(2 * n)],
                (2, 0): [sorted([2 * c, 2 * c + 1, (2 * c + 2) % (2 * n)]) for c in range(n)], (2, 1): [sorted([(2 * c - 1) % (2 * n), 2 * c, 2 * c + 1]) for c in range(n)]}
        self.use(meshes.assembled(2, counts, rows, 5))
        self.just_enough(n, 2 * n, n)
        self.demand("the longest rim", rules.file_length(1, n), 13316)
        for relation, at, row, wanted in (((2, 0), n - 1, [0, 1, 8190], (2, 8191)), ((1, 2), 2 * n - 1, [], (3, 8191)), ((1, 2), 2 * n - 1, [0, 1, 4095], (3, 8191)),
                                          ((2, 1), n - 1, [8189, 8190], (4, 4095)), ((2, 1), n - 1, [0, 8190, 8191], (4, 4095))):
            others = {**rows, relation: rows[relation][:at] + [row]}
            self.use(meshes.assembled(2, counts, others, 0))
            self.demand("the last row of %d→%d" % relation, self.sheet(*self.places_for(3 * n, 13316, 2 * n, n)), (28, wanted))

    def plains_of_full_size(self):
        """Plain answers in books that hold the cells alone, in just the words that they take: meshes of 4,096 cells or nearly so, of each dimension, those of bench/ among them."""
        for mesh in (meshes.scattered(4096, 8192), meshes.box(8, 8, 10), meshes.strip(3, 8192, 4093), meshes.sheet(46, 46), meshes.fan(4098), meshes.pages(4098), meshes.torus(64, 32),
                     meshes.random_mesh(self.rng, 1, 8192, 4096)):
            self.use([0xFFFFFFFF] * (6 + len(mesh[2]) * (mesh[0] + 2)))
            self.demand("a file of the full size", self.load(rules.file_bytes(*mesh)), 0)
            self.plains_here(12)

    def plains_here(self, many):
        """Plain answers for each d and e: the first and the last of both, and one past the last; and so many times two that lie in one cell, and any two."""
        sets = rules.numbered(tuple(self.book))[2]
        places = [{frozenset(vertices): i for i, vertices in enumerate(of)} for of in sets]
        for d, e in itertools.product(range(len(sets)), repeat=2):
            most = len(sets[d]), len(sets[e])
            for i, j in itertools.product((0, most[0] - 1, most[0]), (0, most[1] - 1, most[1])):
                self.demand("the number for %d of %d and %d of %d" % (i, most[0], j, most[1]), self.plain(d, e, i, j)[0], 17 if i == most[0] else 19 if j == most[1] else 0)
            for _ in range(many):
                self.plain(d, e, *self.in_one_cell(sets, places, d, e))
                self.plain(d, e, self.rng.randrange(most[0]), self.rng.randrange(most[1]))

    def in_one_cell(self, sets, places, d, e):
        """Two entities of one cell, as often as not one inside the other."""
        rng = self.rng
        cell = sorted(rng.choice(sets[-1]))
        larger = rng.sample(cell, max(d, e) + 1)
        smaller = rng.sample(rng.choice((cell, larger)), min(d, e) + 1)
        one, other = (larger, smaller) if d >= e else (smaller, larger)
        return places[d][frozenset(one)], places[e][frozenset(other)]

    def places_of_full_size(self):
        """The book with all relations, broken at its far end and then ever nearer: its last word, the last index of D→D, an offset of D→0, the first offset."""
        frame, book, used = rules.Frame.of(self.book), list(self.book), self.book[4]
        D, cells = frame.D, frame.counts[frame.D]
        total = frame.offsets(D, D)[-1]
        for at, word, place in ((len(book) - 1, 1, (16, len(book) - 1 - used)), (used - 1, cells, (4 * D + D, cells + total)),
                                (frame.places[D, 0] + cells - 1, 0, (4 * D, cells - 1)), (5, 1, (0, 0))):
            book[at] = word
            self.use(book)
            self.demand("word %d is %d" % (at, word), (self.euler(), self.told), (11, place))

    def demand(self, what, got, wanted):
        if got != wanted:
            raise SystemExit("example: %s: %s, and the paper says %s" % (what, got, wanted))

    def rows_of(self, d, e):
        """The rows of a relation in the book as the calls left it."""
        out = []
        while True:
            number, start, count, _ = rules.row(self.book, d, e, len(out))
            if number:
                return out
            self.row(d, e, len(out))
            out.append(self.book[start : start + count])

    def examples(self):
        """Examples by hand, whose numbers stand here as they were worked out: 10 and 11 of the paper, cells twice, searches, lists of asks, phase closures, drops,
        unused points, boxes, salvages, sheets, and plain answers."""
        t = rules.file_bytes(2, 4, [[0, 1, 3], [1, 2, 3]])
        for room, number in ((54, 0), (53, 13)):
            self.use([7] * room)
            self.demand("T is loaded", self.load(t), 0)
            self.demand("2→1 in %d words" % room, self.relation("ask", 2, 1), number)
        for room, number in ((119, 0), (118, 13)):
            self.use([7] * room)
            self.load(t)
            self.demand("all nine in %d words" % room, max(self.relation("ask", d, e) for d in range(3) for e in range(3)), number)
        self.use([7] * 300)
        self.load(rules.file_bytes(3, 4, [[3, 1, 0, 2]]))
        self.demand("faces and edges", [self.relation("ask", d, 0) for d in (2, 1)], [0, 0])
        self.demand("faces", self.rows_of(2, 0), [[0, 1, 2], [0, 1, 3], [0, 2, 3], [1, 2, 3]])
        self.demand("edges", self.rows_of(1, 0), [[0, 1], [0, 2], [0, 3], [1, 2], [1, 3], [2, 3]])
        self.euler()
        self.demand("Euler number", rules.euler(self.book), (0, 1, None))
        self.cells_twice(t)
        self.searches(t)
        self.lists(t)
        self.places(t)
        self.own_places(t)
        self.each_word(t)
        self.phases(t)
        self.phases_refused(t)
        self.phases_cancel()
        self.drops(t)
        self.drops_refused(t)
        self.faces_dropped()
        self.edges_differ()
        self.faces_differ()
        self.unused_points()
        self.boxes(t)
        self.boxes_refused(t)
        self.boxes_unused()
        self.salvages(t)
        self.salvages_cut()
        self.salvages_refused(t)
        self.sheets()
        self.sheets_that_lie()
        self.no_sheets()
        self.sheets_refused(t)
        self.plains(t)
        self.plains_of_others()
        self.plains_that_lie()
        self.plains_refused(t)

    def cells_twice(self, t):
        """A cell that repeats an earlier one, in files and in books; and an edge in three triangles, which is allowed."""
        def loaded(cells, more=0, points=4):
            data = bytearray(rules.file_bytes(2, points, cells))
            data[-1] |= more
            number = self.load(bytes(data))
            return number, rules.read_file(bytes(data))[1]

        one, other = [0, 1, 3], [1, 2, 3]
        self.use([7] * 60)
        for cells, more, wanted in (([one, [3, 0, 1]], 0, (23, 1)), ([one] * 3, 0, (23, 1)), ([one, other, [1, 3, 0], [3, 2, 1]], 0, (23, 2)),
                                    ([other, one, [1, 3, 2]], 1, (23, 2)), ([one, one, [1, 1, 3]], 1, (8, 2)), ([one, one, [0, 1, 4]], 1, (7, 2)),
                                    ([one, [0, 0, 0], [0, 0, 0]], 1, (8, 1)), ([one, other], 1, (9, None)), ([one, other], 0, (0, None))):
            self.demand("cells %s" % cells, loaded(cells, more), wanted)
        self.demand("0→2", self.relation("ask", 0, 2), 0)
        right = list(self.book)
        start = rules.row(right, 2, 0, 0)[1]
        self.demand("the cells' words", right[start:start + 6], one + other)
        for cells, number in ((one + one, 11), (other + other, 11), (one + [0, 2, 3], 0)):
            self.use(right[:start] + cells + right[start + 6:])
            self.demand("a book with %s" % cells, self.relation("ask", 2, 0), number)
            self.demand("the same by make", self.relation("make", 2, 0), number or 14)
            self.write(14)
            self.euler()
        self.use([7] * 200)
        self.demand("three triangles at an edge", loaded([[0, 1, 2], [3, 1, 0], [4, 0, 1]], 0, 5), (0, None))
        self.demand("1→2 and 2→2", [self.relation("ask", d, 2) for d in (1, 2)], [0, 0])
        self.demand("the triangles at edge 0", self.rows_of(1, 2)[0], [0, 1, 2])
        self.demand("beside each other", self.rows_of(2, 2), [[1, 2], [0, 2], [0, 1]])

    def searches(self, t):
        """Row 1 of 0→1 of T is 0 2 3, searched; each refusal; and the row with its words changed, so that it does not ascend."""
        self.use([7] * 60)
        self.load(t)
        self.demand("0→1", self.relation("ask", 0, 1), 0)
        for j, wanted in ((0, (0, True, 1)), (1, (0, False, 2)), (3, (0, True, 3)), (4, (0, False, 3)), (5, (19, False, 0))):
            self.demand("search for %d" % j, self.find(0, 1, 1, j), wanted)
        for d, e, i, number in ((0, 3, 1, 12), (1, 1, 9, 16), (0, 1, 4, 17)):
            self.demand("search refused with %d" % number, self.find(d, e, i, 5), (number, False, 0))
        start = rules.row(self.book, 0, 1, 1)[1]
        right = list(self.book)
        self.use(right[:start] + [3, 2, 0] + right[start + 3:])
        for j, wanted in ((0, (0, False, 1)), (2, (0, False, 1)), (3, (0, True, 1)), (4, (0, False, 3))):
            self.demand("search for %d in 3 2 0" % j, self.find(0, 1, 1, j), wanted)
        self.use(right[:7] + [1] + right[8:])
        self.demand("search between offsets that fall", self.find(0, 1, 1, 5), (11, False, 0))
        self.use([0] + right[1:])
        self.demand("search in a broken frame", self.find(9, 9, 9, 9), (10, False, 0))

    def lists(self, t):
        """2→1, 0→0, 2→1 of T in 54 words; lists of no, 16 and 17 pairs, of half a pair, and with a place too few or too many; broken books."""
        self.use([7] * 54)
        self.load(t)
        self.demand("a list in 54 words", self.ask_list([2, 1, 0, 0, 2, 1], [9, 9, 9]), (0, [0, 13, 0]))
        right = list(self.book)
        self.demand("no pairs", self.ask_list([], []), (0, []))
        self.demand("16 pairs", self.ask_list([2, 1] * 16, [9] * 16), (0, [0] * 16))
        self.demand("its own refusals", self.ask_list([3, 0, 0, 3, 2, 2, 1, 0], [9] * 4), (0, [12, 12, 13, 0]))
        for broken, number in ((right, 0), ([0] + right[1:], 10), (right[:-1] + [9], 11), ([], 10)):
            self.use(broken)
            for pairs, places in (([2, 1] * 17, 17), ([2, 1, 2], 1), ([2, 1, 2], 2), ([2], 0), ([2, 1], 0), ([2, 1], 2), ([], 1)):
                self.demand("%d numbers, %d places" % (len(pairs), places), self.ask_list(pairs, [9] * places), (20, [9] * places))
            self.demand("each answer %d" % number, self.ask_list([2, 1, 9, 9], [9] * 2), (0, [number, number or 12]))
            self.demand("no pairs at all", self.ask_list([], []), (0, []))

    def nine(self, t):
        """The words of T with all nine relations and three free words. With the word at which each begins:
        5: 0→0, 20: 0→1, 35: 0→2, 46: 1→0, 62: 1→1, 84: 1→2, 96: 2→0, 105: 2→1, 114: 2→2, and 119 words are used."""
        self.use([7] * 122)
        self.load(t)
        self.ask_list([x for d in range(3) for e in range(3) for x in (d, e)], [7] * 9)
        self.demand("all nine", self.book[4:20] + self.book[84:],
                    [119, 0, 2, 5, 7, 10, 1, 3, 0, 2, 3, 1, 3, 0, 1, 2] + [0, 1, 2, 4, 5, 6, 0, 0, 0, 1, 1, 1] +
                    [0, 3, 6, 0, 1, 3, 1, 2, 3] + [0, 3, 6, 0, 1, 2, 2, 3, 4] + [0, 1, 2, 1, 0] + [0, 0, 0])
        return list(self.book)

    def broken_at(self, book, place):
        """Every call that checks the whole book gives 11 and this place, whatever else it would refuse; a list of asks gives the number alone."""
        self.use(book)
        for name, call in (("make", lambda: self.relation("make", 9, 9)), ("ask", lambda: self.relation("ask", 2, 0)), ("write", lambda: self.write(3)),
                           ("euler", self.euler), ("closures", lambda: self.closures([65535], *self.unwritten(1, 1, 1))[0]),
                           ("drop", lambda: self.relation("drop", 9, 9)), ("box", lambda: self.box([NOT_FINITE[0]], 9, 9, 9)[0]),
                           ("whole_box", lambda: self.whole_box([NOT_FINITE[0]], 9)[0]), ("sheet", lambda: self.sheet(*self.places_for(1, 1, 1, 1))[0]),
                           ("plain", lambda: self.plain(9, 9, 9, 9)[0])):
            self.demand("%s of a book broken at %s" % (name, place), (call(), self.told), (11, place))
        self.demand("a list", self.ask_list([9, 9, 2, 0], [7, 7]), (0, [11, 11]))

    def places(self, t):
        """Each kind of place, in T with all nine relations: the words that are changed, then the key and the position; and books without cells or vertices."""
        right = self.nine(t)
        for words, place in (
                ({5: 1}, (0, 0)), ({46: 1}, (4, 0)), ({114: 2 ** 32 - 1}, (10, 0)),  # first offset
                ({85: 3}, (6, 2)), ({87: 1}, (6, 3)), ({88: 7}, (6, 5)), ({23: 11}, (1, 4)), ({7: 0}, (0, 2)),  # falling offset
                ({97: 2}, (8, 1)), ({97: 4}, (8, 1)), ({97: 7}, (8, 1)), ({48: 3}, (4, 2)), ({50: 2 ** 32 - 1}, (4, 4)),  # row of the wrong size
                ({11: 1}, (0, 6)), ({14: 2}, (0, 9)), ({93: 0}, (6, 9)), ({101: 0}, (8, 5)), ({113: 3}, (9, 8)),  # index not above its predecessor
                ({40: 2}, (2, 5)), ({95: 2}, (6, 11)), ({90: 2 ** 32 - 1}, (6, 6)), ({104: 4}, (8, 8)), ({118: 2}, (10, 4)),  # index too large
                ({102: 0, 103: 1}, (8, 6)), ({99: 1, 100: 2}, (8, 6)),  # repeated cell
                ({119: 1}, (16, 0)), ({121: 2 ** 32 - 1}, (16, 2)), ({120: 5, 121: 5}, (16, 1)),  # free word
                ({11: 1, 7: 9}, (0, 3)), ({10: 4, 5: 1}, (0, 0)), ({40: 2, 38: 2}, (2, 3)),  # an index, and an offset that goes before it
                ({11: 0, 10: 4}, (0, 5)), ({10: 4, 12: 4}, (0, 5)), ({19: 4, 18: 0}, (0, 13)),  # two indices
                ({101: 1, 102: 0, 103: 1, 104: 1}, (8, 5)), ({99: 4, 102: 4, 100: 1, 103: 1}, (8, 3)),  # a repeated cell, and an index before it
                ({97: 2, 102: 0, 103: 1}, (8, 1)), ({96: 1, 97: 2}, (8, 0)),  # a repeated cell, and an offset; two offsets
                ({95: 2, 20: 1}, (1, 0)), ({118: 2, 40: 2}, (2, 5)), ({5: 1, 114: 1}, (0, 0)), ({93: 0, 97: 2}, (6, 9)),  # two relations
                ({119: 1, 118: 2}, (10, 4)), ({119: 1, 5: 9}, (0, 0)), ({121: 1, 102: 0, 103: 1}, (8, 6))):  # a relation and a free word
            self.broken_at([words.get(at, word) for at, word in enumerate(right)], place)
        self.broken_at([0x80010000, 256, 0, 0, 8, 2, 0, 0], (8, 0))  # no cells, and two indices behind the one offset
        self.broken_at([0x80010000, 256, 0, 0, 6, 0, 0, 3], (16, 1))
        self.broken_at([0x40000008, 16, 0, 0, 9, 0, 2, 0, 1], (4, 2))  # one interval, and no vertices
        self.broken_at([0x40020008, 16, 0, 0, 10, 0, 3, 0, 1, 2], (4, 1))  # a last row of the wrong size
        self.broken_at([0x40020018, 16, 0, 0, 15, 0, 2, 4, 6, 0, 1, 0, 1, 0, 2], (4, 6))  # a repeated cell, and an index behind it

    def own_places(self, t):
        """What row and find say of 1→2 of T, whose offsets are 0 1 2 4 5 6: the words changed, the row, and the position, or None where it is accepted."""
        right = self.nine(t)
        for words, i, position in (({85: 7}, 0, 1), ({85: 7}, 1, 1), ({85: 7}, 2, None), ({85: 3}, 0, None), ({85: 3}, 1, 2), ({86: 0}, 1, 2), ({86: 0}, 2, None),
                                   ({84: 7}, 0, 0), ({84: 6}, 0, 1), ({84: 1}, 0, None), ({88: 7}, 3, 4), ({88: 7}, 4, 4), ({88: 2 ** 32 - 1}, 4, 4), ({88: 6}, 4, None),
                                   ({85: 9, 86: 8}, 1, 1), ({85: 8, 86: 9}, 1, 1), ({85: 6, 86: 9}, 1, 2), ({5: 1, 121: 1}, 2, None), ({90: 9}, 0, None)):
            self.use([words.get(at, word) for at, word in enumerate(right)])
            wanted = (0, None) if position is None else (11, (6, position))
            self.demand("row %d with %s" % (i, words), (self.row(1, 2, i), self.told), wanted)
            self.demand("a search in row %d with %s" % (i, words), (self.find(1, 2, i, 0)[0], self.told), wanted)
            self.demand("an index that is none", (self.find(1, 2, i, 2)[0], self.told), wanted if position is not None else (19, None))

    def each_word(self, t):
        """Each word of T with all nine relations changed: the row rule is broken exactly where a place is found, and it is the library's."""
        right = self.nine(t)
        for at in range(5, len(right)):
            for word in {0, 1, 2, 3, 4, 5, right[at] + 1, max(0, right[at] - 1), 2 ** 32 - 1}:
                self.use(right[:at] + [word] + right[at + 1:])
                frame = rules.Frame.of(self.book)
                if frame:
                    self.demand("word %d is %d: broken" % (at, word), frame.rows_right(), frame.first_fault() is None)
                    self.euler()

    def drops(self, t):
        """Drops from T with all nine relations: what moves, N_1 kept while a relation names 1, the same words once all is made again, and
        room for another relation."""
        right = self.nine(t)
        self.demand("1→0 is dropped", self.relation("drop", 1, 0), 0)
        self.demand("its 16 words are free, and N_1 stays", self.book, right[:1] + [right[1] - 16, 5, 0, 103] + right[5:46] + right[62:] + [0] * 16)
        for d, e, number in ((1, 0, 16), (1, 1, 0), (2, 0, 24)):
            self.demand("then %d→%d" % (d, e), self.relation("drop", d, e), number)
        self.demand("the Euler number wants it", self.euler(), 15)
        self.refused(15, [0] * 4, 2, 5, 5)
        self.demand("1→1 wants it", self.relation("make", 1, 1), 15)
        self.demand("the rows of 2→1 stay", self.rows_of(2, 1), [[0, 1, 2], [2, 3, 4]])
        self.demand("both again", [self.relation("make", 1, e) for e in (0, 1)], [0, 0])
        self.demand("the same words", self.book, right)
        for d, e in ((0, 0), (2, 2), (2, 1), (0, 2), (1, 2)):
            for name in ("make", "ask"):
                self.demand("a drop", self.relation("drop", d, e), 0)
                self.restore(name, d, e)
        for d, e, edges in ((1, 0, 5), (0, 1, 5), (1, 1, 5), (1, 2, 5), (2, 1, 0)):
            self.demand("%d→%d is dropped" % (d, e), self.relation("drop", d, e), 0)
            self.demand("N_1", self.book[2], edges)
        self.demand("the words that are left", self.book,
                    [right[0], 1 + 4 + 256 + 1024, 0, 0, 45] + right[5:20] + right[35:46] + right[96:105] + right[114:119] + [0] * 77)
        self.demand("2→1 is asked for", self.relation("ask", 2, 1), 0)
        self.demand("with its sources", self.book,
                    [right[0], 1 + 2 + 4 + 16 + 256 + 512 + 1024, 5, 0, 85] + right[5:62] + right[96:119] + [0] * 37)
        self.use([7] * 54)
        self.load(t)
        self.demand("2→1, and no room for 0→2", [self.relation("ask", *pair) for pair in ((2, 1), (0, 2))], [0, 13])
        self.demand("room for it", [self.relation("drop", 1, 0), self.relation("ask", 0, 2)], [0, 0])
        self.demand("all but five words are used", (self.book[4], self.book[49:]), (49, [0] * 5))
        self.as_if_fresh()

    def drops_refused(self, t):
        """Each refusal of drop and what it goes before; and a relation of no words but one offset, and one that ends a book without free words."""
        right = self.nine(t)
        for broken, number in (([], 10), ([0] + right[1:], 10), (right[:-1] + [9], 11), (right, 0)):
            for d, e, wanted in ((3, 0, 12), (0, 3, 12), (9, 9, 12), (0xFFFFFFFF, 0, 12), (2, 0, 24), (0, 0, 0)):
                self.use(broken)
                self.demand("drop of %d→%d" % (d, e), self.relation("drop", d, e), number or wanted)
        self.use([7] * 14)
        self.load(t)
        for d in range(3):
            for e in range(3):
                self.demand("nothing else is held", self.relation("drop", d, e), 24 if (d, e) == (2, 0) else 16)
        self.use([7] * 119)
        self.load(t)
        self.ask_list([x for d in range(3) for e in range(3) for x in (d, e)], [7] * 9)
        self.demand("the last of a full book", (self.relation("drop", 2, 2), self.book[4:5] + self.book[113:]), (0, [114, 4, 0, 0, 0, 0, 0]))
        self.use([0x40000000, 16 + 32, 0, 0, 7, 0, 0])
        self.demand("a relation of one word", (self.relation("drop", 1, 1), self.book), (0, [0x40000000, 16, 0, 0, 6, 0, 0]))

    def faces_dropped(self):
        """A tetrahedron with all sixteen relations, from which those that name 2 are dropped one by one: N_2 is kept up to the last; N_1 stays."""
        self.use([7] * 260)
        self.load(rules.file_bytes(3, 4, [[3, 1, 0, 2]]))
        self.ask_list([x for d in range(4) for e in range(4) for x in (d, e)], [7] * 16)
        whole = list(self.book)
        self.demand("all sixteen", whole[1:4], [0xFFFF, 6, 4])
        for d, e, faces in ((2, 0, 4), (2, 2, 4), (1, 2, 4), (2, 3, 4), (0, 2, 4), (3, 2, 4), (2, 1, 0)):
            self.demand("%d→%d is dropped" % (d, e), (self.relation("drop", d, e), self.book[2:4]), (0, [6, faces]))
        self.demand("nine are left", self.book[1], 0xFFFF - (1 << 2) - (1 << 6) - (0xF << 8) - (1 << 14))
        self.demand("again by one list", self.ask_list([0, 2, 1, 2, 2, 3, 2, 2], [7] * 4), (0, [0] * 4))
        self.demand("the same words", self.book, whole)

    def edges_differ(self):
        """T with 0→1 alone beside its cells, and N_1 as it is, or less or more: then 1→0 cannot be made, with or without room for it, by whatever
        asks for it on the way. The frame and the rows are right: each index of 0→1 is below N_1."""
        for edges, spare, number in ((5, 100, 0), (5, 0, 13), (4, 100, 25), (4, 0, 25), (6, 100, 25), (0, 3, 25)):
            rows = rules.words_of([[j for j in row if j < edges] for row in ([0, 1], [0, 2, 3], [3, 4], [1, 2, 4])])
            cells = rules.words_of([[0, 1, 3], [1, 2, 3]])
            book = [0x80040010, 2 + 256, edges, 0, 5 + len(rows) + len(cells)] + rows + cells + [0] * spare
            for name, d, e, wanted in (("make", 1, 0, number), ("ask", 1, 0, number), ("ask", 1, 1, number), ("ask", 2, 1, number), ("ask", 1, 2, number),
                                       ("make", 1, 1, 15), ("ask", 0, 1, 0), ("ask", 0, 0, 0 if spare > 30 else 13), ("make", 0, 1, 14)):
                self.use(book)
                self.demand("%s of %d→%d with %d edges" % (name, d, e, edges), self.relation(name, d, e), wanted)
            self.use(book)
            self.demand("a list with %d edges" % edges, self.ask_list([1, 1, 0, 1, 3, 0, 2, 1], [7] * 4), (0, [number, 0, 12, number]))
            self.use(book)
            self.demand("0→1 goes, and N_1 with it", (self.relation("drop", 0, 1), self.book[2]), (0, 0))
            self.demand("then the edges are counted anew", self.relation("make", 1, 0), 13 if spare + len(rows) < 16 else 0)

    def faces_differ(self):
        """A tetrahedron with 0→2, or 0→1, alone beside its cell, and a false N_2 or N_1: what is in the way of each ask, and what is not."""
        cell = rules.words_of([[0, 1, 2, 3]])
        empty = [0] * 5  # the relation from four vertices to nothing
        for head, spare, asks in (
                ([4 + 4096, 0, 3], 100, ((2, 0, 25), (2, 1, 25), (1, 2, 25), (3, 2, 25), (2, 3, 25), (2, 2, 25), (1, 0, 0), (1, 1, 0), (3, 1, 0), (0, 2, 0), (0, 0, 0))),
                ([4 + 4096, 0, 4], 100, ((2, 0, 0), (2, 1, 0), (1, 2, 0), (3, 2, 0))),
                ([4 + 4096, 0, 3], 0, ((2, 0, 25), (2, 1, 25), (1, 2, 25), (3, 2, 25), (1, 0, 13), (0, 2, 0))),
                # 2→1 is made from 2→0, for which there is no room, from 0→1, and from 1→0, whose count differs
                ([2 + 4096, 5, 0], 0, ((2, 1, 25), (1, 2, 25), (2, 0, 13), (1, 0, 25), (3, 1, 25)))):
            book = [0xC0040008] + head + [5 + len(empty + cell)] + empty + cell + [0] * spare
            for d, e, number in asks:
                self.use(book)
                self.demand("ask of %d→%d with %s" % (d, e, head), self.relation("ask", d, e), number)

    def euler_is(self, value, data):
        """The file's Euler number, in a book that has room for what it needs."""
        D, cells = data[0] >> 6, rules.Bits(data).field(16, 13)
        self.use([7] * (8 + 39 * cells))
        self.demand("a file of %d cells" % cells, self.load(data), 0)
        for d in range(1, D):
            self.demand("%d→0" % d, self.relation("ask", d, 0), 0)
        self.demand("the Euler number of %s" % data[:64].hex(), (self.euler(), rules.euler(self.book)[1]), (0, value))

    def unused_points(self):
        """Points that no cell uses, behind those that cells use, before them or between: T, an interval, a tetrahedron, no cells, and the dam, which has two holes.
        Then T among 44 points in books whose 1→0 and 0→2 name other vertices than its cells do."""
        t = [[0, 1, 3], [1, 2, 3]]
        for points, cells in ((4, t), (44, t), (44, [[40, 41, 43], [41, 42, 43]]), (44, [[0, 20, 43], [20, 30, 43]])):
            self.euler_is(1, rules.file_bytes(2, points, cells))
        for points in (4, 44):
            self.euler_is(1, rules.file_bytes(1, points, [[3, 1]]))
            self.euler_is(1, rules.file_bytes(3, points, [[3, 1, 0, 2]]))
        for D in (1, 2, 3):
            self.euler_is(0, rules.file_bytes(D, 40, []))
        for name in ("dam.day", "scan.day"):
            with open(os.path.join(TOP, "examples", name), "rb") as file:
                self.euler_is(-1, file.read())
        self.use([7] * 200)
        self.load(rules.file_bytes(2, 44, t))
        self.demand("1→0 and 0→2", [self.relation("ask", *pair) for pair in ((1, 0), (0, 2))], [0, 0])
        book, frame = list(self.book), rules.Frame.of(self.book)
        edges, cells = [rules.row(book, d, 0, 0)[1] for d in (1, 2)]
        book[edges:edges + 2] = [4, 5]
        book[frame.places[0, 2]:frame.places[0, 2] + 45] = [0] * 41 + [1, 3, 4, 6]
        for last, value in ((3, 1), (43, 2)):
            book[cells + 5] = last
            self.use(book)
            self.demand("T, its last vertex %d" % last, (self.euler(), rules.euler(book)[1]), (0, value))

    def written(self, counts, faces, steps, masked):
        """Phase closures that write these closures, steps in 65,536ths, and masked bytes."""
        given = self.closures(counts, *self.unwritten(len(faces), len(steps), len(masked)))
        self.demand("closures of %s" % counts, given, (0, faces, [Fraction(step, 65536) for step in steps], masked))

    def refused(self, number, counts, faces, steps, masked):
        """Phase closures with lists of these lengths that are refused, and the lists stay as they were."""
        lists = self.unwritten(faces, steps, masked)
        self.demand("closures of %s" % counts, self.closures(counts, *lists), (number,) + lists)

    def phases(self, t):
        """The edges of T are 0 1, 0 3, 1 3, 1 2, 2 3, its faces 0 1 3 and 1 2 3: each closure, half a turn up and down and one beside it, masked points,
        and a book that has 0 2 for the first edge."""
        self.use([7] * 60)
        self.load(t)
        self.demand("edges", self.relation("ask", 1, 0), 0)
        self.written([0, 20000, -20000, 10000], [0, 1], [20000, 10000, -10000, 25536, 30000], [0] * 5)
        self.written([0, 24576, 4096, -16384], [1, -1], [24576, -16384, 24576, -20480, -20480], [0] * 5)
        self.written([-32768, 0, 32767, -32768], [-1, 1], [-32768, 0, -32768, 32767, 1], [0] * 5)
        self.written([-16384, 16385, -16384, -16383], [-1, 1], [-32767, 1, -32768, 32767, 1], [0] * 5)
        self.written([-32768, 32767, 0, 32767], [0, 0], [-1, -1, 0, -32767, 32767], [0] * 5)
        self.written([5] * 4, [0, 0], [0] * 5, [0] * 5)
        self.written([65536, 20000, -20000, 10000], [2, 1], [0, 0, -10000, 25536, 30000], [1, 1, 0, 0, 0])
        self.written([0, 20000, 65536, 10000], [0, 2], [20000, 10000, -10000, 0, 0], [0, 0, 0, 1, 1])
        self.written([0, 20000, -20000, 65536], [2, 2], [20000, 0, 0, 25536, 0], [0, 1, 1, 0, 1])
        self.written([65536] * 4, [2, 2], [0] * 5, [1] * 5)
        self.use(self.book[:12] + [2] + self.book[13:])
        self.written([0, 20000, -20000, 10000], [0, 1], [-20000, 10000, -10000, 25536, 30000], [0] * 5)
        self.demand("the bits of -0.5 and 0.0", floats([Fraction(-1, 2), Fraction(0)]).hex(), "000000000000e0bf" + "0" * 16)

    def phases_refused(self, t):
        """Each refusal of phase closures and what it goes before: books broken, intervals, edges or faces missing, lengths, counts; and no cells at all."""
        self.use([7] * 60)
        self.load(t)
        self.refused(15, [32768], 0, 0, 0)
        self.relation("ask", 1, 0)
        right, counts = list(self.book), [1, 2, 3, 4, 5]
        for sizes in ((3, 2, 5, 5), (5, 2, 5, 5), (4, 1, 5, 5), (4, 3, 5, 5), (4, 2, 4, 5), (4, 2, 6, 5), (4, 2, 5, 4), (4, 2, 5, 6), (4, 5, 2, 2), (0, 0, 0, 0)):
            self.refused(21, counts[:sizes[0]], *sizes[1:])
            self.refused(21, [32768] * sizes[0], *sizes[1:])
        for place in range(4):
            for count in OUTSIDE:
                self.refused(22, counts[:place] + [count] + counts[place + 1:4], 2, 5, 5)
        for broken, number in (([0] + right[1:], 10), ([], 10), (right[:-1] + [9], 11)):
            self.use(broken)
            self.refused(number, counts[:4], 2, 5, 5)
            self.refused(number, [32768], 0, 0, 0)
        self.use([7] * 30)
        self.load(rules.file_bytes(1, 2, [[0, 1]]))
        self.refused(12, [1, 2], 0, 1, 1)
        self.refused(12, [32768], 0, 0, 0)
        self.use(self.book[:-1] + [9])
        self.refused(11, [1, 2], 0, 1, 1)
        self.use([7] * 30)
        self.load(rules.file_bytes(2, 1, []))
        self.relation("ask", 1, 0)
        self.written([9], [], [], [])
        self.refused(22, [65535], 0, 0, 0)

    def phases_cancel(self):
        """The faces of a tetrahedron are 0 1 2, 0 1 3, 0 2 3, 1 2 3, and the closures of the second and fourth less those of the first and third are 0."""
        for order in ((1, 2), (2, 1)):
            self.use([7] * 80)
            self.load(rules.file_bytes(3, 4, [[3, 1, 0, 2]]))
            for d in order:
                self.refused(15, [0] * 4, 4, 6, 6)
                self.demand("edges or faces", self.relation("ask", d, 0), 0)
        self.written([0, 24576, -16384, 8192], [1, 0, 0, 1], [24576, -16384, 8192, 24576, -16384, 24576], [0] * 6)
        self.written([0, 24576, 8192, -16384], [0, 1, 0, -1], [24576, 8192, -16384, -16384, 24576, -24576], [0] * 6)
        self.written([0, 24576, -16384, 65536], [1, 2, 2, 2], [24576, -16384, 0, 24576, 0, 0], [0, 0, 1, 0, 1, 1])
        for _ in range(20):
            counts = [self.rng.randrange(-32768, 32768) for _ in range(4)]
            first, second, third, fourth = self.closures(counts, *self.unwritten(4, 6, 6))[1]
            self.demand("closures around a tetrahedron", fourth - third + second - first, 0)

    def box_is(self, wanted, coordinates, axes, d=None, i=0):
        """The box of an entity, or of the whole mesh where d is None, with these coordinates; ends are told apart by their bits."""
        number, ends = self.whole_box(bits_of(coordinates), axes) if d is None else self.box(bits_of(coordinates), axes, d, i)
        self.demand("the box of (%s, %d)" % (d, i), (number, bits_of(ends)), (0, bits_of(wanted)))

    def boxes(self, t):
        """The edges of T are 0 1, 0 3, 1 3, 1 2, 2 3, its cells 0 1 3 and 1 2 3. Vertex 0 has 0.0 and -0.0, vertex 3 has them the other way round, and both stand
        on a third axis at -7."""
        self.use([7] * 60)
        self.load(t)
        flat, high = [0.0, -0.0, 2.5, -1.0, -3.0, 4.0, -0.0, 0.0], [0.0, -0.0, -7.0, 2.5, -1.0, 8.0, -3.0, 4.0, 1e308, -0.0, 0.0, -7.0]
        self.box_is([0.0, 2.5, -1.0, -0.0, 0.0, 0.0], flat, 2, 2, 0)
        self.box_is([-3.0, 2.5, -1.0, 4.0, 0.0, 0.0], flat, 2, 2, 1)
        self.box_is([-3.0, 2.5, -1.0, 4.0, 0.0, 0.0], flat, 2)
        self.box_is([0.0, 2.5, -1.0, -0.0, -7.0, 8.0], high, 3, 2, 0)
        self.box_is([-3.0, 2.5, -1.0, 4.0, -7.0, 1e308], high, 3)
        self.box_is([-0.0, -0.0, 0.0, 0.0, 0.0, 0.0], flat, 2, 0, 3)
        self.box_is([-3.0, -3.0, 4.0, 4.0, 1e308, 1e308], high, 3, 0, 2)
        self.demand("the edges", self.relation("ask", 1, 0), 0)
        self.box_is([0.0, 0.0, -0.0, -0.0, 0.0, 0.0], flat, 2, 1, 1)
        self.box_is([-0.0, 2.5, -1.0, 0.0, -7.0, 8.0], high, 3, 1, 2)
        self.box_is([-3.0, -0.0, 0.0, 4.0, 0.0, 0.0], flat, 2, 1, 4)
        least, most = doubles([1 << 63 | 1, 1])
        self.box_is([least, most, least, most, 0.0, 0.0], [-0.0, 0.0, least, most, most, least, 0.0, -0.0], 2)
        self.box_is([least, most, least, most, 0.0, 0.0], [0.0, -0.0, least, most, most, least, 0.0, -0.0], 2, 2, 1)
        low, high = doubles([LARGE[-1], LARGE[3]])
        self.box_is([low, high, low, high, 0.0, 0.0], [0.0, -0.0, low, high, 5.0, 5.0, high, low], 2)
        # vertex 2 goes before vertex 3, though the cells name it after
        self.box_is([-0.0, 1.0, -1.0, 0.0, 0.0, 0.0], [1.0, -1.0, 1.0, -1.0, -0.0, 0.0, 0.0, -0.0], 2)
        self.demand("the bits of 0.0, -0.0 and the least float of all", bits_of([0.0, -0.0, most]), [0, 1 << 63, 1])

    def boxes_refused(self, t):
        """Each refusal of both calls and what it goes before. What is wrong is given from the last to be looked at to the first, one after another."""
        self.use([7] * 60)
        self.load(t)
        right, odd = bits_of([1.0, 2.0, 3.0, 4.0, 5.0, 6.0, 7.0, 8.0]), NOT_FINITE[0]
        for bad in NOT_FINITE:
            for place in range(8):
                lent = right[:place] + [bad] + right[place + 1:]
                self.demand("not finite", [self.box(lent, 2, 0, 1)[0], self.box(lent, 2, 2, 1)[0], self.whole_box(lent, 2)[0]], [27] * 3)
        for length in (0, 1, 4, 7, 9, 12, 16):
            for lent in ([0] * length, [odd] * length):
                self.demand("length %d" % length, [self.box(lent, 2, 2, 1)[0], self.whole_box(lent, 2)[0]], [21] * 2)
        for length in (0, 8, 11, 13):
            self.demand("length %d" % length, [self.box([odd] * length, 3, 2, 1)[0], self.whole_box([odd] * length, 3)[0]], [21] * 2)
        for axes in (0, 1, 4, 5, 1 << 30 | 2, 1 << 31 | 2, 1 << 31 | 3, 0xFFFFFFFE, 0xFFFFFFFF):
            for lent in (right, [], [odd] * 4, [0] * 16):
                self.demand("%d axes" % axes, [self.box(lent, axes, 2, 1)[0], self.whole_box(lent, axes)[0]], [26] * 2)
        for lent, axes in ((right, 2), ([odd] * 8, 2), ([odd], 2), ([odd], 9)):
            for d, i, number in ((0, 4, 17), (0, 0xFFFFFFFF, 17), (2, 2, 17), (2, 0xFFFFFFFF, 17), (1, 0, 15), (1, 5, 15), (1, 0xFFFFFFFF, 15), (3, 0, 12), (4, 9, 12), (0xFFFFFFFF, 9, 12)):
                self.demand("box of (%d, %d)" % (d, i), self.box(lent, axes, d, i)[0], number)
        self.demand("1→0, and one edge too many", [self.relation("ask", 1, 0), self.box(right, 2, 1, 4)[0], self.box([odd], 9, 1, 5)[0]], [0, 0, 17])
        self.demand("0→1 and no more 1→0", [self.relation("ask", 0, 1), self.relation("drop", 1, 0), self.box(right, 2, 1, 4)[0]], [0, 0, 15])
        book = list(self.book)
        for broken, number in (([0] + book[1:], 10), ([], 10), (book[:-1] + [9], 11)):
            self.use(broken)
            for lent, axes, d, i in ((right, 2, 2, 0), ([odd], 9, 9, 9)):
                self.demand("a broken book", [self.box(lent, axes, d, i)[0], self.whole_box(lent, axes)[0]], [number] * 2)

    def boxes_unused(self):
        """Points that no cell uses do not count, before, between and behind the others, though their coordinates are looked at; no cells, and no points."""
        one, far = [5.0, -6.0], [-1e300, 1e300]
        for D, points, cells, wanted in ((1, 4, [[2, 1]], [5.0, 7.0, -6.0, -6.0]), (2, 6, [[4, 1, 3]], [5.0, 8.0, -8.0, -6.0]), (3, 9, [[7, 5, 3, 1]], [5.0, 8.0, -8.0, -6.0])):
            self.use([7] * 60)
            self.load(rules.file_bytes(D, points, cells))
            places = [far] * points
            for v, place in zip(sorted(cells[0]), (one, [7.0, -6.0], [8.0, -8.0], one)):
                places[v] = place
            lent = [x for place in places for x in place]
            self.box_is(wanted + [0.0, 0.0], lent, 2)
            self.box_is(wanted + [0.0, 0.0], lent, 2, D, 0)
            self.box_is([-1e300, -1e300, 1e300, 1e300, 0.0, 0.0], lent, 2, 0, 0)
            for v in {0, points - 1} - set(cells[0]):
                bad = bits_of(lent[:2 * v] + [0.0]) + [NOT_FINITE[1]] + bits_of(lent[2 * v + 2:])
                self.demand("a coordinate that nobody needs", [self.whole_box(bad, 2)[0], self.box(bad, 2, D, 0)[0]], [27, 27])
        for D in (1, 2, 3):
            for points in (0, 1, 40):
                self.use([7] * 20)
                self.load(rules.file_bytes(D, points, []))
                for axes in (2, 3):
                    self.demand("no box", self.whole_box([0] * (axes * points), axes), (0, None))
                    self.demand("no cell", [self.box([0] * (axes * points), axes, d, 0)[0] for d in (D, 0)], [17, 0 if points else 17])
                    self.demand("too long", self.whole_box([0] * (axes * points + 1), axes)[0], 21)
                self.demand("one axis", self.whole_box([0] * points, 1)[0], 26)

    def salvage_is(self, data, saved, listed, *flags):
        """A salvage, with the room that it needs and with more: it writes these bytes, lists these cells and says these flags."""
        data, saved = bytes.fromhex(data), bytes.fromhex(saved)
        said = len(saved), len(listed) // 2, "spare" in flags, "pad" in flags, "wrong_length" in flags
        places = 2 * rules.head_of(data)[1][2]
        for size, room in ((len(saved), places), (len(saved) + 1, places + 1), (len(saved) + 20, places), (len(saved), places + 20)):
            self.demand("salvage of %s" % data.hex(), self.salvage(data, *self.lent_for(data, size, room)), (0, said, saved, listed))
        self.saved_again(saved)

    def salvages(self, t):
        """T, whose cell 0 ends in byte 8 and whose cell 1 ends in byte 13, before two pad bits; intervals and a tetrahedron. The bytes are worked out by hand."""
        whole, one = "800400100000004006001001000c", "800400080000004006"
        self.demand("T", t.hex(), whole)
        self.salvage_is(whole, whole, [])
        for cut, saved, listed in ((13, one, [1, 6]), (10, one, [1, 6]), (9, one, [1, 6]), (8, "80040000", [0, 6, 1, 6]), (5, "80040000", [0, 6, 1, 6]), (4, "80040000", [0, 6, 1, 6])):
            self.salvage_is(whole[:2 * cut], saved, listed, "wrong_length")
        for last in ("0d", "0e", "0f"):
            self.salvage_is(whole[:26] + last, whole, [], "pad")
            self.salvage_is(whole[:26] + last + "00", whole, [], "pad", "wrong_length")
            self.salvage_is("80040013" + whole[8:26] + last, whole, [], "pad", "spare")
        for more in ("00", "ff", "ff" * 40):
            self.salvage_is(whole + more, whole, [], "wrong_length")
        for spare in range(1, 8):
            self.salvage_is("8004001%d" % spare + whole[8:], whole, [], "spare")
            self.salvage_is("8004001%d" % spare + whole[8:26], one, [1, 6], "spare", "wrong_length")
        self.salvage_is("80030010" + whole[8:], "80030000", [0, 7, 1, 7])
        self.salvage_is("80030010" + whole[8:26], "80030000", [0, 7, 1, 6], "wrong_length")
        self.salvage_is("80000017" + whole[8:26] + "0f", "80000000", [0, 7, 1, 7], "spare", "pad")
        self.salvage_is("80040010" + "0000004006" + "0030000004", one, [1, 23])  # 0 1 3 and 3 0 1
        self.salvage_is("80040010" + "0008004006" + "001001000c", "80040008" + "0008008006", [0, 8])  # 1 1 3 and 1 2 3
        self.salvage_is("80040018" + whole[8:], whole, [2, 6], "wrong_length")  # a third cell that is not there
        self.salvage_is("80040008" + whole[8:], one, [], "wrong_length")  # a second cell that the head does not have; the bit behind the first is 0
        self.salvage_is("80040008" + "0000004007", one, [], "pad")
        intervals = [[0, 1], [1, 0], [2, 2], [3, 3], [3, 0], [0, 3], [2, 2], [1, 2], [2, 1]]
        self.salvage_is(rules.file_bytes(1, 3, intervals).hex(), "40030010" + "00000040020020", [1, 23, 2, 8, 3, 7, 4, 7, 5, 7, 6, 8, 8, 23])
        self.salvage_is("c0040008" + "00180040000020", "c0040008" + "00180040000020", [])  # 3 1 0 2, and the order stays
        self.salvage_is("c0040008" + "0018004000002f", "c0040008" + "00180040000020", [], "pad")
        self.salvage_is("c0040008" + "001800400000", "c0040000", [0, 6], "wrong_length")
        for head in ("40000000", "80280000", "e0000000"):
            self.salvage_is(head, head, [])
            self.salvage_is(head[:7] + "5", head, [], "spare")
            self.salvage_is(head + "ff", head, [], "wrong_length")
        self.salvage_is("a0008000", "a0000000", [x for c in range(4096) for x in (c, 6)], "wrong_length")

    def salvages_cut(self):
        """Five cells of each dimension, the third like the first, cut at every place, and with up to three bytes more: as many cells are whole as their bits have room."""
        for D in (1, 2, 3):
            cells = [[5, 1, 2, 3][:D + 1], [0, 1, 5, 4][:D + 1], [3, 2, 1, 5][3 - D:], [6, 0, 3, 2][:D + 1], [7, 6, 5, 4][:D + 1]]
            right = rules.file_bytes(D, 8, cells)
            for data in (right, bytes(right[:3] + b"\x2f" + right[4:-1] + bytes([right[-1] | (1 << -65 * (D + 1) % 8) - 1]))):
                for length in range(4, len(data) + 4):
                    there = min(5, (8 * length - 32) // (13 * (D + 1)))
                    listed = [x for c in range(5) if c == 2 or c >= there for x in (c, 6 if c >= there else 23)]
                    saved = rules.file_bytes(D, 8, [cells[c] for c in range(there) if c != 2])
                    flags = [data != right and "spare", data != right and length >= len(data) and "pad", length != len(data) and "wrong_length"]
                    self.salvage_is((data + b"\xff\x00\x80")[:length].hex(), saved.hex(), listed, *flags)

    def salvages_refused(self, t):
        """Each refusal and what it goes before; the lengths that are just too short, and 18 before 21."""
        def number(data, size, places):
            return self.salvage(data, *self.lent_for(data, size, places))[0]

        for size in (0, 4, 20):
            for places in (0, 4, 20):
                for length in range(4):
                    self.demand("%d bytes" % length, [number(file[:length], size, places) for file in (t, b"\0" * 4, b"\xff" * 4)], [1] * 3)
                for head, wanted in (("00000000", 2), ("3fffffff", 2), ("60010000", 3), ("7fffffff", 3), ("60000000", 0), ("40008008", 4), ("6000ffff", 4), ("c0048017", 4)):
                    file = bytes.fromhex(head) + t[4:]
                    self.demand("head %s" % head, number(file, size, places), wanted or (0 if size >= 4 else 18))
        for size in range(18):
            for places in range(8):
                for data, need in ((t, 14), (t[:13], 9), (t[:8], 4), (t + b"\xff", 14), (b"\x80\x01" + t[2:], 4)):
                    self.demand("%d bytes, %d places" % (size, places), number(data, size, places), 18 if size < need else 21 if places < 4 else 0)
        most = bytes.fromhex("a0008000")
        self.demand("4,096 cells that are not there", [number(most, 4, 8192), number(most, 4, 8191), number(most, 3, 8191), number(most, 3, 8192), number(most, 4, 0)], [0, 21, 18, 18, 21])

    def sheet_is(self, across, rim, vertices, edges):
        """The sheet, with the room that it needs and with more, gives these cells across, this rim and these maps; -1 stands for no cell across."""
        rim = bytes.fromhex(rim)
        said, across = (len(rim), len(vertices), len(edges)), [rules.NONE_ACROSS if cell < 0 else cell for cell in across]
        for more in ((0, 0, 0), (1, 0, 0), (0, 1, 0), (0, 0, 1), (30, 7, 9)):
            sizes = [size + extra for size, extra in zip(said, more)]
            self.demand("the sheet", self.sheet(*self.places_for(len(across), *sizes)), (0, said, across, rim, vertices, edges))

    def laid_out(self, points, cells):
        """A book of triangles that calls alone have written, with what the sheet needs."""
        self.use([7] * 300)
        self.demand("a file and 1→2", [self.load(rules.file_bytes(2, points, cells)), self.relation("ask", 1, 2)], [0, 0])

    def sheets(self):
        """T; three triangles around vertex 0, which is not at the rim; two that touch in vertex 2; a closed surface; one triangle; nothing at all. Edges are numbered cell by
        cell, and the bytes of the rims are worked out by hand."""
        self.laid_out(4, [[0, 1, 3], [1, 2, 3]])
        self.sheet_is([-1, -1, 1, 0, -1, -1], "40040020" + "00000040000030008008004003", [0, 1, 2, 3], [0, 1, 3, 4])  # 0 1, 0 3, 1 2, 2 3
        self.laid_out(4, [[2, 1, 0], [0, 2, 3], [3, 0, 1]])
        self.demand("the edges of each cell", self.rows_of(2, 1), [[0, 1, 2], [1, 3, 4], [0, 3, 5]])
        self.sheet_is([2, 1, -1, 0, 2, -1, 0, 1, -1], "40030018" + "00000040020020000008", [1, 2, 3], [2, 4, 5])  # 1 2, 2 3, 1 3, which are 0 1, 1 2, 0 2
        self.laid_out(5, [[4, 2, 3], [0, 1, 2]])
        self.sheet_is([-1] * 6, "40050030" + "001000c004004001801000000100000080020020", [0, 1, 2, 3, 4], [0, 1, 2, 3, 4, 5])  # 2 3, 2 4, 3 4, 0 1, 0 2, 1 2
        self.laid_out(4, [[0, 1, 2], [0, 1, 3], [0, 2, 3], [1, 2, 3]])
        self.sheet_is([1, 2, 3, 0, 2, 3, 0, 1, 3, 0, 1, 2], "40000000", [], [])
        self.laid_out(3, [[2, 0, 1]])
        self.sheet_is([-1] * 3, "40030018" + "00000040000020008008", [0, 1, 2], [0, 1, 2])  # 0 1, 0 2, 1 2
        self.laid_out(0, [])
        self.sheet_is([], "40000000", [], [])
        with open(os.path.join(TOP, "examples", "dam.day"), "rb") as file:
            self.use([7] * 80000)
            self.demand("the dam", [self.load(file.read()), self.relation("ask", 1, 2)], [0, 0])
        self.demand("the rim of the dam", self.sheet(*self.places_for(3 * 3683, 755, 231, 231))[:2], (0, (755, 231, 231)))

    def lying(self, points=4, more=(), **changed):
        """T with so many points, with an edge more or none, given by its vertices and its cells, and with other rows: each is named as in edge_ends, and has its number and its indices."""
        names = {"edge_ends": (1, 0), "edge_cells": (1, 2), "cells": (2, 0), "cell_edges": (2, 1)}
        rows = {(1, 0): [[0, 1], [0, 3], [1, 3], [1, 2], [2, 3]], (1, 2): [[0], [0], [0, 1], [1], [1]], (2, 0): [[0, 1, 3], [1, 2, 3]], (2, 1): [[0, 1, 2], [2, 3, 4]]}
        for ends, cells in more:
            rows[1, 0].append(ends)
            rows[1, 2].append(cells)
        for name, changes in changed.items():
            for at, row in changes.items():
                rows[names[name]][at] = row
        self.use(meshes.assembled(2, {0: points, 1: len(rows[1, 0]), 2: 2}, rows, 0))

    def sheets_that_lie(self):
        """T with an edge that lists a cell too many, which has not that edge; with two edges that have the same vertices, so that no load takes its rim; and with an edge more, which no cell
        has."""
        self.lying()
        self.sheet_is([-1, -1, 1, 0, -1, -1], "40040020" + "00000040000030008008004003", [0, 1, 2, 3], [0, 1, 3, 4])
        self.lying(edge_cells={0: [0, 1]})
        self.sheet_is([1, -1, 1, 0, -1, -1], "40040018" + "000000c002002001000c", [0, 1, 2, 3], [1, 3, 4])  # 0 3, 1 2, 2 3
        twice = "40040020" + "00000040000010008008004003"  # 0 1, 0 1, 1 2, 2 3
        self.lying(edge_ends={1: [0, 1]})
        self.sheet_is([-1, -1, 1, 0, -1, -1], twice, [0, 1, 2, 3], [0, 1, 3, 4])
        self.use([7] * 60)
        self.demand("an edge twice", self.load(bytes.fromhex(twice)), 23)
        self.lying(more=[([0, 2], [1])])
        self.sheet_is([-1, -1, 1, 0, -1, -1], "40040028" + "00000040000030008008004003" + "00000080", [0, 1, 2, 3], [0, 1, 3, 4, 5])

    def no_sheets(self):
        """Why a book is no sheet, with the lowest that makes it none: intervals and tetrahedra, with all relations and without; vertices that no cell has; an edge in three cells; and lying
        books, also where more than one thing is wrong."""
        def why():
            given = [self.sheet(*self.places_for(*sizes)) for sizes in ((6, 17, 4, 4), (0, 0, 0, 0), (7, 60, 60, 60))]
            self.demand("always the same", given, given[:1] * 3)
            return given[0]

        for mesh in ((1, 2, [[0, 1]]), (3, 4, [[3, 1, 0, 2]]), (1, 0, []), (3, 3, [])):
            self.use([7] * 300)
            self.load(rules.file_bytes(*mesh))
            self.demand("no relation held", why(), (28, (1, None)))
            for d in range(mesh[0] + 1):
                for e in range(mesh[0] + 1):
                    self.demand("ask", self.relation("ask", d, e), 0)
            self.demand("all relations held", why(), (28, (1, None)))
        for points, cells, wanted in ((44, [[0, 1, 3], [1, 2, 3]], (2, 4)), (44, [[40, 41, 43], [41, 42, 43]], (2, 0)), (4, [[0, 1, 3]], (2, 2)), (1, [], (2, 0)),
                                      (5, [[0, 1, 2], [3, 1, 0], [4, 0, 1]], (3, 0)), (5, [[2, 3, 4], [3, 4, 1], [0, 3, 4]], (3, 2)), (6, [[2, 3, 4], [3, 4, 1], [0, 3, 4]], (2, 5))):
            self.laid_out(points, cells)
            self.demand("%d points, cells %s" % (points, cells), why(), (28, wanted))
        for changes, wanted in (({"points": 5}, (2, 4)), ({"points": 5, "cells": {0: [0, 1, 4], 1: [1, 2, 4]}}, (2, 3)), ({"points": 8192, "cells": {0: [1, 3, 4]}, "edge_cells": {0: []}}, (2, 0)),
                                ({"edge_cells": {3: []}}, (3, 3)), ({"edge_cells": {3: [], 4: [], 1: []}}, (3, 1)), ({"edge_cells": {4: []}, "cell_edges": {0: [0, 1]}}, (3, 4)),
                                ({"cell_edges": {0: [0, 1]}}, (4, 0)), ({"cell_edges": {1: [2, 3]}}, (4, 1)), ({"cell_edges": {0: [], 1: []}}, (4, 0)),
                                ({"more": [([0, 2], [0])], "cell_edges": {0: [0, 1, 2, 5]}}, (4, 0)), ({"cell_edges": {1: [0, 3, 4]}}, (4, 1)), ({"cell_edges": {1: [1, 2, 3, 4]}}, (4, 1)),
                                ({"cell_edges": {0: [0, 1, 3]}}, (4, 0)), ({"edge_cells": {0: [1]}}, (4, 0)), ({"edge_cells": {4: [0]}}, (4, 1)), ({"edge_cells": {2: [0]}}, (4, 1))):
            self.lying(**changes)
            self.demand("T with %s" % changes, why(), (28, wanted))

    def sheets_refused(self, t):
        """Each other refusal and what it goes before: T needs 6 places, 17 bytes, 4 places and 4; a relation that is missing, also where a vertex lies in no cell; a broken book."""
        self.laid_out(4, [[0, 1, 3], [1, 2, 3]])
        for sizes in itertools.product((5, 6, 7), (16, 17, 18), (3, 4, 5), (3, 4, 5)):
            wanted = 18 if sizes[1] < 17 else 21 if sizes[0] != 6 or sizes[2] < 4 or sizes[3] < 4 else 0
            self.demand("lengths %s" % (sizes,), self.sheet(*self.places_for(*sizes))[0], wanted)
        for sizes in ((0, 17, 4, 4), (6, 0, 4, 4), (6, 17, 0, 4), (6, 17, 4, 0), (3, 17, 4, 4), (12, 17, 4, 4), (6, 3, 0, 0), (6, 8192, 8192, 8192)):
            self.demand("lengths %s" % (sizes,), self.sheet(*self.places_for(*sizes))[0], 18 if sizes[1] < 17 else 0 if sizes[3] > 4 else 21)
        for points in (4, 5):
            for missing in ((1, 0), (2, 1), (1, 2)):
                self.laid_out(points, [[0, 1, 3], [1, 2, 3]])
                self.demand("%d→%d dropped" % missing, self.relation("drop", *missing), 0)
                for sizes in ((6, 17, 4, 4), (0, 0, 0, 0)):
                    self.demand("and missing", self.sheet(*self.places_for(*sizes)), (15, None))
                self.demand("and made again", [self.relation("ask", *missing), self.relation("drop", 0, 1)], [0, 0])
                self.demand("with 0→1 dropped", self.sheet(*self.places_for(6, 17, 4, 4))[0], 0 if points == 4 else 28)
        self.use([7] * 60)
        self.load(t)
        self.demand("cells alone", self.sheet(*self.places_for(6, 17, 4, 4)), (15, None))
        right = list(self.book)
        for broken, number in (([0] + right[1:], 10), ([], 10), (right[:-1] + [9], 11), ([0x40020008, 16, 0, 0, 9, 0, 2, 0, 0], 11), ([0xC0000000, 1 << 12, 0, 0, 6, 0, 1], 11)):
            self.use(broken)
            for sizes in ((6, 17, 4, 4), (0, 0, 0, 0)):
                self.demand("a broken book", self.sheet(*self.places_for(*sizes)), (number, None))

    def plain_rows(self, d, e, count):
        """The rows of d→e as plain answers give them, where there are so many j: in each all that get a yes. One past the last j is 19, and one past the last i is 17 whatever j is."""
        rows = []
        while self.plain(d, e, len(rows), count)[0] == 19:
            given = [self.plain(d, e, len(rows), j) for j in range(count)]
            self.demand("accepted, %d→%d" % (d, e), [number for number, _ in given], [0] * count)
            rows.append([j for j, (_, yes) in enumerate(given) if yes])
        self.demand("one past the last of %d→%d" % (d, e), [self.plain(d, e, len(rows), j) for j in (0, count)], [(17, False)] * 2)
        return rows

    def plains(self, t):
        """T has the paper's rows, whatever is held: the cells alone, in 14 words; all nine relations; and what drops leave of them."""
        rows = {(0, 0): [[1, 3], [0, 2, 3], [1, 3], [0, 1, 2]], (0, 1): [[0, 1], [0, 2, 3], [3, 4], [1, 2, 4]], (0, 2): [[0], [0, 1], [1], [0, 1]],
                (1, 0): [[0, 1], [0, 3], [1, 3], [1, 2], [2, 3]], (1, 1): [[1, 2, 3], [0, 2, 4], [0, 1, 3, 4], [0, 2, 4], [1, 2, 3]], (1, 2): [[0], [0], [0, 1], [1], [1]],
                (2, 0): [[0, 1, 3], [1, 2, 3]], (2, 1): [[0, 1, 2], [2, 3, 4]], (2, 2): [[1], [0]]}
        self.use([7] * 14)
        self.load(t)
        for state in ("the cells alone", "all nine", "drops"):
            for (d, e), wanted in rows.items():
                self.demand("%d→%d with %s" % (d, e, state), self.plain_rows(d, e, (4, 5, 2)[e]), wanted)
            if state == "the cells alone":
                self.nine(t)
            elif state == "all nine":
                self.demand("drops", [self.relation("drop", d, e) for d, e in ((1, 0), (0, 2), (1, 2), (0, 0))], [0] * 4)

    def plains_of_others(self):
        """Two tetrahedra that share the face 1 2 3, and a point that neither has; five triangles around vertex 0, the last of which has the first edge of all; an interval; and no cells. Edges and
        faces are numbered cell by cell, and the rows are worked out by hand."""
        self.use([7] * 16)
        self.load(rules.file_bytes(3, 6, [[3, 1, 0, 2], [4, 2, 3, 1]]))
        # Faces 012 013 023 123, 124 134 234; edges 01 02 03 12 13 23, 14 24 34.
        for d, e, count, wanted in (
                (3, 2, 7, [[0, 1, 2, 3], [3, 4, 5, 6]]), (3, 1, 9, [[0, 1, 2, 3, 4, 5], [3, 4, 5, 6, 7, 8]]), (3, 3, 2, [[1], [0]]),
                (2, 3, 2, [[0], [0], [0], [0, 1], [1], [1], [1]]), (1, 3, 2, [[0], [0], [0], [0, 1], [0, 1], [0, 1], [1], [1], [1]]), (0, 3, 2, [[0], [0, 1], [0, 1], [0, 1], [1], []]),
                (2, 1, 9, [[0, 1, 3], [0, 2, 4], [1, 2, 5], [3, 4, 5], [3, 6, 7], [4, 6, 8], [5, 7, 8]]), (2, 0, 6, [[0, 1, 2], [0, 1, 3], [0, 2, 3], [1, 2, 3], [1, 2, 4], [1, 3, 4], [2, 3, 4]]),
                (1, 2, 7, [[0, 1], [0, 2], [1, 2], [0, 3, 4], [1, 3, 5], [2, 3, 6], [4, 5], [4, 6], [5, 6]]), (0, 2, 7, [[0, 1, 2], [0, 1, 3, 4, 5], [0, 2, 3, 4, 6], [1, 2, 3, 5, 6], [4, 5, 6], []]),
                (2, 2, 7, [[k for k in range(7) if k != i] for i in range(7)]), (0, 0, 6, [[1, 2, 3], [0, 2, 3, 4], [0, 1, 3, 4], [0, 1, 2, 4], [1, 2, 3], []]),
                (1, 1, 9, [[1, 2, 3, 4, 6], [0, 2, 3, 5, 7], [0, 1, 4, 5, 8], [0, 1, 4, 5, 6, 7], [0, 2, 3, 5, 6, 8], [1, 2, 3, 4, 7, 8], [0, 3, 4, 7, 8], [1, 3, 5, 6, 8], [2, 4, 5, 6, 7]])):
            self.demand("%d→%d of two tetrahedra" % (d, e), self.plain_rows(d, e, count), wanted)
        self.use([7] * 26)
        self.load(rules.file_bytes(2, 6, [[0, 1, 2], [2, 0, 3], [3, 4, 0], [5, 0, 4], [1, 5, 0]]))
        # Edges 01 02 12, 03 23, 04 34, 05 45, 15.
        self.demand("2→1 of a wheel", self.plain_rows(2, 1, 10), [[0, 1, 2], [1, 3, 4], [3, 5, 6], [5, 7, 8], [0, 7, 9]])
        self.use([7] * 9)
        self.load(rules.file_bytes(1, 3, [[2, 0]]))
        for d, e, count, wanted in ((0, 0, 3, [[2], [], [0]]), (0, 1, 1, [[0], [], [0]]), (1, 0, 3, [[0, 2]]), (1, 1, 1, [[]])):
            self.demand("%d→%d of an interval" % (d, e), self.plain_rows(d, e, count), wanted)
        for D in (1, 2, 3):
            self.use([7] * 6)
            self.load(rules.file_bytes(D, 2, []))
            self.demand("two points and no cells", self.plain_rows(0, 0, 2), [[], []])
            for d in range(1, D + 1):
                self.demand("nothing but points", [self.plain(d, 0, 0, 0)[0], self.plain(0, d, 0, 0)[0], self.plain(d, d, 0, 0)[0], self.plain(0, d, 2, 0)[0]], [17, 19, 17, 17])

    def plains_that_lie(self):
        """T in books whose other relations name other vertices, edges and cells, and with N_1 less or more than the cells have: the answers are T's all the same."""
        edges = [[0, 1, 2], [2, 3, 4]], [[0], [0], [0, 1], [1], [1]]
        for changes in ({}, {"edge_ends": {0: [2, 3], 4: [0, 1]}}, {"edge_cells": {0: [1], 2: []}, "cell_edges": {0: [3, 4], 1: [0]}}, {"more": [([0, 2], [1])]}):
            self.lying(**changes)
            self.demand("T with %s" % changes, (self.plain_rows(2, 1, 5), self.plain_rows(1, 2, 2), self.plain_rows(1, 0, 4)[4]), edges + ([2, 3],))
        self.demand("edge 5 of six is found", (self.find(1, 2, 5, 1), self.plain(1, 2, 5, 1), self.find(2, 1, 0, 5), self.plain(2, 1, 0, 5)),
                    ((0, True, 1), (17, False), (0, False, 3), (19, False)))
        for kept in (0, 4, 6):
            rows = {(0, 1): [[]] * 4, (2, 0): [[0, 1, 3], [1, 2, 3]]}
            self.use(meshes.assembled(2, {0: 4, 1: kept, 2: 2}, rows, 0))
            self.demand("T with N_1 = %d" % kept, (self.plain_rows(0, 1, 5), self.plain_rows(2, 1, 5)), ([[0, 1], [0, 2, 3], [3, 4], [1, 2, 4]], edges[0]))
        self.lying(cells={0: [0, 2, 3]})
        self.demand("other cells, other edges: 02 03 23, 12 13", (self.plain_rows(2, 1, 5), self.plain_rows(1, 0, 4)), ([[0, 1, 2], [2, 3, 4]], [[0, 2], [0, 3], [2, 3], [1, 2], [1, 3]]))

    def plains_refused(self, t):
        """Each refusal and what it goes before; numbers and dimensions just over and far over."""
        self.use([7] * 16)
        self.load(t)
        right, far = list(self.book), 0xFFFFFFFF
        for d, e, i, j, number in ((3, 0, 0, 0, 12), (0, 3, 0, 0, 12), (3, 3, 9, 9, 12), (far, 0, 0, 0, 12), (0, far, 0, 0, 12), (4, 1, far, far, 12), (2, 4, 2, 0, 12), (1 << 16, 0, 0, 0, 12), (0, 1 << 31, 0, 0, 12),
                                   (0, 2, 4, 0, 17), (1, 0, 5, 0, 17), (2, 1, 2, 0, 17), (0, 2, 4, 2, 17), (1, 1, 5, 5, 17), (2, 2, far, far, 17), (0, 0, far, 0, 17), (1, 0, 1 << 31, 0, 17), (2, 0, 1 << 16, 0, 17),
                                   (0, 2, 3, 2, 19), (1, 0, 4, 4, 19), (2, 1, 1, 5, 19), (1, 1, 0, far, 19), (0, 0, 0, 4, 19), (2, 0, 0, 1 << 31, 19), (2, 2, 1, 1 << 16, 19), (0, 2, 3, 1, 0), (1, 0, 4, 3, 0), (2, 1, 1, 4, 0)):
            self.demand("(%d, %d) at (%d, %d)" % (e, j, d, i), self.plain(d, e, i, j)[0], number)
        for broken, number in (([0] + right[1:], 10), ([], 10), (right[:4], 10), (right[:3] + [1] + right[4:], 10), (right[:-1] + [9], 11), (right[:8] + [0, 0] + right[10:], 11),
                               ([0x40020008, 16, 0, 0, 9, 0, 2, 0, 0], 11), ([0xC0000000, 1 << 12, 0, 0, 6, 0, 1], 11)):
            self.use(broken)
            for d, e, i, j in ((2, 0, 0, 0), (9, 9, 9, 9), (0, 0, far, far), (0, 1, 0, far)):
                self.demand("a broken book", self.plain(d, e, i, j), (number, False))

    def run(self, full):
        self.examples()
        if full:
            self.full_size()
        self.count_kinds()
        while self.left > 0:
            self.sequences += 1
            way = self.rng.random()
            if way < 0.175:
                self.true_run()
            elif way < 0.3:
                self.strange_run()
            elif way < 0.37:
                self.phase_run()
            elif way < 0.42:
                self.points_run()
            elif way < 0.46:
                self.order_run()
            elif way < 0.57:
                self.room_run()
            elif way < 0.65:
                self.box_run()
            elif way < 0.71:
                self.salvage_run()
            elif way < 0.782:
                self.plain_run()
            elif way < 0.903:
                self.sheet_run()
            elif way < 0.918:
                self.rim_run()
            else:
                self.broken_run()


def main():
    words = argparse.ArgumentParser(description=__doc__, formatter_class=argparse.RawDescriptionHelpFormatter)
    words.add_argument("--calls", type=int, default=20000)
    words.add_argument("--seed", type=int, default=1)
    words.add_argument("--full", action="store_true")
    given = words.parse_args()
    runs = Runs(given.seed, Library(built()), given.calls)
    runs.run(given.full)
    for name, row in runs.table.items():
        print("%-12s %s" % (name, "  ".join("%d: %d" % (n, row[n]) for n in sorted(row))))
    least = 100 if given.calls >= 200000 else 1 if given.calls >= 20000 else 0
    for name, row in runs.kinds.items() if runs.sequences else ():
        print("%-12s %s" % (name, "  ".join("%s: %d" % kind for kind in row.items())))
        for kind, met in row.items():
            if met < least:
                raise SystemExit("%s: '%s' was met %d times, and has to be met %d times" % (name, kind, met, least))
    print("compare: %d calls in %d sequences agree, seed %d" % (runs.made, runs.sequences, given.seed))


if __name__ == "__main__":
    main()
