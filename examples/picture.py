"""A mesh as an SVG picture, its edges coloured by how many cells they touch and, where there are counts, its triangles by their closure;
some cells may be framed, those that a whole mesh has besides may be shown as missing, and the rim of a sheet may be marked."""

import math
from xml.sax.saxutils import escape

import layout
import reference as rules
import shapes

KINDS = ("one", "two", "more")
COLOURS = {"one": "#d4570a", "two": "#5a7891", "more": "#7b2d9c"}
WORDS = {"one": ("border, ", "1 cell"), "two": ("inside, ", "2 cells"), "more": ("branching, ", "3 or more cells")}
INK, CELL, PAPER, FRAME, MISSING, RIM = "#22303c", "#e6eef5", "#ffffff", "#0b7a4b", "#c4cad0", "#ffc22e"
FACES = {-1: "minus", 0: "cells", 1: "plus", 2: "masked"}
FILLS = {-1: "#0a62d0", 0: CELL, 1: "#d0104c", 2: "#b4bac0"}
SIGNS = {-1: "−1", 0: "0", 1: "+1"}
HALO = ' font-weight="bold" stroke="%s" stroke-width="3" paint-order="stroke"' % PAPER
FONT = "DejaVu Sans, Verdana, Helvetica, Arial, sans-serif"


def edges_of(D, cells):
    """(edge, number of cells that it touches), in the library's order; for D = 1 the cells are the edges."""
    touched = {}
    for cell in cells:
        for a, b in rules.choose(2, sorted(cell)):
            touched[a, b] = touched.get((a, b), 0) + 1
    if D == 1:
        return [(edge, touched[edge]) for edge in (tuple(sorted(cell)) for cell in cells)]
    return list(touched.items())


def kind_of(count):
    return KINDS[min(count, 3) - 1]


def number_of(count, what):
    return "%d %s%s" % (count, what, "" if count == 1 else "s")


def closures_of(cells, counts):
    """The closure of each triangle, all 0 where there are no counts."""
    return [0 if counts is None else rules.closure(*[counts[v] for v in sorted(cell)]) for cell in cells]


def middle(corners):
    return sum(x for x, _ in corners) / 3, sum(y for _, y in corners) / 3


def pieces_of(rim):
    """How many pieces these edges are, where those with a common vertex hang together."""
    at = {}
    for edge in rim:
        for v in edge:
            at.setdefault(v, []).append(edge)
    left, pieces = set(rim), 0
    while left:
        pieces, edges = pieces + 1, [left.pop()]
        while edges:
            beside = left.intersection(edge for v in edges.pop() for edge in at[v])
            left -= beside
            edges += beside
    return pieces


def spread(mesh, edges):
    """Places for a mesh without coordinates. One that cannot lie flat is given depth."""
    flat = mesh[0] < 3 and all(count < 3 for _, count in edges)
    return layout.spread(mesh[1], [edge for edge, _ in edges], 2 if flat else 3)


class Picture:
    """The lines of the picture so far. The edges of one colour are one path, and so are the cells, to keep it short."""

    def __init__(self, name, mesh, places, counts, whole, rim):
        self.D, self.points, self.cells = mesh
        self.rim = rim
        self.edges = edges_of(self.D, self.cells)
        self.closures, self.counted = closures_of(self.cells, counts), counts is not None
        have = set(map(frozenset, self.cells))
        self.missing = None if whole is None else [cell for cell in whole[2] if frozenset(cell) not in have]
        self.fit(spread(mesh, edges_of(self.D, self.cells + (self.missing or []))) if places is None else places)
        title = "%s: D = %d, N₀ = %d, N₁ = %d" % (name, self.D, self.points, len(self.edges))
        if self.D > 1:
            title += ", N%s = %d" % ("₂₃"[self.D - 2], len(self.cells))
        size = (self.width, self.height)
        self.out = ['<svg xmlns="http://www.w3.org/2000/svg" width="%d" height="%d" viewBox="0 0 %d %d">' % (size + size),
                    "<title>%s</title>" % escape(title),
                    '<rect width="100%%" height="100%%" fill="%s"/>' % PAPER,
                    '<g font-family="%s" text-anchor="middle" stroke-linecap="round" stroke-linejoin="round" fill="none">' % FONT]
        self.text(self.width / 2, 32, title, 19, INK)

    def fit(self, places):
        """The vertices' places on the paper."""
        xs, ys = [[p[k] for p in places] or [0] for k in (0, 1)]
        left, top, wide, high = min(xs), max(ys), max(xs) - min(xs), max(ys) - min(ys)
        tall = 560 if self.D == 3 else 400
        scale = min((room / size for room, size in ((900, wide), (tall, high)) if size > 0), default=1)
        self.width, self.height = max(700, round(wide * scale) + 60), round(high * scale) + 142 + 26 * (self.counted + (self.missing is not None) + (self.rim is not None))
        aside = (self.width - wide * scale) / 2
        self.at = [(aside + scale * (x - left), 70 + scale * (top - y)) for x, y in places]
        self.lengths = [math.dist(self.at[a], self.at[b]) for (a, b), _ in self.edges]

    def line(self, corners):
        return "M" + "L".join("%.1f %.1f" % self.at[v] for v in corners)

    def path(self, name, lines, style):
        self.out.append('<path id="%s" %s d="%s"/>' % (name, style, "".join(lines)))

    def text(self, x, y, words, size, colour, more=""):
        self.out.append('<text x="%.1f" y="%.1f" dy="0.36em" font-size="%.3g" fill="%s"%s>%s</text>'
                        % (x, y, size, colour, more, escape(str(words))))

    def disc(self, x, y, number, fill, colour, ring):
        self.out.append('<circle cx="%.1f" cy="%.1f" r="11.5" fill="%s" stroke="%s" stroke-width="1.2"/>' % (x, y, fill, ring))
        self.text(x, y, number, 12, colour)

    def draw_cells(self):
        lines = {closure: [] for closure in FACES}
        for cell, closure in zip(self.cells, self.closures):
            same_way = shapes.turn(*[self.at[v] for v in cell]) >= 0  # else cells that overlap would cancel
            lines[closure].append(self.line(cell if same_way else cell[::-1]) + "Z")
        for closure in FACES if self.counted else (0,):
            self.path(FACES[closure], lines[closure], 'fill="%s"' % FILLS[closure])

    def draw_edges(self):
        thin = min(2, max(0.6, sum(self.lengths) / max(1, len(self.lengths)) / 16))
        widths = {"more": 0.4, "two": 0.7, "one": 1.2} if self.D == 3 else {"two": 1, "one": 2, "more": 3}
        for kind, wide in widths.items():
            lines = [self.line(edge) for edge, count in self.edges if kind_of(count) == kind]
            self.path(kind, lines, 'stroke="%s" stroke-width="%.2f"' % (COLOURS[kind], thin * wide))

    def number_cells(self):
        """Where the number has room in the circle that touches the three sides."""
        digits = len(str(len(self.cells)))
        for c, cell in enumerate(self.cells):
            corners = [self.at[v] for v in cell]
            around = sum(math.dist(p, q) for p, q in zip(corners, corners[1:] + corners[:1]))
            radius = abs(shapes.turn(*corners)) / around if around else 0
            size = min(28, radius / math.hypot(0.32 * digits, 0.37))
            if size > 7:
                self.text(*middle(corners), c, size, PAPER if self.closures[c] in (-1, 1) else INK)

    def ring_residues(self):
        """A ring around each small triangle that does not close, and its closure above; where these are many, the colours do."""
        residues = [(cell, closure) for cell, closure in zip(self.cells, self.closures) if closure in (-1, 1)]
        for cell, closure in residues if len(residues) <= 60 else []:
            corners = [self.at[v] for v in cell]
            x, y = middle(corners)
            radius = max(12, 3 + max(math.dist((x, y), corner) for corner in corners))
            if radius < 24:
                self.out.append('<circle class="%s" cx="%.1f" cy="%.1f" r="%.1f" stroke="%s" stroke-width="2.4"/>'
                                % (FACES[closure], x, y, radius, FILLS[closure]))
                self.text(x, y - radius - 9, SIGNS[closure], 13, FILLS[closure], HALO)

    def number_edges(self):
        for i, (((a, b), count), length) in enumerate(zip(self.edges, self.lengths)):
            if length > 60:
                colour = COLOURS[kind_of(count)]
                self.disc((self.at[a][0] + self.at[b][0]) / 2, (self.at[a][1] + self.at[b][1]) / 2, i, PAPER, colour, colour)

    def number_vertices(self):
        near = [math.inf] * self.points
        for (edge, _), length in zip(self.edges, self.lengths):
            for v in edge:
                near[v] = min(near[v], length)
        for v, (x, y) in enumerate(self.at):
            if near[v] > 60:
                self.disc(x, y, v, INK, PAPER, INK)

    def draw_missing(self):
        """The edges of the cells that are missing, but for those that a cell here has too."""
        have = {edge for edge, _ in self.edges}
        lines = [self.line(edge) for edge, _ in edges_of(self.D, self.missing) if edge not in have]
        self.path("missing", lines, 'stroke="%s" stroke-width="0.5"' % MISSING)

    def draw_rim(self):
        """A broad line along the rim, below the edges."""
        self.path("rim", [self.line(edge) for edge in self.rim], 'stroke="%s" stroke-width="7"' % RIM)

    def draw_alone(self):
        """The vertices that no cell uses, also none that is missing, as dots."""
        unused = sorted(set(range(self.points)) - {v for cell in self.cells + (self.missing or []) for v in cell})
        self.path("alone", [self.line([v]) + "h0" for v in unused], 'stroke="%s" stroke-width="3"' % INK)

    def frame(self, name, vertices):
        """The upright box of these vertices. The paper's y runs down, so its least is the top."""
        left, right, top, bottom = rules.ends(vertices, [x for place in self.at for x in place], 2)[:4]
        self.out.append('<rect class="%s" x="%.1f" y="%.1f" width="%.1f" height="%.1f" stroke="%s" stroke-width="1.6"/>'
                        % (name, left, top, right - left, bottom - top, FRAME))

    def draw_boxes(self, boxes):
        """Frames of the whole mesh and of these cells."""
        if boxes:
            self.frame("mesh", sorted({v for cell in self.cells for v in cell}))
        for cell in boxes:
            self.frame("cell%d" % cell, sorted(self.cells[cell]))

    def legend_row(self, y, wide, marks):
        """A row of marks, each a style, a shape of that width and the words behind it."""
        x = (self.width + 24 - sum(wide + 33 + 6.2 * len(words) for _, _, words in marks)) / 2
        for style, shape, words in marks:
            self.out.append('<path %s d="M%.1f %d%s"/>' % (style, x, y, shape))
            self.text(x + wide + 9, y, words, 12.5, INK, ' text-anchor="start"')
            x += wide + 33 + 6.2 * len(words)

    def legend_of_faces(self):
        marks = []
        for closure in FACES:
            words = "closure " + SIGNS[closure] if closure in SIGNS else "masked"
            style = 'fill="%s" stroke="%s" stroke-width="0.6"' % (FILLS[closure], COLOURS["two"])
            marks.append((style, "m0 6h14l-7 -12Z", "%s: %s" % (words, number_of(self.closures.count(closure), "face"))))
        self.legend_row(self.height - 50, 14, marks)

    def legend_of_missing(self):
        words = "missing: %s" % number_of(len(self.missing), "cell")
        self.legend_row(self.height - (76 if self.counted else 50), 22, [('stroke="%s" stroke-width="4"' % MISSING, "h22", words)])

    def legend_of_rim(self):
        """A row for the rim, above those of the closures and of what is missing."""
        words = "rim: %s, %s" % (number_of(len(self.rim), "edge"), number_of(pieces_of(self.rim), "piece"))
        self.legend_row(self.height - 50 - 26 * (self.counted + (self.missing is not None)), 22, [('stroke="%s" stroke-width="7"' % RIM, "h22", words)])

    def legend(self):
        marks = []
        for kind in KINDS:
            place, words = WORDS[kind]
            count = number_of(sum(kind_of(c) == kind for _, c in self.edges), "edge")
            marks.append(('stroke="%s" stroke-width="4"' % COLOURS[kind], "h22", "%s%s: %s" % (place if self.D == 2 else "", words, count)))
        self.legend_row(self.height - 24, 22, marks)


def drawing(name, mesh, places, counts, boxes=(), whole=None, rim=None):
    """The picture's text; places are None where there are no coordinates, and counts where there are no phases; boxes are cells to be framed; whole is the
    mesh that has the cells that are missing, or None; rim has the edges of the rim by their vertices, or is None."""
    picture = Picture(name, mesh, places, counts, whole, rim)
    if picture.D == 2:
        picture.draw_cells()
    if whole is not None:
        picture.draw_missing()
    if rim is not None:
        picture.draw_rim()
    picture.draw_edges()
    picture.draw_alone()
    if picture.D == 2:
        picture.number_cells()
        picture.ring_residues()
    if picture.points <= 60:
        if picture.D < 3:
            picture.number_edges()
        picture.number_vertices()
    picture.draw_boxes(boxes)
    if rim is not None:
        picture.legend_of_rim()
    if picture.missing is not None:
        picture.legend_of_missing()
    if picture.counted:
        picture.legend_of_faces()
    picture.legend()
    return "\n".join(picture.out + ["</g>", "</svg>", ""])
