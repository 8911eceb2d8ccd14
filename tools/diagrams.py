#!/usr/bin/env python3
"""Draws the diagrams of docs/SCHEME.md as SVG: diagrams.py NAME on standard output, where NAME is one of those that --list prints.

New points stand where the rules put them: the rules are computed here, in plain fractions of the drawn places.
"""
import math
import sys

WIDTH, PANEL = 1000, 333
STYLE = """<style>path{stroke-linejoin:round;stroke-linecap:round;fill:none;stroke:#46596a;stroke-width:1.2}
.f{fill:#cfe3f2}.g{fill:#eef3f6;stroke-dasharray:5 4}.b{stroke:#1d2a35;stroke-width:2.6}.l{stroke:#d3182b;stroke-width:1.4;stroke-dasharray:5 4}
text{font:15px sans-serif;fill:#1d2a35}.t{text-anchor:middle}</style>
<defs><circle id="o" r="4" fill="#1d2a35"/><circle id="n" r="5.5" fill="#d3182b"/><circle id="v" r="5" fill="#fff" stroke="#8a1fb0" stroke-width="2.5"/>
<circle id="e" r="4" fill="#e88a1a"/><rect id="c" x="-5" y="-5" width="10" height="10" fill="#fff" stroke="#1d2a35" stroke-width="1.7"/></defs>"""
LEGEND = {"o": "vertex", "c": "vertex with a corner mark", "e": "edge point", "v": "extrapolated or virtual point", "n": "new point"}


def mix(*terms):
    """The sum of points times weights."""
    return tuple(sum(weight * point[axis] for weight, point in terms) for axis in (0, 1))


def interior(p, q, r, s):
    return mix((-1 / 16, p), (9 / 16, q), (9 / 16, r), (-1 / 16, s))


def end(p, q, r):
    return mix((7 / 16, p), (10 / 16, q), (-1 / 16, r))


def middle(p, q):
    return mix((1 / 2, p), (1 / 2, q))


def centroid(points):
    return mix(*((1 / len(points), point) for point in points))


def mirrored(point, others):
    """2 P minus the mean of the others."""
    return mix((2, point), *((-1 / len(others), other) for other in others))


def virtual(spokes, between, j):
    """The virtual point over a ring: spokes l, corners k between l_i and l_(i+1), the edge towards l_j."""
    n = len(spokes)
    near = [(-1, spokes[(j + i) % n]) for i in (-1, 0, 1)] + [(1 / 9, between[(j + i) % n]) for i in (-2, -1, 0, 1)]
    return mix(*((4 / n, spoke) for spoke in spokes), *near, *((-4 / (9 * n), corner) for corner in between))


class Picture:
    """Shapes first, then symbols and words; `move` shifts what comes after it to another panel."""

    def __init__(self, height):
        self.height, self.left, self.shapes, self.symbols, self.words, self.kinds = height, 0, [], [], [], set()

    def move(self, panel):
        self.left = panel * PANEL

    def spot(self, point):
        return f"{point[0] + self.left:.1f} {point[1]:.1f}"

    def path(self, kind, *points, closed=False):
        self.shapes.append(f'<path class="{kind}" d="M{" ".join(map(self.spot, points))}{"z" if closed else ""}"/>')

    def faces(self, *faces, kind="f"):
        for face in faces:
            self.path(kind, *face, closed=True)

    def points(self, kind, *points):
        self.kinds.add(kind)
        for point in points:
            x, y = self.spot(point).split()
            self.symbols.append(f'<use href="#{kind}" x="{x}" y="{y}"/>')

    def word(self, point, text, x=0, y=0):
        self.words.append(f'<text class="t" x="{round(point[0] + self.left + x)}" y="{round(point[1] + y)}">{text}</text>')

    def caption(self, text, line=0):
        self.word((PANEL // 2, self.height - 62 + 22 * line), text)

    def legend(self):
        used = [kind for kind in LEGEND if kind in self.kinds]
        widths = [44 + 8 * len(LEGEND[kind]) for kind in used]
        x = (WIDTH - sum(widths)) // 2 + 14
        for kind, wide in zip(used, widths):
            self.words.append(f'<use href="#{kind}" x="{x}" y="{self.height - 17}"/><text x="{x + 14}" y="{self.height - 12}">{LEGEND[kind]}</text>')
            x += wide

    def svg(self):
        self.legend()
        size = f'width="{WIDTH}" height="{self.height}"'
        head = [f'<svg xmlns="http://www.w3.org/2000/svg" {size} viewBox="0 0 {WIDTH} {self.height}">', STYLE, f'<rect {size} rx="8" fill="#fbfaf6"/>']
        return "".join(line + "\n" for line in [*head, *self.shapes, *self.symbols, *self.words, "</svg>"])


def numbering():
    """One face becomes four."""
    picture = Picture(310)
    corners = [(100, 230), (260, 230), (260, 70), (100, 70)]
    sides = [middle(corners[i], corners[(i + 1) % 4]) for i in range(4)]
    centre = middle(corners[0], corners[2])
    shifts = [(-16, 18), (16, 18), (16, -8), (-16, -8)]
    words = [(0, 22), (34, 5), (0, -12), (-34, 5)]
    for panel in 0, 2:
        picture.move(panel - (panel == 2) * 0.35 + (panel == 0) * 0.35)
        picture.faces(corners)
        picture.points("o", *corners)
        for i, (x, y) in enumerate(shifts):
            picture.word(corners[i], i, x, y)
    picture.move(0.35)
    picture.word(centre, "face f", y=5)
    for i, (x, y) in enumerate(words):
        picture.word(sides[i], f"side {i}", x, y)
    picture.move(1.65)
    picture.path("", sides[0], sides[2])
    picture.path("", sides[1], sides[3])
    picture.points("n", *sides, centre)
    for i, corner in enumerate(corners):
        picture.word(middle(corner, centre), f"4f+{i}" if i else "4f", y=5)
    return picture


def split():
    """A triangle and a pentagon become eight quadrilaterals."""
    picture = Picture(336)
    vertices = [(14, 140), (110, 216), (110, 64), (236, 232), (316, 140), (236, 48)]
    faces = [(0, 1, 2), (1, 3, 4, 5, 2)]
    shifts = [(-14, 18), (-4, 26), (-4, -14), (14, 22), (14, 18), (14, -12)]
    for panel, words in (0.2, "drawn: 3 + 5 sides"), (1.8, "split: 3 + 5 quadrilaterals"):
        picture.move(panel)
        picture.faces(*([vertices[v] for v in face] for face in faces))
        picture.points("o", *vertices)
        picture.caption(words)
    picture.move(0.2)
    for number, (x, y) in enumerate(shifts):
        picture.word(vertices[number], number, x, y)
    for face, name in zip(faces, ("0 1 2", "1 3 4 5 2")):
        picture.word(centroid([vertices[v] for v in face]), name, y=5)
    picture.move(1.8)
    number = 0
    for face in faces:
        corners = [vertices[v] for v in face]
        centre, middles = centroid(corners), [middle(p, q) for p, q in zip(corners, corners[1:] + corners[:1])]
        for i, corner in enumerate(corners):
            picture.path("", middles[i], centre)
            picture.word(centroid([corner, middles[i], centre, middles[i - 1]]), number, y=5)
            number += 1
        picture.points("n", *middles, centre)
    return picture


def boundary():
    """The three rules on the boundary."""
    picture = Picture(260)
    p, q, r, s = (24, 150), (110, 62), (222, 62), (309, 150)
    picture.path("b", p, q, r, s)
    picture.points("o", p, q, r, s)
    picture.points("n", interior(p, q, r, s))
    for point, name, weight, y in (p, "p", "−1", -12), (q, "q", "9", -12), (r, "r", "9", -12), (s, "s", "−1", -12):
        picture.word(point, name, y=y)
        picture.word(point, weight, y=26)
    picture.caption("inside a segment, over 16 at t = 4")
    picture.move(1)
    p, q, r = (40, 150), (150, 72), (290, 108)
    picture.path("b", p, q, r)
    picture.points("c", p)
    picture.points("o", q, r)
    picture.points("n", end(p, q, r))
    for point, name, weight in (p, "p0", "7"), (q, "p1", "10"), (r, "p2", "−1"):
        picture.word(point, name, y=-14)
        picture.word(point, weight, y=26)
    picture.caption("on an end edge, over 16 at t = 4")
    picture.move(2)
    p, q = (70, 140), (264, 84)
    picture.path("b", p, q)
    picture.points("c", p, q)
    picture.points("n", middle(p, q))
    for point in p, q:
        picture.word(point, "1", y=26)
    picture.caption("a segment of one edge, over 2")
    return picture


def extrapolated():
    """P* beyond a boundary vertex: of three faces, and of one."""
    picture = Picture(356)
    picture.move(0.2)
    far, p = [(122, 58), (226, 64)], (176, 160)
    b, c, k = (20, 172), (330, 150), [(14, 78), (172, 20), (318, 62)]
    picture.faces([p, b, k[0], far[0]], [p, far[0], k[1], far[1]], [p, far[1], k[2], c])
    mean, star = middle(*far), mirrored(p, far)
    picture.path("b", b, p, c)
    picture.path("l", mean, star)
    picture.points("o", p, b, c, *far, *k)
    picture.points("v", star)
    picture.points("e", mean)
    for point, word, x, y in (p, "P", 20, 20), (star, "P*", 24, 5), (b, "b", 0, 24), (c, "c", 0, 24), (mean, "mean", -2, -10):
        picture.word(point, word, x, y)
    picture.caption("P in three faces")
    picture.move(1.75)
    p, b, k, c = (150, 158), (262, 146), (250, 52), (140, 62)
    star = mirrored(p, [k])
    picture.faces([p, b, k, c])
    picture.path("b", c, p, b)
    picture.path("l", k, star)
    picture.points("o", b, k, c)
    picture.points("o", p)
    picture.points("v", star)
    for point, word, x, y in (p, "P", 16, 22), (star, "P*", 24, 5), (k, "opposite corner", 0, -14):
        picture.word(point, word, x, y)
    picture.caption("P in one face")
    picture.kinds -= {"e"}
    return picture


def spokes(centre, n, radius, turn):
    """Points round a centre."""
    angles = [turn + 2 * math.pi * i / n for i in range(n)]
    return [(centre[0] + radius * math.cos(a), centre[1] - radius * math.sin(a)) for a in angles]


def straight(picture):
    """An inner edge between two ordinary vertices."""
    rows = [[(x + bend, y + lift) for x, lift in ((26, 10), (116, 0), (216, 0), (306, 12))] for y, bend in ((50, 4), (125, 0), (200, -4))]
    for low, high in zip(rows, rows[1:]):
        picture.faces(*([low[i], low[i + 1], high[i + 1], high[i]] for i in range(3)))
    picture.points("o", *rows[1])
    picture.points("n", interior(*rows[1]))
    for point, word in zip(rows[1], ("−1", "9", "9", "−1")):
        picture.word(point, word, 15, -10)
    for point, word in zip(rows[1][1:3], "PQ"):
        picture.word(point, word, 14, 22)
    picture.caption("rings of four, over 16 at t = 4")


def ring(picture):
    """A ring of five faces, and its virtual point."""
    centre = (176, 132)
    ends, corners = spokes(centre, 5, 80, 0), spokes(centre, 5, 92, math.pi / 5)
    picture.faces(*([centre, ends[i], corners[i], ends[(i + 1) % 5]] for i in range(5)))
    across = virtual(ends, corners, 0)
    picture.points("o", centre, *ends, *corners)
    picture.points("v", across)
    for i, (end_point, corner) in enumerate(zip(ends, corners)):
        picture.word(mix((1.2, end_point), (-0.2, centre)), f"l{i}", y=5)
        inward = i == 2  # the virtual point lies beyond that corner
        picture.word(mix((0.78, corner), (0.22, centre)) if inward else mix((1.16, corner), (-0.16, centre)), f"k{i}", y=5)
    picture.word(centre, "P", 16, -8)
    picture.word(across, "v", x=-16, y=5)
    picture.caption("a ring of five, edge towards l0")


def fan(picture):
    """The ring of a boundary vertex, closed by extrapolated points."""
    b, p, c = (50, 142), (166, 134), (284, 146)
    spoke, outer = (170, 44), [(56, 52), (280, 54)]
    stars = [mirrored(b, [(44, 52)]), mirrored(p, [spoke]), mirrored(c, [(276, 64)])]
    picture.faces([p, c, stars[2], stars[1]], [p, stars[1], stars[0], b], kind="g")
    picture.faces([p, b, outer[0], spoke], [p, spoke, outer[1], c])
    picture.path("b", b, p, c)
    picture.points("o", b, p, c, spoke, *outer)
    picture.points("v", *stars)
    for point, word, x, y in (b, "b", -16, 5), (p, "P", 16, -8), (c, "c", 18, 5), (stars[0], "b*", -20, 5), (stars[1], "P*", 0, 26), (stars[2], "c*", 22, 5):
        picture.word(point, word, x, y)
    picture.caption("a fan, closed by P*, b* and c*")


def virtual_points():
    """What stands for the neighbour across at the ends of an inner edge."""
    picture = Picture(340)
    for panel, part in enumerate((straight, ring, fan)):
        picture.move(panel)
        part(picture)
    return picture


def strip(picture, xs, walls, rule, weights, caption):
    """A row of faces with the points of its upright edges; `walls` are boundary edges."""
    low, high = [(x, 160) for x in xs], [(x + 8, 50) for x in xs]
    picture.faces(*([low[i], low[i + 1], high[i + 1], high[i]] for i in range(len(xs) - 1)))
    points = [middle(p, q) for p, q in zip(low, high)]
    for i in walls:
        picture.path("b", low[i], high[i])
    picture.points("o", *low, *high)
    picture.points("e", *points)
    picture.points("n", rule(*points))
    for point, weight in zip(points, weights):
        picture.word(point, weight, 16, -10)
    picture.caption(caption)


def face_points():
    """One direction of a face."""
    picture = Picture(270)
    strip(picture, (20, 112, 210, 300), (), interior, ("−1", "9", "9", "−1"), "two neighbours, over 16 at t = 4")
    picture.move(1)
    strip(picture, (60, 160, 262), (0,), end, ("7", "10", "−1"), "one neighbour, over 16 at t = 4")
    picture.move(2)
    strip(picture, (100, 226), (0, 1), middle, ("1", "1"), "no neighbour, over 2")
    return picture


DIAGRAMS = {"numbering": numbering, "split": split, "boundary": boundary, "extrapolated": extrapolated, "virtual": virtual_points, "face": face_points}


def main():
    if sys.argv[1:] == ["--list"]:
        print(*DIAGRAMS, sep="\n")
    elif len(sys.argv) == 2 and sys.argv[1] in DIAGRAMS:
        sys.stdout.write(DIAGRAMS[sys.argv[1]]().svg())
    else:
        sys.exit(f"usage: diagrams.py --list | {' | '.join(DIAGRAMS)}")


if __name__ == "__main__":
    main()
