#!/usr/bin/env python3
"""Makes the example nets beside this file, or compares them with --check. Lengths here are millimetres; one count is 0.01 mm."""
import argparse
import itertools
import math
import pathlib
import sys

# The bow of a boat with a hard chine, port side: x runs aft, y to starboard, z up; one point for each station.
SHEER = [(0, 0, 1600), (480, -470, 1400), (1060, -800, 1255), (1700, -1000, 1160), (2400, -1090, 1110), (3150, -1110, 1100)]
CHINE = [(420, 0, 760), (820, -250, 560), (1310, -510, 410), (1870, -710, 310), (2480, -830, 250), (3150, -880, 220)]
KEEL = [(800, 0, 330), (1120, 0, 165), (1530, 0, 70), (2020, 0, 25), (2560, 0, 5), (3150, 0, 0)]
# How far y leaves the straight line half way between two of these lines: hollow forward and full aft above the chine, full below it.
TOPSIDE = [0, 80, 80, 40, -10, -40]
BOTTOM = [0, -40, -50, -40, -25, -10]

# A coach wing seen from the side: rear half of the wheel arch and of the outline, x and z.
ARCH = [(-600, 0), (-554, 230), (-424, 424), (-230, 554), (0, 600)]
OUTLINE = [(-1200, 0), (-1160, 460), (-960, 790), (-530, 970), (0, 1000)]


def text(points, marks, faces, rounds=2):
    """The program's input; without marks it has no column for them."""
    rows = [tuple(round(100 * value) for value in point) for point in points]
    vertices = [(*row, mark) for row, mark in zip(rows, marks)] if marks else rows
    counts = [("vertices", "faces", "rounds"), (len(points), len(faces), rounds)]
    lines = [*counts, ("x", "y", "z", "corner") if marks else ("x", "y", "z"), *vertices, ("a", "b", "c", "d"), *faces]
    return "".join(" ".join(map(str, line)) + "\n" for line in lines)


def grid(rows, rounds=2, marked=True):
    """A net of rows of points with marks at its four corners."""
    height, width = len(rows), len(rows[0])
    marks = [int(r in (0, height - 1) and c in (0, width - 1)) for r in range(height) for c in range(width)]
    starts = [r * width + c for r in range(height - 1) for c in range(width - 1)]
    return text(sum(rows, []), marks if marked else [], [(a, a + 1, a + width + 1, a + width) for a in starts], rounds)


def between(low, high, camber, share):
    """The line at a share of the way up from one line to another."""
    blend = [[(1 - share) * a + share * b for a, b in zip(p, q)] for p, q in zip(low, high)]
    return [(x, y + 4 * share * (1 - share) * out, z) for (x, y, z), out in zip(blend, camber)]


def topside():
    return grid([CHINE, between(CHINE, SHEER, TOPSIDE, 1 / 3), between(CHINE, SHEER, TOPSIDE, 2 / 3), SHEER])


def bottom():
    return grid([KEEL, between(KEEL, CHINE, BOTTOM, 1 / 2), CHINE])


def wing_rows():
    """The wing: a quarter round from the arch to the outline, with its front end drawn in."""
    def across(share, inward, arch, outline):
        x, z = ((1 - share) * a + share * b for a, b in zip(arch, outline))
        forward = x / 2400 + 0.5
        return (x, 450 * inward + 260 * forward * forward * forward, z)

    arch, outline = ([*rear, *((-x, z) for x, z in reversed(rear[:-1]))] for rear in (ARCH, OUTLINE))
    quarter = [(0, 0), (0.7, 0.3), (1, 1)]
    return [[across(*step, a, b) for a, b in zip(arch, outline)] for step in quarter]


def panel():
    return grid(wing_rows())


def normal(corners):
    """The direction that a face looks in, of length 1."""
    (a, b, c), (d, e, f) = ([q - p for p, q in zip(corners[0], corners[i])] for i in (1, 2))
    across = (b * f - c * e, c * d - a * f, a * e - b * d)
    return [value / math.sqrt(sum(v * v for v in across)) for value in across]


def sheet(name, rows, before):
    """One object of an OBJ file; so many vertices and faces stand before it."""
    height, width = len(rows), len(rows[0])
    points = [[round(100 * value) / 100 for value in point] for row in rows for point in row]
    faces = [(a, a + 1, a + width + 1, a + width) for r in range(height - 1) for a in range(r * width, r * width + width - 1)]
    yield f"o {name}"
    yield from ("v " + " ".join(f"{value:.6f}" for value in point) for point in points)
    yield from (f"vt {c / (width - 1):.6f} {r / (height - 1):.6f}" for r in range(height) for c in range(width))
    yield from ("vn " + " ".join(f"{value:.4f}" for value in normal([points[v] for v in face])) for face in faces)
    yield from ("usemtl sheet", "s off")
    yield from ("f " + " ".join(f"{before[0] + v + 1}/{before[0] + v + 1}/{before[1] + f + 1}" for v in face) for f, face in enumerate(faces))


def wing():
    """The same wing as a modelling program writes it: in millimetres, as two objects that both have the points between them."""
    rows = wing_rows()
    rear, front = [row[:5] for row in rows], [row[4:] for row in rows]
    lines = ["# a coach wing in two sheets, in millimetres", "mtllib wing.mtl", *sheet("Rear", rear, (0, 0)), *sheet("Front", front, (15, 8))]
    return "".join(line + "\r\n" for line in lines)


def dome():
    """A front corner of a coach roof: sheets of roof, side and front that meet in a vertex of three faces, laid on x^4 + y^4 + z^4 = 1."""
    sheets = [(3, 2, lambda p, q: (p, q, 2)), (2, 3, lambda p, q: (q, 2, p)), (2, 2, lambda p, q: (3, p, q))]
    numbers, faces = {}, []
    for height, width, place in sheets:
        for p, q in itertools.product(range(height), range(width)):
            ring = [place(p, q), place(p + 1, q), place(p + 1, q + 1), place(p, q + 1)]
            faces.append([numbers.setdefault(spot, len(numbers)) for spot in ring])

    def point(x, y, z):
        length = math.sqrt(math.sqrt(x * x * x * x + y * y * y * y + z * z * z * z))
        return (1500 * x / length, 1100 * y / length, 900 * z / length)

    marks = [int(spot in ((3, 0, 0), (0, 2, 0), (0, 0, 2))) for spot in numbers]
    return text([point(i / 3, j / 2, k / 2) for i, j, k in numbers], marks, faces)


def hatch_rows():
    """A hatch cover of two by two faces with a crown."""
    return [[(x, y, 80 if (x, y) == (450, 300) else 0) for x in (0, 450, 900)] for y in (0, 300, 600)]


def hatch():
    return grid(hatch_rows(), 3)


def unmarked():
    """The same hatch cover without corner marks."""
    return grid(hatch_rows(), 3, marked=False)


def fin():
    """The hatch cover with a fin on it: an edge of three faces, which is refused."""
    points = sum(hatch_rows(), []) + [(450, 0, 260), (450, 300, 340)]
    return text(points, [], [(0, 1, 4, 3), (1, 2, 5, 4), (3, 4, 7, 6), (4, 5, 8, 7), (1, 4, 10, 9)])


def turned():
    """The hatch cover with a face that runs the other way than its neighbours, which is refused."""
    return text(sum(hatch_rows(), []), [], [(0, 1, 4, 3), (1, 2, 5, 4), (3, 4, 7, 6), (4, 7, 8, 5)])


def main():
    options = argparse.ArgumentParser(description=__doc__)
    options.add_argument("--check", action="store_true", help="compare the stored nets with what would be made, and write nothing")
    check = options.parse_args().check
    stale = []
    for make in (panel, topside, bottom, dome, hatch, unmarked, fin, turned, wing):
        ending = "obj" if make is wing else "txt"
        path, made = pathlib.Path(__file__).resolve().with_name(f"{make.__name__}.{ending}"), make().encode("ascii")
        if not check:
            path.write_bytes(made)
        elif not path.is_file() or path.read_bytes() != made:
            stale.append(path.name)
    sys.exit(f"make.py makes something else: {', '.join(stale)}" if stale else 0)


if __name__ == "__main__":
    main()
