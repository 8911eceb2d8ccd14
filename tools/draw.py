#!/usr/bin/env python3
"""Draws a net alone, or one or two nets before (left) and after refining (right), as SVG on standard output. A net is a text that ./refine reads or
prints, or an OBJ file.

    draw.py [OPTIONS] NET                          one net alone, also one that is refused
    draw.py [OPTIONS] NET REFINED [NET REFINED]    what the program read and what it printed
    draw.py [OPTIONS] --refine COMMAND NET [NET]   runs COMMAND on each net

    --view X,Y,Z    the direction from the net to the eye, three whole numbers (1,-3,1)
    --no-dots       leaves out the symbols at the drawn vertices
    --beside        draws the two refined nets beside each other, with the drawn boundary dashed
    --apart X,Y,Z   draws the second net away from the first, by so many counts
    --letters       colours the points of a net by its letters; with --refine the text asks for them
    --vertex N      marks a vertex of the first net, as the place of a refusal
    --face N        marks a face of it

Two nets get two colours, and boundary edges with equal points in both are highlighted. Floats meet only + - * / and square roots, so the same
texts give the same bytes everywhere.
"""
import argparse
import math
import pathlib
import re
import shlex
import subprocess
import sys
from collections import Counter, namedtuple

import convert

WIDTH, TALLEST, MARGIN, LINE, SLOT = 470, 400, 22, 22, 190
PAINT = [(158, 203, 232), (246, 208, 138)]
LEGEND = {"v": "drawn vertex", "c": "corner mark", "x": "extraordinary vertex", "s": "shared boundary", "d": "drawn boundary",
          "V": "V: drawn", "A": "A: in a segment", "B": "B: end edge", "M": "M: one edge", "S": "S: split", "C": "C: inner edge", "D": "D: four inner edges", "E": "E: other face"}
COLOURS = {"V": "#1d2a35", "A": "#1a62c4", "B": "#19b5c9", "M": "#7a3fc0", "S": "#8a8a8a", "C": "#1d8a3a", "D": "#f0a020", "E": "#d3182b"}
HEAD = """<style>.f{{stroke:#46596a;stroke-width:{line};stroke-linejoin:round;stroke-linecap:round}}
.b{{stroke:#1d2a35;stroke-width:1.9}}.s{{stroke:#d3182b;stroke-width:3.2}}.d{{stroke:#d3182b;stroke-width:1.5;stroke-dasharray:5 4;fill:none}}
text{{font:15px sans-serif;fill:#1d2a35}}.t{{text-anchor:middle}}</style>
<defs><circle id="v" r="{dot}" fill="#1d2a35" stroke="none"/><path id="s" d="M-14 0H6" class="s"/><path id="d" d="M-16 0H6" class="d"/>
<rect id="c" x="-4" y="-4" width="8" height="8" fill="#fff" stroke="#1d2a35" stroke-width="1.5"/>
<circle id="x" r="5" fill="#fff" stroke="#8a1fb0" stroke-width="2.5"/></defs>"""
# What --letters, --vertex and --face add to it.
LETTERS = "<defs>" + "".join(f'<circle id="{letter}" r="3" fill="{colour}" stroke="none"/>' for letter, colour in COLOURS.items()) + "</defs>"
PLACES = """<style>.m{fill:none;stroke:#d3182b;stroke-width:3}</style><defs><circle id="m" r="9" class="m"/><path id="p" d="M-12 -5H4V5H-12z" class="m"/></defs>"""
# Above so many faces their lines get thinner, above so many drawn vertices their dots smaller.
MANY_FACES, MANY_DOTS = 1000, 300

# A net is drawn away from its points by the shift. A column colours its points by letters, or marks a vertex and a face, if told so.
Net = namedtuple("Net", "points marks faces rounds boundary letters shift", defaults=([], (0, 0, 0)))
View = namedtuple("View", "eye right up light")
Column = namedtuple("Column", "title nets drawn outlines letters places", defaults=(False, {}))


def parse(text, name):
    """The net in a text that the program reads or prints; a printed one tells no rounds."""
    lines = [line.split() for line in text.splitlines()]
    if lines[:1] == [["refusal", "place"]]:
        raise ValueError(f"{name}: refused, number and place {' '.join(sum(lines[1:], []))}")
    try:
        vertices, faces, *rounds = map(int, lines[1])
        width = 4 if lines[2] == ["x", "y", "z", "corner", "rule"] else None
        letters = [line[4] for line in lines[3:3 + vertices] if width]
        rows = [tuple(map(int, line[:width])) for line in lines[3:3 + vertices]]
        corners = [tuple(map(int, line)) for line in lines[4 + vertices:]]
    except (IndexError, ValueError):
        raise ValueError(f"{name}: not the text of a net") from None
    fits = all(len(face) == 4 and 0 <= min(face) <= max(face) < vertices for face in corners)
    if not fits or len(corners) != faces or not faces or len(rows) != vertices or {len(row) for row in rows} - {3, 4}:
        raise ValueError(f"{name}: not the text of a net with faces")
    return Net([row[:3] for row in rows], [row[3:] == (1,) for row in rows], corners, rounds, boundary(corners), letters)


def parse_obj(data, name):
    """The net in an OBJ file, with its decimals as whole numbers of a common part."""
    try:
        net, _ = convert.read(data)
        net.settle()
    except convert.Fault as fault:
        raise ValueError(f"{name}: {convert.listed([fault.args])[0]}") from None
    except convert.Faults as faults:
        raise ValueError(f"{name}: {'; '.join(faults.args[0])}") from None
    if not net.faces:
        raise ValueError(f"{name}: not an OBJ file with faces")
    part = math.lcm(*(value.denominator for point, _ in net.points for value in point))
    faces = [tuple(corners) for corners, _ in net.faces]
    rounds = [] if net.rounds is None else [net.rounds]
    return Net([tuple(int(value * part) for value in point) for point, _ in net.points], [v in net.marked for v in range(len(net.points))], faces, rounds, boundary(faces))


def net_of(data, name):
    if re.match(rb"(vertices|refusal) |\s*$", data):
        return parse(data.decode("ascii"), name)
    return parse_obj(data, name)


def run(command, text):
    return subprocess.run(shlex.split(command), input=text, stdout=subprocess.PIPE, check=True).stdout


def read_nets(files, command, letters):
    """The drawn nets and the refined ones, of which a net alone has none."""
    texts = [(name, pathlib.Path(name).read_bytes()) for name in files]
    if command and letters:
        texts = [(name, re.sub(rb"^vertices faces rounds\n", b"vertices faces rounds rule\n", text)) for name, text in texts]
    if command:
        texts = [part for name, text in texts for part in ((name, text), (f"{name}, refined", run(command, text)))]
    nets = [net_of(text, name) for name, text in texts]
    if letters and not nets[-1].letters:
        raise ValueError(f"{texts[-1][0]}: has no letters")
    for net, refined, (name, _) in zip(nets[::2], nets[1::2], texts[1::2]):
        if refined.points[:len(net.points)] != net.points:
            raise ValueError(f"{name}: does not begin with the drawn vertices")
    return nets[::2], nets[1::2]


def minus(a, b):
    return (a[0] - b[0], a[1] - b[1], a[2] - b[2])


def dot(a, b):
    return a[0] * b[0] + a[1] * b[1] + a[2] * b[2]


def cross(a, b):
    return (a[1] * b[2] - a[2] * b[1], a[2] * b[0] - a[0] * b[2], a[0] * b[1] - a[1] * b[0])


def unit(a):
    length = math.sqrt(dot(a, a)) or 1.0
    return [value / length for value in a]


def direction(text):
    if not re.fullmatch(r"-?\d{1,6}(,-?\d{1,6}){2}", text) or not text.strip("-0,"):
        raise argparse.ArgumentTypeError("invalid: three whole numbers X,Y,Z are wanted, not all 0, as --view=1,-3,1")
    return tuple(map(int, text.split(",")))


def view_from(text):
    """The view from a direction "X,Y,Z" in whole numbers; the light comes from the upper left."""
    eye = direction(text)
    right = unit((-eye[1], eye[0], 0) if eye[0] or eye[1] else (1, 0, 0))
    up = unit(cross(eye, right))
    return View(eye, right, up, unit([4 * e - 3 * r + 2 * u for e, r, u in zip(unit(eye), right, up)]))


def frame(nets, view):
    """The height that all nets need at one scale, and the function that places a point."""
    across = [dot(view.right, point) for net in nets for point in net.points]
    upward = [dot(view.up, point) for net in nets for point in net.points]
    wide, tall = max(1.0, max(across) - min(across)), max(1.0, max(upward) - min(upward))
    scale = min(WIDTH / wide, TALLEST / tall)
    left, top = min(across) - (WIDTH / scale - wide) / 2, max(upward)
    return math.ceil(tall * scale), lambda p: f"{(dot(view.right, p) - left) * scale:.1f} {(top - dot(view.up, p)) * scale:.1f}"


def sides(face):
    return zip(face, face[1:] + face[:1])


def boundary(faces):
    """The sides without a second face."""
    runs = [side for face in faces for side in sides(face)]
    count = Counter((a, b) if a < b else (b, a) for a, b in runs)
    return {(a, b) for a, b in runs if count[(a, b) if a < b else (b, a)] == 1}


def ends(net, edge):
    """The two points of an edge, as a set, where the net is and not where it is drawn."""
    return frozenset(minus(net.points[v], net.shift) for v in edge)


def shared_edges(nets):
    """The boundary edges with equal points in both nets."""
    ends_of = [{ends(net, edge) for edge in net.boundary} for net in nets]
    return set.intersection(*ends_of) if len(nets) > 1 else set()


def fill(corners, paint, view):
    """The colour of a face by the light on the side that is seen; its reverse side is duller."""
    normal = [sum(axis) for axis in zip(*(cross(a, b) for a, b in sides(corners)))]
    front = dot(normal, view.eye) > 0
    lit = dot(unit(normal), view.light) * (1 if front else -1)
    shade = (0.5 + 0.14 * (1 + lit) * (1 + lit)) * (1 if front else 0.8)
    return "#" + "".join(f"{min(255, round(shade * part)):02x}" for part in paint)


def surface(net, paint, view, place, shared):
    """Faces and their boundary edges, each with its depth and layer."""
    spots, depths = [place(point) for point in net.points], [dot(view.eye, point) for point in net.points]
    for face in net.faces:
        corners = [net.points[v] for v in face]
        depth = sum(depths[v] for v in face) / len(face)
        yield depth, 0, f'<path d="M{" ".join(spots[v] for v in face)}z" fill="{fill(corners, paint, view)}"/>'
        for a, b in net.boundary.intersection(sides(face)):
            kind = "s" if ends(net, (a, b)) in shared else "b"
            yield depth, 1, f'<path class="{kind}" d="M{spots[a]} {spots[b]}"/>'


def covers(triangle, point, eye):
    """Whether a triangle, with its sides, lies between a point and the eye."""
    a, b, c = (minus(corner, point) for corner in triangle)
    turns = [dot(eye, cross(p, q)) for p, q in ((a, b), (b, c), (c, a))]
    return (min(turns) >= 0 or max(turns) <= 0) and dot(a, cross(b, c)) * sum(turns) > 0


def cells(nets, points, view):
    """The faces of all nets near each point as it is seen: those that meet the point's cell of a grid."""
    size = math.isqrt(sum(len(net.faces) for net in nets)) + 1
    across, upward = ([dot(axis, point) for net in nets for point in net.points] for axis in (view.right, view.up))
    left, low = min(across), min(upward)
    wide, tall = max(1.0, max(across) - left), max(1.0, max(upward) - low)

    def cell(point):
        return int((dot(view.right, point) - left) / wide * size), int((dot(view.up, point) - low) / tall * size)

    near = {cell(point): [] for point in points}
    for net in nets:
        spots = [cell(point) for point in net.points]
        for face in net.faces:
            columns, rows = zip(*(spots[v] for v in face))
            for column in range(min(columns), max(columns) + 1):
                for row in range(min(rows), max(rows) + 1):
                    if (column, row) in near:
                        near[column, row].append([net.points[v] for v in face])
    return {point: near[cell(point)] for point in points}


def hidden(point, faces, eye):
    return any(covers((face[0], b, c), point, eye) for face in faces if point not in face for b, c in zip(face[1:], face[2:]))


def symbols(net, drawn, letters=False):
    """The drawn vertices with the symbols that they get, or all vertices with their letters."""
    if letters:
        return list(zip(net.points, net.letters))
    valence = Counter(v for face in net.faces for v in face)
    outer = {v for edge in net.boundary for v in edge}
    return [(net.points[v], "c" if net.marks[v] else "v" if v in outer or valence[v] == 4 else "x") for v in range(drawn)]


def scene(column, view, place):
    """All nets of a column, the farthest part first; its outlines; and the symbols that are seen."""
    shared = shared_edges(column.nets)
    parts = [part for net, paint in zip(column.nets, PAINT) for part in surface(net, paint, view, place, shared)]
    edges = [f"M{place(net.points[a])} {place(net.points[b])}" for net in column.outlines for a, b in sorted(net.boundary)]
    outline = [f'<path class="d" d="{"".join(edges)}"/>'] if edges else []
    found = [symbol for net, count in zip(column.nets, column.drawn) for symbol in symbols(net, count, column.letters)]
    near = cells(column.nets, [point for point, _ in found], view)
    seen = [(kind, *place(point).split()) for point, kind in found if not hidden(point, near[point], view.eye)]
    uses = ['<use href="#{}" x="{}" y="{}"/>'.format(*symbol) for symbol in seen]
    return [element for *_, element in sorted(parts)] + outline + uses + list(marked(column, place))


def marked(column, place):
    """The places of a refusal in the first net, over all else."""
    net = column.nets[0]
    for kind, number in column.places.items():
        if kind == "p":
            yield f'<path class="m" d="M{" ".join(place(net.points[v]) for v in net.faces[number])}z"/>'
        else:
            x, y = place(net.points[number]).split()
            yield f'<use href="#m" x="{x}" y="{y}"/>'

def captions(title, nets, left, top):
    """What is shown, and of two nets how many points they share."""
    vertices, faces = (" + ".join(str(len(part)) for part in parts) for parts in zip(*((net.points, net.faces) for net in nets)))
    common = {point for edge in shared_edges(nets) for point in edge}
    told = [f"{title}: {vertices} vertices, {faces} faces"] + [f"{len(common)} equal points on the shared boundary"] * bool(common)
    return [f'<text class="t" x="{left + WIDTH // 2}" y="{top + LINE * n}">{line}</text>' for n, line in enumerate(told)]


def legend_of(columns):
    """The symbols that are used, with their names."""
    kinds = {kind for column in columns for net, count in zip(column.nets, column.drawn) for _, kind in symbols(net, count, column.letters)}
    kinds |= {"s" for column in columns if shared_edges(column.nets)} | {"d" for column in columns if column.outlines}
    places = [(kind, f"{'face' if kind == 'p' else 'vertex'} {number}") for column in columns for kind, number in column.places.items()]
    return [(kind, name) for kind, name in LEGEND.items() if kind in kinds] + places


def legend(used, wide, tall):
    """The symbols in rows at the foot of the picture."""
    rows = legend_rows(used, wide)
    for r, row in enumerate(rows):
        top = tall - LINE * (len(rows) - r) + 4
        for n, (kind, name) in enumerate(row):
            x = wide // 2 - len(row) * SLOT // 2 + n * SLOT + 30
            yield f'<use href="#{kind}" x="{x}" y="{top - 5}"/><text x="{x + 14}" y="{top}">{name}</text>'


def legend_rows(used, wide):
    each = wide // SLOT
    return [used[n:n + each] for n in range(0, max(1, len(used)), each)]


def columns_of(before, after, given):
    """A net alone, drawn and refined nets, or the refined nets beside each other."""
    drawn = [len(net.points) * (not given.no_dots) for net in before]
    places = {kind: number for kind, number in (("m", given.vertex), ("p", given.face)) if number is not None}
    for kind, number in places.items():
        if number >= len(before[0].faces if kind == "p" else before[0].points):
            raise ValueError(f"the net has no {'face' if kind == 'p' else 'vertex'} {number}")
    if not after:
        return [Column("drawn" if before[0].rounds else "net", before, drawn, [], given.letters, places)]
    if given.beside:
        titles = [f"{sum(net.marks) or 'no'} corner mark{'s' * (sum(net.marks) != 1)}" for net in before]
        return [Column(title, [net], [count], [outline], given.letters) for title, net, count, outline in zip(titles, after, drawn, before)]
    rounds = " + ".join(dict.fromkeys(str(n) for net in before for n in net.rounds))
    return [Column("drawn", before, drawn, [], False, places), Column(f"after round {rounds}" if rounds else "refined", after, drawn, [], given.letters)]


def moved(nets, shift):
    """The nets with the second one drawn elsewhere."""
    return nets[:1] + [net._replace(points=[minus(point, [-value for value in shift]) for point in net.points], shift=shift) for net in nets[1:]]


def head(columns):
    """Styles and symbols: thin lines for many faces, small dots for many drawn vertices."""
    faces = max(sum(len(net.faces) for net in column.nets) for column in columns)
    dots = max(sum(column.drawn) for column in columns)
    line, dot_size = (min(1.0, math.sqrt(many / max(1, count))) for many, count in ((MANY_FACES, faces), (MANY_DOTS, dots)))
    more = LETTERS * any(column.letters for column in columns) + PLACES * any(column.places for column in columns)
    return HEAD.format(line=f"{0.5 * line:.2g}".lstrip("0"), dot=f"{2.6 * dot_size:.2g}") + more


def svg(columns, view):
    """The whole picture."""
    height, place = frame([net for column in columns for net in column.nets], view)
    wide, foot, used = len(columns) * (WIDTH + 2 * MARGIN), MARGIN + height + 32, legend_of(columns)
    tall = foot + LINE * (len(columns[0].nets) + len(legend_rows(used, wide)))
    picture = [f'<svg xmlns="http://www.w3.org/2000/svg" width="{wide}" height="{tall}" viewBox="0 0 {wide} {tall}">', head(columns)]
    picture.append(f'<rect width="{wide}" height="{tall}" rx="8" fill="#fbfaf6"/>')
    for column, left in zip(columns, (MARGIN, WIDTH + 3 * MARGIN)):
        picture += [f'<g class="f" transform="translate({left} {MARGIN})">', *scene(column, view, place), "</g>"]
        picture += captions(column.title, column.nets, left, foot)
    picture += [*legend(used, wide, tall), "</svg>"]
    return "".join(line + "\n" for line in picture)


def number_of(text):
    if not re.fullmatch(r"\d{1,6}", text):
        raise argparse.ArgumentTypeError("invalid: a number from 0 is wanted")
    return int(text)


def arguments():
    usage = "draw.py [OPTIONS] NET | NET REFINED [NET REFINED] | --refine COMMAND NET [NET]"
    options = argparse.ArgumentParser(usage=usage, description=__doc__, formatter_class=argparse.RawDescriptionHelpFormatter)
    options.add_argument("--view", type=view_from, default="1,-3,1", metavar="X,Y,Z", help=argparse.SUPPRESS)
    options.add_argument("--refine", metavar="COMMAND", help=argparse.SUPPRESS)
    options.add_argument("--apart", type=direction, metavar="X,Y,Z", help=argparse.SUPPRESS)
    for name in "--no-dots", "--beside", "--letters":
        options.add_argument(name, action="store_true", help=argparse.SUPPRESS)
    for name in "--vertex", "--face":
        options.add_argument(name, type=number_of, metavar="N", help=argparse.SUPPRESS)
    options.add_argument("file", nargs="+", help=argparse.SUPPRESS)
    given = options.parse_args()
    if len(given.file) not in ((1, 2) if given.refine else (1, 2, 4)):
        options.error("a net alone, or one or two nets, each with its refined net or all with --refine")
    for name in "beside", "apart":
        if getattr(given, name) and len(given.file) != (2 if given.refine else 4):
            options.error(f"--{name} wants two nets")
    if given.beside and (given.vertex, given.face) != (None, None):
        options.error("--vertex and --face are for drawn nets")
    return given


def main():
    given = arguments()
    try:
        before, after = read_nets(given.file, given.refine, given.letters)
        if given.apart:
            before, after = moved(before, given.apart), moved(after, given.apart)
        sys.stdout.write(svg(columns_of(before, after, given), given.view))
    except (OSError, ValueError, subprocess.CalledProcessError) as error:
        sys.exit(f"draw.py: {error}")


if __name__ == "__main__":
    main()
