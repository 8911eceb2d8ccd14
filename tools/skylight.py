#!/usr/bin/env python3
"""Draws a net with other faces than quadrilaterals, and what its split and one round make of it, as SVG on standard output.

    skylight.py --refine COMMAND    COMMAND is the refiner, which gets the split net as text

The net is a skylight of a pentagon, five quadrilaterals and five triangles. The text form has no side counts, so the split is worked out here, as
docs/SCHEME.md states it.
"""
import argparse
import subprocess
import sys

import draw

# Millimetres; one count is 0.01 mm. The rim goes round once and has a corner mark at each vertex; a vertex of the top stands over two of them.
RIM = [(309, 951, 0), (-309, 951, 0), (-809, 588, 0), (-1000, 0, 0), (-809, -588, 0), (-309, -951, 0), (309, -951, 0), (809, -588, 0), (1000, 0, 0), (809, 588, 0)]
TOP = [(0, 520, 360), (-495, 161, 360), (-306, -421, 360), (306, -421, 360), (495, 161, 360)]
ROUNDS, VIEW = 1, "1,-3,3"


def skylight():
    """Points and faces, the rim first."""
    top = [len(RIM) + k for k in range(5)]
    triangles = [(2 * k, 2 * k + 1, top[k]) for k in range(5)]
    quadrilaterals = [(2 * k + 1, (2 * k + 2) % 10, top[(k + 1) % 5], top[k]) for k in range(5)]
    return [tuple(100 * value for value in point) for point in [*RIM, *TOP]], [*triangles, *quadrilaterals, tuple(top)]


def mean(points):
    """The mean, rounded to the nearest whole count, halves upward."""
    return tuple((2 * sum(axis) + len(points)) // (2 * len(points)) for axis in zip(*points))


def split(points, faces):
    """The points and quadrilaterals after the split: drawn points, midpoints of the edges as they are first met, means of the faces."""
    number = {}
    for side in (side for face in faces for side in draw.sides(face)):
        number.setdefault(frozenset(side), len(points) + len(number))
    middles = [mean([points[v] for v in edge]) for edge in number]
    centres = [mean([points[v] for v in face]) for face in faces]
    quadrilaterals = []
    for place, face in enumerate(faces, len(points) + len(middles)):
        around = [number[frozenset(side)] for side in draw.sides(face)]
        quadrilaterals += [(corner, around[i], place, around[i - 1]) for i, corner in enumerate(face)]
    return points + middles + centres, quadrilaterals


def text(points, faces):
    """The program's input."""
    vertices = [(*point, int(v < len(RIM))) for v, point in enumerate(points)]
    lines = [("vertices", "faces", "rounds"), (len(points), len(faces), ROUNDS), ("x", "y", "z", "corner"), *vertices, ("a", "b", "c", "d"), *faces]
    return "".join(" ".join(map(str, line)) + "\n" for line in lines)


def main():
    options = argparse.ArgumentParser(usage="skylight.py --refine COMMAND", description=__doc__, formatter_class=argparse.RawDescriptionHelpFormatter)
    options.add_argument("--refine", metavar="COMMAND", required=True, help=argparse.SUPPRESS)
    points, faces = skylight()
    try:
        refined = draw.parse(draw.run(options.parse_args().refine, text(*split(points, faces)).encode()).decode(), "the split net, refined")
    except (OSError, ValueError, subprocess.CalledProcessError) as error:
        sys.exit(f"skylight.py: {error}")
    drawn = draw.Net(points, [v < len(RIM) for v in range(len(points))], faces, [], draw.boundary(faces))
    columns = [draw.Column("drawn", [drawn], [len(points)], []), draw.Column("split, after round 1", [refined], [len(points)], [])]
    sys.stdout.write(draw.svg(columns, draw.view_from(VIEW)))


if __name__ == "__main__":
    main()
