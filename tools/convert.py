#!/usr/bin/env python3
"""Converts nets between OBJ files and what ./refine reads and prints; the result goes to standard output, what is to be said of it to standard error.

    convert.py text [OPTION ..] [FILE]    writes the text form that ./refine reads
    convert.py net [OPTION ..] [FILE]     writes the OBJ form that ./refine reads
    convert.py obj [OPTION ..] [FILE]     writes an OBJ file for other programs
    convert.py ply [OPTION ..] [FILE]     writes a PLY file for other programs

FILE is an OBJ file of any program, a net in either form or an answer of ./refine; obj and ply take no OBJ file. Standard input is read without FILE
or with -. Line ends of any system, a byte order mark, surplus blanks, plus signs and leading zeros are cured. In an OBJ file comments `# corner N ..`
and lines `p N ..` name the vertices with a corner mark, and a first line `# rounds N` states the rounds. S is the number of counts in a unit of the
file: coordinates times S are worked out exactly and rounded once to whole counts, halves upward; a file for other programs gets counts divided by S,
exactly. With --letters the text asks ./refine for a letter beside each vertex, and a text that asks already still does; letters in an answer are left
out. The OBJ form has neither marks nor letters: a net with marks, or a text that asks for letters, is not written as net. Both forms have faces of
four corners alone; --cut makes them of faces with six, eight and so on.

Faults are listed with their lines, all of a file at once.
"""
import argparse
import contextlib
import os
import re
import sys
from collections import Counter, defaultdict
from fractions import Fraction

LIMIT = 1_048_576
# What ./refine serves, and the call that makers build in.
BYTES, VERTICES, REFINED = 32_768, 1_024, 256
CALL_VERTICES, CALL_FACES, CALL_REFINED = 8_192, 4_096, 262_144
LEAST_SIDES, MOST_SIDES, MOST_ROUNDS = 3, 8, 6
NUMBER = re.compile(r"[+-]?(\d+\.?\d*|\.\d+)([eE][+-]?\d{1,2})?")
WHOLE = re.compile(r"[+-]?\d{1,10}")
# Words of OBJ lines that say nothing of points and faces.
IGNORED = set("vt vn vp g o s l mg usemtl mtllib usemap maplib lod bevel c_interp d_interp shadow_obj trace_obj".split())


class Fault(Exception):
    """What is wrong, with the line where it stands."""

    def __init__(self, line, what):
        super().__init__(line, what)


class Faults(Exception):
    """All that is wrong."""


class Net:
    """Points and faces with their lines, marked vertices with the line of the mark, faults so far, things to be said, and rounds and the wish for
    letters where the file tells them. A point has several lines where it was welded."""

    def __init__(self, rounds=None, letters=False):
        self.points, self.marked, self.faces, self.rounds, self.letters = [], {}, [], rounds, letters
        self.faults, self.notes = [], []

    @contextlib.contextmanager
    def gathering(self):
        """Keeps a fault for the list, and goes on."""
        try:
            yield
        except Fault as fault:
            self.faults.append(fault.args)

    def settle(self):
        """Ends here if there are faults."""
        if self.faults:
            raise Faults(listed(self.faults))


def ranges(lines):
    """Lines in order, as 3, 5 to 9, 12."""
    runs = []
    for line in sorted(set(lines)):
        if runs and runs[-1][1] == line - 1:
            runs[-1][1] = line
        else:
            runs.append([line, line])
    return ", ".join(str(a) if a == b else f"{a} to {b}" for a, b in runs)


def listed(faults):
    """A line of text for each thing that is said, with all lines that it is said of."""
    said = defaultdict(list)
    for line, what in sorted(faults):
        said[what].append(line)
    return [f"line{'s' * (len(set(lines)) > 1)} {ranges(lines)}: {what}" for what, lines in said.items()]


def coordinate(word, line):
    if not NUMBER.fullmatch(word):
        raise Fault(line, f"{word} is not a decimal number")
    return Fraction(word)


def whole(word, line):
    if not WHOLE.fullmatch(word):
        raise Fault(line, f"{word} is not a whole number")
    return int(word)


def lines_of(data):
    """The words of each line, without a byte order mark and empty lines at the end."""
    text = data.decode("utf-8", "replace").removeprefix("\ufeff")
    lines = [line.split() for line in re.split(r"\r\n|\r|\n", text)]
    while lines and not lines[-1]:
        lines.pop()
    return lines


def numbered(lines, first, count):
    """So many lines, from this one on, with their numbers."""
    return enumerate(lines[first - 1:first - 1 + count], first)


def read_text(lines):
    """A net in the layout of a text that ./refine reads or prints."""
    is_answer, counts, names = lines[0] == ["vertices", "faces"], *(lines + [[], []])[1:3]
    if len(counts) not in (2, 3):
        raise Fault(2, "two or three counts stand here")
    vertices, faces, *rounds = (whole(word, 2) for word in counts)
    if min(vertices, faces) < 0:
        raise Fault(2, "a count is not negative")
    if names not in (["x", "y", "z"], ["x", "y", "z", "corner"]) and not (is_answer and names == ["x", "y", "z", "corner", "rule"]):
        raise Fault(3, "x y z, with or without corner, stands here")
    net, end = Net(*rounds, letters=lines[0][3:] == ["rule"]), 4 + vertices + faces
    for line, words in numbered(lines, 4, vertices):
        with net.gathering():
            read_vertex(net, words, line, len(names))
    for line, words in numbered(lines, 4 + vertices, 1):
        if words != ["a", "b", "c", "d"]:
            net.faults.append((line, "a b c d stands here"))
    for line, words in numbered(lines, 5 + vertices, faces):
        with net.gathering():
            if len(words) != 4:
                raise Fault(line, f"a face of {len(words)} corners; every face has four")
            net.faces.append(([whole(word, line) for word in words], line))
    if len(lines) != end:
        net.faults.append((end + 1, "a surplus line") if len(lines) > end else (len(lines) + 1, "a line is missing here"))
    return net


def read_vertex(net, words, line, width):
    """A vertex of a text; one with a fault is a vertex all the same."""
    net.points.append(((0, 0, 0), [line]))
    if len(words) != width:
        raise Fault(line, f"a vertex has {width} words here")
    net.points[-1] = ([coordinate(word, line) for word in words[:3]], [line])
    if words[3:4] not in ([], ["0"], ["1"]):
        raise Fault(line, "a mark is 0 or 1")
    if words[4:] and words[4] not in set("VABMSCDE"):
        raise Fault(line, f"{words[4]} is no letter of an answer")
    if words[3:4] == ["1"]:
        net.marked[line - 4] = line


def obj_number(word, line, count):
    """The vertex number, from 0, that a word of an OBJ line means; a negative one counts back from the last vertex so far."""
    number = whole(word.split("/")[0], line)
    return number - 1 if number > 0 else count + number if number < 0 else -1


def read_obj(lines):
    stated = re.fullmatch(f"# rounds ({WHOLE.pattern})", " ".join(sum(lines[:1], [])))
    net = Net(int(stated[1]) if stated else None)
    for line, words in enumerate(joined(lines), 1):
        if words:
            with net.gathering():
                read_obj_line(net, words[0], words[1:], line)
    for line, words in enumerate(lines, 1):
        if words[:2] == ["#", "corner"] and all(map(str.isdecimal, words[2:])):
            net.marked.update((int(word) - 1, line) for word in words[2:])
    if not net.points and not stated and not net.faults:
        raise Fault(1, "neither an OBJ file with vertices nor the text of a net")
    return net


def read_obj_line(net, kind, rest, line):
    if kind == "v":
        net.points.append(((0, 0, 0), [line]))
        if len(rest) < 3:
            raise Fault(line, "a vertex has three coordinates")
        net.points[-1] = ([coordinate(word, line) for word in rest[:3]], [line])
    elif kind == "f":
        if len(rest) < LEAST_SIDES:
            raise Fault(line, f"a face of {len(rest)} corners")
        net.faces.append(([obj_number(word, line, len(net.points)) for word in rest], line))
    elif kind == "p":
        net.marked.update((obj_number(word, line, len(net.points)), line) for word in rest)
    elif kind not in IGNORED:
        raise Fault(line, f"'{kind}' is no word of an OBJ file of points and faces")


def joined(lines):
    """Lines without their comments; those that end in a backslash go on in the next one, which leaves an empty line there."""
    begun = []
    for words in lines:
        words = begun + words
        comment = next((n for n, word in enumerate(words) if word.startswith("#")), len(words))
        words, begun = words[:comment], []
        if words and words[-1].endswith("\\"):
            words, begun = [], [*words[:-1], *filter(None, [words[-1][:-1]])]
        yield words
    if begun:
        yield begun


def read(data):
    """The net, with its faults so far, and whether it was a text."""
    lines = lines_of(data)
    if lines[:1] == [["refusal", "place"]]:
        raise Fault(1, f"a refusal, number and place {' '.join(sum(lines[1:], []))}, and no net")
    is_text = bool(lines) and " ".join(lines[0]) in ("vertices faces", "vertices faces rounds", "vertices faces rounds rule")
    net = read_text(lines) if is_text else read_obj(lines)
    count = len(net.points)
    net.faults += [(line, "a corner that is no vertex") for corners, line in net.faces if not all(0 <= corner < count for corner in corners)]
    net.faults += [(line, "a mark on a point that is no vertex") for v, line in net.marked.items() if not 0 <= v < count]
    return net, is_text


def rounded(value):
    """The nearest whole number, halves upward."""
    return (2 * value.numerator + value.denominator) // (2 * value.denominator)


def to_counts(net, scale):
    for n, (point, lines) in enumerate(net.points):
        counts = tuple(rounded(value * scale) for value in point)
        beyond = max(counts, key=abs)
        if abs(beyond) > LIMIT:
            net.faults.append((lines[0], f"a coordinate of {beyond:,} counts, beyond {LIMIT:,}; see --scale"))
        net.points[n] = (counts, lines)


def cut(net):
    """A face of six sides, eight and so on becomes quadrilaterals, a ladder of them, so that no corner gets more than one new edge."""
    faces = []
    for corners, line in net.faces:
        n = len(corners)
        ladder = [(i, i + 1, n - 2 - i, n - 1 - i) for i in range((n - 2) // 2)] if n > 4 and n % 2 == 0 else [range(n)]
        faces += [([corners[i] for i in rung], line) for rung in ladder]
    net.faces = faces


def demand_quadrilaterals(net):
    """A fault for each face that neither form has, with what takes it."""
    for corners, line in net.faces:
        n = len(corners)
        if n != 4:
            taker = "the call that makers build in takes it, with side counts (docs/MAKERS.md)" if n <= MOST_SIDES else "nor does the call that makers build in take it"
            net.faults.append((line, f"a face of {n} corners, which neither form has; {taker}" + "; --cut makes quadrilaterals of it" * (n % 2 == 0)))


def renumber(net, numbers, kept):
    """The vertices `kept`, where vertex v becomes number numbers[v]."""
    net.points = [net.points[v] for v in kept]
    net.marked = {numbers[v]: line for v, line in net.marked.items() if v in numbers}
    net.faces = [([numbers[v] for v in corners], line) for corners, line in net.faces]


def weld(net):
    first = {}
    kept = [v for v, (point, _) in enumerate(net.points) if first.setdefault(point, v) == v]
    for v, (point, lines) in enumerate(net.points):
        if first[point] != v:
            net.points[first[point]][1].extend(lines)
    place = {v: n for n, v in enumerate(kept)}
    renumber(net, {v: place[first[point]] for v, (point, _) in enumerate(net.points)}, kept)
    net.faults += [(line, "two corners of the face are equal points") for corners, line in net.faces if len(set(corners)) < len(corners)]


def drop(net):
    used = {v for corners, _ in net.faces for v in corners}
    kept = [v for v in range(len(net.points)) if v in used]
    renumber(net, {v: n for n, v in enumerate(kept)}, kept)


def faces_of_edges(net):
    """For each edge the faces at it, each with whether it runs there from the lower vertex to the higher."""
    edges = defaultdict(list)
    for f, (corners, _) in enumerate(net.faces):
        for a, b in zip(corners, corners[1:] + corners[:1]):
            edges[min(a, b), max(a, b)].append((f, a < b))
    return edges


def turned_faces(count, beside):
    """The faces that run otherwise than the first of their piece; `beside` has for each face those over an edge of two, and whether both run alike
    along it."""
    turned = {}
    for start in range(count):
        waiting = [] if start in turned else [start]
        turned.setdefault(start, False)
        while waiting:
            f = waiting.pop()
            for g, alike in beside[f]:
                if g not in turned:
                    turned[g] = turned[f] != alike
                    waiting.append(g)
    return turned


def turn(net):
    """All faces of a piece run as its first one does; a piece goes on over edges of two faces. Edges of more, and those of a piece with one side, are told."""
    edges, beside = faces_of_edges(net), defaultdict(list)
    for (f, f_up), (g, g_up) in (pair for pair in edges.values() if len(pair) == 2):
        beside[f].append((g, f_up == g_up))
        beside[g].append((f, f_up == g_up))
    turned = turned_faces(len(net.faces), beside)
    net.faces = [(corners[:1] + corners[:0:-1] if turned[f] else corners, line) for f, (corners, line) in enumerate(net.faces)]
    net.notes.append(f"{many(sum(turned.values()), 'face', 'faces')} turned")
    for edge, faces in edges.items():
        where = ranges(net.faces[f][1] for f, _ in faces)
        if len(faces) > 2:
            net.notes.append(f"lines {where}: {len(faces)} faces at one edge, vertices {edge[0]} and {edge[1]}; ./refine refuses it by 9")
        elif len(faces) == 2 and (turned[faces[0][0]] != turned[faces[1][0]]) != (faces[0][1] == faces[1][1]):
            net.notes.append(f"lines {where}: two faces of a piece with one side alone; ./refine refuses it by 9")


def mark_corners(net):
    times = Counter(v for corners, _ in net.faces for v in corners)
    net.marked.update((v, net.points[v][1][0]) for v, count in times.items() if count == 1)


def write_text(net, rounds, letters):
    yield "vertices faces rounds rule" if letters else "vertices faces rounds"
    yield f"{len(net.points)} {len(net.faces)} {rounds}"
    yield "x y z corner"
    for v, (point, _) in enumerate(net.points):
        yield " ".join(map(str, (*point, int(v in net.marked))))
    yield "a b c d"
    for corners, _ in net.faces:
        yield " ".join(map(str, corners))


def decimal(value):
    """A fraction written to its last decimal, or nothing if there is none."""
    places = next((k for k in range(400) if 10 ** k % value.denominator == 0), None)
    if places is None:
        return None
    digits = f"{abs(value.numerator) * 10 ** places // value.denominator:0{places + 1}d}"
    whole_part, rest = digits[:len(digits) - places], digits[len(digits) - places:]
    return ("-" if value < 0 else "") + whole_part + ("." + rest if rest else "")


def decimals(net, scale):
    """The points divided by the scale, in words."""
    points = [([decimal(value / scale) for value in point], lines[0]) for point, lines in net.points]
    net.faults += [(line, "a coordinate without a last decimal at this --scale") for words, line in points if None in words]
    net.settle()
    return [words for words, _ in points]


def write_obj(net, scale, points):
    for words in decimals(net, scale):
        yield " ".join(["v", *words])
    if net.marked:
        yield " ".join(["p" if points else "# corner", *(str(v + 1) for v in sorted(net.marked))])
    for corners, _ in net.faces:
        yield " ".join(["f", *(str(v + 1) for v in corners)])


def write_ply(net, scale):
    marks = ["property uchar corner"] * bool(net.marked)
    yield from ["ply", "format ascii 1.0", f"element vertex {len(net.points)}", *(f"property double {axis}" for axis in "xyz"), *marks]
    yield from [f"element face {len(net.faces)}", "property list uchar int vertex_indices", "end_header"]
    for v, words in enumerate(decimals(net, scale)):
        yield " ".join([*words, str(int(v in net.marked))] if marks else words)
    for corners, _ in net.faces:
        yield " ".join(map(str, [len(corners), *corners]))


def write_net(net, rounds):
    if net.letters:
        raise Fault(1, "letters are asked for; the OBJ form has none, write text instead")
    net.faults += [(net.points[v][1][0], "a vertex with a corner mark; the OBJ form has none, write text instead") for v in net.marked]
    net.settle()
    yield f"# rounds {rounds}"
    yield from write_obj(net, Fraction(1), False)


def write_map(net, file):
    """For each vertex and face, numbered as ./refine does, the line or lines that it came from."""
    with open(file, "w", encoding="ascii") as out:
        for v, (_, lines) in enumerate(net.points):
            print("vertex", v, "line", *lines, file=out)
        for f, (_, line) in enumerate(net.faces):
            print("face", f, "line", line, file=out)


def many(count, one, more):
    return f"{count:,} {one if count == 1 else more}"


def counted(net):
    return f"{many(len(net.points), 'vertex', 'vertices')}, {many(len(net.faces), 'face', 'faces')}, {many(len(net.marked), 'corner mark', 'corner marks')}"


def served(net, rounds, size):
    """How many refined faces there are, and what serves them where ./refine does not."""
    if not 0 <= rounds <= MOST_ROUNDS:
        yield f"{counted(net)}; warning: ./refine does not serve {rounds} rounds, 0 to {MOST_ROUNDS} alone"
        return
    vertices, faces = len(net.points), len(net.faces)
    refined = faces * 4 ** rounds
    yield f"{counted(net)}; {many(refined, 'refined face', 'refined faces')} after {many(rounds, 'round', 'rounds')}"
    limits = (refined, REFINED, "refined faces"), (vertices, VERTICES, "vertices"), (size, BYTES, "bytes")
    beyond = [f"{number:,} {what} ({most:,} at most)" for number, most, what in limits if number > most]
    if beyond:
        fewer = next((k for k in range(rounds, -1, -1) if faces * 4 ** k <= REFINED), None)
        cures = [f"--rounds {fewer}"] * (len(beyond) == 1 and refined > REFINED and fewer is not None)
        if vertices <= CALL_VERTICES and faces <= CALL_FACES:
            cures.append("the call that makers build in" + " with fewer rounds" * (refined > CALL_REFINED) + " (docs/MAKERS.md)")
        yield f"warning: ./refine does not serve {', '.join(beyond)}; what does: {' or '.join(cures) or 'nothing here, the net is too large for the call that makers build in too'}"


def converted(data, given):
    """The lines to write, and what to say of them."""
    net, is_text = read(data)
    if given.form in ("obj", "ply"):
        if not is_text:
            raise Fault(1, "not the text of a net, and only that is written for other programs")
        net.settle()
        return list(write_obj(net, given.scale, given.points) if given.form == "obj" else write_ply(net, given.scale)), [counted(net)]
    to_counts(net, given.scale)
    if given.cut:
        cut(net)
    demand_quadrilaterals(net)
    net.settle()
    for step, wanted in ((weld, given.weld), (drop, given.drop), (turn, given.turn), (mark_corners, given.corners)):
        if wanted:
            step(net)
            net.settle()
    if given.map:
        write_map(net, given.map)
    rounds = next(number for number in (given.rounds, net.rounds, 2) if number is not None)
    lines = list(write_net(net, rounds) if given.form == "net" else write_text(net, rounds, net.letters or given.letters))
    return lines, [*net.notes, *served(net, rounds, sum(len(line) + 1 for line in lines))]


def scale_of(word):
    if not NUMBER.fullmatch(word) or not Fraction(word) > 0:
        raise argparse.ArgumentTypeError("a decimal number above 0 is wanted")
    return Fraction(word)


def rounds_of(word):
    if not re.fullmatch("[0-6]", word):
        raise argparse.ArgumentTypeError("0 to 6 is wanted")
    return int(word)


def arguments():
    options = argparse.ArgumentParser(description=__doc__, formatter_class=argparse.RawDescriptionHelpFormatter)
    options.add_argument("form", choices=["text", "net", "obj", "ply"], help="what to write")
    options.add_argument("file", nargs="?", default="-", metavar="FILE")
    options.add_argument("--scale", type=scale_of, default=Fraction(1), metavar="S", help="counts in a unit (1)")
    options.add_argument("--rounds", type=rounds_of, metavar="K", help="rounds to ask for (those of the file; otherwise 2)")
    options.add_argument("--letters", action="store_true", help="ask for a letter beside each refined vertex")
    options.add_argument("--weld", action="store_true", help="vertices with equal counts become one")
    options.add_argument("--drop", action="store_true", help="vertices in no face go")
    options.add_argument("--turn", action="store_true", help="turn the faces of each piece as its first one, and tell the edges of three faces")
    options.add_argument("--cut", action="store_true", help="cut faces of six sides, eight and so on into quadrilaterals")
    options.add_argument("--corners", action="store_true", help="mark each vertex that is in one face only")
    options.add_argument("--points", action="store_true", help="write marks as a line p, and not as a comment")
    options.add_argument("--map", metavar="MAP", help="write the lines that vertices and faces came from into the file MAP")
    given = options.parse_intermixed_args()
    homes = {"text": "letters corners", "text and net": "rounds weld drop turn cut map", "obj": "points"}
    for forms, names in homes.items():
        for name in names.split():
            if getattr(given, name) not in (None, False) and given.form not in forms.split():
                options.error(f"--{name} is for {forms}")
    return given


def say(file, lines):
    print(*(f"convert.py: {file}: {line}" for line in lines), sep="\n", file=sys.stderr, flush=True)


def main():
    given = arguments()
    try:
        with open(0 if given.file == "-" else given.file, "rb") as file:
            data = file.read()
        lines, notes = converted(data, given)
        say(given.file, notes)
        sys.stdout.write("".join(line + "\n" for line in lines))
        sys.stdout.flush()
    except Fault as fault:
        say(given.file, listed([fault.args]))
        sys.exit(1)
    except Faults as faults:
        say(given.file, faults.args[0])
        sys.exit(1)
    except OSError as error:
        print(f"convert.py: {error}", file=sys.stderr, flush=True)
        os._exit(1)  # at once: a standard output that failed would fail again at the end


if __name__ == "__main__":
    main()
