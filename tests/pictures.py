#!/usr/bin/env python3
"""Tests the example nets, the drawing tool and the stored pictures.

REFINE is the refiner command, as seen from the repository's root; without it, ./refine.
"""
import collections
import os
import pathlib
import shutil
import subprocess
import sys
import tempfile
import xml.etree.ElementTree

ROOT = pathlib.Path(__file__).resolve().parent.parent
REFINE = os.environ.get("REFINE", "./refine")
MARKS = {"panel": 4, "topside": 4, "bottom": 4, "dome": 3, "hatch": 4, "unmarked": 0}
DRAWN = {"panel": 16 + 256, "seam": 25 + 400, "extraordinary": 16 + 256, "corners": 256 + 256, "skylight": 11 + 160,
         "letters": 16 + 256, "apart": 25 + 400, "fin": 5, "turned": 4}
REFUSED = {"fin": "9 4", "turned": "9 3"}
DIAGRAMS = ["numbering", "split", "boundary", "extrapolated", "virtual", "face"]
SVG = "{http://www.w3.org/2000/svg}"
DRAW = [sys.executable, "tools/draw.py"]

Net = collections.namedtuple("Net", "points marks faces")


def run(*command, text=None, folder=ROOT, refine=REFINE):
    environment = {**os.environ, "REFINE": refine}
    return subprocess.run([str(word) for word in command], cwd=folder, env=environment, input=text, capture_output=True, encoding="utf-8")


def refined(text):
    """The refiner's answer, which must be a net."""
    answer = run("sh", "-c", REFINE, text=text)
    if answer.returncode or not answer.stdout.startswith("vertices faces\n"):
        sys.exit(f"the refiner {REFINE} gives no net: {answer.stdout[:40]}{answer.stderr}")
    return answer.stdout


def example(name, ending="txt"):
    return (ROOT / "examples" / f"{name}.{ending}").read_text(encoding="ascii")


def parse(text):
    lines = [line.split() for line in text.splitlines()]
    vertices = int(lines[1][0])
    rows = [tuple(map(int, line)) for line in lines[3:3 + vertices]]
    return Net([row[:3] for row in rows], [int(row[3:] == (1,)) for row in rows], [tuple(map(int, line)) for line in lines[4 + vertices:]])


def next_on_boundary(net):
    sides = {(face[s], face[(s + 1) % 4]) for face in net.faces for s in range(4)}
    return {a: b for a, b in sides if (b, a) not in sides}


def segments(net):
    """The open boundary segments as lists of points, the way the sides run."""
    after = next_on_boundary(net)
    for start in (v for v in after if net.marks[v]):
        walk = [start, after[start]]
        while not net.marks[walk[-1]]:
            walk.append(after[walk[-1]])
        yield [net.points[v] for v in walk]


def extraordinary(net):
    """The valences of inner vertices that are not 4."""
    valence = collections.Counter(v for face in net.faces for v in face)
    after = next_on_boundary(net)
    return [n for v, n in valence.items() if v not in after and n != 4]


def example_faults():
    if run(sys.executable, "examples/make.py", "--check").returncode:
        yield "examples/make.py makes other nets"
    if refined(example("unmarked", "obj")) != refined(example("unmarked")):
        yield "unmarked.obj and unmarked.txt get different answers"
    for name, marks in MARKS.items():
        for net in parse(example(name)), parse(refined(example(name))):
            if sum(net.marks) != marks:
                yield f"{name} has {sum(net.marks)} marks"
            if extraordinary(net) != ([3] if name == "dome" else []):
                yield f"{name} has extraordinary vertices of valence {extraordinary(net)}"


    for name, refusal in REFUSED.items():
        if run("sh", "-c", REFINE, text=example(name)).stdout != f"refusal place\n{refusal}\n":
            yield f"{name} is not refused by {refusal}"
    wing = run(sys.executable, "tools/convert.py", "text", "--scale=100", "--weld", "--corners", "examples/wing.obj").stdout
    if sorted(parse(refined(wing)).points) != sorted(parse(refined(example("panel"))).points):
        yield "wing.obj and panel.txt get different points"


def seam_faults():
    texts = [example("topside"), example("bottom")]
    for length, pair in (6, texts), (21, map(refined, texts)):
        first, second = (list(segments(parse(text))) for text in pair)
        shared = [walk for walk in first if walk[::-1] in second]
        if [len(walk) for walk in shared] != [length]:
            yield f"topside and bottom share segments of {[len(walk) for walk in shared]} points, not of {length}"


def boxes(picture):
    """A generous box for each text: left, right, top, bottom."""
    for text in picture.iter(f"{SVG}text"):
        wide, x, y = 9 * len(text.text), int(text.get("x")), int(text.get("y"))
        left = x - wide / 2 if text.get("class") else x
        yield left, left + wide, y - 14, y + 5


def picture_faults():
    check = run("bash", "tools/pictures.sh", "--check")
    if check.returncode:
        yield f"tools/pictures.sh --check: {check.stdout}{check.stderr}"
    if sorted(path.stem for path in (ROOT / "docs" / "pictures").iterdir()) != sorted([*DRAWN, *DIAGRAMS]):
        yield "docs/pictures has other pictures"
    for name in [*DRAWN, *DIAGRAMS]:
        path = ROOT / "docs" / "pictures" / f"{name}.svg"
        picture = xml.etree.ElementTree.parse(path).getroot()
        filled = [face for face in picture.iter(f"{SVG}path") if face.get("fill")]
        wide, tall = int(picture.get("width")), int(picture.get("height"))
        found = list(boxes(picture))
        if len(filled) != DRAWN.get(name, 0) or path.stat().st_size > 60_000:
            yield f"{name}.svg has {len(filled)} faces and {path.stat().st_size} bytes"
        if any(a < 0 or b > wide or c < 0 or d > tall for a, b, c, d in found):
            yield f"{name}.svg has a text beyond its edge"
        if any(p[0] < q[1] and q[0] < p[1] and p[2] < q[3] and q[2] < p[3] for n, p in enumerate(found) for q in found[:n]):
            yield f"{name}.svg has overlapping texts"


def same_picture_faults(folder):
    """Files or a command, from here or elsewhere, with letters or without: the same picture."""
    nets = [ROOT / "examples" / f"{name}.txt" for name in ("topside", "bottom")]
    answers = [folder / net.name for net in nets]
    for net, answer in zip(nets, answers):
        answer.write_text(refined(example(net.stem)), encoding="ascii")
    files = [file for pair in zip(nets, answers) for file in pair]
    by_files = run(sys.executable, ROOT / "tools" / "draw.py", "--view=-6,-5,-1", *files, folder=folder)
    if by_files.stdout != (ROOT / "docs" / "pictures" / "seam.svg").read_text(encoding="ascii"):
        yield f"draw.py draws the seam otherwise from files: {by_files.stderr}"
    asking = [folder / f"letters-{net.name}" for net in nets]
    for net, text in zip(nets, asking):
        text.write_text(net.read_text(encoding="ascii").replace("rounds\n", "rounds rule\n", 1), encoding="ascii")
    with_letters = run(*DRAW, "--view=-6,-5,-1", "--refine", REFINE, *asking)
    if with_letters.stdout != by_files.stdout:
        yield f"draw.py draws the seam otherwise from answers with letters: {with_letters.stderr}"
    if run("bash", ROOT / "tools" / "pictures.sh", "--check", folder=folder).returncode:
        yield "tools/pictures.sh --check fails in another folder"


CUBE = """vertices faces rounds
8 6 2
x y z
-540 -540 -540
540 -540 -540
540 540 -540
-540 540 -540
-540 -540 540
540 -540 540
540 540 540
-540 540 540
a b c d
3 2 1 0
4 5 6 7
0 1 5 4
1 2 6 5
2 3 7 6
3 0 4 7
"""


def symbol_faults(folder):
    """Which of a cube's vertices are seen before refining: the one behind hides also where it lies on the diagonal of a face before it."""
    (folder / "cube.txt").write_text(CUBE, encoding="ascii")
    for seen, words in (7, []), (7, ["--view=1,1,1"]), (4, ["--view=0,0,1"]), (6, ["--view=1,1,0"]), (0, ["--no-dots"]):
        drawn = run(*DRAW, *words, "--refine", REFINE, folder / "cube.txt").stdout.split("</g>")[0]
        if drawn.count("<use") != seen:
            yield f"draw.py {words} shows {drawn.count('<use')} vertices of a cube and not {seen}"


def alone_faults(folder):
    """A net alone: a text, an answer, an OBJ file of any program; its letters; the place of a refusal."""
    (folder / "hatch.out").write_text(refined(example("hatch").replace("rounds\n", "rounds rule\n")), encoding="ascii")
    (folder / "mixed.obj").write_text("v 0 0 0\r\nv 1.5 0 0\r\nv 1.5 1 0.25\r\nv 0 1 0\r\nv 2 .5 0\r\nvn 0 0 1\r\nf 1 2 3 4\r\nf 2//1 5//1 3//1\r\n", encoding="ascii")
    for file, faces in ("examples/panel.txt", 16), (folder / "hatch.out", 256), ("examples/wing.obj", 16), ("examples/unmarked.obj", 4), (folder / "mixed.obj", 2), ("examples/fin.txt", 5):
        drawn = run(*DRAW, "--view=0,0,1", file)
        if drawn.returncode or drawn.stdout.count(" fill=\"#") - drawn.stdout.count("<circle") - drawn.stdout.count("<rect") != faces:
            yield f"draw.py {file}: {drawn.stderr}"
    pair = [run(*DRAW, "--refine", REFINE, f"examples/unmarked.{ending}").stdout for ending in ("obj", "txt")]
    if pair[0] != pair[1] or not pair[0]:
        yield "draw.py draws unmarked.obj and unmarked.txt differently"
    letters = collections.Counter(line.split()[4] for line in (folder / "hatch.out").read_text().splitlines() if line.count(" ") == 4)
    letters.pop("rule")
    for words in [folder / "hatch.out"], ["--refine", REFINE, "examples/hatch.txt"]:
        drawn = run(*DRAW, "--view=0,0,1", "--letters", *words).stdout
        seen = {letter: drawn.count(f'<use href="#{letter}"') - 1 for letter in letters}
        if seen != letters or len(letters) < 6:
            yield f"draw.py --letters {words} shows {seen} and not {letters}"
    for words, symbol in (["--face=4"], 'class="m" d="M'), (["--vertex=9"], '<use href="#m"'), (["--vertex=0", "--face=0"], "face 0</text>"):
        if run(*DRAW, *words, "examples/fin.txt").stdout.count(symbol) < 1:
            yield f"draw.py {words} marks nothing"


def grid_text(points, step, width, height, place):
    """The text of a wavy grid of faces with sides of `step`; `place` has the number of each point."""
    rows = [f"{x * 100} {y * 100} {(x - width // 2) * (x - width // 2) * (y - height // 3) // 400}" for x, y in points]
    starts = [(x, y) for y in range(0, height, step) for x in range(0, width, step)]
    faces = [[place[x, y], place[x + step, y], place[x + step, y + step], place[x, y + step]] for x, y in starts]
    body = [f"{len(points)} {len(faces)}", "x y z", *rows, "a b c d", *(" ".join(map(str, face)) for face in faces)]
    return "".join(line + "\n" for line in ["vertices faces", *body])


def large_faults(folder):
    """A net of 1,500 faces after three rounds, 96,000 faces, is drawn in seconds."""
    width, height = 400, 240
    coarse = [(x, y) for y in range(0, height + 1, 8) for x in range(0, width + 1, 8)]
    points = list(dict.fromkeys([*coarse, *((x, y) for y in range(height + 1) for x in range(width + 1))]))
    place = {point: n for n, point in enumerate(points)}
    for name, some, step in ("coarse", coarse, 8), ("fine", points, 1):
        (folder / f"{name}.txt").write_text(grid_text(some, step, width, height, place), encoding="ascii")
    began = os.times().children_user
    answer = run(*DRAW, folder / "coarse.txt", folder / "fine.txt")
    taken = os.times().children_user - began
    if answer.returncode or answer.stdout.count("<path") < 97_500 or taken > 12:
        yield f"draw.py takes {taken:.1f} s for 96,000 faces: {answer.stderr}"


def refusals(folder):
    """Calls of draw.py that must fail: the exit status, a part of the message, the arguments."""
    panel, dome = "examples/panel.txt", "examples/dome.txt"
    text = example("panel")
    (folder / "seven.txt").write_text(text.replace("27 16 2", "27 16 7"), encoding="ascii")
    (folder / "short.txt").write_text(text[:-10], encoding="ascii")
    (folder / "beyond.txt").write_text(text.replace("\n0 1 10 9\n", "\n0 1 10 27\n"), encoding="ascii")
    (folder / "empty.txt").write_text("", encoding="ascii")
    (folder / "none.txt").write_text("vertices faces rounds\n0 0 0\nx y z\na b c d\n", encoding="ascii")
    (folder / "cut.txt").write_text("refusal place\n", encoding="ascii")
    (folder / "bytes.txt").write_bytes(b"\xff\xfe")
    (folder / "no.obj").write_text("hello\n", encoding="ascii")
    yield 1, "refused, number and place 1 0", ["--refine", REFINE, folder / "seven.txt"]
    yield 1, "cut.txt: refused", [panel, folder / "cut.txt"]
    for name in ("short", "beyond", "empty", "none"):
        yield 1, f"{name}.txt: not the text of a net", [panel, folder / f"{name}.txt"]
    yield 1, "bytes.txt: line 1: ", [folder / "bytes.txt"]
    yield 1, "no.obj: line 1: 'hello' is no word", [folder / "no.obj"]
    yield 1, "no face 5", ["--face=5", "examples/fin.txt"]
    yield 1, "no vertex 11", ["--vertex=11", "examples/fin.txt"]
    yield 1, "has no letters", ["--letters", panel]
    yield 2, "a number from 0 is wanted", ["--face=x", panel]
    yield 2, "--apart wants two nets", ["--apart=1,0,0", panel]
    yield 2, "are for drawn nets", ["--beside", "--face=1", "--refine", REFINE, panel, dome]
    yield 1, "No such file", ["--refine", REFINE, folder / "missing.txt"]
    yield 1, "No such file", ["--refine", folder / "missing", panel]
    yield 1, "non-zero exit status", ["--refine", "false", panel]
    yield 1, "does not begin with the drawn vertices", [panel, dome]
    yield 2, "one or two nets", [panel, panel, panel]
    yield 2, "one or two nets", ["--refine", REFINE, panel, dome, panel]
    yield 2, "--beside wants two nets", ["--refine", REFINE, "--beside", panel]
    for view in ("0,0,0", "1,2", "1,2,x", "1.5", "1.5,0,1", "-0,0,0", ""):
        yield 2, "three whole numbers X,Y,Z are wanted", [f"--view={view}", panel, panel]


def failing_faults(folder):
    for status, message, arguments in refusals(folder):
        answer = run(*DRAW, *arguments)
        if answer.returncode != status or message not in answer.stderr or "Traceback" in answer.stderr or answer.stdout:
            yield f"draw.py {arguments}: status {answer.returncode}, {answer.stderr}"
    for refine in "cat", "false":
        if run("bash", "tools/pictures.sh", "--check", refine=refine).returncode != 1:
            yield f"tools/pictures.sh --check passes with {refine}"
    if run(sys.executable, "tools/skylight.py", "--refine", "false").returncode != 1:
        yield "tools/skylight.py draws without a refiner"
    if run(sys.executable, "tools/diagrams.py", "nothing").returncode != 1:
        yield "tools/diagrams.py draws nothing"
    if run("bash", "tools/pictures.sh", "--chekc").returncode != 2:
        yield "tools/pictures.sh takes a wrong option"
    shutil.copy(ROOT / "examples" / "make.py", folder)
    if run(sys.executable, folder / "make.py", "--check").returncode != 1:
        yield "make.py --check passes without nets"


def main():
    with tempfile.TemporaryDirectory() as name:
        folder = pathlib.Path(name)
        groups = [example_faults(), seam_faults(), picture_faults(), same_picture_faults(folder), symbol_faults(folder), alone_faults(folder), large_faults(folder), failing_faults(folder)]
        faults = [fault for group in groups for fault in group]
    print(*faults, sep="\n", end="\n" if faults else "")
    sys.exit(1 if faults else 0)


if __name__ == "__main__":
    main()
