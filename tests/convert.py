#!/usr/bin/env python3
"""Tests tools/convert.py, and the cure that docs/FORMS.md names for line ends and a byte order mark. The exit status is 1 if a check fails."""
import pathlib
import re
import subprocess
import sys
import tempfile

ROOT = pathlib.Path(__file__).resolve().parent.parent
CASES = ROOT / "tests/nets/cases"
SAMPLE = (CASES / "paper-sample.txt").read_text(encoding="ascii")
MARK = "\ufeff"
faults = []

CUBE = """# a cube as exporters write one
mtllib cube.mtl
o Cube
v -5.4 -5.4 -5.4
v +5.4 -5.4 -5.4 1.0
v 5.4 5.4 -5.4
v -5.4 5.4 -5.4
v -5.4 -5.4 5.4 0.5 0.5 0.5
v 5.4 -5.4 5.4
v 54e-1 5.4 5.4
v -5.4 5.4 .54E+1
vt 0 0
vn 0 0 1
s off
f 4/1/1 3/1/1 2/1/1 1/1/1
f 5//1 6//1 7//1 8//1
f 1 2 \\
  6 5  # below
f -7 -6 -2 -3
f 3 4 8 7
f 4 1 5 8
"""
CUBE_TEXT = """vertices faces rounds
8 6 2
x y z corner
-540 -540 -540 0
540 -540 -540 0
540 540 -540 0
-540 540 -540 0
-540 -540 540 0
540 -540 540 0
540 540 540 0
-540 540 540 0
a b c d
3 2 1 0
4 5 6 7
0 1 5 4
1 2 6 5
2 3 7 6
3 0 4 7
"""
# The net of examples/unmarked.txt in millimetres, in the manner of Blender.
HATCH = """# Blender v2.79 (sub 0) OBJ File: 'hatch.blend'
# www.blender.org
mtllib hatch.mtl
o Hatch_Grid.001
v 0.000000 0.000000 -0.000000
v 450.000000 0.000000 0.000000
v 900.000000 0.000000 0.000000
v 0.000000 300.000000 0.000000
v 450.000000 300.000000 80.000000
v 900.000000 300.000000 0.000000
v 0.000000 600.000000 0.000000
v 450.000000 600.000000 0.000000
v 900.000000 600.000000 0.000000
vt 0.000000 0.000000
vt 1.000000 0.000000
vt 1.000000 1.000000
vt 0.000000 1.000000
vn -0.0879 -0.1318 0.9874
vn 0.0879 -0.1318 0.9874
vn -0.0879 0.1318 0.9874
vn 0.0879 0.1318 0.9874
usemtl None
s off
f 1/1/1 2/2/1 5/3/1 4/4/1
f 2/1/2 3/2/2 6/3/2 5/4/2
f 4/1/3 5/2/3 8/3/3 7/4/3
f 5/1/4 6/2/4 9/3/4 8/4/4
"""
# The same net as assimp 5.2.0 wrote it (assimp export, from a PLY file), which numbers the vertices by the faces.
ASSIMP = """# File produced by Open Asset Import Library (http://www.assimp.sf.net)
# (assimp v5.2.0)

mtllib hatch.mtl

# 9 vertex positions
v 0 0 0
v 450 0 0
v 450 300 80
v 0 300 0
v 900 0 0
v 900 300 0
v 450 600 0
v 0 600 0
v 900 600 0

# 0 UV coordinates

# 4 vertex normals
vn 0 0 1
vn 0 -0.257662654 0.966234982
vn 0.169295579 0.253943384 0.952287674
vn -0.175033331 0 0.984562516

# Mesh '' with 4 faces
usemtl $Material_0
f  1//1 2//2 3//3 4//4
f  2//2 5//2 6//3 3//3
f  4//4 3//3 7//3 8//4
f  3//3 6//3 9//3 7//3

"""
ASSIMP_NET = """# rounds 3
v 0 0 0
v 45000 0 0
v 45000 30000 8000
v 0 30000 0
v 90000 0 0
v 90000 30000 0
v 45000 60000 0
v 0 60000 0
v 90000 60000 0
f 1 2 3 4
f 2 5 6 3
f 4 3 7 8
f 3 6 9 7
"""
HATCH_NET = """# rounds 3
v 0 0 0
v 45000 0 0
v 90000 0 0
v 0 30000 0
v 45000 30000 8000
v 90000 30000 0
v 0 60000 0
v 45000 60000 0
v 90000 60000 0
f 1 2 5 4
f 2 3 6 5
f 4 5 8 7
f 5 6 9 8
"""
# Two squares that do not share their points yet, one point in no face.
APART = """v 0 0 0
v 1 0 0
v 1 1 0
v 0 1 0
v 9 9 9
v 1.004 0 0
v 2 0 0
v 2 1 0
v 0.996 1 0
f 1 2 3 4
f 6 7 8 9
"""
JOINED = "vertices faces rounds\n6 2 1\nx y z corner\n0 0 0 1\n100 0 0 0\n100 100 0 0\n0 100 0 1\n200 0 0 1\n200 100 0 1\na b c d\n0 1 2 3\n1 4 5 2\n"


def convert(*words, text=""):
    data = text if isinstance(text, bytes) else text.encode()
    return subprocess.run([sys.executable, ROOT / "tools/convert.py", *words], input=data, capture_output=True, timeout=60)


def gives(name, wanted, *words, text, said=" vertices, "):
    """The whole result, and a part of what is said of it; the last line counts the net, but for a warning after it."""
    done = convert(*words, text=text)
    told = done.stderr.decode().splitlines()
    if done.returncode or said not in done.stderr.decode() or " corner mark" not in "".join(told[-2:]) or done.stdout.decode() != wanted:
        faults.append(f"{name}: status {done.returncode}, {done.stderr.decode()}{done.stdout[:300]}")


def fails(message, *words, text, status=1):
    done = convert(*words, text=text)
    said = done.stderr.decode()
    if done.returncode != status or message not in said or "Traceback" in said or done.stdout:
        faults.append(f"{words} on {text[:80]!r}: status {done.returncode}, {said}")


def refine(data):
    return subprocess.run([ROOT / "refine"], input=data, capture_output=True, timeout=600).stdout


def square(*x):
    """An OBJ file of one face, whose vertices have these x."""
    return "".join(f"v {value} {n} 0\n" for n, value in enumerate(x)) + "f 1 2 3 4\n"


def both_ways():
    """Every third accepted stored net with vertices and a column of marks: text, OBJ, text, and by the OBJ form if it can say the net."""
    names = [path for path in sorted(CASES.glob("*.txt")) if path.with_suffix(".out").read_text(encoding="ascii").startswith("vertices")]
    texts = [text for text in (path.read_text(encoding="latin-1") for path in names) if re.match(r".*\n[1-9].*\nx y z corner\n", text)][::3]
    asking = [text for text in texts if text.startswith("vertices faces rounds rule\n")]
    plain = 0
    for text in texts:
        rounds, wish = text.splitlines()[1].split()[2], ["--letters"] * (text in asking)
        net = convert("obj", "--scale", "32", text=text).stdout.decode()
        gives("text to OBJ and back", text, "text", "--scale=32", "--rounds", rounds, *wish, text=net)
        gives("a text stays", text, "text", text=text)
        if wish or "\n# corner " in net:
            fails("the OBJ form has none, write text instead", "net", text=text)
        else:
            gives("text to the OBJ form and back", text, "text", text=convert("net", text=text).stdout)
            plain += 1
    if len(texts) < 15 or not asking or len(asking) == len(texts) or plain < 5:
        faults.append(f"only {len(texts)} stored nets, {len(asking)} with letters, {plain} in the OBJ form")
    answer = (CASES / "paper-sample.out").read_text(encoding="ascii")
    again = answer.replace("faces\n9 4\n", "faces rounds\n9 4 3\n")
    gives("an answer to refine again", again, "text", "--rounds=3", text=answer)
    lettered = (CASES / "rule-sample.out").read_text(encoding="ascii")
    gives("an answer with letters to refine again", again, "text", "--rounds=3", text=lettered)
    gives("the same with letters", again.replace("rounds", "rounds rule"), "text", "--rounds=3", "--letters", text=lettered)
    gives("letters asked for", SAMPLE.replace("rounds", "rounds rule"), "text", "--letters", text=SAMPLE)
    if convert("obj", text=lettered).stdout != convert("obj", text=answer).stdout:
        faults.append("an answer with letters gives another OBJ file")


def cures(folder):
    form = (ROOT / "docs/FORMS.md").read_text(encoding="utf-8")
    command = re.search(r"^    (sed -i .*) net\.txt$", form, re.M)[1]
    for kind, sample in ("text", SAMPLE), ("net", HATCH_NET):
        bare = sample.replace("\n", "\r\n")
        for text in bare, MARK + sample, MARK + bare:
            if refine(text.encode()) != b"refusal place\n13 1\n":
                faults.append(f"not refused at line 1: {text[:30]!r}")
            gives("a cured text", sample, kind, text=text)
            (folder / "net.txt").write_bytes(text.encode())
            subprocess.run(["bash", "-c", f"{command} net.txt"], cwd=folder, check=True)
            if (folder / "net.txt").read_bytes() != sample.encode():
                faults.append(f"{command} does not cure {text[:30]!r}")
    gives("blanks, signs and zeros", SAMPLE, "text", text=SAMPLE.replace(" ", "  ").replace("\n", " \n").replace("16", "+016").rstrip())
    gives("old line ends", SAMPLE, "text", text=SAMPLE.replace("\n", "\r"))
    gives("OBJ with both", CUBE_TEXT, "text", "--scale=100", text=MARK + CUBE.replace("\n", "\r\n"))


def scales():
    """Halves upward, worked out exactly: in binary floats 1.005 * 100 is below 100.5."""
    exact = {"1.005": 101, "-1.005": -100, "0.005": 1, "-0.005": 0, "0.00499999999999999999999999": 0, "-0.00499999999999999999999999": 0,
             "1e2": 10000, "5e-3": 1, "10485.76": 1048576, "-10485.76499": -1048576, ".5": 50, "7.": 700}
    for n in range(0, len(exact), 4):
        words = list(exact)[n:n + 4]
        done = convert("text", "--scale=100", text=square(*words)).stdout.decode().splitlines()[3:7]
        if [int(line.split()[0]) for line in done] != [exact[word] for word in words]:
            faults.append(f"{words} become {done}")
    gives("decimals in a text", SAMPLE, "text", "--scale=10", text=SAMPLE.replace("16 ", "1.6 "))
    inch = convert("obj", "--scale=2540", text=SAMPLE.replace("16 16 0", "1270 -2541 0"))
    fails("lines 5 to 7: a coordinate without a last decimal", "obj", "--scale=2540", text=SAMPLE.replace("16 0 0", "1 0 0"))
    if inch.returncode == 0:
        faults.append("-2541/2540 has been written as a decimal")


def nets():
    gives("a cube", CUBE_TEXT, "text", "--scale=100", text=CUBE)
    gives("welded", JOINED, "text", "--scale=100", "--rounds=1", "--weld", "--drop", "--corners", text=APART)
    gives("marks by points", SAMPLE.replace(" 1 1\n", " 1 2\n", 1).replace("0 16 0 1", "0 16 0 0"), "text", text="v 0 0 0\nv 16 0 0\nv 16 16 0\nv 0 16 0\np 1 2\np -2\nf 1 2 3 4\n")
    refined = convert("obj", "--scale=100", text=refine(convert("text", "--scale=100", text=CUBE).stdout)).stdout.decode().splitlines()
    if [line.split()[0] for line in refined] != ["v"] * 98 + ["f"] * 96 or "v 0 -5.9 -5.9" not in refined:
        faults.append(f"the cube from OBJ to OBJ: {refined[:40]}")


def obj_form():
    """The OBJ form that ./refine reads: what is written, both ways with its rounds, and its answer."""
    gives("another program's file", HATCH_NET, "net", "--scale=100", "--rounds=3", text=HATCH)
    gives("a file that assimp wrote", ASSIMP_NET, "net", "--scale=100", "--rounds=3", text=ASSIMP)
    if refine(ASSIMP_NET.encode()) != refine(convert("text", text=ASSIMP_NET).stdout) or refine(ASSIMP.encode()) != b"refusal place\n13 1\n":
        faults.append("the file that assimp wrote gets another answer")
    text = convert("text", "--scale=100", "--rounds=3", text=HATCH).stdout.decode()
    gives("the OBJ form to text", text, "text", text=HATCH_NET)
    gives("text to the OBJ form", HATCH_NET, "net", text=text)
    answers = {refine(net) for net in (HATCH_NET.encode(), text.encode(), (ROOT / "examples/unmarked.txt").read_bytes())}
    if len(answers) != 1 or not answers.pop().startswith(b"vertices faces\n"):
        faults.append("the OBJ form and the text of a net get different answers")
    gives("welded", "# rounds 1\nv 0 0 0\nv 100 0 0\nv 100 100 0\nv 0 100 0\nv 200 0 0\nv 200 100 0\nf 1 2 3 4\nf 2 5 6 3\n", "net", "--scale=100", "--rounds=1", "--weld", "--drop", text=APART)
    net = square(0, 1, 2, 3)
    for first, rounds in {"# rounds 5": 5, "#  rounds +05 ": 5, "# rounds 7": 7, "# rounds 5 times": 2, "# rounds": 2, "#rounds 5": 2, "# rounds 5.0": 2, "#\n# rounds 5": 2}.items():
        gives(f"first line {first!r}", f"# rounds {rounds}\n{net}", "net", text=f"{first}\n{net}")
    gives("other rounds", f"# rounds 0\n{net}", "net", "--rounds=0", text=f"# rounds 5\n{net}")
    empty = "vertices faces rounds\n0 0 3\nx y z corner\na b c d\n"
    gives("the empty net in the OBJ form", "# rounds 3\n", "net", text=empty)
    gives("the empty net from the OBJ form", empty, "text", text="# rounds 3\n")
    answer = (CASES / "paper-square-unmarked.out").read_text(encoding="ascii")
    gives("an answer by the OBJ form", convert("text", "--rounds=3", text=answer).stdout.decode(), "text", text=convert("net", "--rounds=3", text=answer).stdout)
    fails("lines 4 to 7: a vertex with a corner mark", "net", text=SAMPLE)
    fails("line 2: a vertex with a corner mark", "net", text=f"{net}p 2\n")
    fails("line 1: letters are asked for", "net", text=(CASES / "rule-grid-3-3.txt").read_text(encoding="ascii"))
    for option in "--letters", "--corners":
        fails("is for text", "net", option, text=net, status=2)


def marks():
    """Marks go out as a comment, or on request as a line `p`, and come back from both."""
    for words, line in ((), "\n# corner 1 2 3 4\n"), (("--points",), "\np 1 2 3 4\n"):
        net = convert("obj", *words, text=SAMPLE).stdout.decode()
        if line not in net or net.count("corner") + net.count("p ") != 1:
            faults.append(f"marks are written as {net}")
        gives("marks there and back", SAMPLE, "text", "--rounds=1", text=net)
    gives("a comment on corners", SAMPLE.replace("16 0 1", "16 0 0").replace("0 0 1", "0 0 0").replace("16 0 0 1", "16 0 0 0"), "text", "--rounds=1",
          text="# corner of a room\n# corners 1 2\n#corner 1\n" + convert("obj", text=SAMPLE).stdout.decode().replace("# corner 1 2 3 4", "# corner"), said="0 corner marks")
    fails("line 6: a mark on a point that is no vertex", "text", text=square(0, 1, 2, 3) + "# corner 2 5\n")


def all_faults():
    """Every fault with its lines, those that are alike in one line."""
    done = convert("text", text="v 0 0 0\nv 1 x 0\nv 1 1\nhello\nv 9999999 0 0\nf 1 2\n" + "f 1 2 3\n" * 3 + "f 1 2 3 9\nf 1 2 3\np 7\nf 1 2 3 4 1 2\n")
    wanted = ["line 2: x is not a decimal number", "line 3: a vertex has three coordinates", "line 4: 'hello' is no word of an OBJ file of points and faces",
              "line 5: a coordinate of 9,999,999 counts, beyond 1,048,576; see --scale", "line 6: a face of 2 corners",
              "lines 7 to 9, 11: a face of 3 corners, which neither form has; the call that makers build in takes it, with side counts (docs/MAKERS.md)",
              "line 10: a corner that is no vertex", "line 12: a mark on a point that is no vertex",
              "line 13: a face of 6 corners, which neither form has; the call that makers build in takes it, with side counts (docs/MAKERS.md); --cut makes quadrilaterals of it"]
    if done.returncode != 1 or done.stdout or done.stderr.decode().splitlines() != [f"convert.py: -: {line}" for line in wanted]:
        faults.append(f"the faults of a file: {done.stderr.decode()}")
    fails("lines 4, 6: a mark is 0 or 1", "text", text=SAMPLE.replace("0 0 0 1", "0 0 0 2").replace("16 16 0 1", "16 16 0 3"))
    fails("line 9: a line is missing", "text", text=SAMPLE.replace("0 0 0 1", "0 0 0 2")[:-8])
    fails("a face of 9 corners, which neither form has; nor does the call that makers build in take it\n", "text", "--cut", text=square(0, 1, 2, 3).replace("1 2 3 4", "1 2 3 4 1 2 3 4 1"))


def turns():
    """Faces of one piece run alike; edges of three faces and pieces with one side are told."""
    panel = "".join(f"v {x} {y} 0\n" for y in range(3) for x in range(3))
    faces = [[1, 2, 5, 4], [2, 3, 6, 5], [4, 5, 8, 7], [5, 6, 9, 8]]
    for wrong in (1,), (2, 3), (1, 2, 3):
        text = panel + "".join("f {} {} {} {}\n".format(*(face[:1] + face[:0:-1] if n in wrong else face)) for n, face in enumerate(faces))
        gives("turned faces", convert("net", text=panel + "".join("f {} {} {} {}\n".format(*face) for face in faces)).stdout.decode(), "net", "--turn", text=text, said=f" {len(wrong)} face")
        if refine(convert("net", "--turn", text=text).stdout).startswith(b"refusal") or not refine(convert("net", text=text).stdout).startswith(b"refusal place\n9 "):
            faults.append(f"--turn does not cure {wrong}")
    fin = panel + "v 1 0 1\nv 1 1 1\n" + "".join("f {} {} {} {}\n".format(*face) for face in faces + [[2, 5, 11, 10]])
    gives("an edge of three faces", convert("net", text=fin).stdout.decode(), "net", "--turn", text=fin, said="lines 12 to 13, 16: 3 faces at one edge, vertices 1 and 4; ./refine refuses it by 9\n")
    band = "".join(f"v {x} {y} {x * x}\n" for x in range(5) for y in range(2)) + "".join(f"f {a} {a + 1} {a + 3} {a + 2}\n" for a in (1, 3, 5, 7)) + "f 9 10 1 2\n"
    gives("a band with one side", convert("net", "--turn", text=band).stdout.decode(), "net", "--turn", text=band, said="two faces of a piece with one side alone")


def cuts():
    """Faces of six sides and eight become two and three quadrilaterals with the same outline."""
    for n, wanted in (4, ["1 2 3 4"]), (6, ["1 2 5 6", "2 3 4 5"]), (8, ["1 2 7 8", "2 3 6 7", "3 4 5 6"]):
        ring = "".join(f"v {x} {x * x} 0\n" for x in range(n))
        gives(f"a face of {n} sides", "# rounds 2\n" + ring + "".join(f"f {face}\n" for face in wanted), "net", "--cut", text=f"{ring}f {' '.join(map(str, range(1, n + 1)))}\n")
    for n in 3, 5, 7:
        fails(f"line {n + 1}: a face of {n} corners, which neither form has; the call", "net", "--cut", text="v 0 0 0\n" * n + f"f {' '.join(map(str, range(1, n + 1)))}\n")


def grid(wide, tall):
    rows = "".join(f"v {x} {y} 0\n" for y in range(tall + 1) for x in range(wide + 1))
    return rows + "".join(f"f {a} {a + 1} {a + wide + 2} {a + wide + 1}\n" for y in range(tall) for x in range(wide) for a in [y * (wide + 1) + x + 1])


def sizes():
    """How many faces there are, and a warning exactly where ./refine does not serve them."""
    for wide, tall, rounds, warning in (
            (16, 16, 0, ""), (4, 4, 2, ""), (5, 4, 2, "320 refined faces (256 at most); what does: --rounds 1 or the call that makers build in (docs/MAKERS.md)"),
            (40, 30, 0, "1,200 refined faces (256 at most), 1,271 vertices (1,024 at most)"), (1, 600, 0, "600 refined faces (256 at most), 1,202 vertices (1,024 at most); what does: the call"),
            (60, 60, 6, "what does: the call that makers build in with fewer rounds (docs/MAKERS.md)"), (61, 277, 0, "bytes (32,768 at most); what does: nothing here")):
        done = convert("text", f"--rounds={rounds}", text=grid(wide, tall))
        told = done.stderr.decode()
        first = f"{(wide + 1) * (tall + 1):,} vertices, {wide * tall:,} faces, 0 corner marks; {wide * tall * 4 ** rounds:,} refined faces after {rounds} round"
        if done.returncode or first not in told or warning not in told or bool(warning) != ("warning: ./refine does not serve" in told):
            faults.append(f"{wide} by {tall} faces, {rounds} rounds: {told}")
        if (refine(done.stdout)[:7] == b"refusal") != bool(warning):
            faults.append(f"{wide} by {tall} faces, {rounds} rounds: the warning is wrong")
    gives("seven rounds", "# rounds 7\n" + square(0, 1, 2, 3), "net", text="# rounds 7\n" + square(0, 1, 2, 3), said="does not serve 7 rounds")


def other_files(folder):
    """PLY, and the map from places to lines."""
    header = "ply\nformat ascii 1.0\nelement vertex 4\nproperty double x\nproperty double y\nproperty double z\n{}element face 1\nproperty list uchar int vertex_indices\nend_header\n"
    gives("PLY", header.format("property uchar corner\n") + "0 0 0 1\n0.16 0 0 1\n0.16 0.16 0 1\n0 0.16 0 1\n4 0 1 2 3\n", "ply", "--scale=100", text=SAMPLE)
    gives("PLY without marks", header.format("") + "0 0 0\n16 0 0\n16 16 0\n0 16 0\n4 0 1 2 3\n", "ply", text=SAMPLE.replace(" corner", "").replace("0 1\n", "0\n"))
    gives("a map", JOINED, "text", "--scale=100", "--rounds=1", "--weld", "--drop", "--corners", f"--map={folder}/map", text=APART)
    lines = ["vertex 0 line 1", "vertex 1 line 2 6", "vertex 2 line 3 9", "vertex 3 line 4", "vertex 4 line 7", "vertex 5 line 8", "face 0 line 10", "face 1 line 11"]
    if (folder / "map").read_text().splitlines() != lines:
        faults.append(f"the map: {(folder / 'map').read_text()}")
    fails("No such file", "text", f"--map={folder}/nowhere/map", text=SAMPLE)


def refusals():
    for corners, count in ("1 2 3", 3), ("1 2 3 4 1", 5), ("1 2", 2):
        fails(f"line 5: a face of {count} corners", "text", text=square(0, 1, 2, 3).replace("1 2 3 4", corners))
    fails("line 9: a face of 3 corners", "text", text=SAMPLE.replace("0 1 2 3\n", "0 1 2\n"))
    fails("line 9: a face of 3 corners", "obj", text=SAMPLE.replace("0 1 2 3\n", "0 1 2\n"))
    for corner in "5", "0", "-5":
        fails("line 5: a corner that is no vertex", "text", text=square(0, 1, 2, 3).replace(" 4\n", f" {corner}\n"))
    for word in "nan", "inf", "1,5", "0x10", "1e999", "--1":
        fails(f"line 2: {word} is not a decimal number", "text", text=square(0, word, 2, 3))
    fails("line 3: a coordinate of 1,048,577 counts", "text", text=square(0, 1, 1048576.5, 3))
    fails("line 7: two corners of the face are equal points", "text", "--weld", text=square(0, 1, 2, 3).replace("f", "v 0 0 0\nv 0 0 0\nf").replace("f 1 2 3 4", "f 1 2 3 5"))
    fails("line 1: a refusal, number and place 13 1", "obj", text="refusal place\n13 1\n")
    fails("line 1: neither", "text", text="")
    fails("line 1: 'hello'", "text", text="hello\n")
    fails("line 1: '", "text", text=b"\xff\xfe\0v\0")
    fails("line 9: a line is missing", "obj", text=SAMPLE[:SAMPLE.index("0 1 2 3")])
    fails("line 10: a surplus line", "text", text=SAMPLE + "0 1 2 3\n")
    fails("line 4: a mark is 0 or 1", "text", text=SAMPLE.replace("0 0 0 1", "0 0 0 2"))
    fails("line 2: ", "text", text="vertices faces rounds\n4\n")
    fails("line 3: x y z, with or without corner", "text", text=(CASES / "rule-names-of-an-answer.txt").read_text(encoding="ascii"))
    fails("line 1: 'vertices'", "text", text=(CASES / "rule-rules.txt").read_text(encoding="ascii"))
    lettered = (CASES / "rule-sample.out").read_text(encoding="ascii")
    fails("line 4: X is no letter", "obj", text=lettered.replace("0 0 0 1 V", "0 0 0 1 X"))
    fails("line 4: a vertex has 5 words", "obj", text=lettered.replace("0 0 0 1 V", "0 0 0 1"))
    fails("line 4: a mark is 0 or 1", "obj", text=lettered.replace("0 0 0 1 V", "0 0 0 2 V"))
    for text in CUBE, HATCH_NET:
        fails("only that is written for other programs", "obj", text=text)
        fails("only that is written for other programs", "ply", text=text)
    fails("No such file", "text", "nowhere", text="")
    fails("Is a directory", "text", "/", text="")
    for words in ("stl",), ("text", "--points"), ("ply", "--points"), ("ply", "--turn"), ("obj", "--map=x"), ("text", "--scale=0"), ("text", "--scale=x"), ("text", "--rounds=7"), ("obj", "--weld"), ("obj", "--letters"), ("obj", "--rounds=1"), (), ("text", "a", "b"):
        fails("usage", *words, text=SAMPLE, status=2)


def main():
    with tempfile.TemporaryDirectory() as name:
        cures(pathlib.Path(name))
        other_files(pathlib.Path(name))
    for part in both_ways, scales, nets, obj_form, marks, all_faults, turns, cuts, sizes, refusals:
        part()
    print(*faults, sep="\n", end="\n" if faults else "")
    sys.exit(1 if faults else 0)


if __name__ == "__main__":
    main()
