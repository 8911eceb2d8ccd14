#!/usr/bin/env python3
"""Checks the definitions against the reference implementation.

Nets and calls come from the seeded generator (`nets facts`). What the reference says of them is written as equalities that hold by computation, into a
scratch repository outside this one; the definitions stand there without their proofs. The kit checks it, a chunk of nets at a time. The exit status is 1 if
a definition gives something else than the reference, 2 if the kit could not tell.

    tests/definitions.py                    all kinds: 200 accepted nets, 50 with side counts, some 90 named nets, every refusal alone and in pairs, seam tests
    tests/definitions.py --short            a chunk of each group of facts, as the test command runs it
    tests/definitions.py --mutate           wrong definitions in the scratch copy must be found out
"""
import argparse
import collections
import json
import pathlib
import re
import resource
import shutil
import subprocess
import sys
import tempfile
import time

HERE = pathlib.Path(__file__).resolve().parent
# Up to so many faces a round is stated as one equality of nets, all axes; above, as faces, marks and one axis.
WHOLE_FACES = 5
# Above so many faces each coordinate is stated by itself, since the kit takes a limited number of steps for a statement.
LISTED_FACES = 24
# Up to so many corners of a net with side counts the round after its split is stated.
ROUND_CORNERS = 16
# Up to so many corners of a net the lists of the crate `seam` are stated; they are slow.
SEAM_CORNERS = 24
# Up to so many faces all letters after one round are stated as a table of the drawn net; above, those of the new vertices alone. After two rounds so many less.
LETTER_FACES = 8
# Up to so many faces the points that letters name are stated.
WORD_FACES = 5
# The estimated seconds of processor time, and the nets, of a chunk.
CHUNK_SECONDS = 30.0
CHUNK_CASES = 20
# The estimated seconds of a group in a short run.
SHORT_SECONDS = 6.0
# Disagreements that are printed for a chunk.
SHOWN = 4

# ---- the definitions that facts unfold: the modules of each group, and what else it names of them
TOPOLOGY = {"search.Search": "", "topology.Shape": "", "topology.HalfEdge": "", "topology.Boundary": ""}
NAMED = {"nets.Net": "Net", "curve.Weights": "tension"}
DRAWN = {"nets.Net": "Net, ControlNet, plain", "polygons.Polygons": ""}
GROUPS = {
    "Verdict": {
        **TOPOLOGY,
        **DRAWN,
        "topology.Vertex": "",
        "refusals.Refusals": "",
        "verdict.Call": "Call, call, Room, room, lengths",
        "verdict.Verdict": "Verdict, accepted, refused",
    },
    "Round": {
        **NAMED,
        **TOPOLOGY,
        "topology.Vertex": "",
        "topology.Quads": "",
        "lists.Tabulate": "",
        "rounding.Rounding": "",
        "fractions.Fraction": "",
        "rings.Ring": "",
        "rules.Rules": "",
        "refinedfaces.Refined": "",
        "scheme.Rings": "",
        "scheme.Points": "",
        "scheme.Step": "",
    },
    "Split": {
        **TOPOLOGY,
        **DRAWN,
        "lists.Tabulate": "",
        "rounding.Rounding": "",
        "fractions.Fraction": "",
        "rules.Rules": "",
        "refinedfaces.Refined": "",
        "splitting.Splitting": "",
    },
    "Curve": {"rounding.Rounding": "", "curve.Weights": "tension", "curve.Curve": "Kind, Open, Closed, Point"},
    "Moved": {"lists.Tabulate": "", "curve.Curve": "Point", "nets.Net": "Net, ControlNet", "nets.Moved": "moved, moved_control"},
    "Reading": {**TOPOLOGY, "topology.Boundary": "with_sides, against_sides", "lists.Tabulate": ""},
    "Seam": {
        **TOPOLOGY,
        "topology.Boundary": "with_sides, against_sides",
        "lists.Tabulate": "",
        "nets.Net": "Net",
        "curve.Curve": "Point",
        "seam.Reading": "",
    },
}
GROUPS["SeamTest"] = {**GROUPS["Verdict"], "tables.Tables": "", "seam.Reading": "", "seamtest.SeamTest": "seam_side, seam_tested_as"}
RULES = {"A": "within_segment", "B": "end_rule", "M": "single_rule", "C": "interior_edge", "D": "four_inner_edges", "E": "other_face"}
GROUPS["Letters"] = {**GROUPS["Round"], **GROUPS["Split"], "fractions.Fraction": "to_whole", "origins.Origins": "letter_of, made_by, " + ", ".join(RULES.values())}
GROUPS["Outcome"] = {
    **GROUPS["Round"],
    **GROUPS["Verdict"],
    **GROUPS["Split"],
    "nets.Buffers": "letter_table",
    "origins.Origins": "",
    "tables.Tables": "",
    "outcome.Tally": "",
    "outcome.Outcome": "refined_to, refused_with, request",
}
GROUPS["Obj"] = {
    "decimalform.Decimal": "",
    "textform.Bytes": "",
    "textform.Form": "Vertex, Face, parsed, bad_line",
    "textform.Text": "",
    "objform.Form": "",
    "objform.Text": "none, slash, vertex_line, face_line, comment_line",
}
LIBRARY = """use Rattle.std.specs.Prelude.{◌≡◌, Bool, true, false, List, [], ◌∷◌, ℕ, ◌+◌, ℤ, pos, negsuc}
use Rattle.std.proofs.Common.{refl, ap, ◌∙◌}
"""
POINTS = """abbrev at : ℤ → ℤ → ℤ → Point
at a b c = record { x = a; y = b; z = c }
"""

Fact = collections.namedtuple("Fact", "group name text stated cost")
Case = collections.namedtuple("Case", "label told nets facts")


# ---- antt text
def integer(value):
    return f"pos {value}" if value >= 0 else f"negsuc {-value - 1}"


def sequence(items):
    return " ∷ ".join([*items, "[]"])


def integers(values):
    return sequence(map(integer, values))


def naturals(values):
    return sequence(map(str, values))


def point(values):
    return "at " + " ".join(f"({integer(value)})" for value in values)


def points(values):
    return sequence(map(point, zip(values[0::3], values[1::3], values[2::3])))


def net_record(net, sides):
    vertices, faces, marks = net
    fields = f"vertices = {integers(vertices)}; faces = {naturals(faces)}; "
    fields += f"sides = {naturals(sides)}; " if sides else ""
    return f"record {{ {fields}marks = {naturals(marks)} }}"


def net_text(name, net, sides=()):
    """The text of a net, or with side counts of a net as it is drawn, after the name of its type."""
    kind = "ControlNet" if sides else "Net"
    return kind, f"abbrev {name} : {kind}\n{name} = {net_record(net, sides)}\n"


def given_text(tables):
    vertices, *others = tables
    fields = [f"vertices = {integers(vertices)}"] + [f"{name} = {naturals(table)}" for name, table in zip(("faces", "marks", "work"), others)]
    return "; ".join(fields)


def verdict_text(verdict):
    return f"refused {verdict[0]} {verdict[1]}" if verdict else "accepted"


# ---- facts of one case
def drawn(label, case):
    """The net of a call as it is drawn."""
    return label if "sides" in case else f"(plain {label})"


def weights(case):
    """The weights at the tension of a call."""
    return f"(tension {case['call']['tension']})"


def truth(value):
    return "true" if value else "false"


def verdict_facts(label, case):
    call = case["call"]
    vertices, faces, marks, work = call["room"]
    room = f"room {vertices} {faces} {marks} {truth(call['asked'])} {call['letters']} {work}"
    stated = verdict_text(call["verdict"])
    if "net" not in case:
        lengths = " ".join(map(str, call["lengths"]))
        sides = case.get("sides", [])
        yield "Verdict", "limits", f"limits_verdict {call['rounds']} ({naturals(sides)}) (lengths {lengths} ({room}))", stated, 0.05 + 0.001 * len(sides)
        return
    cost = 0.3 + 0.0004 * len(case["net"][1]) ** 2
    yield "Verdict", "call", f"verdict (call {call['rounds']} {drawn(label, case)} {call['tension']} ({room}))", stated, cost
    if call.get("net_verdict", call["verdict"]) != call["verdict"]:
        yield "Verdict", "net", f"net_verdict {drawn(label, case)}", verdict_text(call["net_verdict"]), cost


def outcome_facts(label, case):
    """What the call reports, and the record and every lent table, the letters too, as it returns."""
    call = case["call"]
    if "given" not in call:
        return
    counts, refusal, (before, after), rounds = call["counts"], call["refusal"], call["tally"], call["rounds"]
    result = f"refined_to {counts[0]} {counts[1]}" if counts else f"refused_with {refusal[0]} {refusal[1]}"
    size = len(case["net"][1]) // (1 if "sides" in case else 4)
    cost = 0.3 + (0.1 * size**2 if rounds else 0)
    letters = f"letter_table {truth(call['asked'])} ({naturals(call['given_letters'])})"
    asked = f"request {before} {rounds} {drawn(label, case)} {call['tension']} (record {{ {given_text(call['given'])} }}) ({letters})"
    left = f"buffers = record {{ {given_text(call['left'])} }}; letters = {naturals(call['left_letters'])}"
    yield "Outcome", "outcome", f"outcome ({asked})", f"record {{ result = {result}; tally = {after}; {left} }}", cost


def letter_facts(label, case, seed):
    """The letters after each number of rounds: of all vertices as a table, or of the new ones by their rules; and on one axis the points that letters name."""
    size, nets = len(case["net"][1]) // 4, [case["net"], *case["steps"]]
    for rounds, letters in enumerate(case["letters"]):
        net, name = nets[max(rounds - 1, 0)], f"{label}_after{rounds - 1}" if rounds > 1 else label
        if rounds == 0 or size <= LETTER_FACES // rounds**2:
            yield "Letters", f"letters{rounds}", f"letters {weights(case)} (plain {label}) {rounds}", naturals(letters), 0.1 + 0.02 * rounds * size**2
        if rounds > 0:
            old = len(net[2])
            rule = f"letter_of (made_by (new_rule {name}.faces {name}.marks ({old} + i)))"
            yield "Letters", f"rules{rounds}", f"tabulate {len(letters) - old} (λ (i : ℕ). {rule})", naturals(letters[old:]), 0.1 + 0.0005 * (len(net[1]) // 4) ** 2 * rounds
    if size <= WORD_FACES:
        axis = (seed + int(label[1:])) % 3
        for vertex, byte, *point in case["words"]:
            named = f"rule_value {weights(case)} {label}.faces {label}.marks (axis {label}.vertices {axis}) {vertex} {RULES[chr(byte)]}"
            yield "Letters", f"word{vertex}_{chr(byte)}", f"to_whole ({named})", integer(point[axis]), 0.02 * size


def split_letter_facts(label, case):
    """The letters of a net with side counts: after its split, and after the round then."""
    corners = len(case["net"][1])
    for rounds, letters in enumerate(case["letters"]):
        if rounds == 0 or corners <= ROUND_CORNERS:
            yield "Letters", f"letters{rounds}", f"letters {weights(case)} {label} {rounds}", naturals(letters), 0.1 + 0.003 * (1 + rounds) * corners**2


def moved_facts(label, case):
    """The net of the call with its vertex table moved."""
    if "net" not in case:
        return
    (_, faces, marks), (shift, vertices), sides = case["net"], case["moved"], case.get("sides", ())
    definition = "moved_control" if sides else "moved"
    yield "Moved", "moved", f"{definition} ({point(shift)}) {label}", net_record([vertices, faces, marks], sides), 0.05 + 0.00001 * len(vertices) ** 2


def round_facts(label, name, nets, w, seed, whole_faces):
    """A round of the net of this name: as one equality of nets, or as faces, marks and one axis, its coordinates in one list or one by one."""
    (_, faces, marks), (vertices_1, faces_1, marks_1) = nets
    size, count = len(faces) // 4, len(marks)
    if size <= whole_faces:
        yield "Round", "round", f"step {w} {name}", f"{label}_after1", 0.2 + 0.1 * size**2
        return
    axis = (seed + int(label[1:])) % 3
    coordinate = f"refined_coordinate {w} {count} {name}.faces {name}.marks (axis {name}.vertices {axis})"
    yield "Round", "faces", f"refined quads {count} {name}.faces", naturals(faces_1), 0.1
    yield "Round", "marks", f"refined_marks quads {count} {name}.faces {name}.marks", naturals(marks_1), 0.1
    if size > LISTED_FACES:
        for vertex, value in enumerate(vertices_1[axis::3]):
            yield "Round", f"axis{axis}_vertex{vertex}", f"{coordinate} {vertex}", integer(value), 0.015 * size
        return
    yield "Round", f"axis{axis}", f"tabulate {len(marks_1)} (λ (i : ℕ). {coordinate} i)", integers(vertices_1[axis::3]), 0.2 + 0.045 * size**2


def split_facts(label, case, seed, whole_faces):
    """The net where refining begins, which zero rounds give, and the round after it."""
    corners = len(case["net"][1])
    yield "Split", "split", f"start_net {label}", f"{label}_after0", 0.2 + 0.005 * corners**2
    if corners <= ROUND_CORNERS:
        yield from round_facts(label, f"{label}_after0", case["split"], weights(case), seed, whole_faces)


def second_round_facts(label, case):
    """The second round of the net after the first, which `two_rounds` puts together."""
    size = len(case["steps"][0][1]) // 4
    yield "Round", "second", f"step {weights(case)} {label}_after1", f"{label}_after2", 0.2 + 0.1 * size**2
    yield "Round", "two_rounds", f"steps {weights(case)} 2 {label}", f"{label}_after2", 0.0


def chosen_readings(readings, number):
    """The longest reading, and another one by turns."""
    if not readings:
        return []
    longest = max(readings, key=lambda reading: len(reading["points"]))
    other = readings[number % len(readings)]
    return [longest] if other is longest else [longest, other]


def curve_facts(place, reading, w):
    kind = "Open" if reading["open"] else "Closed"
    given = points(reading["points"])
    for name, definition in (("rounded", "curve"), ("exact", "exact_curve")):
        for steps, stated in enumerate(reading[name], 1):
            yield "Curve", f"{name}{place}_{steps}", f"{definition} {w} {kind} {steps} ({given})", points(stated), 0.1


def reading_facts(label, place, reading, case, with_seam):
    """The vertices along the boundary before the first round and after each; with the crate `seam`, its list of points too."""
    way, start = "with_sides" if reading["with"] else "against_sides", reading["start"]
    nets = [case["net"], *case["steps"]]
    for rounds, (net, vertices) in enumerate(zip(nets, reading["vertices"])):
        name, count = f"{label}_after{rounds}" if rounds else label, len(vertices)
        cost = 0.05 + 0.00001 * len(net[1]) ** 2
        faces = naturals(net[1])
        along = f"(λ (i : ℕ). from ({faces}) (iterate (boundary_step quads ({faces}) {way}) i (boundary_from quads ({faces}) {start})))"
        yield "Reading", f"vertices{place}_{rounds}", f"tabulate {count} {along}", naturals(vertices), cost
        if with_seam and len(net[1]) <= SEAM_CORNERS:
            read = [value for vertex in vertices for value in net[0][3 * vertex:3 * vertex + 3]]
            marks = ["true" if net[2][vertex] == 1 else "false" for vertex in vertices]
            marked = f"(λ (i : ℕ). marked {name}.marks (vertex_at quads {name}.faces {way} {start} i))"
            yield "Seam", f"points{place}_{rounds}", f"points quads {name} {way} {start} {count}", points(read), cost
            yield "Seam", f"marks{place}_{rounds}", f"tabulate {count} {marked}", sequence(marks), cost


def rows(values, width):
    return [values[at : at + width] for at in range(0, len(values), width)]


def vertex_text(values):
    x, y, z = map(integer, values)
    return f"record {{ x = {x}; y = {y}; z = {z}; mark = 0 }}"


def face_text(values):
    return "record {{ a = {}; b = {}; c = {}; d = {} }}".format(*values)


def corner_text(field):
    number, slash, part = field.partition(b"/")
    return f"(record {{ vertex = {int(number) - 1}; part = {f'slash ({naturals(part)})' if slash else 'none'} }})"


def line_text(line):
    """A line of an OBJ text that has the form, as a value."""
    if line.startswith(b"v "):
        return f"vertex_line ({vertex_text(map(int, line[2:].split(b' ')))})"
    if line.startswith(b"f "):
        return "face_line " + " ".join(map(corner_text, line[2:].split(b" ")))
    return f"comment_line ({naturals(line[1:])})"


def obj_facts(case):
    """The lines of an OBJ text are its bytes, and it is read so; or its first bad line."""
    text = bytes(case["bytes"])
    cost = 0.02 + 0.0004 * len(text)
    if "bad_line" in case:
        yield "Obj", "bad", f"parse_obj ({naturals(text)})", f"bad_line {case['bad_line']}", cost
        return
    vertices, faces = case["vertices"], case["faces"]
    counts = f"record {{ vertices = {len(vertices) // 3}; faces = {len(faces) // 4}; rounds = {case['rounds']} }}"
    read = f"vertices = {sequence(map(vertex_text, rows(vertices, 3)))}; faces = {sequence(map(face_text, rows(faces, 4)))}"
    yield "Obj", "read", f"parse_obj ({naturals(text)})", f"parsed (record {{ rule = false; counts = {counts}; {read} }}) []", cost
    # the kit takes many steps to write a large number
    if not re.search(rb"\d{6}", text):
        lines = text.split(b"\n")[1:-1]
        yield "Obj", "lines", f"obj_text {case['rounds']} ({sequence(map(line_text, lines))})", naturals(text), cost


def seam_test_facts(label, seam):
    """What the seam test reports, and its work table as it returns."""
    nets = (name if sides else f"(plain {name})" for name, sides in zip(seam_names(label), seam["sides"]))
    first, second = (f"(seam_side {net} {tension} {start})" for net, tension, start in zip(nets, seam["tensions"], seam["starts"]))
    stated = f"seam_tested_as ({verdict_text(seam['verdict'])}) {seam['edges']} ({naturals(seam['left'])})"
    cost = 0.1 + 0.0001 * sum(len(faces) ** 2 for _, faces, _ in seam["nets"])
    yield "SeamTest", "tested", f"seam_tested {first} {second} ({naturals(seam['given'])})", stated, cost


def seam_names(label):
    """The names of the two nets of a seam test."""
    return f"{label}_first", f"{label}_second"


def all_facts(label, number, case, options):
    if "bytes" in case:
        yield from obj_facts(case)
        return
    if "seam" in case:
        yield from seam_test_facts(label, case["seam"])
        return
    yield from verdict_facts(label, case)
    if options.outcome:
        yield from outcome_facts(label, case)
    yield from moved_facts(label, case)
    if "split" in case:
        yield from split_facts(label, case, options.seed, options.whole)
        yield from split_letter_facts(label, case)
    if "steps" not in case:
        return
    yield from round_facts(label, label, [case["net"], case["steps"][0]], weights(case), options.seed, options.whole)
    if len(case["steps"]) > 1:
        yield from second_round_facts(label, case)
    yield from letter_facts(label, case, options.seed)
    for place, reading in enumerate(chosen_readings(case["readings"], number)):
        yield from curve_facts(place, reading, weights(case))
        yield from reading_facts(label, place, reading, case, options.seam)


def written_case(number, case, unfolding, options):
    label = f"n{number:03}"
    facts = []
    for group, name, computed, stated, cost in all_facts(label, number, case, options):
        name = f"{label}_{name}"
        if name.endswith("two_rounds"):
            text = f"{name} : {computed} ≡ {stated}\nunfolding steps\n{name} = ap (step {weights(case)}) {label}_round ∙ {label}_second\n"
        else:
            text = f"{name} : {computed} ≡ {stated}\nunfolding {unfolding.get(group, '')}\n{name} = refl\n"
        facts.append(Fact(group, name, text, stated, cost))
    nets = []
    if "net" in case:
        nets = [net_text(label, case["net"], case.get("sides", ()))]
        nets += [net_text(f"{label}_after{k}", net) for k, net in enumerate(case.get("steps", []), 1)]
        nets += [net_text(f"{label}_after{k}", net) for k, net in enumerate(case.get("split", []))]
    if "seam" in case:
        nets = [net_text(*side) for side in zip(seam_names(label), case["seam"]["nets"], case["seam"]["sides"])]
    return Case(label, case, nets, facts)


# ---- the scratch repository
def unfoldable_names(path):
    """The definitions of a module that an `unfolding` line can name."""
    names, in_block = [], False
    for line in path.read_text(encoding="utf-8").splitlines():
        if line.startswith("unfoldable mutual"):
            in_block = True
        elif line and not line.startswith(" "):
            in_block = False
        found = re.match(r"\s*unfoldable pub (\S+)", line) or (in_block and re.match(r"\s+pub (\S+)", line))
        if found:
            names.append(found.group(1))
    return names


def headers(crates, groups):
    """For each of these groups its `use` lines, and the names that its facts unfold."""
    uses, unfolding = {}, {}
    for group in groups:
        modules = GROUPS[group]
        lines, unfolded = [LIBRARY], []
        for module, others in modules.items():
            crate, file = module.split(".")
            names = unfoldable_names(crates / crate / "specs" / f"{file}.antt")
            unfolded += names
            listed = ", ".join(names + ([others] if others else []))
            if listed:
                lines.append(f"use Rattle.{crate}.specs.{file}.{{{listed}}}\n")
        uses[group] = "".join(lines) + (POINTS if "Point" in modules.get("curve.Curve", "") else "")
        unfolding[group] = " ".join(unfolded)
    return uses, unfolding


def dependencies(tree):
    """The lines of crates.txt, as crate and crates under it."""
    lines = (tree / "crates.txt").read_text(encoding="utf-8").splitlines()
    pairs = (line.split(":") for line in lines if line.strip() and not line.startswith("#"))
    return {name.split()[0]: under.split() for name, under in pairs}


def make_scratch(tree, folder, groups):
    """Copies the definitions of the crates that facts of these groups name, and of the crates under them; returns the names of all."""
    under = dependencies(tree)
    wanted = {module.split(".")[0] for group in groups for module in GROUPS[group]} & set(under)
    waiting = list(wanted)
    while waiting:
        more = set(under.get(waiting.pop(), ())) & set(under) - wanted
        wanted |= more
        waiting += more
    lines = []
    for name in (name for name in under if name in wanted):
        source, target = tree / "crates" / name / "specs", folder / "crates" / name
        (target / "src").mkdir(parents=True)
        (target / "src" / "lib.rt").write_text("// Definitions alone.\n", encoding="utf-8")
        if source.exists():
            shutil.copytree(source, target / "specs")
            leave_code_out(target / "specs")
        lines.append(f"{name}: {' '.join(under[name])}\n")
    (folder / "crates.txt").write_text("".join(lines), encoding="utf-8")
    return [name for name in under if name in wanted]


def leave_code_out(specs):
    """Files over types that a crate's code declares need that code: they go, with the lines of Lib that name them."""
    lib = specs / "Lib.antt"
    for file in sorted(specs.glob("*.antt")):
        if ".specs.declared." in file.read_text(encoding="utf-8"):
            file.unlink()
            lib.write_text(lib.read_text(encoding="utf-8").replace(f"pub mod {file.stem}\n", ""), encoding="utf-8")


def write_crate(folder, name, crates):
    """A crate without code, over these crates; returns its name."""
    (folder / "crates" / name / "src").mkdir(parents=True)
    (folder / "crates" / name / "src" / "lib.rt").write_text("// Computed facts.\n", encoding="utf-8")
    with open(folder / "crates.txt", "a", encoding="utf-8") as file:
        file.write(f"{name}: {' '.join(crates)}\n")
    return name


def write_chunk(folder, name, cases, uses, crates):
    target = folder / "crates" / write_crate(folder, name, crates)
    (target / "proofs").mkdir()
    groups = [group for group in uses if any(fact.group == group for case in cases for fact in case.facts)]
    for group in groups:
        parts = [uses[group]]
        for case in cases:
            facts = [fact.text for fact in case.facts if fact.group == group]
            if facts:
                named = GROUPS[group].get("nets.Net", "").split(", ")
                parts += [text for kind, text in case.nets if kind in named] + facts
        (target / "proofs" / f"{group}.antt").write_text("\n".join(parts), encoding="utf-8")
    (target / "proofs" / "Lib.antt").write_text("".join(f"pub mod {group}\n" for group in groups), encoding="utf-8")


def chunks_of(cases):
    chunk, cost = [], 0.0
    for case in cases:
        own = sum(fact.cost for fact in case.facts)
        if chunk and (cost + own > CHUNK_SECONDS or len(chunk) == CHUNK_CASES):
            yield chunk
            chunk, cost = [], 0.0
        chunk.append(case)
        cost += own
    if chunk:
        yield chunk


def of_group(cases, group):
    own = [case._replace(facts=[fact for fact in case.facts if fact.group == group]) for case in cases]
    return [case for case in own if case.facts]


def short_chunks(cases):
    """A chunk for each group: cases from all over its list, none of them slow."""
    for group in GROUPS:
        own = [(sum(fact.cost for fact in case.facts), case) for case in of_group(cases, group)]
        quick = [(cost, case) for cost, case in own if cost <= SHORT_SECONDS / 3] or own[:1]
        picked = quick[:: max(1, len(quick) // CHUNK_CASES)]
        chunk, left = [], SHORT_SECONDS
        for cost, case in picked:
            if not chunk or cost <= left:
                chunk.append(case)
                left -= cost
        if chunk:
            yield chunk


# ---- the kit
def kit_check(folder, name):
    return subprocess.run(["rt", "check", "--jobs", "1"], cwd=folder / "crates" / name, stdin=subprocess.DEVNULL, capture_output=True, text=True)


def disagreements(output):
    """Each fact that the kit refuses by itself, with what the kit says of the difference."""
    for name, message in re.findall(r"^\S+\.antt:\d+:\d+: error: `(\S+)`: (.*(?:\n  .*)*)", output, re.M):
        if "was not admitted" in message or "stopped at the step limit" in message or "ran out of" in message:
            continue
        values = re.search(r"the two types are `Path (?:\([^()]*\)|\S+) (\([^()]*\)|\S+) (\([^()]*\)|\S+)` \(expected\)", message)
        difference = re.search(r"computed as far as they go, (.*)", message)
        if values:
            yield name, f"the definition gives {values.group(1)}, the reference {values.group(2)}"
        else:
            yield name, difference.group(1) if difference else "too long for the kit to show where"


def check_chunk(folder, name, cases, uses, crates):
    """The number of disagreements, which are printed; None if the kit could not tell."""
    before, start = resource.getrusage(resource.RUSAGE_CHILDREN), time.time()
    result = kit_check(folder, name)
    after = resource.getrusage(resource.RUSAGE_CHILDREN)
    seconds = after.ru_utime + after.ru_stime - before.ru_utime - before.ru_stime
    facts = {fact.name: (case, fact) for case in cases for fact in case.facts}
    found = [refusal for refusal in disagreements(result.stdout + result.stderr) if refusal[0] in facts]
    is_told = result.returncode == 0 or (result.returncode == 1 and found)
    verdict = ("DO NOT AGREE" if found else "agree") if is_told else "could not be checked"
    print(f"{name}: {cases[0].label} to {cases[-1].label}, {len(facts)} facts {verdict} ({seconds:.0f} s of processor time, {time.time() - start:.0f} s)", flush=True)
    if not is_told:
        print(f"exit status {result.returncode}\n" + (result.stdout + result.stderr)[-3000:])
        return None
    for number, (fact, difference) in enumerate(found[:SHOWN]):
        case, stated = facts[fact]
        print(f"  {fact} ({case.told['kind']}), stated as {stated.stated[:300]}: {difference[:600]}")
        if number == 0:
            print_detail(folder, case, stated, uses, crates)
    return len(found)


def print_detail(folder, case, fact, uses, crates):
    """Of a round that does not agree, the new coordinates that do not, each by itself."""
    if fact.group != "Round":
        return
    number = 1 if fact.name.endswith("second") else 0
    if "split" in case.told:
        (net, after), label = case.told["split"], f"{case.label}_after0"
    else:
        net, after = [case.told["net"], *case.told["steps"]][number:number + 2]
        label = f"{case.label}_after1" if number else case.label
    unfolding = re.search(r"^unfolding .*$", fact.text, re.M).group()
    facts = {}
    for vertex in range(len(net[2]), len(after[2])):
        for axis in range(3):
            name, value = f"{case.label}_vertex{vertex}_axis{axis}", integer(after[0][3 * vertex + axis])
            computed = f"refined_coordinate {weights(case.told)} {len(net[2])} {label}.faces {label}.marks (axis {label}.vertices {axis}) {vertex}"
            facts[name] = Fact("Round", name, f"{name} : {computed} ≡ {value}\n{unfolding}\n{name} = refl\n", value, 0)
    write_chunk(folder, "detail", [case._replace(facts=list(facts.values()))], uses, crates)
    result = kit_check(folder, "detail")
    for name, difference in list(disagreements(result.stdout + result.stderr))[:SHOWN]:
        print(f"    {name}, stated as {facts[name].stated}: {difference[:300]}")


# ---- wrong definitions: the group of facts and the kinds of nets that must find each out, its file, and texts with what replaces them
def halves(above, below):
    """Rounding with 1 taken from the doubled numerator, which moves halves alone, above 0 or below it."""
    clauses = (f"round ({z}) d = floor (pos 2 *ℤ {z} +ℤ pos d -ℤ pos {less}) (2 * d)" for z, less in (("pos a", above), ("negsuc a", below)))
    return [("◌+ℤ◌, ◌*ℤ◌}", "◌+ℤ◌, ◌-ℤ◌, ◌*ℤ◌}"), ("round z d = floor (pos 2 *ℤ z +ℤ pos d) (2 * d)", "\n".join(clauses))]


MUTATIONS = {
    "1/5 for 1/9 in the virtual point": ("Round", "fan", "rings/specs/Ring.antt", [("+ᶠ k (j + 1)) /ᶠ w.near", "+ᶠ k (j + 1)) /ᶠ 5")]),
    "b* and c* exchanged": (
        "Round",
        "fan",
        "scheme/specs/Rings.antt",
        [
            ("    cond (eqb i m) (extrapolated_at", "    cond (eqb i (m + 1)) (extrapolated_at"),
            ("    (cond (eqb i (m + 1)) (extrapolated_at", "    (cond (eqb i m) (extrapolated_at"),
        ],
    ),
    "halves towards zero": ("Round", "halves", "rounding/specs/Rounding.antt", halves(1, 0)),
    "halves away from zero": ("Round", "halves", "rounding/specs/Rounding.antt", halves(0, 1)),
    "moved on two axes only": ("Moved", "single", "nets/specs/Moved.antt", [("(i % 3)", "(i % 2)")]),
    "edge points rounded before the face point": (
        "Round",
        "single",
        "scheme/specs/Points.antt",
        [
            ("Fraction.{Fraction, whole}", "Fraction.{Fraction, whole, to_whole}"),
            ("face_value w l (edge_point w l marks p) f", "face_value w l (λ (h : ℕ). whole (to_whole (edge_point w l marks p h))) f"),
        ],
    ),
    "the last edge of a segment taken as cyclic": ("Round", "single", "scheme/specs/Points.antt", [("end_of_segment inside_segment)", "inside_segment inside_segment)")]),
    "never the second direction alone": ("Round", "annulus", "scheme/specs/Points.antt", [("second_alone neither_inner)", "neither_inner neither_inner)")]),
    "side i+1 for side i-1 in refined faces": ("Round", "single", "refinedfaces/specs/Refined.antt", [("edge S l (S.prev h)", "edge S l (S.next h)")]),
    "a fan of 7 accepted": ("Verdict", "polygons-stored-fan-of-seven", "refusals/specs/Refusals.antt", [("(ltb max_fan (valence l p))", "(ltb 7 (valence l p))")]),
    "refusal 12 before 11": (
        "Verdict",
        "refused-11",
        "verdict/specs/Verdict.antt",
        [
            ("    (or_else (refused_at 11 (bad_valence S l) v", "    (or_else (refused_at 12 (marked_ring S l marks) v"),
            ("    (refused_at 12 (marked_ring S l marks) v (λ p. p)))", "    (refused_at 11 (bad_valence S l) v (λ p. p)))"),
        ],
    ),
    "a face of nine sides accepted": ("Verdict", "polygons-stored-count-9", "polygons/specs/Polygons.antt", [("|| ltb 8 c", "|| ltb 9 c")]),
    "marks tested before side counts": (
        "Verdict",
        "polygons-stored-bad-count-and-a-mark-more",
        "verdict/specs/Verdict.antt",
        [
            ("    (or_else (corners_verdict sides corners)", "    (or_else (refused_if 2 (not (eqb marks (coordinates / 3))))"),
            ("    (refused_if 2 (not (eqb marks (coordinates / 3)))))", "    (corners_verdict sides corners))"),
        ],
    ),
    "drawn faces counted": ("Verdict", "polygons-refused-04", "verdict/specs/Call.antt", [("quadrilaterals (c ∷ s) corners = corners", "quadrilaterals (c ∷ s) corners = length (c ∷ s)")]),
    "the last side followed by the next face": ("Verdict", "polygons-lone", "polygons/specs/Polygons.antt", [("cond (ltb (j + 1) c) (j + 1) 0", "j + 1")]),
    "corners summed over four": ("Split", "polygons-lone", "splitting/specs/Splitting.antt", [("/ᶠ S.sides h", "/ᶠ 4")]),
    "a side's first end twice": ("Split", "polygons-lone", "splitting/specs/Splitting.antt", [("(whole (p (to S l h)))", "(whole (p (from l h)))")]),
    "quadrilaterals left whole": ("Split", "polygons-quads", "splitting/specs/Splitting.antt", [("start_by (c ∷ s) m = split m", "start_by (c ∷ s) m = control_tables m")]),
    "the record passes its limit by one": ("Outcome", "polygons-stored-tally", "outcome/specs/Tally.antt", [("ltb max_tally ", "ltb (max_tally + 1) ")]),
    "drawn vertices billed": ("Outcome", "polygons-stored-tally", "outcome/specs/Tally.antt", [("(start_net m)) - length m.marks", "(start_net m))")]),
    "D only if both directions have four inner edges": ("Letters", "annulus", "origins/specs/Origins.antt", [("face_case first_alone = four_inner_edges", "face_case first_alone = other_face")]),
    "an end edge called inside": ("Letters", "single", "origins/specs/Origins.antt", [("edge_case end_of_segment = end_rule", "edge_case end_of_segment = within_segment")]),
    "points of the split called drawn": ("Letters", "polygons-lone", "origins/specs/Origins.antt", [("(ltb i v) control_vertex split_point", "(ltb i v) control_vertex control_vertex")]),
    "D without four inner edges taken as the mean": ("Letters", "ring", "origins/specs/Origins.antt", [("four_inner_rule neither_inner = first_alone", "four_inner_rule neither_inner = neither_inner")]),
    "a letter table measured that is not asked for": ("Verdict", "polygons-stored-letters-not-asked", "verdict/specs/Verdict.antt", [("room.asked && ltb room.letters", "ltb room.letters")]),
    "letters filled that are not asked for": ("Outcome", "polygons-stored-letters-not-asked", "outcome/specs/Outcome.antt", [("cond l.asked (filled s l.table) l.table", "filled s l.table")]),
    "31 + t for 32 + t": ("Round", "named-strip", "curve/specs/Weights.antt", [("near = 32 + t;", "near = 31 + t;")]),
    "t + 1 for t": ("Curve", "single", "curve/specs/Weights.antt", [("far = t }", "far = t + 1 }")]),
    "1/9 at every tension": ("Round", "ring", "rings/specs/Ring.antt", [("+ᶠ w.far ×ᶠ (k (j + (n - 2))", "+ᶠ 1 ×ᶠ (k (j + (n - 2))"), ("+ᶠ k (j + 1)) /ᶠ w.near", "+ᶠ k (j + 1)) /ᶠ 9")]),
    "4/(9n) at every tension": ("Round", "ring", "rings/specs/Ring.antt", [("(4 * w.far) ×ᶠ sumᶠ n k /ᶠ (w.near * n)", "4 ×ᶠ sumᶠ n k /ᶠ (9 * n)")]),
    "a tension of 5 accepted": ("Verdict", "polygons-stored-tension-5", "verdict/specs/Verdict.antt", [("(ltb 4 c.tension)", "(ltb 5 c.tension)")]),
    "the tension tested before 4": (
        "Verdict",
        "polygons-stored-tension-5-and-short",
        "verdict/specs/Verdict.antt",
        [("call_verdict c = or_else (limits_verdict c.rounds c.net.sides (lengths_of c.net c.room)) (refused_if 16 (ltb 4 c.tension))",
          "call_verdict c = or_else (refused_if 16 (ltb 4 c.tension)) (limits_verdict c.rounds c.net.sides (lengths_of c.net c.room))")],
    ),
    "the tension tested after 5": (
        "Verdict",
        "polygons-stored-tension-5-and-a-coordinate-beyond",
        "verdict/specs/Verdict.antt",
        [("verdict c = or_else (call_verdict c) (net_verdict c.net)",
          "verdict c = or_else (coordinates_verdict c.net.vertices) (or_else (call_verdict c) (net_verdict c.net))")],
    ),
    "the work table cleared on 16": (
        "Outcome",
        "polygons-stored-tension-5",
        "verdict/specs/Verdict.antt",
        [("work_after c w = after_call (call_verdict c) w", "work_after c w = after_call (limits_verdict c.rounds c.net.sides (lengths_of c.net c.room)) w")],
    ),
    "the old tension in a call": ("Outcome", "polygons-stored-tension-0", "outcome/specs/Outcome.antt", [("= steps (tension a.tension) a.rounds", "= steps (tension 4) a.rounds")]),
    "another end weight of the curve": ("Curve", "single", "curve/specs/Weights.antt", [("pos (w.near + w.far) *ℤ q", "pos w.near *ℤ q")]),
    "the second net walked with its sides": ("SeamTest", "seam-match", "seamtest/specs/SeamTest.antt", [("(step_at b against_sides i)", "(step_at b with_sides i)")]),
    "marks of a seam not compared": ("SeamTest", "seam-mark", "seamtest/specs/SeamTest.antt", [("same_axis p u q v 2 && same (marked m u) (marked n v)", "same_axis p u q v 2")]),
    "the last step of a seam left out": ("SeamTest", "seam-coordinate", "seamtest/specs/SeamTest.antt", [("(suc (edges_from a with_sides)) (λ i. i)", "(edges_from a with_sides) (λ i. i)")]),
    "the work table of one check alone": ("SeamTest", "seam-match", "seamtest/specs/SeamTest.antt", [("(work_after (alone_in b (length w)) once)", "once")]),
    "a loop followed backwards": ("Reading", "single", "topology/specs/Boundary.antt", [("boundary_step S l with_sides h = along S l h", "boundary_step S l with_sides h = back S l h")]),
}


def mutate(folder, file, replacements):
    path = folder / "crates" / file
    text = path.read_text(encoding="utf-8")
    for old, new in replacements:
        if text.count(old) != 1:
            sys.exit(f"definitions: {file} does not have '{old}' once; the self-test needs a new text")
        text = text.replace(old, new)
    path.write_text(text, encoding="utf-8")


def run_mutations(cases, options):
    """Each wrong definition must be found out by the nets of its kind, the smallest first; returns how many are not."""
    missed = 0
    cases = sorted(cases, key=lambda case: len(case["net"][1]) if "net" in case else 0)
    with tempfile.TemporaryDirectory() as name:
        checked = pathlib.Path(name)
        check_definitions(checked, make_scratch(options.tree, checked, GROUPS))
        for name, (group, kind, *edit) in MUTATIONS.items():
            print(f"== {name}", flush=True)
            options.group = group
            with tempfile.TemporaryDirectory() as folder:
                if check_all(pathlib.Path(folder), [case for case in cases if case["kind"].startswith(kind)], options, edit, checked) == 0:
                    print("NOT FOUND OUT")
                    missed += 1
    print(f"definitions: {len(MUTATIONS) - missed} of {len(MUTATIONS)} wrong definitions found out")
    return missed


# ---- the whole
def cases_from_generator(options):
    command = ["cargo", "run", "--release", "--offline", "--quiet", "--manifest-path", HERE / "Cargo.toml", "--bin", "nets", "--"]
    command += ["facts", "--seed", str(options.seed), "--count", str(options.count)]
    lines = subprocess.run(command, check=True, capture_output=True, text=True).stdout.splitlines()
    cases = [json.loads(line) for line in lines]
    if options.only:
        cases = [case for case in cases if case["kind"].startswith(options.only)]
        if not cases:
            sys.exit(f"definitions: no kind of net begins with {options.only}")
    for case in cases:
        if "steps" in case:
            case["steps"] = case["steps"][:options.rounds]
            case["letters"] = case["letters"][:options.rounds + 1]
    return cases[options.first:]


def write_scratch(folder, cases, options):
    """Writes the scratch repository; returns its crates of definitions, the headers of modules, and the chunks with their cases."""
    groups = [options.group] if options.group else list(GROUPS)
    crates = make_scratch(options.tree, folder, groups)
    uses, unfolding = headers(folder / "crates", groups)
    options.seam, options.outcome = "Seam" in uses, "Outcome" in uses
    written = [written_case(number, case, unfolding, options) for number, case in enumerate(cases, options.first)]
    if options.group:
        written = of_group(written, options.group)
    written = [case for case in written if case.facts]
    chunks = {f"facts{number:02}": chunk for number, chunk in enumerate((short_chunks if options.short else chunks_of)(written), 1)}
    written = [case for chunk in chunks.values() for case in chunk]
    for name, chunk in chunks.items():
        write_chunk(folder, name, chunk, uses, crates)
    options.checked = len(written), sum(len(case.facts) for case in written)
    return crates, uses, chunks


def check_definitions(folder, crates):
    ready = kit_check(folder, write_crate(folder, "definitions", crates))
    if ready.returncode != 0:
        sys.exit("definitions: the kit refuses the definitions alone\n" + (ready.stdout + ready.stderr)[-3000:])


def check_all(folder, cases, options, edit=None, checked=None):
    """The number of disagreements; with a wrong definition put in, that of the first chunk that disagrees. What the kit made of the definitions in `checked`
    is taken over, so that it checks anew only what the edit reaches."""
    crates, uses, chunks = write_scratch(folder, cases, options)
    if edit:
        for crate in crates:
            shutil.copytree(checked / "crates" / crate / "out", folder / "crates" / crate / "out")
        mutate(folder, *edit)
    check_definitions(folder, crates)
    wrong = 0
    for name, chunk in chunks.items():
        found = check_chunk(folder, name, chunk, uses, crates)
        if found is None:
            sys.exit(2)
        wrong += found
        if edit and wrong:
            break
    return wrong


def print_coverage(cases, options):
    """What the nets cover, worked out by the reference."""
    nets = [case for case in cases if "steps" in case]
    whole = sum(len(case["net"][1]) // 4 <= options.whole for case in nets)
    two = sum(len(case["steps"]) == 2 for case in nets)
    tensions = collections.Counter(case["call"]["tension"] for case in cases if "steps" in case or "split" in case)
    readings = [reading for number, case in enumerate(cases, options.first) if "steps" in case for reading in chosen_readings(case["readings"], number)]
    ways = collections.Counter(f"{'open' if r['open'] else 'closed'} {'with' if r['with'] else 'against'} the sides" for r in readings)
    print(f"{len(nets)} accepted nets with 1 round: {whole} with all coordinates, {len(nets) - whole} with one axis of every point; {two} of them with 2 rounds")
    print("accepted nets by tension: " + ", ".join(f"{tension}: {tensions[tension]}" for tension in sorted(tensions)))
    splits = [case for case in cases if "split" in case]
    told = sum(len(case["net"][1]) <= ROUND_CORNERS for case in splits)
    print(f"{len(splits)} accepted nets with side counts with their split, {told} of them with the round after it")
    calls = collections.Counter(re.sub(r"-(?!refused|damaged|random|limits|stored).*", "", case["kind"]) for case in cases if "call" in case and "steps" not in case and "split" not in case)
    print("calls for their verdict alone: " + ", ".join(f"{kind} {count}" for kind, count in calls.items()))
    print(f"{len(readings)} readings with their curves after 1 and 2 steps: " + ", ".join(f"{way} {count}" for way, count in sorted(ways.items())))
    texts = [case for case in cases if "bytes" in case]
    print(f"{len(texts)} OBJ texts, {sum('bad_line' in case for case in texts)} of them with a bad line")
    seams = [case["seam"] for case in cases if "seam" in case]
    print(f"{len(seams)} seam tests, {sum(not seam['verdict'] for seam in seams)} of them with a yes")
    letters = collections.Counter(chr(byte) for case in nets + splits for byte in case["letters"][-1])
    words = sum(len(case["words"]) for case in nets if len(case["net"][1]) // 4 <= WORD_FACES)
    print("letters after the last of these rounds: " + ", ".join(f"{letter} {letters[letter]}" for letter in sorted(letters)) + f"; {words} points that letters name")
    kinds = collections.Counter(case["kind"] for case in nets + splits)
    print("kinds: " + ", ".join(f"{kind} {count}" for kind, count in kinds.items()))
    traits = collections.Counter(trait for case in cases for trait in case["traits"])
    by_number = sorted(traits, key=lambda trait: re.sub(r"\d+", lambda digits: digits.group().zfill(2), trait))
    print("nets with: " + ", ".join(f"{trait}: {traits[trait]}" for trait in by_number))
    lent = sum("given" in case.get("call", {}) for case in cases)
    print(f"crate `seam`: {f'lists of points and marks of the readings in nets of up to {SEAM_CORNERS // 4} faces' if options.seam else 'not there'}")
    print(f"crate `outcome`: {f'{lent} small calls with their lent tables' if options.outcome else 'not there'}")


def arguments():
    parser = argparse.ArgumentParser(description=__doc__, formatter_class=argparse.RawDescriptionHelpFormatter)
    parser.add_argument("--seed", type=int, default=1)
    parser.add_argument("--count", type=int, default=200, help="accepted nets")
    parser.add_argument("--rounds", type=int, choices=(1, 2), default=2, help="2 rounds are told of the smallest nets only")
    parser.add_argument("--whole", type=int, default=WHOLE_FACES, metavar="FACES", help="all three axes up to so many faces, one axis above")
    parser.add_argument("--only", metavar="KIND", help="only the kinds whose names begin so")
    parser.add_argument("--first", type=int, default=0, metavar="NUMBER", help="only the cases from this number on, as after a run that was broken off")
    parser.add_argument("--group", choices=GROUPS, help="only the facts of this group")
    parser.add_argument("--tree", type=pathlib.Path, default=HERE.parent, help="the tree whose definitions are checked")
    parser.add_argument("--short", action="store_true", help="a chunk of each group of facts, some nets of each kind")
    parser.add_argument("--mutate", action="store_true", help="self-test: wrong definitions must be found out")
    return parser.parse_args()


def main():
    options = arguments()
    if options.mutate:
        options.rounds = 1
    cases = cases_from_generator(options)
    if options.mutate:
        sys.exit(1 if run_mutations(cases, options) else 0)
    start = time.time()
    with tempfile.TemporaryDirectory() as folder:
        wrong = check_all(pathlib.Path(folder), cases, options)
    if not options.short:
        print_coverage(cases, options)
    used = resource.getrusage(resource.RUSAGE_CHILDREN)
    print(f"{used.ru_utime + used.ru_stime:.0f} s of processor time, {time.time() - start:.0f} s")
    nets, facts = options.checked
    print(f"definitions: {nets} nets and calls, " + (f"{wrong} of {facts} facts do not agree" if wrong else f"{facts} facts agree"))
    sys.exit(1 if wrong else 0)


if __name__ == "__main__":
    main()
