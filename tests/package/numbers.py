#!/usr/bin/env python3
"""Holds the numbers that definitions, headers, Rust crate and documents state to the constants of gedrovit.h. A line for each fault."""
import pathlib
import re
import sys

ROOT = pathlib.Path(__file__).resolve().parent.parent.parent
HEADER = ROOT / "package/include/gedrovit.h"
RUST = ROOT / "package/rust"
NUMBER = r"(\d+(?:,\d{3})*)"
faults = []


def read(path):
    return (ROOT / path).read_text(encoding="utf-8")


def running(text):
    """A text without the ends of its lines and the marks of comments."""
    return re.sub(r"\s*\n\s*(?:///?!?|\*(?!/))?\s*", " ", text)


def numbers(pattern, text):
    """The numbers of each place where the pattern is found."""
    return [tuple(int(n.replace(",", "")) for n in found.groups()) for found in re.finditer(pattern.replace("N", NUMBER), text)]


def hold(where, pattern, text, due, least=1):
    """Every place where the pattern is found has the numbers that are due; there are at least so many."""
    found = numbers(pattern, text)
    if len(found) < least:
        faults.append(f"{where}: nothing like '{pattern}'")
    for given in found:
        if given not in due:
            faults.append(f"{where}: '{pattern}' has {given}, not {' or '.join(map(str, due))}")


header = read(HEADER)
C = {name: int(value) for name, value in re.findall(r"^#define GEDROVIT_(\w+) (\d+)$", header, re.M)}
ROUNDS, V, F, G = C["MAX_ROUNDS"], C["MAX_VERTICES"], C["MAX_FACES"], C["MAX_REFINED_FACES"]
COORDINATE, REFINED, RING, FAN = C["MAX_COORDINATE"], C["MAX_REFINED_COORDINATE"], C["MAX_RING"], C["MAX_FAN"]
SIDES, TALLY, TENSION, DEFAULT_TENSION = (C["MIN_SIDES"], C["MAX_SIDES"]), C["MAX_TALLY"], C["MAX_TENSION"], C["DEFAULT_TENSION"]
RING_LEAST = 3

# ---- the definitions. A limit stands there by its name, and the number is put in its place
ALL_SPECS = "".join(path.read_text(encoding="utf-8") for path in sorted(ROOT.glob("crates/*/specs/*.antt")))
NAMED = dict(re.findall(r"(?m)^abbrev pub (\w+) : ℕ\n\1 = (\d+)$", ALL_SPECS))


def with_numbers(text):
    return re.sub(r"\b[a-z]\w+\b", lambda found: NAMED.get(found.group(), found.group()), text)


VERDICT, REFUSALS = with_numbers(read("crates/verdict/specs/Verdict.antt")), with_numbers(read("crates/refusals/specs/Refusals.antt"))
hold("verdict", r"refused_if 1 \(ltb N ", VERDICT, [(ROUNDS,)])
if numbers(r"refused_if 3 \(ltb N ", VERDICT) != [(V,), (F,), (G,)]:
    faults.append("verdict: refusal 3 has other limits")
hold("verdict", r"bad_coordinate .* = ltb N ", VERDICT, [(COORDINATE,)])
hold("refusals", r"bad_valence .* \(ltb N \(valence l p\)\) \(ltb \(valence l p\) N \|\| ltb N ", REFUSALS, [(FAN, RING_LEAST, RING)])
SPECS = with_numbers(ALL_SPECS)
hold("side counts", r"(?m)^bad_count .* = ltb \w+ N \|\| ltb N ", SPECS, [SIDES])
hold("record of new points", r"refused_if 15 \(ltb N ", SPECS, [(TALLY,)])
hold("tension", r"refused_if 16 \(ltb N ", VERDICT, [(TENSION,)])
hold("old points", r"\.tension ≡ N\b", read("crates/outcome/specs/OldPoints.antt"), [(DEFAULT_TENSION,)])
hold("outcome", r"Within N ", with_numbers(read("crates/outcome/specs/Coordinates.antt")), [(REFINED,)])
# in code they are constants: MAX_FACES is max_faces and GEDROVIT_MAX_FACES
for name, value in re.findall(r"(?m)^pub const (\w+): \w+ = (\d+);$", read("crates/bounds/src/lib.rt")):
    if NAMED.get(name.lower()) != value or C.get(name, int(value)) != int(value):
        faults.append(f"bounds: {name} is {value} in code alone")
FACTORS = numbers(r"\bN \* g", "".join(re.findall(r"(?m)^needed g = .*", SPECS)))
if len(FACTORS) != 5:
    faults.append("the lengths to provide were not found in the definitions")
for name, factor in zip(("out_vertices", "out_faces", "out_marks", "letters", "work"), FACTORS):
    hold("header", rf"{name} +N G\b", header, [factor])
PROGRAM = read("crates/textform/specs/Limits.antt")
[(PROGRAM_G,)] = numbers(r"(?m)^program_faces = N$", PROGRAM)
[(PROGRAM_V,)] = numbers(r"(?m)^program_vertices = N$", PROGRAM)
[(TEXT,)] = numbers(r"(?m)^longest_text = N$", PROGRAM)

# ---- the version
version = [C[f"VERSION_{part}"] for part in ("MAJOR", "MINOR", "PATCH")]
dotted = ".".join(map(str, version))
for part, value in zip(("major", "minor", "patch"), version):
    hold("version", rf"(?m)^{part} = N$", "".join(path.read_text(encoding="utf-8") for path in ROOT.glob("crates/*/specs/Version.antt")), [(value,)])
for path, line in (("package/include/gedrovit.h", f'#define GEDROVIT_VERSION "{dotted}"'), ("package/rust/Cargo.toml", f'version = "{dotted}"')):
    if line not in read(path).splitlines():
        faults.append(f"{path}: no line {line}")
symbols = set(re.findall(r"gedrovit_version_\w+", read("crates/capi/src/lib.rt") + read(RUST / "src/foreign.rs") + read(RUST / "src/call.rs")))
if symbols != {"gedrovit_version_" + dotted.replace(".", "_")}:
    faults.append(f"the archive's and the crate's symbol: {symbols}")

# ---- what headers, crate and documents say: each pattern, its numbers, and how often the header says it at least
LIMITS = [
    (r"[Rr]ounds above N", [(ROUNDS,)], 1),
    (r"[Mm]ore than N rounds", [(ROUNDS,)], 1),
    (r"from 0 to N; 0 copies", [(ROUNDS,)], 1),
    (r"(?<!in the program, also )V above N", [(V,)], 1),
    (r"in the program, also V above N", [(PROGRAM_V,)], 0),
    (r"F above N", [(F,)], 1),
    (r"G above N", [(G,)], 1),
    (r"[Mm]ore than N vertices", [(V,), (PROGRAM_V,)], 1),
    (r"vertices,? (?:or )?N faces", [(F,)], 1),
    (r"N refined faces", [(G,), (PROGRAM_G,)], 0),
    (r"outside -N to N", [(COORDINATE, COORDINATE)], 2),
    (r"from -N to N", [(COORDINATE, COORDINATE)], 1),
    (r"coordinates? (?:may )?(?:lie )?(?:beyond|above) ±?N", [(COORDINATE,)], 1),
    (r"coordinates? stays? within N", [(REFINED,)], 1),
    (r"ring of fewer than N or more than N faces", [(RING_LEAST, RING)], 1),
    (r"fan (?:is )?of more than N", [(FAN,)], 2),
    (r"ring is not of N to N faces", [(RING_LEAST, RING)], 1),
    (r"side count (?:is )?(?:outside|not from) N to N", [SIDES], 2),
    (r"faces of N to N sides", [SIDES], 1),
    (r"sides? it has, from N to N", [SIDES], 1),
    (r"(?:would be|never) above N", [(TALLY,)], 3),
    (r"[Tt]ension (?:is )?above N", [(TENSION,)], 2),
    (r"[Tt]ension\b[^.;]{0,30}from 0 to N", [(TENSION,)], 1),
    (r"(?:net|nets) ha(?:s|ve) (?:the )?tension N", [(DEFAULT_TENSION,)], 1),
    (r"N bytes for each refined face", [(132,), (136,)], 2),
    (r"more than N bytes", [(TEXT,)], 0),
    (r"N times the larger F", [FACTORS[-1]], 2),
]
texts = {str(path.relative_to(ROOT)): running(path.read_text(encoding="utf-8"))
         for path in [HEADER, ROOT / "package/include/gedrovit.hpp", *sorted(ROOT.glob("*.md")), *sorted(RUST.glob("src/*.rs")), *sorted(ROOT.glob("docs/*.md"))]}
for name, text in texts.items():
    for pattern, due, least in LIMITS:
        hold(name, pattern, text, due, least if name.endswith("gedrovit.h") else 0)

# ---- the script
SCRIPT = running(read("refine"))
hold("refine", r"longest=N most_faces=N most_vertices=N", SCRIPT, [(TEXT, PROGRAM_G, PROGRAM_V)])
hold("refine", r"N bytes, N vertices, N refined faces, 0 to N rounds. The call that makers build in serves N refined", SCRIPT, [(TEXT, PROGRAM_V, PROGRAM_G, ROUNDS, G)])

# ---- the converter
LINES = re.findall(r"(?m)^([A-Z_, ]+) = ([\d_, ]+)$", read("tools/convert.py"))
CONSTANTS = {name: int(value) for names, values in LINES for name, value in zip(names.split(", "), values.split(", "))}
KNOWN = {"LIMIT": COORDINATE, "BYTES": TEXT, "VERTICES": PROGRAM_V, "REFINED": PROGRAM_G, "CALL_VERTICES": V, "CALL_FACES": F, "CALL_REFINED": G,
         "LEAST_SIDES": SIDES[0], "MOST_SIDES": SIDES[1], "MOST_ROUNDS": ROUNDS}
faults += [f"tools/convert.py: {name} is not {value}" for name, value in KNOWN.items() if CONSTANTS.get(name) != value]

# ---- the overshoot of the cushion, at 100 counts to a millimetre
CUSHION = re.findall(r"^tension (\d): .*, (\d+) beyond .*, (\d+) above ", read("tests/package/tension.out"), re.M)
for tension, outline, top in CUSHION:
    if f"| {tension} | {int(top) / 100:.2f} mm | {int(outline) / 100:.2f} mm |" not in read("docs/MAKERS.md").splitlines():
        faults.append(f"docs/MAKERS.md: no row with the overshoot at tension {tension}")

# ---- the table of refusals: a table with rows 1 to 12. Rows have these numbers, and no other ones of four digits or more
ROWS = {1: {ROUNDS}, 3: {V, F, G}, 5: {COORDINATE}, 11: {RING_LEAST, RING, FAN}, 13: {TEXT}, 14: set(SIDES), 15: {TALLY}, 16: {TENSION}}
ALSO = {4: {PROGRAM_V, G}}
documents = [*sorted(ROOT.glob("*.md")), *sorted(ROOT.glob("docs/*.md"))]
tables = [table for path in documents for table in re.findall(r"(?:^\|.*\n)+", path.read_text(encoding="utf-8"), re.M)]
tables = [dict(re.findall(r"^\| *(\d+) *\|(.*)", table, re.M)) for table in tables]
tables = [table for table in tables if all(str(number) in table for number in range(1, 13))]
if not tables:
    faults.append("no document has a table of the refusals")
for table in tables:
    for number, row in table.items():
        given, due = {n for (n,) in numbers(r"\bN\b", row)}, ROWS.get(int(number), set())
        if not due <= given or any(n >= 1000 and n not in due | ALSO.get(int(number), set()) for n in given):
            faults.append(f"table of refusals, row {number}: {given}, not {due}")

for fault in faults:
    print(fault)
sys.exit(1 if faults else 0)
