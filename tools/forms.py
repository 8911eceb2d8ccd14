#!/usr/bin/env python3
"""Places in crates/*/src where a form of today's Rattle may stand in place of an older one, by the points of docs/DESIGN-PASS.md.

usage: tools/forms.py [--list] [TREE]
"""
import collections
import pathlib
import re
import sys

NONE = re.compile(r"\bor (none|their number|nv|m|n|the number of (half-edges|marks))\b")
BY_HAND = re.compile(
    r"^(larger|magnitude|minus|plus|is_digit|starts_with|same_axis|same_vertex|wide|pow4|copy_[iu]\d+|put_bytes|finding_of|report_of|seam_report_of"
    r"|put_natural|put_integer|put_[iu]\d\d)$")
# parameters that travel together, as they stand side by side in signatures
TOGETHER = [
    ["vertices", "faces", "sides", "marks"],
    ["vertices_a", "faces_a", "sides_a", "marks_a", "tension_a", "start_a"],
    ["out_vertices", "out_faces", "out_marks"],
    ["with_letters", "letters"],
    ["faces", "sides", "nv", "work"],
    ["faces", "sides", "work"],
    ["faces", "sides", "marks", "work"],
    ["faces", "work", "h"],
    ["work", "at", "initial"],
    ["points", "faces", "marks", "work"],
    ["work", "n", "h"],
    ["work", "n", "f"],
    ["l", "k", "m"],
    ["p", "q", "r"],
]


def functions(text):
    """(name, comment, head, body, line) of each function: the head goes to the brace that opens the body, clauses included."""
    lines = text.split("\n")
    for i, line in enumerate(lines):
        m = re.match(r"\s*(?:#\[\S+\] )?(?:pub(?:\(\w+\))? )?(?:extern \"C\" )?fn (\w+)", line)
        if not m:
            continue
        indent = len(line) - len(line.lstrip())
        stop = i
        while lines[stop] != " " * indent + "{" and not lines[stop].endswith(" {"):
            stop += 1
        end = stop + 1
        while lines[end] != " " * indent + "}":
            end += 1
        j = i
        while j and lines[j - 1].lstrip().startswith(("//", "#[")):
            j -= 1
        yield m[1], "\n".join(lines[j:i]), "\n".join(lines[i:stop + 1]), "\n".join(lines[stop + 1:end]), i + 1


def shape(body):
    """The body with names, types and numbers left out."""
    words = re.findall(r"b?'[^']*'|b?\"[^\"]*\"|\w+|[^\w\s]", body)
    keep = {"if", "else", "while", "for", "in", "loop", "match", "return", "let", "mut", "true", "false", "as"}
    return " ".join(w if w in keep or not re.match(r"\w|b?['\"]", w) else "_" for w in words)


def signature(head):
    """The text before the clauses."""
    return re.split(r"\n\s*(?:requires|ensures)\b", head)[0]


def main():
    args = [a for a in sys.argv[1:] if a != "--list"]
    tree = pathlib.Path(args[0] if args else ".")
    found = collections.defaultdict(list)
    bodies = collections.defaultdict(list)
    facts = collections.defaultdict(set)
    groups = collections.defaultdict(set)
    for path in sorted(tree.glob("crates/*/src/**/*.rt")):
        text = path.read_text()
        crate = path.parts[-3]
        for m in re.finditer(r"enum (\w+) \{(.*?)\n\}", text, re.S):
            if re.search(r"^    (Bad|Refused|Passed|Nowhere|Failed)\b", m[2], re.M):
                found["1 an enum of the shape of Option or Result"].append(f"{crate}::{m[1]}")
        for m in re.finditer(r"Refused\(\d+|\breturn [1-9]\d?;", text):
            if "Refused" in m[0] or crate in ("limits", "reading"):
                found["1 a refusal by its number"].append(f"{crate}: {m[0]}")
        for m in re.finditer(r"^\s+(?:pub )?flag: u32,$", text, re.M):
            found["1 a flag with a value beside it"].append(f"{crate}: {m[0].strip()}")
        for name, comment, head, body, line in functions(text):
            place = f"{crate}::{name}"
            sign = signature(head)
            if sign.rstrip().endswith("-> u32") and re.search(r"\bor 0\b", comment):
                found["1 a number for a refusal, 0 for none"].append(place)
            if re.search(r"-> (usize|Start|Far)\b", sign) and NONE.search(comment):
                found["1 a number for none"].append(place)
            if re.search(r"\bwith_letters: bool\b", sign) and "&mut [u8]" in sign:
                found["1 a flag with a value beside it"].append(place)
            key = shape(body)
            if len(key.split()) >= 16:
                bodies[key].append(place)
            for m in re.finditer(r"^( *)while (.*?) \{\n(.*?)\n\1\}", body, re.M | re.S):
                counted = [v for v in re.findall(r"^\s+(\w+) [+-]= (?:1|4|16);", m[3], re.M) if re.search(rf"\b{v}\b", m[2])]
                (found["3 a loop that counts by hand"] if counted else found["- a while that follows something else"]).append(f"{place}: while {m[2]}")
            if BY_HAND.match(name):
                found["4 a conversion, comparison or copy by hand"].append(place)
            for clause in re.findall(r"requires.*", head):
                for fact in re.findall(r"\b[A-Z]\w+", clause):
                    facts[fact].add(place)
            names = re.findall(r"(\w+): [^,)]+", sign.replace("\n", " "))
            for group in TOGETHER:
                if any(names[i:i + len(group)] == group for i in range(len(names))):
                    groups[", ".join(group)].add(place)
            if re.search(r"out: &mut \[u8\], at: usize", sign) or re.search(r"&(mut )?\[usize; 8\]", sign):
                found["6 a buffer with a length beside it, parallel arrays"].append(place)
            for flag in re.findall(r"(later|against|marked|rule|with_letters): bool\b", sign):
                found["7 a flag that says which step to run"].append(f"{place}: {flag}")
    for places in bodies.values():
        if len(places) > 1:
            found["2 twins: bodies the same but for names, types and numbers"].append(" ".join(places))
    for fact, places in sorted(facts.items()):
        if len(places) >= 3:
            found["5 a fact required by three functions or more"].append(f"{fact}: {len(places)}")
    for group, places in groups.items():
        if len(places) >= 3:
            found["5 parameters that travel together in three functions or more"].append(f"{group}: {len(places)}")
    answers = list(tree.glob("crates/*/proofs/*/Answers.antt"))
    found["8 files of answers"] = [str(p) for p in answers]
    for point in sorted(found):
        print(f"{len(found[point]):4}  {point}")
        if "--list" in sys.argv and not point.startswith("8"):
            for place in found[point]:
                print(f"        {place}")
    print(f"{sum(len(p.read_text().splitlines()) for p in answers):4}  8 lines of answers")


main()
