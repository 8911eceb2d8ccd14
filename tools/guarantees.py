#!/usr/bin/env python3
"""Makes the parts of docs/GUARANTEES.md that the tree decides: which definitions of specs/ each kind of promise rests on, worked out from what they import and name, and the list of must-fail edits.

A promise rests on what its row names under 'definition', on what the statements of its theorems name, on what these definitions name, and so on; promises on calls also on what the contracts in crates/capi/src
name, those on texts on what the contracts in crates/program/src name. A definition stands in the first list that it belongs to, or in the last. A line is bare if it is neither empty nor a comment nor an import.

usage: tools/guarantees.py            writes them
       tools/guarantees.py --check    says what is not as the tree has it; the exit status is then 1
"""
import re
import sys

import antt

PAGE = antt.ROOT / "docs" / "GUARANTEES.md"
CALLS, TEXTS, LAWS, CODE = "## Promises on calls", "## Promises on texts and the program", "## Laws of the definitions", "## How it is proved"


def opening_sentence(path):
    """The first sentence of the comment that a file begins with, without the full stop."""
    comment = []
    for line in path.read_text(encoding="utf-8").splitlines():
        if not line.startswith("-- "):
            break
        comment.append(line[3:])
    text, depth = " ".join(comment), 0
    for place, letter in enumerate(text):
        depth += (letter == "(") - (letter == ")")
        if depth == 0 and letter in ".:;" and text[place + 1 : place + 2] in ("", " ") and text[place - 1] != ".":
            return text[:place].replace("|", "\\|")
    return text.replace("|", "\\|")


def rows(text, heading):
    """The rows of the table under a heading, four cells each: what is promised, its definitions, its theorems or contracts, where they are proved."""
    if text.count(heading + "\n") != 1:
        sys.exit(f"{PAGE.name} has no '{heading}'")
    inside = False
    for line in text.split(heading + "\n")[1].split("\n## ")[0].splitlines():
        cells = [cell.strip() for cell in re.split(r"(?<!\\)\|", line)[1:-1]]
        if inside and len(cells) == 4 and not cells[0].startswith("---"):
            yield cells
        inside = len(cells) == 4 and (inside or cells[1] == "definition")


def cited(definitions):
    """(crate, name) of each definition in a cell: parts between ';', each a crate and names of it."""
    for part in definitions.split(";"):
        crate, *names = re.findall(r"`([^`]+)`", part) or [None]
        yield from ((crate, name) for name in names)


def spec_files():
    """Every file of specs/, in reading order: crates as crates.txt has them, in a crate what is imported before what imports it."""
    listed = re.findall(r"^(\w+)[^:\n]*:", (antt.ROOT / "crates.txt").read_text(encoding="utf-8"), re.M)
    found = []

    def visit(path, crate):
        file = antt.tree()[path]
        modules = [module for module, _ in file.imports.values()] + [*file.modules.values(), *file.whole.values()]
        for under in sorted({under for under in map(antt.place, modules) if under in antt.tree() and under not in found and under != path}):
            if antt.crate(under) == crate and antt.folder(under) == "specs":
                visit(under, crate)
        if path not in found:
            found.append(path)

    for crate in listed:
        for path in sorted(path for path in antt.tree() if antt.crate(path) == crate and antt.folder(path) == "specs"):
            visit(path, crate)
    return found


def statements(text, heading):
    """What the rows under a heading name as definitions, and what the statements of their theorems name."""
    files, crates = antt.tree(), {antt.crate(path) for path in antt.tree()}
    for _, definitions, theorems, places in rows(text, heading):
        names = {*cited(definitions)}
        named = {word for cell in (definitions, theorems, places) for word in re.findall(r"`(\w+)", cell) if word in crates}
        proved = {(crate, name) for crate in named for name in re.findall(r"`([^`]+)`", theorems)}
        for path, file in files.items():
            for name, declaration in file.declarations.items():
                if antt.folder(path) == "specs" and (antt.crate(path), name) in names:
                    yield path, name
                elif antt.folder(path) == "proofs" and (antt.crate(path), name) in proved:
                    yield from ((under, word) for under, word in file.reached("\n".join(declaration.statement))[0] if antt.folder(under) == "specs")


def contracts(crate):
    """What the contracts of a crate name."""
    files = [file for path, file in antt.tree().items() if antt.crate(path) == crate and file.rattle]
    return {found for file in files for found in file.reached(file.body.replace("::", " "))[0]}


def bare_lines(path, name):
    return sum(1 for line in antt.tree()[path].declarations[name].own if line.strip())


def table(needed, starred=frozenset()):
    """A row for each file that has declarations among those needed."""
    files = [(path, [name for name in antt.tree()[path].declarations if (path, name) in needed]) for path in spec_files()]
    files = [(path, names) for path, names in files if names]
    lines = {path: sum(bare_lines(path, name) for name in names) for path, names in files}
    yield f"{len(files)} files, {sum(lines.values()):,} bare lines."
    yield ""
    yield "| file | bare lines | says | of it |"
    yield "| --- | --- | --- | --- |"
    for path, names in files:
        star = " *" if any((path, name) in starred for name in names) else ""
        yield f"| `{path.relative_to(antt.ROOT)}`{star} | {lines[path]} | {opening_sentence(path)} | {part(path, names)} |"


def part(path, names):
    """Which declarations of a file are meant."""
    left = [name for name in antt.tree()[path].declarations if name not in names]
    told = names if len(names) < len(left) else left
    return ("" if told is names else "all but " if left else "all") + ", ".join(f"`{name}`" for name in told)


def edits():
    yield "| crate | edits that the prover refuses |"
    yield "| --- | --- |"
    for folder in sorted(antt.ROOT.glob("crates/*/must-fail")):
        yield f"| `{folder.parent.name}` | {', '.join(f'`{path.stem}`' for path in sorted(folder.glob('*.edit')))} |"


def made(text):
    every = {(path, name) for path in spec_files() for name in antt.tree()[path].declarations}
    exported = antt.reached_from(contracts("capi"))
    calls = exported | antt.reached_from(statements(text, CALLS))
    texts = antt.reached_from([*contracts("program"), *statements(text, TEXTS)]) - calls
    laws = antt.reached_from(statements(text, LAWS)) - calls - texts
    parts = {
        "calls": table(calls, exported),
        "texts": table(texts),
        "laws": table(laws),
        "others": table(every - calls - texts - laws),
        "edits": edits(),
    }
    for name, lines in parts.items():
        begin, end = f"<!-- {name}: made by tools/guarantees.py -->\n", f"<!-- end of {name} -->\n"
        if text.count(begin) != 1 or text.count(end) != 1:
            sys.exit(f"{PAGE.name} has no place for {name}")
        before, rest = text.split(begin)
        text = before + begin + "\n".join(lines) + "\n" + end + rest.split(end)[1]
    return text


def main():
    text = PAGE.read_text(encoding="utf-8")
    new = made(text)
    if sys.argv[1:] == ["--check"]:
        if new != text:
            sys.exit(f"{PAGE.name} is not as tools/guarantees.py makes it: run that")
    elif not sys.argv[1:]:
        PAGE.write_text(new, encoding="utf-8")
    else:
        sys.exit(__doc__)


if __name__ == "__main__":
    main()
