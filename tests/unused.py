#!/usr/bin/env python3
"""Finds what nothing needs: declarations of specs/ and proofs/ that are not reached from a contract, a function's proof, a promise or a computed example, and imports
that their file does not use. It lists them, and the exit status is then 1. A name that is bound anew keeps the declaration of that name: what is listed is unused, but it may miss some.
"""
import pathlib
import re
import sys

sys.path.append(str(pathlib.Path(__file__).resolve().parent.parent / "tools"))
import antt  # noqa: E402
import guarantees  # noqa: E402


def promised():
    """(crate, name) of each name in a row of the tables of GUARANTEES, for each crate that the row names."""
    crates = {antt.crate(path) for path in antt.tree()}
    page = guarantees.PAGE.read_text(encoding="utf-8")
    for heading in (guarantees.CALLS, guarantees.TEXTS, guarantees.LAWS, guarantees.CODE):
        for cells in guarantees.rows(page, heading):
            names = {part for cell in cells for word in re.findall(r"`([^`]+)`", cell) for part in re.split(r"::|/| |\.", word)}
            yield from ((crate, name) for crate in names & crates for name in names)


def code(file):
    """A file's text, in which the path and the arguments of a type in code stand apart."""
    return re.sub(r"::|(?<=\w)[<>]|[<>](?=\w)", " ", file.body) if file.rattle else file.body


def roots(files):
    """What code and its proofs name, promises, and computed examples."""
    named = set(promised())
    for path, file in files.items():
        if file.rattle:
            yield from file.reached(code(file))[0]
        for name, declaration in file.declarations.items():
            # what proofs/F/ of a function F says of its goals, its loops or the whole
            proof = path.name in ("Answers.antt", "Invariants.antt", "Proof.antt") and antt.folder(path) == "proofs" and declaration.is_public
            example = path.name.startswith("Examples") and not declaration.kind and not declaration.computes
            if proof or example or (antt.crate(path), name) in named:
                yield path, name


def unreached(files):
    alive = antt.reached_from(roots(files))
    return [(path, name) for path, file in files.items() for name in file.declarations if (path, name) not in alive]


def unused_imports(files):
    for path, file in files.items():
        used = file.reached(code(file))[1]
        for name in [*file.imports, *file.modules, *file.whole]:
            # a module of computed examples is imported so that the check comes to it
            if name not in used and not {**file.modules, **file.whole}.get(name, "").split(".")[-1].startswith("Examples"):
                yield path, name


def main():
    files = antt.tree()
    faults = [f"{path.relative_to(antt.ROOT)}: nothing needs {name}" for path, name in unreached(files)]
    faults += [f"{path.relative_to(antt.ROOT)}: the import {name} is not used" for path, name in unused_imports(files)]
    print("\n".join(faults) if faults else f"{sum(len(file.declarations) for file in files.values())} declarations, each needed, and no unused import")
    sys.exit(1 if faults else 0)


if __name__ == "__main__":
    main()
