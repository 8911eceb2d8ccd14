#!/usr/bin/env python3
"""Prints the tables of the benchmark from measured rows on standard input.

A line is: MEASURE COMPILER VALUE ROW CALL REFINED-FACES ROUNDS NAME-OF-THE-NET. The value of a `time` is in nanoseconds for each refined face, that of a
`count` is the instructions of the whole call, that of a `ratio` is the product's time divided by that of the call. Of the seam test the faces are those of both
nets.
"""
import sys

PRODUCT = "gedrovit"
MEASURES = {"count": "instructions", "time": "nanoseconds"}
CALLS = {"refine": [PRODUCT, "rebuilt", "carried"], "check": [PRODUCT, "check"], "seam": [PRODUCT, "checks"], "opensubdiv": ["whole", "positions"]}
HEADS = {"rebuilt": "anew"}
# other calls of the product itself, which no compiler is named for
OWN = {"checks": "both checks"}


def read(lines):
    """Values by measure, compiler, row and call; faces, rounds and name by row."""
    values, rows = {}, {}
    for line in lines:
        measure, compiler, value, row, call, faces, rounds, name = line.split(maxsplit=7)
        rows[int(row)] = (int(faces), int(rounds), name.strip())
        values[measure, compiler, int(row), call] = float(value) / (int(faces) if measure == "count" else 1)
    return values, rows


def ratio(values, measure, compiler, row, call):
    """The product's value divided by that of a call, or none."""
    if measure == "time":
        return values.get(("ratio", compiler, row, call))
    value, product = (values.get((measure, compiler, row, one)) for one in (call, PRODUCT))
    return product / value if value and product else None


def cell(value, digits=1):
    return "-" if value is None else f"{value:.{digits}f}"


def print_table(measure, calls, compilers, values, rows):
    """A line for each row; with the product among the calls, its ratio beside each other value."""
    others = [(compiler, call) for compiler in compilers for call in calls if call != PRODUCT]
    ratios = PRODUCT in calls
    head = f"{MEASURES[measure]} for each refined face".ljust(51) + ("Gedrovit".rjust(11) if ratios else "")
    for compiler, call in others:
        head += OWN.get(call, f"{compiler} {HEADS.get(call, call)}").rjust(16) + ("ratio".rjust(7) if ratios else "")
    print(head)
    for row, (faces, rounds, name) in sorted(rows.items()):
        line = f"{name:<29}{rounds:>2} round{'s' if rounds != 1 else ' '}{faces:>12,}".ljust(51)
        if ratios:
            line += cell(values.get((measure, compilers[0], row, PRODUCT))).rjust(11)
        for compiler, call in others:
            line += cell(values.get((measure, compiler, row, call))).rjust(16)
            if ratios:
                line += cell(ratio(values, measure, compiler, row, call), 2).rjust(7)
        print(line)


def main():
    values, rows = read(sys.stdin)
    calls = CALLS[sys.argv[1]]
    compilers = list(dict.fromkeys(compiler for _, compiler, _, _ in values))
    for measure in MEASURES:
        if any(key[0] == measure for key in values):
            print_table(measure, calls, compilers, values, rows)
            print()


main()
