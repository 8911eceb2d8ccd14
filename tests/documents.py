#!/usr/bin/env python3
"""Holds the documents to the tree: what tools/guarantees.py makes, every name in the promises, the sentences that are quoted, the version of the long run, the kit, the layers of
docs/ARCHITECTURE.md, the lines of crates.txt; and nothing in specs/ or proofs/ is unused (tests/unused.py).
"""
import pathlib
import re
import subprocess
import sys

ROOT = pathlib.Path(__file__).resolve().parent.parent
sys.path.append(str(ROOT / "tools"))
import guarantees  # noqa: E402

TABLES = [guarantees.CALLS, guarantees.TEXTS, guarantees.LAWS, guarantees.CODE]


def read(name):
    return (ROOT / name).read_text(encoding="utf-8")


def crate_lines():
    """The layers of crates.txt: for each its name and its crates, with the crates that each names."""
    layers = []
    for block in read("crates.txt").split("\n\n")[1:]:
        title, *lines = block.strip().splitlines()
        layers.append((title.removeprefix("# "), {head.split()[0]: under.split() for head, under in (line.split(":") for line in lines)}))
    return layers


def files_of(crate, endings):
    return [path for path in sorted((ROOT / "crates" / crate).rglob("*")) if path.suffix in endings and not {"must-fail", "out"} & set(path.parts)]


def tool_faults():
    for command in (["tools/guarantees.py", "--check"], ["tests/unused.py"]):
        done = subprocess.run([sys.executable, str(ROOT / command[0]), *command[1:]], capture_output=True, text=True)
        if done.returncode != 0:
            yield (done.stdout + done.stderr).strip()


def promise_rows():
    """The rows of all tables of promises, laws and functions."""
    page = read("docs/GUARANTEES.md")
    return [cells for heading in TABLES for cells in guarantees.rows(page, heading)]


def unquoted(text):
    return re.sub(r'"[^"]*"', "", text)


def name_faults():
    """Every word between backticks in these tables, but for quoted sentences, and in that of the functions is a name in the tree."""
    known = set()
    for path in ROOT.glob("crates/**/*"):
        if "out" in path.relative_to(ROOT).parts[2:]:
            continue
        known.add(path.stem)
        if path.suffix in (".antt", ".rt"):
            known.update(re.findall(r"[^\s(){}.,;:λ«»]+", path.read_text(encoding="utf-8")))
    functions = read("docs/GUARANTEES.md").split("## Functions that a maker can call")[1].split("\n## ")[0]
    text = unquoted("\n".join([functions, *(cell for cells in promise_rows() for cell in cells)]))
    for word in sorted(set(re.findall(r"`([^`]+)`", text))):
        if (ROOT / word).exists():
            continue
        for part in re.split(r"::|/| ", word):
            if part not in known:
                yield f"GUARANTEES names `{word}`, and nothing in crates/ is called {part}"


def declared(crate, folders):
    """The names that the files in these folders of a crate declare, and the names of the files and folders."""
    names = set()
    for folder in folders:
        for path in (ROOT / "crates" / crate / folder).rglob("*"):
            names.add(path.stem)
            if path.suffix == ".antt":
                text = path.read_text(encoding="utf-8")
                names.update(re.findall(r"^\s*(?:abbrev |unfoldable |pub )*(?:record |data )?([^\s(){}]+)(?: [^\n]*)? :(?= |$)", text, re.M))
                names.update(re.findall(r"^\s*(?:pub )?(?:record|data) (\S+)", text, re.M))
            elif path.suffix == ".rt":
                names.update(re.findall(r"\b(?:fn|struct|enum) (\w+)", path.read_text(encoding="utf-8")))
    return names


def row_faults():
    """A definition that a row cites stands in specs/ of the crate named before it, a theorem in a crate that its row names."""
    crates = {name for _, layer in crate_lines() for name in layer}
    for promise, definitions, theorems, places in promise_rows():
        told = f"GUARANTEES, '{promise[:40]}..'"
        for part in definitions.split(";"):
            words = re.findall(r"`([^`]+)`", part)
            if words and words[0] not in crates:
                yield f"{told}: no crate before `{words[0]}`"
            elif words:
                yield from (f"{told}: specs/ of {words[0]} has no `{word}`" for word in words[1:] if word not in declared(words[0], ["specs"]))
        named = {word for cell in (definitions, theorems, places) for word in re.findall(r"`(\w+)", cell) if word in crates}
        known = {name for crate in named for name in declared(crate, ["specs", "proofs", "src"])} | crates | {"specs", "proofs"}
        for word in re.findall(r"`([^`]+)`", theorems + " " + places):
            if re.fullmatch(r"[\w./: -]+", word) and not (ROOT / word).exists():
                yield from (f"{told}: the crates that it names have no `{word}`" for part in re.split(r"::|/| ", word) if part not in known)


def first_page_faults():
    """The first page has the promises of the README, by number and name, each with a theorem in the file that it names."""
    promises = re.findall(r"^(\d+)\. \*(.+?)\.\*", read("README.md").split("## What is promised")[1].split("\n## ")[0], re.M)
    page = read("docs/GUARANTEES.md").split("### What is promised")[1].split("\n### ")[0]
    rows = re.findall(r"^\| (\d+) \| (.+?) \| .* \| `([^`]+)`[^|]* \| `([^`]+)` \|$", page, re.M)
    if [(number, name) for number, name, _, _ in rows] != promises:
        yield f"GUARANTEES: its first page has not the promises of README: {', '.join(name for _, name in promises)}"
    for number, _, theorem, file in rows:
        if not (ROOT / file).exists() or not re.search(rf"^ *(?:pub )?{re.escape(theorem)} :|\bfn {re.escape(theorem)}\b", read(file), re.M):
            yield f"GUARANTEES: promise {number}: {file} has no {theorem}"


def quotable(text):
    """A text as its quotations are compared: one line, without backticks, list numbers and comment signs."""
    return re.sub(r"\s+", " ", re.sub(r"^(?:\d+\. |> ?)", "", text, flags=re.M).replace("`", ""))


def quote_faults():
    """What GUARANTEES and the comments of specs/ quote stands in PROMISES, SCHEME or REFUSALS; ' .. ' leaves words out, words between brackets are added."""
    sources = [quotable(read(f"docs/{name}.md")) for name in ("PROMISES", "SCHEME", "REFUSALS")]
    places = {"docs/GUARANTEES.md": read("docs/GUARANTEES.md")}
    for path in sorted(ROOT.glob("crates/*/specs/*.antt")):
        comments = (re.sub(r"^.*?(?:^|\s)-- ?", " ", line) if re.search(r"(?:^|\s)--(?: |$)", line) else "\n" for line in path.read_text(encoding="utf-8").splitlines())
        places[str(path.relative_to(ROOT))] = "".join(comments)
    for place, text in places.items():
        for quote in re.findall(r'"([^"\n]+)"', text):
            parts = [quotable(part).strip(" .;:,") for part in re.split(r" \.\. | \[[^\]]*\] ", quote)]
            if not any(in_order(parts, source) for source in sources):
                yield f'{place} quotes "{quote}", which stands in none of PROMISES, SCHEME and REFUSALS'


def in_order(parts, source):
    at = 0
    for part in parts:
        at = source.find(part, at)
        if at < 0:
            return False
        at += len(part)
    return True


def edit_faults():
    """Each program of paper 01's list of those that must fall short has an edit that is there."""
    owed = re.search(r"^\d+\. Programs that must fall short: (.*)$", read("docs/PROMISES.md"), re.M)[1]
    rows = re.findall(r'^\| "([^"]+)" \| (`[^|]+`) \|$', read("docs/GUARANTEES.md").split("## Must-fail edits")[1], re.M)
    programs = [re.sub(r" \(.*?\)|\.$", "", part).strip() for part in re.split(r";|, or (?=saying)", owed)]
    if [program for program, _ in rows] != programs:
        yield f"GUARANTEES: the programs that must fall short are: {'; '.join(programs)}"
    for program, edits in rows:
        for crate, name in re.findall(r"`(\w+)/(\w+)`", edits) or [("no crate", "no edit")]:
            if not (ROOT / "crates" / crate / "must-fail" / f"{name}.edit").exists():
                yield f"GUARANTEES: '{program}': there is no edit {crate}/{name}"


def version_faults():
    """The long runs of tests/definitions.py that GUARANTEES tells were made with this version."""
    text = "\n".join(path.read_text(encoding="utf-8") for path in sorted(ROOT.glob("crates/*/specs/Version.antt")))
    version = ".".join(re.search(rf"^{part} = (\d+)$", text, re.M)[1] for part in ("major", "minor", "patch"))
    runs = re.findall(r"^\| `(tests/definitions\.py[^`]*)` \| (\S+) \| \d{4}-\d\d-\d\d \|", read("docs/GUARANTEES.md"), re.M)
    if len(runs) != 2:
        yield "GUARANTEES tells not both long runs of tests/definitions.py, each with a version and a date"
    for command, told in runs:
        if told != version:
            yield f"GUARANTEES: the long run of {command} was made with {told}, and this is {version}: make it, and tell its date, result and time"


def layer_faults():
    rows = re.findall(r"^\| ([^|`]+) \| ((?:`\w+`(?:, )?)+) \|", read("docs/ARCHITECTURE.md").split("## Layers")[1].split("\n## ")[0], re.M)
    told = [(title, re.findall(r"`(\w+)`", crates)) for title, crates in rows]
    real = [(title, list(crates)) for title, crates in crate_lines()]
    for title, crates in real:
        if (title, crates) not in told:
            yield f"ARCHITECTURE has no row '{title}' with {', '.join(crates)}"
    for title, crates in told:
        if (title, crates) not in real:
            yield f"crates.txt has no layer '{title}' with {', '.join(crates)}"


def dependency_faults():
    """Each crate is listed with the crates that its own files name, those of the kit too, and none of ours stands later."""
    under = {name: named for _, crates in crate_lines() for name, named in crates.items()}
    order = list(under)
    for place, name in enumerate(order):
        named = set()
        for path in files_of(name, (".antt", ".rt")):
            text = path.read_text(encoding="utf-8")
            words = re.findall(r"\bRattle\.(\w+)", text) + (re.findall(r"(?<![\w:])(\w+)::", text) if path.suffix == ".rt" else [])
            named.update(word for word in words if word in under or word in under[name])
        named.discard(name)
        if named != set(under[name]):
            yield f"crates.txt: {name} names {', '.join(sorted(named ^ set(under[name])))} or does not, other than listed"
        for later in named & set(order[place:]):
            yield f"crates.txt: {name} stands before {later}, which it names"


def kit_faults():
    """README names the kit that kit.txt does."""
    kit = read("kit.txt").strip()
    if f"`{kit}`" not in read("README.md"):
        yield f"README does not name the kit `{kit}`"


def main():
    checks = (tool_faults, name_faults, row_faults, first_page_faults, quote_faults, edit_faults, version_faults, kit_faults, layer_faults, dependency_faults)
    faults = [fault for check in checks for fault in check()]
    for fault in faults:
        print(fault)
    sys.exit(1 if faults else 0)


main()
