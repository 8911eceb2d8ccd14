"""Reads the files of antt and Rattle under crates/: what each imports and declares. It reads text and proves nothing; tools/guarantees.py and tests/unused.py use it."""
import functools
import pathlib
import re

ROOT = pathlib.Path(__file__).resolve().parent.parent
NAME = r"(?:\[\]|[^\s(){}\[\],;.«»]+)"
WORDS = re.compile(rf"(?<![^\s(){{}}\[\],;«»!&*])({NAME})((?:\.{NAME})*)")
IMPORT = re.compile(r"^[ \t]*(?:pub )?(?:ghost )?use ([^;\n{]*?)(?:(?:\.|::)\{([^}]*)\})?(?: as ([^\s;]+))?;?[ \t]*$", re.M)
GIVEN = re.compile(r"(?:(?<=[{;] )|(?<=\blet )|^ *)[^\s(){}\[\],;.]+ = ", re.M)
HEAD = re.compile(r"( *)((?:(?:abbrev|unfoldable|pub) )*)(?:(record|data) )?([^\s(){}\[\],;:=λ]+)(?= |$)")
# what may stand between a name and the colon of its signature
BINDERS = r"(?: (?:\{[^{}]*\}|\((?:[^()]|\([^()]*\))*\)))* :( |$)"
# a lemma or a definition that an attribute of code names by its path
CITED = re.compile(r"\bcrate::(specs|proofs)::((?:\w+::)*)([^\s:(){}\[\],;]+)")
# where an operator takes an argument, as in ◌∷◌
HOLE = "◌"
BLOCK = re.compile(r"( *)(?:(?:abbrev|unfoldable|pub) )*(module|mutual)\b")


def bare(text, comment="--"):
    """The text without comments."""
    lines = []
    for line in text.split("\n"):
        quoted, place = False, 0
        while place < len(line):
            quoted ^= line[place] == '"'
            if not quoted and line.startswith(comment, place) and line[place - 1 : place] in ("", " ") and (comment != "--" or line[place + 2 : place + 3] in ("", " ")):
                break
            place += 1
        lines.append(line[:place].rstrip())
    return "\n".join(lines)


def words(text):
    """The names in a text, and those that stand after a name and a dot: (module, name), or a value and its field. What is given a value is neither."""
    plain, dotted = set(), set()
    text = GIVEN.sub(" = ", re.sub(r'"[^"\n]*"', '""', text))
    for first, rest in WORDS.findall(text.replace("«", " ").replace("»", " ")):
        plain.add(first)
        if HOLE in first:
            plain.update(part for part in first.split(HOLE) if part)
        if rest:
            dotted.add((first, rest[1:].split(".")[0]))
    return plain, dotted


def stands(name, plain):
    """Whether a name stands among the words of a text, or every part of a name as ◌∷◌."""
    return name in plain or HOLE in name and all(part in plain for part in name.split(HOLE) if part)


class Declaration:
    """A declaration: its own lines, and before them the headers of the blocks that it stands in."""

    def __init__(self, kind, words_before):
        before = set(words_before.split())
        self.kind, self.computes, self.is_public, self.headers, self.own = kind, bool({"abbrev", "unfoldable"} & before), "pub" in before, [], []

    @property
    def lines(self):
        return self.headers + self.own

    @property
    def statement(self):
        """What is declared of a name, without its proof."""
        end = [place for place, line in enumerate(self.own) if place and re.match(r" *(unfolding\b|\S+( .*)? =( |$))", line)]
        return self.headers + (self.own[: end[0]] if end and not self.kind else self.own)


class File:
    """A file: its imports (the name here → the module and the name there), its modules (the name here → the module), its declarations (name → text)."""

    def __init__(self, path):
        self.path, self.rattle = path, path.suffix == ".rt"
        self.text = bare(path.read_text(encoding="utf-8"), "//" if self.rattle else "--")
        self.imports, self.modules, self.whole = {}, {}, {}
        for module, names, alias in IMPORT.findall(self.text):
            module = module.strip()
            for item in filter(None, (item.strip() for item in names.split(","))):
                there, _, here = item.partition(" as ")
                self.imports[here.strip() or there] = (module, there)
            if alias:
                self.modules[alias] = module
            elif not names:
                self.whole[re.split(r"\.|::", module)[-1]] = module
        self.body = IMPORT.sub("", self.text)
        self.declarations = {} if self.rattle else self.declared()

    def declared(self):
        """Each declaration of the file and of the blocks in it, with the headers of the blocks that it stands in."""
        found, blocks, current, header = {}, [], None, None
        for line in self.body.split("\n"):
            depth = len(line) - len(line.lstrip(" "))
            if header is not None:
                header.append(line)
                header = header if not line.endswith("where") else None
                continue
            if line:
                while blocks and depth <= blocks[-1][0]:
                    blocks.pop()
                    current = None
            level = blocks[-1][0] + 2 if blocks else 0
            block = BLOCK.match(line)
            if block and depth == level:
                blocks.append((depth, [line]))
                header = blocks[-1][1] if block[2] == "module" and not line.endswith("where") else None
                current = None
                continue
            head = HEAD.match(line)
            if head and depth == level and (head[3] or re.match(BINDERS, line[head.end() :])):
                current = found.setdefault(head[4].strip("«»"), Declaration(head[3] or "", head[2]))
                current.headers += [text for _, lines in blocks for text in lines]
            if current is not None:
                current.own.append(line)
        return found

    def members(self, name):
        """The constructors of data and the fields of a record."""
        declaration = self.declarations[name]
        lines = re.findall(r"^ +(?:pub )?([^:\n(){}]+?) :", "\n".join(declaration.own), re.M) if declaration.kind else []
        return {member for line in lines for member in line.split()}

    def reached(self, text):
        """What a text in this file names: (path, name) of declarations in the tree; and the imports that it uses."""
        plain, dotted = words(text)
        found = {(self.path, name) for name in self.declarations if stands(name, plain)}
        used = set()
        for here, (module, there) in self.imports.items():
            if stands(here, plain):
                used.add(here)
                found.add((place(module), there))
        for here, module in {**self.modules, **self.whole}.items():
            if here in plain:
                used.add(here)
                found.update((place(module), name) for first, name in dotted if first == here)
        if self.rattle:
            base = ROOT / "crates" / crate(self.path)
            found.update((base / part / (modules.strip(":").replace("::", "/") + ".antt"), name) for part, modules, name in CITED.findall(self.text))
        return {(path, name) for path, name in found if path}, used


@functools.cache
def place(module):
    """The file of a module of this tree, or None."""
    found = re.match(r"Rattle\.(\w+)\.(specs|proofs)\.(.+)$", module)
    path = found and ROOT / "crates" / found[1] / found[2] / (found[3].replace(".", "/") + ".antt")
    return path if path and path.exists() else None


@functools.cache
def tree():
    """Every file of specs/, proofs/ and src/, by its path."""
    paths = [path for ending in ("antt", "rt") for path in sorted(ROOT.glob(f"crates/*/**/*.{ending}")) if not {"must-fail", "out"} & set(path.parts)]
    return {path: File(path) for path in paths if path.name != "Lib.antt"}


@functools.cache
def owners():
    """The declaration that each constructor and each field belongs to."""
    return {(path, member): (path, name) for path, file in tree().items() for name in file.declarations for member in file.members(name)}


def reached_from(roots):
    """The declarations, (path, name), that these come to."""
    found, todo = set(), list(roots)
    while todo:
        path, name = todo.pop()
        if path in tree() and name not in tree()[path].declarations:
            path, name = owners().get((path, name), (None, None))
        if path in tree() and (path, name) not in found:
            found.add((path, name))
            todo += tree()[path].reached("\n".join(tree()[path].declarations[name].lines))[0]
    return found


def crate(path):
    return path.relative_to(ROOT / "crates").parts[0]


def folder(path):
    return path.relative_to(ROOT / "crates").parts[1]
