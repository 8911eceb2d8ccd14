#!/usr/bin/env python3
"""Brings the names of definitions and lemmas to the spelling of today's Rattle: words in snake case, a dash between two names.

usage: tools/respell.py [--check]     at the top of a tree that port.py has turned; once

A name in camel case turns wherever it stands in specs/, proofs/ and the clauses of src/. A lemma with dashes turns in the files that declare or import it; a dash
stays where it joins two names of definitions. Where a lemma would get the name of a definition, it ends in `_lem`. Functions of src/, strings and must-fail edits stay.
What turned is written to tools/respelled.tsv: crate, old name, new name. Two names that fall together otherwise end it.
"""
import collections
import os
import re
import sys

TOKEN = re.compile(r"[^\s(){}\[\];,.\"`«»⟨⟩λ]+")
QUIET = re.compile(r'"(?:[^"\\\n]|\\.)*"|(?<![^\s(){}.;,])--[^\n]*')
DECLARED = re.compile(
    r"^(\s*)((?:(?:pub|abbrev|unfoldable)\s+)*)((?:[^\s(){}\[\];,.\"`:=]+\s+)*[^\s(){}\[\];,.\"`:=]+)(?:\s+\{[^}]*\}|\s+\([^)]*\))*\s*:(?:\s|$)"
)
HEAD = re.compile(r"^(\s*)(?:pub )?(?:record|data) (\S+)")
USE = re.compile(r"^(use\s+(\S+?)\.\{)([^}]*)(\})", re.M)
CAMEL = re.compile(r"[a-zα-ω][\w'₀-₉⁻¹-]*")
# the words of the library's names
LIBRARY = set("length take drop get_or set replicate append map sum add sub mul div mod abs suc zero le lt cons nil cond reverse filter min max pos neg nat_abs".split())
NOT_NAMES = {"let", "in", "where", "record", "data", "use", "mod", "pub", "unfolding", "module", "_"}
# names that the rule would spell badly
SAID = {"get_d_tabulate": "get_or-tabulate"}


def files(root):
    for folder, folders, names in os.walk(os.path.join(root, "crates")):
        folders[:] = sorted(f for f in folders if f not in ("out", "must-fail"))
        for n in sorted(names):
            if n.endswith((".antt", ".rt")):
                yield os.path.join(folder, n)


def read(path):
    with open(path, encoding="utf-8") as f:
        return f.read()


def declared(text):
    """The names that a file declares, each with whether it stands at the left margin, and whether in a record."""
    inside = None
    for line in text.split("\n"):
        depth = len(line) - len(line.lstrip())
        head = HEAD.match(line)
        if inside is not None and line.strip() and depth <= inside:
            inside = None
        if head:
            inside = depth
            yield head[2], depth == 0, False
            continue
        if line.lstrip().startswith(("--", "use ")):
            continue
        m = DECLARED.match(line)
        if m and not re.search("[→λ=]", m[3]):
            for name in m[3].split():
                if name not in NOT_NAMES:
                    yield name, m[1] == "", inside is not None


def snake(part):
    if part[:1].isupper():
        return part
    return re.sub(r"[A-Z]+(?=[A-Z][a-z])|[A-Z]", lambda m: "_" + m[0].lower(), part.replace("getD", "get_or")).lstrip("_")


def is_camel(name):
    return bool(CAMEL.fullmatch(name)) and bool(re.search("[a-z0-9'][A-Z]", name))


def code(text):
    return QUIET.sub(" ", text)


class Names:
    def __init__(self, root):
        self.root, self.texts = root, {p: read(p) for p in files(root)}
        self.of, self.fields, self.specs, self.home = collections.defaultdict(set), set(), set(), collections.defaultdict(set)
        antt = {p: t for p, t in self.texts.items() if p.endswith(".antt")}
        self.imports, foreign = {}, set()
        for p, t in antt.items():
            self.imports[p] = set()
            for m in USE.finditer(t):
                names = {n.strip().split(" as ")[0] for n in m[3].split(",")}
                own = m[2].startswith("Rattle.") and not m[2].startswith("Rattle.std.")
                (self.imports[p] if own else foreign).update(names)
            self.of[p] = {n for n, _, _ in declared(t)}
            for n, top, field in declared(t):
                if field and "-" in n:
                    self.fields.add(n)
                if "/specs/" in p and top and n[0].islower() and len(n) > 2:
                    self.specs.add(snake(n))
                if not p.endswith("/Proof.antt"):
                    self.home[n].add(p)
        self.foreign = foreign
        self.camel, self.dashed = {}, {}
        used = {m[0] for t in antt.values() for m in TOKEN.finditer(code(t))}
        for n in sorted(set(self.home) | used):
            if n in foreign or n in SAID or "◌" in n or not (is_camel(n) or (n in self.home and "-" in n.strip("-"))):
                continue
            new = self.spelled(n)
            if new != n:
                (self.camel if is_camel(n) else self.dashed)[n] = new
        self.dashed.update(SAID)
        self.settle(used)

    def spelled(self, name):
        parts = [snake(p) for p in name.split("-")]
        names = self.specs | LIBRARY
        out = parts[0]
        for a, b in zip(parts, parts[1:]):
            out += ("-" if (a in names and b in names) or a[:1].isupper() else "_") + b
        return out

    def is_definition(self, name):
        return any("/specs/" in p for p in self.home[name])

    def settle(self, used):
        """A lemma that would get a definition's name gets `_lem`; two others that fall together end it."""
        by_new = collections.defaultdict(list)
        for table in (self.camel, self.dashed):
            for old, new in table.items():
                by_new[new].append(old)
        self.clash = []
        for new, olds in sorted(by_new.items()):
            if new in self.home and new not in self.camel and new not in self.dashed:
                olds.append(new)
            if len(olds) > 1:
                keep = [n for n in olds if self.is_definition(n)]
                keep = keep[:1] or [n for n in olds if n in self.camel][:1] or olds[:1]
                for n in olds:
                    if n not in keep:
                        if n in self.camel:
                            self.clash.append((new, olds))
                        self.dashed[n] = new + "_lem"
            elif new in used and new not in self.home:
                self.clash.append((new, olds))

    def turn(self, path):
        text = self.texts[path]
        if path.endswith(".rt"):
            return re.sub(r'"(?:[^"\\\n]|\\.)*"|[\w\']+', lambda m: self.camel.get(m[0], m[0]), text)
        mine = self.imports[path] | (set() if path.endswith("/Proof.antt") else self.of[path])

        def one(word, dotted):
            if word in self.camel:
                return self.camel[word]
            if word in self.dashed and (word in mine and not dotted or word in self.fields):
                return self.dashed[word]
            return word

        def in_code(t):
            return TOKEN.sub(lambda m: one(m[0], t[m.start() - 1 : m.start()] == "." and t[m.start() - 2 : m.start() - 1] not in "λ ∀"), t)

        def in_comment(t):
            t = re.sub(r"`[^`\n]*`", lambda s: TOKEN.sub(lambda m: self.camel.get(m[0], self.dashed.get(m[0], m[0])), s[0]), t)
            return TOKEN.sub(lambda m: self.camel.get(m[0], m[0]), t)

        out, at = [], 0
        for m in QUIET.finditer(text):
            out += [in_code(text[at : m.start()]), m[0] if m[0][0] == '"' else in_comment(m[0])]
            at = m.end()
        return "".join(out + [in_code(text[at:])])

    def rows(self):
        crates = collections.defaultdict(set)
        for table in (self.camel, self.dashed):
            for old, new in table.items():
                for p in self.home[old]:
                    crates[os.path.relpath(p, self.root).split("/")[1]].add((old, new))
        return "".join(f"{c}\t{old}\t{new}\n" for c in sorted(crates) for old, new in sorted(crates[c]))


def main(argv):
    names = Names(".")
    if "--check" in argv:
        print(len(names.camel), "in camel case,", len(names.dashed), "with dashes")
        for new, olds in names.clash:
            print("look:", new, olds)
        for p in names.texts:
            if p.endswith(".rt"):
                t = names.texts[p]
                for m in re.finditer(r"\bfn (\w+)[^(]*\(([^)]*)\)([^;{]*(?:\{[^}]*\}\s*)*)", t):
                    params = {w.strip().split(":")[0].replace("mut ", "").strip() for w in m[2].split(",")}
                    for w in re.findall(r"[\w']+", m[3]):
                        if names.camel.get(w) in params:
                            print("hides:", p, m[1], w)
        return 0
    turned = {p: names.turn(p) for p in names.texts}
    for p, t in turned.items():
        if t != names.texts[p]:
            with open(p, "w", encoding="utf-8") as f:
                f.write(t)
    with open("tools/respelled.tsv", "w", encoding="utf-8") as f:
        f.write(names.rows())
    return 0


if __name__ == "__main__":
    raise SystemExit(main(sys.argv[1:]))
