#!/usr/bin/env python3
"""Brings this repository's own names of definitions, lemmas and fields to today's spelling, right after the port's own script.

usage: python3 tools/respell.py [--dry]    at the top of the repository, once

Words of definitions and proofs are in snake case; types, facts and modules keep their capitals. What Rattle source, the library or the
generated proofs name keeps its spelling. Where two names would fall together in the text of one file, the lemma gets `_lem` after it, a field
`_is` and a local name `_here`. Each renaming is printed: the module, the old name and the new one.
"""

import collections
import os
import re
import sys

TOKEN = re.compile(r"[^\s(){}\[\],;.:@\"]+")
USE = re.compile(r"(?m)^(?:pub )?(?:ghost )?use ([^\s{;]+?)(?:\.\{([^}]*)\})?(?: as ([^\s;]+))?;?$")
TOP = re.compile(r"^(\s*)((?:pub |abbrev |unfoldable )*)([^\s:(){}λ,]+)(?: :(?: |$))")
FIELD = re.compile(r"^\s*(?:pub )?([^\s:]+) :")
WORDS = {"where", "use", "mod", "module", "unfolding", "in", "let", "record", "data", "elim", "as", "pub", "abbrev", "unfoldable"}


def snake(name):
    """The name in snake case; a part that is a fact's name keeps its capitals, as All in All_append."""
    if "-" not in name and not re.match(r"[a-z]", name):
        return name
    parts = []
    for part in name.replace("getD", "get_or").split("-"):
        if not re.match(r"[A-Z][a-zA-Z]+$", part):
            part = re.sub(r"(?<=[a-z0-9])([A-Z])", r"_\1", part).lower() if "_" not in part or not part[:1].isupper() else part
        parts.append(part)
    return "_".join(parts)


def respellable(token):
    if not ("-" in token or re.match(r"[a-z][a-z0-9_]*[A-Z]", token)):
        return False
    return not re.search(r"[^\w'₀₁₂₃-]", token) and not token.startswith("-") and not token.endswith("-")


def files(root, endings):
    for folder, dirs, names in os.walk(os.path.join(root, "crates")):
        dirs[:] = sorted(d for d in dirs if d != "out")
        for n in sorted(names):
            if n.endswith(endings):
                yield os.path.join(folder, n)


def module_of(root, path):
    parts = os.path.relpath(path, os.path.join(root, "crates")).split(os.sep)
    if parts[1] == "src":
        return "src:" + "/".join(parts)
    return "Rattle." + ".".join(parts)[: -len(".antt")]


def imports(text, modules):
    """What a file imports: each name with its module, and whether the module is a file of this repository, and no generated one."""
    found = {}
    for m in USE.finditer(text):
        module, names, alias = m.groups()
        mine = module in modules
        if names is None:
            found[alias or module.split(".")[-1]] = (module, None, False)
            continue
        for it in names.split(","):
            a, _, b = (w.strip() for w in it.partition(" as "))
            if a:
                found[a] = (module, a, mine)
            if b:
                found[b] = ("here", b, True)
    return found


def comment_at(line, mark):
    at = line.find(mark)
    while at > 0 and mark == "--" and line[at - 1] not in " \t":
        at = line.find(mark, at + 2)
    return len(line) if at < 0 else at


def clause_spans(text):
    """The parts of a .rt file that are clauses, ghost items and ghost imports."""
    end_of_last = 0
    for m in re.finditer(r"\b(?:requires|ensures|ghost)\b", text):
        line = text.rfind("\n", 0, m.start()) + 1
        if m.start() < end_of_last or "//" in text[line : m.start()]:
            continue
        if text.startswith("ghost use", m.start()):
            end_of_last = text.index(";", m.start()) + 1
            yield m.start(), end_of_last
            continue
        at = text.find("{", m.start())
        depth = 0
        for i in range(at, len(text)):
            depth += {"{": 1, "}": -1}.get(text[i], 0)
            if depth == 0:
                break
        end_of_last = i + 1
        yield at, end_of_last


class File:
    def __init__(self, root, path, modules):
        self.path = path
        self.module = module_of(root, path)
        with open(path, encoding="utf-8") as f:
            self.text = f.read()
        self.antt = path.endswith(".antt")
        self.imports = imports(self.text, modules)
        self.declared = set()
        self.fields = set()
        if self.antt:
            block = None
            for line in self.text.split("\n"):
                code = line[: comment_at(line, "--")]
                if not code.strip():
                    continue
                indent = len(code) - len(code.lstrip())
                if block is not None and indent <= block:
                    block = None
                head = re.match(r"\s*(?:pub )?(?:record|data) ([^\s:(]+)", code)
                if head:
                    block = indent
                    continue
                m = FIELD.match(code) if block is not None else TOP.match(code)
                if m:
                    name = m.group(1) if block is not None else m.group(3)
                    if name not in WORDS:
                        self.declared.add(name)
                        if block is not None:
                            self.fields.add(name)

    def pieces(self):
        """The text in pieces: whether names may be turned there, 'comment' or None."""
        if not self.antt:
            last = 0
            for a, b in clause_spans(self.text):
                yield from self.rust(self.text[last:a])
                yield "code", self.text[a:b]
                last = b
            yield from self.rust(self.text[last:])
            return
        for line in self.text.splitlines(keepends=True):
            at = comment_at(line, "--")
            yield "code", line[:at]
            yield "comment", line[at:]

    @staticmethod
    def rust(part):
        for line in part.splitlines(keepends=True):
            at = comment_at(line, "//")
            yield "rust", line[:at]
            yield "comment", line[at:]


def tokens(part):
    """Each token with what stands before it: '' or the name before a dot."""
    for m in TOKEN.finditer(part):
        before = part[: m.start()]
        behind = re.search(r"([^\s(){}\[\],;:]*)\.$", before)
        yield m, (behind.group(1) if behind else None)


def main():
    dry = "--dry" in sys.argv
    root = os.getcwd()
    paths = list(files(root, (".antt", ".rt")))
    modules = {module_of(root, p) for p in paths}
    all_files = [File(root, p, modules) for p in paths]
    by_module = {f.module: f for f in all_files}
    fields = set().union(*(f.fields for f in all_files))
    new_names = {}  # (module, old name) -> new name; local names have the module of their file

    def identity(f, token, behind):
        """Which module's name a token is: None for one that keeps its spelling."""
        if behind is not None:
            head = behind.split(".")[-1]
            if head in ("tie", "goal", "code", "stated"):
                return None
            if head in f.imports and f.imports[head][1] is None:  # a module's name before the dot
                return (f.imports[head][0], token) if f.imports[head][0] in modules else None
            return ("field", token) if token in fields else None
        if token in f.imports:
            module, name, mine = f.imports[token]
            return (f.module if module == "here" else module, token) if mine else None
        if token in f.fields:
            return ("field", token)
        if token in f.declared:
            return (f.module, token)
        if token in fields and respellable(token):
            return ("field", token)
        return (f.module, token)

    def spelled(ident, token):
        if ident is None:
            return token
        if ident in new_names:
            return new_names[ident]
        return snake(token) if respellable(token) else token

    for turn in range(6):
        clashes = 0
        for f in all_files:
            seen = collections.defaultdict(set)
            for kind, part in f.pieces():
                if kind == "comment":
                    continue
                for m, behind in tokens(part):
                    if behind is not None:
                        continue
                    token = m.group()
                    if kind == "rust":
                        # a parameter or a field hides a definition of its name; a function's name does not
                        if part[m.end() :].startswith(": "):
                            seen[token].add(("rust", token))
                        continue
                    ident = identity(f, token, behind)
                    seen[spelled(ident, token)].add(ident or ("kept", token))
            for new, idents in seen.items():
                olds = {i[1] for i in idents}
                if len(olds) < 2:
                    continue
                rust = any(i[0] == "rust" for i in idents)
                own = [i for i in idents if i[0] not in ("rust", "kept") and (respellable(i[1]) or i[1] == new)]
                # a lemma gives way to a definition, a local name to both
                def rank(i):
                    g = by_module.get(i[0])
                    top = g is not None and i[1] in g.declared
                    return (0 if i[0] == "field" else 1, 0 if not top else 1, 0 if "-" in i[1] else 1 if "_" in i[1] else 2, i)
                own.sort(key=rank)
                clashes += 1
                if turn < 6:
                    print("clash", turn, os.path.relpath(f.path, root), new, sorted(idents))
                if rust and len([i for i in idents if i[0] != "rust"]) == 1 or not own:
                    continue
                i = own[0]
                g = by_module.get(i[0])
                ending = "_is" if i[0] == "field" else "_lem" if g is not None and i[1] in g.declared else "_here"
                new_names[i] = snake(i[1]) + ending
        if not clashes:
            break
    count = collections.Counter()
    for f in all_files:
        out = []
        for kind, part in f.pieces():
            if kind == "rust":
                out.append(part)
                continue
            last = 0
            for m, behind in tokens(part):
                token = m.group()
                if kind == "comment":
                    camel = re.match(r"[a-z][a-z0-9_]*[A-Z]", token) and re.fullmatch(r"\w+", token)
                    ident = (f.imports.get(token, (f.module,))[0], token) if camel else None
                    new = spelled(ident, token)
                else:
                    ident = identity(f, token, behind)
                    new = spelled(ident, token)
                if new != token:
                    out += [part[last : m.start()], new]
                    last = m.end()
                    count[(ident[0], token, new)] += 1
            out.append(part[last:])
        new = "".join(out)
        if new != f.text and not dry:
            with open(f.path, "w", encoding="utf-8") as g:
                g.write(new)
    for (module, old, new), n in sorted(count.items()):
        print("renamed", module, old, new, n, sep="\t")


if __name__ == "__main__":
    main()
