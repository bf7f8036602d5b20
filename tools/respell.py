#!/usr/bin/env python3
"""Brings this repository's own definitions and lemmas to the spelling of today's Rattle; run once, right after port.py.

usage: tools/respell.py [--list]      --list prints the names, old and new, and changes nothing

Words are in snake case, types and modules in camel case; a dash joins two names, and a plain word hangs on by '_'.
Functions of src/, names that a check makes, strings and texts keep their names. It goes by tokens, file by file: a name
that a file imports from a library is left as it is there.
"""
import os
import re
import sys

ROOT = os.path.dirname(os.path.dirname(os.path.realpath(__file__)))
# words of the library that a dash may stand beside
STD = """length map take drop append none some nil cons zero suc true false and or xor not add sub mul div mod pow min max
le lt eq ne mem all any reverse range replicate get set get_or head tail fst snd subset cond""".split()
TOKEN = re.compile(r"[^\s(){}\[\];,.\"⌜⌝]+")
# a declaration: a signature at any depth, a field, a constructor
DECLARED = re.compile(r"^\s*((?:abbrev |unfoldable |pub )*)(?:data |record )?([^\s(){}\[\];,.:=]+)((?: [^\s(){}\[\];,.:=]+)*) :(?: |$)(.*)")
BOUND = re.compile(r"\blet ([^\s(){}\[\];,.:=]+) (?::|=)|[({]([^\s(){}\[\];,.:=]+(?: [^\s(){}\[\];,.:=]+)*) : ")
GOAL = re.compile(r": *(?:tie|goal)\.")


def files(*ends):
    for folder, dirs, names in os.walk(os.path.join(ROOT, "crates")):
        dirs[:] = sorted(d for d in dirs if d != "out")
        for name in sorted(names):
            if name.endswith(ends):
                yield os.path.join(folder, name)


def text_of(path):
    with open(path, encoding="utf-8") as f:
        return f.read()


def snake(word):
    """The word of a name in snake case."""
    word = re.sub(r"(?<=[a-z0-9'])([A-Z])", lambda m: "_" + m.group(1).lower(), word)
    return word


def plain(name):
    return re.fullmatch(r"[a-z][A-Za-z0-9'_₀-₉-]*", name) is not None


def spelled(name, known):
    """The name as today's Rattle has it: known words are joined by a dash, others by '_'."""
    parts = [snake(p) for p in name.split("-")]
    pieces, at = [], 0
    while at < len(parts):
        for to in range(len(parts), at, -1):
            word = "_".join(parts[at:to])
            if word in known or to == at + 1:
                pieces.append((word, word in known))
                at = to
                break
    out = pieces[0][0]
    for before, here in zip(pieces, pieces[1:]):
        out += ("-" if before[1] and here[1] else "_") + here[0]
    return out


def declared():
    """The names that files of specs/ and proofs/ declare or bind, and those of them that are no lemmas."""
    names, functions = set(), set(STD)
    for path in files(".antt"):
        made = "/proofs/" in path and path.endswith("Proof.antt")
        for line in text_of(path).split("\n"):
            if line.lstrip().startswith("--"):
                continue
            m = DECLARED.match(line)
            if m and not (made and GOAL.search(line)):
                for name in [m.group(2)] + m.group(3).split():
                    names.add(name)
                    if "abbrev" in m.group(1) or "unfoldable" in m.group(1):
                        functions.add(snake(name))
            for m in BOUND.finditer(line):
                for name in (m.group(1) or m.group(2)).split():
                    names.add(name)
    return names, functions


def renamed():
    names, functions = declared()
    out = {}
    for name in sorted(names):
        if not plain(name):
            continue
        new = spelled(name, functions)
        if new != name:
            out[name] = new
    # a name with a capital inside is a definition or a field: it may share its word with a name elsewhere, as with the
    # function of src/ that it describes. A lemma that would have a definition's name gets _lem.
    taken = {n for n in names if n not in out} | {v for n, v in out.items() if "-" not in n}
    for name in sorted(n for n in out if "-" in n):
        while out[name] in taken:
            out[name] += "_lem"
        taken.add(out[name])
    return out


def imported(text):
    """The names that a file takes from a library."""
    out = set()
    for m in re.finditer(r"^(?:ghost )?use ([^\s{;]+)(?:\{([^}]*)\})?", text, re.M):
        if not m.group(1).startswith("Rattle.") or re.match(r"Rattle\.(std|core|io|os|libc)\.", m.group(1)):
            for part in (m.group(2) or "").split(","):
                out.update(part.split(" as "))
    return {n.strip() for n in out}


def respelled(text, names, comment):
    own = {n for n in names if n not in imported(text)}

    def turned(code):
        def one(m):
            word = m.group(0)
            before = code[: m.start()]
            if re.search(r"\b(?:tie|goal)\.$", before):
                return word
            return names[word] if word in own else word
        return TOKEN.sub(one, code)

    lines = []
    for line in text.split("\n"):
        at = line.find(comment)
        code, said = (line, "") if at < 0 else (line[:at], line[at:])
        # in a comment a hyphened word may be plain English: there only names with a capital inside are names
        said = re.sub(r"[A-Za-z][A-Za-z0-9']*", lambda m: names.get(m.group(0), m.group(0)) if re.search("[a-z][A-Z]", m.group(0)) else m.group(0), said)
        lines.append(turned(code) + said)
    return "\n".join(lines)


def respelled_source(text, names):
    """A .rt file: only names with a capital or a dash inside can be a definition's there, outside of strings."""
    marked = {n: v for n, v in names.items() if re.search("[a-z][A-Z]|-", n) }
    return respelled(text, marked, "//")


def respelled_edit(text, names):
    """A must-fail edit: its paths, its fields and its names, on the lines that are read."""
    lines = []
    for line in text.split("\n"):
        if re.match(r"(old|new): ", line):
            line = re.sub(r"Rattle·(\w+)(?:·specs)?\.specs\.", r"Rattle.\1.specs.", line)
            line = re.sub(r"(?<=[\w)'₀-₉]) \.(?=[a-z])", ".", line)
            line = line[:5] + respelled(line[5:], names, "\0")
        lines.append(line)
    return "\n".join(lines)


def main():
    names = renamed()
    if "--list" in sys.argv:
        for old, new in names.items():
            print(old, new)
        return
    turns = {".antt": lambda t: respelled(t, names, "--"), ".rt": lambda t: respelled_source(t, names),
             ".edit": lambda t: respelled_edit(t, names)}
    for path in files(*turns):
        text = text_of(path)
        new = turns[os.path.splitext(path)[1]](text)
        if new != text:
            with open(path, "w", encoding="utf-8") as f:
                f.write(new)


main()
