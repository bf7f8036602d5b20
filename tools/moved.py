#!/usr/bin/env python3
"""What moved since a commit: `tools/moved.py COMMIT [--renamed FILE] [--times BEFORE AFTER]`.

Prints, by crate and in all, the lines added and removed of definitions (specs/*.antt), contracts (`requires` and
`ensures` in .rt), laws (specs/Laws, and modules of proofs/ that are no function's), proofs, code, comments (in .rt and
.antt), tests (tests, must-fail edits, examples, benches), tools and documents; then by name the definitions and the
contracts that changed, are new or are gone. Lines are compared as a bag, white space folded: one that only moved
counts in neither column of 'in all'. Of specs and contracts the lines count of declarations that differ as a whole, so
that a line that was only broken does not. Imports and blank lines do not count.

FILE has one renaming a line, with paths as they are called now but for OLD: `path OLD NEW`, a file or a folder;
`name OLD NEW [PATH ..]`, an identifier, everywhere or in these files and folders; `phrase PATH: OLD => NEW`, words
of one file, where an identifier has two meanings or bytes become text. What differs after these, white space aside,
has changed. With two logs of the gate, as `bash -c 'time .ci/run'` leaves them, it also prints what each crate's
check took before and after."""
import argparse
import collections
import os
import re
import subprocess
import sys
import tempfile

import tree

KINDS = ["definitions", "contracts", "laws", "proofs", "code", "comments", "tests", "tools", "documents"]


def below(path, place):
    return path == place or path.startswith(place + "/")


class Renamings:
    def __init__(self, path):
        self.paths, self.names, self.phrases = [], [], []
        for line in open(path) if path else []:
            words = line.split()
            if words[:1] == ["phrase"]:
                place, said = line.split(None, 1)[1].split(": ", 1)
                self.phrases.append((place, *said.rstrip("\n").split(" => ")))
            elif words[:1] == ["path"]:
                self.paths.append((words[1], words[2]))
            elif words[:1] == ["name"]:
                self.names.append((words[1], words[2], words[3:]))
        self.paths.sort(key=lambda pair: -len(pair[0]))
        folders = [pair for pair in self.paths if re.fullmatch(r"crates/\w+", pair[0])]
        self.crates = {old.split("/")[1]: new.split("/")[1] for old, new in folders}

    def path(self, path):
        for old, new in self.paths:
            if below(path, old):
                return new + path[len(old):]
        return path

    def text(self, path, text):
        """The text of the file that is now called path, with the names of now."""
        for place, old, new in self.phrases:
            text = text.replace(old, new) if place == path else text
        named = {old: new for old, new, places in self.names if not places or any(below(path, at) for at in places)}
        if named:
            text = re.sub(r"[\w·′'₀-₉-]+", lambda m: named.get(m.group(0), m.group(0)), text)
        if self.crates:
            text = re.sub(r"(?<![\w:])(\w+)(?=::)", lambda m: self.crates.get(m.group(0), m.group(0)), text)
        return text


def kind_of(path):
    if path.startswith("crates/"):
        if "/must-fail/" in path or path.endswith(("/stdin", "/stdout")):
            return "tests"
        if "/proofs/" in path:
            return "laws" if re.search(r"/proofs/[A-Z]\w*\.antt$", path) else "proofs"
        if "/specs/" in path:
            return "laws" if "/specs/Laws" in path else "definitions"
        return "code"
    if path.startswith(("tests/", "examples/", "benches/")):
        return "tests"
    return "documents" if path.endswith(".md") or path.startswith("docs/") else "tools"


def spans(text):
    """The places of a file's contracts."""
    for _, signature, contract, body in tree.functions(text):
        if contract:
            yield body - len(contract), body


def counted(path, text):
    """(kind, what is compared, how many lines it has) of all that counts."""
    kind, at, source = kind_of(path), 0, path.endswith((".rt", ".antt"))
    contracts = list(spans(text)) if path.endswith(".rt") else []
    for start, end in contracts:
        yield "contracts", " ".join(text[start:end].split()), text[start:end].count("\n")
    declared = kind in ("definitions", "laws")
    if declared:
        for name, _, said, lines in tree.items(text):
            yield kind, said, lines
    for line in text.split("\n"):
        folded = " ".join(line.split())
        if source and folded.startswith(("//", "--")):
            yield "comments", folded, 1
        elif not folded or declared or source and re.match(r"(ghost use|use|pub mod|mod)\b", folded):
            pass
        elif not any(start <= at < end for start, end in contracts):
            yield kind, folded, 1
        at += len(line) + 1


def read(folder, paths):
    for path in paths:
        try:
            yield path, open(os.path.join(folder, path), encoding="utf-8").read()
        except (UnicodeDecodeError, IsADirectoryError, FileNotFoundError):
            pass


class Tree:
    """The files of one state of the repository, with the paths and names of now."""

    def __init__(self, files, renamed):
        self.lines, self.definitions, self.contracts, self.types = (collections.Counter() for _ in range(4))
        self.sizes = {}
        self.believed = set()
        for old, text in files:
            path = renamed.path(old)
            text = renamed.text(path, text)
            crate = path.split("/")[1] if path.startswith("crates/") else "-"
            for kind, line, size in counted(path, text):
                self.lines[crate, kind, line] += 1
                self.sizes[line] = size
            if kind_of(path) in ("definitions", "laws"):
                for name, defined, said, _ in tree.items(text):
                    if defined:
                        self.definitions[name, said] += 1
                        if kind_of(path) == "definitions":
                            self.believed.add((name, said))
            if path.endswith(".rt"):
                for name, signature, contract, _ in tree.functions(text):
                    self.contracts[name, tree.clauses(signature + contract)[1]] += 1
                self.types.update(tree.types(text))


def sums(less, more, key):
    """By what key gives, how many lines of one state the other does not have."""
    bags = [collections.defaultdict(collections.Counter), collections.defaultdict(collections.Counter)]
    for bag, state in zip(bags, (less, more)):
        for (crate, kind, line), n in state.lines.items():
            bag[key(crate), kind][line] += n
    new = {at: bags[1][at] - bags[0][at] for at in set(bags[0]) | set(bags[1])}
    return {at: sum(n * more.sizes[line] for line, n in lines.items()) for at, lines in new.items()}


def table(before, after, key, names):
    added, removed = sums(before, after, key), sums(after, before, key)
    for name in names:
        cells = ["+%d −%d" % (added.get((name, kind), 0), removed.get((name, kind), 0)) for kind in KINDS]
        cells = ["" if cell == "+0 −0" else cell for cell in cells]
        if any(cells):
            print("| %s | %s |" % (name, " | ".join(cells)))


def say(title, changed):
    print(f"{title}: " + ("none" if not changed else ", ".join(sorted(changed))))


def compared(what, before, after, all_before, all_after):
    """By name, what of two sets of (name, text) the other side does not have anywhere."""
    gone = {name for name, said in before if (name, said) not in all_after}
    new = {name for name, said in after if (name, said) not in all_before}
    say(f"{what} that changed", gone & new)
    say(f"{what} that are new", new - gone)
    say(f"{what} that are gone", gone - new)


def listed(*command):
    return subprocess.run(command, stdout=subprocess.PIPE, check=True, text=True).stdout.split("\n")


arguments = argparse.ArgumentParser(description=__doc__, formatter_class=argparse.RawDescriptionHelpFormatter)
arguments.add_argument("commit")
arguments.add_argument("--renamed", metavar="FILE")
arguments.add_argument("--times", nargs=2, metavar=("BEFORE", "AFTER"))
asked = arguments.parse_args()
logs = [os.path.abspath(log) for log in asked.times or []]
renamed, same = Renamings(asked.renamed), Renamings(None)
os.chdir(tree.TOP)
with tempfile.TemporaryDirectory() as folder:
    archive = subprocess.run(["git", "archive", asked.commit], stdout=subprocess.PIPE, check=True).stdout
    subprocess.run(["tar", "-x", "-C", folder], input=archive, check=True)
    old = listed("git", "ls-tree", "-r", "--name-only", asked.commit)
    before = Tree(read(folder, old), renamed)
after = Tree(read(".", listed("git", "ls-files", "-co", "--exclude-standard")), same)

print("| crate | " + " | ".join(KINDS) + " |\n|" + "---|" * (len(KINDS) + 1))
gone = sorted({crate for crate, _, _ in before.lines} - set(tree.crates()) - {"-"})
table(before, after, lambda crate: crate, tree.crates() + gone + ["-"])
table(before, after, lambda crate: "in all", ["in all"])
compared("definitions", before.believed, after.believed, before.definitions, after.definitions)
inner = [{said for said in state.definitions if said not in state.believed} for state in (before, after)]
compared("definitions inside (laws)", *inner, before.definitions, after.definitions)
both = {said for said in before.definitions if said in after.definitions}
say("definitions that a reader no longer believes", {name for name, said in (before.believed - after.believed) & both})
say("definitions that a reader newly believes", {name for name, said in (after.believed - before.believed) & both})
compared("contracts, with their signatures,", before.contracts, after.contracts, before.contracts, after.contracts)
compared("types of the code", before.types, after.types, before.types, after.types)
if logs:
    (was, whole_was), (took, whole) = (tree.seconds(log, names.crates) for log, names in zip(logs, (renamed, same)))
    print(f"\nThe gate: {whole_was} before, {whole} after.\n\n| crate | before, s | after, s |\n|---|---|---|")
    for crate in tree.crates():
        print(f"| `{crate}` | {was.get(crate, '')} | {took.get(crate, '')} |")
