#!/usr/bin/env python3
"""What somebody has to read in order to believe the promises: the modules that the contracts of the entry points
and the claim cite, and all that these import. Prints the list with line counts. Exit status 1 if the list reaches a
law (a module below specs/Laws, or a declaration that is no definition), if an entry point has a `requires`, if a
public function that asks nothing has a contract of its crate's specs/Contract and README's table does not list it
(one with a `requires`, or that takes a type with an invariant, is for callers in Rattle), if a module of definitions stands in specs/ though nothing reads it,
or if README has another figure.

The entry points are those of README's table, and every exported function (`#[unsafe(no_mangle)]`)."""
import glob
import os
import re
import sys

import tree

CLAIM = ("claims", "Claim")
# sentences that promised theorems are about, and that no contract cites
BESIDE = {
    ("claims", "StableSets"): "which files the checker accepts, in the sense of document 002; CheckerExact shows it",
    ("claims", "Cases"): "document 01's worked cases, which CasesHold shows",
    ("dimacs_format", "Accepted"): "which texts are accepted, without a fold; just these are (ReaderLaws)",
    ("dimacs_text", "ReadBack"): "what reading a written text gives; RoundTrip shows it",
    ("dimacs_writer", "SentBack"): "the same of two calls, writing and reading; Calls shows it",
    ("check_theory", "Published"): "stable sets as published, which StableSets speaks of",
}


def entry_points():
    """(crate, function) of README's table."""
    section = open("README.md").read().split("\n## Entry points\n")[1].split("\n## ")[0]
    for row in re.findall(r"^\| (`[^|]*)\|", section, re.M):
        for crate, name in re.findall(r"`(\w+)(?:::\w+)*::(\w+)`", row):
            yield crate, name


def exported():
    for path in sorted(glob.glob("crates/*/src/*.rt")):
        for name in re.findall(r"#\[unsafe\(no_mangle\)\]\npub extern \"C\" fn (\w+)\(", open(path).read()):
            yield path.split("/")[1], name


def invariant_types():
    """The structs that have a ghost field: who makes one has proved something."""
    for path in sorted(glob.glob("crates/*/src/*.rt")):
        for name, fields in re.findall(r"^pub(?:\(crate\))? struct (\w+)[^{;]*\{(.*?)^\}", open(path).read(), re.M | re.S):
            if re.search(r"^ *ghost ", fields, re.M):
                yield name


def contracted():
    """(crate, function) of each public function that asks nothing, by a clause or by a type, and whose contract is one
    of its crate's specs/Contract."""
    guarded = set(invariant_types())
    for path in sorted(glob.glob("crates/*/src/*.rt")):
        text, crate = open(path).read(), path.split("/")[1]
        records = [name for module, names in tree.imports(text) if module == (crate, "Contract") for name in names]
        for name, signature, contract, _ in tree.functions(text):
            promised = re.findall(r"\bensures(?: \w+)? \{ (\w+)", contract)
            public = signature.lstrip().startswith("pub ")
            free = not tree.clauses(contract)[0] and not guarded & set(re.findall(r"\w+", signature))
            if public and free and promised[-1:] and promised[-1] in records:
                yield crate, name


def cited(crate, name):
    """The modules that the contract of a function cites; no contract or a `requires` is wrong."""
    for path in sorted(glob.glob(f"crates/{crate}/src/*.rt")):
        text = open(path).read()
        for found, _, contract, _ in tree.functions(text):
            if found == name:
                required, said = tree.clauses(contract)
                if required or not said:
                    wrong.append(f"{crate}::{name} has {'a `requires`' if required else 'no contract'}")
                words = set(re.findall(r"[^\s(){},]+", said))
                return [module for module, names in tree.imports(text) if words & set(names)]
    wrong.append(f"{crate}::{name} is not there")
    return []


def closure(roots):
    """The modules that roots import, with what imports each, and the types of the code that they speak of."""
    by, types, waiting = dict(roots), set(), list(roots)
    while waiting:
        module = waiting.pop()
        if not os.path.exists(tree.module_path(module)):
            sys.exit(f"{by[module]} imports {tree.module_path(module)}, which is not there")
        for other, _ in tree.imports(open(tree.module_path(module)).read()):
            if other[1].startswith("declared."):
                types.add((other[0], other[1].split(".")[1]))
            elif other not in by:
                by[other] = "%s/%s" % module
                waiting.append(other)
    return by, types


def lines(module):
    """How many lines of a module are definitions or comments: not blank, no import."""
    return sum(1 for line in open(tree.module_path(module)) if line.strip() and not line.startswith("use "))


def listed(title, modules):
    total = sum(map(lines, modules))
    print(f"{title}: {len(modules)} modules, {total} lines")
    order = tree.crates()
    for module in sorted(modules, key=lambda m: (order.index(m[0]), m[1])):
        print("  %4d  %s" % (lines(module), tree.module_path(module)[len("crates/"):]))
    return f"{len(modules)} modules, {total} lines"


os.chdir(tree.TOP)
wrong = []
roots, entries = {CLAIM: "the claim"}, list(entry_points())
for crate, name in entries:
    roots.update({module: f"{crate}::{name}" for module in cited(crate, name)})
core, types = closure(roots)
outer = dict(roots)
for crate, name in exported():
    outer.update({module: f"{crate}::{name}" for module in cited(crate, name)})
whole, more_types = closure(outer)
beside, _ = closure({module: "tools/reading.py" for module in BESIDE})
for module, by in sorted({**core, **whole, **beside}.items()):
    if tree.is_law(module):
        wrong.append(f"{by} reaches the law {tree.module_path(module)}")
    else:
        for name, defined, _, _ in tree.items(open(tree.module_path(module)).read()):
            if not defined:
                wrong.append(f"{tree.module_path(module)} declares {name}, which is no definition")
for crate, name in contracted():
    if (crate, name) not in entries:
        wrong.append(f"{crate}::{name} has a contract of {crate}/specs/Contract, and README's table does not list it")
for crate in tree.crates():
    for module in tree.believed(crate):
        if module not in whole and module not in BESIDE:
            wrong.append(f"{tree.module_path(module)} is no law, yet no contract cites it, nor does the claim")
figure = listed("entry points and the claim", list(core))
listed("exported functions and the program's text, beside these", [module for module in whole if module not in core])
listed("sentences of promised theorems, beside these", list(BESIDE))
print("types of the code that they speak of: " + ", ".join("%s::%s" % kind for kind in sorted(types | more_types)))
if f"**{figure}**" not in open("README.md").read():
    wrong.append(f"README does not say **{figure}**")
print("\n".join(wrong) if wrong else "reading: no law is reached")
sys.exit(1 if wrong else 0)
