#!/usr/bin/env python3
"""Counts, in crates/*/src, the places of each point of docs/DESIGN-PASS.md: forms that stand where the language has
better ones. `tools/places.py` prints for each point a total and the number of each kind of place; `tools/places.py
--list [POINT ..]` each place too, as file:line and what stands there. The rules go by the text of the code, some by
its names, so each place is one for a reader to look at. A place may stand under two points. A kind in brackets is told
beside a point and is not in its total."""
import collections
import glob
import os
import re
import sys

import source
import tree
from source import matches, place

TITLES = ["own options, flags and numbers", "twins", "loops that count by hand", "comparing, copying, putting by hand",
          "what travels together, and facts said again", "lengths beside slices, parallel slices, links",
          "switches between functions", "answers and helper lemmas"]


# ---- 1: Option, Result and `?`

BYTES = (r"[!=]= (?:10|32|9|13|45|49)\b|\b(?:32|48|49) <|< 48\b|<= 57\b|- 48\b|\b4[89] [}+]"
         r"|, (?:10|32|37|45|48|99)\)")


def numbers(f):
    """Numbers that stand for what an enum says."""
    said = re.search(r"\b0 (if|where) (all|there|it satisfies)\b|\b0 for none", f.comment)
    if said or re.search(r"\{ result ≡ (first_failing|number_of|falsified_from)\b", f.contract):
        if not re.match("Option|Result", f.gives):
            yield "0 for none", place(f)
    if f.gives == "u32" and re.search(r"return 0;.*\s1\s*$", f.body, re.S):
        yield "1 or 0 for done or not", place(f)
    if re.search(r"put_words\(\w+, \d", f.body):
        yield "numbers for kinds", place(f)
    for found in matches(f, r"\bcode: (?:u32|\d+)|\bcode [!=]= \d|\b\w*(?:refused|stopped)\((?:out, )?\d"):
        yield "numbers for refusals", found
    for found in matches(f, BYTES):
        yield "(numbers for bytes of a text)", found


def point1():
    for kind in TYPES:
        if source.conditional(kind):
            yield "enums like Option or Result", place(kind)
        if source.flagged(kind, OUTCOMES):
            yield "flags with a value", place(kind)
    for f in FUNCTIONS:
        yield from numbers(f)
        if f.gives[:1] == "(" and re.search(r"\bbool\b|Result<", f.gives):
            yield "flags with a value", place(f)
        # a `let .. else` on a case of an own enum, or an arm on its refusal: `?` with a Result
        for found in matches(f, r"let (?!Some|Ok|Err)\w+::[^;=]*=[^;]*?\belse\b|Refused \{[^}]*\}(?= =>)"):
            yield "own cases matched by hand", found


# ---- 2: one generic function

def point2():
    kinds = [kind for kind in TYPES if source.conditional(kind) or source.flagged(kind, OUTCOMES)]
    same = lambda one, other: source.sketch(one, OUTCOMES) == source.sketch(other, OUTCOMES)
    for word, groups in ("functions", source.twins(FUNCTIONS)), ("types", source.families(kinds, same)):
        for group in groups:
            for item in group[1:]:
                yield word + " beyond the first of a group", place(item, f"{item.name}, like {group[0].name}")
    for f in FUNCTIONS:
        if re.search(r"\b%s\(" % f.name, f.body) and "never calls itself" in f.comment:
            yield "calls of itself that never run", place(f)


# ---- 3: for

def point3():
    for f in FUNCTIONS:
        for word, head, body, where in source.loops(f):
            if source.stepped(body) & set(re.findall(r"\w+", head)):
                yield "indices counted by hand", where
            elif source.stepped(body):
                yield "counts beside a loop's own", where
            elif word != "for" and "next_variable" in body:
                yield "(walks over the variables of a set)", where
            elif word != "for":
                yield "(loops that count nothing)", where


# ---- 4: derives, From, Display

COMPARED = [r"[\w\s().|&]*([=!]=|<=?)[\w\s().|&=<]*", r"if (\w+) < (\w+) \{ \1 \} else \{ \2 \}",
            r".*\b\w+\.(\w+), \w+\.\1\b.*", r".*\b\w+\[(\w+)\] != \w+\[\1\].*", r".*\w\.len\(\) != \w+\.len\(\).*"]
TESTED = [r"if (\w+) < (\w+)\.len\(\) \{ \2\[\1\][^{}]*\}( else \{[^{}]*\})?",
          r"if (\w+)\.len\(\) <= (\w+) \{ return .*\1\[\2\].*"]


def copied(body):
    """Whether a struct is made of two fields or more of one other, each of its own name, or by one function each. A
    method may make another struct of its own: that is where the conversion stands."""
    for fields in re.findall(r"\b[A-Z]\w* \{ ([^{}]*)\}", body):
        held = collections.Counter(of for _, of in re.findall(r"(\w+): (?!self\b)([\w.]+)\.\1\b(?!\[)", fields))
        held.update(re.findall(r"\w+: (\w+)\(\w+, \d\)", fields))
        if max(held.values(), default=0) > 1:
            return True
    return False


def point4():
    for f in FUNCTIONS:
        body = " ".join(f.body.split())
        if any(re.fullmatch(rule, body) for rule in COMPARED):
            yield "comparing", place(f)
        if f.name not in ("from", "try_from") and copied(body):
            yield "copying field by field", place(f)
        if re.search(r"\b(\w+)::(\w+)(?: \{[^{}]*\}|\([^()]*\))? => (?:(?!=>).)*(?!\1)\b\w+::\2\b", body):
            yield "a case to the like case", place(f)
        if any(re.fullmatch(rule, body) for rule in TESTED):
            yield "an index tested before it is used", place(f)
        if re.match("put_", f.name) and "out" in f.takes:
            yield "text or bytes put by hand", place(f)
        elif re.search(r"\b4[89]\b|b'[01]'|[*/%] (?:10|256)\b|if \w+ \{ 1 \} else \{ 0 \}", body):
            yield "digits or bytes of numbers by hand", place(f)
        if len(re.findall(r"\b\w+\[\d\] = ", body)) > 1:
            yield "elements stored one by one", place(f)


# ---- 5: structs with methods

def point5():
    taken, said, groups = collections.defaultdict(list), collections.defaultdict(list), {}
    for f in FUNCTIONS:
        for name in f.takes:
            taken[name].append(f)
        for fact in dict.fromkeys(source.facts(f.contract)):
            said[fact].append(f)
    for having in taken.values():
        beside = collections.Counter(other for f in having for other in f.takes)
        groups.setdefault(frozenset(other for other, n in beside.items() if n >= 0.9 * len(having)), having)
    for group, having in groups.items():
        if len(having) > 2 and len(group) > 1:
            names = " + ".join(name for name in having[0].takes if name in group)
            yield "parameters that travel together", place(having[0], f"{names}, in {len(having)} signatures")
    for fact, having in said.items():
        if len(having) > 2:
            yield "facts in three contracts or more", place(having[0], f"{fact}, in {len(having)} contracts")


# ---- 6: slices

def point6():
    linked = {kind.name for kind in TYPES if re.search(r"\b(links|guesses): &", " ".join(kind.parts))}
    for kind in TYPES:
        if re.search(r": \[.*\w: u|\w: u.*: \[", " ".join(kind.parts)):
            yield "lengths beside slices", place(kind)
        if len(re.findall(r": &[^,]*\[", ", ".join(kind.parts))) > 1:
            yield "slices beside each other in a struct", place(kind)
    for f in FUNCTIONS:
        lent = {name for name, of in f.takes.items() if of.startswith("&") and "[" in of}
        if source.counted(f, lent):
            yield "lengths beside slices", place(f)
        if {"positive", "negative"} <= lent:
            yield "clauses in two slices", place(f)
        if {"points", "falsified"} <= lent:
            yield "slots in two or three slices", place(f)
        made = re.findall(r"let mut \w+(?:: \[[^=]*)? = \[[^;\]]*; ([^\]]*)\]", f.body)
        if len(made) > len(set(made)):
            yield "local arrays in parallel", place(f)
        if {"links", "guesses"} & lent or linked & set(re.findall(r"\w+", " ".join(f.takes.values()))):
            yield "links in a slice", place(f)


# ---- 7: closures

def point7():
    held = {value for kind in TYPES if kind.word == "struct" for value in source.values(kind)}
    plain = {kind.name for kind in TYPES if kind.word == "enum" and not any(source.values(kind))} - held
    for f in FUNCTIONS:
        called = collections.defaultdict(set)
        for name, given in re.findall(r"\b([a-z]\w*)\(([^()]*,[^()]*,[^()]*)\)", f.body):
            called[" ".join(given.split()).strip(" ,")].add(name)
        if any(len(names - {f.name}) > 1 for names in called.values()):
            yield "switches between functions of one shape", place(f)
        if plain & set(f.takes.values()):
            yield "a case that says which step to run", place(f)


# ---- 8: proofs

def point8():
    """How much there is, not places: the second of each pair is a number."""
    paths = sorted(glob.glob("crates/*/proofs/**/*.antt", recursive=True))
    answers = "".join(open(path).read() for path in paths if path.endswith("/Answers.antt"))
    others = [path for path in paths if not re.search("/(Answers|Invariants|Lib|Proof).antt$", path)]
    yield "files Answers.antt", sum(path.endswith("/Answers.antt") for path in paths)
    yield "lines in them", answers.count("\n")
    yield "answers", len(re.findall(r"^pub \S+ : ", answers, re.M))
    yield "answers that are `search rules` alone", len(re.findall(r"^\S+ c = search rules$", answers, re.M))
    yield "lemmas beside answers", len(re.findall(r"^(?:abbrev )?(?!pub |use )\S+ : ", answers, re.M))
    yield "modules of lemmas", len(others)
    yield "lemmas in them", sum(not it[1] for path in others for it in tree.items(open(path).read()))


def told(n, points, listed):
    found = collections.defaultdict(list)
    for kind, what in points:
        found[kind].append(what)
    total = sum(len(places) for kind, places in found.items() if kind[0] != "(")
    print(f"{n}. {TITLES[n - 1]}" + (f": {total}" if n < 8 else ""))
    for kind, places in sorted(found.items(), key=lambda pair: pair[0][0] == "("):
        print("%7d  %s" % (len(places) if n < 8 else places[0], kind))
        if listed and n < 8:
            print("".join("           %s %s\n" % what for what in places), end="")


os.chdir(tree.TOP)
if sys.argv[1:] and sys.argv[1] != "--list":
    sys.exit(__doc__)
FUNCTIONS, TYPES = source.everything()
OUTCOMES = source.outcomes(TYPES)
for n, points in enumerate([point1, point2, point3, point4, point5, point6, point7, point8], 1):
    if not sys.argv[2:] or str(n) in sys.argv[2:]:
        told(n, points(), "--list" in sys.argv)
