#!/usr/bin/env python3
"""What an answer may cite: tools/paths.py CRATE FUNCTION [GOAL ..] prints for each goal of a function, by its name in
Answers.antt, where in the code it arises and the steps that are known there, the newest first, each with its fields:
`c.STEP.FIELD`. FUNCTION is its name as a check prints it, or the end of that."""
import glob
import os
import re
import subprocess
import sys
import tempfile

import tree

RECORD = re.compile(r"^( *)pub record (\S+)((?:(?! where\n)[\s\S])*?) where\n((?:\1 +[^\n]*\n|\n)*)", re.M)


def records(text):
    """Record by record its fields, each with the record that it is, if it is one."""
    found = {}
    for _, name, _, body in RECORD.findall(text):
        found[name] = re.findall(r"^ *pub ([^\s:]+) :\s+([^\s(]*)", body, re.M)
    # a call may be a record of the logic, of which the text has no fields
    for name in re.findall(r"^ *abbrev pub (\S+) : Type 0\n *\S+ =\s+Called\.Called\s", text, re.M):
        found[name] = [(field, "") for field in ("lifetimes", "result", "new", "type_inv", "auto", "ensures")]
    return found


def steps(record, known):
    """(step, [field ..]) from a record of the steps known at a goal, back to the start."""
    while record:
        before = None
        for name, kind in reversed(known[record]):
            if name == "before":
                before = kind.split(".")[-1]
            else:
                yield name, [field for field, _ in known.get(kind, [])]
        record = before


os.chdir(tree.TOP)
if len(sys.argv) < 3 or not os.path.isdir(f"crates/{sys.argv[1]}"):
    sys.exit(__doc__)
crate, function, *wanted = sys.argv[1:]
with tempfile.TemporaryDirectory() as folder:
    asked = ["rt", "check", "--start", function, "--generated", folder]
    done = subprocess.run(asked, cwd=f"crates/{crate}", stdout=subprocess.PIPE, stderr=subprocess.STDOUT, text=True)
    made = glob.glob(f"{folder}/**/AnswersOffered.antt", recursive=True)
    if len(made) != 1:
        sys.exit(done.stdout)
    # of functions in a cycle each has its own: Lts-FUNCTION
    read = lambda names: "".join(open(it).read() for it in glob.glob(os.path.join(os.path.dirname(made[0]), names)))
    goals, view = read("AnswersOffered.antt"), read("Lts*/View.antt")
    known = {**records(read("Lts*.antt")), **records(view)}

at = dict(re.findall(r"Named-(\S+) =\s*\(c : (?:[\w+-]+\.)?([^)\s]+)", view))
for place, goal in re.findall(r"^-- (.*)\npub (\S+) :", goals, re.M):
    if not wanted or goal in wanted:
        print(f"{goal} ({place})")
        for name, fields in steps(at.get(goal.split("-clause-")[0]), known):
            print(f"    c.{name}" + (": " + ", ".join(fields) if fields else ""))
