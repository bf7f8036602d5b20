#!/usr/bin/env python3
"""Every function that a crate offers to others says what it yields: no `pub` function is without an `ensures`, of
which only its presence is tested. Prints those that are, and files of which not every function was found; exit status
1 if there is one."""
import glob
import os
import re
import sys

import tree

os.chdir(tree.TOP)
wrong, count = [], 0
for path in sorted(glob.glob("crates/*/src/**/*.rt", recursive=True)):
    text = open(path).read()
    code = re.sub(r"//.*", "", text)
    found = list(tree.functions(text))
    if len(found) != len(re.findall(r"\bfn \w+", code)):
        wrong.append(f"{path}: has functions in a form that tools/tree.py does not know")
    for name, signature, contract, _ in found:
        if signature.lstrip().startswith("pub "):
            count += 1
            if not re.search(r"^ *ensures\b", contract, re.M):
                wrong.append(f"{path}: {name} is `pub` and has no `ensures`")
print("\n".join(wrong) if wrong else f"contracts: each of {count} public functions says what it yields")
sys.exit(1 if wrong else 0)
