#!/usr/bin/env python3
"""Each must-fail edit can be applied: every `old:` text stands exactly once in the file that the edit names. The
gate finds that too, but late. Exit status 1 and what is wrong if an edit does not fit."""
import glob
import os
import sys

import tree

os.chdir(tree.TOP)
wrong, paths = [], sorted(glob.glob("crates/*/must-fail/*.edit"))
for path in paths:
    text = None
    for line in open(path):
        key, _, said = line.rstrip("\n").partition(": ")
        if key == "file":
            text = open(os.path.join(os.path.dirname(path), "..", said)).read()
        elif key == "old" and text.count(said) != 1:
            wrong.append(f"{path}: stands {text.count(said)} times in its file: {said}")
print("\n".join(wrong) if wrong else f"edits: {len(paths)} fit their files")
sys.exit(1 if wrong else 0)
