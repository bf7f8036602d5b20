#!/usr/bin/env python3
"""Adds a column to docs/TIMES.md: `tools/times.py TITLE LOG`, with LOG what `bash -c 'time .ci/run'` printed. The
newest column comes first; crates are those of crates.txt, and a crate that is gone leaves the table."""
import os
import re
import sys

import tree

if len(sys.argv) != 3:
    sys.exit(__doc__)
title, log = sys.argv[1], os.path.abspath(sys.argv[2])
os.chdir(tree.TOP)
text = open("docs/TIMES.md").read()
head, rows = text.split("\n| crate |", 1)
lines = ("| crate |" + rows).rstrip("\n").split("\n")
cells = [[cell.strip() for cell in line.strip("|").split("|")] for line in lines]
older = {row[0].strip("`"): row[1:] for row in cells[2:]}
took, whole = tree.seconds(log, {})
blank = [""] * (len(cells[0]) - 1)
table = [["crate", title] + cells[0][1:], ["---"] * (len(cells[0]) + 1)]
table.append(["the gate", re.sub(r" \(.*", "", whole)] + older.get("the gate", blank))
for crate in tree.crates():
    table.append([f"`{crate}`", str(took.get(crate, ""))] + older.get(crate, blank))
open("docs/TIMES.md", "w").write(head + "\n" + "".join("| " + " | ".join(row) + " |\n" for row in table))
