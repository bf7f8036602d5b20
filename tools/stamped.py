#!/usr/bin/env python3
"""Copies what `rt ci` prints, with the seconds that a crate took behind each line that says that it is proved: from
when the last of the crates below it was done, or from the start. `rt ci | tools/stamped.py`; a log of the gate then
has them for tools/times.py."""
import os
import re
import sys
import time

import tree

os.chdir(tree.TOP)
below, begun, done = tree.depends(), time.monotonic(), {}
for line in sys.stdin:
    told = re.fullmatch(r"rt: (\w+) (?:proved|is kept: .*)\n", line)
    if told and told.group(1) in below:
        crate, now = told.group(1), time.monotonic()
        done[crate] = now
        if line == f"rt: {crate} proved\n":
            since = max([begun] + [done[other] for other in below[crate] if other in done])
            line = f"rt: {crate} proved ({now - since:.0f} s)\n"
    print(line, end="", flush=True)
