#!/usr/bin/env python3
"""README's map of the crates, made from crates.txt (parts and order), the head comment of each crate's code (its
first sentence) and the modules that stand in its specs/. `tools/map.py` compares and says how to mend a difference,
exit status 1; `tools/map.py --write` writes the map."""
import os
import re
import sys

import tree

BEGIN, END = "<!-- made by tools/map.py -->\n", "<!-- end of the map -->\n"


def row(crate):
    if not tree.head(tree.source(crate)):
        sys.exit(f"{tree.source(crate)} does not begin with a comment that says what the crate is")
    idea = tree.sentence(tree.head(tree.source(crate)))
    names = ", ".join(f"`{module[1]}`" for module in tree.believed(crate))
    return f"| `{crate}` | {idea} | {names} |\n"


def made():
    text = BEGIN
    for title, crates in tree.parts():
        text += f"\n**{title}**\n\n| crate | what it is | definitions |\n|---|---|---|\n" + "".join(map(row, crates))
    return text + "\n" + END


os.chdir(tree.TOP)
folders = sorted(os.listdir("crates"))
if folders != sorted(tree.crates()):
    sys.exit("crates.txt and crates/ differ: " + " ".join(sorted(set(folders) ^ set(tree.crates()))))
readme = open("README.md").read()
there = re.search(re.escape(BEGIN) + ".*?" + re.escape(END), readme, re.S)
if not there:
    sys.exit(f"README.md has no {BEGIN.strip()} .. {END.strip()}")
new = readme[:there.start()] + made() + readme[there.end():]
if sys.argv[1:] == ["--write"]:
    open("README.md", "w").write(new)
elif new != readme:
    sys.exit("README's map differs from the crates: run tools/map.py --write")
print(f"map: {len(folders)} crates in {len(tree.parts())} parts")
