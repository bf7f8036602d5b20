#!/usr/bin/env python3
"""docs/PROMISES.md and the tree: the column 'In' of each row lists the files under crates/ that carry the row's
label in a comment; the table of wrong programs lists for each refusal the must-fail edits that carry its label.
`tools/promises.py` compares, `tools/promises.py --write` writes both. Also wrong: a label in crates/ without a row, a
row that names no file and does not say what it waits for, a refusal without a must-fail edit, and a name in the
column before 'In' that is no word of the crates (in backticks), or, as crate::function, not declared in that crate's
code. Prints what is wrong; exit status 1 if anything is."""
import glob
import os
import re
import sys

import tree

KINDS = r"D\d\.\d|S\d+|E\d+|W\d+|C\d+|K\d+|N\d+|R\d+|G\.[a-d]|V\d+|P\d+|F\d+|T\d+|Q\d\d\.\d+"
BEGIN, END = "<!-- made by tools/promises.py -->\n", "<!-- end of the table -->\n"
LABEL = re.compile(r"(?<![\w.])(%s)(?![\w]|\.\d)" % KINDS)


def labels(path):
    """The labels that a file's comments carry, outside quotations; of an edit every line is a comment."""
    text = open(path).read()
    comments = text if path.endswith(".edit") else "\n".join(re.findall(r"(?:--|//) (.*)", text))
    return set(LABEL.findall(re.sub(r'"[^"]*"', "", comments)))


def carriers():
    """Label by label the files that carry it."""
    found = {}
    for path in tree.files():
        if path.endswith((".antt", ".rt", ".edit")):
            for label in labels(path):
                found.setdefault(label, []).append(path[len("crates/"):])
    return found


def known():
    """Every word of the crates' code, specs and proofs, and the names of their edits."""
    words = set()
    for path in tree.files():
        if path.endswith((".antt", ".rt")):
            words.update(re.findall(r"[\w'-]+", open(path).read()))
        elif path.endswith(".edit"):
            words.add(os.path.basename(path)[:-len(".edit")])
    return words


def declared(crate):
    """What a crate's code declares: functions, types, constants and modules."""
    text = "".join(open(path).read() for path in glob.glob(f"crates/{crate}/src/*.rt"))
    return set(re.findall(r"\b(?:fn|struct|enum|type|const|mod|impl) (\w+)", text))


def unknown(cell, words):
    """The names in a cell that the crates do not have."""
    there = words | set(tree.crates())
    named = [name for name in re.findall(r"`([A-Za-z][\w.-]*)`", cell) if not set(name.split(".")) <= there]
    for path in re.findall(r"\b([a-z_]+(?:::\w+)+)", cell):
        crate, *names = path.split("::")
        if not set(names) <= declared(crate):
            named.append(path)
    return named


def wrong_programs(carried, causes):
    """The table of wrong programs: for each refusal, by its cause, the edits that carry its label."""
    yield "| Number | Cause | Must-fail edits |\n"
    yield "|---|---|---|\n"
    for label, cause in causes.items():
        edits = [file.replace("/must-fail/", "/")[:-len(".edit")] for file in carried.get(label, [])
                 if file.endswith(".edit")]
        if not edits:
            wrong.append(f"{label} has no must-fail edit")
        yield f"| {label[1:]} | {cause} | {', '.join(f'`{edit}`' for edit in edits)} |\n"


def with_table(text, table):
    """The text with the table between its two marks."""
    before, rest = text.split(BEGIN, 1)
    return before + BEGIN + "\n" + "".join(table) + "\n" + END + rest.split(END, 1)[1]


os.chdir(tree.TOP)
words = known()
wrong, rows, lines, carried, causes = [], set(), [], carriers(), {}
for line in open("docs/PROMISES.md"):
    cells = re.split(r"(?<!\\)\|", line)
    if len(cells) == 7 and re.fullmatch(KINDS, cells[1].strip()):
        label, waits = cells[1].strip(), cells[5].strip()
        rows.add(label)
        if re.fullmatch(r"R\d+", label):
            causes[label] = cells[2].split("\\|")[0].strip()
        files = carried.get(label, [])
        for name in unknown(cells[3], words):
            wrong.append(f"{label} tells of {name}, which is not there")
        if not files and not waits:
            wrong.append(f"{label} is in no file and waits for nothing")
        cells[4] = " " + ", ".join(f"`{file}`" for file in files) + " "
    lines.append("|".join(cells))
for label in sorted(set(carried) - rows):
    wrong.append(f"label {label} has no row: {' '.join(carried[label])}")
text = with_table("".join(lines), wrong_programs(carried, causes))
if sys.argv[1:] == ["--write"]:
    open("docs/PROMISES.md", "w").write(text)
elif text != open("docs/PROMISES.md").read():
    wrong.append("the column 'In' or the table of wrong programs differs from the tree: run tools/promises.py --write")
print("\n".join(wrong) if wrong else f"promises: {len(rows)} rows, every label found")
sys.exit(1 if wrong else 0)
