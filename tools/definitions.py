#!/usr/bin/env python3
"""Computes outside vectors with the definitions: each becomes a theorem whose proof is `refl`, in a scratch copy of
this repository.

usage: tools/definitions.py VECTORS SCRATCH KIND [MOST]

VECTORS is a file of one JSON object a line, SCRATCH a folder that is made anew, KIND reader, builder, checker, writer
or write_sheet. A vector is left out if its line has more than MOST characters (default 6000), if it comes in parts,
or if its n is beyond what antt should raise 2 to. Prints how many vectors of each answer were computed, which ids
were left out, and what the check says. Not part of the gate."""
import collections
import json
import os
import shutil
import subprocess
import sys

import tree

USES = {
    "reader": "Rattle.dimacs_format.specs.Reader.{read_reply, read_formula, read_clauses}",
    "builder": "Rattle.search.specs.Search.{search_reply, search_slices}\nuse Rattle.math.specs.Lists.{over}",
    "checker": "Rattle.checker.specs.Checker.{check_reply}\nuse Rattle.certificate.specs.Reader.{opened_reply}\n"
    "use Rattle.certificate.specs.Certificate.{file_permutations, file_points, file_numbers}",
    "writer": "Rattle.certificate.specs.Writer.{write_reply, write_output}",
    "write_sheet": "Rattle.dimacs_text.specs.Writer.{text_reply, text_output}",
}
HEAD = """-- Vectors as theorems about the definitions. Assumes nothing.
use Rattle.std.specs.Prelude.{List, [], ◌∷◌, ◌++◌, ◌≡◌, ℕ, replicate}
use Rattle.std.proofs.Common.{refl}
use Rattle.math.specs.Bits.{bit, flip}
use Rattle.point_slices.specs.Slices.{whole_clauses, whole_slots}
use Rattle.permutation_theory.specs.Permutations.{Permutation}
use Rattle.formula.specs.declared.Formula.{Formula}
use Rattle.formula.specs.Reply.{Reply, parsed, refused, satisfiable, unsatisfiable, unknown, written, accepted, opened}
use %s
"""


def listed(xs):
    return "(" + "".join("%d ∷ " % x for x in xs) + "[])"


def filled(vector, count, bits):
    return [(vector["fill"] + i) % 2**bits for i in range(count)]


def formula(sheet):
    images = list(bytes.fromhex(sheet["exchanges"]))
    fields = "variables = %d; clauses = %d; target = %d; permutations = %d; images = %s ++ replicate %d 0"
    values = (sheet["n"], sheet["rules"], sheet["wish"], sheet["exchange_count"], listed(images), 1024 - len(images))
    return "(record { " + fields % values + " })"


def clauses(yes, no):
    return "(whole_clauses %s %s)" % (listed(yes), listed(no))


def slots(points, rules, depths):
    return "(whole_slots %s %s %s)" % (listed(points), listed(rules), listed(depths))


def over(new, old):
    return new + old[len(new):]


def refusal(expect):
    return "refused %d %d" % tuple(expect["refused"]) if "refused" in expect else None


def reader(v):
    e, p, q = v["expect"], filled(v, v["yes_len"], 64), filled(v, v["no_len"], 64)
    sheet = e.get("sheet", {"n": 0, "rules": 0, "wish": 0, "exchange_count": 0, "exchanges": ""})
    args = "%s %s" % (listed(bytes.fromhex(v["text"])), clauses(p, q))
    yield "read_reply", "read_reply %s ≡ %s" % (args, refusal(e) or "parsed")
    yield "read_formula", "read_formula %s ≡ %s" % (args, formula(sheet))
    yield "read_clauses", "read_clauses %s ≡ %s" % (args, clauses(over(e.get("yes", []), p), over(e.get("no", []), q)))


def builder(v):
    e = v["expect"]
    lent = min(65536, v["points_len"], v["rules_len"], v["depths_len"])
    answers = {"met": "satisfiable %s %s %s" % (e.get("choice"), e.get("changes"), e.get("slots")),
            "cannot be met": "unsatisfiable %s" % e.get("slots"),
            "no room": "unknown %s %s" % (e.get("d"), e.get("slots"))}
    args = "%s %s" % (formula(v["sheet"]), clauses(v["yes"], v["no"]))
    yield "search_reply bit flip", "search_reply %s %d ≡ %s" % (args, lent, refusal(e) or answers[e["answer"]])
    names = (("points", 64), ("rules", 32), ("depths", 32))
    old = [filled(v, v[name + "_len"], bits) for name, bits in names]
    new = [over(e.get(name, []), held) for (name, _), held in zip(names, old)]
    yield "search_slices bit flip over", "search_slices %s %s ≡ %s" % (args, slots(*old), slots(*new))


def checker(v):
    file, r = listed(bytes.fromhex(v["file"])), v["reading"]
    args = "%s %s %s" % (formula(v["sheet"]), clauses(v["yes"], v["no"]), file)
    yield "check_reply", "check_reply %s ≡ %s" % (args, refusal(v["expect"]) or "accepted")
    yield "opened_reply", "opened_reply %s ≡ %s" % (file, refusal(r) or "opened")
    if "refused" not in r:
        n, b = r["n"], bytes.fromhex(r["exchanges"])
        if r["exchange_count"] < 5000:
            es = "".join("record { images = %s } ∷ " % listed(b[i * n:(i + 1) * n]) for i in range(r["exchange_count"]))
            yield "file_permutations", "file_permutations %s ≡ (%s[])" % (file, es)
        yield "file_points", "file_points %s ≡ %s" % (file, listed(r["points"]))
        yield "file_numbers", "file_numbers %s ≡ %s" % (file, listed(r["rules"]))


def writer(v):
    e, out = v["expect"], filled(v, v["out_len"], 8)
    args = "%s %s (whole_slots %s %s (replicate %d 0)) %d %s" % (
        formula(v["sheet"]), clauses(v["yes"], v["no"]), listed(v["points"]), listed(v["rules"]), v["depths_len"],
        v["count"], listed(out))
    yield "write_reply", "write_reply %s ≡ %s" % (args, refusal(e) or "written %d" % e["length"])
    yield "write_output", "write_output %s ≡ %s" % (args, listed(over(list(bytes.fromhex(e.get("out", ""))), out)))


def write_sheet(v):
    e, out = v["expect"], filled(v, v["out_len"], 8)
    args = "%s %s %s" % (formula(v["sheet"]), clauses(v["yes"], v["no"]), listed(out))
    yield "text_reply", "text_reply %s ≡ %s" % (args, refusal(e) or "written %d" % e["length"])
    yield "text_output", "text_output %s ≡ %s" % (args, listed(over(list(bytes.fromhex(e.get("out", ""))), out)))


def below(text):
    """The crates that a text imports, with all below them, in the order of crates.txt."""
    os.chdir(tree.TOP)
    lines = tree.depends()
    named = {module[0] for module, _ in tree.imports(text)}
    return [crate for crate in lines if any(crate == name or crate in lines[name] for name in named)]


def taken(v, kind, most):
    sheet = v.get("sheet", {})
    whole = all(field in v for field in {"reader": ["text"], "checker": ["file"]}.get(kind, []))
    lent = max(v.get(field, 0) for field in ("yes_len", "no_len", "points_len", "rules_len", "depths_len", "out_len"))
    small = sheet.get("n", 0) <= 70000 and sheet.get("exchange_count", 0) <= 70000
    return whole and small and len(json.dumps(v)) <= most and lent <= 5000


def main():
    vectors, scratch, kind = *map(os.path.abspath, sys.argv[1:3]), sys.argv[3]
    most = int(sys.argv[4]) if len(sys.argv) > 4 else 6000
    shutil.rmtree(scratch, ignore_errors=True)
    shutil.copytree(tree.TOP, scratch, ignore=shutil.ignore_patterns(".git", "out", "target"), symlinks=True)
    crate = os.path.join(scratch, "crates", "vectors")
    os.makedirs(os.path.join(crate, "src"))
    os.makedirs(os.path.join(crate, "specs"))
    with open(os.path.join(scratch, "crates.txt"), "a") as f:
        f.write("vectors: %s\n" % " ".join(below(HEAD % USES[kind])))
    with open(os.path.join(crate, "src", "lib.rt"), "w") as f:
        f.write("// Vectors as theorems.\n#![tactic(auto)]\n")
    rows = [v for v in map(json.loads, open(vectors)) if v["kind"] == kind]
    chosen = [v for v in rows if taken(v, kind, most)]
    modules = []
    for at in range(0, len(chosen), 40):
        modules.append("V%d" % (at // 40))
        with open(os.path.join(crate, "specs", modules[-1] + ".antt"), "w") as f:
            f.write(HEAD % USES[kind])
            for v in chosen[at:at + 40]:
                for i, (opened, fact) in enumerate(globals()[kind](v)):
                    f.write("\n%s-%d : %s\nunfolding %s\n%s-%d = refl\n" % (v["id"], i, fact, opened, v["id"], i))
    with open(os.path.join(crate, "specs", "Lib.antt"), "w") as f:
        f.write("-- Vectors as theorems.\n" + "".join("pub mod %s\n" % m for m in modules))
    answers = collections.Counter(str(v["expect"].get("refused", ["answered"])[0]) for v in chosen)
    print("%s: %d of %d computed: %s" % (kind, len(chosen), len(rows), dict(answers)))
    print("left out: " + " ".join(v["id"] for v in rows if v not in chosen), flush=True)
    done = subprocess.run(["rt", "check"], cwd=crate, capture_output=True, text=True)
    done = done.stdout + done.stderr
    lines = [line for line in done.splitlines() if "error" in line or line.startswith(("rt:", "logic="))]
    print("\n".join(lines)[-4000:])


main()
