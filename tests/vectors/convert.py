#!/usr/bin/env python3
"""Turns vectors, one JSON object a line, into the plain form that tests/vectors.rs reads.

usage: convert.py FILE.jsonl [RETIRED.txt ..] > FILE.txt

A vector is a block of lines, a key and its words; an empty line ends it. Those whose ids stand in a file RETIRED.txt,
one a line, are left out: a later request changed their answers. Words are decimal numbers, except that bytes are given
as runs: H:hex:times (these bytes so many times) or U:first:count (that many 8-byte numbers counting up, low byte
first)."""
import json
import sys


def runs(vector, name):
    if name in vector:
        return ["H:%s:1" % vector[name]] if vector[name] else []
    return ["H:%s:%d" % (p[1], p[2]) if p[0] == "hex" else "U:%d:%d" % (p[1], p[2]) for p in vector[name + "_parts"]]


def sheet(s):
    words = [s["n"], s["rules"], s["wish"], s["exchange_count"]]
    return words + (["H:%s:1" % s["exchanges"]] if s["exchanges"] else [])


def answer(expect):
    if "refused" in expect:
        return ["refused"] + expect["refused"]
    kind = expect.get("answer")
    if kind == "met":
        return ["met", expect["choice"], expect["changes"], expect["slots"]]
    if kind == "cannot be met":
        return ["unmet", expect["slots"]]
    if kind == "no room":
        return ["room", expect["d"], expect["slots"]]
    if kind == "accepted":
        return ["accepted"]
    if "length" in expect:
        return ["written", expect["length"]]
    if "sheet" in expect:
        return ["read"] + sheet(expect["sheet"])
    return ["printed"]


def block(v):
    e = v["expect"]
    yield "vector", [v["kind"], v["id"]]
    yield "fill", [v["fill"]]
    if "sheet" in v:
        yield "sheet", sheet(v["sheet"])
        yield "yes", v["yes"]
        yield "no", v["no"]
    if v["kind"] == "reader":
        yield "lent", [v["yes_len"], v["no_len"]]
        yield "bytes", runs(v, "text")
    if v["kind"] == "builder":
        yield "lent", [v["points_len"], v["rules_len"], v["depths_len"]]
    if v["kind"] == "checker":
        yield "bytes", runs(v, "file")
        r = v.get("reading")
        if r is not None:
            opened = ["refused"] + r["refused"] if "refused" in r else ["opened", r["n"], r["m"], r["exchange_count"]]
            yield "reading", opened
            if "refused" not in r:
                yield "read-images", runs(r, "exchanges")
                yield "read-points", r["points"]
                yield "read-numbers", r["rules"]
    if v["kind"] == "writer":
        yield "points", v["points"]
        yield "numbers", v["rules"]
        yield "lent", [v["depths_len"], v["count"], v["out_len"]]
    if v["kind"] == "write_sheet":
        yield "lent", [v["out_len"]]
    if v["kind"] == "nearest":
        yield "bytes", runs(v, "stdin")
    yield "answer", answer(e)
    for name, key in (("yes", "after-yes"), ("no", "after-no"), ("points", "after-points"), ("rules", "after-numbers"),
                      ("depths", "after-depths")):
        if name in e:
            yield key, e[name]
    for name in ("out", "stdout"):
        if name in e or name + "_parts" in e:
            yield "after-bytes", runs(e, name)


retired = {word for path in sys.argv[2:] for word in open(path).read().split()}
for line in open(sys.argv[1]):
    vector = json.loads(line)
    if vector["id"] in retired:
        continue
    for key, words in block(vector):
        print(" ".join([key] + [str(w) for w in words]))
    print()
