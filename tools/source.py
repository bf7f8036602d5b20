"""What tools/places.py knows of the code of the crates: functions, types and loops, what a line says without comments
and strings, and which bodies are alike."""
import collections
import difflib
import glob
import re

import tree

Function = collections.namedtuple("Function", "path line name text contract body comment takes gives")
Type = collections.namedtuple("Type", "path line word name parts")
NUMBER = re.compile(r"[ui]\d+|[ui]size")


def bare(text):
    """The text without comments, its strings but for `"C"` filled with dots; every character stays at its place."""
    def filled(found):
        said = found.group(0)
        return " " * len(said) if said[0] == "/" else said if said == '"C"' else '"' + "." * (len(said) - 2) + '"'
    return re.sub(r'//[^\n]*|"(?:[^"\\\n]|\\.)*"', filled, text)


def inside(text, at):
    """What stands between the bracket at a place and the one that closes it."""
    deep = 0
    for i in range(at, len(text)):
        deep += (text[i] in "({[") - (text[i] in ")}]")
        if not deep:
            return text[at + 1:i]
    return text[at + 1:]


def parted(text):
    """A text parted at the commas that stand in no bracket, each part with its white space folded."""
    found, deep = [""], 0
    for sign in text.replace("->", "  "):
        deep += (sign in "({[<") - (sign in ")}]>")
        found = found + [""] if sign == "," and not deep else found[:-1] + [found[-1] + sign]
    return [" ".join(part.split()) for part in found if part.strip()]


def function(path, said, text, head, name, signature, contract, at):
    """A function, with its parameters as names and types; one without a body has an empty one."""
    start, opened = head.start(), text.find("{", at) if at >= 0 else -1
    body = inside(text, opened) if opened >= 0 else ""
    above = re.search(r"(?:^ *(?://|#).*\n)*\Z", said[:start], re.M).group(0)
    taken = inside(text, head.end() - 1)
    gives = re.split(r"\bwhere\b", signature[head.end() - start + len(taken):].partition("->")[2])[0]
    takes = dict(re.sub(r"^mut ", "", part).partition(": ")[::2] for part in parted(taken))
    code = signature + re.sub(r"[^\n]", " ", contract) + text[max(at, 0):opened + len(body) + 2]
    return Function(path, said[:start].count("\n") + 1, name, code, contract, body,
                    " ".join(re.findall(r"// (.*)", above)), takes, " ".join(gives.split()))


def types(path, text):
    for head in re.finditer(r"^(?:pub(?:\(crate\))? )?(struct|enum) (\w+)[^;{]*\{", text, re.M):
        held = parted(inside(text, head.end() - 1))
        held = [re.sub(r"#\[[^\]]*\] ?|^pub(\(crate\))? ", "", part) for part in held]
        yield Type(path, text[:head.start()].count("\n") + 1, *head.groups(), held)


def everything():
    """The functions and the types of all crates, lowest crates first."""
    found = [], []
    for crate in tree.crates():
        for path in sorted(glob.glob(f"crates/{crate}/src/**/*.rt", recursive=True)):
            said = open(path).read()
            text = bare(said)
            heads = zip(tree.FUNCTION.finditer(text), tree.functions(text))
            found[0].extend(function(path, said, text, head, *parts) for head, parts in heads)
            found[1].extend(types(path, text))
    return found


def place(item, name=None, further=0):
    return "%s:%d" % (item.path, item.line + further), name or item.name


def matches(f, pattern):
    """A place for each match in a function, at the line where it ends."""
    for found in re.finditer(pattern, f.text):
        yield place(f, further=f.text[:found.end()].count("\n"))


def loops(f):
    """The loops of a function: the word, the condition or the range, the body and the place."""
    for head in re.finditer(r"\b(while|for|loop)\b([^{};]*)\{", f.text):
        yield *head.groups(), inside(f.text, head.end() - 1), place(f, further=f.text[:head.end()].count("\n"))


def stepped(body):
    """The variables that a loop takes on by a constant, in one statement or by way of another variable."""
    found = {name for name, _ in re.findall(r"\b(\w+) (?:[-+]= |= \1 [-+] )(\d|[A-Z])", body)}
    for more, name in re.findall(r"let (\w+) = (\w+)(?:\.\w+)? [-+] (?:\d|[A-Z])", body):
        found |= {name} if re.search(r"\b%s = [^;]*\b%s\b" % (name, more), body) else set()
    return found


# ---- what contracts say

def facts(contract):
    """What a contract says beside a result and what a call leaves, clause by clause, without the times of values."""
    said = r"\b(?:requires|ensures)(?: \w+)? (\{.*?\})\s*(?=\b(?:requires|ensures)\b|\Z)"
    for clause in re.findall(said, contract, re.S):
        for fact in parted(inside(clause, 0).replace("×", ",")):
            if not re.search(r"\bresult\b|\.new\b", fact):
                yield re.sub(r"\.(now|old|entry)\b", "", re.sub(r"^\((.*)\)$", r"\1", fact))


def counted(f, lent):
    """Whether a function takes a number that is the length of a slice, by its name or by the contract. A place in a
    text is none."""
    sizes = [name for name, of in f.takes.items() if NUMBER.fullmatch(of) and of != "u64"]
    named = set(sizes) & {"count", "filled", "limit", "lent", "permutations", "size"}
    sizes = "|".join(name for name in sizes if name not in ("at", "from", "start", "stop", "end", "first")) or "-"
    said = r"\b(?:take|front|Within) (?:%s)\b|(?<![+] )\b(?:%s)(?: \* \S+)? ≤ length" % (sizes, sizes)
    return bool(lent - {"out"} and (named or re.search(said, f.contract)))


# ---- which bodies are alike

KEPT = "let mut while loop if else match return for in as true false break continue len".split()


def shape(f):
    """The tokens of a body, with constants, numbers and their types, and local names all the same."""
    names, made = {}, []
    for token, call in re.findall(r"(\w[\w:]*\w|\w|[=!<>]=|[-=]>|\S)( ?\()?", re.sub(r'b?"[^"]*"', "7", f.body)):
        last = token.split("::")[-1]
        if re.match(r"\d|[A-Z][A-Z_0-9]+$", last):
            token = "7"
        elif NUMBER.fullmatch(token) or token in ("Point", "Depth"):
            token = "T"
        elif call and last[0].islower():
            token = "self" if last == f.name else "call " + last
        elif token not in KEPT and re.match(r"[a-z_]\w*$", token):
            token = names.setdefault(token, "v%d" % len(names))
        made += [token] + ["("] * bool(call)
    text = " ".join(made).replace("7 as T", "7")
    while re.search(r"7 [*+] 7", text):
        text = re.sub(r"7 [*+] 7", "7", text)
    return re.sub(r", (?=[)}])", "", re.sub(r"return ([^;]*) ;", r"\1", text)).split()


def alike(one, other):
    """Whether two shapes are the same or, from 24 tokens on, have 85 of 100 tokens in common, in order, and from 60
    tokens on three of four."""
    if one == other:
        return len(one) >= 8
    short, match = min(len(one), len(other)), difflib.SequenceMatcher(None, one, other, autojunk=False)
    least = 0.85 if short < 60 else 0.75
    return short >= 24 and match.real_quick_ratio() >= least and match.quick_ratio() >= least and match.ratio() >= least


def sized(one, other):
    """Whether two functions make a local array of one name, answer one type and take the same, or one of them less."""
    made = [set(re.findall(r"let mut (\w+)(?:: \[[^=]*)? = \[", f.body)) for f in (one, other)]
    fewer = one.takes.keys() <= other.takes.keys() or other.takes.keys() <= one.takes.keys()
    return bool(made[0] & made[1]) and fewer and one.gives == other.gives


def families(items, same):
    """Items in groups of more than one, each the same as some other of its group."""
    groups = []
    for item in items:
        near = [group for group in groups if any(same(item, other) for other in group)]
        groups = [group for group in groups if group not in near] + [sum(near, []) + [item]]
    return [group for group in groups if len(group) > 1]


def twins(functions):
    """The functions that are alike, in groups."""
    shapes = {id(f): shape(f) for f in functions}
    return families(functions, lambda f, g: alike(shapes[id(f)], shapes[id(g)]) or sized(f, g))


# ---- which types are those of an answer

def values(kind):
    """The types of a struct's fields, or what the cases of an enum carry: nothing for a case that carries nothing."""
    return [re.sub(r"^\w+:? ?", "", part) for part in kind.parts]


def conditional(kind):
    """An enum like Option or Result: some case carries a value, and there are two, or three of which one carries
    nothing, or one is called as the other side of an answer is."""
    carried = values(kind)
    named = re.search(r"\b(Refused|Malformed|Other|Absent|Passed|Accepted)\b", " ".join(kind.parts))
    few = len(carried) == 2 or len(carried) == 3 and "" in carried
    return kind.word == "enum" and any(carried) and bool(few or named)


def outcomes(kinds):
    """Types that say what came of something: enums that carry values, and structs with a field of such a type."""
    found = {kind.name for kind in kinds if kind.word == "enum" and any(values(kind))} | {"Result"}
    for _ in kinds:
        found |= {kind.name for kind in kinds if kind.word == "struct"
                  and found & {re.match(r"\w*", value).group(0) for value in values(kind)}}
    return found


def flagged(kind, known):
    """A struct with a bool or an outcome beside another field. `negated` is a sign of a number and no flag."""
    held = re.findall(r"^(\w+): (\w*)", "\n".join(kind.parts), re.M)
    return kind.word == "struct" and len(held) > 1 and any(
        of == "bool" and name != "negated" or of in known for name, of in held)


def sketch(kind, known):
    """A type's fields or cases without their names, and with all types but bool and the outcomes the same."""
    of = lambda said: said.group(0) if said.group(0) == "bool" else str(said.group(0) in known)
    return kind.word, sorted(re.sub(r"\w+", of, re.sub(r"\w+: |\[[^\]]*\]", "", value)) for value in values(kind))
