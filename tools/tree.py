"""What the tools of this folder know of the repository: its parts and crates, the modules of specs, what a module
holds, and the contracts of functions."""
import collections
import glob
import os
import re

TOP = os.path.join(os.path.dirname(os.path.abspath(__file__)), "..")


def parts():
    """The parts of the repository as crates.txt has them: (title, [crate ..])."""
    found = []
    for line in open("crates.txt"):
        title = re.match(r"# -- (.*)", line)
        if title:
            found.append((title.group(1).strip(), []))
        elif line.strip() and not line.startswith("#"):
            found[-1][1].append(line.split(":")[0].split()[0])
    return found


def depends():
    """Crate by crate what its line in crates.txt names."""
    lines = [line.split(":") for line in open("crates.txt") if line.strip() and not line.startswith("#")]
    return {head.split()[0]: below.split() for head, below in lines}


def crates():
    return [crate for _, names in parts() for crate in names]


def files():
    """The files of the crates, without what checks leave in out/."""
    paths = sorted(glob.glob("crates/**/*", recursive=True))
    return [path for path in paths if path.split("/")[2:3] != ["out"] and os.path.isfile(path)]


def source(crate):
    """The root of a crate's code."""
    for name in ("lib", "main"):
        path = f"crates/{crate}/src/{name}.rt"
        if os.path.exists(path):
            return path
    return None


def head(path):
    """The comment that a file begins with, as one line of text."""
    words = []
    for line in open(path):
        comment = re.match(r"(?:--|//) (.*)", line)
        if not comment:
            break
        words.append(comment.group(1).strip())
    return " ".join(words)


def sentence(text):
    """The first sentence of a text: to the first full stop that a blank and a capital letter, or the end, follow."""
    return re.match(r".*?\.(?=\s+[A-Z`]|$)", text + ("" if text.endswith(".") else "."), re.S).group(0)


# ---- modules of specs: a pair of a crate and a path below its specs/, dots for folders

def module_path(module):
    return "crates/%s/specs/%s.antt" % (module[0], module[1].replace(".", "/"))


def is_law(module):
    return module[1].split(".")[0] == "Laws"


def believed(crate):
    """The modules of definitions that stand directly in a crate's specs/."""
    paths = sorted(glob.glob(f"crates/{crate}/specs/*.antt"))
    names = [os.path.basename(path)[:-5] for path in paths]
    return [(crate, name) for name in names if name not in ("Lib", "Laws")]


IMPORT = re.compile(r"^(?:ghost )?use Rattle\.(\w+)\.specs\.([\w.]*\w)(?:\.\{([^}]*)\}| as \w+|);?$", re.M)


def imports(text):
    """(module, [name ..]) for each import of specs of a crate of the repository, the types of the code (`declared`)
    among them; no names where the module is imported as a whole."""
    own = crates()
    for crate, module, names in IMPORT.findall(text):
        if crate in own:
            yield (crate, module), [re.sub(r".* as ", "", name).strip() for name in names.split(",") if name.strip()]


# ---- what a module holds

DECLARED = re.compile(r"^ *(abbrev |unfoldable )?(?:pub )?(record |data )?([^\s:({]+)[^\n]*?(?: :|$)")


def folded(lines):
    """Lines of specs as one, without `pub`, as the layout has it where all stands on one line."""
    said = " ".join(" ".join(lines).replace("pub ", "").split())
    return re.sub(r"[;,]? ([)}])", r"\1", re.sub(r"([({]) ", r"\1", said))


def items(text):
    """What a module declares: (name, whether it is a definition, its text without comments and `pub`, white space
    folded, how many lines it has). The parameters of a module are a definition called `module`, an import under
    another name is one called `use`."""
    found, block = [], []
    for line in re.findall(r"^(?:ghost )?use Rattle\.\S*\.\{[^}]* as [^}]*\}", text, re.M):
        found += [("use", True, renamed.strip(), 1) for renamed in re.split(r"[{},]", line) if " as " in renamed]
    lines = [line.rstrip() for line in text.split("\n") if not re.match(r"\s*--( |$)", line)]
    for line in lines + [""]:
        if line.strip():
            block.append(line)
            continue
        while block and re.match(r"\s*(use|pub mod|infix|module)\b", block[0]):
            ends = [i for i, head in enumerate(block) if head.endswith(" where")] if "module" in block[0] else []
            if ends:
                found.append(("module", True, folded(block[:ends[0] + 1]), ends[0] + 1))
            elif "infix" in block[0]:
                found.append(("infix", True, folded(block[:1]), 1))
            block = block[ends[0] + 1:] if ends else block[1:]
        if block:
            named = DECLARED.match(block[0])
            name = named.group(3) if named else block[0].split()[0]
            found.append((name, bool(named and (named.group(1) or named.group(2))), folded(block), len(block)))
        block = []
    return found


# ---- functions and their contracts

FUNCTION = re.compile(r"^(?: *)(?:pub(?:\(crate\))? )?(?:extern \"C\" )?fn (\w+)(?:<(?:->|[^<>]|<[^<>]*>)*>)?\(", re.M)


def functions(text):
    """(name, signature, contract, place of the body) of each function of a file; the contract is what stands
    between its signature and its body."""
    heads = list(FUNCTION.finditer(text))
    for found, after in zip(heads, heads[1:] + [None]):
        own = text[:after.start()] if after else text
        opened = re.compile(r"^ *\{$", re.M).search(own, found.end())
        inline = own.find(" {", found.end())
        contract = re.compile(r"^ *(?:requires|ensures)\b", re.M).search(own, found.end())
        if contract and opened and contract.start() < min(opened.start(), len(own) if inline < 0 else inline):
            at, end = contract.start(), opened.start()
            yield found.group(1), own[found.start():at], own[at:end], end
        else:
            yield found.group(1), own[found.start():inline], "", inline


def types(text):
    """(name, text) of each struct and enum of a file, comments aside."""
    text = re.sub(r"^\s*//.*\n", "", text, flags=re.M)
    for found in re.finditer(r"^(?:pub )?(?:struct|enum) (\w+)[^;{]*(?:\{.*?^\}|;)", text, re.M | re.S):
        yield found.group(1), " ".join(found.group(0).split())


def clauses(contract):
    """Whether a contract has a `requires`, and its text with white space folded."""
    return bool(re.search(r"\brequires\b", contract)), " ".join(contract.split())


# ---- logs of the gate

def seconds(log, renamed):
    """Crate by crate the seconds of its check in a log of the gate, by the names of now, and the time of the whole."""
    text = open(log).read()
    took = collections.Counter()
    for crate, n in dict(re.findall(r"^rt: (\w+) proved \((\d+) s\)", text, re.M)).items():
        took[renamed.get(crate, crate)] += int(n)
    whole = re.search(r"^real\s+(\d+)m([\d.]+)s", text, re.M)
    passed = re.findall(r"^(\d+ passed, \d+ failed)$", text, re.M)
    said = "%s min %d s" % (whole.group(1), float(whole.group(2))) if whole else "a time that the log does not have"
    return took, said + (f" ('{passed[-1]}')" if passed else "")
