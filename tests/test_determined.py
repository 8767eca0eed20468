"""Every public function's contract has its entry among the claims that any two results which it permits are equal, and says the same.

A clause and an entry are compared as trees of names, each name with the file that defines it; a parameter is its place among those that the
clauses name. So a weakened `ensures` has no entry any more, and its entry no function."""
import functools
import itertools
import pathlib
import re
import shutil

from programs import ROOT

CLAIMS = ROOT / "crates" / "claims" / "proofs"
# Entries that stand with other claims; and theorems beside the entries.
ELSEWHERE = {"Skies": ("read-group", "write-group", "table-fault", "table-rest")}
HELPERS = {"one", "read", "one-put", "one-fields", "one-writing"}
# The functions without a contract about their outcome, which the claim cannot be made of: they read and write files, of which the kit's
# contracts say nothing (docs/DECISIONS.md); `flush` and `read_more` have a contract, about what they do beside that. `fail` writes a row of
# words, and `arg_count` asks the system how many words there are.
FILES = {"exhibits_" + name for name in ("adding", "checking", "renewing", "rows", "says", "showing", "storing", "walks")}
STREAMS = {("turns", "flush"), ("turns", "read_more"), ("turns", "fail"), ("turns", "arg_count")}
# What a clause calls the answer.
RESULT = "result"
# Where names are defined that a relation or an entry has in another word.
HELD, HOST = "Rattle.put.specs.Wrote.held", "Rattle.sentence.specs.FromHost."


def tree(text):
    """Nested lists of words, by parentheses and braces. What is taken of a value by a dot is a word of its own, which begins with the dot."""
    stack = [[]]
    for word in re.findall(r"[(){}]|\.[\w'«»-]+|[A-Z][^\s(){}]*|[^\s(){}.]+|\.", text):
        if word in "({":
            stack.append([])
        elif word in ")}":
            inner = stack.pop()
            stack[-1].append(inner)
        else:
            stack[-1].append(word.strip("«»"))
    assert len(stack) == 1, text
    return stack[0]


def split(words, at):
    parts = [[]]
    for word in words:
        if word == at:
            parts.append([])
        else:
            parts[-1].append(word)
    return parts


def bare(node):
    """Without needless parentheses, and what a reference holds at entry as the parameter itself, at exit as `exit` of it."""
    if isinstance(node, str) or node[:1] == ["exit"]:
        return node
    merged = []
    for word in map(bare, node):
        if not merged or not isinstance(word, str) or not word.startswith("."):
            merged.append(word)
        elif word == ".new":
            merged[-1] = ["exit", merged[-1]]
        elif word not in (".entry", ".now", ".old"):
            merged[-1] = [merged[-1], word]
    return merged[0] if len(merged) == 1 else merged


@functools.cache
def handed_on(file):
    """The names that a file of the kit's specs hands on, each with the file that it takes it from."""
    kit = pathlib.Path(shutil.which("rt")).resolve().parent.parent / "rattle"
    path = kit.joinpath(*file.split(".")[1:]).with_suffix(".antt") if file.startswith("Rattle.") else kit
    if not path.is_file():
        return {}
    lines = re.findall(r"^pub use ([^\s;{]+?)\.\{([^}]*)\}", path.read_text(), re.MULTILINE)
    return {one.strip(): other for other, listed in lines for one in listed.split(",")}


def origin(file, name):
    """A name with the file that defines it, where another hands it on."""
    while name in handed_on(file):
        file = handed_on(file)[name]
    return file + "." + name


def names(text):
    """Where the names that a file uses are defined: name to file and name there, and the short names of files."""
    found, files = {}, {}
    for path, short, listed in re.findall(r"^ *(?:ghost )?use ([^\s;{]+?)(?: as (\S+?)|\.\{([^}]*)\})?;?$", text, re.MULTILINE):
        if short:
            files[short] = path
        for one in filter(None, (word.strip() for word in listed.split(","))):
            name, _, other = one.partition(" as ")
            found[other or name] = origin(path, name)
    return found, files


class Scope:
    """The words of a formula: parameters by place, results by their order, other names by where they are defined."""

    def __init__(self, text, parameters, results):
        self.found, self.files = names(text)
        self.parameters, self.results = parameters, results

    def word(self, word):
        if word in self.parameters or word in self.results or word.startswith("."):
            return word
        file, _, name = word.rpartition(".")
        return self.files[file] + "." + name if file in self.files else self.found.get(word, word)

    def resolved(self, node):
        if isinstance(node, str):
            return self.word(node)
        if node[0] == "exit":
            return node
        return [self.resolved(one) for one in node]


def last(word):
    return word.rpartition(".")[2] if isinstance(word, str) and not word.startswith(".") else word


def of(node, field):
    return [node, field]


def formulas(node):
    """The parts of a formula; a relation that is a product is taken apart."""
    node = bare(node) if isinstance(node, list) else node
    parts = split(node, "×")
    if len(parts) > 1:
        return [one for part in parts for one in formulas(part)]
    name, *words = node
    name = last(name)
    if name == "Tells":
        return [[words[1], "≡", of(words[0], ".0")], [words[2], "≡", of(words[0], ".1")]]
    if name == "WritesRecord":
        return [["Writes", [HOST + "numbers_fault", words[0], words[1]], [HOST + "record_body", words[1]], *words[2:]]]
    if name in ("Puts", "PutsFields", "Writes", "WritesGroup"):
        return [[name, *words]]
    if "≡" in node:
        left, right = split(node, "≡")
        return [[bare(left), "≡", bare(right)]]
    return [node]


def permitted(node):
    """What is permitted by an entry that is said with `One` and its like."""
    node = bare(node)
    parts = split(node, "×")
    if len(parts) > 1:
        return [one for part in parts for one in permitted(part)]
    name, *words = [one for one in node if not (isinstance(one, list) and "=" in one)]
    whole = {
        "One": lambda x: [["‹r›", "≡", x]],
        "OneAnswer": lambda x: [["‹r›", "≡", of(x, ".0")], ["‹r›", "≡", of(x, ".1")]],
        "OneWriting": lambda fault, body, out: [["Writes", fault, body, out, "‹r›", "‹s›"]],
        "OnePut": lambda d, at, text: [["Puts", [HELD, at, d], text, [HELD, "‹r›", "‹s›"]]],
        "OneFields": lambda d, at, fields: [["PutsFields", [HELD, at, d], fields, [HELD, "‹r›", "‹s›"]]],
    }
    return whole[last(name)](*words)


def flat(node):
    return [node] if isinstance(node, str) else (["exit " + node[1]] if node[0] == "exit" else [w for one in node for w in flat(one)])


def canonical(parts, parameters, results):
    """Each formula with a parameter as its place among those that are named, and a result as its place in the formula; in order."""
    used = [one for one in parameters if any(one in flat(part) for part in parts)]
    said = []
    for part in parts:
        seen = []

        def word(node):
            if isinstance(node, list) and node[0] != "exit":
                return "(" + " ".join(word(one) for one in node) + ")"
            name = "exit " + node[1] if isinstance(node, list) else node
            if name in results or name.startswith(("exit ", "‹")):
                if name not in seen:
                    seen.append(name)
                return f"result {seen.index(name)}"
            return f"parameter {used.index(name)}" if name in used else name

        said.append(word(part))
    return tuple(sorted(said))


def public():
    """The files of a crate that others see: lib.rt, and each that it names as a public module."""
    for lib in sorted((ROOT / "crates").glob("*/src/lib.rt")):
        yield lib
        for name in re.findall(r"^pub mod (\w+);", lib.read_text(), re.MULTILINE):
            yield lib.with_name(name + ".rt")


def functions():
    """Each public function: crate, file, name, the names of its parameters, and its clauses."""
    for path in public():
        text = re.sub(r"//[^\n]*", "", path.read_text())
        for match in re.finditer(r'\bpub (?:unsafe )?(?:extern "C" )?fn (\w+)', text):
            head = signature(text[match.end():])
            given = head[head.index("("):]
            given = given[:closing(given) + 1]
            parameters = re.findall(r"^\((?:&\s*)?(?:mut )?(self)\b", given) + re.findall(r"(\w+)\s*:(?!:)", given)
            members = sorted(set(re.findall(r"\b[A-Z]\w*\.[a-z]\w*", head))) if given != head[:len(given)] else []
            clauses = [clause(head[at.end():]) for at in re.finditer(r"\bensures\b", head)]
            yield path.parts[-3], path, match.group(1), members + parameters, clauses


def methods(path, text):
    """The same of each method of a trait that has a contract, as each type has it: with what the type gives for the trait's members."""
    for match in re.finditer(r"^impl(?:<[^>]*>)? (\w+)(?:<.*?>)? for (\w+) (?=\{)", text, re.MULTILINE):
        block = text[match.end():match.end() + closing(text[match.end():])]
        given = {name: term.replace("(", " ( ").replace(")", " ) ").split() for name, term in re.findall(r"\bghost (\w+) = \{ (.*?) \};", block)}
        for name, parameters, clauses, words in promised().get(match.group(1), ()) if given else ():
            said = [(label, applied(formula, given)) for label, formula in clauses]
            yield path.parts[-3], path, f"{match.group(2)}_{name}", parameters, said, words


def applied(formula, given):
    """A trait's clause with a type's own terms for its members; a member that is a function is given the words behind it."""
    words, said = re.findall(r"[()]|[^\s()]+", formula), []
    while words:
        word = words.pop(0)
        name, dot, field = word.partition(".")
        if name not in given:
            said.append(word)
        elif given[name][0] == "λ":
            head = given[name][1:[one.endswith(".") for one in given[name]].index(True) + 1]
            values = dict(zip((one.rstrip(".") for one in head), [words.pop(0) for _ in head]))
            said += ["(", *(re.sub(r"\w+", lambda one: values.get(one.group(0), one.group(0)), one, count=1) for one in given[name][len(head) + 1:]), ")"]
        else:
            said.append(" ".join(given[name]) + dot + field)
    return " ".join(said)


@functools.cache
def promised():
    """Each trait, with its methods: name, the names of the parameters, the clauses, and the file that says them. That of `From` is the kit's."""
    found = {"From": [("from", ["g"], [("", "from_gives g result")], "")]}
    for path in public():
        text = re.sub(r"//[^\n]*", "", path.read_text())
        uses = "".join(re.findall(r"^ghost use .*\n", text, re.MULTILINE))
        for match in re.finditer(r"^pub trait (\w+)[^{]*(?=\{)", text, re.MULTILINE):
            block = text[match.end():match.end() + closing(text[match.end():])]
            for method in re.finditer(r"\bfn (\w+)", block):
                head = block[method.end():block.index(";", method.end())]
                given = head[head.index("("):]
                given = given[:closing(given) + 1]
                parameters = re.findall(r"^\((?:&\s*)?(?:mut )?(self)\b", given) + re.findall(r"(\w+)\s*:(?!:)", given)
                clauses = [clause(head[at.end():]) for at in re.finditer(r"\bensures\b", head)]
                found.setdefault(match.group(1), []).append((method.group(1), parameters, clauses, uses))
    return found


def clause(text):
    """The name of a clause, if it has one, and what it says, from the text behind `ensures`."""
    name = re.match(r"\*? *(\w*)\s*(?=\{)", text)
    return name.group(1), " ".join(text[name.end() + 1:name.end() + closing(text[name.end():])].split())


def closing(text):
    depth = 0
    for place, letter in enumerate(text):
        depth += (letter in "({") - (letter in ")}")
        if letter in ")}" and depth == 0:
            return place


def signature(text):
    """A function's text up to its body: a brace that follows no word of a clause opens it."""
    place = 0
    while True:
        brace = text.index("{", place)
        if not re.search(r"\b(?:ensures|requires|ghost)(?: \w+)?\s*$", text[:brace]):
            return text[:brace]
        place = brace + closing(text[brace:]) + 1


def entries():
    """Each entry: its file, its name, the names that it binds, and what it says is permitted."""
    for path in sorted(CLAIMS.glob("*.antt")):
        if not path.stem.startswith("Determined") and path.stem not in ELSEWHERE:
            continue
        text = path.read_text()
        for name, said in re.findall(r"^pub (\S+) : (.*?)(?=^(?:unfolding|\S+ .*=|\S+ =))", text, re.MULTILINE | re.DOTALL):
            if name in HELPERS or name not in ELSEWHERE.get(path.stem, (name,)):
                continue
            bound, told = [], []
            for part in split(tree(said), "→"):
                if part and all(isinstance(one, list) and ":" in one for one in part):
                    bound += [word for one in part for word in one[:one.index(":")]]
                else:
                    told.append(part)
            yield path, name, text, bound, told


def contracts():
    said = {}
    impls = (one for path in public() for one in methods(path, re.sub(r"//[^\n]*", "", path.read_text())))
    for crate, path, name, parameters, clauses, *words in itertools.chain(functions(), impls):
        if crate in FILES and not clauses or (crate, name) in STREAMS:
            continue
        scope, parts = Scope("".join([*words, path.read_text()]), parameters, {RESULT}), []
        for _, formula in clauses:
            parts += formulas(scope.resolved(bare(tree(formula))))
        said[f"{crate}::{path.stem}::{name}"] = canonical(parts, parameters, {RESULT})
    return said


def claims():
    said = {}
    for path, name, text, bound, told in entries():
        if len(told) > 1:
            first, second = bare(told[0]), bare(told[1])
            results = set(flat(first)) - set(flat(second))
            parts = formulas(Scope(text, bound, results).resolved(first))
        else:
            results, parts = set(), [bare(one) for one in permitted(Scope(text, bound, set()).resolved(bare(told[0])))]
        said[f"{path.stem} {name}"] = canonical(parts, [one for one in bound if one not in results], results)
    return said


def test_each_function_has_its_entry():
    said, there = contracts(), set(claims().values())
    missing = [f"{name}: {' and '.join(formula)}" for name, formula in said.items() if formula not in there]
    assert not missing, "no entry in crates/claims/proofs/Determined*.antt says what is permitted by\n" + "\n".join(missing)
    assert len(said) > 200


def test_each_entry_has_its_function():
    said, there = claims(), set(contracts().values())
    missing = [f"{name}: {' and '.join(formula)}" for name, formula in said.items() if formula not in there]
    assert not missing, "no public function has the contract of\n" + "\n".join(missing)


def test_each_contract_names_its_results():
    """A function that answers has a clause about its answer, and one about each place that it may change."""
    silent = []
    for crate, path, name, parameters, clauses in functions():
        if crate in FILES and not clauses or (crate, name) in STREAMS:
            continue
        said = " ".join(formula for _, formula in clauses)
        text = re.sub(r"//[^\n]*", "", path.read_text())
        head = signature(text[re.search(r"\bpub (?:unsafe )?(?:extern \"C\" )?fn %s\b" % name, text).end():])
        lent = re.findall(r"(\w+)\s*:\s*&(?:'\w+ )?mut\b", head)
        silent += [f"{crate}::{name}: {one}" for one in lent if not re.search(r"(?<![\w.])«?%s»?\.new\b" % one, said)]
        if "->" in head.split("ensures")[0] and not any(RESULT in flat(tree(formula)) for _, formula in clauses):
            silent.append(f"{crate}::{name}")
    assert not silent, silent


def test_each_exported_function_is_said_by_its_own_clauses():
    """claims/Contracts names every clause of a function that a host calls; the prover compares what they say."""
    text = (CLAIMS / "Contracts.antt").read_text()
    exported = [(name, {said or "1" for said, _ in clauses}) for crate, _, name, _, clauses in functions() if crate == "host"]
    missing = []
    for name, clauses in exported:
        short = name.removeprefix("castanwel_").replace("_", "-")
        said = re.search(r"^  pub %s-says : .*?^  %s-says " % (short, short), text, re.MULTILINE | re.DOTALL)
        own = set(re.findall(r"\b%s\.ensures-(\w+)" % re.escape(short), said.group(0))) if said else set()
        if own != clauses or not re.search(r"\.%s as %s$" % (name, short), text, re.MULTILINE):
            missing.append(name)
    assert not missing, missing
    assert len(exported) > 10
