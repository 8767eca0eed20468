"""The exported functions of crates/host_c: each says again what the function of crates/host says that it calls; include/castanwel.h,
the crate in rust/ and docs/LAYOUT.md declare each as the source has it; and a C program that calls every one by the header, linked to the
library, gets the answers that it expects."""
import pathlib
import re
import subprocess
import tempfile

from programs import ROOT, run

HEADER = (ROOT / "include" / "castanwel.h").read_text()

# A number of the source, in C.
IN_C = {"u8": "uint8_t", "u32": "uint32_t", "u64": "uint64_t", "i64": "int64_t", "usize": "size_t", "bool": "bool"}

# Compiles and runs the C program: the words are the file that it is compiled to and the root of the repository.
BUILD = """
cd "$2" && . tools/rust-setup &&
"$cc" -std=c99 -pedantic -Wall -Wextra -Werror -I include tests/header.c target/staticlib/libhost.a -o "$1" && "${run[@]}" "$1"
"""


def texts(pattern):
    """The files of a pattern, one after another."""
    found = sorted(ROOT.glob(pattern))
    assert found, pattern
    return "\n".join(path.read_text() for path in found)


def parameters(text):
    """The parameters of a declaration, in one line each."""
    return [" ".join(one.split()) for one in text.split(",") if one.strip()]


def named(text):
    """Name and type of each parameter, of Rattle or Rust."""
    return [tuple(one.split(": ", 1)) for one in parameters(text)]


def exported():
    """The functions of the source: by name, the parameters with their types, and the type of the answer."""
    found = re.findall(r'#\[unsafe\(no_mangle\)\]\s*pub extern "C" fn (\w+)\(([^)]*)\)\s*->\s*(\w+)', texts("crates/host_c/src/**/*.rt"))
    assert len(found) == texts("crates/host_c/src/**/*.rt").count("no_mangle") > 15
    return {name: (named(takes), gives) for name, takes, gives in found}


def lent(kind):
    """Whether a type is a slice, whether it can be written, and the number in it."""
    return re.fullmatch(r"&(mut )?(\[)?(\w+)\]?", kind)


def c_parameters(name, kind):
    """A parameter as C has it: a slice is a pointer and a length, a lent number a pointer."""
    found = lent(kind)
    if not found:
        return [f"{IN_C[kind]} {name}"]
    can_write, is_slice, number = found.groups()
    pointer = f"{'' if can_write else 'const '}{IN_C[number]} *{name}"
    return [pointer, f"size_t {name}_len"] if is_slice else [pointer]


def rust_types(kind):
    """The same as Rust has it, without names."""
    found = lent(kind)
    if not found:
        return [kind]
    can_write, is_slice, number = found.groups()
    pointer = f"*{'mut' if can_write else 'const'} {number}"
    return [pointer, "usize"] if is_slice else [pointer]


def all_of(turn, rows):
    return [one for row in rows for one in turn(*row)]


def contracts(crate, words):
    """The public functions of a crate that are declared with these words: by name, file, parameters, answer with clauses, and body."""
    found, shape = {}, re.compile(r"^%s (castanwel_\w+)\(([^)]*)\)(.*?)^\{\n(.*?)^\}" % re.escape(words), re.M | re.S)
    for path in sorted((ROOT / "crates" / crate / "src").glob("*.rt")):
        for name, takes, says, body in shape.findall(path.read_text()):
            assert name not in found, name
            found[name] = (path.stem, named(takes), " ".join(says.split()), " ".join(body.split()))
    return found


def test_each_export_says_what_the_function_of_host_says():
    """An export has parameters, answer and clauses of the function of host of its name, and does nothing but to call it with what it was given."""
    ours, theirs = contracts("host_c", 'pub extern "C" fn'), contracts("host", "pub fn")
    assert set(ours) == set(theirs) == set(exported())
    for name, (file, takes, says, body) in ours.items():
        assert (file, takes, says) == theirs[name][:3], name
        path = "" if file == "lib" else file + "::"
        assert body == f"host::{path}{name}({', '.join(one for one, _ in takes)})", name
        assert says.count("ensures") > 0, name


def test_header_declares_each_function():
    code = re.sub(r"/\*.*?\*/", "", HEADER, flags=re.S)
    found = re.findall(r"^(\w+) (\w+)\(([^)]*)\);", code, re.M)
    assert len(found) == code.count(");"), "a declaration of another shape"
    declared = {name: (parameters(takes), gives) for gives, name, takes in found}
    assert declared == {name: (all_of(c_parameters, takes), IN_C[gives]) for name, (takes, gives) in exported().items()}


def test_crate_declares_each_function():
    blocks = re.findall(r'^extern "C" \{\n(.*?)^\}', texts("rust/src/ffi*.rs"), re.M | re.S)
    found = re.findall(r"fn (\w+)\(([^)]*)\)\s*->\s*(\w+);", "".join(blocks))
    declared = {name: ([kind for _, kind in named(takes)], gives) for name, takes, gives in found}
    assert declared == {name: (all_of(lambda _, kind: rust_types(kind), takes), gives) for name, (takes, gives) in exported().items()}


def test_layout_names_each_function():
    found = re.findall(r"^\| `(\w+)\(([^)]*)\) -> (\w+)` \|", (ROOT / "docs" / "LAYOUT.md").read_text(), re.M)
    assert {name: (named(takes), gives) for name, takes, gives in found} == exported()


def test_constants_are_those_of_the_crate():
    ours = {name: int(value) for name, value in re.findall(r"#define CASTANWEL_(\w+) (\d+)$", HEADER, re.M)}
    sums = re.findall(r"^pub const (\w+): usize = ([\d *+_]+);", texts("rust/src/*.rs"), re.M)
    assert ours == {name: eval(value) for name, value in sums} and len(ours) > 5


def test_kinds_and_talkers_are_those_of_the_crate():
    ours = {name: int(value) for name, value in re.findall(r"^    CASTANWEL_(\w+) = (\d+)", HEADER, re.M)}
    sentence = (ROOT / "rust" / "src" / "sentence.rs").read_text()
    kinds = {word: int(number) for number, word in re.findall(r', (\d+), "(\w+)";$', sentence, re.M)}
    talkers = re.findall(r'"(\w+)"', re.search(r'\["GP".*\]\[', sentence).group())
    assert ours == {**kinds, **{word: number for number, word in enumerate(talkers)}}
    assert (len(kinds), len(talkers)) == (15, 5)


def test_a_c_program():
    program = (ROOT / "tests" / "header.c").read_text()
    assert all(name + "(" in program for name in exported())
    run("scribe", b"")  # Builds the library where that has not been done since the last change.
    with tempfile.TemporaryDirectory() as folder:
        words = ["bash", "-c", BUILD, "header", str(pathlib.Path(folder) / "header"), str(ROOT)]
        done = subprocess.run(words, capture_output=True, text=True, timeout=300)
    assert (done.returncode, done.stdout, done.stderr) == (0, "all as expected\n", "")
