"""The pages of docs/ cite only what is there: definitions, theorems, edits, functions, tests and wrong programs."""
import re

from programs import ROOT

PAGES = ("CLAIMS.md", "SHUT-OUT.md", "COURSE.md", "DECISIONS.md", "LAYOUT.md")
CRATES = {path.name for path in (ROOT / "crates").iterdir()}


def cited(pattern):
    """Each match of a pattern in a page, with the page's name."""
    return [(page, found) for page in PAGES for found in re.findall(pattern, (ROOT / "docs" / page).read_text())]


def has_definition(path, name):
    words = r"(?:abbrev |unfoldable |pub |data |record )*"
    return path.exists() and re.search(r"^\s*%s%s(?=[ :]|$)" % (words, re.escape(name)), path.read_text(), re.MULTILINE)


def none_missing(missing, count):
    assert not missing, missing
    assert count > 0


def test_definitions_and_theorems():
    found = [(page, one) for page, one in cited(r"(?<![\w./-])([a-z_]+)/([A-Z]\w*)((?:,? `[\w·-]+`)*)") if one[0] in CRATES]
    missing = []
    for page, (crate, file, names) in found:
        files = [ROOT / "crates" / crate / part / (file + ".antt") for part in ("specs", "proofs")]
        if not any(path.exists() for path in files):
            missing.append((page, crate, file))
        missing += [(page, crate, file, name) for name in re.findall(r"`([^`]+)`", names)
                    if not any(has_definition(path, name) for path in files)]
    none_missing(missing, len(found))


def test_edits():
    found = [(page, one) for page, one in cited(r"(?<![\w./-])([a-z_]+)/([a-z0-9]+(?:_[a-z0-9]+)+)(?!\w|[./]\w)") if one[0] in CRATES]
    none_missing([one for one in found if not (ROOT / "crates" / one[1][0] / "must-fail" / (one[1][1] + ".edit")).exists()], len(found))


def test_functions():
    found = [(page, one) for page, one in cited(r"`([a-z_]+)::((?:[a-z_]+::)*[a-z_]+)`") if one[0] in CRATES]
    missing = []
    for page, (crate, path) in found:
        *modules, name = path.split("::")
        source = ROOT / "crates" / crate / "src" / ((modules or ["lib"])[0] + ".rt")
        if not source.exists() or not re.search(r"fn %s\b" % name, source.read_text()):
            missing.append((page, crate, path))
    none_missing(missing, len(found))


def test_tests():
    found = cited(r"(?<![`\w])(test_[a-z]+)(?: `(test_[a-z0-9_]+)`)?(?!\w)")
    missing = []
    for page, (file, name) in found:
        path = ROOT / "tests" / (file + ".py")
        if not path.exists() or "def %s(" % name not in path.read_text() + "def (":
            missing.append((page, file, name))
    none_missing(missing, len(found))


def test_wrong_programs():
    rows = {row.split("\t")[1] for row in (ROOT / "tests" / "wrong.txt").read_text().splitlines() if "\t" in row}
    found = cited(r"'([a-z]+: [^']+)'")
    none_missing([one for one in found if one[1] not in rows], len(found))


def code_of(crate, file):
    """The source files whose contracts cite a file of definitions: of its crate and those named after it; of any where these have none."""
    cites = re.compile(r"^ *ghost use Rattle\.%s\.specs\.%s\b" % (crate, file), re.MULTILINE)
    paths = [path for path in sorted((ROOT / "crates").glob("*/src/*.rt")) if cites.search(path.read_text())]
    near = [path for path in paths if (path.parts[-3] + "_").startswith(crate + "_")]
    return ["crates/" + "/".join(path.parts[-3:]) for path in near or paths]


def test_where_the_code_stands():
    """The last table of docs/CLAIMS.md has a row for each file of definitions that the page names."""
    before, _, after = (ROOT / "docs" / "CLAIMS.md").read_text().partition("## Where the code stands\n")
    named = {one for one in re.findall(r"(?<![\w./-])([a-z_]+)/([A-Z]\w*)", before)
             if one[0] in CRATES and (ROOT / "crates" / one[0] / "specs" / (one[1] + ".antt")).exists()}
    rows = [f"| {crate}/{file} | {', '.join(code_of(crate, file)) or '-'} |" for crate, file in sorted(named)]
    assert len(rows) > 50
    there = [row for row in after.splitlines() if re.match(r"\| \w+/", row)]
    assert there == rows, "the table differs in\n" + "\n".join(sorted(set(there) ^ set(rows)))
