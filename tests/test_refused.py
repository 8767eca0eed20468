"""Each must-fail edit is refused because a fact no longer holds, not because its proof no longer fits the code: by what the prover says
of it first, in the log that tools/edits keeps. And rt ci has counted each as refused by a verdict."""
import re

from programs import ROOT

SHAPE = re.compile(r"has no field|has no `|that can be named from here|is not in scope|is no name|was not admitted|a dimension is expected"
                   r"|is no library that this check was passed|cannot be used|error\[")
# What rt says of an edit that is refused, and what it adds where that says little.
REFUSED = re.compile(r"^refused, as it must be(?!.*\((?:only because a proof file names|only by a limit))")
EDITS = sorted((ROOT / "crates").glob("*/must-fail/*.edit"))


def name(edit):
    return f"{edit.parts[-3]}/{edit.stem}"


def first_error(log):
    """The first error that the prover tells or, where it tells none, the first thing that is not proved."""
    lines = log.read_text(errors="replace").splitlines()
    errors = [line for line in lines if ": error" in line or line.startswith("error")]
    return next(iter(errors or [line for line in lines if "not proved" in line]), "no error")


def test_edits_are_refused_for_a_fact():
    logs = {edit: ROOT / "target" / "must-fail" / edit.parts[-3] / edit.stem / ".log" for edit in EDITS}
    missing = [name(edit) for edit, log in logs.items() if not log.exists()]
    assert not missing, f"no log of {', '.join(missing)}: tools/test tries each edit before it comes here"
    first = {name(edit): first_error(log) for edit, log in logs.items()}
    shapes = [f"{edit}: {said[:160]}" for edit, said in first.items() if SHAPE.search(said) or said == "no error"]
    assert not shapes, "\n".join(shapes)
    assert len(EDITS) > 100


def test_edits_are_counted_as_refused():
    told = dict(re.findall(r"^rt: must-fail (\w+/[\w.-]+)\.edit: (.*)$", (ROOT / "target" / "ci.out").read_text(), re.MULTILINE))
    wrong = [f"{name(edit)}: {told.get(name(edit), 'not tried')[:200]}" for edit in EDITS if not REFUSED.match(told.get(name(edit), ""))]
    assert not wrong, "\n".join(wrong)
