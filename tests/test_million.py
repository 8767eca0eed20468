"""The tool that compares a million inputs, on a few thousand; and that it tells where answers differ."""
import subprocess

from programs import ROOT


def compared(*words):
    done = subprocess.run([str(ROOT / "tools" / "million"), *words], capture_output=True, cwd=ROOT, timeout=300)
    return done.returncode, done.stdout.decode().splitlines()


def test_a_few_thousand():
    status, said = compared("--count", "8000", "--seed", "61")
    assert (status, said[-1]) == (0, "8000 compared, 0 differ"), said
    counts = [int(row.split(":")[0].split()[-1]) for row in said[:11]]
    assert len(said) == 13 and sum(counts) == 8000 and min(counts) > 150, said


def test_answers_that_differ_are_told():
    status, said = compared("--count", "200", "--scribe", "cat")
    assert status == 1 and said[-1] == "200 compared, 200 differ", said
    status, said = compared("--count", "200", "--scribe", "true")
    assert status == 1 and said[-1] == "200 compared, 200 differ", said
