"""The library's programs against the independent second program, over seeded input, sound and damaged."""
import re
import subprocess
import sys

from programs import ROOT, run

PYTHON = [sys.executable]
HEAD = b"no address answer\n"


def second(mode, data):
    done = subprocess.run([*PYTHON, "second", mode], input=data, capture_output=True, cwd=ROOT, timeout=300)
    assert done.returncode == 0, done.stderr[-500:]
    return done.stdout


def generated(kind, count, seed):
    done = subprocess.run([*PYTHON, "second/generate.py", kind, str(count), str(seed)], capture_output=True, cwd=ROOT, timeout=300)
    assert done.returncode == 0, done.stderr[-500:]
    assert len(done.stdout) > count
    return done.stdout


def test_second_program_checks_itself():
    done = subprocess.run([*PYTHON, "second/selftest.py"], capture_output=True, cwd=ROOT, timeout=300)
    last = done.stdout.decode().strip().splitlines()[-1]
    assert re.fullmatch(r"[1-9]\d* passed, 0 failed", last), last


def test_listing_agrees():
    for seed in (1, 2, 3):
        log = generated("log", 4000, seed)
        ours = run("listing", log)[0]
        agree(ours, second("listing", log), seed)
        for no in range(1, 6):
            assert b"refused %d" % no in ours, (seed, no)


def test_records_agree():
    for seed in (11, 12, 13):
        log = generated("log", 4000, seed)
        agree(run("listing", log, "records")[0], HEAD + second("records", log), seed)


def agree(ours, theirs, seed):
    assert ours.count(b"\n") > 1000
    for left, right in zip(ours.splitlines(), theirs.splitlines()):
        assert left == right, (seed, left, right)
    assert ours == theirs, seed
