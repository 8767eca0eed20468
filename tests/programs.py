"""Runs the repository's programs, built first, on bytes."""
import functools
import pathlib
import subprocess

ROOT = pathlib.Path(__file__).resolve().parent.parent


@functools.cache
def built(name):
    """Has a program proved and built, where that has not been done since the last change: runs after this one say nothing of it."""
    subprocess.run([str(ROOT / "tools" / "program"), name], stdin=subprocess.DEVNULL, capture_output=True, cwd=ROOT, timeout=3600)


def command(name, *words):
    built(name)
    return [str(ROOT / "tools" / "program"), name, *words]


def run(name, data, *words, status=0, cwd=ROOT):
    """What a program writes to standard output and to standard error when it is given these bytes in a folder, and ends with a status."""
    done = subprocess.run(command(name, *words), input=data, capture_output=True, cwd=cwd, timeout=300)
    assert done.returncode == status, (name, done.returncode, done.stderr[-500:])
    return done.stdout, done.stderr
