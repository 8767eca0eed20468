"""README.md: each command that it shows with its output gives that output, and every file that it names is there."""
import re
import subprocess

from programs import ROOT, built

README = (ROOT / "README.md").read_text()


def shown():
    """The commands that stand behind a `$`, each with the rows under it."""
    found = re.findall(r"^    \$ (.+)\n((?:    .+\n)+)", README, re.M)
    assert len(found) >= 3
    return [(command, re.sub(r"^    ", "", rows, flags=re.M)) for command, rows in found]


def test_commands_give_what_is_shown():
    for name in ("listing", "skies", "exhibits", "standin", "seal", "scribe"):
        built(name)
    for command, rows in shown():
        done = subprocess.run(["bash", "-c", command], stdout=subprocess.PIPE, stderr=subprocess.STDOUT, cwd=ROOT, timeout=600)
        assert (done.returncode, done.stdout.decode().replace("\r\n", "\n")) == (0, rows), command


def test_files_are_there():
    named = set(re.findall(r"\b((?:docs|tools|tests|samples|crates|rust|include)/[\w./-]*\w)", README))
    assert len(named) > 8
    for path in named:
        assert (ROOT / path).exists(), path
