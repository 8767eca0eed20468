"""The tools themselves: their help, and tools/program in a small clone with a stand-in for rt: two at once, progress, a clone of another
user, what leads to a check, and the status for every program."""
import contextlib
import os
import pathlib
import re
import shutil
import stat
import subprocess
import tempfile
import time

from programs import ROOT, command, run

TOOLS = sorted(path.name for path in (ROOT / "tools").iterdir() if os.access(path, os.X_OK))
PROGRAMS = sorted(path.parent.parent.name for path in ROOT.glob("crates/*/src/main.rt"))

# Proves nothing: notes in which crate it began and that it ended, prints rows as rt does, and writes the program, which prints its words,
# and runs it. It sets the clock once that was read, so that a crate takes its time. Beside it, a file `waits` keeps it from ending, and a
# file `fails` makes it fail.
RT = """#!/bin/sh
here=$(dirname "$(readlink -f "$0")")
echo "begins $* $(basename "$PWD")" >>"$here/calls"
sleep 0.05
while [ -e "$here/waits" ]; do sleep 0.05; done
mkdir -p out ../low/out/rlib ../below/out/rlib
printf '%s\\n' '#!/bin/sh' 'echo "$@"' '[ "$1" != bad ] || echo "tiny: it could not" >&2' >out/tiny
chmod +x out/tiny
touch "$here/asked"
asked() { for _ in $(seq 200); do [ "$(wc -l <"$here/asked")" -lt "$1" ] || return 0; sleep 0.02; done; }
took() { echo $(($(cat "$here/clock") + $1)) >"$here/clock"; }
proved() { echo "crate $1: modules loaded=0 checked=5"; echo "logic=proved functions=1 sum=0"; asked "$2"; }
asked 1
echo "fn low::one: proved"
took 7; proved low 2
[ ! -e "$here/fails" ] || { : >"$here/asked"; seq 30; echo "logic=not-proved functions=1 sum=0"; exit 1; }
took 11; proved tiny 3
: >"$here/asked"
touch ../below/out/rlib/stamp ../low/out/rlib/stamp out/tiny.stamp
echo ends >>"$here/calls"
echo "rt: running out/tiny; to give it other input, run that file yourself" >&2
exec out/tiny
"""
# Tells the time that rt has set, and notes that it was asked.
CLOCK = """#!/bin/sh
here=$(dirname "$(readlink -f "$0")")
cat "$here/clock"
echo >>"$here/asked"
"""
NOTES = "#!/bin/sh\necho \"$0 $*\" >>\"$(dirname \"$0\")/calls\"\n"
ANNOUNCED = "tools/program: what it runs has to be proved and built first: up to 3 of the 3 crates of tiny, about 1 min with 2 at a time"
PROVED = [ANNOUNCED, "tools/program: proved 2 of 3: low (7 s)", "tools/program: proved 3 of 3: tiny (11 s)"]


def script(path, text):
    path.parent.mkdir(parents=True, exist_ok=True)
    path.write_text(text)
    path.chmod(0o755)


class Clone:
    """A clone of three crates, and a kit whose rt is a stand-in."""

    def __init__(self, folder):
        self.root, self.kit = folder / "clone", folder / "kit"
        shutil.copytree(ROOT / "tools", self.root / "tools")
        (self.root / "crates.txt").write_text("# The crates.\nbelow:\nother: below\nlow: below\ntiny: low below io\n")
        for name in ("below/src/lib.rt", "low/src/lib.rt", "low/src/more.rt", "other/src/lib.rt", "tiny/src/main.rt"):
            (self.root / "crates" / name).parent.mkdir(parents=True, exist_ok=True)
            (self.root / "crates" / name).write_text("// It prints its words.\n")
        script(self.kit / "bin" / "rt", RT)
        script(self.kit / "bin" / "date", CLOCK)
        (self.kit / "bin" / "clock").write_text("1000\n")
        self.path = f"{self.kit / 'bin'}:{os.environ['PATH']}"

    def start(self, *words, before=(), **streams):
        given = {"stdin": subprocess.DEVNULL, "stdout": subprocess.PIPE, "stderr": subprocess.PIPE, **streams}
        told = {**os.environ, "PATH": self.path, "RT_JOBS": "2"}
        return subprocess.Popen([*before, str(self.root / "tools" / "program"), *words], cwd=self.root.parent, env=told, text=True, **given)

    def run(self, *words, **given):
        """Status, rows on standard output and rows on standard error."""
        program = self.start(*words, **given)
        out, said = program.communicate(timeout=60)
        return program.returncode, out.splitlines(), said.splitlines()

    @contextlib.contextmanager
    def proving(self, *words):
        """A run whose check goes on until what is done meanwhile is done."""
        (self.kit / "bin" / "waits").touch()
        program = self.start(*words)
        while not self.calls():
            assert program.poll() is None
            time.sleep(0.01)
        yield program
        (self.kit / "bin" / "waits").unlink()

    def calls(self):
        """What the stand-in has noted since it was last asked."""
        notes = self.kit / "bin" / "calls"
        rows = notes.read_text().splitlines() if notes.exists() else []
        notes.unlink(missing_ok=True)
        return rows


CALL = ["begins run tiny", "ends"]


@contextlib.contextmanager
def clone():
    with tempfile.TemporaryDirectory() as folder:
        os.chmod(folder, 0o755)
        yield Clone(pathlib.Path(folder))


def asked(*words):
    """What each tool answers to words. It starts nothing: the commands that prove, build or install are stand-ins, and there is no
    tests/run.py to run."""
    with tempfile.TemporaryDirectory() as folder:
        root, kit = pathlib.Path(folder, "clone"), pathlib.Path(folder, "kit")
        for name in ("tools", "second", "tests", "crates/listing/src", "rust/src"):
            shutil.copytree(ROOT / name, root / name, ignore=shutil.ignore_patterns("run.py", "test_tools.py"))
        for name in ("rt", "cargo", "rustc", "apt-get", "sudo", "dpkg", "flock"):
            script(kit / name, NOTES)
        told = {**os.environ, "PATH": f"{kit}:{os.environ['PATH']}"}
        for name in TOOLS:
            done = subprocess.run([str(root / "tools" / name), *words], stdin=subprocess.DEVNULL, capture_output=True, env=told, cwd=folder,
                                  text=True, timeout=60)
            assert not (kit / "calls").exists(), (name, words)
            yield name, done


def test_help_starts_nothing():
    assert {"program", "test", "host", "scribe"} < set(TOOLS)
    for word in ("--help", "-h"):
        for name, done in asked(word):
            assert (done.returncode, done.stderr) == (0, ""), (name, done)
            assert f"tools/{name}" in done.stdout and done.stdout.count("\n") > 3 and "set -" not in done.stdout, (name, done.stdout)


def test_unknown_words_are_refused():
    for words in (("--nonsense",), ("no/such", "thing")):
        for name, done in asked(*words):
            assert (done.returncode, done.stdout) == (2, "") and f"tools/{name}" in done.stderr, (name, done)


def test_every_program_is_named():
    done = subprocess.run([ROOT / "tools" / "program", "--help"], capture_output=True, text=True, check=True)
    rows = done.stdout.split("The programs:\n")[1].splitlines()
    named = {row.split()[0]: row.split()[1:] for row in rows if row[:5].strip()}
    assert sorted(named) == sorted([*PROGRAMS, "scribe"]) and min(len(words) for words in named.values()) > 5, named


def test_no_such_program():
    with clone() as small:
        for words in ((), ("",), ("low",), ("nothing", "tiny"), ("../crates/tiny",), ("tiny/",)):
            status, out, said = small.run(*words)
            assert (status, out, len(said)) == (2, [], 1) and said[0].startswith("tools/program: "), (words, said)
        assert small.calls() == []


def test_progress_and_no_second_check():
    with clone() as small:
        assert small.run("tiny", "a", "b") == (0, ["a b"], PROVED)
        assert small.calls() == CALL
        assert small.run("tiny", "c") == (0, ["c"], [])
        assert small.run("tiny", "bad") == (1, ["bad"], ["tiny: it could not"])
        assert small.calls() == []


def test_a_check_that_has_nothing_to_prove_is_silent():
    with clone() as small:
        small.run("tiny")
        (small.root / "target" / "program" / "tiny").unlink()
        text = small.kit / "bin" / "rt"
        script(text, re.sub(r"^took .*\n", "echo 'rt: nothing has changed since the last proved build'\n", text.read_text(), flags=re.M))
        small.calls()
        assert small.run("tiny", "a") == (0, ["a"], []) and small.calls() == CALL


def test_progress_on_a_terminal():
    with clone() as small:
        ours, theirs = os.openpty()
        program = small.start("tiny", "a", stderr=theirs)
        out = program.communicate(timeout=60)[0]
        os.close(theirs)
        said = os.read(ours, 10000).decode()
        os.close(ours)
        assert (program.returncode, out) == (0, "a\n")
        shown = "".join("\r\x1b[K" + row for row in PROVED[1:])
        assert said == PROVED[0] + "\r\n" + shown + "\r\n", repr(said)


def test_two_at_once():
    with clone() as small:
        with small.proving("tiny", "first") as first:
            others = [small.start("tiny", word) for word in ("second", "third")]
            for program in others:
                assert program.stderr.readline() == "tools/program: another run is proving in this clone; waiting for it\n"
        for program, word, rows in zip((first, *others), ("first", "second", "third"), (PROVED, [], []), strict=True):
            out, said = program.communicate(timeout=60)
            assert (program.returncode, out, said.splitlines()) == (0, word + "\n", rows), (word, said)
        assert small.calls() == CALL[1:]


def test_the_lock_is_kept_by_a_check_that_goes_on():
    with clone() as small:
        with small.proving("tiny") as first:
            first.kill()
            second = small.start("tiny", "second")
            assert "; waiting for it\n" in second.stderr.readline()
        assert second.communicate(timeout=60)[0] == "second\n"
        first.communicate(timeout=60)
        assert small.calls() == CALL[1:]


def test_what_leads_to_a_check():
    with clone() as small:
        crates = small.root / "crates"
        small.run("tiny")
        changes = (lambda: (crates / "low/src/more.rt").unlink(), lambda: (crates / "low/src/lib.rt").write_text("// It is changed.\n"),
                   lambda: (crates / "low/src/new.rt").write_text("// It is new.\n"), lambda: shutil.rmtree(crates / "other"),
                   lambda: (small.root / "crates.txt").write_text("below:\nlow: below\ntiny: low io\n"),
                   lambda: (small.root / "crates/tiny/out/tiny").unlink())
        for at, change in enumerate(changes):
            small.calls()
            change()
            assert small.run("tiny", "a")[:2] == (0, ["a"]), at
            assert small.calls() == CALL, at
            assert small.run("tiny", "a") == (0, ["a"], []) and small.calls() == [], at


def test_a_source_that_changes_during_the_check():
    with clone() as small:
        with small.proving("tiny") as first:
            (small.root / "crates" / "low" / "src" / "lib.rt").write_text("// It is changed.\n")
        first.communicate(timeout=60)
        small.calls()
        assert small.run("tiny", "a")[:2] == (0, ["a"]) and small.calls() == CALL


def test_how_many_are_to_be_proved():
    with clone() as small:
        small.run("tiny")
        for name, left in (("tiny", 1), ("low", 2), ("below", 3)):
            (small.root / "crates" / name / "src" / "new.rt").write_text("// It is new.\n")
            said = small.run("tiny")[2]
            assert said[0] == ANNOUNCED.replace("up to 3", f"up to {left}"), said
        for name in ("other/src", "low/must-fail"):
            (small.root / "crates" / name).mkdir(exist_ok=True)
            (small.root / "crates" / "low" / "out" / "rlib" / "stamp").touch()
            (small.root / "crates" / "tiny" / "out" / "tiny.stamp").touch()
            (small.root / "crates" / name / "new").write_text("It is new.\n")
            assert small.run("tiny")[2] == PROVED[1:], name
        (small.root / "crates" / "below" / "out" / "rlib" / "stamp").touch()
        (small.root / "crates.txt").touch()
        assert small.run("tiny")[2][0] == ANNOUNCED.replace("up to 3", "up to 2")


def test_what_is_not_proved_is_not_run():
    with clone() as small:
        (small.kit / "bin" / "fails").touch()
        for _ in range(2):
            status, out, said = small.run("tiny", "a")
            assert (status, out) == (1, []) and (small.root / "crates/tiny/out/tiny").exists()
            assert said[:2] == PROVED[:2] and said[2:] == [*map(str, range(12, 31)), "logic=not-proved functions=1 sum=0"], said
        (small.kit / "bin" / "fails").unlink()
        assert small.run("tiny", "a")[:2] == (0, ["a"])


@contextlib.contextmanager
def of_another(small):
    """The words by which a user runs a command who may not write the clone."""
    paths = [small.root, *small.root.rglob("*")]
    modes = {path: stat.S_IMODE(path.stat().st_mode) for path in paths}
    for path, mode in modes.items():
        path.chmod(mode & ~0o222)
    yield ("setpriv", "--reuid=65534", "--regid=65534", "--clear-groups") if os.getuid() == 0 else ()
    for path, mode in modes.items():
        path.chmod(mode)


def test_a_clone_of_another_user():
    with clone() as small:
        for _ in range(2):
            with of_another(small) as before:
                status, out, said = small.run("tiny", "a", before=before)
                assert (status, out, len(said)) == (2, [], 2) and small.calls() == [], said
                assert "it has to be proved and built first, and cannot be here: you may not write " in said[0], said
                assert said[1].endswith(f" clone of your own: git clone {small.root}"), said
            assert small.run("tiny", "a")[:2] == (0, ["a"])
            small.calls()
            with of_another(small) as before:
                assert small.run("tiny", "a", before=before) == (0, ["a"], [])
            (small.root / "crates" / "low" / "src" / "lib.rt").write_text("// It is changed.\n")


def test_what_is_not_installed():
    with clone() as small, tempfile.TemporaryDirectory() as folder:
        for name in os.listdir("/usr/bin"):
            if name not in ("flock", "rt"):
                os.symlink(f"/usr/bin/{name}", f"{folder}/{name}")
        small.path = f"{small.kit / 'bin'}:{folder}"
        status, out, said = small.run("tiny")
        assert (status, out) == (2, []) and "flock is not installed (Debian: util-linux)" in said[0], said
        small.path = folder
        status, out, said = small.run("tiny")
        assert (status, out) == (2, []) and "the Rattle kit is not installed" in said[0], said
        assert small.calls() == []


# What a stand-in for rt ci prints, and what comes of it: the status, and the last row of tools/test.
ENDS = {
    ("rt: ok; handles allowed: none; must-fail edits: 2 refused; done", "5 passed, 0 failed", 0): (0, "9 passed, 0 failed"),
    ("rt: ok; handles allowed: none; must-fail edits: 2 refused, 1 of them only by a limit; done", "5 passed, 0 failed", 0):
        (0, "9 passed, 0 failed"),
    ("rt: ok; handles allowed: none; must-fail edits: 2 refused, 1 bad; done", "5 passed, 0 failed", 0): (1, "9 passed, 1 failed"),
    ("rt: FAILED: low", "4 passed, 1 failed", 1): (1, "8 passed, 1 failed"),
    ("rt: ok; handles allowed: none", "5 passed, 0 failed (low and the crates below alone: not the gate)", 0): (1, "4 passed, 1 failed"),
    ("rt: ok; handles allowed: none", "5 passed, 0 failed", 2): (1, "9 passed, 0 failed"),
}


def test_what_the_gate_lets_pass():
    with clone() as small:
        script(small.root / "tools" / "host", "#!/bin/sh\necho 3 passed, 0 failed\n")
        script(small.root / "tools" / "edits", "#!/bin/sh\n")
        (small.root / "tests").mkdir()
        (small.root / "tests" / "run.py").write_text("print('1 passed, 0 failed')\n")
        for (row, last, status), wanted in ENDS.items():
            ci = f"#!/bin/sh\necho \"$*\" >>\"$(dirname \"$0\")/calls\"\necho '{row}'\necho '{last}'\nexit {status}\n"
            script(small.kit / "bin" / "rt", ci)
            done = subprocess.run([small.root / "tools" / "test"], env={**os.environ, "PATH": small.path}, capture_output=True, text=True)
            assert (done.returncode, done.stdout.splitlines()[-1], small.calls()) == (*wanted, ["ci"]), (row, last, done)
            assert (small.root / "target" / "ci.out").read_text() == f"{row}\n{last}\n"


def test_what_the_gate_has_proved_is_not_proved_again():
    with clone() as small:
        for name, text in (("tools/host", "echo 3 passed, 0 failed"), ("tools/edits", ""), ("crates/tiny/out/tiny", 'echo "$@"')):
            script(small.root / name, f"#!/bin/sh\n{text}\n")
        (small.root / "tests").mkdir()
        (small.root / "tests" / "run.py").write_text("print('1 passed, 0 failed')\n")
        script(small.kit / "bin" / "rt", "#!/bin/sh\necho 'rt: ok; handles allowed: none'\necho 5 passed, 0 failed\n")
        subprocess.run([small.root / "tools" / "test"], env={**os.environ, "PATH": small.path}, capture_output=True, check=True)
        script(small.kit / "bin" / "rt", RT)
        assert small.run("tiny", "a") == (0, ["a"], []) and small.calls() == []
        (small.root / "crates" / "low" / "src" / "lib.rt").write_text("// It is changed.\n")
        assert small.run("tiny", "a")[:2] == (0, ["a"]) and small.calls() == CALL


def ended(words, data="/dev/null", shell=""):
    """How a program ends whose standard streams the shell has set, and what it says."""
    line = 'exec "$@" <"$0" ' + shell
    done = subprocess.run(["bash", "-c", line, data, *command(*words)], capture_output=True, cwd=ROOT, timeout=60)
    return done.returncode, done.stderr.decode()


def test_the_status_tells_whether_the_work_was_done():
    with tempfile.TemporaryDirectory() as folder:
        index, new = folder + "/index", folder + "/new"
        run("exhibits", b"", "all", "samples/day.log", index)
        pathlib.Path(folder, "step").write_bytes(b"$PIRTR,1,-0030*52\r\n")
        pathlib.Path(folder, "line").write_bytes(b"line 24\n")
        pathlib.Path(folder, "body").write_bytes(b"PIRTR,1,-0030\n")
        log = "samples/day.log"
        work = {"listing": ((), (), log), "skies": ((), (), log), "standin": ((), (), folder + "/step"),
                "scribe": ((), (), folder + "/line"), "seal": ((), (), folder + "/body"),
                "exhibits": (("make", log, new), ("list", index), "/dev/null")}
        assert sorted(work) == sorted([*PROGRAMS, "scribe"])
        for name, (reads, writes, data) in work.items():
            said = f"{name}: "
            for words, given, shell in ((("no", "such", "words"), data, ""), (reads, folder, ""), (reads, data, "<&-"),
                                        (writes, data, ">/dev/full"), (writes, data, ">&-")):
                status, told = ended((name, *words), given, shell)
                assert status in (1, 2) and said in told, (name, words, shell, status, told)
            assert ended((name, *writes), data) == (0, ""), name
        assert not pathlib.Path(new).exists()


def test_words_that_cannot_be_said():
    for shell in ("2>/dev/full", "2>&-"):
        assert ended(("listing", "log"), shell=shell)[0] == 1
        assert ended(("listing",), shell=shell)[0] == 0
    closed, open_end = os.pipe()
    os.close(closed)
    done = subprocess.run(command("standin", "7"), stdin=subprocess.DEVNULL, stdout=open_end, stderr=open_end, cwd=ROOT, timeout=60)
    os.close(open_end)
    assert done.returncode == 1


def test_no_file_is_taken_for_a_stream():
    with tempfile.TemporaryDirectory() as folder:
        for at, shell in enumerate(("<&-", ">&-", "2>&-", "<&- >&- 2>&-", ">&- 2>&-")):
            assert ended(("exhibits", "all", "samples/day.log", f"{folder}/{at}"), shell=shell) == (0, ""), shell
        assert len({file.read_bytes() for file in pathlib.Path(folder).iterdir()}) == 1 and len(os.listdir(folder)) == 5
