"""tools/class: rows typed at a terminal, or by a pipe, sent to the stand-in, and what is shown of them."""
import contextlib
import fcntl
import os
import pathlib
import random
import selectors
import shutil
import signal
import subprocess
import tempfile
import termios
import time

from programs import ROOT, built, run

CLASS = ROOT / "tools" / "class"
DEADLINE = 60
MAY_STAND = b" \"#%&'()+,-./0123456789:;<=>?@ABCDEFGHIJKLMNOPQRSTUVWXYZ[]_`abcdefghijklmnopqrstuvwxyz{|}"


def piped(rows, *words, tool=CLASS):
    """Status, what is shown and what is said on standard error for rows by a pipe."""
    done = subprocess.run([str(tool), *words], input=rows, capture_output=True, cwd=ROOT, timeout=600)
    return done.returncode, done.stdout.decode().splitlines(), done.stderr.decode()


def shown(rows, *words):
    for name in ("standin", "seal"):
        built(name)
    status, out, said = piped(rows, *words)
    assert (status, said) == (0, ""), (status, said)
    return out


def test_rows_are_framed_or_sent_as_typed():
    assert shown(b"PIRTR,1,-0030\n$PIRTR,,*4D\r\nPIRPR,,,,\nPIRER,0") == [
        "> $PIRTR,1,-0030*52", "< $PIRTA,1,-0030*41", "> $PIRTR,,*4D", "< $PIRTA,1,-0030*41", "> $PIRPR,,,,*49",
        "< $PIRPA,0,4800,4,007F*23", "> $PIRER,0*40", "< $PIREA,0*53"]
    assert shown(b"") == []


def test_the_port():
    for words, reply in (((), b"0"), (("0",), b"0"), (("1",), b"1")):
        body = b"PIRPA,%s,4800,4,007F" % reply
        digits = 0
        for byte in body:
            digits ^= byte
        assert shown(b"PIRPR,,,,\n", *words) == ["> $PIRPR,,,,*49", f"< ${body.decode()}*{digits:02X}"]
    for words in (("2",), ("",), ("01",), ("0", "0"), ("port",)):
        status, out, said = piped(b"PIRER,0\n", *words)
        assert (status, out) == (2, []) and said.startswith("usage: tools/class [PORT]"), words


def test_refusals_are_handed_on_as_the_stand_in_says_them():
    lines = [b"$PIRTR,2,-0030*52", b"$PIRXX,0*48", b"$PIRTR,1*53", b"$PIRTR,9,-0030*5A", b"$GPGSV,1,1,01,05,,,*7D", b"$PIRER", b"$"]
    rows = run("standin", b"".join(line + b"\r\n" for line in lines))[1].decode().splitlines()
    assert len(rows) == len(lines) and "2" in rows[0].split()
    assert shown(b"\n".join(lines)) == [row for pair in zip(lines, rows) for row in ("> " + pair[0].decode(), "! " + pair[1])]


def test_rows_that_are_not_sent():
    """What follows each is answered: nothing is waited for."""
    for row, why in ((b"", "a body has at least one byte"), (b"A" * 77, "a body has at most 76 bytes"),
                     (b"PIRTR*", "byte 6 is hex 2A (*), which may not stand in a body"),
                     (b"A\xc3\xa9", "byte 2 is hex C3, which may not stand in a body")):
        assert shown(row + b"\nPIRER,0\n") == ["! not sent: " + why, "> $PIRER,0*40", "< $PIREA,0*53"], row


def test_rows_that_get_no_answer():
    """81 bytes with CR and LF, 82, and 83: the last is passed over. A line begins at each `$`."""
    end = ["> $PIRER,0*40", "< $PIREA,0*53"]
    for count, answered in ((78, True), (79, True), (80, False), (5000, False)):
        row = "$" + "A" * count
        sent, came, *rest = shown(row.encode() + b"\nPIRER,0\n")
        assert sent == "> " + row and rest == end, count
        assert answered == ("refused 1" in came), came
        if not answered:
            assert came == f"! no answer comes: it has {count + 3} bytes with CR and LF, and a line of more than 82 is passed over"
    assert shown(b"noise $PIRTR,1$PIRER,0*40\n") == [
        "> noise $PIRTR,1$PIRER,0*40", "! passed over, since a line begins at each `$`: noise $PIRTR,1", "< $PIREA,0*53"]
    assert shown(b"A" * 90 + b"$PIRER,0*40\n")[1:] == ["! passed over, since a line begins at each `$`: " + "A" * 90, "< $PIREA,0*53"]


def test_bytes_that_cannot_be_seen():
    assert shown(b"$\x1b[2J\xff*00\n")[0] == "> $\\x1B[2J\\xFF*00"


def test_random_bodies_are_framed():
    chance = random.Random(17)
    bodies = [bytes(chance.choice(MAY_STAND) for _ in range(chance.randrange(1, 77))) for _ in range(12)]
    rows = shown(b"\n".join(bodies) + b"\n")
    assert len(rows) == 24
    for body, row in zip(bodies, rows[::2]):
        digits = 0
        for byte in body:
            digits ^= byte
        assert row == f"> ${body.decode()}*{digits:02X}", body


@contextlib.contextmanager
def with_program(text):
    """The tool beside a tools/program that does what a text says."""
    with tempfile.TemporaryDirectory() as folder:
        tool = pathlib.Path(folder) / "class"
        shutil.copy(CLASS, tool)
        tool.with_name("program").write_text("#!/bin/sh\n" + text)
        tool.with_name("program").chmod(0o755)
        yield tool


def test_without_its_programs():
    for text, status, why in (("exit 1", 1, "without the program standin, which is not proved"),
                              ("exit 2", 2, "without the program standin"),
                              ('[ "$1" = standin ]', 1, "without the program seal, which is not proved")):
        with with_program(text) as tool:
            ended, out, said = piped(b"$PIRER,0*40\n", tool=tool)
            assert (ended, out) == (status, []) and said.startswith("tools/class: ") and why in said and said.count("\n") == 1, (text, said)


def test_a_stand_in_that_has_ended():
    for text in ("exit 0", '[ $# -lt 2 ] || read -r row'):
        with with_program(text) as tool:
            assert piped(b"$PIRER,0*40\n$PIRER,0*40\n", tool=tool) == (1, ["> $PIRER,0*40"], "tools/class: the stand-in has ended\n"), text


def test_streams_that_are_closed_or_full():
    for name in ("standin", "seal"):
        built(name)
    for shell, status in (("<&-", 2), (">&-", 2), (">/dev/full", 1), ("| true", 1)):
        line = f"echo PIRER,0 | '{CLASS}' {shell}; exit ${{PIPESTATUS[1]}}"
        done = subprocess.run(["bash", "-c", line], capture_output=True, cwd=ROOT, timeout=600)
        assert done.returncode == status and done.stderr.startswith(b"tools/class: ") and done.stderr.count(b"\n") == 1, (shell, done)


class Terminal:
    """The tool at a terminal of its own, as a person has it."""

    def __init__(self):
        self.ours, self.theirs = os.openpty()
        self.before = termios.tcgetattr(self.theirs)
        self.seen = b""
        self.program = subprocess.Popen(
            [str(CLASS)], stdin=self.theirs, stdout=self.theirs, stderr=self.theirs, cwd=ROOT, env={**os.environ, "TERM": "dumb"},
            start_new_session=True, preexec_fn=lambda: fcntl.ioctl(0, termios.TIOCSCTTY, 0))

    def sees(self, text):
        """Waits until a text is shown behind what was seen before."""
        ends = time.monotonic() + DEADLINE
        with selectors.DefaultSelector() as ready:
            ready.register(self.ours, selectors.EVENT_READ)
            while text not in self.seen:
                assert ready.select(max(0, ends - time.monotonic())), (text, self.seen)
                self.seen += os.read(self.ours, 4096)
        before, _, self.seen = self.seen.partition(text)
        return before

    def types(self, keys):
        os.write(self.ours, keys)

    def ends(self):
        """It ends with status 0, and leaves the terminal as it was."""
        assert self.program.wait(timeout=DEADLINE) == 0
        assert termios.tcgetattr(self.theirs) == self.before
        os.close(self.theirs)
        os.close(self.ours)


def terminal():
    for name in ("standin", "seal"):
        built(name)
    started = Terminal()
    assert b"listens on port 0" in started.sees(b"class: ")
    return started


def test_a_terminal():
    """A row is mended by backspace; the settings stay from row to row; Ctrl-D ends."""
    person = terminal()
    person.types(b"PIRTR,2\x7f1,-0030\r")
    person.sees(b"> $PIRTR,1,-0030*52\r\n< $PIRTA,1,-0030*41\r\nclass: ")
    person.types(b"$PIRTR,,*4D\r")
    person.sees(b"> $PIRTR,,*4D\r\n< $PIRTA,1,-0030*41\r\nclass: ")
    person.types(b"PIRTR*\r")
    person.sees(b"! not sent: byte 6 is hex 2A (*), which may not stand in a body\r\nclass: ")
    person.types(b"$PIRTR,1,-0030*53\r")
    assert person.sees(b"class: ").count(b"\r\n! ") == 1
    person.types(b"\x04")
    person.ends()


def test_ctrl_c():
    for keys in (b"\x03", b"PIRT\x03"):
        person = terminal()
        person.types(b"PIRER,0\r")
        person.sees(b"< $PIREA,0*53\r\nclass: ")
        person.types(keys)
        person.ends()


def test_ctrl_c_while_it_waits():
    with with_program('[ $# -lt 2 ] || cat >/dev/null') as tool:
        program = subprocess.Popen([str(tool)], stdin=subprocess.PIPE, stdout=subprocess.PIPE, stderr=subprocess.PIPE)
        program.stdin.write(b"$PIRER,0*40\n")
        program.stdin.flush()
        assert program.stdout.readline() == b"> $PIRER,0*40\n"
        program.send_signal(signal.SIGINT)
        assert program.wait(timeout=DEADLINE) == 0
        assert program.stderr.read() == b""
        for stream in (program.stdin, program.stdout, program.stderr):
            stream.close()
