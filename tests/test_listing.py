"""The listing program, run as a person would: on the sample log, on nothing, on long and slow input, and used wrongly."""
import pathlib
import subprocess
import tempfile

from programs import ROOT, command, run

HEAD = b"no address answer\n"
SOUND = b"$GPGSV,5,5,17,77,71,048,53*43\r\n"


def test_sample_log():
    out, said = run("listing", (ROOT / "samples" / "day.log").read_bytes())
    assert out == (ROOT / "samples" / "day.listing").read_bytes(), out
    assert said == b""


def test_no_input():
    assert run("listing", b"") == (HEAD, b"")


def test_rest_without_lf_is_no_line():
    assert run("listing", SOUND[:-1])[0] == HEAD


def test_length_82_and_83():
    for fill, rows in ((75, HEAD + b"1 - refused 3 0\n"), (76, HEAD + b"1 - refused 3 0\n"), (77, HEAD)):
        body = b"A" * fill
        line = b"$" + body + b"*%02X\r\n" % (0x41 * (fill % 2))
        assert len(line) == fill + 6
        assert run("listing", line)[0] == rows, fill


def test_rows_are_numbered_through_long_input():
    count = 20000
    out = run("listing", SOUND * count)[0]
    assert out == HEAD + b"".join(b"%d GPGSV ok\n" % (i + 1) for i in range(count))


def test_slow_input_in_odd_pieces():
    data = (ROOT / "samples" / "day.log").read_bytes() * 40
    whole = run("listing", data)[0]
    child = subprocess.Popen(command("listing"), stdin=subprocess.PIPE, stdout=subprocess.PIPE, cwd=ROOT)
    at = 0
    for turn in range(10 ** 6):
        piece = data[at:at + 1 + turn * 37 % 501]
        if not piece:
            break
        child.stdin.write(piece)
        child.stdin.flush()
        at += len(piece)
    out = child.communicate()[0]
    assert out == whole


def test_every_sample_of_the_sources():
    rows = [r.split("\t") for r in (ROOT / "tests" / "samples.txt").read_text().splitlines() if r and not r.startswith("#")]
    log = b"".join(text.encode() + b"\r\n" for text, *_ in rows)
    found = [i for i, (text, *_) in enumerate(rows) if is_found(text)]
    assert len(found) > 100 and len(rows) - len(found) < 10
    out = run("listing", log, "records")[0].splitlines()[1:]
    assert len(out) == len(found)
    for number, (got, i) in enumerate(zip(out, found), 1):
        assert as_answer(got, number) == rows[i][1], (rows[i], got)


def is_found(text):
    """Whether the finder gives the text out, with CR LF at its end, as one line."""
    return text.startswith("$") and "$" not in text[1:] and len(text) <= 80


def as_answer(row, number):
    """A row of the listing as an answer of tests/samples.txt."""
    words = row.decode().split(" ")
    assert words[0] == str(number), row
    if words[2] == "refused":
        return " ".join(words[2:])
    return " ".join(["ok", words[1], *words[3:]])


def test_a_wrong_argument_is_refused_in_words():
    for words in (("log",), ("record",), ("records2",), ("records", "records"), ("",), ("r" * 300,)):
        out, said = run("listing", SOUND, *words, status=1)
        assert out == b"", words
        assert said.startswith(b"listing: it reads a log from standard input and takes no word, or one: 'records' adds"), said


def test_from_another_folder():
    log = (ROOT / "samples" / "day.log").read_bytes()
    with tempfile.TemporaryDirectory() as folder:
        assert run("listing", log, cwd=folder) == run("listing", log)
        assert run("listing", SOUND, "log", cwd=folder, status=1)[0] == b""
        assert not any(pathlib.Path(folder).iterdir())
    shown = subprocess.run(["tools/program", "listing"], input=log, capture_output=True, cwd=ROOT, timeout=300)
    assert (shown.returncode, shown.stdout, shown.stderr) == (0, run("listing", log)[0], b"")


def test_output_that_cannot_be_written():
    with open("/dev/full", "wb") as full:
        done = subprocess.run(command("listing"), input=SOUND, stdout=full, stderr=subprocess.PIPE, cwd=ROOT, timeout=300)
    assert done.returncode == 1
    assert done.stderr.startswith(b"listing: standard output cannot be written: "), done.stderr


def test_both_streams_in_one():
    done = subprocess.run(command("listing", "log"), input=SOUND, stdout=subprocess.PIPE, stderr=subprocess.STDOUT, cwd=ROOT, timeout=300)
    assert done.returncode == 1 and done.stdout.startswith(b"listing: it reads a log"), done
