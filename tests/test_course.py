"""docs/COURSE.md: what the page says that its lines come to is what the second program says, and the library by way of the listing and the
scribe. And every sample of the sources by the second program."""
import re

from programs import ROOT, run
from test_second import second

START = "4800 4 127 4800 4 127 0 0 4294967295 16777215 0"
MODES = ("read", "group", "command", "counts", "index")


def blocks(mode):
    """The blocks of a mode: the words behind it, and the rows under it."""
    page = (ROOT / "docs" / "COURSE.md").read_text()
    found = [block.splitlines() for block in re.findall(r"^```\n(.*?)^```$", page, re.M | re.S)]
    assert {rows[0].split()[0] for rows in found} == set(MODES)
    return [(rows[0].split()[1:], rows[1:]) for rows in found if rows[0].split()[0] == mode]


def pairs(rows):
    """Each asked row with the answer under it."""
    assert rows and len(rows) % 2 == 0, rows
    return list(zip(rows[::2], rows[1::2]))


def as_bytes(lines):
    return b"".join(line.encode() + b"\r\n" for line in lines)


def says(mode, row):
    """What the second program answers to one row of a mode."""
    return second(mode, row.encode() + b"\n").decode().rstrip("\n")


def scribe(word, rows):
    """What the scribe answers to rows behind a word."""
    return run("scribe", "".join("%s %s\n" % (word, row) for row in rows).encode())[0].decode().splitlines()


def as_answer(row):
    """A row of the listing as the page writes it."""
    _, address, word, *numbers = row.split()
    return " ".join(["ok", address, *numbers]) if word == "ok" else "refused %s 1 %s" % tuple(numbers)


def test_lines_read_by_themselves():
    read = [pair for _, rows in blocks("read") for pair in pairs(rows)]
    listed = run("listing", as_bytes(line for line, _ in read), "records")[0].decode().splitlines()[1:]
    for row, (line, answer) in zip(listed, read, strict=True):
        assert says("lines", as_bytes([line]).hex()) == answer, line
        assert as_answer(row) == answer, row


def test_groups():
    groups = [as_bytes(rows[:-1]).hex() for _, rows in blocks("group")]
    answers = [rows[-1] for _, rows in blocks("group")]
    assert [says("groups", group) for group in groups] == answers
    assert scribe("group", groups) == answers


def test_counts():
    asked = [pair for _, rows in blocks("counts") for pair in pairs(rows)]
    assert [says("counts", settings) for settings, _ in asked] == [answer for _, answer in asked]
    assert scribe("counts", [settings for settings, _ in asked]) == [answer for _, answer in asked]


def test_commands():
    asked, came = [], []
    for (room,), rows in blocks("command"):
        settings = START
        for line, answer in pairs(rows):
            asked.append("0 %s %s %s" % (room, settings, as_bytes([line]).hex()))
            came.append(says("commands", asked[-1]))
            got = came[-1]
            if got.startswith("ok "):
                _, reply, settings = got.split(" ", 2)
                got = bytes.fromhex(reply).decode().removesuffix("\r\n")
            assert got == answer, line
    assert scribe("step", asked) == came


def test_indexes():
    asked = [pair for _, rows in blocks("index") for pair in pairs(rows)]
    answers = [answer for _, answer in asked]
    assert {answer.split(" 0 0")[0] for answer in answers if answer.startswith("refused")} == {"refused 5", "refused 11", "refused 12"}
    assert [says(*row.split(" ", 1)) for row, _ in asked] == answers
    assert run("scribe", "".join(row + "\n" for row, _ in asked).encode())[0].decode().splitlines() == answers


def test_every_sample_by_the_second_program():
    rows = [row.split("\t") for row in (ROOT / "tests" / "samples.txt").read_text().splitlines() if row and not row.startswith("#")]
    assert len(rows) > 100
    given = "".join(as_bytes([text]).hex() + "\n" for text, *_ in rows)
    for (text, answer, *_), got in zip(rows, second("lines", given.encode()).decode().splitlines(), strict=True):
        assert re.sub(r"^refused (\d+) 1 ", r"refused \1 ", got) == answer, text
