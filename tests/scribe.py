"""The program scribe over the proved library, and the second program: what each answers to rows of every mode."""
import functools
import operator

from programs import run
from test_second import second

# A mode of the second program, and the word by which the scribe knows its rows.
WORDS = {"lines": b"line ", "field": b"field ", "write": b"", "groups": b"group ", "write-groups": b"table ", "commands": b"step ",
         "counts": b"counts ", "index-write": b"index-write ", "index-read": b"index-read ", "index-add": b"index-add ",
         "index-find": b"index-find "}

def answers(rows):
    """What the scribe answers."""
    out, said = run("scribe", b"".join(row + b"\n" for row in rows))
    assert said == b"" and out.endswith(b"\n")
    ours = out.splitlines()
    assert len(ours) == len(rows)
    return ours


def agreed(mode, rows):
    """What both programs answer to the rows, once every answer is seen to be the same."""
    ours = answers([WORDS[mode] + row for row in rows])
    theirs = second(mode, b"".join(row + b"\n" for row in rows)).splitlines()
    for row, left, right in zip(rows, ours, theirs, strict=True):
        assert left == right, (row, left, right)
    return ours


def short(answer):
    """`ok`, or the number of a refusal."""
    words = answer.split()
    return "ok" if words[0] == b"ok" else int(words[1])


def line_of(body):
    """The line around a body."""
    return b"$%s*%02X\r\n" % (body, functools.reduce(operator.xor, body))
