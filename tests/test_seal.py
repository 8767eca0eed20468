"""The program seal: a row that is a body comes out as its line; of any other standard error tells the row and the reason."""
import random
import subprocess
import time

from programs import ROOT, command, run

MAY_STAND = b" \"#%&'()+,-./0123456789:;<=>?@ABCDEFGHIJKLMNOPQRSTUVWXYZ[]_`abcdefghijklmnopqrstuvwxyz{|}"
LONG = "a body has at most 76 bytes"
EMPTY = "a body has at least one byte"


def other(place, byte, seen=""):
    return f"byte {place} is hex {byte}{seen}, which may not stand in a body"


def said(reasons):
    """The rows of standard error for the reasons of some rows, by their numbers."""
    return "".join(f"seal: row {number}: {why}\n" for number, why in reasons.items()).encode()


def expected(data):
    """What the program has to write for some input, by the rules of README and docs/RULES.md alone."""
    rows = data.split(b"\n")
    last = rows.pop()
    rows = [row[:-1] if row[-1:] == b"\r" else row for row in rows] + ([last] if last else [])
    lines, reasons = b"", {}
    for number, row in enumerate(rows, 1):
        wrong = [at for at, byte in enumerate(row) if byte not in MAY_STAND]
        digits = 0
        for byte in row:
            digits ^= byte
        if not row:
            reasons[number] = EMPTY
        elif len(row) > 76:
            reasons[number] = LONG
        elif wrong:
            byte = row[wrong[0]]
            reasons[number] = other(wrong[0] + 1, f"{byte:02X}", f" ({chr(byte)})" if 32 < byte < 127 else "")
        else:
            lines += b"$" + row + b"*" + f"{digits:02X}".encode() + b"\r\n"
    return lines, said(reasons)


def agrees(data):
    lines, rows = expected(data)
    assert run("seal", data, status=1 if rows else 0) == (lines, rows)
    return lines, rows


def test_by_hand():
    """Hex 41 is A, and 41 with 42 gives 03; the other digits are those of docs/COURSE.md and README."""
    for row, line in ((b"A", b"$A*41"), (b"AB", b"$AB*03"), (b"AA", b"$AA*00"), (b" ", b"$ *20"), (b"PIRTR,1,-0030", b"$PIRTR,1,-0030*52"),
                      (b"PIRPR,,,,", b"$PIRPR,,,,*49"), (b"GPGSV,1,1,00", b"$GPGSV,1,1,00*79"), (b"A" * 76, b"$" + b"A" * 76 + b"*00")):
        for end in (b"\n", b"\r\n", b""):
            assert run("seal", row + end) == (line + b"\r\n", b""), (row, end)
    assert run("seal", b"") == (b"", b"")


def test_rows_that_are_no_bodies():
    for row, why in ((b"\n", EMPTY), (b"\r\n", EMPTY), (b"A" * 77, LONG), (b"A" * 77 + b"\r\n", LONG), (b"*" * 77, LONG),
                     (b"*", other(1, "2A", " (*)")), (b"A$B", other(2, "24", " ($)")), (b"AB!\n", other(3, "21", " (!)")),
                     (b"AB\\\n", other(3, "5C", " (\\)")), (b"A\r", other(2, "0D")), (b"A\r\r\n", other(2, "0D")),
                     (b"\0\n", other(1, "00")), (b"A\x7f\n", other(2, "7F")), (b"A\xc3\xa9*\n", other(2, "C3"))):
        assert run("seal", row, status=1) == (b"", said({1: why})), row


def test_the_rest_goes_on():
    data = b"A\n\nAB\r\n" + b"C" * 300000 + b"\n" + b"AA\nA~\nA"
    assert run("seal", data, status=1) == (b"$A*41\r\n$AB*03\r\n$AA*00\r\n$A*41\r\n", said({2: EMPTY, 4: LONG, 6: other(2, "7E", " (~)")}))


def test_every_byte():
    lines, rows = agrees(b"".join(b"A%cC\n" % byte for byte in range(256) if byte != 10))
    assert lines.count(b"\n") == len(MAY_STAND) == 95 - 6 and rows.count(b"\n") == 255 - 89


def test_every_length():
    for end in (b"\n", b"\r\n"):
        lines, rows = agrees(b"".join(b"A" * length + end for length in (*range(90), 65535, 65536, 65537, 5, 131072, 6)))
        assert lines.count(b"\n") == 78 and rows.count(b"\n") == 18


def test_random_rows():
    for seed in (1, 2, 3):
        chance = random.Random(seed)
        data = bytearray()
        for _ in range(6000):
            length = chance.choice((0, 1, 20, 40, 60, 75, 76, 77, 78, 79, 80, 100)) if chance.random() < 0.3 else chance.randrange(1, 77)
            data += bytes(chance.choice(MAY_STAND) for _ in range(length))
            if chance.random() < 0.2:
                data.append(chance.randrange(256))
            data += chance.choice((b"\n", b"\r\n", b"\n", b"\r\r\n"))
        lines, rows = agrees(bytes(data))
        assert len(data) > 200000 and lines.count(b"\n") > 3000 and rows.count(b"\n") > 500


def test_a_line_as_soon_as_its_row_has_ended():
    program = subprocess.Popen(command("seal"), stdin=subprocess.PIPE, stdout=subprocess.PIPE, cwd=ROOT, bufsize=0)
    for row, line in ((b"A\n", b"$A*41\r\n"), (b"AB\r\n", b"$AB*03\r\n")):
        for byte in row:
            program.stdin.write(bytes([byte]))
            time.sleep(0.05)
        assert program.stdout.read(len(line)) == line
    program.stdin.close()
    assert program.stdout.read() == b"" and program.wait(timeout=60) == 0
    program.stdout.close()


def test_it_takes_no_words():
    out, rows = run("seal", b"A\n", "A", status=1)
    assert out == b"" and rows.startswith(b"seal: it takes no words") and rows.count(b"\n") == 1
