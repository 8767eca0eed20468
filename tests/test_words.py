"""`listing words`: the place of each line, why it was refused, and the count at the end; on logs made for it and on random damage."""
import random
import re

from programs import ROOT, run
from reasons import reason
from scribe import line_of

TROUBLE = ROOT / "samples" / "trouble"
COUNTS = re.compile(rb"(\d+) lines found, (\d+) read, (\d+) refused with 1, (\d+) refused with 2, (\d+) refused with 3,"
                    rb" (\d+) refused with 4, (\d+) refused with 5; (\d+) bytes passed over, lines cut short (\d+),"
                    rb" lines of over 82 bytes (\d+)\n")


def found(log):
    """Start and bytes of each line that the finder gives out, then the lines cut short and those of over 82 bytes."""
    lines, short, long, begun = [], 0, 0, None
    for i, byte in enumerate(log):
        if byte == ord("$"):
            short, begun = short + (begun is not None), i
        elif byte == ord("\n") and begun is not None:
            if i + 1 - begun <= 82:
                lines.append((begun, log[begun:i + 1]))
            else:
                long += 1
            begun = None
    return lines, short + (begun is not None), long


def expected(log):
    """The rows and the counts, by the rows of the plain listing and by reasons worked out apart."""
    plain = run("listing", log)[0].splitlines()[1:]
    lines, short, long = found(log)
    rows, counts = [b"offset row no address answer"], [0] * 6
    for (start, sent), row in zip(lines, plain, strict=True):
        rows.append(b"%d %d %s" % (start, log[:start].count(b"\n") + 1, row))
        words = row.split()
        if words[2] == b"ok":
            counts[0] += 1
        else:
            counts[int(words[3])] += 1
            rows.append(b"    " + reason(sent, int(words[3]), int(words[4])))
    beside = len(log) - sum(len(sent) for _, sent in lines)
    return rows, [len(lines), *counts, beside, short, long]


def check(log):
    out, said = run("listing", log, "words")
    rows, counts = expected(log)
    assert out == b"".join(row + b"\n" for row in rows), [pair for pair in zip(out.splitlines(), rows) if pair[0] != pair[1]][:3]
    assert [int(n) for n in COUNTS.fullmatch(said).groups()] == counts, (said, counts)


def test_troublesome_logs():
    logs = sorted(TROUBLE.glob("*.log"))
    assert [path.stem for path in logs] == ["damaged-groups", "lf-only", "noise", "six-digits", "version-4.10"]
    for path in logs:
        log = path.read_bytes()
        out, said = run("listing", log, "words")
        assert out == (TROUBLE / f"{path.stem}.words").read_bytes(), path.stem
        assert said == (TROUBLE / f"{path.stem}.counts").read_bytes(), path.stem
        assert run("skies", log) == ((TROUBLE / f"{path.stem}.skies").read_bytes(), b""), path.stem


def test_the_sample_and_no_log():
    check((ROOT / "samples" / "day.log").read_bytes())
    check(b"")
    check(b"$")
    check(b"no line\r\n")


BODIES = [b"GPGGA,000008.00,,,,,0,,,,,,,,", b"GPGLL,5550.6111,N,03732.2534,E,075140.00,A,A", b"GPGSA,A,3,05,,,,,,,,,,,,2.1,1.2,1.7",
          b"GPGSV,1,1,04,05,71,048,53,06,,,,07,,,,08,,,", b"GPRMC,075140.00,A,5550.6111,N,03732.2534,E,0.5,10,151126,1.5,E,A",
          b"GPVTG,1.5,T,2.5,M,0.5,N,0.9,K,A", b"GPZDA,075140.00,15,11,2026,-00,30", b"PIRPR,0,9600,4,007F", b"PIRTR,1,-0030",
          b"PIRSR,7FFEFFFF,FFFFFE,", b"PIRER,0", b"PIRPA,0,9600,4,007F", b"PIRTA,1,-0030", b"PIRSA,7FFEFFFF,FFFFFE,", b"PIREA,0"]


def test_every_field_of_every_kind():
    """Each field of each kind in its turn is no value of any form: the row names it in words."""
    log = b""
    for body in BODIES:
        fields = body.split(b",")
        for i in range(1, len(fields)):
            log += line_of(b",".join(fields[:i] + [b"?"] + fields[i + 1:]))
    check(log)


def test_random_damage():
    chance = random.Random(17)
    log = b""
    for _ in range(1500):
        sent = bytearray(line_of(chance.choice(BODIES)))
        for _ in range(chance.randrange(3)):
            at = chance.randrange(len(sent))
            what = chance.randrange(3)
            if what == 0:
                sent[at] = chance.randrange(256)
            elif what == 1:
                del sent[at]
            else:
                sent.insert(at, chance.choice(b"$*!,0aA\r\n\x00\xff"))
        if chance.random() < 0.5:
            sent = bytearray(line_of(bytes(byte for byte in sent[1:-5] if 32 <= byte < 127 and byte not in b"$*!\\^~") or b"X"))
        log += bytes(sent)
    check(log)


def test_more_than_a_buffer():
    log = (ROOT / "samples" / "day.log").read_bytes() + b"$GPGGA," + 70000 * b"9" + b"\r\n"
    check(40 * log)


def test_usage():
    for words in (("word",), ("words", "records"), ("",), ("Words",)):
        out, said = run("listing", b"", *words, status=1)
        assert out == b"" and said.startswith(b"listing: it reads a log from standard input"), words
