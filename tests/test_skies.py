"""The program skies, run as a person would: whole groups, runs that are none and why, and beside a few lines of Python over seeded logs."""
import random
import re
import subprocess

from programs import ROOT, command, run
from scribe import line_of

PIRER = line_of(b"PIRER,0")
LARGE = 65536
MEANS = {
    6: b"a line does not go with its group",
    7: b"a satellite is repeated in its group",
}
ENTRY = rb",\d\d,(?:[0-8]\d|90)?,(?:[0-2]\d\d|3[0-5]\d)?,(?:\d\d)?"
GSV = re.compile(rb"\$(G[PLAQN])GSV,([1-9]),([1-9]),(\d\d)((?:%s){0,4})\*[0-9A-F]{2}\r\n" % ENTRY)


def gsv(talker, last, number, satellites, *entries):
    """A GSV line of these entries, each as it stands in the line."""
    return line_of(b"%sGSV,%d,%d,%02d" % (talker, last, number, satellites) + b"".join(b"," + one for one in entries))


def sky(line, offset, talker, *rows):
    """The rows of a whole sky."""
    word = b"satellite" if len(rows) == 1 else b"satellites"
    return b"sky at line %d, offset %d: %s, %d %s\n" % (line, offset, talker, len(rows), word) + b"".join(row + b"\n" for row in rows)


def none(line, offset, number, at):
    """The row of a run that is no group."""
    return b"no sky at line %d, offset %d: refused %d at its line %d, field 0: %s\n" % (line, offset, number, at, MEANS[number])


def gives(log, *rows):
    out, said = run("skies", log)
    assert (out, said) == (b"".join(rows), b""), out.decode()


TWO = [gsv(b"GP", 2, 1, 5, b"02,10,104,33", b"05,60,017,47", b"12,33,201,40", b"25,04,310,"), gsv(b"GP", 2, 2, 5, b"29,71,048,00")]
TWO_ROWS = [b"2 10 104 33", b"5 60 17 47", b"12 33 201 40", b"25 4 310 -", b"29 71 48 0"]


def test_no_input():
    gives(b"")
    gives(b"noise\n" * 3 + PIRER)


def test_one_line():
    gives(gsv(b"GP", 1, 1, 0), sky(1, 0, b"GP"))
    gives(b"noise" + gsv(b"GN", 1, 1, 1, b"05,,,"), sky(1, 5, b"GN", b"5 - - -"))
    line = gsv(b"GL", 1, 1, 2, b"65,00,000,00", b"99,90,359,99")
    assert len(line) == 44
    gives(line * 2, *(sky(at + 1, 44 * at, b"GL", b"65 0 0 0", b"99 90 359 99") for at in (0, 1)))


def test_two_lines_behind_other_sentences():
    log = PIRER + b"".join(TWO) + PIRER
    gives(log, sky(2, 13, b"GP", *TWO_ROWS))
    assert (len(TWO[0]), len(TWO[1]), len(PIRER)) == (68, 31, 13)


def test_nine_lines_of_four():
    entries = [b"%02d,%02d,%03d,%02d" % (n, n, 10 * n - 1, n + 50) for n in range(1, 37)]
    lines = [gsv(b"GQ", 9, k + 1, 36, *entries[4 * k:4 * k + 4]) for k in range(9)]
    rows = [b"%d %d %d %d" % (n, n, 10 * n - 1, n + 50) for n in range(1, 37)]
    gives(b"".join(lines), sky(1, 0, b"GQ", *rows))
    gives(b"".join(lines[:8]), none(1, 0, 6, 9))
    gives(b"".join(lines[1:]), none(1, 0, 6, 1))


def test_the_longest_numbers_are_printed_whole():
    """36 satellites with every value at its longest, far into a log."""
    entries = [b"%02d,90,359,99" % n for n in range(10, 46)]
    lines = [gsv(b"GN", 9, k + 1, 36, *entries[4 * k:4 * k + 4]) for k in range(9)]
    log = b"\n" * 3_000_000 + PIRER * 9999 + b"".join(lines)
    gives(log, sky(10000, 3_000_000 + 13 * 9999, b"GN", *(b"%d 90 359 99" % n for n in range(10, 46))))


def test_noise_ends_nothing():
    for noise in (b"noise", b"\n\n", b"$GP", b"$" + b"A" * 90 + b"\r\n", b"$GPGSV,1,1"):
        gives(TWO[0] + noise + TWO[1], sky(1, 0, b"GP", *TWO_ROWS))


def test_cut_in_half_by_another_sentence():
    gives(TWO[0] + PIRER + TWO[1], none(1, 0, 6, 2), none(3, 81, 6, 1))


def test_cut_in_half_by_a_damaged_line():
    damaged = TWO[1].replace(b"29", b"28")
    gives(TWO[0] + damaged + TWO[1], none(1, 0, 6, 2), none(3, 99, 6, 1))
    gives(TWO[0] + damaged, none(1, 0, 6, 2))
    unread = gsv(b"GP", 2, 2, 5, b"29,91,048,53")
    gives(TWO[0] + unread + b"".join(TWO), none(1, 0, 6, 2), sky(3, 99, b"GP", *TWO_ROWS))


def test_cut_in_half_by_the_end():
    gives(TWO[0], none(1, 0, 6, 2))
    gives(TWO[0] + TWO[1][:-1], none(1, 0, 6, 2))


def test_a_line_numbered_1_in_the_middle():
    gives(TWO[0] + b"".join(TWO), none(1, 0, 6, 2), sky(2, 68, b"GP", *TWO_ROWS))
    one = gsv(b"GA", 1, 1, 1, b"07,,,")
    gives(TWO[0] + one + TWO[1], none(1, 0, 6, 2), sky(2, 68, b"GA", b"7 - - -"), none(3, 92, 6, 1))
    assert len(one) == 24


def test_ten_lines_in_a_row():
    second = gsv(b"GP", 9, 2, 36, b"05,,,", b"06,,,", b"07,,,", b"08,,,")
    assert len(second) == 42
    gives(second * 10, none(1, 0, 6, 1), none(10, 9 * 42, 6, 1))
    gives(second * 20, none(1, 0, 6, 1), none(10, 9 * 42, 6, 1), none(19, 18 * 42, 6, 1))


def test_the_number_that_the_first_line_announced():
    """A run ends with the number that its first line announced, also where a later line announces another."""
    lines = [gsv(b"GP", 2, 1, 5), gsv(b"GP", 3, 2, 9), gsv(b"GP", 3, 3, 9)]
    gives(b"".join(lines), none(1, 0, 6, 1), none(3, 36, 6, 1))
    lines = [gsv(b"GP", 3, 1, 9), gsv(b"GP", 2, 2, 5), gsv(b"GP", 3, 3, 9), gsv(b"GP", 3, 2, 9)]
    gives(b"".join(lines), none(1, 0, 6, 1), none(4, 54, 6, 1))


def test_a_repeated_satellite():
    gives(TWO[0] + gsv(b"GP", 2, 2, 5, b"05,71,048,53"), none(1, 0, 7, 2))
    gives(gsv(b"GP", 1, 1, 2, b"05,,,", b"05,,,"), none(1, 0, 7, 1))


def test_another_talker_in_the_middle():
    gives(TWO[0] + gsv(b"GL", 2, 2, 5, b"29,71,048,00"), none(1, 0, 6, 2))


def test_lines_with_lf_alone():
    bare = b"".join(TWO).replace(b"\r\n", b"\n")
    gives(bare)
    gives(TWO[0] + TWO[1].replace(b"\r\n", b"\n") + b"".join(TWO), none(1, 0, 6, 2), sky(3, 98, b"GP", *TWO_ROWS))


def test_an_input_larger_than_a_buffer():
    """A group across the end of each filling, wherever its bytes lie there, with its offset."""
    group, count = b"".join(TWO), 2000
    assert len(group) * count > 2 * LARGE
    gives(group * count, *(sky(2 * at + 1, len(group) * at, b"GP", *TWO_ROWS) for at in range(count)))
    for before in range(LARGE - 100, LARGE + 1):
        if before % 7 == 0:
            gives(b"." * before + group, sky(1, before, b"GP", *TWO_ROWS))


def found(log):
    """The lines of a log with their offsets: from the last `$` to its LF, at most 82 bytes."""
    return [(m.start(1), m.group(1)) for m in re.finditer(rb"(\$[^$\n]*\n)", log) if len(m.group(1)) <= 82]


def as_gsv(line):
    """Talker, total, number, satellites and the entries of a line that reads as GSV; else nothing."""
    fits = GSV.fullmatch(line)
    if not fits or line_of(line[1:-5]) != line:
        return None
    words = fits.group(5).split(b",")[1:]
    entries = [words[i:i + 4] for i in range(0, len(words), 4)]
    if b"00" in [one[0] for one in entries]:
        return None
    return fits.group(1), int(fits.group(2)), int(fits.group(3)), int(fits.group(4)), entries


def cut(log):
    """The runs of a log: number and offset of the first line, and what its lines say."""
    runs, open_run = [], None
    for number, (offset, line) in enumerate(found(log), 1):
        said = as_gsv(line)
        if said is None or said[2] == 1:
            open_run = None
        if said is None:
            continue
        if open_run is None:
            open_run = (number, offset, [])
            runs.append(open_run)
        open_run[2].append(said)
        if said[2] == open_run[2][0][1] or len(open_run[2]) == 9:
            open_run = None
    return runs


def rows_of(number, offset, lines):
    """What is printed of a run."""
    talker, total, _, satellites, _ = lines[0]
    had = []
    for k, said in enumerate(lines, 1):
        entries = min(4, max(0, satellites - 4 * (k - 1)))
        if said[:4] != (talker, total, k, satellites) or k > total or total != max(1, -(-satellites // 4)) or len(said[4]) != entries:
            return none(number, offset, 6, k)
        for one in said[4]:
            if one[0] in [other[0] for other in had]:
                return none(number, offset, 7, k)
            had.append(one)
    if len(lines) < total:
        return none(number, offset, 6, len(lines) + 1)
    return sky(number, offset, talker, *(b" ".join(b"%d" % int(word) if word else b"-" for word in one) for one in had))


def some_entry(rng):
    """An entry as it stands in a line; now and then one that does not read."""
    number = rng.choice((rng.randint(1, 99), rng.randint(1, 12), rng.choice((0, 5))))
    elevation, azimuth = rng.choice((b"", b"00", b"90", b"91", b"45")), rng.choice((b"", b"000", b"359", b"360", b"120"))
    return b"%02d,%s,%s,%s" % (number, elevation, azimuth, rng.choice((b"", b"00", b"99", b"31")))


def some_gsv(rng):
    """A GSV line by itself."""
    entries = [some_entry(rng) for _ in range(rng.randint(0, 4))]
    return gsv(rng.choice((b"GP", b"GL")), rng.randint(1, 9), rng.randint(1, 9), rng.randint(0, 40), *entries)


def some_group(rng, is_repeated=False):
    """The lines of a whole group, but for a satellite that may be repeated."""
    size = rng.choice((0, 1, 3, 4, 5, 8, 9, 13, 36))
    numbers = rng.sample(range(1, 100), size)
    if is_repeated:
        numbers = [rng.choice(numbers) for _ in numbers]
    values = (b",,", b"00,,00", b"61,017,", b"61,017,42", b",000,")
    entries = [b"%02d,%s" % (n, rng.choice(values)) for n in numbers]
    total, talker = max(1, -(-size // 4)), rng.choice((b"GP", b"GL", b"GA", b"GQ", b"GN"))
    return [gsv(talker, total, k + 1, size, *entries[4 * k:4 * k + 4]) for k in range(total)]


def some_piece(rng):
    """A group, a group that lacks lines or has others, or what is no line of one."""
    lines = some_group(rng)
    kind = rng.randrange(10)
    if kind == 0:
        del lines[rng.randrange(len(lines))]
    elif kind == 1:
        lines.insert(rng.randrange(len(lines) + 1), rng.choice((PIRER, b"noise", b"$GP", b"$" + b"A" * 90 + b"\r\n", b"$GPGSV\r\n")))
    elif kind == 2:
        lines.insert(rng.randrange(len(lines) + 1), rng.choice(some_group(rng)))
    elif kind == 3:
        lines = [some_gsv(rng) for _ in range(rng.randint(1, 14))]
    elif kind == 4:
        at = rng.randrange(len(lines))
        byte = rng.randrange(len(lines[at]))
        lines[at] = lines[at][:byte] + bytes([rng.randrange(256)]) + lines[at][byte + 1:]
    elif kind == 5:
        lines.append(lines[-1])
    elif kind == 6:
        lines = some_group(rng, is_repeated=True)
    return b"".join(lines)


def test_random_mixes():
    whole = half = sevens = 0
    for seed in range(12):
        rng = random.Random(seed)
        log = b"".join(some_piece(rng) for _ in range(400))
        expected = [rows_of(*one) for one in cut(log)]
        gives(log, *expected)
        whole += sum(one.startswith(b"sky") for one in expected)
        half += sum(b"refused 6" in one for one in expected)
        sevens += sum(b"refused 7" in one for one in expected)
    assert min(whole, half) > 1000 and sevens > 100, (whole, half, sevens)


def test_a_run_is_written_as_soon_as_it_ends():
    child = subprocess.Popen(command("skies"), stdin=subprocess.PIPE, stdout=subprocess.PIPE, cwd=ROOT)
    for at in range(3):
        child.stdin.write(b"".join(TWO))
        child.stdin.flush()
        rows = [child.stdout.readline() for _ in range(6)]
        assert b"".join(rows) == sky(2 * at + 1, 99 * at, b"GP", *TWO_ROWS)
    assert child.communicate() == (b"", None) and child.returncode == 0


def test_an_argument_is_refused():
    out, said = run("skies", b"".join(TWO), "records", status=1)
    assert out == b"" and said.startswith(b"skies: ") and said.count(b"\n") == 1


def test_output_that_cannot_be_written():
    with open("/dev/full", "wb") as full:
        for log in (b"".join(TWO), TWO[0]):
            done = subprocess.run(command("skies"), input=log, stdout=full, stderr=subprocess.PIPE, timeout=300)
            assert done.returncode == 1 and done.stderr.startswith(b"skies: standard output cannot be written"), done


def test_input_that_cannot_be_read():
    with open(ROOT / "README.md", "ab") as no_input:
        done = subprocess.run(command("skies"), stdin=no_input, capture_output=True, timeout=300)
    assert done.returncode == 1 and done.stderr.startswith(b"skies: standard input cannot be read"), done
