"""The proved group reader and group writer, by way of the program scribe, against the second program: seeded rows, every size and room, damage."""
import functools
import itertools
import random
import re

from scribe import agreed, answers, line_of, short
from test_second import generated

SEEDS = (31, 32, 33)
READ = 3000
WRITTEN = 2000
TALKERS = (b"GP", b"GL", b"GA", b"GQ", b"GN")
PLACES = 36
BLANK = [0] * 7
# The bytes that damage puts in, besides those one bit away from the byte that stood there and those beside it.
DAMAGE = b"\n\r$*,.- \\!059AFGPSVaf\x00\x7f\xff"


def read(rows):
    """What both programs answer to groups in hex."""
    return agreed("groups", rows)


def wrote(rows):
    """What both programs answer to rows of tables."""
    return agreed("write-groups", rows)


def seeded(kind, count):
    rows = [row for seed in SEEDS for row in generated(kind, count, seed).splitlines()]
    assert len(rows) == count * len(SEEDS)
    return rows


def entry(rng, number):
    """The seven numbers of a satellite, each of its values there or missing."""
    numbers = [number]
    for highest in (90, 359, 99):
        numbers += rng.choice([[0, 0], [1, 0], [1, highest], [1, rng.randint(0, highest)], [1, rng.randint(0, highest)]])
    return numbers


def table(rng, size):
    """The used entries of a sound table."""
    return [entry(rng, number) for number in rng.sample(range(1, 100), size)]


def as_words(numbers):
    return b" ".join(b"%d" % number for number in numbers)


def table_row(talker, room, entries):
    places = entries + [BLANK] * (PLACES - len(entries))
    return b"%s %d %d %s" % (talker, room, len(entries), as_words(sum(places, [])))


def as_read(talker, entries):
    """The answer to the group of a table."""
    return b" ".join([b"ok", talker, b"%d" % len(entries)] + [as_words(one) for one in entries])


@functools.cache
def skies():
    """For each size and talker a sound table and the group that both programs write of it, as `(talker, entries, bytes)`."""
    rng = random.Random(34)
    tables = [(talker, table(rng, size)) for size in range(PLACES + 1) for talker in TALKERS]
    ours = wrote([table_row(talker, 1000, entries) for talker, entries in tables])
    assert {short(answer) for answer in ours} == {"ok"}
    return [(*one, bytes.fromhex(answer.decode().removeprefix("ok "))) for one, answer in zip(tables, ours)]


def sky_of(size):
    """A sky of a size, of one talker or another."""
    return skies()[len(TALKERS) * size + size % len(TALKERS)]


def hexed(pieces):
    return [piece.hex().encode() for piece in pieces]


def test_groups_are_read_as_the_second_program_reads_them():
    assert {short(answer) for answer in read(seeded("groups", READ))} == {"ok", 1, 2, 3, 4, 5, 6, 7}


def test_tables_are_written_as_the_second_program_writes_them():
    ours = wrote(seeded("write-groups", WRITTEN))
    assert {short(answer) for answer in ours} == {"ok", 5, 7, 8}
    at_0 = {answer for answer in ours if answer.startswith((b"refused 5 0 ", b"refused 7 0 ", b"refused 8 "))}
    assert at_0 == {b"refused 5 0 0", b"refused 8 0 0"}
    at_lines = {answer.split()[2] for answer in ours if answer.startswith(b"refused 5 ")}
    assert at_lines == {b"%d" % line for line in range(10)}


def test_what_is_written_is_read_back():
    back = read(hexed(data for _, _, data in skies()))
    assert back == [as_read(talker, entries) for talker, entries, _ in skies()]


def test_every_room_of_a_table():
    asked, expected = [], []
    for talker, entries, data in map(sky_of, (0, 1, 4, 5, PLACES)):
        for room in range(len(data) + 3):
            asked.append(table_row(talker, room, entries))
            expected.append(b"ok " + data.hex().encode() if room >= len(data) else b"refused 8 0 0")
    assert wrote(asked) == expected


def cut(data):
    """The lines of some bytes, cut after each LF."""
    return re.findall(rb"[^\n]*\n|[^\n]+", data)


def first_new(before, after):
    """The number of the first line that is new or no longer as it was."""
    pairs = itertools.zip_longest(cut(before), cut(after))
    return next(k for k, (old, new) in enumerate(pairs, 1) if old != new)


def damaged(data):
    """The bytes with one of them changed, dropped or added, in every place."""
    for at in range(len(data) + 1):
        beside = set(data[max(0, at - 1):at + 1])
        for byte in set(DAMAGE) | beside:
            yield data[:at] + bytes([byte]) + data[at:]
        if at == len(data):
            return
        yield data[:at] + data[at + 1:]
        near = {data[at] ^ 1 << bit for bit in range(8)}
        for byte in (set(DAMAGE) | near) - {data[at]}:
            yield data[:at] + bytes([byte]) + data[at + 1:]


def test_one_byte_of_damage_is_refused_at_its_line():
    pairs = [(data, hurt) for _, _, data in map(sky_of, (0, 1, 5, 9)) for hurt in damaged(data)]
    _, _, full = sky_of(PLACES)
    pairs += [(full, hurt) for hurt in random.Random(35).sample(list(damaged(full)), 4000)]
    assert len(pairs) > 15000
    met = set()
    for (data, hurt), answer in zip(pairs, read(hexed(hurt for _, hurt in pairs)), strict=True):
        line = first_new(data, hurt)
        assert answer in (b"refused 1 %d 0" % line, b"refused 2 %d 0" % line), (data, hurt, answer)
        met.add(answer)
    assert met == {b"refused %d %d 0" % (no, line) for no in (1, 2) for line in range(1, 10)} | {b"refused 1 10 0"}


def test_a_line_past_a_full_last_one():
    totals = range(1, 9)
    rows = []
    for k in totals:
        talker, _, data = sky_of(4 * k)
        rows.append(data + line_of(b"%sGSV,%d,%d,%02d" % (talker, k, k + 1, 4 * k)))
    assert read(hexed(rows)) == [b"refused 6 %d 0" % (k + 1) for k in totals]


def test_long_rows():
    noise = random.Random(36)
    _, _, full = sky_of(PLACES)
    long = [full * (32760 // len(full)), full + noise.randbytes(15000), noise.randbytes(32760), b"\n" * 15000, b"$" * 32760,
            b"0" * 32760]
    assert read(hexed(long))[:2] == [b"refused 6 10 0", b"refused 1 10 0"]


def test_numbers_too_wide_for_a_table():
    _, sound, _ = sky_of(PLACES)
    rows, expected = [], []
    for wide in (-1, 360, 4294967296, 4294967297, 18446744073709551617, -4294967295):
        rows.append(b"GP 1000 %d %s" % (wide, as_words(sum(sound, []))))
        expected.append(b"refused 5 0 0")
        for field, at in enumerate((0, 2, 4, 6), 8):
            rows.append(table_row(b"GP", 1000, sound[:9] + [sound[9][:at] + [wide] + sound[9][at + 1:]]))
            expected.append(b"refused 5 3 %d" % field)
    assert wrote(rows) == expected


def test_rows_of_groups_that_are_none():
    _, entries, data = sky_of(5)
    row = table_row(b"GP", 1000, entries)
    hexes = data.hex().encode()
    none = [b"group " + bad for bad in (b"2", hexes[:-1], b" " + hexes, hexes + b" ", hexes + b"g", b"-" + hexes, hexes + b"\r")]
    none += [b"groups " + hexes, b"Group " + hexes, b"group," + hexes, b" group " + hexes, b"grou", b"group" + hexes]
    none += [b"table", b"table ", b"table GP", b"table " + row[:-2], b"table " + row + b" 0", b"table " + row + b" ", b"table " + row + b"\r"]
    none += [b"table GX" + row[2:], b"table gp" + row[2:], b"table PI" + row[2:], b"table GP -1" + row[7:], b"table  " + row, b"table," + row]
    *ours, empty, bare, small, large = answers(none + [b"group", b"group ", b"group " + hexes, b"group " + hexes.upper()])
    for bad, answer in zip(none, ours, strict=True):
        assert answer == b"no row", bad
    assert empty == bare == b"refused 1 1 0"
    assert small == large and short(small) == "ok"
