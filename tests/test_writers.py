"""The proved writers, by way of the program scribe, against the second program: seeded records, every room, rows that are none."""
from programs import run
from scribe import agreed, answers, line_of, short
from test_second import generated

SEEDS = (21, 22, 23)
COUNT = 4000
KINDS = {"GGA", "GLL", "GSA", "GSV", "RMC", "VTG", "ZDA", "PIRPR", "PIRTR", "PIRSR", "PIRER", "PIRPA", "PIRTA", "PIRSA", "PIREA"}
# Kinds whose records can make a line of over 82 bytes.
LONG = {"GGA", "RMC", "GSA"}


def kind_of(row):
    address = row.split()[0].decode()
    return address if address.startswith("PIR") else address[2:]


def seeded():
    """The rows of all seeds."""
    rows = [row for seed in SEEDS for row in generated("write", COUNT, seed).splitlines()]
    assert len(rows) == COUNT * len(SEEDS)
    return rows


def test_every_answer_is_the_second_programs():
    rows = seeded()
    ours = agreed("write", rows)
    assert b"touched" not in ours and b"no row" not in ours
    met = {kind: {short(a) for row, a in zip(rows, ours) if kind_of(row) == kind} for kind in KINDS}
    for kind in KINDS:
        expected = {"ok", 5, 8} | ({1} if kind in LONG else set())
        assert met[kind] == expected - ({5} if kind == "PIRER" else set()), (kind, met[kind])


def test_line_0_is_said_of_gsv_alone():
    rows = seeded()
    at_0 = {(kind_of(row), a) for row, a in zip(rows, answers(rows)) if a.startswith(b"refused 5 0 ")}
    assert at_0 == {("GSV", b"refused 5 0 0")}, at_0


def test_every_room():
    rows = seeded()
    sound = {kind: [] for kind in KINDS}
    for row, answer in zip(rows, answers(rows)):
        if short(answer) == "ok" and len(sound[kind_of(row)]) < 3:
            sound[kind_of(row)].append((row.split(), len(answer[3:]) // 2, answer))
    asked, expected = [], []
    for kind in KINDS:
        assert len(sound[kind]) == 3, kind
        for words, length, answer in sound[kind]:
            for room in range(length + 3):
                asked.append(b" ".join([words[0], b"%d" % room, *words[2:]]))
                expected.append(answer if room >= length else b"refused 8 1 0")
    assert agreed("write", asked) == expected


def written(body):
    """The answer `ok` with the line around a body."""
    return b"ok " + line_of(body).hex().encode()


def test_rows_that_are_none():
    sound = b"PIREA 82 17"
    none = [b"", b"PIREA", b"PIREA 82", b"PIREA 82 17 0", b"PIREA 82  17", b"PIREA 82 17 ", b" " + sound, b"PIREA 82 x", b"PIREA 82 -",
            b"PIREA 82 1-7", b"PIREA -1 17", b"PIRXA 82 17", b"GPGGB 82 17", b"pirea 82 17", b"PIREA,82 17", sound + b"\r",
            sound + b" 0" * 60]
    for row, answer in zip(none, answers(none), strict=True):
        assert answer == b"no row", row
    assert answers([none[0], sound, none[1], sound])[1::2] == [written(b"PIREA,17")] * 2


def test_numbers_too_wide_for_a_record():
    plain = [b"-1", b"256", b"4294967296", b"4294967313", b"18446744073709551633", b"-4294967279", b"9" * 60]
    signed = [b"840", b"-840", b"2147483648", b"-2147483648", b"-2147483649", b"4294967296", b"-4294967296", b"-4294967297", b"9" * 60]
    assert set(answers([b"PIREA 82 " + wide for wide in plain])) == {b"refused 5 1 1"}
    assert set(answers([b"PIRTA 82 0 " + wide for wide in signed])) == {b"refused 5 1 2"}
    masks = [b"-1", b"4294967296", b"4294967297", b"-4294967295", b"9" * 60]
    assert set(agreed("write", [row % mask for mask in masks for row in (b"PIRSR 82 1 %s 7 7", b"PIRSA 82 %s -1")])) == {b"refused 5 1 1"}
    assert set(agreed("write", [b"PIRSR 82 0 %s 0 0" % mask for mask in masks])) == {b"refused 5 1 1"}
    assert short(agreed("write", [b"PIRSA 82 4294967295 0"])[0]) == "ok"


# A record of each kind with marks, each value there; where its marks stand among its numbers, and the field of each.
MARKED = {
    b"GPGGA": (b"1 0 1 0 0 0 1 0 1 0 1 0 1 0 1 0 1 0", {0: 1, 2: 2, 6: 7, 8: 8, 10: 9, 12: 11, 14: 13, 16: 14}),
    b"GPGLL": (b"1 0 0 1 0 65 65", {0: 1, 3: 5}),
    b"GPGSA": (b"65 1" + b" 1 1" * 12 + b" 1 0 1 0 1 0", {2 * k: k + 2 for k in range(1, 16)}),
    b"GPGSV": (b"1 1 1 1 5 1 0 1 0 1 0" + b" 0" * 21, {5: 5, 7: 6, 9: 7}),
    b"GPRMC": (b"1 0 65 1 0 0 1 0 1 0 1 15 11 2026 1 0 65", {0: 1, 3: 3, 6: 7, 8: 8, 10: 9, 14: 10}),
    b"GPVTG": (b"1 0 1 0 1 0 1 0 65", {0: 1, 2: 3, 4: 5, 6: 7}),
    b"GPZDA": (b"1 0 1 15 11 2026 1 0", {0: 1, 2: 2, 6: 5}),
    b"PIRPR": (b"1 0 1 4800 1 4 1 127", {0: 1, 2: 2, 4: 3, 6: 4}),
    b"PIRTR": (b"1 0 1 0", {0: 1, 2: 2}),
    b"PIRSR": (b"1 0 1 0", {0: 1, 2: 2}),
}


def test_a_number_that_is_no_mark_is_refused_at_its_field():
    sound = [b"%s 82 %s" % (address, numbers) for address, (numbers, _) in MARKED.items()]
    assert {short(answer) for answer in agreed("write", sound)} == {"ok"}
    rows, expected = [], []
    for address, (numbers, fields) in MARKED.items():
        for place, field in fields.items():
            for mark in (b"2", b"-1", b"255", b"4294967297", b"9" * 60):
                words = numbers.split()
                rows.append(b" ".join([address, b"82", *words[:place], mark, *words[place + 1:]]))
                expected.append(b"refused 5 1 %d" % field)
    assert agreed("write", rows) == expected


def test_a_rest_without_lf_is_no_row():
    assert run("scribe", b"PIRER 82\nPIRER 82") == (written(b"PIRER,0") + b"\n", b"")


def test_a_row_longer_than_the_buffer_ends_the_program():
    for length in (65536, 70000):
        out, said = run("scribe", b"PIRER 82\n" + b"x" * length + b"\nPIRER 82\n", status=1)
        assert out == written(b"PIRER,0") + b"\n" and said == b"scribe: a row is too long\n"
    assert answers([b"x" * 65535, b"PIRER 82"]) == [b"no row", written(b"PIRER,0")]


def test_an_argument_is_refused_in_words():
    out, said = run("scribe", b"PIRER 82\n", "extra", status=2)
    assert out == b"" and said.startswith(b"tools/scribe: it takes no words"), (out, said)
