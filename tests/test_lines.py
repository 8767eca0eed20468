"""The proved line reader and the fields of a line, by way of the program scribe, against the second program: seeded lines, damage, rows
that are none."""
from scribe import agreed, answers, line_of, short
from test_second import generated

SEEDS = (51, 52)
COUNT = 5000
SOUND = line_of(b"GPGSV,1,1,01,05,,,")


def seeded(mode):
    rows = [row for seed in SEEDS for row in generated(mode, COUNT, seed).splitlines()]
    assert len(rows) == COUNT * len(SEEDS)
    return rows


def test_lines_are_read_as_the_second_program_reads_them():
    ours = agreed("lines", seeded("lines"))
    assert {short(answer) for answer in ours} == {"ok", 1, 2, 3, 4, 5}
    read = {answer.split()[1][-3:] for answer in ours if short(answer) == "ok"}
    assert read == {b"GGA", b"GLL", b"GSA", b"GSV", b"RMC", b"VTG", b"ZDA", b"RPR", b"RTR", b"RSR", b"RER", b"RPA", b"RTA", b"RSA", b"REA"}
    fields = {answer.split()[3] for answer in ours if answer.startswith(b"refused 5 1 ")}
    assert fields >= {b"%d" % field for field in range(1, 18)}, fields


def test_fields_are_found_as_the_second_program_finds_them():
    ours = agreed("field", seeded("field"))
    assert {short(answer) for answer in ours} == {"ok", 1, 2, 3, 4}


def test_every_field_of_a_line():
    rows = [b"%d %s" % (n, SOUND.hex().encode()) for n in range(12)]
    assert agreed("field", rows) == [b"refused 4 1 0"] + [
        b"ok %d %d" % place for place in ((7, 1), (9, 1), (11, 2), (14, 2), (17, 0), (18, 0), (19, 0))] + [b"refused 4 1 0"] * 4


def test_every_byte_of_damage_to_a_line():
    hurt = [SOUND[:at] + bytes([byte]) + SOUND[at + 1:] for at in range(len(SOUND)) for byte in range(256) if byte != SOUND[at]]
    hurt += [SOUND[:at] + SOUND[at + 1:] for at in range(len(SOUND))]
    hurt += [SOUND[:at] + bytes([byte]) + SOUND[at:] for at in range(len(SOUND) + 1) for byte in range(256)]
    met = {short(answer) for answer in agreed("lines", [line.hex().encode() for line in hurt])}
    assert met == {1, 2}, met


def test_rows_of_lines_that_are_none():
    digits = SOUND.hex().encode()
    none = [b"line " + bad for bad in (b"2", digits[:-1], b" " + digits, digits + b" ", digits + b"g", b"-", digits + b"\r")]
    none += [b"lines " + digits, b"Line " + digits, b" line " + digits, b"line" + digits]
    none += [b"field", b"field ", b"field 1", b"field x " + digits, b"field  1 " + digits, b"field 1 " + digits + b"0", b"field 1  " + digits]
    *ours, bare, empty, small, large = answers(none + [b"line", b"line ", b"line " + digits, b"line " + digits.upper()])
    for bad, answer in zip(none, ours, strict=True):
        assert answer == b"no row", bad
    assert bare == empty == b"refused 1 1 0"
    assert small == large == b"ok GPGSV 1 1 1 1 5" + b" 0" * 27
