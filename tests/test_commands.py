"""The proved step of the class receiver, by way of the program scribe, against the second program: seeded rows, every room and port,
settings just outside their ranges."""
import itertools

from scribe import agreed, answers, line_of, short
from test_second import generated

SEEDS = (41, 42, 43)
COUNT = 3000
START = [4800, 4, 127, 4800, 4, 127, 0, 0, 0xFFFFFFFF, 0xFFFFFF, 0]
GPS = 8
COMMANDS = [line_of(body) for body in (b"PIRPR,,,,", b"PIRTR,,", b"PIRSR,,,", b"PIRER,0")]
CHANGES = [line_of(body) for body in (b"PIRPR,1,115200,3,0F7F", b"PIRPR,,1200,0,0000", b"PIRTR,4,-1359", b"PIRSR,7FFEFFFF,FFFFFE,",
                                      b"PIRSR,,000001,", b"PIRSR,00000000,,")]
# The numbers just outside the range of each setting.
OUTSIDE = [(0, (0, 1199, 115201, -1)), (1, (5, -1)), (2, (0x80, 0xF80, 0x1000, 0x8000, 0x10000, -1)), (3, (0, 1199, 115201, -1)), (4, (5, -1)),
           (5, (0x80, 0xF80, 0x1000, 0x8000, 0x10000, -1)), (6, (5, -1)), (7, (840, -840)), (8, (0x100000000, -1)),
           (9, (0x1000000, -1)), (10, (256, -1))]
# The numbers at both ends of each range.
ENDS = [(0, (1200, 115200)), (2, (0, 0xF7F)), (3, (1200, 115200)), (4, (0, 4)), (5, (0, 0xF7F)), (6, (0, 4)), (7, (839, -839)),
        (8, (0, 0xFFFFFFFF)), (9, (0, 0xFFFFFF)), (10, (0, 255))]


def words(numbers):
    return b" ".join(b"%d" % number for number in numbers)


def step_row(port, room, settings, line):
    return b"%d %d %s %s" % (port, room, words(settings), line.hex().encode() or b"-")


def stepped(rows):
    """What both programs answer to commands."""
    return agreed("commands", rows)


def counted(rows):
    return agreed("counts", rows)


def changed(changes):
    """The settings at start, one of them changed to each of its values."""
    return [START[:place] + [value] + START[place + 1:] for place, values in changes for value in values]


def seeded(kind):
    """The rows of all seeds."""
    rows = [row for seed in SEEDS for row in generated(kind, COUNT, seed).splitlines()]
    assert len(rows) == COUNT * len(SEEDS)
    return rows


def test_every_answer_is_the_second_programs():
    ours = stepped(seeded("commands"))
    assert {short(answer) for answer in ours} == {"ok", 1, 2, 3, 4, 5, 8, 9, 10}
    assert {b"refused 5 0 0", b"refused 5 1 1", b"refused 8 1 0", b"refused 10 1 0"} <= set(ours)


def test_every_count_is_the_second_programs():
    ours = counted(seeded("counts"))
    assert {short(answer) for answer in ours} == {"ok", 5}
    assert set(ours) > {b"refused 5 0 0", b"ok 32 24"}
    assert counted([words(one) for one in changed([(GPS, [0x7FFEFFFF]), (GPS + 1, [0xFFFFFE])])]) == [b"ok 30 24", b"ok 32 23"]


def test_every_arrival_port_and_protocol():
    rows = []
    for port, first, second, line in itertools.product((0, 1, 2, 3, 255, 4294967295), range(6), range(6), COMMANDS + CHANGES):
        settings = [9600, first, 1, 1200, second, 2] + START[6:]
        rows.append(step_row(port, 82, settings, line))
    met = {short(answer) for answer in stepped(rows)}
    assert met == {"ok", 5, 10}, met


def test_settings_outside_their_ranges():
    wrong = changed(OUTSIDE)
    lines = COMMANDS + CHANGES + [b"", b"$"]
    refused = {b"refused 5 0 0"}
    assert set(stepped([step_row(port, 82, one, line) for port in (0, 1) for line in lines for one in wrong])) == refused
    assert set(counted([words(one) for one in wrong])) == refused


def test_settings_at_the_ends_of_their_ranges():
    right = changed(ENDS)
    assert {short(answer) for answer in stepped([step_row(0, 82, one, line) for line in COMMANDS + CHANGES for one in right])} == {"ok"}
    assert {short(answer) for answer in counted([words(one) for one in right])} == {"ok"}


def test_every_room():
    rows = [step_row(port, room, START, line) for line in COMMANDS + CHANGES for port in (0, 1) for room in range(29)]
    ours = stepped(rows)
    for at in range(0, len(rows), 29):
        met = [short(answer) for answer in ours[at:at + 29]]
        length = met.index("ok")
        assert met == [8] * length + ["ok"] * (29 - length), rows[at]
        assert length == len(ours[at + length].split()[1]) // 2, rows[at]


def test_rows_that_are_none():
    sound = b"step " + step_row(0, 82, START, COMMANDS[3])
    count = b"counts " + words(START)
    none = [b"step", b"step ", sound + b"0", sound[:-1], sound + b" ", sound + b"g0", b"step 0 82 " + words(START),
            sound.replace(b" 82 ", b" -1 "), sound.replace(b" 82 ", b" x "), sound.replace(b"step 0", b"step"), sound + b"00" * 1024,
            b"counts", b"counts ", count + b" 0", count + b" ", count[:-2], count + b"x", b" " + count]
    for row, answer in zip(none, answers(none), strict=True):
        assert answer == b"no row", row
    assert [short(answer) for answer in answers([sound, count])] == ["ok", "ok"]
