"""The proved index, by way of the program scribe, against the second program: seeded rows, every byte of damage, every room, rows that are
none."""
import functools

from scribe import agreed, answers, short
from test_second import generated

SEEDS = (71, 72)
COUNT = 3000
MOST = 4294967295
WIDEST = 18446744073709551615
# The numbers of entries, three each, and their bytes: small gaps, gaps of two groups, the longest entry that there is.
INDEXES = (([2, 0, 70, 10, 70, 80], "020046080050"), ([300, 128, 82, 428, 510, 7], "ac028001528001ac0207"),
           ([MOST, MOST - 82, 82], "ffffffff0fadffffff0f52"))
FAR = (MOST - 1, MOST, MOST + 1, MOST + 3, 2 ** 63, WIDEST)


def words(numbers):
    return b" ".join(b"%d" % number for number in numbers)


def hexed(data):
    return data.hex().encode() or b"-"


def done(numbers):
    """The answer `ok` with numbers behind it."""
    return b" ".join([b"ok", *(b"%d" % number for number in numbers)])


def wrote(rows):
    """What both programs answer to rooms with the numbers of entries."""
    return agreed("index-write", [words([room, *numbers]) for room, numbers in rows])


def read(rows):
    """What both programs answer to rooms with bytes."""
    return agreed("index-read", [b"%d %s" % (room, hexed(data)) for room, data in rows])


def added(rows):
    """What both programs answer to rooms with bytes and an entry."""
    return agreed("index-add", [b"%d %s %s" % (room, hexed(data), words(entry)) for room, data, entry in rows])


def found(rows):
    """What both programs answer to bytes with a number that is looked for."""
    return agreed("index-find", [b"%s %d" % (hexed(data), number) for data, number in rows])


def refused(no):
    return b"refused %d 0 0" % no


def entries_of(numbers):
    return [numbers[at:at + 3] for at in range(0, len(numbers), 3)]


def numbers_of(answer):
    return [int(word) for word in answer.split()[1:]]


def damaged(data):
    """The bytes with one of them changed to each other value, dropped, or any byte added, in every place; each such string once."""
    hurt = [data[:at] + bytes([byte]) + data[at + 1:] for at in range(len(data)) for byte in range(256) if byte != data[at]]
    hurt += [data[:at] + data[at + 1:] for at in range(len(data))]
    hurt += [data[:at] + bytes([byte]) + data[at:] for at in range(len(data) + 1) for byte in range(256)]
    return list(dict.fromkeys(hurt))


@functools.cache
def hurt_indexes():
    """Every byte of damage to the indexes, each with what both programs read of it."""
    hurt = [one for _, digits in INDEXES for one in damaged(bytes.fromhex(digits))]
    assert len(hurt) > 14000
    return list(zip(hurt, read([(100, data) for data in hurt]), strict=True))


def seeded_agree(mode, numbers):
    """Seeded rows of a mode are answered alike: with these numbers, and a refusal never with a line or field."""
    rows = [row for seed in SEEDS for row in generated(mode, COUNT, seed).splitlines()]
    assert len(rows) == COUNT * len(SEEDS)
    ours = agreed(mode, rows)
    assert {short(answer) for answer in ours} == numbers
    assert {answer for answer in ours if short(answer) != "ok"} == {refused(no) for no in numbers - {"ok"}}


def test_indexes_are_written_as_the_second_program_writes_them():
    seeded_agree("index-write", {"ok", 5, 8})


def test_indexes_are_read_as_the_second_program_reads_them():
    seeded_agree("index-read", {"ok", 8, 11})


def test_entries_are_added_as_the_second_program_adds_them():
    seeded_agree("index-add", {"ok", 5, 8, 11})


def test_exhibits_are_found_as_the_second_program_finds_them():
    seeded_agree("index-find", {"ok", 11, 12})


def test_indexes_by_their_bytes():
    rows = [([], "")] + list(INDEXES) + [([300, 300, 82], "ac02ac0252"), ([1, 0, 7], "010007"), ([127, 128, 7], "7f800107")]
    for bits, low, high in ((7, "7f", "8001"), (14, "ff7f", "808001"), (21, "ffff7f", "80808001"), (28, "ffffff7f", "8080808001")):
        rows += [([2 ** bits - 1, 2 ** bits, 7], low + high + "07"), ([2 ** bits, 2 ** bits - 1, 82], high + low + "52")]
    assert wrote([(100, numbers) for numbers, _ in rows]) == [b"ok " + hexed(bytes.fromhex(digits)) for _, digits in rows]
    assert read([(100, bytes.fromhex(digits)) for _, digits in rows]) == [done(numbers) for numbers, _ in rows]


def test_2_and_10_in_both_orders():
    right, late = [2, 0, 70, 10, 70, 80], [10, 70, 80, 2, 0, 70]
    moved = [10, 0, 70, 2, 70, 80]
    assert wrote([(100, right), (100, late), (100, moved)]) == [b"ok 020046080050", refused(5), refused(5)]
    two, ten = bytes.fromhex("020046"), bytes.fromhex("0a0050")
    assert added([(100, two, [10, 70, 80]), (100, ten, [2, 80, 70])]) == [b"ok 020046080050", refused(5)]


def test_entries_just_outside():
    sound = [2, 0, 70]
    wrong = [[2, 70, 80], [1, 70, 80], [0, 70, 80], [10, 69, 80], [10, 0, 80], [10, 70, 6], [10, 70, 83], [10, 70, 0], [MOST + 1, 70, 80],
             [10, MOST - 79, 80], [10, WIDEST - 79, 80], [10, 70, WIDEST], [MOST + 11, 70, 80], [10, MOST + 71, 80], [10, 70, MOST + 81]]
    assert set(wrote([(100, sound + entry) for entry in wrong])) == {refused(5)}
    assert set(added([(100, bytes.fromhex("020046"), entry) for entry in wrong])) == {refused(5)}
    edges = [[3, 70, 80], [10, 70, 7], [10, 70, 82], [MOST, 70, 80], [10, MOST - 80, 80]]
    assert {short(answer) for answer in wrote([(100, sound + entry) for entry in edges])} == {"ok"}
    threes = [sound[:1], sound[:2], sound + sound[:1], sound + [10, 70]]
    assert wrote([(0, numbers) for numbers in threes]) == [refused(5)] * 4


def test_bytes_that_are_no_index():
    none = ["00", "02", "0200", "0200c6", "02004602", "020046000050", "82000046", "02800046", "0280800046", "0200c600", "8280808080000046",
            "8280808080010046", "80808080100046", "02808080801046", "020006", "020053", "02008001", "ffffffff0f0046010046",
            "02baffffff0f46", "80" * 40, "ff" * 40]
    assert read([(100, bytes.fromhex(digits)) for digits in none]) == [refused(11)] * len(none)
    assert found([(bytes.fromhex(digits), 2) for digits in none]) == [refused(11)] * len(none)
    assert added([(100, bytes.fromhex(digits), [0, 0, 0]) for digits in none]) == [refused(11)] * len(none)


def test_every_byte_of_damage():
    met = {short(answer) for _, answer in hurt_indexes()}
    assert met == {"ok", 11}, met


def test_a_damaged_index_that_reads_is_written_as_the_same_bytes():
    sound = [(data, numbers_of(answer)) for data, answer in hurt_indexes() if short(answer) == "ok"]
    assert len(sound) > 1000
    again = wrote([(100, numbers) for _, numbers in sound])
    assert again == [b"ok " + hexed(data) for data, _ in sound]
    undamaged = [numbers for numbers, _ in INDEXES]
    assert not [numbers for _, numbers in sound if numbers in undamaged]


def test_damage_is_told_whatever_is_asked():
    hurt = hurt_indexes()
    looked = found([(data, number) for data, _ in hurt for number in (2, MOST)])
    for at, answer in enumerate(looked):
        assert (answer == refused(11)) == (hurt[at // 2][1] == refused(11)), hurt[at // 2]
    assert {short(answer) for answer in looked} == {"ok", 11, 12}
    more = added([(100, data, [MOST, MOST - 7, 7]) for data, _ in hurt])
    for (data, before), answer in zip(hurt, more, strict=True):
        assert (answer == refused(11)) == (before == refused(11)), data
    assert {short(answer) for answer in more} == {"ok", 5, 11}


def test_every_beginning_of_an_index():
    for numbers, digits in INDEXES:
        data = bytes.fromhex(digits)
        ends = {0: [], len(data) // 2: numbers[:3], len(data): numbers} if len(numbers) == 6 else {0: [], len(data): numbers}
        expected = [done(ends[at]) if at in ends else refused(11) for at in range(len(data) + 1)]
        assert read([(100, data[:at]) for at in range(len(data) + 1)]) == expected


def test_every_room():
    for numbers, digits in INDEXES + (([], ""),):
        data = bytes.fromhex(digits)
        rooms = range(len(data) + 2)
        assert wrote([(room, numbers) for room in rooms]) == [
            b"ok " + hexed(data) if room >= len(data) else refused(8) for room in rooms]
        rooms = range(len(numbers) + 2)
        assert read([(room, data) for room in rooms]) == [done(numbers) if room >= len(numbers) else refused(8) for room in rooms]


def test_every_room_of_an_index_that_is_added_to():
    for (numbers, digits), entry, more in ((INDEXES[0], [310, 450, 82], "ac02ac0252"), (INDEXES[1], [429, 517, 7], "010007"),
                                           (([], ""), [MOST, MOST - 82, 82], INDEXES[2][1])):
        data, after = bytes.fromhex(digits), bytes.fromhex(digits + more)
        rooms = range(len(after) + 2)
        ours = added([(room, data, entry) for room in rooms])
        assert ours == [refused(11) if room < len(data) else refused(8) if room < len(after) else b"ok " + hexed(after) for room in rooms]
        assert read([(100, after)]) == [done(numbers + entry)]
        wrong = added([(room, data, [numbers[-3] if numbers else 0, 1000, 7]) for room in rooms])
        assert wrong == [refused(11) if room < len(data) else refused(5) for room in rooms]


def test_every_number_about_those_stored():
    for numbers, digits in INDEXES + (([], ""),):
        places = {number: (offset, length) for number, offset, length in entries_of(numbers)}
        near = {number + step for number in places for step in (-1, 0, 1, 256, MOST + 1)}
        asked = sorted(set(range(450)) | near | set(FAR))
        assert found([(bytes.fromhex(digits), number) for number in asked]) == [
            done(places[number]) if number in places else refused(12) for number in asked]


def test_a_long_index():
    entries = [[k, 9 * (k - 1), 7 + k % 3] for k in range(1, 3001)]
    numbers = sum(entries, [])
    written, short_of_room = wrote([(9000, numbers), (8999, numbers)])
    data = bytes.fromhex(written.split()[1].decode())
    assert len(data) == 9000 and short_of_room == refused(8)
    assert read([(9000, data), (8999, data), (9000, data + b"\0")]) == [done(numbers), refused(8), refused(11)]
    assert found([(data, number) for number in (1, 1500, 3000, 3001)]) == [b"ok 0 8", b"ok 13491 7", b"ok 26991 7", refused(12)]
    assert added([(9003, data, [3001, 26998, 8]), (9002, data, [3001, 26998, 8])]) == [
        b"ok " + hexed(data) + b"010008", refused(8)]


def test_rows_of_indexes_that_are_none():
    none = [b"index-write", b"index-write ", b"index-write x", b"index-write 9 -", b"index-write 9  1 0 7", b"index-write 9 1 0 7 ",
            b"index-write 9 -1 0 7", b"index-write 9 1 0 18446744073709551616", b"index-write 9 1 0 7\r", b"index write 9 1 0 7"]
    none += [b"index-read", b"index-read 9", b"index-read 9 ", b"index-read - 010007", b"index-read 9 01000", b"index-read 9 0100g7",
             b"index-read 9 010007 ", b"index-read 9  010007", b"index-read 9 010007 3"]
    none += [b"index-add 9 010007 2 7", b"index-add 9 010007 2 7 7 7", b"index-add 9 010007 2 7 x", b"index-add 9 0 2 7 7"]
    none += [b"index-find 010007", b"index-find 010007 ", b"index-find 010007 x", b"index-find 010007 1 1", b"index-find 01000 1"]
    sound = b"index-find 010007 1"
    *ours, last = answers(none + [sound])
    for bad, answer in zip(none, ours, strict=True):
        assert answer == b"no row", bad
    assert last == b"ok 0 7"
