"""Rows of numbers and bytes for tests of the writers, the groups and the commands."""

import lines
from make_damage import mended, one_byte, some_line
from make_text import entry, line_of, real_date, sentence
from refusal import Refusal
from sentences import write_sentence
from sky import write_group

ARC = 600000
WHOLE = 999999999
# Numbers that are no marks.
NO_MARKS = [2, -1, 255, 4294967297]

# One number each: the lowest and the highest, missing or not. Position, date and letters are told apart by name.
COLUMNS = {
    "GGA": [("may", 0, 8639999), "position", ("is", 0, 8), ("may", 0, 99), ("may", 0, WHOLE), ("may", -WHOLE, WHOLE),
            ("may", -WHOLE, WHOLE), ("may", 0, WHOLE), ("may", 0, 1023)],
    "GLL": ["position", ("may", 0, 8639999), "AV", "ADEMSN"],
    "GSA": ["MA", ("is", 1, 3)] + [("may", 1, 99)] * 12 + [("may", 0, WHOLE)] * 3,
    "GSV": [("is", 1, 9), ("is", 1, 9), ("is", 0, 99), "entries"],
    "RMC": [("may", 0, 8639999), "AV", "position", ("may", 0, WHOLE), ("may", 0, 359999), "date", ("may", -179999, 179999),
            "ADEMSN"],
    "VTG": [("may", 0, 359999), ("may", 0, 359999), ("may", 0, WHOLE), ("may", 0, WHOLE), "ADEMSN"],
    "ZDA": [("may", 0, 8639999), "date", ("may", -839, 839)],
    "PIRPR": [("may", 0, 1), ("may", 1200, 115200), ("may", 0, 4), ("may", 0, 0x0F7F)],
    "PIRTR": [("may", 0, 4), ("may", -839, 839)],
    "PIRSR": [("may", 0, 0xFFFFFFFF), ("may", 0, 0xFFFFFF)],
    "PIRER": [],
    "PIRPA": [("is", 0, 1), ("is", 1200, 115200), ("is", 0, 4), ("is", 0, 0x0F7F)],
    "PIRTA": [("is", 0, 4), ("is", -839, 839)],
    "PIRSA": [("is", 0, 0xFFFFFFFF), ("is", 0, 0xFFFFFF)],
    "PIREA": [("is", 0, 255)],
}
SETTINGS = [(1200, 115200), (0, 4), (0, 0x0F7F)] * 2 + [(0, 4), (-839, 839), (0, 0xFFFFFFFF), (0, 0xFFFFFF), (0, 255)]
ENTRY = [("is", 1, 99), ("may", 0, 90), ("may", 0, 359), ("may", 0, 99)]


def value_in(rng, low, high):
    """Gives a value in range, often at an end, small or round."""
    value = rng.choice([low, high, rng.randint(low, high), rng.randint(low, high), rng.randint(low, high),
                        rng.randint(low, high) // 1000 * 1000, rng.randint(low, high) % 100000])
    value = min(high, max(low, value))
    return value & 0x0F7F if high == 0x0F7F else value


def value_out(rng, low, high):
    """Gives a value just outside the range, or a port mask with one of its reserved bits."""
    if high == 0x0F7F:
        return rng.choice([0x80, 0x1000, 0x2000, 0x4000, 0x8000, 0x0F80, -1, 0x10000, 0xFFFF])
    return rng.choice([low - 1, high + 1])


def column(rng, what, bad):
    """Gives the numbers of one column, wrong in some way (or at least odd) where that is asked for."""
    if what == "position":
        return position(rng, bad)
    if what == "date":
        return date(rng, bad)
    if what == "entries":
        return sky_entries(rng, bad)
    if isinstance(what, str):
        good = ord(rng.choice(what))
        return [rng.choice([0, 255, good ^ 32, good + 1, good - 1, 68, 78]) if bad else good]
    way, low, high = what
    value = (value_out if bad else value_in)(rng, low, high)
    if way == "is":
        return [value]
    if bad and rng.random() < 0.25:
        return [rng.choice(NO_MARKS), rng.choice([0, value_in(rng, low, high)])]
    missing = rng.random() < 0.25
    return [0, rng.choice([1, -1, value]) if bad else 0] if missing else [1, value]


def position(rng, bad):
    """Gives mark, latitude and longitude."""
    lat, lon = value_in(rng, -90 * ARC, 90 * ARC), value_in(rng, -180 * ARC, 180 * ARC)
    if not bad:
        return [0, 0, 0] if rng.random() < 0.2 else [1, lat, lon]
    return rng.choice([[0, 1, 0], [0, 0, -1], [0, lat, lon], [rng.choice(NO_MARKS), lat, lon], [rng.choice(NO_MARKS), 0, 0],
                       [1, 90 * ARC + 1, lon], [1, -90 * ARC - 1, lon], [1, lat, 180 * ARC + 1], [1, lat, -180 * ARC - 1], [1, 90 * ARC + 1, 180 * ARC + 1]])


def date(rng, bad):
    """Gives mark, day, month and year."""
    day, month, year = real_date(rng)
    if not bad:
        return [0, 0, 0, 0] if rng.random() < 0.2 else [1, day, month, year]
    return rng.choice([[0, 1, 0, 0], [0, 0, 1, 0], [0, 0, 0, 2000], [0, day, month, year], [rng.choice(NO_MARKS), day, month, year],
                       [rng.choice(NO_MARKS), 0, 0, 0], [1, 0, month, year],
                       [1, 32, month, year], [1, day, 0, year], [1, day, 13, year], [1, day, month, 1979],
                       [1, day, month, 2080], [1, 29, 2, 2023], [1, 30, 2, 2024], [1, 31, rng.choice([4, 6, 9, 11]), year],
                       [1, 29, 2, year], [1, 0, 13, 1979], [1, 32, 0, 2000], [1, 30, 2, 2080], [1, 0, 0, 0]])


def one_entry(rng, bad=False):
    """Gives the seven numbers of a satellite, one of its columns wrong where that is asked for."""
    at = rng.randrange(4) if bad else -1
    return [number for n, what in enumerate(ENTRY) for number in column(rng, what, n == at)]


def sky_entries(rng, bad):
    """Gives the count and the four places of a GSV record."""
    count = rng.randrange(5)
    places = [one_entry(rng) if at < count else [0] * 7 for at in range(4)]
    if bad:
        way = rng.randrange(4)
        at = rng.randrange(4)
        if way == 0:
            count = rng.choice([5, 6, 9, 255])
        elif way == 1:
            places[at][rng.randrange(7)] = 1
        elif way == 2 and count:
            places[rng.randrange(count)] = one_entry(rng, True)
        else:
            places[at] = one_entry(rng, rng.random() < 0.5)
    return [count] + sum(places, [])


def long_gsa(rng):
    """Gives a GSA record whose line has about 82 bytes: all satellites, and numbers of six digits and two or three."""
    numbers = [ord(rng.choice("MA")), rng.randint(1, 3)]
    for _ in range(12):
        numbers += [1, rng.randint(1, 99)]
    for _ in range(3):
        value = rng.randint(100000000, WHOLE)
        numbers += [1, rng.choice([value, value // 10 * 10])]
    return numbers


def record(rng, kind, wrong):
    """Gives the numbers of a record, with so many of its columns wrong."""
    if kind == "GSA" and not wrong and rng.random() < 0.3:
        return long_gsa(rng)
    columns = COLUMNS[kind]
    bad = rng.sample(range(len(columns)), min(wrong, len(columns)))
    numbers = [number for at, what in enumerate(columns) for number in column(rng, what, at in bad)]
    if kind in ("PIRPR", "PIRTR") and not wrong:
        settle_question(rng, numbers, 2 if kind == "PIRPR" else 0)
    return numbers


def settle_question(rng, numbers, at):
    """Makes the fields after a question's deciding one agree with it, most of the time."""
    if rng.random() < 0.1:
        return
    for place in range(at + 2, len(numbers), 2):
        if not numbers[at]:
            numbers[place:place + 2] = [0, 0]
        numbers[place] = numbers[at]


def room_about(rng, write):
    """Gives a room about the length that would be written, or any small one where nothing is."""
    try:
        length = len(write())
    except Refusal:
        length = 82
    return max(0, rng.choice([length, length, length, length - 1, length + 1, 82, 1000, 0, rng.randint(0, length)]))


def write_row(rng):
    """Gives a row of mode `write`."""
    kind = rng.choice(list(COLUMNS))
    address = sentence(rng, kind)[0]
    numbers = record(rng, kind, rng.choice([0, 0, 1, 1, 2]))
    room = room_about(rng, lambda: write_sentence(address.encode("ascii"), numbers, 1000))
    return " ".join([address, str(room)] + [str(number) for number in numbers])


def write_group_row(rng):
    """Gives a row of mode `write-groups`."""
    count = rng.choice([0, 1, 4, 5, 36, 35, rng.randint(0, 36), rng.randint(0, 36), rng.randint(0, 36)])
    numbers = rng.sample(range(1, 100), 36)
    places = [[numbers[at]] + one_entry(rng)[1:] if at < count else [0] * 7 for at in range(36)]
    for _ in range(rng.choice([0, 0, 1, 1, 2])):
        at, other = rng.randrange(36), rng.randrange(36)
        way = rng.randrange(4)
        if way == 0:
            places[at][0] = places[other][0]
        elif way == 1:
            places[at] = one_entry(rng, True)
        elif way == 2:
            places[at][rng.randrange(7)] = 1
        elif count:
            places[rng.randrange(count)] = one_entry(rng, True)
    talker = rng.choice(lines.TALKERS)
    room = room_about(rng, lambda: write_group(talker, count, places, 1000))
    count = rng.choice([37, 38, 99, 255]) if rng.random() < 0.04 else count
    return " ".join([talker.decode("ascii"), str(room), str(count)] + [str(number) for number in sum(places, [])])


def group_parts(rng, count):
    """Gives the lines of a sound group, each as address and texts."""
    address = rng.choice(lines.TALKERS).decode("ascii") + "GSV"
    numbers = rng.sample(range(1, 100), count)
    total = max(1, (count + 3) // 4)
    parts = []
    for k in range(total):
        texts = [str(total), str(k + 1), "%02d" % count]
        for number in numbers[4 * k:4 * k + 4]:
            texts += entry(rng, number)
        parts.append([address, texts])
    return parts


def hurt_parts(rng, parts):
    """Breaks the group rule in one way, in place; the lines stay lines."""
    way = rng.randrange(10)
    at = rng.randrange(len(parts))
    texts = parts[at][1]
    if way == 0:
        parts.insert(rng.randint(0, len(parts)), [parts[at][0], list(texts)])
    elif way == 1:
        del parts[at]
    elif way == 2:
        parts.reverse()
    elif way == 3:
        texts[rng.randrange(2)] = str(rng.randint(1, 9))
    elif way == 4:
        texts[2] = "%02d" % rng.randrange(100)
    elif way == 5:
        parts[at][0] = rng.choice(lines.TALKERS).decode("ascii") + "GSV"
    elif way == 6:
        texts += entry(rng)
    elif way == 7:
        del texts[max(3, len(texts) - 4):]
    elif way == 8:
        parts.append([parts[0][0], [parts[0][1][0], str(len(parts) + 1), parts[0][1][2]]])
    else:
        source = rng.choice(parts)[1]
        if len(source) > 3 and len(texts) > 3:
            texts[3 + 4 * rng.randrange((len(texts) - 3) // 4)] = source[3 + 4 * rng.randrange((len(source) - 3) // 4)]


def group_row(rng):
    """Gives a row of mode `groups`: sound, its rule broken, its bytes hurt, or other lines among its own."""
    parts = group_parts(rng, rng.choice([0, 1, 4, 5, 8, 9, 36, rng.randint(0, 36), rng.randint(0, 36)]))
    way = rng.random()
    if way > 0.45:
        for _ in range(rng.choice([1, 1, 2])):
            if parts:
                hurt_parts(rng, parts)
    data = [line_of(*part) for part in parts]
    if 0.2 < way < 0.3 and data:
        data.insert(rng.randint(0, len(data)), rng.choice([some_line(rng), mended(rng, "GSV"), mended(rng, "GSV")]))
    joined = b"".join(data)
    if 0.3 < way < 0.4 and joined:
        joined = one_byte(rng, joined)
    if 0.4 < way < 0.45 and joined:
        joined = rng.choice([joined[:-1], joined[:-2], joined[:rng.randrange(len(joined))], joined + b"\n",
                             joined + b"$", b"", joined * 2])
    return joined.hex()


def settings(rng, wrong):
    """Gives eleven settings, one of them wrong where that is asked for."""
    numbers = [value_in(rng, *span) for span in SETTINGS]
    for at in (1, 4):
        numbers[at] = 4 if rng.random() < 0.8 else numbers[at]
    if wrong:
        at = rng.randrange(11)
        numbers[at] = value_out(rng, *SETTINGS[at])
    return [str(number) for number in numbers]


def command_row(rng):
    """Gives a row of mode `commands`."""
    kind = rng.choice(["PIRPR", "PIRTR", "PIRSR", "PIRER"])
    line = rng.choice([line_of(*sentence(rng, kind)[:2]), line_of(*sentence(rng, kind)[:2]), mended(rng, kind),
                       some_line(rng), b""])
    if rng.random() < 0.1 and line:
        line = one_byte(rng, line)
    port = rng.choice([0, 1] * 15 + [2, 3, 255])
    room = rng.choice([82, 28, 1000, 27, 0, 12, rng.randint(10, 30), rng.randint(10, 30)])
    return " ".join([str(port), str(room)] + settings(rng, rng.random() < 0.1) + [line.hex() or "-"])


def counts_row(rng):
    """Gives a row of mode `counts`."""
    return " ".join(settings(rng, rng.random() < 0.3))


def line_row(rng):
    """Gives a row of mode `lines`."""
    return rng.choice([b"", some_line(rng) + some_line(rng)]).hex() if rng.random() < 0.01 else some_line(rng).hex()


def field_row(rng):
    """Gives a row of mode `field`."""
    return "%d %s" % (rng.choice([0, 1, 2, 3, rng.randint(1, 20)]), some_line(rng).hex())
