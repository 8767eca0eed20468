"""Rows of the index modes for tests: entries in order and just out of it, bytes sound and damaged, rooms about what is needed."""

from index import BEFORE_ALL, MOST, Entry, entries_in, entry_bytes, number_bytes, write_index
from lines import LONGEST, SHORTEST
from refusal import Refusal

WIDEST = 2 ** 64 - 1
# The numbers at which one more group begins, and those just before.
STEPS = [2 ** bits + less for bits in (7, 14, 21, 28) for less in (-1, 0)]
# Numbers that are in range only for who loses their upper bits.
WIDE = [2 ** 32, 2 ** 32 + 1, 2 ** 32 + 7, 2 ** 35, 2 ** 63, WIDEST - 81, WIDEST - 6, WIDEST]


def gap(rng, low, most):
    """Gives a gap of at least `low` and at most `most`: small as a rule, often where groups begin, at times all that is left."""
    small = [low, low, rng.randint(low, 9), rng.randint(low, 300)]
    far = [rng.choice(STEPS), rng.choice(STEPS), rng.randint(low, MOST)]
    last = [most, most - rng.randint(0, 200)]
    return max(low, min(most, rng.choice(rng.choice([small] * 15 + [far] * 4 + [last]))))


def behind(rng, before):
    """Gives an entry that follows another, or None where nothing can."""
    length = rng.choice([SHORTEST, LONGEST, rng.randint(SHORTEST, LONGEST), rng.randint(SHORTEST, LONGEST)])
    if before.number == MOST or before.end() + length > MOST:
        return None
    number = before.number + gap(rng, 1, MOST - before.number)
    return Entry(number, before.end() + gap(rng, 0, MOST - before.end() - length), length)


def sound(rng):
    """Gives entries in order, none at times."""
    entries = [BEFORE_ALL]
    for _ in range(rng.choice([0, 1, 1, 2, 2, 3, rng.randint(2, 12)])):
        entry = behind(rng, entries[-1])
        if entry is None:
            break
        entries.append(entry)
    return entries[1:]


def bytes_of(entries):
    """Gives the index of entries in order."""
    return write_index([number for entry in entries for number in entry], WIDEST)


def last_of(entries):
    """Gives the last entry, or what the first counts from."""
    return entries[-1] if entries else BEFORE_ALL


def outside(rng, entry, before):
    """Gives an entry with one of its numbers just outside, or far, of what may stand behind another."""
    number, offset, length = entry
    late = MOST + 1 - length
    return rng.choice([
        Entry(before.number, offset, length), Entry(max(0, before.number - 1), offset, length), Entry(0, offset, length),
        Entry(MOST + 1, offset, length), Entry(number + MOST + 1, offset, length), Entry(rng.choice(WIDE), offset, length),
        Entry(number, max(0, before.end() - 1), length), Entry(number, before.offset, length),
        Entry(number, late, length), Entry(number, late, length), Entry(number, offset + MOST + 1, length),
        Entry(number, rng.choice(WIDE), length), Entry(number, WIDEST + 1 - length, length),
        Entry(number, offset, SHORTEST - 1), Entry(number, offset, LONGEST + 1), Entry(number, offset, 0),
        Entry(number, offset, length + 256), Entry(number, offset, length + MOST + 1), Entry(number, offset, rng.choice(WIDE))])


def disorder(rng, entries):
    """Gives the numbers of entries, of which one is out of range or two have changed places; or numbers that are not threes."""
    entries = list(entries)
    at, other = rng.randrange(len(entries)), rng.randrange(len(entries))
    way = rng.random()
    if way < 0.7:
        entries[at] = outside(rng, entries[at], last_of(entries[:at]))
    elif way < 0.85:
        entries[at], entries[other] = entries[other], entries[at]
    numbers = [number for entry in entries for number in entry]
    if way >= 0.85:
        more = [rng.randint(0, LONGEST) for _ in range(rng.randint(1, 2))]
        numbers = rng.choice([numbers[:-1], numbers[:-2], numbers[1:], numbers + more])
    return numbers


def room_about(rng, needed, least=0):
    """Gives a room about what is needed: enough most of the time, else one less or something between the least and that."""
    short = [needed - 1, needed - 1, rng.randint(least, needed), rng.randint(0, needed), least]
    return max(0, rng.choice(short) if rng.random() < 0.35 else needed + rng.choice([0, 0, 0, 1, 2, 1000]))


def write_row(rng):
    """Gives a row of mode `index-write`."""
    entries = sound(rng)
    room = room_about(rng, len(bytes_of(entries)))
    if entries and rng.random() < 0.4:
        numbers = disorder(rng, entries)
    else:
        numbers = [number for entry in entries for number in entry]
    return " ".join(str(number) for number in [room] + numbers)


def one_byte(rng, data):
    """Gives the bytes with one of them changed, dropped or added."""
    at = rng.randrange(len(data))
    byte = rng.choice([rng.randrange(256), data[at] ^ 1 << rng.randrange(8), rng.choice([0, 1, 6, 7, 82, 83, 127, 128, 255])])
    put = bytes([byte])
    end = rng.randint(0, len(data))
    return rng.choice([data[:at] + put + data[at + 1:], data[:at] + data[at + 1:], data[:end] + put + data[end:]])


def stored(entries):
    """Gives the stored numbers of entries, each in its groups: two gaps and a length an entry."""
    befores = [BEFORE_ALL] + entries[:-1]
    gaps = [(one.number - before.number, one.offset - before.end(), one.length) for one, before in zip(entries, befores)]
    return [number_bytes(number) for three in gaps for number in three]


def misstored(rng, entries):
    """Gives the bytes of entries with one stored number that may not stand there, or not so."""
    groups = stored(entries)
    at = rng.randrange(len(groups))
    before = last_of(entries[:at // 3])
    needless = groups[at][:-1] + bytes([groups[at][-1] | 128]) + b"\x80" * rng.choice([0, 0, 1, 2, 8]) + b"\0"
    length = entries[at // 3].length
    past = [MOST + 1 - before.number, MOST + 1 - before.end() - length, LONGEST + 1][at % 3]
    low = [0, 0, SHORTEST - 1][at % 3]
    value = rng.choice([past, past, past - 1, low, low, MOST, MOST + 1, 2 ** 35 - 1, 2 ** 35, rng.choice(WIDE), rng.choice(WIDE)])
    groups[at] = rng.choice([needless, number_bytes(value), number_bytes(value)])
    return b"".join(groups)


def cut_short(rng, data):
    """Gives the first bytes alone."""
    return data[:rng.randrange(len(data))]


def hurt(rng, entries):
    """Gives bytes that are no index, or another one: the entries' bytes damaged, cut, one number misstored; or any bytes."""
    data = bytes_of(entries)
    if not data or rng.random() < 0.05:
        return rng.choice([b"\0", b"\x80", b"\x80" * 40, b"\xff" * 40, bytes(rng.randrange(256) for _ in range(rng.randint(1, 12)))])
    way = rng.random()
    if way < 0.4:
        return one_byte(rng, data)
    if way < 0.55:
        return cut_short(rng, data)
    return misstored(rng, entries)


def some_index(rng, damaged):
    """Gives bytes and the entries that they have, or had before they were damaged; damaged in so many cases of one."""
    entries = sound(rng)
    if rng.random() >= damaged:
        return bytes_of(entries), entries
    data = hurt(rng, entries)
    try:
        return data, entries_in(data)
    except Refusal:
        return data, entries


def read_row(rng):
    """Gives a row of mode `index-read`."""
    data, entries = some_index(rng, 0.55)
    return "%d %s" % (room_about(rng, 3 * len(entries)), data.hex() or "-")


def add_row(rng):
    """Gives a row of mode `index-add`."""
    data, entries = some_index(rng, 0.25)
    before = last_of(entries)
    fitting = behind(rng, before)
    entry = fitting or Entry(before.number + 1, before.end(), LONGEST)
    needed = len(data) + (len(entry_bytes(fitting, before)) if fitting else 11)
    if rng.random() < 0.25:
        entry = outside(rng, entry, before)
    room = room_about(rng, needed, len(data))
    return "%d %s %d %d %d" % (room, data.hex() or "-", *entry)


def find_row(rng):
    """Gives a row of mode `index-find`."""
    data, entries = some_index(rng, 0.4)
    number = rng.choice(entries).number if entries else 1
    beside = [number - 1, number + 1, 0, last_of(entries).number + 1, MOST, rng.randint(0, MOST), number + MOST + 1, rng.choice(WIDE)]
    return "%s %d" % (data.hex() or "-", number if rng.random() < 0.5 else rng.choice(beside))
