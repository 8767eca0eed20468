"""The index beside a log: exhibits with the offset and length of their lines, stored as gaps in groups of seven bits.

All refusals here have line 0 and field 0.
"""

from typing import NamedTuple

from lines import LONGEST, SHORTEST
from refusal import Refusal

MOST = 4294967295
MOST_GROUPS = 5
MORE = 0x80
NUMBERS = 3


class Entry(NamedTuple):
    """One exhibit: its number, the offset of its line in the log and the line's length."""
    number: int
    offset: int
    length: int

    def end(self):
        """Gives the offset just behind the line."""
        return self.offset + self.length

    def follows(self, before):
        """Says whether this entry is in range and may stand right behind another."""
        return (before.number < self.number <= MOST
                and before.end() <= self.offset
                and SHORTEST <= self.length <= LONGEST
                and self.end() <= MOST)


# What the first entry counts its gaps from.
BEFORE_ALL = Entry(0, 0, 0)


def refusal(number):
    """Gives the refusal of that number as an index has it."""
    return Refusal(number, 0, 0)


def number_bytes(value):
    """Gives a number in as few groups of seven bits as can be, the low one first, all but the last marked."""
    groups = bytearray()
    while value >= MORE:
        groups.append(MORE + value % MORE)
        value //= MORE
    groups.append(value)
    return bytes(groups)


def number_at(data, at):
    """Gives the number that begins at this place and the place behind it; refuses with 11 what is none in shortest form."""
    value = 0
    for group, byte in enumerate(data[at:at + MOST_GROUPS]):
        value += (byte % MORE) << (7 * group)
        if byte < MORE:
            needless = group > 0 and byte == 0
            if needless or value > MOST:
                break
            return value, at + group + 1
    raise refusal(11)


def entry_bytes(entry, before):
    """Gives the bytes of an entry that follows another."""
    gaps = (entry.number - before.number, entry.offset - before.end(), entry.length)
    return b"".join(number_bytes(gap) for gap in gaps)


def entries_in(data):
    """Gives the entries of an index; refuses with 11 bytes that are none."""
    entries = [BEFORE_ALL]
    at = 0
    while at < len(data):
        before = entries[-1]
        gap, at = number_at(data, at)
        space, at = number_at(data, at)
        length, at = number_at(data, at)
        entry = Entry(before.number + gap, before.end() + space, length)
        if not entry.follows(before):
            raise refusal(11)
        entries.append(entry)
    return entries[1:]


def write_index(numbers, room):
    """Gives the index of entries said by three numbers each; refuses with 5, then with 8 where the room is short."""
    if len(numbers) % NUMBERS:
        raise refusal(5)
    result = b""
    before = BEFORE_ALL
    for at in range(0, len(numbers), NUMBERS):
        entry = Entry(*numbers[at:at + NUMBERS])
        if not entry.follows(before):
            raise refusal(5)
        result += entry_bytes(entry, before)
        before = entry
    if len(result) > room:
        raise refusal(8)
    return result


def read_index(data, room):
    """Gives the numbers of an index, three an entry; refuses with 11, then with 8 where there is room for fewer."""
    entries = entries_in(data)
    if NUMBERS * len(entries) > room:
        raise refusal(8)
    return [number for entry in entries for number in entry]


def add_entry(data, entry, room):
    """Gives the index with one more entry at its end, in a room that holds it already; refuses with 11, 5, then 8.

    A room that is too small for the index as it is does not hold it: 11.
    """
    if len(data) > room:
        raise refusal(11)
    before = ([BEFORE_ALL] + entries_in(data))[-1]
    if not entry.follows(before):
        raise refusal(5)
    result = data + entry_bytes(entry, before)
    if len(result) > room:
        raise refusal(8)
    return result


def find_exhibit(data, number):
    """Gives offset and length of the line of an exhibit; refuses with 11, then with 12 where no entry has the number."""
    for entry in entries_in(data):
        if entry.number == number:
            return entry.offset, entry.length
    raise refusal(12)
