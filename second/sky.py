"""The satellite group: several GSV lines that belong together, read to a table and written from one."""

import lines
from refusal import Refusal
from sentences import KINDS, read_sentence, write_forms, write_sentence

PER_LINE = 4
MOST_ENTRIES = 36
NUMBERS = 7
BLANK = [0] * NUMBERS
ENTRY = KINDS[b"GSV"].entry


def lines_needed(satellites):
    """Gives the number of lines that so many satellites take, at least one."""
    return max(1, -(-satellites // PER_LINE))


def entries_of(record):
    """Gives the used entries of a GSV record, each a list of seven numbers."""
    used = record[4:4 + record[3] * NUMBERS]
    return [used[at:at + NUMBERS] for at in range(0, len(used), NUMBERS)]


def fits(k, address, record, first):
    """Says whether line k of a group keeps the group rule; `first` is address and record of line 1."""
    if address[2:] != b"GSV":
        return False
    total, number, satellites, count = record[:4]
    return (total == lines_needed(satellites)
            and k <= total
            and number == k
            and address == first[0]
            and [total, satellites] == [first[1][0], first[1][2]]
            and count == min(PER_LINE, satellites - PER_LINE * (k - 1)))


def read_group(data):
    """Gives talker and entries of a group; refuses with 1 to 7 at the first line that does not do."""
    seen = set()
    entries = []
    first = None
    cut = lines.cut(data)
    for k, line in enumerate(cut, 1):
        try:
            sentence = read_sentence(line)
        except Refusal as refusal:
            raise refusal.at_line(k) from None
        first = first or sentence
        if not fits(k, *sentence, first):
            raise Refusal(6, k)
        for entry in entries_of(sentence[1]):
            if entry[0] in seen:
                raise Refusal(7, k)
            seen.add(entry[0])
            entries.append(entry)
    if len(cut) < first[1][0]:
        raise Refusal(6, len(cut) + 1)
    return first[0][:2], entries


def check_table(count, places):
    """Refuses a table that cannot be written: with 5 over 36 entries, entry by entry 5 and 7, then 5 an unblank rest."""
    if not 0 <= count <= MOST_ENTRIES:
        raise Refusal(5, 0, 0)
    seen = set()
    for i, entry in enumerate(places[:count]):
        line = i // PER_LINE + 1
        try:
            write_forms(ENTRY, entry, first=4 + 4 * (i % PER_LINE))
        except Refusal as refusal:
            raise refusal.at_line(line) from None
        if entry[0] in seen:
            raise Refusal(7, line)
        seen.add(entry[0])
    if any(entry != BLANK for entry in places[count:]):
        raise Refusal(5, 0, 0)


def write_group(talker, count, places, room):
    """Gives the bytes of a table of 36 places; refuses with 5 and 7, then with 8 at line 0 where the room is short."""
    check_table(count, places)
    total = lines_needed(count)
    result = b""
    for k in range(1, total + 1):
        used = places[PER_LINE * (k - 1):min(PER_LINE * k, count)]
        record = [total, k, count, len(used)]
        for entry in used + [BLANK] * (PER_LINE - len(used)):
            record += entry
        result += write_sentence(talker + b"GSV", record, lines.LONGEST)
    if len(result) > room:
        raise Refusal(8, 0, 0)
    return result
