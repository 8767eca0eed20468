"""The modes of the second program: what each answers to the bytes of standard input."""

import lines
from index import Entry, add_entry, find_exhibit, read_index, write_index
from receiver import mask_counts, settings_from, step
from refusal import Refusal
from sentences import KINDS, read_sentence, write_sentence
from sky import MOST_ENTRIES, NUMBERS, read_group, write_group


def joined(*parts):
    """Gives the parts as one row, blank separated; lists are laid out, bytes are taken as letters."""
    flat = []
    for part in parts:
        if isinstance(part, (list, tuple)):
            flat += [str(value) for value in part]
        else:
            flat.append(part.decode("ascii") if isinstance(part, bytes) else str(part))
    return " ".join(flat)


def numbers_of_length(words, length):
    """Gives the words as whole numbers; a row of another length is no row of its mode and ends the program."""
    if len(words) != length:
        raise SystemExit("a row has %d numbers instead of %d" % (len(words), length))
    return [int(word) for word in words]


def bytes_of(word):
    """Gives the bytes that a word says in hex, `-` for none."""
    return b"" if word == "-" else bytes.fromhex(word)


def word_of(data):
    """Gives the word that says some bytes in hex, `-` for none."""
    return data.hex() or "-"


def found_lines(data, with_records):
    """Gives one row per line that the finder gives out: number, address, and ok (and the record) or the refusal."""
    for number, line in enumerate(lines.find_all(data), 1):
        try:
            address, record = read_sentence(line)
            yield joined(number, address, "ok", record if with_records else [])
        except Refusal as refusal:
            address = line[1:6] if refusal.number > 3 else "-"
            yield joined(number, address, "refused", refusal.number, refusal.field)


def answer_line(row):
    """Answers a row of mode `lines`."""
    address, record = read_sentence(bytes.fromhex(row))
    return joined("ok", address, record)


def answer_field(row):
    """Answers a row of mode `field`, field number and hex: start and length of the field in the line."""
    number, _, text = row.partition(" ")
    start, end = lines.field(bytes.fromhex(text), int(number))
    return joined("ok", start, end - start)


def answer_write(row):
    """Answers a row of mode `write`."""
    word, room, *words = row.split()
    address = word.encode("ascii")
    values = numbers_of_length(words, KINDS[lines.kind_of(address)].values)
    return joined("ok", write_sentence(address, values, int(room)).hex())


def answer_group(row):
    """Answers a row of mode `groups`."""
    talker, entries = read_group(bytes.fromhex(row))
    return joined("ok", talker, len(entries), *entries)


def answer_write_group(row):
    """Answers a row of mode `write-groups`."""
    talker, room, count, *words = row.split()
    values = numbers_of_length(words, MOST_ENTRIES * NUMBERS)
    places = [values[at:at + NUMBERS] for at in range(0, len(values), NUMBERS)]
    return joined("ok", write_group(talker.encode("ascii"), int(count), places, int(room)).hex())


def answer_command(row):
    """Answers a row of mode `commands`."""
    port, room, *words, text = row.split()
    reply, after = step(settings_from(numbers_of_length(words, 11)), int(port), bytes_of(text), int(room))
    return joined("ok", reply.hex(), after.numbers())


def answer_counts(row):
    """Answers a row of mode `counts`."""
    return joined("ok", mask_counts(settings_from(numbers_of_length(row.split(), 11))))


def answer_index_write(row):
    """Answers a row of mode `index-write`, room in bytes and three numbers an entry: the index."""
    room, *words = row.split()
    return joined("ok", word_of(write_index([int(word) for word in words], int(room))))


def answer_index_read(row):
    """Answers a row of mode `index-read`, room in numbers and the index: three numbers an entry."""
    room, text = row.split()
    return joined("ok", read_index(bytes_of(text), int(room)))


def answer_index_add(row):
    """Answers a row of mode `index-add`, room in bytes, the index and an entry's three numbers: the whole new index."""
    room, text, *words = row.split()
    return joined("ok", word_of(add_entry(bytes_of(text), Entry(*numbers_of_length(words, 3)), int(room))))


def answer_index_find(row):
    """Answers a row of mode `index-find`, the index and an exhibit's number: offset and length of its line."""
    text, number = row.split()
    return joined("ok", find_exhibit(bytes_of(text), int(number)))


ROW_MODES = {
    "lines": answer_line,
    "field": answer_field,
    "write": answer_write,
    "groups": answer_group,
    "write-groups": answer_write_group,
    "commands": answer_command,
    "counts": answer_counts,
    "index-write": answer_index_write,
    "index-read": answer_index_read,
    "index-add": answer_index_add,
    "index-find": answer_index_find,
}


def answer(mode, row):
    """Gives the answer to one row of a row mode, a refusal with number, line and field included."""
    try:
        return ROW_MODES[mode](row)
    except Refusal as refusal:
        return joined("refused", refusal.number, refusal.line, refusal.field)


def answers(mode, data):
    """Gives all rows that a mode writes for these bytes of standard input."""
    if mode == "listing":
        return ["no address answer"] + list(found_lines(data, False))
    if mode == "records":
        return list(found_lines(data, True))
    rows = data.decode("ascii").split("\n")
    if rows[-1] == "":
        rows.pop()
    return [answer(mode, row) for row in rows]
